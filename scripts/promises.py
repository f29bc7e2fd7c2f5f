#!/usr/bin/env python3
"""Says whether docs/PROMISES.md names what there is: by hand, from the top of the repository.

Of each row of a table with the columns "Promise", "Call", "Clauses" and "Planted faults": each call is a public function of its crate,
each clause stands in the contract of one of them or is a law of the record that the clauses name, and each planted fault is an edit in a
must-fail folder, of the crate that is named in front of it, if one is. An edit that no row names is told too.
"""
import pathlib
import re
import sys

PAGE = pathlib.Path("docs/PROMISES.md")
HEAD = ["Promise", "Call", "Clauses", "Planted faults"]
WHOLE = {"the one": 1, "all": None}


def rows():
    """The cells of each row of the tables with the right head."""
    inside = False
    for line in PAGE.read_text(encoding="utf-8").split("\n"):
        cells = [cell.strip() for cell in line.strip("|").split("|")] if line.startswith("|") else []
        if cells == HEAD:
            inside = True
        elif not cells:
            inside = False
        elif inside and cells[0] != "---":
            yield cells


def contract(path):
    """The text from a public function's name to the next function's, wherever its crate, or the module that is named, has one."""
    crate, *owner, name = path.split("::")
    files = "*.rt"
    if owner and owner[0].islower():
        files = f"{owner.pop()}.rt"
    for file in sorted(pathlib.Path("crates", crate, "src").rglob(files)):
        text = file.read_text(encoding="utf-8")
        at = 0
        if owner:
            found = re.search(rf"^(?:pub trait {owner[0]}\b|impl(?:<[^>]*>)? (?:\w+ for )?{owner[0]}\b)", text, re.M)
            if not found:
                continue
            at = found.start()
        found = re.compile(rf"\bfn {name}\b.*?(?=\bfn \w|\Z)", re.S).search(text, at)
        if found:
            return found.group(0)
    return None


def laws(crate, record):
    """The fields of a record in a crate's specs."""
    for file in sorted(pathlib.Path("crates", crate, "specs").glob("*.antt")):
        found = re.search(rf"^pub record {record}\b.*?(?=\n\n|\Z)", file.read_text(encoding="utf-8"), re.M | re.S)
        if found:
            return re.findall(r"^  pub (\w+) :", found.group(0), re.M)
    return []


def faults_of(cell):
    """The planted faults of a cell, each with the crate that is named in front of it."""
    for part in cell.split(";"):
        crate = re.match(r"\s*`(\w+)`:", part)
        names = part[crate.end():] if crate else part
        for name in re.findall(r"`(\w+)`", names):
            yield crate and crate.group(1), name


def main():
    edits = {(file.parts[1], file.stem) for file in pathlib.Path("crates").glob("*/must-fail/*.edit")}
    wrong, named = [], set()
    for promise, calls, clauses, faults in rows():
        paths = re.findall(r"`([\w:]+)`", calls)
        texts = {path: contract(path) for path in paths}
        wrong += [f"{path} is no call" for path, text in texts.items() if text is None]
        joined = "\n".join(text or "" for text in texts.values())
        known = set(re.findall(r"ensures (\w+) \{", joined))
        names = re.findall(r"`(\w+)`", clauses)
        for record in [name for name in names if name[0].isupper() and re.search(rf"\b{name}\b", joined)]:
            known |= {record, *laws(paths[0].split("::")[0], record)}
        wrong += [f"{', '.join(paths)} has no clause {name}" for name in names if name not in known]
        if not names and clauses not in WHOLE:
            wrong.append(f"{promise}: no clauses")
        for crate, name in faults_of(faults):
            here = {edit for edit in edits if edit[1] == name and crate in (None, edit[0])}
            wrong += [] if here else [f"there is no planted fault {name}"]
            named |= here
    wrong += [f"no row names the planted fault {name} of {crate}" for crate, name in sorted(edits - named)]
    if wrong:
        sys.exit("\n".join(wrong))
    print("each call, clause and planted fault is there")


main()
