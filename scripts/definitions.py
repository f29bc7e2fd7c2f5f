#!/usr/bin/env python3
"""Writes the two pages of definitions from the comments in specs/.

docs/ALL_DEFINITIONS.md has each definition with its module and its reading, which is the comment above it. docs/DEFINITIONS.md has the
main ones, which docs/definitions.list names by chapter, with a reading where the comments are not short enough.

Run by hand, at the top of the repository, after a change of specs/ or of the list. With --check it writes nothing, and fails where a
page is not what the files say. A name in the list that stands in no module of that name is refused either way.
"""
import pathlib
import re
import sys

ALL_PAGE = pathlib.Path("docs/ALL_DEFINITIONS.md")
ALL_HEAD = """# All definitions

Each definition of the crates' `specs/` folders with its reading, crate by crate and module by module, lowest first, and each module
with its source. A name without a reading belongs to the one above it. `scripts/definitions.py` writes this page from the
files; [DEFINITIONS.md](DEFINITIONS.md) is the shorter way in.
"""
PAGE = pathlib.Path("docs/DEFINITIONS.md")
HEAD = """# Definitions

What the contracts cite. Read from top to bottom this is the specification of the program as it stands. Each module names its
public source at its head; "own" is this project's own rule. [ALL_DEFINITIONS.md](ALL_DEFINITIONS.md) has every definition, also
those that only others cite. `scripts/definitions.py` writes this page from the list `docs/definitions.list` and the files.
"""
LIST = pathlib.Path("docs/definitions.list")
NAME = re.compile(r"^(?:abbrev |unfoldable |whole )?pub (?:record |data )?([^\s:({]+)|^(?:record|data) ([^\s:({]+)")
# The public sources by the words that the heads of modules name them with.
SOURCES = [
    (r"unprivileged manual|unprivileged and privileged manuals", "unprivileged manual"),
    (r"(?<!un)\bprivileged manual|privileged manuals", "privileged manual"),
    (r"assembly programmer's manual", "assembly programmer's manual"),
    (r"calling conventions", "calling conventions"),
    (r"ELF-64 object file format", "ELF-64 object file format"),
    (r"RFC 4648", "RFC 4648"),
    (r"Knuth's MMIX", "Knuth's MMIX"),
    (r"16550 in part", "16550 in part"),
    (r"`toml`'s own reading", "the kit's `toml`"),
    (r"project's own", "own"),
]


class Module:
    """What a file of specs/ says: the comment at its head, and each definition with the comment above it."""

    def __init__(self, path):
        lines = path.read_text(encoding="utf-8").split("\n")
        self.name = path.stem
        self.head = " ".join(head_of(lines))
        self.definitions = dict(paragraphs(lines))

    def source(self):
        """The public sources that its head names, or the project's own rule."""
        found = [shown for words, shown in SOURCES if re.search(words, self.head)]
        return "; ".join(found) or "own"


def head_of(lines):
    """The comment at the head of a file."""
    for line in lines:
        if not line.startswith("-- "):
            break
        yield line[3:].strip()


def paragraphs(lines):
    """The comment above each definition, and the definition's name."""
    comment = []
    for line in lines:
        if line.startswith("-- "):
            comment.append(line[3:].strip())
            continue
        found = NAME.match(line)
        if found and not line.startswith(("pub mod", "pub use")):
            yield (found.group(1) or found.group(2)), " ".join(comment)
        if line.strip() == "" or found:
            comment = []


def crates():
    """The crates, lowest first, each with its modules."""
    lines = pathlib.Path("crates.txt").read_text(encoding="utf-8").split("\n")
    names = [line.split(":")[0] for line in lines if ":" in line and line[0] != "#"]
    return {crate: [Module(path) for path in sorted(pathlib.Path("crates", crate, "specs").glob("*.antt"))] for crate in names}


# The page of all definitions.


def module_lines(module):
    rows = [f"- `{name}`: {reading}" if reading else f"- `{name}`" for name, reading in module.definitions.items()]
    return [f"### {module.name}", "", module.head, "", *rows, ""] if rows else []


def all_page(found):
    out = [ALL_HEAD]
    for crate, modules in found.items():
        lines = [line for module in modules for line in module_lines(module)]
        if lines:
            out += [f"## {crate}", "", *lines]
    return "\n".join(out).rstrip() + "\n"


# The page of the main ones.


class Row:
    """Some definitions of a module, and their reading, if the list has one."""

    def __init__(self, line, found):
        place, names = line.split(":")
        self.crate, module = place.split()
        self.names = [name for name in names.split() if name != "..."]
        self.more = "..." in names.split()
        self.module = next((m for m in found.get(self.crate, []) if m.name == module), None)
        self.reading = None
        for name in self.names:
            if self.module is None or name not in self.module.definitions:
                sys.exit(f"{LIST}: {self.crate} has no {name} in {module}")

    def cells(self, one_crate, one_source):
        names = ", ".join(f"`{name}`" for name in self.names) + (" and more" if self.more else "")
        module = f"`{self.module.name}`" if one_crate else f"`{self.crate}` `{self.module.name}`"
        reading = self.reading or "; ".join(dict.fromkeys(r for r in map(self.module.definitions.get, self.names) if r))
        if not reading:
            sys.exit(f"{LIST}: {', '.join(self.names)} of {self.module.name} has no reading")
        return [names, module, reading] + ([] if one_source else [self.module.source()])


def chapters(found):
    """The chapters of the list: title, text, rows."""
    out = []
    for line in LIST.read_text(encoding="utf-8").split("\n"):
        if line.startswith("= "):
            out.append((line[2:], [], []))
        elif line.startswith("> "):
            out[-1][1].append(line[2:])
        elif line.startswith("    "):
            out[-1][2][-1].reading = line.strip()
        elif line and not line.startswith("#"):
            out[-1][2].append(Row(line, found))
    return out


def table(rows):
    """The table of a chapter, and whether all of it is the project's own rule."""
    one_crate = len({row.crate for row in rows}) == 1
    one_source = {row.module.source() for row in rows} == {"own"}
    head = ["Definition", f"Module of `{rows[0].crate}`" if one_crate else "Module", "Reading"] + ([] if one_source else ["Source"])
    lines = [head, ["---"] * len(head)] + [row.cells(one_crate, one_source) for row in rows]
    return ["| " + " | ".join(cells) + " |" if cells[0] != "---" else "|" + "|".join(cells) + "|" for cells in lines], one_source


def page(found):
    out = [HEAD]
    for title, text, rows in chapters(found):
        lines, own = table(rows)
        text = text + ["The source is this project's own rule."] * own
        out += [f"## {title}", "", *([" ".join(text), ""] if text else []), *lines, ""]
    return "\n".join(out).rstrip() + "\n"


def main():
    found = crates()
    for path, text in [(ALL_PAGE, all_page(found)), (PAGE, page(found))]:
        if "--check" not in sys.argv[1:]:
            path.write_text(text, encoding="utf-8")
        elif path.read_text(encoding="utf-8") != text:
            sys.exit(f"{path} is not what the files say: run scripts/definitions.py")


main()
