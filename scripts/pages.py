#!/usr/bin/env python3
"""Runs the commands that README.md, docs/GUIDE.md and examples/c/README.md show, and says whether they write what stands below them.

By hand, from the top of the repository, by the proved program; GEMCORE names another one, as bin/try-gemcore. A block of commands is run where
it has bin/try-gemcore or a script in it, line by line in a folder with copies of the files, and compared with the block of text that comes next.
Of each line the console is taken first, then the report. Commands with `make` are passed over where there is no compiler for them; what they
show is of clang 14.0.6, and differs by another compiler.
"""
import os
import pathlib
import re
import shutil
import subprocess
import sys
import tempfile

TOP = pathlib.Path(__file__).resolve().parent.parent
PAGES = ["README.md", "docs/GUIDE.md", "examples/c/README.md"]
FENCE = re.compile(r"^```(\w+)\n(.*?)^```$", re.M | re.S)
FIRST = re.compile(r"^gemcore: nothing is proved .*\n", re.M)
GEMCORE = os.environ.get("GEMCORE", "bin/gemcore")
# a program that doesn't say that nothing is proved has a line in its place, so that files with a report have as many lines
ANNOUNCED = "" if GEMCORE.endswith("try-gemcore") else "echo 'gemcore: nothing is proved of the page' >&2; "
PROGRAM = f"gemcore() {{ {ANNOUNCED}'{TOP / GEMCORE}' \"$@\"; }}; "
MAKES = shutil.which("riscv64-unknown-elf-gcc") or (shutil.which("clang") and shutil.which("ld.lld"))


def written(commands, folder):
    """What the lines of a block write, each with the status of the one before it."""
    text, status = "", 0
    for line in commands.splitlines():
        line = f"{PROGRAM}(exit {status}); {line.replace('bin/try-gemcore', 'gemcore')}"
        ran = subprocess.run(["sh", "-c", line], cwd=folder, capture_output=True, text=True)
        text, status = text + ran.stdout + ran.stderr, ran.returncode
    return FIRST.sub("", text)


def main():
    wrong = 0
    for page in PAGES:
        with tempfile.TemporaryDirectory() as folder:
            for part in ("examples", "scripts"):
                shutil.copytree(TOP / part, f"{folder}/{part}")
            blocks = FENCE.findall((TOP / page).read_text(encoding="utf-8"))
            for (kind, commands), (next_kind, wanted) in zip(blocks, [*blocks[1:], ("", "")]):
                if kind != "sh" or not re.search(r"bin/try-gemcore|scripts/", commands) or ("make" in commands and not MAKES):
                    continue
                got = written(commands, folder)
                is_right = next_kind != "text" or got == FIRST.sub("", wanted)
                wrong += not is_right
                print(f"{page}: {'as shown' if is_right else 'differs'}: {commands.splitlines()[-1]}", flush=True)
                if not is_right:
                    print(got)
    return 1 if wrong else 0


if __name__ == "__main__":
    sys.exit(main())
