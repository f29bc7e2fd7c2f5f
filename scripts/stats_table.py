#!/usr/bin/env python3
"""Joins the lines of `stats json` into one CSV table, a row for each.

    scripts/stats_table.py REPORT.. >table.csv

Each REPORT is a file that holds such lines, or standard input is read where none is named; other lines are passed over. The first column
says where a row stands, and the others are the counters' names in the order of their bytes. A counter that a run doesn't have is empty.
"""
import csv
import json
import sys


def rows(name, lines):
    """The counters of each line that is a JSON object, with where it stands."""
    for number, line in enumerate(lines, 1):
        if line.startswith("{"):
            yield {"run": f"{name}:{number}", **json.loads(line)}


def read(names):
    if not names:
        yield from rows("-", sys.stdin)
    for name in names:
        with open(name, encoding="utf-8") as file:
            yield from rows(name, file)


def main():
    found = list(read(sys.argv[1:]))
    columns = sorted({name for row in found for name in row if name != "run"})
    table = csv.DictWriter(sys.stdout, ["run", *columns], lineterminator="\n")
    table.writeheader()
    table.writerows(found)


if __name__ == "__main__":
    sys.exit(main())
