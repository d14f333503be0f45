#!/usr/bin/env python3
"""Compares the tables of docs/KINDS.md, and the table of docs/FORMATS.md, with the table of which `explain` is made.

That table (crates/pst_explain/src/table.rt) has a row for each kind: its number and name, and what it says of the file. KINDS.md
has to say the same of each of the 27 kinds that a file may have, word for word but for the marks of code; FORMATS.md has to
have the same numbers and names. --program is taken as by the other tools, and not used. The status is 0 where all are alike.
"""
import argparse
import os
import re
import sys

ROOT = os.path.dirname(os.path.dirname(os.path.abspath(__file__)))
ROW = re.compile(r'\[Kind::(\w+)(?:\(_\))?\] "(\d+)" "(\w+)"\s+"([^"]*)",')


def read(name):
    with open(os.path.join(ROOT, name), encoding="utf-8") as file:
        return file.read()


def kinds():
    """Of each kind its number, its name, and what it says."""
    return [(int(number), name, says) for _, number, name, says in ROW.findall(read("crates/pst_explain/src/table.rt"))]


def page():
    """The same by the tables of docs/KINDS.md."""
    rows = re.findall(r"^\| (\d+) (\w+)(?:\(n\))? \| (.*) \|$", read("docs/KINDS.md"), re.M)
    return [(int(number), name, says.replace("`", "")) for number, name, says in rows]


def formats():
    """The numbers and names of the table of faults."""
    table = read("docs/FORMATS.md").split("## Faults")[1]
    rows = re.findall(r"^\| ([\d, ]+) \| ([^|]+) \|", table, re.M)
    return [(int(number), name.replace("(n)", "")) for numbers, names in rows
            for number, name in zip(numbers.split(", "), names.split(", "))]


def main():
    parser = argparse.ArgumentParser(description="Compares the tables of kinds with that of which `explain` is made.")
    parser.add_argument("--program", help="taken as by the other tools, and not used")
    parser.parse_args()
    wanted = kinds()
    wrong = [f"docs/KINDS.md: {row}" for row in sorted(set(page()) ^ set(wanted[:27]))]
    wrong += [f"docs/FORMATS.md: {row}" for row in sorted(set(formats()) ^ {row[:2] for row in wanted})]
    for line in wrong:
        print(line)
    print(f"kinds: {len(wanted)} in the table, {len(wrong)} differences")
    return 1 if wrong or [number for number, _, _ in wanted] != list(range(1, 29)) else 0


if __name__ == "__main__":
    sys.exit(main())
