#!/usr/bin/env python3
"""Writes all attachments of a store, those of embedded messages too: attachments.py FILE FOLDER [PROGRAM]

Each is written to FOLDER/PATH, its path in the store, as 0x400004/0x8025, so no two have one name; and a file that is there already is
never overwritten. A line is printed for each: its path, how many bytes it has, and the name that the store gives it, as JSON.
What is neither bytes nor a message has none: -.

PROGRAM (pst_show, if it is not named) is run once for all messages, and once more for those that are embedded in these, and so on:
each run checks the store, and holds its text in memory, some three times the attachments. An encoded store is decoded. Where
the program says no, its line is on standard error, and its status is this script's.
"""

import json
import os
import subprocess
import sys

# As many bytes of paths as a command line surely holds.
MOST = 1_000_000


def lines(program, *words):
    """The documents of a run, line by line."""
    with subprocess.Popen([program, *words], stdout=subprocess.PIPE) as run:
        yield from map(json.loads, run.stdout)
    if run.returncode:
        sys.exit(run.returncode)


def runs(paths):
    """The paths, so many at a time as one command line holds."""
    while paths:
        count = max(1, MOST // max(map(len, paths)) // 2)
        yield paths[:count]
        paths = paths[count:]


def write(folder, path, attachment):
    props = {prop["id"]: prop for prop in attachment["props"]}
    name = next((props[it]["value"] for it in ("3707", "3704") if it in props), None)
    data, size = props.get("3701"), "-"
    if data is not None and data["type"] == "0102":
        data, size = bytes.fromhex(data["value"]), len(data["value"]) // 2
        place = os.path.join(folder, path)
        os.makedirs(os.path.dirname(place), exist_ok=True)
        with open(place, "xb") as out:
            out.write(data)
    print(path, size, json.dumps(name, ensure_ascii=False))


def main():
    if len(sys.argv) not in (3, 4):
        sys.exit(f"usage: {sys.argv[0]} FILE FOLDER [PROGRAM]")
    file, folder, program = (*sys.argv[1:], "pst_show")[:3]
    messages = lines(program, "messages", "--decode", file)
    paths = [it["nid"] for it in messages if it["attachments"]]
    while paths:
        embedded = []
        for some in runs(paths):
            for path, message in zip(some, lines(program, "props", "--decode", file, *some)):
                for attachment in message["attachments"]:
                    at = f"{path}/{attachment['nid']}"
                    if attachment["embedded"]:
                        embedded.append(f"{at}/{attachment['embedded']}")
                    else:
                        write(folder, at, attachment)
        paths = embedded


if __name__ == "__main__":
    try:
        main()
    except OSError as error:
        sys.exit(f"{error.filename}: {error.strerror}")
