#!/usr/bin/env python3
"""Gives the attachments of an exported store the names that the store gives them: names.py EXPORTED FOLDER

EXPORTED is a folder that `pst_show export FILE | tar x` made; in it each attachment is a file `data` below its identifiers. This makes
FOLDER/PATH/NAME of each, PATH being those identifiers, as messages/0x400004/0x8025, so that no two are one file, and NAME what its
props.json says (3707, and where that is not there, 3704). It is the same file by another link, or a copy where that cannot be. A line
is printed for each: its path, how many bytes it has, and its name as JSON.

A name that leads elsewhere, or can be no file's (one with a slash, a backslash, a colon or a character that is none, one of dots alone, an empty
or a very long one), is refused: the file is called `data`, a line on standard error says so, and the status is 1. No file is overwritten.
"""

import json
import os
import shutil
import sys

# How many bytes of a name file systems take.
LONGEST = 255
# What separates folders somewhere, or names a drive or a stream.
SEPARATORS = "/\\:"


def own_name(place):
    """The name that the store gives the attachment in this folder; None where it has none."""
    with open(os.path.join(place, "props.json"), encoding="utf-8") as file:
        props = {it["id"]: it for it in json.load(file)["props"] if it["type"] == "001F"}
    return next((props[id]["value"] for id in ("3707", "3704") if id in props), None)


def is_safe(name):
    """Whether a name is that of a file in the folder where it is made, and of no other."""
    return (
        bool(name.strip(". "))
        and len(name.encode()) <= LONGEST
        and not any(c < " " or c == "\x7f" or c in SEPARATORS for c in name)
    )


def place_file(source, target):
    """Makes the same file under another name, which must not be there yet."""
    os.makedirs(os.path.dirname(target), exist_ok=True)
    try:
        os.link(source, target)
    except FileExistsError:
        raise
    except OSError:
        with open(source, "rb") as file, open(target, "xb") as out:
            shutil.copyfileobj(file, out)


def attachments(exported):
    """The folder of each attachment that is bytes, from the exported one on."""
    for top in ("messages", "associated"):
        for place, folders, files in os.walk(os.path.join(exported, top)):
            folders.sort()
            if "data" in files:
                yield os.path.relpath(place, exported)


def main():
    if len(sys.argv) != 3:
        print(f"usage: {sys.argv[0]} EXPORTED FOLDER", file=sys.stderr)
        return 2
    exported, folder = sys.argv[1:]
    status = 0
    try:
        for path in attachments(exported):
            source = os.path.join(exported, path, "data")
            name = own_name(os.path.join(exported, path))
            is_refused = name is not None and not is_safe(name)
            if is_refused:
                print(f"{path}: refused as a name: {json.dumps(name)}", file=sys.stderr)
                status = 1
            target = "data" if name is None or is_refused else name
            place_file(source, os.path.join(folder, path, target))
            print(path, os.path.getsize(source), json.dumps(target, ensure_ascii=False))
    except OSError as error:
        print(f"{error.filename2 or error.filename}: {error.strerror}", file=sys.stderr)
        return 3
    return status


if __name__ == "__main__":
    sys.exit(main())
