#!/usr/bin/env python3
"""A table of all messages of a store, as CSV: messages.py FILE"""

import sys

import pst


def quoted(text):
    return '"' + text.replace('"', '""') + '"'


def row_of(message, names):
    folders = "; ".join(names.get(nid) or nid for nid in message.folders)
    return ",".join(
        [
            quoted(message.nid),
            "" if message.sent is None else quoted(message.sent),
            "" if message.sender is None else quoted(message.sender),
            quoted(message.title),
            "" if message.size is None else str(message.size),
            quoted(folders),
        ]
    )


def main():
    if len(sys.argv) != 2:
        print(f"usage: {sys.argv[0]} FILE", file=sys.stderr)
        return 2
    try:
        with pst.open(sys.argv[1], decode=True) as store:
            names = {folder.nid: folder.name for folder in store.folders()}
            for message in store.messages():
                sys.stdout.buffer.write(f"{row_of(message, names)}\n".encode())
    except (pst.Error, OSError) as error:
        print(error, file=sys.stderr)
        return 1 if isinstance(error, pst.Refused) else 3
    return 0


if __name__ == "__main__":
    sys.exit(main())
