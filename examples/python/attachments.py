#!/usr/bin/env python3
"""Writes all attachments of a message into a folder, each under its identifier and its name: attachments.py FILE MESSAGE FOLDER

The bytes are written from the mapped file, where they lie. What embeds a message is only listed.
"""

import os
import sys

import pst


def file_name(name):
    """A name with no character that a file name may not have."""
    return "".join("_" if c < " " or c in "/\\" else c for c in name or "unnamed")


def write_attachment(attachment, folder):
    name = file_name(attachment.name)
    if attachment.data is None:
        print(attachment.nid, name, "none")
        return
    with open(os.path.join(folder, f"{attachment.nid}-{name}"), "wb") as out:
        for view in attachment.data.views:
            out.write(view)
    print(attachment.nid, name, attachment.data.size)


def main():
    if len(sys.argv) != 4:
        print(f"usage: {sys.argv[0]} FILE MESSAGE FOLDER", file=sys.stderr)
        return 2
    path, message, folder = sys.argv[1:]
    try:
        with pst.open(path, decode=True) as store:
            for attachment in store.props(message).attachments:
                write_attachment(attachment, folder)
    except (pst.Error, OSError) as error:
        print(error, file=sys.stderr)
        return 1 if isinstance(error, (pst.Fault, pst.Missing)) else 3
    return 0


if __name__ == "__main__":
    sys.exit(main())
