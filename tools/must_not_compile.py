#!/usr/bin/env python3
"""Tries what must not compile: each edit crates/NAME/must-not-compile/*.edit, on a copy of the repository.

An edit has the lines 'file: PATH' (in its crate), 'code: CODE' and pairs of 'old: TEXT' (which stands once in the
file) and 'new: TEXT'. The borrow check has to refuse it with that code and with no other error. These can't be
must-fail edits of the gate: it counts an edit as refused only where the prover refuses it, which comes later.

All edits are tried on one copy, of what rt reads and of the libraries that are built; those are links and no copies
where the disk is the same. Where a library is not built the borrow check goes by its sources, so none is built for this.
"""
import glob
import os
import re
import shutil
import signal
import subprocess
import sys
import tempfile

READ = ("src", "specs", "proofs", "data")
ERROR = re.compile(r"error\[([^\]]*)\]")
# What rt prints once the borrow check found nothing.
PASSED = re.compile(r"only=|checked \S+, \d+ of \d+$|fn \S+: ")


def read_edit(path):
    """The file, the code, and the pairs of old and new text."""
    file = code = old = None
    pairs = []
    with open(path, encoding="utf-8") as lines:
        for line in lines:
            word, _, rest = line.strip().partition(": ")
            if word == "file":
                file = rest
            elif word == "code":
                code = rest
            elif word == "old":
                old = rest
            elif word == "new":
                pairs.append((old, rest))
    return file, code, pairs


def link(one, other):
    """Gives a file a second name, or copies it. rt removes such a file before it makes it anew, and changes none."""
    try:
        os.link(one, other)
    except OSError:
        shutil.copy2(one, other)


def copy_into(root, room):
    """Copies what rt reads, and links the libraries that are built."""
    for name in ("crates.txt", "HANDLES"):
        shutil.copy2(os.path.join(root, name), room)
    for crate in sorted(os.listdir(f"{root}/crates")):
        for part in READ:
            if os.path.isdir(f"{root}/crates/{crate}/{part}"):
                shutil.copytree(f"{root}/crates/{crate}/{part}", f"{room}/crates/{crate}/{part}")
        library = f"{root}/crates/{crate}/out/rlib"
        if os.path.isdir(library):
            shutil.copytree(library, f"{room}/crates/{crate}/out/rlib", symlinks=True, copy_function=link)


def changed(text, pairs):
    """The text with each old text replaced; or None, and why it can't be."""
    for old, new in pairs:
        if text.count(old) != 1:
            return None, f"the old text stands {text.count(old)} times"
        text = text.replace(old, new)
    return text, ""


def errors_of(folder):
    """The codes of the errors that a check of a crate ends with, None where it ends well. Once the borrow check has passed
    an edit there is nothing to wait for, and the check is ended."""
    how = {"cwd": folder, "stdout": subprocess.PIPE, "stderr": subprocess.STDOUT, "text": True, "errors": "replace"}
    with subprocess.Popen(["rt", "check"], start_new_session=True, **how) as rt:
        found = []
        for line in rt.stdout:
            found += ERROR.findall(line)
            if PASSED.match(line):
                os.killpg(rt.pid, signal.SIGKILL)
                return None
    return found if rt.returncode else None


def is_refused(room, edit):
    """Whether the check of the edited copy ends with the edit's own error alone; and what it ended with."""
    folder = os.path.join(room, "crates", os.path.basename(os.path.dirname(os.path.dirname(edit))))
    file, code, pairs = read_edit(edit)
    path = os.path.join(folder, file)
    with open(path, encoding="utf-8") as source:
        before = source.read()
    text, why = changed(before, pairs)
    if text is None:
        return False, [why]
    try:
        with open(path, "w", encoding="utf-8") as source:
            source.write(text)
        errors = errors_of(folder)
    finally:
        with open(path, "w", encoding="utf-8") as source:
            source.write(before)
    return errors == [code], ["no error"] if errors is None else errors


def main():
    root = os.path.dirname(os.path.dirname(os.path.abspath(__file__)))
    edits = sorted(glob.glob(f"{root}/crates/*/must-not-compile/*.edit"))
    failed = 0
    with tempfile.TemporaryDirectory() as room:
        copy_into(root, room)
        for edit in edits:
            good, errors = is_refused(room, edit)
            failed += not good
            print(f"{os.path.relpath(edit, root)}: {'refused' if good else 'NOT REFUSED AS IT SAYS'}: {', '.join(errors)}", flush=True)
    print(f"must not compile: {len(edits) - failed} refused, {failed} not")
    return 1 if failed or not edits else 0


if __name__ == "__main__":
    sys.exit(main())
