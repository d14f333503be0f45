#!/usr/bin/env python3
"""All subjects of a store, in Python: through pst, which checks the whole store, and through pypff (libpff), which checks nothing.

    speed.py [MESSAGES [RUNS]]

Makes a store of 20,000 messages in one folder by bench/make_store, reads it by turns with each, in a process of its own, and prints the
least time and the most memory of each. Needs Debian's python3-pypff, and the library of PST_LIBRARY or built/.
"""

import os
import resource
import subprocess
import sys
import tempfile
import time

ROOT = os.path.dirname(os.path.dirname(os.path.dirname(os.path.abspath(__file__))))


def by_pst(path):
    import pst

    with pst.open(path) as store:
        return [message.title for message in store.messages()]


def messages_below(folder):
    for message in folder.sub_messages:
        yield message
    for below in folder.sub_folders:
        yield from messages_below(below)


def by_pypff(path):
    import pypff

    file = pypff.file()
    file.open(path)
    subjects = [message.subject for message in messages_below(file.get_root_folder())]
    file.close()
    return subjects


READERS = {"pst": by_pst, "pypff": by_pypff}


def one(name, path):
    """Reads a store once: the seconds, the MiB of the process at most, how many subjects, and a number that tells them."""
    start = time.monotonic()
    subjects = READERS[name](path)
    seconds = time.monotonic() - start
    most = resource.getrusage(resource.RUSAGE_SELF).ru_maxrss // 1024
    told = hash(tuple(sorted(it or "" for it in subjects)))
    print(seconds, most, len(subjects), told)


def main():
    if sys.argv[1:2] == ["--one"]:
        one(*sys.argv[2:])
        return
    count, runs = [*sys.argv[1:], *["20000", "3"][len(sys.argv) - 1 :]]
    environment = dict(os.environ, PYTHONPATH=f"{ROOT}/bindings/python", PYTHONHASHSEED="0")
    environment.setdefault("PST_LIBRARY", f"{ROOT}/built/libpst.so.0")
    found = {name: [] for name in READERS}
    with tempfile.TemporaryDirectory() as folder:
        store = os.path.join(folder, "mail.pst")
        subprocess.run([f"{ROOT}/bench/make_store", "mail", store, count, "500", "0"], check=True)
        print(f"{count} messages, {os.path.getsize(store)} bytes")
        for _ in range(int(runs)):
            for name in READERS:
                words = [sys.executable, __file__, "--one", name, store]
                found[name].append(subprocess.run(words, env=environment, stdout=subprocess.PIPE, text=True, check=True).stdout.split())
    for name, rows in found.items():
        seconds = " ".join(f"{float(row[0]):.2f}" for row in rows)
        print(f"{name}: {min(float(row[0]) for row in rows):.2f} s ({seconds}), {max(int(row[1]) for row in rows)} MiB, {rows[0][2]} subjects")
    same = len({tuple(row[2:]) for rows in found.values() for row in rows}) == 1
    print("both read the same subjects" if same else "they read different subjects")


if __name__ == "__main__":
    main()
