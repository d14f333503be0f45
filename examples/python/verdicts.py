#!/usr/bin/env python3
"""The verdicts of all stores below a folder, in the order of their paths: verdicts.py FOLDER

Threads are enough: while the library checks, Python's lock is free.
"""

import os
import sys
from concurrent.futures import ThreadPoolExecutor

import pst


def paths_below(folder):
    """The paths of the files that end in .pst, in the order of their bytes."""
    found = []
    for above, _, names in os.walk(folder, onerror=print):
        found += [os.path.join(above, name) for name in names if name.endswith(".pst")]
    return sorted((path for path in found if os.path.isfile(path) and not os.path.islink(path)), key=os.fsencode)


def verdict(path):
    """The status, and the line of the answer."""
    try:
        with pst.open(path, decode=True) as store:
            return 0, store.answer("check", "-").decode().rstrip("\n")
    except pst.Refused as no:
        return 1, str(no)
    except pst.Unread as error:
        return 3, str(error)
    except MemoryError:
        return 4, ""
    except OSError as error:
        print(f"{path}: {error.strerror}", file=sys.stderr)
        return 3, ""


def main():
    if len(sys.argv) != 2:
        print(f"usage: {sys.argv[0]} FOLDER", file=sys.stderr)
        return 2
    paths = paths_below(sys.argv[1])
    with ThreadPoolExecutor(os.cpu_count()) as pool:
        for path, (status, line) in zip(paths, pool.map(verdict, paths)):
            print(path, status, line, sep="\t")
    return 0


if __name__ == "__main__":
    sys.exit(main())
