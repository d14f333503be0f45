#!/usr/bin/env python3
"""Looks whether each .rt and .antt file of crates/ has the kit's layout: in seconds, and without proof.

The gate refuses a crate that has not, but only once all crates below it are proved. `rt fmt` in a crate's folder lays its
files out. Where there is no kit, this says so, and is no failure.
"""
import glob
import os
import shutil
import subprocess
import sys

ROOT = os.path.dirname(os.path.dirname(os.path.abspath(__file__)))
PARTS = ("src", "specs", "proofs")


def files():
    """The files that a check reads, by their paths from the root of the repository."""
    found = []
    for part in PARTS:
        for end in ("rt", "antt"):
            found += glob.glob(f"crates/*/{part}/**/*.{end}", root_dir=ROOT, recursive=True)
    return sorted(found)


def main():
    if shutil.which("rt") is None:
        print("format: there is no kit here, so it was not looked at")
        return 0
    page = subprocess.run(["rt", "doc"], stdout=subprocess.PIPE, text=True, check=True).stdout.split("\n")[0]
    rattle = os.path.join(os.path.dirname(page), "bin", "rattle")
    looked_at = files()
    if subprocess.run([rattle, "fmt", "--check", *looked_at], cwd=ROOT, check=False).returncode != 0:
        print("format: run rt fmt in the folder of each crate named above", file=sys.stderr)
        return 1
    print(f"format: {len(looked_at)} files, each in the layout")
    return 0


if __name__ == "__main__":
    sys.exit(main())
