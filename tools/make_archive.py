#!/usr/bin/env python3
"""Proves crates/pst_c over the libraries that `rt ci` left of all crates below it, and makes the archive of it.

    tools/make_archive.py

It is for the gate alone, right behind `rt ci`: that proves pst_c and makes no archive of it. Some kits leave the libraries
without a note of what they were made from, so that `rt lib` would prove every crate below once more, half an hour for
nothing. So the prover is called here as rt calls it, with the words that rt itself makes for the crate. It builds only what
it proves. What lies below a crate is worked out once, as tools/rt.py has it. What is made is crates/pst_c/out/libpst_c.a, with
the bytes that `rt lib` gives it. The status is 3 where a library is missing or has such a note, or where rt is another one than
this knows: `rt lib` is there for that.
"""
import importlib.util
import os
import subprocess
import sys

from rt import remembered

ROOT = os.path.dirname(os.path.dirname(os.path.abspath(__file__)))
CRATE = os.path.join(ROOT, "crates", "pst_c")
OTHERWISE = 3


def kit():
    """The folder of the kit, where its first page lies."""
    told = subprocess.run(["rt", "doc"], stdout=subprocess.PIPE, text=True, check=True)
    return os.path.dirname(told.stdout.strip())


def rt_of(folder):
    """What rt knows of crates, as a module."""
    sys.dont_write_bytecode = True
    spec = importlib.util.spec_from_file_location("rtlib", os.path.join(folder, "bin", "rtlib.py"))
    made = importlib.util.module_from_spec(spec)
    sys.modules["rtlib"] = made
    spec.loader.exec_module(made)
    return made


def words_of(rtlib, folder):
    """The words by which rt has pst_c built, or None where a library below it is missing or is not of `rt ci`."""
    os.chdir(CRATE)
    rtlib.Crate.below = remembered(rtlib.Crate.below)
    crate = rtlib.Crate(CRATE, ROOT, {})
    folders = {os.path.dirname(it.rlib) for it in crate.below() if os.path.isdir(it.rlib)}
    if len(folders) < len(crate.below()) or any(os.path.exists(f"{it}/stamp") for it in folders):
        return None
    words = crate.words(["--jobs", str(min(len(os.sched_getaffinity(0)), 4))], keeps=False)
    return [rtlib.RATTLE, "build", *words, "--toolchain", f"{folder}/toolchain", "--backend", "llvm", "-o", "out/libpst_c.a"]


def main():
    try:
        folder = kit()
        words = words_of(rt_of(folder), folder)
    except (OSError, AttributeError, TypeError, ValueError, subprocess.CalledProcessError) as error:
        print(f"tools/make_archive.py: this rt is another one: {error}", file=sys.stderr)
        return OTHERWISE
    if words is None:
        print("tools/make_archive.py: the libraries below pst_c are not all of rt ci", file=sys.stderr)
        return OTHERWISE
    os.makedirs("out", exist_ok=True)
    return subprocess.run(words, stdin=subprocess.DEVNULL, check=False).returncode


if __name__ == "__main__":
    sys.exit(main())
