#!/usr/bin/env python3
"""Writes the version wherever it stands, and into the first line of both manual pages the day as well.

    tools/write_version.py VERSION    as 1.0.4

It changes the sources of pst_ask, so the program is proved and kept anew behind it. CHANGELOG.md is written by hand. Where the version
stands is told by PLACES alone, by which tools/check_pages.py compares it with that of the kept program.
"""
import datetime
import os
import re
import sys

ROOT = os.path.dirname(os.path.dirname(os.path.abspath(__file__)))
# Each file with the text about the version, which stands once in it.
PLACES = [
    ("crates/pst_ask/src/words.rt", 'const VERSION: &str = "{}";'),
    ("crates/pst_ask_tests/src/asked/help.rt", '"pst_show {}\\n"'),
    ("crates/pst_run_tests/src/runs/words.rt", '"pst_show {}\\n"'),
    ("include/pst.h", '#define PST_VERSION "{}"'),
    ("bindings/python/pyproject.toml", '\nversion = "{}"\n'),
    ("bindings/python/pst/__init__.py", '__version__ = "{}"'),
    ("bindings/python/tests/test_pst.py", 'b"pst_show {}\\n"'),
    ("bindings/rust/Cargo.toml", '\nversion = "{}"\n'),
    ("examples/rust/Cargo.toml", '\nversion = "{}"\n'),
    ("man/pst_show.1", '"pst_show {}"'),
    ("man/pst_report.1", '"pst_show {}"'),
    ("docs/INSTALL.md", "pst-show_{}_amd64"),
    ("docs/EVIDENCE.md", "`, pst_show {} ("),
]
VERSION = r"(\d+\.\d+\.\d+)"
DAY = re.compile(r"^(\.TH \w+ \d) [\d-]+ ")


def version_in(name, about):
    """The version that a file names; None where the text about it does not stand there once."""
    with open(os.path.join(ROOT, name), encoding="utf-8") as file:
        found = re.findall(VERSION.join(map(re.escape, about.split("{}"))), file.read())
    return found[0] if len(found) == 1 else None


def write(name, about, version):
    path = os.path.join(ROOT, name)
    with open(path, encoding="utf-8") as file:
        text = file.read()
    text = text.replace(about.format(version_in(name, about)), about.format(version))
    with open(path, "w", encoding="utf-8") as file:
        file.write(DAY.sub(rf"\1 {datetime.date.today()} ", text))


def main(words):
    if len(words) != 1 or not re.fullmatch(VERSION, words[0]):
        sys.exit(__doc__)
    lacking = [name for name, about in PLACES if version_in(name, about) is None]
    if lacking:
        sys.exit(f"the version does not stand once in {', '.join(lacking)}: nothing is written")
    for name, about in PLACES:
        write(name, about, words[0])
    print(f"{words[0]} is written into {len(PLACES)} files")


if __name__ == "__main__":
    main(sys.argv[1:])
