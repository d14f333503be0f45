#!/usr/bin/env python3
"""Compares what the pages say of the repository with the repository.

Each file, page and section that a page names is there; the version is one wherever it stands, that of the kept program; the
numbers of FACTS are those of the sources; README.md has at most 2,000 words. Examples are run by tools/check_examples.py, tables
of kinds compared by tools/compare_kinds.py; what was measured names its day in the page. --program is taken as by the other tools,
and not used. The status is 0 where all is so.
"""
import argparse
import glob
import os
import re
import sys

sys.dont_write_bytecode = True

from write_version import PLACES, version_in  # noqa: E402

ROOT = os.path.dirname(os.path.dirname(os.path.abspath(__file__)))
WORDS = 2000
PATH = re.compile(r"(?<![\w/.~-])((?:README|CHANGELOG|CONTRIBUTING|NOTICE|LICENSE-[A-Z]+)(?:\.md)?|(?:docs|crates|tools|bench|samples|examples|bindings|"
                  r"include|man|completions|built|report)/[\w./-]*\w)")
SECTION = re.compile(r'(docs/\w+\.md|README\.md)(?:, | \()"([^"]+)"')
MADE = re.compile(r"/out\b|/NAME|crates/[A-Z]+|docs/schema/\*|samples/none\.pst|bench/out")
# A number in a page, and where it comes from: the page, its text with the number in brackets, the file, the same there.
FACTS = [
    ("README.md", r"more than ([\d,]+) bytes \(16 GiB\)", "crates/pst_run/src/input.rt", r"MOST_BYTES: usize = ([\d_]+);"),
    ("docs/INSTALL.md", r"more than ([\d,]+) bytes \(16 GiB\)", "crates/pst_run/src/input.rt", r"MOST_BYTES: usize = ([\d_]+);"),
    ("docs/ANSWERS.md", r"more than ([\d,]+) bytes has, while it is read", "crates/pst_run/src/progress.rt", r"LONG: usize = ([\d_]+);"),
    ("README.md", r"glibc ([\d.]+) or newer", "built/pst_show.txt", r"glibc ([\d.]+) or newer"),
    ("docs/INSTALL.md", r"glibc ([\d.]+) or newer", "built/pst_show.txt", r"glibc ([\d.]+) or newer"),
    ("docs/INSTALL.md", r"`rt version`: (rattle-kit-\S+ logic \w+)", "built/pst_show.txt", r"^kit: (.*)$"),
    ("docs/LIBRARY.md", r"Python ([\d.]+) or newer", "bindings/python/pyproject.toml", r'requires-python = ">=([\d.]+)"'),
    ("docs/LIBRARY.md", r"Rust ([\d.]+) or newer", "bindings/rust/Cargo.toml", r'rust-version = "([\d.]+)"'),
]


def read(name):
    with open(os.path.join(ROOT, name), encoding="utf-8") as file:
        return file.read()


def pages():
    return ["README.md", "CONTRIBUTING.md", "CHANGELOG.md",
            *sorted(os.path.relpath(path, ROOT) for path in glob.glob(f"{ROOT}/docs/*.md"))]


def found(name, pattern):
    """What a pattern finds in a file, without the marks of numbers; None where it finds nothing."""
    match = re.search(pattern, read(name), re.M)
    return match[1].replace(",", "").replace("_", "") if match else None


def paths():
    """Each page with a path that is not there, and each with a section that the other page does not have."""
    for page in pages():
        text = read(page)
        prose = re.sub(r"^```.*?^```", "", text, flags=re.M | re.S)
        for path in sorted(set(PATH.findall(prose))):
            if not MADE.search(path) and not glob.glob(os.path.join(ROOT, path) + "*"):
                yield f"{page} names {path}, which is not there"
        for other, section in sorted(set(SECTION.findall(prose))):
            if not re.search(rf"^#+ (.*\W)?{re.escape(section)}", read(other), re.M):
                yield f'{page} names {other}, "{section}", which it does not have'


def numbers():
    """Each number of a page that is another one where it comes from, and each version that is another one."""
    for page, said, source, told in FACTS:
        if found(page, said) is None or found(page, said) != found(source, told):
            yield f"{page} says {found(page, said)}, {source} {found(source, told)}: {said}"
    version = found("built/pst_show.txt", r"^version: pst_show ([\d.]+)")
    for name, about in [*PLACES, ("built/libpst.txt", "version: {}\n")]:
        if version_in(name, about) != version:
            yield f"{name} is of version {version_in(name, about)}, built/pst_show of {version}"
    if found("CHANGELOG.md", r"^## ([\d.]+)") != version:
        yield f"CHANGELOG.md begins with version {found('CHANGELOG.md', r'^## ([^ ,]+)')}, built/pst_show is of {version}"
    count = len(read("README.md").split())
    if count > WORDS:
        yield f"README.md has {count} words, and not {WORDS} at most"


def main():
    parser = argparse.ArgumentParser(description="Compares what the pages say of the repository with the repository.")
    parser.add_argument("--program", help="taken as by the other tools, and not used")
    parser.parse_args()
    wrong = [*paths(), *numbers()]
    for line in wrong:
        print(line)
    print(f"pages: {len(pages())} compared with the repository, {len(wrong)} differences")
    return 1 if wrong else 0


if __name__ == "__main__":
    sys.exit(main())
