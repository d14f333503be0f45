#!/usr/bin/env python3
"""Compares docs/GRAMMAR.md with the sources: the definitions that public clauses cite, and the numbers that definitions cite.

    tools/check_grammar.py [--write]

A public clause is a `requires` or an `ensures` of a `pub fn`, or a ghost member of an iterator. The definitions are those
that it brings in from the `specs/` of the repository's crates. The page names a definition where the row that has its word between
backticks stands below its crate and has its file: a word with two homes is to be named in a row of each. And each word of a row is
defined in a file of that row, or is a type of the crate's sources.

A number is a constant of `src/` that a file of `specs/` brings in. The page's table "Numbers" has each with its value and its
file, which are compared, and what [MS-PST] calls it. Crates of tests and of test images are left out. With --write the table's
values and files are written anew, and what [MS-PST] calls a number that is new is to be filled in by hand.

Prints what is missing or otherwise, and ends with 1 where anything is.
"""
import argparse
import glob
import hashlib
import os
import re
import sys

HOME = os.path.dirname(os.path.dirname(os.path.abspath(__file__)))
IMPORT = re.compile(r"ghost use Rattle\.(pst_\w+)\.specs\.((?:\w+\.)*\w+)\.\{([^}]*)\}")
NUMBERS = re.compile(r"use Rattle\.(?:\w+\.)*?(pst_\w+)\.specs\.(?:(pst_\w+)\.)*declared\.([\w.]+)\.TheConstants\.\{([^}]*)\}")
ROW = re.compile(r"^\| `(\w+)` \| (.*?) \| (.*?) \| (.*?) \| (\S+) \|$", re.M)
TABLE = re.compile(r"(?<=\n## Numbers\n)(.*?\n\|---\|.*?\n)(.*?)(?=\n\n|\Z)", re.S)
WORD = re.compile(r"[^\s(){}\[\].,;:×→↔λ≡∷+*<>≤=-]+")
SECTION = re.compile(r"^## (pst_\w+): .*?\n(.*?)(?=^## |\Z)", re.M | re.S)
HOMES = re.compile(r"^\| (.*?) \| .* \| specs/(\S.*?) \|$", re.M)
PASSED_ON = re.compile(r"^pub use Rattle\.(\w+)\.specs(?:\.([\w.]+))?(?: as (\w+))?$", re.M)
DEFINED = re.compile(r"^ *(?:(?:abbrev|unfoldable) )?(?:pub )?(?:record |data )?◌?([^\s:(◌]+)◌?(?: [({].*)? :", re.M)


def imported(text):
    """Each word that a file brings in from specs/, with its crate, its module and its name there."""
    words = {}
    for crate, module, names in IMPORT.findall(text):
        if "declared" in module.split("."):
            continue
        for name in names.split(","):
            there, _, here = name.strip().partition(" as ")
            words[(here or there).strip()] = (crate, module, there.strip())
    return words


def public_clauses(text):
    """The clauses of public functions, and the ghost members of iterators, each with all of its lines."""
    public, clause, depth = False, "", 0
    for line in text.split("\n"):
        code = line.strip()
        if not depth:
            if re.match(r"(pub(\([a-z]+\))? )?(const )?fn ", code):
                public = code.startswith("pub fn") or code.startswith("pub const fn")
            elif code == "{" or (code.endswith(" {") and not re.match(r"(requires|ensures)\b", code)):
                public = False
            if not (public and re.match(r"(requires|ensures)\b", code)) and not code.startswith("ghost next_gives"):
                continue
        clause += f" {code}"
        depth += code.count("{") - code.count("}")
        if not depth:
            yield clause
            clause = ""


def read(name):
    with open(os.path.join(HOME, name), encoding="utf-8") as file:
        return file.read()


def value_of(text, name):
    """The value of a constant; of an array its length and a digest."""
    value = re.search(rf"\bconst {name}: [^=]*= ([^;]*);", text)[1].strip()
    if not value.startswith("["):
        return value.replace("_", ",")
    held = bytes(int(number, 0) for number in re.findall(r"0x[0-9a-f]+|\b\d+\b", value))
    return f"{len(held)} bytes, SHA-256 {hashlib.sha256(held).hexdigest()[:16]}.."


def numbers():
    """Each number that a definition cites, by its name and file, with its value."""
    found = {}
    for path in sorted(glob.glob(os.path.join(HOME, "crates/*/specs/**/*.antt"), recursive=True)):
        crate = os.path.relpath(path, HOME).split("/")[1]
        if crate.endswith("_tests") or crate in ("pst_make", "pst_bench", "pst_refused"):
            continue
        for chain in NUMBERS.finditer(read(path)):
            home = re.findall(r"pst_\w+", chain[0].partition("declared")[0])[-1]
            place = f"{home}/src/{chain[3].replace('.', '/')}.rt"
            text = read(f"crates/{place}")
            for name in chain[4].split(","):
                name = name.partition(" as ")[0].strip()
                found[name, place] = value_of(text, name)
    return found


def written(page, cited):
    """The page with the values and files of its table written anew."""
    rows = {(row[1], row[5]): row for row in ROW.finditer(TABLE.search(page)[2])}
    order = [key for key in rows if key in cited] + [key for key in cited if key not in rows]
    said = {key: (rows[key][3], rows[key][4]) if key in rows else ("?", "?") for key in order}
    lines = [f"| `{name}` | {cited[name, place]} | {' | '.join(said[name, place])} | {place} |" for name, place in order]
    return TABLE.sub(lambda table: table[1] + "\n".join(lines), page)


def check_numbers(page):
    """Compares the table with the sources: how many numbers are otherwise."""
    cited = numbers()
    table = TABLE.search(page)
    told = {(row[1], row[5]): row[2] for row in ROW.finditer(table[2])} if table else {}
    wrong = [key for key in {**cited, **told} if cited.get(key) != told.get(key)]
    for name, place in wrong:
        print(f"{name} of {place} is {cited.get((name, place), 'cited by no definition')}, and in docs/GRAMMAR.md "
              f"{told.get((name, place), 'missing')}")
    unnamed = [row[1] for row in ROW.finditer(table[2]) if "?" in (row[3], row[4])] if table else []
    for name in unnamed:
        print(f"docs/GRAMMAR.md doesn't say what [MS-PST] calls {name}")
    print(f"{len(cited)} numbers that definitions cite, {len(wrong) + len(unnamed)} otherwise in docs/GRAMMAR.md")
    return len(wrong) + len(unnamed)


def home(crate, module):
    """The file of crates/ in which a module of specs/ stands, as it is brought in: behind the crates that pass it on. What a crate
    passes on of one that is not the repository's is its own."""
    first, _, rest = module.partition(".")
    if first.startswith("pst_"):
        return home(first, rest)
    place = f"{crate}/specs/{module.replace('.', '/')}.antt"
    lib = f"{crate}/specs/Lib.antt"
    if os.path.isfile(os.path.join(HOME, "crates", place)) or not os.path.isfile(os.path.join(HOME, "crates", lib)):
        return place
    for other, path, name in PASSED_ON.findall(read(f"crates/{lib}")):
        if first == (name or path.rpartition(".")[2]):
            return home(other, ".".join(filter(None, (path, rest)))) if other.startswith("pst_") else lib
    return place


def homes(page):
    """Of each row of the page its crate, its words and its files."""
    for crate, section in SECTION.findall(page):
        for words, files in HOMES.findall(section):
            yield crate, re.findall(r"`([^`]*)`", words), [f"{crate}/specs/{file}" for file in files.split(", ")]


def check_rows(page):
    """Finds the words of rows that none of their files defines: how many."""
    wrong = 0
    for crate, words, files in homes(page):
        kept = [read(f"crates/{file}") for file in files if os.path.isfile(os.path.join(HOME, "crates", file))]
        defined = {name for text in kept for name in DEFINED.findall(text)}
        passed = any(not other.startswith("pst_") for text in kept for other, _, _ in PASSED_ON.findall(text))
        sources = "".join(map(read, sorted(glob.glob(os.path.join(HOME, f"crates/{crate}/src/**/*.rt"), recursive=True))))
        for word in words:
            if not (word in defined or passed or re.search(rf"\b(struct|enum|type) {re.escape(word)}\b", sources)):
                print(f"{word}, in docs/GRAMMAR.md, is not defined in {', '.join(files)}")
                wrong += 1
    return wrong


def check_definitions(page):
    """Finds the definitions that public clauses cite and the page lacks: how many."""
    named = {(file, word) for _, words, files in homes(page) for file in files for quoted in words for word in (quoted, *WORD.findall(quoted))}
    missing = {}
    for path in sorted(glob.glob(os.path.join(HOME, "crates/*/src/**/*.rt"), recursive=True)):
        text = read(path)
        words = imported(text)
        cited = {words[word] for clause in public_clauses(text) for word in WORD.findall(clause) if word in words and "◌" not in word}
        for crate, module, name in cited:
            if (home(crate, module), name) not in named:
                missing.setdefault((home(crate, module), name), os.path.relpath(path, HOME))
    for (place, name), path in sorted(missing.items()):
        print(f"{name} of {place}, cited in {path}, is not in docs/GRAMMAR.md")
    print(f"{len(missing)} definitions of public clauses are missing in docs/GRAMMAR.md")
    return len(missing)


def main():
    parser = argparse.ArgumentParser(description="Compares docs/GRAMMAR.md with the sources.")
    parser.add_argument("--write", action="store_true", help="writes the values and files of its numbers anew")
    given = parser.parse_args()
    page = read("docs/GRAMMAR.md")
    if given.write:
        page = written(page, numbers())
        with open(os.path.join(HOME, "docs/GRAMMAR.md"), "w", encoding="utf-8") as file:
            file.write(page)
    return 1 if check_definitions(page) + check_rows(page) + check_numbers(page) else 0


if __name__ == "__main__":
    sys.exit(main())
