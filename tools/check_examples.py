#!/usr/bin/env python3
"""Runs the examples of the documents against the built program, and compares what they print.

    tools/check_examples.py [--some] [--program PROGRAM] [FILE ..]

With no FILE: README.md, both manual pages, and of docs/ ANSWERS.md, JSON.md, MANY.md, REPORT.md, LIBRARY.md, EVIDENCE.md and
OUTLOOK.md. An example is a line that begins with `$ `, in a block that opens with ```sh, or of a manual page below EXAMPLES; lines
that begin with `> ` go on with it, and the lines behind it, up to the next example or the end of the block, are what it has to
print, on standard output and standard error together. Of a manual page an example may show nothing of that: then it has to end with
status 0, to say nothing on standard error, and to write something. A block that opens with ```c or ```python is a program where a block that
opens with ```text stands below it, which is what it has to print, of samples/mail.pst on standard input.

The examples of a file run one after another in one empty folder, in which samples, examples and report name those of the repository,
and pst_show, which is on the PATH too, the repository's or the program that --program names, as pst_report does its report's; for the manual page there are mail.pst and
stores/mail.pst. The library is that of PST_LIBRARY, or built/libpst.so.0, with libpst.a beside it.

An example is not run where it uses a command or an option that the program does not know, or something that is not installed, or, up to the
next heading, where it works on a file that such a one would have written; that is told. Only GNU parallel and the library may
be missing without failure. The status is 0 where all other examples ran and printed what they should; with --some, where
all that ran did. It is 1, too, where none ran.
"""
import argparse
import difflib
import functools
import os
import re
import shutil
import subprocess
import sys
import tempfile
from typing import NamedTuple

ROOT = os.path.dirname(os.path.dirname(os.path.abspath(__file__)))
PAGES = ["ANSWERS", "JSON", "MANY", "REPORT", "LIBRARY", "EVIDENCE", "OUTLOOK"]
DOCUMENTS = ["README.md", "man/pst_show.1", "man/pst_report.1", *(f"docs/{name}.md" for name in PAGES)]
TOOLS = ["jq", "parallel", "xargs", "find", "flock", "python3"]
OPTIONAL = ["parallel is not installed", "the library is not there"]
SHOWN = ["sh", "c", "python", "text"]


class Example(NamedTuple):
    """The heading above it, the number of its line, its language, its text, and what it has to print; None if that is not said."""
    heading: str
    number: int
    language: str
    text: str
    wanted: str


def blocks(text):
    """Each block of one of the languages: the heading above it, the number of its first line, its language, its lines."""
    heading, inside = "", None
    for number, line in enumerate(text.split("\n"), 1):
        opened = re.fullmatch("```([a-z]*)", line.strip())
        if inside is None and line.startswith("#"):
            heading = line
        elif inside is None and opened:
            inside = (heading, number + 1, opened[1], [])
        elif inside is not None and line.strip() == "```":
            if inside[2] in SHOWN:
                yield inside
            inside = None
        elif inside is not None:
            inside[3].append(line)


def manual_blocks(text):
    """The same of a manual page: the blocks below EXAMPLES that are not filled."""
    lines = text.partition("\n.SH EXAMPLES\n")[2].partition("\n.SH ")[0].split("\n")
    first = text.partition("\n.SH EXAMPLES\n")[0].count("\n") + 3
    inside = None
    for number, line in enumerate(lines, first):
        if line == ".nf":
            inside = (f"block {number}", number + 1, "sh", [])
        elif line == ".fi":
            yield inside
            inside = None
        elif inside is not None:
            inside[3].append(line.replace("\\(aq", "'").replace("\\-", "-").replace("\\e", "\\"))


def commands(heading, first, lines):
    """The examples of a block of commands."""
    found = []
    for number, line in enumerate(lines, first):
        if line.startswith("$ "):
            found.append((number, [line[2:]], []))
        elif line.startswith("> ") and found and not found[-1][2]:
            found[-1][1].append(line[2:])
        elif found:
            found[-1][2].append(line)
    for number, command, output in found:
        yield Example(heading, number, "sh", "\n".join(command), "".join(line + "\n" for line in output))


def examples(text):
    """Each example of a document."""
    program = None
    for heading, first, language, lines in blocks(text):
        if language == "sh":
            yield from commands(heading, first, lines)
        elif language != "text":
            program = (heading, first, language, lines)
        elif program is not None:
            yield Example(*program[:3], "\n".join(program[3]) + "\n", "".join(line + "\n" for line in lines))
            program = None


def manual_examples(text):
    """Each example of the manual page; in a block that shows nothing of what is printed any output will do."""
    for heading, first, _, lines in manual_blocks(text):
        found = list(commands(heading, first, lines))
        is_shown = any(example.wanted for example in found)
        for example in found:
            yield example if is_shown else example._replace(wanted=None)


class Room:
    """A folder in which the examples of a document run."""

    def __init__(self, folder, program):
        self.folder, self.program = folder, program
        self.known = known_commands(program)
        library = os.environ.get("PST_LIBRARY", f"{ROOT}/built/libpst.so.0")
        self.library = os.path.abspath(library) if os.path.exists(library) else None
        self.environment = dict(os.environ, PATH=f"{folder}:{os.environ['PATH']}", PYTHONPATH=f"{ROOT}/bindings/python")
        if self.library:
            self.environment["PST_LIBRARY"] = self.library
        self.link(program, "pst_show")
        self.link(f"{ROOT}/samples", "samples")
        self.link(f"{ROOT}/examples", "examples")
        self.link(f"{ROOT}/report", "report")
        self.link(f"{ROOT}/report/pst_report", "pst_report")

    def link(self, path, name):
        os.makedirs(os.path.dirname(f"{self.folder}/{name}"), exist_ok=True)
        os.symlink(path, f"{self.folder}/{name}")

    def lacks(self, example):
        """What an example uses that is not there, or None."""
        if example.language != "sh" and not self.library:
            return "the library is not there"
        if example.language == "c":
            return None if shutil.which("cc") else "cc is not installed"
        for word, flags in re.findall(r"pst_show ([a-z]+)((?: --[a-z]+)*)", example.text):
            if word not in self.known:
                return f"the program has no command {word}"
            for flag in flags.split():
                if flag not in help_of(self.program, word):
                    return f"{word} has no option {flag}"
        for tool in TOOLS:
            if re.search(rf"(^|[\s|(]){tool}\s", example.text) and not shutil.which(tool):
                return f"{tool} is not installed"
        return None

    def words(self, example):
        """The words of the command that runs an example; a program is written, and one in C compiled."""
        if example.language == "sh":
            return ["sh", "-c", example.text]
        source = f"{self.folder}/program.{example.language}"
        with open(source, "w", encoding="utf-8") as file:
            file.write(example.text)
        if example.language == "python":
            return [sys.executable, source]
        built = f"{self.folder}/program"
        archive = os.path.join(os.path.dirname(self.library), "libpst.a")
        flags = ["-std=c11", "-Wall", "-Wextra", "-Werror", f"-I{ROOT}/include"]
        subprocess.run(["cc", *flags, source, archive, "-o", built], check=True)
        return [built]

    def run(self, example):
        """What an example prints, on standard output and standard error together. If it shows nothing of that, None where it is good."""
        given = f"{ROOT}/samples/mail.pst" if example.language != "sh" else os.devnull
        quiet = subprocess.PIPE if example.wanted is None else subprocess.STDOUT
        with open(given, "rb") as held:
            ran = subprocess.run(self.words(example), cwd=self.folder, env=self.environment, stdin=held, stdout=subprocess.PIPE,
                                 stderr=quiet, check=False)
        printed = ran.stdout.decode("utf-8", "backslashreplace")
        if example.wanted is not None:
            return printed
        into = re.search(r">([\w.]+)$", example.text)
        size = os.path.getsize(f"{self.folder}/{into[1]}") if into else len(printed)
        is_good = ran.returncode == 0 and not ran.stderr and size
        return None if is_good else f"status {ran.returncode}, {size} bytes\n{ran.stderr.decode()}"


@functools.cache
def help_of(program, *words):
    """What the program says of itself, or of one of its commands."""
    return subprocess.run([program, *words, "--help"], stdout=subprocess.PIPE, text=True, check=True).stdout


def known_commands(program):
    """The commands that the program's help lists."""
    listed = help_of(program).partition("\nCommands:\n")[2].partition("\n\n")[0]
    return {line.split()[0] for line in listed.split("\n") if line.strip()}


def is_same(path, example, given):
    """Whether an example printed what it should; where it did not, that is shown."""
    if given == example.wanted:
        return True
    print(f"{path}:{example.number}: {example.text}")
    wanted = (example.wanted or "").splitlines(True)
    sys.stdout.writelines(difflib.unified_diff(wanted, given.splitlines(True), "page", "program"))
    return False


def run_document(path, program):
    """Runs the examples of a document: how many are the same, how many differ, and how many were not run for lack of what may be
    missing, and of anything else."""
    same, different, left_out = 0, 0, {}
    lacking = None
    with open(path, encoding="utf-8") as file:
        text = file.read()
    is_manual = path.endswith(".1")
    with tempfile.TemporaryDirectory() as folder:
        room = Room(folder, program)
        if is_manual:
            room.link(f"{ROOT}/samples/mail.pst", "mail.pst")
            room.link(f"{ROOT}/samples/mail.pst", "stores/mail.pst")
        for example in manual_examples(text) if is_manual else examples(text):
            lack = room.lacks(example)
            if not lack and lacking and example.heading == lacking[0] and "pst_show" not in example.text:
                lack = lacking[1]
            if lack:
                if re.search(r"(>>?|--joblog )\w", example.text):
                    lacking = example.heading, lack
                left_out.setdefault(lack, []).append(str(example.number))
            elif is_same(path, example, room.run(example)):
                same += 1
            else:
                different += 1
    for lack, numbers in left_out.items():
        print(f"{path}:{','.join(numbers)}: not run, {lack}")
    optional = sum(len(left_out.pop(lack, ())) for lack in OPTIONAL)
    return same, different, optional, sum(map(len, left_out.values()))


def main():
    parser = argparse.ArgumentParser(description="Runs the examples of the documents against the built program.")
    parser.add_argument("--some", action="store_true", help="examples that cannot be run yet are no failure")
    parser.add_argument("--program", default=f"{ROOT}/pst_show", help="the program, in place of ./pst_show")
    parser.add_argument("files", nargs="*", metavar="FILE", help="the documents, in place of all that have examples")
    words = parser.parse_args()
    program = os.path.abspath(words.program)
    found = [run_document(path, program) for path in words.files or [f"{ROOT}/{name}" for name in DOCUMENTS]]
    same, different, optional, left_out = map(sum, zip(*found))
    print(f"examples: {same} as the pages say, {different} not, {optional + left_out} not run")
    return 1 if different or (left_out and not words.some) or same == 0 else 0


if __name__ == "__main__":
    sys.exit(main())
