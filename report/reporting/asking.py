"""Asks pst_show, and keeps of each answer what is needed to compare it with another: words, status, length and SHA-256."""

import hashlib
import json
import os
import stat
import subprocess
import tempfile
from typing import NamedTuple

PIECE = 1 << 20
UNREAD, NO_MEMORY, NO_PROGRAM = 3, 4, 125


class Stopped(Exception):
    """Why there is no report: a status, and lines for standard error."""

    def __init__(self, status, lines):
        super().__init__(lines)
        self.status, self.lines = status, lines


class Seal(NamedTuple):
    """Which bytes a file has: how many, and their SHA-256."""
    length: int
    sha256: str


def seal_of(path):
    """The seal of a regular file."""
    sum_, length = hashlib.sha256(), 0
    try:
        with open(path, "rb") as file:
            if not stat.S_ISREG(os.fstat(file.fileno()).st_mode):
                raise OSError(None, "Not a regular file")
            while piece := file.read(PIECE):
                sum_.update(piece)
                length += len(piece)
    except OSError as fault:
        name = os.fsencode(path).decode("utf-8", "backslashreplace")
        raise Stopped(UNREAD, f"cannot read the file\n  {name}: {fault.strerror}") from None
    return Seal(length, sum_.hexdigest())


class Answer(NamedTuple):
    """What a command answered. `words` are as they may be typed again; the document is None, and the text of it empty, where there
    is none, or where its lines went to somebody else; `line` is what it said on standard error."""
    words: list
    status: int
    length: int
    sha256: str
    document: object
    text: str
    line: str


class Program:
    """A pst_show, and all that it was asked."""

    def __init__(self, path):
        self.path, self.answers = path, []
        self.sha256 = seal_of(path).sha256
        self.version = self.run(["--version"], lambda line: None)[1].decode().strip()

    def run(self, words, each):
        """Runs the program; each line that it writes is handed on. Answers the status, what the last line was, the length and
        SHA-256 of all, and what stands on standard error."""
        sum_, length, last = hashlib.sha256(), 0, b""
        with tempfile.TemporaryFile() as errors:
            try:
                ran = subprocess.Popen([self.path, *words], stdin=subprocess.DEVNULL, stdout=subprocess.PIPE, stderr=errors)
            except OSError as fault:
                raise Stopped(NO_PROGRAM, f"pst_report: cannot run {self.path}: {fault.strerror}") from None
            with ran:
                for last in ran.stdout:
                    sum_.update(last)
                    length += len(last)
                    each(last)
            errors.seek(0)
            said = errors.read().decode("utf-8", "replace").rstrip("\n")
        return ran.returncode, last, length, sum_.hexdigest(), said

    def ask(self, *words, each=None, may_be=(0,)):
        """The answer to a command, which has to end with one of these statuses; with any other there is no report."""
        status, last, length, sha256, said = self.run(words, each or (lambda line: None))
        if status not in may_be:
            raise Stopped(status if status in (UNREAD, NO_MEMORY) else NO_PROGRAM, said or self.ended(words, status))
        text = last.decode() if each is None else ""
        self.answers.append(Answer(list(words), status, length, sha256, json.loads(text) if text else None, text, said))
        return self.answers[-1]

    def explained(self, kind):
        """What the program says of a kind of fault: the lines behind its number, by the words with which they begin."""
        lines = []
        self.run(["explain", str(kind)], lambda line: lines.append(line.decode().rstrip("\n")))
        first, *rest = lines or [""]
        told = {"says": first.partition(": ")[2]}
        return told | {key.strip(): text for key, _, text in (line.partition(": ") for line in rest)}

    def knows(self, command, option):
        """Whether a command has this option."""
        lines = []
        self.run([command, "--help"], lambda line: lines.append(line.decode()))
        return any(line.split()[:1] == [option] for line in lines)

    def ended(self, words, status):
        how = f"was ended by signal {-status}" if status < 0 else f"ended with status {status}"
        return f"pst_report: {os.path.basename(self.path)} {words[0]} {how}"
