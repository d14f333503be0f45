"""What a report is made of: the verdict of one file and the sums of what is in it, all of them by pst_show's answers."""

import re

from reporting.asking import Stopped, UNREAD, NO_PROGRAM, seal_of
from reporting.sums import Messages

FAULT = re.compile(r"no: (\d+) (\w+)(?:\((\d+)\))? at (0x[0-9a-f]+) bid (0x[0-9a-f]+) nid (0x[0-9a-f]+)")
ENCODINGS = {1: "permutation (1, Outlook\u2019s default)", 2: "cyclic (2)"}


class Fault:
    """A fault: its number and name, the number that stands behind some names, and its three places; and what it says."""

    def __init__(self, number, kind, at, bid, nid, detail=None):
        self.number, self.kind, self.at, self.bid, self.nid, self.detail = number, kind, at, bid, nid, detail
        self.told = {}

    @classmethod
    def of_line(cls, line):
        """The fault of a line `no: ..`, or None."""
        found = FAULT.match(line)
        if not found:
            return None
        number, kind, detail, *places = found.groups()
        return cls(int(number), kind, *(int(it, 16) for it in places), detail)

    @classmethod
    def of_document(cls, document):
        """The fault of a document of damage, or None of null."""
        if document is None:
            return None
        return cls(document["number"], document["kind"], document["at"], document["bid"], int(document["nid"], 16))

    @property
    def name(self):
        """As `14 BlockTrailer`."""
        return f"{self.number} {self.kind}" + (f"({self.detail})" if self.detail else "")


class Store:
    """One file as pst_show answers of it. `check` is None where the verdict is no, `damage` where that has nothing to tell;
    `folders` and `messages` where nothing is shown of the file."""

    def __init__(self, program, path):
        self.path, self.name = path, path if path[:1] != "-" else f"./{path}"
        self.program, self.seal = program, seal_of(path)
        try:
            self.answered()
        except Stopped:
            self.is_unchanged([])
            raise
        self.is_unchanged([it["sha256"] for it in (self.check, self.damage) if it])

    def answered(self):
        """Asks all that a page shows."""
        program = self.program
        self.encoding, self.head = self.headed()
        self.check, self.fault = self.checked()
        self.damage = self.damaged() if self.fault else None
        self.is_part = self.damage is not None and all(program.knows(it, "--whole") for it in ("folders", "messages"))
        self.folders = self.messages = None
        if self.check or self.is_part:
            self.folders = self.ask("folders", *["--whole"] * self.is_part).document["folders"]
            self.messages = Messages()
            self.ask("messages", *["--whole"] * self.is_part, each=self.messages.add)
        self.parents = self.listed() if self.damage and self.damage["nodes"] else {}

    def ask(self, command, *options, **how):
        """The answer to a command over the file, decoded where it is encoded."""
        return self.program.ask(command, *options, *["--decode"] * bool(self.encoding), self.name, **how)

    def headed(self):
        """How the file is encoded, 0 where it is not, and the fields of its header, None where that has a fault."""
        self.encoding = 0
        answer = self.ask("head", may_be=(0, 1))
        fault = Fault.of_line(answer.line)
        self.encoding = int(fault.detail) if fault and fault.kind == "Encoded" and int(fault.detail) in ENCODINGS else 0
        if self.encoding:
            answer = self.ask("head", may_be=(0, 1))
        return self.encoding, answer.document

    def checked(self):
        """The document of check, or the fault."""
        answer = self.ask("check", "--digest", may_be=(0, 1))
        if answer.document:
            return answer.document, None
        fault = Fault.of_line(answer.line)
        if fault is None:
            raise Stopped(NO_PROGRAM, f"pst_report: check said what is not understood: {answer.line}")
        fault.told = self.program.explained(fault.number)
        return None, fault

    def damaged(self):
        """The document of damage, or None."""
        answer = self.ask("damage", "--digest", may_be=(0, 1))
        if answer.status == 0:
            raise Stopped(NO_PROGRAM, "pst_report: check says no and damage finds nothing")
        return answer.document

    def listed(self):
        """The parent of each node by its identifier; nothing where the trees are broken."""
        answer = self.ask("nodes", may_be=(0, 1))
        return {it["nid"]: it["parent"] for it in answer.document["nodes"]} if answer.document else {}

    def is_unchanged(self, told):
        """That all was asked of the same bytes, as far as a file tells: by its seal, first and last, and those that were told."""
        if seal_of(self.path) != self.seal or any(it != self.seal.sha256 for it in told):
            raise Stopped(UNREAD, f"cannot read the file\n  {self.name}: it was changed while it was read")
