"""The page over many stores, from a table of verdicts: of each line the status of check, the name of the file, and the answer."""

import hashlib
import json
import os
from collections import Counter
from typing import NamedTuple

from reporting import texts
from reporting.asking import UNREAD, Stopped
from reporting.document import Cell, code, document, facts, numeral, own_digest, paragraph, picture, table
from reporting.store import Fault
from reporting.sums import ROWS
from reporting.verdict import OUTSIDE_OF_PROFILE

MOST_KINDS = 30


class Line(NamedTuple):
    """A line of the table: the file, the document of check where it was yes, the fault where it was no, else what was said; and
    the length of the file as it lies there now, None where it does not."""
    path: str
    status: int
    document: object
    fault: object
    said: str
    length: int

    @property
    def kind(self):
        """Which of four it is: yes, no, outside of what is checked, or without a verdict."""
        if self.document:
            return "yes"
        return "left" if self.fault is None else "other" if self.fault.kind in OUTSIDE_OF_PROFILE else "no"


def length_of(path):
    try:
        return os.path.getsize(path)
    except OSError:
        return None


class Table:
    """A table of verdicts."""

    def __init__(self, path):
        self.path = path
        try:
            with open(path, "rb") as file:
                held = file.read()
        except OSError as fault:
            raise self.refused(fault.strerror) from None
        self.sha256 = hashlib.sha256(held).hexdigest()
        self.lines = [self.line(number, it) for number, it in enumerate(held.decode("utf-8", "replace").split("\n"), 1) if it]

    def refused(self, why):
        return Stopped(UNREAD, f"cannot read the file\n  {self.path}: {why}")

    def line(self, number, text):
        """One line; what it has to be is told where it is not."""
        status, path, said = (text.split("\t") + ["", ""])[:3]
        if text.count("\t") != 2 or not status.isdecimal():
            raise self.refused(f"line {number} is not a status, a name and an answer with tabs between")
        try:
            document = json.loads(said) if status in ("0", "1") and said[:1] == "{" else None
        except ValueError:
            raise self.refused(f"the answer in line {number} is no JSON") from None
        if document is not None and not {"lost", "verdict"} <= set(document):
            raise self.refused(f"the answer in line {number} is none of check")
        fault = Fault.of_line(said) if status == "1" and document is None else None
        return Line(path, int(status), document, fault, said, length_of(path))


VERDICTS = {"yes": "yes", "no": "no, damaged", "other": "no, outside of what is checked", "left": "no verdict"}


def verdicts(lines):
    """How many of each, in words."""
    found = Counter(it.kind for it in lines)
    if found["yes"] == len(lines) and lines:
        kind, word = "yes", f"Yes: all {len(lines):,} files are mail stores, whole by all rules that pst_show checks."
    else:
        kind = "no" if found["no"] else "other"
        word = f"{found['yes']:,} of {texts.counted(len(lines), 'file')} {'is' if found['yes'] == 1 else 'are'} whole stores."
    rows = [(VERDICTS[it].capitalize(), texts.number(found[it])) for it in VERDICTS]
    return f'<div class="verdict {kind}"><p class="word">{word}</p></div>{facts(rows, "counts")}'


def said(line):
    """What a line says in a few words: yes, the fault, or what kept the program from a verdict."""
    if line.document:
        return "yes"
    return line.fault.name if line.fault else texts.shown(line.said.split("  ")[0]) or f"status {line.status}"


def kinds(lines, program):
    """The kinds of fault: what is drawn, and the section."""
    found = Counter((it.kind, it.fault.number if it.fault else 0, said(it)) for it in lines if it.kind != "yes")
    if not found:
        return None, paragraph("No file was refused.", "none")
    ordered = sorted(found.items(), key=lambda it: (-it[1], it[0][1:]))[:ROWS]
    drawn = [{"kind": kind, "name": name, "count": count, "what": f"{name}: {texts.counted(count, 'file')}"}
             for (kind, _, name), count in ordered[:MOST_KINDS]]
    says = {number: texts.escaped(program.explained(number)["says"]) for _, number, _ in found if number}
    rows = [[Cell(texts.escaped(name), f"{number:02}"), numeral(count), Cell(says.get(number, "nothing is said of the file"), kind="text")]
            for (_, number, name), count in ordered]
    about = "A bar for each kind of fault that was told first, as long as the files are many."
    about += f" The {MOST_KINDS} most frequent." if len(found) > MOST_KINDS else ""
    listed = table("kinds", "First faults", [("Kind", False), ("Files", True), ("What it says", False)], rows, len(found))
    return drawn, picture("kinds", "Kinds of fault", about) + listed


def area(nid, above, name, size, what, kind=None):
    """A row of what is drawn of the lengths; `size` is told, and belongs to the row itself where it is a file."""
    return {"id": nid, "in": above, "name": texts.shown(name), "bytes": size if above else 0, "size": texts.size(size),
            "what": texts.shown(f"{name}: {what}", 1000), "verdict": kind}


def sizes(lines):
    """The stores by their length: what is drawn, and the section."""
    known = sorted((it for it in lines if it.length), key=lambda it: -it.length)
    if not known:
        return None, paragraph("None of the files lies where the table says, so there is no length to draw.", "none")
    every, rest = sum(it.length for it in known), sum(it.length for it in known[ROWS:])
    drawn = [area("all", None, "All files", every, texts.counted(every, "byte"))]
    drawn += [area(f"file {order}", "all", os.path.basename(it.path), it.length, f"{texts.counted(it.length, 'byte')}, {said(it)}", it.kind)
              for order, it in enumerate(known[:ROWS])]
    if rest:
        drawn.append(area("rest", "all", f"{len(known) - ROWS:,} smaller files", rest, texts.counted(rest, "byte"), "left"))
    about = "Each area is as large as a file, by its length when this page was made; its colour says the verdict."
    return drawn, picture("sizes", "Files by their length", about)


def stores(lines):
    """The table of all files."""
    columns = [("File", False), ("Verdict", False), ("Bytes", True), ("Folders", True), ("Messages", True), ("Bytes lost", True)]
    rows = []
    for it in lines[:ROWS]:
        told = it.document or {}
        lost = sum(run["len"] for run in told["lost"]) if it.document else None
        words = [Cell(shown, kind="text") for shown in (texts.foreign(it.path, 1000), f"<bdi>{texts.escaped(said(it))}</bdi>")]
        rows.append(words + [numeral(value) for value in (it.length, told.get("folders"), told.get("messages"), lost)])
    return table("stores", "The files", columns, rows, len(lines))


def many_page(made, program, now):
    """The document."""
    lines, data = made.lines, {}
    data["kinds"], seen = kinds(lines, program)
    sections = [("verdict", "Verdicts", verdicts(lines)), ("kinds", "Kinds of fault", seen)]
    data["sizes"], seen = sizes(lines)
    sections += [("sizes", "Sizes", seen), ("stores", "The files, one by one", stores(lines))]
    about = paragraph("The verdicts are those of the table, by whatever program made it; none was checked again for this page.") + facts([
        ("Table", texts.foreign(made.path, 1000)), ("Its lines", texts.number(len(lines))), ("Its SHA-256", code(made.sha256)),
        ("Date of this page", f'<time datetime="{now:%Y-%m-%dT%H:%M:%SZ}">{now:%-d %B %Y, %H:%M} UTC</time>'),
        ("Kinds explained by", f"{texts.escaped(program.version)}, SHA-256 {code(program.sha256)}"),
        ("pst_report", f"SHA-256 of its files together {code(own_digest())}")])
    sections.append(("again", "What this page stands on", about))
    heading = f'<span class="of">Report on</span> {texts.counted(len(lines), "file")}'
    footer = "Made by pst_report of a table of verdicts. The pictures are drawn by d3. This page needs no network."
    return document("Mail stores of Outlook (.pst)", heading, f"Report on {texts.counted(len(lines), 'file')}", sections, data, footer)
