"""How to check the answer again, and on what the page stands."""

import os
import shlex

from reporting import texts
from reporting.document import Cell, code, facts, numeral, own_digest, paragraph, table

ABOUT = ("What pst_show answers is proved of all bytes that a file may have; this page only sums up and shows it, by a program of which "
         "nothing is proved. A yes does not say that a message is what somebody once wrote, and nothing here says when or by whom a file "
         "was damaged.")


def beside(program):
    """The lines of the text that is kept beside the program and says what it was made from, where it is of this program."""
    place = os.path.dirname(os.path.abspath(program.path))
    about = [os.path.join(place, "..", "share", "doc", name, "pst_show.txt") for name in ("pst_show", "pst-show")]  # the latter Debian's
    for path in (program.path + ".txt", *about):
        if os.path.isfile(path):
            with open(path, encoding="utf-8") as file:
                lines = dict(line.rstrip("\n").split(": ", 1) for line in file if ": " in line)
            if lines.get("program") == program.sha256:
                return lines
    return {}


def typed(words):
    """A command as it may be typed, in which nothing of a name is hidden."""
    return f"<code>{texts.foreign('pst_show ' + shlex.join(words), 1000)}</code>"


def again(store):
    """The section."""
    program, told = store.program, beside(store.program)
    check = next(it for it in program.answers if it.words[0] == "check")
    steps = [
        f"{code('sha256sum')} of the file is {code(store.seal.sha256)}. It was taken before the first command and behind the last one, and "
        "was the same.",
        f"{code('sha256sum')} of the program is {code(program.sha256)}"
        + (f", which pst_show.txt names as the program of the sources {code(told['sources'])}, proved with "
           f"{texts.escaped(told['kit'])}." if told else "."),
        f"{typed(check.words)} ends with status {check.status}, and says what stands below the verdict. The same bytes always have the "
        "same answer.",
        f"Each other command below, with {code('| sha256sum')} behind it, has the digest that stands beside it.",
    ]
    rows = [[Cell(typed(it.words), order, "code"), numeral(it.status), numeral(it.length), Cell(code(it.sha256), kind="code"),
             Cell(texts.escaped(it.line), kind="text")] for order, it in enumerate(program.answers)]
    columns = [("Command", False), ("Status", True), ("Bytes", True), ("SHA-256 of what it wrote", False), ("On standard error", False)]
    return ("<ol>" + "".join(f"<li>{it}</li>" for it in steps) + "</ol>"
            + table("answers", "The answers that this page stands on", columns, rows)
            + facts([("pst_show", f"{texts.escaped(program.version)}, SHA-256 {code(program.sha256)}"),
                     ("Sources", code(told["sources"]) if told else None), ("Proved with", texts.escaped(told["kit"]) if told else None),
                     ("pst_report", f"SHA-256 of its files together {code(own_digest())}")])
            + paragraph(ABOUT, "note"))
