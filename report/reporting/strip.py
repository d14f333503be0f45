"""The store as a strip: how much of the file is used, free and lost, and where what is lost and what is broken lies."""

from reporting import texts
from reporting.document import legend, paragraph, picture
from reporting.store import Fault
from reporting.verdict import parts_broken

COLUMNS = 400


def broken_places(damage):
    """What is broken and has a place in the file: triples of the place, the length where it is known, and what it is."""
    found = []
    for word, faults in (("header", [damage["header"]]), ("page", damage["pages"]), ("block", damage["blocks"]), ("maps", [damage["maps"]]),
                         ("node", [it["fault"] for it in damage["nodes"]])):
        for fault in map(Fault.of_document, faults):
            if fault and (fault.at or word == "header"):
                found.append((fault.at, 512 if word == "page" else 0, f"{word}, {fault.name}"))
    return found


def marks(places, length):
    """Places as marks of a strip: those that lie in the same column of it are one."""
    columns = {}
    for at, size, what in places:
        columns.setdefault(min(at * COLUMNS // max(length, 1), COLUMNS), []).append((at, size, what))
    return [mark(sorted(columns[it])) for it in sorted(columns)]


def mark(places):
    first, last = places[0], places[-1]
    if len(places) == 1:
        what = f"{first[2]}, at {texts.number(first[0])}"
    else:
        what = f"{len(places):,} places from {texts.number(first[0])} to {texts.number(last[0])}: the first is {first[2]}"
    return {"at": first[0], "to": max(at + size for at, size, _ in places), "what": what}


BEHIND = "behind"
WORDS = {BEHIND: "behind the end that the header tells"}


def amounts(store, lost):
    """How much is used, free, lost, and behind the end of the store, or nothing where the header does not tell it so that it fits the file."""
    if not store.head:
        return []
    end, free = min(store.head["eof"], store.seal.length), store.head["free"]
    if free + lost > end:
        return []
    behind = store.seal.length - end
    return [("used", end - free - lost), ("free", free), ("lost", lost)] + [(BEHIND, behind)] * (behind > 0)


def strip(store):
    """What is drawn, and the section."""
    if not store.check and not store.damage:
        return None, paragraph("There is nothing to draw of a file that is no such store.", "none")
    length = store.seal.length
    runs = [(it["at"], it["len"], f"lost, {texts.counted(it['len'], 'byte')}") for it in (store.check or {"lost": []})["lost"]]
    lost = sum(size for _, size, _ in runs)
    broken = broken_places(store.damage) if store.damage else []
    parts = [it for it in amounts(store, lost) if it[0] != "lost" or store.check]
    drawn = {"length": length, "lost": marks(runs, length), "broken": marks(broken, length),
             "parts": [{"kind": kind, "bytes": size, "what": f"{WORDS.get(kind, kind)}: {texts.counted(size, 'byte')}"}
                       for kind, size in parts if size]}
    entries = [(kind, WORDS.get(kind, kind), texts.size(size)) for kind, size in parts]
    if store.damage:
        entries.append(("broken", "broken", f"{parts_broken(store.damage)} ({len(broken):,} with a place in the file)"))
    about = ("Above: how much of the file is used and free, by the header\u2019s own number, which " if parts else
             "The header does not tell how much of the file is free, so only places are drawn. ")
    about += "no command checks. " if parts else ""
    about += "Below, from the first byte of the file to the last: " + (
        "where what is broken lies." if store.damage else "where bytes are lost; nothing is broken.")
    if store.damage:
        about += " What is lost is told of whole stores alone."
    return drawn, picture("strip", "The file as a strip", about, legend(entries))
