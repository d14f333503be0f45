"""What is broken of a store: the nodes, the blocks, the pages, and what each kind of fault says."""

from collections import Counter

from reporting import texts
from reporting.document import Cell, node, numeral, paragraph, place, table
from reporting.store import Fault
from reporting.sums import ROWS

TYPES = {0x01: "internal", 0x02: "folder", 0x03: "search folder", 0x04: "message", 0x05: "attachment", 0x08: "message about a folder",
         0x0D: "table of subfolders", 0x0E: "table of messages", 0x0F: "table of messages about a folder"}
NAMED = {"0x21": "the store", "0x61": "the names of properties", "0x122": "the root folder"}


def sort_of(nid):
    """What a node is by its identifier."""
    return NAMED.get(nid) or TYPES.get(int(nid, 16) & 0x1F, f"of type {int(nid, 16) & 0x1F:#04x}")


def fault_cell(fault):
    return Cell(texts.escaped(fault.name), f"{fault.number:02}")


def nodes(damage, parents):
    """The damaged nodes."""
    rows = []
    for it in damage["nodes"][:ROWS]:
        fault, parent = Fault.of_document(it["fault"]), parents.get(it["node"], "0x0")
        within = node(f"{fault.nid:#x}") if fault.nid else Cell("\u2014", -1, "number")
        above = Cell("\u2014", -1, "number") if parent == "0x0" else node(parent)
        rows.append([node(it["node"]), Cell(sort_of(it["node"])), fault_cell(fault), place(fault.at), place(fault.bid), within, above])
    columns = [("Node", True), ("What it is", False), ("Fault", False)] + [(it, True) for it in ("At", "Block", "In node", "Parent")]
    return table("nodes", "Damaged nodes", columns, rows, len(damage["nodes"]))


def places(name, caption, word, faults):
    """Blocks or pages."""
    rows = [[numeral(fault.bid), place(fault.at), fault_cell(fault)] for fault in map(Fault.of_document, faults[:ROWS])]
    return table(name, caption, [(word, True), ("At", True), ("Fault", False)], rows, len(faults), kind="narrow")


def kinds(store):
    """How often each kind of fault is among them, and what it says."""
    damage = store.damage
    every = [damage["header"], *damage["pages"], *damage["blocks"], damage["maps"], *(it["fault"] for it in damage["nodes"])]
    found = Counter((it["number"], it["kind"]) for it in every if it)
    says = {number: texts.escaped(store.program.explained(number)["says"]) for number, _ in found}
    rows = [[Cell(f"{number} {kind}", f"{number:02}"), numeral(count), Cell(says[number], kind="text")]
            for (number, kind), count in sorted(found.items())]
    return table("kinds", "Kinds of fault", [("Kind", False), ("Parts", True), ("What it says", False)], rows)


def broken(store):
    """The section."""
    if store.check:
        return paragraph("Nothing is broken.", "none")
    if store.damage is None:
        return paragraph("Nothing is told of a file that is no such store.", "none")
    damage, made = store.damage, kinds(store)
    for word in ("header", "maps"):
        fault = Fault.of_document(damage[word])
        if fault:
            name = "The allocation maps" if word == "maps" else "The header"
            made += paragraph(f"{name}: {texts.escaped(fault.name)} at <code>{fault.at:#x}</code>.")
    known = " that is known" if damage["pages"] or damage["header"] else ""
    made += nodes(damage, store.parents) if damage["nodes"] else paragraph(f"No node{known} is damaged.", "none")
    if damage["blocks"]:
        made += places("blocks", "Damaged blocks", "Block", damage["blocks"])
    if damage["pages"]:
        made += places("pages", "Damaged pages", "Page", damage["pages"])
    return made
