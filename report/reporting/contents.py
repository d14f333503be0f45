"""What is in a store: its folders with their bytes, its messages over time, the largest of them, and what no folder leads to."""

from datetime import datetime

from reporting import texts
from reporting.document import Cell, node, numeral, paragraph, picture, size, table, text
from reporting.sums import ROWS, folders_of, tiles

DEEPEST = 8
MOST_MONTHS = 480
MOST_NAMES = 5
INSIDE = {"own": "in the folder itself", "rest": "smaller folders"}
GROUPS = {"all": "All folders", "lost": "Not reached by the root folder", "lost rest": "smaller folders that are not reached"}


def title_of(folder):
    """A folder's name, or what stands for it."""
    if folder.name:
        return texts.shown(folder.name)
    return "Root folder" if folder.nid == "0x122" else f"Folder {folder.nid}, without a name"


def cell_of(folder, order, depth):
    return Cell(f"<bdi>{texts.escaped(title_of(folder))}</bdi>", order, f"name in{min(depth, DEEPEST)}" if depth else "name")


def tile(row):
    """A row of the tree of folders as it is drawn."""
    folder = row["of"]
    drawn = {"id": row["id"], "in": row["in"], "bytes": row["bytes"], "size": texts.size(row["held"])}
    if folder is None:
        return drawn | {"name": GROUPS[row["kind"]], "what": f"{GROUPS[row['kind']]}: {texts.counted(row['held'], 'byte')}"}
    if row["kind"] in INSIDE:
        name = INSIDE[row["kind"]]
        return drawn | {"name": name, "what": f"{title_of(folder)}, {name}: {texts.counted(row['held'], 'byte')}"}
    listed = "its messages are not known" if folder.listed is None else f"{texts.counted(folder.listed, 'message')} of its own"
    return drawn | {"name": title_of(folder), "what": f"{title_of(folder)}: {texts.counted(row['held'], 'byte')}, {listed}"}


def folders(store):
    """The folders: what is drawn, and the section."""
    reached, lost = folders_of(store.folders, store.messages)
    drawn = [tile(it) for it in tiles(reached, lost)]
    about = ("Each area is as large as the messages of a folder, by the sizes that stand in them (property 0E08), which Outlook wrote and "
             "nobody checks. A message that several folders list counts in each; how many "
             "messages a folder has is how many rows its table has, of a damaged store those of broken messages with them.")
    if store.messages.sizeless:
        about += f" Messages without a size count as 0: {texts.number(store.messages.sizeless)}."
    columns = [("Folder", False), ("Messages", True), ("Its own", True), ("In all", True), ("Identifier", True)]
    rows = [[cell_of(it, order, len(it.path) - 1), numeral(it.listed), size(it.own), size(it.all), node(it.nid)]
            for order, it in enumerate(reached[:ROWS])]
    seen = picture("folders", "Folders by the bytes of their messages", about) if drawn else paragraph(
        f"No {'whole table of a ' * store.is_part}folder lists a {'whole ' * store.is_part}message with a size, so there is nothing to draw.", "none")
    if not reached:
        return drawn, seen + paragraph("The root folder is not among them, so it reaches none.", "none") + lost_folders(lost, store.is_part)
    tree = table("folders", "The tree of folders from the root", columns, rows, len(reached), ("Folder", "ascending"))
    made = f'<div class="pair">{seen}<div>{tree}</div></div>' if drawn else seen + tree
    return drawn, made + lost_folders(lost, store.is_part)


def none(is_part):
    """That there are none, as far as it is known."""
    return "Among what is whole there are none." if is_part else "There are none."


def lost_folders(lost, is_part):
    """The folders to which nothing leads from the root."""
    if not lost:
        return "<h3>Folders that the root folder does not reach</h3>" + paragraph(none(is_part), "none")
    columns = [("Folder", False), ("Messages", True), ("Its own", True), ("Identifier", True)]
    rows = [[cell_of(it, order, 0), numeral(it.listed), size(it.own), node(it.nid)] for order, it in enumerate(lost[:ROWS])]
    about = "They are there and whole, with their messages, but a program that begins at the root folder does not show them."
    return ("<h3>Folders that the root folder does not reach</h3>" + paragraph(about, "note")
            + table("lost-folders", "Lost folders", columns, rows, len(lost)))


def is_sparse(bars):
    """Whether the months lie so far apart that those without messages are left out."""
    first, last = (int(month[:4]) * 12 + int(month[5:7]) for month in (bars[0][0], bars[-1][0]))
    return last - first > MOST_MONTHS


def month(name):
    """As `April 2019`, or a year as it is."""
    return datetime(int(name[:4]), int(name[5:7]), 1).strftime("%B %Y") if len(name) > 4 else name


def times(store):
    """The messages over time: what is drawn, and the section."""
    unit, bars = store.messages.bars()
    if not bars:
        return None, paragraph("No message has a time at which it was received.", "none")
    sparse = unit == "year" or is_sparse(bars)
    drawn = {"unit": unit, "sparse": sparse, "bars": [
        {"when": name, "count": count, "what": f"{month(name)}: {texts.counted(count, 'message')}"} for name, count in bars]}
    about = f"A bar for each {unit}, as high as the messages are many that were received in it (property 0E06, in UTC)."
    about += f" Each {unit} without messages is left out." if sparse else ""
    if store.messages.timeless:
        about += f" Messages without such a time are in no bar: {texts.number(store.messages.timeless)}."
    rows = [[Cell(month(name), order), numeral(count)] for order, (name, count) in enumerate(bars[:ROWS])]
    columns, order = [(unit.capitalize(), False), ("Messages", True)], (unit.capitalize(), "ascending")
    listed = table("times", f"Messages by {unit}", columns, rows, len(bars), order, "narrow")
    return drawn, picture("times", "Messages over time", about) + listed


def names_of(row, names):
    """The folders that list a message, by their names."""
    if not row["folders"]:
        return Cell("none", kind="none")
    shown = [names.get(it) or it for it in row["folders"][:MOST_NAMES]]
    more = len(row["folders"]) - MOST_NAMES
    return text(", ".join(shown) + (f" and {more:,} more" if more > 0 else ""))


def message(row, names):
    """A row of a table of messages."""
    subject = None if row["subject"] is None else texts.subject(row["subject"])
    received = Cell("\u2014", "", "time") if row["received"] is None else Cell(texts.time(row["received"]), kind="time")
    numbers = numeral(row["attachments"]), node(row["nid"])
    return [text(subject), text(row["sender"]), received, numeral(row["size"]), names_of(row, names), *numbers]


def messages(store, name, caption, rows, total, order=None):
    """A table of messages."""
    columns = [("Subject", False), ("Sender", False), ("Received", False), ("Size", True), ("Folders", False), ("Attachments", True),
               ("Identifier", True)]
    names = {it["nid"]: it["name"] for it in store.folders}
    return table(name, caption, columns, [message(it, names) for it in rows], total, order)


def largest(store):
    """The largest messages."""
    rows = store.messages.largest_rows()
    if not rows:
        return paragraph("No message of it is whole." if store.is_part else "The store has no message.", "none")
    return messages(store, "largest", "The largest messages", rows, store.messages.count, ("Size", "descending"))


def unlisted(store):
    """The messages that no folder lists."""
    if not store.messages.unlisted:
        return paragraph(none(store.is_part), "none")
    about = paragraph(f"They are there and whole, but no {'whole ' * store.is_part}folder\u2019s table has a row for them.", "note")
    return about + messages(store, "unlisted", "Messages in no folder", store.messages.in_no_folder, store.messages.unlisted)
