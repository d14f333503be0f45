"""Sums over the messages of a store: nothing is kept of a message but what a table shows."""

import heapq
import json
from collections import Counter

ROWS = 500
MOST_BARS = 1200


class Messages:
    """What is summed up of the lines of `messages`."""

    def __init__(self):
        self.count = self.bytes = self.sizeless = self.timeless = self.unlisted = 0
        self.months, self.of_folder, self.bytes_of_folder = Counter(), Counter(), Counter()
        self.largest, self.in_no_folder = [], []

    def add(self, line):
        """One line of `messages`."""
        row = json.loads(line)
        self.count += 1
        size = row["size"]
        if size is None or size < 0:
            self.sizeless, size = self.sizeless + 1, 0
        self.bytes += size
        self.received(row["received"])
        for folder in row["folders"]:
            self.of_folder[folder] += 1
            self.bytes_of_folder[folder] += size
        if not row["folders"]:
            self.unlisted += 1
            if len(self.in_no_folder) < ROWS:
                self.in_no_folder.append(row)
        self.keep(size, row)

    def received(self, time):
        if time is None:
            self.timeless += 1
        else:
            self.months[time[:7]] += 1

    def keep(self, size, row):
        """Keeps a row where it is one of the largest; of equal ones the first."""
        entry = (size, -self.count, row)
        if len(self.largest) < ROWS:
            heapq.heappush(self.largest, entry)
        elif entry > self.largest[0]:
            heapq.heapreplace(self.largest, entry)

    def largest_rows(self):
        return [row for _, _, row in sorted(self.largest, reverse=True)]

    def bars(self):
        """How many messages of each month, or of each year where there are very many months; and which of both it is."""
        if len(self.months) <= MOST_BARS:
            return "month", sorted(self.months.items())
        years = Counter()
        for month, count in self.months.items():
            years[month[:4]] += count
        return "year", sorted(years.items())


class Folder:
    """A folder in the tree of those that the root folder reaches: its own bytes, and those below it too."""

    def __init__(self, row, messages):
        self.nid, self.name, self.path = row["nid"], row["name"], row["path"]
        self.listed = row["messages"]
        self.own = messages.bytes_of_folder[self.nid]
        self.all, self.below = self.own, []

    @property
    def parent(self):
        return self.path[-2] if self.path and len(self.path) > 1 else None


def folders_of(rows, messages):
    """The folders of a store, those that are reached in the order of the tree, and the lost ones."""
    every = [Folder(row, messages) for row in rows]
    reached = {it.nid: it for it in every if it.path}
    for it in sorted(reached.values(), key=lambda it: -len(it.path)):
        if it.parent in reached:
            reached[it.parent].all += it.all
            reached[it.parent].below.append(it)
    tops = [it for it in reached.values() if it.parent not in reached]
    return walked(tops), [it for it in every if not it.path]


def walked(tops):
    """Folders and all below them, each before those below it; of neighbours the one with the most bytes first."""
    left, made = [], []
    first = (lambda it: (it.all, -int(it.nid, 16)))
    left.extend(sorted(tops, key=first))
    while left:
        it = left.pop()
        made.append(it)
        left.extend(sorted(it.below, key=first))
    return made


def row(nid, above, kind, size, of, held=None):
    """A row of the tree that is drawn: its own bytes, which those below it have not, the folder it is of, and all that it holds."""
    return {"id": nid, "in": above, "kind": kind, "bytes": size, "of": of, "held": size if held is None else held}


def tiles(reached, lost):
    """The folders that have bytes as one tree, each row with the identifier of the one above; those that are lost are apart."""
    rows, more = reached_tiles(reached), lost_tiles(lost)
    if not rows or not more:
        return rows or more
    rows[0]["in"] = more[0]["in"] = "all"
    return [row("all", None, "all", 0, None, rows[0]["held"] + more[0]["held"]), *rows, *more]


def reached_tiles(folders, most=ROWS):
    """At most so many folders, the largest. What a folder above others has itself is a row of its own in it, as is what lies in
    those that have no row."""
    kept = {it.nid for it in sorted((it for it in folders if it.all), key=lambda it: (-it.all, len(it.path)))[:most]}
    rest, above = Counter(), {it.parent for it in folders if it.nid in kept}
    for it in folders:
        if it.nid not in kept and it.own:
            rest[next(nid for nid in reversed(it.path) if nid in kept)] += it.own
    rows = []
    for it in (it for it in folders if it.nid in kept):
        is_above = it.nid in above or rest[it.nid] > 0
        rows.append(row(it.nid, it.parent, "folder", 0 if is_above else it.own, it, it.all))
        if is_above and it.own:
            rows.append(row(f"{it.nid} own", it.nid, "own", it.own, it))
        if rest[it.nid]:
            rows.append(row(f"{it.nid} rest", it.nid, "rest", rest[it.nid], it))
    return rows


def lost_tiles(folders, most=ROWS):
    """The lost folders beside one another, below a row of their own."""
    ordered = sorted((it for it in folders if it.own), key=lambda it: -it.own)
    if not ordered:
        return []
    rest, held = sum(it.own for it in ordered[most:]), sum(it.own for it in ordered)
    rows = [row("lost", None, "lost", 0, None, held), *(row(it.nid, "lost", "folder", it.own, it) for it in ordered[:most])]
    return rows + [row("lost rest", "lost", "lost rest", rest, None)] * (rest > 0)
