"""Heaps, BTHs, property contexts and table contexts ([MS-PST] 2.3)."""
import struct

from stores.database import LONGEST_BODY
from stores.lists import data_of, data_tree, subnode_list

LONGEST_ITEM = 3580
ITEMS_IN_A_SPAN = 2000
BTH_CLIENT, PROPERTIES_CLIENT, TABLE_CLIENT = 0xB5, 0xBC, 0x7C

INTEGER16, INTEGER32, BOOLEAN, OBJECT = 0x0002, 0x0003, 0x000B, 0x000D
STRING, TIME, BINARY = 0x001F, 0x0040, 0x0102
ROW_ID, ROW_VERSION = 0x67F2, 0x67F3
INLINE_WIDTHS = {INTEGER16: 2, INTEGER32: 4, BOOLEAN: 1}
CELL_WIDTHS = {INTEGER16: 2, BOOLEAN: 1, TIME: 8}  # 4 for all others that are made here
KEY_FORMATS = {2: "<H", 4: "<I"}


def text(words):
    """A string as the store has it (2.11 of [MS-OXCDATA]): UTF-16 without an end."""
    return words.encode("utf-16-le")


class Heap:
    """A heap on a node (2.3.1): items in spans of at most 8,176 bytes, named by a span and a place in it."""

    def __init__(self, client):
        self.client = client
        self.spans = []
        self.begin_span()

    def begin_span(self):
        """The next items stand in a span of their own."""
        self.spans.append([])
        self.room = LONGEST_BODY - self._head_length(len(self.spans) - 1) - 4 - 2 - 1

    def add(self, item):
        """Adds an item; answers its identifier (2.3.1.1), 0 for an item without bytes."""
        if not item:
            return 0
        if len(item) + 2 > self.room or len(self.spans[-1]) == ITEMS_IN_A_SPAN:
            self.begin_span()
        self.spans[-1].append(item)
        self.room -= len(item) + 2
        return (len(self.spans) - 1) << 16 | len(self.spans[-1]) << 5

    def add_empty(self):
        """Adds an item without bytes; answers its identifier."""
        self.spans[-1].append(b"")
        self.room -= 2
        return (len(self.spans) - 1) << 16 | len(self.spans[-1]) << 5

    def replace(self, identifier, item):
        """Gives an item other bytes, as many as it had."""
        self.spans[identifier >> 16][(identifier >> 5) - 1 & 0x7FF] = item

    def bodies(self, user_root):
        """The bytes of each span; the first names the item that the heap's user begins with."""
        return [self._body(number, items, user_root) for number, items in enumerate(self.spans)]

    @staticmethod
    def _head_length(number):
        """HNHDR (2.3.1.2), HNBITMAPHDR (2.3.1.4) in the eighth span behind it and each 128th from there, or
        HNPAGEHDR (2.3.1.3)."""
        if number == 0:
            return 12
        return 66 if number % 128 == 8 else 2

    def _body(self, number, items, user_root):
        """One span: its head, its items, and behind them the map of their places (2.3.1.5)."""
        length = self._head_length(number)
        places = [length]
        for item in items:
            places.append(places[-1] + len(item))
        map_place = places[-1] + places[-1] % 2
        if number == 0:
            head = struct.pack("<HBBII", map_place, 0xEC, self.client, user_root, 0)
        else:
            head = struct.pack("<H", map_place).ljust(length, b"\0")
        body = (head + b"".join(items)).ljust(map_place, b"\0")
        return body + struct.pack(f"<HH{len(places)}H", len(items), 0, *places)


def add_bth(heap, key_size, data_size, records, in_a_leaf=None, empty=0, behind=0, levels=0):
    """Adds a BTH (2.3.2) of records, pairs of key and data whose keys rise; answers its header's identifier. In a
    leaf are so many, or as many as fit; and so many leaves without records, which are one item, stand behind that
    many of the others, in front of all where these are none. There are at least so many levels of branches, the upper
    ones of one record."""
    header = heap.add(struct.pack("<BBBBI", BTH_CLIENT, key_size, data_size, 0, 0))
    key_format, level, width = KEY_FORMATS[key_size], 0, key_size + data_size
    nothing = struct.pack("<I", heap.add_empty()) if empty else b""
    while True:
        per_item = level == 0 and in_a_leaf or LONGEST_ITEM // width
        above = []
        for first in range(0, len(records), per_item):
            mine = records[first:first + per_item]
            item = b"".join(struct.pack(key_format, key) + data for key, data in mine)
            above.append((mine[0][0], struct.pack("<I", heap.add(item))))
        if level == 0:
            least = above[behind - 1][0] + 1 if behind else 0
            above[behind:behind] = [(least + number, nothing) for number in range(empty)]
        if not above or len(above) == 1 and level >= levels:
            break
        records, level, width = above, level + 1, key_size + 4
    root = above[0][1] if above else bytes(4)
    heap.replace(header, struct.pack("<BBBB", BTH_CLIENT, key_size, data_size, level) + root)
    return header


class Context:
    """What property contexts and table contexts have in common: a heap, and subnodes for what it can't hold."""

    def __init__(self, store, client):
        self.store = store
        self.heap = Heap(client)
        self.subnodes = []

    def subnode(self, data, subnodes=0, identifier=None):
        """Adds a subnode of the context; answers its identifier."""
        if identifier is None:
            identifier = 0x100 + len(self.subnodes) << 5 | 0x1F
        self.subnodes.append((identifier, data, subnodes))
        return identifier

    def name_of(self, value):
        """The identifier (HNID, 2.3.3.2) of a value: of a heap item, or of a subnode where it is too long for one."""
        return self.heap.add(value) if len(value) <= LONGEST_ITEM else self.subnode(data_of(self.store, value))

    def subnode_list(self):
        """Writes the list of the subnodes, in order of their identifiers."""
        return subnode_list(self.store, sorted(self.subnodes))


class PropertyContext(Context):
    """The properties of an object (2.3.3)."""

    def __init__(self, store):
        super().__init__(store, PROPERTIES_CLIENT)
        self.records = {}

    def set(self, identifier, kind, value):
        """Sets a property: a number for the types that have one, else the value's bytes."""
        if kind in INLINE_WIDTHS:
            self.set_raw(identifier, kind, value)
        else:
            self.set_raw(identifier, kind, self.name_of(value))

    def set_raw(self, identifier, kind, raw):
        """Sets a property by the number that stands in its record (2.3.3.3)."""
        self.records[identifier] = struct.pack("<HI", kind, raw)

    def bodies(self, in_a_leaf=None):
        """The spans of the heap, with so many records in a leaf or as many as fit; nothing is set any more."""
        return self.heap.bodies(add_bth(self.heap, 2, 6, sorted(self.records.items()), in_a_leaf))

    def write(self):
        """Writes the context; answers its data and the list of its subnodes."""
        return data_tree(self.store, self.bodies()), self.subnode_list()


class TableContext(Context):
    """A table (2.3.4): columns, pairs of property and type, and rows, which have an identifier and cells. So many
    `doubles` are further columns that lie where these do, by turns."""

    def __init__(self, store, columns, doubles=0):
        super().__init__(store, TABLE_CLIENT)
        self.head = self.heap.add(bytes(22 + 8 * (len(columns) + 2 + doubles)))
        self.rows = []
        self.places = {ROW_ID: (INTEGER32, 0, 4, 0), ROW_VERSION: (INTEGER32, 4, 4, 1)}
        self.ends, place = [], 8
        for widths in ((8, 4), (2,), (1,)):
            for width in widths:
                for column, kind in columns:
                    if CELL_WIDTHS.get(kind, 4) == width:
                        self.places[column] = (kind, place, width, len(self.places))
                        place += width
            self.ends.append(place)
        self.ends.append(place + (len(self.places) + 7) // 8)
        for double in range(1, doubles + 1):
            self.places[columns[-1][0] + double] = self.places[columns[double % len(columns)][0]]

    def add(self, identifier, cells):
        """Adds a row: a number for each cell that has one, else the value's bytes. Identifiers rise."""
        row = bytearray(self.ends[3])
        self.rows.append((identifier, row))
        self._set(row, ROW_ID, identifier)
        self._set(row, ROW_VERSION, len(self.rows))
        for column, value in cells.items():
            kind = self.places[column][0]
            if kind in INLINE_WIDTHS or kind == TIME:
                self._set(row, column, value)
            else:
                self._set(row, column, self.name_of(value))

    def set_raw(self, column, raw):
        """Sets a cell of the last row by the number that stands in it."""
        self._set(self.rows[-1][1], column, raw)

    def _set(self, row, column, number):
        _, place, width, bit = self.places[column]
        row[place:place + width] = number.to_bytes(width, "little")
        row[self.ends[2] + bit // 8] |= 0x80 >> bit % 8

    def rows_in_a_block(self):
        """How many rows a block of the row matrix has."""
        return LONGEST_BODY // self.ends[3]

    def _matrix(self, rows, write_blocks):
        """Writes the rows (2.3.4.4): an item of the heap, or a subnode with whole rows in each block."""
        if len(rows) * self.ends[3] <= LONGEST_ITEM and write_blocks is data_tree:
            return self.heap.add(b"".join(rows))
        count = self.rows_in_a_block()
        bodies = [b"".join(rows[first:first + count]) for first in range(0, len(rows), count)]
        bodies[:-1] = [body.ljust(LONGEST_BODY, b"\0") for body in bodies[:-1]]
        return self.subnode(write_blocks(self.store, bodies))

    def write(self, numbers=None, period=1 << 32, write_blocks=data_tree, write_heap=data_tree, **leaves):
        """Writes the context; answers its data and the list of its subnodes. `numbers` are the rows' places in the
        matrix, in the order of their identifiers: one after another from 0 where they are not given. `write_blocks`
        writes the blocks of the matrix, which have the rows in the order of their places, and come again after
        `period` rows; `write_heap` writes the spans of the heap; `leaves` are `add_bth`'s words of the row
        index."""
        numbers = numbers or range(len(self.rows))
        records = [(row[0], struct.pack("<I", number)) for row, number in zip(self.rows, numbers)]
        index = add_bth(self.heap, 4, 4, records, **leaves)
        columns = sorted(self.places.items())
        rows = [row for _, (_, row) in sorted(zip(numbers, self.rows), key=lambda pair: pair[0] % period)]
        matrix = self._matrix(rows, write_blocks)
        head = struct.pack("<BB4HIII", TABLE_CLIENT, len(columns), *self.ends, index, matrix, 0)
        for column, (kind, place, width, bit) in columns:
            head += struct.pack("<HHHBB", kind, column, place, width, bit)
        self.heap.replace(self.head, head)
        return write_heap(self.store, self.heap.bodies(self.head)), self.subnode_list()
