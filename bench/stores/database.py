"""The node database: blocks, the two B-trees, the allocation maps and the header ([MS-PST] 2.2.2)."""
import struct
import zlib

FIRST_MAP = 0x4400
REGION = 253_952
UNIT = 64
UNITS = REGION // UNIT
PAGE = 512
LONGEST_BODY = 8176
BLOCK_TREE, NODE_TREE, PAGE_MAP, ALLOCATION_MAP = 0x80, 0x81, 0x83, 0x84
LEAF_SIZES = {BLOCK_TREE: 24, NODE_TREE: 32}
PAGE_ENTRIES = 488
DEEPEST = 16


def check_value(data):
    """The check value of 5.3: the register begins at 0 and is not inverted at the end."""
    return zlib.crc32(data, 0xFFFFFFFF) ^ 0xFFFFFFFF


def signature(place, identifier):
    """The signature of a block or page of a B-tree (5.5)."""
    mixed = place ^ identifier
    return (mixed >> 16 ^ mixed) & 0xFFFF


def page(body, kind, place, identifier):
    """A page of 512 bytes: 496 of its own and the trailer (2.2.2.7.1)."""
    body = body.ljust(PAGE - 16, b"\0")
    sealed = signature(place, identifier) if kind in LEAF_SIZES else 0
    return body + struct.pack("<BBHIQ", kind, kind, sealed, check_value(body), identifier)


FOLDER, MESSAGE = 0x02, 0x04  # types of nodes


class NodeDatabase:
    """A store that is being written to a file open for writing.

    `block` writes a block and answers its identifier, `node` names a node, `close` writes the rest. Before that may
    be set: `fan_out`, how many entries a page of a tree has (as many as fit where it is None), `levels`, how many
    levels a tree has at least, `top`, which folder those folders and messages name as their parent that name none, and
    `mark_every_other`, whether every other free unit is marked as allocated."""

    def __init__(self, file):
        self.file = file
        self.fan_out = None
        self.levels = 1
        self.top = 0
        self.mark_every_other = False
        self.written = 0
        self.marks = bytearray()  # a letter for each unit of 64 bytes: 1 where it is allocated, else 0
        self.blocks = []
        self.nodes = {}
        self.next_block = 4
        self.next_page = 4
        self._pad(FIRST_MAP)
        self._begin_region()

    def block(self, body, internal=False):
        """Writes a block (2.2.2.8) of at most 8,176 bytes; answers its identifier (2.2.2.2), in which bit 1 says that
        the block is internal."""
        if len(body) > LONGEST_BODY:
            raise ValueError(f"a block of {len(body)} bytes")
        identifier = self.next_block | (2 if internal else 0)
        self.next_block += 4
        size = -(-(len(body) + 16) // UNIT) * UNIT
        place = self._place(size, UNIT)
        trailer = struct.pack("<HHIQ", len(body), signature(place, identifier), check_value(body), identifier)
        self._write(bytes(body).ljust(size - 16, b"\0") + trailer)
        self.blocks.append((identifier, struct.pack("<QQHHI", identifier, place, len(body), 2, 0)))
        return identifier

    def wrong_blocks(self, count):
        """Names so many blocks of 8,176 bytes on one another: each begins 64 bytes behind the one before it, and has a
        trailer of its own, whose check value is wrong."""
        behind = LONGEST_BODY // UNIT  # units before the one in which the trailer of a block lies
        place = self._place((behind + count) * UNIT, UNIT)
        units = [bytes(UNIT)] * behind
        for first in range(place, place + count * UNIT, UNIT):
            identifier = self.next_block
            self.next_block += 4
            trailer = struct.pack("<HHIQ", LONGEST_BODY, signature(first, identifier), 1, identifier)
            units.append(trailer.rjust(UNIT, b"\0"))
            self.blocks.append((identifier, struct.pack("<QQHHI", identifier, first, LONGEST_BODY, 2, 0)))
        self._write(b"".join(units))

    def node(self, identifier, data, subnodes=0, parent=0):
        """Names a node (2.2.2.7.7.4): its data, the list of its subnodes, its parent."""
        if identifier in self.nodes:
            raise ValueError(f"the node {identifier:#x} twice")
        above = self.top if parent == 0 and identifier & 0x1F in (FOLDER, MESSAGE) else parent
        self.nodes[identifier] = struct.pack("<QQQII", identifier, data, subnodes, above, 0)

    def close(self):
        """Writes both trees, the maps and the header."""
        nodes = self._tree(NODE_TREE, sorted(self.nodes.items()))
        blocks = self._tree(BLOCK_TREE, self.blocks)
        self._pad(FIRST_MAP + len(self.marks) * UNIT)
        if self.mark_every_other:
            self._mark()
        for number in range(len(self.marks) // UNITS):
            self._maps(number)
        self.file.seek(0)
        self.file.write(self._header(nodes, blocks))

    def add_regions(self, count):
        """Room of so many more regions of 253,952 bytes, of which nothing is used but their maps."""
        for _ in range(count):
            self._pad(FIRST_MAP + len(self.marks) * UNIT)
            self._begin_region()

    def _begin_region(self):
        """Room for 253,952 more bytes: an allocation map, and a page map in every eighth of them (2.2.2.7.2, .3)."""
        maps = 16 if len(self.marks) // UNITS % 8 == 0 else 8
        self.marks += b"1" * maps + b"0" * (UNITS - maps)
        self._pad(self.written + maps * UNIT)

    def _place(self, size, align):
        """The next free place of so many bytes; what is passed over stays free."""
        place = -(-self.written // align) * align
        end = FIRST_MAP + len(self.marks) * UNIT
        if place + size > end:
            self._pad(end)
            self._begin_region()
            place = -(-self.written // align) * align
        self._pad(place)
        first = (place - FIRST_MAP) // UNIT
        self.marks[first:first + size // UNIT] = b"1" * (size // UNIT)
        return place

    def _pad(self, place):
        self._write(bytes(place - self.written))

    def _write(self, data):
        self.file.write(data)
        self.written += len(data)

    def _tree(self, kind, entries):
        """Writes the pages of a B-tree (2.2.2.7.7), its leaves first; answers the reference (2.2.2.4) to its root."""
        size, level = LEAF_SIZES[kind], 0
        while True:
            per_page = self.fan_out or PAGE_ENTRIES // size
            above = []
            for first in range(0, len(entries) or 1, per_page):
                mine = entries[first:first + per_page]
                reference = self._tree_page(kind, level, size, [entry for _, entry in mine])
                key = mine[0][0] if mine else 0
                above.append((key, struct.pack("<QQQ", key, *reference)))
            entries, size, level = above, 24, level + 1
            if len(entries) == 1 and level >= self.levels:
                return reference

    def _tree_page(self, kind, level, size, entries):
        """Writes one page of a B-tree (2.2.2.7.7.1); answers the reference to it."""
        place = self._place(PAGE, PAGE)
        identifier = self.next_page
        self.next_page += 4
        body = b"".join(entries).ljust(PAGE_ENTRIES, b"\0")
        body += bytes([len(entries), PAGE_ENTRIES // size, size, level])
        self._write(page(body, kind, place, identifier))
        return identifier, place

    def _mark(self):
        for number in range(0, len(self.marks) - 1, 2):
            if self.marks[number:number + 2] == b"00":
                self.marks[number] = ord("1")

    def _maps(self, number):
        """Writes an allocation map (2.2.2.7.2), and behind every eighth a page map (2.2.2.7.3) that says nothing."""
        place = FIRST_MAP + number * REGION
        bits = int(self.marks[number * UNITS:(number + 1) * UNITS], 2).to_bytes(UNITS // 8, "big")
        self.file.seek(place)
        self.file.write(page(bits, ALLOCATION_MAP, place, place))
        if number % 8 == 0:
            self.file.write(page(b"\xff" * 496, PAGE_MAP, place + PAGE, place + PAGE))

    def _header(self, nodes, blocks):
        """The header (2.2.2.6) of 564 bytes, with its ROOT (2.2.2.5)."""
        header = bytearray(564)
        struct.pack_into("<2sHHBB", header, 8, b"SM", 23, 19, 1, 1)
        struct.pack_into("<Q", header, 32, self.next_page)
        last = len(self.marks) // UNITS - 1
        free = self.marks.count(b"0") * UNIT
        struct.pack_into("<QQQQ", header, 184, self.written, FIRST_MAP + last * REGION, free, 0)
        struct.pack_into("<QQQQB", header, 216, *nodes, *blocks, 2)
        header[256:512] = b"\xff" * 256
        struct.pack_into("<BB", header, 512, 0x80, 0)
        struct.pack_into("<Q", header, 516, self.next_block)
        struct.pack_into("<4sI", header, 0, b"!BDN", check_value(header[8:8 + 471]))
        struct.pack_into("<I", header, 524, check_value(header[8:8 + 516]))
        return header
