"""Stores that are made to be slow: long lists, tables, heaps and values, in which much is looked up."""
import struct

from stores.contexts import BINARY, STRING, PropertyContext, TableContext, text
from stores.database import LONGEST_BODY
from stores.hostile import PLAIN, attachment_entries, identifiers, ordered, roots, small_message
from stores.lists import BLOCKS_IN_A_LIST, SUBNODES_IN_A_LEAF, data_tree, leaf_list, subnode_list, xblock, xxblock
from stores.mail import DISPLAY_NAME, NAME_MAP, RECIPIENTS


def attachments(store, count=40_000, order="rising"):
    """COUNT ORDER: a message with so many attachments; its list of subnodes is rising, falling or shuffled."""
    roots(store)
    store.node(0x200024, small_message(store), subnode_list(store, ordered(attachment_entries(store, count), order)))


def wide_heap(store, spans=60_000, in_a_list=BLOCKS_IN_A_LIST):
    """SPANS LIST: a message whose heap has so many spans, so many in an XBLOCK, and a property in nearly each, of
    which none lies beside the property before it."""
    roots(store)
    made = PropertyContext(store)
    places = []
    for number in range(spans - 200):
        made.heap.begin_span()
        places.append(made.name_of(struct.pack("<Q", number)))
    for number, place in enumerate(ordered(places, "shuffled")):
        made.set_raw(number + 1, BINARY, place)
    store.node(0x200024, data_tree(store, made.bodies(), in_a_list))


def empty_spans(store, properties=600, ends=0):
    """PROPERTIES ENDS: a message so many properties of which name one subnode of 1,021 x 1,021 spans without bytes;
    where ENDS is 1, the first span and the last have a byte each."""
    roots(store)
    empty, one = store.block(b""), store.block(b"\7")
    middle = [xblock(store, [empty] * BLOCKS_IN_A_LIST, 0)] * BLOCKS_IN_A_LIST
    if ends:
        middle[0] = xblock(store, [one] + [empty] * (BLOCKS_IN_A_LIST - 1), 1)
        middle[-1] = xblock(store, [empty] * (BLOCKS_IN_A_LIST - 1) + [one], 1)
    made = PropertyContext(store)
    place = made.subnode(xxblock(store, middle, 2 * ends))
    for number in range(properties):
        made.set_raw(number + 1, BINARY, place)
    store.node(0x200024, *made.write())


def table_cells(store, rows=30_000, order="rising"):
    """ROWS ORDER: a message with a table of so many recipients, each with a cell in a subnode of its own; the list of
    these is rising, falling or shuffled."""
    roots(store)
    made = TableContext(store, [(DISPLAY_NAME, STRING)])
    value = store.block(text("Reader"))
    for number in range(rows):
        made.add(number, {DISPLAY_NAME: b""})
        made.set_raw(DISPLAY_NAME, made.subnode(value))
    data, _ = made.write()
    inner = subnode_list(store, ordered(sorted(made.subnodes), order))
    store.node(0x200024, small_message(store), leaf_list(store, [(RECIPIENTS, data, inner)]))


def wide_table(store, rows=20_000, order="shuffled"):
    """ROWS ORDER: a message with a table of so many recipients and of 255 columns, of which all but two are the same
    bytes of a row and the same bit; each cell is in a subnode. The standard wants columns apart, the program takes
    them."""
    roots(store)
    made = TableContext(store, [(DISPLAY_NAME, STRING)], doubles=252)
    value = store.block(text("Reader"))
    for number in range(rows):
        made.add(number, {})
        made.set_raw(DISPLAY_NAME, made.subnode(value))
    data, _ = made.write()
    inner = subnode_list(store, ordered(sorted(made.subnodes), order))
    store.node(0x200024, small_message(store), leaf_list(store, [(RECIPIENTS, data, inner)]))


def leaf_cells(store, rows=60_000, order="falling"):
    """ROWS ORDER: wide_table, but that all cells are in one subnode, the least of an SLBLOCK of 340, which is rising,
    falling or shuffled."""
    roots(store)
    made, value = TableContext(store, [(DISPLAY_NAME, STRING)], doubles=252), store.block(text("Reader"))
    place = made.subnode(value)
    for number in range(rows):
        made.add(number, {})
        made.set_raw(DISPLAY_NAME, place)
    data, _ = made.write()
    more = [(entry, 0, 0) for entry in identifiers(SUBNODES_IN_A_LEAF - len(made.subnodes), PLAIN)]
    inner = leaf_list(store, ordered(sorted(made.subnodes) + more, order))
    store.node(0x200024, small_message(store), leaf_list(store, [(RECIPIENTS, data, inner)]))


def scattered_rows(store, rows=60_000, order="falling", lists=512):
    """ROWS ORDER: a message with a table of so many recipients, whose rows are in the last of 522,752 blocks of a
    row matrix of 4 GB; all others are one block. Their places are rising, falling or shuffled as their identifiers
    rise."""
    roots(store)
    made = TableContext(store, [])
    for number in range(rows):
        made.add(number, {})
    length = LONGEST_BODY * BLOCKS_IN_A_LIST
    unused = xblock(store, [store.block(bytes(LONGEST_BODY))] * BLOCKS_IN_A_LIST, length)

    def write_blocks(store, bodies):
        own = sum(map(len, bodies))
        last = xblock(store, [store.block(body) for body in bodies], own)
        return xxblock(store, [unused] * lists + [last], length * lists + own)

    first = lists * BLOCKS_IN_A_LIST * made.rows_in_a_block()
    numbers = [first + number for number in ordered(list(range(rows)), order)]
    held = (RECIPIENTS, *made.write(numbers, write_blocks=write_blocks))
    store.node(0x200024, small_message(store), leaf_list(store, [held]))


def subnode_properties(store, count=40_000, order="falling", kind=4):
    """COUNT ORDER KIND: a node of a type, 4 of which is a message, with so many properties, each in a subnode of
    its own; the list of these is rising, falling or shuffled."""
    roots(store)
    made = PropertyContext(store)
    value = store.block(text("value"))
    for number in range(count):
        made.set_raw(number + 1, BINARY, made.subnode(value))
    data, _ = made.write()
    store.node(0x200020 | kind, data, subnode_list(store, ordered(sorted(made.subnodes), order)))


def named_entries(store, lists=BLOCKS_IN_A_LIST, length=4096):
    """LISTS LENGTH: a name map whose entries are so many XBLOCKs of 1,021 times one block of so many bytes, each a
    name that is a string; the strings, all empty, are as many such blocks."""
    roots(store)

    def spelt(body):
        whole = len(body) * BLOCKS_IN_A_LIST
        return xxblock(store, [xblock(store, [store.block(body)] * BLOCKS_IN_A_LIST, whole)] * lists, whole * lists)

    entries = [struct.pack("<IHH", number * length, 1, number) for number in range(length // 8)]
    made = PropertyContext(store)
    made.set_raw(3, BINARY, made.subnode(spelt(b"".join(entries))))
    made.set_raw(4, BINARY, made.subnode(spelt(bytes(length))))
    store.node(NAME_MAP, *made.write())


def deep_trees(store, nodes=20_000):
    """NODES: B-trees of 16 levels, two entries on a page, over so many messages with data of their own."""
    roots(store)
    store.fan_out, store.levels = 2, 16
    for number, node in enumerate(identifiers(nodes, 4)):
        store.node(node, small_message(store, number))


def lost_runs(store, regions=80):
    """REGIONS: regions of 253,952 bytes in which nothing is used, and every other unit of 64 bytes is marked as
    allocated; a check tells all of these."""
    roots(store)
    store.add_regions(regions)
    store.mark_every_other = True


MAKERS = (attachments, subnode_properties, table_cells, wide_table, leaf_cells, scattered_rows, empty_spans, wide_heap,
          named_entries, deep_trees, lost_runs)
