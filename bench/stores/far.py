"""Stores that are made to be slow: what is named lies behind XBLOCKs or leaves without entries, or far from what
was named before it, so that a look-up that begins at the front passes much each time."""
import struct

from stores.contexts import BINARY, INTEGER32, OBJECT, STRING, PropertyContext, TableContext, text
from stores.database import LONGEST_BODY
from stores.hostile import PLAIN, SEARCH_FOLDER, TEXTS, identifiers, named_folders, roots, small_message
from stores.lists import BLOCKS_IN_A_LIST, data_tree, far_tree, leaf_list, repeated_tree, subnode_list, xblock, xxblock
from stores.mail import (ATTACHMENT_DATA, ATTACHMENT_METHOD, ATTACHMENTS, CONTENT_COUNT, CONTENTS, DISPLAY_NAME,
                         EMBEDDED_MESSAGE, RECIPIENTS, SUBJECT, context, table)

LISTS_OF_A_HEAP = 63
LAST_MESSAGE = 0x0FFFFFE4
EMBEDDED_OBJECT = struct.pack("<II", EMBEDDED_MESSAGE, 0)


def far_items(heap):
    """Two items in spans of their own."""
    items = []
    for word in ("one", "two"):
        heap.begin_span()
        items.append(heap.add(text(word)))
    heap.begin_span()
    return items


def far_values(store, properties=60_000):
    """PROPERTIES: a message with so many properties, which name by turns two items in two spans behind a thousand
    XBLOCKs without entries."""
    roots(store)
    made = PropertyContext(store)
    items = far_items(made.heap)
    for number in range(properties):
        made.set_raw(number + 1, BINARY, items[number % 2])
    store.node(0x200024, far_tree(store, made.bodies()))


def turning_cells(store, rows, columns):
    """A table of so many rows and columns, whose cells are by turns two places of a row, which name two items in two spans."""
    made = TableContext(store, [(DISPLAY_NAME, STRING), (DISPLAY_NAME + 0x1000, STRING)], doubles=columns - 4)
    items = far_items(made.heap)
    for number in range(rows):
        made.add(number, {})
        made.set_raw(DISPLAY_NAME, items[0])
        made.set_raw(DISPLAY_NAME + 0x1000, items[1])
    return made


def far_cells(store, rows=200, columns=255, messages=1):
    """ROWS COLUMNS MESSAGES: messages that share a table of so many recipients and columns, each under a list of
    its own; its cells are by turns two places of a row, which name two items in two spans behind a thousand XBLOCKs
    without entries."""
    roots(store)
    made = turning_cells(store, rows, columns)
    data, _ = made.write(write_heap=far_tree)
    message = small_message(store)
    for node in identifiers(messages + 1, 4)[1:]:
        store.node(node, message, leaf_list(store, [(RECIPIENTS, data, leaf_list(store, made.subnodes))]))


def far_names(store, count=2000):
    """COUNT: so many folders and messages, the latter listed by the root folder, which have one property context,
    all of which but its first span lies behind a thousand XBLOCKs without entries."""
    roots(store)
    made = PropertyContext(store)
    items = far_items(made.heap)
    for identifier, item in zip(TEXTS, items * 2):
        made.set_raw(identifier, STRING, item)
    data = far_tree(store, made.bodies())
    named_folders(store, count, data, 0)


def far_context(store, *properties):
    """The data of a property context with a text and these further properties, all of which but the first span of
    its heap lies behind a thousand XBLOCKs without entries."""
    made = PropertyContext(store)
    made.set_raw(SUBJECT, STRING, far_items(made.heap)[0])
    for identifier, kind, value in properties:
        made.set(identifier, kind, value)
    return far_tree(store, made.bodies())


def far_contexts(store, contexts=2000):
    """CONTEXTS: search folders that share such a property context, each under a list of its own."""
    roots(store)
    data = far_context(store)
    for node in identifiers(contexts, SEARCH_FOLDER):
        store.node(node, data, leaf_list(store, []))


def far_attachments(store, count=2000):
    """COUNT: a message with so many attachments, which share such a property context."""
    roots(store)
    data, nids = far_context(store, (ATTACHMENT_METHOD, INTEGER32, 1)), identifiers(count, 5)
    rows = (ATTACHMENTS, *table(store, [], [(row, {}) for row in nids]))
    store.node(0x200024, small_message(store), subnode_list(store, [rows] + [(row, data, 0) for row in nids]))


def far_listings(store, folders=2000):
    """FOLDERS: folders that share a table of one message, all of which but the first span of its heap lies behind a
    thousand XBLOCKs without entries."""
    roots(store)
    store.node(LAST_MESSAGE, small_message(store))
    made = TableContext(store, [])
    made.heap.begin_span()
    made.add(LAST_MESSAGE, {})
    data, _ = made.write(write_heap=far_tree)
    properties = context(store, [(CONTENT_COUNT, INTEGER32, 1)]).write()
    for node in identifiers(folders, 2):
        store.node(node, *properties)
        store.node(node & ~0x1F | CONTENTS, data)


def far_object(store):
    """The object that names an embedded message, as the data of a subnode of 1,021 x 1,021 spans, of which all but the last
    have no byte; and the data of an attachment that has it."""
    none = [store.block(b"")] * (BLOCKS_IN_A_LIST - 1)
    length = len(EMBEDDED_OBJECT)
    lists = [xblock(store, none, 0)] * (BLOCKS_IN_A_LIST - 1)
    lists.append(xblock(store, none + [store.block(EMBEDDED_OBJECT)], length))
    value = xxblock(store, lists, length)
    made = PropertyContext(store)
    made.set(ATTACHMENT_METHOD, INTEGER32, 5)
    made.set_raw(ATTACHMENT_DATA, OBJECT, PLAIN)
    return value, data_tree(store, made.bodies())


def far_objects(store, count=2000):
    """COUNT: a message with so many attachments, each under a list of its own, which embed all the same message;
    the object that names it is a subnode of 1,021 x 1,021 spans, of which all but the last have no byte."""
    roots(store)
    message = small_message(store)
    value, held = far_object(store)
    nids = identifiers(count, 5)
    rows = (ATTACHMENTS, *table(store, [], [(row, {}) for row in nids]))
    entries = [(row, held, leaf_list(store, [(PLAIN, value, 0), (EMBEDDED_MESSAGE, message, 0)])) for row in nids]
    store.node(0x200024, message, subnode_list(store, [rows] + entries))


def short_leaves(store, records=60_000, far=1):
    """RECORDS FAR: a message with so many properties, whose BTH has a leaf for each; where FAR is 1, all but the
    first span of its heap lie behind a thousand XBLOCKs without entries."""
    roots(store)
    made = PropertyContext(store)
    made.heap.begin_span()
    for number in range(records):
        made.set_raw(number + 1, INTEGER32, 7)
    store.node(0x200024, (far_tree if far else data_tree)(store, made.bodies(in_a_leaf=1)))


def empty_leaves(store, folders=5000, leaves=50_000):
    """FOLDERS LEAVES: folders that share a table of one message, whose row index has so many leaves without records
    in front of it."""
    roots(store)
    store.node(LAST_MESSAGE, small_message(store))
    made = TableContext(store, [])
    made.add(LAST_MESSAGE, {})
    data, _ = made.write(empty=leaves)
    properties = context(store, [(CONTENT_COUNT, INTEGER32, 1)]).write()
    for node in identifiers(folders, 2):
        store.node(node, *properties)
        store.node(node & ~0x1F | CONTENTS, data)


def leaves_behind(store, messages=100, leaves=1000, rows=1, far=1):
    """MESSAGES LEAVES ROWS FAR: messages that share a table of so many attachments, each under a list of its own;
    behind the first row the row index has so many leaves without records. Where FAR is 1, all but the first span of
    the table's heap lie behind a thousand XBLOCKs without entries."""
    roots(store)
    message, attached = small_message(store), context(store, [(ATTACHMENT_METHOD, INTEGER32, 1)]).write()[0]
    nids = identifiers(rows * (leaves + 1), 5)[::leaves + 1]
    made = TableContext(store, [])
    if far:
        made.heap.begin_span()
    for row in nids:
        made.add(row, {})
    data, _ = made.write(write_heap=far_tree if far else data_tree, in_a_leaf=1, empty=leaves, behind=1)
    entries = [(ATTACHMENTS, data, 0)] + [(row, attached, 0) for row in nids]
    for node in identifiers(messages, 4):
        store.node(node, message, leaf_list(store, entries))


def many_leaves(store, folders=5000, messages=5000):
    """FOLDERS MESSAGES: folders that share a table of so many messages, whose row index has a leaf for each."""
    roots(store)
    nodes = identifiers(messages, 4)
    made = TableContext(store, [])
    for node in nodes:
        made.add(node, {})
    data, subnodes = made.write(in_a_leaf=1)
    message, properties = small_message(store), context(store, [(CONTENT_COUNT, INTEGER32, messages)]).write()
    for node in nodes:
        store.node(node, message)
    for node in identifiers(folders, 2):
        store.node(node, *properties)
        store.node(node & ~0x1F | CONTENTS, data, subnodes)


def far_rows(store, rows=60_000):
    """ROWS: a message with a table of so many recipients, whose rows lie in a row matrix of 1,021 times the same
    XBLOCK, each row in the last XBLOCK of some 32."""
    roots(store)
    made = TableContext(store, [])
    for number in range(rows):
        made.add(number, {})
    count = made.rows_in_a_block()
    period = -(-rows // count) * count
    numbers = [(number * 7 % 31 * 32 + 31) * period + number for number in range(rows)]
    store.node(0x200024, small_message(store), leaf_list(store, [
        (RECIPIENTS, *made.write(numbers, period, repeated_tree))]))


def shared_matrix(store, folders=5000, count=60_000):
    """FOLDERS COUNT: folders that share a table of one message, whose row matrix is the least of so many subnodes,
    in a list whose identifiers fall."""
    roots(store)
    made = TableContext(store, [])
    store.node(LAST_MESSAGE, small_message(store))
    made.add(LAST_MESSAGE, {})
    data, _ = made.write(write_blocks=lambda store, bodies: data_tree(store, bodies))
    (matrix, block, _), = made.subnodes
    entries = [(matrix, block, 0)] + [(entry, 0, 0) for entry in identifiers(count, PLAIN)]
    shared, properties = subnode_list(store, entries[::-1]), context(store, [(CONTENT_COUNT, INTEGER32, 1)]).write()
    for node in identifiers(folders, 2):
        store.node(node, *properties)
        store.node(node & ~0x1F | CONTENTS, data, shared)


def full_map():
    """A span of a heap that is right in every place but the first, and whose page map has as many items as there is
    room for, all without bytes."""
    head = struct.pack("<H", 66).ljust(66, b"\0")
    count = (LONGEST_BODY - len(head) - 6) // 2
    return head + struct.pack("<HH", count, 0) + struct.pack("<H", len(head)) * (count + 1)


def page_maps(store, lists=126):
    """LISTS: messages whose heaps have XBLOCKs of their own, so many in all, each of 1,021 times the one span with
    a page map of some 4,000 items."""
    roots(store)
    body = full_map()
    spans = [store.block(body)] * BLOCKS_IN_A_LIST
    first = context(store, [(SUBJECT, STRING, text("Page maps"))]).bodies()
    for node in identifiers(-(-lists // LISTS_OF_A_HEAP), 4):
        own = [xblock(store, [store.block(*first)], len(*first))]
        count = min(lists, LISTS_OF_A_HEAP)
        lists -= count
        own += [xblock(store, spans, len(body) * BLOCKS_IN_A_LIST) for _ in range(count)]
        store.node(node, xxblock(store, own, len(*first) + len(body) * BLOCKS_IN_A_LIST * count))


def few_maps(store, messages=3000):
    """MESSAGES: messages whose heaps are XBLOCKs of their own, of a first span and 15 times the one span with a
    page map of some 4,000 items."""
    roots(store)
    body = full_map()
    first = context(store, [(SUBJECT, STRING, text("Page maps"))]).bodies()
    spans = [store.block(*first)] + [store.block(body)] * 15
    for node in identifiers(messages, 4):
        store.node(node, xblock(store, spans, len(*first) + 15 * len(body)))


MAKERS = (far_values, far_cells, far_names, far_contexts, far_attachments, far_listings, far_objects, shared_matrix,
          short_leaves, empty_leaves, leaves_behind, many_leaves, far_rows, page_maps, few_maps)
