"""Stores that are made to be slow: a long list of subnodes and another one are asked by turns, where the index of the one that
was asked last is kept; or an index is thought to be worth less than it is."""
from stores.contexts import BINARY, INTEGER32, OBJECT, STRING, PropertyContext, text
from stores.far import EMBEDDED_OBJECT
from stores.hostile import PLAIN, ROOT, SEARCH_FOLDER, TEXTS, identifiers, named_folders, ordered, roots, small_message
from stores.lists import data_tree, far_tree, leaf_list, leaf_lists, list_over, subnode_list, xblock
from stores.mail import (ATTACHMENT_DATA, ATTACHMENT_METHOD, ATTACHMENTS, CONTENTS, DISPLAY_NAME, EMBEDDED_MESSAGE, context,
                         table)

FILLER = 200  # bytes of a heap that no property has


def two_lists(store, count, order, value=0):
    """A list of so many subnodes, the least of which has this data, and a list of that one alone; and its identifier."""
    least, *more = [(entry, 0, 0) for entry in identifiers(count, PLAIN)]
    least = (least[0], value, 0)
    return [subnode_list(store, ordered([least] + more, order)), leaf_list(store, [least])], least[0]


def turning_scans(store, contexts=6000, count=60_000, order="falling"):
    """CONTEXTS COUNT ORDER: search folders with data of their own, which are one span of less than 512 bytes with 50
    properties, all the least of so many subnodes, by turns with the list of these, which is rising, falling or shuffled,
    and with a list of that one alone."""
    roots(store)
    lists, least = two_lists(store, count, order)
    made = PropertyContext(store)
    for number in range(50):
        made.set_raw(number + 1, BINARY, least)
    span, = made.bodies()
    block = store.block(span)
    for number, node in enumerate(identifiers(contexts, SEARCH_FOLDER)):
        store.node(node, xblock(store, [block], len(span)), lists[number % 2])


def turning_names(store, count=8000, entries=80_000, order="falling"):
    """COUNT ENTRIES ORDER: shared_names, but that every other folder, and message, has a list of the one subnode
    alone."""
    roots(store)
    lists, least = two_lists(store, entries, order, store.block(text("name")))
    made = PropertyContext(store)
    for identifier in TEXTS:
        made.set_raw(identifier, STRING, least)
    named_folders(store, count, data_tree(store, made.bodies()), *lists)


def turning_attachments(store, count=20_000, entries=60_000, order="falling", long=0):
    """COUNT ENTRIES ORDER LONG: a message with so many attachments, which have one context, whose name is the least of so
    many subnodes, by turns with the list of these, which is rising, falling or shuffled, and with a list of that one alone.
    Where LONG is 1, the context has more than 199 bytes."""
    roots(store)
    lists, least = two_lists(store, entries, order, store.block(text("name")))
    made = context(store, [(ATTACHMENT_METHOD, INTEGER32, 1)])
    made.set_raw(DISPLAY_NAME, STRING, least)
    if long:
        made.heap.add(bytes(FILLER))
    data, nids = data_tree(store, made.bodies()), identifiers(count, 5)
    rows = (ATTACHMENTS, *table(store, [], [(row, {}) for row in nids]))
    held = [(row, data, lists[number % 2]) for number, row in enumerate(nids)]
    store.node(0x200024, small_message(store), subnode_list(store, [rows] + held))


def listed_objects(store, count=9000, entries=60_000, order="falling"):
    """COUNT ENTRIES ORDER: a message with so many attachments, whose data are their own XBLOCKs of one block, and which share
    a list of so many subnodes, which is rising, falling or shuffled; the least is the object that names the message which
    they embed, the next."""
    roots(store)
    message, nids, made = small_message(store), identifiers(count, 5), PropertyContext(store)
    made.set(ATTACHMENT_METHOD, INTEGER32, 5)
    made.set_raw(ATTACHMENT_DATA, OBJECT, PLAIN)
    span, = made.bodies()
    block, value = store.block(span), store.block(EMBEDDED_OBJECT)
    held = [(PLAIN, value, 0), (EMBEDDED_MESSAGE, message, 0)]
    more = [(entry, 0, 0) for entry in identifiers(entries, PLAIN) if entry > EMBEDDED_MESSAGE]
    shared, rows = subnode_list(store, ordered(held + more, order)), table(store, [], [(row, {}) for row in nids])
    attached = [(row, xblock(store, [block], len(span)), shared) for row in nids]
    store.node(0x200024, message, subnode_list(store, [(ATTACHMENTS, *rows)] + attached))


def hollow_lists(store, messages=400, count=60_000, rows=197):
    """MESSAGES COUNT ROWS: messages with lists of their own over shared SLBLOCKs of COUNT subnodes, whose identifiers
    rise, and one without subnodes in the middle; the last ROWS are attachments, of which they share a table."""
    roots(store)
    message, nids = small_message(store), identifiers(count, 5)
    held = context(store, [(ATTACHMENT_METHOD, INTEGER32, 1)]).write()[0]
    attached = (ATTACHMENTS, *table(store, [], [(row, {}) for row in nids[-rows:]]))
    entries = [(row, 0, 0) for row in nids[:-rows]] + [(row, held, 0) for row in nids[-rows:]]
    leaves = leaf_lists(store, [attached] + entries)
    middle = (len(leaves) + 1) // 2  # where halving begins
    leaves[middle:middle] = [(leaves[middle][0], leaf_list(store, []))]
    for node in identifiers(messages, 4):
        store.node(node, message, list_over(store, leaves))


def turning_data(store, count=8000):
    """COUNT: so many folders and messages, the latter listed by the root folder, which have by turns one of two contexts, whose
    texts are in the first span of the heap, and behind it a thousand XBLOCKs without entries."""
    roots(store)
    data = []
    for word in ("one", "two"):
        made = PropertyContext(store)
        item = made.heap.add(text(word))
        for identifier in TEXTS:
            made.set_raw(identifier, STRING, item)
        made.heap.begin_span()
        made.heap.add(b"end")
        data.append(far_tree(store, made.bodies()))
    nodes = identifiers(count, 4)
    for number, node in enumerate(nodes):
        store.node(node, data[number % 2], 0)
        store.node(node - 2, data[number % 2], 0)
    store.node(ROOT & ~0x1F | CONTENTS, *table(store, [], [(node, {}) for node in nodes]))


MAKERS = (turning_scans, turning_names, turning_attachments, listed_objects, hollow_lists, turning_data)
