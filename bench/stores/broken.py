"""Damaged stores that are made to be slow for `damage`: what many nodes share is broken at its end, or much is broken. They
are no stores, so `check` refuses them."""
from stores.contexts import BINARY, INTEGER32, STRING, PropertyContext, TableContext, text
from stores.far import full_map
from stores.hostile import (PLAIN, SEARCH_FOLDER, attachment_entries, chosen, embedding_context, identifiers, ordered,
                            recipients_of_all, roots, small_message)
from stores.lists import (BLOCKS_IN_A_LIST, SUBNODES_IN_A_LEAF, data_tree, leaf_list, leaf_lists, list_over, subnode_list,
                          xblock, xxblock)
from stores.mail import (ATTACHMENT_METHOD, ATTACHMENTS, DISPLAY_NAME, EMBEDDED_MESSAGE, SUBJECT, context, table)

NO_BLOCK = 0x7FFF_FFF0  # the identifier of a block that is not there
NO_ITEM = 0x0000_FFE0  # that of an item in the first span of a heap, which has not so many
GUID = 0x0048  # a type whose values have 16 bytes
SUNK = 3800  # blocks that lie on one another, as many as there is room for behind one allocation map


def missing_rows(store, messages=4000, count=4000):
    """MESSAGES COUNT: messages that are one context under one list, whose table of so many attachments names in its
    last row one that is not there."""
    roots(store)
    shared, message = subnode_list(store, attachment_entries(store, count)[:-1]), small_message(store)
    for node in identifiers(messages, 4):
        store.node(node, message, shared)


def own_missing(store, messages=4000, rows=100_001, tables=1, in_a_leaf=1):
    """MESSAGES ROWS TABLES IN_A_LEAF: messages with a list of their own each, and by turns one of so many tables of attachments,
    none of which is there; a table has so many rows, and so many of them in a leaf of its row index, where 0 is as many as fit."""
    roots(store)
    message, made = small_message(store), []
    for number in range(tables):
        rows_of = TableContext(store, [])
        for named in identifiers(rows + number, 5):
            rows_of.add(named, {})
        made.append(rows_of.write(in_a_leaf=in_a_leaf or None))
    for number, (node, own) in enumerate(zip(identifiers(messages, 4), identifiers(messages, PLAIN))):
        store.node(node, message, leaf_list(store, [(ATTACHMENTS, *made[number % tables]), (own, 0, 0)]))


def wrong_holders(store, messages=10_000, count=10_000):
    """MESSAGES COUNT: messages with a list of their own each and one attachment, which they share; it embeds a message with
    so many attachments, which are one context, and whose table names in its last row a subnode that is no attachment."""
    roots(store)
    message, held, row = small_message(store), embedding_context(store), identifiers(1, 5)[0]
    rows = identifiers(count, 5) + identifiers(count + 1, PLAIN)[-1:]
    data = context(store, [(ATTACHMENT_METHOD, INTEGER32, 1)]).write()[0]
    entries = [(ATTACHMENTS, *table(store, [], [(named, {}) for named in rows]))] + [(named, data, 0) for named in rows]
    inner, made = leaf_list(store, [(EMBEDDED_MESSAGE, message, subnode_list(store, entries))]), table(store, [], [(row, {})])
    for node in identifiers(messages, 4):
        store.node(node, message, leaf_list(store, [(ATTACHMENTS, *made), (row, held, inner)]))


def broken_maps(store, messages=2000):
    """MESSAGES: messages whose heaps have XXBLOCKs of their own over shared XBLOCKs: one of the first span, and one of
    1,020 times a span with a page map of some 4,000 items, and of one whose page map is broken."""
    roots(store)
    first, = context(store, [(SUBJECT, STRING, text("Page maps"))]).bodies()
    body, bad = full_map(), b"\xFF" * 66
    length = (BLOCKS_IN_A_LIST - 1) * len(body) + len(bad)
    shared = xblock(store, [store.block(body)] * (BLOCKS_IN_A_LIST - 1) + [store.block(bad)], length)
    front = xblock(store, [store.block(first)], len(first))
    for node in identifiers(messages, 4):
        store.node(node, xxblock(store, [front, shared], len(first) + length))


def shared_entries(leaves, order):
    """The entries of so many full SLBLOCKs, which have nothing."""
    return ordered([(entry, 0, 0) for entry in identifiers(leaves * SUBNODES_IN_A_LEAF, PLAIN)], order)


def twice_listed(store, nodes=1000, leaves=100, order="shuffled"):
    """NODES LEAVES ORDER: nodes with SIBLOCKs of their own, all of which name the same SLBLOCKs, whose identifiers are
    rising, falling or shuffled, and the first of them once more at the end."""
    roots(store)
    shared = leaf_lists(store, shared_entries(leaves, order))
    for node in identifiers(nodes, PLAIN):
        store.node(node, 0, list_over(store, shared + shared[:1]))


def sunk_lists(store, lists=60, leaves=100, depth=250, order="shuffled"):
    """LISTS LEAVES DEPTH ORDER: SIBLOCKs over shared SLBLOCKs, whose identifiers are rising, falling or shuffled; the
    last entry has data that is not there. To each so many nodes lead, each by one list more than the one before."""
    roots(store)
    entries = shared_entries(leaves, order)
    entries[-1] = (entries[-1][0], NO_BLOCK, 0)
    shared, nodes = leaf_lists(store, entries), iter(identifiers(lists * depth, PLAIN))
    for _ in range(lists):
        below = list_over(store, shared)
        for _ in range(depth):
            store.node(next(nodes), 0, below)
            below = leaf_list(store, [(PLAIN, 0, below)])


def own_wrong(store, contexts=8000, records=65_000, how="item"):
    """CONTEXTS RECORDS HOW: own_records, but that the last record is wrong: it names an item or a subnode that is not there, or
    a value of a wrong length. HOW is item, subnode or length."""
    roots(store)
    made = PropertyContext(store)
    for number in range(records):
        made.set_raw(number + 1, INTEGER32, 7)
    wrong = {"item": (BINARY, NO_ITEM), "subnode": (BINARY, PLAIN), "length": (GUID, made.heap.add(b"abc"))}
    made.set_raw(records + 1, *chosen(wrong, how))
    data = data_tree(store, made.bodies())
    for node in identifiers(contexts, SEARCH_FOLDER):
        store.node(node, data, leaf_list(store, []))


def own_wrong_tables(store, messages=200, rows=4000, columns=255, how="item"):
    """MESSAGES ROWS COLUMNS HOW: own_tables, but that in the last row half of the columns name an item that is not there, or that
    the last record of the row index names a row that is not there. HOW is item or row."""
    roots(store)
    made = TableContext(store, [(DISPLAY_NAME, INTEGER32), (DISPLAY_NAME + 0x1000, STRING)], doubles=columns - 4)
    for number in range(rows):
        made.add(number, {DISPLAY_NAME: 7})
    numbers = list(range(rows))
    if chosen({"item": False, "row": True}, how):
        numbers[-1] = rows + 100_000
    else:
        made.set_raw(DISPLAY_NAME + 0x1000, NO_ITEM)
    data, _ = made.write(numbers)
    recipients_of_all(store, messages, data, made.subnodes)


def broken_behind(store, nodes=16_000, blocks=1020):
    """NODES BLOCKS: nodes with XXBLOCKs of their own over one XBLOCK of so many blocks, behind which it names one that is not
    there."""
    roots(store)
    named = [store.block(b"\7") for _ in range(blocks)]
    below = xblock(store, named + [NO_BLOCK], blocks + 1)
    for node in identifiers(nodes, PLAIN):
        store.node(node, xxblock(store, [below], blocks + 1))


def lost_nodes(store, nodes=60_000):
    """NODES: so many nodes whose data is not there."""
    roots(store)
    for node in identifiers(nodes, PLAIN):
        store.node(node, NO_BLOCK)


def wrong_sums(store, blocks=30_000):
    """BLOCKS: so many blocks of 8,176 bytes with wrong check values, each of which begins 64 bytes behind the one before it."""
    roots(store)
    for first in range(0, blocks, SUNK):
        store.wrong_blocks(min(SUNK, blocks - first))


MAKERS = (missing_rows, own_missing, wrong_holders, broken_maps, twice_listed, sunk_lists, own_wrong, own_wrong_tables, broken_behind,
          lost_nodes, wrong_sums)
