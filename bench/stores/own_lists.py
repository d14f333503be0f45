"""Stores that are made to be slow: contexts that share their data, each under a list of subnodes of its own. A list
takes some hundred bytes, so whoever goes through the data once more for each list takes the product of both."""
from stores.contexts import BINARY, INTEGER32, STRING, PropertyContext, TableContext, text
from stores.hostile import (PLAIN, SEARCH_FOLDER, attachment_entries, embedding_context, identifiers, ordered,
                            recipients_of_all, roots, small_message)
from stores.lists import data_tree, leaf_list, leaf_lists, list_over, subnode_list, xblock
from stores.mail import (ATTACHMENTS, CONTENT_COUNT, CONTENTS, DISPLAY_NAME, EMBEDDED_MESSAGE, SUBJECT, context,
                         table)


def own_records(store, contexts=2000, records=60_000, named=0):
    """CONTEXTS RECORDS NAMED: search folders that share a property context of so many records, each under a list of
    its own; a number stands in each record, or where NAMED is 1 each names the one subnode of the list."""
    roots(store)
    made, value = PropertyContext(store), store.block(text("value"))
    for number in range(records):
        made.set_raw(number + 1, BINARY if named else INTEGER32, PLAIN if named else 7)
    data = data_tree(store, made.bodies())
    for node in identifiers(contexts, SEARCH_FOLDER):
        store.node(node, data, leaf_list(store, [(PLAIN, value, 0)] if named else []))


def own_tables(store, messages=2000, rows=20_000, columns=255):
    """MESSAGES ROWS COLUMNS: messages that share a table of so many recipients and, but for three, of columns that
    are the same four bytes of a row, each under a list of its own."""
    roots(store)
    made = TableContext(store, [(DISPLAY_NAME, INTEGER32)], doubles=columns - 3)
    for number in range(rows):
        made.add(number, {DISPLAY_NAME: 7})
    data, _ = made.write()
    recipients_of_all(store, messages, data, made.subnodes)


def own_contents(store, folders=2000, messages=20_000):
    """FOLDERS MESSAGES: folders that share the data of the table of so many messages, each under a list of its
    own."""
    roots(store)
    nodes = identifiers(messages, 4)
    made = TableContext(store, [])
    for node in nodes:
        made.add(node, {})
    data, _ = made.write()
    message, properties = small_message(store), context(store, [(CONTENT_COUNT, INTEGER32, messages)]).write()
    for node in nodes:
        store.node(node, message)
    for node in identifiers(folders, 2):
        store.node(node, *properties)
        store.node(node & ~0x1F | CONTENTS, data, leaf_list(store, made.subnodes))


def own_attachments(store, messages=500, count=60_000, rows=300):
    """MESSAGES COUNT ROWS: messages with lists of their own over shared SLBLOCKs of COUNT subnodes, and with a
    table of the first ROWS as attachments."""
    roots(store)
    (_, *made), *entries = attachment_entries(store, rows)
    more = [(entry, 0, 0) for entry in identifiers(count, PLAIN)[rows:]]
    shared = leaf_lists(store, [(ATTACHMENTS, *made)] + entries + more)
    message = small_message(store)
    for node in identifiers(messages, 4):
        store.node(node, message, list_over(store, shared))


def own_values(store, contexts=500, count=60_000, order="rising", records=200):
    """CONTEXTS COUNT ORDER RECORDS: search folders that share a property context of so many records, which names a subnode
    in each, under lists of their own over shared SLBLOCKs of so many subnodes, whose identifiers are rising, falling
    or shuffled."""
    roots(store)
    made, value = PropertyContext(store), store.block(text("value"))
    entries = [(entry, value, 0) for entry in identifiers(count, PLAIN)]
    for number in range(records):
        made.set_raw(number + 1, BINARY, entries[number * (count // records)][0])
    data, shared = data_tree(store, made.bodies()), leaf_lists(store, ordered(entries, order))
    for node in identifiers(contexts, SEARCH_FOLDER):
        store.node(node, data, list_over(store, shared))


def own_embedded(store, messages=50, count=60_000, rows=199):
    """MESSAGES COUNT ROWS: messages with so many attachments, each of which embeds a message under a list of its
    own, with a table of no attachments; they have lists of their own over an SLBLOCK of these and shared SLBLOCKs
    of COUNT subnodes."""
    roots(store)
    message = small_message(store)
    held = embedding_context(store)
    nids = identifiers(rows, 5)
    made, nothing = table(store, [], [(row, {}) for row in nids]), table(store, [], [])
    shared = leaf_lists(store, [(entry, 0, 0) for entry in identifiers(count, PLAIN)])
    for node in identifiers(messages, 4):
        lists = [leaf_list(store, [(ATTACHMENTS, *nothing)]) for _ in nids]
        inner = [leaf_list(store, [(EMBEDDED_MESSAGE, message, below)]) for below in lists]
        own = leaf_lists(store, [(ATTACHMENTS, *made)] + [(row, held, below) for row, below in zip(nids, inner)])
        store.node(node, message, list_over(store, own + shared))


def turning_lists(store, contexts=2000, count=60_000):
    """CONTEXTS COUNT: search folders with data of their own, which are one span of more than 512 bytes, by turns
    with one of two lists of so many subnodes."""
    roots(store)
    span, = context(store, [(SUBJECT, STRING, text("x" * 300))]).bodies()
    block = store.block(span)
    lists = [subnode_list(store, [(entry, 0, 0) for entry in identifiers(count, kind)]) for kind in (PLAIN, 4)]
    for number, node in enumerate(identifiers(contexts, SEARCH_FOLDER)):
        store.node(node, xblock(store, [block], len(span)), lists[number % 2])


def nested_lists(store, levels=127, count=60_000, rows=300):
    """LEVELS COUNT ROWS: so many messages one in another, each with so many attachments and with a list of its own
    over an SLBLOCK of these and shared SLBLOCKs of COUNT subnodes."""
    roots(store)
    message = small_message(store)
    held = embedding_context(store)
    nids = identifiers(rows, 5)
    made = table(store, [], [(row, {}) for row in nids])
    shared = leaf_lists(store, [(entry, 0, 0) for entry in identifiers(count, PLAIN)])
    below = 0
    for _ in range(levels):
        inner = leaf_list(store, [(EMBEDDED_MESSAGE, message, below)])
        own = leaf_lists(store, [(ATTACHMENTS, *made)] + [(row, held, inner) for row in nids])
        below = list_over(store, own + shared)
    store.node(0x200024, message, below)


def own_holders(store, messages=2000, count=20_000, levels=1):
    """MESSAGES COUNT LEVELS: messages with a list of their own each and one attachment, which they share; it embeds a
    message with one attachment, and so on, LEVELS in all. The last message has so many attachments, which are one
    context but for the last."""
    roots(store)
    message, held, row = small_message(store), embedding_context(store), identifiers(1, 5)[0]
    made = table(store, [], [(row, {})])
    *entries, (last, *_) = attachment_entries(store, count)
    below = subnode_list(store, entries + [(last, small_message(store, 1), 0)])
    for _ in range(levels - 1):
        inner = leaf_list(store, [(EMBEDDED_MESSAGE, message, below)])
        below = leaf_list(store, [(ATTACHMENTS, *made), (row, held, inner)])
    inner = leaf_list(store, [(EMBEDDED_MESSAGE, message, below)])
    for node in identifiers(messages, 4):
        store.node(node, message, leaf_list(store, [(ATTACHMENTS, *made), (row, held, inner)]))


MAKERS = (own_records, own_tables, own_contents, own_attachments, own_values, own_embedded, own_holders, turning_lists,
          nested_lists)
