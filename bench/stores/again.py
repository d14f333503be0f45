"""Stores that are made to be slow: what was found once is gone through again, since its index, or what is known of it, has gone
when it is asked for once more, or is kept by something that is another one each time."""
from stores.contexts import BINARY, INTEGER32, STRING, TableContext, text
from stores.far import far_context, full_map, turning_cells
from stores.hostile import PLAIN, SEARCH_FOLDER, embedding_context, identifiers, ordered, own_messages, roots, small_message
from stores.lists import data_tree, leaf_list, leaf_lists, list_over, subnode_list, xblock, xxblock
from stores.mail import (ATTACHMENT_METHOD, ATTACHMENTS, DISPLAY_NAME, EMBEDDED_MESSAGE, NAME_MAP, RECIPIENTS, SUBJECT, context,
                         table)

PLAIN_ATTACHMENT = [(ATTACHMENT_METHOD, INTEGER32, 1)]


def filled_attachment(store):
    """The data of an attachment of more than 400 bytes."""
    made = context(store, PLAIN_ATTACHMENT)
    made.heap.add(bytes(400))
    return data_tree(store, made.bodies())


def shuffled_leaves(store, count):
    """SLBLOCKs of so many subnodes without data, whose identifiers are shuffled."""
    return leaf_lists(store, ordered([(entry, 0, 0) for entry in identifiers(count, PLAIN)], "shuffled"))


def held_list(store, messages=5000, count=60_000, order="falling"):
    """MESSAGES COUNT ORDER: messages that share their data and list; in it is one attachment, whose name is the least of so many
    subnodes, in a list that is rising, falling or shuffled."""
    roots(store)
    message, row = small_message(store), identifiers(1, 5)[0]
    made = context(store, PLAIN_ATTACHMENT)
    (least, *_), *more = [(entry, 0, 0) for entry in identifiers(count, PLAIN)]
    made.set_raw(DISPLAY_NAME, STRING, least)
    made.heap.add(bytes(300))  # which no property has
    held = data_tree(store, made.bodies())
    below = subnode_list(store, ordered([(least, store.block(text("name")), 0)] + more, order))
    shared = leaf_list(store, [(ATTACHMENTS, *table(store, [], [(row, {})])), (row, held, below)])
    for node in identifiers(messages, 4):
        store.node(node, message, shared)


def far_held(store, messages=16_000):
    """MESSAGES: messages with data of their own that share a list; in it is one attachment, whose properties lie behind a
    thousand XBLOCKs without entries."""
    roots(store)
    row = identifiers(1, 5)[0]
    data = far_context(store, *PLAIN_ATTACHMENT)
    own_messages(store, messages, leaf_list(store, [(ATTACHMENTS, *table(store, [], [(row, {})])), (row, data, 0)]))


def risen_turns(store, messages=24, count=58_000, rows=199):
    """MESSAGES COUNT ROWS: messages with lists of their own over shared SLBLOCKs of COUNT subnodes, which rise, and with so many
    attachments; each embeds a message with a list of its own of 366 subnodes, which rise, and with 25 attachments."""
    roots(store)
    message, nids, few = small_message(store), identifiers(count, 5), identifiers(25, 5)
    held, embeds = context(store, PLAIN_ATTACHMENT).write()[0], embedding_context(store)
    made = table(store, [], [(row, {}) for row in few])
    first = leaf_list(store, [(ATTACHMENTS, *made)] + [(row, held, 0) for row in few])
    second = leaf_list(store, [(entry, 0, 0) for entry in identifiers(2000, PLAIN)[-340:]])
    made = table(store, [], [(row, {}) for row in nids[:rows]])
    shared = leaf_lists(store, [(row, 0, 0) for row in nids[rows:]])
    for node in identifiers(messages, 4):
        attached = []
        for row in nids[:rows]:
            below = list_over(store, [(ATTACHMENTS, first), (0x200000, second)])
            attached.append((row, embeds, leaf_list(store, [(EMBEDDED_MESSAGE, message, below)])))
        own = leaf_lists(store, [(ATTACHMENTS, *made)] + attached)
        store.node(node, message, list_over(store, own + shared))


def hollow_many(store, messages=280, rows=197, hollow=508):
    """MESSAGES ROWS HOLLOW: messages with SIBLOCKs of their own over one SLBLOCK of a table of so many attachments and these, one
    of 340 more subnodes, and HOLLOW times one without entries; the identifiers rise."""
    roots(store)
    message, nids = small_message(store), identifiers(rows, 5)
    held = context(store, PLAIN_ATTACHMENT).write()[0]
    first = leaf_list(store, [(ATTACHMENTS, *table(store, [], [(row, {}) for row in nids]))] + [(row, held, 0) for row in nids])
    second = leaf_list(store, [(entry, 0, 0) for entry in identifiers(3000, PLAIN)[-340:]])
    leaves = [(ATTACHMENTS, first), (0x200000, second)] + [(0x300000, leaf_list(store, []))] * hollow
    for node in identifiers(messages, 4):
        store.node(node, message, list_over(store, leaves))


def three_lists(store, contexts=600, count=98_000, lists=5, order="rising"):
    """CONTEXTS COUNT LISTS ORDER: search folders with data of their own, which are one span of more than 512 bytes, by turns with
    one of so many SIBLOCKs over shared SLBLOCKs of COUNT subnodes, which are rising, falling or shuffled."""
    roots(store)
    span, = context(store, [(SUBJECT, STRING, text("x" * 300))]).bodies()
    block = store.block(span)
    shared = leaf_lists(store, ordered([(entry, 0, 0) for entry in identifiers(count, PLAIN)], order))
    tops = [list_over(store, shared) for _ in range(lists)]
    for number, node in enumerate(identifiers(contexts, SEARCH_FOLDER)):
        store.node(node, xblock(store, [block], len(span)), tops[number % lists])


def small_sets(store, lists=1400, count=257):
    """LISTS COUNT: so many messages with SIBLOCKs of their own over one SLBLOCK of COUNT subnodes, which do not rise, each with a
    table of recipients under such a list; before and behind them a message with as many attachments under such lists."""
    roots(store)
    message, nids = small_message(store), identifiers(lists, 5)
    shared = shuffled_leaves(store, count)
    nobody = table(store, [], [(1, {})])[0]
    nothing = TableContext(store, [])
    nothing.heap.add(bytes(300))
    nothing = nothing.write()[0]
    held = filled_attachment(store)
    rows = table(store, [], [(row, {}) for row in nids])
    attached = [(row, held, list_over(store, shared)) for row in nids]
    many = subnode_list(store, [(ATTACHMENTS, *rows)] + attached)
    nodes = identifiers(lists + 2, 4)
    for node in (nodes[0], nodes[-1]):
        store.node(node, message, many)
    for node in nodes[1:-1]:
        own = leaf_lists(store, [(ATTACHMENTS, nothing, 0), (RECIPIENTS, nobody, list_over(store, shared))])
        store.node(node, message, list_over(store, own + shared))


def full_sets(store, messages=40, count=99_900, lists=4):
    """MESSAGES COUNT LISTS: messages by turns with one of so many SIBLOCKs over shared SLBLOCKs of COUNT subnodes, which do not
    rise, each with recipients under another such list and with as many attachments under others; the name map is under one."""
    roots(store)
    message, nids = small_message(store), identifiers(lists, 5)
    shared = shuffled_leaves(store, count)
    nobody = table(store, [], [(1, {})])[0]
    held = filled_attachment(store)
    made = table(store, [], [(row, {}) for row in nids])
    inner, tops = [list_over(store, shared) for _ in range(lists)], []
    for number in range(lists):
        attached = [(row, held, inner[(at + number) % lists]) for at, row in enumerate(nids)]
        entries = [(ATTACHMENTS, *made), (RECIPIENTS, nobody, list_over(store, shared))] + attached
        tops.append(list_over(store, leaf_lists(store, entries) + shared))
    for number, node in enumerate(identifiers(messages, 4)):
        store.node(node, message, tops[number % lists])
    names, _ = context(store, [(2, BINARY, bytes(16))]).write()
    store.node(NAME_MAP, names, list_over(store, shared))


def twin_maps(store, messages=20_000, spans=15):
    """MESSAGES SPANS: messages whose heaps are XXBLOCKs of their own over the same two XBLOCKs, of a first span, and of SPANS times
    the one span with a page map of some 4,000 items."""
    roots(store)
    body = full_map()
    first, = context(store, [(SUBJECT, STRING, text("Page maps"))]).bodies()
    front = xblock(store, [store.block(first)], len(first))
    behind = xblock(store, [store.block(body)] * spans, spans * len(body))
    for node in identifiers(messages, 4):
        store.node(node, xxblock(store, [front, behind], len(first) + spans * len(body)))


def near_cells(store, rows=90_000, columns=255):
    """ROWS COLUMNS: far_cells of one message, but that all spans of the heap are below one XBLOCK."""
    roots(store)
    made = turning_cells(store, rows, columns)
    store.node(0x200024, small_message(store), leaf_list(store, [(RECIPIENTS, *made.write())]))


def one_cell(store, rows=90_000, columns=255):
    """ROWS COLUMNS: a message with a table of so many recipients and columns, of which all but two are the same bytes of a row;
    all cells are in one subnode, which is in a list with the row matrix alone."""
    roots(store)
    made, value = TableContext(store, [(DISPLAY_NAME, STRING)], doubles=columns - 3), store.block(text("Reader"))
    place = made.subnode(value)
    for number in range(rows):
        made.add(number, {})
        made.set_raw(DISPLAY_NAME, place)
    store.node(0x200024, small_message(store), leaf_list(store, [(RECIPIENTS, *made.write())]))


MAKERS = (held_list, far_held, risen_turns, hollow_many, three_lists, small_sets, full_sets, twin_maps, near_cells, one_cell)
