"""Stores that are made to be slow: tables whose rows are gone through without an index, be it of the spans of their data or of the
list in which their row matrix is; and again for each path, document or list of subnodes that leads to them."""
from stores.contexts import INTEGER32, STRING, TableContext, text
from stores.far import LAST_MESSAGE
from stores.hostile import chosen, identifiers, own_messages, roots, small_message
from stores.lists import (BLOCKS_IN_A_LIST, data_tree, far_tree, leaf_list, leaf_lists, list_over, repeated_tree, subnode_list,
                          xblock)
from stores.mail import ATTACHMENT_METHOD, ATTACHMENTS, CONTENTS, DISPLAY_NAME, HIERARCHY, RECIPIENTS, ROOT, context, table
from stores.repeats import far_rows_of, table_apart
from stores.shared import own_fronts

ROW = 0x100005  # the one row of a table of recipients or attachments


def an_attachment(store):
    """The data of an attachment."""
    return context(store, [(ATTACHMENT_METHOD, INTEGER32, 1)]).write()[0]


def of_one_row(store, which, data, subnodes=0):
    """The entries of a list in which this table is that of recipients, or of attachments, of which it has one."""
    kind = chosen({"recipients": RECIPIENTS, "attachments": ATTACHMENTS}, which)
    attached = [(ROW, an_attachment(store), 0)] if kind == ATTACHMENTS else []
    return [(kind, data, subnodes), *attached]


def leafy_recipients(store, messages=4000, leaves=40_000, which="recipients"):
    """MESSAGES LEAVES WHICH: messages that share their data and list; in it is a table of one recipient, or attachment, whose
    row index has so many leaves without records in front. WHICH is recipients or attachments."""
    roots(store)
    made = TableContext(store, [])
    made.add(ROW, {})
    data, _ = made.write(empty=leaves)
    message = small_message(store)
    shared = leaf_list(store, of_one_row(store, which, data))
    for node in identifiers(messages, 4):
        store.node(node, message, shared)


def wide_columns(store, messages=12_000, columns=255):
    """MESSAGES COLUMNS: messages with data of their own that share a list, in which is a table of one recipient and so many
    columns."""
    roots(store)
    made = TableContext(store, [(DISPLAY_NAME, STRING)], doubles=columns - 3)
    made.add(1, {})
    shared = leaf_list(store, [(RECIPIENTS, made.write()[0], 0)])
    for node in identifiers(messages, 4):
        store.node(node, small_message(store), shared)


def matrix_held(store, messages=6000, count=60_000, order="falling"):
    """MESSAGES COUNT ORDER: messages that share their data and list; in it is a table of one attachment, whose row matrix is the
    least of so many subnodes, in a list that is rising, falling or shuffled."""
    roots(store)
    row, message = identifiers(1, 5)[0], small_message(store)
    _, block, below = table_apart(store, row, count, order)
    shared = leaf_list(store, [(ATTACHMENTS, block, below), (row, an_attachment(store), 0)])
    for node in identifiers(messages, 4):
        store.node(node, message, shared)


def matrix_reached(store, folders=6000, count=60_000, order="falling"):
    """FOLDERS COUNT ORDER: folders below the root folder with tables of one subfolder, whose data are their own XBLOCKs of one
    block; they share a list of so many subnodes, the least of which is the row matrix; it is rising, falling or shuffled."""
    roots(store)
    last = LAST_MESSAGE - 2
    span, block, shared = table_apart(store, last, count, order)
    properties = context(store, [(DISPLAY_NAME, STRING, text("Folder"))]).write()
    store.node(last, *properties)
    nodes = identifiers(folders, 2)
    for node in nodes:
        store.node(node, *properties)
        store.node(node & ~0x1F | HIERARCHY, xblock(store, [block], len(span)), shared)
    store.node(ROOT & ~0x1F | HIERARCHY, *table(store, [], [(node, {}) for node in nodes]))


def tall_row(store, levels, far):
    """The data of a table of one row, whose row index has so many levels of branches of one record; where FAR is 1, all of it
    but its first span lies behind a thousand XBLOCKs without entries."""
    made = TableContext(store, [])
    if far:
        made.heap.begin_span()
    made.add(ROW, {})
    return made.write(write_heap=far_tree if far else data_tree, levels=levels)[0]


def tall_held(store, messages=1000, levels=15, far=1, which="attachments"):
    """MESSAGES LEVELS FAR WHICH: messages with data of their own that share a list, in which is a table of one recipient, or
    attachment; its row index has so many levels of branches of one record. Where FAR is 1, all of the table but its first span
    lies behind a thousand XBLOCKs without entries. WHICH is recipients or attachments."""
    roots(store)
    own_messages(store, messages, leaf_list(store, of_one_row(store, which, tall_row(store, levels, far))))


def tall_own(store, messages=4000, levels=15):
    """MESSAGES LEVELS: messages with lists of their own, in which is such a table of one attachment, behind a thousand XBLOCKs
    without entries."""
    roots(store)
    entries, message = of_one_row(store, "attachments", tall_row(store, levels, 1)), small_message(store)
    for node in identifiers(messages, 4):
        store.node(node, message, leaf_list(store, entries))


def tall_shared(store, messages=20, rows=197, levels=15, far=1):
    """MESSAGES ROWS LEVELS FAR: messages with SIBLOCKs of their own over one SLBLOCK, in which are a table of so many attachments
    and these. The row index has a leaf for each row, and so many levels of branches; where FAR is 1, all of the table but its
    first span lies behind a thousand XBLOCKs without entries."""
    roots(store)
    nids = identifiers(rows, 5)
    made = far_rows_of(store, nids, far_tree if far else data_tree, levels=levels)
    held, message = an_attachment(store), small_message(store)
    shared = leaf_list(store, [(ATTACHMENTS, *made)] + [(row, held, 0) for row in nids])
    for node in identifiers(messages, 4):
        store.node(node, message, list_over(store, [(ATTACHMENTS, shared)]))


def with_recipients(store, _, made):
    """A message with this table of recipients."""
    store.node(0x200024, small_message(store), leaf_list(store, [(RECIPIENTS, *made)]))


def with_attachments(store, rows, made):
    """A message with this table of attachments, and these."""
    message, held = small_message(store), an_attachment(store)
    store.node(0x200024, message, subnode_list(store, [(ATTACHMENTS, *made)] + [(row, held, 0) for row in rows]))


def with_contents(store, rows, made):
    """The root folder with this table of messages, and these."""
    message = small_message(store)
    for node in rows:
        store.node(node, message)
    store.node(ROOT & ~0x1F | CONTENTS, *made)


def with_subfolders(store, rows, made):
    """The root folder with this table of subfolders, and these."""
    properties = context(store, [(DISPLAY_NAME, STRING, text("Folder"))]).write()
    for node in rows:
        store.node(node, *properties)
    store.node(ROOT & ~0x1F | HIERARCHY, *made)


TABLES = {"recipients": (0x1F, with_recipients), "attachments": (5, with_attachments), "contents": (4, with_contents),
          "subfolders": (2, with_subfolders)}  # the type of the rows' identifiers, and who has the table


def far_table(store, rows=8000, empty=0, which="attachments"):
    """ROWS EMPTY WHICH: a message with a table of so many recipients or attachments, or the root folder with one of its contents
    or of its subfolders: WHICH is one of these words. The row index has a leaf for each row, and so many without rows behind the
    first; all of the table but its first span lies behind a thousand XBLOCKs without entries."""
    roots(store)
    kind, hold = chosen(TABLES, which)
    nids = identifiers(rows * (empty + 1), kind)[::empty + 1]
    hold(store, nids, far_rows_of(store, nids, empty=empty, behind=1))


def far_row_held(store, messages=8000, which="attachments"):
    """MESSAGES WHICH: messages with data of their own that share a list, in which is a table of one recipient, or attachment,
    whose row lies in the last of 1,021 XBLOCKs of the row matrix. WHICH is recipients or attachments."""
    roots(store)
    made = TableContext(store, [])
    made.add(ROW, {})
    count = made.rows_in_a_block()
    written = made.write([(BLOCKS_IN_A_LIST - 1) * count], count, repeated_tree)
    own_messages(store, messages, leaf_list(store, of_one_row(store, which, *written)))


def fill_rows(store, tables, rows):
    """Messages that share their attachments, of which each has so many, by tables whose first span is their own."""
    held, nids = an_attachment(store), identifiers(rows, 5)
    made, bodies = TableContext(store, []), []
    made.heap.begin_span()
    for row in nids:
        made.add(row, {})
    _, subnodes = made.write(write_heap=lambda _, spans: bodies.extend(spans))
    message, shared = small_message(store), leaf_lists(store, [(row, held, 0) for row in nids])
    for node, data in zip(identifiers(tables, 4), own_fronts(store, tables, bodies[0], bodies[1:])):
        own = leaf_list(store, [(ATTACHMENTS, data, subnodes)])
        store.node(node, message, list_over(store, [(ATTACHMENTS, own), *shared]))


def left_out(store, messages=1000, leaves=40_000, tables=40, rows=10_000):
    """MESSAGES LEAVES TABLES ROWS: messages that share a table of 17 attachments, behind which its row index has so many leaves
    without rows, each under a list of its own; before them so many messages with tables of so many attachments each, which
    share all but the first span."""
    roots(store)
    fill_rows(store, tables, rows)
    held, nids = an_attachment(store), identifiers(17, 5)
    made = TableContext(store, [])
    for row in nids:
        made.add(row, {})
    data, subnodes = made.write(in_a_leaf=1, empty=leaves, behind=17)
    for node in identifiers(tables + messages, 4)[tables:]:
        entries = [(ATTACHMENTS, data, subnodes), *((row, held, 0) for row in nids)]
        store.node(node, small_message(store), leaf_list(store, entries))


MAKERS = (leafy_recipients, wide_columns, matrix_held, matrix_reached, tall_held, tall_own, tall_shared, far_table, far_row_held,
          left_out)
