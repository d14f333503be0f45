"""Stores whose documents are made to be slow: much is looked up again for each row, or the text is far longer than
the file."""
from stores.contexts import BINARY, INTEGER32, STRING, PropertyContext, TableContext, text
from stores.hostile import PLAIN, TEXTS, identifiers, named_folders, ordered, roots, small_message
from stores.lists import BLOCKS_IN_A_LIST, leaf_list, subnode_list, xblock, xxblock
from stores.mail import ATTACHMENT_SIZE, ATTACHMENTS, DISPLAY_NAME, RECIPIENTS, SUBJECT, context, table

ATTACHMENT = 0x8025


def absent_cells(store, rows=60_000):
    """ROWS: a message with a table of so many recipients and of 255 columns, of which each row has two cells."""
    roots(store)
    made = TableContext(store, [(DISPLAY_NAME, STRING)], doubles=252)
    for number in range(rows):
        made.add(number, {})
    store.node(0x200024, small_message(store), leaf_list(store, [(RECIPIENTS, *made.write())]))


def attachment_values(store, count=40_000, order="falling"):
    """COUNT ORDER: a message whose one attachment has so many properties, each in a subnode of its own; the list of
    these is rising, falling or shuffled."""
    roots(store)
    made, value = PropertyContext(store), store.block(text("value"))
    for number in range(count):
        made.set_raw(number + 1, BINARY, made.subnode(value))
    data, _ = made.write()
    own = subnode_list(store, ordered(sorted(made.subnodes), order))
    rows = table(store, [(ATTACHMENT_SIZE, INTEGER32)], [(ATTACHMENT, {ATTACHMENT_SIZE: 0})])
    store.node(0x200024, small_message(store), leaf_list(store, [(ATTACHMENTS, *rows), (ATTACHMENT, data, own)]))


def shared_names(store, count=5000, entries=20_000, order="falling"):
    """COUNT ENTRIES ORDER: so many folders and messages, the latter listed by the root folder, which have one
    property context, whose texts are in a subnode, the least of a list of so many that is rising, falling or
    shuffled."""
    roots(store)
    entries = [(entry, 0, 0) for entry in identifiers(entries, PLAIN)]
    entries[0] = (entries[0][0], store.block(text("name")), 0)
    made = PropertyContext(store)
    for identifier in TEXTS:
        made.set_raw(identifier, STRING, entries[0][0])
    data, _ = made.write()
    named_folders(store, count, data, subnode_list(store, ordered(entries, order)))


def shared_texts(store, count=500, length=20_000):
    """COUNT LENGTH: so many folders and messages, the latter listed by the root folder, which have one property
    context with a subject of so many characters."""
    roots(store)
    named_folders(store, count, *context(store, [(SUBJECT, STRING, text("x" * length))]).write())


def spelt_value(store, lists=64, length=500, kind=BINARY):
    """LISTS LENGTH KIND: a message with a property of a type, 258 of which is bytes and 4098 numbers, whose value
    is LISTS x 1,021 times one block of LENGTH bytes."""
    roots(store)
    below = xblock(store, [store.block(b"\7" * length)] * BLOCKS_IN_A_LIST, length * BLOCKS_IN_A_LIST)
    made = PropertyContext(store)
    made.set_raw(1, kind, made.subnode(xxblock(store, [below] * lists, length * BLOCKS_IN_A_LIST * lists)))
    store.node(0x200024, *made.write())


MAKERS = (absent_cells, attachment_values, shared_names, shared_texts, spelt_value)
