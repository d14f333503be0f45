"""A small store in which each list that the program keeps in memory grows: samples/growths.pst, for tools/refuse."""
from stores.contexts import STRING, PropertyContext, text
from stores.hostile import PLAIN, identifiers, ordered, small_message
from stores.lists import leaf_list, list_over, xblock, xxblock
from stores.mail import INBOX, ROOT, SUBJECT, folder, message, message_store

NESTED, LONG_HEAP, LIST_OF_LISTS, TREE_OF_TREES = 0x400024, 0x400044, 0x40005F, 0x40007F


def nested(store, depth):
    """A message in which so many are embedded, one in another."""
    made = message(store, depth, "The innermost")
    for number in range(depth, 0, -1):
        made = message(store, number, f"Around {depth + 1 - number}", embedded=made)
    return made


def long_heap(store, spans=20):
    """A property context whose heap has so many spans, and values of which some are subnodes."""
    made = PropertyContext(store)
    for number in range(spans):
        made.heap.begin_span()
        for item in range(4):
            made.set(0x6000 + 4 * number + item, STRING, text(f"value {number} {item}"))
    for number in range(3):
        made.set(0x6100 + number, STRING, text("long ") * 400)
    return made.write()


def list_of_lists(store):
    """An SIBLOCK over SLBLOCKs whose identifiers do not rise."""
    lists = []
    for first in (0x40, 0x10, 0x70):
        entries = ordered([(first * 0x20 + entry, 0, 0) for entry in identifiers(24, PLAIN)], "shuffled")
        lists.append((entries[0][0], leaf_list(store, entries)))
    return list_over(store, lists)


def tree_of_trees(store):
    """An XXBLOCK over XBLOCKs of short blocks."""
    lists = [xblock(store, [store.block(b"%d" % number) for number in range(first, first + 5)], 5) for first in (0, 5)]
    return xxblock(store, lists, 10)


def growths(store):
    """A store with a message in which twelve are embedded, a heap of 21 spans, a list of lists that do not rise, an
    XXBLOCK, a folder of 20 messages and a lost run."""
    message_store(store)
    store.node(NESTED, *nested(store, 12), INBOX)
    store.node(LONG_HEAP, *long_heap(store), INBOX)
    store.node(LIST_OF_LISTS, 0, list_of_lists(store))
    store.node(TREE_OF_TREES, tree_of_trees(store))
    rows = [(NESTED, {SUBJECT: text("nested")}), (LONG_HEAP, {SUBJECT: text("long heap")})]
    plain = small_message(store)
    for number in range(18):
        node = 0x30000 + number << 5 | 4
        store.node(node, plain, 0, INBOX)
        rows.append((node, {SUBJECT: text(f"Message number {number}")}))
    folder(store, ROOT, ROOT, "", [(INBOX, "Inbox", len(rows))])
    folder(store, INBOX, ROOT, "Inbox", messages=sorted(rows))
    store.marks[-3:-1] = b"11"


MAKERS = (growths,)
