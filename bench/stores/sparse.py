"""Stores that are made to be slow: values of as many spans as there may be, of which few have bytes, and name maps over
such values."""
import struct

from stores.contexts import BINARY, INTEGER32, OBJECT, STRING, PropertyContext, text
from stores.far import EMBEDDED_OBJECT, far_object
from stores.hostile import PLAIN, TEXTS, identifiers, named_folders, ordered, own_messages, roots, small_message
from stores.lists import BLOCKS_IN_A_LIST, data_of, data_tree, leaf_list, subnode_list, xblock, xxblock
from stores.mail import (ATTACHMENT_DATA, ATTACHMENT_METHOD, ATTACHMENTS, EMBEDDED_MESSAGE, NAME_MAP, context, table)

FIRST_SET, LAST_SET, FIRST_STRING = 3, 32_003, 1_000_000
HTML = 0x1013  # the body of a message as HTML


def sparse_tree(store, bodies):
    """A data tree of 1,021 XBLOCKs of 1,021 spans: of the last XBLOCKs the last span is one of these, and no other has
    bytes."""
    empty, made = [store.block(b"")] * (BLOCKS_IN_A_LIST - 1), {}
    for body in bodies:
        if body not in made:
            made[body] = xblock(store, empty + [store.block(body)], len(body))
    none = xblock(store, empty, 0)
    lists = [none] * (BLOCKS_IN_A_LIST - len(bodies)) + [made[body] for body in bodies]
    return xxblock(store, lists, sum(map(len, bodies)))


def sparse_values(store, properties=40, parts=BLOCKS_IN_A_LIST):
    """PROPERTIES PARTS: a message so many properties of which name one subnode of 1,021 x 1,021 spans, of which so many
    have a byte, each the last one of an XBLOCK."""
    roots(store)
    made = PropertyContext(store)
    place = made.subnode(sparse_tree(store, [b"\7"] * parts))
    for number in range(properties):
        made.set_raw(number + 1, BINARY, place)
    store.node(0x200024, *made.write())


def sparse_names(store, count=20, parts=BLOCKS_IN_A_LIST):
    """COUNT PARTS: so many folders and messages, the latter listed by the root folder, which have one property context,
    whose texts are such a subnode, with a character for each byte."""
    roots(store)
    made = PropertyContext(store)
    place = made.subnode(sparse_tree(store, [text("x")] * parts))
    for identifier in TEXTS:
        made.set_raw(identifier, STRING, place)
    named_folders(store, count, *made.write())


def sparse_objects(store, count=8000):
    """COUNT: far_objects, but that each byte of the object stands alone at the end of an XBLOCK."""
    roots(store)
    message, nids = small_message(store), identifiers(count, 5)
    value = sparse_tree(store, [bytes([byte]) for byte in EMBEDDED_OBJECT])
    made = PropertyContext(store)
    made.set(ATTACHMENT_METHOD, INTEGER32, 5)
    made.set_raw(ATTACHMENT_DATA, OBJECT, PLAIN)
    held = data_tree(store, made.bodies())
    rows = (ATTACHMENTS, *table(store, [], [(row, {}) for row in nids]))
    entries = [(row, held, leaf_list(store, [(PLAIN, value, 0), (EMBEDDED_MESSAGE, message, 0)])) for row in nids]
    store.node(0x200024, message, subnode_list(store, [rows] + entries))


def object_messages(store, messages=8000):
    """MESSAGES: messages with data of their own that share a list; in it is one attachment, which embeds a message; the object
    that names it is a subnode of 1,021 x 1,021 spans, of which all but the last have no byte."""
    roots(store)
    message, row = small_message(store), identifiers(1, 5)[0]
    value, held = far_object(store)
    rows = table(store, [], [(row, {})])
    below = leaf_list(store, [(PLAIN, value, 0), (EMBEDDED_MESSAGE, message, 0)])
    own_messages(store, messages, leaf_list(store, [(ATTACHMENTS, *rows), (row, held, below)]))


def spelt(store, body, spans=BLOCKS_IN_A_LIST, lists=BLOCKS_IN_A_LIST):
    """A data tree of LISTS times one XBLOCK of SPANS times one block."""
    length = len(body) * spans
    return xxblock(store, [xblock(store, [store.block(body)] * spans, length)] * lists, length * lists)


def spelt_bodies(store, messages=20):
    """MESSAGES: messages that are one context, whose body is a value of 1,021 x 1,021 spans of one byte."""
    roots(store)
    made = PropertyContext(store)
    made.set_raw(HTML, BINARY, made.subnode(spelt(store, b"x")))
    data, subnodes = made.write()
    for node in identifiers(messages, 4):
        store.node(node, data, subnodes)


def name_map(store, strings, entries, sets=0):
    """The name map of these streams, given as data trees; of no sets where there is none."""
    made = PropertyContext(store)
    for identifier, data in ((2, sets), (3, entries), (4, strings)):
        if data:
            made.set_raw(identifier, BINARY, made.subnode(data))
    store.node(NAME_MAP, *made.write())


def named_context(store, names):
    """The data of a message with so many properties that have names, and its list of subnodes."""
    return context(store, [(0x8000 + number, INTEGER32, 7) for number in range(names)]).write()


def spelt_names(store, names):
    """A name map of so many properties, each with a name that is a string, of a set of its own; the strings and the sets
    are streams of a million spans of one byte."""
    entries = b"".join(struct.pack("<IHH", FIRST_STRING + number, 2 * (LAST_SET - number) + 1, number)
                       for number in range(names))
    name_map(store, spelt(store, b"\0"), data_of(store, entries), spelt(store, b"\7", BLOCKS_IN_A_LIST - 13))


def far_sets(store, names=20_000):
    """NAMES: a message with so many properties, each with a name that is a string, of a set of its own; the strings and
    the sets are streams of a million spans of one byte."""
    roots(store)
    spelt_names(store, names)
    store.node(0x200024, *named_context(store, names))


def named_messages(store, messages=4000, names=4):
    """MESSAGES NAMES: messages that are one context of so many such properties."""
    roots(store)
    spelt_names(store, names)
    made = named_context(store, names)
    for node in identifiers(messages, 4):
        store.node(node, *made)


def crossed_entries(store, lists=BLOCKS_IN_A_LIST, kinds=BLOCKS_IN_A_LIST):
    """LISTS KINDS: a name map each of whose entries lies in two blocks: LISTS times an XBLOCK of 1,021 blocks, of which
    so many are different; each name is a string in a stream of as many spans of one byte."""
    roots(store)
    most = BLOCKS_IN_A_LIST * lists - 8
    entries = [struct.pack("<IHH", 2000 * number % most, 1, number) for number in range(kinds)] * 2
    blocks = [store.block(entry[4:] + behind[:4]) for entry, behind in zip(entries[:kinds], entries[1:])]
    length = 8 * BLOCKS_IN_A_LIST
    below = xblock(store, [blocks[number % kinds] for number in range(BLOCKS_IN_A_LIST)], length)
    front, end = store.block(entries[0][:4]), store.block(entries[0][4:])
    around = [xblock(store, [front], 4)] + [below] * (lists - 2) + [xblock(store, [end], 4)]
    name_map(store, spelt(store, b"\0", lists=lists), xxblock(store, around, 8 + length * (lists - 2)))


def long_names(store, names=1000, length=20_000):
    """NAMES LENGTH: a message with so many properties, whose names are one string of so many characters."""
    roots(store)
    string = struct.pack("<I", 2 * length) + text("x" * length)
    entries = b"".join(struct.pack("<IHH", 0, 1, number) for number in range(names))
    name_map(store, data_of(store, string), data_of(store, entries))
    store.node(0x200024, *named_context(store, names))


def listed_names(store, names=30_000, count=60_000, order="falling"):
    """NAMES COUNT ORDER: a message with so many properties, each with a name that is a string of a set; the streams of the
    name map are the least of so many subnodes, whose list is rising, falling or shuffled."""
    roots(store)
    entries = b"".join(struct.pack("<IHH", 0, 2 * FIRST_SET + 1, number) for number in range(names))
    made = PropertyContext(store)
    for identifier, stream in ((2, bytes(16)), (3, entries), (4, struct.pack("<I", 2) + text("x"))):
        made.set_raw(identifier, BINARY, made.subnode(data_of(store, stream)))
    held = ordered(sorted(made.subnodes) + [(entry, 0, 0) for entry in identifiers(count, PLAIN)], order)
    store.node(NAME_MAP, data_tree(store, made.bodies()), subnode_list(store, held))
    store.node(0x200024, *named_context(store, names))


MAKERS = (sparse_values, sparse_names, sparse_objects, object_messages, spelt_bodies, far_sets, named_messages,
          crossed_entries, long_names, listed_names)
