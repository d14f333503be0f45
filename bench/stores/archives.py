"""Stores whose archives are made to be slow: what messages and attachments hold is sought in a long list for each of their
documents and files."""
import struct

from stores.contexts import BINARY, INTEGER32, OBJECT, TableContext, text
from stores.hostile import (PLAIN, attachment_entries, embedding_context, identifiers, ordered, roots, small_message)
from stores.lists import data_tree, leaf_list, subnode_list
from stores.mail import (ATTACHMENT_DATA, ATTACHMENT_METHOD, ATTACHMENTS, EMBEDDED_MESSAGE, RECIPIENTS, context, table)

FILLER = 200  # bytes of a heap that no property has
INNER = 0x24  # the identifier of a message that an attachment embeds, less than that of any other subnode


def with_more(entries, count, order):
    """Entries of subnodes, and so many without data behind them, in an order."""
    more = [(entry, 0, 0) for entry in identifiers(count + len(entries), PLAIN)[len(entries):]]
    return ordered(entries + more, order)


def embedded_attachments(store, count=15_000, more=40_000, order="falling"):
    """COUNT MORE ORDER: a message with an attachment that embeds a message with so many attachments, the least of its
    subnodes, and so many more; its list is rising, falling or shuffled."""
    roots(store)
    message, row = small_message(store), identifiers(1, 5)[0]
    below = subnode_list(store, with_more(attachment_entries(store, count), more, order))
    inner = leaf_list(store, [(EMBEDDED_MESSAGE, message, below)])
    made = table(store, [], [(row, {})])
    store.node(0x200024, message, leaf_list(store, [(ATTACHMENTS, *made), (row, embedding_context(store), inner)]))


def attached_values(store, count=12_000, entries=60_000, order="falling", embeds=0, long=0):
    """COUNT ENTRIES ORDER EMBEDS LONG: a message with so many attachments, which share a context and a list of so many
    subnodes; the least of these is their content or, where EMBEDS is 1, the message that they embed. The list is rising,
    falling or shuffled. Where LONG is 1, the context has more than 199 bytes."""
    roots(store)
    message, nids = small_message(store), identifiers(count, 5)
    made = context(store, [(ATTACHMENT_METHOD, INTEGER32, 5 if embeds else 1)])
    if embeds:
        made.set(ATTACHMENT_DATA, OBJECT, struct.pack("<II", INNER, 0))
    else:
        made.set_raw(ATTACHMENT_DATA, BINARY, PLAIN)
    if long:
        made.heap.add(bytes(FILLER))
    value = (INNER, message, 0) if embeds else (PLAIN, store.block(text("content")), 0)
    data, shared = data_tree(store, made.bodies()), subnode_list(store, with_more([value], entries, order))
    rows = (ATTACHMENTS, *table(store, [], [(row, {}) for row in nids]))
    store.node(0x200024, message, subnode_list(store, [rows] + [(row, data, shared) for row in nids]))


def few_attachments(store, messages=150, count=90_000, rows=200, order="falling"):
    """MESSAGES COUNT ROWS ORDER: messages that are one context under one list of so many subnodes, with a table of
    attachments in less than 2,048 bytes, whose rows name the least of these; the list is rising, falling or shuffled."""
    roots(store)
    message, nids, made = small_message(store), identifiers(rows, 5), TableContext(store, [])
    for row in nids:
        made.add(row, {})
    attached = (ATTACHMENTS, *made.write(write_blocks=lambda *words: data_tree(*words)))
    held = context(store, [(ATTACHMENT_METHOD, INTEGER32, 1)]).write()[0]
    entries = [attached] + [(row, held, 0) for row in nids]
    shared = subnode_list(store, with_more(entries, count, order))
    for node in identifiers(messages, 4):
        store.node(node, message, shared)


def long_recipients(store, messages=4000, count=60_000, order="rising"):
    """MESSAGES COUNT ORDER: messages that share all, and have a table of one recipient with a list of so many subnodes,
    which is rising, falling or shuffled."""
    roots(store)
    made = table(store, [], [(1, {})])[0]
    shared = subnode_list(store, with_more([], count, order))
    message, own = small_message(store), leaf_list(store, [(RECIPIENTS, made, shared)])
    for node in identifiers(messages, 4):
        store.node(node, message, own)


MAKERS = (embedded_attachments, attached_values, few_attachments, long_recipients)
