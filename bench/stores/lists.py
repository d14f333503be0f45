"""Data trees and lists of subnodes over the blocks of a NodeDatabase ([MS-PST] 2.2.2.8.3)."""
import struct

from stores.database import LONGEST_BODY

BLOCKS_IN_A_LIST = 1021
BLOCKS_ON_A_PAGE = 20
SUBNODES_IN_A_LEAF = 340


def xblock(store, blocks, total):
    """An XBLOCK (2.2.2.8.3.2.1): the blocks of a data tree in order, and the number of all their bytes."""
    return _block_list(store, 1, blocks, total)


def xxblock(store, xblocks, total):
    """An XXBLOCK (2.2.2.8.3.2.2): XBLOCKs in order, and the number of all bytes below them."""
    return _block_list(store, 2, xblocks, total)


def _block_list(store, level, blocks, total):
    head = struct.pack("<BBHI", 1, level, len(blocks), total)
    return store.block(head + struct.pack(f"<{len(blocks)}Q", *blocks), internal=True)


def data_tree(store, bodies, in_a_list=BLOCKS_IN_A_LIST):
    """The data tree over these bodies (2.2.2.8.3.2): none, one block, an XBLOCK, or an XXBLOCK over XBLOCKs of so
    many."""
    if len(bodies) < 2:
        return store.block(bodies[0]) if bodies else 0
    lists = block_lists(store, bodies, in_a_list)
    return lists[0] if len(lists) == 1 else xxblock(store, lists, sum(map(len, bodies)))


def block_lists(store, bodies, in_a_list=BLOCKS_IN_A_LIST):
    """XBLOCKs of so many blocks each over these bodies."""
    blocks, lists = [store.block(body) for body in bodies], []
    for first in range(0, len(blocks), in_a_list):
        length = sum(map(len, bodies[first:first + in_a_list]))
        lists.append(xblock(store, blocks[first:first + in_a_list], length))
    return lists


def far_tree(store, bodies):
    """The data tree over these bodies, the first of which stands alone in front, and the others behind as many
    XBLOCKs without entries as there is room for. These are one, whose entry is the last of its page of the block
    B-tree, so that each look-up goes through all others there."""
    while len(store.blocks) % BLOCKS_ON_A_PAGE != BLOCKS_ON_A_PAGE - 1:
        store.block(b"")
    empty = xblock(store, [], 0)
    front, behind = block_lists(store, bodies[:1]), block_lists(store, bodies[1:])
    return xxblock(store, front + [empty] * (BLOCKS_IN_A_LIST - 1 - len(behind)) + behind, sum(map(len, bodies)))


def late_tree(store):
    """A data tree of as many spans as there may be, which are one block of a byte but for the last, a block of its own."""
    byte = store.block(b"\7")
    most = xblock(store, [byte] * BLOCKS_IN_A_LIST, BLOCKS_IN_A_LIST)
    last = xblock(store, [byte] * (BLOCKS_IN_A_LIST - 1) + [store.block(b"\7")], BLOCKS_IN_A_LIST)
    return xxblock(store, [most] * (BLOCKS_IN_A_LIST - 1) + [last], BLOCKS_IN_A_LIST ** 2)


def repeated_tree(store, bodies):
    """A data tree of 1,021 times the XBLOCK of these bodies, the last of which is made as long as a block may be."""
    whole = [*bodies[:-1], bodies[-1].ljust(LONGEST_BODY, b"\0")]
    length = sum(map(len, whole))
    below = xblock(store, [store.block(body) for body in whole], length)
    return xxblock(store, [below] * BLOCKS_IN_A_LIST, length * BLOCKS_IN_A_LIST)


def data_of(store, data):
    """The data tree over these bytes, cut into blocks of 8,176."""
    return data_tree(store, [data[first:first + LONGEST_BODY] for first in range(0, len(data), LONGEST_BODY)])


def leaf_list(store, entries):
    """An SLBLOCK (2.2.2.8.3.3.1) of at most 340 entries: identifier, data, subnodes."""
    head = struct.pack("<BBHI", 2, 0, len(entries), 0)
    return store.block(head + b"".join(struct.pack("<QQQ", *entry) for entry in entries), internal=True)


def leaf_lists(store, entries):
    """SLBLOCKs of these entries in the order given: pairs of the first identifier and the SLBLOCK."""
    leaves = []
    for first in range(0, len(entries), SUBNODES_IN_A_LEAF):
        mine = entries[first:first + SUBNODES_IN_A_LEAF]
        leaves.append((mine[0][0], leaf_list(store, mine)))
    return leaves


def list_over(store, leaves):
    """An SIBLOCK (2.2.2.8.3.3.2) over SLBLOCKs, given as `leaf_lists` answers them."""
    head = struct.pack("<BBHI", 2, 1, len(leaves), 0)
    return store.block(head + b"".join(struct.pack("<QQ", *leaf) for leaf in leaves), internal=True)


def subnode_list(store, entries):
    """The list of these subnodes in the order given: none, an SLBLOCK, or an SIBLOCK over SLBLOCKs. The standard
    wants the identifiers to rise; the program takes them in any order."""
    leaves = leaf_lists(store, entries)
    if len(leaves) > 1:
        return list_over(store, leaves)
    return leaves[0][1] if leaves else 0
