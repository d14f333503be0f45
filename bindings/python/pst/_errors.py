"""Why there is no answer."""

from __future__ import annotations

import re
from collections.abc import Iterable
from typing import NoReturn

_FAULT = re.compile(
    r"no: (\d+) (\w+)(?:\((\d+)\))? at 0x([0-9a-f]+) bid 0x([0-9a-f]+) nid 0x([0-9a-f]+)"
)


class Error(Exception):
    """What this package raises, but for MemoryError."""


class Fault(Error):
    """A broken rule of the format, and where: Refused of the bytes, NodeRefused of a node.

    number and kind are those of the fault ("explain" tells of them), value is that of Version and Encoded, at the place in the
    file, bid the identifier of the block or page and nid that of the node; 0 where there is nothing to say.
    """

    def __init__(
        self, number: int, kind: str, value: int | None, at: int, bid: int, nid: int
    ) -> None:
        self.number = number
        self.kind = kind
        self.value = value
        self.at = at
        self.bid = bid
        self.nid = nid
        shown = kind if value is None else f"{kind}({value})"
        super().__init__(f"no: {number} {shown} at 0x{at:x} bid 0x{bid:x} nid 0x{nid:x}")

    def __reduce__(self) -> tuple[type[Fault], tuple[object, ...]]:
        return type(self), (
            self.number,
            self.kind,
            self.value,
            self.at,
            self.bid,
            self.nid,
        )


class Refused(Fault):
    """The bytes break a rule of the format: the first one."""


class NodeRefused(Fault):
    """Of props and value: what is told may be of the node alone that a path names.

    It is no property context, for this reason, as a table is none, and the bytes may be a store all the same: `Store.report` says
    whether they are. Where what is whole is asked for: the node is broken, or lies behind a broken page.
    """


class Missing(Error):
    """The store has no such folder, node, or property."""


class BadWords(Error):
    """The words are refused, as a path that is none."""


class Unread(Error):
    """The bytes are more than 17,179,869,184."""


class InUse(Error, BufferError):
    """A view into a store's bytes is still used, so that they cannot be let go."""


# Short, Magic, Version and Encoded.
_OUTSIDE = (1, 2, 3, 4)


def _node_of(word: str) -> int | None:
    """The node of a path that is one node, as 0x12D."""
    return int(word, 16) if re.fullmatch("0x[0-9A-Fa-f]{1,8}", word) else None


def _is_of_node(words: tuple[str, ...], number: int, nid: int) -> bool:
    """Whether a store may be whole of which these words get a fault.

    props and value tell kinds 17 and 21 to 24 also of a node that a path names by itself and that is no property context. Of the
    nodes that are one in every store (the store itself, the name map, folders, search folders and messages) it is the file's. With
    --whole it is the file's only where nothing of that is looked at.
    """
    if words[:1] not in (("props",), ("value",)):
        return False
    if "--whole" in words:
        return number not in _OUTSIDE
    return (
        number in (17, 21, 22, 23, 24)
        and nid not in (0x21, 0x61)
        and nid % 32 not in (2, 3, 4, 8)
        and nid in map(_node_of, words)
    )


def raise_for(words: Iterable[str], status: int, line: bytes) -> NoReturn:
    """Raises what a status and a line say of these words."""
    text = line.decode().rstrip("\n")
    if status == 4:
        raise MemoryError
    if status == 3:
        raise Unread(text)
    if status == 2:
        raise BadWords(text)
    found = _FAULT.fullmatch(text)
    if found is None:
        raise Missing(text)
    number, kind, value, at, bid, nid = found.groups()
    of_node = _is_of_node(tuple(words), int(number), int(nid, 16))
    raise (NodeRefused if of_node else Refused)(
        int(number),
        kind,
        None if value is None else int(value),
        int(at, 16),
        int(bid, 16),
        int(nid, 16),
    )
