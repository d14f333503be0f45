"""A store, and what it answers."""

from __future__ import annotations

import itertools
import json
import mmap
import os
import weakref
from collections.abc import Iterable
from dataclasses import dataclass
from types import TracebackType
from typing import Any

from . import _library
from ._errors import InUse, raise_for
from ._values import Node, node_of


@dataclass(frozen=True)
class Lost:
    """Bytes that the allocation maps mark as used, and that nothing uses."""

    at: int
    len: int


@dataclass(frozen=True)
class Report:
    """What a check counted. docs/JSON.md, "check", has each of them."""

    blocks: int
    folders: int
    lost: tuple[Lost, ...]
    messages: int
    nodes: int
    order: str
    pages: int


@dataclass(frozen=True)
class Folder:
    """A folder. path leads to it from the root folder; None where the root folder does not reach it.

    Where what is whole of a damaged store is asked for, subfolders, messages and associated are None where the folder's table of
    these is not whole.
    """

    nid: str
    name: str | None
    path: tuple[str, ...] | None
    subfolders: tuple[str, ...] | None
    messages: int | None
    associated: int | None


@dataclass(frozen=True)
class Message:
    """A message. docs/JSON.md, "messages", says where each of these comes from."""

    nid: str
    # `class` is a word of Python.
    kind: str | None
    subject: str | None
    sender: str | None
    sent: str | None
    received: str | None
    size: int | None
    folders: tuple[str, ...]
    recipients: int
    attachments: int

    @property
    def title(self) -> str:
        """The subject without the two characters in front that say how long its prefix is."""
        return title_of(self.subject)


def title_of(subject: str | None) -> str:
    """A subject (property 0037) without the two characters in front that say how long its prefix ("RE: ") is."""
    if subject is None:
        return ""
    return subject[2:] if subject[:1] == "\x01" else subject


# Where a file says how its blocks are encoded ([MS-PST] 2.2.2.6, bCryptMethod); 0 says that they are not.
_METHOD = 513


class Store:
    """A store, over its bytes in memory. `open` makes one of a file.

    The bytes are those of any object that lends them in one piece (bytes, bytearray, mmap, memoryview), and nobody may change them
    meanwhile. Each answer is of one check of all of them. Threads may share a store.

    With whole they need not be a store: folders, messages, props, all_props and value answer of what is whole of them
    (docs/JSON.md, "--whole"), decoded where they are encoded. Then the views of values that are encoded are a ValueError, and
    value has them.

        with pst.open("mail.pst") as store:
            for message in store.messages():
                print(message.title)
    """

    def __init__(self, data: Any, *, whole: bool = False) -> None:
        self._data = data
        self._all = memoryview(data).toreadonly()
        self._flags = ("--whole", "--decode") if whole else ()
        self._is_encoded = whole and any(self._all.cast("B")[_METHOD : _METHOD + 1])
        # The views that were given out and are still there, by numbers: a memoryview is hashed by all of its bytes, or not at all.
        self._lent: weakref.WeakValueDictionary[int, memoryview] = (
            weakref.WeakValueDictionary()
        )
        self._numbers = itertools.count()

    # ---- answers

    def answer(self, *words: str) -> bytes:
        """What the program writes for these words, with "-" in FILE's place. Raises what it says instead. What `damage` tells
        is given where something is broken, too."""
        status, text, line = _library.answer(words, self._all)
        is_told = status == 1 and words[:1] == ("damage",) and not line
        if status and not is_told:
            raise_for(words, status, line)
        return text

    def _answer(self, command: str, *words: str) -> bytes:
        """The same of a command that takes --whole."""
        return self.answer(command, *self._flags, *words)

    @property
    def report(self) -> Report:
        """The counts of the check. Refused where the bytes are no store."""
        told = json.loads(self.answer("check", "-"))
        lost = tuple(Lost(it["at"], it["len"]) for it in told["lost"])
        counts = ("blocks", "folders", "messages", "nodes", "order", "pages")
        return Report(lost=lost, **{key: told[key] for key in counts})

    def folders(self) -> list[Folder]:
        """The folders: first those that the root folder reaches, each in order of their identifiers."""
        return [
            Folder(
                nid=it["nid"],
                name=it["name"],
                path=None if it["path"] is None else tuple(it["path"]),
                subfolders=None if it["subfolders"] is None else tuple(it["subfolders"]),
                messages=it["messages"],
                associated=it["associated"],
            )
            for it in json.loads(self._answer("folders", "-"))["folders"]
        ]

    def messages(self) -> list[Message]:
        """All messages, in order of their identifiers; those that are embedded in others are not among them."""
        return [
            Message(
                nid=it["nid"],
                kind=it["class"],
                subject=it["subject"],
                sender=it["sender"],
                sent=it["sent"],
                received=it["received"],
                size=it["size"],
                folders=tuple(it["folders"]),
                recipients=it["recipients"],
                attachments=it["attachments"],
            )
            for it in map(json.loads, self._answer("messages", "-").splitlines())
        ]

    def props(self, path: str) -> Node:
        """The properties of what a path leads to, as "0x122" or "0x400024/0x8045/0x200024".

        Missing where it leads nowhere, and NodeRefused where it leads to something else than properties, as a table; where what is
        whole is asked for, also where the node with which the path begins is broken or lies behind a broken page.
        """
        return self.all_props([path])[0]

    def all_props(self, paths: Iterable[str]) -> list[Node]:
        """The same of several paths, after one check."""
        named = list(paths)
        if not named:
            return []
        lines = self._answer("props", "--places", "-", *named).splitlines()
        return [
            node_of(path, json.loads(line), self._slice)
            for path, line in zip(named, lines)
        ]

    def value(self, path: str, id: str, *, text: bool = False) -> bytes:
        """The bytes of the value of a property, copied; with text a text as UTF-8. Missing where there is none."""
        flag = ["--text"] if text else []
        return self._answer("value", *flag, "-", path, id)

    # ---- views

    def _slice(self, at: int, length: int) -> memoryview:
        if self._is_encoded:
            raise ValueError("the bytes there are encoded: Store.value decodes them")
        view = self._all[at : at + length]
        self._lent[next(self._numbers)] = view
        return view

    def close(self) -> None:
        """Lets the bytes go, and closes the mapping that `open` made.

        The views that values gave are over: to use one is a ValueError from now on. InUse where a view that was made of such a
        one, as by a slice, is still there, or another thread is at an answer: then the bytes are kept.
        """
        for view in list(self._lent.values()):
            _release(view)
        self._lent.clear()
        _release(self._all)
        if isinstance(self._data, mmap.mmap):
            try:
                self._data.close()
            except BufferError:
                self._all = memoryview(self._data).toreadonly()
                raise InUse("a view into the store is still used") from None

    def __enter__(self) -> Store:
        return self

    def __exit__(
        self,
        kind: type[BaseException] | None,
        error: BaseException | None,
        trace: TracebackType | None,
    ) -> None:
        try:
            self.close()
        except InUse:
            if error is None:
                raise


def _release(view: memoryview) -> None:
    try:
        view.release()
    except BufferError:
        raise InUse("a view into the store is still used") from None


def _mapped(path: str | os.PathLike[str], decode: bool) -> Any:
    """The bytes of a file, mapped. A file of no bytes cannot be."""
    with open(path, "rb") as file:
        if os.fstat(file.fileno()).st_size == 0:
            return b""
        # What is decoded in a private mapping is seen here alone.
        access = mmap.ACCESS_COPY if decode else mmap.ACCESS_READ
        return mmap.mmap(file.fileno(), 0, access=access)


def _read(path: str | os.PathLike[str]) -> bytearray:
    with open(path, "rb") as file:
        return bytearray(file.read())



def open_store(
    path: str | os.PathLike[str],
    *,
    decode: bool = False,
    mapped: bool = True,
    whole: bool = False,
) -> Store:
    """A store of a file, which is mapped, and not read as a whole.

    With decode an encoded file, as Outlook makes them, is decoded in memory; the file is not changed. While it is mapped no other
    program may write to it or make it shorter: then nothing is promised of the answers, and a shorter one ends the process. Where
    that may happen, mapped=False reads it first.

    With whole the file need not be a store: what is whole of it is answered (see Store). It is judged as it is stored, so it is not
    decoded here, with decode or without.
    """
    decode = decode and not whole
    data = _mapped(path, decode) if mapped else _read(path)
    if decode and len(data):
        _library.decode(data)
    return Store(data, whole=whole)
