"""The calls of the library (include/pst.h), over any bytes that Python lends."""

from __future__ import annotations

import ctypes
import os
from collections.abc import Iterable, Iterator
from contextlib import contextmanager
from typing import Any

_NAME = "libpst.so.0"


class _Text(ctypes.Structure):
    _fields_ = [
        ("at", ctypes.c_void_p),
        ("length", ctypes.c_size_t),
        ("room", ctypes.c_size_t),
    ]


class _Answer(ctypes.Structure):
    _fields_ = [("text", _Text), ("line", _Text)]


class _Buffer(ctypes.Structure):
    """CPython's Py_buffer."""

    _fields_ = [
        ("buf", ctypes.c_void_p),
        ("obj", ctypes.py_object),
        ("len", ctypes.c_ssize_t),
        ("itemsize", ctypes.c_ssize_t),
        ("readonly", ctypes.c_int),
        ("ndim", ctypes.c_int),
        ("format", ctypes.c_char_p),
        ("shape", ctypes.c_void_p),
        ("strides", ctypes.c_void_p),
        ("suboffsets", ctypes.c_void_p),
        ("internal", ctypes.c_void_p),
    ]


_SIMPLE = 0
_WRITABLE = 1

_lend = ctypes.pythonapi.PyObject_GetBuffer
_lend.argtypes = [ctypes.py_object, ctypes.POINTER(_Buffer), ctypes.c_int]
_lend.restype = ctypes.c_int
_take_back = ctypes.pythonapi.PyBuffer_Release
_take_back.argtypes = [ctypes.POINTER(_Buffer)]
_take_back.restype = None


def _open_library() -> ctypes.CDLL:
    """The library that PST_LIBRARY names; else that beside this file; else, in a clone, the kept one; else the system's."""
    here = os.path.dirname(os.path.abspath(__file__))
    near = (os.path.join(here, _NAME), os.path.join(here, *[os.pardir] * 3, "built", _NAME))
    named = os.environ.get("PST_LIBRARY")
    library = ctypes.CDLL(named or next(filter(os.path.exists, near), _NAME))
    library.pst_answer.argtypes = [
        ctypes.c_char_p,
        ctypes.c_size_t,
        ctypes.c_void_p,
        ctypes.c_size_t,
        ctypes.POINTER(_Answer),
    ]
    library.pst_answer.restype = ctypes.c_int
    library.pst_decode.argtypes = [ctypes.c_void_p, ctypes.c_size_t]
    library.pst_decode.restype = ctypes.c_int
    library.pst_free.argtypes = [ctypes.POINTER(_Answer)]
    library.pst_free.restype = None
    return library


_library = _open_library()


@contextmanager
def _lent(data: Any, flags: int) -> Iterator[_Buffer]:
    """Where the bytes of an object lie. While they are lent it cannot move or close them."""
    buffer = _Buffer()
    _lend(data, ctypes.byref(buffer), flags)
    try:
        yield buffer
    finally:
        _take_back(ctypes.byref(buffer))


def _words(words: Iterable[str]) -> bytes:
    """The words as the library takes them, each ended by a zero byte."""
    ended = bytearray()
    for word in words:
        encoded = word.encode()
        if b"\0" in encoded:
            raise ValueError("a word has a zero character")
        ended += encoded + b"\0"
    return bytes(ended)


def _bytes_at(text: _Text) -> bytes:
    return ctypes.string_at(text.at, text.length) if text.length else b""


def answer(words: Iterable[str], data: Any) -> tuple[int, bytes, bytes]:
    """The program's status, what it writes, and what it says on the error output.

    The words are those of a command line, with "-" in FILE's place; the data are the file's, in any object that lends its bytes
    in one piece (bytes, bytearray, mmap, memoryview), and are not copied. Other threads run meanwhile.
    """
    ended = _words(words)
    said = _Answer()
    with _lent(data, _SIMPLE) as buffer:
        status = _library.pst_answer(
            ended, len(ended), buffer.buf, buffer.len, ctypes.byref(said)
        )
    try:
        return status, _bytes_at(said.text), _bytes_at(said.line)
    finally:
        _library.pst_free(ctypes.byref(said))


def decode(data: Any) -> None:
    """Decodes an encoded file where it lies, in bytes that may be changed. A file that is not encoded stays as it is."""
    with _lent(data, _WRITABLE) as buffer:
        if _library.pst_decode(buffer.buf, buffer.len):
            raise MemoryError
