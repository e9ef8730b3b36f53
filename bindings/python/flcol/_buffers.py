"""Values as they lie in memory."""
from __future__ import annotations

import ctypes
import sys
from array import array as list_of_numbers
from contextlib import contextmanager
from typing import Any, Iterator, Optional

from ._dtypes import BOOL, INTEGERS, Kind, numpy

_UNSIGNED, _SIGNED = "BHILQN", "bhilqn"


class _Buffer(ctypes.Structure):
    """Python's Py_buffer."""

    _fields_ = [
        ("buf", ctypes.c_void_p),
        ("obj", ctypes.py_object),
        ("len", ctypes.c_ssize_t),
        ("itemsize", ctypes.c_ssize_t),
        ("readonly", ctypes.c_int),
        ("ndim", ctypes.c_int),
        ("format", ctypes.c_char_p),
        ("shape", ctypes.c_void_p),
        ("strides", ctypes.c_void_p),
        ("suboffsets", ctypes.c_void_p),
        ("internal", ctypes.c_void_p),
    ]


_get = ctypes.pythonapi.PyObject_GetBuffer
_get.argtypes = [ctypes.py_object, ctypes.POINTER(_Buffer), ctypes.c_int]
_release = ctypes.pythonapi.PyBuffer_Release
_release.argtypes, _release.restype = [ctypes.POINTER(_Buffer)], None
_WRITABLE = 1
_new = ctypes.pythonapi.PyBytes_FromStringAndSize
_new.argtypes, _new.restype = [ctypes.c_void_p, ctypes.c_ssize_t], ctypes.py_object


@contextmanager
def address(buffer: Any, writable: bool = False) -> Iterator[Optional[int]]:
    """Where a buffer's bytes begin; None for no buffer."""
    if buffer is None:
        yield None
        return
    view = _Buffer()
    _get(buffer, ctypes.byref(view), _WRITABLE if writable else 0)
    try:
        yield view.buf
    finally:
        _release(ctypes.byref(view))


def new_bytes(size: int) -> bytes:
    """New bytes, for a call that writes each of them before anything else sees one."""
    made: bytes = _new(None, _possible(size))
    return made


def copied(memory: bytes) -> bytes:
    """New bytes that are the same, for a call that writes over them before anything else sees them."""
    made = new_bytes(len(memory))
    with address(made) as at:
        ctypes.memmove(at, memory, len(memory))
    return made


def new_values(kind: Kind, length: int) -> Any:
    """New memory for values: an array of NumPy, or one of the module ``array``."""
    _possible(length * kind.size)
    if numpy is not None:
        return numpy.empty(length, kind.name)
    return list_of_numbers("B" if kind is BOOL else kind.code, bytes(kind.size * length))


def _possible(size: int) -> int:
    """A number of bytes that memory could have."""
    if size > sys.maxsize:
        raise MemoryError(f"{size} bytes are more than a memory has")
    return size


def is_buffer(values: Any) -> bool:
    """Whether values lie in memory as a buffer."""
    try:
        memoryview(values)
    except TypeError:
        return False
    return True


def kind_of(view: memoryview) -> Kind:
    """The type of a buffer's items."""
    code = view.format.lstrip("@=<") if sys.byteorder == "little" else view.format.lstrip("@=")
    if code == "?":
        return BOOL
    if code in _UNSIGNED or code in _SIGNED:
        return next(kind for kind in INTEGERS if kind.size == view.itemsize and (kind.least == 0) == (code in _UNSIGNED))
    raise TypeError(f"items of format {view.format!r} are no integers or booleans of this machine")


def one_dimension(view: memoryview) -> memoryview:
    """The buffer, or a copy where its items don't lie one behind the other, at addresses that their size divides."""
    if view.ndim != 1:
        raise TypeError(f"a column has one dimension, and not {view.ndim}")
    if view.c_contiguous and is_aligned(view):
        return view
    return memoryview(list_of_numbers("B", view.tobytes())).cast(view.format.lstrip("@=<"))


def is_aligned(view: memoryview) -> bool:
    """Whether the address of each item is a multiple of its size, as C needs it."""
    with address(view) as at:
        return not view.nbytes or (at or 0) % view.itemsize == 0
