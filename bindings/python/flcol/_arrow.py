"""Arrow's C Data Interface, by Arrow's PyCapsule interface: arrays are given away and taken."""
from __future__ import annotations

import ctypes
import gc
import sys
import threading
from ctypes import POINTER, byref, c_char_p, c_int64, c_size_t, c_void_p, py_object
from typing import Any, Optional

from ._buffers import address
from ._dtypes import KINDS, Kind, name_of
from ._library import Handle, call, free

# ---- Structures of Arrow's header ----


class ArrowSchema(ctypes.Structure):
    """The type of an array of Arrow."""

    _fields_ = [
        ("format", c_char_p),
        ("name", c_char_p),
        ("metadata", c_void_p),
        ("flags", c_int64),
        ("n_children", c_int64),
        ("children", c_void_p),
        ("dictionary", c_void_p),
        ("release", c_void_p),
        ("private_data", c_void_p),
    ]


class ArrowArray(ctypes.Structure):
    """The buffers of an array of Arrow."""

    _fields_ = [
        ("length", c_int64),
        ("null_count", c_int64),
        ("offset", c_int64),
        ("n_buffers", c_int64),
        ("n_children", c_int64),
        ("buffers", c_void_p),
        ("children", c_void_p),
        ("dictionary", c_void_p),
        ("release", c_void_p),
        ("private_data", c_void_p),
    ]


class ArrowArrayStream(ctypes.Structure):
    """Arrays of Arrow of one type, one after another."""

    _fields_ = [
        ("get_schema", c_void_p),
        ("get_next", c_void_p),
        ("get_last_error", c_void_p),
        ("release", c_void_p),
        ("private_data", c_void_p),
    ]


_NULLABLE = 2  # the flag of a schema
_FORMATS = dict(zip((b"C", b"S", b"I", b"L", b"c", b"s", b"i", b"l", b"b"), KINDS))
_CHUNK = 1 << 20  # how many items an array of a stream has, at least
_MOST_CHUNKS = 4096

# ---- Capsules ----

_SCHEMA, _ARRAY, _STREAM = b"arrow_schema", b"arrow_array", b"arrow_array_stream"
_STRUCTURES = {_SCHEMA: ArrowSchema, _ARRAY: ArrowArray, _STREAM: ArrowArrayStream}


def _of_python(name: str, answer: Any, *arguments: Any) -> Any:
    """A function of Python's own interface."""
    return ctypes.PYFUNCTYPE(answer, *arguments)((name, ctypes.pythonapi))


_new_capsule = _of_python("PyCapsule_New", py_object, c_void_p, c_char_p, c_void_p)
_pointer_in = _of_python("PyCapsule_GetPointer", c_void_p, py_object, c_char_p)
_new_memory = _of_python("PyMem_RawCalloc", c_void_p, c_size_t, c_size_t)
_free_memory = _of_python("PyMem_RawFree", None, c_void_p)

# A capsule often dies while an error is on its way, and a destructor in Python would lose that error. So a capsule that was
# given away is held here too, until nobody else does: that is looked at whenever one is given away or garbage is collected.
_given: dict[int, tuple[Any, bytes]] = {}
_collecting = threading.Lock()


def _capsule(name: bytes) -> tuple[Any, int]:
    """A capsule with an empty structure, and where that is."""
    _collect()
    at = _new_memory(1, ctypes.sizeof(_STRUCTURES[name]))
    if not at:
        raise MemoryError("no memory for a structure of Arrow")
    capsule = _new_capsule(at, name, None)
    _given[at] = capsule, name
    return capsule, at


def _uses(at: int) -> int:
    """How many references there are to a capsule."""
    return sys.getrefcount(_given[at][0])


_given[0] = _new_capsule(1, _SCHEMA, None), _SCHEMA
_UNUSED = _uses(0)
del _given[0]


def _collect(phase: str = "stop", info: Any = None) -> None:
    """Releases what nobody has taken out of the capsules that nobody has any more, and frees their structures."""
    if phase != "stop" or not _given or not _collecting.acquire(blocking=False):
        return
    try:
        for at in [at for at in list(_given) if _uses(at) == _UNUSED]:
            _, name = _given.pop(at)
            _release(_STRUCTURES[name].from_address(at))
            _free_memory(at)
    finally:
        _collecting.release()


def _release(held: Any) -> None:
    """Releases what a structure has, unless that was done or it was moved away."""
    if held.release:
        ctypes.CFUNCTYPE(None, c_void_p)(held.release)(ctypes.addressof(held))


gc.callbacks.append(_collect)


# ---- Giving ----


def capsules_of(column: Any, requested_schema: Any = None) -> tuple[Any, Any]:
    """The schema and the array of a column, as capsules."""
    column = _as_requested(column, requested_schema)
    (schema, schema_at), (array, array_at) = _capsule(_SCHEMA), _capsule(_ARRAY)
    column._call("export_arrow", array_at, schema_at)
    return schema, array


def schema_of(column: Any) -> Any:
    """The schema of a column, as a capsule."""
    return capsules_of(column[:0])[0]


def stream_of(column: Any, requested_schema: Any = None) -> Any:
    """A stream of the column's items in chunks, as a capsule."""
    column = _as_requested(column, requested_schema)
    step = max(_CHUNK, -(-column.size // _MOST_CHUNKS))
    starts = range(0, column.size or 1, step)
    words = (c_void_p * len(starts))()
    parts = [ctypes.cast(ctypes.byref(words, ctypes.sizeof(c_void_p) * at), POINTER(Handle)) for at in range(len(starts))]
    capsule, at = _capsule(_STREAM)
    try:
        for start, part in zip(starts, parts):
            column._call("slice", start, min(start + step, column.size), part)
        call("export_arrow_stream", parts[0], len(parts), at)
    finally:
        for part in parts:
            free(part)  # what the stream hasn't taken
    return capsule


def _as_requested(column: Any, schema: Any) -> Any:
    """The column in the type that a schema asks for, where there is such a type here."""
    if schema is None:
        return column
    asked = ArrowSchema.from_address(_pointer_in(schema, _SCHEMA))
    kind = _FORMATS.get(asked.format)
    return column if kind is None or kind is column._kind else column.astype(name_of(kind, column.nullable))


# ---- Taking ----


def handles_of(values: Any) -> Optional[list[Handle]]:
    """The arrays that an object hands over by Arrow's PyCapsule interface; None where it speaks none."""
    try:
        if hasattr(values, "__arrow_c_array__"):
            return [_of_array(*values.__arrow_c_array__())]
        if hasattr(values, "__arrow_c_stream__"):
            return _of_stream(values.__arrow_c_stream__())
    except ImportError:  # a class that needs another package for it
        pass
    return None


def _of_array(schema: Any, array: Any) -> Handle:
    handle, schema_at = Handle(), _pointer_in(schema, _SCHEMA)
    _kind_of(schema_at)
    call("import_arrow", _pointer_in(array, _ARRAY), schema_at, byref(handle))
    return handle


def _of_stream(stream: Any) -> list[Handle]:
    """The chunks of a stream; one without items where there is none."""
    at = _pointer_in(stream, _STREAM)
    empty, handles = _empty_of(at), []
    while True:
        handle = Handle()
        call("import_arrow_stream", at, byref(handle))
        if not handle.at:
            return handles or [empty]
        handles.append(handle)


def _kind_of(schema_at: int) -> Kind:
    """The type that a schema says."""
    schema = ArrowSchema.from_address(schema_at)
    kind = None if schema.dictionary else _FORMATS.get(schema.format)
    if kind is None:
        raise TypeError(f"items of Arrow's format {(schema.format or b'').decode()!r} are no integers or booleans")
    return kind


def _empty_of(stream_at: int) -> Handle:
    """An array without items, of the type of a stream."""
    schema, handle = ArrowSchema(), Handle()
    at = ctypes.addressof(schema)
    get_schema = ctypes.CFUNCTYPE(ctypes.c_int, c_void_p, c_void_p)(ArrowArrayStream.from_address(stream_at).get_schema)
    if get_schema(stream_at, at):
        raise ValueError("the stream of Arrow has no schema")
    try:
        kind, validity = _kind_of(at), b"\0" if schema.flags & _NULLABLE else None
    finally:
        _release(schema)
    values = (None, 0) if kind.is_integer else (None, 0, 0)
    with address(validity) as valid:
        call(f"from_{kind.short}", *values, valid, len(validity or b""), byref(handle))
    return handle
