"""Files of columns: text, NumPy's .npy, containers, and files of chunks."""
from __future__ import annotations

import ast
import mmap
import os
import re
import struct
from array import array as list_of_numbers
from typing import Any, BinaryIO, Callable, Iterator, Optional, Union

from ._array import frombytes
from ._column import Column
from ._dtypes import BOOL, INTEGERS, integers, name_of
from ._file import CONTAINER_MARK, FILE_MARK, File, of_content
from ._making import array

#: Tells how much of a whole is done.
Tell = Callable[[int, int], None]

#: The first bytes of a .npy file.
NPY_MARK = b"\x93NUMPY"

_LINES = re.compile(rb"(?:(?:-?[0-9]{1,40}|null)\n)*")  # no integer of a type has as many digits
_WORDS = {None: "null", False: "false", True: "true"}
_AT_ONCE = 1 << 16  # bytes or items
_WHOLE = 1 << 64  # more items than a column has
_NPY_NAMES = {kind: f"{'|' if kind.size == 1 else '<'}{kind.short[0]}{kind.size}" for kind in (*INTEGERS, BOOL)}
_NPY_TYPES = {name: kind for kind, name in _NPY_NAMES.items()}


class BadFile(ValueError):
    """A file that is none of a column."""


def read(file: BinaryIO, dtype: Optional[str], tell: Tell) -> Union[Column, File]:
    """The array of a container, a ``.npy`` file of one dimension, or lines of a type; a file of chunks is opened."""
    head = file.read(len(NPY_MARK))
    if head.startswith(FILE_MARK):
        return of_content(_content(file, head))
    return next(_pieces(file, head, dtype, _WHOLE, tell))


def pieces(file: BinaryIO, dtype: Optional[str], size: int, tell: Tell) -> Iterator[Column]:
    """The column of a file in arrays of so many items, the last of which may be shorter; one at least.

    Lines are read as they are needed, and other files are mapped, so that a column may be longer than memory.
    """
    return _pieces(file, file.read(len(NPY_MARK)), dtype, size, tell)


def _pieces(file: BinaryIO, head: bytes, dtype: Optional[str], size: int, tell: Tell) -> Iterator[Column]:
    """The same of a file whose head was read."""
    if head.startswith((CONTAINER_MARK, FILE_MARK)):
        content = _content(file, head)
        whole = of_content(content) if head.startswith(FILE_MARK) else frombytes(content)
        return (whole[start : start + size] for start in range(0, whole.size or 1, size))
    if head == NPY_MARK:
        items = _of_npy(memoryview(_content(file, head)))
        return (array(items[start : start + size], dtype=dtype) for start in range(0, len(items) or 1, size))
    if dtype is None:
        raise BadFile("lines need a type, as --type u32")
    return _of_lines(file, head, dtype, size, tell)


def parts_of(column: Union[Column, File]) -> Iterator[Column]:
    """A column in arrays that may be decoded: of a file of chunks one chunk is in memory at a time."""
    for whole in column if isinstance(column, File) else (column,):
        for start in range(0, whole.size, _AT_ONCE):
            yield whole[start : start + _AT_ONCE]


def _content(file: BinaryIO, head: bytes) -> Any:
    """What a file has, as memory of the file where it can be; its head has been read."""
    try:
        return mmap.mmap(file.fileno(), 0, access=mmap.ACCESS_READ)
    except (ValueError, OSError):
        return head + file.read()


def _of_npy(content: memoryview) -> memoryview:
    """The integers or booleans of a ``.npy`` file."""
    try:
        wide = content[6] > 1
        (size,) = struct.unpack_from("<I" if wide else "<H", content, 8)
        begin = 12 if wide else 10
        header = ast.literal_eval(bytes(content[begin : begin + size]).decode("latin1"))
        descr, (length,) = header["descr"], header["shape"]
        kind = _NPY_TYPES[descr]
    except (KeyError, ValueError, TypeError):
        raise BadFile("the .npy file has no little-endian integers or booleans in one dimension") from None
    except (IndexError, SyntaxError, RecursionError, MemoryError, struct.error):
        raise BadFile("the header of the .npy file is malformed") from None
    items = content[begin + size :]
    if not isinstance(length, int) or len(items) != kind.size * length:
        raise BadFile("the .npy file has not as many items as its header says")
    return items.cast(kind.code)


def _of_lines(file: BinaryIO, head: bytes, dtype: str, size: int, tell: Tell) -> Iterator[Column]:
    """The arrays of lines, each an integer or ``null``."""
    kind, nullable = integers(dtype)
    name = name_of(kind, nullable)
    values, nulls, is_first = list_of_numbers(kind.code), bytearray(), True

    def taken() -> Column:
        made = array(values[:size], mask=nulls[:size] if nullable else None)
        del values[:size], nulls[:size]
        return made

    for lines in _some_lines(file, head, tell):
        items = _items(lines, name, nullable)
        nulls += bytes(item is None for item in items)
        try:
            values.extend(item or 0 for item in items)
        except OverflowError:
            raise BadFile(f"an item does not fit {name}: one of those from {lines[:20]!r}") from None
        while len(values) >= size:
            is_first = False
            yield taken()
    if values or is_first:
        yield taken()


def _some_lines(file: BinaryIO, head: bytes, tell: Tell) -> Iterator[bytes]:
    """The lines some at a time; a line feed ends the last one, there or not."""
    whole = os.fstat(file.fileno()).st_size
    lines, done = head + file.readline(), 0
    while lines:
        yield lines if lines.endswith(b"\n") else lines + b"\n"
        done += len(lines)
        tell(done, max(done, whole))
        lines = file.read(_AT_ONCE) + file.readline()


def _items(lines: bytes, dtype: str, nullable: bool) -> list[Optional[int]]:
    """The items of lines."""
    if not _LINES.fullmatch(lines):
        raise BadFile(f"a line is no item of {dtype}: one of those from {lines[:20]!r}")
    items = [None if line == b"null" else int(line) for line in lines.split()]
    if not nullable and None in items:
        raise BadFile(f"an item is null, and {dtype} has no nulls: one of those from {lines[:20]!r}")
    return items


def write_lines(column: Union[Column, File], file: BinaryIO, tell: Tell) -> None:
    """Writes a line for each item."""
    is_bool, done = column.dtype.startswith("bool"), 0
    for part in parts_of(column):
        items = part.to_list()
        file.write("".join(f"{_WORDS[item] if is_bool or item is None else item}\n" for item in items).encode())
        done += len(items)
        tell(done, column.size)


def write_npy(column: Union[Column, File], file: BinaryIO, tell: Tell) -> None:
    """Writes a ``.npy`` file of a column without nulls."""
    kind, done = column._kind, 0
    header = f"{{'descr': '{_NPY_NAMES[kind]}', 'fortran_order': False, 'shape': ({column.size},), }}"
    header += " " * (-(len(header) + 11) % 64) + "\n"
    file.write(NPY_MARK + b"\x01\x00" + struct.pack("<H", len(header)) + header.encode())
    for part in parts_of(column):
        values = bytearray(kind.size * part.size)
        part.read_into(memoryview(values).cast(kind.code))
        file.write(values)
        done += part.size
        tell(done, column.size)


def writer(column: Union[Column, File], name: str) -> Callable[[Any, BinaryIO, Tell], None]:
    """How a column is written to a file of a name."""
    if not name.endswith(".npy"):
        return write_lines
    if column.null_count:
        raise BadFile(f"a .npy file has no nulls, and {column.null_count} items are null: write lines")
    return write_npy
