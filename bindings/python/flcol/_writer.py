"""Files of chunks, which are written so that who opens one sees the old column or the new one."""
from __future__ import annotations

import io
import operator
import warnings
from array import array as list_of_numbers
from ctypes import byref, c_size_t
from itertools import islice
from typing import Any, Iterable, Iterator, Optional

from ._array import Array
from ._bits import unpack_bits
from ._buffers import address, is_buffer, new_bytes
from ._chunks import records_in
from ._column import Column
from ._dtypes import KINDS, NULLABLE, DType, integers, name_of
from ._file import FILE_MARK, File, OfContainer, opened
from ._interface import Chunk as Record
from ._library import call
from ._limits import depth_of, encoding_bits
from ._making import array
from ._target import InPlace, New, Target

_FOOT_ROOM = 91  # the bytes that a foot and the zeros before it have at most, beside those of its chunks
_VALID_TO_NULL = bytes([1]) + bytes(255)


class Writer:
    """Writes a column as a file of chunks, of which one is in memory at a time::

        with flcol.Writer("prices", dtype="uint32?") as writer:
            writer.extend([1999, None, 2005])
        with flcol.Writer("prices", append=True) as writer:
            writer.append(flcol.array([1987, 1990]).astype("uint32?").encode("for(bitpacked)"))

    A new file is written beside its place, under its name with ``.part`` at the end, and put there as a whole when the writer
    is closed. With ``append=True`` chunks are added to the file that is there, whose bytes stay as they are, and then a foot that
    names all chunks. The disk has the chunks, as far as the system says so, before the foot is written.

    An error inside of ``with``, a write that fails, or ``abort`` leaves no new file, and a file that was there as it was. Where
    the program is stopped, a new file is not at its place. One that was there may have lost its end then, as it has while it is
    being added to: ``flcol.open(path, recover=True)`` opens the column that was there before, and a writer with
    ``recover=True`` goes on with that.

    The items of ``extend`` are gathered to chunks of ``chunk`` items, each compressed within ``encodings`` and ``depth``, as
    ``Array.compress`` has them; an array of ``append`` is a chunk, as it is encoded. One thread at a time uses a writer.
    """

    def __init__(
        self,
        path: Any,
        dtype: Any = None,
        *,
        nullable: bool = False,
        chunk: int = 65536,
        encodings: Optional[Iterable[str]] = None,
        depth: int = 3,
        append: bool = False,
        recover: bool = False,
    ) -> None:
        self._target: Optional[Target] = None
        self._chunk, self._failed = _positive(chunk), False
        self._encodings, self._depth = None if encodings is None else list(encodings), depth
        encoding_bits(self._encodings), depth_of(depth)
        number = _number_of(dtype, nullable)
        if number is None and not append:
            raise TypeError("a new file needs a dtype, as dtype='uint32?'")
        self._records: list[Record] = []
        target = InPlace(path) if append else New(path)
        try:
            self._number, self._is_whole = _begun(target, number, recover, self._records)
        except BaseException:
            target.drop()
            raise
        self._values, self._nulls = list_of_numbers(KINDS[self._number % NULLABLE].code), bytearray()
        self._size = sum(record.len for record in self._records)
        self._target = target

    def __repr__(self) -> str:
        return f"<flcol.Writer {self.dtype}, {self._size} items{', closed' if self.closed else ''}>"

    # What it is

    @property
    def dtype(self) -> DType:
        """The type of the items by NumPy's name, as ``uint32``, or ``uint32?`` where they may be null."""
        return name_of(KINDS[self._number % NULLABLE], self._number >= NULLABLE)

    @property
    def size(self) -> int:
        """How many items the file has when it is closed now."""
        return self._size

    @property
    def closed(self) -> bool:
        """Whether the file is finished, or given up."""
        return self._target is None

    # Writing

    def append(self, array: Array) -> None:
        """Writes an array as a chunk, as it is encoded; of no items, nothing. Items that were gathered are a chunk before it."""
        self._open()
        if not isinstance(array, Array):
            raise TypeError(f"append takes an Array of {self.dtype}, and extend other items")
        if array._number % NULLABLE != self._number % NULLABLE or array.nullable and self._number < NULLABLE:
            raise TypeError(f"the file has items of {self.dtype}, and the array of {array.dtype}: astype makes one of another type")
        if array._number != self._number:
            array = array.astype(self.dtype)
        self._write_gathered(len(self._values))
        self._write(array)
        self._size += array.size

    def extend(self, items: Any) -> None:
        """Adds items, of an array, a file, a buffer, an array of NumPy or of Arrow, or of any iterable of integers and None.

        They have to fit the type: at the first that doesn't an error is raised, and those before it may have been added.
        """
        self._open()
        for piece in _pieces(items, self._chunk):
            part = array(piece, dtype=self.dtype)
            self._gather(part if part._number == self._number else part.astype(self.dtype))

    def flush(self) -> None:
        """Makes a chunk of the items that were gathered."""
        self._open()
        self._write_gathered(len(self._values))

    def _gather(self, part: Array) -> None:
        """Adds a plain array of the type, which is no longer than a chunk."""
        self._size += part.size
        if part.size == self._chunk and not self._values:
            self._write(self._compressed(part))
        elif part.size:
            values, validity = part.to_buffers()
            self._values.frombytes(memoryview(values).cast("B"))
            if validity is not None:
                self._nulls += unpack_bits(validity, part.size).translate(_VALID_TO_NULL)
            if len(self._values) >= self._chunk:
                self._write_gathered(self._chunk)

    def _write_gathered(self, count: int) -> None:
        """Makes a chunk of the first items that were gathered."""
        if count:
            mask = self._nulls[:count] if self._number >= NULLABLE else None
            self._write(self._compressed(array(self._values[:count], mask=mask)))
            del self._values[:count], self._nulls[:count]

    def _compressed(self, part: Array) -> Array:
        return part.compress(self._encodings, self._depth)

    def _write(self, chunk: Array) -> None:
        """Writes a chunk."""
        if not chunk.size:
            return
        record, written = Record(), c_size_t()
        room = new_bytes(chunk._ask("serialized_len", c_size_t) + 63)
        target = self._open()
        with address(room) as at:
            chunk._call("file_append", target.length, at, len(room), byref(written), byref(record))
        try:
            target.write(memoryview(room)[: written.value])
        except BaseException:
            self._fail()
            raise
        self._records.append(record)
        self._is_whole = False

    # Closing

    def close(self) -> None:
        """Writes the items that were gathered and the foot, and lets the file be what was written. A second call does nothing."""
        if self._failed:
            raise ValueError("a write failed before, and nothing of what was to be written is there")
        if self._target is None:
            return
        try:
            self._write_gathered(len(self._values))
            if self._is_whole:
                self._target.drop()
            else:
                self._target.sync()
                self._target.write(self._foot(self._target.length))
                self._target.finish()
        except BaseException:
            self._fail()
            raise
        self._target = None

    def _foot(self, length: int) -> memoryview:
        """What ends a file of a length."""
        records, written = records_in(self._records), c_size_t()
        room = new_bytes(96 * len(records) + _FOOT_ROOM)
        with address(room) as at:
            call("file_finish", self._number, records, len(records), length, at, len(room), byref(written))
        return memoryview(room)[: written.value]

    def abort(self) -> None:
        """Gives up: a new file is not made, and one that was there is as it was. Behind ``close`` this does nothing."""
        target, self._target = self._target, None
        if target is not None:
            target.drop()

    def _fail(self) -> None:
        self._failed = True
        self.abort()

    def _open(self) -> Target:
        """Where chunks are written to."""
        if self._target is None:
            raise ValueError("the writer is closed")
        return self._target

    def __enter__(self) -> Writer:
        return self

    def __exit__(self, kind: Any, *error: Any) -> None:
        if kind is None:
            self.close()
        else:
            self.abort()

    def __del__(self) -> None:
        if getattr(self, "_target", None) is not None:
            warnings.warn(f"{self!r} was not closed, and nothing is written", ResourceWarning, source=self)
            self.abort()


def _begun(target: Target, number: Optional[int], recover: bool, records: list[Record]) -> tuple[int, bool]:
    """The type of a file's items, and whether the file has a foot; the chunks of one that is there are added to a list."""
    if not isinstance(target, InPlace):
        target.write(FILE_MARK)
        assert number is not None
        return number, False
    with io.open(target.descriptor, "rb", closefd=False) as source, opened(source, recover) as file:
        if isinstance(file, OfContainer):
            raise ValueError("the file is a container, which has no foot: write its items to a new file")
        if number not in (None, file._number):
            raise TypeError(f"the file has items of {file.dtype}")
        records += file._records
        return file._number, file.nbytes == target.length


def _number_of(dtype: Any, nullable: bool) -> Optional[int]:
    """The number of a type of integers."""
    if dtype is None:
        return None
    kind, is_nullable = integers(dtype)
    return kind.number + NULLABLE * (nullable or is_nullable)


def _positive(chunk: Any) -> int:
    number = operator.index(chunk)
    if number < 1:
        raise ValueError(f"a chunk has 1 item or more, and not {number}")
    return number


def _pieces(items: Any, size: int) -> Iterator[Any]:
    """Items in pieces of at most so many, of which one is made at a time."""
    if isinstance(items, File):
        for chunk in items:
            yield from _pieces(chunk, size)
        return
    if hasattr(items, "__arrow_c_array__") or hasattr(items, "__arrow_c_stream__"):
        items = items if isinstance(items, Column) else array(items)
    if isinstance(items, (Column, list, tuple)) or is_buffer(items) or hasattr(items, "__array__"):
        for start in range(0, len(items), size):
            yield items[start : start + size]
        return
    rest = iter(items)
    while piece := list(islice(rest, size)):
        yield piece
