"""Files of chunks, which are opened without being read."""
from __future__ import annotations

import io
import mmap
import os
from bisect import bisect_right
from contextlib import contextmanager
from ctypes import byref, c_size_t, c_uint8, c_uint64
from itertools import accumulate
from typing import Any, BinaryIO, Iterator, Optional, Sequence, Union

from ._array import Array, bounds_of, constant_of, frombytes, has, of_handle, operator_number
from ._bits import unpack_bits
from ._buffers import address, new_bytes
from ._chunks import Chunk, Chunks, integer_in, records_of, words_of
from ._column import Column
from ._dtypes import KINDS, NULLABLE, DType, Kind, name_of
from ._indexing import is_mask, places_of, plain_key
from ._interface import Integer
from ._library import BAD_STATISTICS, FILE_TOO_SHORT, INDEX_OUT_OF_BOUNDS, Error, Handle, call, refusal
from ._making import array, concatenated
from ._reducing import check_whole

#: The first bytes of a container and of a file of chunks.
CONTAINER_MARK, FILE_MARK = b"FLC1", b"FLC2"

#: So many bytes before and behind one that is read come into memory with it.
_AROUND = 1 << 16

_SKIP, _READ, _ALL = range(3)  # what the statistics of a chunk say of a test
_Path = Union[str, bytes, "os.PathLike[Any]"]


class File:
    """A column in a file of chunks, made by ``flcol.open``. It is read chunk by chunk, as far as an answer needs it.

    The length, the counts, the sum, the least and the greatest item stand in the foot of the file, and a test reads the chunks
    alone of which the foot does not say that no item passes, or that each does. All that is believed where the file was not
    verified: checksums find what was changed by accident, and only ``verify`` finds what somebody wrote there on purpose. One
    chunk is in memory at a time, and the one that an item was read of last.

    Threads may share a file, and read different chunks at the same time. Arrays that come from it stay when it is closed. It is
    mapped into memory: chunks may be added to it meanwhile, of which this object knows nothing. A file that another program
    made shorter raises an error; but where that happens while a chunk is being read, or where a disk fails then, the operating
    system ends the process by the signal SIGBUS, and nothing here can prevent it. What replaces a file by another one, as
    ``flcol.Writer`` does, is safe.
    """

    __slots__ = ("_content", "_number", "_records", "_ends", "_size", "_last", "__weakref__")
    __array_ufunc__ = None

    def __init__(self, content: Any) -> None:
        self._content: Any = content
        self._last: Optional[tuple[int, Array]] = None  # the chunk of the item that was read last
        dtype, count = c_uint8(), c_size_t()
        self._call("look", byref(dtype), byref(count))
        self._number: int = dtype.value
        self._records = records_of(count.value)
        self._call("chunks", self._records, count.value)
        self._ends = list(accumulate(record.len for record in self._records))
        self._size: int = self._ask("len_trusting", c_uint64)

    def __repr__(self) -> str:
        return f"<flcol.File {self.dtype}, {self._size} items in {len(self._ends)} chunks>"

    # Closing

    def close(self) -> None:
        """Lets go of the file. Arrays that were read from it stay."""
        content, self._content, self._last = self._content, None, None
        if isinstance(content, mmap.mmap):
            try:
                content.close()
            except BufferError:
                pass  # another thread reads it, and lets go of it then

    @property
    def closed(self) -> bool:
        """Whether the file was closed."""
        return self._content is None

    def __enter__(self) -> File:
        return self

    def __exit__(self, *error: Any) -> None:
        self.close()

    # What it is

    @property
    def size(self) -> int:
        """How many items there are. ``len`` says the same, but has no number above ``sys.maxsize``."""
        return self._size

    def __len__(self) -> int:
        return self._size

    @property
    def dtype(self) -> DType:
        """The type of the items by NumPy's name, as ``uint32``, or ``uint32?`` where they may be null."""
        return name_of(self._kind, self.nullable)

    @property
    def nullable(self) -> bool:
        """Whether items may be null."""
        return self._number >= NULLABLE

    @property
    def nbytes(self) -> int:
        """How many bytes the file has."""
        with self._held() as (_, size):
            return size

    @property
    def chunks(self) -> Sequence[Chunk]:
        """What the file says of each chunk."""
        return Chunks(self._records)

    def verify(self) -> None:
        """Reads each chunk, and compares it with what the file says of it: ``flcol.Error`` where anything differs."""
        self._call("verify")
        self._forget(0, self.nbytes)

    # Reading

    def chunk(self, k: int) -> Array:
        """The items of a chunk, as it is encoded; ``k`` counts from the end where it is below 0."""
        record, handle = self._records[k], Handle()
        self._call("chunk", byref(record), byref(handle))
        self._forget(record.offset, record.size)
        found = of_handle(handle)
        if not isinstance(found, Array) or (found._number, found.size) != (self._number, record.len):
            raise Error(BAD_STATISTICS)
        return found

    def __iter__(self) -> Iterator[Array]:
        """The array of each chunk, one after another."""
        return map(self.chunk, range(len(self._ends)))

    def __getitem__(self, key: Any) -> Any:
        """An item by an index, the items of a slice or those at a list of indices. The chunks alone are read that have them."""
        if isinstance(key, slice):
            start, stop, step = key.indices(self._size)
            return self._joined(self._parts(start, stop)) if step == 1 else self.take(range(start, stop, step))
        key = plain_key(key)
        if isinstance(key, int):
            return self._item(key)
        if not isinstance(key, Column) and is_mask(key):
            raise TypeError("a file takes no mask: where chooses the items that meet a test")
        return self.take(key)

    def take(self, indices: Any) -> Array:
        """The items at the indices, and a null for each that is None or masked. Those below 0 count from the end."""
        in_array = isinstance(indices, Column)
        places, validity = indices._as_places(self._size) if in_array else places_of(indices, self._size)
        valid = b"\1" * len(places) if validity is None else unpack_bits(validity, len(places))
        wanted = [place for place, is_valid in zip(places.tolist(), valid) if is_valid]
        order = sorted(range(len(wanted)), key=wanted.__getitem__)
        found = self._joined(self._at([wanted[index] for index in order]))
        ranks = iter(sorted(range(len(order)), key=order.__getitem__))
        return found.take([next(ranks) if is_valid else None for is_valid in valid])

    def __contains__(self, item: Any) -> bool:
        """Whether an item equals this integer, or is null for None."""
        return has(self, item)

    def __array__(self, dtype: Any = None, copy: Any = None) -> Any:
        return self[:].__array__(dtype, copy)

    # All items at once, of which the foot knows

    @property
    def null_count(self) -> int:
        """How many items are null."""
        return self._ask("null_count_trusting", c_uint64)

    def count(self) -> int:
        """How many items are not null."""
        return self._size - self.null_count

    def sum(self, axis: Any = None, dtype: Any = None, out: Any = None, **more: Any) -> int:
        """The sum of the items that are not null, exactly; 0 where there is none."""
        check_whole("sum", axis, dtype, out, more)
        return self._sum()

    def mean(self, axis: Any = None, dtype: Any = None, out: Any = None, **more: Any) -> Optional[float]:
        """The mean of the items that are not null, the float next to it; None where there is none."""
        check_whole("mean", axis, dtype, out, more)
        count = self.count()
        return self._sum() / count if count else None

    def min(self, axis: Any = None, out: Any = None, **more: Any) -> Optional[int]:
        """The least item that is not null; None where there is none."""
        check_whole("min", axis, None, out, more)
        return self.min_max()[0]

    def max(self, axis: Any = None, out: Any = None, **more: Any) -> Optional[int]:
        """The greatest item that is not null; None where there is none."""
        check_whole("max", axis, None, out, more)
        return self.min_max()[1]

    def min_max(self) -> tuple[Optional[int], Optional[int]]:
        """The least and the greatest item that is not null; two times None where there is none."""
        least, greatest, is_none = Integer(), Integer(), c_uint8()
        self._call("min_max_trusting", byref(least), byref(greatest), byref(is_none))
        return (None, None) if is_none.value else (integer_in(least), integer_in(greatest))

    def _sum(self) -> int:
        total = Integer()
        self._call("sum_trusting", byref(total))
        return integer_in(total)

    # Tests, which read some chunks

    def count_where(self, op: str, constant: int) -> int:
        """How many items compare so with an integer, by ``==``, ``!=``, ``<``, ``<=``, ``>`` or ``>=``; no null does."""
        return sum(self._counted(self._plan_where(op, constant), lambda chunk: chunk.count_where(op, constant)))

    def count_between(self, lower: int, upper: int, inclusive: str = "both") -> int:
        """How many items lie between two bounds; ``inclusive`` is ``both``, ``left``, ``right`` or ``neither``."""
        plan = self._plan_between(lower, upper, inclusive)
        return sum(self._counted(plan, lambda chunk: chunk.count_between(lower, upper, inclusive)))

    def where(self, op: str, constant: int) -> Array:
        """The items that compare so with an integer, in their order; operators as of ``count_where``."""
        return self._joined(self.iter_where(op, constant))

    def where_between(self, lower: int, upper: int, inclusive: str = "both") -> Array:
        """The items that lie between two bounds, in their order; ``inclusive`` is that of ``count_between``."""
        return self._joined(self.iter_where_between(lower, upper, inclusive))

    def iter_where(self, op: str, constant: int) -> Iterator[Array]:
        """The same items as ``where``, in arrays of those of a chunk each, of which one is read at a time."""
        plan = self._plan_where(op, constant)
        return (chunk.where(op, constant) for chunk in self._of_plan(plan))

    def iter_where_between(self, lower: int, upper: int, inclusive: str = "both") -> Iterator[Array]:
        """The same items as ``where_between``, in arrays of those of a chunk each, of which one is read at a time."""
        plan = self._plan_between(lower, upper, inclusive)
        return (chunk.where_between(lower, upper, inclusive) for chunk in self._of_plan(plan))

    def _counted(self, plan: bytes, count: Any) -> Iterator[int]:
        """How many items of each chunk pass."""
        for k, said in enumerate(plan):
            if said == _ALL:
                yield self._records[k].len - self._records[k].null_count
            elif said == _READ:
                yield count(self.chunk(k))

    def _of_plan(self, plan: bytes) -> Iterator[Array]:
        """The chunks of which some items pass."""
        return (self.chunk(k) for k, said in enumerate(plan) if said != _SKIP)

    def _plan_where(self, op: str, constant: int) -> bytes:
        """What the foot says of a comparison, a byte for each chunk."""
        return self._plan("plan", operator_number(op), byref(words_of(constant_of(constant))))

    def _plan_between(self, lower: int, upper: int, inclusive: str) -> bytes:
        """What the foot says of two bounds, a byte for each chunk."""
        low, high = bounds_of(lower, upper, inclusive)
        return self._plan("plan_between", byref(words_of(low)), byref(words_of(high)), 0, 0)

    def _plan(self, name: str, *arguments: Any) -> bytes:
        plan = new_bytes(len(self._ends))
        with address(plan) as at:
            self._call(name, *arguments, at, len(plan))
        return plan

    # Parts of chunks

    def _item(self, index: int) -> Optional[int]:
        at = index + self._size if index < 0 else index
        if not 0 <= at < self._size:
            raise IndexError(f"index {index} is out of bounds for {self._size} items")
        k, last = bisect_right(self._ends, at), self._last
        if last is None or last[0] != k or self.closed:
            self._last = last = k, self.chunk(k)
        item: Optional[int] = last[1][at - self._start(k)]
        return item

    def _start(self, k: int) -> int:
        """Where the items of a chunk begin."""
        return self._ends[k - 1] if k else 0

    def _parts(self, start: int, stop: int) -> Iterator[Array]:
        """The items of a range, in a slice for each chunk that has some."""
        while start < stop:
            k = bisect_right(self._ends, start)
            first, end = self._start(k), min(stop, self._ends[k])
            yield self.chunk(k)[start - first : end - first]
            start = end

    def _at(self, places: list[int]) -> Iterator[Array]:
        """The items at places that don't fall, in an array for each chunk that has some."""
        if places and places[-1] >= self._size:
            raise refusal(INDEX_OUT_OF_BOUNDS)
        at = 0
        while at < len(places):
            k = bisect_right(self._ends, places[at])
            first, behind = self._start(k), at
            while behind < len(places) and places[behind] < self._ends[k]:
                behind += 1
            yield self.chunk(k).take([place - first for place in places[at:behind]])
            at = behind

    def _joined(self, parts: Iterator[Array]) -> Array:
        """The items of arrays of this type, one behind the other."""
        made: Array = concatenated(list(parts) or [array((), dtype=self.dtype)])
        return made

    # The calls below

    @property
    def _kind(self) -> Kind:
        return KINDS[self._number % NULLABLE]

    @contextmanager
    def _held(self) -> Iterator[tuple[Any, int]]:
        """Where the bytes of the file are, and how many, which nobody lets go of meanwhile."""
        content = self._content
        if content is None:
            raise ValueError("the file is closed")
        with address(content) as at:
            if isinstance(content, mmap.mmap) and content.size() < len(content):
                raise Error(FILE_TOO_SHORT, "the file has become shorter since it was opened")
            yield at, len(content)

    def _call(self, name: str, *arguments: Any) -> None:
        with self._held() as (at, size):
            call(f"file_{name}", at, size, *arguments)

    def _ask(self, name: str, kind: Any) -> int:
        """The number that a call writes."""
        answer = kind()
        self._call(name, byref(answer))
        number: int = answer.value
        return number

    def _forget(self, offset: int, size: int) -> None:
        """Takes the pages of bytes that were read, and those that came with them, out of the memory of this process."""
        content = self._content
        if isinstance(content, mmap.mmap):
            start = max(0, offset - _AROUND) // mmap.PAGESIZE * mmap.PAGESIZE
            content.madvise(mmap.MADV_DONTNEED, start, min(len(content), offset + size + _AROUND) - start)


class OfContainer(File):
    """A container, as a file of one chunk. What it says of its items is what they are."""

    __slots__ = ("_array",)

    def __init__(self, content: Any) -> None:
        found = frombytes(content)
        if not isinstance(found, Array):
            raise TypeError("a file of chunks has integers, and this container has booleans: flcol.frombytes reads it")
        self._content, self._last, self._array = content, None, found
        self._number, self._size, self._ends = found._number, found.size, [found.size]

    @property
    def chunks(self) -> Sequence[Chunk]:
        """What is true of the one chunk."""
        found = self.chunk(0)
        place = 0, self.nbytes, found.size, found.null_count
        return (Chunk(*place, *found.min_max(), found.sum(), found.is_sorted()),)

    def verify(self) -> None:
        """Does nothing: there is nothing to compare the items with."""

    def chunk(self, k: int) -> Array:
        """The items, by 0 or -1."""
        with self._held():
            return (self._array,)[k]

    @property
    def null_count(self) -> int:
        """How many items are null."""
        return self.chunk(0).null_count

    def _sum(self) -> int:
        return self.chunk(0).sum()

    def min_max(self) -> tuple[Optional[int], Optional[int]]:
        """The least and the greatest item that is not null; two times None where there is none."""
        return self.chunk(0).min_max()

    def _plan(self, name: str, *arguments: Any) -> bytes:
        return bytes([_READ])


def open(path: _Path, verify: bool = False, recover: bool = False) -> File:
    """Opens a file of chunks, or a container as a file of one, without reading it: the foot alone is looked at.

    Where it is not verified, what its foot says of the items is believed; ``verify=True`` reads each chunk and compares it. A
    file whose end was lost, as where the program that added to it was stopped, is no whole file, and refused; ``recover=True``
    takes the longest beginning of it that is one: the column that was there before.
    """
    with io.open(path, "rb") as source:
        file = opened(source, recover)
    try:
        if verify:
            file.verify()
    except BaseException:
        file.close()
        raise
    return file


def opened(source: BinaryIO, recover: bool = False) -> File:
    """The file of what a stream has, from its beginning on."""
    return of_content(_content(source, recover))


def of_content(content: Any) -> File:
    """The file of its bytes, in memory or mapped."""
    return OfContainer(content) if _is_container(content) else File(content)


def _is_container(content: Any) -> bool:
    return bool(content[: len(CONTAINER_MARK)] == CONTAINER_MARK)


def _content(file: BinaryIO, recover: bool) -> Any:
    """What a file has, or the longest beginning of it that is a whole one."""
    whole = mapped(file)
    end = c_size_t(len(whole))
    if recover and not _is_container(whole):
        with address(whole) as at:
            call("file_recover", at, len(whole), byref(end))
    if end.value == len(whole):
        return whole
    return mapped(file, end.value) if isinstance(whole, mmap.mmap) else whole[: end.value]


def mapped(file: BinaryIO, length: int = 0) -> Any:
    """The first bytes of a file, or all for 0, as memory of the file where it can be."""
    try:
        return mmap.mmap(file.fileno(), length, access=mmap.ACCESS_READ)
    except (ValueError, OSError):  # there are none, or it is no file of a disk
        return file.read()
