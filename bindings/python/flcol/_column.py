"""What arrays of integers and of booleans have in common."""
from __future__ import annotations

import threading
from ctypes import byref, c_size_t, c_uint8, c_uint64, create_string_buffer
from typing import Any, Iterable, Iterator, Optional, TypeVar

from ._arrow import capsules_of, schema_of, stream_of
from ._bits import bytes_of_bits, is_flag, packed
from ._limits import depth_of, encoding_bits
from ._buffers import address, new_bytes
from ._dtypes import KINDS, NULLABLE, DType, Kind, name_of, numpy
from ._indexing import Places, is_mask, places_of, plain_key, range_words
from ._library import BAD_CONTAINER, Error, Handle, call

_DECODED = 1 << 16  # how many items an iterator decodes at a time

Same = TypeVar("Same", bound="Column")


class Column:
    """Items of one type, some of which may be null, in an encoding. They don't change.

    Threads may share a column: a lock lets one call at a time work on it, and the interpreter's lock is let go meanwhile.
    """

    __slots__ = ("_handle", "_lock", "_number", "_size", "__weakref__")
    __array_ufunc__ = None

    def __init__(self, handle: Handle) -> None:
        if not isinstance(handle, Handle):
            raise TypeError("flcol.array makes arrays")
        self._handle = handle
        # What runs between the instructions of a call in the same thread, as the handler of a signal, may ask the column too.
        self._lock = threading.RLock()
        self._size: int = self._ask("len", c_size_t)
        self._number: int = self._ask("dtype", c_uint8)

    # What it is

    @property
    def size(self) -> int:
        """How many items there are. ``len`` says the same, but has no number above ``sys.maxsize``."""
        return self._size

    def __len__(self) -> int:
        return self._size

    @property
    def dtype(self) -> DType:
        """The type of the items by NumPy's name, as ``uint32``, or ``uint32?`` where they may be null."""
        return name_of(self._kind, self.nullable)

    @property
    def nullable(self) -> bool:
        """Whether items may be null."""
        return self._number >= NULLABLE

    @property
    def nbytes(self) -> int:
        """How many bytes all buffers of the array take."""
        return self._ask("nbytes", c_uint64)

    @property
    def null_count(self) -> int:
        """How many items are null."""
        return self._ask("null_count", c_size_t) if self.nullable else 0

    def count(self, where: Any = True) -> int:
        """How many items are not null, of all or of those that a mask is True for."""
        mask = self._mask_of(where)
        return self._size - self.null_count if mask is None else self._count_under(mask)

    @property
    def scheme(self) -> str:
        """What the array is, as the text of a scheme: the words of ``encode``, with each width.

        ``forw`` and ``forcw`` are read as ``for`` and ``forc``, and ``forc`` is ``for`` where one reference serves all
        chunks. Booleans have none.
        """
        text = create_string_buffer(self._ask("scheme_len", c_size_t))
        self._call("scheme", text, len(text))
        return text.raw.decode("ascii")

    def is_constant(self) -> bool:
        """Whether all items are equal, a null to a null."""
        return bool(self._ask("is_constant", c_uint8))

    def is_sorted(self, strict: bool = False) -> bool:
        """Whether no item is above the next, or each is below it; a null is below every integer."""
        return bool(self._ask("is_sorted", c_uint8, bool(strict)))

    __hash__ = None  # type: ignore[assignment]

    # Reading

    def to_list(self) -> list[Any]:
        """The items, None for a null."""
        raise NotImplementedError

    def to_numpy(self, fill_value: Any = None) -> Any:
        """The items as an array of NumPy."""
        raise NotImplementedError

    def __iter__(self) -> Iterator[Any]:
        for start in range(0, self._size, _DECODED):
            yield from self[start : start + _DECODED].to_list()

    def __array__(self, dtype: Any = None, copy: Any = None) -> Any:
        if copy is False:
            raise ValueError("what is encoded has no array of NumPy without a copy")
        nulls = self.null_count
        if nulls:
            raise TypeError(
                f"an array of NumPy has no nulls, and {nulls} items are null: to_numpy() answers a masked array, and "
                "to_numpy(fill_value) one with that value for each null"
            )
        items = self.to_numpy()
        plain = items.data if self.nullable else items
        return plain if dtype is None else plain.astype(dtype)

    def _fill(self, values: Any, validity: Optional[bytes], fill_value: Any) -> Any:
        """Values of NumPy with those that are null masked, or filled."""
        if validity is None:
            return values
        flags = numpy.unpackbits(numpy.frombuffer(validity, numpy.uint8), count=self._size, bitorder="little")
        nulls = flags == 0
        if fill_value is None:
            return numpy.ma.array(values, mask=nulls)
        values[nulls] = fill_value
        return values

    # Choosing items

    def __getitem__(self, key: Any) -> Any:
        """An item by an index, the items of a slice, those that a mask is True for, or those at a list of indices."""
        if isinstance(key, slice):
            return self._sliced(*key.indices(self._size))
        key = plain_key(key)
        if isinstance(key, int):
            return self._item(key)
        is_bools = not key._kind.is_integer if isinstance(key, Column) else is_mask(key)
        return self.filter(key) if is_bools else self.take(key)

    def take(self: Same, indices: Any) -> Same:
        """The items at the indices, and a null for each that is None or masked. Those below 0 count from the end."""
        in_array = isinstance(indices, Column)
        values, validity = indices._as_places(self._size) if in_array else places_of(indices, self._size)
        with address(values) as at, address(validity) as bits:
            return self._chosen("take", at, len(values), bits, len(validity or b""))

    def take_ranges(self: Same, ranges: Iterable[range]) -> Same:
        """The items of ranges of step 1, one range after another."""
        words = range_words(ranges, self._size)
        with address(words) as at:
            return self._chosen("take_ranges", at, len(words) // 2)

    def filter(self: Same, mask: Any) -> Same:
        """The items that a mask is True for: a BoolArray, a buffer of bools or a list of them, as long as the array."""
        bits = self._bits_of(mask if hasattr(mask, "__len__") else list(mask))
        with address(bits) as at:
            return self._chosen("filter", at, len(bits))

    def _mask_of(self, where: Any) -> Optional[bytes]:
        """The bitmap of a mask, as of ``filter``; None for True, which stands for all items."""
        if where is True:
            return None
        if where is None or is_flag(where):
            raise TypeError(f"where is a mask as long as the array, or True for all items, and not {where!r}")
        return self._bits_of(where if hasattr(where, "__len__") else list(where))

    def _count_under(self, mask: bytes) -> int:
        """How many items that a bitmap keeps are not null."""
        raise NotImplementedError

    def _bits_of(self, mask: Any) -> bytes:
        """The bitmap of a mask for this array."""
        bits, length = (mask._as_mask(), mask._size) if isinstance(mask, Column) else packed(mask)
        if length != self._size:
            raise IndexError(f"a mask of {length} items for an array of {self._size}")
        return bits[: bytes_of_bits(length)]

    def _as_mask(self) -> bytes:
        """A bitmap of the items that are True."""
        raise TypeError("integers are no mask; a comparison of them is one")

    def _as_places(self, length: int) -> Places:
        """The items as indices into so many others."""
        raise TypeError("indices are integers; filter chooses by bools")

    def _item(self, index: int) -> Any:
        raise NotImplementedError

    def _place(self, index: int) -> int:
        """The place of an index."""
        at = index + self._size if index < 0 else index
        if not 0 <= at < self._size:
            raise IndexError(f"index {index} is out of bounds for {self._size} items")
        return at

    def _sliced(self: Same, start: int, stop: int, step: int) -> Same:
        if step == 1:
            return self._made("slice", start, max(start, stop))
        return self.take(range(start, stop, step))

    # Other forms

    def encode(self: Same, scheme: str) -> Same:
        """The same column by a scheme such as ``for(bitpacked)``. Booleans have none.

        The words are ``primitive``, ``constant``, ``bitpacked``, ``bitpacked:7``, ``blocked``, ``for``, ``forc``,
        ``forw``, ``forcw``, ``delta``, ``rle`` and ``dict``; in parentheses stand the schemes of the children, ``_`` for
        a plain one. What ``dict`` makes shows as ``rle``.
        """
        if not isinstance(scheme, str):
            raise TypeError(f"a scheme is a text such as 'for(bitpacked)', and not {scheme!r}")
        text = scheme.encode("utf-8", "surrogatepass")
        return self._made("encode", text, len(text))

    def compress(self: Same, encodings: Optional[Iterable[str]] = None, depth: int = 3) -> Same:
        """The same column by the scheme that takes the fewest bytes.

        Of all ``encodings``, which are ``constant``, ``bitpacked``, ``for``, ``delta``, ``rle`` and ``dict``, or of those
        that are named alone; and of those that nest at most ``depth`` of them in one another. Fewer compress faster.
        """
        if encodings is None and depth == 3:
            return self._made("compress")
        return self._made("compress_within", encoding_bits(encodings), depth_of(depth))

    def to_blocked(self: Same) -> Same:
        """The same array with a boundary for each block wherever it is bit-packed at one width."""
        return self._made("to_blocked")

    # Giving away

    def __copy__(self: Same) -> Same:
        return self

    def __deepcopy__(self: Same, memo: Any) -> Same:
        return self

    def __bytes__(self) -> bytes:
        """The array as a container, which can be kept in a file."""
        try:
            container = new_bytes(self._ask("serialized_len", c_size_t))
            with address(container) as at:
                self._ask("serialize", c_size_t, at, len(container))
        except Error as error:
            if error.number != BAD_CONTAINER:
                raise
            raise Error(BAD_CONTAINER, "more than 16 arrays stand in one another, and no container has so many") from None
        return container

    def __arrow_c_array__(self, requested_schema: Any = None) -> tuple[Any, Any]:
        """The capsules of the type and the items, decoded, as Arrow's PyCapsule interface has them.

        A type of integers that is asked for is given where it has each item.
        """
        return capsules_of(self, requested_schema)

    def __arrow_c_schema__(self) -> Any:
        """The capsule of the type."""
        return schema_of(self)

    def __arrow_c_stream__(self, requested_schema: Any = None) -> Any:
        """The capsule of a stream of the items in chunks, each decoded when it is read."""
        return stream_of(self, requested_schema)

    # The calls below

    @property
    def _kind(self) -> Kind:
        return KINDS[self._number % NULLABLE]

    def _call(self, name: str, *arguments: Any) -> None:
        with self._lock:
            call(name, byref(self._handle), *arguments)

    def _ask(self, name: str, kind: Any, *arguments: Any) -> int:
        """The number that a call writes."""
        answer = kind()
        self._call(name, *arguments, byref(answer))
        number: int = answer.value
        return number

    def _made(self: Same, name: str, *arguments: Any) -> Same:
        """The array of the same class that a call makes."""
        handle = Handle()
        self._call(name, *arguments, byref(handle))
        return type(self)._of(handle)

    @classmethod
    def _of(cls: type[Same], handle: Handle) -> Same:
        return cls(handle)

    def _chosen(self: Same, name: str, *arguments: Any) -> Same:
        """The items that a call chooses."""
        return self._made(name, *arguments)

    def _answered(self, name: str, *arguments: Any) -> tuple[bytes, Optional[bytes]]:
        """The bits and the validity that a call with the type of the items in its name answers."""
        bits = new_bytes(bytes_of_bits(self._size))
        validity = new_bytes(len(bits)) if self.nullable else None
        with address(bits) as at, address(validity) as valid:
            self._call(name + self._kind.short, *arguments, at, len(bits), valid, len(validity or b""))
        return bits, validity
