"""Arrays of integers."""
from __future__ import annotations

from array import array as list_of_numbers
from ctypes import byref, c_int64, c_size_t, c_uint8, c_uint64
from typing import Any, Iterable, Optional, Union

from ._bits import bytes_of_bits, integer_of, unpack_bits
from ._bools import BoolArray
from ._buffers import address, is_aligned, kind_of, new_bytes, new_values
from ._column import Column
from ._dtypes import BOOL, INT64, NULLABLE, UINT64, name_of, numpy, parsed
from ._indexing import Places, of_integers
from ._library import CAST_NULL, CAST_OUT_OF_RANGE, Error, Handle, call, within
from ._reducing import check_whole

_EQ, _NOT_EQ, _GT, _GTE, _LT, _LTE = range(6)
_OPERATORS = {"==": _EQ, "!=": _NOT_EQ, ">": _GT, ">=": _GTE, "<": _LT, "<=": _LTE}


class Array(Column):
    """A column of nullable integers in an encoding, made by ``flcol.array``. It doesn't change.

    Threads may share one. Decoding it stops no other thread of Python; a second call on the same array waits.
    """

    __slots__ = ("_is_sorted",)

    def __init__(self, handle: Handle) -> None:
        super().__init__(handle)
        self._is_sorted: Optional[bool] = None  # until it is asked for

    def __repr__(self) -> str:
        bits = f", {8 * self.nbytes / self._size:.2f} bits an item" if self._size else ""
        return f"<flcol.Array {self.dtype}, {self._size} items, {self.scheme}{bits}>"

    # Reading

    def to_list(self) -> list[Optional[int]]:
        """The items, None for a null."""
        values, validity = self.to_buffers()
        items: list[Optional[int]] = values.tolist()
        if validity is None:
            return items
        return [item if valid else None for item, valid in zip(items, unpack_bits(validity, self._size))]

    def to_numpy(self, fill_value: Optional[int] = None) -> Any:
        """The items as an array of NumPy, a masked one where the type is nullable.

        With a value to fill in, which the type must have, the array is plain, and each null is that value.
        """
        if numpy is None:
            raise ImportError("to_numpy needs NumPy")
        if fill_value is not None:
            fill_value = within(fill_value, self._kind.least, self._kind.greatest, f"the fill_value for {self.dtype}")
        return self._fill(*self.to_buffers(), fill_value)

    def to_buffers(self) -> tuple[Any, Optional[bytes]]:
        """The values in new memory, and the validity as Arrow's bitmap, None where the type isn't nullable.

        The value under a null says nothing.
        """
        values = new_values(self._kind, self._size)
        return values, self.read_into(values)

    def read_into(self, buffer: Any) -> Optional[bytes]:
        """Decodes into a writable buffer of the items' type, as long as the array; the validity is the result."""
        view = memoryview(buffer)
        if view.ndim != 1 or not view.c_contiguous or kind_of(view) is not self._kind:
            raise TypeError(f"a buffer of {self._kind.name} one behind the other is needed")
        if not is_aligned(view):
            return self._read_through(view)
        validity = new_bytes(bytes_of_bits(self._size)) if self.nullable else None
        with address(view, writable=True) as at, address(validity) as bits:
            self._call(f"read_{self._kind.short}", at, len(view), bits, len(validity or b""))
        return validity

    def _read_through(self, view: memoryview) -> Optional[bytes]:
        """Decodes into a buffer at an address that C can't write a value to."""
        if view.readonly:
            raise BufferError("the buffer is not writable")
        values = new_values(self._kind, len(view))
        validity = self.read_into(values)
        view.cast("B")[:] = memoryview(values).cast("B")
        return validity

    def _item(self, index: int) -> Optional[int]:
        value, is_null = self._kind.value(), c_uint8()
        self._call(f"get_{self._kind.short}", self._place(index), byref(value), byref(is_null))
        return None if is_null.value else value.value

    def __contains__(self, item: Any) -> bool:
        """Whether an item equals this integer, or is null for None."""
        return has(self, item)

    # All items at once, or those that a mask is True for

    def sum(self, axis: Any = None, dtype: Any = None, out: Any = None, where: Any = True, **more: Any) -> int:
        """The sum of the items that are not null, exactly; 0 where there is none.

        ``where`` is a mask as of ``filter``, here and below: what it is True for is asked, and no other block is read.
        """
        check_whole("sum", axis, dtype, out, more)
        return self._sum(self._mask_of(where))

    def mean(self, axis: Any = None, dtype: Any = None, out: Any = None, where: Any = True, **more: Any) -> Optional[float]:
        """The mean of the items that are not null, the float next to it; None where there is none."""
        check_whole("mean", axis, dtype, out, more)
        mask = self._mask_of(where)
        count = self.count() if mask is None else self._count_under(mask)
        return self._sum(mask) / count if count else None

    def min(self, axis: Any = None, out: Any = None, where: Any = True, **more: Any) -> Optional[int]:
        """The least item that is not null; None where there is none."""
        check_whole("min", axis, None, out, more)
        return self.min_max(where)[0]

    def max(self, axis: Any = None, out: Any = None, where: Any = True, **more: Any) -> Optional[int]:
        """The greatest item that is not null; None where there is none."""
        check_whole("max", axis, None, out, more)
        return self.min_max(where)[1]

    def min_max(self, where: Any = True) -> tuple[Optional[int], Optional[int]]:
        """The least and the greatest item that is not null, found at once; two times None where there is none."""
        least, greatest, is_none = self._kind.value(), self._kind.value(), c_uint8()
        self._gather(self._mask_of(where), "min_max", self._kind.short, byref(least), byref(greatest), byref(is_none))
        return (None, None) if is_none.value else (least.value, greatest.value)

    def count_where(self, op: str, constant: int, where: Any = True) -> int:
        """How many items compare so with an integer, by ``==``, ``!=``, ``<``, ``<=``, ``>`` or ``>=``; no null does."""
        return self._count(self._mask_of(where), *self._comparison(operator_number(op), constant))

    def count_between(self, lower: int, upper: int, inclusive: str = "both", where: Any = True) -> int:
        """How many items lie between two bounds; ``inclusive`` is that of ``between``."""
        if where is not True:
            return self.mask_between(lower, upper, inclusive, where).true_count
        return self._ask(f"count_between_{self._kind.short}", c_size_t, *self._bounds(lower, upper, inclusive))

    # Choosing items

    def where(self, op: str, constant: int, where: Any = True) -> Array:
        """The items that compare so with an integer, in their order, as a plain array; operators as of ``count_where``."""
        if where is not True:
            return self.filter(self.mask_where(op, constant, where))
        return self._made(f"filter_by_{self._kind.short}", *self._comparison(operator_number(op), constant))

    def where_between(self, lower: int, upper: int, inclusive: str = "both", where: Any = True) -> Array:
        """The items that lie between two bounds, in their order, as a plain array; ``inclusive`` is that of ``between``."""
        if where is not True:
            return self.filter(self.mask_between(lower, upper, inclusive, where))
        return self._made(f"filter_between_{self._kind.short}", *self._bounds(lower, upper, inclusive))

    def mask_where(self, op: str, constant: int, where: Any = True) -> BoolArray:
        """Which items compare so with an integer: no null does, and under a mask no item that it is not True for.

        The answer is a mask in its turn, for this array and those beside it; operators as of ``count_where``.
        """
        return self._passing(where, "compare", *self._comparison(operator_number(op), constant))

    def mask_between(self, lower: int, upper: int, inclusive: str = "both", where: Any = True) -> BoolArray:
        """Which items lie between two bounds, as a mask, as of ``mask_where``; ``inclusive`` is that of ``between``."""
        return self._passing(where, "between", *self._bounds(lower, upper, inclusive))

    def lower_bound(self, value: int) -> int:
        """The first index whose item is not below an integer, or the length. Few blocks of a sorted array are read.

        A null is below every integer. The first time all items are looked at: ``ValueError`` where they are not sorted.
        """
        return self._first_from(constant_of(value))

    def searchsorted(self, v: int, side: str = "left", sorter: Any = None) -> int:
        """The index at which an integer would stand in the sorted array: before the items equal to it, or behind them.

        ``left`` is ``lower_bound``, ``right`` that of the next integer, as NumPy has them.
        """
        if side not in ("left", "right"):
            raise ValueError(f"side is left or right, and not {side!r}")
        if sorter is not None:
            raise TypeError("the array itself is sorted, and has no sorter")
        return self._first_from(constant_of(v) + (side == "right"))

    def _first_from(self, value: int) -> int:
        """The first index whose item is not below an integer of any size."""
        if self._is_sorted is None:
            self._is_sorted = self.is_sorted()
        if not self._is_sorted:
            raise ValueError("the items are not sorted, and only a sorted array is searched")
        if value > self._kind.greatest:
            return self._size
        return self._ask(f"lower_bound_{self._kind.short}", c_size_t, max(value, self._kind.least))

    # The calls below, of all items or of those that a bitmap keeps

    def _gather(self, mask: Optional[bytes], name: str, ending: str, *arguments: Any) -> None:
        if mask is None:
            self._call(f"{name}_{ending}", *arguments)
        else:
            with address(mask) as at:
                self._call(f"{name}_under_{ending}", at, len(mask), *arguments)

    def _sum(self, mask: Optional[bytes]) -> int:
        high, low = c_int64() if self._kind.least else c_uint64(), c_uint64()
        self._gather(mask, "sum", "signed" if self._kind.least else "unsigned", byref(high), byref(low))
        return high.value * 2**64 + low.value

    def _count(self, mask: Optional[bytes], op: int, constant: int) -> int:
        count = c_size_t()
        self._gather(mask, "count", self._kind.short, op, constant, byref(count))
        return count.value

    def _count_under(self, mask: bytes) -> int:
        return self._count(mask, _GTE, self._kind.least)

    def _passing(self, where: Any, test: str, *arguments: Any) -> BoolArray:
        mask = self._mask_of(where)
        if mask is None:
            return BoolArray(self._answers(f"{test}_", *arguments).mask(), None, self._size)
        bits = new_bytes(len(mask))
        with address(mask) as at, address(bits) as to:
            self._call(f"{test}_under_{self._kind.short}", at, len(mask), *arguments, to, len(bits))
        return BoolArray(bits, None, self._size)

    def _as_places(self, length: int) -> Places:
        """The items as indices into so many others."""
        if not self._kind.least:
            return self.astype(name_of(UINT64, self.nullable)).to_buffers()
        return of_integers(*self.astype(name_of(INT64, self.nullable)).to_buffers(), length)

    # Other forms

    def astype(self, dtype: Any) -> Any:
        """The same items in another type, which has to have each of them; as booleans, 0 and 1 are False and True."""
        kind, nullable = parsed(dtype)
        if kind.is_integer:
            return self._made("cast", kind.number + NULLABLE * nullable)
        if self.null_count and not nullable:
            raise Error(CAST_NULL)
        if (self == 0).true_count + (self == 1).true_count + self.null_count != self._size:
            raise Error(CAST_OUT_OF_RANGE)
        return (self == 1)._with_validity(nullable)

    cast = astype

    # Comparing

    def __eq__(self, other: Any) -> BoolArray:  # type: ignore[override]
        return self._compared(_EQ, other)

    def __ne__(self, other: Any) -> BoolArray:  # type: ignore[override]
        return self._compared(_NOT_EQ, other)

    def __gt__(self, other: Any) -> BoolArray:
        return self._compared(_GT, other)

    def __ge__(self, other: Any) -> BoolArray:
        return self._compared(_GTE, other)

    def __lt__(self, other: Any) -> BoolArray:
        return self._compared(_LT, other)

    def __le__(self, other: Any) -> BoolArray:
        return self._compared(_LTE, other)

    __hash__ = None  # type: ignore[assignment]

    def between(self, lower: int, upper: int, inclusive: str = "both") -> BoolArray:
        """Whether each item lies between two bounds; ``inclusive`` is ``both``, ``left``, ``right`` or ``neither``."""
        return self._answers("between_", *self._bounds(lower, upper, inclusive))

    def is_in(self, values: Iterable[int]) -> BoolArray:
        """Whether each item is one of these integers, as NumPy's ``isin``; null at a null."""
        least, greatest = self._kind.least, self._kind.greatest
        wanted = {constant_of(value) for value in values}
        words = list_of_numbers(self._kind.code, sorted(value for value in wanted if least <= value <= greatest))
        with address(words) as at:
            return self._answers("is_in_", at, len(words))

    def _compared(self, op: int, other: Any) -> BoolArray:
        return self._answers("compare_", *self._comparison(op, other))

    def _comparison(self, op: int, other: Any) -> tuple[int, int]:
        """A comparison with an integer of any size by one with an item of the type."""
        least, greatest = self._kind.least, self._kind.greatest
        constant = constant_of(other)
        if constant > greatest:
            return (_LTE if op in (_LT, _LTE, _NOT_EQ) else _GT), greatest
        if constant < least:
            return (_GTE if op in (_GT, _GTE, _NOT_EQ) else _LT), least
        return op, constant

    def _bounds(self, lower: Any, upper: Any, inclusive: str) -> tuple[int, int, int, int]:
        """Bounds of any size by two items of the type that belong to it, the lower above the upper where none lies between."""
        least, greatest = self._kind.least, self._kind.greatest
        low, high = bounds_of(lower, upper, inclusive)
        if low > greatest or high < least:
            return 1, 0, 0, 0
        return max(low, least), min(high, greatest), 0, 0

    def _answers(self, name: str, *arguments: Any) -> BoolArray:
        return BoolArray(*self._answered(name, *arguments), self._size)

    def __reduce__(self) -> tuple[Any, tuple[bytes]]:
        return frombytes, (bytes(self),)


def of_handle(handle: Handle) -> Union[Array, BoolArray]:
    """The array that a handle of the library holds."""
    number = c_uint8()
    call("dtype", byref(handle), byref(number))
    return BoolArray._of(handle) if number.value % NULLABLE == BOOL.number else Array(handle)


def frombytes(container: Any) -> Union[Array, BoolArray]:
    """The array of a container: bytes or another buffer of them, which may come from a stranger."""
    handle, view = Handle(), memoryview(container)
    kept = view if view.readonly else view.tobytes()  # which no other thread changes while it is read
    with address(kept) as at:
        call("deserialize", at, view.nbytes, byref(handle))
    return of_handle(handle)


def has(column: Any, item: Any) -> bool:
    """Whether an item of a column equals an integer, or is null for None."""
    if item is None:
        return bool(column.null_count > 0)
    if isinstance(item, float) and item.is_integer():
        item = int(item)
    return integer_of(item) is not None and bool(column.count_where("==", item) > 0)


def operator_number(op: Any) -> int:
    """The number of an operator."""
    if not isinstance(op, str) or op not in _OPERATORS:
        raise ValueError(f"an operator is one of {', '.join(_OPERATORS)}, and not {op!r}")
    return _OPERATORS[op]


def bounds_of(lower: Any, upper: Any, inclusive: str) -> tuple[int, int]:
    """The least and the greatest integer between two bounds, of any size."""
    if inclusive not in ("both", "left", "right", "neither"):
        raise ValueError("inclusive is both, left, right or neither")
    return constant_of(lower) + (inclusive in ("right", "neither")), constant_of(upper) - (inclusive in ("left", "neither"))


def constant_of(other: Any) -> int:
    """The integer that items are compared with."""
    constant = integer_of(other)
    if constant is not None:
        return constant
    if other is None:
        raise TypeError("an array is compared with an integer; null_count says how many items are null")
    if isinstance(other, Column) or hasattr(other, "__len__"):
        raise TypeError("an array is compared with one integer; two columns are compared as arrays of NumPy, by to_numpy()")
    raise TypeError(f"an array is compared with an integer, and not with {other!r}")
