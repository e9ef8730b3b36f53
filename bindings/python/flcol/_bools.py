"""Arrays of booleans."""
from __future__ import annotations

import operator
import threading
from ctypes import byref
from typing import Any, Callable, Optional

from ._bits import bit, both, bytes_of_bits, count, integer_of, inverted, is_flag, joined, ones, pack_bits, some, unpack_bits
from ._buffers import address, kind_of
from ._column import Column
from ._dtypes import BOOL, NULLABLE, UINT8, numpy, parsed
from ._library import CAST_NULL, Error, Handle, call
from ._reducing import check_whole

_NOT_EQ = 1


class BoolArray(Column):
    """A column of True, False and None (null), as a comparison answers it. It doesn't change.

    ``bits`` and ``validity`` are bitmaps in Arrow's order; the bit at a null says nothing, and a validity of None says
    that no item is null. ``&``, ``|``, ``^`` and ``~`` go by SQL's logic, where null is unknown: ``False & None`` is False,
    ``True | None`` is True, and any other result with a null in it is null. Either side may be a mask of NumPy. An array
    has no truth of its own: ``any()`` or ``all()`` says which one is meant.
    """

    __slots__ = ("_answers",)

    def __init__(self, bits: bytes, validity: Optional[bytes], length: int) -> None:
        self._size, self._handle, self._lock = operator.index(length), None, threading.RLock()
        self._answers: Any = _as_bytes(bits), None if validity is None else _as_bytes(validity)
        needed = bytes_of_bits(max(self._size, 0))
        if self._size < 0 or any(it is not None and len(it) != needed for it in self._answers):
            raise ValueError(f"{length} answers need {needed} bytes of bits, and as many of validity or None")
        self._number = BOOL.number + NULLABLE * (validity is not None)

    @classmethod
    def _of(cls, handle: Handle) -> BoolArray:
        made = cls.__new__(cls)
        Column.__init__(made, handle)
        made._answers = None
        return made

    @property
    def bits(self) -> bytes:
        """The answers as a bitmap."""
        return self.to_buffers()[0]

    @property
    def validity(self) -> Optional[bytes]:
        """Which answers are known, as a bitmap; None where the type isn't nullable."""
        return self.to_buffers()[1]

    def to_buffers(self) -> tuple[bytes, Optional[bytes]]:
        """The bits and the validity."""
        with self._lock:
            if self._answers is None:
                self._answers = self._answered("read_")
            answers: tuple[bytes, Optional[bytes]] = self._answers
            return answers

    def _call(self, name: str, *arguments: Any) -> None:
        with self._lock:
            if self._handle is None:
                self._handle = _handle_of(*self._answers, self._size)
            call(name, byref(self._handle), *arguments)

    def __repr__(self) -> str:
        return f"<flcol.BoolArray, {self._size} items, {self.true_count} true, {self.null_count} null>"

    def __reduce__(self) -> tuple[Any, tuple[bytes, Optional[bytes], int]]:
        return BoolArray, (*self.to_buffers(), self._size)

    # Reading

    def to_list(self) -> list[Optional[bool]]:
        """The answers as a list."""
        bits, validity = self.to_buffers()
        flags = map(bool, unpack_bits(bits, self._size))
        if validity is None:
            return list(flags)
        return [flag if valid else None for flag, valid in zip(flags, unpack_bits(validity, self._size))]

    def to_numpy(self, fill_value: Optional[bool] = None) -> Any:
        """The answers as an array of NumPy, a masked one where some may be null.

        With a value to fill in, the array is plain, and each null is that value.
        """
        if numpy is None:
            raise ImportError("to_numpy needs NumPy")
        if fill_value is not None and not is_flag(fill_value):
            raise TypeError(f"the fill_value for booleans is True or False, and not {fill_value!r}")
        bits, validity = self.to_buffers()
        flags = numpy.unpackbits(numpy.frombuffer(bits, numpy.uint8), count=self._size, bitorder="little")
        return self._fill(flags.view(bool), validity, fill_value)

    def read_into(self, buffer: Any) -> Optional[bytes]:
        """Writes a byte, 0 or 1, for each answer into a buffer of bools or of uint8; the validity is the result."""
        view = memoryview(buffer)
        if view.ndim != 1 or not view.c_contiguous or kind_of(view) not in (BOOL, UINT8):
            raise TypeError("a buffer of bool or uint8 one behind the other is needed")
        if view.nbytes != self._size or view.readonly:
            raise ValueError(f"a buffer of {view.nbytes} bytes{', not writable,' * view.readonly} for {self._size} answers")
        bits, validity = self.to_buffers()
        view.cast("B")[:] = unpack_bits(bits, self._size)
        return validity

    def _item(self, index: int) -> Optional[bool]:
        at, (bits, validity) = self._place(index), self.to_buffers()
        return bit(bits, at) if validity is None or bit(validity, at) else None

    def _chosen(self, name: str, *arguments: Any) -> BoolArray:
        """The answers that a call chooses, by way of a byte for each, since the library chooses integers."""
        bits, validity = self.bits, some(self.validity)
        flags, unpacked = Handle(), unpack_bits(bits, self._size)
        with address(unpacked) as at, address(validity) as valid:
            call("from_u8", at, len(unpacked), valid, len(validity or b""), byref(flags))
        column = Column(flags)._made(name, *arguments)
        return BoolArray(*column._answered("compare_", _NOT_EQ, 0), column._size)

    # Counting

    @property
    def true_count(self) -> int:
        """How many answers are True."""
        bits, validity = self.to_buffers()
        return count(bits, validity, self._size)

    @property
    def null_count(self) -> int:
        """How many answers are None."""
        validity = self.validity
        return 0 if validity is None else self._size - count(validity, None, self._size)

    def any(self) -> Optional[bool]:
        """The answers joined by SQL's OR: True where one is True, else None where one is null, else False."""
        if self.true_count:
            return True
        return None if self.null_count else False

    def all(self) -> Optional[bool]:
        """The answers joined by SQL's AND: False where one is False, else None where one is null, else True."""
        nulls = self.null_count
        if self.true_count + nulls < self._size:
            return False
        return None if nulls else True

    def sum(self, axis: Any = None, dtype: Any = None, out: Any = None, where: Any = True, **more: Any) -> int:
        """How many answers are True, of all or of those that a mask is True for; as in SQL nulls are left out."""
        check_whole("sum", axis, dtype, out, more)
        mask = self._mask_of(where)
        return self.true_count if mask is None else count(both(self.mask(), mask), None, self._size)

    def _count_under(self, mask: bytes) -> int:
        return count(mask, self.validity, self._size)

    def __bool__(self) -> bool:
        raise ValueError("the truth value of an array is ambiguous: use any() or all(), or between() for two bounds")

    def __contains__(self, item: Any) -> bool:
        """Whether an answer is True or False as this item is, or null for None."""
        if item is None:
            return self.null_count > 0
        return integer_of(item) in (0, 1) and (self == item).true_count > 0

    # Joining

    def mask(self) -> bytes:
        """A bitmap of the items whose answer is True."""
        bits, validity = self.to_buffers()
        return bits if validity is None else both(bits, validity)

    _as_mask = mask

    def indices(self) -> Any:
        """The indices of the answers that are True, in their order: an ``Array`` of ``uint64`` that ``take`` takes."""
        from ._array import Array  # which stands on this module

        handle, bits = Handle(), self.mask()
        with address(bits) as at:
            call("indices_of", at, len(bits), self._size, byref(handle))
        return Array(handle)

    def __and__(self, other: Any) -> BoolArray:
        return self._joined("and", other)

    def __or__(self, other: Any) -> BoolArray:
        return self._joined("or", other)

    def __xor__(self, other: Any) -> BoolArray:
        return self._joined("xor", other)

    __rand__, __ror__, __rxor__ = __and__, __or__, __xor__

    def __invert__(self) -> BoolArray:
        bits, validity = self.to_buffers()
        return BoolArray(inverted(bits, self._size), validity, self._size)

    def _joined(self, operation: str, other: Any) -> BoolArray:
        operand = self._operand(other)
        if operand is None:
            return NotImplemented
        return BoolArray(*joined(operation, *self.to_buffers(), *operand, self._size), self._size)

    def _operand(self, other: Any) -> Optional[tuple[bytes, Optional[bytes]]]:
        """The bits and the validity of a mask that answers may be joined with, None of anything else."""
        if is_flag(other):
            return (ones(self._size) if other else bytes(bytes_of_bits(self._size))), None
        if isinstance(other, BoolArray):
            length, answers = other._size, other.to_buffers()
        elif numpy is not None and hasattr(other, "__array__") and not isinstance(other, Column):
            flags = numpy.asanyarray(other)
            if flags.dtype.kind != "b" or flags.ndim != 1:
                return None
            length, answers = len(flags), _of_numpy(flags)
        else:
            return None
        if length != self._size:
            raise ValueError(f"answers of {self._size} and of {length} items")
        return answers

    # Comparing

    def __eq__(self, other: Any) -> BoolArray:  # type: ignore[override]
        return ~(self ^ other) if self._operand(other) else self._compared(operator.eq, other)

    def __ne__(self, other: Any) -> BoolArray:  # type: ignore[override]
        return self ^ other if self._operand(other) else self._compared(operator.ne, other)

    def __gt__(self, other: Any) -> BoolArray:
        return self._compared(operator.gt, other)

    def __ge__(self, other: Any) -> BoolArray:
        return self._compared(operator.ge, other)

    def __lt__(self, other: Any) -> BoolArray:
        return self._compared(operator.lt, other)

    def __le__(self, other: Any) -> BoolArray:
        return self._compared(operator.le, other)

    __hash__ = None  # type: ignore[assignment]

    def _compared(self, holds: Callable[[int, int], bool], other: Any) -> BoolArray:
        """How False, which is 0, and True, which is 1, compare with an integer."""
        constant = integer_of(other)
        if constant is None:
            raise TypeError(f"booleans are compared with a bool, and by == and != with as many bools, and not with {other!r}")
        of_false, of_true = holds(0, constant), holds(1, constant)
        if of_false != of_true:
            return self if of_true else ~self
        bits = ones(self._size) if of_true else bytes(bytes_of_bits(self._size))
        return BoolArray(bits, self.validity, self._size)

    # Other forms

    def astype(self, dtype: Any) -> BoolArray:
        """The same answers of the type ``bool`` or ``bool?``. ``flcol.array(answers, dtype=..)`` makes integers of them."""
        kind, nullable = parsed(dtype)
        if kind is not BOOL:
            raise TypeError(f"booleans as {dtype!r} are made by flcol.array(answers, dtype={dtype!r})")
        return self._with_validity(nullable)

    cast = astype

    def _with_validity(self, nullable: bool) -> BoolArray:
        """The same answers of a type that is nullable or not."""
        bits, validity = self.to_buffers()
        if not nullable and self.null_count:
            raise Error(CAST_NULL)
        valid = (ones(self._size) if validity is None else validity) if nullable else None
        return BoolArray(bits, valid, self._size)


def _as_bytes(bitmap: Any) -> bytes:
    """A bitmap as bytes, which don't change: those that it is, or a copy."""
    return bitmap if type(bitmap) is bytes else bytes(memoryview(bitmap))


def _handle_of(bits: bytes, validity: Optional[bytes], length: int) -> Handle:
    """A plain array of so many bits."""
    handle, validity = Handle(), some(validity)
    with address(bits) as at, address(validity) as valid:
        call("from_bool", at, len(bits), length, valid, len(validity or b""), byref(handle))
    return handle


def _of_numpy(flags: Any) -> tuple[bytes, Optional[bytes]]:
    """The bits and the validity of bools of NumPy, of which those that are masked are null."""
    size, validity = bytes_of_bits(len(flags)), None
    if isinstance(flags, numpy.ma.MaskedArray):
        validity = pack_bits(~numpy.ma.getmaskarray(flags))[:size]
    return pack_bits(numpy.ascontiguousarray(numpy.ma.getdata(flags)))[:size], validity
