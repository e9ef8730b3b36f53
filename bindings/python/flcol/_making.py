"""How arrays are made of what Python has."""
from __future__ import annotations

import operator
from array import array as list_of_numbers
from ctypes import byref
from typing import Any, Iterable, NamedTuple, Optional, Sequence, Union

from ._array import Array, of_handle
from ._arrow import handles_of
from ._bits import bytes_of_bits, flags_of, is_flag, joined, ones, pack_bits, some, unpack_bits
from ._bools import BoolArray
from ._buffers import address, is_buffer, kind_of, new_values, one_dimension
from ._column import Column
from ._dtypes import BOOL, INT64, UINT64, Kind, integers, name_of, numpy, parsed
from ._library import Handle, call, within


class _Items(NamedTuple):
    """Items in memory: values one behind the other, of booleans the bits, and a bitmap of those that are valid."""

    kind: Kind
    values: Any
    length: int
    validity: Optional[bytes]


def array(values: Any, mask: Any = None, dtype: Any = None) -> Any:
    """A plain array of integers, or of booleans.

    The values are a buffer of integers or bools, such as an array of NumPy, whose type is kept; an object that speaks
    Arrow's PyCapsule interface, such as an array of pyarrow or polars; or a list or another iterable of integers and None,
    of the type that is said, or else ``int64``, or ``uint64`` where one is too large for that, or of bools and None. A type
    is NumPy's, or its name, with a ? behind where items may be null. Where the mask is True an item is null, as in NumPy's
    masked arrays, whose mask is taken over. Only the items are copied.
    """
    kind, nullable = parsed(dtype) if dtype is not None else (None, False)
    made = _array_of(values)
    if made is None or mask is not None:
        items = _in_memory(made) if made is not None else _items_of(values, kind)
        if mask is not None:
            items = items._replace(validity=_valid(mask, items.validity, items.length))
        if nullable and items.validity is None:
            items = items._replace(validity=ones(items.length))
        made = _made(items)
    if kind is None or made.dtype == name_of(kind, nullable):
        return made
    if isinstance(made, BoolArray) and kind.is_integer:
        made = _as_integers(made)
    return made.astype(name_of(kind, nullable or made.nullable))


def constant(value: Optional[int], length: int, dtype: Any = "int64") -> Array:
    """So many times the same item, in the memory of one. None makes an array of a nullable type."""
    kind, nullable = integers(dtype)
    number = 0 if value is None else within(value, kind.least, kind.greatest, f"a constant of {kind.name}")
    items = within(length, 0, UINT64.greatest, "the number of items")
    handle = Handle()
    call(f"constant_{kind.short}", number, value is None, items, byref(handle))
    made = Array(handle)
    return made.astype(name_of(kind, True)) if nullable and not made.nullable else made


def _array_of(values: Any) -> Optional[Union[Array, BoolArray]]:
    """What is an array of ours, or of Arrow, as a plain array."""
    if isinstance(values, Array):
        return values.encode("primitive")
    if isinstance(values, BoolArray):
        return values
    handles = handles_of(values)
    if handles is None:
        return None
    return concatenated([of_handle(handle) for handle in handles])


def _made(items: _Items) -> Union[Array, BoolArray]:
    """The array of items in memory."""
    if items.kind is BOOL:
        size = bytes_of_bits(items.length)
        return BoolArray(items.values[:size], None if items.validity is None else items.validity[:size], items.length)
    handle, validity = Handle(), some(items.validity)
    with address(items.values) as at, address(validity) as bits:
        call(f"from_{items.kind.short}", at, items.length, bits, len(validity or b""), byref(handle))
    return Array(handle)


def _in_memory(column: Union[Array, BoolArray]) -> _Items:
    values, validity = column.to_buffers()
    return _Items(column._kind, values, column.size, validity)


def concatenated(chunks: Sequence[Union[Array, BoolArray]]) -> Any:
    """The items of chunks of one type, one chunk behind the other, as a plain array; a chunk alone stays as it is encoded."""
    if len(chunks) == 1:
        return chunks[0]
    length, kind, nullable = sum(chunk.size for chunk in chunks), chunks[0]._kind, any(chunk.nullable for chunk in chunks)
    flags = bytearray()
    values, done = new_values(kind, length), 0
    view = memoryview(values)
    for chunk in chunks:
        validity = chunk.read_into(view[done : done + chunk.size])
        if nullable:
            flags += bytes([1]) * chunk.size if validity is None else unpack_bits(validity, chunk.size)
        done += chunk.size
    validity = pack_bits(flags) if nullable else None
    return _made(_Items(kind, pack_bits(values) if kind is BOOL else values, length, validity))


def _as_integers(answers: BoolArray) -> Array:
    """Answers as 0 and 1."""
    flags = bytearray(answers.size)
    validity = answers.read_into(flags)
    made = _made(_Items(parsed("uint8")[0], flags, answers.size, validity))
    assert isinstance(made, Array)
    return made


def _items_of(values: Any, kind: Optional[Kind]) -> _Items:
    """The items of a buffer, of an array of NumPy or of an iterable."""
    if isinstance(values, str):
        raise TypeError("a column has integers or bools, and not letters")
    mask = None
    if numpy is not None and hasattr(values, "__array__"):
        values = numpy.asanyarray(values)
        if values.dtype.kind == "O" and values.ndim == 1:
            return _of_iterable(values.tolist(), kind)
        values, mask = _of_numpy(values)
    if not is_buffer(values):
        return _of_iterable(values, kind)
    view = memoryview(values)
    own = kind_of(view)
    view = one_dimension(view)
    validity = None if mask is None else pack_bits(~mask)
    return _Items(own, pack_bits(flags_of(view)) if own is BOOL else view, len(view), validity)


def _of_numpy(values: Any) -> tuple[Any, Any]:
    """The items of an array of NumPy in this machine's order, and its mask where it has one."""
    if values.dtype.kind not in "iub":
        raise TypeError(f"items of type {values.dtype} are no integers or booleans")
    if values.ndim != 1:
        raise TypeError(f"a column has one dimension, and not {values.ndim}")
    mask = None
    if isinstance(values, numpy.ma.MaskedArray):
        mask = numpy.ascontiguousarray(numpy.ma.getmaskarray(values))
    return numpy.ascontiguousarray(numpy.ma.getdata(values), values.dtype.newbyteorder("=")), mask


def _of_iterable(values: Iterable[Any], kind: Optional[Kind]) -> _Items:
    """The items of integers, of bools, or of None."""
    items = list(values)
    known = [item for item in items if item is not None]
    valid = bytes(item is not None for item in items)
    validity = None if all(valid) else pack_bits(valid)
    if kind is None and known and all(map(is_flag, known)):
        kind = BOOL
    if kind is BOOL:
        return _Items(BOOL, pack_bits(flags_of(items)), len(items), validity)
    whole = [0 if item is None else item for item in items]
    if kind is None:
        whole = list(map(operator.index, whole))
        kind = INT64 if max(whole, default=0) <= INT64.greatest else UINT64
    try:
        numbers = list_of_numbers(kind.code, whole)
    except OverflowError:
        wrong = next(item for item in map(operator.index, whole) if not kind.least <= item <= kind.greatest)
        raise OverflowError(f"{wrong} is no item of {kind.name}, which has {kind.least} to {kind.greatest}") from None
    return _Items(kind, numbers, len(items), validity)


def _valid(mask: Any, validity: Optional[bytes], length: int) -> bytes:
    """The bitmap of what is valid and not masked."""
    flags = flags_of(mask) if not isinstance(mask, Column) else bytes(map(bool, mask.to_list()))
    if len(flags) != length:
        raise ValueError(f"a mask of {len(flags)} items for {length}")
    valid = pack_bits(flags.translate(bytes([1] + [0] * 255)))
    size = bytes_of_bits(length)
    return valid if validity is None else joined("and", valid[:size], None, validity[:size], None, length)[0]
