"""What stands in brackets behind a column: which items are meant."""
from __future__ import annotations

import operator
from array import array as list_of_numbers
from typing import Any, Iterable, Optional, Tuple

from ._bits import is_flag, pack_bits
from ._buffers import is_buffer, kind_of, one_dimension
from ._dtypes import INT64, UINT64, numpy
from ._library import INDEX_OUT_OF_BOUNDS, refusal

#: Indices as uint64 in memory, and the validity of those of which some are null.
Places = Tuple[Any, Optional[bytes]]


def plain_key(key: Any) -> Any:
    """A key that is no slice, as an integer, or as a list or an array of indices or bools. An iterator is read once."""
    if is_flag(key):
        raise TypeError("a bool is no index; a list of bools, one for each item, chooses items")
    if hasattr(key, "__index__") and getattr(key, "ndim", 0) == 0:
        return operator.index(key)
    if isinstance(key, tuple):
        raise IndexError(f"a column has one dimension, and the index has {len(key)}: a list in brackets takes several items")
    has_items = hasattr(key, "__iter__") or hasattr(key, "__getitem__")
    if not has_items or isinstance(key, (str, bytes, bytearray)):
        raise TypeError(f"an index is an integer, a slice, or a list of integers or of bools, and not {key!r}")
    return key if hasattr(key, "__len__") else list(key)


def is_mask(key: Any) -> bool:
    """Whether a list or an array is one of bools, and not of indices."""
    kind = getattr(getattr(key, "dtype", None), "kind", None)
    if kind is not None and kind != "O":
        return bool(kind == "b")
    if kind is None and is_buffer(key):
        return kind_of(memoryview(key)).code == "?"
    if isinstance(key, range):
        return False
    items = [item for item in key if item is not None]
    bools = sum(map(is_flag, items))
    if 0 < bools < len(items):
        raise TypeError("an index has bools and integers: a mask has only bools, and a list of indices has none")
    return bools > 0


def of_integers(values: Any, validity: Optional[bytes], length: int) -> Places:
    """Signed integers in memory as places: those below 0 count from the end."""
    if numpy is not None:
        return _of_signed(numpy.array(values, numpy.int64), validity, length), validity
    places = [value + length if value < 0 else value for value in values]
    if validity is None and min(places, default=0) < 0:
        raise refusal(INDEX_OUT_OF_BOUNDS)
    return list_of_numbers(UINT64.code, (place % 2**64 for place in places)), validity


def _of_signed(signed: Any, validity: Optional[bytes], length: int) -> Any:
    """The same of an array of NumPy, modulo 2**64."""
    if length <= -INT64.least:
        beyond = signed < -length
        if validity is not None and beyond.any():
            bits = numpy.frombuffer(validity, numpy.uint8)
            beyond &= numpy.unpackbits(bits, count=len(signed), bitorder="little").astype(bool)
        if beyond.any():
            raise refusal(INDEX_OUT_OF_BOUNDS)
    places = signed.view(numpy.uint64)
    places[signed < 0] += numpy.uint64(length)
    return places


def places_of(indices: Any, length: int) -> Places:
    """Indices, of which some may be None, masked, or below 0, as places."""
    if numpy is not None and hasattr(indices, "__array__"):
        return _of_numpy(numpy.asanyarray(indices), length)
    if isinstance(indices, range):
        return list_of_numbers(UINT64.code, (_place(index, length) for index in indices)), None
    if is_buffer(indices):
        view = memoryview(indices)
        kind = kind_of(view)
        if not kind.is_integer:
            raise TypeError("indices are integers; filter chooses by bools")
        view = one_dimension(view)
        return of_integers(view.tolist() if numpy is None else view, None, length) if kind.least else _wide(view)
    return _of_items(indices, length)


def _of_items(indices: Iterable[Any], length: int) -> Places:
    """The places of integers or None."""
    if isinstance(indices, str):
        raise TypeError("indices are integers, and not letters")
    items = list(indices)
    if any(map(is_flag, items)):
        raise TypeError("indices are integers; filter chooses by bools")
    places = list_of_numbers(UINT64.code, (0 if item is None else _place(item, length) for item in items))
    has_nulls = any(item is None for item in items)
    return places, pack_bits(bytes(item is not None for item in items)) if has_nulls else None


def _place(index: Any, length: int) -> int:
    """The place of an index."""
    integer = operator.index(index)
    place = integer + length if integer < 0 else integer
    if not 0 <= place < length:
        raise IndexError(f"index {integer} is out of bounds for {length} items")
    return place


def _of_numpy(indices: Any, length: int) -> Places:
    """The places of an array of NumPy; a masked index is null."""
    if indices.dtype.kind == "O":
        return _of_items(indices.tolist(), length)
    if indices.dtype.kind not in "iu":
        raise TypeError(f"indices are integers, and not of type {indices.dtype}")
    if indices.ndim != 1:
        raise IndexError(f"indices have one dimension, and not {indices.ndim}")
    validity = None
    if isinstance(indices, numpy.ma.MaskedArray):
        validity = pack_bits((~numpy.ma.getmaskarray(indices)).astype(numpy.uint8))
        indices = numpy.ma.getdata(indices)
    if indices.dtype.kind == "u":
        return numpy.array(indices, numpy.uint64), validity  # a copy, which nobody can change behind a test of the bounds
    return of_integers(indices, validity, length)


def _wide(view: memoryview) -> Places:
    """Unsigned integers in memory as places."""
    if numpy is not None:
        return numpy.array(view, numpy.uint64), None
    return list_of_numbers(UINT64.code, view), None


def range_words(ranges: Iterable[range], length: int) -> list_of_numbers:
    """Ranges of step 1 as pairs of a start and a length, which have no item behind the last one."""
    words = list_of_numbers(UINT64.code)
    for chosen in ranges:
        if not isinstance(chosen, range):
            raise TypeError(f"a range is needed, and not {chosen!r}")
        if chosen.step != 1 or chosen.start < 0:
            raise ValueError(f"ranges go up by 1, from 0 or more, and not as {chosen!r}")
        count = max(0, chosen.stop - chosen.start)
        if count and chosen.stop > length:
            raise IndexError(f"{chosen!r} reaches beyond {length} items")
        words.extend((chosen.start if count else 0, count))
    return words

