"""Bitmaps: a bit for each item, in Arrow's order. The library counts and joins them."""
from __future__ import annotations

import operator
from ctypes import byref, c_size_t
from typing import Any, Iterable, Optional

from ._buffers import address, copied, is_buffer, kind_of, new_bytes, one_dimension
from ._dtypes import numpy
from ._library import Handle, call

_NOT_EQ = 1
_TO_FLAGS = bytes([0] + [1] * 255)
_EIGHT = tuple(bytes(byte >> bit & 1 for bit in range(8)) for byte in range(256))


def bytes_of_bits(length: int) -> int:
    """How many bytes so many bits take."""
    return (length + 7) // 8


def some(validity: Optional[bytes]) -> Optional[bytes]:
    """A validity with one byte at least, since none at all says that no item is null."""
    return b"\0" if validity == b"" else validity


def bit(bits: bytes, at: int) -> bool:
    """The bit at an index."""
    return bool(bits[at // 8] >> at % 8 & 1)


def pack_bits(flags: Any) -> bytes:
    """A bit for each byte that is not 0, with one byte at least."""
    if numpy is not None:
        packed: bytes = numpy.packbits(numpy.frombuffer(flags, numpy.uint8), bitorder="little").tobytes()
        return packed or b"\0"
    column, bits = Handle(), new_bytes(bytes_of_bits(len(flags)))
    with address(flags) as at, address(bits) as to:
        call("from_u8", at, len(flags), None, 0, byref(column))
        call("compare_u8", byref(column), _NOT_EQ, 0, to, len(bits), None, 0)
    return bits or b"\0"


def packed(mask: Any) -> tuple[bytes, int]:
    """The bitmap of a mask, and how many bits it has."""
    if numpy is not None and isinstance(mask, numpy.ndarray) and mask.dtype.kind == "b" and mask.ndim == 1:
        flags = numpy.ma.filled(mask, False)
        return numpy.packbits(flags, bitorder="little").tobytes(), len(flags)
    flags = flags_of(mask)
    return pack_bits(flags), len(flags)


def unpack_bits(bits: bytes, length: int) -> bytes:
    """A byte for each bit, 0 or 1."""
    if numpy is not None:
        flags: bytes = numpy.unpackbits(numpy.frombuffer(bits, numpy.uint8), count=length, bitorder="little").tobytes()
        return flags
    return b"".join(map(_EIGHT.__getitem__, bits))[:length]


def count(bits: bytes, validity: Optional[bytes], length: int) -> int:
    """How many of the first bits are set and valid."""
    ones = c_size_t()
    with address(bits) as at, address(validity) as valid:
        call("count_bits", at, len(bits), valid, len(validity or b""), length, byref(ones))
    return ones.value


def inverted(bits: bytes, length: int) -> bytes:
    """The bits turned, those behind the last one 0."""
    turned = copied(bits)
    with address(turned) as at:
        call("not", at, len(turned), length)
    return turned


def ones(length: int) -> bytes:
    """So many bits that are set."""
    return inverted(bytes(bytes_of_bits(length)), length)


def joined(
    operation: str, bits: bytes, validity: Optional[bytes], other: bytes, other_validity: Optional[bytes], length: int
) -> tuple[bytes, Optional[bytes]]:
    """Answers joined with others by ``and``, ``or`` or ``xor`` of SQL, and which of the results are known."""
    if validity is None and other_validity is not None:
        validity = ones(length)
    answers, valid = copied(bits), None if validity is None else copied(validity)
    with address(answers) as to, address(valid) as to_valid, address(other) as at, address(other_validity) as known:
        own, others = (to_valid, len(valid or b"")), (known, len(other_validity or b""))
        call(operation, to, len(answers), *own, at, len(other), *others)
    return answers, valid


def both(left: bytes, right: bytes) -> bytes:
    """The bits that are set in both."""
    return joined("and", left, None, right, None, 8 * len(left))[0]


def flags_of(flags: Any) -> bytes:
    """A byte for each flag of a buffer or an iterable, 0 or 1; None is 0, and nothing but flags is taken."""
    if isinstance(flags, str):
        raise TypeError("a mask has bools, and not letters")
    if numpy is not None and isinstance(flags, numpy.ma.MaskedArray):
        flags = flags.filled(False)
    if numpy is not None and hasattr(flags, "__array__"):
        flags = numpy.asarray(flags)
    if not is_buffer(flags) or getattr(getattr(flags, "dtype", None), "kind", "b") == "O":
        return _of_items(flags)
    view = memoryview(flags)
    kind = kind_of(view)
    view = one_dimension(view)
    return view.tobytes().translate(_TO_FLAGS) if kind.size == 1 else bytes(map(bool, view))


def _of_items(items: Iterable[Any]) -> bytes:
    """A byte for each item that is True, False, 1, 0 or None."""
    taken = list(items)
    for item in taken:
        if item is not None and not (is_flag(item) or (isinstance(item, int) and item in (0, 1))):
            raise TypeError(f"a mask has bools, and not {item!r}")
    return bytes(map(bool, taken))


def is_flag(item: Any) -> bool:
    """Whether an item is a bool of Python or NumPy."""
    return isinstance(item, bool) or (numpy is not None and isinstance(item, numpy.bool_))


def integer_of(value: Any) -> Optional[int]:
    """The integer that a number or a bool of Python or NumPy is, None of anything else."""
    if is_flag(value):
        return int(value)
    return operator.index(value) if hasattr(value, "__index__") and getattr(value, "ndim", 0) == 0 else None
