"""The types of items, by the names that NumPy has for them."""
from __future__ import annotations

import ctypes
from dataclasses import dataclass
from typing import Any

try:
    import numpy
except ImportError:  # all works without it
    numpy = None  # type: ignore[assignment]

#: What is added to a type's number where items may be null.
NULLABLE = 16


@dataclass(frozen=True)
class Kind:
    """A type of items that are not null."""

    number: int  #: in the library and in containers
    name: str  #: as NumPy has it
    short: str  #: as the library's calls have it
    code: str  #: the letter by which buffers call it
    size: int  #: bytes of a value
    least: int
    greatest: int
    value: Any  #: the ctypes type of a value

    @property
    def is_integer(self) -> bool:
        """Whether the items are integers, and not booleans."""
        return self is not BOOL


def _integers(number: int, sign: str, code: str, bits: int) -> Kind:
    least, greatest = (-(2 ** (bits - 1)), 2 ** (bits - 1) - 1) if sign == "i" else (0, 2**bits - 1)
    name = f"{'' if sign == 'i' else 'u'}int{bits}"
    return Kind(number, name, f"{sign}{bits}", code, bits // 8, least, greatest, getattr(ctypes, f"c_{name}"))


#: The types of integers, at the places that are their numbers.
INTEGERS = tuple(
    _integers(number, sign, code, 8 << number % 4) for number, (sign, code) in enumerate(zip("uuuuiiii", "BHIQbhiq"))
)
BOOL = Kind(8, "bool", "bool", "?", 1, 0, 1, ctypes.c_uint8)
KINDS = (*INTEGERS, BOOL)
INT64, UINT64, UINT8 = INTEGERS[7], INTEGERS[3], INTEGERS[0]

#: Names that say one byte here, and eight bytes in NumPy.
_AMBIGUOUS = {"u8": ("uint8", "uint64"), "i8": ("int8", "int64")}
_NAMES = {name: kind for kind in KINDS for name in (kind.name, kind.short) if name not in _AMBIGUOUS}
_OF_PYTHON = {int: INT64, bool: BOOL}


class DType(str):
    """The name of a type as NumPy has it, with a ? behind where items may be null: ``uint32``, ``int64?``, ``bool``.

    It equals everything that names the same type, as ``"u32"``, ``numpy.uint32`` and ``numpy.dtype("uint32")`` do.
    """

    __slots__ = ()

    def __eq__(self, other: object) -> bool:
        if isinstance(other, str):
            _refuse_ambiguous(other)
        try:
            return str(self) == str(name_of(*parsed(other)))
        except TypeError:
            return False

    def __ne__(self, other: object) -> bool:
        return not self == other

    __hash__ = str.__hash__

    def __str__(self) -> str:
        return str.__str__(self)


def name_of(kind: Kind, nullable: bool) -> DType:
    """The name of a type."""
    return DType(kind.name + "?" * nullable)


def parsed(dtype: Any) -> tuple[Kind, bool]:
    """The type that is named, or said by a type of NumPy or Python, and whether its items may be null."""
    if isinstance(dtype, str):
        name = str(dtype)
        _refuse_ambiguous(name)
        nullable = name.endswith("?")
        kind = _NAMES.get(name[:-1] if nullable else name)
    else:
        nullable, kind = False, _OF_PYTHON.get(dtype) if isinstance(dtype, type) else None
        if kind is None and numpy is not None and not isinstance(dtype, (bytes, type(None))):
            kind = _NAMES.get(_of_numpy(dtype))
    if kind is None:
        names = ", ".join(kind.name for kind in KINDS)
        raise TypeError(f"there is no type {dtype!r}; the types are {names}, with a ? behind where items may be null")
    return kind, nullable


def integers(dtype: Any) -> tuple[Kind, bool]:
    """The same of a type of integers."""
    kind, nullable = parsed(dtype)
    if not kind.is_integer:
        raise TypeError(f"{dtype!r} is no type of integers")
    return kind, nullable


def full_name(word: str) -> str:
    """The name that a word stands for where ``u8`` and ``i8`` are one byte, as on the command line."""
    name = word[:-1] if word.endswith("?") else word
    return _AMBIGUOUS.get(name, (name,))[0] + "?" * word.endswith("?")


def _refuse_ambiguous(name: str) -> None:
    short = name[:-1] if name.endswith("?") else name
    if short in _AMBIGUOUS:
        here, there = _AMBIGUOUS[short]
        raise TypeError(f"{short!r} is one byte in flcol and eight in NumPy: say {here!r} or {there!r}")


def _of_numpy(dtype: Any) -> str:
    """NumPy's name of a type; none where it has none."""
    try:
        return str(numpy.dtype(dtype).name)
    except (TypeError, ValueError):
        return ""
