"""The shared library: how it is found, the types of its calls, and what its statuses mean."""
from __future__ import annotations

import ctypes
import operator
import os
from ctypes import c_int32, c_void_p
from typing import Any, Callable, NamedTuple, Optional

from . import _interface
from ._interface import ABI_VERSION, CALLS, LIBRARY, STATUSES, UNKNOWN

#: What Linux calls the abilities that a processor of x86-64-v3 has beyond x86-64-v2.
_NEWER = frozenset(("avx2", "bmi1", "bmi2", "fma", "f16c", "movbe", "abm"))

OUT_OF_MEMORY, INDEX_OUT_OF_BOUNDS, RANGE_OUT_OF_BOUNDS, CAST_NULL, CAST_OUT_OF_RANGE = 1, 30, 31, 33, 34
BAD_CONTAINER, NO_ARRAY, FILE_TOO_SHORT, BAD_STATISTICS = 42, 100, 107, 115


class Handle(_interface.Handle):
    """The word by which C holds an array, which is freed with it."""

    def __del__(self) -> None:
        if self.at:
            free(ctypes.byref(self))


#: Calls that take no longer than to let go of the interpreter's lock and to wait for it again.
_BRIEF = ("flcol_len", "flcol_dtype", "flcol_nbytes", "flcol_scheme", "flcol_get")

# ---- Errors ----


class Error(ValueError):
    """An error of the library: its number in flcol.h, its name, and a sentence. Nothing has changed."""

    def __init__(self, number: int, sentence: Optional[str] = None) -> None:
        self.number = number
        self.name, known = STATUSES.get(number, UNKNOWN)
        self.sentence = sentence or known
        super().__init__(f"{self.sentence} ({self.name}, {number})")

    def __reduce__(self) -> tuple[type[Error], tuple[int, str]]:
        return Error, (self.number, self.sentence)


def refusal(status: int) -> Exception:
    """The error that says a status."""
    if status == OUT_OF_MEMORY:
        return MemoryError(STATUSES[status][1])
    if status == INDEX_OUT_OF_BOUNDS:
        return IndexError(STATUSES[status][1])
    return Error(status)


def within(number: Any, least: int, greatest: int, what: str = "an integer") -> int:
    """A number that is passed to C, which would take it modulo a power of two where it is not in the range."""
    integer = operator.index(number)
    if not least <= integer <= greatest:
        raise OverflowError(f"{what} is {integer}, and not within {least} to {greatest}")
    return integer


# ---- Loading ----


def _abilities() -> frozenset[str]:
    """What the processor can do, by the names of Linux."""
    try:
        with open("/proc/cpuinfo", encoding="ascii", errors="replace") as lines:
            flags = next((line for line in lines if line.startswith("flags")), "")
    except OSError:
        flags = ""
    return frozenset(flags.split())


def _path() -> str:
    """The library's file: the one that FLCOL_LIBRARY names, else one inside the package, as a wheel has it, else the loader's."""
    named = os.environ.get("FLCOL_LIBRARY")
    if named:
        return named
    inside = os.path.join(os.path.dirname(__file__), "lib")
    newer, portable = os.path.join(inside, "glibc-hwcaps", "x86-64-v3", LIBRARY), os.path.join(inside, LIBRARY)
    if os.path.exists(newer) and _NEWER <= _abilities():
        return newer
    return portable if os.path.exists(portable) else LIBRARY


class _Call(NamedTuple):
    """A function of the library, and which of its arguments are integers, with their ranges."""

    function: Callable[..., int]
    integers: tuple[tuple[int, int, int], ...]


def _range_of(kind: Any) -> Optional[tuple[int, int]]:
    """The range of a type of ctypes, where it is one of integers."""
    if kind is c_void_p or not issubclass(kind, ctypes._SimpleCData):
        return None
    bits = 8 * ctypes.sizeof(kind)
    return (-(2 ** (bits - 1)), 2 ** (bits - 1) - 1) if kind(-1).value < 0 else (0, 2**bits - 1)


def _opened(path: str) -> tuple[ctypes.CDLL, ctypes.PyDLL]:
    """The library twice: a call by the first lets go of the interpreter's lock, one by the second keeps it."""
    try:
        library = ctypes.CDLL(path), ctypes.PyDLL(path)
    except OSError as fault:
        said = f"{fault}; ./library of flcol makes it, and FLCOL_LIBRARY may name its file"
        raise ImportError(said, name="flcol") from None
    version_of = getattr(library[0], "flcol_abi_version", None)
    version = version_of() if version_of else None
    if version != ABI_VERSION:
        said = f"{path} has version {version} of its interface" if version_of else f"{path} is no library of flcol"
        raise ImportError(f"{said}, and {ABI_VERSION} is needed", name="flcol")
    return library


def _load() -> tuple[dict[str, _Call], Callable[..., None]]:
    """The calls that the library has, and the one that frees."""
    letting_go, keeping = _opened(_path())
    calls = {}
    for name, (answer, types) in CALLS.items():
        function = getattr(keeping if name.startswith(_BRIEF) else letting_go, name, None)
        if function is not None and answer is c_int32:
            function.restype, function.argtypes = answer, types
            ranges = ((at, _range_of(kind)) for at, kind in enumerate(types))
            calls[name[len("flcol_") :]] = _Call(function, tuple((at, *range_) for at, range_ in ranges if range_))
    frees = keeping.flcol_free
    frees.restype, frees.argtypes = CALLS["flcol_free"]
    return calls, frees


_calls, free = _load()


def has(name: str) -> bool:
    """Whether the library has a call."""
    return name in _calls


def call(name: str, *arguments: Any) -> None:
    """Makes a call of the library, and raises what it refuses."""
    if name not in _calls:
        raise NotImplementedError(f"this library of flcol has no flcol_{name}")
    function, integers = _calls[name]
    for at, least, greatest in integers:
        number = arguments[at]
        if type(number) is not int or not least <= number <= greatest:
            within(number, least, greatest)
    status = function(*arguments)
    if status:
        raise refusal(status)
