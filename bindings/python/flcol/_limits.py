"""What compression may choose from."""
from __future__ import annotations

import operator
from typing import Any, Iterable, Optional

#: The bit of each encoding.
_ENCODINGS = {"constant": 1, "bitpacked": 2, "for": 4, "delta": 8, "rle": 16, "dict": 32}


def encoding_bits(names: Optional[Iterable[str]]) -> int:
    """The bits of encodings: of all for None."""
    if isinstance(names, str):
        raise TypeError(f"encodings is a list of names, as [{names!r}], and not a text")
    bits = 0
    for name in _ENCODINGS if names is None else names:
        if not isinstance(name, str) or name not in _ENCODINGS:
            raise ValueError(f"{name!r} is no encoding; these are {', '.join(_ENCODINGS)}")
        bits |= _ENCODINGS[name]
    return bits


def depth_of(depth: Any) -> int:
    """How many encodings may stand in one another. More than 255 are as many as there are."""
    if isinstance(depth, bool):
        raise TypeError("depth is an integer")
    number = operator.index(depth)
    if number < 0:
        raise ValueError(f"depth is not below 0, and not {number}")
    return min(number, 255)
