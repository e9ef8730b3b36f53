"""What NumPy passes to a method that reduces a column, as ``numpy.sum(a)`` does to ``a.sum``."""
from __future__ import annotations

from typing import Any


def check_whole(name: str, axis: Any, dtype: Any, out: Any, more: dict[str, Any]) -> None:
    """Refuses what no answer has: a column has one dimension, and an answer is one number that is exact."""
    axes = axis if isinstance(axis, tuple) else (axis,)
    if any(it not in (None, 0, -1) or isinstance(it, bool) for it in axes):
        raise ValueError(f"{name}: a column has one dimension, and axis {axis!r} is none of it")
    if dtype is not None:
        raise TypeError(f"{name}: the answer is exact, and has no dtype to choose")
    if out is not None:
        raise TypeError(f"{name}: the answer is a number, and not written to out")
    for word, value in more.items():
        if word not in ("keepdims", "initial"):
            raise TypeError(f"{name}() got an unexpected keyword argument {word!r}")
        if word == "initial" or value is not False:
            raise TypeError(f"{name}: {word}={value!r} can't be honoured: the answer is one number, of the items alone")
