"""What the foot of a file of chunks says of each, and integers of 128 bits as C has them."""
from __future__ import annotations

from collections.abc import Sequence
from typing import Any, NamedTuple, Optional

from ._interface import Chunk as Record
from ._interface import Integer

_MOST = 2**127 - 1  # which is above all items, and its complement is below them


class Chunk(NamedTuple):
    """What a file of chunks says of one of them: where its bytes lie, and its statistics."""

    offset: int  #: where its bytes begin in the file
    size: int  #: how many bytes it has
    len: int  #: how many items
    null_count: int  #: how many of them are null
    min: Optional[int]  #: the least item that is not null, None where each is
    max: Optional[int]  #: the greatest one
    sum: int  #: of the items that are not null
    is_sorted: bool  #: whether no item is above the next, where a null is below every integer


class Chunks(Sequence[Chunk]):
    """The chunks of a file, in their order. Each is made of what the foot says when it is asked for."""

    __slots__ = ("_records",)

    def __init__(self, records: Any) -> None:
        self._records = records

    def __len__(self) -> int:
        return len(self._records)

    def __getitem__(self, key: Any) -> Any:
        """A chunk by an index, or a list of those of a slice."""
        found = self._records[key]
        return [_chunk(record) for record in found] if isinstance(key, slice) else _chunk(found)

    def __repr__(self) -> str:
        return f"<{len(self)} chunks>"


def _chunk(record: Any) -> Chunk:
    """A record as Python has it."""
    is_none = record.null_count == record.len
    least, greatest = (None, None) if is_none else (integer_in(record.least), integer_in(record.greatest))
    place = record.offset, record.size, record.len, record.null_count
    return Chunk(*place, least, greatest, integer_in(record.sum), bool(record.is_sorted))


def integer_in(words: Any) -> int:
    """The integer of two words."""
    number: int = words.high * 2**64 + words.low
    return number


def words_of(number: int) -> Integer:
    """Two words of an integer, or of one with as many bits that compares with each item in the same way."""
    near = max(~_MOST, min(number, _MOST))
    return Integer(near % 2**64, near >> 64)


def records_of(count: int) -> Any:
    """Room for so many records."""
    return (Record * count)()



def records_in(records: list[Record]) -> Any:
    """Records one behind the other."""
    return (Record * len(records))(*records)
