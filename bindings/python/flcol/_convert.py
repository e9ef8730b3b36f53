"""Columns of other files, piece by piece: what ``convert`` makes files of chunks of."""
from __future__ import annotations

import csv
import io
import os
import re
from itertools import chain, islice
from typing import Any, BinaryIO, Iterator, NamedTuple, Optional

from ._file import CONTAINER_MARK, FILE_MARK
from ._files import NPY_MARK, BadFile, Tell, parts_of, read

_ARROW_STREAM, _ARROW_FILE = b"\xff\xff\xff\xff", b"ARROW1"
_FIELDS = re.compile(r"(?:(?:-?[0-9]{1,40}|null|)\n)*")  # no integer of a type has as many digits
_NULLS = ("", "null")
_AT_ONCE = 1 << 14  # rows


class Source(NamedTuple):
    """A column: the type that the file says, and its items in pieces."""

    dtype: str
    pieces: Iterator[Any]


def source_of(file: BinaryIO, column: Optional[str], has_names: bool, tell: Tell) -> Source:
    """The column of a container, a file of chunks, a ``.npy`` file, a stream or a file of Arrow, or comma-separated values."""
    head = _head(file)
    if head.startswith((CONTAINER_MARK, FILE_MARK, NPY_MARK)):
        if column is not None:
            raise BadFile("the file has one column without a name")
        whole = read(file, None, tell)
        return Source(str(whole.dtype), _counted(parts_of(whole), whole.size, tell))
    if head.startswith((_ARROW_STREAM, _ARROW_FILE)):
        return _of_arrow(file, head, column, tell)
    return _of_rows(file, column, has_names, tell)


def _head(file: Any) -> bytes:
    """The first bytes of a file, which are read again."""
    if not file.seekable():
        return bytes(file.peek(len(_ARROW_FILE)))
    head: bytes = file.read(len(_ARROW_FILE))
    file.seek(0)
    return head


def _of_arrow(file: BinaryIO, head: bytes, column: Optional[str], tell: Tell) -> Source:
    try:
        from pyarrow import ipc
    except ImportError:
        raise BadFile("pyarrow reads streams of Arrow, and is not there") from None
    is_stream = head.startswith(_ARROW_STREAM)
    reader = (ipc.open_stream if is_stream else ipc.open_file)(file)
    batches = iter(reader) if is_stream else map(reader.get_batch, range(reader.num_record_batches))
    place = _place(list(reader.schema.names), column)
    field = reader.schema.field(place)
    return Source(f"{field.type}{'?' * field.nullable}", _told(file, (batch.column(place) for batch in batches), tell))


def _of_rows(file: BinaryIO, column: Optional[str], has_names: bool, tell: Tell) -> Source:
    text = io.TextIOWrapper(file, "utf-8-sig", newline="")
    rows = _rows(csv.reader(text, skipinitialspace=True, strict=True))
    first = next(rows, None)
    if first is None:
        return Source("int64?", iter(()))
    place = _place(first, column)
    if not has_names and _is_item(first[place]):
        rows = chain((first,), rows)
    return Source("int64?", _told(file, _items(rows, place), tell, text))


def _rows(reader: Any) -> Iterator[list[str]]:
    """The rows of a reader, none of which is blank."""
    try:
        for row in reader:
            if not row:
                raise BadFile(f"line {reader.line_num} is blank; a null is written as \"\" or null")
            yield row
    except (csv.Error, UnicodeDecodeError) as error:
        raise BadFile(f"line {reader.line_num}: {error}") from None


def _items(rows: Iterator[list[str]], place: int) -> Iterator[list[Optional[int]]]:
    """The items of a column, some rows at a time."""
    while some := list(islice(rows, _AT_ONCE)):
        try:
            fields = [row[place] for row in some]
        except IndexError:
            short = min(some, key=len)
            raise BadFile(f"a row has {len(short)} fields, and not the one of the column: {','.join(short)[:40]!r}") from None
        lines = "\n".join(fields) + "\n"
        if lines.count("\n") > len(fields) or not _FIELDS.fullmatch(lines):
            raise BadFile(f"{next(it for it in fields if not _is_item(it))[:40]!r} is no integer")
        yield [None if field in _NULLS else int(field) for field in fields]


def _is_item(field: str) -> bool:
    return "\n" not in field and _FIELDS.fullmatch(field + "\n") is not None


def _place(names: list[str], column: Optional[str]) -> int:
    """The place of a column by its name, or by its number from 1."""
    if column is None and len(names) == 1:
        return 0
    if column in names and names.count(column) == 1:
        return names.index(column)
    if column is not None and re.fullmatch("[0-9]{1,9}", column) and 0 < int(column) <= len(names):
        return int(column) - 1
    known = ", ".join(map(repr, names[:20])) + ", .." * (len(names) > 20)
    raise BadFile(f"--column says by its name or its number which of these is meant: {known}")


def _told(file: BinaryIO, parts: Iterator[Any], tell: Tell, *kept: Any) -> Iterator[Any]:
    """The same parts, of which the terminal is told how much of the file is read. What closes the file at its end is kept."""
    for part in parts:
        yield part
        if file.seekable():
            done = file.tell()
            tell(done, max(done, os.fstat(file.fileno()).st_size))


def _counted(parts: Iterator[Any], items: int, tell: Tell) -> Iterator[Any]:
    """The same parts, of which the terminal is told how many of the items they are."""
    done = 0
    for part in parts:
        yield part
        done += part.size
        tell(done, items)
