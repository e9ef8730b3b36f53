"""Looks at files of columns, compresses and decodes them.

    python3 -m flcol inspect FILE..
    python3 -m flcol compress [--type u32] [--scheme 'for(bitpacked)'] IN OUT
    python3 -m flcol decode [--limit 1000000] IN OUT
    python3 -m flcol ask [--type u32] FILE sum|min|max|mean|count|nulls
    python3 -m flcol ask [--type u32] FILE count '<' 5
    python3 -m flcol ask [--type u32] [--limit 1000000] FILE where '<' 5
    python3 -m flcol convert [--type u32] [--column NAME] [--names] [--chunk 65536] IN OUT
    python3 -m flcol copy [--type i64] [--scheme 'for(bitpacked)'] [--chunk 1000000] [--closed] IN

A file is a container, a file of chunks, a .npy file of one dimension, or text with an integer or `null` in each line, which
needs a type. Of a file of chunks, one chunk is in memory at a time, and what its foot says is believed unless --verify is given.
`convert` writes a file of chunks, of any of these or of a column of comma-separated values or of a stream of Arrow: the one that
there is, or that --column names, or says the number of from 1. Values are 64 bits wide and may be null if no type is given. A
first line whose value is no integer has the names, and with --names it has them in any case.

What is decoded is text, or a .npy file where its name ends so. `ask` answers a number, or `null` where no item is one, and
`where` the items in lines; nulls are left out. Operators are ==, !=, <, <=, > and >=, and `between 1 5` stands in the place of
one with its integer, or by itself for `where between 1 5`. `copy` writes a line for each chunk of a column, as COPY of
PostgreSQL reads it: its number, a tab, and its container in hexadecimal digits. With --closed a last line follows when the
whole column was written, with the number of lines before it and a null, which whoever reads from a pipe can ask for. `-` is
standard input or output. An error is one line on standard error, and the status 1.
"""
from __future__ import annotations

import argparse
import os
import sys
import time
from contextlib import contextmanager
from typing import Any, BinaryIO, Iterator, Optional, Union

from . import __version__
from ._array import Array
from ._column import Column
from ._convert import source_of
from ._dtypes import full_name
from ._file import File
from ._files import BadFile, Tell, pieces, read, write_lines, writer
from ._writer import Writer

#: So many items are decoded unasked, though the container has few bytes.
UNASKED = 1 << 28

QUESTIONS = ("sum", "min", "max", "mean", "count", "nulls", "where", "between")


@contextmanager
def progress(what: str) -> Iterator[Tell]:
    """A bar on the terminal for what takes longer than a second, which is wiped out at the end."""
    begun, drawn = time.monotonic(), 0.0

    def tell(done: int, whole: int) -> None:
        nonlocal drawn
        now = time.monotonic()
        if sys.stderr.isatty() and now - begun > 1 and (now - drawn > 0.1 or done == whole):
            drawn = now
            filled = 30 * done // max(1, whole)
            print(f"\r{what:9} [{'#' * filled:30}] {100 * done // max(1, whole):3} %", end="", file=sys.stderr, flush=True)

    try:
        yield tell
    finally:
        if drawn:
            print("\r\033[K", end="", file=sys.stderr, flush=True)


@contextmanager
def opened(name: str, mode: str) -> Iterator[BinaryIO]:
    """A file, or a standard stream for `-`."""
    if name == "-":
        stream = sys.stdin if "r" in mode else sys.stdout
        if stream is None:
            raise BadFile("the standard stream is closed")
        yield stream.buffer
    else:
        with open(name, mode) as file:
            yield file  # type: ignore[misc]


def column_of(name: str, dtype: Optional[str], verify: bool = False) -> Union[Column, File]:
    """The column of a file; one of chunks is open, and its chunks are read when they are needed."""
    with opened(name, "rb") as file, progress("reading") as tell:
        column = read(file, dtype, tell)
    if verify and isinstance(column, File):
        column.verify()
    return column


def inspect(words: argparse.Namespace) -> None:
    """Says what each file holds."""
    for name in words.files:
        column = column_of(name, words.type, words.verify)
        items, taken = column.size, column.nbytes
        each = f", {8 * taken / items:.2f} bits an item" if items else ""
        if isinstance(column, File):
            scheme = f", {len(column.chunks)} chunks"
        else:
            scheme = "" if column.dtype.startswith("bool") else f", {column.scheme}"
        say(f"{name}: {items} items of {column.dtype}, {column.null_count} null, {taken} bytes{each}{scheme}")


def encoded(column: Any, scheme: Optional[str]) -> Column:
    """The column by a scheme, or by the one of the fewest bytes."""
    if column.dtype.startswith("bool"):
        raise BadFile("no scheme encodes booleans")
    made: Column = column.encode(scheme) if scheme else column.compress()
    return made


def compress(words: argparse.Namespace) -> None:
    """Writes a column as a container."""
    column = encoded(column_of(words.source, words.type)[:], words.scheme)
    with opened(words.target, "wb") as file, progress("writing") as tell:
        container = memoryview(bytes(column))
        for start in range(0, len(container), 1 << 24):
            file.write(container[start : start + (1 << 24)])
            tell(min(start + (1 << 24), len(container)), len(container))


def decode(words: argparse.Namespace) -> None:
    """Writes the items of a container."""
    column = column_of(words.source, None)
    refuse_many(words.source, column, column.size, words.limit)
    write = writer(column, words.target)
    with opened(words.target, "wb") as file, progress("writing") as tell:
        write(column, file, tell)


def convert(words: argparse.Namespace) -> None:
    """Writes a column as a file of chunks."""
    if words.target == "-":
        raise BadFile("a file of chunks has a path")
    with opened(words.source, "rb") as file, progress("reading") as tell:
        source = source_of(file, words.column, words.names, tell)
        with Writer(words.target, words.type or source.dtype, chunk=words.chunk) as target:
            for piece in source.pieces:
                target.extend(piece)


def refuse_many(name: str, column: Union[Column, File], items: int, limit: Optional[int]) -> None:
    """Refuses to write more items of a column than its bytes suggest, or than are allowed."""
    most = max(UNASKED, 8 * column.nbytes) if limit is None else limit
    if items > most:
        raise BadFile(f"{name} has {items} items, more than {most}: --limit {items} writes them all the same")


def ask(words: argparse.Namespace) -> None:
    """Says what is asked of a column: a number, or the items that meet a test."""
    test = words.test if words.question != "between" else ["between", *words.test]
    column = column_of(words.file, words.type, words.verify)
    if words.question in ("where", "between"):
        choose(words, integers(column, words.question), test)
    elif test and words.question != "count":
        raise BadFile(f"{words.question} takes no test")
    elif test:
        say(str(tested(integers(column, "a test"), "count", test)))
    else:
        answer = number_of(column, words.question)
        say("null" if answer is None else repr(answer))


def number_of(column: Any, question: str) -> Any:
    """What a question without a test asks."""
    if question == "nulls":
        return column.null_count
    return getattr(column if question in ("sum", "count") else integers(column, question), question)()


def integers(column: Union[Column, File], what: str) -> Union[Array, File]:
    """The column, of integers."""
    if not isinstance(column, (Array, File)):
        raise BadFile(f"{what} is asked of integers, and the file has booleans")
    return column


def tested(column: Any, what: str, test: list[str]) -> Any:
    """What a column answers to ``count``, ``where`` or ``iter_where`` with a test: an operator and an integer, or two bounds."""
    try:
        name, constants = test[0], [int(word) for word in test[1:]]
    except (IndexError, ValueError):
        constants = []
    if len(constants) != (2 if test[:1] == ["between"] else 1):
        raise BadFile("a test is an operator and an integer, as '<' 5, or between and two integers")
    if name == "between":
        return getattr(column, f"{what}_between")(*constants)
    return getattr(column, "count_where" if what == "count" else what)(name, *constants)


def choose(words: argparse.Namespace, column: Union[Array, File], test: list[str]) -> None:
    """Writes the items that meet a test, of a file of chunks those of one chunk after another."""
    refuse_many(f"the answer from {words.file}", column, tested(column, "count", test), words.limit)
    parts = tested(column, "iter_where", test) if isinstance(column, File) else [tested(column, "where", test)]
    with opened("-", "wb") as file, progress("writing") as tell:
        for part in parts:
            write_lines(part, file, tell)


def copy(words: argparse.Namespace) -> None:
    """Writes a line for each chunk of a column as COPY reads it, and one that closes them: how many there are, and a null."""
    written = 0
    with opened(words.source, "rb") as file, progress("reading") as tell:
        for chunk in pieces(file, words.type, words.chunk, tell):
            say(f"{written}\t\\\\x{bytes(encoded(chunk, words.scheme)).hex()}")
            written += 1
        if words.closed:
            say(f"{written}\t\\N")


def say(line: str) -> None:
    """Writes a line to standard output."""
    if sys.stdout is None:
        raise BadFile("the standard stream is closed")
    print(line)


def count(word: str) -> int:
    """A number of items, 1 or more."""
    number = int(word)
    if number < 1:
        raise ValueError
    return number


def parser() -> argparse.ArgumentParser:
    """The words of a command line."""
    lines = argparse.RawDescriptionHelpFormatter
    whole = argparse.ArgumentParser("python3 -m flcol", description=__doc__, formatter_class=lines)
    whole.add_argument("--version", action="version", version=f"flcol {__version__}")
    commands = whole.add_subparsers(metavar="COMMAND", required=True)

    looks = commands.add_parser("inspect", help="say what files hold")
    looks.add_argument("files", nargs="+", metavar="FILE")
    looks.set_defaults(run=inspect)

    makes = commands.add_parser("compress", help="write a column as a container")
    makes.set_defaults(run=compress)

    copies = commands.add_parser("copy", help="write a line for each chunk of a column, as COPY reads it")
    copies.add_argument("--closed", action="store_true", help="write a last line, which says that all chunks were written")
    copies.add_argument("--chunk", type=count, default=1_000_000, help="how many items a chunk has")
    copies.set_defaults(run=copy)

    converts = commands.add_parser("convert", help="write a column as a file of chunks")
    converts.add_argument("--column", help="the name of a column, or its number from 1")
    converts.add_argument("--names", action="store_true", help="the first line has the names of columns, integers or not")
    converts.add_argument("--chunk", type=count, default=65536, help="how many items a chunk has")
    converts.set_defaults(run=convert)

    reads = commands.add_parser("decode", help="write the items of a container as text or .npy")
    reads.add_argument("--limit", type=count, help=f"the most items to write; {UNASKED}, or 8 for each byte, if it is left out")
    reads.set_defaults(run=decode)

    asks = commands.add_parser("ask", help="say a number of a column, or its items that meet a test")
    asks.add_argument("--limit", type=count, help="the most items to write, as of decode")
    asks.add_argument("file", metavar="FILE")
    asks.add_argument("question", choices=QUESTIONS)
    asks.add_argument("test", nargs="*", metavar="TEST", help="an operator and an integer, as '<' 5, or: between 1 5")
    asks.set_defaults(run=ask)

    for command in (looks, asks):
        command.add_argument("--verify", action="store_true", help="compare what a file of chunks says with its items first")
    for command in (makes, converts, copies, reads):
        command.add_argument("source", metavar="IN")
    for command in (makes, converts, reads):
        command.add_argument("target", metavar="OUT")
    for command in (makes, copies):
        command.add_argument("--scheme", help="the tree of encodings; that of the fewest bytes if it is left out")
    for command in (looks, makes, converts, copies, asks):
        said = "the type of lines of text, u8 to u64 or i8 to i64, or by NumPy's name, with a ? behind for nulls"
        command.add_argument("--type", "--dtype", type=full_name, help=said)
    return whole


def main() -> int:
    words = parser().parse_args()
    try:
        words.run(words)
        if sys.stdout is not None:
            sys.stdout.flush()
    except (ValueError, TypeError, ArithmeticError, LookupError, OSError, MemoryError, RecursionError, NotImplementedError) as error:
        return failed(" ".join(str(error).split()) or type(error).__name__)
    except KeyboardInterrupt:
        return failed("interrupted")
    return 0


def failed(said: str) -> int:
    """The status of an error, which is said in a line. What standard output does not take is thrown away."""
    try:
        if sys.stdout is not None:
            sys.stdout.flush()
    except OSError:
        os.dup2(os.open(os.devnull, os.O_WRONLY), 1)
    print(f"flcol: {said}", file=sys.stderr)
    return 1


if __name__ == "__main__":
    sys.exit(main())
