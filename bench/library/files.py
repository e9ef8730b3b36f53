#!/usr/bin/env python3
"""Files of chunks beside a table of SQLite and an array of NumPy on a memory map. Needs NumPy.

usage: files.py [ROUNDS [MB [FOLDER]]]

Two columns of i64, of 1024 MB each by default: times that rise by 0 to 80, and prices below 100000 in any order. A cell has the least
time of some rounds, in which all sides take turns, with files that the system has in memory where there is room for them; and
answers are compared first. A table has a rowid and the items, and no index.
"""
import itertools
import os
import sqlite3
import subprocess
import sys
import tempfile
import time

import numpy as np

import flcol

BLOCK = 1 << 20  # items that are made at a time
MEASURED = """
import resource, subprocess, sys
subprocess.run(sys.argv[1:], check=True)
print(resource.getrusage(resource.RUSAGE_CHILDREN).ru_maxrss)
"""
SIDES = ("flcol", "npy", "sqlite")


def blocks(name, items):
    """A column in blocks."""
    choose, before = np.random.default_rng(7), 1_700_000_000_000
    for start in range(0, items, BLOCK):
        size = min(BLOCK, items - start)
        if name == "times":
            block = before + np.cumsum(choose.integers(0, 81, size))
            before = int(block[-1])
            yield block
        else:
            yield choose.integers(0, 100_000, size)


class Column:
    """A column as a file of chunks, as a file of NumPy and as a table."""

    def __init__(self, name, items, folder):
        self.name, self.items = name, items
        self.paths = {side: os.path.join(folder, f"{name}.{side}") for side in SIDES}
        self.seconds = dict.fromkeys(self.paths, 0.0)
        self.sink = np.lib.format.open_memmap(self.paths["npy"], "w+", np.int64, (items,))
        self.table = sqlite3.connect(self.paths["sqlite"])
        self.table.executescript("PRAGMA journal_mode = OFF; PRAGMA synchronous = OFF; CREATE TABLE t (item INTEGER)")
        with flcol.Writer(self.paths["flcol"], "int64", encodings=["bitpacked", "for", "delta"]) as self.writer:
            for at, block in zip(range(0, items, BLOCK), blocks(name, items)):
                self.timed("npy", self.sink.__setitem__, slice(at, at + len(block)), block)
                self.timed("flcol", self.writer.extend, block)
                rows = ((item,) for item in block.tolist())
                self.timed("sqlite", self.table.executemany, "INSERT INTO t (item) VALUES (?)", rows)
            self.timed("flcol", self.writer.close)
        self.timed("npy", self.sink.flush)
        self.timed("sqlite", self.table.commit)
        self.open()

    def timed(self, side, work, *words):
        begun = time.perf_counter()
        work(*words)
        self.seconds[side] += time.perf_counter() - begun

    def open(self):
        self.file, self.array = flcol.open(self.paths["flcol"]), np.load(self.paths["npy"], mmap_mode="r")

    def ask(self, text, *words):
        """The numbers that a query of SQL answers."""
        return [row[0] for row in self.table.execute(f"SELECT {text}", words)]

    def questions(self):
        """Each question, by our file, by NumPy, by SQLite."""
        file, array, ask, at = self.file, self.array, self.ask, self.items // 3
        low, high = (int(array[at]), int(array[at + self.items // 100])) if self.name == "times" else (99_990, 10**9)
        half = int(array[self.items // 2]) if self.name == "times" else 50_000
        yield "open", lambda: flcol.open(self.paths["flcol"]).size, lambda: len(np.load(self.paths["npy"], mmap_mode="r")), None
        yield (
            "count, selective",
            lambda: file.count_between(low, high),
            lambda: int(np.count_nonzero((array >= low) & (array <= high))),
            lambda: ask("count(*) FROM t WHERE item BETWEEN ? AND ?", low, high)[0],
        )
        yield (
            "count, half of all",
            lambda: file.count_where("<", half),
            lambda: int(np.count_nonzero(array < half)),
            lambda: ask("count(*) FROM t WHERE item < ?", half)[0],
        )
        yield "sum", file.sum, lambda: sum_of(array), lambda: ask("sum(item) FROM t")[0]
        yield (
            "least, greatest",
            file.min_max,
            lambda: (int(array.min()), int(array.max())),
            lambda: self.table.execute("SELECT min(item), max(item) FROM t").fetchone(),
        )
        yield (
            "the items of a selective test",
            lambda: file.where_between(low, high),
            lambda: array[(array >= low) & (array <= high)],
            lambda: ask("item FROM t WHERE item BETWEEN ? AND ?", low, high),
        )
        part = slice(at + 5, at + 100_005)
        yield (
            "100,000 items",
            lambda: file[part],
            lambda: array[part].copy(),
            lambda: ask("item FROM t WHERE rowid BETWEEN ? AND ?", at + 6, at + 100_005),
        )
        places = {side: itertools.cycle(range(self.items // 20, self.items, self.items // 9)) for side in SIDES}  # of other chunks
        yield (
            "one item",
            lambda: file[next(places["flcol"])],
            lambda: int(array[next(places["npy"])]),
            lambda: ask("item FROM t WHERE rowid = ?", next(places["sqlite"]) + 1)[0],
        )


def sum_of(array):
    """The exact sum, of blocks whose sums NumPy's words have."""
    return sum(map(int, np.add.reduceat(array, range(0, len(array), BLOCK))))


def listed(answer):
    """An answer in the form in which all are compared."""
    answer = answer.to_numpy() if isinstance(answer, flcol.Array) else answer
    return list(map(int, answer)) if isinstance(answer, (np.ndarray, list, tuple)) else [int(answer)]


def least(rounds, sides):
    """The least time of each side, which take turns."""
    best = [float("inf")] * len(sides)
    for _ in range(rounds):
        for at, side in enumerate(sides):
            begun = time.perf_counter()
            side()
            best[at] = min(best[at], time.perf_counter() - begun)
    return best


def shown(seconds):
    return f"{seconds * 1000:.3f} ms" if seconds < 0.1 else f"{seconds:.2f} s"


def memory(path, *question):
    """The greatest memory of the command that asks a file, in MB."""
    command = [sys.executable, "-c", MEASURED, sys.executable, "-m", "flcol", "ask", path, *question]
    return int(subprocess.run(command, check=True, capture_output=True, text=True).stdout.splitlines()[-1]) / 1024


def race(column, rounds):
    """Prints the tables of a column."""
    chunks = f"{len(column.file.chunks)} chunks, the first {column.file.chunk(0).scheme}"
    print(f"\n{column.name}: {column.items} items of i64, {chunks}\n")
    print("| | flcol | NumPy on a map | SQLite |\n|---|---|---|---|")
    sizes = [os.path.getsize(column.paths[side]) for side in SIDES]
    print(f"| MB | {' | '.join(f'{size / 1e6:.1f}' for size in sizes)} |")
    print(f"| written | {' | '.join(shown(column.seconds[side]) for side in SIDES)} |")
    for name, *sides in column.questions():
        asked = [side for side in sides if side]
        answers = [listed(side()) for side in asked]
        assert all(answer == answers[0] for answer in answers), name
        times = [shown(it) for it in least(rounds, asked)] + ["-"] * (len(sides) - len(asked))
        print(f"| {name} | {' | '.join(times)} |", flush=True)
    half = int(column.array[column.items // 2])
    foot, read = memory(column.paths["flcol"], "sum"), memory(column.paths["flcol"], "count", "!=", str(half))
    print(f"\nGreatest memory of `python3 -m flcol ask`: {foot:.1f} MB for the sum, {read:.1f} MB for `count != {half}`")


def main():
    words = sys.argv[1:]
    rounds, megabytes = int(words[0]) if words else 3, int(words[1]) if len(words) > 1 else 1024
    with tempfile.TemporaryDirectory(dir=words[2] if len(words) > 2 else None) as folder:
        for name in ("times", "prices"):
            race(Column(name, megabytes << 17, folder), rounds)
            for path in os.listdir(folder):
                os.unlink(os.path.join(folder, path))


if __name__ == "__main__":
    main()
