#!/usr/bin/env python3
"""Queries of encoded columns beside decoding first, the obvious loops over plain items, and NumPy. Needs NumPy.

usage: scans.py LOOPS [ROUNDS [MB]]

LOOPS is loops.c as a shared library. Columns have 64 MB of u32 or of u64 by default. A cell has our least time in milliseconds, how
many times as long the others take: decoding first and then the loop, the loop over the plain column, and NumPy on it (by one thread);
and in parentheses the same of medians. Times are those of the thread's processor, of four threads over a slice each those of the
slowest; in each round all sides take turns, and before that their answers are compared.
"""
import ctypes
import statistics
import sys
import threading
import time
from concurrent.futures import ThreadPoolExecutor
from functools import partial

import numpy as np

import flcol

THREADS = 4
LISTED = 5


def columns(dtype, n):
    """Schemes and the items that they are for."""
    choose = np.random.default_rng(7)
    small = choose.integers(0, 1000, n).astype(dtype)
    yield "bitpacked", small
    yield "for(bitpacked)", small + np.array(10**9, dtype)
    yield "delta(bitpacked,_)", np.cumsum(choose.integers(30, 50, n)).astype(dtype)
    yield "dict(bitpacked,bitpacked,_)", choose.integers(0, 12, n).astype(dtype) * np.array(1000, dtype)


class Words:
    """The constants that a column is asked with."""

    def __init__(self, items):
        ordered = np.sort(items[:: len(items) // 10_000])
        self.tenth, self.quarter, self.half, self.most = (int(ordered[len(ordered) * at // 20]) for at in (2, 5, 10, 15))
        self.listed = np.unique(ordered)[:: max(1, len(np.unique(ordered)) // LISTED)][:LISTED].copy()


class Part:
    """Some items of a column, encoded and plain, with masks and room for what loops write."""

    def __init__(self, array, items, masks, words):
        self.array, self.items, self.words = array, items, words
        self.room, self.decoded, self.bits = np.empty_like(items), np.empty_like(items), np.empty(len(items) // 8, "u1")
        self.flags, self.packed, self.masks = masks, {}, {}
        for name, flags in masks.items():
            self.packed[name] = np.packbits(flags, bitorder="little")
            self.masks[name] = flcol.BoolArray(self.packed[name].tobytes(), None, len(items))

    def slices(self):
        """A part for each thread, from a block's start on."""
        step = len(self.items) // THREADS
        for at in range(0, len(self.items), step):
            masks = {name: flags[at : at + step] for name, flags in self.flags.items()}
            yield Part(self.array[at : at + step], self.items[at : at + step], masks, self.words)


def listed(answer):
    """An answer in the form in which all are compared."""
    if isinstance(answer, flcol.BoolArray):
        return list(answer.bits)
    if isinstance(answer, flcol.Array):
        answer = answer.to_numpy()
    if isinstance(answer, np.ndarray):
        return list((np.packbits(answer, bitorder="little") if answer.dtype == bool else answer).tolist())
    return [int(it) for it in (answer if isinstance(answer, tuple) else (answer,))]


class Loops:
    """The loops of C, each over items that are in memory."""

    def __init__(self, path, dtype):
        self.library, self.ending = ctypes.CDLL(path), {"uint32": "u32", "uint64": "u64"}[dtype]
        self.word = {"uint32": ctypes.c_uint32, "uint64": ctypes.c_uint64}[dtype]

    def call(self, name, answer, items, *words):
        """Numbers as words of the items' type, and arrays of NumPy by their addresses."""
        function = self.library[f"{name}_{self.ending}"]
        function.restype = answer
        words = [ctypes.c_void_p(it.ctypes.data) if isinstance(it, np.ndarray) else it for it in words]
        words = [self.word(it) if isinstance(it, int) else it for it in words]
        return function(ctypes.c_void_p(items.ctypes.data), ctypes.c_size_t(len(items)), *words)

    def bits(self, name, part, items, *words):
        self.call(name, None, items, *words, part.bits)
        return part.bits

    def min_max(self, part, items):
        extremes = np.empty(2, items.dtype)
        self.call("min_max", None, items, extremes)
        return int(extremes[0]), int(extremes[1])

    def filtered(self, part, items):
        return part.room[: self.call("filter_by", ctypes.c_size_t, items, part.words.tenth, part.room)]

    def is_in(self, part, items):
        self.call("is_in", None, items, part.words.listed, ctypes.c_size_t(LISTED), part.bits)
        return part.bits


def queries(loops):
    """Each query of a part: by the library, by a loop over items, by NumPy."""
    size, total = ctypes.c_size_t, ctypes.c_uint64
    yield "compare", lambda p: p.array < p.words.half, lambda p, it: loops.bits("compare", p, it, p.words.half), lambda p: p.items < p.words.half
    yield (
        "count",
        lambda p: p.array.count_where("<", p.words.half),
        lambda p, it: loops.call("count", size, it, p.words.half),
        lambda p: np.count_nonzero(p.items < p.words.half),
    )
    yield (
        "count between",
        lambda p: p.array.count_between(p.words.quarter, p.words.most),
        lambda p, it: loops.call("count_between", size, it, p.words.quarter, p.words.most),
        lambda p: np.count_nonzero((p.items >= p.words.quarter) & (p.items <= p.words.most)),
    )
    yield "sum", lambda p: p.array.sum(), lambda p, it: loops.call("sum", total, it), lambda p: p.items.sum(dtype="u8")
    yield "min and max", lambda p: p.array.min_max(), loops.min_max, lambda p: (p.items.min(), p.items.max())
    yield "filter, a tenth", lambda p: p.array.where("<", p.words.tenth), loops.filtered, lambda p: p.items[p.items < p.words.tenth]
    yield f"is in, of {LISTED}", lambda p: p.array.is_in(p.words.listed), loops.is_in, lambda p: np.isin(p.items, p.words.listed)
    for mask in ("half", "a tenth in a run"):
        yield (
            f"count under {mask}",
            lambda p, m=mask: p.array.count_where("<", p.words.half, where=p.masks[m]),
            lambda p, it, m=mask: loops.call("count_under", size, it, p.packed[m], p.words.half),
            lambda p, m=mask: np.count_nonzero((p.items < p.words.half) & p.flags[m]),
        )
        yield (
            f"sum under {mask}",
            lambda p, m=mask: p.array.sum(where=p.masks[m]),
            lambda p, it, m=mask: loops.call("sum_under", total, it, p.packed[m]),
            lambda p, m=mask: p.items.sum(dtype="u8", where=p.flags[m]),
        )
    yield (
        f"compare under {mask}",
        lambda p: p.array.mask_where("<", p.words.half, where=p.masks[mask]),
        lambda p, it: loops.bits("compare_under", p, it, p.packed[mask], p.words.half),
        lambda p: (p.items < p.words.half) & p.flags[mask],
    )


def decoding(loop, part):
    part.array.read_into(part.decoded)
    return loop(part, part.decoded)


def sides(ours, loop, numpy):
    """The ways to answer a query, each of a part alone."""
    return [ours, partial(decoding, loop), lambda p: loop(p, p.items), numpy]


def milliseconds(ask, part, together=None):
    if together:
        together.wait()
    before = time.thread_time_ns()
    ask(part)
    return (time.thread_time_ns() - before) / 1e6


def slowest(pool, ask, parts):
    together = threading.Barrier(len(parts))
    return max(pool.map(lambda part: milliseconds(ask, part, together), parts))


def raced(pool, asks, part, parts, rounds):
    """The times of each way by itself, and of all but NumPy's by threads over slices."""
    alone, threads = [[] for _ in asks], [[] for _ in asks[:3]]
    for _ in range(rounds):
        for ask, times in zip(asks, alone):
            times.append(milliseconds(ask, part))
        for ask, times in zip(asks, threads):
            times.append(slowest(pool, ask, parts))
    return alone, threads


def cell(times):
    """Our least time, how many times those of the others are as long, and the same of medians."""
    ours, *others = times
    ratios = [[kind(it) / kind(ours) for it in others] for kind in (min, statistics.median)]
    least, middle = (", ".join(f"{it:.1f}" for it in of_kind) for of_kind in ratios)
    return f"{min(ours):.2f}: {least} ({middle})"


def table(title, schemes, rows):
    print(f"\n{title}:\n\n| query | {' | '.join(f'`{it}`' for it in schemes)} |\n|---|{'---|' * len(schemes)}")
    for name, cells in rows.items():
        print(f"| {name} | {' | '.join(cells)} |", flush=True)


def measure(path, dtype, megabytes, rounds, pool):
    n = megabytes * 2**20 // np.dtype(dtype).itemsize // (1024 * THREADS) * 1024 * THREADS
    masks = {"half": np.random.default_rng(8).random(n) < 0.5, "a tenth in a run": np.zeros(n, bool)}
    masks["a tenth in a run"][n // 2 : n // 2 + n // 10] = True
    schemes, by_one, by_four = [], {}, {}
    for scheme, items in columns(dtype, n):
        schemes.append(scheme)
        part = Part(flcol.array(items).encode(scheme), items, masks, Words(items))
        parts = list(part.slices())
        for name, ours, loop, numpy in queries(Loops(path, dtype)):
            asks = sides(ours, loop, numpy)
            for it in (part, parts[1]):
                answers = [listed(ask(it)) for ask in asks]
                assert answers[1:] == answers[:1] * 3, (scheme, name)
            alone, threads = raced(pool, asks, part, parts, rounds)
            by_one.setdefault(name, []).append(cell(alone))
            by_four.setdefault(name, []).append(cell(threads))
    table(f"{dtype}, {n} items, one thread", schemes, by_one)
    table(f"{dtype}, four threads", schemes, by_four)


def main(path, rounds="15", megabytes="64"):
    with ThreadPoolExecutor(THREADS) as pool:
        for dtype in ("uint32", "uint64"):
            measure(path, dtype, int(megabytes), int(rounds), pool)


if __name__ == "__main__":
    main(*sys.argv[1:])
