#!/usr/bin/env python3
"""Masks of the package beside those of NumPy, a byte and a bit for each item. Needs NumPy.

usage: masks.py [ROUNDS]

10 million answers, half of them true, of which the nullable ones know nine in ten. Milliseconds of the thread's processor, the least
of the rounds, in which all sides take turns.
"""
import operator
import sys
import time

import numpy as np

import flcol

N = 10_000_000
choose = np.random.default_rng(7)
plain = choose.integers(0, 1000, N).astype("u4")
flags = [plain < 500, choose.random(N) < 0.5, plain < 0, plain >= 0]
bits = [np.packbits(it, bitorder="little") for it in flags]
answers = [flcol.BoolArray(it.tobytes(), None, N) for it in bits]
known = np.packbits(choose.random(N) < 0.9, bitorder="little").tobytes()
nullable = [flcol.BoolArray(it.tobytes(), known, N) for it in bits]
column = flcol.array(plain)
HALF, OTHER, NONE, EACH = range(4)


def flags_of(mask):
    """The bytes of a mask of bits, which NumPy chooses by."""
    return np.unpackbits(mask, count=N, bitorder="little").view(bool)


def asked(ours, of_bytes, of_bits, *which):
    """A question of some of the masks, of each side."""
    sides = (ours, answers), (ours, nullable), (of_bytes, flags), (of_bits, bits)
    return [lambda ask=ask, masks=masks: ask(*(masks[it] for it in which)) for ask, masks in sides]


# N is a multiple of 8, so that each bit counts. No side can stop before the last item.
CASES = {
    "a & b": asked(*[operator.and_] * 3, HALF, OTHER),
    r"a \| b": asked(*[operator.or_] * 3, HALF, OTHER),
    "~a": asked(*[operator.invert] * 3, HALF),
    "none.any()": asked(lambda a: a.any(), np.any, np.any, NONE),
    "each.all()": asked(lambda a: a.all(), np.all, lambda a: bool((a == 255).all()), EACH),
    "a.sum()": asked(lambda a: a.sum(), np.count_nonzero, lambda a: np.count_nonzero(flags_of(a)), HALF),
    "column[a]": asked(lambda a: column[a], lambda a: plain[a], lambda a: plain[flags_of(a)], HALF),
}
SIDES = ("flcol", "flcol, nullable", "NumPy, bytes", "NumPy, bits")


def milliseconds(call):
    before = time.thread_time_ns()
    call()
    return (time.thread_time_ns() - before) / 1e6


def agree():
    """All sides answer alike."""
    for name, calls in CASES.items():
        ours, _, of_bytes, of_bits = (call() for call in calls)
        if isinstance(ours, flcol.BoolArray):
            assert ours.bits == np.packbits(of_bytes, bitorder="little").tobytes() == of_bits.tobytes(), name
        elif isinstance(ours, flcol.Array):
            assert (ours.to_numpy() == of_bytes).all() and (of_bits == of_bytes).all(), name
        else:
            assert ours == of_bytes == of_bits, name


def main(rounds="20"):
    agree()
    least = {name: [1e9] * len(SIDES) for name in CASES}
    for _ in range(int(rounds)):
        for name, calls in CASES.items():
            least[name] = [min(it, milliseconds(call)) for it, call in zip(least[name], calls)]
    print(f"| | {' | '.join(SIDES)} |\n|---|{'---|' * len(SIDES)}")
    for name, times in least.items():
        print(f"| `{name}` | {' | '.join(f'{it:.2f}' for it in times)} |")


if __name__ == "__main__":
    main(*sys.argv[1:])
