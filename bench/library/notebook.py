#!/usr/bin/env python3
"""The package beside NumPy, and beside zstd and NumPy: what a notebook would do. Needs NumPy and libzstd.

usage: notebook.py [ROUNDS]

16 Mi items of u32 below 1000, 64 MB, bit-packed. Milliseconds of the thread's processor, the least of the rounds, in which all sides
take turns.
"""
import ctypes
import ctypes.util
import operator
import sys
import time

import numpy as np

import flcol

zstd = ctypes.CDLL(ctypes.util.find_library("zstd"))
zstd.ZSTD_compress.restype = zstd.ZSTD_decompress.restype = ctypes.c_size_t
zstd.ZSTD_compress.argtypes = [ctypes.c_void_p, ctypes.c_size_t, ctypes.c_void_p, ctypes.c_size_t, ctypes.c_int]
zstd.ZSTD_decompress.argtypes = [ctypes.c_void_p, ctypes.c_size_t, ctypes.c_void_p, ctypes.c_size_t]

N = 16 << 20
plain = np.random.default_rng(7).integers(0, 1000, N).astype("u4")
packed = flcol.array(plain).encode("bitpacked")
room = np.empty(plain.nbytes + 1000, "u1")
squeezed = room[: zstd.ZSTD_compress(room.ctypes.data, room.nbytes, plain.ctypes.data, plain.nbytes, 1)].copy()
out = np.empty_like(plain)
few, rare = np.arange(0, N, 1000), plain < 10


def unsqueezed():
    zstd.ZSTD_decompress(out.ctypes.data, out.nbytes, squeezed.ctypes.data, squeezed.nbytes)
    return out


def items_of(answer):
    """What an answer comes to, as items of NumPy."""
    return np.asarray(answer.to_numpy() if hasattr(answer, "to_numpy") else answer)


WAYS = ("flcol", "NumPy", "zstd and NumPy")
SIDES = (lambda: packed, lambda: plain, unsqueezed)
QUESTIONS = {
    "`a < 500`": lambda a: a < 500,
    "`a[a < 10]`": lambda a: a[a < 10],
    "`a[mask]` of 1 %": lambda a: a[rare],
    "`a[indices]` of 1 in 1000": lambda a: a[few],
    "`a[1000:5000]`": lambda a: a[1000:5000],
    "all items": lambda a: a.read_into(out) if a is packed else operator.setitem(out, slice(None), a),
}


def timed(call):
    begun = time.thread_time()
    answer = call()
    return 1000 * (time.thread_time() - begun), answer


def main(rounds="7"):
    bits = [8 * size / N for size in (packed.nbytes, plain.nbytes, squeezed.nbytes)]
    print(f"| | {' | '.join(WAYS)} |\n|---|---|---|---|")
    print(f"| bits an item | {' | '.join(f'{it:.2f}' for it in bits)} |")
    for name, question in QUESTIONS.items():
        best = [float("inf")] * len(SIDES)
        for _ in range(int(rounds)):
            for way, side in enumerate(SIDES):
                spent, answer = timed(lambda: question(side()))
                best[way] = min(best[way], spent)
                if answer is not None:
                    np.testing.assert_array_equal(items_of(answer), items_of(question(plain)))
        print(f"| {name} | {' | '.join(f'{it:.2f}' for it in best)} |")


if __name__ == "__main__":
    main(*sys.argv[1:])
