#!/usr/bin/env python3
"""Makes the columns of the benchmark: what a walk over the system's own files finds, and made ones.

usage: columns.py FOLDER [MB]

Each is a file NAME.u32 or NAME.u64 of little-endian items; made ones have as many MB, 64 by default. Needs NumPy.
"""
import os
import subprocess
import sys
from pathlib import Path

import numpy as np


def found():
    """Sizes, times, inodes and modes of the files of /usr, in the order of the walk, and the sizes of Debian's packages."""
    stats = [os.lstat(os.path.join(at, name)) for at, _, names in os.walk("/usr") for name in sorted(names)]
    times = np.array([it.st_mtime_ns // 1_000_000 for it in stats], "u8")
    yield "file_sizes", np.array([it.st_size for it in stats], "u8")
    yield "file_times", times
    yield "file_times_sorted", np.sort(times)
    yield "inodes", np.array([it.st_ino for it in stats], "u8")
    yield "modes", np.array([it.st_mode for it in stats], "u4")
    listed = subprocess.run(["dpkg-query", "-Wf", "${Installed-Size}\n"], capture_output=True, text=True, check=False)
    yield "package_sizes", np.array([int(line) for line in listed.stdout.split()], "u4")


def made(megabytes):
    """Columns with what is usual in stores."""
    choose, n, n8 = np.random.default_rng(7), megabytes * 2**20 // 4, megabytes * 2**20 // 8
    yield "below_1000", choose.integers(0, 1000, n).astype("u4")
    yield "twelve_values", choose.integers(0, 12, n).astype("u4") * 1000
    yield "prices_in_cents", np.minimum(choose.lognormal(8, 1, n), 2**31).astype("u4")
    yield "timestamps", np.cumsum(choose.integers(30, 50, n8)).astype("u8") + 1_700_000_000_000
    yield "runs", np.repeat(choose.integers(0, 2**40, n8 // 16 + 1), 16)[:n8].astype("u8")
    yield "random", choose.integers(0, 2**64, n8, dtype="u8")


def main(folder, megabytes="64"):
    for name, items in (*found(), *made(int(megabytes))):
        if len(items):
            (Path(folder) / f"{name}.u{8 * items.itemsize}").write_bytes(items.tobytes())


if __name__ == "__main__":
    main(*sys.argv[1:])
