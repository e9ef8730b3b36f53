"""Files of chunks are read, and only as far as an answer needs it."""
import itertools
import os
import resource
import subprocess
import sys
import threading
import unittest
from pathlib import Path
from unittest import mock

import flcol
from chunk_files import InFolder, ask, statistics
from columns import TYPES, bounds, items_of

try:
    import numpy as np
except ImportError:
    np = None

SOURCES = Path(flcol.__file__).parents[1]


class Reading(InFolder):
    def test_each_type(self):
        for dtype, nulls, length in itertools.product(TYPES, (False, True), (0, 1, 1024, 3000)):
            items, name = items_of(dtype, length, nulls), dtype + "?" * nulls
            with self.subTest(name, length=length), flcol.open(self.written(items, name, chunk=1000)) as file:
                self.assertEqual((file.dtype, file.nullable), (name, nulls))
                self.assertEqual([chunk.len for chunk in file.chunks], [len(items[at : at + 1000]) for at in range(0, length, 1000)])
                ask(file, items, *bounds(dtype))
                file.verify()
                for k, (chunk, array) in enumerate(zip(file.chunks, file)):
                    part = items[1000 * k : 1000 * (k + 1)]
                    self.assertEqual(chunk[2:], statistics(part))
                    self.assertEqual((chunk.offset % 64, array.to_list()), (0, part))

    def test_items_slices_and_indices(self):
        items = items_of("int16", 2500, True)
        file = flcol.open(self.written(items, "int16?", chunk=512))
        for at in (0, 1, 511, 512, 1024, 2499, -1, -2500, -513):
            self.assertEqual(file[at], items[at])
        ends = (None, 0, 1, 511, 512, 513, 1024, 2499, 2500, 9999, -1, -512, -3000)
        for start, stop in itertools.product(ends, ends):
            self.assertEqual(file[start:stop].to_list(), items[start:stop], (start, stop))
            self.assertEqual(file[start:stop].dtype, "int16?")
        for part in (slice(None, None, 700), slice(2000, 3, -499), slice(5, 5, 2), slice(None, None, -1)):
            self.assertEqual(file[part].to_list(), items[part])
        for indices in ([], [0], [2499, 0, 512, 511, 0, -1, -2500], [3, None, 2000, None], range(600, 400, -1), [None]):
            wanted = [None if at is None else items[at] for at in indices]
            self.assertEqual(file.take(indices).to_list(), wanted)
            self.assertEqual(file.take(flcol.array(list(indices), dtype="int64?")).to_list(), wanted)
        self.assertEqual(file[[1, -1]].to_list(), [items[1], items[-1]])
        for key in (2500, -2501, [2500], [0, -2501], flcol.array([2500], dtype="uint64")):
            with self.subTest(key), self.assertRaises(IndexError):
                file[key]
        for key in (True, [True] * 2500, "a", 1.5):
            with self.subTest(key), self.assertRaises(TypeError):
                file[key]
        self.assertTrue(items[7] in file and None in file and 7.5 not in file and 2**70 not in file and "a" not in file)

    def test_only_what_is_needed_is_read(self):
        file = flcol.open(self.written(range(10_000), "uint32", chunk=1000))

        def read_by(asked):
            read = []
            noting = mock.patch.object(flcol.File, "chunk", lambda it, k: read.append(k) or of_file(it, k))
            with noting:
                asked()
            return read

        of_file = flcol.File.chunk
        self.assertEqual(read_by(lambda: (len(file), file.sum(), file.min_max(), file.mean(), file.count(), file.null_count)), [])
        self.assertEqual(read_by(lambda: file[4500]), [4])
        self.assertEqual(read_by(lambda: file[1999:3001]), [1, 2, 3])
        self.assertEqual(read_by(lambda: file[2000:3000]), [2])
        self.assertEqual(read_by(lambda: file.take([9999, 5, 9000, 0])), [0, 9])
        self.assertEqual(read_by(lambda: file.count_where("<", 4500)), [4])
        self.assertEqual(read_by(lambda: file.count_where(">=", 4000)), [])
        self.assertEqual(read_by(lambda: file.where("==", 77_777)), [])
        self.assertEqual(read_by(lambda: file.where("<", 1500)), [0, 1])
        self.assertEqual(read_by(lambda: next(file.iter_where(">", 2500))), [2])
        self.assertEqual(read_by(lambda: file.count_between(1500, 3500)), [1, 3])

    def test_a_chunk_stays_as_it_is_encoded(self):
        plain = flcol.array([100, 101, 102, None], dtype="uint16?")
        with flcol.Writer(self.path, dtype="uint16", nullable=True) as writer:
            writer.append(plain.encode("for(bitpacked)"))
            writer.append(plain[:0])
            writer.append(flcol.array([7, 8], dtype="uint16").encode("bitpacked"))
            writer.append(plain)
        file = flcol.open(str(self.path))
        self.assertEqual([chunk.scheme for chunk in file][::2], ["for(bitpacked:2)", "primitive"])
        self.assertEqual((file.chunk(-1).to_list(), len(file.chunks), file.chunks[-1].len), (plain.to_list(), 3, 4))
        self.assertEqual(file[:4].scheme, "for(bitpacked:2)")
        ask(file, plain.to_list() + [7, 8] + plain.to_list())
        self.assertEqual((len(file.chunks[1:]), repr(file)), (2, "<flcol.File uint16?, 10 items in 3 chunks>"))
        for k in (3, -4):
            with self.assertRaises(IndexError):
                file.chunk(k)
            with self.assertRaises(IndexError):
                file.chunks[k]

    def test_closing(self):
        file = flcol.open(self.written([1, 2, 3], "uint8"))
        array = file.chunk(0)
        with file:
            self.assertFalse(file.closed)
        file.close()
        self.assertTrue(file.closed)
        self.assertEqual((array.to_list(), repr(file)), ([1, 2, 3], "<flcol.File uint8, 3 items in 1 chunks>"))
        for asked in (file.sum, file.min, lambda: file[0], lambda: file[:], lambda: file.chunk(0), file.verify, lambda: file.nbytes):
            with self.assertRaisesRegex(ValueError, "the file is closed"):
                asked()

    def test_words_of_numpy(self):
        file = flcol.open(self.written([1, 2, 3, 600], "int16"))
        for refused in (
            lambda: file.sum(axis=1), lambda: file.min(axis=3), lambda: file.max(initial=3), lambda: file.mean(dtype=float),
            lambda: file.count_where("=<", 5), lambda: file.where("<", None), lambda: file.where("<", 1.5),
            lambda: file.count_between(1, 5, "all"),
        ):  # fmt: skip
            with self.assertRaises((TypeError, ValueError)):
                refused()
        if np is not None:
            self.assertEqual((np.sum(file), np.min(file), np.max(file), np.mean(file)), (606, 1, 600, 151.5))
            self.assertEqual((np.asarray(file).tolist(), np.asarray(file).dtype), ([1, 2, 3, 600], np.int16))
            self.assertEqual(flcol.array(file).to_list(), [1, 2, 3, 600])


class Containers(InFolder):
    def test_a_container_is_a_file_of_one_chunk(self):
        for items, dtype in (([5, None, 7], "int8?"), ([], "uint64"), (items_of("int32", 3000, True), "int32?")):
            container = bytes(flcol.array(items, dtype=dtype).compress())
            self.path.write_bytes(container)
            for how in ({}, {"verify": True}, {"recover": True}):
                with flcol.open(self.path, **how) as file:
                    ask(file, items)
                    self.assertEqual((file.dtype, len(file.chunks), file.nbytes), (dtype, 1, len(container)))
                    self.assertEqual(file.chunks[0], (0, len(container), *statistics(items)))
                    self.assertEqual(file.take([-1, 0] if items else []).to_list(), [items[-1], items[0]] if items else [])
                with self.assertRaisesRegex(ValueError, "closed"):
                    file.sum()

    def test_what_is_no_file_of_integers(self):
        self.path.write_bytes(bytes(flcol.array([True, False])))
        with self.assertRaisesRegex(TypeError, "booleans"):
            flcol.open(self.path)
        self.path.write_bytes(bytes(flcol.array([1, 2]))[:-1])
        with self.assertRaisesRegex(flcol.Error, "BadContainer"):
            flcol.open(self.path)
        contents = {b"": "FileTooShort", b"FLC2": "FileTooShort", b"FLC2" * 7: "BadFootLength", bytes(4096): "BadMark"}
        for content, name in contents.items():
            self.path.write_bytes(content)
            with self.assertRaisesRegex(flcol.Error, name):
                flcol.open(self.path)
            with self.assertRaises(flcol.Error):
                flcol.open(self.path, recover=True)
        for path, error in ((self.folder, IsADirectoryError), (self.folder / "missing", FileNotFoundError)):
            with self.assertRaises(error):
                flcol.open(path)
        container = bytes(flcol.array([1, 2]))
        self.path.write_bytes(container)
        with self.assertRaisesRegex(ValueError, "container"):
            flcol.Writer(self.path, append=True)
        self.assertEqual(self.path.read_bytes(), container)

    def test_bytes_of_a_pipe(self):
        items = flcol.array(range(5000), dtype="int32")
        for content in (self.written(items, "int32", chunk=1024).read_bytes(), bytes(items)):
            fifo = self.folder / "fifo"
            os.mkfifo(fifo)
            feeding = threading.Thread(target=lambda: fifo.write_bytes(content))
            feeding.start()
            file = flcol.open(fifo)
            feeding.join()
            fifo.unlink()
            ask(file, list(range(5000)))


class Sharing(InFolder):
    def test_threads_read_one_file(self):
        items = items_of("int32", 20_000, True)
        file, faults, begin = flcol.open(self.written(items, "int32?", chunk=1500)), [], threading.Barrier(6)
        small = [item for item in items if item is not None and item < 5]

        def read():
            try:
                begin.wait()
                for _ in range(10):
                    assert file[3000:9000].to_list() == items[3000:9000] and file[7] == items[7]
                    assert file.where("<", 5).to_list() == small and file.count_where("<", 5) == len(small)
                    assert sum(map(len, file)) == 20_000 and file.take([19_999, 3]).to_list() == [items[-1], items[3]]
            except BaseException as fault:  # noqa: B902
                faults.append(fault)

        threads = [threading.Thread(target=read) for _ in range(6)]
        for thread in threads:
            thread.start()
        for thread in threads:
            thread.join()
        self.assertEqual(faults, [])

    def test_a_file_that_is_closed_meanwhile(self):
        self.written(range(50_000), "uint32", chunk=500)
        for _ in range(20):
            file, faults = flcol.open(self.path), []

            def read():
                try:
                    while True:
                        assert file.count_where("!=", 77) == 49_999
                except ValueError:  # it is closed
                    pass
                except BaseException as fault:  # noqa: B902
                    faults.append(fault)

            threads = [threading.Thread(target=read) for _ in range(3)]
            for thread in threads:
                thread.start()
            file.close()
            for thread in threads:
                thread.join()
            self.assertEqual(faults, [])


class Memory(InFolder):
    ROOM = None  # a disk, whose pages come into memory some at a time

    def test_one_chunk_is_in_memory(self):
        with flcol.Writer(self.path, dtype="uint64") as writer:
            one = flcol.array([(k * 2654435761) % 2**10 for k in range(1 << 15)], dtype="uint64").encode("bitpacked")
            for _ in range(1500):
                writer.append(one)
        self.assertGreater(self.path.stat().st_size, 50 << 20)
        begin = "import resource, sys, flcol; file = flcol.open(sys.argv[1]); "

        def most(asked):
            measured = f"{begin}{asked}; print(resource.getrusage(resource.RUSAGE_SELF).ru_maxrss)"
            command = [sys.executable, "-c", measured, str(self.path)]
            return int(subprocess.run(command, capture_output=True, check=True, cwd=SOURCES).stdout)

        unasked = most("file[0]")
        for asked in ("file.count_where('<', 500)", "file.sum()", "sum(map(len, file))", "sum(map(len, file.iter_where('<', 9)))"):
            with self.subTest(asked):
                self.assertLess(most(asked) - unasked, 4 << 10)


if __name__ == "__main__":
    unittest.main()
