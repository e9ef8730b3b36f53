"""Files of chunks are written: from whatever has items, and as a whole or not at all."""
import itertools
import os
import resource
import signal
import unittest
import warnings
from unittest import mock

import flcol
from chunk_files import InFolder, as_told, ask, told
from flcol import _file, _target

try:
    import numpy as np
except ImportError:
    np = None


class Writing(InFolder):
    def test_whatever_has_items(self):
        def some():
            yield from (5, None, 7)

        mixed = [5, None, 7]
        small = flcol.array(mixed, dtype="uint8?").encode("rle")
        for items in (mixed, tuple(mixed), some(), iter(mixed), flcol.array(mixed), small):
            self.assertEqual(flcol.open(self.written(items, "int64?"))[:].to_list(), mixed)
        whole = range(-3000, 3000)
        values = flcol.array(whole).to_buffers()[0]
        for items in (whole, values, memoryview(values), flcol.array(whole, dtype="int16"), {3: 4, 5: 6}, {7}):
            self.assertEqual(flcol.open(self.written(items, "int32", chunk=999))[:].to_list(), list(items))
        self.assertEqual(flcol.open(self.written(b"\1\2", "uint16"))[:].to_list(), [1, 2])
        self.assertEqual(flcol.open(self.written([True, False], "uint16"))[:].to_list(), [1, 0])
        other = flcol.open(self.written(whole, "int32", name="other", chunk=1024))
        self.assertEqual(flcol.open(self.written(other, "int64", chunk=1000))[:].to_list(), list(whole))
        if np is not None:
            plain = np.arange(70_000, dtype=np.int64)
            masked = np.ma.array(plain, mask=plain % 3 == 0)
            self.assertEqual(np.asarray(flcol.open(self.written(plain, "uint32"))).tolist(), plain.tolist())
            self.assertEqual(np.asarray(flcol.open(self.written(plain[::-7], "uint32"))).tolist(), plain[::-7].tolist())
            self.assertEqual(flcol.open(self.written(masked, "int64?"))[:].to_list(), masked.tolist())
            self.assertEqual(flcol.open(self.written(np.array([3, None], object), "int64?"))[:].to_list(), [3, None])

    def test_chunks_are_closed_by_their_length(self):
        with flcol.Writer(self.path, "int32?", chunk=1000) as writer:
            for length in (1, 998, 1, 1000, 400, 1500, 0, 3):
                writer.extend([7] * length)
            self.assertEqual((writer.size, writer.dtype), (3903, "int32?"))
            writer.append(flcol.array([1, None], dtype="int32?"))
            writer.flush()
            writer.extend([9] * 5)
            writer.flush()
            writer.extend([9] * 6)
        file = flcol.open(self.path, verify=True)
        self.assertEqual([chunk.len for chunk in file.chunks], [1000, 1000, 1000, 903, 2, 5, 6])
        self.assertEqual((file.size, writer.size), (3916, 3916))

    def test_limits_of_compression(self):
        items = [3, 1000] * 3000
        self.assertEqual(flcol.open(self.written(items, "uint16", encodings=["bitpacked"])).chunk(0).scheme, "bitpacked:10")
        self.assertEqual(flcol.open(self.written(items, "uint16", depth=0)).chunk(0).scheme, "primitive")

    def test_what_is_refused(self):
        refused = [
            (lambda: flcol.Writer(self.path), TypeError), (lambda: flcol.Writer(self.path, "bool"), TypeError),
            (lambda: flcol.Writer(self.path, "u8"), TypeError), (lambda: flcol.Writer(self.path, "int8", chunk=0), ValueError),
            (lambda: flcol.Writer(self.path, "int8", chunk=1.5), TypeError),
            (lambda: flcol.Writer(self.path, "int8", depth=-1), ValueError),
            (lambda: flcol.Writer(self.path, "int8", encodings=["zip"]), ValueError),
            (lambda: flcol.Writer(self.path, append=True), FileNotFoundError),
            (lambda: flcol.Writer(self.folder / "none" / "x", "int8"), FileNotFoundError),
            (lambda: flcol.Writer("/dev/null", "int8"), OSError),
            (lambda: flcol.Writer("/dev/null", append=True), OSError), (lambda: flcol.Writer(self.folder, "int8"), OSError),
        ]  # fmt: skip
        for made, error in refused:
            with self.assertRaises(error):
                made()
        self.assertEqual(self.names(), [])
        items = [
            ([300], OverflowError), ([1, None], flcol.Error), (["a"], TypeError), ("ab", TypeError), (5, TypeError), ([1.5], TypeError),
            ([[1]], TypeError),
        ]  # fmt: skip
        for wrong, error in items:
            with self.subTest(wrong), self.assertRaises(error), flcol.Writer(self.path, "uint8") as writer:
                writer.extend([1, 2])
                writer.extend(wrong)
        arrays = ([1, 2], flcol.array([True]), flcol.array([1], dtype="uint16"), flcol.array([1, 2], dtype="uint8?"), None)
        for wrong in arrays:
            with self.assertRaises(TypeError), flcol.Writer(self.path, "uint8") as writer:
                writer.append(wrong)
        self.assertEqual(self.names(), [])

    def test_an_error_that_is_caught_does_no_harm(self):
        with flcol.Writer(self.path, "uint8") as writer:
            writer.extend([1, 2])
            for wrong in ([300], ["a"]):
                with self.assertRaises((OverflowError, TypeError)):
                    writer.extend(wrong)
            writer.extend([3])
        self.assertEqual(flcol.open(self.path)[:].to_list(), [1, 2, 3])

    def test_the_end_of_a_writer(self):
        old = self.written([1, 2, 3], "uint8").read_bytes()
        with flcol.Writer(self.path, "uint8") as writer:
            writer.extend([4])
            writer.flush()
            self.assertEqual((self.path.read_bytes(), len(self.names())), (old, 2))
            writer.abort()
        self.assertEqual((self.path.read_bytes(), self.names()), (old, ["column"]))
        for used in (lambda: writer.extend([1]), lambda: writer.append(flcol.array([1], dtype="uint8")), writer.flush):
            with self.assertRaisesRegex(ValueError, "closed"):
                used()
        writer = flcol.Writer(self.path, "uint8")
        with self.assertWarns(ResourceWarning):
            del writer
        self.assertEqual((self.path.read_bytes(), self.names()), (old, ["column"]))
        writer = flcol.Writer(self.path, "int8")
        writer.close()
        writer.close()
        writer.abort()
        ask(flcol.open(self.path), [])

    def test_links_and_permissions(self):
        self.written([1], "uint8")
        self.path.chmod(0o640)
        (self.folder / "link").symlink_to("column")
        self.written([2, 3], "uint8", name="link")
        self.assertTrue((self.folder / "link").is_symlink())
        self.assertEqual((flcol.open(self.path)[:].to_list(), self.path.stat().st_mode & 0o777), ([2, 3], 0o640))
        with flcol.open(self.path) as file:
            self.written([4], "uint8")
            self.assertEqual((file[:].to_list(), flcol.open(self.path)[:].to_list()), ([2, 3], [4]))
        self.written([5], "uint8", name=os.fsencode("bytes").decode())
        with flcol.Writer(os.fsencode(self.path), "uint8") as writer:
            writer.extend([6])
        self.assertEqual(flcol.open(os.fsencode(self.path))[:].to_list(), [6])

    def test_adding_to_a_file(self):
        items = list(range(100))
        old = self.written(items, "int16?", chunk=40).read_bytes()
        with flcol.open(self.path) as before:
            with flcol.Writer(self.path, append=True, chunk=30) as writer:
                self.assertEqual((writer.dtype, writer.size), ("int16?", 100))
                writer.extend([None] * 31)
                self.assertRaises(BlockingIOError, flcol.Writer, self.path, append=True)
            self.assertEqual(before[:].to_list(), items)
        content = self.path.read_bytes()
        self.assertEqual(content[: len(old)], old)
        file = flcol.open(self.path, verify=True)
        self.assertEqual([chunk.len for chunk in file.chunks], [40, 40, 20, 30, 1])
        ask(file, items + [None] * 31)
        with flcol.Writer(self.path, "int16?", append=True):
            pass
        self.assertEqual(self.path.read_bytes(), content)
        with self.assertRaisesRegex(TypeError, "int16"):
            flcol.Writer(self.path, "int16", append=True)
        with self.assertRaises(ZeroDivisionError), flcol.Writer(self.path, append=True) as writer:
            writer.extend([5])
            writer.flush()
            self.assertGreater(len(self.path.read_bytes()), len(content))
            with self.assertRaises(flcol.Error):
                flcol.open(self.path)
            with flcol.open(self.path, recover=True) as file:
                ask(file, items + [None] * 31)
            1 / 0
        self.assertEqual((self.path.read_bytes(), self.names()), (content, ["column"]))

    def test_a_child_leaves_a_writer_alone(self):
        self.written([1], "uint8", name="other")
        with flcol.Writer(self.path, "uint8") as writer, flcol.Writer(self.folder / "other", append=True) as other:
            writer.extend([5])
            other.extend([6])
            other.flush()
            child = os.fork()
            if not child:
                with warnings.catch_warnings():
                    warnings.simplefilter("ignore")
                    writer.abort()
                    other.abort()
                os._exit(0)
            os.waitpid(child, 0)
            other.extend([7])
        self.assertEqual((flcol.open(self.path)[:].to_list(), flcol.open(self.folder / "other")[:].to_list()), ([5], [1, 6, 7]))


class Stopped(InFolder):
    """A writer that is stopped at every byte, and whose every call of the system fails."""

    OLD, NEW = [1, None, 3, 200], [None, 9, 10, 11]

    def setUp(self):
        super().setUp()
        self.old = self.written(self.OLD, "uint8?", chunk=4).read_bytes()
        self.add()
        self.new = self.path.read_bytes()
        self.path.write_bytes(self.old)

    def add(self, **how):
        with flcol.Writer(self.path, append=True, chunk=4, **how) as writer:
            writer.extend(self.NEW)

    def limited(self, most, action, work):
        """The status of a child that does some work, and whose files may not be longer."""
        child = os.fork()
        if child:
            return os.waitpid(child, 0)[1]
        try:
            resource.setrlimit(resource.RLIMIT_CORE, (0, 0))
            resource.setrlimit(resource.RLIMIT_FSIZE, (most, most))
            signal.signal(signal.SIGXFSZ, action)
            work()
        except OSError:
            os._exit(3)
        os._exit(0)

    def test_every_cut_of_what_is_added(self):
        self.assertEqual(self.new[: len(self.old)], self.old)
        for end in range(len(self.new) + 1):
            self.path.write_bytes(self.new[:end])
            whole = {len(self.old): self.OLD, len(self.new): self.OLD + self.NEW}.get(end)
            with self.subTest(end):
                if whole is None:
                    self.assertRaises(flcol.Error, flcol.open, self.path)
                    self.assertRaises(flcol.Error, flcol.Writer, self.path, append=True)
                else:
                    self.assertEqual(told(flcol.open(self.path)), as_told(whole))
                if end < len(self.old):
                    self.assertRaises(flcol.Error, flcol.open, self.path, recover=True)
                else:
                    self.assertEqual(told(flcol.open(self.path, recover=True)), as_told(whole or self.OLD))
                self.assertEqual(self.path.read_bytes(), self.new[:end])

    def test_killed_at_every_byte(self):
        for most in range(len(self.old), len(self.new) + 1):
            self.path.write_bytes(self.old)
            status = self.limited(most, signal.SIG_DFL, self.add)
            with self.subTest(most):
                self.assertEqual(os.WTERMSIG(status) if status else 0, signal.SIGXFSZ if most < len(self.new) else 0)
                self.assertEqual(self.path.read_bytes(), self.new[:most])
                wanted = self.OLD if most < len(self.new) else self.OLD + self.NEW
                self.assertEqual(told(flcol.open(self.path, recover=True)), as_told(wanted))
                if status:
                    self.add(recover=True)
                    self.assertEqual(told(flcol.open(self.path, verify=True)), as_told(self.OLD + self.NEW))

    def test_no_room_at_every_byte(self):
        for most in range(len(self.old), len(self.new) + 1):
            status = self.limited(most, signal.SIG_IGN, self.add)
            with self.subTest(most):
                self.assertEqual(os.WEXITSTATUS(status), 3 if most < len(self.new) else 0)
                self.assertEqual(self.path.read_bytes(), self.old if most < len(self.new) else self.new)

    def test_a_new_file_is_there_as_a_whole(self):
        whole = self.written([5, 6, None], "uint8?", name="whole").read_bytes()
        for action, status in ((signal.SIG_DFL, signal.SIGXFSZ), (signal.SIG_IGN, 3 << 8)):
            for most in range(len(whole) + 1):
                ended = self.limited(most, action, lambda: self.written([5, 6, None], "uint8?"))
                with self.subTest(most):
                    self.assertEqual(ended, status if most < len(whole) else 0)
                    self.assertEqual(self.path.read_bytes(), self.old if most < len(whole) else whole)
                    left = [name for name in self.names() if name.endswith(".part")]
                    self.assertEqual(len(left), int(action == signal.SIG_DFL and most < len(whole)))
                    for name in left:
                        (self.folder / name).unlink()
            self.path.write_bytes(self.old)

    def test_every_call_of_the_system_fails(self):
        def added():
            self.add()

        def made():
            self.written(self.OLD + self.NEW, "uint8?")

        for work in (added, made):
            for number in itertools.count():
                self.path.write_bytes(self.old)
                with Failing(number) as failing:
                    try:
                        work()
                    except OSError as error:
                        self.assertEqual(error.errno, 5)
                with self.subTest(work.__name__, number=number, call=failing.failed):
                    with flcol.open(self.path, recover=True) as file:
                        self.assertEqual(told(file), as_told(self.OLD + self.NEW if file.size == 8 else self.OLD))
                    self.assertEqual(self.names(), ["column"])
                if failing.failed is None:
                    break
            self.assertGreater(number, 5)

    def test_a_writer_whose_write_failed(self):
        writer = flcol.Writer(self.path, append=True, chunk=2)
        with self.assertRaises(OSError), Failing(0, ("pwrite",)):
            writer.extend(self.NEW)
        self.assertEqual(self.path.read_bytes(), self.old)
        self.assertRaisesRegex(ValueError, "closed", writer.extend, [1])
        self.assertRaisesRegex(ValueError, "a write failed", writer.close)
        with self.assertRaisesRegex(ValueError, "a write failed"), flcol.Writer(self.path, append=True) as writer:
            writer.extend([5])
            with self.assertRaises(OSError), Failing(0, ("pwrite",)):
                writer.flush()
        self.assertEqual(self.path.read_bytes(), self.old)

    def test_writes_that_take_a_byte_at_a_time(self):
        def some(descriptor, data, place):
            return pwrite(descriptor, data[:1], place)

        pwrite = os.pwrite
        with mock.patch.object(os, "pwrite", some):
            self.add()
        self.assertEqual(self.path.read_bytes(), self.new)

    def test_reads_that_fail(self):
        with mock.patch.object(_file, "mapped", lambda source, length=0: source.read()), flcol.open(self.path) as file:
            ask(file, self.OLD)
        with mock.patch.object(_file.io, "open", side_effect=OSError(5, "failed")):
            self.assertRaises(OSError, flcol.open, self.path)


class Failing:
    """Lets the call of the system by a number fail, of those that a writer makes."""

    def __init__(self, number, names=("open", "pwrite", "fsync", "close", "replace", "unlink", "ftruncate", "fstat", "fchmod")):
        self.left, self.failed, self.names = number, None, names

    def __enter__(self):
        self.patches = [mock.patch.object(_target.os, name, self.failing(name, getattr(os, name))) for name in self.names]
        for patch in self.patches:
            patch.start()
        return self

    def failing(self, name, called):
        def call_or_fail(*arguments, **words):
            if self.failed is None and self.left == 0:
                self.failed = name
                if name == "close":
                    called(*arguments)
                raise OSError(5, "failed")
            self.left -= 1
            return called(*arguments, **words)

        return call_or_fail

    def __exit__(self, *error):
        for patch in self.patches:
            patch.stop()


if __name__ == "__main__":
    unittest.main()
