"""What users of NumPy and of lists write, and what must not be answered by something else."""
import array
import ctypes
import pickle
import subprocess
import sys
import unittest
from pathlib import Path

import flcol

try:
    import numpy as np
except ImportError:
    np = None

SOURCES = Path(flcol.__file__).parents[1]


class Indices(unittest.TestCase):
    def setUp(self):
        self.a = flcol.array([10, 11, 12, 13], dtype="uint32")

    def test_iterators_are_read_once(self):
        a = self.a
        self.assertEqual(a[(i for i in [1, 2])].to_list(), [11, 12])
        self.assertEqual(a[map(int, "12")].to_list(), [11, 12])
        self.assertEqual(a[iter([True, False, False, True])].to_list(), [10, 13])
        self.assertEqual(a[{1: 0, 2: 0}.keys()].to_list(), [11, 12])
        self.assertEqual(a.filter(i > 1 for i in range(4)).to_list(), [12, 13])
        self.assertEqual(a.take(i for i in (3, None)).to_list(), [13, None])

    def test_indices_in_an_array(self):
        for dtype in ("int8", "int64", "int16?"):
            self.assertEqual(self.a[flcol.array([-1, 0, -4], dtype=dtype)].to_list(), [13, 10, 10])
        self.assertEqual(self.a[flcol.array([-1, None], dtype="int8?").encode("for")].to_list(), [13, None])
        self.assertEqual(self.a[flcol.array([3, 0], dtype="uint8")].dtype, "uint32")
        self.assertEqual(self.a[[1, None]].dtype, "uint32?")
        for wrong in ([4], [-5], [2**63 - 1], [-(2**63)]):
            for indices in (wrong, flcol.array(wrong), array.array("q", wrong)):
                with self.assertRaises(IndexError):
                    self.a[indices]
        many = flcol.array(range(1000), dtype="uint16")
        self.assertEqual(many[flcol.array([-1, -128, 127], dtype="int8")].to_list(), [999, 872, 127])
        self.assertEqual(many[array.array("b", [-1, -128, 127])].to_list(), [999, 872, 127])
        self.assertEqual(many[range(3, 0, -1)].to_list(), [3, 2, 1])
        self.assertEqual(many[range(-2, 1)].to_list(), [998, 999, 0])
        self.assertEqual(many[many[5:7]].to_list(), [5, 6])
        longest = flcol.constant(5, 2**64 - 1)
        for indices in ([-1, -(2**63), 2**63 - 1], array.array("q", [-1, -(2**63), 2**63 - 1]), [2**64 - 2, 0, 1]):
            self.assertEqual((longest[indices].to_list(), longest[flcol.array(indices)].to_list()), ([5] * 3, [5] * 3))

    def test_keys_that_say_nothing(self):
        a = self.a
        for wrong, error in (
            ((1, 2), IndexError), ((1,), IndexError), ((), IndexError), (None, TypeError), (..., TypeError), (True, TypeError),
            ("1", TypeError), (b"\0\1", TypeError), (1.0, TypeError), ([1.0], TypeError), ([True, 2], TypeError), (["1"], TypeError),
            ([True], IndexError), ([2**64], IndexError), (2**64, IndexError), (slice(1.5), TypeError), (object(), TypeError),
        ):  # fmt: skip
            with self.subTest(wrong), self.assertRaises(error) as refused:
                a[wrong]
            self.assertGreater(len(str(refused.exception)), 10)
        for wrong in ([True, False, True, False], (a > 11), array.array("d", [1.0]), "12", [[1]]):
            with self.subTest(wrong), self.assertRaises(TypeError):
                a.take(wrong)
        for wrong in ([1, 2, 3, 4], "1010", ["a"] * 4, [1.0] * 4, array.array("d", [1.0] * 4), a, None, 3):
            with self.subTest(wrong), self.assertRaises(TypeError):
                a.filter(wrong)

    def test_integers_that_c_has_not(self):
        a = self.a
        for ranges in ([range(2**64, 2**64 + 2)], [range(1, 2**64 + 1)], [range(5, 6)], [range(2**63, 2**64)]):
            with self.subTest(ranges), self.assertRaises(IndexError):
                a.take_ranges(ranges)
        self.assertEqual(a.take_ranges([range(2**64 + 5, 2**64), range(0, 1)]).to_list(), [10])
        for wrong in ((1, 2), slice(0, 1), 3, None):
            with self.subTest(wrong), self.assertRaises(TypeError):
                a.take_ranges([wrong])
        for wrong in (range(0, 4, 2), range(-1, 2)):
            with self.subTest(wrong), self.assertRaises(ValueError):
                a.take_ranges([wrong])
        for value, length, dtype in ((5, 2**64 + 3, "int64"), (5, 2**64, "int64"), (5, -1, "int64"), (256, 1, "uint8"), (-1, 1, "uint64")):
            with self.subTest(length), self.assertRaises(OverflowError):
                flcol.constant(value, length, dtype)
        self.assertEqual(flcol.constant(5, 2**64 - 1).size, 2**64 - 1)
        self.assertEqual(a.between(-(2**70), 2**70).sum(), 4)
        self.assertEqual((a < 2**64).sum() + (a > -(2**64)).sum(), 8)


class Values(unittest.TestCase):
    def test_an_array_of_an_array(self):
        a = flcol.array([1, 2], dtype="uint32?")
        self.assertEqual((flcol.array(a).dtype, flcol.array(a[:0]).dtype), ("uint32?", "uint32?"))
        self.assertEqual(flcol.array(a, dtype="int8").dtype, "int8?")
        self.assertEqual(flcol.array(a, mask=[True, False]).to_list(), [None, 2])
        self.assertEqual(flcol.array(a.encode("for(bitpacked)")).scheme, "primitive")

    def test_membership(self):
        a = flcol.array([1, None, 3], dtype="uint8")
        inside = [item in a for item in (1, None, 3.0, 2, 300, -1, 2**70, 1.5, float("nan"), "1", [1])]
        self.assertEqual(inside, [True, True, True] + [False] * 8)
        self.assertFalse(None in flcol.array([1]))

    def test_comparisons_with_other_things(self):
        a = flcol.array([1, 2])
        for other, told in ((None, "null_count"), (a, "to_numpy"), ([1, 2], "to_numpy"), (1.5, "1.5"), (float("nan"), "nan"), ("1", "")):
            for compare in (lambda: a == other, lambda: a != other, lambda: a < other, lambda: other >= a):
                with self.assertRaises(TypeError) as refused:
                    compare()
            self.assertIn(told, str(refused.exception))

    def test_unaligned_buffers(self):
        for code, dtype in (("I", "uint32"), ("q", "int64"), ("H", "uint16")):
            size = array.array(code).itemsize
            memory = bytearray(size * 1000 + 1)
            part = memoryview(memory)[1:].cast(code)
            part[:] = array.array(code, range(1000))
            a = flcol.array(part).encode("bitpacked")
            self.assertEqual((a.dtype, a.to_list()), (dtype, list(range(1000))))
            back = bytearray(size * 1000 + 1)
            self.assertIsNone(a.read_into(memoryview(back)[1:].cast(code)))
            self.assertEqual(back, memory)
            with self.assertRaises((BufferError, TypeError)):
                a.read_into(memoryview(bytes(back))[1:].cast(code))
            self.assertEqual(a[memoryview(bytes(17))[1:].cast("Q")].to_list(), [0, 0])
        self.assertEqual(flcol.array((ctypes.c_int16 * 3)(1, 2, 3)).dtype, "int16")

    def test_errors_are_sentences(self):
        a = flcol.array([1, -2])
        with self.assertRaises(flcol.Error) as refused:
            a.encode("bitpacked")
        self.assertEqual(str(refused.exception), "an item is below 0 (NegativeValue, 3)")
        again = pickle.loads(pickle.dumps(refused.exception))
        self.assertEqual((str(again), again.number, again.name), (str(refused.exception), 3, "NegativeValue"))

    def test_an_array_too_deep_for_a_container(self):
        deep = "for(" * 40 + "for" + ")" * 40
        with self.assertRaises(flcol.Error) as refused:
            pickle.dumps(flcol.array([1, 2]).encode(deep))
        self.assertIn(refused.exception.name, ("BadScheme", "BadContainer"))
        if refused.exception.name == "BadContainer":
            self.assertIn("more than 16", str(refused.exception))

    def test_a_library_that_is_none(self):
        for path in ("/nowhere", "/lib/x86_64-linux-gnu/libc.so.6", str(Path(__file__))):
            code = "try:\n    import flcol\nexcept ImportError as error:\n    print(error)"
            environment = {"FLCOL_LIBRARY": path, "PYTHONPATH": str(SOURCES)}
            ended = subprocess.run([sys.executable, "-c", code], env=environment, capture_output=True, text=True)
            self.assertEqual((ended.returncode, ended.stderr), (0, ""))
            self.assertIn(path, ended.stdout)


@unittest.skipIf(np is None, "NumPy is not there")
class OfNumpy(unittest.TestCase):
    def test_nulls_become_no_numbers(self):
        a, plain = flcol.array([1, None, 3]), flcol.array([1, 2, 3])
        no_null = flcol.array([1, 2, 3], dtype="int64?")
        for call in (np.asarray, np.array, np.asanyarray, lambda it: np.concatenate([it, plain]), lambda it: np.asarray(it, float), np.sort):
            for nulls in (a, a > 1):
                with self.assertRaises(TypeError) as refused:
                    call(nulls)
                self.assertIn("to_numpy()", str(refused.exception))
                self.assertIn("to_numpy(fill_value)", str(refused.exception))
            for whole in (plain, no_null):
                self.assertEqual(call(whole).tolist()[:3], [1, 2, 3])
                self.assertIs(type(call(whole)), np.ndarray)
        self.assertEqual(a.to_numpy(-1).tolist(), [1, -1, 3])
        self.assertEqual((a.to_numpy().tolist(), a.to_numpy(0).dtype), ([1, None, 3], np.dtype("int64")))
        self.assertEqual(plain.to_numpy(7).tolist(), [1, 2, 3])
        for wrong, error in ((2**63, OverflowError), (float("nan"), TypeError), ("x", TypeError)):
            with self.assertRaises(error):
                a.to_numpy(wrong)

    def test_indices_of_numpy(self):
        a = flcol.array(np.arange(1000, dtype="u4"))
        for dtype in ("i1", "i2", "i8", "u1", "u8", ">i4", object):
            part = a[np.array([0, 1], dtype)]
            self.assertEqual((part.dtype, part.to_list(), type(part.to_numpy())), ("uint32", [0, 1], np.ndarray))
        self.assertEqual(a[np.array([-1, -128, 127], "i1")].to_list(), [999, 872, 127])
        self.assertEqual(a[np.ma.array([-1, 2000, 3], mask=[False, True, False])].to_list(), [999, None, 3])
        self.assertEqual((a[np.int8(-1)], a[np.uint64(3)], a[np.array(5)]), (999, 3, 5))
        self.assertEqual(a[[np.int8(-1), np.uint8(200)]].to_list(), [999, 200])
        self.assertEqual(a[:3][[np.True_, np.False_, np.True_]].to_list(), [0, 2])
        self.assertEqual(a[np.array([], int)].to_list(), [])
        for wrong, error in (
            (np.array([1000]), IndexError), (np.array([-1001]), IndexError), (np.array([2**64 - 1], "u8"), IndexError),
            (np.array([[1]]), IndexError), (np.array([1.0]), TypeError), (np.array(["1"]), TypeError), (np.True_, TypeError),
            (np.array([True]), IndexError), (np.float64(1), TypeError), (np.array(1.5), TypeError),
        ):  # fmt: skip
            with self.subTest(wrong), self.assertRaises(error):
                a[wrong]

    def test_kinds_of_values(self):
        self.assertEqual(flcol.array(np.array([1, None, 3], object)).to_list(), [1, None, 3])
        self.assertEqual(flcol.array(np.array([True, False])).dtype, "bool")
        self.assertEqual(flcol.array(np.frombuffer(bytes(17), "u4", offset=1)).to_list(), [0] * 4)
        self.assertEqual(flcol.array(np.arange(12, dtype="i2").reshape(3, 4)[:, 1]).to_list(), [1, 5, 9])
        self.assertEqual(flcol.array([np.int8(1), np.uint64(2**63)]).dtype, "uint64")
        self.assertEqual((flcol.array([1, 2]) == np.array(2)).to_list(), [False, True])
        for wrong in (np.array([1.0]), np.array(5), np.array(["1"]), np.array([1, "x"], object), np.array([1.5, None], object)):
            with self.assertRaises(TypeError):
                flcol.array(wrong)


if __name__ == "__main__":
    unittest.main()
