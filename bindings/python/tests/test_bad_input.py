"""Every call with what it can't take: an error of Python with a sentence, and nothing is lost or changed."""
import array
import ctypes
import itertools
import random
import unittest
import warnings

import flcol

try:
    import numpy as np
except ImportError:
    np = None

#: What a caller may be handed and may hand on.
THINGS = [
    None, True, 0, -1, 3, 2**31, 2**63, 2**64, -(2**63) - 1, 2**200, 1.5, float("nan"), float("inf"), 1j, "", "1", "for", "for(", "\0",
    "\ud800", "x" * 1000, b"", b"\1\0\1", bytearray(b"\0" * 9), [], [1], [None], [True], [True] * 3, [1.5], ["1"], [[1]], [2**64], [-1],
    (), (1, 2), {}, {1: 2}, {1}, object(), object, int, len, range(0), range(3), range(-2, 2), range(2**64, 2**64 + 2), slice(None),
    slice(2**70, None, -1), array.array("d", [1.0]), array.array("q", [0, 1, 2]), array.array("B", [1, 0, 1]), array.array("I"),
    memoryview(bytearray(13))[1:].cast("I"), memoryview(bytes(24)).cast("q"), memoryview(bytes(8)).cast("B", (2, 4)), memoryview(b"abcd")[::2],
    (ctypes.c_double * 2)(), flcol.array([1, None]), flcol.array([True, None, False]), flcol.constant(1, 2**64 - 1), ...,
]  # fmt: skip
if np is not None:
    THINGS += [
        np.array([1.5, np.nan]), np.array([[1]]), np.array(3), np.array([], "u1"), np.array(["a"]), np.array([None, 1], object),
        np.array([2**63], "u8"), np.ma.array([1, 2, 3], mask=[0, 1, 0]), np.array([True, False, True]), np.float64(1), np.uint64(2**63),
        np.array([1, 2], ">i4"), np.array([1], "M8[s]"), np.zeros(3, "i4,f4"), np.frombuffer(bytes(17), "i8", offset=1), np.bool_(True),
    ]  # fmt: skip

METHODS = (
    "encode", "take", "take_ranges", "filter", "cast", "astype", "read_into", "to_numpy", "is_sorted", "__getitem__", "__contains__", "__eq__",
    "__ne__", "__lt__", "__le__", "__gt__", "__ge__", "__array__", "__arrow_c_array__", "__arrow_c_stream__", "__deepcopy__",
)  # fmt: skip
LOGIC = ("__and__", "__or__", "__xor__", "__rand__", "__ror__", "__rxor__")
ERRORS = (TypeError, ValueError, OverflowError, IndexError, MemoryError, BufferError, ImportError, NotImplementedError, flcol.Error)


class BadInput(unittest.TestCase):
    def setUp(self):
        warnings.simplefilter("ignore")  # of NumPy, which some of the things are
        self.addCleanup(warnings.resetwarnings)

    def call(self, function, *arguments, **named):
        """Makes a call that may answer, and may refuse with a sentence; nothing else."""
        try:
            return function(*arguments, **named)
        except ERRORS as refused:
            said = str(refused)
            self.assertGreater(len(said.split()), 2, f"{function} of {arguments!r:.200}: {type(refused).__name__} says {said!r}")
            self.assertNotIn("argument 1", said, "an error of ctypes, and not of the language")

    def columns(self):
        """Arrays of each kind, with what they have."""
        for items, dtype in (([5, 6, 7], "uint8"), ([5, None, -7], "int64?"), ([True, False, None], "bool?"), ([], "uint16")):
            a = flcol.array(items, dtype=dtype)
            yield a, items
            if dtype != "bool?" and items:
                yield a.encode("delta"), items

    def test_methods(self):
        for (a, items), thing in itertools.product(self.columns(), THINGS):
            for name in METHODS + (LOGIC if hasattr(a, "__and__") else ()):
                if thing is not None or name not in ("to_numpy", "__array__", "__arrow_c_array__", "__arrow_c_stream__"):
                    with self.subTest(f"{a!r}.{name}({thing!r:.60})"):
                        self.call(getattr(a, name), thing)
            self.assertEqual(a.to_list(), items)

    def test_two_arguments(self):
        pairs = random.Random(12).sample(list(itertools.product(THINGS, repeat=2)), 1500)
        for (a, items), (one, two) in itertools.product(self.columns(), pairs):
            if isinstance(a, flcol.Array):
                self.call(a.between, one, two)
            self.assertEqual(a.size, len(items))
        for one, two in pairs:
            with self.subTest(f"{one!r:.60}, {two!r:.60}"):
                self.call(flcol.array, one, two)
                self.call(flcol.constant, one, two)
                self.call(flcol.array, one, None, two)

    def test_functions(self):
        for thing in THINGS:
            with self.subTest(f"{thing!r:.60}"):
                self.call(flcol.frombytes, thing)
                self.call(flcol.constant, 1, 2, thing)
                self.call(flcol.BoolArray, thing, None, 3)
                self.call(flcol.BoolArray, b"\1", thing, 3)
                self.call(flcol.BoolArray, b"\1", None, thing)
                self.call(flcol.Array, thing)
                self.call(flcol.array([1, 2]).between, 1, 2, thing)
        self.call(hash, flcol.array([1]))

    def test_more_items_than_memory(self):
        for length in (2**64 - 1, 2**63, 2**48):
            a = flcol.constant(7, length, "uint16")
            self.assertEqual((a.size, a[0], a[-1], a[2**40], a[:3].to_list()), (length, 7, 7, 7, [7] * 3))
            for call in (a.to_list, a.to_buffers, lambda: a == 7, lambda: a.filter(a[:9] == 7), lambda: a[[length]], lambda: bytes(length)):
                with self.assertRaises((MemoryError, OverflowError, IndexError)):
                    call()
            self.assertEqual(flcol.frombytes(bytes(a)).size, length)
            self.assertIn(str(length), repr(a))

    def test_buffers_to_decode_into(self):
        a = flcol.array([1, 2, 3], dtype="int32").encode("for(bitpacked)")
        for wrong, error in (
            (array.array("I", [0] * 3), TypeError), (array.array("i", [0] * 4), flcol.Error), (array.array("i"), flcol.Error),
            (memoryview(bytes(12)).cast("i"), (BufferError, ValueError, TypeError)), (bytes(12), TypeError), (bytearray(12), TypeError),
            (memoryview(array.array("i", [0] * 6))[::2], TypeError), ([0] * 3, TypeError), (None, TypeError),
        ):  # fmt: skip
            with self.subTest(wrong), self.assertRaises(error):
                a.read_into(wrong)
        self.assertEqual(a.to_list(), [1, 2, 3])

    def test_containers_cut_and_changed(self):
        choose = random.Random(11)
        for a, items in self.columns():
            container = bytes(a)
            for end in range(len(container)):
                with self.assertRaises(flcol.Error):
                    flcol.frombytes(memoryview(container)[:end])
            for _ in range(300):
                changed = bytearray(container)
                changed[choose.randrange(len(changed))] = choose.randrange(256)
                made = self.call(flcol.frombytes, changed)
                if made is not None and made.size < 1 << 20:
                    changed[:] = bytes(len(changed))
                    self.call(made.to_list)
                    self.call(repr, made)
            self.assertEqual(flcol.frombytes(memoryview(b"\0" + container)[1:]).to_list(), items)


if __name__ == "__main__":
    unittest.main()
