"""Every call beside plain lists; NumPy isn't needed."""
import array
import copy
import operator
import pickle
import threading
import unittest

import flcol
from columns import TYPES, bounds, columns, items_of

OPERATORS = (operator.eq, operator.ne, operator.gt, operator.ge, operator.lt, operator.le)


def compared(items, holds):
    return [None if item is None else holds(item) for item in items]


class Columns(unittest.TestCase):
    def test_reading(self):
        for name, items, encoded in columns():
            with self.subTest(name):
                self.assertEqual(encoded.to_list(), items)
                self.assertEqual(list(encoded), items)
                self.assertEqual(len(encoded), len(items))
                self.assertEqual(encoded.null_count, items.count(None))
                again = flcol.frombytes(bytes(encoded))
                self.assertEqual((again.to_list(), again.scheme), (items, encoded.scheme))
                self.assertLess(encoded.nbytes, len(bytes(encoded)))

    def test_single_items(self):
        for name, items, encoded in columns((1025,)):
            with self.subTest(name):
                for index in (*range(0, 1025, 129), -1, -1025):
                    self.assertEqual(encoded[index], items[index])
                for index in (1025, -1026):
                    with self.assertRaises(IndexError):
                        encoded[index]

    def test_choosing(self):
        for name, items, encoded in columns((0, 7, 1025)):
            with self.subTest(name):
                n = len(items)
                for part in (slice(1, None), slice(3, n - 2), slice(5, 2), slice(None, None, 3), slice(None, None, -1)):
                    self.assertEqual(encoded[part].to_list(), items[part])
                places = [i * 7 % n for i in range(n // 2)] + [-1] * (n > 0) + [None]
                self.assertEqual(encoded[places].to_list(), [None if i is None else items[i] for i in places])
                mask = [i % 3 == 1 for i in range(n)]
                self.assertEqual(encoded.filter(mask).to_list(), items[1::3])
                if items:
                    ranges = [range(1, n), range(n + 5, n + 5), range(0, 1)]
                    self.assertEqual(encoded.take_ranges(ranges).to_list(), items[1:] + items[:1])

    def test_comparing(self):
        for name, items, encoded in columns((0, 1025)):
            least, greatest = bounds(encoded.dtype.rstrip("?"))
            for constant in (5, least, greatest, least - 1, greatest + 1):
                for compare in OPERATORS:
                    with self.subTest(f"{name}, {compare.__name__} {constant}"):
                        self.assertEqual(compare(encoded, constant).to_list(), compared(items, lambda it: compare(it, constant)))
            with self.subTest(f"{name}, between"):
                self.assertEqual(encoded.between(2, 30).to_list(), compared(items, lambda it: 2 <= it <= 30))
                self.assertEqual(encoded.between(2, 30, "left").to_list(), compared(items, lambda it: 2 <= it < 30))
                self.assertEqual(encoded.between(least - 5, 3, "neither").to_list(), compared(items, lambda it: it < 3))
                self.assertEqual(encoded.between(30, 2).to_list(), compared(items, lambda it: False))
                self.assertEqual(encoded.between(greatest + 1, greatest + 2).to_list(), compared(items, lambda it: False))
                chosen = encoded[encoded > 9]
                self.assertEqual(chosen.to_list(), [it for it in items if it is not None and it > 9])


class Making(unittest.TestCase):
    def test_buffers(self):
        for code, dtype in zip("BHIQbhiq", TYPES):
            values = array.array(code, items_of(dtype, 1000, False))
            made = flcol.array(values)
            self.assertEqual((made.dtype, made.to_list()), (dtype, values.tolist()))
            back = array.array(code, bytes(values.itemsize * 1000))
            self.assertIsNone(made.read_into(back))
            self.assertEqual(back, values)
            self.assertEqual(flcol.array(memoryview(values)[::3]).to_list(), values[::3].tolist())
        self.assertEqual(flcol.array(b"abc").dtype, "uint8")
        self.assertEqual(flcol.array(flcol.array([7, None], dtype="uint8")).to_list(), [7, None])
        for wrong in (array.array("d", [1.0]), memoryview(b"abcd").cast("B", (2, 2)), [1.5], ["1"]):
            with self.assertRaises(TypeError):
                flcol.array(wrong)

    def test_lists(self):
        self.assertEqual(flcol.array([]).dtype, "int64")
        self.assertEqual(flcol.array([-1, 2**63 - 1]).dtype, "int64")
        self.assertEqual(flcol.array(iter([1, None])).dtype, "int64?")
        self.assertEqual(flcol.array([2**63]).dtype, "uint64")
        self.assertEqual(flcol.array([1], dtype="uint16?").dtype, "uint16?")
        self.assertEqual(flcol.array([], dtype="uint16?").dtype, "uint16?")
        self.assertEqual(flcol.array(array.array("H", [1]), dtype="uint32?").dtype, "uint32?")
        for wrong in ([2**64], [-1, 2**63]):
            with self.assertRaises(OverflowError):
                flcol.array(wrong)
        with self.assertRaises(OverflowError):
            flcol.array([256], dtype="uint8")
        with self.assertRaises(TypeError):
            flcol.array([1], dtype="f64")

    def test_masks(self):
        self.assertEqual(flcol.array([1, 2, None], mask=[True, False, False]).to_list(), [None, 2, None])
        self.assertEqual(flcol.array(b"abc", mask=bytes([0, 1, 0])).to_list(), [97, None, 99])
        of_nulls = flcol.array([1, None, 3]) > 1
        self.assertEqual(flcol.array([1, 2, 3], mask=of_nulls).to_list(), [1, 2, None])
        with self.assertRaises(ValueError):
            flcol.array([1, 2], mask=[True])

    def test_constants(self):
        self.assertEqual(flcol.constant(-7, 3, "int8").to_list(), [-7] * 3)
        self.assertEqual(flcol.constant(None, 2, "uint64").to_list(), [None] * 2)
        self.assertLess(flcol.constant(5, 10**9).nbytes, 100)
        self.assertTrue(flcol.constant(5, 10**9).is_constant())
        with self.assertRaises(OverflowError):
            flcol.constant(256, 1, "uint8")

    def test_questions(self):
        rising = flcol.array([None, -3, 4, 9], dtype="int16")
        self.assertEqual((rising.is_sorted(), rising.is_sorted(strict=True), rising.is_constant()), (True, True, False))
        self.assertFalse(flcol.array([2, 2]).is_sorted(strict=True))
        self.assertTrue(flcol.array([2, 2]).is_sorted())

    def test_casts(self):
        wide = flcol.array([200, None], dtype="uint64?")
        self.assertEqual((wide.cast("uint8?").to_list(), wide.cast("uint8?").dtype), ([200, None], "uint8?"))
        for dtype, number in (("int8?", 34), ("uint8", 33)):
            with self.assertRaises(flcol.Error) as refused:
                wide.cast(dtype)
            self.assertEqual(refused.exception.number, number)


class Whole(unittest.TestCase):
    def test_refusals(self):
        a = flcol.array([1, 2, -3])
        for scheme, name in (("fore", "BadScheme"), ("", "BadScheme"), ("constant", "CastOutOfRange"), ("bitpacked", "NegativeValue")):
            with self.assertRaises(flcol.Error) as refused:
                a.encode(scheme)
            self.assertEqual(refused.exception.name, name)
        self.assertEqual(str(pickle.loads(pickle.dumps(refused.exception))), "an item is below 0 (NegativeValue, 3)")
        for wrong in (lambda: a < 1.5, lambda: a == None, lambda: a > a, lambda: hash(a), lambda: a["x"], lambda: flcol.Array(3)):  # noqa: E711
            with self.assertRaises(TypeError):
                wrong()
        for wrong in (lambda: a[[3]], lambda: a[[-4]], lambda: a[[True]], lambda: a.filter([True] * 4)):
            with self.assertRaises(IndexError):
                wrong()
        with self.assertRaises(TypeError):
            a.read_into(array.array("i", [0] * 3))
        with self.assertRaises(flcol.Error):
            a.read_into(array.array("q", [0] * 4))
        self.assertEqual(a.to_list(), [1, 2, -3])

    def test_answers(self):
        a = flcol.array([1, None, 3, 4])
        low, high = a < 2, a > 3
        self.assertEqual((low | high).to_list(), [True, None, False, True])
        self.assertEqual((low & high).to_list(), [False, None, False, False])
        self.assertEqual((~low).to_list(), [False, None, True, True])
        self.assertEqual((low.true_count, low.null_count, low[0], low[-3], len(low)), (1, 1, True, None, 4))
        with self.assertRaises(ValueError):
            low & (a[1:] < 2)

    def test_text_and_copies(self):
        a = flcol.array([1, 2, 3], dtype="uint8")
        self.assertEqual(repr(a), "<flcol.Array uint8, 3 items, primitive, 8.00 bits an item>")
        self.assertIs(copy.copy(a), a)
        self.assertIs(copy.deepcopy(a), a)
        self.assertEqual(pickle.loads(pickle.dumps(a)).to_list(), [1, 2, 3])

    def test_schemes(self):
        plain = flcol.array([-4, 3, 3, 3], dtype="int32")
        for scheme, shown in (
            ("primitive", "primitive"), ("forc", "for"), ("forw", "for"), ("for(bitpacked:3)", "for(bitpacked:3)"),
            ("delta(for(bitpacked:3),_)", "delta(for(bitpacked:3),_)"), ("rle(for,bitpacked:1,_)", "rle(for,bitpacked:1,_)"),
            ("dict", "rle"), ("dict(for,bitpacked:1,_)", "rle(for,bitpacked:1,_)"),
        ):  # fmt: skip
            self.assertEqual(plain.encode(scheme).scheme, shown)
        booleans = flcol.frombytes(b"FLC1\x0bvortex.bool\x08\x03" + bytes(11) + b"\x01\x01" + bytes(7) + b"\x05\x00")
        self.assertEqual(repr(booleans), "<flcol.BoolArray, 3 items, 2 true, 0 null>")
        for call in (lambda: booleans.scheme, booleans.compress, booleans.is_constant):
            with self.assertRaises(flcol.Error) as refused:
                call()
            self.assertEqual(refused.exception.name, "NotInteger")

    def test_threads_share_an_array(self):
        items = items_of("u32", 3000, True)
        shared, wrong = flcol.array(items, dtype="uint32?").encode("rle"), []

        def read():
            for _ in range(20):
                if shared.to_list() != items or shared[5:50].to_list() != items[5:50]:
                    wrong.append(threading.current_thread())

        threads = [threading.Thread(target=read) for _ in range(4)]
        for thread in threads:
            thread.start()
        for thread in threads:
            thread.join()
        self.assertEqual(wrong, [])


if __name__ == "__main__":
    unittest.main()
