"""Counts, sums, extremes and choices by a test, beside loops over the items."""
import operator
import unittest

import flcol
from columns import TYPES, bounds, columns, items_of

try:
    import numpy as np
except ImportError:
    np = None

OPERATORS = {
    "==": operator.eq, "!=": operator.ne, "<": operator.lt, "<=": operator.le, ">": operator.gt, ">=": operator.ge,
}  # fmt: skip
INCLUSIVE = {
    "both": (operator.le, operator.le), "left": (operator.le, operator.lt),
    "right": (operator.lt, operator.le), "neither": (operator.lt, operator.lt),
}  # fmt: skip


class Totals(unittest.TestCase):
    def check(self, items, array):
        """What is asked of an array, beside what Python says of its items."""
        known = [item for item in items if item is not None]
        least, greatest = (min(known), max(known)) if known else (None, None)
        self.assertEqual((array.sum(), array.count(), array.null_count), (sum(known), len(known), len(items) - len(known)))
        self.assertEqual((array.min(), array.max(), array.min_max()), (least, greatest, (least, greatest)))
        self.assertEqual(array.mean(), sum(known) / len(known) if known else None)

    def test_each_column(self):
        for name, items, array in columns((0, 1, 1025, 3000)):
            with self.subTest(name):
                self.check(items, array)
                self.check(items[1000:2500], array[1000:2500])
                self.check(items[3:], array[3:])

    def test_tests(self):
        for name, items, array in columns((0, 1, 1025)):
            least, greatest = bounds(array.dtype.rstrip("?"))
            known = [item for item in items if item is not None]
            with self.subTest(name):
                for at, (op, holds) in enumerate(OPERATORS.items()):
                    for constant in (5, (least, greatest)[at % 2], (least - 1, greatest + 1)[at % 2], (-(2**70), 2**70)[at % 2]):
                        chosen = [item for item in known if holds(item, constant)]
                        self.assertEqual(array.count_where(op, constant), len(chosen), (op, constant))
                        self.assertEqual(array.where(op, constant).to_list(), chosen, (op, constant))

    def test_bounds(self):
        for name, items, array in columns((0, 1, 1025)):
            least, greatest = bounds(array.dtype.rstrip("?"))
            known = [item for item in items if item is not None]
            pairs = [(0, 9), (9, 0), (5, 5), (least, greatest), (least - 1, greatest + 1), (-(2**70), 3), (3, 2**70), (2**70, 2**71)]
            with self.subTest(name):
                for at, (lower, upper) in enumerate(pairs):
                    inclusive = list(INCLUSIVE)[at % 4]
                    above, below = INCLUSIVE[inclusive]
                    chosen = [item for item in known if above(lower, item) and below(item, upper)]
                    self.assertEqual(array.count_between(lower, upper, inclusive), len(chosen), (lower, upper, inclusive))
                    self.assertEqual(array.where_between(lower, upper, inclusive).to_list(), chosen, (lower, upper, inclusive))

    def test_each_inclusive(self):
        array = flcol.array([3, 4, None, 5, 6], dtype="int16")
        for inclusive, (above, below) in INCLUSIVE.items():
            chosen = [item for item in (3, 4, 5, 6) if above(3, item) and below(item, 6)]
            self.assertEqual(array.where_between(3, 6, inclusive).to_list(), chosen)
            self.assertEqual(array.count_between(3, 6, inclusive), len(chosen))
        self.assertEqual(array.count_between(3, 6), 4)
        for ask in (array.count_between, array.where_between, array.between):
            with self.assertRaises(ValueError):
                ask(3, 6, "all")

    def test_sums_beyond_64_bits(self):
        for dtype, item in (("uint64", 2**64 - 1), ("int64", -(2**63)), ("int64", 2**63 - 1)):
            for array in (flcol.array([item] * 3000, dtype=dtype), flcol.constant(item, 3000, dtype)):
                self.assertEqual((array.sum(), array.mean()), (3000 * item, float(item)))
        self.assertEqual(flcol.array([2**64 - 1, 1], dtype="uint64").sum(), 2**64)
        self.assertEqual(flcol.array([-(2**63), -1], dtype="int64").sum(), -(2**63) - 1)
        self.assertEqual(flcol.array([-1, 1, -1], dtype="int8").sum(), -1)

    def test_constants_of_any_length(self):
        array = flcol.constant(-3, 2**40, "int16")
        self.assertEqual((array.sum(), array.mean(), array.min_max(), array.count()), (-3 * 2**40, -3.0, (-3, -3), 2**40))
        self.assertEqual((array.count_where("<", 0), array.count_between(0, 5)), (2**40, 0))
        self.assertEqual((len(array.where(">", 0)), len(flcol.constant(None, 2**40, "int8").where("<", 9))), (0, 0))

    def test_the_mean_is_the_next_float(self):
        array = flcol.array([2**53, 2**53 + 1, 2**53 + 1], dtype="int64")
        self.assertEqual(array.mean(), (3 * 2**53 + 2) / 3)
        self.assertEqual(flcol.array([1, 2, None]).mean(), 1.5)

    def test_nothing_is_valid(self):
        for dtype in TYPES:
            for array in (flcol.array([], dtype=dtype), flcol.array([None] * 1500, dtype=dtype), flcol.constant(None, 9, dtype)):
                self.check([None] * len(array), array)
                self.assertEqual((array.count_where("!=", 5), array.where(">=", -1).to_list()), (0, []))

    def test_constants_are_those_of_comparisons(self):
        array = flcol.array([0, 1, 2], dtype="uint8")
        self.assertEqual((array.count_where("==", True), array.where("<", True).to_list()), (1, [0]))
        for wrong in (None, 1.5, 1.0, "1", [1], array):
            for ask in (array.count_where, array.where):
                with self.subTest(wrong), self.assertRaises(TypeError):
                    ask("<", wrong)
            for ask in (array.count_between, array.where_between):
                with self.subTest(wrong), self.assertRaises(TypeError):
                    ask(0, wrong)
        for wrong in ("=", "<>", "=<", "", "lt", None, 0, operator.lt, ["<"]):
            with self.subTest(wrong), self.assertRaises(ValueError):
                array.count_where(wrong, 1)
            with self.subTest(wrong), self.assertRaises(ValueError):
                array.where(wrong, 1)

    def test_what_is_chosen_is_plain(self):
        array = flcol.array([-9, 5, None, 7], dtype="int32?").encode("for(bitpacked)")
        chosen = array.where("<", 7)
        self.assertEqual((chosen.dtype, chosen.null_count, chosen.scheme), ("int32?", 0, "primitive"))

    def test_booleans(self):
        answers = flcol.array([True, None, False, True])
        self.assertEqual((answers.sum(), answers.count()), (2, 3))
        with self.assertRaises(TypeError):
            answers.sum(dtype=int)


class WithoutNumPy(unittest.TestCase):
    def test_what_is_not_of_all_items(self):
        array = flcol.array([1, 2, 3])
        for ask in (array.sum, array.mean, array.min, array.max):
            self.assertEqual(ask(axis=0, out=None), ask())
            self.assertEqual(ask(axis=(0,), keepdims=False, where=True), ask(-1))
            for wrong, error in (
                ({"axis": 1}, ValueError), ({"axis": (0, 1)}, ValueError), ({"axis": "x"}, ValueError), ({"axis": True}, ValueError),
                ({"dtype": int}, TypeError), ({"out": [0]}, TypeError), ({"keepdims": True}, TypeError), ({"initial": 0}, TypeError),
                ({"where": None}, TypeError), ({"where": False}, TypeError), ({"where": [True, False]}, IndexError),
                ({"ddof": 1}, TypeError),
            ):  # fmt: skip
                with self.subTest(wrong), self.assertRaises(error):
                    ask(**wrong)


@unittest.skipIf(np is None, "NumPy is not there")
class WithNumPy(unittest.TestCase):
    def test_its_functions(self):
        for dtype in ("uint8", "int32", "uint64"):
            items = items_of(dtype, 2000, False)
            array = flcol.array(items, dtype=dtype).compress()
            self.assertEqual((np.sum(array), np.min(array), np.max(array)), (sum(items), min(items), max(items)))
            self.assertEqual((np.mean(array), np.sum(array, axis=0)), (sum(items) / 2000, sum(items)))
            self.assertEqual((np.amin(array), np.amax(array, axis=-1)), (min(items), max(items)))
        self.assertEqual(np.sum(flcol.array([3, 4]) > 3), 1)

    def test_nulls_are_left_out_as_masked_items_are(self):
        items = items_of("int16", 3000, True)
        array = flcol.array(items, dtype="int16?").compress()
        masked = array.to_numpy()
        self.assertEqual((np.sum(array), np.min(array), np.max(array)), (masked.sum(), masked.min(), masked.max()))
        self.assertAlmostEqual(np.mean(array), masked.mean())
        nothing = flcol.array([None, None], dtype="int16")
        self.assertEqual((np.sum(nothing), np.min(nothing), np.mean(nothing)), (0, None, None))

    def test_what_it_is_asked_beside(self):
        array = flcol.array([1, 2, 3])
        for ask in (np.sum, np.mean, np.min, np.max):
            with self.assertRaises(ValueError):
                ask(array, axis=1)
            with self.assertRaises(TypeError):
                ask(array, keepdims=True)
            with self.assertRaises(TypeError):
                ask(array, where=False)
            with self.assertRaises(TypeError):
                ask(array, out=np.zeros(()))
        for ask in (np.sum, np.mean):
            with self.assertRaises(TypeError):
                ask(array, dtype="uint8")

    def test_constants_of_numpy(self):
        array = flcol.array([1, 2, 3], dtype="uint8")
        self.assertEqual((array.count_where("<", np.int64(3)), array.where(">=", np.uint8(2)).to_list()), (2, [2, 3]))
        with self.assertRaises(TypeError):
            array.count_where("<", np.float64(3))
