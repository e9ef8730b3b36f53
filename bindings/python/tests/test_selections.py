"""What is asked under a mask, which items are among others, where a value stands in sorted ones, and positions, beside loops."""
import functools
import itertools
import operator
import unittest
from array import array as list_of_numbers

import flcol
from columns import TYPES, bounds, columns, encodings, items_of

try:
    import numpy as np
except ImportError:
    np = None

OPERATORS = {
    "==": operator.eq, "!=": operator.ne, "<": operator.lt, "<=": operator.le, ">": operator.gt, ">=": operator.ge,
}  # fmt: skip


def masks(length):
    """Lists of bools: all, none, every third, one block of 1024, a run over the end of one."""
    yield [True] * length
    yield [False] * length
    yield [i % 3 == 1 for i in range(length)]
    yield [1024 <= i < 2048 for i in range(length)]
    yield [1000 <= i < 1030 or i == length - 1 for i in range(length)]


def kept(items, mask):
    """The items that a mask keeps and that are not null."""
    return [item for item in itertools.compress(items, mask) if item is not None]


def sorted_items(dtype, length, nulls):
    return sorted(items_of(dtype, length, nulls), key=lambda item: (item is not None, item or 0))


class UnderAMask(unittest.TestCase):
    def check(self, items, a, mask):
        flags = [True] * len(items) if mask is True else [bool(it) for it in mask]
        known = kept(items, flags)
        extremes = (min(known), max(known)) if known else (None, None)
        least, greatest = bounds(a.dtype.rstrip("?"))
        self.assertEqual((a.sum(where=mask), a.count(where=mask), a.min_max(where=mask)), (sum(known), len(known), extremes))
        self.assertEqual((a.min(where=mask), a.max(where=mask)), extremes)
        self.assertEqual(a.mean(where=mask), sum(known) / len(known) if known else None)
        for at, (op, holds) in enumerate(OPERATORS.items()):
            for constant in (5, (least, greatest)[at % 2], (-(2**70), 2**70)[at % 2]):
                met = sum(holds(item, constant) for item in known)
                self.assertEqual(a.count_where(op, constant, where=mask), met, (op, constant))
            wanted = [keeps and item is not None and holds(item, 5) for item, keeps in zip(items, flags)]
            self.passes(items, a.mask_where(op, 5, where=mask), wanted)
            self.assertEqual(a.where(op, 5, where=mask).to_list(), kept(items, wanted))
            wide = (-(2**70), 2**70)[at % 2]
            wanted = [keeps and item is not None and holds(item, wide) for item, keeps in zip(items, flags)]
            self.passes(items, a.mask_where(op, wide, where=mask), wanted)

    def passes(self, items, answers, wanted):
        """Answers that are a mask: none is null."""
        self.assertEqual((answers.to_list(), answers.nullable), (wanted, False))
        self.assertEqual(answers.validity, None)
        self.assertEqual(len(answers), len(items))

    def check_ranges(self, items, a, mask):
        least, greatest = bounds(a.dtype.rstrip("?"))
        flags = [True] * len(items) if mask is True else mask
        ranges = (2, 9), (least, greatest), (-(2**70), 2**70), (2, 8), (9, 2)
        for (lower, upper), inclusive in zip(ranges, itertools.cycle(("both", "left", "right", "neither"))):
            low, high = lower + (inclusive in ("right", "neither")), upper - (inclusive in ("left", "neither"))
            wanted = [keeps and item is not None and low <= item <= high for item, keeps in zip(items, flags)]
            self.passes(items, a.mask_between(lower, upper, inclusive, where=mask), wanted)
            self.assertEqual(a.count_between(lower, upper, inclusive, where=mask), sum(wanted))
            self.assertEqual(a.where_between(lower, upper, inclusive, where=mask).to_list(), kept(items, wanted))

    def test_each_column(self):
        for name, items, a in columns((0, 1, 1025, 3000)):
            for at, mask in enumerate(masks(len(items))):
                with self.subTest(f"{name}, mask {at}"):
                    self.check(items, a, mask)
                    self.check_ranges(items, a, mask)
            with self.subTest(f"{name}, no mask"):
                self.check(items, a, True)
                self.check_ranges(items, a, True)

    def test_slices_within_a_block(self):
        for name, items, a in columns((3000,)):
            for start, stop in ((3, 40), (1000, 2500), (1500, 1500)):
                with self.subTest(f"{name}, {start}..{stop}"):
                    part = items[start:stop]
                    self.check(part, a[start:stop], [i % 5 < 2 for i in range(len(part))])
                    self.check_ranges(part, a[start:stop], [i % 5 < 2 for i in range(len(part))])

    def test_each_kind_of_mask(self):
        items = items_of("int32", 2000, True)
        a = flcol.array(items, dtype="int32?").compress()
        flags = [i % 7 == 3 for i in range(2000)]
        of_nulls = [None if i % 5 == 0 else flag for i, flag in enumerate(flags)]
        self.check(items, a, a > 5)
        self.check(items, a, flcol.array(flags))
        for mask in (flags, bytearray(flags), flcol.array(flags, dtype="bool"), tuple(flags)):
            self.assertEqual(a.sum(where=mask), sum(kept(items, flags)))
        self.assertEqual(a.sum(where=iter(flags)), sum(kept(items, flags)))
        self.assertEqual(a.sum(where=flcol.array(of_nulls)), sum(kept(items, of_nulls)))

    def test_sums_beyond_64_bits(self):
        a = flcol.array([2**64 - 1] * 3000, dtype="uint64")
        self.assertEqual(a.sum(where=[True] * 2999 + [False]), 2999 * (2**64 - 1))
        a = flcol.array([-(2**63)] * 3000, dtype="int64").compress()
        self.assertEqual(a.sum(where=[True] * 3000), -3000 * 2**63)

    def test_what_is_no_mask(self):
        a = flcol.array([1, 2, 3])
        tests = (a.count_where, a.where, a.mask_where), (a.count_between, a.where_between, a.mask_between)
        under = [functools.partial(ask, *words) for asks, words in zip(tests, (("<", 2), (1, 2))) for ask in asks]
        for ask in (a.sum, a.mean, a.min, a.max, a.min_max, a.count, *under):
            for wrong in ([True], [True] * 4, b"", flcol.array([True])):
                with self.subTest(wrong), self.assertRaises(IndexError):
                    ask(where=wrong)
            for wrong in (None, False, 1, a, "abc", [0.5, 1, 1], [2, 3, 4], object()):
                with self.subTest(wrong), self.assertRaises(TypeError):
                    ask(where=wrong)
        for ask in tests[0]:
            with self.assertRaises(ValueError):
                ask("=", 2, where=[True] * 3)
            with self.assertRaises(TypeError):
                ask("<", 1.5, where=[True] * 3)
        for ask in tests[1]:
            with self.assertRaises(ValueError):
                ask(1, 2, "none", where=[True] * 3)
            with self.assertRaises(TypeError):
                ask(1, 1.5, where=[True] * 3)

    def test_a_second_column(self):
        """Two conditions on two columns, the second under the mask of the first."""
        first, second = items_of("int16", 3000, True), items_of("uint32", 3000, False)
        a, b = flcol.array(first, dtype="int16?").compress(), flcol.array(second, dtype="uint32").compress()
        both = b.mask_where("<", 9, where=a.mask_between(2, 7))
        self.passes(first, both, [it is not None and 2 <= it <= 7 and other < 9 for it, other in zip(first, second)])
        self.assertEqual(b.sum(where=both), sum(kept(second, both)))

    def test_booleans(self):
        items = [True, None, False, True, None, True]
        a = flcol.array(items)
        for mask in itertools.product((True, False), repeat=6):
            known = kept(items, mask)
            self.assertEqual((a.sum(where=list(mask)), a.count(where=list(mask))), (sum(known), len(known)))
        with self.assertRaises(IndexError):
            a.sum(where=[True])
        with self.assertRaises(TypeError):
            a.count(where=None)


class Among(unittest.TestCase):
    def test_each_column(self):
        for name, items, a in columns((0, 1, 1025)):
            least, greatest = bounds(a.dtype.rstrip("?"))
            for values in ([], [5], [0, 3, 9], [least, greatest], [least - 1, greatest + 1, 2**70, -(2**70)], range(-3, 30)):
                with self.subTest(f"{name}, {values}"):
                    answers = a.is_in(values)
                    self.assertEqual(answers.to_list(), [None if item is None else item in values for item in items])
                    self.assertEqual(answers.nullable, a.nullable)

    def test_slices_within_a_block(self):
        for name, items, a in columns((3000,)):
            with self.subTest(name):
                wanted = [None if item is None else item in (1, 2, 3) for item in items[1000:1100]]
                self.assertEqual(a[1000:1100].is_in({1, 2, 3}).to_list(), wanted)

    def test_any_iterable(self):
        a = flcol.array([1, 2, None, 3, 1], dtype="uint16?")
        wanted = [True, False, None, True, True]
        lists = ([1, 3], (3, 1, 1), {1, 3}, iter([1, 3]), list_of_numbers("q", [3, 1]), flcol.array([1, 3]), range(1, 4, 2), [True, 3])
        for values in lists:
            self.assertEqual(a.is_in(values).to_list(), wanted)

    def test_what_is_no_list(self):
        a = flcol.array([1, 2, 3])
        for wrong in (1, None, [None], [1.5], [1.0], "12", ["1"], [[1]], [a], flcol.array([1, None])):
            with self.subTest(wrong), self.assertRaises(TypeError):
                a.is_in(wrong)


class InOrder(unittest.TestCase):
    def test_each_column(self):
        for dtype in TYPES:
            least, greatest = bounds(dtype)
            for length in (0, 1, 1025, 3000):
                for nulls in (False, True):
                    items = sorted_items(dtype, length, nulls)
                    for scheme, a in encodings(flcol.array(items, dtype=dtype + "?" * nulls)):
                        for value in (least - 1, least, -1, 0, 3, 9, 10, 41, greatest, greatest + 1, 2**70, -(2**70)):
                            with self.subTest(f"{dtype}, {length} items, nulls {nulls}, {scheme}, {value}"):
                                below = sum(item is None or item < value for item in items)
                                above = sum(item is None or item <= value for item in items)
                                self.assertEqual((a.lower_bound(value), a.searchsorted(value)), (below, below))
                                self.assertEqual(a.searchsorted(value, side="right"), above)

    def test_slices_within_a_block(self):
        items = sorted_items("int32", 5000, True)
        a = flcol.array(items, dtype="int32?").compress()
        for start, stop in ((0, 5000), (1000, 4000), (1030, 1040), (2000, 2000)):
            part = a[start:stop]
            for value in (-5, 0, 3, 9, 30, 2**31 - 1):
                self.assertEqual(part.lower_bound(value), sum(item is None or item < value for item in items[start:stop]))

    def test_what_is_not_sorted(self):
        for items in ([2, 1], [1, None], list(range(2000)) + [5]):
            a = flcol.array(items)
            for _ in range(2):
                for ask in (a.lower_bound, a.searchsorted):
                    for value in (1, -(2**70), 2**70):
                        with self.assertRaises(ValueError):
                            ask(value)
        self.assertEqual(flcol.array([3, 4, 1])[:2].lower_bound(4), 1)

    def test_what_is_no_value(self):
        a = flcol.array([1, 2, 3])
        for wrong in (None, 1.5, 1.0, "1", [1], a):
            for ask in (a.lower_bound, a.searchsorted):
                with self.subTest(wrong), self.assertRaises(TypeError):
                    ask(wrong)
        with self.assertRaises(ValueError):
            a.searchsorted(1, side="middle")
        with self.assertRaises(TypeError):
            a.searchsorted(1, sorter=[0, 1, 2])


class Positions(unittest.TestCase):
    def test_indices(self):
        for length in (0, 1, 7, 8, 63, 64, 65, 1000):
            for items in ([i % 3 == 1 for i in range(length)], [(True, None, False)[i * i % 3] for i in range(length)], [True] * length):
                answers = flcol.array(items, dtype="bool?" if None in items else "bool")
                wanted = [i for i, item in enumerate(items) if item]
                places = answers.indices()
                self.assertEqual((places.to_list(), places.dtype), (wanted, "uint64"))
                self.assertEqual(flcol.array(list(range(length)), dtype="int16").take(places).to_list(), wanted)

    def test_of_a_comparison(self):
        items = items_of("int16", 3000, True)
        a = flcol.array(items, dtype="int16?").compress()
        self.assertEqual((a < 4).indices().to_list(), [i for i, item in enumerate(items) if item is not None and item < 4])
        self.assertEqual(a.take((a < 4).indices()).to_list(), a.where("<", 4).to_list())


@unittest.skipIf(np is None, "NumPy is not there")
class WithNumPy(unittest.TestCase):
    def test_its_functions(self):
        for dtype in ("uint8", "int32", "uint64"):
            items = items_of(dtype, 2500, False)
            a, plain = flcol.array(items, dtype=dtype).compress(), np.array(items, dtype)
            for mask in (plain < 9, np.arange(2500) % 3 == 1, np.zeros(2500, bool)):
                known = kept(items, mask)
                self.assertEqual((np.sum(a, where=mask), a.sum(where=mask)), (sum(known), sum(known)))
                if known:
                    self.assertEqual(np.mean(a, where=mask), sum(known) / len(known))
                    self.assertEqual((a.min(where=mask), a.max(where=mask)), (plain[mask].min(), plain[mask].max()))
            self.assertEqual(a.is_in(np.array([0, 5, 9], dtype)).to_list(), np.isin(plain, [0, 5, 9]).tolist())
            ordered = flcol.array(np.sort(plain)).compress()
            for value in (0, 5, 40):
                for side in ("left", "right"):
                    self.assertEqual(np.searchsorted(ordered, value, side), np.searchsorted(np.sort(plain), value, side))

    def test_masked_masks(self):
        a = flcol.array([1, 2, 4, 8])
        mask = np.ma.array([True, True, False, True], mask=[False, True, False, False])
        self.assertEqual((a.sum(where=mask), a.count(where=mask)), (9, 2))
        for wrong in (np.ones((2, 2), bool), np.array([0.5] * 4)):
            with self.assertRaises((TypeError, ValueError, IndexError)):
                a.sum(where=wrong)
