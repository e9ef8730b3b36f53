"""Arrays of booleans: the answers of comparisons, and columns of their own."""
import itertools
import operator
import pickle
import random
import unittest

import flcol

try:
    import numpy as np
except ImportError:
    np = None

LENGTHS = (0, 1, 7, 8, 9, 64, 1000)
OPERATORS = (operator.eq, operator.ne, operator.gt, operator.ge, operator.lt, operator.le)


def and_(a, b):
    return False if a is False or b is False else None if a is None or b is None else True


def or_(a, b):
    return True if a is True or b is True else None if a is None or b is None else False


def xor(a, b):
    return None if a is None or b is None else a != b


def not_(a):
    return None if a is None else not a


def columns():
    """Booleans, with nulls and without: the items, and arrays of them that are made in each way."""
    choose = random.Random(3)
    for length in LENGTHS:
        for kinds in ((True, False), (True, False, None), (None,), (True,), (False,)):
            items = [choose.choice(kinds) for _ in range(length)]
            dtype = "bool?" if None in kinds else "bool"
            plain = flcol.array(items, dtype=dtype)
            yield items, plain
            yield items, flcol.frombytes(bytes(plain))
            as_integers = [None if item is None else int(item) for item in items]
            yield items, flcol.array(as_integers, dtype="uint8" + "?" * (None in kinds)) == 1


class Booleans(unittest.TestCase):
    def test_reading(self):
        for items, a in columns():
            n = len(items)
            self.assertEqual((a.to_list(), list(a), len(a), a.size), (items, items, n, n))
            self.assertEqual((a.true_count, a.null_count, a.sum()), (items.count(True), items.count(None), items.count(True)))
            self.assertEqual([a[i] for i in range(-n, n)], items + items)
            for part in (slice(1, None), slice(3, n - 2), slice(5, 2), slice(None, None, 3), slice(None, None, -1), slice(9, 64)):
                self.assertEqual(a[part].to_list(), items[part])
                self.assertEqual(a[part].dtype, a.dtype)
            for wrong in (n, -n - 1):
                with self.assertRaises(IndexError):
                    a[wrong]
            self.assertEqual(pickle.loads(pickle.dumps(a)).to_list(), items)
            self.assertEqual(flcol.array(a).to_list(), items)
            flags = bytearray(n)
            a.read_into(flags)
            self.assertEqual([bool(flag) for flag, item in zip(flags, items) if item is not None], [it for it in items if it is not None])
            self.assertRegex(repr(a), rf"^<flcol.BoolArray, {n} items, {items.count(True)} true, {items.count(None)} null>$")

    def test_choosing(self):
        for items, a in columns():
            n = len(items)
            places = [i * 7 % n for i in range(n // 2)] + [-1] * (n > 0) + [None]
            self.assertEqual(a[places].to_list(), [None if i is None else items[i] for i in places])
            mask = [i % 3 == 1 for i in range(n)]
            self.assertEqual(a.filter(mask).to_list(), items[1::3])
            self.assertEqual(a[flcol.array(mask, dtype=bool)].to_list(), items[1::3])
            self.assertEqual(a.take_ranges([range(n // 2, n), range(0, n // 2)]).to_list(), items[n // 2 :] + items[: n // 2])
            self.assertEqual(a[a].to_list(), [True] * items.count(True))

    def test_joining(self):
        for length, (left, right) in itertools.product((0, 9, 100), itertools.product(((True, False), (True, False, None)), repeat=2)):
            choose = random.Random(length)
            one, two = [choose.choice(left) for _ in range(length)], [choose.choice(right) for _ in range(length)]
            a, b = flcol.array(one, dtype="bool" + "?" * (None in left)), flcol.array(two, dtype="bool" + "?" * (None in right))
            for join, wanted in ((operator.and_, and_), (operator.or_, or_), (operator.xor, xor), (operator.ne, xor)):
                self.assertEqual(join(a, b).to_list(), list(map(wanted, one, two)))
            self.assertEqual((a == b).to_list(), [not_(xor(x, y)) for x, y in zip(one, two)])
            self.assertEqual((~a).to_list(), list(map(not_, one)))
            for join, wanted in ((operator.and_, and_), (operator.or_, or_), (operator.xor, xor)):
                for scalar in (True, False):
                    self.assertEqual(join(a, scalar).to_list(), [wanted(x, scalar) for x in one])
                    self.assertEqual(join(scalar, a).to_list(), [wanted(x, scalar) for x in one])
        with self.assertRaises(ValueError):
            a & b[1:]
        for wrong in (1, None, "x", [True] * len(a), flcol.array([1] * len(a))):
            with self.assertRaises(TypeError):
                a & wrong

    def test_comparing(self):
        for items, a in columns():
            for compare, constant in itertools.product(OPERATORS, (True, False, 0, 1, 2, -1)):
                wanted = [None if item is None else compare(item, constant) for item in items]
                self.assertEqual(compare(a, constant).to_list(), wanted)
            for wrong in (None, "x", 1.5):
                for compare in OPERATORS:
                    with self.assertRaises(TypeError):
                        compare(a, wrong)

    def test_all_and_any(self):
        for items, a in columns():
            self.assertIs(a.any(), True if True in items else None if None in items else False)
            self.assertIs(a.all(), False if False in items else None if None in items else True)
            self.assertEqual((True in a, False in a, None in a, 7 in a), (True in items, False in items, None in items, False))

    def test_no_truth_of_its_own(self):
        a = flcol.array([5, 6, 7, 8, 9, 10])
        for wrong in (
            lambda: 6 < a < 9, lambda: bool(a == 5), lambda: not (a == 5), lambda: (a == 5) in [1], lambda: a in [1],
            lambda: bool(a[:1] == 5), lambda: bool(a[:0] == 5), lambda: (a > 5) and (a < 9), lambda: bool(flcol.array([True])),
        ):  # fmt: skip
            with self.assertRaises(ValueError) as refused:
                if wrong() is not None:
                    raise AssertionError("a truth where there is none")
            self.assertIn("any() or all()", str(refused.exception))
        self.assertEqual(a[(a > 6) & (a < 9)].to_list(), [7, 8])

    def test_making(self):
        for bits, validity, length in ((b"", None, 1), (b"\0\0", None, 8), (b"\0", b"", 8), (b"\0", None, -1), (b"\0", None, 9)):
            with self.assertRaises(ValueError):
                flcol.BoolArray(bits, validity, length)
        for wrong in ("x", None, 3.5):
            with self.assertRaises(TypeError):
                flcol.BoolArray(b"\0", None, wrong)
        self.assertEqual(flcol.BoolArray(bytearray(b"\5"), None, 3).to_list(), [True, False, True])
        self.assertEqual((flcol.array([True, None]).astype("bool?").dtype, flcol.array([True]).astype("bool?").dtype), ("bool?",) * 2)
        with self.assertRaises(flcol.Error) as refused:
            flcol.array([True, None]).astype("bool")
        self.assertEqual(refused.exception.name, "CastNull")
        self.assertEqual(flcol.array([0, 1, None]).astype("bool?").to_list(), [False, True, None])
        with self.assertRaises(flcol.Error) as refused:
            flcol.array([0, 2]).astype(bool)
        self.assertEqual(refused.exception.name, "CastOutOfRange")


@unittest.skipIf(np is None, "NumPy is not there")
class BesideNumpy(unittest.TestCase):
    def test_reading(self):
        for items, a in columns():
            wanted = np.ma.array([bool(item) for item in items], bool, mask=[item is None for item in items])
            self.assertEqual((a.to_numpy().dtype, np.ma.asanyarray(a.to_numpy()).tolist()), (np.dtype(bool), wanted.tolist()))
            for fill in (True, False):
                self.assertEqual(a.to_numpy(fill).tolist(), [fill if item is None else item for item in items])
            if None in items:
                with self.assertRaises(TypeError):
                    np.asarray(a)
            else:
                self.assertEqual((np.asarray(a).tolist(), type(np.asarray(a))), (items, np.ndarray))
            self.assertEqual(flcol.array(wanted).to_list(), items)
        with self.assertRaises(TypeError):
            a.to_numpy(3)

    def test_masks_on_either_side(self):
        a = flcol.array([5, None, 7, 8])
        low, mask = a < 7, np.array([True, True, False, True])
        masked = np.ma.array([True, False, True, True], mask=[False, False, True, False])
        for join, wanted in ((operator.and_, and_), (operator.or_, or_), (operator.xor, xor)):
            for other in (mask, masked):
                joined = list(map(wanted, low.to_list(), other.tolist()))
                self.assertEqual(join(low, other).to_list(), joined)
                self.assertEqual(join(other, low).to_list(), joined)
        self.assertEqual((low == mask).to_list(), [True, None, True, False])
        self.assertEqual(a[low | mask].to_list(), [5, None, 8])
        self.assertEqual(a[mask].to_list(), [5, None, 8])
        with self.assertRaises(ValueError):
            low & mask[1:]
        for wrong in (np.array([1, 2, 3, 4]), np.array([[True] * 4]), np.array(1.5)):
            with self.assertRaises(TypeError):
                low & wrong


if __name__ == "__main__":
    unittest.main()
