"""Random columns of every type, asked beside NumPy."""
import operator
import unittest

import flcol
from columns import columns

try:
    import numpy as np
except ImportError:
    np = None

OPERATORS = (operator.eq, operator.ne, operator.gt, operator.ge, operator.lt, operator.le)


def of_numpy(items, dtype):
    """The column as NumPy has it: masked where it is nullable."""
    values = np.array([0 if item is None else item for item in items], dtype.rstrip("?"))
    return np.ma.array(values, mask=[item is None for item in items]) if dtype.endswith("?") else values


@unittest.skipIf(np is None, "NumPy is not there")
class BesideNumpy(unittest.TestCase):
    def assertSame(self, answer, wanted):
        answer, wanted = np.ma.asanyarray(answer), np.ma.asanyarray(wanted)
        self.assertEqual(answer.dtype, wanted.dtype)
        np.testing.assert_array_equal(np.ma.getmaskarray(answer), np.ma.getmaskarray(wanted))
        np.testing.assert_array_equal(answer.compressed(), wanted.compressed())

    def test_columns(self):
        for name, items, encoded in columns():
            with self.subTest(name):
                wanted = of_numpy(items, encoded.dtype)
                self.assertSame(encoded.to_numpy(), wanted)
                self.assertEqual(isinstance(encoded.to_numpy(), np.ma.MaskedArray), encoded.nullable)
                self.assertSame(flcol.array(wanted).to_numpy(), wanted)
                self.assertEqual(flcol.array(wanted).dtype, encoded.dtype)

    def test_choosing(self):
        choose = np.random.default_rng(7)
        for name, items, encoded in columns((1, 1024, 3000)):
            with self.subTest(name):
                wanted, n = of_numpy(items, encoded.dtype), len(items)
                for start, stop in np.sort(choose.integers(-n, n + 1, (3, 2))).tolist():
                    self.assertSame(encoded[start:stop].to_numpy(), wanted[start:stop])
                    self.assertSame(encoded[start:stop:5].to_numpy(), wanted[start:stop:5])
                for kind in ("i8", "u8", "i4", "u2", "i2"):
                    places = choose.integers(-n if kind[0] == "i" else 0, n, n // 3).astype(kind)
                    self.assertSame(encoded[places].to_numpy(), wanted[places])
                for share in (0.02, 0.5):
                    mask = choose.random(n) < share
                    self.assertSame(encoded[mask].to_numpy(), wanted[mask])

    def test_comparing(self):
        choose = np.random.default_rng(8)
        for name, items, encoded in columns((1, 1024, 3000)):
            wanted = of_numpy(items, encoded.dtype)
            for constant in choose.choice(np.ma.getdata(wanted), 2).tolist() + [3]:
                for compare in OPERATORS:
                    with self.subTest(f"{name}, {compare.__name__} {constant}"):
                        self.assertSame(compare(encoded, constant).to_numpy(), compare(wanted, wanted.dtype.type(constant)))
            with self.subTest(f"{name}, a choice by a comparison"):
                self.assertSame(encoded[encoded < 9].to_numpy(), wanted[np.ma.filled(wanted < 9, False)])

    def test_masks_and_orders(self):
        values = np.arange(10, dtype="u2")
        masked = flcol.array(values, mask=values > 6)
        self.assertSame(masked.to_numpy(), np.ma.array(values, mask=values > 6))
        both = flcol.array(np.ma.array(values, mask=values < 2), mask=values > 6)
        self.assertEqual(both.to_list(), [None, None, 2, 3, 4, 5, 6, None, None, None])
        self.assertSame(flcol.array(values[::-2]).to_numpy(), values[::-2])
        self.assertSame(flcol.array(values.astype(">u2")).to_numpy(), values)
        self.assertEqual(flcol.array(values).cast(np.uint8).dtype, "uint8")
        self.assertEqual((np.int64(5) > flcol.array(values)).to_list(), (5 > values).tolist())
        nulls = np.ma.array([0, 1, 2], mask=[0, 1, 0])
        self.assertEqual(flcol.array(values)[nulls].to_list(), [0, None, 2])
        for wrong in (values.astype(float), values.reshape(2, 5), values.astype("M8[s]"), values.astype(str)):
            with self.assertRaises(TypeError):
                flcol.array(wrong)

    def test_reading_into_memory_that_is_there(self):
        values = np.arange(5000, dtype="i4")
        packed, out = flcol.array(values).encode("for(bitpacked)"), np.zeros(6000, "i4")
        self.assertIsNone(packed.read_into(out[500:5500]))
        self.assertSame(out[500:5500], values)
        self.assertEqual((out[499], out[5500]), (0, 0))
        out.flags.writeable = False
        with self.assertRaises((BufferError, ValueError)):
            packed.read_into(out[:5000])


if __name__ == "__main__":
    unittest.main()
