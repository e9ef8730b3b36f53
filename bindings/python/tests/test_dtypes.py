"""The names of types."""
import pickle
import unittest
from pathlib import Path

import flcol
from columns import TYPES

try:
    import numpy as np
except ImportError:
    np = None

SHORT = ("u8", "u16", "u32", "u64", "i8", "i16", "i32", "i64")
ROOT = Path(__file__).resolve().parents[3]


class Names(unittest.TestCase):
    def test_names_of_numpy(self):
        for name in TYPES:
            for shown in (name, name + "?"):
                a = flcol.array([1, 2], dtype=shown)
                self.assertEqual((str(a.dtype), a.dtype, f"{a.dtype}", repr(a.dtype)), (shown, shown, shown, repr(shown)))
                self.assertEqual({shown: 1}[a.dtype], 1)
                self.assertEqual(pickle.loads(pickle.dumps(a.dtype)), a.dtype)
            self.assertNotEqual(flcol.array([1], dtype=name).dtype, name + "?")
            self.assertNotEqual(flcol.array([1], dtype=name).dtype, "float64")
        self.assertEqual(str(flcol.array([True]).dtype), "bool")
        self.assertEqual(str((flcol.array([1, None]) > 0).dtype), "bool?")

    def test_short_names_are_taken_and_equal(self):
        for name, short in zip(TYPES, SHORT):
            if short not in ("u8", "i8"):
                self.assertEqual(str(flcol.array([1], dtype=short + "?").dtype), name + "?")
                self.assertEqual(flcol.array([1], dtype=name).dtype, short)

    def test_names_of_one_byte_that_are_eight_in_numpy(self):
        a = flcol.array([1], dtype="uint8")
        for short, both in (("u8", ("uint8", "uint64")), ("i8", ("int8", "int64")), ("u8?", ("uint8", "uint64"))):
            calls = (
                lambda: flcol.array([1], dtype=short), lambda: a.cast(short), lambda: a.astype(short),
                lambda: flcol.constant(1, 2, short), lambda: a.dtype == short,
            )  # fmt: skip
            for call in calls:
                with self.assertRaises(TypeError) as refused:
                    call()
                for name in both:
                    self.assertIn(name, str(refused.exception))

    def test_other_types(self):
        a = flcol.array([1, 2], dtype=int)
        self.assertEqual((str(a.dtype), a.dtype == int), ("int64", True))
        self.assertEqual(flcol.array([1, 0], dtype=bool).to_list(), [True, False])
        self.assertEqual(flcol.array([True, None], dtype="uint16").to_list(), [1, None])
        for wrong in ("float64", "u9", "", "?", "uint32??", float, 3, object(), b"uint8", ["uint8"], None):
            if wrong is not None:
                with self.subTest(wrong), self.assertRaises(TypeError):
                    flcol.array([1], dtype=wrong)
            with self.subTest(wrong), self.assertRaises(TypeError):
                a.astype(wrong)
            self.assertFalse(a.dtype == wrong)

    def test_version(self):
        self.assertRegex(flcol.__version__, r"^\d+\.\d+\.\d+$")
        told = ROOT / "VERSION"
        if told.exists():
            self.assertEqual(flcol.__version__, told.read_text().strip())


@unittest.skipIf(np is None, "NumPy is not there")
class OfNumpy(unittest.TestCase):
    def test_types_of_numpy(self):
        for name in TYPES + ("bool",):
            for dtype in (np.dtype(name), getattr(np, name if name != "bool" else "bool_"), np.dtype(name).newbyteorder(">")):
                a = flcol.array([1, 0], dtype=dtype)
                self.assertEqual((str(a.dtype), a.astype(dtype).dtype), (name, name))
                self.assertTrue(a.dtype == dtype and np.dtype(a.dtype) == np.dtype(name))
            self.assertEqual(a.to_numpy().dtype, np.dtype(name))
            self.assertEqual(flcol.array(np.array([1, 0], name)).dtype, np.dtype(name))
        self.assertFalse(flcol.array([1]).dtype == np.float64)
        for wrong in (np.float32, np.dtype("M8[s]"), np.dtype("i4,i4")):
            with self.assertRaises(TypeError):
                flcol.array([1], dtype=wrong)


if __name__ == "__main__":
    unittest.main()
