"""No scheme that `compress` chooses from takes fewer bytes: small columns are encoded by many of them and measured."""
import random
import unittest
from array import array

import flcol

PLAIN = ["primitive", "constant"]
PACKED = [*PLAIN, "bitpacked", "blocked"]


def framed(own, children):
    """Those, and frames of reference over these children."""
    yield from own
    for one, many in (("for", "forc"), ("forw", "forcw")):
        yield from (f"{one}({child})" for child in children)
        yield from (f"{many}({child},{references})" for child in children for references in children)


def with_deltas(own, bases, deltas):
    """Those, and deltas over these."""
    yield from own
    yield from (f"delta({base},{delta})" for base in bases for delta in deltas)


FRAMED = [list(framed(PACKED, PLAIN)), list(framed(PACKED, PACKED))]
BASES = [list(with_deltas(FRAMED[0], PLAIN, PLAIN)), list(with_deltas(FRAMED[1], FRAMED[0], FRAMED[0]))]
DELTAS = [list(with_deltas(FRAMED[1], BASES[0], FRAMED[0])), list(with_deltas(FRAMED[1], BASES[1], FRAMED[1]))]


def schemes(chance, count):
    """The schemes of one level of frames, and so many deeper ones."""
    yield from FRAMED[1]
    yield from chance.sample(DELTAS[1], count)
    for _ in range(count):
        for runs in ("rle", "dict"):
            yield f"{runs}({chance.choice(DELTAS[0])},{chance.choice(DELTAS[0])},{chance.choice(FRAMED[1])})"


def columns(chance):
    yield array("I", [chance.randrange(100) for _ in range(1500)])
    yield array("q", [chance.randrange(-50, 50) for _ in range(1100)])
    yield array("Q", [10**12 + 7 * i + chance.randrange(5) for i in range(2100)])
    yield array("h", sorted(chance.randrange(-3000, 3000) for _ in range(1024)))
    yield array("B", [i // 100 for i in range(2048)])
    yield array("Q", [chance.getrandbits(64) for _ in range(1300)])
    yield array("I", [(chance.randrange(9) - 4) % 2**32 for _ in range(1030)])


def size_of(plain, scheme):
    """The bytes by a scheme, none where it is refused."""
    try:
        return plain.encode(scheme).nbytes
    except flcol.Error:
        return None


class Compress(unittest.TestCase):
    def test_no_scheme_is_smaller(self):
        chance = random.Random(5)
        for items in columns(chance):
            plain = flcol.array(items)
            least = plain.compress().nbytes
            sizes = [size for scheme in schemes(chance, 200) if (size := size_of(plain, scheme)) is not None]
            with self.subTest(typecode=items.typecode, items=len(items)):
                self.assertLessEqual(least, min(sizes))
                self.assertLessEqual(least, len(items) * items.itemsize)

    def test_random_items_of_all_bits_stay_plain(self):
        chance = random.Random(6)
        items = array("Q", [chance.getrandbits(64) for _ in range(5120)])
        self.assertEqual(flcol.array(items).compress().nbytes, 8 * len(items))

    def test_random_items_of_fewer_bits_are_packed(self):
        chance = random.Random(7)
        for bits in (63, 40, 17):
            items = array("Q", [chance.getrandbits(bits) for _ in range(5120)])
            self.assertEqual(flcol.array(items).compress().nbytes, 128 * bits * 5)

    def test_encodings_that_are_named(self):
        items = array("Q", [10**12 + 7 * i for i in range(2100)])
        plain = flcol.array(items)
        least = plain.compress()
        self.assertEqual(plain.compress(encodings=None, depth=4).nbytes, plain.compress(depth=4).nbytes)
        self.assertEqual(plain.compress(depth=10**30).scheme, plain.compress(depth=5).scheme)
        self.assertEqual(plain.compress(["constant", "bitpacked", "for", "delta", "rle", "dict"]).scheme, least.scheme)
        for encodings, word in (([], "primitive"), (["bitpacked"], "blocked"), (("constant", "dict"), "primitive")):
            made = plain.compress(encodings)
            self.assertEqual(made.scheme, word)
            self.assertGreaterEqual(made.nbytes, least.nbytes)
            self.assertEqual(made.to_list(), list(items))
        self.assertEqual(plain.compress(depth=0).scheme, "primitive")
        self.assertTrue(plain.compress({"for", "bitpacked"}, depth=2).scheme.startswith("for"))

    def test_wrong_limits(self):
        plain = flcol.array(array("B", b"abc"))
        for encodings in (["lz4"], [None], [1], ["FOR"], ["for(bitpacked)"]):
            self.assertRaises(ValueError, plain.compress, encodings)
        for encodings in ("for", 3, 1.5):
            self.assertRaises(TypeError, plain.compress, encodings)
        self.assertRaises(ValueError, plain.compress, depth=-1)
        for depth in (True, 1.0, "1", None):
            self.assertRaises(TypeError, plain.compress, depth=depth)


if __name__ == "__main__":
    unittest.main()
