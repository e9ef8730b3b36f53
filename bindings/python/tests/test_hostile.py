"""Containers from strangers: whatever the bytes, an array that can be asked, or a refusal."""
import re
import unittest
from pathlib import Path

import flcol
from columns import columns

DOCUMENT = Path(__file__).resolve().parents[3] / "docs/CONTAINER.md"


def worked():
    """The two containers that the document works out byte by byte."""
    block = bytes.fromhex("010000000200000003000000") + bytes(244)
    one = b"FLC1\x13fastlanes.bitpacked\x02" + bytes([3] + [0] * 7 + [2, 0, 0, 0, 8, 2, 1, 0, 1] + [0] * 6) + block + b"\0"
    node = b"\x10vortex.primitive\x01" + bytes([2] + [0] * 11 + [1, 4] + [0] * 7 + [0, 0, 0, 1, 0])
    blocked = b"FLC1\x16fastlanes.bitpacked.v2\x02" + bytes([3] + [0] * 7 + [2, 0, 0, 0, 16, 1, 1, 0, 1] + [0] * 6) + block
    return [one, blocked + b"\x01" + len(node).to_bytes(8, "little") + node]


def small():
    """A container of each scheme and of four types of integers, and two of booleans."""
    for items in ([True, False, True], [False, None, True]):
        yield f"{items}", bytes(flcol.array(items))
    for name, _, encoded in columns((7,)):
        if re.match("uint8|int16|uint32|int64", name):
            yield name, bytes(encoded)


def is_long(array):
    """Whether there are too many items to ask each."""
    return array.size > 1 << 20


def ask_selections(array, items, known):
    """What is asked under a mask, of a list and of a sorted array, beside its items."""
    high, mask = [item for item in known if item >= 3], array >= 3
    assert (array.sum(where=mask), array.count(where=mask)) == (sum(high), len(high))
    assert array.min_max(where=mask) == ((min(high), max(high)) if high else (None, None))
    assert array.mask_where("<", 9, where=mask).to_list() == [item is not None and 3 <= item < 9 for item in items]
    assert array.count_between(4, 9, where=mask) == sum(4 <= item <= 9 for item in known)
    assert array.is_in([3, 4]).to_list() == [None if item is None else item in (3, 4) for item in items]
    assert array.take(mask.indices()).to_list() == high
    if array.is_sorted():
        assert array.lower_bound(3) == len(items) - len(high)


def ask(container):
    """Asks an array of the bytes for all that it can do, where there is one."""
    try:
        array = flcol.frombytes(container)
    except (flcol.Error, MemoryError):
        return False
    try:
        if is_long(array):
            return True
        items = array.to_list()
        assert len(items) == len(array) and array.null_count == items.count(None)
        assert flcol.frombytes(bytes(array)).to_list() == items
        assert (array == 3).to_list() == [None if item is None else item == 3 for item in items]
        assert [array[at] for at in range(min(9, len(items)))] == items[:9] and list(array[:99]) == items[:99]
        assert array[1:].to_list() == items[1:] and array[::2].to_list() == items[::2]
        known = [item for item in items if item is not None]
        assert (array.sum(), array.count()) == (sum(known), len(known))
        if array.dtype != "bool" and array.dtype != "bool?":
            assert array.is_sorted() in (False, True)
            assert (array.min(), array.max()) == ((min(known), max(known)) if known else (None, None))
            assert array.where(">=", 3).to_list() == [item for item in known if item >= 3]
            if sum(container) % 16 == 0:  # some of the many changes of a byte
                ask_selections(array, items, known)
    except MemoryError:
        pass
    return True


class FromStrangers(unittest.TestCase):
    def test_worked(self):
        for container in worked():
            self.assertEqual(flcol.frombytes(container).to_list(), [1, 2, 3])
        self.assertIn("305 bytes", DOCUMENT.read_text())
        self.assertEqual([len(it) for it in worked()], [305, 360])

    def test_every_cut(self):
        for name, container in [("worked", it) for it in worked()] + list(small()):
            for end in range(len(container)):
                with self.subTest(f"{name}, {end} bytes"), self.assertRaises(flcol.Error) as refused:
                    flcol.frombytes(container[:end])
                self.assertEqual(refused.exception.name, "BadContainer")
            with self.subTest(f"{name}, one more"), self.assertRaises(flcol.Error):
                flcol.frombytes(container + b"\0")

    def test_every_byte_changed(self):
        for name, container in [("worked", it) for it in worked()] + list(small()):
            for at, byte in enumerate(container):
                if byte == 0 and name == "worked" and 70 < at < 290 and at % 16:
                    continue  # items behind the last one
                for other in {byte ^ 1, byte ^ 128, byte ^ 255, 0, 16, 255} - {byte}:
                    with self.subTest(f"{name}, byte {at} is {other}"):
                        ask(container[:at] + bytes([other]) + container[at + 1 :])

    def test_other_bytes(self):
        for container in (b"", b"FLC1", b"FLC2" + bytes(40), b"\0" * 1000, bytes(range(256))):
            with self.assertRaises(flcol.Error):
                flcol.frombytes(container)


if __name__ == "__main__":
    unittest.main()
