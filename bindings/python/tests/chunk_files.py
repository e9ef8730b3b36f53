"""Files of chunks to ask, and what is asked."""
import os
import tempfile
import unittest
from pathlib import Path

import flcol

COMPARED = {"==": int.__eq__, "!=": int.__ne__, "<": int.__lt__, "<=": int.__le__, ">": int.__gt__, ">=": int.__ge__}


class InFolder(unittest.TestCase):
    """A test with a folder, which has nothing but what the test knows of at the end."""

    #: Where it is: in memory, where there is such a place, as the disk is waited for at each end of a file.
    ROOM = "/dev/shm" if os.access("/dev/shm", os.W_OK) else None

    def setUp(self):
        folder = tempfile.TemporaryDirectory(dir=self.ROOM)
        self.addCleanup(folder.cleanup)
        self.folder, self.path = Path(folder.name), Path(folder.name) / "column"

    def written(self, items, dtype, name="column", **how):
        """The path of a file of items."""
        with flcol.Writer(self.folder / name, dtype, **how) as writer:
            writer.extend(items)
        return self.folder / name

    def names(self):
        return sorted(it.name for it in self.folder.iterdir())


def ask(file, items, least=0, greatest=9):
    """Asks a file for all that it can do, beside its items."""
    known = [item for item in items if item is not None]
    assert (len(file), file.size, file.null_count, file.count()) == (len(items), len(items), items.count(None), len(known))
    assert (file.sum(), file.mean()) == (sum(known), sum(known) / len(known) if known else None)
    assert (file.min(), file.max()) == file.min_max() == ((min(known), max(known)) if known else (None, None))
    assert file[:].to_list() == items and [it for chunk in file for it in chunk.to_list()] == items
    for constant in {least, greatest, least - 1, greatest + 1, 5, -(2**200), 2**200}:
        for op, holds in COMPARED.items():
            passing = [item for item in known if holds(item, constant)]
            assert file.count_where(op, constant) == len(passing), (op, constant)
            assert file.where(op, constant).to_list() == passing, (op, constant)
    for inclusive in ("both", "left", "right", "neither"):
        low, high = 3 - (inclusive in ("both", "left")), 9 + (inclusive in ("both", "right"))
        passing = [item for item in known if low < item < high]
        assert file.count_between(3, 9, inclusive) == len(passing)
        assert file.where_between(3, 9, inclusive).to_list() == passing


def told(file):
    """What a file says of its items in some ways, and its items."""
    return file.sum(), len(file), file[:].to_list()


def as_told(items):
    """The same of a list."""
    return sum(item or 0 for item in items), len(items), items


def statistics(items):
    """What is true of the items of a chunk, as a file says it behind their place."""
    known = [item for item in items if item is not None]
    order = [(item is not None, item or 0) for item in items]
    extremes = (min(known), max(known)) if known else (None, None)
    return len(items), items.count(None), *extremes, sum(known), order == sorted(order)
