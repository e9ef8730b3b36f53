"""Columns to ask, and the schemes that they are encoded by."""
import random

import flcol

TYPES = ("uint8", "uint16", "uint32", "uint64", "int8", "int16", "int32", "int64")
SCHEMES = (
    "primitive", "bitpacked", "blocked", "for", "for(bitpacked)", "forc", "forc(blocked,_)", "forc(delta,_)", "forc(rle,for)",
    "delta", "delta(for(bitpacked),_)", "rle", "rle(for(bitpacked),bitpacked,_)", "dict(for(bitpacked),bitpacked,_)",
)  # fmt: skip
LENGTHS = (0, 1, 7, 1023, 1024, 1025, 3000)

#: What an encoding may refuse of a column: a negative item, a width of the whole type, no least item.
CANNOT = {3, 4, 5, 21}


def bounds(dtype):
    bits = int(dtype.lstrip("uint"))
    return (0, 2**bits - 1) if dtype[0] == "u" else (-(2 ** (bits - 1)), 2 ** (bits - 1) - 1)


def items_of(dtype, length, nulls, seed=7):
    """Small integers in runs, a few as large and as small as there are, some of them null."""
    choose = random.Random(f"{dtype} {length} {nulls} {seed}")
    least, greatest = bounds(dtype)
    items = []
    while len(items) < length:
        item = choose.choice([choose.randint(max(least, -20), 40), choose.randint(0, 9), choose.randint(least, greatest)])
        if nulls and choose.random() < 0.2:
            item = None
        items += [item] * choose.choice([1, 1, 2, 30])
    return items[:length]


def encodings(plain):
    """The array by each scheme that can keep it, and the smallest one."""
    yield "compress", plain.compress()
    for scheme in SCHEMES:
        try:
            yield scheme, plain.encode(scheme)
        except flcol.Error as refusal:
            if refusal.number not in CANNOT:
                raise


def columns(lengths=LENGTHS):
    """Each type, length and scheme, with nulls and without: its name, the items and the array."""
    for dtype in TYPES:
        for length in lengths:
            for nulls in (False, True):
                items = items_of(dtype, length, nulls)
                plain = flcol.array(items, dtype=dtype + "?" * nulls)
                for scheme, encoded in encodings(plain):
                    yield f"{dtype}, {length} items, nulls {nulls}, {scheme}", items, encoded
