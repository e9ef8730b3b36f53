"""Arrow's PyCapsule interface, beside a producer and a consumer that are written from Arrow's documents alone."""
import ctypes
import gc
import unittest
from ctypes import POINTER, byref, c_char_p, c_int, c_int64, c_void_p, cast

import flcol
from columns import TYPES, items_of
from flcol import _library

FORMATS = dict(zip((*TYPES, "bool"), "CSILcsilb"))
LACKS = not all(map(_library.has, ("export_arrow", "import_arrow", "export_arrow_stream", "import_arrow_stream", "from_bool")))
if LACKS:
    print("left out: Arrow, which this library has not")


class Schema(ctypes.Structure):
    pass


class Array(ctypes.Structure):
    pass


class Stream(ctypes.Structure):
    pass


OF_SCHEMA, OF_ARRAY, OF_STREAM = (ctypes.CFUNCTYPE(None, POINTER(kind)) for kind in (Schema, Array, Stream))
GET_SCHEMA = ctypes.CFUNCTYPE(c_int, POINTER(Stream), POINTER(Schema))
GET_NEXT = ctypes.CFUNCTYPE(c_int, POINTER(Stream), POINTER(Array))
LAST_ERROR = ctypes.CFUNCTYPE(c_char_p, POINTER(Stream))
Schema._fields_ = [
    ("format", c_char_p), ("name", c_char_p), ("metadata", c_char_p), ("flags", c_int64), ("n_children", c_int64),
    ("children", c_void_p), ("dictionary", c_void_p), ("release", OF_SCHEMA), ("private_data", c_void_p),
]  # fmt: skip
Array._fields_ = [
    ("length", c_int64), ("null_count", c_int64), ("offset", c_int64), ("n_buffers", c_int64), ("n_children", c_int64),
    ("buffers", POINTER(c_void_p)), ("children", c_void_p), ("dictionary", c_void_p), ("release", OF_ARRAY), ("private_data", c_void_p),
]  # fmt: skip
Stream._fields_ = [
    ("get_schema", GET_SCHEMA), ("get_next", GET_NEXT), ("get_last_error", LAST_ERROR), ("release", OF_STREAM), ("private_data", c_void_p),
]  # fmt: skip
KINDS = {b"arrow_schema": Schema, b"arrow_array": Array, b"arrow_array_stream": Stream}

new_capsule = ctypes.PYFUNCTYPE(ctypes.py_object, c_void_p, c_char_p, c_void_p)(("PyCapsule_New", ctypes.pythonapi))
pointer_in = ctypes.PYFUNCTYPE(c_void_p, ctypes.py_object, c_char_p)(("PyCapsule_GetPointer", ctypes.pythonapi))


def inside(capsule, name):
    """The structure in a capsule."""
    return KINDS[name].from_address(pointer_in(capsule, name))


def bits(flags, offset=0):
    """A bitmap that begins with some bits that say nothing."""
    number = sum(bool(flag) << at for at, flag in enumerate([1, 0] * (offset // 2) + [1] * (offset % 2) + list(flags)))
    return number.to_bytes((offset + len(flags) + 7) // 8 + 8, "little")


class Producer:
    """Items as an array of Arrow, or as a stream of several; it counts what is released."""

    def __init__(self, items, dtype, offset=0, null_count=-1, validity=True, format=None):
        self.items, self.dtype, self.offset, self.null_count = items, dtype, offset, null_count
        self.validity, self.format = validity, (format or FORMATS[dtype]).encode()
        self.made, self.released, self.kept = 0, [], []

    def fill_schema(self, schema):
        self.made += 1
        ctypes.memset(byref(schema), 0, ctypes.sizeof(Schema))
        release = OF_SCHEMA(lambda it: self.release("schema", it))
        self.kept.append(release)
        schema.format, schema.name, schema.flags, schema.release = self.format, b"", 2 * self.validity, release

    def fill_array(self, array, items):
        self.made += 1
        ctypes.memset(byref(array), 0, ctypes.sizeof(Array))
        release = OF_ARRAY(lambda it: self.release("array", it))
        known = [0 if item is None else int(item) for item in items]
        if self.dtype == "bool":
            values = bits(known, self.offset)
        else:
            kind = getattr(ctypes, f"c_{self.dtype}")
            values = bytes((kind * (self.offset + len(items)))(*[77] * self.offset, *known))
        valid = bits([item is not None for item in items], self.offset) if self.validity and None in items else None
        held = ctypes.create_string_buffer(values, len(values) + 8), valid and ctypes.create_string_buffer(valid)
        buffers = (c_void_p * 2)(cast(held[1], c_void_p) if held[1] else None, cast(held[0], c_void_p))
        self.kept += [release, held, buffers]
        array.length, array.offset, array.n_buffers = len(items), self.offset, 2
        array.null_count = items.count(None) if self.null_count is None else self.null_count
        array.buffers, array.release = cast(buffers, POINTER(c_void_p)), release

    def release(self, what, structure):
        self.released.append(what)
        structure.contents.release = OF_SCHEMA() if what == "schema" else OF_ARRAY() if what == "array" else OF_STREAM()


class AsArray(Producer):
    def __arrow_c_array__(self, requested_schema=None):
        schema, array = Schema(), Array()
        self.fill_schema(schema)
        self.fill_array(array, self.items)
        self.kept += [schema, array]
        return tuple(new_capsule(ctypes.addressof(it), name, None) for it, name in ((schema, b"arrow_schema"), (array, b"arrow_array")))

    def dispose(self):
        """What the destructors of capsules in C do."""
        for it in self.kept:
            if isinstance(it, (Schema, Array)) and it.release:
                it.release(byref(it))


class AsStream(Producer):
    def __init__(self, chunks, dtype, fails_at=None, **more):
        super().__init__([], dtype, **more)
        self.chunks, self.fails_at = chunks, fails_at

    def __arrow_c_stream__(self, requested_schema=None):
        left = iter(enumerate(self.chunks))

        def get_schema(stream, schema):
            self.fill_schema(schema.contents)
            return 0

        def get_next(stream, array):
            number, items = next(left, (None, None))
            if number is not None and number == self.fails_at:
                return 5
            ctypes.memset(array, 0, ctypes.sizeof(Array))
            if items is not None:
                self.fill_array(array.contents, items)
            return 0

        stream = Stream(GET_SCHEMA(get_schema), GET_NEXT(get_next), LAST_ERROR(lambda stream: b"no more"))
        stream.release = OF_STREAM(lambda it: self.release("stream", it))
        self.made += 1
        self.kept.append(stream)
        return new_capsule(ctypes.addressof(stream), b"arrow_array_stream", None)


def read(schema, array):
    """The items of an array of Arrow."""
    dtype = {text: name for name, text in FORMATS.items()}[schema.format.decode()]
    size, offset = array.length, array.offset
    assert array.n_buffers == 2 and not array.n_children and not array.dictionary and not schema.n_children
    known = [True] * size
    if array.buffers[0]:
        valid = ctypes.string_at(array.buffers[0], (offset + size + 7) // 8)
        known = [bool(valid[at // 8] >> at % 8 & 1) for at in range(offset, offset + size)]
    assert array.null_count in (-1, known.count(False))
    if dtype == "bool":
        values = ctypes.string_at(array.buffers[1], (offset + size + 7) // 8) if size else b""
        items = [bool(values[at // 8] >> at % 8 & 1) for at in range(offset, offset + size)]
    else:
        kind = getattr(ctypes, f"c_{dtype}")
        items = list((kind * size).from_address(array.buffers[1] + offset * ctypes.sizeof(kind))) if size else []
    return dtype + "?" * bool(schema.flags & 2), [item if valid else None for item, valid in zip(items, known)]


def columns():
    """Each type and length, with nulls and without."""
    for dtype in (*TYPES, "bool"):
        for length in (0, 1, 7, 64, 1025):
            for nulls in (False, True):
                items = items_of("uint8" if dtype == "bool" else dtype, length, nulls)
                yield dtype, [item if item is None or dtype != "bool" else item % 2 == 1 for item in items], nulls


@unittest.skipIf(LACKS, "the library has no calls for Arrow")
class Taking(unittest.TestCase):
    def test_arrays(self):
        for dtype, items, nulls in columns():
            for offset in (0, 3, 8, 13):
                for null_count in (-1, None):
                    producer = AsArray(items, dtype, offset, null_count, validity=nulls)
                    taken = flcol.array(producer)
                    self.assertEqual((taken.to_list(), taken.dtype), (items, dtype + "?" * nulls))
                    producer.dispose()
                    self.assertEqual(sorted(producer.released), ["array", "schema"])

    def test_another_type_and_a_mask(self):
        self.assertEqual(flcol.array(AsArray([1, 2], "int64"), dtype="uint8").dtype, "uint8?")
        self.assertEqual(flcol.array(AsArray([1, 2], "int64"), mask=[True, False]).to_list(), [None, 2])

    def test_what_is_refused_is_left_alone(self):
        for format in ("u", "g", "+s", "tdD", "", "ii"):
            producer = AsArray([1, 2], "int64", format=format or " ")
            with self.assertRaises(TypeError):
                flcol.array(producer)
            self.assertEqual(producer.released, [])
            producer.dispose()
            self.assertEqual(sorted(producer.released), ["array", "schema"])

    def test_capsules_of_others(self):
        class Wrong:
            def __init__(self, answer):
                self.answer = answer

            def __arrow_c_array__(self, requested_schema=None):
                return self.answer

        schema, array = AsArray([1], "int64").__arrow_c_array__()
        for answer in ((array, schema), (1, 2), (schema,), None, (schema, schema)):
            with self.subTest(answer), self.assertRaises((TypeError, ValueError)):
                flcol.array(Wrong(answer))

    def test_streams(self):
        chunks = [[1, None, 3], [], [4], list(range(1000)), [None] * 9]
        for dtype in ("int16", "uint64"):
            producer = AsStream(chunks, dtype)
            taken = flcol.array(producer)
            self.assertEqual((taken.to_list(), taken.dtype), (sum(chunks, []), dtype + "?"))
            self.assertEqual(producer.released.count("array"), len(chunks))
        self.assertEqual(flcol.array(AsStream([[True, None], [False] * 9], "bool")).to_list(), [True, None] + [False] * 9)
        for some in ([], [[]], [[5, 6]]):
            taken = flcol.array(AsStream(some, "int8", validity=False))
            self.assertEqual((taken.to_list(), taken.dtype), (sum(some, []), "int8"))
        self.assertEqual(flcol.array(AsStream([], "int8")).dtype, "int8?")

    def test_streams_that_fail(self):
        with self.assertRaises(TypeError):
            flcol.array(AsStream([[1]], "int64", format="u"))
        with self.assertRaises((flcol.Error, OSError)):
            flcol.array(AsStream([[1], [2]], "int64", fails_at=1))


@unittest.skipIf(LACKS, "the library has no calls for Arrow")
class Giving(unittest.TestCase):
    def test_arrays(self):
        for dtype, items, nulls in columns():
            column = flcol.array(items, dtype=dtype + "?" * nulls)
            schema, array = column.__arrow_c_array__()
            self.assertEqual(read(inside(schema, b"arrow_schema"), inside(array, b"arrow_array")), (column.dtype, items))
            self.assertEqual(inside(column.__arrow_c_schema__(), b"arrow_schema").format, FORMATS[dtype].encode())
            self.assertEqual(flcol.array(Again(column)).to_list(), items)

    def test_encodings(self):
        items = items_of("uint32", 3000, True)
        for scheme in ("for", "rle", "delta", "rle(for(bitpacked),bitpacked,_)"):
            column = flcol.array(items, dtype="uint32?").encode(scheme)[5:2900]
            schema, array = column.__arrow_c_array__()
            self.assertEqual(read(inside(schema, b"arrow_schema"), inside(array, b"arrow_array"))[1], items[5:2900])

    def test_who_moves_an_array_releases_it(self):
        column = flcol.array([1, None, 3])
        schema, array = column.__arrow_c_array__()
        moved, held = Array(), inside(array, b"arrow_array")
        ctypes.memmove(byref(moved), byref(held), ctypes.sizeof(Array))
        held.release = OF_ARRAY()
        del array, held
        gc.collect()
        self.assertEqual(read(inside(schema, b"arrow_schema"), moved)[1], [1, None, 3])
        moved.release(byref(moved))
        self.assertFalse(moved.release)

    def test_capsules_outlive_their_column_and_nothing_stays(self):
        from flcol import _arrow

        column = flcol.array(range(1000))
        capsules = column.__arrow_c_array__()
        del column
        gc.collect()
        self.assertEqual(read(inside(capsules[0], b"arrow_schema"), inside(capsules[1], b"arrow_array"))[1], list(range(1000)))
        for _ in range(10):
            with self.assertRaises(TypeError):
                "".join([capsules[0], *flcol.array([1]).__arrow_c_array__()])
        del capsules
        gc.collect()
        self.assertEqual(len(_arrow._given), 0)

    def test_streams(self):
        for items in ([], [1, None, 3], [None if i % 7 == 3 else i for i in range(5000)]):
            column = flcol.array(items, dtype="int32?")
            capsule = column.__arrow_c_stream__()
            stream, schema, got = inside(capsule, b"arrow_array_stream"), Schema(), []
            self.assertEqual(stream.get_schema(byref(stream), byref(schema)), 0)
            while True:
                array = Array()
                self.assertEqual(stream.get_next(byref(stream), byref(array)), 0)
                if not array.release:
                    break
                got += read(schema, array)[1]
                array.release(byref(array))
            schema.release(byref(schema))
            self.assertEqual(got, items)

    def test_a_type_that_is_asked_for(self):
        column = flcol.array([1, None, 3], dtype="int64?")
        for dtype, wanted in (("uint8", "uint8?"), ("int64", "int64?"), ("bool", None)):
            asked = flcol.array([], dtype=dtype).__arrow_c_schema__()
            if wanted is None:
                with self.assertRaises(flcol.Error):
                    column.__arrow_c_array__(asked)
            else:
                schema, array = column.__arrow_c_array__(asked)
                self.assertEqual(read(inside(schema, b"arrow_schema"), inside(array, b"arrow_array")), (wanted, [1, None, 3]))
        for wrong in (3, "uint8", column.__arrow_c_array__()[1]):
            with self.assertRaises((TypeError, ValueError)):
                column.__arrow_c_array__(wrong)


class Again:
    """An object that speaks Arrow for a column, and nothing else."""

    def __init__(self, column):
        self.column = column

    def __arrow_c_array__(self, requested_schema=None):
        return self.column.__arrow_c_array__(requested_schema)


if __name__ == "__main__":
    unittest.main()
