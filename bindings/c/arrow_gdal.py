"""Arrays of Arrow that are exchanged with GDAL: columns of its layers are taken, and its NumPy side takes ours.

LIBRARY names the folder of the library. Columns are children of structs in GDAL, and are moved out and in by Arrow's rule.
"""
import ctypes
import os
import pathlib
import unittest

import numpy
from osgeo import gdal_array, ogr

ogr.UseExceptions()
WRONG_TYPE = 101
BOOL, NULLABLE = 8, 16
TYPES = ("u8", "u16", "u32", "u64", "i8", "i16", "i32", "i64", "bool")
NUMPY_TYPES = ("u1", "u2", "u4", "u8", "i1", "i2", "i4", "i8", "?")
SCHEMES = ("primitive", "for(bitpacked)", "delta", "rle(for(bitpacked),bitpacked,_)")
FEATURES, BATCH = 40, 7


class Schema(ctypes.Structure):
    pass


class Array(ctypes.Structure):
    pass


Release = ctypes.CFUNCTYPE(None, ctypes.c_void_p)
Schema._fields_ = [
    ("format", ctypes.c_char_p), ("name", ctypes.c_char_p), ("metadata", ctypes.c_char_p), ("flags", ctypes.c_int64),
    ("n_children", ctypes.c_int64), ("children", ctypes.POINTER(ctypes.POINTER(Schema))), ("dictionary", ctypes.c_void_p),
    ("release", Release), ("private_data", ctypes.c_void_p)]  # fmt: skip
Array._fields_ = [
    ("length", ctypes.c_int64), ("null_count", ctypes.c_int64), ("offset", ctypes.c_int64), ("n_buffers", ctypes.c_int64),
    ("n_children", ctypes.c_int64), ("buffers", ctypes.POINTER(ctypes.c_void_p)),
    ("children", ctypes.POINTER(ctypes.POINTER(Array))), ("dictionary", ctypes.c_void_p), ("release", Release),
    ("private_data", ctypes.c_void_p)]  # fmt: skip

library = ctypes.CDLL(str(pathlib.Path(os.environ["LIBRARY"], "lib", "libflcol.so")))


def call(name, *words):
    """What a call answers: pointers and lengths are passed as 64 bits."""
    return getattr(library, f"flcol_{name}")(*(ctypes.c_uint64(word) if isinstance(word, int) else word for word in words))


class Column:
    """A `flcol_array` that is freed when no one has it."""

    def __init__(self):
        self.word = ctypes.c_void_p()
        self.at = ctypes.byref(self.word)

    def __del__(self):
        call("free", self.at)

    def ask(self, question, answer):
        assert call(question, self.at, ctypes.byref(answer)) == 0
        return answer.value

    def to_list(self):
        """The items, None at a null."""
        n, dtype = self.ask("len", ctypes.c_size_t()), self.ask("dtype", ctypes.c_uint8()) % NULLABLE
        bits = (n + 7) // 8
        values = numpy.zeros(bits if dtype == BOOL else n, "u1" if dtype == BOOL else NUMPY_TYPES[dtype])
        validity = numpy.zeros(bits, "u1")
        assert call(f"read_{TYPES[dtype]}", self.at, values.ctypes, values.size, validity.ctypes, bits) == 0
        if dtype == BOOL:
            values = numpy.unpackbits(values, bitorder="little", count=n).astype(bool)
        valid = numpy.unpackbits(validity, bitorder="little", count=n)
        return [value if is_valid else None for value, is_valid in zip(values.tolist(), valid)]


def column_of(dtype, items, scheme):
    """A column of items, None at a null, of a type and in an encoding; booleans have none."""
    plain, encoded, n = Column(), Column(), len(items)
    values = numpy.array([item or 0 for item in items], NUMPY_TYPES[dtype])
    valid = numpy.packbits([item is not None for item in items], bitorder="little")
    if dtype == BOOL:
        values = numpy.packbits(values, bitorder="little")
        assert call("from_bool", values.ctypes, values.size, n, valid.ctypes, valid.size, plain.at) == 0
        return plain
    assert call(f"from_{TYPES[dtype]}", values.ctypes, n, valid.ctypes, valid.size, plain.at) == 0
    assert call("encode", plain.at, scheme.encode(), len(scheme), encoded.at) == 0
    return encoded


def moved(parent, place):
    """The struct that a parent has as a child, which the parent no longer releases."""
    child = parent.children[place].contents
    out = type(child).from_buffer_copy(child)
    child.release = Release()
    return out


def parent_of(kind, children, **fields):
    """A struct over children, which stay the caller's to release."""
    pointers = (ctypes.POINTER(kind) * len(children))(*map(ctypes.pointer, children))
    parent = kind(n_children=len(children), children=pointers, **fields)
    parent.kept = pointers, children
    return parent


class Taken(unittest.TestCase):
    """Columns of a layer, whose fields have all types that GDAL knows, with nulls."""

    FIELDS = {"i16": (ogr.OFTInteger, ogr.OFSTInt16), "i32": (ogr.OFTInteger, ogr.OFSTNone), "i64": (ogr.OFTInteger64, ogr.OFSTNone),
              "bool": (ogr.OFTInteger, ogr.OFSTBoolean)}  # fmt: skip

    def setUp(self):
        self.source = ogr.GetDriverByName("Memory").CreateDataSource("")
        self.layer = self.source.CreateLayer("layer", geom_type=ogr.wkbNone)
        for name, (kind, subtype) in self.FIELDS.items():
            self.add_field(name, kind, subtype)
            self.add_field(f"{name}_all", kind, subtype, is_nullable=False)
        self.add_field("f64", ogr.OFTReal)
        self.add_field("text", ogr.OFTString)
        self.add_features()

    def add_field(self, name, kind, subtype=ogr.OFSTNone, is_nullable=True):
        field = ogr.FieldDefn(name, kind)
        field.SetSubType(subtype)
        field.SetNullable(is_nullable)
        self.layer.CreateField(field)

    def item(self, name, row):
        """What a field holds: any numbers, and None in every third row of those that may."""
        if name == "OGC_FID":
            return row
        if row % 3 == 1 and not name.endswith("_all"):
            return None
        return row % 5 < 2 if name.startswith("bool") else row * row - 300

    def add_features(self):
        for row in range(FEATURES):
            feature = ogr.Feature(self.layer.GetLayerDefn())
            for place in range(self.layer.GetLayerDefn().GetFieldCount()):
                item = self.item(self.layer.GetLayerDefn().GetFieldDefn(place).GetName(), row)
                if item is None:
                    feature.SetFieldNull(place)
                else:
                    feature.SetField(place, int(item))
            self.layer.CreateFeature(feature)

    def stream(self):
        return self.layer.GetArrowStream([f"MAX_FEATURES_IN_BATCH={BATCH}"])

    def batches(self, stream):
        """Each batch with a schema of its own, as GDAL's structs, and the objects that release these."""
        while (batch := stream.GetNextRecordBatch()) is not None:
            schema = stream.GetSchema()
            yield Array.from_address(batch._getPtr()), Schema.from_address(schema._getPtr()), (batch, schema)

    def test_columns_of_batches(self):
        columns = {}
        for batch, schema, _ in self.batches(self.stream()):
            for place in range(batch.n_children):
                array, field, column = moved(batch, place), moved(schema, place), Column()
                name, is_integer = field.name.decode(), field.format in b"CSILcsilb"
                status = call("import_arrow", ctypes.byref(array), ctypes.byref(field), column.at)
                self.assertEqual((status, bool(array.release), bool(field.release)), (0, False, False) if is_integer else (WRONG_TYPE, True, True))
                if is_integer:
                    columns.setdefault(name, []).extend(column.to_list())
                else:
                    array.release(ctypes.addressof(array)), field.release(ctypes.addressof(field))
        self.assertEqual({name.partition("_")[0] for name in columns}, {*self.FIELDS, "OGC"})
        for name, items in columns.items():
            self.assertEqual(items, [self.item(name, row) for row in range(FEATURES)], name)

    def test_stream_of_structs_is_refused_and_goes_on(self):
        stream, column = self.stream(), Column()
        self.assertEqual(call("import_arrow_stream", ctypes.c_void_p(int(stream.this)), column.at), WRONG_TYPE)
        self.assertEqual(sum(batch.length for batch, _, _ in self.batches(stream)), FEATURES)


class Given(unittest.TestCase):
    """Columns of ours in a batch, as GDAL reads it into NumPy's arrays."""

    def exported(self, columns):
        arrays, schemas = [], []
        for name, column in columns.items():
            array, schema = Array(), Schema()
            self.assertEqual(call("export_arrow", column.at, ctypes.byref(array), ctypes.byref(schema)), 0)
            schema.name = name.encode()
            arrays.append(array), schemas.append(schema)
        return arrays, schemas

    def read(self, columns, n):
        """The items of each column, None at a null, as GDAL reads them."""
        arrays, schemas = self.exported(columns)
        batch = parent_of(Array, arrays, length=n, n_buffers=1, buffers=(ctypes.c_void_p * 1)())
        schema = parent_of(Schema, schemas, format=b"+s", name=b"")
        read = gdal_array._RecordBatchAsNumpy(ctypes.addressof(batch), ctypes.addressof(schema), batch)
        items = {}
        for name, column in read.items():
            masked = numpy.ma.masked_array(column["data"], column["mask"]) if isinstance(column, dict) else column
            items[name] = (masked.dtype, masked.tolist())
        for struct in (*arrays, *schemas):
            struct.release(ctypes.addressof(struct))
            self.assertFalse(struct.release)
        return items

    def test_columns_in_a_batch(self):
        for n in (1, 8, 1500):
            for scheme in SCHEMES:
                for nulls in (n + 1, 3):
                    expected = {}
                    for dtype, name in enumerate(TYPES):
                        items = [row % 5 < 2 if dtype == BOOL else row // 20 for row in range(n)]
                        expected[name] = numpy.dtype(NUMPY_TYPES[dtype]), [None if row % nulls == 2 else items[row] for row in range(n)]
                    columns = {name: column_of(TYPES.index(name), items, scheme) for name, (_, items) in expected.items()}
                    self.assertEqual(self.read(columns, n), expected)


if __name__ == "__main__":
    unittest.main()
