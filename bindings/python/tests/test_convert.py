"""The command over files of chunks: convert makes them, the others read them."""
import subprocess
import sys
import tempfile
import types
import unittest
from pathlib import Path
from unittest import mock

import flcol
from flcol import _convert
from test_files import BOOLEANS, npy, run

try:
    import numpy as np
except ImportError:
    np = None

SOURCES = Path(flcol.__file__).parents[1]
CSV = b'day,"price, in cents",sold\n1,1999,5\n2,"",6\n3,-7,\n4,null,8\n'


class Converting(unittest.TestCase):
    def setUp(self):
        folder = tempfile.TemporaryDirectory()
        self.addCleanup(folder.cleanup)
        self.folder = Path(folder.name)
        self.out = self.folder / "out"

    def converted(self, *words, source=b"", path="-"):
        """The type, the items and the lengths of the chunks of what is made."""
        self.assertEqual(run("convert", *words, path, self.out, source=source), (0, b"", ""))
        with flcol.open(self.out, verify=True) as file:
            return file.dtype, file[:].to_list(), [chunk.len for chunk in file.chunks]

    def test_comma_separated_values(self):
        prices = ("int64?", [1999, None, -7, None], [4])
        for column in ("price, in cents", "2"):
            self.assertEqual(self.converted("--column", column, source=CSV), prices)
        self.assertEqual(self.converted("--column", "2", source=CSV.replace(b"\n", b"\r\n")), prices)
        days = self.converted("--column", "day", "--dtype", "u8", "--chunk", 3, source=CSV)
        self.assertEqual(days, ("uint8", [1, 2, 3, 4], [3, 1]))
        (self.folder / "table.csv").write_bytes(b"\xef\xbb\xbf" + CSV)
        self.assertEqual(self.converted("--column", "sold", path=self.folder / "table.csv"), ("int64?", [5, 6, None, 8], [4]))
        lines_of = {b"1\n-2\n3": [1, -2, 3], b"1\nnull\n": [1, None], b"x\n1\n": [1], b"": [], b"x\n": [], b"1, 2\n": [2]}
        for lines, items in lines_of.items():
            words = ["--column", "2"] if b"," in lines else []
            self.assertEqual(self.converted(*words, source=lines), ("int64?", items, [len(items)] * bool(items)))
        self.assertEqual(self.converted("--names", "--column", "2020", source=b"2019,2020\n1,2\n")[1], [2])
        many = b"".join(b"%d,x\n" % (i * i) for i in range(100_000))
        dtype, items, lengths = self.converted("--column", "1", "--type", "u64", source=b"square,text\n" + many)
        self.assertEqual((dtype, items, lengths), ("uint64", [i * i for i in range(100_000)], [65536, 34464]))

    def test_columns(self):
        items = list(range(-500, 3500))
        container = bytes(flcol.array(items, dtype="int16").compress())
        with flcol.Writer(self.folder / "chunks", "int16", chunk=70) as writer:
            writer.extend(items)
        values = bytes(flcol.array(items, dtype="int16").to_buffers()[0])
        sources = {"container": container, "chunks": (self.folder / "chunks").read_bytes()}
        sources["npy"] = npy("{'descr': '<i2', 'shape': (4000,)}", values)
        for name, content in sources.items():
            (self.folder / name).write_bytes(content)
            for how in (dict(source=content), dict(path=self.folder / name)):
                with self.subTest(name, how=list(how)):
                    self.assertEqual(self.converted("--chunk", 3000, **how), ("int16", items, [3000, 1000]))
                    self.assertEqual(self.converted("--type", "i32?", **how), ("int32?", items, [4000]))
        self.assertEqual(run("convert", self.out, self.out), (0, b"", ""))
        self.assertEqual(flcol.open(self.out)[:].to_list(), items)

    def test_streams_of_arrow(self):
        """With a model of pyarrow, which has the calls that are used."""
        batches = [[1, None], [], [3]]

        class Batch:
            def __init__(self, items):
                self.items = items

            def column(self, place):
                assert place == 1
                return flcol.array(self.items, dtype="int32?")

        class Reader:
            field = types.SimpleNamespace(type="int32", nullable=True)
            schema = types.SimpleNamespace(names=["a", "b"], field=lambda place: Reader.field)
            num_record_batches, get_batch = len(batches), staticmethod(lambda at: Batch(batches[at]))

            def __iter__(self):
                return map(Batch, batches)

        ipc = types.SimpleNamespace(open_stream=lambda file: Reader(), open_file=lambda file: Reader())
        for head in (b"\xff\xff\xff\xff", b"ARROW1"):
            (self.folder / "in").write_bytes(head + bytes(20))
            there = mock.patch.dict(sys.modules, {"pyarrow": types.SimpleNamespace(ipc=ipc)})
            with (self.folder / "in").open("rb") as file, there:
                source = _convert.source_of(file, "b", False, lambda done, whole: None)
                with flcol.Writer(self.out, source.dtype) as writer:
                    for piece in source.pieces:
                        writer.extend(piece)
            with flcol.open(self.out) as file:
                self.assertEqual((file.dtype, file[:].to_list()), ("int32?", [1, None, 3]))
            with (self.folder / "in").open("rb") as file, mock.patch.dict(sys.modules, {"pyarrow": None}):
                with self.assertRaisesRegex(ValueError, "pyarrow"):
                    _convert.source_of(file, None, False, lambda done, whole: None)

    def test_what_is_refused(self):
        bad = [
            ([], CSV, "'day', 'price, in cents', 'sold'"),
            (["--column", "x"], CSV, "--column says"),
            (["--column", "4"], CSV, "--column says"),
            (["--column", "0"], CSV, "--column says"),
            (["--column", "a"], b"a,a\n1,2\n", "--column says"),
            (["--column", "2"], b"1,2\n3\n", "a row has 1 fields"),
            (["--column", "1"], bytes(flcol.array([1])), "one column"),
            (["--type", "u8"], b"1\n300\n", "300 is no item of uint8"),
            (["--type", "u8"], b"1\nnull\n", "CastNull"),
            (["--type", "f8"], b"1\n", "no type 'f8'"),
            ([], b"1\n\n2\n", "line 2 is blank"),
            ([], b"1\n1.5\n", "'1.5' is no integer"),
            ([], b"1\n 0x5\n", "'0x5' is no integer"),
            ([], b"1\n1_0\n", "'1_0' is no integer"),
            ([], b'1\n"1\n2"\n', "is no integer"),
            ([], b"1\n" + b"5" * 200 + b"\n", "is no integer"),
            ([], b"1\n99999999999999999999\n", "is no item of int64"),
            ([], b"1\n\xff\n", "line"),
            ([], b'1\n"2', "line"),
            ([], BOOLEANS, "no type of integers"),
            ([], b"FLC2" + bytes(60), "BadMark"),
            ([], b"FLC1", "BadContainer"),
        ]
        for words, source, said in bad:
            with self.subTest(words=words, source=source[:20]):
                status, written, error = run("convert", *words, "-", self.out, source=source)
                self.assertEqual((status, written), (1, b""))
                self.assertIn(said, error)
                self.assertRegex(error, r"\Aflcol: [^\n]+\n\Z")
                self.assertEqual(list(self.folder.iterdir()), [])
        targets = {"-": "has a path", "/dev/full": "no file of a disk", self.folder / "none" / "x": "No such", self.folder: "no file of"}
        for target, said in targets.items():
            status, written, error = run("convert", "-", target, source=b"1\n")
            self.assertEqual((status, written), (1, b""))
            self.assertIn(said, error)

    def test_a_file_of_chunks_is_asked_and_read(self):
        items = [None if i % 7 == 3 else i - 100 for i in range(1000)]
        with flcol.Writer(self.out, "int32?", chunk=300) as writer:
            writer.extend(items)
        known = [item for item in items if item is not None]
        asked = {
            "sum": sum(known), "min": min(known), "max": max(known), "mean": sum(known) / len(known), "count": len(known),
            "nulls": 1000 - len(known), "count < 6": sum(item < 6 for item in known), "count > 9999999999999999999": 0,
            "count between -7 9": sum(-7 <= item <= 9 for item in known),
        }  # fmt: skip
        chosen = {"where > 800": [it for it in known if it > 800], "between 195 205": [it for it in known if 195 <= it <= 205]}
        for question, answer in asked.items():
            self.assertEqual(run("ask", self.out, *question.split()), (0, f"{answer!r}\n".encode(), ""))
        for how, content in ((self.out, b""), ("-", self.out.read_bytes())):
            for question, passing in chosen.items():
                lines = "".join(f"{it}\n" for it in passing).encode()
                self.assertEqual(run("ask", how, *question.split(), source=content), (0, lines, ""))
            lines = "".join(f"{'null' if it is None else it}\n" for it in items).encode()
            self.assertEqual(run("decode", how, "-", source=content), (0, lines, ""))
        told = run("inspect", "--verify", self.out)[1].decode()
        self.assertRegex(told, r"out: 1000 items of int32\?, 143 null, \d+ bytes, [\d.]+ bits an item, 4 chunks\n")
        self.assertEqual(run("ask", "--verify", self.out, "count"), (0, b"857\n", ""))
        self.assertEqual(run("ask", "--limit", "5", self.out, "where", ">", "0")[0], 1)
        self.assertEqual(run("compress", "--scheme", "for(bitpacked)", self.out, self.folder / "container"), (0, b"", ""))
        self.assertEqual(flcol.frombytes((self.folder / "container").read_bytes()).to_list(), items)
        lines = run("copy", "--chunk", "400", self.out)[1].decode().splitlines()
        self.assertEqual([it for line in lines for it in flcol.frombytes(bytes.fromhex(line.split("x", 1)[1])).to_list()], items)
        changed = bytearray(self.out.read_bytes())
        changed[flcol.open(self.out).chunks[2].offset] ^= 1
        statuses = {"ask - sum": 0, "ask --verify - sum": 1, "ask - count > -99": 0, "decode - -": 1, "inspect --verify -": 1}
        for words, status in statuses.items():
            ended = run(*words.split(), source=bytes(changed))
            self.assertEqual((ended[0], "BadChunk" in ended[2]), (status, status == 1))

    @unittest.skipIf(np is None, "NumPy is not there")
    def test_numpy_reads_what_is_decoded(self):
        np.save(self.folder / "in.npy", np.arange(200_000, dtype=np.uint32))
        self.assertEqual(run("convert", self.folder / "in.npy", self.out), (0, b"", ""))
        self.assertEqual(run("decode", self.out, self.folder / "back.npy"), (0, b"", ""))
        self.assertEqual((self.folder / "back.npy").read_bytes(), (self.folder / "in.npy").read_bytes())

    def test_one_chunk_is_in_memory(self):
        with flcol.Writer(self.out, "uint64") as writer:
            one = flcol.array([(k * 2654435761) % 2**40 for k in range(1 << 16)], dtype="uint64").encode("bitpacked")
            for _ in range(200):
                writer.append(one)
        run_it = "import resource, subprocess, sys; subprocess.run(sys.argv[1:], check=True, stdout=subprocess.DEVNULL); "
        measured = f"{run_it}print(resource.getrusage(resource.RUSAGE_CHILDREN).ru_maxrss)"

        def most(*words):
            command = [sys.executable, "-c", measured, sys.executable, "-m", "flcol", "ask", str(self.out), *words]
            return int(subprocess.run(command, capture_output=True, check=True, cwd=SOURCES).stdout)

        foot = most("sum")
        self.assertLess(most("count", "<", str(2**39)) - foot, 4 << 10)
        self.assertLess(most("where", "<", str(2**20)) - foot, 4 << 10)


if __name__ == "__main__":
    unittest.main()
