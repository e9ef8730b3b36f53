"""The command: python3 -m flcol."""
import io
import itertools
import subprocess
import sys
import tempfile
import unittest
from pathlib import Path
from unittest import mock

import flcol
from flcol.__main__ import progress

try:
    import numpy as np
except ImportError:
    np = None

SOURCES = Path(flcol.__file__).parents[1]
BOOLEANS = bytes(flcol.array([True, False, None, True]))


def npy(header, items):
    """A .npy file of a header."""
    return b"\x93NUMPY\x02\x00" + len(header).to_bytes(4, "little") + header.encode() + items


def run(*words, source=b""):
    """The command's status, output and errors."""
    command = [sys.executable, "-m", "flcol", *map(str, words)]
    ended = subprocess.run(command, input=source, capture_output=True, cwd=SOURCES)
    return ended.returncode, ended.stdout, ended.stderr.decode()


class Command(unittest.TestCase):
    def setUp(self):
        folder = tempfile.TemporaryDirectory()
        self.addCleanup(folder.cleanup)
        self.folder = Path(folder.name)

    def test_lines_there_and_back(self):
        lines = "".join("null\n" if i % 7 == 3 else f"{i * i - 9000}\n" for i in range(30_000)).encode()
        status, container, said = run("compress", "--type", "i64?", "--scheme", "for(bitpacked)", "-", "-", source=lines)
        self.assertEqual((status, said), (0, ""))
        self.assertEqual(run("decode", "-", "-", source=container), (0, lines, ""))
        (self.folder / "column").write_bytes(container)
        status, told, said = run("inspect", self.folder / "column")
        self.assertEqual((status, said), (0, ""))
        self.assertRegex(told.decode(), r"column: 30000 items of int64\?, 4286 null, \d+ bytes, [\d.]+ bits an item, [a-z0-9:(),_]+\n")

    def test_npy(self):
        for dtype in ("u1", "u2", "u4", "u8", "i1", "i2", "i4", "i8"):
            name = f"{dtype[0].strip('i')}int{8 * int(dtype[1])}"
            items, path, back = list(range(100)) * 20, self.folder / "items.npy", self.folder / "back.npy"
            container = self.folder / "column"
            container.write_bytes(bytes(flcol.array(items, dtype=name)))
            self.assertEqual(run("decode", container, path), (0, b"", ""))
            if np is not None:
                self.assertEqual((np.load(path).tolist(), np.load(path).dtype), (items, np.dtype(dtype)))
                np.save(path, np.array(items, dtype))
            self.assertEqual(run("compress", "--scheme", "bitpacked", path, container), (0, b"", ""))
            self.assertEqual((run("decode", container, back)[0], back.read_bytes()), (0, path.read_bytes()))
            self.assertIn(b"fastlanes.bitpacked", container.read_bytes())

    def test_chunks(self):
        lines = "".join("null\n" if i % 7 == 3 else f"{i}\n" for i in range(25_000)).encode()
        items = [None if i % 7 == 3 else i for i in range(25_000)]
        words = ["copy", "--scheme", "for(bitpacked)", "--chunk", 10_000]
        (self.folder / "column").write_bytes(bytes(flcol.array(items, dtype="uint16?")))
        for source, more in (("-", ["--type", "u16?"]), (self.folder / "column", [])):
            status, chunks, said = run(*words, *more, source, source=lines)
            self.assertEqual((status, said), (0, ""))
            back = []
            for number, line in enumerate(chunks.decode().splitlines()):
                self.assertTrue(line.startswith(f"{number}\t\\\\x"))
                back += flcol.frombytes(bytes.fromhex(line.split("x", 1)[1])).to_list()
            self.assertEqual((number, back), (2, items))
        self.assertEqual(run("copy", "--scheme", "delta", "--type", "u8", "-")[1].count(b"\n"), 1)

    def test_what_is_asked(self):
        lines = b"5\n-7\nnull\n9\n18446744073709551610\n".replace(b"18446744073709551610", b"9223372036854775807")
        (self.folder / "lines").write_bytes(lines)
        (self.folder / "column").write_bytes(bytes(flcol.array([5, -7, None, 9, 2**63 - 1], dtype="int64")))
        asked = {
            "sum": f"{2**63 + 6}", "min": "-7", "max": f"{2**63 - 1}", "mean": repr((2**63 + 6) / 4), "count": "4", "nulls": "1",
            "count < 6": "2", "count == -7": "1", "count between -7 9": "3", "count > 9999999999999999999": "0",
            "where < 6": "5\n-7", "where != 5": f"-7\n9\n{2**63 - 1}", "between 5 9": "5\n9", "where between 5 9": "5\n9",
        }  # fmt: skip
        for question, answer in asked.items():
            for words in ([self.folder / "column", *question.split()], ["--type", "i64?", self.folder / "lines", *question.split()]):
                with self.subTest(words):
                    self.assertEqual(run("ask", *words), (0, f"{answer}\n".encode(), ""))
        self.assertEqual(run("ask", self.folder / "column", "where", "<", "-7"), (0, b"", ""))
        nothing = bytes(flcol.array([None, None], dtype="uint8"))
        for question, answer in {"sum": b"0", "min": b"null", "max": b"null", "mean": b"null", "count": b"0", "nulls": b"2"}.items():
            self.assertEqual(run("ask", "-", question, source=nothing), (0, answer + b"\n", ""))
        for question, answer in {"sum": b"2", "count": b"3", "nulls": b"1"}.items():
            self.assertEqual(run("ask", "-", question, source=BOOLEANS), (0, answer + b"\n", ""))
        many = bytes(flcol.constant(5, 1000))
        self.assertEqual(run("ask", "--limit", "999", "-", "where", ">", "4", source=many)[:2], (1, b""))
        self.assertEqual(run("ask", "--limit", "1000", "-", "where", ">", "4", source=many), (0, b"5\n" * 1000, ""))

    def test_what_is_refused(self):
        bad = [
            (["compress", "--type", "u8", "--scheme", "for", "-", "-"], b"1\nx\n", "no item of uint8: one of those from b'1"),
            (["compress", "--type", "u8", "--scheme", "for", "-", "-"], b"1\n256\n", "does not fit uint8"),
            (["compress", "--type", "u8", "--scheme", "for", "-", "-"], b"1\nnull\n", "has no nulls"),
            (["compress", "--scheme", "for", "-", "-"], b"1\n", "need a type"),
            (["compress", "--type", "u9", "--scheme", "for", "-", "-"], b"1\n", "no type 'u9'"),
            (["compress", "--type", "u8", "--scheme", "four", "-", "-"], b"1\n", "BadScheme"),
            (["compress", "--scheme", "for", "-", "-"], b"\x93NUMPY\x01\x00\x05", "malformed"),
            (["copy", "--type", "u8", "--scheme", "for", "-"], b"1\n256\n", "does not fit uint8"),
            (["decode", "-", "-"], b"FLC1", "BadContainer"),
            (["compress", "--type", "u8", "--scheme", "for", "-", "-"], b"1" * 5000 + b"\n", "no item of uint8"),
            (["compress", "--type", "u8", "--scheme", "for", "-", "-"], b"-" + b"0" * 5000 + b"\n", "no item of uint8"),
            (["compress", "--type", "u64", "--scheme", "for", "-", "-"], b"18446744073709551616\n", "does not fit uint64"),
            (["compress", "--type", "f8", "--scheme", "for", "-", "-"], b"1\n", "no type 'f8'"),
            (["compress", "--type", "bool", "--scheme", "for", "-", "-"], b"1\n", "no type of integers"),
            (["compress", "--type", "u8", "--scheme", "\udcff", "-", "-"], b"1\n", "BadScheme"),
            (["compress", "-", "-"], BOOLEANS, "no scheme encodes booleans"),
            (["copy", "-"], BOOLEANS, "no scheme encodes booleans"),
            (["compress", "--scheme", "for", "-", "-"], npy("{'descr': '<u4', 'shape': (2,)}", bytes(7)), "not as many items"),
            (["compress", "--scheme", "for", "-", "-"], npy("{'descr': '<u4', 'shape': (-2,)}", bytes(8)), "not as many items"),
            (["compress", "--scheme", "for", "-", "-"], npy("{'descr': '<u4', 'shape': ('a',)}", b""), "not as many items"),
            (["compress", "--scheme", "for", "-", "-"], npy("{'descr': ['<u4'], 'shape': (2,)}", bytes(8)), "one dimension"),
            (["compress", "--scheme", "for", "-", "-"], npy("{'descr': '<u4', 'shape': 2}", bytes(8)), "one dimension"),
            (["compress", "--scheme", "for", "-", "-"], npy("{'descr': '<f8', 'shape': (1,)}", bytes(8)), "one dimension"),
            (["compress", "--scheme", "for", "-", "-"], npy("[" * 20000, bytes(8)), "malformed"),
            (["decode", "-", "-"], bytes(flcol.constant(5, 2**40)), "--limit 1099511627776"),
            (["decode", "--limit", "2", "-", "-"], bytes(flcol.array([1, 2, 3])), "has 3 items, more than 2"),
            (["ask", "--limit", "2", "-", "where", ">", "0"], bytes(flcol.array([1, 2, 3])), "has 3 items, more than 2"),
            (["ask", "-", "count", "=<", "5"], bytes(flcol.array([1])), "an operator is one of =="),
            (["ask", "-", "count", "<"], bytes(flcol.array([1])), "a test is an operator"),
            (["ask", "-", "count", "<", "1.5"], bytes(flcol.array([1])), "a test is an operator"),
            (["ask", "-", "where"], bytes(flcol.array([1])), "a test is an operator"),
            (["ask", "-", "between", "1"], bytes(flcol.array([1])), "a test is an operator"),
            (["ask", "-", "min", "<", "1"], bytes(flcol.array([1])), "min takes no test"),
            (["ask", "-", "min"], BOOLEANS, "min is asked of integers"),
            (["ask", "-", "where", "==", "1"], BOOLEANS, "where is asked of integers"),
            (["ask", "-", "sum"], b"1\n", "need a type"),
            (["decode", "-", self.folder], bytes(flcol.array([1])), "directory"),
            (["decode", "-", "/dev/full"], bytes(flcol.array([1])), "No space left"),
            (["decode", "-", self.folder / "x.npy"], bytes(flcol.array([None])), "no nulls"),
            (["inspect", self.folder / "missing"], b"", "No such file"),
        ]
        for words, source, said in bad:
            with self.subTest(words=words):
                status, written, error = run(*words, source=source)
                self.assertEqual((status, written), (1, b""))
                self.assertIn(said, error)
                self.assertRegex(error, r"\Aflcol: [^\n]+\n\Z")
        for words in (["decode"], ["ask", "-"], ["ask", "-", "median"], ["decode", "--limit", "x", "-", "-"], ["decode", "--limit", "0", "-", "-"], ["copy", "--chunk", "1e3", "-"], []):
            status, written, error = run(*words)
            self.assertEqual((status, written), (2, b""))
            self.assertNotIn("Traceback", error)

    def test_output_that_nobody_takes(self):
        (self.folder / "column").write_bytes(bytes(flcol.array(range(200_000), dtype="uint32")))
        for words in (f"decode {self.folder}/column -", f"copy --scheme for {self.folder}/column", f"inspect {self.folder}/column"):
            for sink, status in (("| head -c 9", "0"), (">/dev/full", "1"), (">&-", "1")):
                shell = f"'{sys.executable}' -m flcol {words} {sink}; echo $? >&2"
                ended = subprocess.run(["bash", "-c", shell], capture_output=True, text=True, cwd=SOURCES)
                with self.subTest(words=words, sink=sink):
                    self.assertRegex(ended.stderr, rf"\A(flcol: [^\n]+\n)?{status}\n\Z")

    def test_files_before_a_bad_one_are_told_of(self):
        (self.folder / "column").write_bytes(bytes(flcol.array([1, 2])))
        status, told, said = run("inspect", self.folder / "column", self.folder / "missing")
        self.assertEqual((status, told.count(b"2 items of int64")), (1, 1))
        self.assertIn("No such file", said)

    def test_a_library_that_is_not_there(self):
        with mock.patch.dict("os.environ", {"FLCOL_LIBRARY": "/nowhere"}):
            status, written, error = run("inspect", "x")
        self.assertEqual((status, written, error.count("\n")), (1, b"", 1))
        self.assertIn("/nowhere", error)

    def test_more_items_than_a_length_has(self):
        (self.folder / "column").write_bytes(bytes(flcol.constant(5, 2**64 - 1)))
        status, told, said = run("inspect", self.folder / "column")
        self.assertEqual((status, said), (0, ""))
        self.assertIn(b"18446744073709551615 items of int64", told)
        (self.folder / "column").write_bytes(bytes(flcol.constant(5, 3)))
        self.assertEqual(run("decode", "--limit", "3", self.folder / "column", "-"), (0, b"5\n" * 3, ""))

    def test_booleans(self):
        status, told, said = run("inspect", "-", source=BOOLEANS)
        self.assertEqual((status, said), (0, ""))
        self.assertRegex(told.decode(), r"-: 4 items of bool\?, 1 null, \d+ bytes, [\d.]+ bits an item\n")
        self.assertEqual(run("decode", "-", "-", source=BOOLEANS), (0, b"true\nfalse\nnull\ntrue\n", ""))
        (self.folder / "column").write_bytes(bytes(flcol.array([True, False])))
        self.assertEqual(run("decode", self.folder / "column", self.folder / "column.npy"), (0, b"", ""))
        if np is not None:
            self.assertEqual(np.load(self.folder / "column.npy").tolist(), [True, False])

    def test_a_closing_line(self):
        lines = b"".join(b"%d\n" % i for i in range(250_001))
        words = ["copy", "--closed", "--scheme", "for(bitpacked)", "--chunk", 1000, "--type", "u32?", "-"]
        status, chunks, said = run(*words, source=lines)
        self.assertEqual((status, said), (0, ""))
        self.assertEqual(chunks.splitlines()[-1], b"251\t\\N")
        self.assertEqual(chunks.count(b"\n"), 252)
        status, chunks, said = run(*words, source=lines + b"x\n" + lines)
        self.assertEqual(status, 1)
        self.assertRegex(said, r"\Aflcol: a line is no item [^\n]+\n\Z")
        self.assertGreater(chunks.count(b"\n"), 100)
        self.assertFalse(any(line.endswith(b"\\N") for line in chunks.splitlines()))
        self.assertEqual(run("copy", "--closed", "--type", "u32", "-")[1].count(b"\n"), 2)

    def test_a_bar_for_long_work(self):
        for is_terminal, seconds, wanted in ((True, 2, "reading   [###############               ]  50 %"), (True, 0, ""), (False, 2, "")):
            screen = io.StringIO()
            screen.isatty = lambda: is_terminal
            clock = itertools.count(0, seconds)
            with mock.patch("sys.stderr", screen), mock.patch("time.monotonic", lambda: next(clock)):
                with progress("reading") as tell:
                    tell(5, 10)
            self.assertIn(wanted, screen.getvalue())
            self.assertEqual(screen.getvalue().endswith("\r\033[K"), wanted != "")


if __name__ == "__main__":
    unittest.main()
