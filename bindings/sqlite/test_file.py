"""Files of chunks as tables of SQLite: their rows beside those of a plain table, chunks that are not read, and hostile files.

FLCOL_EXTENSION is the extension.
"""
import os
import pathlib
import random
import sqlite3
import tempfile
import unittest

from test_flcol import Case, containers

NO_ROWS = []


class Files(Case):
    def setUp(self):
        super().setUp()
        self.room = tempfile.TemporaryDirectory()
        self.path = os.path.join(self.room.name, "it's a file")
        self.chance = random.Random(11)

    def tearDown(self):
        super().tearDown()
        self.room.cleanup()

    def write(self, data):
        pathlib.Path(self.path).write_bytes(data)

    def rows(self, condition="1", *values, table="flcol_file(?)"):
        words = (self.path,) if "?" in table else ()
        return self.base.execute(f"SELECT idx, value FROM {table} WHERE {condition}", words + values).fetchall()

    def says(self, name, condition="1", table="flcol_file(?)"):
        """The rows are refused, and the session goes on."""
        with self.assertRaisesRegex(sqlite3.OperationalError, rf"\A{name}"):
            self.rows(condition, table=table)
        self.assertEqual(self.ask("SELECT flcol_len(flcol(1))"), 1)


class Rows(Files):
    def conditions(self, items):
        """Conditions on both columns, with constants in the middle of what is there, at its ends, and of other kinds."""
        valid = [it for it in items if it is not None] or [0]
        constants = {self.chance.choice(valid), max(valid), min(valid), -(2**63), 2**63 - 1, 0}
        places = {0, len(items) - 1, len(items), len(items) // 2, -1, 2**63 - 1, -(2**63)}
        one, two = self.chance.choice(valid), self.chance.choice(valid)
        for op in ("=", "<>", "<", "<=", ">", ">=", "IS", "IS NOT"):
            yield from (f"value {op} {it}" for it in constants)
            yield from (f"idx {op} {it}" for it in places)
            yield f"{one} {op} value"
        yield " AND ".join(f"value >= {one - it} AND value < {one + 20 - it}" for it in range(20))
        yield from (f"value BETWEEN {one} AND {two}", f"value > {one} AND value < {two}", f"value = {one} OR value = {two}",
                    f"value IN ({one}, {two}, 7)", f"idx IN (3, 0, {len(items) - 1})", f"idx < 4 AND value >= {one}",
                    "value IS NULL", "value IS NOT NULL", "value IS NULL AND idx > 2", "idx IS NULL", "value = NULL",
                    "idx < NULL", "idx NOTNULL", f"value < {one}.5", f"value >= '{one}'", "value < 'a'", "value > x'00'", "idx > 2.5", "idx <= '3'",
                    f"NOT value < {one}", f"value + 0 < {one}", "value = idx", "value BETWEEN 3 AND 2", "rowid = 2", "rowid > 1")  # fmt: skip

    def test_rows_are_those_of_a_table(self):
        for data, items in containers.random_files():
            self.write(data)
            self.base.execute("DROP TABLE IF EXISTS plain")
            self.base.execute("CREATE TABLE plain(idx INTEGER, value INTEGER)")
            self.base.executemany("INSERT INTO plain(rowid, idx, value) VALUES (?1, ?1, ?2)", enumerate(items))
            self.assertEqual(self.rows(), list(enumerate(items)))
            for condition in self.conditions(items) if len(items) < 5000 else ("value >= 3", "idx > 65000", "value IS NULL"):
                for order in ("", "ORDER BY idx LIMIT 3", "ORDER BY idx DESC LIMIT 2", "ORDER BY value, idx LIMIT 2 OFFSET 1"):
                    with self.subTest(condition=condition, order=order, items=len(items)):
                        found = self.rows(f"{condition} {order}")
                        plain = self.rows(f"{condition} {order}", table="plain")
                        self.assertEqual(sorted(found, key=str) if order == "" else found, sorted(plain, key=str) if order == "" else plain)

    def test_a_table_is_made_of_a_file(self):
        self.write(containers.chunk_file("i32", [[1, 2], [3, None]]))
        for name, words in (("made", "'{}'"), ("verified", "'{}', verify"), ("quoted", '"{}"')):
            path = self.path if name == "quoted" else self.path.replace("'", "''")
            self.base.execute(f"CREATE VIRTUAL TABLE {name} USING flcol_file({words.format(path)})")
            self.assertEqual(self.rows("value > 1", table=name), [(1, 2), (2, 3)])
            self.assertEqual(self.ask(f"SELECT count(*) FROM {name}"), 4)
        self.write(containers.chunk_file("i32", [[7]]))
        self.assertEqual(self.rows(table="made"), [(0, 7)])
        with self.assertRaises(sqlite3.OperationalError):
            self.base.execute("SELECT filename FROM made").fetchall()
        os.unlink(self.path)
        self.says(r"flcol: .*: No such file", table="made")
        self.base.execute("DROP TABLE made")

    def test_files_are_joined(self):
        self.write(containers.chunk_file("u16", [[1, 2, 3], [10, 20, 30]]))
        asked = "SELECT a.value, b.value FROM flcol_file(?1) a, flcol_file(?1) b WHERE b.idx = a.value AND a.value > 2"
        self.assertEqual(self.base.execute(asked, (self.path,)).fetchall(), [(3, 10)])
        self.base.execute("CREATE TABLE files(name)")
        self.base.executemany("INSERT INTO files VALUES (?)", [(self.path,), (None,), (self.path,)])
        self.assertEqual(self.ask("SELECT sum(value) FROM files, flcol_file(name) WHERE value >= 10"), 120)
        self.assertEqual(self.ask("SELECT filename FROM flcol_file(?) LIMIT 1", self.path), self.path)
        self.assertEqual(self.ask("SELECT verify FROM flcol_file(?, 1) LIMIT 1", self.path), 1)

    def test_chunks_that_conditions_leave_out_are_not_read(self):
        """Of four chunks one has another checksum: what does not need it answers."""
        parts = [list(range(at, at + 1000)) for at in range(0, 4000, 1000)]
        self.write(containers.chunk_file("u32", parts, changed=containers.one_changed(2, checksum=1)))
        for condition, count in (("value < 2000", 2000), ("value = 3500", 1), ("value > 2999", 1000), ("idx < 1500", 1500), ("idx >= 3000", 1000),
                                 ("idx = 7", 1), ("rowid BETWEEN 3998 AND 5000", 2), ("value BETWEEN 500 AND 1500", 1001), ("value IS NULL", 0),
                                 ("value > 5000", 0), ("value < 2500 AND idx < 1000", 1000), ("value = 1 OR value = 2", 2), ("value IN (7, 3007)", 2),
                                 ("idx < 10 ORDER BY value DESC", 10), ("value = NULL", 0), ("idx < NULL", 0)):  # fmt: skip
            with self.subTest(condition):
                if " OR " not in condition:
                    self.assertEqual(len(self.rows(condition)), count)
        for condition in ("value < 2001", "value = 2500", "idx = 2000", "1", "value IS NOT NULL", "value <> 5"):
            with self.subTest(condition):
                self.says("flcol: BadChunk: ", condition)

    def test_an_item_above_64_bits_signed(self):
        self.write(containers.chunk_file("u64", [[1, 2**63], [2**64 - 1, 5]]))
        self.assertEqual(self.rows("value < 100"), [(0, 1), (3, 5)])
        self.assertEqual(self.rows("value = 5"), [(3, 5)])
        self.says("flcol: CastOutOfRange: ", "value > 100")
        self.says("flcol: CastOutOfRange: ")

    def test_a_test_goes_over_many_items(self):
        many = 2**28
        data = containers.chunk_file("u8", [[3]], encode=lambda name, items: containers.constant(name, 3, many),
                                     changed=containers.one_changed(0, len=many, least=0, greatest=255))  # fmt: skip
        self.write(data)
        self.assertEqual(self.rows("value > 3"), NO_ROWS)
        self.assertEqual(self.rows(f"idx >= {many - 2}"), [(many - 2, 3), (many - 1, 3)])

    def test_a_file_that_is_replaced_is_read_to_its_end(self):
        parts = [list(range(at, at + 1000)) for at in range(0, 4000, 1000)]
        self.write(containers.chunk_file("u32", parts))
        rows = self.base.execute("SELECT value FROM flcol_file(?)", (self.path,))
        self.assertEqual(rows.fetchone(), (0,))
        os.unlink(self.path)
        self.write(containers.chunk_file("u32", [[7]]))
        self.assertEqual(len(rows.fetchall()), 3999)

    def test_a_file_that_is_cut_is_refused(self):
        parts = [list(range(at, at + 1000)) for at in range(0, 4000, 1000)]
        self.write(containers.chunk_file("u32", parts))
        rows = self.base.execute("SELECT value FROM flcol_file(?)", (self.path,))
        self.assertEqual(rows.fetchone(), (0,))
        os.truncate(self.path, 1000)
        with self.assertRaisesRegex(sqlite3.OperationalError, r"\Aflcol: FileTooShort"):
            rows.fetchall()


class Hostile(Files):
    def test_feet_that_can_not_be(self):
        for what, name, data in containers.bad_feet():
            self.write(data)
            for condition in ("1", "value < 3", "idx = 0"):
                with self.subTest(what, condition=condition):
                    self.says(f"flcol: {name}: ", condition)

    def test_chunks_that_are_others(self):
        for what, name, data in containers.bad_chunks():
            self.write(data)
            with self.subTest(what):
                self.says(f"flcol: {name}: ")

    def test_statistics_that_are_not_so(self):
        """They are believed, unless the file is verified."""
        for data in containers.false_statistics():
            self.write(data)
            self.assertEqual(len(self.rows()), 8)
            self.says("flcol: BadStatistics: ", table="flcol_file(?, 1)")
        self.write(containers.chunk_file("i32", [[1, 2, 3]], changed=containers.one_changed(0, least=2)))
        self.assertEqual(self.rows("value = 1"), NO_ROWS)
        for data, items in containers.random_files(seed=2):
            if len(items) < 2000:
                self.write(data)
                self.assertEqual(self.rows(table="flcol_file(?, 1)"), list(enumerate(items)))

    def test_each_cut_and_each_changed_byte(self):
        whole = containers.chunk_file("i16", [[1, 2, 3], [40, None]])
        for data in containers.cuts(whole):
            self.write(data)
            self.says("flcol: (FileTooShort|BadMark|BadFootLength|BadFootChecksum): ")
        changed = list(containers.changes(whole))
        refused = 0
        for data in changed:
            self.write(data)
            try:
                self.assertEqual(self.rows(), [(0, 1), (1, 2), (2, 3), (3, 40), (4, None)])
            except sqlite3.OperationalError as error:
                self.assertRegex(str(error), r"\Aflcol: [A-Z][A-Za-z]+: .+\Z")
                refused += 1
        self.assertGreater(refused, len(changed) // 2)

    def test_what_is_no_file(self):
        os.mkfifo(f"{self.room.name}/pipe")
        for path, said in ((self.room.name, "Is a directory"), (f"{self.room.name}/none", "No such file"), ("", "No such file"),
                           (f"{self.room.name}/pipe", "No such device"), ("/dev/zero", "No such device")):  # fmt: skip
            with self.assertRaisesRegex(sqlite3.OperationalError, f"flcol: .*: {said}"):
                self.base.execute("SELECT * FROM flcol_file(?)", (path,)).fetchall()
        self.assertEqual(self.base.execute("SELECT * FROM flcol_file(NULL)").fetchall(), NO_ROWS)

    def test_other_arguments(self):
        for call in ("flcol_file", "flcol_file()", "flcol_file(3)", "flcol_file(x'00')", "flcol_file('a', 'verify')", "flcol_file('a', 1.5)"):
            with self.assertRaisesRegex(sqlite3.OperationalError, "flcol_file takes a filename"):
                self.base.execute(f"SELECT * FROM {call}").fetchall()
        for words in ("'a', other", "'a', verify, verify"):
            with self.assertRaisesRegex(sqlite3.OperationalError, "flcol_file takes a filename"):
                self.base.execute(f"CREATE VIRTUAL TABLE bad USING flcol_file({words})")

    def test_a_schema_from_strangers_reads_no_file(self):
        self.write(containers.chunk_file("i32", [[1]]))
        self.base.execute("CREATE VIRTUAL TABLE made USING flcol_file('" + self.path.replace("'", "''") + "')")
        self.base.execute("CREATE VIEW seen AS SELECT * FROM made")
        self.base.execute("PRAGMA trusted_schema = off")
        with self.assertRaisesRegex(sqlite3.OperationalError, "unsafe use of virtual table"):
            self.base.execute("SELECT * FROM seen").fetchall()


if __name__ == "__main__":
    unittest.main()
