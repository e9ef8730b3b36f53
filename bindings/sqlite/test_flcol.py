"""The extension against SQLite's own table of the same items, on hostile blobs, and its errors.

FLCOL_EXTENSION is the extension; statuses of the library come as `flcol: NAME: SENTENCE`.
"""
import os
import pathlib
import random
import re
import sqlite3
import sys
import unittest

sys.path.insert(0, str(pathlib.Path(__file__).resolve().parent.parent / "shared"))
import containers  # noqa: E402

EXTENSION = os.environ["FLCOL_EXTENSION"]
OPERATORS = ("=", "<>", "!=", "<", "<=", ">", ">=")
SCHEMES = ("primitive", "delta", "rle", "for(bitpacked)", "for(blocked)", "forc(bitpacked,_)", "delta(_,for(bitpacked))",
           "rle(for(bitpacked),bitpacked,_)")  # fmt: skip
EXTREMES = (-(2**63), -1, 0, 2**63 - 1)
REFUSAL = re.compile(r"flcol: [A-Z][A-Za-z]+: .+\Z")


def connect():
    base = sqlite3.connect(":memory:")
    base.enable_load_extension(True)
    base.load_extension(EXTENSION)
    return base


class Case(unittest.TestCase):
    def setUp(self):
        self.base = connect()

    def tearDown(self):
        self.base.close()

    def ask(self, statement, *values):
        """The first cell of a statement's answer."""
        return self.base.execute(statement, values).fetchone()[0]

    def refused(self, name, statement, *values):
        """The statement's error is the refusal, and the session goes on."""
        with self.assertRaisesRegex(sqlite3.OperationalError, rf"\A{name}: .+\Z"):
            self.base.execute(statement, values).fetchall()
        self.assertEqual(self.ask("SELECT flcol_len(flcol(1))"), 1)


class Columns(Case):
    """Random columns beside a table of their items."""

    def setUp(self):
        super().setUp()
        self.base.execute("CREATE TABLE plain(i INTEGER PRIMARY KEY, x INTEGER)")
        self.chance = random.Random(7)

    def fill(self, items):
        self.base.execute("DELETE FROM plain")
        self.base.executemany("INSERT INTO plain VALUES (?, ?)", enumerate(items))

    def constants(self, items):
        valid = [item for item in items if item is not None] or [0]
        picked = [self.chance.choice(valid) for _ in range(3)]
        return sorted({*EXTREMES, *picked, min(max(picked[0] + 1, -(2**63)), 2**63 - 1)})

    def look(self, blob, items):
        """Each function of a column answers as the table does."""
        self.assertEqual(self.ask("SELECT flcol_len(?)", blob), len(items))
        rows = self.base.execute('SELECT "index", value FROM flcol_each(?)', (blob,)).fetchall()
        self.assertEqual(rows, self.base.execute("SELECT i, x FROM plain ORDER BY i").fetchall())
        for index in {0, len(items) - 1, self.chance.randrange(len(items))}:
            self.assertEqual(self.ask("SELECT flcol_get(?, ?)", blob, index), items[index])

    def count(self, blob, items):
        constants = self.constants(items)
        for constant in constants:
            for op in OPERATORS:
                plain = self.ask(f"SELECT count(*) FROM plain WHERE x {op} ?", constant)
                self.assertEqual(self.ask("SELECT flcol_count(?, ?, ?)", blob, op, constant), plain, (op, constant))
        for lower in constants:
            for upper in constants:
                plain = self.ask("SELECT count(*) FROM plain WHERE x BETWEEN ? AND ?", lower, upper)
                self.assertEqual(self.ask("SELECT flcol_count_between(?, ?, ?)", blob, lower, upper), plain, (lower, upper))

    def gather(self, blob, items):
        """Sums, extremes and nulls are those of the table; a sum beyond 64 bits is the same error."""
        valid = [item for item in items if item is not None]
        plain = self.base.execute("SELECT min(x), max(x), count(*) - count(x) FROM plain").fetchone()
        self.assertEqual(self.base.execute("SELECT flcol_min(?1), flcol_max(?1), flcol_nulls(?1)", (blob,)).fetchone(), plain)
        mean = self.ask("SELECT flcol_avg(?)", blob)
        if valid:
            true_mean = sum(valid) / len(valid)
            self.assertAlmostEqual(mean, true_mean, delta=abs(true_mean) * 2**-52)
        else:
            self.assertIsNone(mean)
        exact = sum(valid) if valid else None
        if sum(map(abs, valid)) < 2**63:  # no sum of some of them is beyond 64 bits, in whatever order SQLite adds
            self.assertEqual(self.ask("SELECT sum(x) FROM plain"), exact)
        if exact is None or -(2**63) <= exact < 2**63:
            self.assertEqual(self.ask("SELECT flcol_sum(?)", blob), exact)
        else:
            self.overflows(blob)

    def select(self, blob, items):
        """Bits are what the table answers, alone and joined, and what is gathered under them is that of the table's rows."""
        constants = self.constants(items)
        tests = (("flcol_where(:c, :op, :a)", "x {op} :a"), ("flcol_not(flcol_where(:c, :op, :a))", "NOT x {op} :a"),
                 ("flcol_and(flcol_where(:c, :op, :a), flcol_where(:c, '>', :b))", "x {op} :a AND x > :b"),
                 ("flcol_or(flcol_where(:c, :op, :a), flcol_where(:c, '=', :b))", "x {op} :a OR x = :b"),
                 ("flcol_where(:c, :op, :a, flcol_where(:c, '>', :b))", "x {op} :a AND x > :b"),
                 ("flcol_not(flcol_where(:c, :op, :a, flcol_where(:c, '<=', :b)))", "coalesce(NOT (x {op} :a AND x <= :b), 1)"),
                 ("flcol_is_in(:c, :a, :b)", "x IN (:a, :b)"), ("flcol_not(flcol_is_in(:c, :a))", "x NOT IN (:a)"))  # fmt: skip
        for op in OPERATORS:
            words = {"c": blob, "op": op, "a": self.chance.choice(constants), "b": self.chance.choice(constants)}
            for bits, condition in tests:
                with self.subTest(bits=bits, **{name: word for name, word in words.items() if name != "c"}):
                    self.select_by(bits, f"SELECT x FROM plain WHERE {condition.format(op=op)}", words)

    def select_by(self, bits, statement, words):
        """What is gathered under bits, beside the rows of a statement."""
        rows = [item for item, in self.base.execute(statement, words)]
        met = [item for item in rows if item is not None]
        asked = f"SELECT flcol_count({bits}), flcol_min(:c, {bits}), flcol_max(:c, {bits}), flcol_avg(:c, {bits})"
        *found, mean = self.base.execute(asked, words).fetchone()
        self.assertEqual(found, [len(rows), min(met, default=None), max(met, default=None)])
        if met:
            self.assertAlmostEqual(mean, sum(met) / len(met), delta=abs(sum(met) / len(met)) * 2**-52)
        else:
            self.assertIsNone(mean)
        asked = f"SELECT flcol_sum(:c, {bits})"
        if -(2**63) <= sum(met) < 2**63:
            self.assertEqual(self.base.execute(asked, words).fetchone()[0], sum(met) if met else None)
        else:
            with self.assertRaisesRegex(sqlite3.OperationalError, r"\Ainteger overflow\Z"):
                self.base.execute(asked, words).fetchone()

    def overflows(self, blob):
        with self.assertRaisesRegex(sqlite3.OperationalError, r"\Ainteger overflow\Z"):
            self.ask("SELECT flcol_sum(?)", blob)

    def cut(self, blob, items):
        start, end = sorted(self.chance.randrange(len(items) + 1) for _ in range(2))
        for start, end in ((start, end), (0, len(items)), (end, end)):
            part = self.ask("SELECT flcol_slice(?, ?, ?)", blob, start, end)
            self.assertEqual([it for it, in self.base.execute("SELECT value FROM flcol_each(?)", (part,))], items[start:end])

    def test_compressed_columns_answer_as_tables(self):
        for kind, items in containers.random_columns():
            with self.subTest(kind=kind, length=len(items)):
                self.fill(items)
                blob = self.ask("SELECT flcol(x) FROM (SELECT x FROM plain ORDER BY i)")
                self.look(blob, items)
                self.count(blob, items)
                self.gather(blob, items)
                self.select(blob, items)
                self.cut(blob, items)

    def test_columns_of_each_scheme_answer_as_tables(self):
        for kind, items in containers.random_columns(seed=2):
            if len(items) not in (7, 1025, 3000) or set(items) == {None}:
                continue
            self.fill(items)
            for scheme in SCHEMES:
                if kind == "any" and "for" in scheme:
                    continue  # differences of 2^63 and more are negative as integers of 64 bits, and not packed
                with self.subTest(kind=kind, length=len(items), scheme=scheme):
                    blob = self.ask("SELECT flcol(x, ?) FROM (SELECT x FROM plain ORDER BY i)", scheme)
                    self.look(blob, items)
                    self.count(blob, items)
                    self.gather(blob, items)
                    self.cut(blob, items)

    def test_each_type_compares_with_any_constant(self):
        for name in containers.TYPES:
            least, greatest = containers.bounds(name)
            items = [least, greatest, None, 0, 1] + [self.chance.randint(least, greatest) for _ in range(50)]
            for item in [it for it in items if it is not None and it > 2**63 - 1]:
                items[items.index(item)] = 2**63 - 1
            with self.subTest(type=name):
                self.fill(items)
                blob = containers.plain(name, items)
                self.look(blob, items)
                self.count(blob, items + [max(-(2**63), least - 1), min(2**63 - 1, greatest + 1)])
                self.gather(blob, items)
                self.select(blob, items + [max(-(2**63), least - 1), min(2**63 - 1, greatest + 1)])

    def test_a_column_without_items_has_no_totals(self):
        for name in containers.TYPES:
            for items in ([], [None], [None] * 70_000):
                blob = containers.plain(name, items)
                asked = "SELECT flcol_sum(?1), flcol_avg(?1), flcol_min(?1), flcol_max(?1), flcol_nulls(?1)"
                self.assertEqual(self.base.execute(asked, (blob,)).fetchone(), (None,) * 4 + (len(items),))

    def test_a_sum_is_that_of_all_windows(self):
        for name in containers.TYPES:
            least, greatest = containers.bounds(name)
            items = [least, 3, None, greatest] * 50_000
            blob, total = containers.plain(name, items), 50_000 * (least + 3 + greatest)
            with self.subTest(name):
                self.assertAlmostEqual(self.ask("SELECT flcol_avg(?)", blob), total / 150_000, delta=abs(total) * 2**-60)
                self.assertEqual(self.ask("SELECT flcol_min(?)", blob), least)
                if total < 2**63:
                    self.assertEqual(self.ask("SELECT flcol_sum(?)", blob), total)
                    self.assertEqual(self.ask("SELECT flcol_max(?)", blob), greatest)
                else:
                    self.overflows(blob)

    def test_bits_of_all_windows(self):
        """Bits of a column of more than two windows, which slices and the column's neighbours in SQL have too."""
        items = [None if at % 11 == 4 else at % 1000 for at in range(140_003)]
        self.fill(items)
        blob = containers.plain("i16", items)
        for a, b in ((0, 140_003), (1, 70_000), (65_535, 140_003), (65_536, 131_072)):
            part = self.ask("SELECT flcol_slice(?, ?, ?)", blob, a, b)
            bits = "flcol_and(flcol_where(?1, '>=', 300), flcol_not(flcol_is_in(?1, 400, 999, 1000000)))"
            plain = "SELECT count(*), sum(x), max(x) FROM plain WHERE i >= ?1 AND i < ?2 AND x >= 300 AND x NOT IN (400, 999)"
            under = "flcol_where(?1, '>=', 300, flcol_not(flcol_is_in(?1, 400, 999, 1000000)))"
            for met in (bits, under):
                asked = f"SELECT flcol_count({met}), flcol_sum(?1, {met}), flcol_max(?1, {met})"
                self.assertEqual(self.base.execute(asked, (part,)).fetchone(), self.base.execute(plain, (a, b)).fetchone())

    def test_bits_are_columns_of_booleans(self):
        """What other languages read of them, and what they write, is the same."""
        blob = containers.plain("i8", [3, None, 5])
        bits = self.ask("SELECT flcol_where(?, '>', 4)", blob)
        self.assertRegex(self.ask("SELECT flcol_inspect(?)", bits), r"\Abool\?, 3 items")
        self.assertEqual(self.ask("SELECT flcol_count(?)", b"FLC1" + containers.bools([1, 0, 1])), 2)
        self.assertEqual(self.ask("SELECT flcol_sum(?, ?)", blob, b"FLC1" + containers.bools([1, 1, 0])), 3)
        for items in ([], [None], [7]):
            blob = containers.plain("u16", items)
            for bits in ("flcol_where(?1, '=', 7)", "flcol_or(flcol_where(?1, '=', 7), flcol_not(flcol_where(?1, '<', 9)))"):
                self.assertEqual(self.ask(f"SELECT flcol_count({bits})", blob), items.count(7))

    def test_sums_at_the_ends_of_64_bits(self):
        self.assertEqual(self.ask("SELECT flcol_sum(?)", containers.plain("i64", [2**63 - 2, 1])), 2**63 - 1)
        self.assertEqual(self.ask("SELECT flcol_sum(?)", containers.plain("i64", [-(2**63) + 1, -1])), -(2**63))
        self.assertEqual(self.ask("SELECT flcol_sum(?)", containers.plain("i64", [2**63 - 1, 1, -1])), 2**63 - 1)
        for name, items in (("i64", [2**63 - 1, 1]), ("i64", [-(2**63), -1]), ("u64", [2**64 - 1] * 3), ("u64", [2**63])):
            self.overflows(containers.plain(name, items))

    def test_chunks_are_found_by_what_they_have(self):
        """Columns that SQLite fills have the least and the greatest item, and an index has them."""
        self.base.execute("CREATE TABLE ranged(items BLOB, least INTEGER GENERATED ALWAYS AS (flcol_min(items)) STORED,"
                          " greatest INTEGER GENERATED ALWAYS AS (flcol_max(items)) STORED)")  # fmt: skip
        self.base.execute("CREATE INDEX bounds ON ranged(least, greatest)")
        chunks = [containers.plain("i64", list(range(start, start + 1000))) for start in range(0, 10_000, 1000)]
        self.base.executemany("INSERT INTO ranged VALUES (?)", [(chunk,) for chunk in [*chunks, containers.plain("u8", [None])]])
        asked = "SELECT sum(flcol_count(items, '<', 1500)), count(*) FROM ranged WHERE least < 1500"
        self.assertEqual(self.base.execute(asked).fetchone(), (1500, 2))
        self.assertIn("bounds", self.base.execute(f"EXPLAIN QUERY PLAN {asked}").fetchone()[3])
        self.assertEqual(self.ask("SELECT count(*) FROM ranged WHERE least IS NULL AND greatest IS NULL"), 1)

    def test_groups_have_columns_of_their_own(self):
        self.fill([at % 10 for at in range(5000)])
        lengths = self.base.execute("SELECT flcol_len(flcol(x)), count(*) FROM plain GROUP BY x % 3").fetchall()
        self.assertTrue(all(left == right for left, right in lengths) and len(lengths) == 3)

    def test_a_column_is_asked_for_each_row(self):
        """A blob of a column of a table differs from row to row; one of a statement is kept."""
        self.base.execute("CREATE TABLE chunks(k INTEGER PRIMARY KEY, items BLOB)")
        for key in range(20):
            self.base.execute("INSERT INTO chunks VALUES (?, ?)", (key, containers.plain("u16", [key] * (key + 1))))
        rows = self.base.execute("SELECT k, flcol_len(items), flcol_get(items, k) FROM chunks").fetchall()
        self.assertEqual(rows, [(key, key + 1, key) for key in range(20)])
        blob = containers.plain("i32", list(range(20)))
        rows = self.base.execute("SELECT flcol_get(?, k) FROM chunks", (blob,)).fetchall()
        self.assertEqual(rows, [(key,) for key in range(20)])

    def test_items_are_joined(self):
        self.fill([5, None, 7])
        joined = 'SELECT i, value FROM plain, flcol_each((SELECT flcol(x) FROM (SELECT x FROM plain ORDER BY i))) ON "index" = i'
        self.assertEqual(self.base.execute(joined).fetchall(), [(0, 5), (1, None), (2, 7)])
        nested = "SELECT count(*) FROM flcol_each(?1) a, flcol_each(?1) b"
        self.assertEqual(self.ask(nested, containers.PACKED), 9)
        self.assertEqual(self.ask('SELECT value FROM flcol_each(?) ORDER BY "index" DESC', containers.PACKED), 3)

    def test_the_hidden_column_is_the_argument(self):
        self.base.execute("CREATE TABLE c(b BLOB)")
        blobs = [containers.PACKED, containers.plain("i8", [4]), containers.plain("i8", []), None]
        self.base.executemany("INSERT INTO c VALUES (?)", [(blob,) for blob in blobs])
        every = [1, 2, 3, 4]
        for statement in ("SELECT value FROM c, flcol_each(b) WHERE container IS NOT NULL ORDER BY value",
                          "SELECT value FROM c JOIN flcol_each(c.b) e ON e.container = c.b ORDER BY value",
                          "SELECT value FROM c, flcol_each(b) WHERE container = b AND \"index\" >= 0 ORDER BY value"):  # fmt: skip
            with self.subTest(statement):
                self.assertEqual([value for value, in self.base.execute(statement)], every)
        rows = self.base.execute("SELECT b, container FROM c, flcol_each(b)").fetchall()
        self.assertTrue(len(rows) == 4 and all(blob == container for blob, container in rows))
        self.assertEqual(self.base.execute("SELECT value FROM c, flcol_each(b) WHERE container IS NULL").fetchall(), [])

    def test_the_old_name_of_counting(self):
        for bounds in ((1, 2), (3, 1), (-(2**63), 2**63 - 1)):
            named = self.ask("SELECT flcol_count_between(?, ?, ?)", containers.PACKED, *bounds)
            self.assertEqual(self.ask("SELECT flcol_between(?, ?, ?)", containers.PACKED, *bounds), named)

    @unittest.skipIf(sqlite3.sqlite_version_info < (3, 41), "SQLite says so from 3.41 on")
    def test_a_statement_is_interrupted(self):
        def interrupt():
            self.base.interrupt()
            return 3

        self.base.create_function("interrupt", 0, interrupt)
        with self.assertRaisesRegex(sqlite3.OperationalError, "interrupted"):
            self.ask("SELECT flcol_count(?, '=', interrupt())", containers.PACKED)
        with self.assertRaisesRegex(sqlite3.OperationalError, "interrupted"):
            self.ask("SELECT flcol_sum(CASE interrupt() WHEN 3 THEN ? END)", containers.PACKED)
        self.assertEqual(self.ask("SELECT flcol_count(?, '=', 3)", containers.PACKED), 1)

    def test_indices_narrow_the_rows(self):
        items = [at * at % 101 for at in range(70_000)]
        blob = containers.plain("i32", items)
        self.fill(items)
        for condition in ('"index" = 66000', '"index" > 69990', '"index" >= -5 AND "index" < 3', '"index" BETWEEN 100 AND 102',
                          '"index" = -1', '"index" = 70000', "\"index\" = '7'", '"index" > 69998.5', 'rowid = 3', '"index" = 2.5',
                          '"index" IS NULL', '"index" < -9223372036854775807', '"index" > 5 AND "index" = 3', '"index" IN (4, 2)',
                          '"index" = 4 OR "index" = 69999', 'value = 7 OR rowid = 3'):  # fmt: skip
            with self.subTest(condition):
                rows = self.base.execute(f'SELECT "index", value FROM flcol_each(?) WHERE {condition} ORDER BY 1', (blob,)).fetchall()
                kept = condition.replace('"index"', "i").replace("rowid", "i").replace("value", "x")
                self.assertEqual(rows, self.base.execute(f"SELECT i, x FROM plain WHERE {kept} ORDER BY 1").fetchall())


class Worked(Case):
    """Containers of docs/CONTAINER.md, and what strangers make of them."""

    def each(self, blob):
        return [value for value, in self.base.execute("SELECT value FROM flcol_each(?)", (blob,))]

    def test_worked_containers_are_read(self):
        for name, (blob, items) in containers.WORKED.items():
            with self.subTest(name):
                self.assertEqual(self.each(blob), items)

    def test_inspect_says_scheme_and_bits(self):
        bools = b"FLC1" + containers.bools([1, 0, 1])
        for blob, text in ((containers.PACKED, "u32 bitpacked:2, 3 items, 813.33 bits an item"),
                           (containers.plain("i8", []), "i8 primitive, 0 items"),
                           (containers.constant("u8", 3, 2**40), "u8 constant, 1099511627776 items, 0.00 bits an item"),
                           (bools, f"bool, 3 items, {8 * len(bools) / 3:.2f} bits an item")):  # fmt: skip
            self.assertEqual(self.ask("SELECT flcol_inspect(?)", blob), text)

    def try_all(self, blob):
        """Asks everything of a blob, and counts the answers that are a refusal; nothing else may be one."""
        asked = ("flcol_len(?1)", "flcol_inspect(?1)", "flcol_get(?1, 0)", "flcol_slice(?1, 0, 1)", "flcol_count(?1, '<', 2)",
                 "flcol_count_between(?1, 1, 2)", "flcol_count(flcol_where(?1, '<', 2))", "flcol_count(flcol_is_in(?1, 3))",
                 "flcol_count(flcol_where(?1, '<', 3, flcol_where(?1, '>', 1)))",
                 "flcol_sum(?1, flcol_where(?1, '>', 2))", "flcol_min(?1, flcol_where(?1, '>', 2))", "flcol_min(?1)", "flcol_max(?1)", "flcol_avg(?1)", "flcol_nulls(?1)",
                 "(SELECT count(value) FROM (SELECT value FROM flcol_each(?1) LIMIT 9))")  # fmt: skip
        refused = 0
        for function in asked:
            try:
                self.base.execute(f"SELECT {function}", (blob,)).fetchall()
            except (sqlite3.OperationalError, MemoryError) as error:
                self.assertTrue(isinstance(error, MemoryError) or REFUSAL.match(str(error)), error)
                refused += 1
        return refused

    def hostile(self):
        encoded = [self.ask("SELECT flcol(value, ?) FROM flcol_each(?)", scheme, containers.plain("i64", [3, 3, 4, None, 2]))
                   for scheme in ("delta(_,for(bitpacked))", "rle(for(bitpacked),bitpacked,_)")]  # fmt: skip
        return [blob for blob, _ in containers.WORKED.values()] + encoded

    def test_each_cut_is_refused(self):
        for blob in self.hostile():
            for cut in containers.cuts(blob)[:: max(1, len(blob) // 400)]:
                self.refused("flcol: BadContainer", "SELECT flcol_len(?)", cut)

    def test_bits_from_strangers(self):
        """Each cut of bits and each byte changed is answered, or refused."""
        column = containers.plain("u8", [7, None, 9])
        for bits in (b"FLC1" + containers.bools([1, 0, 1]), self.ask("SELECT flcol_where(?, '>', 7)", column)):
            for blob in containers.cuts(bits):
                for call in ("flcol_count(?)", "flcol_not(?)"):
                    self.refused("flcol: BadContainer", f"SELECT {call}", blob)
            for blob in containers.changes(bits):
                words = {"it": blob, "bits": bits, "column": column}
                for call in ("flcol_count(:it)", "flcol_not(:it)", "flcol_and(:it, :bits)", "flcol_or(:bits, :it)",
                             "flcol_sum(:column, :it)", "flcol_max(:column, :it)", "flcol_where(:column, '>', 7, :it)"):  # fmt: skip
                    try:
                        self.base.execute(f"SELECT {call}", words).fetchall()
                    except (sqlite3.OperationalError, MemoryError) as error:
                        self.assertTrue(isinstance(error, MemoryError) or REFUSAL.match(str(error)), error)

    def test_each_changed_byte_is_answered_or_refused(self):
        for blob in self.hostile():
            for changed in list(containers.changes(blob))[:: max(1, len(blob) // 400)]:
                self.try_all(changed)
        self.assertEqual(self.try_all(containers.PACKED), 0)


class Errors(Case):
    """Each error's message; the session goes on."""

    def test_no_container(self):
        for value in (b"", b"FLC1", "text", 3, 2.5):
            self.refused("flcol: BadContainer", "SELECT flcol_len(?)", value)
            self.refused("flcol: BadContainer", "SELECT * FROM flcol_each(?)", value)
        self.refused("flcol: BadContainer", "SELECT flcol_len(?)", containers.PACKED + b"\0")

    def test_an_array_that_is_not_sound(self):
        wide = containers.PACKED.replace(b"\x08\x02\x01", b"\x08\x21\x01")
        self.refused("flcol: WidthTooLarge", "SELECT flcol_len(?)", wide)
        self.refused("flcol: UnknownId", "SELECT flcol_len(?)", containers.PACKED.replace(b"packed", b"stored"))
        self.refused("flcol: NotInteger", "SELECT flcol_len(?)", b"FLC1" + containers.bools([1, 0]))
        self.refused("flcol: LengthOverflow", "SELECT flcol_len(?)", containers.constant("u8", 3, 2**28 + 1))

    def test_a_few_bytes_stand_for_many_items(self):
        self.assertEqual(self.ask("SELECT flcol_count(?, '=', 3)", containers.constant("u8", 3, 2**28)), 2**28)

    def test_indices_and_ranges(self):
        for index in (-1, 3, 2**63 - 1):
            self.refused("flcol: IndexOutOfBounds", "SELECT flcol_get(?, ?)", containers.PACKED, index)
        for start, end in ((-1, 2), (2, 1), (0, 4), (0, -1), (4, 4)):
            self.refused("flcol: RangeOutOfBounds", "SELECT flcol_slice(?, ?, ?)", containers.PACKED, start, end)

    def test_what_is_no_bits(self):
        bits, column = b"FLC1" + containers.bools([1, 0]), containers.PACKED
        for value in (b"", b"FLC1", "text", 3, 2.5):
            for call in ("flcol_count(?)", "flcol_not(?)"):
                self.refused("flcol: BadContainer", f"SELECT {call}", value)
            self.refused("flcol: BadContainer", "SELECT flcol_and(?, ?)", bits, value)
            self.refused("flcol: BadContainer", "SELECT flcol_sum(?, ?)", column, value)
            self.refused("flcol: BadContainer", "SELECT flcol_where(?, '<', 3, ?)", column, value)
        for call in ("flcol_count(?)", "flcol_not(?)"):
            self.refused("flcol: WrongType", f"SELECT {call}", column)
        self.refused("flcol: WrongType", "SELECT flcol_or(?, ?)", bits, column)
        self.refused("flcol: WrongType", "SELECT flcol_min(?, ?)", column, column)
        self.refused("flcol: WrongType", "SELECT flcol_where(?, '<', 3, ?)", column, column)
        self.refused("flcol: MaskLength", "SELECT flcol_sum(?, ?)", column, bits)
        self.refused("flcol: MaskLength", "SELECT flcol_where(?, '<', 3, ?)", column, bits)
        self.refused("flcol: MaskLength", "SELECT flcol_and(?, flcol_where(?, '<', 3))", bits, column)
        self.refused("flcol: NotInteger", "SELECT flcol_sum(?, ?)", bits, bits)
        self.refused("flcol: NotInteger", "SELECT flcol_where(?, '<', 3)", bits)
        self.refused("flcol: BadOperator", "SELECT flcol_where(?, '==', 3)", column)
        for value in ("3", 3.0, b"3"):
            self.refused("flcol: NotInteger", "SELECT flcol_where(?, '<', ?)", column, value)
            self.refused("flcol: NotInteger", "SELECT flcol_is_in(?, 3, ?)", column, value)

    def test_other_types_than_integers(self):
        for value in ("3", 3.0, b"3"):
            self.refused("flcol: NotInteger", "SELECT flcol(?)", value)
            self.refused("flcol: NotInteger", "SELECT flcol_get(?, ?)", containers.PACKED, value)
            self.refused("flcol: NotInteger", "SELECT flcol_slice(?, 0, ?)", containers.PACKED, value)
            self.refused("flcol: NotInteger", "SELECT flcol_count(?, '<', ?)", containers.PACKED, value)
            self.refused("flcol: NotInteger", "SELECT flcol_count_between(?, ?, 1)", containers.PACKED, value)

    def test_operators_and_schemes(self):
        for text in ("", "==", "<<", " <", "lt"):
            self.refused("flcol: BadOperator", "SELECT flcol_count(?, ?, 1)", containers.PACKED, text)
        for text in ("", "zip", "for(", "for(bitpacked", "for(" * 64 + ")" * 64, "x" * 100_000):
            self.refused("flcol: BadScheme", "SELECT flcol(1, ?)", text)
        self.refused("flcol: NegativeValue", "SELECT flcol(-1, 'bitpacked')")
        self.refused("flcol: NoMinimum", "SELECT flcol(NULL, 'for(bitpacked)')")

    def test_whatever_is_passed(self):
        """Each argument of each function in turn is of another kind than is asked for: the answer is a null or a refusal."""
        kinds = ("NULL", "''", "'abc'", "x''", "x'00'", "-1", "2.5", "1e999", "-1e999", "9223372036854775807", "-9223372036854775808",
                 "9223372036854775808", "'9223372036854775808'", "zeroblob(1000)", "char(0)", "x'ff' || 'a'")  # fmt: skip
        calls = {"flcol_len": ("?1",), "flcol_inspect": ("?1",), "flcol_sum": ("?1",), "flcol_max": ("?1",), "flcol_nulls": ("?1",), "flcol_get": ("?1", "0"), "flcol_slice": ("?1", "0", "1"),
                 "flcol_where": ("?1", "'='", "1"), "flcol_is_in": ("?1", "1", "2"), "flcol_not": ("?1",), "flcol_and": ("?1", "?1"),
                 "flcol_min": ("?1", "?1"), "flcol_count": ("?1", "'='", "1"), "flcol_count_between": ("?1", "1", "1"), "flcol": ("1", "'for(bitpacked)'")}  # fmt: skip
        for name, words in [*calls.items(), ("flcol_where", ("?1", "'='", "1", "flcol_where(?1, '=', 1)"))]:
            for at in range(len(words)):
                for kind in kinds:
                    call = f"{name}({', '.join([*words[:at], kind, *words[at + 1:]])})"
                    with self.subTest(call):
                        try:
                            self.base.execute(f"SELECT {call}", (containers.PACKED,) if "?1" in call else ()).fetchall()
                        except sqlite3.OperationalError as error:
                            self.assertRegex(str(error), REFUSAL)
        self.assertEqual(self.ask("SELECT flcol_len(?)", containers.PACKED), 3)

    def test_as_many_arguments_as_there_are(self):
        for call in ("flcol()", "flcol(1, 'for', 2)", "flcol_len()", "flcol_get(?)", "flcol_count(?, '=')", "flcol_inspect(?, 1)", "flcol_is_in()",
                     "flcol_where(?)", "flcol_where(?, '=', 1, ?, ?)", "flcol_and(?)", "flcol_not(?, ?)", "flcol_sum(?, 1, 2)"):
            with self.assertRaisesRegex(sqlite3.OperationalError, "wrong number of arguments"):
                self.base.execute(f"SELECT {call}", (containers.PACKED,) * call.count("?"))

    def test_items_above_64_bits_signed(self):
        blob = containers.plain("u64", [1, 2**63])
        self.assertEqual(self.ask("SELECT flcol_get(?, 0)", blob), 1)
        self.refused("flcol: CastOutOfRange", "SELECT flcol_get(?, 1)", blob)
        self.refused("flcol: CastOutOfRange", "SELECT * FROM flcol_each(?)", blob)
        self.assertEqual(self.ask("SELECT flcol_count(?, '>', 1)", blob), 1)
        self.assertEqual(self.ask("SELECT flcol_min(?)", blob), 1)
        self.refused("flcol: CastOutOfRange", "SELECT flcol_max(?)", blob)
        self.assertEqual(self.ask("SELECT flcol_avg(?)", blob), (2**63 + 1) / 2)

    def test_a_table_of_no_container(self):
        self.refused("flcol: NoArray", "SELECT * FROM flcol_each")

    def test_nulls_are_passed_on(self):
        for function in ("flcol_len(NULL)", "flcol_sum(NULL)", "flcol_avg(NULL)", "flcol_nulls(NULL)", "flcol_where(NULL, '<', 1)", "flcol_where(?, '<', 1, NULL)", "flcol_is_in(?, 1, NULL)", "flcol_sum(?, NULL)",
                         "flcol_not(NULL)", "flcol_and(NULL, NULL)", "flcol_count(NULL)", "flcol_get(NULL, 1)", "flcol_count(?, NULL, 1)", "flcol_slice(?, 0, NULL)"):
            values = (containers.PACKED,) if "?" in function else ()
            self.assertIsNone(self.ask(f"SELECT {function}", *values))
        self.assertIsNone(self.ask("SELECT flcol(1) WHERE 0"))
        self.assertEqual(self.base.execute("SELECT * FROM flcol_each(NULL)").fetchall(), [])
        self.assertEqual(self.ask("SELECT flcol(1, NULL)"), self.ask("SELECT flcol(1)"))

    def test_little_memory(self):
        """Where SQLite may take no more, a statement ends with its own error."""
        self.base.execute("PRAGMA hard_heap_limit = 3000000")
        numbers = "WITH RECURSIVE n(i) AS (SELECT 0 UNION ALL SELECT i + 1 FROM n WHERE i < 999999)"
        with self.assertRaises((sqlite3.OperationalError, MemoryError)):
            self.base.execute(f"{numbers} SELECT flcol(i) FROM n").fetchall()
        self.assertEqual(self.ask("SELECT flcol_len(flcol(1))"), 1)


if __name__ == "__main__":
    unittest.main()
