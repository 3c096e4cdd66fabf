"""Tests of the extension on a server of their own.

    test_postgres.py BUILT

BUILT is the folder in which the extension is built.
"""
import os
import re
import subprocess
import sys
import time
import unittest

from answers import ANSWERS, ERRORS, ERRORS_ALONE, ERRORS_OF_FORMATS, TRAILING
from server import QueryError, Server

BUILT = sys.argv.pop(1)
PAGE = os.path.join(os.path.dirname(os.path.abspath(__file__)), "../../../README.md")
ROWS = 1_000_000
MOST_SECONDS = 10  # until a cancelled statement must have ended
TOLD = """
CREATE FUNCTION told(query text) RETURNS text LANGUAGE plpgsql AS $$
DECLARE
    answer text;
    state text;
    message text;
    detail text;
BEGIN
    EXECUTE 'SELECT (' || query || ')::text' INTO answer;
    RETURN coalesce(answer, 'NULL');
EXCEPTION WHEN OTHERS THEN
    GET STACKED DIAGNOSTICS state = RETURNED_SQLSTATE, message = MESSAGE_TEXT, detail = PG_EXCEPTION_DETAIL;
    RETURN state || '|' || message || '|' || detail;
END $$;
"""
MADE = f"""
CREATE TABLE many AS SELECT to_char(timestamp '1970-01-01' + k * interval '31557 seconds', 'YYYY-MM-DD"T"HH24:MI:SS') || 'Z' AS a
    FROM generate_series(0, {ROWS - 1}) k;
ANALYZE many;
"""
SUMS = """
SELECT count(*), min(pelzaune_timestamptz(a)), max(pelzaune_timestamptz(a)), sum(pelzaune_unix_ns(a)),
    sum(pelzaune_date(a, '[year]-[month]-[day]T[ignore count:9]') - date '1970-01-01'), sum(pelzaune_time(a)),
    count(pelzaune_try_date(a, 'rfc2822')), count(pelzaune_place(a)) FROM many
"""
BY_FOUR = "SET max_parallel_workers_per_gather = 4; SET parallel_setup_cost = 0; SET min_parallel_table_scan_size = 0;"
BY_ONE = "SET max_parallel_workers_per_gather = 0;"


def quoted(text):
    return f"$told${text}$told$"


class Postgres(unittest.TestCase):
    @classmethod
    def setUpClass(cls):
        cls.server = Server(BUILT)
        cls.server.__enter__()
        cls.addClassCleanup(cls.server.end)
        cls.server.ask(TOLD + MADE)

    def told(self, calls):
        """The result of each call, or its error."""
        text = "".join(f"SELECT told({quoted(f'pelzaune_{it}')});\n" for it in calls)
        return self.server.ask(text)

    def test_page(self):
        """The queries of the page have the results beside them."""
        with open(PAGE, encoding="utf-8") as file:
            block = re.search(r"^## PostgreSQL$.*?^```sql\n(.*?)^```$", file.read(), re.MULTILINE | re.DOTALL)[1]
        self.server.ask("CREATE DATABASE page")
        self.assertEqual(self.server.ask(block, "page"), re.findall("; -- (.*)", block))

    def test_answers(self):
        for (call, wanted), got in zip(ANSWERS, self.told(it[0] for it in ANSWERS), strict=True):
            with self.subTest(call):
                self.assertEqual(got, wanted)

    def test_errors(self):
        rows = ERRORS + ERRORS_OF_FORMATS + ERRORS_ALONE + [(f"try_{call}", *wanted) for call, *wanted in ERRORS_OF_FORMATS]
        for (call, *wanted), got in zip(rows, self.told(it[0] for it in rows), strict=True):
            with self.subTest(call):
                self.assertEqual(got.split("|"), wanted)

    def test_tries(self):
        for call, got in zip(ERRORS, self.told(f"try_{it[0]}" for it in ERRORS), strict=True):
            with self.subTest(call[0]):
                self.assertEqual(got, "NULL")

    def test_days(self):
        """The days of PostgreSQL's calendar, some of each year, as dates and as timestamps."""
        self.assertEqual(self.server.ask("""
            SELECT count(*) FROM (SELECT date '4713-01-01 BC' + 37 * k AS day FROM generate_series(0, 140000) k) days,
                LATERAL (SELECT (CASE WHEN day < '0001-01-01' THEN 1 ELSE 0 END) AS gone, extract(year FROM day) AS year) years,
                LATERAL (SELECT CASE WHEN year + gone < 0 THEN '-' ELSE '+' END || to_char(abs(year + gone), 'FM000000')
                    || to_char(day, '-MM-DD') AS a) texts
            WHERE pelzaune_date(a, 'iso8601') <> day OR pelzaune_timestamp(a || 'T12', 'iso8601') <> day + time '12:00'
                OR pelzaune_timestamptz(a || 'T00Z', 'iso8601') <> day::timestamp AT TIME ZONE 'UTC'"""), ["0"])

    def test_texts(self):
        """Moments of each month of the years 1 to 9948, as PostgreSQL's own function formats them."""
        self.assertEqual(self.server.ask("""
            SELECT count(*) FROM (SELECT timestamptz '0001-01-01 00:00:00+00' + k * interval '31 days 4567.123456 seconds' AS at
                FROM generate_series(0, 117000) k) moments
            WHERE pelzaune_text(at, '%Y-%m-%d %H:%M:%S.%6f') <> to_char(at, 'YYYY-MM-DD HH24:MI:SS.US')
                OR pelzaune_text(at, '%G-%V-%u %j %I %p %a %b') <> to_char(at, 'IYYY-IW-ID DDD HH12 AM Dy Mon')"""), ["0"])

    def test_changing_formats(self):
        """A format that changes from row to row, and within one expression of a loop."""
        rows = """('2021-01-02', '%Y-%m-%d'), ('02.01.2021', '%d.%m.%Y'), ('2021-01-02T00:00:00Z', 'rfc3339'), ('?', '%Y'),
            ('?', '[day]')"""
        self.assertEqual(self.server.ask(f"""
            SELECT count(*), count(DISTINCT d), count(d) FROM (SELECT pelzaune_try_date(a, f) AS d
            FROM (VALUES {rows}) t(a, f), generate_series(1, 1000) k) x"""), ["5000|1|3000"])
        self.assertEqual(self.server.ask("""
            CREATE FUNCTION looped() RETURNS text LANGUAGE plpgsql AS $$
            DECLARE found text := ''; f text; d date;
            BEGIN
                FOREACH f IN ARRAY ARRAY['%d.%m.%Y', '%m.%d.%Y', '%d.%m.%Y'] LOOP
                    d := pelzaune_date('02.01.2021', f);
                    found := found || d || ' ';
                END LOOP;
                RETURN found;
            END $$;
            SELECT looped()"""), ["2021-01-02 2021-02-01 2021-01-02 "])

    def test_memory(self):
        """A replaced format leaks nothing."""
        used = "SELECT sum(total_bytes) FROM pg_backend_memory_contexts"
        before, _, after = self.server.ask(f"""{used};
            SELECT count(pelzaune_try_date('x', repeat(' ', k % 2) || '[year]' || repeat('x', k % 50))) FROM generate_series(1, 200000) k;
            {used};""")
        self.assertLess(int(after), int(before) + 2_000_000)

    def test_workers(self):
        plan = self.server.ask(f"{BY_FOUR} EXPLAIN {SUMS}")
        self.assertTrue(any("Workers Planned: 4" in it for it in plan), plan)
        by_one = self.server.ask(BY_ONE + SUMS)
        self.assertEqual(self.server.ask(BY_FOUR + SUMS), by_one)
        self.assertTrue(by_one[0].startswith(f"{ROWS}|1970-01-01 00:00:00+00|"))
        self.assertEqual(self.server.ask("SELECT count(*) FROM many WHERE pelzaune_timestamptz(a) <> a::timestamptz"), ["0"])

    def test_index_and_dump(self):
        self.server.ask("CREATE DATABASE first")
        self.server.ask("CREATE DATABASE second")
        self.server.ask("""CREATE EXTENSION pelzaune;
            CREATE TABLE log(a text, at timestamptz GENERATED ALWAYS AS (pelzaune_timestamptz(a)) STORED,
                CHECK (pelzaune_place(a) IS NULL));
            INSERT INTO log SELECT to_char(date '1970-01-01' + k, 'YYYY-MM-DD') || 'T00:00:00Z' FROM generate_series(0, 9999) k;
            CREATE INDEX by_day ON log (pelzaune_date(a));
            ANALYZE log""", "first")
        dump = subprocess.run(self.server.words("pg_dump", "first"), capture_output=True, check=True).stdout
        done = self.server.psql(dump, "second")
        self.assertEqual(done.stderr, b"")
        query = "SELECT a, at FROM log WHERE pelzaune_date(a) = '1985-04-12'"
        for database in ("first", "second"):
            self.assertIn("by_day", " ".join(self.server.ask(f"ANALYZE log; EXPLAIN {query}", database)))
            self.assertEqual(self.server.ask(query, database), ["1985-04-12T00:00:00Z|1985-04-12 00:00:00+00"])
        with self.assertRaisesRegex(QueryError, "the 'year' component could not be parsed"):
            self.server.ask("INSERT INTO log VALUES ('x')", "second")
        self.server.ask("DROP EXTENSION pelzaune CASCADE", "second")

    def test_encodings(self):
        for name in ("LATIN1", "SQL_ASCII"):
            self.server.ask(f"CREATE DATABASE {name} ENCODING '{name}' TEMPLATE template0")
            self.server.ask("CREATE EXTENSION pelzaune", name.lower())
        # The e with an acute accent is one byte, 0xe9, in the description, too.
        text = "SELECT pelzaune_date('2\xe9' || '1.2021', '[day padding:none]\xe9[month padding:none].[year]')".encode("latin-1")
        for name in ("LATIN1", "SQL_ASCII"):
            done = self.server.psql(text, name.lower(), encoding=name)
            self.assertEqual((done.stdout, done.stderr), (b"2021-01-02\n", b""))
        text = "SELECT pelzaune_date('\xe9\xff'); SELECT pelzaune_place('2', '\xe9[day]')".encode("latin-1")
        for name, shown in (("LATIN1", b"\xe9\xff"), ("SQL_ASCII", b"\\xe9\\xff")):
            done = self.server.psql(text, name.lower(), flags=(), encoding=name)
            self.assertIn(b'at index 0 of "%s".' % shown, done.stderr)
            self.assertEqual(done.stdout, b"""(0,"'\\\\xe9'","a character literal was not valid")\n""")
            # In a description in brackets each byte but these three is itself.
            done = self.server.psql("SELECT count(pelzaune_date(chr(k) || '012.2021', chr(k) || '[ordinal].[year]'))"
                                    r" FROM generate_series(1, 255) k WHERE chr(k) NOT IN ('%', '[', '\')", name.lower(), encoding=name)
            self.assertEqual((done.stdout, done.stderr), (b"252\n", b""))
        # The message of a text that the client can't display is still sent.
        done = self.server.psql(b"SELECT pelzaune_date(convert_from('\\xe9ff', 'SQL_ASCII'))", "sql_ascii", flags=())
        self.assertIn(rb'at index 0 of "\xe9\xff".', done.stderr)

    def test_huge(self):
        size = 1_000_000
        rows = [
            (f"timestamptz('2021-01-02T03:04:05.' || repeat('1', {size}) || 'Z')", "2021-01-02 03:04:05.111111+00"),
            (f"timestamptz('02 Jan 2021 03:04 GMT (' || repeat('x', {size}) || ')', 'rfc2822')", "2021-01-02 03:04:00+00"),
            (f"date('2021-01-02', '[year]-[month]-[' || repeat(' ', {size}) || 'day]')", "2021-01-02"),
            (f"place('2021-01-02T03:04:05Z' || repeat('x', {size}))", f'(20,"the end","{TRAILING}")'),
        ]
        for call, wanted in rows:
            with self.subTest(call):
                self.assertEqual(self.server.ask(f"SELECT pelzaune_{call}"), [wanted])
        with self.assertRaisesRegex(QueryError, 'Expected year at index 0 of "x{100}[.]{3}"[.]'):
            self.server.ask(f"SELECT pelzaune_date(repeat('x', {size}))")
        # 1048576 bytes are parsed, and a text of more isn't even decompressed.
        self.assertEqual(self.server.ask("""SELECT pelzaune_date('2021-01-02T03:04:05.' || repeat('1', 1048555) || 'Z');
            CREATE TEMPORARY TABLE long AS SELECT repeat('x', 100000000) AS a; SELECT pelzaune_try_date(a) IS NULL FROM long"""), ["2021-01-02", "t"])
        with self.assertRaisesRegex(QueryError, r"text is too long to parse \(100000000 bytes, max 1048576 bytes\)"):
            self.server.ask("SELECT pelzaune_time(repeat('x', 100000000))")

    def test_compressed(self):
        """Texts that the server stores compressed, or out of line, as text and as format."""
        self.assertEqual(self.server.ask("""
            CREATE TABLE kept(a text, f text);
            ALTER TABLE kept ALTER f SET STORAGE EXTERNAL;
            INSERT INTO kept SELECT '02 Jan 2021 03:04 GMT (' || repeat('x', 100000) || ')', '[day]' || repeat('[ignore count:1]', 5)
                || '[year][ignore' || repeat(' ', 100000) || 'count:1' || repeat('0', k) || ']' FROM generate_series(0, 1) k;
            SELECT pelzaune_timestamptz(a, 'rfc2822'), pelzaune_place(left(a, 12), f) FROM kept"""),
            ['2021-01-02 03:04:00+00|(,,"missing month")',
             '2021-01-02 03:04:00+00|(11,ignore,"the \'ignore\' component could not be parsed")'])

    def test_cancelled(self):
        """A statement is cancelled in the middle of a column, and the server continues."""
        query = "SELECT count(pelzaune_timestamptz(a)) FROM many, generate_series(1, 1000)"
        running = self.server.beside(f"{BY_ONE} {query}")
        asked = "SELECT pid FROM pg_stat_activity WHERE state = 'active' AND query LIKE '%generate_series(1, 1000)'"
        begun, found = time.monotonic(), []
        while not found and time.monotonic() - begun < MOST_SECONDS:
            found = self.server.ask(f"{asked} AND now() - query_start > interval '0.5 seconds'")
        self.assertIsNone(running.poll())
        cancelled = time.monotonic()
        self.assertEqual(self.server.ask(f"SELECT pg_cancel_backend({found[0]})"), ["t"])
        errors = running.communicate(timeout=60)[1]
        self.assertIn("canceling statement due to user request", errors)
        self.assertLess(time.monotonic() - cancelled, MOST_SECONDS)
        self.assertEqual(self.server.ask("SELECT pelzaune_date('2021-01-02T03:04:05Z')"), ["2021-01-02"])

    @unittest.skipIf("sanitized" in BUILT, "a sanitizer takes several times as long")
    def test_one_call_is_short(self):
        """A statement is cancelled between two calls, of which each takes less than 50 milliseconds for the longest texts, and
        less than 100 for the longest formats. On a machine that has more to run than it has processors, a call waits for
        others, and may take that many times as long."""
        self.server.ask("""CREATE FUNCTION shortest(call text, a text, form text) RETURNS interval LANGUAGE plpgsql AS $$
            DECLARE since timestamptz; shortest interval := '1 hour';
            BEGIN
                FOR k IN 1..10 LOOP
                    since := clock_timestamp();
                    BEGIN
                        EXECUTE 'SELECT ' || call USING a, form;
                    EXCEPTION WHEN invalid_datetime_format THEN NULL;
                    END;
                    shortest := least(shortest, clock_timestamp() - since);
                END LOOP;
                RETURN shortest;
            END $$""")
        most = 50 * max(1, os.getloadavg()[0] / os.cpu_count())
        texts = ["'2021-01-02T03:04:05.' || repeat('1', 1048555) || 'Z'", "'02 Jan 2021 03:04 GMT ' || repeat('(', 524276) || repeat(')', 524276)",
                 "'02 Jan 2021 03:04 GMT (' || repeat('x', 1048552) || ')'", "repeat(' ', 1048576)"]
        forms = ["'rfc3339'", "'rfc2822'", "'iso8601'", "'[year]-[month]-[day]T[hour]:[minute]:[second].[subsecond]Z'"]
        long = ["'[year' || repeat(' ', 1048570) || ']'", "repeat('[', 1048576)", "repeat('x', 1048576)", "'%' || repeat('x', 1048575)",
                "'[year' || repeat(' padding:none', 80659) || ']'", "repeat('[optional [', 95325)", "'[first' || repeat('[x]', 349523) || ']'",
                "repeat('[subsecond' || repeat(' digits:9', 1800) || ']', 64)", "'[' || repeat('x', 1048574) || ']'"]
        rows = [(most, call, text, form) for text in texts for call in ("pelzaune_try_unix_ns($1, $2)", "pelzaune_place($1, $2)") for form in forms]
        rows += [(2 * most, call, text, form) for form in long for call, text in (("pelzaune_place($1, $2)", texts[0]),
                 ("pelzaune_place($1, $2)", "repeat('2021', 64)"), ("pelzaune_text($1::timestamptz, $2)", "'2021-01-02T03:04:05Z'"))]
        for limit, call, text, form in rows:
            with self.subTest(call, text=text, form=form):
                self.assertLess(float(self.server.ask(f"SELECT extract(epoch FROM shortest('{call}', {text}, {form})) * 1000")[0]), limit)

    def test_timeout(self):
        begun = time.monotonic()
        with self.assertRaisesRegex(QueryError, "canceling statement due to statement timeout"):
            self.server.ask("SET statement_timeout = 300; SELECT count(pelzaune_try_date(repeat('9', 1000000) || k)) FROM generate_series(1, 100000000) k")
        self.assertLess(time.monotonic() - begun, MOST_SECONDS)

    def test_upgrade(self):
        """Functions of 1.0 and their dependents remain, and those of the newest version have comments."""
        comments = """SELECT count(*), count(obj_description(p.oid, 'pg_proc')) FROM pg_proc p JOIN pg_depend d ON d.objid = p.oid
            AND d.deptype = 'e' JOIN pg_extension e ON e.oid = d.refobjid WHERE e.extname = 'pelzaune'"""
        version = "SELECT extversion FROM pg_extension WHERE extname = 'pelzaune'"
        self.server.ask("CREATE DATABASE upgraded")
        self.assertEqual(self.server.ask(f"""CREATE EXTENSION pelzaune VERSION '1.0'; {version}; {comments};
            CREATE TABLE log(a text, at timestamptz GENERATED ALWAYS AS (pelzaune_timestamptz(a)) STORED);
            CREATE VIEW texts AS SELECT pelzaune_text(at, 'rfc2822', '+01:00') AS a FROM log;
            INSERT INTO log VALUES ('1985-04-12T23:20:50.52Z');
            ALTER EXTENSION pelzaune UPDATE; {version}; {comments}; SELECT a FROM texts""", "upgraded"),
            ["1.0", "12|0", "1.1", "12|12", "Sat, 13 Apr 1985 00:20:50 +0100"])
        self.assertEqual(self.server.ask(f"{version}; {comments}"), ["1.1", "12|12"])

    def test_definitions(self):
        """Each function is immutable, strict and parallel safe, with a cost above the default."""
        self.assertEqual(self.server.ask("""
            SELECT count(*), bool_and(provolatile = 'i' AND proisstrict AND proparallel = 's' AND procost > 1)
            FROM pg_proc WHERE proname LIKE 'pelzaune%'"""), ["12|t"])


if __name__ == "__main__":
    unittest.main()
