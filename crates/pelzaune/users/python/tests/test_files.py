"""Tests of columns as files have them: CR LF, texts without an offset, memory that others write, and interrupts."""
import array
import datetime
import itertools
import mmap
import os
import random
import signal
import tempfile
import threading
import time
import unittest
import zoneinfo

import pelzaune

LINE = b"1970-01-01T00:00:01Z\n"
NONE = pelzaune.NO_COUNT
HOUR = 3600 * 10**9
BLOCK = 2**18  # the bytes of a block of lines


def many(*given, **named):
    answer = pelzaune.parse_many(*given, **named)
    return tuple(it.tolist() for it in answer) if isinstance(answer, tuple) else answer.tolist()


class Returns(unittest.TestCase):
    def column(self, text):
        """The column of a text, which is the same in memory that others may write, and by column_into."""
        got = pelzaune.column(text).tolist()
        out = array.array("q", [7] * (len(got) + 1))
        for it in (text, bytearray(text), memoryview(text)):
            self.assertEqual(pelzaune.column(it).tolist(), got)
            self.assertEqual(pelzaune.column_into(it, out), (len(got), got.count(NONE)))
            self.assertEqual(out.tolist(), [*got, 7])
        return got

    def test_returns(self):
        """A CR at the end of a line isn't part of it. Any other is a byte of the line."""
        text = LINE[:-1]
        self.assertEqual(self.column(text + b"\r\n" + text + b"\r\n"), [10**9] * 2)
        self.assertEqual(self.column(text + b"\n" + text + b"\r\n" + text), [10**9] * 3)
        self.assertEqual(self.column(b"\r\n" + text + b"\r\r\n" + text + b"\r"), [NONE, NONE, 10**9])
        self.assertEqual(pelzaune.parse_many([text + b"\r", text], errors="none")[0].tolist(), [NONE, 10**9])
        self.assertEqual(self.column(b"\r" + text + b"\n\r\n\r"), [NONE] * 3)
        self.assertEqual(pelzaune.column("1\r\n2\r\n", "[unix_timestamp]").tolist(), [10**9, 2 * 10**9])
        self.assertEqual(pelzaune.column("1\r\r\n2", "[unix_timestamp]\r").tolist(), [10**9, NONE])

    def test_blocks(self):
        """CR LF around the ends of blocks, and lines that are longer than one."""
        for length in (*range(BLOCK - 24, BLOCK + 24), 2 * BLOCK - 1, 2 * BLOCK, 3 * BLOCK):
            long = b"x" * length
            self.assertEqual(self.column(long + b"\r\n" + LINE + LINE[:-1] + b"\r\n"), [NONE, 10**9, 10**9])
        lines = (LINE[:-1] + b"\r\n") * 100000
        self.assertEqual(set(self.column(lines)), {10**9})
        r = random.Random(7)
        for _ in range(20):
            texts = [r.choice((LINE[:-1], b"?", b"", b"1970-01-01T00:00:02." + b"0" * r.randrange(1, 4000) + b"Z")) for _ in range(4000)]
            counts = {b"1970-01-01T00:00:01Z": 10**9, b"?": NONE, b"": NONE}
            got = self.column(b"".join(it + r.choice((b"\n", b"\r\n")) for it in texts))
            self.assertEqual(got, [counts.get(it, 2 * 10**9) for it in texts])


class Offsets(unittest.TestCase):
    def test_fixed(self):
        """A clock that is ahead shows an hour later than UTC, so its hour is counted earlier."""
        for form, texts in (("rfc3339", ["1970-01-02T00:00:00", "1970-01-02 00:00:00.5"]), ("rfc2822", ["Fri, 02 Jan 1970 00:00:00", "2 Jan 1970 00:00 "]),
                            ("iso8601", ["1970-01-02T00:00", "19700102T0030"]), ("%d.%m.%Y %H:%M:%S", ["02.01.1970 00:00:00", "03.01.1970 00:00:00"])):
            self.assertEqual(many(texts, form, "none"), ([NONE] * 2, [0, 1]))
            utc = many(texts, form, offset="Z")
            self.assertEqual(utc[0], 24 * HOUR)
            for offset, hours in (("+00:00", 0), ("+01:00", 1), ("-08:30", -8.5), (datetime.timezone(datetime.timedelta(hours=14)), 14),
                                  (datetime.timezone.utc, 0)):
                wanted = [it - int(hours * HOUR) for it in utc]
                self.assertEqual(many(texts, form, offset=offset), wanted)
                self.assertEqual(pelzaune.column("\n".join(texts), form, offset).tolist(), wanted)
                out = array.array("q", [0, 0, 7])
                self.assertEqual(pelzaune.column_into("\r\n".join(texts), out, form, offset), (2, 0))
                self.assertEqual(out.tolist(), [*wanted, 7])

    def test_own_offset(self):
        """A text's own offset remains, and other errors do."""
        texts = ["1970-01-02T00:00:00Z", "1970-01-01T23:00:00-01:00", "1970-13-01T00:00:00", "1970-01-02", "", "1970-01-02T00:00:00+", "1970-01-02T00:00:0"]
        for form in ("rfc3339", "iso8601"):
            self.assertEqual(many(texts, form, "none", "+05:00")[0], [24 * HOUR] * 2 + [NONE] * 5)
            with self.assertRaises(pelzaune.ParseError) as caught:
                pelzaune.parse_many(texts[2:], form, offset="+05:00")
            self.assertEqual(caught.exception.text_index, 0)
        self.assertEqual(many(["1970-01-02_00:00:00"], "rfc3339", "none", "+05:00"), ([NONE], [0]))
        # Of two errors that of the month is the first.
        with self.assertRaisesRegex(pelzaune.ParseError, "text 0: .*month") as caught:
            pelzaune.parse_many(texts[2:], offset="+05:00")
        self.assertEqual((caught.exception.component, caught.exception.index), ("month", 5))
        self.assertEqual(many(["1", "-1"], "[unix_timestamp]", offset="+05:00"), [10**9, -(10**9)])

    def test_zones(self):
        """Berlin was an hour ahead of UTC in winter and two in summer. 02:30 was shown twice on 2021-10-31: the first is
        meant, as by datetime."""
        texts = ["2021-01-02T03:04:05", "2021-07-02T03:04:05", "2021-10-31T02:30:00", "2021-07-02T03:04:05Z"]
        wanted = [pelzaune.unix_ns(it) for it in ("2021-01-02T03:04:05+01:00", "2021-07-02T03:04:05+02:00", "2021-10-31T02:30:00+02:00", texts[3])]
        for zone in ("Europe/Berlin", zoneinfo.ZoneInfo("Europe/Berlin")):
            for form in ("rfc3339", "iso8601"):
                self.assertEqual(many(texts, form, offset=zone), wanted)
                self.assertEqual(pelzaune.column("\n".join(texts), form, offset=zone).tolist(), wanted)

    def test_as_datetime(self):
        r = random.Random(6)
        epoch = datetime.datetime(1970, 1, 1, tzinfo=datetime.timezone.utc)
        zones = [datetime.timezone(datetime.timedelta(minutes=it)) for it in (-1439, -30, 0, 1, 1439)] + [zoneinfo.ZoneInfo("America/St_Johns")]
        for zone in zones:
            whens = [datetime.datetime(r.randint(1678, 2261), r.randint(1, 12), r.randint(1, 28), r.randrange(24), r.randrange(60), r.randrange(60),
                                       r.choice((0, r.randrange(10**6)))) for _ in range(2000)]
            wanted = [(it.replace(tzinfo=zone) - epoch) // datetime.timedelta(microseconds=1) * 1000 for it in whens]
            self.assertEqual(many([it.isoformat() for it in whens], "iso8601", offset=zone), wanted)

    def test_ends(self):
        """-2**63 and 2**63 - 1 nanoseconds, and one more in each direction."""
        for text, wanted in (("1677-09-21T00:12:43.145224192", -2**63), ("1677-09-21T00:12:43.145224193", -2**63 + 1), ("1677-09-21T00:12:43.145224191", NONE),
                             ("2262-04-11T23:47:16.854775807", 2**63 - 1), ("2262-04-11T23:47:16.854775808", NONE), ("9999-12-31T00:00:00", NONE),
                             ("1969-12-31T23:59:59.999999999", -1), ("1970-01-01T00:00:00", 0), ("0000-01-01T00:00:00", NONE)):
            self.assertEqual(pelzaune.column(text, "iso8601", "Z").tolist(), [wanted])
            self.assertEqual(pelzaune.column(text, "rfc3339", "+00:00").tolist(), [wanted])

    def test_long(self):
        text = "1970-01-02T00:00:00." + "0" * 10**5
        self.assertEqual(many([text], offset="+01:00"), [23 * HOUR])
        self.assertEqual(many(["2 Jan 1970 00:00 (" + "x" * 10**5 + ")"], "rfc2822", offset="+01:00"), [23 * HOUR])

    def test_arguments(self):
        for call in (pelzaune.parse_many, pelzaune.column):
            for wrong in ("", "+1", "01:00", "+24:00", "+01:00:00", "-0130"):
                with self.assertRaisesRegex(ValueError, "offset must be a tzinfo, an offset such as '\\+05:30' or the name of a time zone, not "):
                    call(["x"] if call is pelzaune.parse_many else "x", offset=wrong)
            for wrong in (5, b"Z", [], datetime.timedelta(0)):
                self.assertRaisesRegex(TypeError, "offset must be a tzinfo or str, not", call, [] if call is pelzaune.parse_many else "", offset=wrong)
            self.assertRaises(zoneinfo.ZoneInfoNotFoundError, call, [] if call is pelzaune.parse_many else "", offset="Europe/Atlantis")
        part = datetime.timezone(datetime.timedelta(microseconds=1))
        self.assertRaisesRegex(ValueError, "offset must be whole seconds", pelzaune.column, "", offset=part)

    def test_zones_of_others(self):
        class Zone(datetime.tzinfo):
            def utcoffset(self, when):
                if isinstance(self.answer, type):
                    raise self.answer
                return self.answer

        zone, texts = Zone(), ["2021-01-02T03:04:05Z"] * 3 + ["2021-01-02T03:04:05"] * 5
        for answer, error in ((KeyError, KeyError), (None, ValueError), (5, TypeError), (datetime.timedelta(microseconds=1), ValueError),
                              (datetime.timedelta(days=1), ValueError)):
            zone.answer = answer
            for errors in ("raise", "none"):
                self.assertRaises(error, pelzaune.parse_many, texts, "iso8601", errors, zone)
            self.assertRaises(error, pelzaune.column, "\n".join(texts), "iso8601", zone)
            self.assertEqual(len(pelzaune.column("\n".join(texts[:3]), "iso8601", zone)), 3)
        zone.answer = datetime.timedelta(seconds=30)
        self.assertEqual(many(["1970-01-01T00:00:30"], "iso8601", offset=zone), [0])


class Shared(unittest.TestCase):
    """Memory that others write while it is parsed: each entry is a value of a whole line or NO_COUNT."""
    LINES = [b"1970-01-01T00:00:01Z\n", b"1971-11-11T11:11:11Z\n"]

    def test_threads(self):
        """A thread replaces whole lines of a bytearray, which is read through a view that can't write."""
        lines = bytearray(self.LINES[0] * 20000)
        values = {pelzaune.unix_ns(it[:-1]) for it in self.LINES} | {NONE}
        stop = threading.Event()

        def change():
            for k in itertools.cycle(range(20000)):
                lines[21 * k:21 * k + 21] = self.LINES[k % 2]
                if stop.is_set():
                    return

        thread = threading.Thread(target=change)
        thread.start()
        out = array.array("q", [0] * 20000)
        for _ in range(20):
            for view in (lines, memoryview(lines).toreadonly(), memoryview(lines)):
                self.assertTrue(set(pelzaune.column(view)) <= values)
                self.assertEqual(pelzaune.column_into(view, out)[0], 20000)
                self.assertTrue(set(out) <= values)
        stop.set()
        thread.join()

    def test_processes(self):
        """Another process replaces lines of a mapped file, also their ends, so that their number changes."""
        with tempfile.NamedTemporaryFile() as file:
            file.write(LINE * 20000)
            file.flush()
            child = os.fork()
            if not child:
                with mmap.mmap(file.fileno(), 0) as mapped:
                    for k in itertools.cycle(range(20000)):
                        mapped[21 * k + 20] = 10 if mapped[21 * k + 20] != 10 else 32
            try:
                with mmap.mmap(file.fileno(), 0, access=mmap.ACCESS_READ) as mapped:
                    for _ in range(50):
                        self.assertTrue(set(pelzaune.column(mapped)) <= {10**9, NONE})
                        self.assertTrue(len(pelzaune.column_into(mapped, array.array("q", [0] * 9))) == 2)
            finally:
                os.kill(child, signal.SIGKILL)
                os.waitpid(child, 0)


class Interrupts(unittest.TestCase):
    """A signal is handled within 50 milliseconds of processor time."""
    AFTER, MOST = 0.1, 0.05

    def late(self, call, *given):
        """Seconds of processor time from a signal until its handler's exception ends the call."""
        class Alarm(Exception):
            pass

        def ring(*_):
            raise Alarm

        before = signal.signal(signal.SIGPROF, ring)
        try:
            start = time.process_time()
            signal.setitimer(signal.ITIMER_PROF, self.AFTER)
            self.assertRaises(Alarm, call, *given)
            return time.process_time() - start - self.AFTER
        finally:
            signal.setitimer(signal.ITIMER_PROF, 0)
            signal.signal(signal.SIGPROF, before)

    def test_calls(self):
        # Without a signal each of these takes at least 0.2 seconds.
        lines, out = LINE * 10**7, array.array("q", [0]) * 10**7
        mail = b"Fri, 02 Jan 1970 00:00:00 GMT\n" * 5 * 10**6
        for call, *given in ((pelzaune.column, lines), (pelzaune.column_into, lines, out), (pelzaune.column, memoryview(lines)), (pelzaune.column, mail, "rfc2822"),
                             (pelzaune.column, b"\n" * 10**8), (pelzaune.column, lines, "%Y-%m-%dT%H:%M:%SZ", "+01:00"),
                             (pelzaune.column, LINE.replace(b"Z", b"") * 10**7, "iso8601", "Europe/Berlin")):
            with self.subTest(call=call.__name__, given=[it for it in given if isinstance(it, str)]):
                self.assertLess(min(self.late(call, *given) for _ in range(3)), self.MOST)

    def test_texts(self):
        text, mail = LINE[:-1].decode(), "Fri, 02 Jan 1970 00:00:00 GMT"
        texts, others = [text] * 10**7, [text, "?", mail, b"\xff", "\u00e9"] * 10**6
        for given in ((texts,), (itertools.repeat(text, 10**8),), (others, "rfc3339", "coerce"), (others, "%d.%m.%Y", "none"), ([mail] * 10**7, "rfc2822"),
                      (["1", "-1"] * 5 * 10**6, "[unix_timestamp]"), (texts, "iso8601", "raise", "+01:00"),
                      ([text[:-1]] * 10**7, "iso8601", "coerce", "Europe/Berlin")):
            with self.subTest(given=given[1:]):
                self.assertLess(min(self.late(pelzaune.parse_many, *given) for _ in range(3)), self.MOST)

    def test_datetimes(self):
        when = datetime.datetime(2021, 1, 2, tzinfo=datetime.timezone.utc)
        for given in (("rfc3339",), ("%A, %d %B %Y",), ("iso8601", "Europe/Berlin")):
            with self.subTest(given=given):
                self.assertLess(min(self.late(pelzaune.format_many, itertools.repeat(when, 10**8), *given) for _ in range(3)), self.MOST)

    def test_state_after(self):
        lines = bytearray(LINE * 10**7)
        self.late(pelzaune.column, lines)
        lines.append(0)  # nothing holds it
        self.assertEqual(pelzaune.column(LINE).tolist(), [10**9])


if __name__ == "__main__":
    unittest.main()
