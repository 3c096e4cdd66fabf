"""Tests of the Python module, against datetime and email.utils."""
import array
import copy
import datetime
import doctest
import email.utils
import pickle
import random
import subprocess
import sys
import threading
import unittest

import pelzaune

UTC = datetime.timezone.utc
EPOCH = datetime.datetime(1970, 1, 1, tzinfo=UTC)
MICROSECOND = datetime.timedelta(microseconds=1)


def answered(call, *given):
    try:
        return call(*given)
    except pelzaune.ParseError as error:
        return type(error), str(error), error.component


def zone(minutes):
    return datetime.timezone(datetime.timedelta(minutes=minutes))


class Values(unittest.TestCase):
    def test_rfc3339(self):
        when = datetime.datetime(2021, 1, 2, 3, 4, 5, 250000, zone(-30))
        for text in ("2021-01-02T03:04:05.25-00:30", b"2021-01-02T03:04:05.25-00:30"):
            got = pelzaune.parse(text)
            self.assertEqual((got, got.utcoffset()), (when, when.utcoffset()))
        self.assertIs(pelzaune.parse("2021-01-02T03:04:05Z").tzinfo, UTC)

    def test_separators(self):
        """By RFC 3339, `T`, `t` or a space is between date and time."""
        when = datetime.datetime(1985, 4, 12, 23, 20, 50, tzinfo=UTC)
        for form in (pelzaune.RFC3339, "rfc3339", "RFC3339"):
            for separator in "Tt ":
                text = f"1985-04-12{separator}23:20:50Z"
                self.assertEqual((pelzaune.parse(text, form), pelzaune.column(text, form).tolist()), (when, [int(when.timestamp()) * 10**9]))
            for separator in "9_-:\t":
                text = f"1985-04-12{separator}23:20:50Z"
                for call in (pelzaune.parse, pelzaune.parse_date, pelzaune.parse_time, pelzaune.parse_parts, pelzaune.unix_ns):
                    with self.assertRaises(pelzaune.ParseError) as caught:
                        call(text, form)
                    self.assertEqual((caught.exception.component, caught.exception.index), ("separator", 10))
                self.assertEqual(pelzaune.column(text, form).tolist(), [pelzaune.NO_COUNT])
                self.assertEqual([it.tolist() for it in pelzaune.parse_many([text], form, "none", "+00:00")], [[pelzaune.NO_COUNT], [0]])

    def test_iso8601(self):
        self.assertEqual(pelzaune.parse("20210102T030405,25", pelzaune.ISO8601), datetime.datetime(2021, 1, 2, 3, 4, 5, 250000))
        self.assertEqual(pelzaune.parse(format=pelzaune.ISO8601, text="2020-W53-6T03Z"), datetime.datetime(2021, 1, 2, 3, tzinfo=UTC))
        self.assertEqual(pelzaune.parse_date("2020-366", pelzaune.ISO8601), datetime.date(2020, 12, 31))
        self.assertEqual(pelzaune.parse_time("T03:04,5", pelzaune.ISO8601), datetime.time(3, 4, 30))

    def test_iso8601_with_and_without_an_offset(self):
        r = random.Random(8601)
        for _ in range(20000):
            text = r.choice(("2021-01-02", "20210102", "2020-W53-6", "2020W536", "2020-366", "+012021-01-02"))
            text += r.choice(("T", "t", " ", "")) + r.choice(("03", "03:04", "0304", "03:04:05", "030405", "03,5", "03:04.5", "23:59:60"))
            text += r.choice(("", "", "Z", "z", "+05", "-0530", "+05:30", "-08:00", "T", "+"))
            try:
                date, time, tz = pelzaune.parse_parts(text, pelzaune.ISO8601)
                whole = date and time and datetime.datetime.combine(date, time, tz)
            except pelzaune.ParseError:
                continue
            got = pelzaune.parse(text, pelzaune.ISO8601) if whole and 1 <= date.year else None
            self.assertEqual((got, got and got.tzinfo), (whole, whole and tz))

    def test_descriptions(self):
        when = datetime.datetime(2021, 1, 2, 3, 4, 5, 0, zone(-30))
        for form in ("%d/%b/%Y:%H:%M:%S %z", b"%d/%b/%Y:%H:%M:%S %z",
                     "[day]/[month repr:short]/[year]:[hour]:[minute]:[second] [offset_hour sign:mandatory][offset_minute]"):
            got = pelzaune.parse("02/Jan/2021:03:04:05 -0030", form)
            self.assertEqual((got, got.utcoffset()), (when, when.utcoffset()))
        self.assertEqual(pelzaune.parse("02.01.2021 03:04", "%d.%m.%Y %H:%M"), datetime.datetime(2021, 1, 2, 3, 4))
        self.assertEqual(pelzaune.unix_ns("-1", "[unix_timestamp]"), -(10**9))
        r = random.Random(2822)
        for _ in range(1000):
            when = datetime.datetime(r.randint(1000, 9999), r.randint(1, 12), r.randint(1, 28), r.randint(0, 23), r.randint(0, 59))
            for form in ("%Y-%m-%d %H:%M", "%d %B %Y, %I:%M %p", "%H:%M on %A, %Y-%j"):
                self.assertEqual(pelzaune.parse(when.strftime(form), form), datetime.datetime.strptime(when.strftime(form), form))

    def test_read_descriptions(self):
        for text in ("%d/%b/%Y:%H:%M:%S %z", b"[year]-[month]-[day]", "[year]-[month][optional [-[day]]]", "%%"):
            form = pelzaune.Description(text)
            self.assertEqual((form.text, form), (text, pelzaune.Description(text)))
            self.assertEqual(repr(form), f"pelzaune.Description({text!r})")
            self.assertEqual(pickle.loads(pickle.dumps(form)), form)
            self.assertNotEqual(form, pelzaune.Description("%Y"))
            self.assertEqual(len({form, copy.copy(form), pelzaune.Description(text=text)}), 1)
            for given in ("02/Jan/2021:03:04:05 -0030", "2021-01-02", "2021-01", "", "x"):
                for call in (pelzaune.parse, pelzaune.parse_date, pelzaune.parse_time, pelzaune.parse_parts, pelzaune.unix_ns, pelzaune.column):
                    self.assertEqual(answered(call, given, form), answered(call, given, text))
        when = datetime.datetime(2021, 1, 2, 3, 4, 5, 0, zone(-30))
        self.assertEqual(pelzaune.parse("02/Jan/2021:03:04:05 -0030", pelzaune.Description("%d/%b/%Y:%H:%M:%S %z")), when)

    def test_nanoseconds(self):
        self.assertEqual(pelzaune.unix_ns("1969-12-31T23:59:59.999999999Z"), -1)
        self.assertEqual(pelzaune.unix_ns("2262-04-11T23:47:16.854775808Z"), 2**63)
        self.assertEqual(pelzaune.unix_ns("1677-09-21T00:12:43.145224191Z"), -(2**63) - 1)

    def test_parts(self):
        self.assertEqual(pelzaune.parse_parts("2020-W53-5", pelzaune.ISO8601), (datetime.date(2021, 1, 1), None, None))
        self.assertEqual(pelzaune.parse_parts("23:59 -0030", "%H:%M %z"), (None, datetime.time(23, 59), zone(-30)))
        self.assertEqual(pelzaune.parse_parts("2021-01-02T03:04:05.5Z"), (datetime.date(2021, 1, 2), datetime.time(3, 4, 5, 500000), UTC))
        self.assertRaises(pelzaune.ParseError, pelzaune.parse_parts, "2021-02-30T03:04:05Z")
        # Neither datetime's date nor its timezone can represent these.
        self.assertRaisesRegex(pelzaune.ParseError, "year", pelzaune.parse_parts, "0000-05-13 +2559", "%Y-%m-%d %z")

    def test_no_part(self):
        """A text without a complete date, time or offset, though it matches its format."""
        for text, form in (("2021", "%Y"), ("2021-01", "[year]-[month]"), (":30", ":[minute]"), ("", "[optional [[hour]]]"), ("x", pelzaune.Description("x")),
                           ("10", "[subsecond]")):
            with self.assertRaises(pelzaune.ParseError) as caught:
                pelzaune.parse_parts(text, form)
            self.assertEqual((str(caught.exception), caught.exception.component, caught.exception.index),
                             ("the text has no complete date, time or offset", None, None))
        self.assertEqual(pelzaune.parse_parts("+05", "[offset_hour]"), (None, None, zone(300)))

    def test_zones_are_kept_apart(self):
        for seconds in [*range(-86340, 86400, 60), *range(-86399, 86400, 977)] * 2:
            sign, rest = "-" if seconds < 0 else "+", abs(seconds)
            text = f"2021-01-02T03:04:05{sign}{rest // 3600:02}:{rest // 60 % 60:02}"
            self.assertEqual(pelzaune.parse(text).utcoffset(), datetime.timedelta(minutes=(-1 if seconds < 0 else 1) * (rest // 60)))

    def test_texts(self):
        when = datetime.datetime(1985, 4, 12, 23, 20, 50, 520000, zone(-510))
        self.assertEqual(pelzaune.format_datetime(when), "1985-04-12T23:20:50.52-08:30")
        self.assertEqual(pelzaune.format_datetime(when, pelzaune.ISO8601), "1985-04-12T23:20:50.520000000-08:30")
        r = random.Random(822)
        for _ in range(2000):
            when = datetime.datetime(r.randint(1900, 9999), r.randint(1, 12), r.randint(1, 28), r.randint(0, 23), r.randint(0, 59),
                                     r.randint(0, 59), r.choice([0, r.randint(0, 999999)]), zone(r.randint(-1439, 1439)))
            self.assertEqual(pelzaune.format_datetime(value=when, format=pelzaune.RFC2822), email.utils.format_datetime(when))
            for form in (pelzaune.RFC3339, pelzaune.ISO8601):
                got = pelzaune.parse(pelzaune.format_datetime(when, form), form)
                self.assertEqual((got, got.utcoffset()), (when, when.utcoffset()))

    def test_against_datetime_and_email(self):
        r = random.Random(3339)
        for _ in range(3000):
            when = datetime.datetime(r.randint(1, 9999), r.randint(1, 12), r.randint(1, 28), r.randint(0, 23), r.randint(0, 59),
                                     r.randint(0, 59), r.choice([0, r.randint(0, 999999)]), zone(r.randint(-1439, 1439)))
            for form in (pelzaune.RFC3339, pelzaune.ISO8601):
                got = pelzaune.parse(when.isoformat(), form)
                self.assertEqual((got, got.utcoffset()), (when, when.utcoffset()))
                self.assertEqual(pelzaune.parse_date(when.isoformat(), form), when.date())
                self.assertEqual(pelzaune.parse_time(when.isoformat(), form), when.time())
            naive = when.replace(tzinfo=None)
            self.assertEqual(pelzaune.parse(naive.isoformat(), pelzaune.ISO8601), naive)
            if 1 < when.year < 9999:
                self.assertEqual(pelzaune.unix_ns(when.isoformat()), (when - EPOCH) // MICROSECOND * 1000)
            if when.year >= 1900:
                text = email.utils.format_datetime(when)
                got = pelzaune.parse(text, pelzaune.RFC2822)
                self.assertEqual((got, got.utcoffset()), (email.utils.parsedate_to_datetime(text), when.utcoffset()))


class Columns(unittest.TestCase):
    LINES = b"1970-01-01T00:00:01Z\n\n1970-01-01T00:00:02Zx\n1969-12-31T23:59:59.5-00:01"
    COUNTS = [10**9, pelzaune.NO_COUNT, pelzaune.NO_COUNT, 59500000000]

    def test_buffers(self):
        for lines in (self.LINES, self.LINES.decode(), bytearray(self.LINES), memoryview(self.LINES), array.array("b", self.LINES)):
            got = pelzaune.column(lines)
            self.assertEqual((got.typecode, got.tolist()), ("q", self.COUNTS))
        self.assertEqual(pelzaune.column("").tolist(), [])
        self.assertEqual(pelzaune.column(format="[unix_timestamp]", text="1\n-1\n").tolist(), [10**9, -(10**9)])
        self.assertEqual(pelzaune.column("Fri, 02 Jan 1970 00:00:00 GMT", pelzaune.RFC2822).tolist(), [86400 * 10**9])

    def test_into(self):
        out = array.array("q", [7] * 5)
        self.assertEqual(pelzaune.column_into(self.LINES, out), (4, 2))
        self.assertEqual(out.tolist(), [*self.COUNTS, 7])
        self.assertEqual(pelzaune.column_into(self.LINES, memoryview(out)[3:]), (4, 1))
        self.assertEqual(out.tolist(), [*self.COUNTS[:3], 10**9, pelzaune.NO_COUNT])
        bytes_of = bytearray(16)
        self.assertEqual(pelzaune.column_into(self.LINES, memoryview(bytes_of).cast("q"), pelzaune.RFC3339), (4, 1))
        self.assertEqual(int.from_bytes(bytes_of[:8], "little"), 10**9)

    def test_each_line_as_alone(self):
        r = random.Random(1)
        texts = [f"20{r.randrange(100):02}-{r.randint(1, 13):02}-{r.randint(1, 31):02}T03:04:05Z" for _ in range(20000)]
        counts = []
        for text in texts:
            try:
                counts.append(pelzaune.unix_ns(text))
            except pelzaune.ParseError:
                counts.append(pelzaune.NO_COUNT)
        self.assertTrue(1000 < counts.count(pelzaune.NO_COUNT) < 10000)
        self.assertEqual(pelzaune.column("\n".join(texts)).tolist(), counts)

    def test_others_run_meanwhile(self):
        lines = b"2021-01-02T03:04:05.123456789+05:30\n" * 400000
        done, turns = threading.Event(), 0
        columns = []
        thread = threading.Thread(target=lambda: (columns.append(pelzaune.column(lines)), done.set()))
        thread.start()
        while not done.is_set():
            turns += 1
        thread.join()
        self.assertTrue(turns > 1000)
        self.assertEqual(set(columns[0]), {pelzaune.unix_ns("2021-01-02T03:04:05.123456789+05:30")})


class Refusals(unittest.TestCase):
    def refused(self, text, message, component, format=pelzaune.RFC3339, call=pelzaune.parse):
        with self.assertRaises(pelzaune.ParseError) as caught:
            call(text, format)
        self.assertIsInstance(caught.exception, ValueError)
        self.assertEqual((str(caught.exception), caught.exception.component), (message, component))

    def test_components(self):
        self.refused("2021-13-02T03:04:05Z", "month is out of range", "month")
        self.refused("2021-02-29T03:04:05Z", "day is out of range for the other components", "day")
        self.refused("2021-01-02T03:04:0\u0665Z", "the 'second' component could not be parsed", "second")
        self.refused("", "the 'year' component could not be parsed", "year")
        self.refused("2021-01-02T03:04:05Z\n", "unexpected trailing characters; the end of input was expected", None)
        self.refused("2021-01-02", "missing hour", "hour", format=pelzaune.ISO8601, call=pelzaune.unix_ns)
        self.refused("2021-01-02T03:04", "missing offset", "offset hour", format=pelzaune.ISO8601, call=pelzaune.unix_ns)
        self.refused("T03:04Z", "missing day", "day", format=pelzaune.ISO8601)
        self.refused("T03:04Z", "missing day", "day", format=pelzaune.ISO8601, call=pelzaune.parse_date)
        self.refused("2021-01-02", "missing hour", "hour", format=pelzaune.ISO8601, call=pelzaune.parse_time)
        syslog = pelzaune.Description("%b %d %H:%M:%S")
        self.refused("Jan 02 03:04:05", "missing year", "year", format=syslog)
        self.refused("Jan 02 03:04:05", "missing year", "year", format=syslog, call=pelzaune.parse_date)
        self.refused("03:04", "missing AM or PM", "period", format=pelzaune.Description("%I:%M"), call=pelzaune.parse_time)
        with self.assertRaisesRegex(pelzaune.ParseError, "missing year"):
            pelzaune.parse_many(["Jan 02 03:04:05"], syslog)

    def test_places(self):
        def index(text, form=pelzaune.RFC3339, call=pelzaune.parse):
            with self.assertRaises(pelzaune.ParseError) as caught:
                call(text, form)
            return caught.exception.index

        for call in (pelzaune.parse, pelzaune.parse_date, pelzaune.parse_time, pelzaune.parse_parts, pelzaune.unix_ns):
            self.assertEqual(index("2021-13-02T03:04:05Z", call=call), 5)
            self.assertEqual(index("2021-01-02T03:04:05Zx", call=call), 20)
        self.assertEqual(index(""), 0)
        self.assertEqual(index("1985-13-12923:20:50Z"), 5)
        self.assertEqual(index("02/Jan-2021", "%d/%b/%Y"), 6)
        self.assertEqual(index(b"02/Jan", pelzaune.Description("%d/%b/%Y")), 6)
        self.assertEqual(index("2021-02", "[year]-[month]-[day]"), 7)
        self.assertEqual(index("2021-w02", "[year]-W[day]"), 5)
        self.assertEqual(index("Sat 02 Jan 2021 03:04 +0607", pelzaune.RFC2822), 3)
        self.assertEqual(index("02 Jan 2021 03:04: +0607", pelzaune.RFC2822), 19)
        self.assertIsNone(index("2021-02-30T03:04:05Z"))
        self.assertIsNone(index("2021-13", pelzaune.ISO8601))
        self.assertEqual(index("2021-13-02", pelzaune.ISO8601), 7)

    def test_faults_of_descriptions(self):
        self.refused("2021", "no component has that name", None, format="[yaer]")
        self.refused("2021", "that is not supported in a description", None, format="%Z")
        for call in (pelzaune.parse, pelzaune.column):
            with self.assertRaises(pelzaune.DescriptionError) as caught:
                call("2021", "[year]-[moth]")
            self.assertEqual((caught.exception.index, caught.exception.component), (8, None))
        with self.assertRaises(pelzaune.DescriptionError) as caught:
            pelzaune.Description("[year]-[moth]")
        self.assertEqual((str(caught.exception), caught.exception.index), ("no component has that name", 8))
        with self.assertRaises(pelzaune.DescriptionError) as caught:
            pelzaune.parse("2021", "-" * 64 + "%Y")
        self.assertEqual((str(caught.exception), caught.exception.index), ("the description is too long", None))

    def test_texts(self):
        def why(when, form):
            with self.assertRaises(pelzaune.FormatError) as caught:
                pelzaune.format_datetime(when, form)
            self.assertIsInstance(caught.exception, ValueError)
            return str(caught.exception), caught.exception.component

        when = datetime.datetime(1899, 1, 2, tzinfo=UTC)
        self.assertEqual(why(when, pelzaune.RFC2822), ("the 'year' component has no text in that format", "year"))
        self.assertEqual(why(when.replace(tzinfo=None), pelzaune.RFC3339), ("a datetime without a zone has no text", "offset hour"))
        odd = datetime.timezone(datetime.timedelta(seconds=1))
        self.assertEqual(why(when.replace(tzinfo=odd), pelzaune.RFC3339)[1], "offset second")
        odd = datetime.timezone(datetime.timedelta(microseconds=1))
        self.assertEqual(why(when.replace(tzinfo=odd), pelzaune.RFC3339)[1], "offset second")

    def test_what_python_lacks(self):
        self.refused("0000-01-02T03:04:05Z", "year is out of the range 1 to 9999 of datetime", "year")
        self.refused("+012345-01-02", "year is out of the range 1 to 9999 of datetime", "year", pelzaune.ISO8601, pelzaune.parse_date)
        self.refused("2021-01-02T03:04:05+24:00", "offset hour is out of the range of datetime", "offset hour", pelzaune.ISO8601)

    def test_arguments(self):
        for wrong in (5, None, bytearray(b"2021-01-02T03:04:05Z")):
            self.assertRaises(TypeError, pelzaune.parse, wrong)
        self.assertRaises(TypeError, pelzaune.parse, "2021", 1.5)
        self.assertRaises(pelzaune.ParseError, pelzaune.parse, "\ud800")
        self.assertIsNone(pelzaune.ParseError("text").component)

    def test_pickled(self):
        try:
            pelzaune.parse("2021-13-02T03:04:05Z")
        except pelzaune.ParseError as error:
            again = pickle.loads(pickle.dumps(error))
            self.assertEqual((str(again), again.component), ("month is out of range", "month"))


class Program(unittest.TestCase):
    def run_on(self, *words, given=b""):
        done = subprocess.run([sys.executable, "-m", "pelzaune", *words], input=given, capture_output=True)
        return done.stdout.decode(), done.stderr.decode(), done.returncode

    def test_texts(self):
        self.assertEqual(self.run_on("1985-04-12T23:20:50.52Z"), ("1985-04-12T23:20:50.520000+00:00 482196050520000000\n", "", 0))
        self.assertEqual(self.run_on("--format", "rfc2822", given=b"Fri, 02 Jan 1970 00:00:00 GMT\nx\n"),
                         ("1970-01-02T00:00:00+00:00 86400000000000\n", "x: the 'day' component could not be parsed\n", 1))
        # In files of Windows lines end with CR LF.
        self.assertEqual(self.run_on("--format", "ISO8601", given=b"1970-01-02T00Z\r\n"), ("1970-01-02T00:00:00+00:00 86400000000000\n", "", 0))

    def test_arguments(self):
        self.assertEqual(self.run_on("--version"), (f"pelzaune {pelzaune.__version__}\n", "", 0))
        for form, reason in (("[yaer]", "no component has that name, at index 1"), ("[day]" + "-" * 64, "the description is too long"),
                             ("RFC-3339", "format must be RFC3339, RFC2822, ISO8601, a Description, or the text of one, not 'RFC-3339'")):
            out, error, status = self.run_on("--format=" + form, "2021")
            self.assertEqual((out, error.split("\n")[-2], status), ("", f"python -m pelzaune: error: argument --format: {reason}", 2))
        self.assertEqual(self.run_on("--form")[2], 2)

    def test_other_bytes(self):
        """Bytes that aren't UTF-8, in a line and in an argument, are rejected like other texts."""
        wanted = ("", "\\xff\\xfe: the 'year' component could not be parsed\n", 1)
        self.assertEqual(self.run_on(given=b"\xff\xfe\n"), wanted)
        self.assertEqual(self.run_on(b"\xff\xfe"), wanted)
        self.assertEqual(self.run_on("--format", b"\xff[unix_timestamp]", b"\xff1")[2], 0)


class Documents(unittest.TestCase):
    def test_examples(self):
        self.assertEqual(doctest.testmod(pelzaune).failed, 0)
        for name in pelzaune.__all__:
            if callable(call := getattr(pelzaune, name)):
                self.assertTrue(call.__doc__)
                self.assertTrue(isinstance(call, type) or "Error" in call.__doc__)


if __name__ == "__main__":
    unittest.main()
