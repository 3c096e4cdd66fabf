"""Tests of the enum Format, of names of formats, of Description as an object, and of texts by descriptions and in zones."""
import datetime
import email.utils
import enum
import gc
import inspect
import pickle
import random
import sys
import unittest
import weakref
import zoneinfo

import pelzaune
from pelzaune import Format

TEXTS = {Format.RFC3339: "1970-01-02T00:00:00Z", Format.RFC2822: "Fri, 02 Jan 1970 00:00:00 GMT", Format.ISO8601: "1970-W01-5T00Z"}
DAY = 86400 * 10**9
UTC = datetime.timezone.utc


class Formats(unittest.TestCase):
    def test_members(self):
        self.assertTrue(issubclass(Format, enum.IntEnum))
        self.assertEqual([(it.name, it.value) for it in Format], [("RFC3339", 1), ("RFC2822", 2), ("ISO8601", 3)])
        for it in Format:
            self.assertIs(getattr(pelzaune, it.name), it)
            self.assertIs(pickle.loads(pickle.dumps(it)), it)
        self.assertEqual((Format.__module__, Format.__qualname__), ("pelzaune", "Format"))
        self.assertIn("format=<Format.RFC3339: 1>", str(inspect.signature(pelzaune.parse)))

    def test_each_way(self):
        """By the member, by its number, and by its name in any case, as str and bytes."""
        for form, text in TEXTS.items():
            for it in (form, int(form), form.name, form.name.lower(), form.name.capitalize(), form.name.encode(), form.name.lower().encode()):
                self.assertEqual(pelzaune.unix_ns(text, it), DAY)
                self.assertEqual(pelzaune.parse(text, format=it), datetime.datetime(1970, 1, 2, tzinfo=UTC))
                self.assertEqual(pelzaune.parse_date(text, it), datetime.date(1970, 1, 2))
                self.assertEqual(pelzaune.parse_many([text], it).tolist(), [DAY])
                self.assertEqual(pelzaune.column(text, it).tolist(), [DAY])
                written = pelzaune.format_datetime(datetime.datetime(1970, 1, 2, tzinfo=UTC), it)
                self.assertEqual(pelzaune.parse(written, it).timestamp(), 86400)
                self.assertEqual(pelzaune.format_many([datetime.datetime(1970, 1, 2, tzinfo=UTC)], it), [written])

    def test_no_formats(self):
        """An error lists the choices."""
        choices = "format must be RFC3339, RFC2822, ISO8601, a Description, or the text of one, not "
        for call in (pelzaune.parse, pelzaune.unix_ns, pelzaune.column, pelzaune.parse_many, pelzaune.format_many):
            given = [] if call in (pelzaune.parse_many, pelzaune.format_many) else "2021"
            for wrong, shown in ((0, "0"), (4, "4"), (-1, "-1"), (2**70, str(2**70))):
                with self.assertRaises(ValueError) as caught:
                    call(given, wrong)
                self.assertEqual((type(caught.exception), str(caught.exception)), (ValueError, choices + shown))
            for wrong, shown in ((True, "bool"), (False, "bool"), (None, "NoneType"), (1.0, "float"), ([], "list")):
                with self.assertRaises(TypeError) as caught:
                    call(given, wrong)
                self.assertEqual(str(caught.exception), choices + shown)
            # A text with neither a % nor a [ is no description of its literal bytes.
            for wrong in ("rfc3339 ", "rfc3339\0", "rfc822", "rfc-3339", "RFC-3339", "rfc339", "", "]", "\u00e9"):
                for it in (wrong, wrong.encode()):
                    with self.assertRaises(ValueError) as caught:
                        call(given and it, it)
                    self.assertEqual((type(caught.exception), str(caught.exception)), (ValueError, f"{choices}{wrong!r}"))
            with self.assertRaises(ValueError) as caught:
                call(given, b"\xff" + b"x" * 10**6)
            self.assertEqual(str(caught.exception), choices + repr("\ufffd" + "x" * 79))
        when = datetime.datetime(2021, 1, 2, tzinfo=UTC)
        for wrong, shown, error in (("iso-8601", "'iso-8601'", ValueError), (b"Y-m-d", "'Y-m-d'", ValueError), (4, "4", ValueError),
                                    (None, "NoneType", TypeError)):
            with self.assertRaises(error) as caught:
                pelzaune.format_datetime(when, wrong)
            self.assertEqual((type(caught.exception), str(caught.exception)), (error, choices + shown))
        # The choices are those that are accepted.
        for form in (*Format, *(it.name for it in Format), pelzaune.Description("[year]"), "[year]", b"%Y"):
            self.assertTrue(pelzaune.format_datetime(when, form).startswith("Sat, 02" if form in (2, "RFC2822") else "2021"))
        # A Description may be one of literal bytes.
        self.assertEqual(pelzaune.column("rfc3339\n", pelzaune.Description("rfc3339")).tolist(), [pelzaune.NO_COUNT])


class Objects(unittest.TestCase):
    def test_collected(self):
        """A description in a cycle with its text is collected."""
        class Text(str):
            pass

        for _ in range(3):
            text = Text("%Y")
            text.form = pelzaune.Description(text)
            gone = weakref.ref(text)
            self.assertTrue(gc.is_tracked(text.form))
            del text
            gc.collect()
            self.assertIsNone(gone())
        form = pelzaune.Description("%Y")
        self.assertEqual(sys.getrefcount(form), 2)

    def test_many(self):
        for _ in range(2):
            forms = [pelzaune.Description("%Y-%m-%d") for _ in range(10000)]
            gc.collect()
            self.assertEqual(pelzaune.parse_date("2021-01-02", forms[-1]), datetime.date(2021, 1, 2))
            del forms


# Conversions that Python's strftime has too, in a locale without names of its own.
STRFTIME = ("%Y-%m-%d %H:%M:%S", "%d/%b/%Y:%H:%M:%S %z", "%A, %d %B %Y", "%a, %d %h %Y %I:%M:%S %p", "%F %T", "%D %R", "%c", "%x %X", "%r", "%j, %U, %W",
            "%G-W%V-%u, %w", "%C %y %g", "%k:%M %l%P", "%-d.%-m.%Y %-H:%M", "%_m/%_d %0e", "%%%n%t%d", "%e. %B um %H Uhr \u00e9\U0001f550", "%d", "%z")


def random_time(r, first=1000):
    """A datetime from a year on, at an offset of whole minutes."""
    return datetime.datetime(r.randint(first, 9999), r.randint(1, 12), r.randint(1, 28), r.randrange(24), r.randrange(60), r.randrange(60),
                             r.choice((0, 500000, r.randrange(10**6))), datetime.timezone(datetime.timedelta(minutes=r.randint(-1439, 1439))))


class Written(unittest.TestCase):
    """Texts by descriptions."""
    SEEN = datetime.datetime(1985, 4, 12, 23, 20, 50, 520000, tzinfo=UTC)

    def written(self, when, form):
        """The text by a description, which is equal by each way to pass the description."""
        texts = {pelzaune.format_datetime(when, it) for it in (form, form.encode(), pelzaune.Description(form), pelzaune.Description(form.encode()))}
        texts.update(pelzaune.format_many([when], form))
        self.assertEqual(len(texts), 1)
        return texts.pop()

    def test_strftime(self):
        r = random.Random(9945)
        whens = [random_time(r) for _ in range(300)]
        whens += [datetime.datetime(year, month, day, hour, tzinfo=UTC) for year in (1000, 1969, 2000, 2020, 9999) for month in (1, 12)
                  for day in (1, 31) for hour in (0, 12)]
        for when in whens:
            for form in STRFTIME:
                self.assertEqual(self.written(when, form), when.strftime(form))
            self.assertEqual(self.written(when, "%a, %d %b %Y %H:%M:%S %z"), email.utils.format_datetime(when))

    def test_examples(self):
        """Examples of RFC 3339, of RFC 2822 and of Apache's log format."""
        self.assertEqual(self.written(self.SEEN, "%Y-%m-%dT%H:%M:%S%.fZ"), "1985-04-12T23:20:50.52Z")
        self.assertEqual(self.written(self.SEEN, "[year]-[month]-[day]T[hour]:[minute]:[second].[subsecond]Z"), "1985-04-12T23:20:50.52Z")
        behind = datetime.timezone(datetime.timedelta(hours=-8))
        self.assertEqual(self.written(datetime.datetime(1996, 12, 19, 16, 39, 57, tzinfo=behind), "%FT%T%:z"), "1996-12-19T16:39:57-08:00")
        behind = datetime.timezone(datetime.timedelta(hours=-6))
        self.assertEqual(self.written(datetime.datetime(1997, 11, 21, 9, 55, 6, tzinfo=behind), "%a, %d %b %Y %T %z"), "Fri, 21 Nov 1997 09:55:06 -0600")
        behind = datetime.timezone(datetime.timedelta(hours=-7))
        self.assertEqual(self.written(datetime.datetime(2000, 10, 10, 13, 55, 36, tzinfo=behind), "%d/%b/%Y:%H:%M:%S %z"), "10/Oct/2000:13:55:36 -0700")

    def test_isoformat(self):
        r = random.Random(8601)
        whole = "[year]-[month]-[day]T[hour]:[minute]:[second].[subsecond digits:6][offset_hour sign:mandatory]:[offset_minute]"
        for when in (random_time(r, 1) for _ in range(1000)):
            self.assertEqual(self.written(when, whole), when.isoformat(timespec="microseconds"))
            self.assertEqual(self.written(when, "%Y-%m-%d %H:%M:%S.%6f%:z"), when.isoformat(" ", "microseconds"))
            year, week, day = when.isocalendar()
            self.assertEqual(self.written(when, "[year base:iso_week]-W[week_number]-[weekday repr:monday]"), f"{year:04}-W{week:02}-{day}")

    def test_fractions(self):
        """Of a fixed number of digits, or of as many as are needed, but at least one."""
        for microsecond, needed in ((0, "0"), (520000, "52"), (1, "000001"), (999999, "999999"), (100, "0001")):
            when = self.SEEN.replace(microsecond=microsecond)
            digits = f"{microsecond:06}000"
            self.assertEqual(self.written(when, "%f|%3f|%6f|%9f|%N|%S%.f"), f"{needed}|{digits[:3]}|{digits[:6]}|{digits}|{digits}|50.{needed}")
            for count in range(1, 10):
                self.assertEqual(self.written(when, f"[subsecond digits:{count}]"), digits[:count])

    def test_timestamps(self):
        """Whole units since 1970, rounded down."""
        r, epoch = random.Random(1970), datetime.datetime(1970, 1, 1, tzinfo=UTC)
        units = {"second": datetime.timedelta(seconds=1), "millisecond": datetime.timedelta(milliseconds=1), "microsecond": datetime.timedelta(microseconds=1)}
        for when in [*(random_time(r, 1) for _ in range(1000)), epoch, epoch - units["microsecond"], datetime.datetime.min.replace(tzinfo=UTC),
                     datetime.datetime.max.replace(tzinfo=UTC)]:
            for precision, unit in units.items():
                self.assertEqual(self.written(when, f"[unix_timestamp precision:{precision}]"), str((when - epoch) // unit))
            self.assertEqual(self.written(when, "[unix_timestamp precision:nanosecond]"), str((when - epoch) // units["microsecond"] * 1000))
            self.assertEqual(self.written(when, "%s"), str((when - epoch) // units["second"]))

    def test_choices(self):
        """All optional items, and the first item of each choice."""
        for form, wanted in (("[hour][optional [:[minute][optional [:[second]]]]][first [ UTC] [Z] []]", "23:20:50 UTC"),
                             ("[first [[month repr:short]] [[month]]]", "Apr"), ("[optional []]\\[[end]", "["),
                             ("[weekday case_sensitive:false], [period case:lower]", "Friday, pm")):
            self.assertEqual(self.written(self.SEEN, form), wanted)

    def test_literals(self):
        for form, wanted in (("\u00e9%Y\0", "\u00e91985\0"), ("%d\u2013\U0001f550", "12\u2013\U0001f550"), ("\\[ [year]", "[ 1985"),
                             ("%%", "%")):
            self.assertEqual(self.written(self.SEEN, form), wanted)
        self.assertEqual(pelzaune.format_datetime(self.SEEN, pelzaune.Description("no component")), "no component")
        self.assertEqual(pelzaune.format_datetime(self.SEEN, pelzaune.Description("")), "")

    def test_parsed_back(self):
        """A text by a description of all parts parses as its datetime, with its offset."""
        r = random.Random(3339)
        for form in map(pelzaune.Description, ("%Y-%m-%dT%H:%M:%S%.f%z", "%A, %d %B %Y, %I:%M:%S.%f %p %:z", "%G-W%V-%u %T.%6f %z", "%N %j %Y %X %z",
                                               "[ordinal padding:none]/[year] [hour padding:space]:[minute]:[second].[subsecond] [offset_hour][offset_minute]")):
            for when in (random_time(r, 1) for _ in range(500)):
                got = pelzaune.parse(pelzaune.format_datetime(when, form), form)
                self.assertEqual((got, got.utcoffset()), (when, when.utcoffset()))

    def test_zones(self):
        """At 23:20 UTC, Berlin was two hours ahead."""
        for zone in ("Europe/Berlin", zoneinfo.ZoneInfo("Europe/Berlin"), "+02:00"):
            self.assertEqual(pelzaune.format_datetime(self.SEEN, "%d.%m.%Y %H:%M %z", zone), "13.04.1985 01:20 +0200")
            self.assertEqual(pelzaune.format_many([self.SEEN], "[hour]:[minute]", zone=zone), ["01:20"])
        self.assertEqual(pelzaune.format_datetime(self.SEEN, zone=None, format=pelzaune.Description("[hour]")), "23")
        # Berlin's local mean time was 53:28 ahead of UTC.
        early = datetime.datetime(1880, 1, 1, tzinfo=UTC)
        self.assertEqual(pelzaune.format_datetime(early, "%T %z", "Europe/Berlin"), "00:53:28 +0053")
        self.assertEqual(pelzaune.format_datetime(early, "[offset_hour]:[offset_minute]:[offset_second]", "Europe/Berlin"), "00:53:28")


class Zones(unittest.TestCase):
    """Texts in other zones. RFC 3339's example is at 23:20:50 UTC; Berlin was two hours ahead then, New York five behind."""
    AT = datetime.datetime(1985, 4, 12, 23, 20, 50, 520000, tzinfo=UTC)

    def test_zones(self):
        for zone, wanted in (("Europe/Berlin", "1985-04-13T01:20:50.52+02:00"), (zoneinfo.ZoneInfo("America/New_York"), "1985-04-12T18:20:50.52-05:00"),
                             ("-08:30", "1985-04-12T14:50:50.52-08:30"), ("Z", "1985-04-12T23:20:50.52Z"), (UTC, "1985-04-12T23:20:50.52Z"),
                             (None, "1985-04-12T23:20:50.52Z"), (datetime.timezone(datetime.timedelta(hours=9)), "1985-04-13T08:20:50.52+09:00")):
            self.assertEqual(pelzaune.format_datetime(self.AT, zone=zone), wanted)
        self.assertEqual(pelzaune.format_datetime(self.AT, "rfc2822", "Europe/Berlin"), "Sat, 13 Apr 1985 01:20:50 +0200")
        shown = self.AT.astimezone(zoneinfo.ZoneInfo("Asia/Kathmandu"))
        self.assertEqual(pelzaune.format_datetime(shown, "iso8601", zone="+05:30"), "1985-04-13T04:50:50.520000000+05:30")

    def test_errors(self):
        self.assertRaises(zoneinfo.ZoneInfoNotFoundError, pelzaune.format_datetime, self.AT, zone="Europe/Atlantis")
        self.assertRaisesRegex(ValueError, "zone must be a tzinfo, an offset such as", pelzaune.format_datetime, self.AT, zone="+8")
        self.assertRaisesRegex(TypeError, "zone must be a tzinfo or str, not int", pelzaune.format_datetime, self.AT, zone=8)
        self.assertRaises(pelzaune.FormatError, pelzaune.format_datetime, self.AT.replace(tzinfo=None), zone="Europe/Berlin")
        # Berlin's local mean time was 53:28 ahead of UTC.
        with self.assertRaises(pelzaune.FormatError) as caught:
            pelzaune.format_datetime(datetime.datetime(1880, 1, 1, tzinfo=UTC), zone="Europe/Berlin")
        self.assertEqual(caught.exception.component, "offset second")
        self.assertRaises(OverflowError, pelzaune.format_datetime, datetime.datetime.min.replace(tzinfo=UTC), zone="-08:00")

    def test_nanoseconds_of_subclasses(self):
        class Exact(datetime.datetime):
            nanosecond = 0

        when = Exact(1970, 1, 1, tzinfo=UTC)
        for given, wanted in ((0, "1970-01-01T00:00:00Z"), (7, "1970-01-01T00:00:00.000000007Z"), (999, "1970-01-01T00:00:00.000000999Z")):
            Exact.nanosecond = given
            self.assertEqual(pelzaune.format_datetime(when), wanted)
        for wrong, error in ((-1, ValueError), (1000, ValueError), ("5", TypeError), (2**70, OverflowError)):
            Exact.nanosecond = wrong
            self.assertRaises(error, pelzaune.format_datetime, when)


if __name__ == "__main__":
    unittest.main()
