"""Tests of pelzaune.pandas, and of parse_many over Series (Debian: python3-pandas)."""
import datetime
import decimal
import doctest
import os
import random
import sys
import unittest

import numpy
import pandas
import pelzaune
import pelzaune.pandas
import test_files
from pelzaune.pandas import to_datetime

TEXT, LOG = "1970-01-01T00:00:01Z", "%d/%b/%Y:%H:%M:%S %z"
ONE = pandas.Timestamp(1, unit="s", tz="UTC")
PAGE = os.path.join(os.path.dirname(os.path.abspath(__file__)), "../../../README.md")


def made_texts(count):
    r = random.Random(count)
    return [f"{r.randint(1700, 2200)}-{r.randint(1, 12):02}-{r.randint(1, 28):02}T{r.randrange(24):02}:{r.randrange(60):02}:"
            f"{r.randrange(60):02}{r.choice(['', '.5', '.123456789'])}{r.choice(['Z', '+05:30', '-08:00'])}" for _ in range(count)]


class Times(unittest.TestCase):
    def same(self, got, values, index=None, name=None):
        wanted = pandas.Series(pandas.DatetimeIndex(values, tz="UTC"), index=index, name=name)
        pandas.testing.assert_series_equal(got, wanted)
        self.assertEqual(str(got.dtype), "datetime64[ns, UTC]")

    def test_values(self):
        for texts in ([TEXT, TEXT], [], [TEXT.encode()], [TEXT] * 30000):
            self.same(to_datetime(pandas.Series(texts, dtype=object)), [ONE] * len(texts))
        self.same(to_datetime(pandas.Series(["02/Jan/1970:00:00:00 +0000"]), LOG), [pandas.Timestamp(1, unit="D", tz="UTC")])
        self.same(to_datetime(pandas.Series(["Thu, 01 Jan 1970 00:00:01 GMT"]), format=pelzaune.RFC2822, errors="none"), [ONE])
        self.same(to_datetime(series=pandas.Series(["1"]), format=pelzaune.Description("[unix_timestamp]")), [ONE])

    def test_as_pandas_does(self):
        texts = pandas.Series(made_texts(20000), name="at")
        pandas.testing.assert_series_equal(to_datetime(texts), pandas.to_datetime(texts, utc=True))
        logs = pandas.to_datetime(texts, utc=True).dt.strftime(LOG)
        pandas.testing.assert_series_equal(to_datetime(logs, LOG), pandas.to_datetime(logs, format=LOG, utc=True))

    def test_index_and_name(self):
        for index in ([3, 3], ["a", None], pandas.MultiIndex.from_tuples([(1, "a"), (2, "b")]), pandas.date_range("2021", periods=2)):
            for name in (None, "seen", 5, ("a", 1)):
                self.same(to_datetime(pandas.Series([TEXT, None], index=index, name=name)), [ONE, pandas.NaT], index, name)
        frame = pandas.DataFrame({"a": [TEXT, TEXT], "b": ["?", TEXT]})
        self.assertEqual(frame.apply(to_datetime, errors="none").isna().to_numpy().tolist(), [[False, True], [False, False]])
        self.same(to_datetime(frame["a"][::-1]), [ONE, ONE], [1, 0], "a")

    def test_missing(self):
        missing = [None, float("nan"), numpy.nan, numpy.float64("nan"), pandas.NaT, pandas.NA]
        for errors in ("raise", "none"):
            self.same(to_datetime(pandas.Series([TEXT, *missing, TEXT], dtype=object), errors=errors), [ONE] + [pandas.NaT] * 6 + [ONE])
            for it in missing:
                self.same(to_datetime(pandas.Series([it] * 3), errors=errors), [pandas.NaT] * 3)
                self.same(to_datetime(pandas.Series([it], dtype=object), errors=errors), [pandas.NaT])
        for wrong in (0, 1.5, True, decimal.Decimal("nan"), [TEXT], ONE, numpy.datetime64("NaT"), bytearray(TEXT.encode())):
            with self.assertRaisesRegex(TypeError, "text 2 must be str or bytes, not") as caught:
                to_datetime(pandas.Series([None, TEXT, wrong], dtype=object), errors="none")
            self.assertEqual(caught.exception.text_index, 2)

    def test_dtypes(self):
        texts = [TEXT, None, TEXT, "?"]
        for dtype in (object, "string", "category", pandas.CategoricalDtype([TEXT, "?", "unused"])):
            self.same(to_datetime(pandas.Series(texts, dtype=dtype), errors="none"), [ONE, pandas.NaT, ONE, pandas.NaT])
            self.same(to_datetime(pandas.Series(texts, dtype=dtype)[:3]), [ONE, pandas.NaT, ONE])
            with self.assertRaisesRegex(pelzaune.ParseError, "text 3"):
                to_datetime(pandas.Series(texts, dtype=dtype))
        for wrong in ([1, 2], [1.5], [ONE], [True], [pandas.Timedelta(1)]):
            self.assertRaisesRegex(TypeError, "text 0", to_datetime, pandas.Series(wrong))

    def test_refusals(self):
        for text, index in (("1970-13-01T00:00:00Z", 5), ("1970-02-30T00:00:00Z", None), ("9999-01-01T00:00:00Z", None),
                            ("1677-09-21T00:12:43.145224192Z", None)):
            texts = pandas.Series([TEXT, None, text, "?"], index=list("abcd"))
            with self.assertRaises(pelzaune.ParseError) as caught:
                to_datetime(texts)
            self.assertEqual((caught.exception.text_index, caught.exception.index), (2, index))
            self.same(to_datetime(texts, errors="none"), [ONE] + [pandas.NaT] * 3, list("abcd"))
        self.same(to_datetime(pandas.Series(["1677-09-21T00:12:43.145224193Z"])), [pandas.Timestamp.min])
        self.same(to_datetime(pandas.Series(["2262-04-11T23:47:16.854775807Z"])), [pandas.Timestamp.max])
        with self.assertRaisesRegex(pelzaune.ParseError, "surrogates") as caught:
            to_datetime(pandas.Series([None, "\ud800"]))
        self.assertEqual(caught.exception.text_index, 1)
        self.same(to_datetime(pandas.Series([TEXT, "\ud800", "\u00e9"]), errors="none"), [ONE] + [pandas.NaT] * 2)

    def test_arguments(self):
        for wrong in (TEXT, TEXT.encode(), None, 5, numpy.array(TEXT), numpy.array([[TEXT]]), pandas.DataFrame({"a": [TEXT]}), {TEXT}, iter([TEXT])):
            self.assertRaisesRegex(TypeError, "series must be a Series, an Index, a list or an array of one dimension, not", to_datetime, wrong)
        for errors in ("ignore", "Coerce", None):
            self.assertRaises(ValueError, to_datetime, pandas.Series([TEXT]), errors=errors)
        self.assertRaises(pelzaune.DescriptionError, to_datetime, pandas.Series([TEXT]), "[moth]")
        self.assertRaisesRegex(ValueError, "format must be", to_datetime, pandas.Series([], dtype=object), 9)

    def test_kinds(self):
        """Others than a Series become a DatetimeIndex, as by pandas.to_datetime."""
        texts = [TEXT, "1970-01-01T00:00:02Z"]
        kinds = [texts, tuple(texts), numpy.array(texts), numpy.array(texts, dtype=object), numpy.array(texts, dtype="S"), pandas.Index(texts),
                 pandas.Index(texts, dtype="string", name="at"), pandas.CategoricalIndex(texts), pandas.array(texts, dtype="string"),
                 pandas.Categorical(texts)]
        for it in kinds:
            got = to_datetime(it)
            self.assertEqual(str(got.dtype), "datetime64[ns, UTC]")
            theirs = pandas.to_datetime([text.decode() for text in it] if getattr(it, "dtype", None) == "S20" else it, utc=True)
            pandas.testing.assert_index_equal(got, theirs)
        for errors in ("none", "coerce"):
            got = to_datetime([TEXT, None, "?"], errors=errors)
            pandas.testing.assert_index_equal(got, pandas.to_datetime([TEXT, None, "?"], utc=True, errors="coerce"))
            self.same(to_datetime(pandas.Series([TEXT, "?"]), errors=errors), [ONE, pandas.NaT])
        self.assertEqual(len(to_datetime([])), 0)

    def test_offsets(self):
        """01:00 is 00:00 in UTC on a clock that is an hour ahead."""
        texts = ["1970-01-01T01:00:01", None, TEXT]
        for offset in ("+01:00", datetime.timezone(datetime.timedelta(hours=1)), "Europe/Berlin"):
            self.same(to_datetime(pandas.Series(texts), "iso8601", offset=offset), [ONE, pandas.NaT, ONE])
        pandas.testing.assert_index_equal(to_datetime(texts, offset="+01:00"), pandas.DatetimeIndex([ONE, pandas.NaT, ONE]))

    def test_interrupted(self):
        for given in ((pandas.Series([TEXT] * 10**7),), ([TEXT, None, "?"] * 3 * 10**6, LOG, "coerce"), (numpy.array([TEXT] * 10**7), "iso8601", "raise", "+01:00")):
            with self.subTest(given=given[1:]):
                interrupts = test_files.Interrupts()
                self.assertLess(min(interrupts.late(to_datetime, *given) for _ in range(3)), interrupts.MOST)

    def test_left_as_it_was(self):
        texts = pandas.Series([TEXT, None, "?"], name="at")
        before, held = texts.copy(), sys.getrefcount(None)
        for _ in range(1000):
            times = to_datetime(texts, errors="none")
        self.assertTrue(abs(sys.getrefcount(None) - held) < 500)
        times[0] = pandas.NaT
        pandas.testing.assert_series_equal(texts, before)


class Texts(unittest.TestCase):
    def test_nanoseconds(self):
        at = pandas.Timestamp("1985-04-12T23:20:50.123456789-08:30")
        self.assertEqual(pelzaune.format_datetime(at), "1985-04-12T23:20:50.123456789-08:30")
        self.assertEqual(pelzaune.format_datetime(at, zone="Europe/Berlin"), "1985-04-13T09:50:50.123456789+02:00")
        self.assertEqual(pelzaune.format_datetime(pandas.Timestamp("1970-01-01T00:00:00.000000001Z")), "1970-01-01T00:00:00.000000001Z")
        r = random.Random(9)
        for count in (r.randrange(-2**62, 2**62) for _ in range(2000)):
            at = pandas.Timestamp(count, unit="ns", tz="UTC")
            self.assertEqual(pelzaune.unix_ns(pelzaune.format_datetime(at)), count)
        self.assertRaises(pelzaune.FormatError, pelzaune.format_datetime, pandas.Timestamp("2021-01-02"))
        self.assertRaisesRegex(ValueError, "NaT", pelzaune.format_datetime, pandas.NaT)

    def test_descriptions(self):
        at = pandas.Timestamp("1985-04-12T23:20:50.123456789-08:30")
        self.assertEqual(pelzaune.format_datetime(at, "%S.%f %9f %6f"), "50.123456789 123456789 123456")
        self.assertEqual(pelzaune.format_datetime(at, "%H.%N", zone="Europe/Berlin"), "09.123456789")
        self.assertEqual(pelzaune.format_datetime(at, "[subsecond] [unix_timestamp precision:nanosecond]"), f"123456789 {at.value}")

    def test_many(self):
        """As many texts as Series.dt.strftime has."""
        times = pandas.to_datetime(pandas.Series(made_texts(2000)), utc=True)
        for it in (times, times.dt.tz_convert("Europe/Berlin"), times.astype(object), pandas.DatetimeIndex(times)):
            wanted = (it if isinstance(it, pandas.DatetimeIndex) else pandas.to_datetime(it).dt).strftime(LOG).tolist()
            self.assertEqual(pelzaune.format_many(it, LOG), wanted)
        self.assertEqual(list(pelzaune.parse_many(pelzaune.format_many(times))), [it.value for it in times])
        with self.assertRaisesRegex(ValueError, "NaT") as caught:
            pelzaune.format_many(pandas.Series([times[0], pandas.NaT]))
        self.assertEqual(caught.exception.text_index, 1)
        with self.assertRaisesRegex(pelzaune.FormatError, "value 0: a datetime without a zone has no text"):
            pelzaune.format_many(pandas.Series([pandas.Timestamp("2021-01-02")]))


class Many(unittest.TestCase):
    def test_series(self):
        for dtype in (object, "string", "category"):
            texts = pandas.Series([TEXT, "?", TEXT], dtype=dtype, index=[5, 5, 6])
            counts, refused = pelzaune.parse_many(texts, errors="none")
            self.assertEqual((counts.tolist(), refused.tolist()), ([10**9, pelzaune.NO_COUNT, 10**9], [1]))
            self.assertEqual(pelzaune.parse_many(texts[::2]).tolist(), [10**9] * 2)
            with self.assertRaises(TypeError) as caught:
                pelzaune.parse_many(pandas.Series([TEXT, None], dtype=dtype))
            self.assertEqual(caught.exception.text_index, 1)
        self.assertEqual(pelzaune.parse_many(pandas.Index([TEXT])).tolist(), [10**9])
        self.assertEqual(pelzaune.parse_many(pandas.Series([], dtype=object)).tolist(), [])
        for wrong in (pandas.Series([1]), pandas.Series([ONE]), pandas.DataFrame({"a": [TEXT]})):
            self.assertRaisesRegex(TypeError, "text 0", pelzaune.parse_many, wrong)


class Documents(unittest.TestCase):
    def test_examples(self):
        self.assertEqual(doctest.testmod(pelzaune.pandas).failed, 0)
        self.assertTrue(to_datetime.__doc__)

    @unittest.skipUnless(os.path.exists(PAGE), "there is no README.md")
    def test_page(self):
        done = doctest.testfile(PAGE, module_relative=False)
        self.assertTrue(done.attempted > 3 and done.failed == 0, done)


if __name__ == "__main__":
    unittest.main()
