"""Tests of parse_many and format_many: every kind of iterable, of text and of datetime, and errors."""
import array
import collections
import datetime
import random
import unittest

import pelzaune

TEXT = "1970-01-01T00:00:01Z"
LOG = "%d/%b/%Y:%H:%M:%S %z"
MANY = 30000  # more than a batch


def many(*given, **named):
    """The returned numbers, and, if requested, the indices."""
    answer = pelzaune.parse_many(*given, **named)
    return tuple(it.tolist() for it in answer) if isinstance(answer, tuple) else answer.tolist()


def made_texts(count):
    """Texts, some of them damaged."""
    r = random.Random(count)
    return [f"20{r.randrange(100):02}-{r.randint(1, 13):02}-{r.randint(1, 31):02}T03:04:05{r.choice(['Z', '.5+05:30', '-08:00'])}"
            for _ in range(count)]


def alone(texts, form=pelzaune.RFC3339):
    """The result of parse_many with errors="none", text by text."""
    counts, refused = [], []
    for index, text in enumerate(texts):
        try:
            counts.append(pelzaune.unix_ns(text, form))
        except pelzaune.ParseError:
            counts.append(pelzaune.NO_COUNT)
            refused.append(index)
    return counts, refused


class Answers(unittest.TestCase):
    def test_iterables(self):
        texts = [TEXT, b"1970-01-01T00:00:02Z", "1969-12-31T23:59:59.999999999Z"]
        counts = [10**9, 2 * 10**9, -1]
        for it in (texts, tuple(texts), iter(texts), (text for text in texts), collections.deque(texts), dict.fromkeys(texts), map(lambda it: it, texts)):
            answer = pelzaune.parse_many(it)
            self.assertEqual((type(answer), answer.typecode, answer.tolist()), (array.array, "q", counts))
        self.assertEqual(many({TEXT}), [10**9])
        for empty in ([], (), iter([]), {}):
            self.assertEqual(many(empty), [])
            self.assertEqual(many(empty, errors="none"), ([], []))

        class Indexed:
            def __getitem__(self, index):
                return texts[index]

        self.assertEqual(many(Indexed()), counts)

    def test_formats(self):
        for form in ("%d.%m.%Y %z", b"%d.%m.%Y %z", pelzaune.Description("[day].[month].[year] [offset_hour sign:mandatory][offset_minute]")):
            self.assertEqual(many(["02.01.1970 +0000", "01.01.1970 -0001"], form, "none"), ([pelzaune.NO_COUNT] * 2, [0, 1]))
        for form in (LOG, LOG.encode(), pelzaune.Description(LOG)):
            self.assertEqual(many(["02/Jan/1970:00:00:00 +0000", "01/Jan/1970:00:00:00 -0001"], form), [86400 * 10**9, 60 * 10**9])
        self.assertEqual(many(texts=["Fri, 02 Jan 1970 00:00:00 GMT"], errors="raise", format=pelzaune.RFC2822), [86400 * 10**9])
        self.assertEqual(many(["19700102T000000Z"], pelzaune.ISO8601), [86400 * 10**9])
        self.assertEqual(many(["1", "-1"], "[unix_timestamp]"), [10**9, -(10**9)])

    def test_errors(self):
        texts = [TEXT, "?", b"1970-13-01T00:00:00Z", TEXT]
        for errors in ("none", "coerce"):
            answer = pelzaune.parse_many(texts, errors=errors)
            self.assertEqual([(type(it), it.typecode, it.tolist()) for it in answer],
                             [(array.array, "q", [10**9, pelzaune.NO_COUNT, pelzaune.NO_COUNT, 10**9]), (array.array, "q", [1, 2])])
            self.assertEqual(many(iter(texts * MANY), "rfc3339", errors), (answer[0].tolist() * MANY, [k for k in range(4 * MANY) if k % 4 in (1, 2)]))
            self.assertEqual(many([TEXT], errors=errors), ([10**9], []))
        self.assertRaises(pelzaune.ParseError, pelzaune.parse_many, texts, errors="raise")

    def test_each_text_as_alone(self):
        for count in (1, 255, 8191, 8192, 8193, MANY):
            texts = made_texts(count)
            self.assertEqual(many(texts, errors="none"), alone(texts))
            self.assertEqual(many(iter(texts), errors="none"), alone(texts))
            self.assertEqual(pelzaune.parse_many(texts, errors="none")[0], pelzaune.column("\n".join(texts)))
        logs = [f"{day:02}/{month}/2021:03:04:05 -0030" for day in range(33) for month in ("Jan", "Feb", "Mai")]
        self.assertEqual(many(logs, LOG, "none"), alone(logs, LOG))

    def test_ends_of_the_numbers(self):
        least, below = "1677-09-21T00:12:43.145224192Z", "1677-09-21T00:12:43.145224191Z"
        greatest, above = "2262-04-11T23:47:16.854775807Z", "2262-04-11T23:47:16.854775808Z"
        self.assertEqual(many([least, greatest]), [-(2**63), 2**63 - 1])
        self.assertEqual(many([least, below, above], errors="none"), ([pelzaune.NO_COUNT] * 3, [1, 2]))
        self.assertEqual(many([least, "?"] * MANY, errors="none"), ([pelzaune.NO_COUNT] * 2 * MANY, list(range(1, 2 * MANY, 2))))
        for text in (below, above):
            with self.assertRaisesRegex(pelzaune.ParseError, "text 1: the instant is out of range") as caught:
                pelzaune.parse_many([TEXT, text])
            self.assertEqual((caught.exception.text_index, caught.exception.index), (1, None))


class Refusals(unittest.TestCase):
    def refused(self, texts, *given):
        with self.assertRaises(pelzaune.ParseError) as caught:
            pelzaune.parse_many(texts, *given)
        error = caught.exception
        return str(error), error.component, error.text_index, error.index

    def test_places(self):
        self.assertEqual(self.refused([TEXT, "1970-13-01T00:00:00Z", "?"]), ("text 1: month is out of range", "month", 1, 5))
        self.assertEqual(self.refused([TEXT] * MANY + [b"1970-02-30T00:00:00Z"]),
                         (f"text {MANY}: day is out of range for the other components", "day", MANY, None))
        self.assertEqual(self.refused(iter([""])), ("text 0: the 'year' component could not be parsed", "year", 0, 0))
        self.assertEqual(self.refused(["02/Jan-2021"], "%d/%b/%Y"), ("text 0: a character literal was not valid", None, 0, 6))
        self.assertIsNone(pelzaune.ParseError("text").text_index)
        with self.assertRaises(pelzaune.ParseError) as caught:
            pelzaune.parse("")
        self.assertIsNone(caught.exception.text_index)

    def test_first_error(self):
        """The error is that of the first text with one, and nothing is returned."""
        self.assertEqual(self.refused(["?", 5])[2], 0)
        self.assertEqual(self.refused([TEXT, "?", "\ud800"])[2], 1)
        self.assertRaises(TypeError, pelzaune.parse_many, [5, "?"])
        self.assertRaisesRegex(pelzaune.ParseError, "surrogates", pelzaune.parse_many, ["\ud800", "?", 5])

        def raising():
            yield "?"
            raise KeyError

        self.assertEqual(self.refused(raising())[2], 0)
        self.assertRaises(KeyError, pelzaune.parse_many, raising(), errors="none")

    def test_wrong_types(self):
        for wrong in (None, 5, 1.5, [], bytearray(b"1970"), memoryview(b"1970"), object(), float("nan")):
            for errors in ("raise", "none"):
                for before in (0, 1, MANY):
                    with self.assertRaises(TypeError) as caught:
                        pelzaune.parse_many([TEXT] * before + [wrong], errors=errors)
                    self.assertEqual(str(caught.exception), f"text {before} must be str or bytes, not {type(wrong).__name__}")
                    self.assertEqual(caught.exception.text_index, before)
        for wrong in (None, 5, TEXT, TEXT.encode(), object()):
            self.assertRaises(TypeError, pelzaune.parse_many, wrong)
        for wrong in (bytearray(b"1970"), memoryview(b"1970"), array.array("q", [1])):
            self.assertRaisesRegex(TypeError, "text 0", pelzaune.parse_many, wrong)

    def test_arguments(self):
        for call in (pelzaune.parse_many, pelzaune._pelzaune._parse_present):
            self.assertRaises(TypeError, call)
            self.assertRaises(TypeError, call, [], 1, "none", (), 5)
            self.assertRaises(TypeError, call, [], texts=[])
            self.assertRaises(TypeError, call, [], 1, error="none")
        for wrong in ("", "ignore", "Coerce", None, 5, b"none", "none\0"):
            self.assertRaises(ValueError, pelzaune.parse_many, [], errors=wrong)
        self.assertRaises(TypeError, pelzaune._pelzaune._parse_present, [], 1, "none", None, None)
        self.assertRaises(TypeError, pelzaune.parse_many, [], 1.5)
        self.assertRaises(ValueError, pelzaune.parse_many, [], -1)
        for texts in ([], [TEXT]):
            for errors in ("raise", "none"):
                self.assertRaisesRegex(ValueError, "format must be", pelzaune.parse_many, texts, 9, errors)
                self.assertRaisesRegex(ValueError, "format must be", pelzaune.parse_many, texts, "rfc-3339", errors)
                self.assertRaises(pelzaune.DescriptionError, pelzaune.parse_many, texts, "[year]-[moth]", errors)
                self.assertRaises(pelzaune.DescriptionError, pelzaune.parse_many, texts, "%Y\ud800", errors)


class Texts(unittest.TestCase):
    def test_characters(self):
        odd = [TEXT + "\0", "\0" + TEXT, TEXT + "\n", "1970-01-01T00:00:0\u0661Z", "\u00e9", "\U0001f550", "1970\u201301-01T00:00:00Z", b"\xff", ""]
        for text in odd:
            self.assertEqual(many([TEXT, text, TEXT], errors="none"), ([10**9, pelzaune.NO_COUNT, 10**9], [1]))
            with self.assertRaises(pelzaune.ParseError) as caught:
                pelzaune.parse_many([TEXT, text])
            self.assertEqual(caught.exception.text_index, 1)
        self.assertEqual(many(["1 Uhr \u00e9", "1 Uhr \u00e8", "1 Uhr \u00e9".encode()], "[unix_timestamp] Uhr \u00e9", "none"),
                         ([10**9, pelzaune.NO_COUNT, 10**9], [1]))

    def test_line_ends(self):
        """A text that contains LF is parsed as a whole, wherever it is among others."""
        for form in (pelzaune.RFC3339, "[unix_timestamp]\n", "[unix_timestamp][optional [\n]]", "[optional [\n]][unix_timestamp][optional [\n2]]"):
            form = form if isinstance(form, int) else pelzaune.Description(form)
            for count in (1, 3, 40, 8192, MANY):
                for kinds in (["1\n"], ["1\n", "1", "\n1", "\n", "", "1\n2", "\n1\n2", TEXT, TEXT + "\n", TEXT + "\n" + TEXT]):
                    texts = [kinds[k * k % len(kinds)] for k in range(count)]
                    self.assertEqual(many(texts, form, "none"), alone(texts, form))
                    self.assertEqual(many((it.encode() for it in texts), form, "none"), alone(texts, form))

    def test_surrogates(self):
        for text in ("\ud800", TEXT + "\udfff", "\ud83d\udd50"):
            with self.assertRaisesRegex(pelzaune.ParseError, "surrogates not allowed") as caught:
                pelzaune.parse_many([TEXT] * 3 + [text])
            self.assertEqual(caught.exception.text_index, 3)
            self.assertEqual(many([text, TEXT], errors="none"), ([pelzaune.NO_COUNT, 10**9], [0]))

    def test_subclasses(self):
        class Text(str):
            def __str__(self):
                return "?"

            __len__ = __iter__ = __getitem__ = encode = __str__

        class Bytes(bytes):
            __len__ = __iter__ = __getitem__ = __bytes__ = lambda self: 1 / 0

        texts = [Text(TEXT), Bytes(TEXT.encode()), Text("\u00e9"), Text("\ud800")]
        self.assertEqual(many(texts, errors="none"), ([10**9, 10**9] + [pelzaune.NO_COUNT] * 2, [2, 3]))
        self.assertEqual(many([Text("1 \u00e9")], "[unix_timestamp] \u00e9"), [10**9])

    def test_long(self):
        long = ["1970-01-01T00:00:01." + "0" * length + "Z" for length in (1, 9, 1000, 10**6)]
        self.assertEqual(many(long), [10**9] * 4)
        self.assertEqual(many(["x" * 10**7, TEXT], errors="none"), ([pelzaune.NO_COUNT, 10**9], [0]))
        for length in (2**18 - 2, 2**18 - 1, 2**18, 2**19):
            texts = [TEXT, "x" * length, TEXT[:-1] + ".0" + "0" * length + "Z", "", TEXT] * 3
            self.assertEqual(many(texts, errors="none"), alone(texts))


class Written(unittest.TestCase):
    """The texts of many datetimes."""
    UTC = datetime.timezone.utc
    ONE = datetime.datetime(1970, 1, 1, 0, 0, 1, tzinfo=UTC)
    OTHER = datetime.datetime(1985, 4, 12, 23, 20, 50, 520000, datetime.timezone(datetime.timedelta(hours=-8, minutes=-30)))

    def test_iterables(self):
        values, texts = [self.ONE, self.OTHER], ["1970-01-01T00:00:01Z", "1985-04-12T23:20:50.52-08:30"]
        for it in (values, tuple(values), iter(values), (value for value in values), collections.deque(values), dict.fromkeys(values), map(lambda it: it, values)):
            got = pelzaune.format_many(it)
            self.assertEqual((type(got), got), (list, texts))
        self.assertEqual(pelzaune.format_many(values=values[::-1]), texts[::-1])
        self.assertEqual(pelzaune.format_many({self.ONE}), texts[:1])
        for empty in ([], (), iter([]), {}):
            self.assertEqual(pelzaune.format_many(empty), [])

        class Indexed:
            def __getitem__(self, index):
                return values[index]

        self.assertEqual(pelzaune.format_many(Indexed()), texts)

    def test_each_as_alone(self):
        r = random.Random(7)
        values = [datetime.datetime(r.randint(1901, 9999), r.randint(1, 12), r.randint(1, 28), r.randrange(24), r.randrange(60), r.randrange(60),
                                    r.randrange(10**6), datetime.timezone(datetime.timedelta(minutes=r.randint(-1439, 1439)))) for _ in range(5000)]
        for form in (pelzaune.RFC3339, "rfc2822", pelzaune.Format.ISO8601, LOG, b"%A %c", pelzaune.Description("[ordinal].[year] [unix_timestamp]")):
            self.assertEqual(pelzaune.format_many(values, form), [pelzaune.format_datetime(it, form) for it in values])
            self.assertEqual(pelzaune.format_many(iter(values), form, "+05:30"), [pelzaune.format_datetime(it, form, "+05:30") for it in values])
        self.assertEqual(pelzaune.format_many(values, "%d/%b/%Y:%H:%M:%S %z"), [it.strftime("%d/%b/%Y:%H:%M:%S %z") for it in values])
        self.assertEqual(pelzaune.format_many([self.ONE] * MANY, "%s"), ["1"] * MANY)
        self.assertEqual(pelzaune.format_many(map(pelzaune.parse, [TEXT] * MANY)), [TEXT] * MANY)

    def test_zones(self):
        """23:20:50 at 8:30 behind UTC is 07:50:50 of the next day in UTC. Berlin was an hour ahead in 1970, and two in April 1985."""
        self.assertEqual(pelzaune.format_many([self.ONE, self.OTHER], zone="Z"), ["1970-01-01T00:00:01Z", "1985-04-13T07:50:50.52Z"])
        self.assertEqual(pelzaune.format_many([self.ONE, self.OTHER], "%d. %H:%M %z", "Europe/Berlin"), ["01. 01:00 +0100", "13. 09:50 +0200"])
        self.assertEqual(pelzaune.format_many([self.ONE, self.OTHER], "%H", zone=None), ["00", "23"])
        for values in ([], [self.ONE]):
            self.assertRaisesRegex(ValueError, "zone must be", pelzaune.format_many, values, zone="+1")
            self.assertRaisesRegex(TypeError, "zone must be", pelzaune.format_many, values, zone=5)
            self.assertRaises(KeyError, pelzaune.format_many, values, zone="Europe/Atlantis")
            self.assertRaisesRegex(ValueError, "format must be", pelzaune.format_many, values, "rfc-3339")
            self.assertRaises(pelzaune.DescriptionError, pelzaune.format_many, values, "[moth]")

    def refused(self, values, form=pelzaune.RFC3339, zone=None):
        with self.assertRaises(pelzaune.FormatError) as caught:
            pelzaune.format_many(values, form, zone)
        error = caught.exception
        return str(error), error.component, error.text_index

    def test_errors(self):
        """The error is that of the first datetime without a text, with its index."""
        early, naive = self.ONE.replace(year=1899), self.ONE.replace(tzinfo=None)
        for count in (0, 1, 1023, 1024, MANY):
            for it in ([self.ONE] * count + [early, naive, self.ONE], iter([self.ONE] * count + [early, 5])):
                self.assertEqual(self.refused(it, "rfc2822"), (f"value {count}: the 'year' component has no text in that format", "year", count))
        for zone in (None, "+01:00"):
            self.assertEqual(self.refused([self.ONE, naive], LOG, zone), ("value 1: a datetime without a zone has no text", "offset hour", 1))
        odd = self.ONE.replace(tzinfo=datetime.timezone(datetime.timedelta(microseconds=1)))
        self.assertEqual(self.refused([self.ONE, self.ONE, odd], LOG), ("value 2: an offset of a part of a second has no text", "offset second", 2))
        self.assertEqual(self.refused([self.ONE], "[ignore count:1]"), ("value 0: the 'ignore' component has no text in that format", "ignore", 0))
        self.assertIsNone(pelzaune.FormatError("text").text_index)
        with self.assertRaises(pelzaune.FormatError) as caught:
            pelzaune.format_datetime(naive)
        self.assertIsNone(caught.exception.text_index)
        left = iter([self.ONE, early, self.OTHER])
        self.assertEqual(self.refused(left, "rfc2822")[2], 1)
        self.assertEqual(list(left), [self.OTHER])

    def test_wrong_types(self):
        for wrong, name in ((None, "NoneType"), (5, "int"), (TEXT, "str"), (datetime.date(2021, 1, 2), "datetime.date"), (object(), "object")):
            for before in (0, 1, MANY):
                with self.assertRaises(TypeError) as caught:
                    pelzaune.format_many([self.ONE] * before + [wrong])
                self.assertEqual((str(caught.exception), caught.exception.text_index), (f"value {before} must be datetime, not {name}", before))
        for wrong in (None, 5, self.ONE, object()):
            self.assertRaisesRegex(TypeError, "not iterable", pelzaune.format_many, wrong)
        self.assertRaisesRegex(TypeError, "value 0 must be datetime, not str", pelzaune.format_many, TEXT)

    def test_errors_of_others(self):
        def raising():
            yield self.ONE
            raise KeyError

        with self.assertRaises(KeyError) as caught:
            pelzaune.format_many(raising())
        self.assertFalse(hasattr(caught.exception, "text_index"))

        class Odd(datetime.tzinfo):
            def utcoffset(self, when):
                raise KeyError

        with self.assertRaises(KeyError) as caught:
            pelzaune.format_many([self.ONE, self.ONE.replace(tzinfo=Odd())])
        self.assertEqual(caught.exception.text_index, 1)


if __name__ == "__main__":
    unittest.main()
