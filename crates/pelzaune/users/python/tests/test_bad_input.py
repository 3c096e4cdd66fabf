"""Wrong arguments, odd buffers and odd texts: each raises a named error, or has a result, and nothing crashes."""
import array
import ctypes
import datetime
import mmap
import random
import sys
import threading
import unittest

import pelzaune

OF_TEXT = (pelzaune.parse, pelzaune.parse_date, pelzaune.parse_time, pelzaune.parse_parts, pelzaune.unix_ns)
FORMATS = (pelzaune.RFC3339, pelzaune.RFC2822, pelzaune.ISO8601, "[year]-[month]-[day]", "%d/%b/%Y:%H:%M:%S %z")
TEXTS = ("1985-04-12T23:20:50.52Z", "Thu, 13 Feb 1969 23:32:54 -0330", "2020-W53-6T03:04:05,25-00:30", "2021-03-04",
         "02/Jan/2021:03:04:05 -0030")


class Arguments(unittest.TestCase):
    def test_types(self):
        wrong = (None, 5, 1.5, [], object(), bytearray(b"2021"), memoryview(b"2021"), array.array("q", [1]))
        for call in OF_TEXT:
            for it in wrong:
                self.assertRaises(TypeError, call, it)
            for it in (None, 1.5, [], bytearray(b"%Y")):
                self.assertRaises(TypeError, call, "2021", it)
            for it in (-1, 0, 4, 2**32 + 1, 2**70, -2**70):
                self.assertRaises(ValueError, call, "2021", it)

    def test_counts(self):
        for call in (*OF_TEXT, pelzaune.column):
            self.assertRaises(TypeError, call)
            self.assertRaises(TypeError, call, "2021", 1, 1)
            self.assertRaises(TypeError, call, "2021", text="2021")
            self.assertRaises(TypeError, call, "2021", 1, format=1)
            self.assertRaises(TypeError, call, "2021", target=1)
            self.assertRaises(TypeError, call, format=1)
        self.assertRaises(TypeError, pelzaune.column_into, "2021")
        self.assertRaises(TypeError, pelzaune.column_into, out=array.array("q"))
        for call in (pelzaune.format_datetime, pelzaune.format_many):
            self.assertRaises(TypeError, call)
            self.assertRaises(TypeError, call, [], 1, None, None)
            self.assertRaises(TypeError, call, [], text=[])
            self.assertRaises(TypeError, call, [], 1, format=1)
            self.assertRaises(TypeError, call, format=1)

    def test_descriptions(self):
        for it in (None, 5, 1.5, [], bytearray(b"%Y"), pelzaune.Description("%Y")):
            self.assertRaises(TypeError, pelzaune.Description, it)
        self.assertRaises(TypeError, pelzaune.Description)
        self.assertRaises(TypeError, pelzaune.Description, "%Y", "%Y")
        self.assertRaises(TypeError, pelzaune.Description, form="%Y")
        self.assertRaises(pelzaune.DescriptionError, pelzaune.Description, "%Y\ud800")
        self.assertRaises(pelzaune.DescriptionError, pelzaune.Description, "%")
        self.assertRaises(TypeError, type, "More", (pelzaune.Description,), {})
        form = pelzaune.Description("%Y")
        with self.assertRaises(AttributeError):
            form.text = "%m"
        with self.assertRaises(TypeError):
            pelzaune.Description.text = 5
        with self.assertRaises(TypeError):
            form < form
        made = pelzaune.Description.__new__(pelzaune.Description, "%Y")
        self.assertRaises(pelzaune.ParseError, pelzaune.parse_parts, "2021", made)
        before = sys.getrefcount(form)
        for _ in range(1000):
            pelzaune.column("2021", form)
            self.assertRaises(pelzaune.ParseError, pelzaune.parse_parts, "2021", form)
        self.assertEqual(sys.getrefcount(form), before)

    def test_values_to_write(self):
        when = datetime.datetime(2021, 1, 2, tzinfo=datetime.timezone.utc)
        for form in (pelzaune.RFC3339, "%Y", pelzaune.Description("[hour]")):
            for it in (None, "2021", datetime.date(2021, 1, 2), datetime.time(1), 5):
                self.assertRaisesRegex(TypeError, "value must be datetime, not", pelzaune.format_datetime, it, form)
            with self.assertRaises(pelzaune.FormatError) as caught:
                pelzaune.format_datetime(when.replace(tzinfo=None), form)
            self.assertEqual((str(caught.exception), caught.exception.component), ("a datetime without a zone has no text", "offset hour"))
        for it in (None, 1.5, [], bytearray(b"%Y"), True):
            self.assertRaises(TypeError, pelzaune.format_datetime, when, it)
        self.assertRaises(pelzaune.DescriptionError, pelzaune.format_datetime, when, "[yaer]")
        self.assertRaises(pelzaune.DescriptionError, pelzaune.format_datetime, when, "%Z")
        self.assertRaises(pelzaune.DescriptionError, pelzaune.format_datetime, when, "%Y\ud800")

        class Odd(datetime.tzinfo):
            def __init__(self, answer):
                self.answer = answer

            def utcoffset(self, when):
                if self.answer is KeyError:
                    raise KeyError
                return self.answer

        self.assertRaises(pelzaune.FormatError, pelzaune.format_datetime, when.replace(tzinfo=Odd(None)))
        self.assertRaises(KeyError, pelzaune.format_datetime, when.replace(tzinfo=Odd(KeyError)))
        self.assertRaises(TypeError, pelzaune.format_datetime, when.replace(tzinfo=Odd(5)))

    def unwritten(self, form, when=datetime.datetime(9999, 12, 31, tzinfo=datetime.timezone.utc)):
        """The error of a datetime without a text, which is equal by the description's text and among many."""
        with self.assertRaises(pelzaune.FormatError) as caught:
            pelzaune.format_datetime(when, pelzaune.Description(form))
        error = caught.exception
        with self.assertRaises(pelzaune.FormatError) as caught:
            pelzaune.format_datetime(when, form)
        self.assertEqual((str(caught.exception), caught.exception.component, caught.exception.text_index), (str(error), error.component, None))
        with self.assertRaises(pelzaune.FormatError) as caught:
            pelzaune.format_many([when], form)
        self.assertEqual((str(caught.exception), caught.exception.component, caught.exception.text_index), (f"value 0: {error}", error.component, 0))
        return error

    def test_no_text(self):
        for form in ("[ignore count:1]", "[year][optional [[ignore count:2]]]", "[first [[ignore count:1]] [[year]]]", b"\xff[ignore count:1]"):
            error = self.unwritten(form)
            self.assertEqual((str(error), error.component), ("the 'ignore' component has no text in that format", "ignore"))
        when = datetime.datetime(2021, 1, 2, tzinfo=datetime.timezone.utc)
        self.assertEqual(pelzaune.format_datetime(when, "[first [[year]] [[ignore count:1]]]"), "2021")

    def test_too_long(self):
        """9999-12-31T00:00:00Z is 253402214400 seconds after 1970, so the count of nanoseconds has 21 digits. 48 of these,
        and 16 bytes, have 48 * 21 + 16 = 1024 bytes."""
        when = datetime.datetime(9999, 12, 31, tzinfo=datetime.timezone.utc)
        count, counts = "253402214400" + "0" * 9, "[unix_timestamp precision:nanosecond]" * 48
        self.assertEqual(pelzaune.format_datetime(when, counts + "x" * 16), count * 48 + "x" * 16)
        self.assertEqual(pelzaune.format_datetime(when, counts + "x" * 14 + "[day]"), count * 48 + "x" * 14 + "31")
        for form in (counts + "x" * 15 + "[day]", counts + "[unix_timestamp precision:nanosecond]", counts + "[weekday]" * 3, counts + "[year]" * 5):
            error = self.unwritten(form, when)
            self.assertEqual((str(error), error.component), ("the text has more than 1024 bytes", None))
        # The first error is that of the first component.
        self.assertEqual(self.unwritten(counts + "[year]" * 5 + "[ignore count:1]").component, None)
        self.assertEqual(self.unwritten("[ignore count:1]" + counts + "[year]" * 5).component, "ignore")

    def test_other_bytes_to_write(self):
        """A text that isn't UTF-8, which only a description of bytes has, isn't written."""
        when = datetime.datetime(2021, 1, 2, tzinfo=datetime.timezone.utc)
        for form in (b"\xff[year]", b"%Y\xc3", b"[day]\xed\xa0\x80", b"\xc3[year]\xa9"):
            error = self.unwritten(form, when)
            self.assertRegex(str(error), "'utf-8' codec can't decode byte")
            self.assertIsNone(error.component)
            self.assertIsInstance(error.__cause__, UnicodeDecodeError)
        self.assertEqual(pelzaune.format_datetime(when, b"\xc3\xa9 [year]"), "\u00e9 2021")
        self.assertEqual(pelzaune.parse_date(b"\xff2021-01-02", b"\xff%F"), when.date())

    def test_made_descriptions_to_write(self):
        """Any description has a text or a named error."""
        r, when = random.Random(1024), datetime.datetime(2021, 1, 2, 3, 4, 5, tzinfo=datetime.timezone.utc)
        pieces = [b"%Y", b"%c", b"%", b"%%", b"[", b"]", b"[year]", b"[optional [", b"[first [", b"]]", b"\\[", b"\xff", b"\xc3\xa9", b"x", b"[ignore count:9]",
                  b"[unix_timestamp]", b"%.f", b"%-d", b"[end]", b" "]
        for _ in range(5000):
            form = b"".join(r.choices(pieces, k=r.randrange(1, 12)))
            try:
                self.assertIs(type(pelzaune.format_datetime(when, pelzaune.Description(form))), str)
            except (pelzaune.DescriptionError, pelzaune.FormatError):
                pass


class Texts(unittest.TestCase):
    def answered(self, call, text, form):
        try:
            return call(text, form)
        except pelzaune.ParseError as error:
            return type(error), str(error), error.component

    def test_beginnings(self):
        for text in TEXTS:
            for form in FORMATS:
                for call in OF_TEXT:
                    for length in range(len(text) + 1):
                        whole = text[:length]
                        self.assertEqual(self.answered(call, whole, form), self.answered(call, whole.encode(), form))

    def test_beginnings_of_descriptions(self):
        for form in ("[year]-[month repr:short][optional [[day]]][first [Z] [\\[]]", "%a, %d %b %Y %H:%M:%S %z %%"):
            for length in range(1, len(form) + 1):
                for text in TEXTS:
                    self.answered(pelzaune.parse, text, form[:length])
                    self.answered(pelzaune.parse, text, form[:length].encode())

    def test_odd_characters(self):
        for call in (*OF_TEXT, pelzaune.column):
            for text, index in (("2021\ud800", 4), ("\u00e9\udfff\u00e9", 2), ("\U0001f550\ud800", 4)):
                with self.assertRaisesRegex(pelzaune.ParseError, "surrogates not allowed") as caught:
                    call(text)
                self.assertEqual((caught.exception.index, caught.exception.component), (index, None))
                self.assertIsInstance(caught.exception.__cause__, UnicodeEncodeError)
            with self.assertRaises(pelzaune.DescriptionError) as caught:
                call("2021", "%Y\udfff")
            self.assertEqual(caught.exception.index, 2)
        for text in ("2021-01-02T03:04:05Z\0", "\x002021-01-02T03:04:05Z", "2021-01-02T03:04:05\u00e9", "\U0001f550", "2021\u201301-02T03:04:05Z"):
            for form in FORMATS:
                for call in OF_TEXT:
                    self.assertEqual(self.answered(call, text, form)[0], pelzaune.ParseError)
        self.assertEqual(pelzaune.column("\0\n\u00e9\n2021-01-02T03:04:05Z\0\n").tolist(), [pelzaune.NO_COUNT] * 3)

    def test_made_bytes(self):
        r = random.Random(2822)
        letters = b"0123456789012345678901234567890123456789-:.,TZWz+() JanSat\0\xff%[]"
        for _ in range(20000):
            text = bytes(r.choice(letters) for _ in range(r.randrange(40)))
            form = r.choice(FORMATS + (text,))
            if form == text and not {*b"%["} & {*text}:
                self.assertRaisesRegex(ValueError, "format must be", r.choice(OF_TEXT), text, form)
            else:
                self.answered(r.choice(OF_TEXT), text, form)

    def test_huge(self):
        """A text of more than 2**31 bytes, whose memory the system allocates only as it is read."""
        try:
            text = bytes(2**31 + 1)
        except MemoryError:
            self.skipTest("there is no memory for a text of 2**31 bytes")
        for call in OF_TEXT:
            for form in FORMATS:
                self.assertEqual(self.answered(call, text, form)[0], pelzaune.ParseError)
        entries = array.array("q", [7, 7])
        self.assertEqual(pelzaune.column_into(text, entries), (1, 1))
        self.assertEqual(entries.tolist(), [pelzaune.NO_COUNT, 7])
        self.assertRaises(pelzaune.DescriptionError, pelzaune.Description, text)


class Buffers(unittest.TestCase):
    LINE = b"1970-01-01T00:00:01Z\n"

    def test_texts(self):
        doubled = bytes(b for b in self.LINE for _ in range(2))
        self.assertRaises(BufferError, pelzaune.column, memoryview(doubled)[::2])
        for it in (None, 5, [], object()):
            self.assertRaises(TypeError, pelzaune.column, it)
        released = memoryview(bytearray(self.LINE))
        released.release()
        self.assertRaises(ValueError, pelzaune.column, released)
        with mmap.mmap(-1, mmap.PAGESIZE) as mapped:
            mapped[-len(self.LINE):] = self.LINE
            self.assertEqual(pelzaune.column(memoryview(mapped)[-len(self.LINE):]).tolist(), [10**9])

    def test_every_length(self):
        lines = self.LINE * 2 + b"\n\r\n" + self.LINE[:-1]
        for length in range(len(lines) + 1):
            got = pelzaune.column(lines[:length])
            self.assertEqual(len(got), lines[:length].count(b"\n") + (not lines[:length].endswith(b"\n") and length > 0))
            self.assertEqual(pelzaune.column_into(lines[:length], array.array("q", [0] * 9))[0], len(got))

    def test_outs(self):
        column_into = pelzaune.column_into
        for it in (None, 5, [0], "text"):
            self.assertRaises(TypeError, column_into, self.LINE, it)
        for it in (b"\0" * 8, memoryview(array.array("q", [0])).toreadonly()):
            self.assertRaises(BufferError, column_into, self.LINE, it)
        for it in (bytearray(8), array.array("d", [0]), array.array("Q", [0]), array.array("i", [0, 0]), (ctypes.c_double * 1)()):
            self.assertRaises(TypeError, column_into, self.LINE, it)
        self.assertRaises(BufferError, column_into, self.LINE, memoryview(array.array("q", [0] * 4))[::2])
        numbers = (ctypes.c_int64 * 2)(7, 7)
        self.assertEqual(column_into(self.LINE, numbers), (1, 0))
        self.assertEqual(list(numbers), [10**9, 7])
        shifted = bytearray(17)
        start = ctypes.addressof((ctypes.c_char * 17).from_buffer(shifted)) % 8
        odd = (ctypes.c_int64 * 1).from_buffer(shifted, 1 if start == 0 else 0)
        if ctypes.addressof(odd) % 8:
            self.assertRaises(TypeError, column_into, self.LINE, odd)
        self.assertEqual(column_into(self.LINE, array.array("q")), (1, 0))

    def test_one_buffer_as_text_and_out(self):
        both = bytearray(self.LINE + b"123") * 4
        before, view = bytes(both), memoryview(both)
        numbers = view.cast("q")
        for text, out in ((both, numbers), (view[:1], numbers), (view[88:], numbers[11:]), (view[:9], numbers[1:2]), (view[15:17], numbers[1:2])):
            with self.assertRaisesRegex(ValueError, "text and out must not overlap"):
                pelzaune.column_into(text, out)
        self.assertEqual(both, before)
        # Buffers that touch, and empty ones, share no byte.
        self.assertEqual(pelzaune.column_into(view[:24], numbers[3:5]), (2, 1))
        self.assertEqual(pelzaune.column_into(view[:0], numbers), (0, 0))
        self.assertEqual(pelzaune.column_into(view, numbers[:0])[0], 5)

    def test_held_while_read(self):
        lines = bytearray(self.LINE * 20000)
        failures = []

        def read():
            for _ in range(10):
                if len(pelzaune.column(lines)) != 20000:
                    failures.append("lines")

        threads = [threading.Thread(target=read) for _ in range(4)]
        for thread in threads:
            thread.start()
        r = random.Random(5)
        while any(thread.is_alive() for thread in threads):
            lines[21 * r.randrange(20000)] = r.choice(b"1x")
        for thread in threads:
            thread.join()
        self.assertEqual(failures, [])

    def test_references(self):
        out = array.array("q", [0])
        for it in (self.LINE, bytearray(self.LINE), out):
            before = sys.getrefcount(it)
            for _ in range(1000):
                if it is out:
                    pelzaune.column_into(self.LINE, it)
                else:
                    pelzaune.column(it)
            self.assertEqual(sys.getrefcount(it), before)
        lines = bytearray(self.LINE)
        self.assertRaises(ValueError, pelzaune.column, lines, 9)
        self.assertRaises(pelzaune.ParseError, pelzaune.column, lines, "[yaer]")
        lines.append(0)  # nothing holds it


if __name__ == "__main__":
    unittest.main()
