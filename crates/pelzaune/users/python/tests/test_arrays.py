"""Tests of parse_many over arrays of numpy (Debian: python3-numpy)."""
import gc
import signal
import sys
import tempfile
import threading
import tracemalloc
import unittest

import numpy
import pelzaune

TEXTS = ["1970-01-01T00:00:01Z", "?", "1969-12-31T23:59:59.999999999Z", "", "1970-01-01T00:00:00.5+00:00"]
COUNTS, REFUSED = [10**9, pelzaune.NO_COUNT, -1, pelzaune.NO_COUNT, 5 * 10**8], [1, 3]
MANY = 30000


def lenient(texts, form=pelzaune.RFC3339):
    return tuple(it.tolist() for it in pelzaune.parse_many(texts, form, "none"))


class Kinds(unittest.TestCase):
    def arrays(self):
        """The texts in arrays of each kind."""
        fixed = numpy.array(TEXTS)
        table = numpy.zeros(5, [("byte", "i1"), ("text", "U40"), ("bytes", "S40"), ("object", "O")])
        table["text"] = table["bytes"] = table["object"] = fixed
        packed = numpy.zeros(5, numpy.dtype([("byte", "i1"), ("text", ">U40")]))
        packed["text"] = fixed
        read_only = fixed.copy()
        read_only.setflags(write=False)
        yield from (fixed, fixed.astype("U40"), fixed.astype(">U40"), fixed.astype("<U40"), fixed.astype("S"), fixed.astype("S40"))
        yield from (fixed.astype(object), fixed.astype("S").astype(object), table["text"], table["bytes"], table["object"], packed["text"], read_only)
        for it in (fixed, fixed.astype(">U40"), fixed.astype("S"), fixed.astype(object)):
            yield from (numpy.repeat(it, 3)[::3], it[::-1].copy()[::-1], numpy.tile(it, (3, 1)).T.copy()[:, 1], it.reshape(5, 1)[:, 0])

    def test_kinds(self):
        for it in self.arrays():
            self.assertEqual(lenient(it), (COUNTS, REFUSED), it.dtype)
            with self.assertRaises(pelzaune.ParseError) as caught:
                pelzaune.parse_many(it)
            self.assertEqual((caught.exception.text_index, caught.exception.index), (1, 0))
            for length in range(6):
                self.assertEqual(lenient(it[:length]), (COUNTS[:length], [at for at in REFUSED if at < length]))

    def test_views(self):
        """numpy views the result without a copy."""
        counts = pelzaune.parse_many(numpy.array(TEXTS[:1] * 3))
        seen = numpy.frombuffer(counts, "datetime64[ns]")
        self.assertEqual(seen.tolist(), [10**9] * 3)
        counts[1] = 5
        self.assertEqual(seen.tolist()[1], 5)

    def test_repeated(self):
        for dtype in ("U", ">U20", "S", object):
            one = numpy.array(TEXTS[:1]).astype(dtype)
            self.assertEqual(lenient(numpy.broadcast_to(one, MANY)), ([10**9] * MANY, []))
            many = numpy.tile(numpy.array(TEXTS).astype(dtype if dtype != ">U20" else ">U40"), MANY)
            self.assertEqual(lenient(many), (COUNTS * MANY, [at for at in range(5 * MANY) if at % 5 in REFUSED]))

    def test_widths(self):
        for width in (1, 19, 20, 21, 31, 32, 33, 1000, 100000, 300000):
            for kind in ("U", ">U", "S"):
                it = numpy.array([TEXTS[0]] * 9, f"{kind}{width}")
                self.assertEqual(lenient(it)[0], [10**9 if width >= 20 else pelzaune.NO_COUNT] * 9)
        for kind in ("U0", "S0"):
            self.assertEqual(lenient(numpy.zeros(3, [("none", kind), ("byte", "i1")])["none"]), ([pelzaune.NO_COUNT] * 3, [0, 1, 2]))

    def test_other_classes(self):
        fixed = numpy.array(TEXTS)
        masked = numpy.ma.array(TEXTS, mask=[0, 1, 0, 0, 0])
        with self.assertRaisesRegex(TypeError, "text 1 must be str or bytes, not MaskedConstant"):
            pelzaune.parse_many(masked, errors="none")
        self.assertEqual(lenient(masked[2:]), (COUNTS[2:], [1]))
        self.assertEqual(lenient(fixed.view(numpy.recarray)), (COUNTS, REFUSED))
        self.assertEqual(lenient(numpy.char.array(TEXTS)), (COUNTS, REFUSED))
        with tempfile.TemporaryFile() as file:
            mapped = numpy.memmap(file, "S40", "w+", shape=(5,))
            mapped[:] = fixed.astype("S40")
            self.assertEqual(lenient(mapped), (COUNTS, REFUSED))
            del mapped


class Odd(unittest.TestCase):
    def test_shapes(self):
        for dtype in ("U", ">U40", "S", object):
            it = numpy.array(TEXTS).astype(dtype)
            self.assertRaisesRegex(TypeError, "0-d", pelzaune.parse_many, it[0:1].reshape(()))
            self.assertRaisesRegex(TypeError, "text 0 must be str or bytes, not numpy.ndarray", pelzaune.parse_many, it.reshape(5, 1))
            self.assertRaisesRegex(TypeError, "text 0", pelzaune.parse_many, it.reshape(1, 5, 1))
            self.assertEqual(lenient(it[:0]), ([], []))
            self.assertEqual(lenient(it.reshape(1, 5)[:0]), ([], []))

    def test_dtypes(self):
        for it in (numpy.zeros(3), numpy.zeros(3, "i8"), numpy.zeros(3, "M8[ns]"), numpy.zeros(3, "m8[s]"), numpy.zeros(3, "V8"),
                   numpy.zeros(3, [("text", "U9")]), numpy.zeros(3, "c16"), numpy.zeros(3, "?")):
            with self.assertRaisesRegex(TypeError, "text 0 must be str or bytes, not numpy") as caught:
                pelzaune.parse_many(it)
            self.assertEqual(caught.exception.text_index, 0)
            self.assertEqual(lenient(it[:0]), ([], []))

    def test_objects(self):
        for wrong in (None, 5, float("nan"), numpy.array("1970"), numpy.datetime64("NaT")):
            it = numpy.empty(MANY, object)
            it[:] = TEXTS[0]
            it[MANY - 2] = wrong
            with self.assertRaises(TypeError) as caught:
                pelzaune.parse_many(it, errors="none")
            self.assertEqual(caught.exception.text_index, MANY - 2)
        self.assertRaisesRegex(TypeError, "text 0", pelzaune.parse_many, numpy.empty(3, object))
        self.assertEqual(lenient(numpy.array([numpy.str_(TEXTS[0]), numpy.bytes_(TEXTS[0].encode())], object))[0], [10**9] * 2)

    def test_nuls(self):
        """Those at the end aren't part of an element, as in numpy."""
        self.assertEqual(lenient(numpy.array([TEXTS[0] + "\0", "\0" + TEXTS[0]]))[0], [10**9, pelzaune.NO_COUNT])
        self.assertEqual(lenient(numpy.array([TEXTS[0].encode() + b"\0\0", TEXTS[0][:-1].encode() + b"\0Z"]))[0], [10**9, pelzaune.NO_COUNT])
        self.assertEqual(lenient(numpy.array([TEXTS[0] + "\0"], object))[0], [pelzaune.NO_COUNT])

    def test_characters(self):
        for dtype in ("U", ">U30", object):
            it = numpy.array([TEXTS[0], TEXTS[0] + "\u00e9", "\U0001f550", "\U0010ffff", TEXTS[0]]).astype(dtype)
            self.assertEqual(lenient(it), ([10**9] + [pelzaune.NO_COUNT] * 3 + [10**9], [1, 2, 3]))
            self.assertEqual(lenient(numpy.array(["1 \u00e9"]).astype(dtype), "[unix_timestamp] \u00e9")[0], [10**9])
            half = numpy.array([TEXTS[0], "\ud800"]).astype(dtype)
            self.assertEqual(lenient(half), ([10**9, pelzaune.NO_COUNT], [1]))
            with self.assertRaisesRegex(pelzaune.ParseError, "surrogates not allowed") as caught:
                pelzaune.parse_many(half)
            self.assertEqual(caught.exception.text_index, 1)
        self.assertEqual(lenient(numpy.array([b"\xff\xfe", b"\xc3\xa9"]))[1], [0, 1])

    def test_no_characters(self):
        for order in "<>":
            for number in (0x110000, 2**31, 2**32 - 1):
                it = numpy.array([ord("1"), number], f"{order}u4").view(f"{order}U1")
                self.assertEqual(lenient(it), ([pelzaune.NO_COUNT] * 2, [0, 1]))
                with self.assertRaisesRegex(pelzaune.ParseError, "a character is not in range") as caught:
                    pelzaune.parse_many(it[1:])
                self.assertEqual(caught.exception.text_index, 0)


class Changed(unittest.TestCase):
    def test_by_other_threads(self):
        for dtype in ("U40", ">U40", "S40", object):
            texts, stop = numpy.array(TEXTS[:1] * MANY).astype(dtype), threading.Event()

            def change():
                while not stop.is_set():
                    texts[::2] = texts[0:1]
                    texts[5:-5] = "2021-01-02T03:04:05+05:30" if dtype != "S40" else b"x"
                    numpy.copyto(texts[:200], texts[-200:])

            thread = threading.Thread(target=change)
            thread.start()
            for _ in range(10):
                self.assertEqual(len(pelzaune.parse_many(texts, errors="none")[0]), MANY)
            stop.set()
            thread.join()

    def test_between_batches(self):
        """If a signal handler changes the array, its former memory isn't read any more."""
        few = numpy.array(TEXTS[:1] * 3, object)
        changes = (lambda it: it.resize(3, refcheck=False), lambda it: it.__setstate__(few.__reduce__()[2]),
                   lambda it: it.__setstate__((1, (3,), numpy.dtype("U20"), False, "".join(TEXTS[:1] * 3).encode("utf-32-le"))),
                   lambda it: it.__setstate__((1, (2**19,), numpy.dtype("S1"), False, b"1" * 2**19)))
        before = signal.getsignal(signal.SIGALRM)
        try:
            for change in changes * 3:
                texts = numpy.array(TEXTS[:1] * MANY * 5, object)
                signal.signal(signal.SIGALRM, lambda *_: change(texts))
                signal.setitimer(signal.ITIMER_REAL, 0.001)
                try:
                    self.assertTrue(len(lenient(texts)[0]) <= 2**19)
                except RuntimeError as error:
                    self.assertIn("changed", str(error))
        finally:
            signal.setitimer(signal.ITIMER_REAL, 0)
            signal.signal(signal.SIGALRM, before)

    def test_by_finalizers(self):
        """Building the error of a rejected text may collect garbage, whose finalizers change the array."""
        class Changing:
            def __del__(self):
                texts.resize(3, refcheck=False)

        before = gc.get_threshold()
        for threshold in range(1, 60):
            texts = numpy.array(["\ud800", TEXTS[0]] * 100, object)
            gc.collect()
            gc.set_threshold(threshold)
            cycle = Changing()
            cycle.itself = cycle
            del cycle
            try:
                self.assertIn(len(pelzaune.parse_many(texts, errors="none")[0]), (1, 2, 3, 200))
            finally:
                gc.set_threshold(*before)
            gc.collect()


class Held(unittest.TestCase):
    def test_references(self):
        for dtype in ("U40", ">U40", "S40", object):
            it = numpy.array(TEXTS).astype(dtype)
            inside = it[0]
            before = sys.getrefcount(it), sys.getrefcount(inside)
            for _ in range(100):
                lenient(it)
                self.assertRaises(pelzaune.ParseError, pelzaune.parse_many, it)
            self.assertEqual((sys.getrefcount(it), sys.getrefcount(inside)), before)
            self.assertEqual(memoryview(it[:0].tobytes()).nbytes, 0)

    def test_memory(self):
        """A hundred calls leak nothing, in one of some rounds, since numpy's own caches grow occasionally."""
        tracemalloc.start()
        try:
            for dtype in ("U40", ">U40", object):
                it, grown = numpy.array(TEXTS + ["\u00e9"]).astype(dtype), []
                for _ in range(8):
                    gc.collect()
                    before = tracemalloc.get_traced_memory()[0]
                    for _ in range(100):
                        pelzaune.parse_many(it, errors="none")
                    gc.collect()
                    grown.append(tracemalloc.get_traced_memory()[0] - before)
                self.assertTrue(min(grown) < 800, grown)
        finally:
            tracemalloc.stop()


if __name__ == "__main__":
    unittest.main()
