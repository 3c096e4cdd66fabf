"""Tests of parse_many and format_many over objects that change while they are read or lie about themselves, in threads, and
of leaks."""
import datetime
import gc
import itertools
import random
import signal
import sys
import threading
import tracemalloc
import unittest

import pelzaune
from test_many import LOG, MANY, TEXT, alone, made_texts, many

WHEN = datetime.datetime(1970, 1, 1, 0, 0, 1, tzinfo=datetime.timezone.utc)


class Lying(list):
    """A list whose methods return nothing about its elements."""
    def __init__(self, texts, answer):
        super().__init__(texts)
        self.answer = answer

    def __len__(self):
        return self.answer

    def __length_hint__(self):
        return self.answer

    def __iter__(self):
        return iter([TEXT, TEXT])


class Changed(unittest.TestCase):
    def test_lies(self):
        for answer in (-1, 0, 1, 2**62, 2**70, "5"):
            self.assertEqual(many(Lying(["?"] * 5, answer)), [10**9] * 2)
        for wrong in (None, 5, [], TEXT):
            class Wrong:
                def __iter__(self):
                    return wrong

            self.assertRaises(TypeError, pelzaune.parse_many, Wrong())

        class Telling:
            def to_numpy(self):
                return self.answer

        for answer in (None, 5, [5]):
            Telling.answer = answer
            self.assertRaises(TypeError, pelzaune.parse_many, Telling())
        Telling.answer = [TEXT]
        self.assertEqual(many(Telling()), [10**9])

    def test_iterators_that_raise(self):
        def raising(count, error):
            yield from itertools.repeat(TEXT, count)
            raise error

        for count in (0, 1, 8192, MANY):
            for error in (KeyError, UnicodeError, MemoryError, GeneratorExit):
                for errors in ("raise", "none"):
                    with self.assertRaises(error) as caught:
                        pelzaune.parse_many(raising(count, error), errors=errors)
                    self.assertFalse(hasattr(caught.exception, "text_index"))

    def test_iterators_that_change_the_list(self):
        texts = [TEXT] * MANY

        def shortening():
            for text in texts:
                yield text
                texts.pop()

        self.assertEqual(len(many(shortening())), MANY // 2)

        class Ending(str):
            def __del__(self):
                del texts[len(texts) // 2:]

        texts[:] = [Ending(TEXT) for _ in range(MANY)]
        iterator = iter(texts)
        self.assertTrue(len(many(map(lambda _: Ending(TEXT), iterator))) <= MANY)
        texts[:] = [TEXT] * MANY + [Ending(TEXT)]
        texts[0] = Ending(TEXT)
        self.assertTrue(len(many(texts)) > 0)

    def test_calls_within_calls(self):
        def nested(depth):
            for _ in range(3):
                if depth:
                    self.assertEqual(many(nested(depth - 1)), [10**9] * 3)
                yield TEXT

        self.assertEqual(many(nested(5)), [10**9] * 3)

    def test_datetimes_that_change_the_list(self):
        class Shortening(datetime.tzinfo):
            def utcoffset(self, when):
                values.pop()
                return datetime.timedelta(0)

        zone = Shortening()
        values = [WHEN.replace(tzinfo=zone) for _ in range(MANY)]
        self.assertEqual(pelzaune.format_many(values), [TEXT] * (MANY // 2))

        class Nesting(datetime.tzinfo):
            def utcoffset(self, when):
                found.append(pelzaune.format_many([WHEN] * 3, "%s"))
                return datetime.timedelta(0)

        found = []
        self.assertEqual(pelzaune.format_many([WHEN.replace(tzinfo=Nesting())] * 2), [TEXT] * 2)
        self.assertEqual(found, [["1"] * 3] * 2)

    def test_other_threads_change_the_list(self):
        texts, stop = [TEXT] * MANY, threading.Event()

        def change():
            r = random.Random(7)
            while not stop.is_set():
                r.choice((texts.clear, lambda: texts.extend(made_texts(50) * 400), lambda: texts.append("".join(["?"])),
                          lambda: texts.__delitem__(slice(0, None, 2)), texts.reverse))()

        thread = threading.Thread(target=change)
        thread.start()
        for _ in range(30):
            counts, refused = pelzaune.parse_many(texts, errors="none")
            self.assertTrue(all(counts[index] == pelzaune.NO_COUNT for index in refused))
            if not texts:
                texts.extend([TEXT] * MANY)
        stop.set()
        thread.join()

    def test_interrupted(self):
        class Alarm(Exception):
            pass

        def ring(*_):
            raise Alarm

        before = signal.signal(signal.SIGALRM, ring)
        try:
            signal.setitimer(signal.ITIMER_REAL, 0.05)
            self.assertRaises(Alarm, pelzaune.parse_many, itertools.chain(itertools.repeat(TEXT, 10**8), itertools.repeat("?")), errors="none")
            signal.setitimer(signal.ITIMER_REAL, 0.05)
            self.assertRaises(Alarm, pelzaune.format_many, itertools.repeat(WHEN, 10**8))
        finally:
            signal.setitimer(signal.ITIMER_REAL, 0)
            signal.signal(signal.SIGALRM, before)


class Threads(unittest.TestCase):
    def others_run(self, call, *given):
        """The result of a call in another thread, while this one runs. A loaded machine may not let it run each time."""
        for _ in range(20):
            turns, found = 0, []
            thread = threading.Thread(target=lambda: found.append(call(*given)))
            thread.start()
            while thread.is_alive():
                turns += 1
            thread.join()
            if turns > 1000:
                return found[0]
        self.fail(f"this thread had at most {turns} turns")

    def test_others_run_meanwhile(self):
        texts = ["02/Jan/2021:03:04:05 -0030"] * 200000
        self.assertEqual(set(self.others_run(pelzaune.parse_many, texts, LOG)), {pelzaune.unix_ns(texts[0], LOG)})
        self.assertEqual(set(self.others_run(pelzaune.format_many, [WHEN] * 200000)), {TEXT})

    def test_same_list_in_many_threads(self):
        texts, form = made_texts(MANY), pelzaune.Description("[year]-[month]-[day]T[hour]:[minute]:[second]Z")
        wanted, by_form = alone(texts), alone(texts, form)
        differing = []

        def read():
            for _ in range(3):
                if many(texts, errors="none") != wanted or many(texts, form, "none") != by_form:
                    differing.append(1)

        threads = [threading.Thread(target=read) for _ in range(4)]
        for thread in threads:
            thread.start()
        for thread in threads:
            thread.join()
        self.assertEqual(differing, [])


class Held(unittest.TestCase):
    FEW = 800  # fewer bytes than a hundred objects

    def calls(self):
        text, byte, odd, wrong = "".join([TEXT]), bytes(bytearray(TEXT.encode())), "".join(["\u00e9", TEXT]), "".join([TEXT, "\ud800"])
        form, other = pelzaune.Description(LOG), object()
        zone = datetime.timezone(datetime.timedelta(hours=1))
        when, naive = datetime.datetime(2021, 1, 2, tzinfo=zone), datetime.datetime(2021, 1, 2)
        return [text, byte, odd, wrong, form, other, zone, when, naive], [
            lambda: pelzaune.format_datetime(when),
            lambda: pelzaune.format_datetime(when, form, zone),
            lambda: pelzaune.format_datetime(when, byte),
            lambda: pelzaune.format_datetime(naive, form),
            lambda: pelzaune.format_datetime(other, form, zone),
            lambda: pelzaune.format_datetime(when, form, other),
            lambda: pelzaune.format_datetime(when, b"%Y\xff"),
            lambda: pelzaune.format_many([when] * 30, form, zone),
            lambda: pelzaune.format_many(iter([when, naive, when]), form, zone),
            lambda: pelzaune.format_many([when, other, when]),
            lambda: pelzaune.format_many([when, when], b"[year]\xff", zone),
            lambda: pelzaune.format_many([when], "[ignore count:1]"),
            lambda: pelzaune.format_many(other, form, zone),
            lambda: pelzaune.parse_many([text, byte]),
            lambda: pelzaune.parse_many(iter([text, byte, odd, wrong]), errors="none"),
            lambda: pelzaune.parse_many([text] * 300),
            lambda: pelzaune.parse_many([text, byte], form),
            lambda: pelzaune.parse_many([byte, odd, text]),
            lambda: pelzaune.parse_many([text, wrong]),
            lambda: pelzaune.parse_many([text, byte, other]),
            lambda: pelzaune.parse_many([text, odd, other]),
            lambda: pelzaune.parse_many((text for _ in range(5) if text or other)),
            lambda: pelzaune.parse_many([text, 1 / 0]),
            lambda: pelzaune.parse_many(other),
            lambda: pelzaune.parse_many([text], other),
            lambda: pelzaune.parse_many([text], errors=other),
            lambda: pelzaune._pelzaune._parse_present([text, None, other, 0.0], 1, "none", None, (None, other)),
        ]

    def ask(self, call):
        try:
            call()
        except (ValueError, TypeError, ZeroDivisionError):
            pass

    def test_references(self):
        values, calls = self.calls()
        for call in calls:
            before = [sys.getrefcount(it) for it in values]
            for _ in range(20):
                self.ask(call)
            self.assertEqual([sys.getrefcount(it) for it in values], before)

    def grown(self, call):
        """The bytes that a hundred calls leak: the least of some rounds, since Python's own caches grow for a while, as by the
        names that datetime makes for each call of a tzinfo."""
        found = []
        while len(found) < 20 and (not found or min(found) >= self.FEW):
            gc.collect()
            before = tracemalloc.get_traced_memory()[0]
            for _ in range(100):
                self.ask(call)
            gc.collect()
            found.append(tracemalloc.get_traced_memory()[0] - before)
        return min(found)

    def test_memory(self):
        _, calls = self.calls()
        tracemalloc.start()
        try:
            for number, call in enumerate(calls):
                self.assertLess(self.grown(call), self.FEW, number)
        finally:
            tracemalloc.stop()

    def test_missing(self):
        present = pelzaune._pelzaune._parse_present
        texts, least = [TEXT, None, float("nan"), "?", Ellipsis], "1677-09-21T00:12:43.145224192Z"
        answer = present(texts, 1, "none", None, (None, Ellipsis))
        self.assertEqual([it.tolist() for it in answer], [[10**9] + [pelzaune.NO_COUNT] * 4, [3]])
        self.assertRaisesRegex(TypeError, "text 4 must be str or bytes, not ellipsis", present, texts, 1, "none", None, (None,))
        self.assertRaisesRegex(TypeError, "text 1 must be str or bytes, not float", present, [None, 1.5], 1, "none", None, (None,))
        self.assertRaisesRegex(pelzaune.ParseError, "text 3", present, texts, 1, "raise", None, (None,))
        self.assertRaisesRegex(pelzaune.ParseError, "text 1: the instant is out of range", present, [None, least], 1, "raise", None, (None,))
        self.assertEqual([it.tolist() for it in present([None, least], 1, "none", None, (None,))], [[pelzaune.NO_COUNT] * 2, [1]])

    def test_missing_among_others(self):
        r, counts = random.Random(5), {TEXT: 10**9, TEXT.encode(): 10**9}
        kinds = [*counts, None, float("nan"), Ellipsis, "?", b"?", "", "\u00e9", "\ud800", TEXT + "\n", "1677-09-21T00:12:43.145224192Z"]
        for weights in ([1] * 12, [1000] + [1] * 11, [1000, 0, 1000] + [1] * 9, [1] * 5 + [0] * 7):
            texts = r.choices(kinds, weights, k=MANY)
            wanted = [counts.get(it, pelzaune.NO_COUNT) for it in texts], [k for k, it in enumerate(texts) if kinds.index(it) > 4]
            for it in (texts, tuple(texts), iter(texts)):
                answer = pelzaune._pelzaune._parse_present(it, 1, "none", None, (None, Ellipsis))
                self.assertEqual(tuple(them.tolist() for them in answer), wanted)


if __name__ == "__main__":
    unittest.main()
