"""The expected output of `restamp` for lines: the time of each, its replacement, and the report."""
import cutting
import writing
from formats import FORMATS, ByPlaces, outcome, value_place
from records import has, resolve, year_of
from values import Refused, instant

REACH = 256
LIMIT = 262_144
FRONT = LIMIT + REACH
LATEST_TRIES = 10
SPACES = b" \t\n\x0c\r"
YEAR_PARTS = [f"{kind}{part}" for kind in ("", "iso_") for part in ("year", "century", "last_two")]
NO_PLACE = "the line has no place for a time"
TWO_WAYS = "a fraction after a minus is read in two ways"
TOO_FAR = f"the time extends past byte {LIMIT} of its line"


class Reading:
    """A format that parses times. For a number of seconds, a fraction after a minus is rejected."""

    def __init__(self, word, form, is_counted=False):
        self.word, self.form, self.is_counted = word, form, is_counted


class Reason(Exception):
    """Why a time isn't rewritten: its text, and the error if no format parses it."""

    def __init__(self, text, fault=None):
        super().__init__(text)
        self.text, self.fault = text, fault


def completed(record, parts):
    """The record of a text with the defaults for its missing year and offset."""
    if "year" in parts and not any(it in record for it in YEAR_PARTS):
        record = {**record, "year": parts["year"]}
    if "offset_hour" not in record:
        record = {**record, **{it: parts[it] for it in parts if it.startswith("offset")}, "offset_negative": False}
    return record


def front(form, text, parts):
    """The moment at the start of a text, and its end."""
    at, record = form.read(text, {})
    return at, record if isinstance(form, ByPlaces) else completed(record, parts)


def said(reading, is_open, text, parts):
    """(moment, begin, end) of a text by a format: the whole text, or a prefix if it is open."""
    form = reading.form
    try:
        if not is_open and isinstance(form, ByPlaces):
            return outcome(form, "datetime", text), 0, len(text)
        end, record = front(form, text, parts)
        if not is_open and end < len(text):
            raise Refused("trailing")
        moment = resolve(record, "datetime")
    except Refused as fault:
        raise Reason(fault.text(), fault) from None
    if reading.is_counted and text[:1] == b"-" and b"." in text[:end]:
        raise Reason(TWO_WAYS)
    if reading.form is FORMATS["rfc2822"] and is_open:
        begin = len(text[:end]) - len(text[:end].lstrip(SPACES))
        return moment, begin, len(text[:end].rstrip(SPACES))
    return moment, 0, end


def dated(reading, is_open, text, job):
    """That; for a text without a year, in the latest year in which it isn't after a moment."""
    try:
        return said(reading, is_open, text, job.parts)
    except Reason as reason:
        if not job.latest:
            raise
        last = reason
    first = job.latest[0][0] + 1
    for year in range(first, first - LATEST_TRIES, -1):
        parts = {it: job.parts[it] for it in job.parts if it != "year"}
        if abs(year) <= 999_999:
            parts["year"] = year
        try:
            found = said(reading, is_open, text, parts)
        except Reason as reason:
            last = reason
            continue
        if instant(found[0]) <= instant(job.latest):
            return found
    raise last


def in_turn(job, is_open, text):
    """By the first format that parses; without one, the error is that of the first format."""
    first = None
    for reading in job.readings:
        try:
            return dated(reading, is_open, text, job)
        except Reason as reason:
            first = first or reason
    raise first


def is_word(line, at):
    """Whether a letter or digit is right before the place, and one right after it."""
    return 0 < at < len(line) and line[at - 1:at].isalnum() and line[at:at + 1].isalnum()


def anywhere(job, line):
    """The first byte from which on a format parses a time, which neither starts nor ends inside a word or number."""
    line = cutting.body(line)
    for at in range(len(line)):
        if is_word(line, at):
            continue
        for reading in job.readings:
            try:
                moment, begin, end = dated(reading, True, line[at:at + REACH], job)
            except Reason:
                continue
            if not is_word(line, at + end):
                return moment, at + begin, at + end
    return None


def wrong_place(job, text, fault):
    """Where a rejected text fails by the first format, and what was expected there; or None."""
    form = job.readings[0].form
    is_read = False
    try:
        is_read = form.read(text, {})[0] is not None
    except Refused:
        pass
    if not (is_read and cutting.is_open(job.place)):
        place = form.place(text, {})
        if place:
            return place[0], ": " + escaped(place[1])
    at = value_place(form, text, {}, fault)
    return None if at is None else (at, "")


def lacking(job, text):
    """The first missing part of a text that the first format parses: of a day, its year, an hour, its half, and so
    on."""
    parts = {**job.parts, "year": job.latest[0][0]} if job.latest else job.parts
    record = front(job.readings[0].form, text, parts)[1]
    counted = "sunday_week" in record or "monday_week" in record
    names_day = has(record, "month", "day") or "ordinal" in record or "weekday" in record and counted
    names_week_day = has(record, "iso_week", "weekday")
    if not (names_day or names_week_day):
        return "day"
    if not (names_day and year_of(record, "") is not None or names_week_day and year_of(record, "iso_") is not None):
        says_part = any(it in record for it in YEAR_PARTS)
        return "whole year" if says_part else "year; --year or --latest gives one"
    if "hour_24" not in record and not has(record, "hour_12", "is_pm"):
        return "AM or PM" if "hour_12" in record else "hour"
    return next((it for it in ("minute", "second") if it not in record), "offset")


def escaped(wanted):
    """What was expected, with escapes for what isn't printable."""
    if wanted is None:
        return "expected the end"
    if isinstance(wanted, str):
        return f"expected {wanted}"
    known = {9: "\\t", 10: "\\n", 13: "\\r", 34: '\\"', 39: "\\'", 92: "\\\\"}
    shown = (known.get(it) or (chr(it) if 32 <= it <= 126 else f"\\x{it:02x}") for it in wanted)
    return "expected '" + "".join(shown) + "'"


class Job:
    """The job of the options."""

    def __init__(self, place, readings, form, digits="auto", zone=None, parts=None):
        self.place, self.readings, self.form, self.digits, self.zone = place, readings, form, digits, zone
        self.parts = parts or {"offset_hour": 0, "offset_minute": 0, "offset_second": 0}
        self.latest = self.since = self.until = None
        self.judged = {}

    def judge(self, line):
        """("without",), ("dropped",), ("rewritten", begin, end, text) or ("refused", column, reason), in which None
        isn't compared."""
        front = line[:FRONT]
        if front not in self.judged:
            self.judged[front] = self.verdict(front)
        return self.judged[front]

    def verdict(self, line):
        if self.place[0] == "anywhere":
            found = anywhere(self, line)
            return self.put(0, found) if found else ("without",)
        part = cutting.span(self.place, line)
        if not part:
            return ("without",)
        text = line[slice(*part)]
        try:
            found = in_turn(self, cutting.is_open(self.place), text)
        except Reason as reason:
            return self.refusal(part[0], text, reason)
        return self.put(part[0], found)

    def put(self, start, found):
        moment, begin, end = found
        if start + end > LIMIT:
            return "refused", start + begin + 1, TOO_FAR
        at = instant(moment)
        if self.since and at < instant(self.since) or self.until and at >= instant(self.until):
            return ("dropped",)
        try:
            text = writing.of_form(self.form, self.digits, self.zone, moment)
        except writing.Unwritable as why:
            return "refused", start + begin + 1, str(why)
        return "rewritten", start + begin, start + end, text

    def refusal(self, start, text, reason):
        if not reason.fault:
            return "refused", start + 1, reason.text
        place = wrong_place(self, text, reason.fault)
        column = start + (place[0] if place else 0) + 1
        if reason.fault.kind == "missing":
            return "refused", column, f"missing {lacking(self, text)}"
        return "refused", column, reason.text + (place[1] if place else "")


class Settings:
    """The expected output lines, and the reports on the others."""

    def __init__(self, output="all", most=10, strict=False, keeps_going=False, shows=False):
        self.output, self.most, self.strict, self.keeps_going, self.shows = output, most, strict, keeps_going, shows


def pointer(line, column):
    """The bytes of a line around a column, a dot for each that isn't printed, and a caret below it."""
    shown = "".join(chr(it) if 32 <= it <= 126 else "." for it in line[max(column - 41, 0):][:60])
    return f"\n{shown}\n{' ' * min(column - 1, 40)}\x1b[31m^\x1b[0m"


class Expected:
    """The expected output for files, the reports, and the status. A report is a list of what must follow in turn; if a
    reason isn't compared, its line starts with what is known."""

    def __init__(self, job, settings):
        self.job, self.settings = job, settings
        self.out, self.reports, self.rewritten, self.refused, self.stopped = [], [], 0, 0, False

    def file(self, name, data):
        if self.stopped:
            return
        here = 0
        lines = data.split(b"\n")
        endings = [b"\n"] * (len(lines) - 1) + [b""]
        if not lines[-1]:
            lines, endings = lines[:-1], endings[:-1]
        for number, (line, ending) in enumerate(zip(lines, endings), 1):
            fate = self.job.judge(line)
            if fate[0] == "without" and self.settings.strict:
                fate = "refused", 1, NO_PLACE
            if fate[0] == "refused":
                here, self.refused = here + 1, self.refused + 1
                if self.settings.most is not None and here <= self.settings.most:
                    self.report(name, number, line, fate)
                if self.settings.strict and not self.settings.keeps_going:
                    self.stopped = True
                    break
            self.line(line, ending, fate)
        if self.settings.most is not None and here > self.settings.most:
            more = here - self.settings.most
            self.reports.append((f"{name}: {more} more line{'s were' if more > 1 else ' was'} rejected", True))

    def report(self, name, number, line, fate):
        _, column, reason = fate
        begun = f"{name}:{number}:{column}: "
        if reason is None:
            self.reports += [(it, False) for it in (begun, *("", "") * self.settings.shows)]
        elif self.settings.shows:
            self.reports += [(it, True) for it in f"{begun}\x1b[31m{reason}\x1b[0m{pointer(line[:FRONT], column)}".split("\n")]
        else:
            self.reports.append((begun + reason, True))

    def line(self, line, ending, fate):
        output = self.settings.output
        if fate[0] == "rewritten":
            self.rewritten += 1
            _, begin, end, text = fate
            self.out.append(text + b"\n" if output == "times" else line[:begin] + text + line[end:] + ending)
        elif fate[0] != "dropped" and output == "all":
            self.out.append(line + ending)

    def status(self):
        if self.stopped or self.settings.strict and self.refused:
            return 2
        return 0 if self.rewritten else 1

    def difference(self, out, log, status):
        """The difference of a run from the expected one, or None."""
        wanted = b"".join(self.out)
        if (out, status) == (wanted, self.status()) and self.agrees(log):
            return None
        return (f"answers {out[:2000]!r}, tells {log[:2000]!r} and ends with {status}\n    and not {wanted[:2000]!r}, "
                f"{[it[0] for it in self.reports][:20]} and {self.status()}")

    def agrees(self, log):
        """Whether a log has these reports."""
        told = log.decode(errors="backslashreplace").split("\n")
        if told.pop() or len(told) != len(self.reports):
            return False
        return all(one == it if whole else one.startswith(it) for one, (it, whole) in zip(told, self.reports))
