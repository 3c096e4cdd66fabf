"""Formats, each as a reader of a prefix into a record, and the expected answers of `time_lines` and `time_parse`."""
import iso8601
import rfc2822
import rfc3339
import rfc3339_strict
import trees
from components import Component
from places import Stop
from records import resolve
from values import Refused, show


class ByPlaces:
    """RFC 3339 or RFC 2822."""

    def __init__(self, module):
        self.module = module

    def read(self, text, record):
        try:
            said, at, _ = self.module.places(text, True)
        except Stop as stop:
            raise stop.fault from None
        return at, self.module.record_of(said, record)

    def place(self, text, record):
        try:
            at = self.module.places(text, True)[1]
        except Stop as stop:
            return stop.at, stop.wanted
        return None if at == len(text) else (at, None)

    def mark(self, text, record, name):
        try:
            return next((at for called, at in self.module.places(text, True)[2] if called == name), None)
        except Stop:
            return None

    def direct(self, text):
        try:
            return self.module.direct(text)
        except Stop as stop:
            raise stop.fault from None


class ByPieces:
    """ISO 8601."""

    def read(self, text, record):
        seen = iso8601.Seen(text, record)
        if seen.at is None:
            raise seen.fault
        return seen.at, seen.record

    def place(self, text, record):
        return iso8601.Seen(text, record).place(text)

    def mark(self, text, record, name):
        return iso8601.Seen(text, record).mark(name)


class ByTree:
    """A description."""

    def __init__(self, tree):
        self.tree = tree

    def read(self, text, record):
        seen = trees.walk(self.tree, text, 0, record)
        if seen.reading is None:
            raise seen.fault
        return seen.reading

    def place(self, text, record):
        return trees.place_of(self.tree, text, record)

    def mark(self, text, record, name):
        return trees.mark_of(self.tree, text, record, name)


def part(name, **modifiers):
    return "component", Component(name, **modifiers)


def several(*items):
    return "list", [("literal", it.encode()) if isinstance(it, str) else it for it in items]


YMD = several(part("year", range="standard"), "-", part("month"), "-", part("day"))
CLOCK = several(
    part("hour", repr="12", padding="none"), ":", part("minute"),
    ("optional", several(":", part("second"), ("optional", several(".", part("subsecond"))))),
    " ", part("period", case_sensitive="false"))
LOCAL = "first", [
    several(*YMD[1], " ", part("hour"), ":", part("minute"), ":", part("second"), " ",
            part("offset_hour", sign="mandatory"), ":", part("offset_minute")),
    several(part("year", range="standard"), "-", part("ordinal"))]
RFC3339, RFC2822, ISO8601 = ByPlaces(rfc3339), ByPlaces(rfc2822), ByPieces()
RFC3339_STRICT = ByPlaces(rfc3339_strict)
FORMATS = {
    "rfc3339": RFC3339, "rfc2822": RFC2822, "iso8601": ISO8601, "ymd": ByTree(YMD), "clock": ByTree(CLOCK),
    "unix": ByTree(part("unix_timestamp")), "local": ByTree(LOCAL),
}


def outcome(form, target, text):
    """The value of a whole text, or its error."""
    if target == "datetime" and isinstance(form, ByPlaces):
        return form.direct(text)
    at, record = form.read(text, {})
    if at < len(text):
        raise Refused("trailing")
    return resolve(record, target)


def value_place(form, text, record, fault):
    """Where the component of a rejected range starts: the week, for an ordinal that isn't in the text."""
    if fault.kind != "range":
        return None
    at = form.mark(text, record, fault.name)
    return form.mark(text, record, "week number") if at is None and fault.name == "ordinal" else at


def expected(wanted):
    if wanted is None:
        return "expected the end"
    if isinstance(wanted, str):
        return f"expected {wanted}"
    return "expected '" + "".join(chr(it) if 32 <= it <= 126 else "?" for it in wanted) + "'"


def answer(form, target, text, tells_places=False):
    """The answer line for a text."""
    try:
        return show(target, outcome(form, target, text))
    except Refused as fault:
        told = f"error: {fault.text()}"
        if not tells_places:
            return told
        place = form.place(text, {})
        if place:
            return f"{told} at {place[0]}: {expected(place[1])}"
        at = value_place(form, text, {}, fault)
        return told if at is None else f"{told} at {at}"


def line_answer(line):
    """The answer of `time_lines` to a line."""
    fields = line.split(b"\t", 2)
    if len(fields) < 3:
        return "error: line"
    form = FORMATS.get(fields[0].decode(errors="replace"))
    target = fields[1].decode(errors="replace")
    if not form:
        return "error: format"
    if target not in ("date", "time", "offset", "plain", "utc", "datetime", "staged", "timestamp"):
        return "error: target"
    return answer(form, target, fields[2])
