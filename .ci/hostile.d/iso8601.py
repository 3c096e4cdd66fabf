"""ISO 8601: a date, a time and an offset, each optional, and each by a row of pieces in a table.

A date is extended if a hyphen follows its year, and else basic; the parts after it may not be of the other kind.
"""
from digits import run, two
from trees import furthest
from values import BILLION, Refused
from records import with_part

UNKNOWN, BASIC, EXTENDED = "unknown", "basic", "extended"


def number(text, at):
    """Two digits, and a fraction's digits or None; nothing for a point without digits."""
    whole = two(text, at)
    if not whole or text[whole[1]:whole[1] + 1] not in (b".", b","):
        return whole and (whole[0], None, whole[1])
    digits = run(text, whole[1] + 1, 1, len(text))
    return digits and (whole[0], text[whole[1] + 1:digits[1]], digits[1])


def whole(name, most):
    def read(text, at):
        found = number(text, at)
        return ((name, found[0]), found[2]) if found and found[1] is None and found[0] <= most else None
    return read


def broken(name, most):
    """A number with a fraction, rounded down to nanoseconds."""
    def read(text, at):
        found = number(text, at)
        if not found or found[1] is None or found[0] > most:
            return None
        unit = (3600 if name == "hour" else 60) * BILLION
        return (name, found[0], unit * int(found[1]) // 10 ** len(found[1])), found[2]
    return read


def any_second(text, at):
    """A second, and its fraction rounded half up, but not up to a second."""
    found = number(text, at)
    if not found or found[0] > 60:
        return None
    size = 10 ** len(found[1]) if found[1] else 1
    rounded = (2 * BILLION * int(found[1] or 0) + size) // (2 * size)
    return (("second", found[0], rounded), found[2]) if rounded < BILLION else None


def byte(wanted):
    return lambda text, at: (None, at + 1) if text[at:at + 1] == wanted else None


def digits(width, least, most):
    def read(text, at):
        found = run(text, at, width, width)
        return found if found and least <= found[0] <= most else None
    return read


def year(text, at):
    sign = text[at:at + 1] if text[at:at + 1] in (b"+", b"-") else b""
    found = run(text, at + 1, 6, 6) if sign else run(text, at, 4, 4)
    return found and (-found[0] if sign == b"-" else found[0], found[1])


# The pieces, each with what is expected there.
PIECES = {
    "year": (year, "year"), "-": (byte(b"-"), b"-"), "month": (digits(2, 1, 12), "month"),
    "day": (digits(2, 1, 99), "day"),
    "ordinal": (digits(3, 1, 999), "ordinal"), "W": (byte(b"W"), b"W"), "week": (digits(2, 1, 99), "week"),
    "weekday": (digits(1, 1, 7), "weekday"), "h": (whole("hour", 23), "hour"), "H": (broken("hour", 23), "hour"),
    "m": (whole("minute", 59), "minute"), "M": (broken("minute", 59), "minute"), "S": (any_second, "second"),
    ":": (byte(b":"), b":"), "Z": (byte(b"Z"), b"Z"), "oh": (digits(2, 0, 25), "offset hour"),
    "sign": (lambda text, at: (text[at:at + 1], at + 1) if text[at:at + 1] in (b"+", b"-") else None, "offset hour"),
    "om": (digits(2, 0, 59), "offset minute"),
}
DATE_ROWS = [it.split() for it in ("year month day", "year ordinal", "year W week weekday", "year - month - day",
                                   "year - ordinal", "year - W week - weekday")]
NO_COLON = lambda text, at: text[at:at + 1] != b":"
NO_NUMBER = lambda text, at: number(text, at) is None
NO_DIGITS = lambda text, at: two(text, at) is None
# A row, the kinds before it, what may follow it, and the kind after it (None: unchanged).
TIME_ROWS = [
    ("H", (UNKNOWN, BASIC, EXTENDED), (), None),
    ("h", (UNKNOWN, BASIC, EXTENDED), (NO_COLON, NO_NUMBER), None),
    ("h M", (UNKNOWN, BASIC, EXTENDED), (), {UNKNOWN: BASIC}),
    ("h : M", (UNKNOWN, EXTENDED), (), EXTENDED),
    ("h m", (UNKNOWN, BASIC), (NO_NUMBER,), BASIC),
    ("h m", (EXTENDED,), (NO_COLON,), EXTENDED),
    ("h : m", (UNKNOWN, EXTENDED), (NO_COLON,), EXTENDED),
    ("h m S", (UNKNOWN, BASIC), (), BASIC),
    ("h m : S", (EXTENDED,), (), EXTENDED),
    ("h : m : S", (UNKNOWN, EXTENDED), (), EXTENDED),
]
OFFSET_ROWS = [
    ("Z", (UNKNOWN, BASIC, EXTENDED), (), None),
    ("sign oh", (BASIC,), (NO_DIGITS,), None),
    ("sign oh", (UNKNOWN, EXTENDED), (NO_COLON, NO_DIGITS), None),
    ("sign oh om", (UNKNOWN, BASIC, EXTENDED), (), None),
    ("sign oh : om", (UNKNOWN, EXTENDED), (), None),
]


def pieces(row, text, at):
    """The values of a row's pieces, each with its place, and their end; or the miss of the first that fails."""
    said = []
    for name in row:
        found = PIECES[name][0](text, at)
        if not found:
            return None, (at, PIECES[name][1])
        said.append((name, found[0], at))
        at = found[1]
    return (said, at), None


def table(rows, kind, text, at):
    """The values of the row that matches, its end and the kind after it; and the misses of all rows that are
    allowed."""
    fitting, misses = None, []
    for row, before, behind, after in rows:
        if kind not in before:
            continue
        found, miss = pieces(row.split(), text, at)
        misses += [miss] if miss else []
        if found and not fitting and all(it(text, found[1]) for it in behind):
            then = after.get(kind, kind) if isinstance(after, dict) else after or kind
            fitting = (*found, then)
    return fitting, misses


def date(text):
    """The value of a date, its end, its kind and the pieces; or its error."""
    found = year(text, 0)
    if not found:
        raise Refused("component", "year")
    kind = EXTENDED if text[found[1]:found[1] + 1] == b"-" else BASIC
    rows = DATE_ROWS[3:] if kind == EXTENDED else DATE_ROWS[:3]
    for row in rows:
        read, _ = pieces(row, text, 0)
        if read:
            return read[0], read[1], kind
    begun = found[1] + (1 if kind == EXTENDED else 0)
    wanted = pieces(rows[2] if text[begun:begun + 1] == b"W" else rows[0], text, 0)[1][1]
    raise Refused("literal") if isinstance(wanted, bytes) else Refused("component", wanted)


def dated(said, record):
    """The record with a date, or an error by the number that is out of its range, the year first."""
    numbers = {name: value for name, value, _ in said}
    parts = [("year", "iso_year" if "week" in numbers else "year"), ("month", "month"), ("day", "day"),
             ("ordinal", "ordinal"), ("week", "iso_week"), ("weekday", "weekday")]
    for name, part in parts:
        if name in numbers:
            value = numbers[name] - 1 if name == "weekday" else numbers[name]
            record = with_part(record, part, value)
            if record is None:
                raise Refused("component", name)
    return record


def timed(said, record):
    numbers = {"hour_24": 0, "minute": 0, "second": 0, "subsecond": 0}
    for name, value, _ in said:
        if name in "hm":
            numbers["hour_24" if name == "h" else "minute"] = value[1]
        elif name == "H":
            numbers = {"hour_24": value[1], "minute": value[2] // BILLION // 60, "second": value[2] // BILLION % 60,
                       "subsecond": value[2] % BILLION}
        elif name == "M":
            numbers |= {"minute": value[1], "second": value[2] // BILLION, "subsecond": value[2] % BILLION}
        elif name == "S":
            numbers |= {"second": value[1], "subsecond": value[2]}
    return {**record, **numbers}


def zoned(said, record):
    numbers = {name: value for name, value, _ in said}
    sign = -1 if numbers.get("sign") == b"-" else 1
    parts = {"offset_hour": sign * numbers.get("oh", 0), "offset_minute": sign * numbers.get("om", 0),
             "offset_negative": False}
    return {**record, **parts} | ({"offset_second": 0} if "Z" in numbers else {})


class Seen:
    """The result for a text: its end, with the record, or the error; misses, and pieces that matched."""

    def __init__(self, text, record):
        self.record, self.at, self.fault, self.read = {**record, "leap": True}, None, None, []
        try:
            said, end, kind = date(text)
            self.misses = [(at, name) for name, _, at in said if name in ("day", "ordinal", "week")]
            self.record = dated(said, self.record)
        except Refused as fault:
            self.fault = fault
            # A number out of the record's range is missed; else the rows of a date are.
            known = getattr(self, "misses", None)
            self.misses = [(at, fault.name) for at, _ in known] if known is not None else [
                it for it in (pieces(row, text, 0)[1] for row in DATE_ROWS) if it]
            self.time_and_offset(text)
        else:
            self.at, self.read, self.misses = end, said, []
            self.time(text, end, kind, True)

    def time(self, text, at, kind, needs_t):
        """A time, and an offset after it; returns whether there is a time."""
        has_t = text[at:at + 1] == b"T"
        if needs_t and not has_t:
            self.misses = [(at, b"T"), *self.misses]
            return False
        found, misses = table(TIME_ROWS, kind, text, at + has_t)
        after = []
        if found:
            said, self.at, kind = found
            self.record, self.read = timed(said, self.record), self.read + said
            after = self.offset(text, self.at, kind)
        self.misses = after + misses + self.misses
        return bool(found)

    def offset(self, text, at, kind):
        found, misses = table(OFFSET_ROWS, kind, text, at)
        if found:
            self.record, self.read, self.at = zoned(found[0], self.record), self.read + found[0], found[1]
        return misses

    def time_and_offset(self, text):
        dates, self.misses = self.misses, []
        has_time = self.time(text, 0, UNKNOWN, False)
        misses = table(OFFSET_ROWS, UNKNOWN, text, 0)[1]
        if not has_time:
            self.offset(text, 0, UNKNOWN)
        self.misses = dates + self.misses + misses

    def place(self, text):
        if self.at == len(text):
            return None
        return furthest(([(self.at, None)] if self.at is not None else []) + self.misses)

    def mark(self, name):
        for piece, _, at in self.read:
            if name == PIECES[piece][1] or piece == "Z" and name == "offset hour":
                return at
        return None
