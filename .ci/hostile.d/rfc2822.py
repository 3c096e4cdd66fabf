"""The date and time of RFC 2822, sections 3.3 and 4.3, place by place, with blanks and comments of section 3.2."""
from components import SHORT_MONTHS, SHORT_WEEKDAYS
from digits import named, run, signed, two
from places import Stop, ask_range, byte_missing, part_missing
from values import BILLION, Refused, ask_leap_second, calendar_date, clock_time, offset_of

MOST_COMMENTS = 31
TEXT_BYTES = {*range(1, 9), 11, 12, *range(14, 32), *range(33, 40), *range(42, 92), *range(93, 128)}
QUOTED_BYTES = {*range(1, 10), 11, 12, *range(14, 128)}
ZONES = {b"EST": -5, b"EDT": -4, b"CST": -6, b"CDT": -5, b"MST": -7, b"MDT": -6, b"PST": -8, b"PDT": -7, b"GMT": 0}


def blanks(text, at):
    while text[at:at + 1] in (b" ", b"\t"):
        at += 1
    return at


def folding(text, at):
    """Blanks, which may include line breaks."""
    if text[at:at + 2] == b"\r\n":
        end = blanks(text, at + 2)
        return end if end > at + 2 else None
    end = blanks(text, at)
    if end == at:
        return None
    while text[end:end + 2] == b"\r\n":
        more = blanks(text, end + 2)
        if more == end + 2:
            return None
        end = more
    return end


def repeated(reader, text, at):
    while True:
        end = reader(text, at)
        if end is None:
            return at
        at = end


def comment(text, at, level=1):
    if level > MOST_COMMENTS or text[at:at + 1] != b"(":
        return None
    at = repeated(folding, text, at + 1)
    while True:
        end = content(text, at, level)
        if end is None:
            return at + 1 if text[at:at + 1] == b")" else None
        at = repeated(folding, text, end)


def content(text, at, level):
    if at < len(text) and text[at] in TEXT_BYTES:
        return at + 1
    if text[at:at + 1] == b"\\" and at + 1 < len(text) and text[at + 1] in QUOTED_BYTES:
        return at + 2
    return comment(text, at, level + 1)


def blank_or_comment(text, at):
    end = folding(text, at)
    return comment(text, at) if end is None else end


def skipped(text, at):
    """After optional blanks and comments."""
    return repeated(blank_or_comment, text, at)


def needed(text, at, reader=skipped):
    end = reader(text, at)
    if end is None or end == at:
        raise byte_missing(at, b" ")
    return end


def colon(text, at):
    begun, at = at, skipped(text, at)
    return (skipped(text, at + 1), at) if text[at:at + 1] == b":" else (None, at)


def zone_name(text, at):
    """The hours of a zone's name, and its end. With fewer than three bytes left it is `UT` or a letter."""
    left = text[at:]
    if len(left) >= 3:
        hours = ZONES.get(left[:3].upper())
        return None if hours is None else (hours, at + 3)
    if left.upper() == b"UT":
        return 0, at + 2
    return (0, at + 1) if left[:1].isalpha() and left[:1].upper() != b"J" else None


def asked(text, at, name, most, ranges, begun=None):
    found = two(text, at)
    if not found:
        raise Stop(at, name, Refused("component", name))
    ask_range(at, name, found[0], 0, most, ranges)
    return found


def year(text, at):
    four = run(text, at, 4, 4)
    if four:
        if four[0] < 1900:
            raise part_missing(at, "year")
        return four[0], four[1], folding
    found = two(text, at)
    if not found:
        raise part_missing(at, "year")
    return found[0] + (2000 if found[0] < 50 else 1900), found[1], skipped


def date(text, ranges, said, marks):
    at = skipped(text, 0)
    weekday = named(text, at, SHORT_WEEKDAYS, False)
    if weekday:
        said["weekday"], after = weekday
        if text[after:after + 1] != b",":
            raise byte_missing(after, b",")
        at = skipped(text, after + 1)
    marks.append(("day", at))
    day = run(text, at, 1, 2)
    if not day:
        raise part_missing(at, "day")
    ask_range(at, "day", day[0], 1, 31, ranges)
    said["day"], at = day[0], needed(text, day[1])
    marks.append(("month", at))
    month = named(text, at, SHORT_MONTHS, False)
    if not month:
        raise part_missing(at, "month")
    said["month"], at = month[0] + 1, needed(text, month[1])
    marks.append(("year", at))
    said["year"], at, reader = year(text, at)
    return needed(text, at, reader)


def clock(text, at, ranges, said, marks):
    marks.append(("hour", at))
    said["hour"], at = asked(text, at, "hour", 23, ranges)
    behind, at = colon(text, at)
    if behind is None:
        raise byte_missing(at, b":")
    marks.append(("minute", behind))
    said["minute"], at = asked(text, behind, "minute", 59, ranges)
    behind, _ = colon(text, at)
    if behind is not None:
        marks.append(("second", behind))
        said["second"], at = asked(text, behind, "second", 60, ranges)
    return needed(text, at)


def places(text, ranges):
    """The numbers at a text's start, their end, and where its parts start."""
    said, marks = {}, []
    at = clock(text, date(text, ranges, said, marks), ranges, said, marks)
    marks.append(("offset hour", at))
    zone = zone_name(text, at)
    if zone:
        said["offset_hour"], said["offset_minute"], said["named"] = zone[0], 0, True
        return said, skipped(text, zone[1]), marks
    sign, after = signed(text, at)
    hours = two(text, after) if sign else None
    if not hours or ranges and hours[0] > 25:
        raise part_missing(at, "offset hour")
    marks.append(("offset minute", hours[1]))
    minutes, end = asked(text, hours[1], "offset minute", 59, ranges)
    minus = -1 if sign == b"-" else 1
    said["offset_hour"], said["offset_minute"] = minus * hours[0], minus * minutes
    return said, skipped(text, end), marks


def record_of(said, record):
    """The record with the parts of a text, in which a leap second is allowed."""
    parts = {it: said[it] for it in ("year", "month", "day", "minute", "offset_hour", "offset_minute")}
    parts |= {it: said[it] for it in ("weekday", "second") if it in said}
    return {**record, **parts, "hour_24": said["hour"], "offset_negative": False, "leap": True}


def direct(text):
    """The moment of a text, by the forms of its places and then by the ranges of its numbers."""
    said, at, _ = places(text, False)
    if at < len(text):
        raise Refused("trailing")
    day = calendar_date(said["year"], said["month"], said["day"])
    is_leap = said.get("second") == 60
    second, nanosecond = (59, BILLION - 1) if is_leap else (said.get("second", 0), 0)
    time = clock_time(said["hour"], said["minute"], second, nanosecond)
    moment = day, time, offset_of(said["offset_hour"], said["offset_minute"], 0)
    if is_leap:
        ask_leap_second(moment)
    return moment
