"""RFC 3339, section 5.6, place by place."""
from digits import run, signed, two
from places import ask_range, byte_missing, part_missing
from values import BILLION, Refused, ask_leap_second, calendar_date, clock_time, offset_of


def asked(text, at, name, least, most, ranges, width=2):
    found = run(text, at, width, width)
    if not found:
        raise part_missing(at, name)
    ask_range(at, name, found[0], least, most, ranges)
    return found


def byte(text, at, wanted):
    if text[at:at + 1] != wanted:
        raise byte_missing(at, wanted)
    return at + 1


def fraction(text, at):
    """The nanoseconds of a point and digits, of which nine count."""
    if text[at:at + 1] != b".":
        return None, at
    found = run(text, at + 1, 1, len(text))
    if not found:
        raise part_missing(at, "subsecond")
    return int(text[at + 1:found[1]][:9].ljust(9, b"0")), found[1]


def offset(text, at, ranges):
    if text[at:at + 1] in (b"Z", b"z"):
        return 0, 0, 0, at + 1, []
    sign, after = signed(text, at)
    hours = two(text, after) if sign else None
    if not hours or hours[0] > 23:
        raise part_missing(at, "offset hour")
    colon = byte(text, hours[1], b":")
    minutes, after = asked(text, colon, "offset minute", 0, 59, ranges)
    minus = -1 if sign == b"-" else 1
    return minus * hours[0], minus * minutes, minutes, after, [("offset minute", colon)]


def places(text, ranges, separators=None):
    """The numbers at a text's start, their end, and where its parts start. Any byte may be between date and time, or only
    a separator, if some are given."""
    said, marks, at = {}, [], 0
    for name, least, most, width, behind in (
            ("year", 0, 9999, 4, b"-"), ("month", 1, 12, 2, b"-"), ("day", 1, 31, 2, None), ("hour", 0, 23, 2, b":"),
            ("minute", 0, 59, 2, b":"), ("second", 0, 60, 2, None)):
        marks.append((name, at))
        if name == "month" and two(text, at) and two(text, at)[0] == 0:
            raise part_missing(at, name)
        said[name], at = asked(text, at, name, least, most, ranges, width)
        if behind:
            at = byte(text, at, behind)
        if name == "day":
            if at == len(text) or separators and text[at] not in separators:
                raise part_missing(at, "separator")
            at += 1
    begun = at
    said["subsecond"], at = fraction(text, at)
    marks += [("subsecond", begun)] if at > begun else []
    marks.append(("offset hour", at))
    said["offset_hour"], said["offset_minute"], said["minutes"], at, more = offset(text, at, ranges)
    return said, at, marks + more


def record_of(said, record):
    """The record with the parts of a text, in which a leap second is allowed."""
    parts = {"year": said["year"], "month": said["month"], "day": said["day"], "hour_24": said["hour"],
             "minute": said["minute"], "second": said["second"], "offset_hour": said["offset_hour"],
             "offset_minute": said["offset_minute"], "offset_negative": False, "leap": True}
    if said["subsecond"] is not None:
        parts["subsecond"] = said["subsecond"]
    return {**record, **parts}


def direct(text, separators=None):
    """The moment of a text, by the forms of its places and then by the ranges of its numbers."""
    said, at, _ = places(text, False, separators)
    if said["minutes"] > 59:
        raise Refused("range", "minutes")
    if at < len(text):
        raise Refused("trailing")
    if not 1 <= said["month"] <= 12:
        raise Refused("range", "month")
    date = calendar_date(said["year"], said["month"], said["day"])
    is_leap = said["second"] == 60
    second, nanosecond = (59, BILLION - 1) if is_leap else (said["second"], said["subsecond"] or 0)
    time = clock_time(said["hour"], said["minute"], second, nanosecond)
    moment = date, time, offset_of(said["offset_hour"], said["offset_minute"], 0)
    if is_leap:
        ask_leap_second(moment)
    return moment
