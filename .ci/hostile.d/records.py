"""The parts of a text, and the value that they make: by the first row of parts that is complete."""
from values import (BILLION, LAST_NANOSECOND, Refused, ask_leap_second, calendar_date, clock_time, counted_week_date,
                    has_date, instant, iso_week_date, offset_of, ordinal_date, shown_at, LEAST_INSTANT, MOST_INSTANT)

TARGETS = "date time offset plain utc datetime staged timestamp".split()

# The least and the greatest number of a part. A month is 1 to 12, a weekday 0 (Monday) to 6.
RANGES = {
    "year": (-999_999, 999_999), "iso_year": (-999_999, 999_999),
    "century": (-9999, 9999), "iso_century": (-9999, 9999),
    "last_two": (0, 99), "iso_last_two": (0, 99), "month": (1, 12), "weekday": (0, 6), "sunday_week": (0, 53),
    "monday_week": (0, 53), "iso_week": (1, 53), "ordinal": (1, 366), "day": (1, 31), "hour_24": (0, 23),
    "hour_12": (1, 12), "is_pm": (0, 1), "minute": (0, 59), "second": (0, 60), "subsecond": (0, BILLION - 1),
    "offset_hour": (-25, 25), "offset_minute": (-59, 59), "offset_second": (-59, 59),
    "timestamp": (LEAST_INSTANT, MOST_INSTANT),
}


def with_part(record, part, value):
    """The record with one more part, or None if the value is out of range."""
    least, most = RANGES[part]
    return {**record, part: value} if least <= value <= most else None


def has(record, *parts):
    return all(it in record for it in parts)


def year_of(record, kind):
    year, century, last_two = f"{kind}year", f"{kind}century", f"{kind}last_two"
    if year in record:
        return record[year]
    if has(record, century, last_two):
        sign = -1 if record[f"{century}_negative"] else 1
        return 100 * record[century] + sign * record[last_two]
    return None


def missing_of_date(record):
    """What a record without a date lacks: the year of its day, the month of its day, or the day."""
    days = [("ordinal",), ("month", "day"), ("iso_week", "weekday"), ("sunday_week", "weekday"), ("monday_week", "weekday")]
    if any(has(record, *it) for it in days):
        return "year"
    return "month" if "day" in record else "day"


def date_of(record):
    year, iso_year = year_of(record, ""), year_of(record, "iso_")
    if year is not None and "ordinal" in record:
        return ordinal_date(year, record["ordinal"])
    if year is not None and has(record, "month", "day"):
        return calendar_date(year, record["month"], record["day"])
    if iso_year is not None and has(record, "iso_week", "weekday"):
        return iso_week_date(iso_year, record["iso_week"], record["weekday"])
    for part, letter in (("sunday_week", "U"), ("monday_week", "W")):
        if year is not None and has(record, part, "weekday"):
            return counted_week_date(year, letter, record[part], record["weekday"])
    raise Refused("missing", missing_of_date(record))


def time_of(record):
    if "hour_24" in record:
        hour = record["hour_24"]
    elif has(record, "hour_12", "is_pm"):
        hour = record["hour_12"] % 12 + 12 * record["is_pm"]
    else:
        raise Refused("missing", "period" if "hour_12" in record else "hour")
    parts = [it in record for it in ("minute", "second", "subsecond")]
    if parts != sorted(parts, reverse=True):
        raise Refused("missing", "second" if "minute" in record else "minute")
    return clock_time(hour, record.get("minute", 0), record.get("second", 0), record.get("subsecond", 0))


def zone_of(record):
    if "offset_hour" not in record:
        raise Refused("missing", "offset hour")
    sign = -1 if record.get("offset_negative") else 1
    minute = sign * record.get("offset_minute", 0)
    second = sign * record.get("offset_second", 0) if "offset_minute" in record else 0
    return offset_of(record["offset_hour"], minute, second)


def moment_of(record, is_utc):
    if "timestamp" in record:
        date, time, offset = shown_at(record["timestamp"], 0)
        return date, (*time[:3], record.get("subsecond", time[3])), offset
    is_leap = record.get("leap") and record.get("second") == 60
    if is_leap:
        record = {**record, "second": LAST_NANOSECOND[2], "subsecond": LAST_NANOSECOND[3]}
    date, time = date_of(record), time_of(record)
    offset = 0 if is_utc and "offset_hour" not in record else zone_of(record)
    moment = date, time, offset
    if is_utc and not has_date(instant(moment)):
        raise Refused("range", "year", True)
    if is_leap:
        ask_leap_second(moment)
    return shown_at(instant(moment), 0) if is_utc else moment


def count_of(record):
    if "timestamp" in record:
        return record["timestamp"]
    try:
        return instant(moment_of(record, True))
    except Refused:
        raise Refused("missing") from None


def resolve(record, target):
    """The value of a target, or the error."""
    if target == "plain":
        return date_of(record), time_of(record)
    return {
        "date": date_of, "time": time_of, "offset": zone_of, "timestamp": count_of,
        "utc": lambda it: moment_of(it, True), "datetime": lambda it: moment_of(it, False),
        "staged": lambda it: moment_of(it, False),
    }[target](record)
