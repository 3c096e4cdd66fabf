"""Dates, times, offsets and moments, as `datetime` counts them.

The calendar repeats after 400 years, so that a date of any year is one of the years 2000 to 2399 of `datetime`, a
multiple of 400 years away. A date is (year, month, day), a time (hour, minute, second, nanosecond), an offset its
seconds, and a moment all three.
"""
import datetime
import functools

GREATEST = 999_999
BILLION = 10**9
DAY = 86_400 * BILLION
TURN = 146_097  # days of 400 years
EPOCH = datetime.date(1970, 1, 1).toordinal()
FIRST = datetime.date(2000, 1, 1).toordinal()
LAST_NANOSECOND = (23, 59, 59, BILLION - 1)
MONTHS = "January February March April May June July August September October November December".split()
WEEKDAYS = "Monday Tuesday Wednesday Thursday Friday Saturday Sunday".split()


class Refused(Exception):
    """The error of a text without a value. The kind is `literal`, `component`, `trailing`, `missing` or `range`; the name
    is that of the component, also of one that is missing."""

    def __init__(self, kind, name=None, conditional=False):
        super().__init__(kind, name, conditional)
        self.kind, self.name, self.conditional = kind, name, conditional

    def text(self):
        if self.kind == "range":
            return f"{self.name} is out of range" + (" for the other components" if self.conditional else "")
        return {
            "literal": "a character literal was not valid",
            "component": f"the '{self.name}' component could not be parsed",
            "trailing": "unexpected trailing characters; the end of input was expected",
            "missing": "the `Parsed` struct did not include enough information to construct the type",
        }[self.kind]

    def message(self):
        """The message of the bindings, which name what is missing."""
        if self.kind != "missing" or not self.name:
            return self.text()
        return "missing " + {"period": "AM or PM", "offset hour": "offset"}.get(self.name, self.name)


def turned(year):
    """The year of 2000 to 2399 with an equal calendar, and how many times 400 years it is before the given one."""
    turns = (year - 2000) // 400
    return year - 400 * turns, turns


def day_number(date):
    """The days since 1970-01-01."""
    year, turns = turned(date[0])
    return datetime.date(year, date[1], date[2]).toordinal() - EPOCH + turns * TURN


def date_at(number):
    turns = (number + EPOCH - FIRST) // TURN
    day = datetime.date.fromordinal(number + EPOCH - turns * TURN)
    return day.year + 400 * turns, day.month, day.day


LEAST_INSTANT = day_number((-GREATEST, 1, 1)) * DAY
MOST_INSTANT = (day_number((GREATEST, 12, 31)) + 1) * DAY - 1


def asked_year(year):
    if abs(year) > GREATEST:
        raise Refused("range", "year")


def calendar_date(year, month, day):
    asked_year(year)
    try:
        datetime.date(turned(year)[0], month, day)
    except ValueError:
        raise Refused("range", "day", True) from None
    return year, month, day


def ordinal_date(year, ordinal):
    asked_year(year)
    date = date_at(day_number((year, 1, 1)) + ordinal - 1)
    if date[0] != year or ordinal < 1:
        raise Refused("range", "ordinal", True)
    return date


def iso_week_date(year, week, weekday):
    """The date of a week and a weekday, Monday 0."""
    asked_year(year)
    same, turns = turned(year)
    try:
        day = datetime.date.fromisocalendar(same, week, weekday + 1)
    except ValueError:
        raise Refused("range", "week", True) from None
    if day.year + 400 * turns > GREATEST:
        raise Refused("range", "weekday", True)
    return day.year + 400 * turns, day.month, day.day


@functools.lru_cache(maxsize=None)
def day_of_week(year, letter, week, weekday):
    """Month and day of a year of `datetime`, by the week that `%U` or `%W` counts and a weekday; or None."""
    day = datetime.date(year, 1, 1)
    while day.year == year:
        if day.weekday() == weekday and int(day.strftime(f"%{letter}")) == week:
            return day.month, day.day
        day += datetime.timedelta(days=1)
    return None


def counted_week_date(year, letter, week, weekday):
    asked_year(year)
    found = day_of_week(turned(year)[0], letter, week, weekday)
    if not found:
        raise Refused("range", "ordinal", True)
    return (year, *found)


def like(date):
    """The date of `datetime` with equal month, day, weekday and weeks, and the years between them."""
    year, turns = turned(date[0])
    return datetime.date(year, date[1], date[2]), 400 * turns


def clock_time(hour, minute, second, nanosecond):
    for name, value, most in (("hour", hour, 23), ("minute", minute, 59), ("second", second, 59)):
        if value > most:
            raise Refused("range", name)
    return hour, minute, second, nanosecond


def nanoseconds_of(time):
    return ((time[0] * 60 + time[1]) * 60 + time[2]) * BILLION + time[3]


def split(nanoseconds):
    """The hour, minute, second and nanosecond of the time since midnight."""
    seconds, nanosecond = divmod(nanoseconds, BILLION)
    return seconds // 3600, seconds // 60 % 60, seconds % 60, nanosecond


def instant(moment):
    date, time, offset = moment
    return day_number(date) * DAY + nanoseconds_of(time) - offset * BILLION


def has_date(nanoseconds):
    return LEAST_INSTANT <= nanoseconds <= MOST_INSTANT


def shown_at(nanoseconds, offset):
    """The moment of an instant in local time at an offset, or None if that has no date."""
    local = nanoseconds + offset * BILLION
    return (date_at(local // DAY), split(local % DAY), offset) if has_date(local) else None


def offset_of(hours, minutes, seconds):
    """Smaller parts take the sign of the first that isn't zero."""
    for name, value, most in (("hours", hours, 25), ("minutes", minutes, 59), ("seconds", seconds, 59)):
        if abs(value) > most:
            raise Refused("range", name)
    first = hours or minutes or seconds
    size = abs(hours) * 3600 + abs(minutes) * 60 + abs(seconds)
    return -size if first < 0 else size


def ask_leap_second(moment):
    """A leap second is at the end of a month in UTC."""
    at = instant(moment)
    if has_date(at):
        date, time, _ = shown_at(at, 0)
        if time == LAST_NANOSECOND and (date == (GREATEST, 12, 31) or date_at(day_number(date) + 1)[2] == 1):
            return
    raise Refused("range", "second", True)


def show_date(date):
    return f"{'-' if date[0] < 0 else ''}{abs(date[0]):04}-{date[1]:02}-{date[2]:02}"


def show_time(time):
    return f"{time[0]:02}:{time[1]:02}:{time[2]:02}.{time[3]:09}"


def show_offset(offset):
    size = abs(offset)
    return f"{'-' if offset < 0 else '+'}{size // 3600:02}:{size // 60 % 60:02}:{size % 60:02}"


def show(target, value):
    """A value as the programs print it."""
    if target == "date":
        return show_date(value)
    if target == "time":
        return show_time(value)
    if target == "offset":
        return show_offset(value)
    if target == "plain":
        return f"{show_date(value[0])} {show_time(value[1])}"
    if target == "timestamp":
        return str(value)
    return f"{show_date(value[0])} {show_time(value[1])} {show_offset(value[2])}"
