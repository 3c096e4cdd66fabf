"""Texts of moments: by RFC 3339, RFC 2822, ISO 8601, as numbers since 1970, and by descriptions."""
from components import PRECISIONS, SHORT_MONTHS, SHORT_WEEKDAYS
from values import BILLION, MONTHS, WEEKDAYS, has_date, instant, like, shown_at

MOST_BYTES = 35
UNITS = {"unix": BILLION, "unix-ms": 10**6, "unix-us": 10**3, "unix-ns": 1}


class Unwritable(Exception):
    """The error of a moment without a text."""


def no_component(name):
    return Unwritable(f"The {name} component cannot be formatted into the requested format.")


def filled(padding, width, number):
    """A number padded with that in place of leading zeros; the last digit stays."""
    text = f"{number:0{width}}"
    digits = text.lstrip("0") or "0"
    return {"zero": "0", "space": " ", "none": ""}[padding] * (len(text) - len(digits)) + digits


def of_year(component, year):
    sign = "-" if year < 0 else "+" if year > 9999 or component.sign == "mandatory" else ""
    if component.repr == "last_two":
        return filled(component.padding, 2, abs(year) % 100)
    if component.range == "standard" and abs(year) > 9999:
        raise no_component("year")
    if component.repr == "century":
        return sign + filled(component.padding, 2, abs(year) // 100)
    return sign + filled(component.padding, 4, abs(year))


def of_fraction(nanosecond, count):
    return f"{nanosecond:09}"[:count]


def significant(nanosecond):
    return len(f"{nanosecond:09}".rstrip("0"))


def of_component(component, moment):
    date, (hour, minute, second, nanosecond), offset = moment
    name, day, years = component.name, *like(date)
    iso = day.isocalendar()
    if name == "year":
        return of_year(component, iso[0] + years if component.base == "iso_week" else date[0])
    if name == "month" and component.repr != "numerical":
        return (MONTHS if component.repr == "long" else SHORT_MONTHS)[date[1] - 1]
    if name == "weekday":
        first = 1 if component.one_indexed == "true" else 0
        return {"long": WEEKDAYS[day.weekday()], "short": SHORT_WEEKDAYS[day.weekday()],
                "sunday": str(first + (day.weekday() + 1) % 7), "monday": str(first + day.weekday())}[component.repr]
    if name == "week_number":
        week = {"iso": iso[1], "sunday": int(day.strftime("%U")), "monday": int(day.strftime("%W"))}[component.repr]
        return filled(component.padding, 2, week)
    if name == "period":
        text = "AM" if hour < 12 else "PM"
        return text if component.case == "upper" else text.lower()
    if name == "subsecond":
        all_digits = max(significant(nanosecond), 1)
        return of_fraction(nanosecond, all_digits if component.digits == "1+" else int(component.digits))
    if name == "unix_timestamp":
        at = instant(moment)
        sign = "-" if at < 0 else "+" if component.sign == "mandatory" else ""
        return sign + str(abs(at // PRECISIONS[component.precision][1]))
    if name == "offset_hour":
        sign = "-" if offset < 0 else "+" if component.sign == "mandatory" else ""
        return sign + filled(component.padding, 2, abs(offset) // 3600)
    if name == "ignore":
        raise no_component("ignore")
    if name == "end":
        return ""
    if name == "hour":
        return filled(component.padding, 2, hour if component.repr == "24" else (hour - 1) % 12 + 1)
    number = {"month": date[1], "day": date[2], "minute": minute, "second": second,
              "ordinal": day.timetuple().tm_yday, "offset_minute": abs(offset) // 60 % 60,
              "offset_second": abs(offset) % 60}[name]
    return filled(component.padding, 3 if name == "ordinal" else 2, number)


def of_tree(tree, moment, before=b"", most=MOST_BYTES):
    """The bytes before, and a tree's text after them, at most this many, with optional items, and the first of a
    choice."""
    kind, inside = tree
    if kind in ("list", "first"):
        for item in inside[:1] if kind == "first" else inside:
            before = of_tree(item, moment, before, most)
        return before
    if kind == "optional":
        return of_tree(inside, moment, before, most)
    text = before + (inside if kind == "literal" else of_component(inside, moment).encode())
    if most is not None and len(text) > most:
        raise Unwritable("The text is too long.")
    return text


def of_3339(moment, digits):
    """With this many digits of a fraction, or up to the last that isn't 0."""
    date, time, offset = moment
    if not 0 <= date[0] <= 9999:
        raise no_component("year")
    if abs(offset) // 3600 > 23:
        raise no_component("offset_hour")
    if offset % 60:
        raise no_component("offset_second")
    fraction = of_fraction(time[3], significant(time[3]) if digits == "auto" else int(digits))
    sign, size = "-" if offset < 0 else "+", abs(offset)
    zone = f"{sign}{size // 3600:02}:{size // 60 % 60:02}" if offset else "Z"
    return (f"{date[0]:04}-{date[1]:02}-{date[2]:02}T{time[0]:02}:{time[1]:02}:{time[2]:02}"
            f"{'.' if fraction else ''}{fraction}{zone}")


def of_2822(moment):
    date, time, offset = moment
    if not 1900 <= date[0] <= 9999:
        raise no_component("year")
    if offset % 60:
        raise no_component("offset_second")
    sign, size = "-" if offset < 0 else "+", abs(offset)
    return (f"{SHORT_WEEKDAYS[like(date)[0].weekday()]}, {date[2]:02} {SHORT_MONTHS[date[1] - 1]} {date[0]:04} "
            f"{time[0]:02}:{time[1]:02}:{time[2]:02} {sign}{size // 3600:02}{size // 60 % 60:02}")


def of_form(form, digits, offset, moment, most=MOST_BYTES):
    """The bytes of a moment by a name or a tree, at an offset if one is given, and by a tree at most this many."""
    no_date = Unwritable("the time has no date at that offset")
    at = instant(moment)
    if offset is not None:
        moment = shown_at(at, offset)
        if not moment:
            raise no_date
    if not isinstance(form, str):
        return of_tree(form, moment, most=most)
    if form in UNITS:
        if not has_date(at):
            raise no_date
        return str(at // UNITS[form]).encode()
    if form == "rfc2822":
        return of_2822(moment).encode()
    return of_3339(moment, 9 if form == "iso8601" else digits).encode()
