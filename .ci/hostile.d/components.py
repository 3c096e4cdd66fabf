"""The components of descriptions: which texts they parse, and the values."""
from values import MONTHS, WEEKDAYS, Refused
from digits import named, padded, run, signed
from records import with_part

SHORT_MONTHS = [it[:3] for it in MONTHS]
SHORT_WEEKDAYS = [it[:3] for it in WEEKDAYS]

# The modifiers of each component, with the default value of each first.
PADDING = ("padding", ("zero", "space", "none"))
SIGN = ("sign", ("automatic", "mandatory"))
CASE_SENSITIVE = ("case_sensitive", ("true", "false"))
MODIFIERS = {
    "year": (PADDING, ("repr", ("full", "century", "last_two")), ("range", ("extended", "standard")),
             ("base", ("calendar", "iso_week")), SIGN),
    "month": (PADDING, ("repr", ("numerical", "long", "short")), CASE_SENSITIVE),
    "day": (PADDING,),
    "hour": (PADDING, ("repr", ("24", "12"))),
    "minute": (PADDING,),
    "second": (PADDING,),
    "subsecond": (("digits", ("1+", "1", "2", "3", "4", "5", "6", "7", "8", "9")),),
    "offset_hour": (PADDING, SIGN),
    "offset_minute": (PADDING,),
    "offset_second": (PADDING,),
    "weekday": (("repr", ("long", "short", "sunday", "monday")), ("one_indexed", ("true", "false")), CASE_SENSITIVE),
    "week_number": (PADDING, ("repr", ("iso", "sunday", "monday"))),
    "ordinal": (PADDING,),
    "period": (("case", ("upper", "lower")), CASE_SENSITIVE),
    "unix_timestamp": (("precision", ("second", "millisecond", "microsecond", "nanosecond")), SIGN),
    "ignore": (("count", ("1", "2", "3", "12")),),
    "end": (("trailing_input", ("prohibit", "discard")),),
}
# The names of components in errors, except for those that are equal to the names in descriptions.
NAMES = {"week_number": "week number", "offset_hour": "offset hour", "offset_minute": "offset minute",
         "offset_second": "offset second"}
PRECISIONS = {"second": (14, 10**9), "millisecond": (17, 10**6), "microsecond": (20, 10**3), "nanosecond": (23, 1)}


class Component:
    """A component and its modifiers."""

    def __init__(self, name, **given):
        self.name, self.given = name, given
        self.said = {key: values[0] for key, values in MODIFIERS[name]} | given
        self.called = NAMES.get(name, name)

    def __getattr__(self, key):
        return self.said.get(key)

    def is_padded(self):
        """Whether it is a number that may be padded."""
        return "padding" in self.said and not (self.name == "month" and self.repr != "numerical")

    def refused(self):
        return Refused("trailing") if self.name == "end" else Refused("component", self.called)


def plain(part, least, most, positive=False):
    """A reader of a padded number that is stored as a part unchanged."""
    def read(component, text, at):
        found = padded(text, at, least, most, component.padding)
        return None if found is None or positive and found[0] == 0 else ({part: found[0]}, found[1])
    return read


def year(component, text, at):
    kind = "iso_" if component.base == "iso_week" else ""
    if component.repr == "last_two":
        found = padded(text, at, 2, 2, component.padding)
        return found and ({f"{kind}last_two": found[0]}, found[1])
    sign, at = signed(text, at)
    if component.sign == "mandatory" and not sign:
        return None
    minus = -1 if sign == b"-" else 1
    if component.repr == "century":
        most = 4 if component.range == "extended" else 2
        found = padded(text, at, 2, most, component.padding) if sign else run(text, at, 1, 2)
        return found and ({f"{kind}century": minus * found[0], f"{kind}century_negative": minus < 0}, found[1])
    found = padded(text, at, 4, 6 if sign and component.range == "extended" else 4, component.padding)
    return found and ({f"{kind}year": minus * found[0]}, found[1])


def month(component, text, at):
    if component.repr == "numerical":
        return plain("month", 2, 2)(component, text, at)
    # A long name that starts with the letters of one month is not that of another.
    found = named(text, at, MONTHS if component.repr == "long" else SHORT_MONTHS, component.case_sensitive == "true")
    return found and ({"month": found[0] + 1}, found[1])


def weekday(component, text, at):
    if component.repr in ("long", "short"):
        names = WEEKDAYS if component.repr == "long" else SHORT_WEEKDAYS
        found = named(text, at, names, component.case_sensitive == "true")
        return found and ({"weekday": found[0]}, found[1])
    first = 1 if component.one_indexed == "true" else 0
    found = run(text, at, 1, 1)
    if not found or not 0 <= found[0] - first <= 6:
        return None
    days = found[0] - first
    return {"weekday": days if component.repr == "monday" else (days - 1) % 7}, found[1]


def week_number(component, text, at):
    return plain(f"{component.repr}_week", 2, 2)(component, text, at)


def hour(component, text, at):
    return plain(f"hour_{component.repr}", 2, 2)(component, text, at)


def period(component, text, at):
    names = ["AM", "PM"] if component.case == "upper" else ["am", "pm"]
    found = named(text, at, names, component.case_sensitive == "true")
    return found and ({"is_pm": found[0]}, found[1])


def subsecond(component, text, at):
    least, most = (1, 32) if component.digits == "1+" else (int(component.digits),) * 2
    found = run(text, at, least, most)
    return found and ({"subsecond": int(text[at:found[1]][:9].ljust(9, b"0"))}, found[1])


def offset_hour(component, text, at):
    sign, at = signed(text, at)
    found = padded(text, at, 2, 2, component.padding)
    if not found or component.sign == "mandatory" and not sign:
        return None
    minus = sign == b"-"
    return {"offset_hour": -found[0] if minus else found[0], "offset_negative": minus}, found[1]


def unix_timestamp(component, text, at):
    sign, at = signed(text, at)
    most, unit = PRECISIONS[component.precision]
    found = run(text, at, 1, most)
    if not found or component.sign == "mandatory" and not sign:
        return None
    return {"timestamp": (-1 if sign == b"-" else 1) * found[0] * unit}, found[1]


def ignore(component, text, at):
    end = at + int(component.count)
    return ({}, end) if end <= len(text) else None


def end(component, text, at):
    return ({}, len(text)) if component.trailing_input == "discard" or at == len(text) else None


READERS = {
    "year": year, "month": month, "day": plain("day", 2, 2, True), "hour": hour, "minute": plain("minute", 2, 2),
    "second": plain("second", 2, 2), "subsecond": subsecond, "offset_hour": offset_hour,
    "offset_minute": plain("offset_minute", 2, 2), "offset_second": plain("offset_second", 2, 2), "weekday": weekday,
    "week_number": week_number, "ordinal": plain("ordinal", 3, 3, True), "period": period,
    "unix_timestamp": unix_timestamp, "ignore": ignore, "end": end,
}


def read(component, text, at, record):
    """The end of a component's text, and the record with its value; or None."""
    found = READERS[component.name](component, text, at)
    if found is None:
        return None
    for part, value in found[0].items():
        record = {**record, part: value} if part.endswith("negative") else with_part(record, part, value)
        if record is None:
            return None
    return found[1], record
