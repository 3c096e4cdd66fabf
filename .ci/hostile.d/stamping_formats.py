"""Formats of `restamp`, random texts by them, and the parts that they miss for a moment."""
import descriptions
import texts
import writing
from formats import FORMATS, RFC3339_STRICT, ByTree, part, several
from records import has
from stamping import YEAR_PARTS, Reading

CLOCK = part("hour"), ":", part("minute"), ":", part("second")
COMMON = several(part("day"), "/", part("month", repr="short"), "/", part("year"), ":", *CLOCK, " ",
                 part("offset_hour", sign="mandatory"), part("offset_minute"))
SYSLOG = several(part("month", repr="short"), " ", part("day", padding="space"), " ", *CLOCK)
UNIX = several(part("unix_timestamp"), ("optional", several(".", part("subsecond"))))
TREES = {"common": COMMON, "syslog": SYSLOG, "unix": UNIX,
         **{f"unix-{it[0]}s": part("unix_timestamp", precision=it[1])
            for it in (("m", "millisecond"), ("u", "microsecond"), ("n", "nanosecond"))}}
NAMED = {"rfc3339": Reading("rfc3339", RFC3339_STRICT),
         **{name: Reading(name, FORMATS[name]) for name in ("rfc2822", "iso8601")},
         **{name: Reading(name, ByTree(tree), name == "unix") for name, tree in TREES.items()}}
MADE = {"rfc3339": texts.rfc3339, "rfc2822": texts.rfc2822, "iso8601": texts.iso8601}


def parts_of(tree):
    """The parts of the components that every text of a tree has."""
    kind, inside = tree
    if kind == "list":
        return {it for item in inside for it in parts_of(item)}
    if kind == "first" and inside:
        return set.intersection(*map(parts_of, inside))
    if kind != "component":
        return set()
    said, name = inside.said, inside.name
    iso = "iso_" if said.get("base") == "iso_week" else ""
    return {{"year": iso + {"full": "year", "century": "century", "last_two": "last_two"}.get(said.get("repr"), ""),
             "hour": f"hour_{said.get('repr')}", "week_number": f"{said.get('repr')}_week", "period": "is_pm",
             "unix_timestamp": "timestamp"}.get(name, name)}


def always_says(tree, wanted):
    """Whether each text of a tree has one of some parts."""
    kind, inside = tree
    if kind == "list":
        return any(always_says(it, wanted) for it in inside)
    if kind == "first":
        return bool(inside) and all(always_says(it, wanted) for it in inside)
    return kind == "component" and bool(parts_of(tree) & wanted)


def lacks_year(reading):
    """Whether a format has texts without a year, which need a default. A date of ISO 8601 has its year."""
    return isinstance(reading.form, ByTree) and not always_says(reading.form.tree, {*YEAR_PARTS, "timestamp"})


def lacks_offset(reading):
    """Whether a format has texts without an offset, which need a default."""
    if isinstance(reading.form, ByTree):
        return not always_says(reading.form.tree, {"offset_hour", "timestamp"})
    return reading.word == "iso8601"


def mentioned(tree):
    """The parts of all components of a tree."""
    kind, inside = tree
    if kind in ("list", "first"):
        return {it for item in inside for it in mentioned(item)}
    return mentioned(inside) if kind == "optional" else parts_of(tree)


def have_date_and_hour(parts):
    """Whether parts have a day with its year, and an hour of it."""
    year, iso = (f"{it}year" in parts or {f"{it}century", f"{it}last_two"} <= parts for it in ("", "iso_"))
    week = "weekday" in parts and parts & {"sunday_week", "monday_week"}
    day = "ordinal" in parts or {"month", "day"} <= parts or week
    hour = "hour_24" in parts or {"hour_12", "is_pm"} <= parts
    return bool((year and day or iso and has(parts, "iso_week", "weekday")) and hour)


def says_moment(tree, has_year):
    """Whether each text of a tree has a moment, where a year may be given, and a missing offset always is."""
    parts = parts_of(tree)
    if "timestamp" in parts:
        return True
    if has_year and not parts & set(YEAR_PARTS):
        parts.add("year")
    clock = [it in parts for it in ("minute", "second", "subsecond")]
    return have_date_and_hour(parts) and clock == sorted(clock, reverse=True)


def lacks_part(tree, has_year):
    """Whether a tree has no component for a part that a moment needs, where a year may be given."""
    parts = mentioned(tree)
    if has_year and not always_says(tree, set(YEAR_PARTS)):
        parts.add("year")
    return "timestamp" not in parts and not have_date_and_hour(parts)


def described(rng, has_year):
    """A description whose texts all have a moment, which has few steps and isn't a name."""
    while True:
        syntax, text, tree = descriptions.random_description(rng, says_all=True)
        if syntax != "v1" and says_moment(tree, has_year):
            return Reading(text.decode(), ByTree(tree))


def speechless(rng, has_year):
    """A description whose texts have no moment, since a component is missing, where a year may be given."""
    while True:
        syntax, text, tree = descriptions.random_description(rng)
        if syntax != "v1" and lacks_part(tree, has_year):
            return Reading(text.decode(), ByTree(tree))


def text_by(rng, reading, moment):
    """A text of a format, at the moment where that is simple."""
    name = reading.word
    if name in MADE:
        if rng.random() < 0.5:
            return MADE[name](rng)
        try:
            return (writing.of_2822(moment) if name == "rfc2822" else writing.of_3339(moment, "auto")).encode()
        except writing.Unwritable:
            return MADE[name](rng)
    if name == "unix" and rng.random() < 0.3:
        return f"{rng.randint(-10**6, 2 * 10**9)}{texts.fraction(rng)}".encode()
    return texts.spelled(rng, reading.form.tree, moment)
