"""Random options of `restamp`, and the job that they request."""
import descriptions
import stamping_formats as formats
import texts
import writing
from stamping import Job, Reason, Settings, in_turn, said
from values import show_offset

KEYS = [b"at ", b"[", b"@", b"Date: ", b"t=", b"\xc3\xa9", b"12", b"aa"]
PAIRS = [(b"[", b"]"), (b"<", b">"), (b"at ", b","), (b'"', b'"'), (b"aa", b"a"), (b"|", b"|")]
ZONES = [(0, ["-u"]), (None, ["-z", "keep"]), (0, ["--zone", "utc"]), (19_800, ["-z", "+05:30"]),
         (-18_000, ["-z", "-05:00"]), (93_540, ["--zone", "+25:59"]), (0, ["--utc"])]
OUTPUTS = [("times", "-o"), ("times", "--only"), ("rewritten", "--drop-refused")]
YEARS = [2021, 2020, 1999, 0, -44, 12_345, 999_999]


def random_place(rng):
    """A place and its options."""
    kind = rng.choice(["whole", "front", "after", "between", "anywhere", "field", "field"])
    if kind == "whole":
        return (kind,), []
    if kind == "front":
        return (kind,), [rng.choice(["-l", "--front"])]
    if kind == "anywhere":
        return (kind,), ["--anywhere"]
    if kind == "after":
        key = rng.choice(KEYS)
        return (kind, key), [rng.choice(["-a", "--after"]), key.decode()]
    if kind == "between":
        begin, end = rng.choice(PAIRS)
        return (kind, begin, end), [rng.choice(["-b", "--between"]), begin.decode(), end.decode()]
    return random_field(rng)


def random_field(rng):
    number = rng.choice([1, 2, 2, 3, 5])
    words = [rng.choice(["-k", "--field"]), rng.choice([str(number), f"+{number:02}"])]
    kind = rng.choice(["delimited", "csv", "blanks"])
    if kind == "blanks":
        return (kind, number), [*words, "--blanks"]
    delimiter = rng.choice([b",", b",", b";", b"\t", b" "])
    words += ["--csv"] if kind == "csv" else []
    if delimiter != b",":
        words += [rng.choice(["-d", "--delimiter"]), "\\t" if delimiter == b"\t" else delimiter.decode()]
    return (kind, number, delimiter), words


def random_readings(rng, has_year):
    """Formats whose texts have a moment, where a year may be given."""
    found = []
    for _ in range(rng.choice([1, 1, 1, 2, 3])):
        names = [it for it in formats.NAMED if it != "syslog" or has_year]
        is_named = rng.random() < 0.6
        found.append(formats.NAMED[rng.choice(names)] if is_named else formats.described(rng, has_year))
    return found


def random_form(rng):
    """A format to write by, as a name or a tree, and its options."""
    draw = rng.random()
    if draw < 0.2:
        return "rfc3339", []
    if draw < 0.65:
        name = rng.choice(["rfc3339", "rfc2822", "iso8601", *writing.UNITS])
        return name, [rng.choice(["-t", "--to"]), name]
    while True:
        syntax, text, tree = descriptions.random_description(rng, 120)
        if syntax != "v1":
            return tree, ["-t", text.decode()]


def add_years(rng, job, kind):
    """The option for times without a year, and whether it is rejected, since no format has such times."""
    if not kind:
        return [], False
    uses = any(formats.lacks_year(it) for it in job.readings)
    if not uses and rng.random() < 0.9:
        return [], False
    if kind == "year":
        job.parts["year"] = rng.choice(YEARS)
        return ["--year", str(job.parts["year"])], not uses
    # Before 29 February 1904 there was none for eight years.
    date, time, _ = texts.random_moment(rng, 1, 9998)
    job.latest = rng.choice([date, date, (1904, 2, 28)]), time, rng.choice([0, 0, 3600, -18_000])
    return ["--latest", writing.of_3339(job.latest, "auto")], not uses


def add_offset(rng, job):
    """The option for times without an offset, and whether it is rejected."""
    uses = any(formats.lacks_offset(it) for it in job.readings)
    if rng.random() > (0.2 if uses else 0.02):
        return [], False
    offset = rng.choice([0, 19_800, -18_000, -1800, 50_400])
    sign, size = -1 if offset < 0 else 1, abs(offset)
    job.parts |= {"offset_hour": sign * (size // 3600), "offset_minute": sign * (size // 60 % 60)}
    return ["--offset", show_offset(offset)[:6]], not uses


def bound_of(job, text):
    """The moment of a bound's text, by RFC 3339 or else by the formats; or None."""
    try:
        return said(formats.NAMED["rfc3339"], False, text, job.parts)[0]
    except Reason:
        try:
            return in_turn(job, False, text)[0]
        except Reason:
            return None


def add_bounds(rng, job):
    """Options for a range of moments, and whether one is rejected."""
    words, refused = [], False
    for name, letter in (("since", "-s"), ("until", "-e")):
        if rng.random() > 0.15:
            continue
        moment = *texts.random_moment(rng, 1, 9998)[:2], rng.choice([0, 0, 3600, -18_000])
        text = writing.of_3339(moment, "auto").encode()
        if rng.random() < 0.3:
            text = formats.text_by(rng, rng.choice(job.readings), moment)
        if b"\x00" in text or not texts.is_utf8(text):
            continue
        words += [rng.choice([letter, f"--{name}"]), text.decode()]
        setattr(job, name, bound_of(job, text))
        refused = refused or getattr(job, name) is None
    return words, refused


def random_settings(rng):
    settings, words = Settings(), []
    if rng.random() < 0.15:
        settings.output, word = rng.choice(OUTPUTS)
        words.append(word)
    if rng.random() < 0.15:
        settings.most = rng.choice([None, 0, 1, 2, 1000])
        words += ["-q"] if settings.most is None else ["--errors", str(settings.most)]
    if rng.random() < 0.1:
        settings.strict, settings.keeps_going = True, rng.random() < 0.5
        words += ["-x"] + ["--keep-going"] * settings.keeps_going
    if rng.random() < 0.15:
        settings.shows = rng.random() < 0.7
        words += ["--color", "always" if settings.shows else "never"]
    return settings, words


def random_job(rng):
    """A job, its settings and options, and whether they are rejected at the start."""
    place, words = random_place(rng)
    year = rng.choice(["", "", "", "year", "latest"])
    readings, refused = random_readings(rng, bool(year)), False
    if rng.random() < 0.03:
        readings, refused = [*readings, formats.speechless(rng, bool(year))], True
    for reading in readings:
        words += [rng.choice(["-f", "--from"]), reading.word]
    form, more = random_form(rng)
    job = Job(place, readings, form)
    words += more
    if rng.random() < 0.3:
        job.zone, more = rng.choice(ZONES)
        words += more
    if rng.random() < 0.2:
        job.digits = rng.choice(["auto", *"0369"])
        words += ["--digits", job.digits]
    for more, is_refused in (add_years(rng, job, year), add_offset(rng, job)):
        words, refused = words + more, refused or is_refused
    more, is_refused = add_bounds(rng, job)
    settings, others = random_settings(rng)
    return job, settings, words + more + others, refused or is_refused
