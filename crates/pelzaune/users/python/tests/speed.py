"""Prints tables of the nanoseconds of calls, the least of many rounds, beside those of the standard library and, if
installed, of ciso8601, udatetime, numpy and pandas (Debian: python3-ciso8601, python3-udatetime, python3-numpy,
python3-pandas)."""
import datetime
import email.utils
import importlib
import random
import time
import timeit

import pelzaune

RFC3339 = (
    "2021-01-02T03:04:05Z",
    "2021-01-02T03:04:05+05:30",
    "2021-01-02T03:04:05.123456-08:00",
    "2021-01-02T03:04:05.123456789-08:00",
)
ISO8601 = ("20210102T030405Z", "2020-W53-6T03:04:05Z", "2021-01-02T03:04:05", "20210102T030405")
RFC2822 = ("Sat, 02 Jan 2021 03:04:05 +0607", "Sat, 02 Jan 2021 03:04:05 GMT")
DESCRIBED = (("2021-01-02 03:04:05", "%Y-%m-%d %H:%M:%S"), ("02/Jan/2021:03:04:05 -0030", "%d/%b/%Y:%H:%M:%S %z"))
LINES = 100000
# Texts as strftime writes them, with hours of their offsets, and the format by which they are parsed.
LOG = "%d/%b/%Y:%H:%M:%S %z"
LISTS = (("`2021-01-02T03:04:05Z`", "%Y-%m-%dT%H:%M:%SZ", (0,), pelzaune.RFC3339),
         ("`2021-01-02T03:04:05.123456Z`", "%Y-%m-%dT%H:%M:%S.%fZ", (0,), pelzaune.RFC3339),
         ("`02/Jan/2021:03:04:05 +0000`", LOG, (0,), pelzaune.Description(LOG)),
         ("the same in ten zones", LOG, range(-5, 5), pelzaune.Description(LOG)))


def least(call, *given):
    """Nanoseconds per call, including the loop; None if the call rejects a text."""
    try:
        call(*given)
    except ValueError:
        return None
    return min(timeit.Timer(lambda: call(*given)).repeat(60, 2000)) / 2000 * 1e9


def a_line(call, repeat=12, lines=LINES):
    """Nanoseconds of processor time per line, of a call for all lines."""
    return min(timeit.repeat(call, number=1, repeat=repeat, timer=time.process_time)) / lines * 1e9


def in_turn(*calls):
    """Those of calls that are made in turn, so that each has a chance to run on an idle machine."""
    return [min(its) / LINES * 1e9 for its in zip(*([timeit.timeit(call, number=1, timer=time.process_time) for call in calls] for _ in range(60)))]


def row(*cells):
    print("|", " | ".join("" if it is None else f"{it:.0f}" if isinstance(it, float) else str(it) for it in cells), "|")


def head(*cells):
    print()
    row(*cells)
    row(*["---"] * len(cells))


def found(name, call):
    try:
        return [(name, getattr(importlib.import_module(name), call))]
    except ImportError:
        return []


def texts():
    others = [("fromisoformat", datetime.datetime.fromisoformat), *found("ciso8601", "parse_datetime"), *found("udatetime", "from_string"),
              ("email.utils", email.utils.parsedate_to_datetime)]
    head("Text", "`parse`", *(f"`{name}`" for name, _ in others))
    for form, rows in ((pelzaune.RFC3339, RFC3339), (pelzaune.ISO8601, ISO8601), (pelzaune.RFC2822, RFC2822)):
        for text in rows:
            mail = form == pelzaune.RFC2822
            row(f"`{text}`", least(pelzaune.parse, text, form), *(least(call, text) if mail == (name == "email.utils") else None for name, call in others))


def descriptions():
    head("Text", "Description", "`Description`", "its text", "`datetime.strptime`")
    for text, form in DESCRIBED:
        read = pelzaune.Description(form)
        row(f"`{text}`", f"`{form}`", least(pelzaune.parse, text, read), least(pelzaune.parse, text, form),
            least(datetime.datetime.strptime, text, form))


def columns():
    head("100000 lines of", "`column`", "numpy", "`fromisoformat`, `timestamp`", "`email.utils`, `timestamp`")
    for text in ("2021-01-02T03:04:05Z", "2021-01-02T03:04:05.123456Z"):
        lines, many, bare = (text + "\n").encode() * LINES, [text] * LINES, [text[:-1]] * LINES
        arrays = found("numpy", "array")
        row(f"`{text}`", a_line(lambda: pelzaune.column(lines)), a_line(lambda: arrays[0][1](bare, "datetime64[ns]")) if arrays else None,
            a_line(lambda: [datetime.datetime.fromisoformat(it).timestamp() for it in many]), None)
    text = RFC2822[0]
    lines, many = (text + "\n").encode() * LINES, [text] * LINES
    row(f"`{text}`", a_line(lambda: pelzaune.column(lines, pelzaune.RFC2822)), None, None,
        a_line(lambda: [email.utils.parsedate_to_datetime(it).timestamp() for it in many]))


def made(form, hours):
    """Texts of moments, few of them equal."""
    r, zones = random.Random(3339), [datetime.timezone(datetime.timedelta(hours=it)) for it in hours]
    return [(datetime.datetime(1970, 1, 1, tzinfo=r.choice(zones)) + datetime.timedelta(microseconds=r.randrange(2**52))).strftime(form)
            for _ in range(LINES)]


def of_texts(many, written, form):
    """Per text, of a list joined, of `column`, of the list and of a Series; and of a Series by pandas, for the RFC that it
    parses and by a format; each None without pandas."""
    lines = "\n".join(many)
    calls = [lambda: "\n".join(many), lambda: pelzaune.column(lines, form), lambda: pelzaune.parse_many(many, form)]
    if not found("pandas", "Series"):
        return in_turn(*calls) + [None] * 3
    ours, theirs = importlib.import_module("pelzaune.pandas"), importlib.import_module("pandas")
    texts, few = theirs.Series(many), theirs.Series(many[:LINES // 10])
    calls.append(lambda: ours.to_datetime(texts, form))
    if form == pelzaune.RFC3339:
        calls.append(lambda: theirs.to_datetime(texts, utc=True))
    taken = in_turn(*calls)
    by_format = a_line(lambda: theirs.to_datetime(few, format=written, utc=True), 20, len(few))
    return taken + [None] * (5 - len(taken)) + [by_format]


def lists():
    rows = [[name, *of_texts(made(written, hours), written, form)] for name, written, hours, form in LISTS]
    head("100000 texts as", "joined", "`column`", "`parse_many`", "`pelzaune.pandas`", "`pandas.to_datetime`", "with `format=`")
    for it in rows:
        row(*it)
    head("Ratios", "`parse_many` beside `column`", "`pandas.to_datetime` beside `pelzaune.pandas`", "the same with `format=`")
    for name, _, column, many, series, known, by_format in rows:
        row(name, f"{many / column:.2f}", known and known / series, by_format and by_format / series)


if __name__ == "__main__":
    texts()
    descriptions()
    columns()
    lists()
