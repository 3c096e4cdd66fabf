"""Fuzz tests of the Python module: random texts, by its calls, as columns and as lists, and moments that it writes.

A worker process imports the module and makes the calls, so that a crash is detected.
"""
import datetime
import json
import os
import sys

import agreeing
import descriptions
import texts
import writing
from formats import ISO8601, RFC2822, RFC3339_STRICT, ByTree, outcome
from programs import Cases, run
from records import resolve
from reading_descriptions import steps
from values import Refused, instant

NUMBERS = {"rfc3339": 1, "rfc2822": 2, "iso8601": 3}
READERS = {"rfc3339": RFC3339_STRICT, "rfc2822": RFC2822, "iso8601": ISO8601}
CALLS = ["parse", "parse_date", "parse_time", "parse_parts", "unix_ns"]
NO_COUNT = -2**63
LARGEST_DESCRIPTION = 64
WORKER = """
import json, sys, pelzaune
for line in sys.stdin:
    call, given, form = json.loads(line)
    try:
        if call == "format_datetime":
            form = form if isinstance(form, int) else pelzaune.Description(bytes.fromhex(form))
            answer = pelzaune.format_datetime(__import__("datetime").datetime.fromisoformat(given), form)
        else:
            form = form if isinstance(form, int) else bytes.fromhex(form)
            if call == "parse_many":
                texts = [it if kind == "str" else bytes.fromhex(it) for kind, it in given[0]]
                answer = pelzaune.parse_many(iter(texts) if given[1] == "iter" else texts, form, given[2])
                answer = [it.tolist() for it in answer] if given[2] == "none" else answer.tolist()
            else:
                answer = getattr(pelzaune, call)(bytes.fromhex(given), form)
                answer = answer.tolist() if call == "column" else answer if call == "unix_ns" else repr(answer)
    except (pelzaune.ParseError, pelzaune.FormatError) as error:
        answer = [type(error).__name__, str(error), error.component, getattr(error, "text_index", None), getattr(error, "index", None)]
    print(json.dumps(answer), flush=True)
"""


class Told(Exception):
    """An error of the module that isn't the rejection of a text."""


def zone_of(offset):
    if abs(offset) >= 86_400:
        raise Told("offset hour is out of the range of datetime", "offset hour")
    return datetime.timezone(datetime.timedelta(seconds=offset)) if offset else datetime.timezone.utc


def python_date(date):
    if not 1 <= date[0] <= 9999:
        raise Told("year is out of the range 1 to 9999 of datetime", "year")
    return datetime.date(*date)


def python_time(time):
    return datetime.time(*time[:3], time[3] // 1000)


def combined(date, time, zone):
    return datetime.datetime.combine(python_date(date), python_time(time), zone)


def parse(form, text):
    try:
        date, time, offset = outcome(form, "datetime", text)
    except Refused as fault:
        if fault.kind != "missing":
            raise
        try:
            date, time = outcome(form, "plain", text)
        except Refused:
            raise fault from None
        return combined(date, time, None)
    zone = zone_of(offset)
    return combined(date, time, zone)


def parse_parts(form, text):
    at, record = form.read(text, {})
    if at < len(text):
        raise Refused("trailing")
    found = []
    for target in ("date", "time", "offset"):
        try:
            found.append(resolve(record, target))
        except Refused as fault:
            if fault.kind != "missing":
                raise
            found.append(None)
    if found == [None] * 3:
        raise Told("the text has no complete date, time or offset", None)
    date, time, offset = found
    return (None if date is None else python_date(date), None if time is None else python_time(time),
            None if offset is None else zone_of(offset))


def answer(call, form, text):
    """The expected result of a call, in the worker's form."""
    try:
        if call == "parse":
            return repr(parse(form, text))
        if call == "parse_parts":
            return repr(parse_parts(form, text))
        if call == "parse_date":
            return repr(python_date(outcome(form, "date", text)))
        if call == "parse_time":
            return repr(python_time(outcome(form, "time", text)))
        if call == "unix_ns":
            return instant(outcome(form, "datetime", text))
        if call == "within":
            return within(form, text)
        lines = text.split(b"\n")
        return [count(form, line.removesuffix(b"\r")) for line in (lines if lines[-1] else lines[:-1])]
    except Told as error:
        return ["ParseError", *error.args, None, None]
    except Refused as fault:
        place = form.place(text, {})
        return ["ParseError", fault.message(), fault.name, None, place and place[0]]


def within(form, text):
    """The nanoseconds of a text, if they fit 64 bits."""
    found = instant(outcome(form, "datetime", text))
    if not -2**63 <= found < 2**63:
        raise Told("the instant is out of range of 64 bits of nanoseconds", None)
    return found


def count(form, line):
    try:
        return within(form, line)
    except (Refused, Told):
        return NO_COUNT


def answer_many(form, many, errors):
    """The expected result of `parse_many`."""
    found = [answer("within", form, it) for it in many]
    refused = [at for at, it in enumerate(found) if isinstance(it, list)]
    if errors == "none":
        return [[NO_COUNT if at in refused else it for at, it in enumerate(found)], refused]
    if not refused:
        return found
    kind, said, name, _, place = found[refused[0]]
    return [kind, f"text {refused[0]}: {said}", name, refused[0], place]


def written(value, form):
    """The expected result of `format_datetime` by the name of a format or the tree of a description."""
    moment = ((value.year, value.month, value.day), (value.hour, value.minute, value.second, value.microsecond * 1000),
              int(value.utcoffset().total_seconds()))
    try:
        return writing.of_form(form, "auto", None, moment, None).decode()
    except writing.Unwritable as why:
        part = str(why).split()[1].replace("_", " ")
        return ["FormatError", f"the '{part}' component has no text in that format", part, None, None]


def random_form(rng):
    """A format, as a name or the bytes of a description, its reader, and a maker of texts."""
    name = rng.choice(list(NUMBERS))
    if rng.random() < 0.6:
        made = {"rfc3339": texts.rfc3339, "rfc2822": texts.rfc2822, "iso8601": texts.iso8601}[name]
        return NUMBERS[name], READERS[name], made
    while True:
        syntax, text, tree = descriptions.random_description(rng, LARGEST_DESCRIPTION)
        # One with a `%` is of strftime, and any other in brackets of version 2.
        if syntax == "strftime" and steps(tree) <= LARGEST_DESCRIPTION or syntax == "v2" and b"%" not in text:
            return text.hex(), ByTree(tree), lambda rng: texts.spelled(rng, tree, texts.random_moment(rng, -3, 10_002))


def ask(rng):
    """A call, as it is sent, and its expected result."""
    if rng.random() < 0.1:
        value, (sent, form, _) = agreeing.random_value(rng), random_form(rng)
        if rng.random() < 0.3:
            value = value.replace(year=rng.randint(1890, 1910), tzinfo=zone_of(rng.randint(-86_399, 86_399)))
        by = form.tree if isinstance(form, ByTree) else next(name for name, number in NUMBERS.items() if number == sent)
        try:
            return ["format_datetime", value.isoformat(), sent], written(value, by)
        except UnicodeDecodeError:  # a description may have any bytes
            return ask(rng)
    sent, form, made = random_form(rng)
    if rng.random() < 0.1:
        text = b"\n".join(texts.some_text(rng, made(rng)) for _ in range(rng.randint(0, 5))) + rng.choice([b"", b"\n"])
        return ["column", text.hex(), sent], answer("column", form, text)
    if rng.random() < 0.1:
        damaged = rng.random() < 0.5
        many = [texts.some_text(rng, made(rng)) if damaged else made(rng) for _ in range(rng.randint(0, 5))]
        errors = rng.choice(["raise", "none"])
        given = [[kind_of(rng, it) for it in many], rng.choice(["list", "iter"]), errors]
        return ["parse_many", given, sent], answer_many(form, many, errors)
    call, text = rng.choice(CALLS), texts.some_text(rng, made(rng))
    return [call, text.hex(), sent], answer(call, form, text)


def kind_of(rng, text):
    """Bytes, as they are sent, or as a str where they are UTF-8."""
    try:
        return ["str", text.decode()] if rng.random() < 0.7 else ["bytes", text.hex()]
    except UnicodeDecodeError:
        return ["bytes", text.hex()]


def snippet(sent):
    call, text, form = sent
    if call == "format_datetime":
        form = form if isinstance(form, int) else f"pelzaune.Description({bytes.fromhex(form)!r})"
        return f"pelzaune.format_datetime(datetime.datetime.fromisoformat({text!r}), {form})"
    form = form if isinstance(form, int) else bytes.fromhex(form)
    if call == "parse_many":
        many = [it if kind == "str" else bytes.fromhex(it) for kind, it in text[0]]
        return f"pelzaune.parse_many({many!r}, {form!r}, {text[2]!r})"
    return f"pelzaune.{call}({bytes.fromhex(text)!r}, {form!r})"


def calls(rng, tally, command, number=300):
    """A round of the Python module in that folder."""
    asked = [ask(rng) for _ in range(number)]
    if isinstance(tally, Cases):
        return
    out, log, status = run([sys.executable, "-c", WORKER], "".join(f"{json.dumps(it[0])}\n" for it in asked).encode(),
                           env={**os.environ, "PYTHONPATH": os.path.abspath(command[0])})
    got = [json.loads(it) for it in out.splitlines()]
    if status or len(got) != number:
        last = snippet(asked[min(len(got), number - 1)][0])
        tally.differ("python", f"{last}\n    ends with {status} and {log[-500:].decode(errors='replace')}")
    for (sent, wanted), found in zip(asked, got):
        if isinstance(wanted, list) and any in wanted and isinstance(found, list):
            wanted, found = wanted[:4], found[:4]
        tally.same("python", found, wanted, lambda sent=sent: snippet(sent))
