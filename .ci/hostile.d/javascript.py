"""Fuzz tests of the JavaScript package: random texts by its calls, as strings and as bytes, lines and lists, locations,
and moments that it writes.

A worker process imports the package into Node and makes the calls, so that a crash is detected.
"""
import json
import os

import engines
import module
import texts
import writing
from formats import outcome
from programs import Cases, run
from records import resolve
from values import Refused, instant

CALLS = ["parse", "parsePlain", "parseDate", "parseTime", "parseParts", "locate"]
COUNTS = ["parseMany", "parseMilliseconds"]
WORKER = """
const { createInterface } = await import('node:readline');
const p = await import(process.argv[1]);
const textOf = ([kind, text]) => (kind === 'str' ? text : Uint8Array.from(Buffer.from(text, 'hex')));
const shown = (it) => it && [it.year, it.month, it.day, it.hour, it.minute, it.second, it.millisecond, it.microsecond, it.nanosecond,
  it.offsetSeconds].filter((member) => member !== undefined);
// A Number has all digits of a safe integer only.
const milliseconds = (it) => (Number.isNaN(it) ? 'NaN' : Number.isSafeInteger(it) ? String(it) : 'many');
const answers = {
  parse: (text, form) => { const it = p.parse(text, form); return [...shown(it), String(it.epochNanoseconds), milliseconds(it.epochMilliseconds)]; },
  parseParts: (text, form) => { const it = p.parseParts(text, form); return [shown(it.date), shown(it.time), it.offsetSeconds]; },
  locate: (text, form) => { const it = p.locate(text, form); return it && [it.index, it.expected]; },
};
const many = ([kind, it]) => (kind === 'lines' ? textOf(['bytes', it]) : kind === 'list' ? it.map(textOf) : it.map(textOf).values());
const callOf = (call, given, form) => {
  if (call === 'parseMany') { const { epochNanoseconds, rejected } = p.parseMany(many(given), form); return [Array.from(epochNanoseconds, String), rejected]; }
  if (call === 'parseMilliseconds') { const { epochMilliseconds, rejected } = p.parseMilliseconds(many(given), form); return [Array.from(epochMilliseconds, milliseconds), rejected]; }
  if (call === 'format') return p.format(given, form);
  return call in answers ? answers[call](textOf(given), form) : shown(p[call](textOf(given), form));
};
for await (const line of createInterface({ input: process.stdin })) {
  const [call, given, [kind, form]] = JSON.parse(line);
  let answer;
  try {
    answer = callOf(call, given, kind === 'name' ? form : p.description(form));
  } catch (error) {
    if (!(error instanceof p.ParseError || error instanceof p.FormatError)) throw error;
    answer = [error.name, error.message, error.component, error.index ?? null, error.expected ?? null];
  }
  console.log(JSON.stringify(answer));
}
"""


def time_members(time):
    return [*time[:3], time[3] // 1_000_000, time[3] // 1000 % 1000, time[3] % 1000]


def milliseconds(nanoseconds):
    """The milliseconds as the worker prints them."""
    found = nanoseconds // 1_000_000
    return str(found) if abs(found) < 2**53 else "many"


def index_of(text, at, kind):
    """The index in UTF-16 of the character with that byte, or in bytes."""
    return at if kind == "bytes" else len(text[:at].decode(errors="ignore").encode("utf-16-le")) // 2


def place_of(form, text, kind):
    at, wanted = engines.place_of(form, text) or (None, None)
    return [None, None] if at is None else [index_of(text, at, kind), wanted]


def parse_parts(form, text):
    at, record = form.read(text, {})
    if at < len(text):
        raise Refused("trailing")
    found = []
    for target, shown in (("date", list), ("time", time_members), ("offset", int)):
        try:
            found.append(shown(resolve(record, target)))
        except Refused as fault:
            if fault.kind != "missing":
                raise
            found.append(None)
    if found == [None] * 3:
        raise module.Told("the text has no complete date, time or offset", None)
    return found


def value(call, form, text):
    """The expected result of a call."""
    if call == "parse":
        date, time, offset = moment = outcome(form, "datetime", text)
        found = instant(moment)
        return [*date, *time_members(time), offset, str(found), milliseconds(found)]
    if call == "parsePlain":
        date, time = outcome(form, "plain", text)
        return [*date, *time_members(time)]
    if call == "parseDate":
        return list(outcome(form, "date", text))
    if call == "parseTime":
        return time_members(outcome(form, "time", text))
    return parse_parts(form, text)


def answer(call, form, text, kind):
    """The expected result of a call, or its error."""
    place = place_of(form, text, kind)
    if call == "locate":
        return None if place[0] is None else place
    try:
        return value(call, form, text)
    except module.Told as error:
        return ["ParseError", *error.args, None, None]
    except Refused as fault:
        return ["ParseError", fault.message(), fault.name, *place]


def count(call, form, text):
    """The number of a text among many, as text, or None if it is rejected."""
    try:
        found = instant(outcome(form, "datetime", text))
    except Refused:
        return None
    if call == "parseMilliseconds":
        return milliseconds(found)
    return str(found) if -2**63 <= found < 2**63 else None


def answer_many(call, form, many):
    """The expected result of `parseMany` or of `parseMilliseconds`."""
    found = [count(call, form, it) for it in many]
    without = "NaN" if call == "parseMilliseconds" else str(module.NO_COUNT)
    return [[without if it is None else it for it in found], [at for at, it in enumerate(found) if it is None]]


def cased(rng, name):
    """The name of a format in capitals, in small letters, or in both."""
    return rng.choice([str.lower, str.upper, str.capitalize])(name)


def lines_of(text):
    """The lines of bytes without LF, which may be missing at the end, and without CR at their ends."""
    *ended, rest = text.split(b"\n")
    return [it.removesuffix(b"\r") for it in [*ended, *([rest] if rest else [])]]


def random_form(rng):
    """A format as it is sent, its reader, and a maker of texts. A description is a string here, so it has to be UTF-8."""
    while True:
        sent, form, made = module.random_form(rng)
        if isinstance(sent, int):
            return ["name", cased(rng, engines.NAMES[sent])], form, made
        try:
            return ["description", bytes.fromhex(sent).decode()], form, made
        except UnicodeDecodeError:
            continue


def ask_written(rng):
    """A moment to write, as it is sent, and the expected text or error."""
    value, (form, reader, _) = module.agreeing.random_value(rng), random_form(rng)
    if rng.random() < 0.3:
        value = value.replace(year=rng.randint(1890, 1910), tzinfo=module.zone_of(rng.randint(-86_399, 86_399)))
    offset = int(value.utcoffset().total_seconds())
    sent = {"year": value.year, "month": value.month, "day": value.day, "hour": value.hour, "minute": value.minute, "second": value.second,
            "millisecond": value.microsecond // 1000, "microsecond": value.microsecond % 1000, "offsetSeconds": offset}
    wanted = module.written(value, reader.tree if isinstance(reader, module.ByTree) else form[1].lower())
    return ["format", sent, form], [*wanted[:3], None, None] if isinstance(wanted, list) else wanted


def ask_many(rng, sent, form, made):
    """A call with many texts, as it is sent, and its expected result."""
    call, kind, damaged = rng.choice(COUNTS), rng.choice(["lines", "list", "iterator"]), rng.random() < 0.5
    many = [texts.some_text(rng, made(rng)) if damaged else made(rng) for _ in range(rng.randint(0, 5))]
    if kind == "lines":
        text = rng.choice([b"\n", b"\r\n"]).join(many) + rng.choice([b"", b"\n", b"\r\n"])
        return [call, [kind, text.hex()], sent], answer_many(call, form, lines_of(text))
    return [call, [kind, [module.kind_of(rng, it) for it in many]], sent], answer_many(call, form, many)


def ask(rng):
    """A call, as it is sent, and its expected result."""
    if rng.random() < 0.1:
        return ask_written(rng)
    sent, form, made = random_form(rng)
    if rng.random() < 0.2:
        return ask_many(rng, sent, form, made)
    call, text = rng.choice(CALLS), texts.some_text(rng, made(rng))
    given = module.kind_of(rng, text)
    return [call, given, sent], answer(call, form, text, given[0])


def calls(rng, tally, command, number=300):
    """A round of the package in that folder."""
    asked = [ask(rng) for _ in range(number)]
    if isinstance(tally, Cases):
        return
    lines = "".join(f"{json.dumps(it[0])}\n" for it in asked).encode()
    out, log, status = run(["node", "--input-type=module", "-e", WORKER, f"{os.path.abspath(command[0])}/index.js"], lines)
    got = [json.loads(it) for it in out.splitlines()]
    if status or len(got) != len(asked):
        last = asked[min(len(got), len(asked) - 1)][0]
        tally.differ("javascript", f"{json.dumps(last)}\n    ends with {status} and {log[-500:].decode(errors='replace')}")
    for (sent, wanted), found in zip(asked, got):
        tally.same("javascript", found, wanted, lambda sent=sent: json.dumps(sent))
