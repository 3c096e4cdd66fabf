"""Fuzz tests of the extensions of SQLite and PostgreSQL: random texts by their functions, locations, and texts of
moments.

PostgreSQL runs on a server of its own, with a database whose texts may have any bytes but 0.
"""
import json
import os
import sys

import module
import writing
from formats import ByTree, outcome
from programs import Cases, run
from records import resolve
from values import BILLION, Refused, day_number, instant, nanoseconds_of

TOP = os.path.dirname(os.path.dirname(os.path.dirname(os.path.abspath(__file__))))
sys.path.insert(0, f"{TOP}/crates/pelzaune/users/postgres/tests")
import server  # noqa: E402

NAMES = {number: name for name, number in module.NUMBERS.items()}
# The start of PostgreSQL's timestamps and dates, and the first second after timestamps: 4714-11-24 BC and 294277.
FIRST_DAY, END_DAY = day_number((-4713, 11, 24)), day_number((294277, 1, 1))
SHOWN_MOST = 100


def random_form(rng):
    """The text of a format, its reader, and a maker of texts."""
    sent, form, made = module.random_form(rng)
    return NAMES[sent].encode() if isinstance(sent, int) else bytes.fromhex(sent), form, made


def escaped(byte):
    return chr(byte) if 32 <= byte < 127 else f"\\x{byte:02x}"


def place_of(form, text):
    """The index and the expectation of a location, or None."""
    place = form.place(text, {})
    if not place:
        return None
    at, wanted = place
    if isinstance(wanted, bytes):
        wanted = f"'{escaped(wanted[0])}'"
    return at, wanted or "the end"


def reason_of(form, text):
    """The error of a text without a moment or a part of one; or None."""
    try:
        outcome(form, "datetime", text)
        return None
    except Refused as fault:
        none = fault
    try:
        at, record = form.read(text, {})
    except Refused:
        return none
    if at < len(text):
        return none
    missing = 0
    for target in ("date", "time", "offset"):
        try:
            resolve(record, target)
        except Refused as fault:
            if fault.kind != "missing":
                return fault
            missing += 1
    return none if missing == 3 else None


def row_of(form, text):
    """The expected result of `pelzaune_place`."""
    reason = reason_of(form, text)
    if not reason:
        return None
    at, wanted = place_of(form, text) or (None, None)
    return {"index": at, "expectation": wanted, "reason": reason.message()}


def value(form, call, text):
    """The expected result of a function of PostgreSQL, as a number: microseconds or days since 1970, or since midnight,
    or nanoseconds."""
    if call == "unix_ns":
        return instant(outcome(form, "datetime", text))
    if call == "time":
        return nanoseconds_of(outcome(form, "time", text)) // 1000
    if call == "date":
        day = day_number(outcome(form, "date", text))
        if day < FIRST_DAY:
            raise module.Told("date out of range")
        return day
    if call == "timestamp":
        date, time = outcome(form, "plain", text)
        at = day_number(date) * 86_400 * BILLION + nanoseconds_of(time)
    else:
        at = instant(outcome(form, "datetime", text))
    if not FIRST_DAY <= at // (86_400 * BILLION) < END_DAY:
        raise module.Told("timestamp out of range")
    return at // 1000


def shown(text):
    return "".join(escaped(it) for it in text[:SHOWN_MOST]) + ("..." if len(text) > SHOWN_MOST else "")


def answer(form, call, text):
    """The expected result of a function of PostgreSQL, or its error."""
    if call == "place":
        return row_of(form, text)
    try:
        return str(value(form, call.removeprefix("try_"), text))
    except module.Told as error:
        told = f"22008|{error.args[0]}|"
    except Refused as fault:
        place = place_of(form, text)
        detail = f"Expected {place[1]} at index {place[0]} of" if place else "The text is"
        told = f"{'22008' if fault.kind == 'range' else '22007'}|{fault.message()}|{detail} \"{shown(text)}\"."
    return None if call.startswith("try_") else told


def ask_sqlite(rng):
    """A query, and its expected result."""
    written, form, made = random_form(rng)
    text = module.texts.some_text(rng, made(rng))
    call = rng.choice(["unix", "unix_ns", "rfc3339", "date", "time", "place"])
    question = f"pelzaune_{call}(CAST(x'{text.hex()}' AS TEXT), CAST(x'{written.hex()}' AS TEXT))"
    if call == "place":
        return question, row_of(form, text)
    try:
        return question, sqlite_value(form, call, text)
    except (Refused, module.Told, writing.Unwritable):
        return question, None


def sqlite_value(form, call, text):
    """The expected result of a function of SQLite for a text that it accepts."""
    if call == "unix_ns":
        return module.within(form, text)
    if call == "date":
        date = outcome(form, "date", text)
        return "{:04}-{:02}-{:02}".format(*date) if 0 <= date[0] <= 9999 else None
    if call == "time":
        *clock, nanosecond = outcome(form, "time", text)
        return "{:02}:{:02}:{:02}".format(*clock) + f".{nanosecond:09}".rstrip("0").rstrip(".")
    moment = outcome(form, "datetime", text)
    return instant(moment) // BILLION if call == "unix" else writing.of_3339(moment, "auto")


def sqlite(rng, tally, command, number=300):
    """A round of the extension of SQLite in that file."""
    asked = [ask_sqlite(rng) for _ in range(number)]
    if isinstance(tally, Cases):
        return
    lines = "".join(f"SELECT json_array({question if 'place' not in question else f'json({question})'});\n" for question, _ in asked)
    out, log, status = run(["sqlite3", "-cmd", f".load {os.path.splitext(os.path.abspath(command[0]))[0]}", ":memory:"], lines.encode())
    compare(tally, "sqlite", asked, [json.loads(it)[0] for it in out.decode().splitlines()], log, status)


def compare(tally, part, asked, got, log, status):
    if status or log or len(got) != len(asked):
        tally.differ(part, f"ends with {status} and {log[-500:].decode(errors='replace')}, after {len(got)} of {len(asked)} answers")
        return
    for (question, wanted), found in zip(asked, got):
        tally.same(part, found, wanted, lambda question=question: f"SELECT {question}")


def as_text(given):
    return f"convert_from('\\x{given.hex()}', 'SQL_ASCII')"


def timestamp_of(moment):
    date, time, _ = moment
    year = f"{date[0]:04}" if date[0] > 0 else f"{1 - date[0]:04}"
    return (f"{year}-{date[1]:02}-{date[2]:02} {time[0]:02}:{time[1]:02}:{time[2]:02}.{time[3] // 1000:06}+00"
            f"{'' if date[0] > 0 else ' BC'}")


def ask_text(rng):
    """A moment that is written at an offset of whole minutes."""
    name, form, _ = random_form(rng)
    (year, month, day), time, _ = module.texts.random_moment(rng, -4712, 294_275)
    moment = (year, month, day), (*time[:3], time[3] // 1000 * 1000), 0
    offset = rng.choice([0, rng.randint(-1439, 1439) * 60])
    sign = "-" if offset < 0 else "+"
    zone = f"{sign}{abs(offset) // 3600:02}:{abs(offset) // 60 % 60:02}" if offset else rng.choice(["Z", "+00:00", "-00:00"])
    question = f"encode(convert_to(pelzaune_text('{timestamp_of(moment)}', {as_text(name)}, '{zone}'), 'SQL_ASCII'), 'hex')"
    tree = form.tree if isinstance(form, ByTree) else name.decode()
    try:
        return question, writing.of_form(tree, "auto", offset, moment, None).hex()
    except writing.Unwritable as why:
        part = str(why).split()[1].replace("_", " ")
        return question, f"22008|the '{part}' component has no text in that format|"


def ask_postgres(rng):
    if rng.random() < 0.2:
        return ask_text(rng)
    written, form, made = random_form(rng)
    text = module.texts.some_text(rng, made(rng)).replace(b"\0", b"\1")
    call = rng.choice(["timestamptz", "timestamp", "date", "time", "unix_ns", "place"])
    if call != "place" and rng.random() < 0.2:
        call = f"try_{call}"
    question = f"pelzaune_{call}({as_text(text)}, {as_text(written)})"
    kind = call.removeprefix("try_")
    if kind == "date":
        question += " - date '1970-01-01'"
    elif kind in ("timestamptz", "timestamp", "time"):
        question = f"(extract(epoch FROM {question}) * 1000000)::numeric(30)"
    elif kind == "place":
        question = f"row_to_json({question})"
    return question, answer(form, call, text)


TOLD = """
CREATE FUNCTION told(query text) RETURNS text LANGUAGE plpgsql AS $$
DECLARE
    answer text;
    state text;
    message text;
    detail text;
BEGIN
    EXECUTE 'SELECT ' || query INTO answer;
    RETURN to_json(answer)::text;
EXCEPTION WHEN OTHERS THEN
    GET STACKED DIAGNOSTICS state = RETURNED_SQLSTATE, message = MESSAGE_TEXT, detail = PG_EXCEPTION_DETAIL;
    RETURN to_json(state || '|' || message || '|' || detail)::text;
END $$;
"""
servers = {}


def needs_of_postgres():
    """The tools that build the extension and run a server."""
    try:
        programs, headers = server.folder_of("bindir"), server.folder_of("includedir-server")
    except OSError:
        return {"pg_config": False}
    return {"initdb": os.path.exists(f"{programs}/initdb"), "postgres.h": os.path.exists(f"{headers}/postgres.h")}


def server_of(built):
    """The server for the extension in that folder. It ends with this process."""
    if built not in servers:
        servers[built] = server.Server(built)
        servers[built].__enter__()
        servers[built].ask("CREATE DATABASE bytes ENCODING 'SQL_ASCII' TEMPLATE template0")
        servers[built].ask(f"CREATE EXTENSION pelzaune; {TOLD}", "bytes")
    return servers[built]


def as_answered(line):
    """A result of `told`: an object or another text, or None."""
    answered = json.loads(line) if line else None
    return json.loads(answered) if answered and answered.startswith("{") else answered


def postgres(rng, tally, command, number=300):
    """A round of the extension of PostgreSQL in that folder."""
    asked = [ask_postgres(rng) for _ in range(number)]
    if isinstance(tally, Cases):
        return
    lines = "".join(f"SELECT told($told${question}$told$);\n" for question, _ in asked)
    done = server_of(command[0]).psql(lines, "bytes", encoding="SQL_ASCII")
    got = [as_answered(it) for it in done.stdout.decode().split("\n")[:-1]]
    compare(tally, "postgres", asked, got, done.stderr, done.returncode)
