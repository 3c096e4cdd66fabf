"""Fuzz tests of `restamp`: random log lines by random options."""
import os
import tempfile

import stamping_formats as formats
import texts
from programs import Cases, piped, quoted, run
from stamping import FRONT, LIMIT, Expected
from stamping_options import random_job

WORDS = [b"x", b" ", b"at ", b"job 7", b"[", b"]", b",", b";", b'"', b"12", b"a1", b"GET /", b"\t", b"\xc3\xa9",
         b"\x00", b"-", b"(CET)"]
TAILS = [b"", b" host", b", x", b"x", b"1", b" (CET) /", b"/", b" ", b"]"]
NAMES = ["a.log", "\u00e9 b.log", "c", "\x1b[31m.log", "d\t\x7f"]


def junk(rng, most=3):
    return b"".join(rng.choice(WORDS) for _ in range(rng.randint(0, most)))


def line_at(rng, place, text):
    """A line with a text about at a place."""
    kind, tail = place[0], rng.choice(TAILS)
    if kind == "whole":
        return text
    if kind == "front":
        return text + tail
    if kind == "after":
        return junk(rng) + place[1] + text + tail
    if kind == "between":
        return junk(rng, 1) + place[1] + text + place[2] + junk(rng)
    if kind == "anywhere":
        return junk(rng) + text + rng.choice([tail, junk(rng)])
    return line_of_fields(rng, kind, place, text)


def line_of_fields(rng, kind, place, text):
    separator = rng.choice([b" ", b"  ", b"\t", b" \t "]) if kind == "blanks" else place[2]
    others = [b"a", b"", b"1", b'"q"', b'"a' + separator + b'b"', b'"a""b"', b'"a""' + separator + b'"', b'""', b'"']
    fields = [rng.choice(others) for _ in range(rng.randint(1, 5))]
    if kind == "csv" and rng.random() < 0.5:
        text = b'"' + text + b'"' + rng.choice([b"", b"", b"", b"x"])
    fields.insert(rng.choice([place[1] - 1] * 5 + [0]), text)
    return rng.choice([b"", b" "]) * (kind == "blanks") + separator.join(fields)


def random_lines(rng, job, count):
    lines, end = [], rng.choice([b"\n", b"\n", b"\r\n"])
    for _ in range(count):
        moment = texts.random_moment(rng)
        if job.latest and rng.random() < 0.5:
            moment = texts.random_moment(rng, job.latest[0][0] - 8, job.latest[0][0] + 1)
        if job.latest and rng.random() < 0.1:
            moment = (2000, 2, 29), *moment[1:]
        if rng.random() < 0.1:
            moment = job.since or job.until or moment
        text = formats.text_by(rng, rng.choice(job.readings), moment)
        text = texts.damaged(rng, text) if rng.random() < 0.35 else text
        line = line_at(rng, job.place, text) if rng.random() < 0.95 else junk(rng, 6)
        line = texts.damaged(rng, line) if rng.random() < 0.05 else line
        lines.append(texts.clean(line) + rng.choice([end, end, end, b"\r\n"]))
    if lines and rng.random() < 0.3:
        lines[-1] = lines[-1][:-1]
    return lines


def lengthened(rng, job, lines):
    """The lines repeated to more than one read, or one with more bytes than are read of a line."""
    if rng.random() < 0.5:
        return lines[:-1] * rng.randint(50, 150) + lines[-1:]
    at = rng.randrange(len(lines))
    line = lines[at].rstrip(b"\r\n")
    fate = job.judge(line)
    if job.place[0] == "after" and fate[0] == "rewritten" and rng.random() < 0.5:
        # The time ends where one is allowed to, or where the read part of the line ends, or continues.
        far = rng.choice([LIMIT, FRONT]) + rng.choice([-3, -1, 0, 1, 5])
        line = b"\x01" * (far - fate[2]) + line + b" x"
    else:
        line += b" " + rng.choice([b"x", b"y, "]) * LIMIT
    return [*lines[:at], line + b"\n", *lines[at:]]


def expectation(job, settings, given, name="-"):
    expected = Expected(job, settings)
    expected.file(name, given)
    return expected


def differs(command, words, job, settings, given):
    """The difference of a run from the expected one, or None."""
    expected = expectation(job, settings, given)
    out, log, status = run([*command, *words], given)
    return expected.difference(out, log, status)


def one(rng, tally, command, count=30):
    job, settings, words, refused = random_job(rng)
    lines = random_lines(rng, job, count)
    if rng.random() < 0.05 and job.place[0] in ("front", "after") and len(lines[-1]) < 2000:
        lines = lengthened(rng, job, lines)
    given = b"".join(lines)
    if isinstance(tally, Cases):
        tally.write([*command, *words], given, b"" if refused else b"".join(expectation(job, settings, given).out))
    elif refused:
        out, _, status = run([*command, *words], given)
        tally.same("restamp", (out, status), (b"", 2), lambda: piped([*command, *words], lines[0]))
    else:
        found = differs(command, words, job, settings, given)
        if not found:
            tally.passed += len(lines)
            return
        # If one line alone differs, that is reported.
        alone = ((it, differs(command, words, job, settings, it)) for it in dict.fromkeys(lines))
        given, found = next((it for it in alone if it[1]), (given, found))
        tally.differ("restamp", f"{piped([*command, *words], given)}\n    {found}")


def files(rng, tally, command):
    """Several files, whose names may have unprintable bytes."""
    job, settings, words, refused = random_job(rng)
    names = rng.sample(NAMES, rng.randint(1, 3))
    data = {name: b"".join(random_lines(rng, job, rng.randint(0, 12))) for name in names}
    if refused or isinstance(tally, Cases):
        return
    expected = Expected(job, settings)
    for name in names:
        expected.file("".join(f"\\x{ord(it):02x}" if ord(it) < 32 or ord(it) == 127 else it for it in name), data[name])
    command = [os.path.abspath(it) if os.path.exists(it) else it for it in command] + [*words, "--", *names]
    with tempfile.TemporaryDirectory() as folder:
        for name in names:
            with open(os.path.join(folder, name), "wb") as file:
                file.write(data[name])
        found = expected.difference(*run(command, b"", folder))
    if found:
        made = [f"{piped(['cat'], data[it])} > {quoted(it.encode())}" for it in names]
        asked = " ".join(quoted(it.encode()) for it in command)
        tally.differ("restamp", "; ".join([*made, asked]) + f"\n    {found}")
    else:
        tally.passed += 1


def programs(rng, tally, command):
    """A round of `restamp`."""
    for _ in range(15):
        one(rng, tally, command)
    files(rng, tally, command)
