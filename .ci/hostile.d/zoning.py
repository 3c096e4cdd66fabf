"""Fuzz tests of `restamp` in the time zones of the system, compared with Python's `zoneinfo`.

Each zone is tested at, one second before and one second after each transition of its file, and at random moments, also
after the last transition, where the rule of the file applies. So are its nonexistent and ambiguous local times there,
by each `--fold`, and times of RFC 9557 with its name.
"""
import datetime
import struct
import zoneinfo

from programs import Cases, answers

SHOWN = "[year]-[month]-[day]T[hour]:[minute]:[second][offset_hour sign:mandatory]:[offset_minute]:[offset_second]"
READ = "[year]-[month]-[day]T[hour]:[minute]:[second]"
EPOCH = datetime.datetime(1970, 1, 1, tzinfo=datetime.timezone.utc)
SECOND = datetime.timedelta(seconds=1)
MOST = 150  # zones in a round
left = []


def next_zones(count):
    """The next zones in turn: after some rounds each was tested, and they start again."""
    names = sorted(it for it in zoneinfo.available_timezones() if it != "localtime")
    taken = []
    while names and len(taken) < min(count, len(names)):
        if not left:
            left.extend(names)
        taken.append(left.pop())
    return taken


def file_of(name):
    for folder in zoneinfo.TZPATH:
        try:
            with open(f"{folder}/{name}", "rb") as file:
                return file.read()
        except OSError:
            continue
    return b""


def transitions(name):
    """The seconds of the transitions of a zone's file: those of its second block, if it has one (RFC 9636)."""
    data, at, width = file_of(name), 0, 4
    if data[:4] != b"TZif":
        return []
    counts = struct.unpack(">6L", data[20:44])
    if data[4:5] >= b"2":
        utc, std, leaps, times, types, letters = counts
        at, width = 44 + times * 5 + types * 6 + letters + leaps * 8 + std + utc, 8
        counts = struct.unpack(">6L", data[at + 20:at + 44])
    times = counts[3]
    return [int.from_bytes(data[at + 44 + i * width:at + 44 + (i + 1) * width], "big", signed=True) for i in range(times)]


def shown(moment):
    seconds = int(moment.utcoffset().total_seconds())
    sign, size = "-" if seconds < 0 else "+", abs(seconds)
    clock = moment.replace(tzinfo=None, microsecond=0).isoformat()
    return f"{clock}{sign}{size // 3600:02}:{size // 60 % 60:02}:{size % 60:02}"


def moments(rng, name):
    for second in transitions(name):
        yield from (second - 1, second, second + 1)
    for _ in range(30):
        yield rng.randint(-5_000_000_000, 20_000_000_000)
    yield 20_000_000_000  # the last line is no short one, since `answers` would send that without its LF


def in_zone(rng, tally, command, name):
    zone, lines, wanted = zoneinfo.ZoneInfo(name), [], []
    for second in moments(rng, name):
        try:
            moment = (EPOCH + second * SECOND).astimezone(zone)
        except OverflowError:
            continue
        lines.append(b"%d" % second)
        wanted.append(shown(moment))
    answers(tally, "zones", [*command, "-f", "unix", "-z", name, "-t", SHOWN], lines, wanted)


def clocks(rng, zone, name):
    """Dates and times around each transition, also as far from it as offsets reach, and random ones."""
    for second in [*transitions(name), *(rng.randint(-5_000_000_000, 20_000_000_000) for _ in range(30))]:
        for at in (second - 1, second):
            try:
                clock = (EPOCH + at * SECOND).astimezone(zone).replace(tzinfo=None, fold=0)
                for hours in (-1, 0, 1, rng.randint(-27, 27)):
                    yield clock + (hours * 3600 + rng.choice([0, rng.randint(-1800, 1800)])) * SECOND
            except OverflowError:
                continue


def meant(clock, zone, fold):
    """The moment of a local time, or `None`. A nonexistent one is the local time of neither of its offsets."""
    earlier, later = (clock.replace(tzinfo=zone, fold=it) for it in (0, 1))
    if earlier.utcoffset() == later.utcoffset():
        return earlier
    if earlier.utcoffset() < later.utcoffset() or fold == "refuse":
        return None
    return earlier if fold == "earlier" else later


def on_clocks(rng, tally, command, name):
    zone = zoneinfo.ZoneInfo(name)
    for fold in ("earlier", "later", "refuse"):
        lines, wanted = [], []
        for clock in clocks(rng, zone, name):
            moment = meant(clock, zone, fold)
            text = clock.isoformat()
            if clock.year < 1000:
                continue
            lines.append(text.encode())
            wanted.append(shown(moment) if moment else text)
        lines.append(b"2021-01-01T00:00:00 is a line that is refused as a whole, and no short one")
        wanted.append(lines[-1].decode())
        form = rng.choice([READ, "iso8601"])
        answers(tally, "zones", [*command, "-f", form, "--in", name, "--fold", fold, "-t", SHOWN, "-q"], lines, wanted)


def offset_text(seconds):
    """An offset of whole minutes by RFC 3339."""
    size = abs(seconds)
    return "Z" if not seconds else f"{'-' if seconds < 0 else '+'}{size // 3600:02}:{size // 60 % 60:02}"


def is_ahead(name, second, offset):
    """Whether the zone is this many seconds ahead of UTC at the second."""
    return (EPOCH + second * SECOND).astimezone(zoneinfo.ZoneInfo(name)).utcoffset() == offset * SECOND


def with_suffix(rng, second, moment, name):
    """A text of RFC 9557, and its replacement by a number of seconds: itself if it is rejected."""
    clock, offset = moment.replace(tzinfo=None).isoformat(), int(moment.utcoffset().total_seconds())
    # Both offsets may have the local time, if the zone's changed by a quarter of an hour.
    other = next(it for it in (offset + 900, offset - 900) if abs(it) < 86_400 and not is_ahead(name, second + offset - it, it))
    utc = f"{(EPOCH + second * SECOND).replace(tzinfo=None).isoformat()}{rng.choice(['Z', 'z', '-00:00'])}"
    text, key = f"{clock}{offset_text(offset)}", rng.choice(["u-ca=gregory", "_a=b-c"])
    read = [f"{text}[{name}]", f"{text}[!{name}]", f"{text}[{name}][{key}]", f"{text}[{key}]", text, f"{utc}[{name}]",
            f"{text}[{'+00:00' if offset == 0 else offset_text(offset)}]"]
    refused = [f"{text}[{name}X]", f"{text}[!{name}][!{key}]", f"{text}[{name}", f"{text}[{name}] ",
               f"{clock}{offset_text(other) if other else '+00:00'}[{name}]"]
    chosen = rng.choice(read + refused)
    return chosen, chosen if chosen in refused else str(second)


def suffixed(rng, tally, command, name):
    """Times of RFC 9557 in the zone, written and read."""
    zone, seconds, written, read = zoneinfo.ZoneInfo(name), [], [], []
    for second in moments(rng, name):
        try:
            moment = (EPOCH + second * SECOND).astimezone(zone)
        except OverflowError:
            continue
        offset = int(moment.utcoffset().total_seconds())
        if offset % 60 == 0 and moment.year >= 1000:
            seconds.append(b"%d" % second)
            written.append(f"{moment.replace(tzinfo=None).isoformat()}{offset_text(offset)}[{name}]")
            read.append(with_suffix(rng, second, moment, name))
    read.append((f"2021-01-01T00:00:00Z is a line that is refused as a whole, and no short one [{name}]",) * 2)
    answers(tally, "zones", [*command, "-f", "unix", "-z", name, "-t", "rfc9557"], seconds, written)
    answers(tally, "zones", [*command, "-f", "rfc9557", "-t", "unix", "-q"], [it.encode() for it, _ in read], [it for _, it in read])


def programs(rng, tally, command):
    for name in next_zones(5 if isinstance(tally, Cases) else MOST):
        in_zone(rng, tally, command, name)
        on_clocks(rng, tally, command, name)
        suffixed(rng, tally, command, name)
