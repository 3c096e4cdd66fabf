"""Random moments, texts of them, and damaged texts."""
import components
import writing
from values import BILLION, MONTHS, WEEKDAYS, date_at, day_number, GREATEST

ZONES = "UT GMT EST EDT CST CDT MST MDT PST PDT Z A z j J ut gMt K".split()
YEARS = [(1900, 2100)] * 6 + [(0, 9999)] * 2 + [(-GREATEST, GREATEST), (GREATEST,) * 2, (-GREATEST,) * 2, (0, 0)]
OFFSETS = [93_599, -93_599, 93_540, -90_000, 86_400, -1800, -1, 61]
TIMES = [(0, 0, 0), (23, 59, 59), (12, 0, 0)]
BLANKS = ["", " ", "  ", "\t", " \r\n ", "\r\n\t", " \r\n", "\r", " (", " C ", "C", "CC ", "C\tC", "D", "(\\", " (a"]
LOOSE = ["", " 1", "1", "00", "13", "-5", "+7", "60", "999", "366", "53", "Mon", "mAY", "am", "12345", "-000001"]
BYTES = b"0123456789-+:.,/ ()TZWzt\t\\\"'JanPmA\r\xc3\xa9\x00\x7f\xff"


def number(rng, least, most, width=2):
    """A number in its range, at its ends, or right beside them."""
    edge = rng.choice([least, most, most + 1, least - 1 if least else 0])
    return str(edge if rng.random() < 0.2 else rng.randint(least, most)).zfill(width)


def random_moment(rng, least=-GREATEST, most=GREATEST):
    begin, end = rng.choice(YEARS)
    year = min(max(rng.randint(begin, end), least), most)
    first, last = day_number((year, 1, 1)), day_number((year, 12, 31))
    number = rng.choice([rng.randint(first, last)] * 5 + [last, first, day_number((year, 3, 1)) - 1])
    time = rng.choice([(rng.randint(0, 23), rng.randint(0, 59), rng.randint(0, 59))] * 6 + TIMES)
    nanosecond = rng.choice([0, 0, rng.randrange(BILLION), rng.randrange(1000) * 10**6, BILLION - 1])
    offset = rng.choice([0, 0, rng.randint(-1439, 1439) * 60, rng.randint(-12, 14) * 3600, rng.choice(OFFSETS)])
    return date_at(number), (*time, nanosecond), offset


def digits(rng, most):
    return "".join(rng.choice("0123456789") for _ in range(rng.randint(1, most)))


def fraction(rng, points="."):
    return rng.choice(["", "", rng.choice(points) + digits(rng, rng.choice([3, 9, 12, 40])),
                       rng.choice(points) + "9" * rng.randint(1, 12) + rng.choice(["", "5", "4"])])


def leap(rng):
    """A leap second at a month's end in UTC, at an offset of whole hours; or right beside it."""
    year, month = rng.randint(1, 9998), rng.randint(1, 12)
    hours = rng.choice([0, 0, rng.randint(-12, 14)])
    minutes = (day_number((year + month // 12, month % 12 + 1, 1)) * 24 + hours + rng.choice([0, 0, 0, 1, 24])) * 60 - 1
    return date_at(minutes // 1440), minutes // 60 % 24, minutes % 60, hours


def rfc3339(rng):
    if rng.random() < 0.08:
        date, hour, minute, hours = leap(rng)
        zone = f"{'-' if hours < 0 else '+'}{abs(hours):02}:00" if hours else "Z"
        return f"{date[0]:04}-{date[1]:02}-{date[2]:02}T{hour:02}:{minute:02}:60{fraction(rng)}{zone}".encode()
    offset = rng.choice(["Z", "z", f"{rng.choice('+-')}{number(rng, 0, 23)}:{number(rng, 0, 59)}"])
    date = f"{number(rng, 0, 9999, 4)}-{number(rng, 1, 12)}-{number(rng, 1, 31)}{rng.choice('TTTt _')}"
    return f"{date}{number(rng, 0, 23)}:{number(rng, 0, 59)}:{number(rng, 0, 60)}{fraction(rng)}{offset}".encode()


def comment(rng, depth=0):
    """Some pieces, of which the last means a comment inside a comment."""
    pieces = [rng.choice(["x", " ", "\\)", "\\(", "\r\n ", "a b", ".", "\t", ""]) for _ in range(rng.randint(0, 3))]
    return "(" + "".join(it or (comment(rng, depth + 1) if depth < 4 else "y") for it in pieces) + ")"


def blanks(rng, may_be_none=False):
    if rng.random() < 0.7:
        return "" if may_be_none else " "
    deep = rng.choice([2, 30, 31, 32, 33])
    made = rng.choice(BLANKS)  # C is a comment, and D one with many others inside it
    return "".join(comment(rng) if it == "C" else "(" * deep + ")" * deep if it == "D" else it for it in made)


def case(rng, word):
    return rng.choice([word, word, word, word.upper(), word.lower(), word.swapcase()])


def rfc2822(rng):
    year = str(rng.randint(1900, 9999))
    year = rng.choice([year] * 5 + ["1899", "1900", "10000", "49", "50", number(rng, 0, 99), digits(rng, 3)])
    hour, minute, second, zone = number(rng, 0, 23), number(rng, 0, 59), number(rng, 0, 60), rng.choice(ZONES)
    day, month = number(rng, 1, 31, rng.choice([1, 2])), rng.choice(MONTHS)[:3]
    if rng.random() < 0.7:
        zone = rng.choice("+-") + number(rng, 0, 25) + number(rng, 0, 59)
    if rng.random() < 0.05:
        date, hour, minute, hours = leap(rng)
        year, month, day, second = f"{date[0]:04}", MONTHS[date[1] - 1][:3], str(date[2]), "60"
        hour, minute, zone = f"{hour:02}", f"{minute:02}", f"{'-' if hours < 0 else '+'}{abs(hours):02}00"
    text = blanks(rng, True)
    if rng.random() < 0.6:
        text += case(rng, rng.choice(WEEKDAYS)[:3]) + ("" if rng.random() < 0.05 else ",") + blanks(rng)
    text += day + blanks(rng) + case(rng, month) + blanks(rng) + year + blanks(rng)
    text += hour + blanks(rng, True) + ":" + blanks(rng, True) + minute
    if rng.random() < 0.7:
        text += blanks(rng, True) + ":" + blanks(rng, True) + second
    return (text + blanks(rng) + zone + blanks(rng, True)).encode()


def iso8601(rng):
    dash, colon = rng.choice([("-", ":"), ("", ""), ("-", ":"), ("", ""), ("-", ""), ("", ":")])
    year = rng.choice([number(rng, 0, 9999, 4)] * 4 + [rng.choice("+-") + number(rng, 0, GREATEST, 6)])
    date = year + dash + rng.choice([f"{number(rng, 1, 12)}{dash}{number(rng, 1, 31)}"] * 2 + [
        number(rng, 1, 366, 3), f"W{number(rng, 1, 53)}{dash}{number(rng, 1, 7, 1)}"])
    parts = rng.choice([1, 2, 3, 3, 3])
    time = number(rng, 0, 23) + "".join(f"{colon}{number(rng, 0, 59 + k)}" for k in range(parts - 1))
    time += fraction(rng, ".,")
    minutes = rng.choice(["", rng.choice([colon, "", ":"]) + number(rng, 0, 59)])
    zone = rng.choice(["", "Z", rng.choice("+-") + number(rng, 0, 25) + minutes])
    date, time = rng.choice([date, date, date, ""]), rng.choice([f"T{time}"] * 4 + [time, ""])
    return (date + time + zone).encode()


def spelled(rng, tree, moment):
    """A text of a tree at a moment, with some random variations."""
    kind, inside = tree
    if kind == "literal":
        return inside
    if kind == "component":
        if rng.random() < 0.06:
            return rng.choice([*LOOSE, digits(rng, 9)]).encode()
        if inside.name == "subsecond" and rng.random() < 0.1:
            return b"1" * rng.choice([31, 32, 33, 34])
        try:
            return writing.of_component(inside, moment).encode()
        except writing.Unwritable:
            return b"\x80" * int(inside.said.get("count", 0))
    if kind == "optional":
        return spelled(rng, inside, moment) if rng.random() < 0.6 else b""
    if kind == "first":
        return spelled(rng, rng.choice(inside), moment) if inside else b""
    return b"".join(spelled(rng, it, moment) for it in inside)


def damaged(rng, text):
    """The text, with a byte or two changed, removed, doubled or added; or truncated; or with others around it."""
    for _ in range(rng.choice([1, 1, 1, 2])):
        at = rng.randint(0, len(text))
        byte = bytes([rng.choice(BYTES)])
        text = rng.choice([
            text[:at] + byte + text[at + 1:], text[:at] + text[at + 1:], text[:at] + text[at:at + 1] + text[at:],
            text[:at] + byte + text[at:], text[:at], text + byte, text[at:], text[:at] + text[at:].swapcase()])
    return text


def is_utf8(text):
    try:
        text.decode()
    except UnicodeDecodeError:
        return False
    return True


def clean(text):
    """Without the LF that ends a line."""
    return text.replace(b"\n", b"")


def some_text(rng, made):
    """A text as it was made, damaged, or of random bytes."""
    draw = rng.random()
    if draw < 0.03:
        count = rng.randint(0, 40)
        return clean(bytes(rng.choice(BYTES) if rng.random() < 0.8 else rng.randrange(256) for _ in range(count)))
    if draw < 0.04:
        return clean(made + rng.choice([b"0", b" ", b"(", b"x"]) * rng.randint(100, 3000))
    return clean(damaged(rng, made) if draw < 0.5 else made)
