"""Generates lines for time_lines, each a format, `datetime` and a text, separated by TABs. Every second text is damaged.

    make_lines.py COUNT
"""
import random
import sys

r = random.Random(20210102)
DAYS = ["Mon", "Tue", "Wed", "Thu", "Fri", "Sat", "Sun"]
MONTHS = ["Jan", "Feb", "Mar", "Apr", "May", "Jun", "Jul", "Aug", "Sep", "Oct", "Nov", "Dec"]
BYTES = [bytes([b]) for b in b"0123456789-:.,+TZWtz() \r\x00\x7f\xc3\xff/JanSatGMT"]


def fraction(points):
    digits = r.choice([0, 0, 1, 3, 6, 9, 12])
    return f"{r.choice(points)}{r.randrange(10**digits):0{digits}}" if digits else ""


def clock():
    return r.randrange(24), r.randrange(60), 60 if r.random() < 0.02 else r.randrange(60)


def offset(colon, zone="Z"):
    if r.random() < 0.4:
        return zone
    return f"{r.choice('+-')}{r.randrange(24):02}{colon}{r.randrange(60):02}"


def rfc3339():
    hour, minute, second = clock()
    date = f"{r.randrange(10000):04}-{r.randint(1, 12):02}-{r.randint(1, 31):02}"
    return f"{date}{r.choice('TTTt ')}{hour:02}:{minute:02}:{second:02}{fraction('.')}{offset(':', r.choice('ZZz'))}"


def rfc2822():
    hour, minute, second = clock()
    day = r.choice(["", f"{r.choice(DAYS)}, "])
    year = r.choice([f"{r.randint(1900, 9999)}", f"{r.randrange(100):02}"])
    date = f"{day}{r.randint(1, 31):0{r.randint(1, 2)}} {r.choice(MONTHS)} {year}"
    seconds = r.choice(["", f":{second:02}", f":{second:02}"])
    zone = r.choice([offset("", "GMT"), "EST", "Z", "UT", offset("", "PDT") + " (a comment)"])
    return f"{date} {hour:02}:{minute:02}{seconds} {zone}"


def iso8601():
    hour, minute, second = clock()
    dash, colon = r.choice([("-", ":"), ("", "")])
    year = f"{r.randrange(10000):04}" if r.random() < 0.9 else f"{r.choice('+-')}{r.randrange(10**6):06}"
    date = r.choice([f"{r.randint(1, 12):02}{dash}{r.randint(1, 31):02}", f"{r.randint(1, 366):03}",
                     f"W{r.randint(1, 53):02}{dash}{r.randint(1, 7)}"])
    time = r.choice([f"{hour:02}", f"{hour:02}{colon}{minute:02}", f"{hour:02}{colon}{minute:02}{colon}{second:02}"])
    return f"{year}{dash}{date}T{time}{fraction('.,')}{offset(colon)}"


def damaged(text):
    at = r.randrange(len(text))
    change = r.randrange(4)
    if change == 0:
        return text[:at] + r.choice(BYTES) + text[at + 1:]
    if change == 1:
        return text[:at] + r.choice(BYTES) + text[at:]
    if change == 2:
        return text[:at] + text[at + 1:]
    return text[:at]


makers = [(b"rfc3339", rfc3339), (b"rfc2822", rfc2822), (b"iso8601", iso8601)]
lines = []
for number in range(int(sys.argv[1])):
    name, make = makers[number // 2 % 3]
    text = make().encode()
    lines.append(name + b"\tdatetime\t" + (damaged(text) if number % 2 else text) + b"\n")
sys.stdout.buffer.write(b"".join(lines))
