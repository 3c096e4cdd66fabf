"""The readers compared with Python's own: moments that `datetime` and `email.utils` print, and texts that they parse,
too."""
import datetime
import email.utils
import re
import sys

import texts
import writing
from formats import FORMATS, outcome
from values import Refused


def asked(name, target, text):
    try:
        return outcome(FORMATS[name], target, text)
    except Refused as fault:
        return fault.text()


def as_moment(value):
    return ((value.year, value.month, value.day), (value.hour, value.minute, value.second, value.microsecond * 1000),
            int(value.utcoffset().total_seconds()))


def random_value(rng):
    zone = datetime.timezone(datetime.timedelta(minutes=rng.randint(-1439, 1439)))
    return datetime.datetime(rng.randint(1, 9999), rng.randint(1, 12), rng.randint(1, 28), rng.randint(0, 23),
                             rng.randint(0, 59), rng.randint(0, 59), rng.choice([0, rng.randint(0, 999_999)]), zone)


def readers(rng, tally, count=20):
    for _ in range(count):
        value = random_value(rng)
        moment, text = as_moment(value), value.isoformat()
        for name in ("rfc3339", "iso8601"):
            tally.same("the readers", asked(name, "datetime", text.encode()), moment, lambda text=text: repr(text))
        written = writing.of_3339(moment, "auto")
        if sys.version_info >= (3, 11):  # older versions parse no `Z`
            tally.same("the readers", datetime.datetime.fromisoformat(written), value, lambda text=written: repr(text))
        if value.year >= 1900:
            value = value.replace(microsecond=0)
            mail = email.utils.format_datetime(value)
            tally.same("the readers", asked("rfc2822", "datetime", mail.encode()), as_moment(value),
                       lambda text=mail: repr(text))
            tally.same("the readers", writing.of_2822(moment), mail, lambda text=mail: repr(text))
        mail_dates(rng, tally)


def mail_dates(rng, tally):
    """A mail date that both parse has one value. `email.utils` parses no nested comments and no blanks beside a colon,
    other years of two digits, and no leap second."""
    text = texts.rfc2822(rng)
    ours = asked("rfc2822", "datetime", text)
    theirs = email.utils.parsedate_tz(text.decode())
    if isinstance(ours, str) or theirs is None or theirs[9] is None or re.search(rb"[(]|\s:|:\s|:60", text):
        return
    date, time, offset = ours
    if f"{date[0]:04}".encode() not in text:
        return
    tally.same("the readers", (*theirs[:6], theirs[9]), (*date, *time[:3], offset), lambda: repr(text))
