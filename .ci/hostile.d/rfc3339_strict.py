"""RFC 3339 with `T`, `t` or a space between date and time."""
import rfc3339
from rfc3339 import record_of  # noqa: F401

SEPARATORS = b"Tt "


def places(text, ranges):
    return rfc3339.places(text, ranges, SEPARATORS)


def direct(text):
    return rfc3339.direct(text, SEPARATORS)
