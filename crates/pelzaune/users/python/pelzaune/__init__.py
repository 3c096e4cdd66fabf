"""Parses date-time texts by RFC 3339, mail dates of RFC 2822, ISO 8601, and descriptions of your own; and writes them.

>>> import pelzaune
>>> pelzaune.parse("1985-04-12T23:20:50.52Z")
datetime.datetime(1985, 4, 12, 23, 20, 50, 520000, tzinfo=datetime.timezone.utc)
>>> pelzaune.unix_ns("Fri, 02 Jan 1970 00:00:00 GMT", pelzaune.Format.RFC2822)
86400000000000
>>> pelzaune.parse_date("2020-W53-6", "iso8601")
datetime.date(2021, 1, 2)
>>> try:
...     pelzaune.parse("1985-04-31T00:00:00Z")
... except pelzaune.ParseError as error:
...     print(error, "|", error.component)
day is out of range for the other components | day

A format is a member of `Format` (which are also attributes of the module), its name in any case, or a description.
`Format.RFC3339`, the default, accepts `T`, `t` or a space between date and time. A misspelled name, which contains neither
a `%` nor a `[`, raises ValueError. A description is one of strftime if it contains a `%`, and otherwise one in brackets:

>>> pelzaune.parse("02/Jan/2021:03:04:05 +0000", "%d/%b/%Y:%H:%M:%S %z")
datetime.datetime(2021, 1, 2, 3, 4, 5, tzinfo=datetime.timezone.utc)
>>> pelzaune.parse_time("1:05 PM", "[hour repr:12 padding:none]:[minute] [period]")
datetime.time(13, 5)

A `Description` is parsed once, for many texts:

>>> day = pelzaune.Description("[day].[month].[year]")
>>> [pelzaune.parse_date(text, day).isoformat() for text in ("02.01.2021", "31.12.1999")]
['2021-01-02', '1999-12-31']
>>> try:
...     pelzaune.Description("[day].[moth]")
... except pelzaune.DescriptionError as error:
...     print(error, "|", error.index)
no component has that name | 7

The lines of a file become a column of numbers, with `NO_COUNT` for a rejected line:

>>> pelzaune.column(b"1970-01-02T00:00:00Z\\n1970-01-01T00:00:00.000000001Z\\n?\\n")
array('q', [86400000000000, 1, -9223372036854775808])

So do the texts of a list, of any other iterable, of an array of numpy or of a Series of pandas (for a Series as the result
see `pelzaune.pandas`). A rejected text raises an error, or, with errors="none" or "coerce", has its index in a second
array:

>>> pelzaune.parse_many(["1970-01-02T00:00:00Z", "1970-13-01T00:00:00Z"])
Traceback (most recent call last):
    ...
pelzaune.ParseError: text 1: month is out of range
>>> pelzaune.parse_many(["1970-01-02T00:00:00Z", "1970-13-01T00:00:00Z"], errors="none")
(array('q', [86400000000000, -9223372036854775808]), array('q', [1]))

Lines and texts without an offset may have one from an argument: a tzinfo, an offset, or the name of a time zone.

>>> pelzaune.parse_many(["1970-01-02T00:00:00"], "iso8601", offset="+01:00")
array('q', [82800000000000])

A datetime is formatted too, by each of these formats, also in another time zone:

>>> seen = pelzaune.parse("1985-04-12T23:20:50.52-08:30")
>>> pelzaune.format_datetime(seen, "rfc2822")
'Fri, 12 Apr 1985 23:20:50 -0830'
>>> pelzaune.format_datetime(seen, zone="Europe/Berlin")
'1985-04-13T09:50:50.52+02:00'
>>> pelzaune.format_datetime(seen, "%A, %d %B %Y")
'Friday, 12 April 1985'

Many datetimes become a list of texts. The first without a text raises an error with its index:

>>> pelzaune.format_many([seen, seen.replace(year=1899)], day)
['12.04.1985', '12.04.1899']
>>> try:
...     pelzaune.format_many([seen, seen.replace(year=1899)], "rfc2822")
... except pelzaune.FormatError as error:
...     print(error, "|", error.component, "|", error.text_index)
value 1: the 'year' component has no text in that format | year | 1

A text is a `str` or `bytes`, and is parsed as a whole. A call never returns a value for a text that its format rejects.
"""
from pelzaune._pelzaune import (
    ISO8601,
    NO_COUNT,
    RFC2822,
    RFC3339,
    Description,
    DescriptionError,
    Format,
    FormatError,
    ParseError,
    column,
    column_into,
    format_datetime,
    format_many,
    parse,
    parse_date,
    parse_many,
    parse_parts,
    parse_time,
    unix_ns,
)

__all__ = [
    "ISO8601", "NO_COUNT", "RFC2822", "RFC3339", "Description", "DescriptionError", "Format", "FormatError", "ParseError", "column",
    "column_into", "format_datetime", "format_many", "parse", "parse_date", "parse_many", "parse_parts", "parse_time", "unix_ns",
]
__version__ = "1.0.0"
