"""Calls of the extension's functions, each with its answer, and errors, each with its state, message and detail.

The answers come from the standards and from the arithmetic in comments, and none from the extension itself.
"""
TRAILING = "unexpected trailing characters; the end of input was expected"
LITERAL = "a character literal was not valid"
YEAR = "the 'year' component could not be parsed"
MONTH = "the 'month' component could not be parsed"
SEPARATOR = "the 'separator' component could not be parsed"
NO_FORMAT = "format must be rfc3339, rfc2822, iso8601, or a description with % or ["
NO_YEAR = "the 'year' component has no text in that format"
NO_IGNORE = "the 'ignore' component has no text in that format"
LOG = "%d/%b/%Y:%H:%M:%S %z"
COUNT = "[unix_timestamp precision:nanosecond sign:mandatory]"

ANSWERS = [
    # RFC 3339's own examples, and each way to name a format
    ("timestamptz('1985-04-12T23:20:50.52Z')", "1985-04-12 23:20:50.52+00"),
    ("timestamptz('1996-12-19T16:39:57-08:00', 'rfc3339')", "1996-12-20 00:39:57+00"),
    ("timestamptz('Fri, 21 Nov 1997 09:55:06 -0600', 'rfc2822')", "1997-11-21 15:55:06+00"),
    ("timestamptz('Fri, 21 Nov 1997 09(comment):   55  :  06 -0600', 'rfc2822')", "1997-11-21 15:55:06+00"),
    ("timestamptz('2020-W53-6T03:04:05,5Z', 'iso8601')", "2021-01-02 03:04:05.5+00"),
    (f"timestamptz('02/Jan/2021:03:04:05 -0030', '{LOG}')", "2021-01-02 03:34:05+00"),
    ("timestamptz('-1', '[unix_timestamp]')", "1969-12-31 23:59:59+00"),
    ("timestamp('2021-01-02T03:04:05-08:30')", "2021-01-02 03:04:05"),
    ("timestamp('2021-01-02 03:04', '[year]-[month]-[day] [hour]:[minute]')", "2021-01-02 03:04:00"),
    ("timestamp('20210102T030405', 'iso8601')", "2021-01-02 03:04:05"),
    ("date('12.04.1985', '%d.%m.%Y')", "1985-04-12"),
    ("date('2021-01-02T23:04:05-08:30')", "2021-01-02"),
    ("date('2020-366', 'iso8601')", "2020-12-31"),
    ("time('03:04:05,25', 'iso8601')", "03:04:05.25"),
    ("time('1:05 PM', '[hour repr:12 padding:none]:[minute] [period]')", "13:05:00"),
    ("time('1985-04-12T23:20:50.52Z')", "23:20:50.52"),
    # a microsecond is rounded down, also before 2000 and before 1970, and a leap second is parsed as the one before it
    ("timestamptz('1999-12-31T23:59:59.9999999Z')", "1999-12-31 23:59:59.999999+00"),
    ("timestamptz('2000-01-01T00:00:00.000000999Z')", "2000-01-01 00:00:00+00"),
    ("timestamptz('1969-12-31T23:59:59.999999999Z')", "1969-12-31 23:59:59.999999+00"),
    ("timestamptz('2016-12-31T23:59:60Z')", "2016-12-31 23:59:59.999999+00"),
    ("timestamp('1999-12-31T23:59:59.9999999Z')", "1999-12-31 23:59:59.999999"),
    ("time('23:59:59.9999999', '[hour]:[minute]:[second].[subsecond]')", "23:59:59.999999"),
    # the year 0 is 1 BC; timestamps range from 4714-11-24 BC to 294276, and dates to the library's last year
    ("timestamptz('0000-02-29T00:00:00Z')", "0001-02-29 00:00:00+00 BC"),
    ("timestamptz('-004713-11-24T00:00:00Z', 'iso8601')", "4714-11-24 00:00:00+00 BC"),
    ("timestamptz('-004713-11-23T23:59:00-00:01', 'iso8601')", "4714-11-24 00:00:00+00 BC"),
    ("timestamptz('+294276-12-31T23:59:59.9999999Z', 'iso8601')", "294276-12-31 23:59:59.999999+00"),
    ("timestamptz('+294277-01-01T00:00:00+00:01', 'iso8601')", "294276-12-31 23:59:00+00"),
    ("timestamp('-004713-11-24T00:00:00', 'iso8601')", "4714-11-24 00:00:00 BC"),
    ("timestamp('+294276-12-31T23:59:59,999999', 'iso8601')", "294276-12-31 23:59:59.999999"),
    ("date('-004713-11-24', 'iso8601')", "4714-11-24 BC"),
    ("date('0000-12-31', 'iso8601')", "0001-12-31 BC"),
    ("date('+999999-12-31', 'iso8601')", "999999-12-31"),
    # nanoseconds are exact: 2^63 - 1 is 9223372036854775807, and 330 years before 2300 have 80 leap days
    ("unix_ns('1970-01-02T00:00:00Z')", "86400000000000"),
    ("unix_ns('1969-12-31T23:59:59.999999999Z')", "-1"),
    ("unix_ns('2262-04-11T23:47:16.854775807Z')", "9223372036854775807"),
    ("unix_ns('2262-04-11T23:47:16.854775808Z')", "9223372036854775808"),
    ("unix_ns('1677-09-21T00:12:43.145224192Z')", "-9223372036854775808"),
    ("unix_ns('1677-09-21T00:12:43.145224191Z')", "-9223372036854775809"),
    ("unix_ns('2300-01-01T00:00:00.000000001Z')", f"{(330 * 365 + 80) * 86400}000000001"),
    # 719162 days from 0001-01-01 to 1970-01-01
    ("unix_ns('0001-01-01T00:00:00Z')", f"-{719162 * 86400}000000000"),
    # places: index, expectation and reason, or NULL
    ("place('2021-13-02T03:04:05Z')", '(5,month,"month is out of range")'),
    ("place('2021-01-02T03:04:05')", '(19,"offset hour","the \'offset hour\' component could not be parsed")'),
    ("place('2021/01-02T03:04:05Z')", f"(4,'-',\"{LITERAL}\")"),
    ("place('2021-01-02T03:04:05Zx')", f'(20,"the end","{TRAILING}")'),
    ("place('2021-02-30', '[year]-[month]-[day]')", '(,,"day is out of range for the other components")'),
    ("place('2021', '[year]')", '(,,"missing day")'),
    ("place('2021-01-02T03:04:05Z')", "NULL"),
    ("place('2021-01-02', '[year]-[month]-[day]')", "NULL"),
    ("place('12:34', '[hour]:[minute]')", "NULL"),
    ("place('1', '[unix_timestamp]')", "NULL"),
    ("place('2016-12-31T23:59:60Z')", "NULL"),
    (r"place('2021-01', E'[year]\n[month]')", f'(4,"\'\\\\x0a\'","{LITERAL}")'),
    # texts
    ("text('1985-04-12 23:20:50.52+00')", "1985-04-12T23:20:50.52Z"),
    ("text('1985-04-12 23:20:50.52+00', 'rfc2822', '-08:30')", "Fri, 12 Apr 1985 14:50:50 -0830"),
    ("text('1985-04-12 23:20:50.52+00', 'iso8601', '+00:00')", "1985-04-12T23:20:50.520000000Z"),
    ("text('1999-12-31 23:30:00+00', 'rfc3339', '+05:30')", "2000-01-01T05:00:00+05:30"),
    ("text('0001-01-01 00:00:00+00 BC')", "0000-01-01T00:00:00Z"),
    ("text('9999-12-31 23:59:59.999999+00')", "9999-12-31T23:59:59.999999Z"),
    ("text('1969-12-31 23:59:59.999999+00')", "1969-12-31T23:59:59.999999Z"),
    # time zones of the server: Berlin was two hours ahead of UTC, Kathmandu 5:30 and later 5:45, and New York five behind
    ("text('1985-04-12 23:20:50.52+00', 'rfc3339', 'Europe/Berlin')", "1985-04-13T01:20:50.52+02:00"),
    ("text('1985-04-12 23:20:50.52+00', 'rfc2822', 'America/New_York')", "Fri, 12 Apr 1985 18:20:50 -0500"),
    ("text('1985-04-12 23:20:50.52+00', 'rfc3339', 'Asia/Kathmandu')", "1985-04-13T04:50:50.52+05:30"),
    ("text('1986-04-12 23:20:50.52+00', 'rfc3339', 'asia/kathmandu')", "1986-04-13T05:05:50.52+05:45"),
    ("text('1985-04-12 23:20:50.52+00', '%d.%m.%Y %H:%M %z', 'Europe/Berlin')", "13.04.1985 01:20 +0200"),
    ("text('1985-04-12 23:20:50.52+00', '%T.%3f %:z', '-08:30')", "14:50:50.520 -08:30"),
    ("text('1985-04-12 23:20:50.52+00', 'rfc3339', 'UTC')", "1985-04-12T23:20:50.52Z"),
    # Berlin's local mean time was 53:28 ahead of UTC
    ("text('1880-01-01 00:00:00+00', '[hour]:[minute]:[second] [offset_hour sign:mandatory]:[offset_minute]:[offset_second]', 'Europe/Berlin')",
     "00:53:28 +00:53:28"),
    # a description writes the components that it has, all optional items and the first of each choice
    ("text('1880-01-01 00:00:00+00', '%H:%M %z', 'Europe/Berlin')", "00:53 +0053"),
    (f"text('2000-10-10 20:55:36+00', '{LOG}', '-07:00')", "10/Oct/2000:13:55:36 -0700"),
    ("text('1985-04-12 23:20:50+00', '[hour]:[minute]:[second].[subsecond][offset_hour sign:mandatory]:[offset_minute]', '-08:30')",
     "14:50:50.0-08:30"),
    ("text('1985-04-12 23:20:50.52+00', '[first [[month repr:short]] [[ignore count:1]]] [day][optional [, [hour]h]]')", "Apr 12, 23h"),
    ("text('294276-12-31 23:59:59.999999+00', '[year] [year repr:century] [year repr:last_two]')", "+294276 +2942 76"),
    ("text('4714-11-24 00:00:00+00 BC', '%F')", "-4713-11-24"),
    ("text('1969-12-31 23:59:59.9+00', '[unix_timestamp] [unix_timestamp precision:nanosecond]')", "-1 -100000000"),
    # 51 counts of 20 bytes and 4 bytes are 1024; 18629 days of 86400 seconds, and 11045 seconds
    (f"text('2021-01-02 03:04:05+00', repeat('{COUNT}', 51) || '....')", "+1609556645000000000" * 51 + "...."),
    # between date and time are `T`, `t` or a space
    ("timestamptz('1985-04-12t23:20:50Z')", "1985-04-12 23:20:50+00"),
    ("timestamptz('1985-04-12 23:20:50Z', 'RFC3339')", "1985-04-12 23:20:50+00"),
    ("try_timestamptz('1985-04-12923:20:50Z')", "NULL"),
    ("place('1985-04-12923:20:50Z')", f'(10,separator,"{SEPARATOR}")'),
    ("place('1985-13-12923:20:50Z', 'rfc3339')", f'(5,month,"{SEPARATOR}")'),
    # names of formats are in any case
    ("date('1985-04-12T23:20:50.52Z', 'RFC3339')", "1985-04-12"),
    ("timestamptz('Fri, 21 Nov 1997 09:55:06 -0600', 'Rfc2822')", "1997-11-21 15:55:06+00"),
    ("text('1985-04-12 23:20:50.52+00', 'ISO8601')", "1985-04-12T23:20:50.520000000Z"),
    ("place('2021-13-02T03:04:05Z', 'RFC3339')", '(5,month,"month is out of range")'),
    # NULLs
    ("timestamptz(NULL)", "NULL"), ("timestamp(NULL)", "NULL"), ("date(NULL)", "NULL"), ("time(NULL)", "NULL"),
    ("unix_ns(NULL)", "NULL"), ("place(NULL)", "NULL"), ("text(NULL)", "NULL"), ("try_date(NULL)", "NULL"),
    ("timestamptz('1985-04-12T23:20:50.52Z', NULL)", "NULL"), ("place('x', NULL)", "NULL"),
    ("text('1985-04-12 23:20:50.52+00', NULL)", "NULL"), ("text('1985-04-12 23:20:50.52+00', 'rfc3339', NULL)", "NULL"),
    ("try_timestamptz('1985-04-12T23:20:50.52Z')", "1985-04-12 23:20:50.52+00"),
    ("try_timestamp('1985-04-12T23:20:50.52Z')", "1985-04-12 23:20:50.52"),
    ("try_date('1985-04-12T23:20:50.52Z')", "1985-04-12"), ("try_time('1985-04-12T23:20:50.52Z')", "23:20:50.52"),
    ("try_unix_ns('1970-01-02T00:00:00Z')", "86400000000000"),
]

ERRORS = [
    ("timestamptz('2021-13-02T03:04:05Z')", "22008", "month is out of range",
     'Expected month at index 5 of "2021-13-02T03:04:05Z".'),
    ("date('2021-13-02T03:04:05Z')", "22007", MONTH, 'Expected month at index 5 of "2021-13-02T03:04:05Z".'),
    ("timestamptz('')", "22007", YEAR, 'Expected year at index 0 of "".'),
    ("timestamptz('infinity')", "22007", YEAR, 'Expected year at index 0 of "infinity".'),
    ("date('2021-01-02', 'rfc3339')", "22007", SEPARATOR, 'Expected separator at index 10 of "2021-01-02".'),
    ("timestamptz('1985-04-12_23:20:50Z')", "22007", SEPARATOR, 'Expected separator at index 10 of "1985-04-12_23:20:50Z".'),
    ("date('1985-13-12923:20:50Z', 'RFC3339')", "22007", MONTH, 'Expected month at index 5 of "1985-13-12923:20:50Z".'),
    ("timestamptz('2021-01-02T03:04:05Zx')", "22007", TRAILING,
     'Expected the end at index 20 of "2021-01-02T03:04:05Zx".'),
    ("date('2021-02-30', '[year]-[month]-[day]')", "22008", "day is out of range for the other components", 'The text is "2021-02-30".'),
    ("timestamptz('12:34', '[hour]:[minute]')", "22007", "missing day", 'The text is "12:34".'),
    ("timestamptz('02 Jan 12:34', '%d %b %H:%M')", "22007", "missing year", 'The text is "02 Jan 12:34".'),
    (r"date(E'2021-\x1b', '[year]-[month]')", "22007", MONTH, r'Expected month at index 5 of "2021-\x1b".'),
    ("date(repeat('y', 101))", "22007", YEAR, f'Expected year at index 0 of "{"y" * 100}...".'),
    ("date('2021', 'RFC3339')", "22007", LITERAL, "Expected '-' at index 4 of \"2021\"."),
    # in a description with a %, brackets are literal bytes
    ("time('23:59:59.5', '%H:%M:%S.[subsecond]')", "22007", LITERAL, "Expected '[' at index 9 of \"23:59:59.5\"."),
    # an hour of 24 is invalid
    ("timestamptz('2021-01-02T24:00:00Z')", "22008", "hour is out of range", 'Expected hour at index 11 of "2021-01-02T24:00:00Z".'),
    ("timestamp('2021-01-02T24:00:00', 'iso8601')", "22007", TRAILING, 'Expected hour at index 11 of "2021-01-02T24:00:00".'),
    ("time('24:00', '[hour]:[minute]')", "22007", "the 'hour' component could not be parsed", 'Expected hour at index 0 of "24:00".'),
    # beyond PostgreSQL's ranges
    ("timestamptz('-004713-11-23T23:59:59.999999999Z', 'iso8601')", "22008", "timestamp out of range", ""),
    ("timestamptz('-004713-11-24T00:00:00+00:01', 'iso8601')", "22008", "timestamp out of range", ""),
    ("timestamptz('+294277-01-01T00:00:00Z', 'iso8601')", "22008", "timestamp out of range", ""),
    ("timestamptz('+999999-12-31T23:59:59Z', 'iso8601')", "22008", "timestamp out of range", ""),
    ("timestamptz('-999999-01-01T00:00:00Z', 'iso8601')", "22008", "timestamp out of range", ""),
    ("timestamp('-004713-11-23T23:59:59', 'iso8601')", "22008", "timestamp out of range", ""),
    ("timestamp('+294277-01-01T00:00:00', 'iso8601')", "22008", "timestamp out of range", ""),
    ("date('-004713-11-23', 'iso8601')", "22008", "date out of range", ""),
    ("date('-999999-01-01', 'iso8601')", "22008", "date out of range", ""),
    ("unix_ns('x')", "22007", YEAR, 'Expected year at index 0 of "x".'),
    # a mebibyte has 1048576 bytes
    ("date(repeat('0', 1048577))", "54000", "text is too long to parse (1048577 bytes, max 1048576 bytes)", ""),
    ("timestamptz(repeat('\u00e9', 524289), 'iso8601')", "54000", "text is too long to parse (1048578 bytes, max 1048576 bytes)", ""),
]

# Errors of formats, which functions with try_ raise too.
ERRORS_OF_FORMATS = [
    ("date('2021', '[yaer]')", "22007", "no component has that name", 'At index 1 of the format "[yaer]".'),
    ("date('', repeat('x', 64) || '%Y')", "22007", "the description is too long", f'The format is "{"x" * 64}%Y".'),
    # A misspelled name isn't taken for a description.
    ("date('2021', 'RFC-3339')", "22007", NO_FORMAT, 'The format is "RFC-3339".'),
    ("timestamptz('2021', 'rfc339')", "22007", NO_FORMAT, 'The format is "rfc339".'),
    ("timestamp('iso-8601', 'iso-8601')", "22007", NO_FORMAT, 'The format is "iso-8601".'),
    ("time('x', '')", "22007", NO_FORMAT, 'The format is "".'),
    ("unix_ns('x', repeat(' ', 1048576))", "22007", NO_FORMAT, f'The format is "{" " * 100}...".'),
    ("date('2021', '%Q')", "22007", "no component has that name", 'At index 1 of the format "%Q".'),
    ("timestamptz('2021', 'rfc[3339')", "22007", "no component has that name", 'At index 4 of the format "rfc[3339".'),
    ("timestamp(repeat('x', 2000000), '[yaer]')", "22007", "no component has that name", 'At index 1 of the format "[yaer]".'),
    ("time('x', '[yaer]')", "22007", "no component has that name", 'At index 1 of the format "[yaer]".'),
    ("unix_ns('x', '[')", "22007", "brackets have no component name", 'At index 0 of the format "[".'),
    ("date('x', repeat(' ', 1048577))", "54000", "format is too long to parse (1048577 bytes, max 1048576 bytes)", ""),
]

# These have no counterpart that returns NULL instead.
ERRORS_ALONE = [
    ("place(repeat('x', 1048577))", "54000", "text is too long to parse (1048577 bytes, max 1048576 bytes)", ""),
    ("text('2021-01-02 00:00:00+00', 'rfc3339', 'Europe/Atlantis')", "22023", 'time zone "Europe/Atlantis" not recognized', ""),
    ("text('1880-01-01 00:00:00+00', 'rfc3339', 'Europe/Berlin')", "22008", "the 'offset second' component has no text in that format", ""),
    ("place('x', '[yaer]')", "22007", "no component has that name", 'At index 1 of the format "[yaer]".'),
    ("place('x', 'rfc3339 ')", "22007", NO_FORMAT, 'The format is "rfc3339 ".'),
    ("text('2021-01-02 00:00:00+00', 'rfc822')", "22007", NO_FORMAT, 'The format is "rfc822".'),
    ("text('infinity')", "22008", "timestamp out of range", ""),
    ("text('-infinity')", "22008", "timestamp out of range", ""),
    ("text('294276-12-31 23:59:59.999999+00')", "22008", NO_YEAR, ""),
    ("text('4714-11-24 00:00:00+00 BC')", "22008", NO_YEAR, ""),
    ("text('0001-01-01 00:00:00+00', 'rfc2822')", "22008", NO_YEAR, ""),
    ("text('2021-01-02 00:00:00+00', 'rfc3339', '+24:00')", "22008", "the 'offset hour' component has no text in that format", ""),
    ("text('2021-01-02 00:00:00+00', 'rfc3339', '05:30')", "22007", "the 'offset hour' component could not be parsed",
     'Expected offset hour at index 0 of "05:30".'),
    ("text('2021-01-02 00:00:00+00', '[yaer]')", "22007", "no component has that name", 'At index 1 of the format "[yaer]".'),
    ("text('10000-12-31 00:00:00+00', '[year range:standard]')", "22008", NO_YEAR, ""),
    ("text('2021-01-02 00:00:00+00', '[day][ignore count:1]')", "22008", NO_IGNORE, ""),
    (f"text('2021-01-02 03:04:05+00', repeat('{COUNT}', 51) || '.....')", "54000", "the text has more than 1024 bytes", ""),
]
