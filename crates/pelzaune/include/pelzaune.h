/* Parses date-time texts: RFC 3339, mail dates of RFC 2822, ISO 8601, and descriptions of your own.
 *
 * Plain functions of C99, callable from C++ too. No call allocates, keeps state, changes errno or reads the locale, so
 * calls may run concurrently in threads and in signal handlers. Every call returns, whatever the bytes.
 *
 * A text is `length` bytes, and needs no 0 at its end. It is parsed as a whole: trailing bytes are an error. A call that
 * parses writes *out and returns PELZAUNE_OK (0), or it returns the status of the error and leaves *out unchanged. Where
 * a length or a capacity is 0, its pointer may be NULL.
 *
 * The caller ensures what no call checks: a pointer points to as many bytes as its length gives, within one object of at
 * most PTRDIFF_MAX bytes; nothing else changes a text or *out during the call; and *out doesn't overlap the text. */
#ifndef PELZAUNE_H
#define PELZAUNE_H

#include <stddef.h>
#include <stdint.h>

#ifdef __cplusplus
extern "C" {
#endif

/* 256 * major + minor. A program is incompatible with a library whose pelzaune_version() has another major number. */
#define PELZAUNE_VERSION 0x0100u
uint32_t pelzaune_version(void);

/* Formats. A call with any other number returns PELZAUNE_UNKNOWN_FORMAT.
 *
 * PELZAUNE_RFC3339 accepts any byte between the date and the time, even a digit, as the Rust crate time does.
 * PELZAUNE_RFC3339_STRICT accepts only 'T', 't' or a space there. Otherwise they parse alike, and write equal texts. */
#define PELZAUNE_RFC3339 1u /* 1985-04-12T23:20:50.52Z */
#define PELZAUNE_RFC2822 2u /* Sat, 02 Jan 2021 03:04:05 +0000, with comments, zone names and years of two digits */
#define PELZAUNE_ISO8601 3u /* 2021-01-02T03:04:05,25-00:30, 20210102T0304Z, 2020-W53-6, 2020-366 or a time alone */
#define PELZAUNE_RFC3339_STRICT 4u /* 1985-04-12T23:20:50.52Z, but not 1985-04-12_23:20:50.52Z */

/* Values. The padding of a struct is unspecified after a call: compare members, not bytes. */
typedef struct pelzaune_date {
    int32_t year;  /* -999999 to 999999 */
    uint8_t month; /* 1 to 12 */
    uint8_t day;   /* 1 to 31 */
} pelzaune_date;

typedef struct pelzaune_time {
    uint32_t nanosecond; /* 0 to 999999999 */
    uint8_t hour;        /* 0 to 23 */
    uint8_t minute;      /* 0 to 59 */
    uint8_t second;      /* 0 to 59 */
} pelzaune_time;

/* A date and a time without an offset. */
typedef struct pelzaune_local {
    int32_t year;
    uint32_t nanosecond;
    uint8_t month, day, hour, minute, second;
} pelzaune_local;

/* A date and a time with an offset, in seconds ahead of UTC: -93599 to 93599. */
typedef struct pelzaune_moment {
    int32_t year;
    uint32_t nanosecond;
    int32_t offset;
    uint8_t month, day, hour, minute, second;
} pelzaune_moment;

/* An instant, like a struct timespec. */
typedef struct pelzaune_instant {
    int64_t seconds;      /* since 1970-01-01T00:00:00Z, rounded down */
    uint32_t nanoseconds; /* after those, 0 to 999999999 */
} pelzaune_instant;

/* 0, or the number of a kind, below 256, and 256 times the number of the component that it names, from 1 (0: none). */
typedef uint32_t pelzaune_status;
enum {
    PELZAUNE_OK,
    PELZAUNE_INVALID_LITERAL,   /* a required byte is missing */
    PELZAUNE_INVALID_COMPONENT, /* the component can't be parsed */
    PELZAUNE_TRAILING,          /* bytes remain after the value */
    PELZAUNE_INSUFFICIENT,      /* the text has too few components for the value */
    PELZAUNE_RANGE,             /* the component is out of its range */
    PELZAUNE_RANGE_OF_OTHERS,   /* the component is out of the range that others leave, such as 31 in April */
    PELZAUNE_TOO_WIDE,          /* the nanoseconds don't fit 64 bits: before 1677-09-21 or after 2262-04-11 */
    PELZAUNE_UNKNOWN_FORMAT,    /* no format has that number */
    /* errors of a description: */
    PELZAUNE_UNCLOSED_BRACKET,  /* an opening bracket is never closed */
    PELZAUNE_COMPONENT_NAME,    /* no component has that name */
    PELZAUNE_MODIFIER,          /* the component has no such modifier, or the modifier no such value */
    PELZAUNE_MISSING_NAME,      /* brackets without the name of a component */
    PELZAUNE_MISSING_MODIFIER,  /* the component needs a modifier */
    PELZAUNE_EXPECTED,          /* something else is expected */
    PELZAUNE_NOT_SUPPORTED,     /* what no description supports, such as %Z */
    PELZAUNE_TOO_LONG,          /* it has more than 64 steps */
    PELZAUNE_UNKNOWN_SYNTAX,    /* no syntax of descriptions has that number */
    /* errors of a moment that is written: */
    PELZAUNE_NO_TEXT,           /* the format or the description can't write the component */
    PELZAUNE_TEXT_TOO_LONG      /* the text by a description has more than 1024 bytes */
};
#define PELZAUNE_KIND(status) ((status) & 0xffu)
#define PELZAUNE_COMPONENT(status) ((status) >> 8)

/* Each parses the text by a format.
 *
 * `moment` is a date, time and offset; `instant` and `nanoseconds` count that moment from 1970-01-01T00:00:00Z. `local`
 * is the date and time, and drops an offset; `utc` is the date and time in UTC, and takes a text without an offset as
 * UTC. `date`, `time` and `offset` are parts of the text. A leap second, such as 23:59:60, is parsed as the last
 * nanosecond before it if it ends a month in UTC, but `time` and `local` reject it, as do `moment`, `utc`, `instant`
 * and `nanoseconds` by a description without a Unix timestamp. `date` and `offset` drop the second. */
pelzaune_status pelzaune_parse_moment(uint32_t format, const uint8_t *text, size_t length, pelzaune_moment *out);
pelzaune_status pelzaune_parse_local(uint32_t format, const uint8_t *text, size_t length, pelzaune_local *out);
pelzaune_status pelzaune_parse_utc(uint32_t format, const uint8_t *text, size_t length, pelzaune_local *out);
pelzaune_status pelzaune_parse_date(uint32_t format, const uint8_t *text, size_t length, pelzaune_date *out);
pelzaune_status pelzaune_parse_time(uint32_t format, const uint8_t *text, size_t length, pelzaune_time *out);
pelzaune_status pelzaune_parse_offset(uint32_t format, const uint8_t *text, size_t length, int32_t *out);
pelzaune_status pelzaune_parse_instant(uint32_t format, const uint8_t *text, size_t length, pelzaune_instant *out);
pelzaune_status pelzaune_parse_nanoseconds(uint32_t format, const uint8_t *text, size_t length, int64_t *out);

/* What a value needs: a sum of these. `local` needs a date and a time, and `moment` all three. */
#define PELZAUNE_NEEDS_DATE 1u
#define PELZAUNE_NEEDS_TIME 2u
#define PELZAUNE_NEEDS_OFFSET 4u

/* After PELZAUNE_INSUFFICIENT, the missing component: PELZAUNE_INSUFFICIENT + 256 * component, whose text is such as
 * "missing year" or "missing offset". PELZAUNE_OK if nothing is; or the error of a text that isn't parsed. Of
 * several the date's is first, then the time's. If all three are selected, a Unix timestamp gives them. */
pelzaune_status pelzaune_missing(uint32_t needs, uint32_t format, const uint8_t *text, size_t length);

/* The date, the time and the offset of a text. Each has a status of its own: PELZAUNE_OK, or the error with which it is
 * rejected, such as PELZAUNE_INSUFFICIENT. A rejected part is unchanged. */
typedef struct pelzaune_parts {
    pelzaune_date date;
    pelzaune_time time;
    int32_t offset; /* seconds ahead of UTC */
    pelzaune_status date_status, time_status, offset_status;
} pelzaune_parts;

/* Parses the text once, into its parts. Where it isn't parsed as a whole, all of *out is unchanged. */
pelzaune_status pelzaune_parse_parts(uint32_t format, const uint8_t *text, size_t length, pelzaune_parts *out);

/* Syntaxes of descriptions. A call with any other number returns PELZAUNE_UNKNOWN_SYNTAX. */
#define PELZAUNE_BRACKETS_1 1u /* [year]-[month]-[day], version 1: [[ is a literal bracket */
#define PELZAUNE_BRACKETS_2 2u /* [year]-[month]-[day], version 2: \[ is a literal bracket; it also has [optional [..]] and [first [..] [..]] */
#define PELZAUNE_STRFTIME 3u   /* %Y-%m-%d */

/* Checks a description, for instance when a user enters it. Returns PELZAUNE_OK, or the status of its first fault and
 * stores that fault's index in *index, except for PELZAUNE_TOO_LONG and PELZAUNE_UNKNOWN_SYNTAX. Each byte of a literal
 * and each component is a step, as is each optional item, each choice and each list of a choice. A description in
 * brackets of up to 64 bytes always fits. */
pelzaune_status pelzaune_check_description(uint32_t syntax, const uint8_t *description, size_t description_length, size_t *index);

/* Each parses a text by a description, into the value of the function with that name above. A Unix timestamp alone
 * decides `utc`, `moment` (in UTC), `instant` and `nanoseconds`, but a subsecond replaces its fraction; the others drop
 * it. A malformed description has the status of pelzaune_check_description. Each call parses the description again: for
 * many texts by one description see pelzaune_describe. */
pelzaune_status pelzaune_read_moment(uint32_t syntax, const uint8_t *description, size_t description_length,
    const uint8_t *text, size_t length, pelzaune_moment *out);
pelzaune_status pelzaune_read_local(uint32_t syntax, const uint8_t *description, size_t description_length,
    const uint8_t *text, size_t length, pelzaune_local *out);
pelzaune_status pelzaune_read_utc(uint32_t syntax, const uint8_t *description, size_t description_length,
    const uint8_t *text, size_t length, pelzaune_local *out);
pelzaune_status pelzaune_read_date(uint32_t syntax, const uint8_t *description, size_t description_length,
    const uint8_t *text, size_t length, pelzaune_date *out);
pelzaune_status pelzaune_read_time(uint32_t syntax, const uint8_t *description, size_t description_length,
    const uint8_t *text, size_t length, pelzaune_time *out);
pelzaune_status pelzaune_read_offset(uint32_t syntax, const uint8_t *description, size_t description_length,
    const uint8_t *text, size_t length, int32_t *out);
pelzaune_status pelzaune_read_instant(uint32_t syntax, const uint8_t *description, size_t description_length,
    const uint8_t *text, size_t length, pelzaune_instant *out);
pelzaune_status pelzaune_read_nanoseconds(uint32_t syntax, const uint8_t *description, size_t description_length,
    const uint8_t *text, size_t length, int64_t *out);
pelzaune_status pelzaune_read_parts(uint32_t syntax, const uint8_t *description, size_t description_length,
    const uint8_t *text, size_t length, pelzaune_parts *out);

/* What a text is missing, as by pelzaune_missing. */
pelzaune_status pelzaune_read_missing(uint32_t needs, uint32_t syntax, const uint8_t *description, size_t description_length,
    const uint8_t *text, size_t length);

/* A parsed description, for many texts. It has no pointers, so it may be copied as any struct, and nothing has to be
 * freed. Its numbers are internal to the library. Any numbers are a valid description, so a call by them is safe. */
typedef struct pelzaune_description {
    uint64_t numbers[129];
} pelzaune_description;

/* Parses a description. On an error it returns what pelzaune_check_description does, and *out is unchanged. */
pelzaune_status pelzaune_describe(uint32_t syntax, const uint8_t *text, size_t length, pelzaune_description *out, size_t *index);

/* Each parses a text by a parsed description, as pelzaune_read_.. does by the description's text. */
pelzaune_status pelzaune_described_moment(const pelzaune_description *description, const uint8_t *text, size_t length, pelzaune_moment *out);
pelzaune_status pelzaune_described_local(const pelzaune_description *description, const uint8_t *text, size_t length, pelzaune_local *out);
pelzaune_status pelzaune_described_utc(const pelzaune_description *description, const uint8_t *text, size_t length, pelzaune_local *out);
pelzaune_status pelzaune_described_date(const pelzaune_description *description, const uint8_t *text, size_t length, pelzaune_date *out);
pelzaune_status pelzaune_described_time(const pelzaune_description *description, const uint8_t *text, size_t length, pelzaune_time *out);
pelzaune_status pelzaune_described_offset(const pelzaune_description *description, const uint8_t *text, size_t length, int32_t *out);
pelzaune_status pelzaune_described_instant(const pelzaune_description *description, const uint8_t *text, size_t length, pelzaune_instant *out);
pelzaune_status pelzaune_described_nanoseconds(const pelzaune_description *description, const uint8_t *text, size_t length, int64_t *out);
pelzaune_status pelzaune_described_parts(const pelzaune_description *description, const uint8_t *text, size_t length, pelzaune_parts *out);

/* What a text is missing, as by pelzaune_missing. */
pelzaune_status pelzaune_described_missing(uint32_t needs, const pelzaune_description *description, const uint8_t *text, size_t length);

/* Where a text fails: at the start of the expected component, even of a truncated one, at the first byte that doesn't
 * match a literal, or at the first byte too many. */
typedef struct pelzaune_place {
    size_t index; /* the length if the text ends there */
    uint8_t byte; /* the byte of a literal that was expected there, or 0 where none was */
} pelzaune_place;

/* Locates the error of a rejected text, for a message to its author. Returns PELZAUNE_OK and leaves *out unchanged where
 * the whole text is parsed, also where the calendar has no such date. Any other status is what was expected at the
 * place: PELZAUNE_INVALID_LITERAL, PELZAUNE_INVALID_COMPONENT, or PELZAUNE_TRAILING for the end of the text. */
pelzaune_status pelzaune_locate(uint32_t format, const uint8_t *text, size_t length, pelzaune_place *out);
pelzaune_status pelzaune_read_locate(uint32_t syntax, const uint8_t *description, size_t description_length, const uint8_t *text,
    size_t length, pelzaune_place *out);

/* The entry of a rejected line: the least number, which is NaT in numpy's datetime64. It is also the count of one instant,
 * the earliest that fits 64 bits, so test *refused to find out whether a line was rejected. */
#define PELZAUNE_NO_COUNT INT64_MIN

/* Parses each line of a text as pelzaune_parse_nanoseconds does, into the entry at the line's index, for as many lines as
 * there are entries. Stores in *refused how many of these lines are rejected. An entry without a line is unchanged.
 *
 * Returns how many lines the whole text has, so a call without entries, which may be NULL then, counts the lines. A line
 * ends with LF, which is optional after the last one, and with an optional CR before it. */
size_t pelzaune_column(uint32_t format, const uint8_t *text, size_t length, int64_t *entries, size_t capacity, size_t *refused);

/* Does so by a parsed description. */
size_t pelzaune_described_column(const pelzaune_description *description, const uint8_t *text, size_t length, int64_t *entries,
    size_t capacity, size_t *refused);

/* Does so by the text of a description, which is parsed once. A malformed description rejects each line. */
size_t pelzaune_read_column(uint32_t syntax, const uint8_t *description, size_t description_length, const uint8_t *text,
    size_t length, int64_t *entries, size_t capacity, size_t *refused);

/* The longest text of a moment. */
#define PELZAUNE_MOMENT_TEXT 35u

/* Writes a moment in a format over the start of the buffer, truncated to its `capacity` and without a 0 at its end. Stores
 * the length of the whole text in *length. RFC 3339 has as many digits of a fraction as it needs, such as
 * 1985-04-12T23:20:50.52Z, RFC 2822 none, and ISO 8601 nine.
 *
 * On an error *length and the buffer are unchanged. PELZAUNE_RANGE and PELZAUNE_RANGE_OF_OTHERS name a member that is out
 * of its range (`seconds` is the offset). PELZAUNE_NO_TEXT names a component that the format can't write: in RFC 2822 a
 * year before 1900, in the others a year before 0 and an offset of 24 hours, in all a year after 9999 and an offset with
 * seconds. */
pelzaune_status pelzaune_format_moment(uint32_t format, const pelzaune_moment *moment, uint8_t *buffer, size_t capacity, size_t *length);

/* The longest text of a moment by a description. */
#define PELZAUNE_DESCRIBED_TEXT 1024u

/* Does so by a parsed description. The text has all optional items and the first item of each choice, and names are
 * written in their usual case. A fraction without a fixed number of digits has those up to the last that isn't 0, and at
 * least one; a count from 1970 is rounded down. PELZAUNE_NO_TEXT names the year, where a component of the standard range
 * has one outside -9999 to 9999, or an `ignore`, which has no text. A longer text than PELZAUNE_DESCRIBED_TEXT is
 * PELZAUNE_TEXT_TOO_LONG. */
pelzaune_status pelzaune_described_format_moment(const pelzaune_description *description, const pelzaune_moment *moment,
    uint8_t *buffer, size_t capacity, size_t *length);

/* Does so by the text of a description, or returns its error as pelzaune_check_description does. */
pelzaune_status pelzaune_read_format_moment(uint32_t syntax, const uint8_t *description, size_t description_length,
    const pelzaune_moment *moment, uint8_t *buffer, size_t capacity, size_t *length);

/* Writes the text of a status over the start of the buffer, truncated to its `capacity` and without a 0 at its end.
 * Returns the length of the whole text, which is 0 for PELZAUNE_OK and for an unknown kind. */
size_t pelzaune_write_text(pelzaune_status status, uint8_t *buffer, size_t capacity);

/* The text of a status as a C string, which lives as long as the program. */
static inline const char *pelzaune_text(pelzaune_status status)
{
#define PELZAUNE_TEXTS(number, name) \
    case PELZAUNE_INVALID_COMPONENT + 256u * number: return "the '" name "' component could not be parsed"; \
    case PELZAUNE_RANGE + 256u * number: return name " is out of range"; \
    case PELZAUNE_RANGE_OF_OTHERS + 256u * number: return name " is out of range for the other components"; \
    case PELZAUNE_NO_TEXT + 256u * number: return "the '" name "' component has no text in that format";
#define PELZAUNE_NAMED(number, name) \
    PELZAUNE_TEXTS(number, name) \
    case PELZAUNE_INSUFFICIENT + 256u * number: return "missing " name;
    switch (PELZAUNE_KIND(status)) {
    case PELZAUNE_INVALID_LITERAL: return "a character literal was not valid";
    case PELZAUNE_TRAILING: return "unexpected trailing characters; the end of input was expected";
    case PELZAUNE_TOO_WIDE: return "the instant is out of range of 64 bits of nanoseconds";
    case PELZAUNE_UNKNOWN_FORMAT: return "no format has that number";
    case PELZAUNE_UNCLOSED_BRACKET: return "an opening bracket is not closed";
    case PELZAUNE_COMPONENT_NAME: return "no component has that name";
    case PELZAUNE_MODIFIER: return "the component has no such modifier";
    case PELZAUNE_MISSING_NAME: return "brackets have no component name";
    case PELZAUNE_MISSING_MODIFIER: return "a modifier is missing";
    case PELZAUNE_EXPECTED: return "something else is expected";
    case PELZAUNE_NOT_SUPPORTED: return "that is not supported in a description";
    case PELZAUNE_TOO_LONG: return "the description is too long";
    case PELZAUNE_UNKNOWN_SYNTAX: return "no syntax of descriptions has that number";
    case PELZAUNE_TEXT_TOO_LONG: return "the text has more than 1024 bytes";
    default: break;
    }
    switch (status) {
    case PELZAUNE_INSUFFICIENT: return "the `Parsed` struct did not include enough information to construct the type";
    PELZAUNE_TEXTS(0u, "")
    PELZAUNE_NAMED(1u, "year")
    PELZAUNE_NAMED(2u, "month")
    PELZAUNE_NAMED(3u, "day")
    PELZAUNE_NAMED(4u, "ordinal")
    PELZAUNE_NAMED(5u, "weekday")
    PELZAUNE_NAMED(6u, "week")
    PELZAUNE_NAMED(7u, "week number")
    PELZAUNE_NAMED(8u, "hour")
    PELZAUNE_NAMED(9u, "minute")
    PELZAUNE_NAMED(10u, "second")
    PELZAUNE_NAMED(11u, "nanosecond")
    PELZAUNE_NAMED(12u, "subsecond")
    PELZAUNE_TEXTS(13u, "period")
    case PELZAUNE_INSUFFICIENT + 256u * 13u: return "missing AM or PM";
    PELZAUNE_TEXTS(14u, "offset hour")
    case PELZAUNE_INSUFFICIENT + 256u * 14u: return "missing offset";
    PELZAUNE_NAMED(15u, "offset minute")
    PELZAUNE_NAMED(16u, "offset second")
    PELZAUNE_NAMED(17u, "hours")
    PELZAUNE_NAMED(18u, "minutes")
    PELZAUNE_NAMED(19u, "seconds")
    PELZAUNE_NAMED(20u, "timestamp")
    PELZAUNE_NAMED(21u, "unix_timestamp")
    PELZAUNE_NAMED(22u, "separator")
    PELZAUNE_NAMED(23u, "ignore")
    default: return "";
    }
#undef PELZAUNE_NAMED
#undef PELZAUNE_TEXTS
}

#ifdef __cplusplus
}
#endif
#endif
