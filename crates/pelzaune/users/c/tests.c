/* Tests of the calls that parse. Prints 'N passed, M failed'. */
#include "check.h"
#include <errno.h>
#include <pthread.h>
#include <time.h>

static int is_same(const pelzaune_moment *m, const pelzaune_moment *other)
{
    return m->year == other->year && m->month == other->month && m->day == other->day && m->hour == other->hour
        && m->minute == other->minute && m->second == other->second && m->nanosecond == other->nanosecond
        && m->offset == other->offset;
}

/* The Unix seconds of a moment, by the C library. */
static int64_t seconds_of(const pelzaune_moment *m)
{
    struct tm tm = { .tm_year = m->year - 1900, .tm_mon = m->month - 1, .tm_mday = m->day,
        .tm_hour = m->hour, .tm_min = m->minute, .tm_sec = m->second };
    return (int64_t)timegm(&tm) - m->offset;
}

/* Checks that all values of a text agree with its moment. A leap second has no local time: then `is_leap`. */
static int agree(const row *it, const uint8_t *text, size_t length, int is_leap)
{
    const pelzaune_moment *m = &it->value;
    pelzaune_instant instant;
    pelzaune_local local, utc;
    pelzaune_date date;
    pelzaune_time time;
    int32_t offset;
    int64_t nanoseconds, seconds = seconds_of(m);
    int right = pelzaune_parse_instant(it->format, text, length, &instant) == PELZAUNE_OK
        && instant.seconds == seconds && instant.nanoseconds == m->nanosecond;
    right &= pelzaune_parse_date(it->format, text, length, &date) == PELZAUNE_OK
        && date.year == m->year && date.month == m->month && date.day == m->day;
    right &= pelzaune_parse_offset(it->format, text, length, &offset) == PELZAUNE_OK && offset == m->offset;
    right &= pelzaune_parse_utc(it->format, text, length, &utc) == PELZAUNE_OK;
    pelzaune_moment in_utc = { utc.year, utc.nanosecond, 0, utc.month, utc.day, utc.hour, utc.minute, utc.second };
    right &= seconds_of(&in_utc) == seconds && utc.nanosecond == m->nanosecond;
    pelzaune_status count = pelzaune_parse_nanoseconds(it->format, text, length, &nanoseconds);
    if (seconds > INT64_MAX / 1000000000 || seconds < INT64_MIN / 1000000000) right &= count == PELZAUNE_TOO_WIDE;
    else right &= count == PELZAUNE_OK && nanoseconds == seconds * 1000000000 + m->nanosecond;
    pelzaune_status shown = pelzaune_parse_local(it->format, text, length, &local);
    pelzaune_status clock = pelzaune_parse_time(it->format, text, length, &time);
    if (is_leap) return right && PELZAUNE_KIND(shown) == PELZAUNE_RANGE && PELZAUNE_KIND(clock) == PELZAUNE_RANGE;
    right &= shown == PELZAUNE_OK && local.year == m->year && local.month == m->month && local.day == m->day
        && local.hour == m->hour && local.minute == m->minute && local.second == m->second;
    return right && clock == PELZAUNE_OK && time.hour == m->hour && time.minute == m->minute
        && time.second == m->second && time.nanosecond == m->nanosecond && local.nanosecond == m->nanosecond;
}

/* Checks every prefix of a text, at the end of the page and at its start. An error leaves the output unchanged. */
static int beginnings(const row *it)
{
    pelzaune_moment kept = { 7, 7, 7, 7, 7, 7, 7, 7 };
    int shorter = 0, same = 1;
    for (size_t length = 0; length < strlen(it->text); length++) {
        pelzaune_moment m = kept, other = kept;
        pelzaune_status status = pelzaune_parse_moment(it->format, at_end(it->text, length), length, &m);
        same &= pelzaune_parse_moment(it->format, at_front(it->text, length), length, &other) == status;
        same &= is_same(&m, &other) && (status == PELZAUNE_OK || is_same(&m, &kept));
        shorter += status == PELZAUNE_OK;
    }
    return same && shorter == it->shorter;
}

static void test_rows(void)
{
    EXPECT(ROWS == 24);
    for (const row *it = rows; it < rows + ROWS; it++) {
        size_t length = strlen(it->text);
        pelzaune_moment m;
        pelzaune_status status = pelzaune_parse_moment(it->format, at_end(it->text, length), length, &m);
        expect(status == PELZAUNE_OK && is_same(&m, &it->value), it->text, __LINE__);
        expect(agree(it, at_end(it->text, length), length, strstr(it->text, ":60") != NULL), it->text, __LINE__);
        expect(beginnings(it), it->text, __LINE__);
    }
}

/* The parts of a text, and the statuses of those that it doesn't have. */
static void test_parts(void)
{
    pelzaune_parts p = { { 7, 7, 7 }, { 7, 7, 7, 7 }, 7, 7, 7, 7 };
    EXPECT(pelzaune_parse_parts(PELZAUNE_RFC3339, TEXT("2021-01-02T03:04:05.5-00:30"), &p) == PELZAUNE_OK);
    EXPECT(p.date_status == 0 && p.date.year == 2021 && p.date.month == 1 && p.date.day == 2);
    EXPECT(p.time_status == 0 && p.time.hour == 3 && p.time.minute == 4 && p.time.second == 5 && p.time.nanosecond == 500000000);
    EXPECT(p.offset_status == 0 && p.offset == -1800);
    pelzaune_parts kept = p;
    EXPECT(pelzaune_parse_parts(PELZAUNE_RFC3339, TEXT("2022-02-03T04:05:06Zx"), &p) == PELZAUNE_TRAILING);
    EXPECT(pelzaune_parse_parts(0, TEXT("2022-02-03T04:05:06Z"), &p) == PELZAUNE_UNKNOWN_FORMAT);
    EXPECT(memcmp(&p, &kept, sizeof p) == 0);
    EXPECT(pelzaune_parse_parts(PELZAUNE_ISO8601, TEXT("2020-W53-5"), &p) == PELZAUNE_OK);
    EXPECT(p.date_status == 0 && p.date.year == 2021 && p.date.month == 1 && p.date.day == 1);
    EXPECT(p.time_status == PELZAUNE_INSUFFICIENT && p.offset_status == PELZAUNE_INSUFFICIENT);
    EXPECT(p.time.second == 5 && p.offset == -1800);
    EXPECT(pelzaune_parse_parts(PELZAUNE_ISO8601, TEXT("T06:07+01"), &p) == PELZAUNE_OK);
    EXPECT(p.date_status == PELZAUNE_INSUFFICIENT && p.time_status == 0 && p.time.hour == 6 && p.time.minute == 7);
    EXPECT(p.offset_status == 0 && p.offset == 3600 && p.date.day == 1);
    EXPECT(pelzaune_parse_parts(PELZAUNE_RFC3339, TEXT("2021-02-30T23:59:60Z"), &p) == PELZAUNE_OK);
    EXPECT(p.date_status == PELZAUNE_RANGE_OF_OTHERS + 256 * 3 && p.time_status == PELZAUNE_RANGE + 256 * 10 && p.offset == 0);
}

static void test_refusals(void)
{
    pelzaune_moment m;
    pelzaune_date d;
    pelzaune_time t;
    pelzaune_local l;
    EXPECT(pelzaune_parse_moment(PELZAUNE_RFC3339, TEXT("1985-04-31T23:20:50Z"), &m) == PELZAUNE_RANGE_OF_OTHERS + 256 * 3);
    EXPECT(pelzaune_parse_moment(PELZAUNE_RFC3339, TEXT("1985-13-01T23:20:50Z"), &m) == PELZAUNE_RANGE + 256 * 2);
    EXPECT(pelzaune_parse_moment(PELZAUNE_RFC3339, TEXT("x"), &m) == PELZAUNE_INVALID_COMPONENT + 256 * 1);
    EXPECT(pelzaune_parse_moment(PELZAUNE_RFC3339, TEXT("1985-04-12T23:20:50Zx"), &m) == PELZAUNE_TRAILING);
    EXPECT(pelzaune_parse_moment(PELZAUNE_RFC3339, TEXT("1985/04-12T23:20:50Z"), &m) == PELZAUNE_INVALID_LITERAL);
    EXPECT(pelzaune_parse_moment(PELZAUNE_ISO8601, TEXT("2020-W53-6T03:04:05"), &m) == PELZAUNE_INSUFFICIENT);
    EXPECT(pelzaune_parse_utc(PELZAUNE_ISO8601, TEXT("2020-W53-6T03:04:05"), &l) == PELZAUNE_OK && l.hour == 3);
    EXPECT(pelzaune_parse_date(PELZAUNE_ISO8601, TEXT("2021-02-29"), &d) == PELZAUNE_RANGE_OF_OTHERS + 256 * 3);
    EXPECT(pelzaune_parse_date(PELZAUNE_ISO8601, TEXT("2020-02-29"), &d) == PELZAUNE_OK && d.day == 29);
    EXPECT(pelzaune_parse_time(PELZAUNE_ISO8601, TEXT("T03:04"), &t) == PELZAUNE_OK && t.hour == 3 && t.minute == 4);
    EXPECT(pelzaune_parse_time(PELZAUNE_RFC3339, TEXT("2016-12-31T23:59:60Z"), &t) == PELZAUNE_RANGE + 256 * 10);
    EXPECT(pelzaune_parse_moment(5, TEXT("1985-04-12T23:20:50Z"), &m) == PELZAUNE_UNKNOWN_FORMAT);
    for (uint32_t format = 8; format; format <<= 1)
        EXPECT(pelzaune_parse_moment(format, TEXT("1985-04-12T23:20:50Z"), &m) == PELZAUNE_UNKNOWN_FORMAT);
    EXPECT(pelzaune_parse_date(0, TEXT("1985-04-12"), &d) == PELZAUNE_UNKNOWN_FORMAT);
}

/* Whether each call that parses a text returns that status. */
static int has_status(uint32_t format, const char *text, pelzaune_status wanted)
{
    size_t length = strlen(text);
    const uint8_t *bytes = at_end(text, length);
    pelzaune_moment m;
    pelzaune_local l;
    pelzaune_date d;
    pelzaune_time t;
    pelzaune_instant i;
    pelzaune_parts p;
    int32_t offset;
    int64_t n;
    return pelzaune_parse_moment(format, bytes, length, &m) == wanted && pelzaune_parse_local(format, bytes, length, &l) == wanted
        && pelzaune_parse_utc(format, bytes, length, &l) == wanted && pelzaune_parse_date(format, bytes, length, &d) == wanted
        && pelzaune_parse_time(format, bytes, length, &t) == wanted && pelzaune_parse_offset(format, bytes, length, &offset) == wanted
        && pelzaune_parse_instant(format, bytes, length, &i) == wanted && pelzaune_parse_nanoseconds(format, bytes, length, &n) == wanted
        && pelzaune_parse_parts(format, bytes, length, &p) == wanted;
}

/* Between date and time PELZAUNE_RFC3339 accepts any byte, and PELZAUNE_RFC3339_STRICT only `T`, `t` or a space. */
static void test_separators(void)
{
    enum { NO_MONTH = PELZAUNE_INVALID_COMPONENT + 256 * 2, NO_SEPARATOR = PELZAUNE_INVALID_COMPONENT + 256 * 22 };
    for (int byte = 1; byte < 256; byte++) {
        char text[] = "1985-04-12T23:20:50Z";
        text[10] = (char)byte;
        expect(has_status(PELZAUNE_RFC3339, text, PELZAUNE_OK), text, __LINE__);
        expect(has_status(PELZAUNE_RFC3339_STRICT, text, strchr("Tt ", byte) ? PELZAUNE_OK : NO_SEPARATOR), text, __LINE__);
    }
    EXPECT(has_status(PELZAUNE_RFC3339_STRICT, "1985-04-12", NO_SEPARATOR));
    pelzaune_place p;
    EXPECT(pelzaune_locate(PELZAUNE_RFC3339_STRICT, TEXT("1985-04-12t23:20:50Z"), &p) == PELZAUNE_OK);
    EXPECT(pelzaune_locate(PELZAUNE_RFC3339_STRICT, TEXT("1985-04-12923:20:50Z"), &p) == NO_SEPARATOR && p.index == 10 && p.byte == 0);
    EXPECT(pelzaune_locate(PELZAUNE_RFC3339_STRICT, TEXT("1985-04-12_23:20:50Z"), &p) == NO_SEPARATOR && p.index == 10 && p.byte == 0);
    EXPECT(pelzaune_locate(PELZAUNE_RFC3339_STRICT, TEXT("1985-04-12T23:20:50Zx"), &p) == PELZAUNE_TRAILING && p.index == 20);
    EXPECT(pelzaune_locate(PELZAUNE_RFC3339, TEXT("1985-04-12923:20:50Z"), &p) == PELZAUNE_OK);
    /* The month is before the separator. A moment's parse tests the places of a text before their ranges. */
    pelzaune_moment m;
    pelzaune_date d;
    EXPECT(pelzaune_parse_moment(PELZAUNE_RFC3339_STRICT, TEXT("1985-13-12923:20:50Z"), &m) == NO_SEPARATOR);
    EXPECT(pelzaune_parse_date(PELZAUNE_RFC3339_STRICT, TEXT("1985-13-12923:20:50Z"), &d) == NO_MONTH);
    EXPECT(pelzaune_locate(PELZAUNE_RFC3339_STRICT, TEXT("1985-13-12923:20:50Z"), &p) == NO_MONTH && p.index == 5 && p.byte == 0);
}

#define YMD DESCRIPTION("[year]-[month]-[day]")
#define LOG DESCRIPTION("%d/%b/%Y:%H:%M:%S %z")

static void test_descriptions(void)
{
    pelzaune_date d = { 7, 7, 7 };
    EXPECT(pelzaune_read_date(PELZAUNE_BRACKETS_2, YMD, TEXT("2021-03-04"), &d) == PELZAUNE_OK && d.year == 2021 && d.month == 3 && d.day == 4);
    EXPECT(pelzaune_read_date(PELZAUNE_BRACKETS_1, YMD, TEXT("2021-12-31"), &d) == PELZAUNE_OK && d.month == 12 && d.day == 31);
    EXPECT(pelzaune_read_date(PELZAUNE_STRFTIME, DESCRIPTION("%Y-%m-%d"), TEXT("2020-02-29"), &d) == PELZAUNE_OK && d.day == 29);
    EXPECT(pelzaune_read_date(PELZAUNE_STRFTIME, DESCRIPTION("%Y-%m-%d"), TEXT("2021-02-29"), &d) == PELZAUNE_RANGE_OF_OTHERS + 256 * 3);
    EXPECT(pelzaune_read_date(PELZAUNE_BRACKETS_2, YMD, TEXT("2021-13-04"), &d) == PELZAUNE_INVALID_COMPONENT + 256 * 2);
    EXPECT(pelzaune_read_date(PELZAUNE_BRACKETS_2, YMD, TEXT("2021/03/04"), &d) == PELZAUNE_INVALID_LITERAL);
    EXPECT(pelzaune_read_date(PELZAUNE_BRACKETS_2, YMD, TEXT("2021-03-04 "), &d) == PELZAUNE_TRAILING);
    EXPECT(pelzaune_read_date(PELZAUNE_BRACKETS_2, DESCRIPTION("[year]-[month]"), TEXT("2021-03"), &d) == PELZAUNE_INSUFFICIENT);
    EXPECT(pelzaune_read_date(PELZAUNE_BRACKETS_2, DESCRIPTION("[yaer]"), TEXT("2021"), &d) == PELZAUNE_COMPONENT_NAME);
    EXPECT(pelzaune_read_date(4, YMD, TEXT("2021-03-04"), &d) == PELZAUNE_UNKNOWN_SYNTAX && d.day == 29);
    pelzaune_moment m;
    EXPECT(pelzaune_read_moment(PELZAUNE_STRFTIME, LOG, TEXT("02/Jan/2021:03:04:05 -0030"), &m) == PELZAUNE_OK);
    EXPECT(m.year == 2021 && m.month == 1 && m.day == 2 && m.hour == 3 && m.second == 5 && m.offset == -1800);
    /* 2021-01-02T03:34:05Z: 18629 days after 1970-01-01, of 86400 seconds, and 12845 seconds */
    pelzaune_instant i;
    int64_t n, log = 18629 * INT64_C(86400) + 12845;
    EXPECT(pelzaune_read_instant(PELZAUNE_STRFTIME, LOG, TEXT("02/Jan/2021:03:04:05 -0030"), &i) == PELZAUNE_OK && i.seconds == log);
    EXPECT(pelzaune_read_nanoseconds(PELZAUNE_STRFTIME, LOG, TEXT("02/Jan/2021:03:04:05 -0030"), &n) == PELZAUNE_OK && n == log * 1000000000);
    EXPECT(pelzaune_read_nanoseconds(PELZAUNE_BRACKETS_2, DESCRIPTION("[unix_timestamp]"), TEXT("-1"), &n) == PELZAUNE_OK && n == -1000000000);
    pelzaune_local l;
    EXPECT(pelzaune_read_utc(PELZAUNE_BRACKETS_2, DESCRIPTION("[unix_timestamp]"), TEXT("86400"), &l) == PELZAUNE_OK && l.year == 1970 && l.day == 2);
    EXPECT(pelzaune_read_local(PELZAUNE_STRFTIME, LOG, TEXT("02/Jan/2021:03:04:05 -0030"), &l) == PELZAUNE_OK && l.hour == 3 && l.minute == 4);
    pelzaune_time t;
    EXPECT(pelzaune_read_time(PELZAUNE_BRACKETS_2, DESCRIPTION("[hour repr:12 padding:none]:[minute][optional [:[second]]] [period]"), TEXT("1:05 PM"), &t)
        == PELZAUNE_OK && t.hour == 13 && t.minute == 5 && t.second == 0);
    int32_t offset;
    EXPECT(pelzaune_read_offset(PELZAUNE_STRFTIME, DESCRIPTION("%z"), TEXT("+0530"), &offset) == PELZAUNE_OK && offset == 19800);
    pelzaune_parts p;
    EXPECT(pelzaune_read_parts(PELZAUNE_STRFTIME, DESCRIPTION("%H:%M"), TEXT("23:59"), &p) == PELZAUNE_OK && p.time.hour == 23);
    EXPECT(p.date_status == PELZAUNE_INSUFFICIENT && p.time_status == PELZAUNE_OK && p.offset_status == PELZAUNE_INSUFFICIENT);
}

/* Malformed descriptions, and the index of the first fault of each. */
static void test_faults(void)
{
    size_t index = 77;
    EXPECT(pelzaune_check_description(PELZAUNE_BRACKETS_2, YMD, &index) == PELZAUNE_OK && index == 77);
    EXPECT(pelzaune_check_description(PELZAUNE_STRFTIME, NULL, 0, &index) == PELZAUNE_OK && index == 77);
    EXPECT(pelzaune_check_description(0, YMD, &index) == PELZAUNE_UNKNOWN_SYNTAX && index == 77);
    EXPECT(pelzaune_check_description(PELZAUNE_BRACKETS_2, DESCRIPTION("[year]-[month"), &index) == PELZAUNE_UNCLOSED_BRACKET && index == 7);
    EXPECT(pelzaune_check_description(PELZAUNE_BRACKETS_2, DESCRIPTION("at [yaer]"), &index) == PELZAUNE_COMPONENT_NAME && index == 4);
    EXPECT(pelzaune_check_description(PELZAUNE_BRACKETS_2, DESCRIPTION("[day padding:two]"), &index) == PELZAUNE_MODIFIER && index == 13);
    EXPECT(pelzaune_check_description(PELZAUNE_BRACKETS_2, DESCRIPTION("[year][]"), &index) == PELZAUNE_MISSING_NAME && index == 6);
    EXPECT(pelzaune_check_description(PELZAUNE_BRACKETS_2, DESCRIPTION("[ignore]"), &index) == PELZAUNE_MISSING_MODIFIER && index == 1);
    EXPECT(pelzaune_check_description(PELZAUNE_BRACKETS_2, DESCRIPTION("a\\b"), &index) == PELZAUNE_EXPECTED && index == 2);
    EXPECT(pelzaune_check_description(PELZAUNE_STRFTIME, DESCRIPTION("%Y %Z"), &index) == PELZAUNE_NOT_SUPPORTED && index == 3);
    index = 77;
    char long_text[65];
    memset(long_text, '-', sizeof long_text);
    EXPECT(pelzaune_check_description(PELZAUNE_BRACKETS_2, described(long_text, 64), 64, &index) == PELZAUNE_OK);
    EXPECT(pelzaune_check_description(PELZAUNE_BRACKETS_2, described(long_text, 65), 65, &index) == PELZAUNE_TOO_LONG && index == 77);
    for (uint32_t syntax = 1; syntax <= 3; syntax++)
        for (size_t length = 0; length <= 20; length++)
            (void)pelzaune_check_description(syntax, described("[year]-[month]-%Y-%z", length), length, &index);
}

/* Where texts fail: in 2021-13-02 the month starts at byte 5. */
static void test_places(void)
{
    pelzaune_place p = { 77, 7 };
    EXPECT(pelzaune_locate(PELZAUNE_RFC3339, TEXT("2021-01-02T03:04:05Z"), &p) == PELZAUNE_OK);
    EXPECT(pelzaune_locate(PELZAUNE_RFC3339, TEXT("2021-02-30T03:04:05Z"), &p) == PELZAUNE_OK);
    EXPECT(pelzaune_locate(PELZAUNE_RFC2822, TEXT("Sat, 02 Jan 2021 03:04:05 +0607"), &p) == PELZAUNE_OK);
    EXPECT(pelzaune_locate(PELZAUNE_ISO8601, TEXT("2021-01-02"), &p) == PELZAUNE_OK);
    EXPECT(pelzaune_locate(5, TEXT("2021-13-02"), &p) == PELZAUNE_UNKNOWN_FORMAT && p.index == 77 && p.byte == 7);
    /* 20:21 at the offset -13, after which "-02" remains. */
    EXPECT(pelzaune_locate(PELZAUNE_ISO8601, TEXT("2021-13-02"), &p) == PELZAUNE_TRAILING && p.index == 7 && p.byte == 0);
    EXPECT(pelzaune_locate(PELZAUNE_RFC3339, TEXT("2021-13-02T03:04:05Z"), &p) == PELZAUNE_INVALID_COMPONENT + 256 * 2 && p.index == 5 && p.byte == 0);
    EXPECT(pelzaune_locate(PELZAUNE_RFC3339, TEXT("2021/13-02T03:04:05Z"), &p) == PELZAUNE_INVALID_LITERAL && p.index == 4 && p.byte == '-');
    EXPECT(pelzaune_locate(PELZAUNE_RFC3339, TEXT("2021-01-02T03:04:05Zx"), &p) == PELZAUNE_TRAILING && p.index == 20 && p.byte == 0);
    EXPECT(pelzaune_locate(PELZAUNE_RFC3339, NULL, 0, &p) == PELZAUNE_INVALID_COMPONENT + 256 * 1 && p.index == 0);
    EXPECT(pelzaune_locate(PELZAUNE_RFC2822, TEXT("02 Jan 2021 03:04:05 +0607 x"), &p) == PELZAUNE_TRAILING && p.byte == 0);
    EXPECT(pelzaune_locate(PELZAUNE_RFC2822, TEXT("Sat 02 Jan 2021 03:04 +0607"), &p) == PELZAUNE_INVALID_LITERAL && p.index == 3 && p.byte == ',');
    EXPECT(pelzaune_locate(PELZAUNE_RFC2822, TEXT("02 Jan 2021 03:04: +0607"), &p) == PELZAUNE_INVALID_COMPONENT + 256 * 10 && p.index == 19);
    EXPECT(pelzaune_read_locate(PELZAUNE_BRACKETS_2, DESCRIPTION("[year]-W[day]"), TEXT("2021-w02"), &p) == PELZAUNE_INVALID_LITERAL && p.index == 5
        && p.byte == 'W');
    EXPECT(pelzaune_read_locate(PELZAUNE_BRACKETS_2, YMD, TEXT("2021-13-02"), &p) == PELZAUNE_INVALID_COMPONENT + 256 * 2 && p.index == 5);
    EXPECT(pelzaune_read_locate(PELZAUNE_BRACKETS_1, YMD, TEXT("2021-13"), &p) == PELZAUNE_INVALID_COMPONENT + 256 * 2 && p.index == 5);
    EXPECT(pelzaune_read_locate(PELZAUNE_STRFTIME, LOG, TEXT("02/Jan-2021:03:04:05 -0030"), &p) == PELZAUNE_INVALID_LITERAL && p.index == 6
        && p.byte == '/');
    EXPECT(pelzaune_read_locate(PELZAUNE_STRFTIME, LOG, TEXT("02/Jan"), &p) == PELZAUNE_INVALID_LITERAL && p.index == 6 && p.byte == '/');
    p.index = 77, p.byte = 7;
    EXPECT(pelzaune_read_locate(PELZAUNE_STRFTIME, LOG, TEXT("02/Jan/2021:03:04:05 -0030"), &p) == PELZAUNE_OK);
    EXPECT(pelzaune_read_locate(PELZAUNE_BRACKETS_2, DESCRIPTION("[yaer]"), TEXT("2021"), &p) == PELZAUNE_COMPONENT_NAME);
    EXPECT(pelzaune_read_locate(0, YMD, TEXT("2021"), &p) == PELZAUNE_UNKNOWN_SYNTAX && p.index == 77 && p.byte == 7);
}

/* The limits of 64 bits, 2^63 nanoseconds before and after 1970, and the first and the last moment: year -999999 starts
 * 365961662 days before 1970, and the last year ends 730484634 days after it. */
static void test_limits(void)
{
    int64_t n;
    EXPECT(pelzaune_parse_nanoseconds(PELZAUNE_RFC3339, TEXT("2262-04-11T23:47:16.854775807Z"), &n) == 0 && n == INT64_MAX);
    EXPECT(pelzaune_parse_nanoseconds(PELZAUNE_RFC3339, TEXT("1677-09-21T00:12:43.145224192Z"), &n) == 0 && n == INT64_MIN);
    n = 7;
    EXPECT(pelzaune_parse_nanoseconds(PELZAUNE_RFC3339, TEXT("2262-04-11T23:47:16.854775808Z"), &n) == PELZAUNE_TOO_WIDE);
    EXPECT(pelzaune_parse_nanoseconds(PELZAUNE_RFC3339, TEXT("1677-09-21T00:12:43.145224191Z"), &n) == PELZAUNE_TOO_WIDE);
    EXPECT(pelzaune_parse_nanoseconds(PELZAUNE_RFC3339, TEXT("1970-02-30T00:00:00Z"), &n) == PELZAUNE_RANGE_OF_OTHERS + 256 * 3);
    EXPECT(n == 7);
    pelzaune_instant i;
    EXPECT(pelzaune_parse_instant(PELZAUNE_ISO8601, TEXT("-999999-01-01T00:00:00Z"), &i) == 0 && i.seconds == -365961662 * INT64_C(86400));
    EXPECT(pelzaune_parse_instant(PELZAUNE_ISO8601, TEXT("+999999-12-31T23:59:59Z"), &i) == 0
        && i.seconds == (730484634 - 365961662) * INT64_C(86400) - 1);
    EXPECT(pelzaune_parse_instant(PELZAUNE_RFC3339, TEXT("1969-12-31T23:59:59.9Z"), &i) == 0 && i.seconds == -1 && i.nanoseconds == 900000000);
}

/* Each call rejects an empty text, also one at NULL, and writes nothing. */
static int refuses_no_bytes(uint32_t format, const uint8_t *text)
{
    pelzaune_moment m = { 7, 7, 7, 7, 7, 7, 7, 7 };
    pelzaune_local l = { 7, 7, 7, 7, 7, 7, 7 };
    pelzaune_date d = { 7, 7, 7 };
    pelzaune_time t = { 7, 7, 7, 7 };
    pelzaune_instant i = { 7, 7 };
    int32_t offset = 7;
    int64_t n = 7;
    int refused = pelzaune_parse_moment(format, text, 0, &m) && pelzaune_parse_local(format, text, 0, &l)
        && pelzaune_parse_utc(format, text, 0, &l) && pelzaune_parse_date(format, text, 0, &d)
        && pelzaune_parse_time(format, text, 0, &t) && pelzaune_parse_offset(format, text, 0, &offset)
        && pelzaune_parse_instant(format, text, 0, &i) && pelzaune_parse_nanoseconds(format, text, 0, &n);
    return refused && m.day == 7 && l.day == 7 && d.day == 7 && t.hour == 7 && i.seconds == 7 && offset == 7 && n == 7;
}

static void test_no_bytes(void)
{
    for (uint32_t format = 0; format <= 5; format++) {
        EXPECT(refuses_no_bytes(format, page + PAGE));
        EXPECT(refuses_no_bytes(format, NULL));
    }
}

/* Texts of the letters of dates: no call reads before or after them, and no error writes. */
static void test_made_texts(void)
{
    static const char letters[] = "0123456789012345678901234567890123456789-:.,TZWz+() JanSat";
    uint64_t seed = 3339;
    int right = 1;
    for (int round = 0; round < 60000; round++) {
        char text[40];
        size_t length = 0;
        for (int wanted = (int)(seed >> 40) % 40; (int)length < wanted; length++) {
            seed = seed * UINT64_C(6364136223846793005) + 1442695040888963407;
            text[length] = letters[(seed >> 33) % (sizeof letters - 1)];
        }
        seed = seed * UINT64_C(6364136223846793005) + 1442695040888963407;
        uint32_t format = 1 + (uint32_t)round % 4;
        pelzaune_moment m = { 7, 7, 7, 7, 7, 7, 7, 7 };
        pelzaune_time t = { 7, 7, 7, 7 };
        if (pelzaune_parse_moment(format, at_end(text, length), length, &m)) right &= m.year == 7 && m.second == 7;
        if (pelzaune_parse_time(format, at_front(text, length), length, &t)) right &= t.hour == 7 && t.second == 7;
    }
    EXPECT(right);
}

/* The texts of the header equal those of the library, for each kind and component. */
static void test_texts(void)
{
    int right = 1;
    for (uint32_t kind = 0; kind < 256; kind++)
        for (uint32_t component = 0; component < 24; component++) {
            uint8_t text[128];
            const char *other = pelzaune_text(kind + 256 * component);
            size_t length = pelzaune_write_text(kind + 256 * component, text, sizeof text);
            right &= length == strlen(other) && memcmp(text, other, length) == 0;
        }
    EXPECT(right);
    uint8_t few[] = "....";
    EXPECT(pelzaune_write_text(PELZAUNE_TRAILING, few, 3) == 61 && memcmp(few, "une.", 4) == 0);
    EXPECT(pelzaune_write_text(PELZAUNE_RANGE + 256, few, 4) == 20 && memcmp(few, "year", 4) == 0);
    EXPECT(pelzaune_write_text(PELZAUNE_TEXT_TOO_LONG, NULL, 0) == 33 && pelzaune_write_text(PELZAUNE_TEXT_TOO_LONG + 256, NULL, 0) == 33);
    EXPECT(pelzaune_write_text(PELZAUNE_OK, few, 4) == 0 && pelzaune_write_text(20, few, 4) == 0 && memcmp(few, "year", 4) == 0);
    EXPECT(pelzaune_write_text(PELZAUNE_TRAILING, NULL, 0) == 61);
    EXPECT(pelzaune_write_text(PELZAUNE_TRAILING, page + PAGE - 61, 61) == 61 && memcmp(page + PAGE - 8, "expected", 8) == 0);
}

/* Parses the seconds of a minute repeatedly, beside three other threads that do so too. */
static void *parse_minutes(void *unused)
{
    uintptr_t wrong = 0;
    (void)unused;
    for (int second = 0; second < 20000; second++) {
        pelzaune_moment m;
        char text[] = "2021-01-02T03:04:05.123456789+05:30";
        text[17] = (char)('0' + second / 10 % 6);
        text[18] = (char)('0' + second % 10);
        wrong += pelzaune_parse_moment(PELZAUNE_RFC3339, (const uint8_t *)text, sizeof text - 1, &m) || m.second != second % 60;
    }
    return (void *)wrong;
}

static void test_threads(void)
{
    pthread_t threads[4];
    for (int k = 0; k < 4; k++) EXPECT(pthread_create(&threads[k], NULL, parse_minutes, NULL) == 0);
    for (int k = 0; k < 4; k++) {
        void *wrong;
        EXPECT(pthread_join(threads[k], &wrong) == 0 && wrong == NULL);
    }
}

int main(void)
{
    if (!has_pages()) return 2;
    EXPECT(pelzaune_version() == PELZAUNE_VERSION);
    EXPECT(sizeof(pelzaune_date) == 8 && sizeof(pelzaune_time) == 8 && sizeof(pelzaune_local) == 16);
    EXPECT(sizeof(pelzaune_moment) == 20 && sizeof(pelzaune_instant) == 16 && sizeof(pelzaune_parts) == 32 && sizeof(pelzaune_place) == 16);
    errno = 77;
    test_rows();
    test_parts();
    test_refusals();
    test_separators();
    test_descriptions();
    test_faults();
    test_places();
    test_limits();
    test_no_bytes();
    test_made_texts();
    test_texts();
    EXPECT(errno == 77);
    test_threads();
    printf("%d passed, %d failed\n", passed, failed);
    return failed != 0;
}
