/* Tests of moments of RFC 3339 at the limits of the fast path. Prints 'N passed, M failed'. */
#include "check.h"

enum { YEAR = 256 * 1, MONTH = 256 * 2, DAY = 256 * 3, HOUR = 256 * 8, MINUTE = 256 * 9, SECOND = 256 * 10, SUBSECOND = 256 * 12,
    OFFSET_HOUR = 256 * 14, OFFSET_MINUTE = 256 * 15, MINUTES = 256 * 18, SEPARATOR = 256 * 22 };

/* A text, its status, and its moment where it has one. */
typedef struct {
    const char *text;
    pelzaune_status status;
    pelzaune_moment value; /* year, nanosecond, offset, month, day, hour, minute, second */
} border;
static const border borders[] = {
    { "2021-01-02T03:04:05Z", 0, { 2021, 0, 0, 1, 2, 3, 4, 5 } },
    { "2021-01-02t03:04:05z", 0, { 2021, 0, 0, 1, 2, 3, 4, 5 } },
    { "2021-01-02\n03:04:05Z", 0, { 2021, 0, 0, 1, 2, 3, 4, 5 } },
    { "0000-01-01T00:00:00Z", 0, { 0, 0, 0, 1, 1, 0, 0, 0 } },
    { "9999-12-31T23:59:59.999999999+23:59", 0, { 9999, 999999999, 86340, 12, 31, 23, 59, 59 } },
    { "9999-12-31T23:59:59.999999999-23:59", 0, { 9999, 999999999, -86340, 12, 31, 23, 59, 59 } },
    { "2021-10-20T19:29:39-00:00", 0, { 2021, 0, 0, 10, 20, 19, 29, 39 } },
    { "2021-10-20T19:29:39-00:01", 0, { 2021, 0, -60, 10, 20, 19, 29, 39 } },
    { "2021-10-20T19:29:39+01:00", 0, { 2021, 0, 3600, 10, 20, 19, 29, 39 } },
    { "2021-10-20T19:29:39.0Z", 0, { 2021, 0, 0, 10, 20, 19, 29, 39 } },
    { "2021-10-20T19:29:39.12Z", 0, { 2021, 120000000, 0, 10, 20, 19, 29, 39 } },
    { "2021-10-20T19:29:39.123Z", 0, { 2021, 123000000, 0, 10, 20, 19, 29, 39 } },
    { "2021-10-20T19:29:39.123456-05:30", 0, { 2021, 123456000, -19800, 10, 20, 19, 29, 39 } },
    { "2021-10-20T19:29:39.000000001Z", 0, { 2021, 1, 0, 10, 20, 19, 29, 39 } },
    { "2021-10-20T19:29:39.1234567899Z", 0, { 2021, 123456789, 0, 10, 20, 19, 29, 39 } },
    { "2024-02-29T00:00:00Z", 0, { 2024, 0, 0, 2, 29, 0, 0, 0 } },
    { "2000-02-29T00:00:00Z", 0, { 2000, 0, 0, 2, 29, 0, 0, 0 } },
    { "1900-02-29T00:00:00Z", PELZAUNE_RANGE_OF_OTHERS + DAY, { 0 } },
    { "2023-02-29T00:00:00Z", PELZAUNE_RANGE_OF_OTHERS + DAY, { 0 } },
    { "2021-04-31T00:00:00Z", PELZAUNE_RANGE_OF_OTHERS + DAY, { 0 } },
    { "2021-01-00T00:00:00Z", PELZAUNE_RANGE_OF_OTHERS + DAY, { 0 } },
    { "2021-01-32T00:00:00Z", PELZAUNE_RANGE_OF_OTHERS + DAY, { 0 } },
    { "2021-00-01T00:00:00Z", PELZAUNE_INVALID_COMPONENT + MONTH, { 0 } },
    { "2021-13-01T00:00:00Z", PELZAUNE_RANGE + MONTH, { 0 } },
    { "2021-20-01T00:00:00Z", PELZAUNE_RANGE + MONTH, { 0 } },
    { "2021-01-01T24:00:00Z", PELZAUNE_RANGE + HOUR, { 0 } },
    { "2021-01-01T00:60:00Z", PELZAUNE_RANGE + MINUTE, { 0 } },
    { "2021-01-01T00:00:61Z", PELZAUNE_RANGE + SECOND, { 0 } },
    { "2021-01-01T00:00:60Z", PELZAUNE_RANGE_OF_OTHERS + SECOND, { 0 } },
    { "2016-12-31T23:59:60Z", 0, { 2016, 999999999, 0, 12, 31, 23, 59, 59 } },
    { "2016-12-31T23:59:60.5+00:00", 0, { 2016, 999999999, 0, 12, 31, 23, 59, 59 } },
    { "202x-01-01T00:00:00Z", PELZAUNE_INVALID_COMPONENT + YEAR, { 0 } },
    { "2021:01-01T00:00:00Z", PELZAUNE_INVALID_LITERAL, { 0 } },
    { "2021-01-01", PELZAUNE_INVALID_COMPONENT + SEPARATOR, { 0 } },
    { "2021-01-01T00:00.00Z", PELZAUNE_INVALID_LITERAL, { 0 } },
    { "2021-01-01T00:00:00.Z", PELZAUNE_INVALID_COMPONENT + SUBSECOND, { 0 } },
    { "2021-01-01T00:00:00,5Z", PELZAUNE_INVALID_COMPONENT + OFFSET_HOUR, { 0 } },
    { "2021-01-01T00:00:00.5", PELZAUNE_INVALID_COMPONENT + OFFSET_HOUR, { 0 } },
    { "2021-01-01T00:00:00+24:00", PELZAUNE_INVALID_COMPONENT + OFFSET_HOUR, { 0 } },
    { "2021-01-01T00:00:00,05:30", PELZAUNE_INVALID_COMPONENT + OFFSET_HOUR, { 0 } },
    { "2021-01-01T00:00:00+0530", PELZAUNE_INVALID_LITERAL, { 0 } },
    { "2021-01-01T00:00:00+05-30", PELZAUNE_INVALID_LITERAL, { 0 } },
    { "2021-01-01T00:00:00+05:3", PELZAUNE_INVALID_COMPONENT + OFFSET_MINUTE, { 0 } },
    { "2021-01-01T00:00:00+05:60", PELZAUNE_RANGE + MINUTES, { 0 } },
    { "2021-01-01T00:00:00+05:300", PELZAUNE_TRAILING, { 0 } },
    { "2021-01-01T00:00:00ZZ", PELZAUNE_TRAILING, { 0 } },
    { "2021-01-01T00:00:00.5Z ", PELZAUNE_TRAILING, { 0 } },
};

/* The calls for a moment agree on a text. On an error they leave the output unchanged. */
static void test_border(const border *it)
{
    size_t length = strlen(it->text);
    const uint8_t *text = at_end(it->text, length);
    pelzaune_moment m = { 7, 7, 7, 7, 7, 7, 7, 7 };
    pelzaune_instant i = { 7, 7 };
    int64_t entry, count = 7;
    size_t refused;
    expect(pelzaune_parse_moment(PELZAUNE_RFC3339, text, length, &m) == it->status, it->text, __LINE__);
    expect(pelzaune_parse_instant(PELZAUNE_RFC3339, text, length, &i) == it->status, it->text, __LINE__);
    int is_wide = pelzaune_parse_nanoseconds(PELZAUNE_RFC3339, text, length, &count) == PELZAUNE_TOO_WIDE;
    if (it->status) {
        expect(m.year == 7 && m.offset == 7 && m.month == 7 && m.second == 7 && i.seconds == 7 && count == 7, it->text, __LINE__);
        return;
    }
    const pelzaune_moment *v = &it->value;
    expect(m.year == v->year && m.month == v->month && m.day == v->day && m.hour == v->hour && m.minute == v->minute
        && m.second == v->second && m.nanosecond == v->nanosecond && m.offset == v->offset, it->text, __LINE__);
    expect(i.nanoseconds == v->nanosecond && (is_wide || count == i.seconds * 1000000000 + i.nanoseconds), it->text, __LINE__);
    if (memchr(text, '\n', length) || is_wide) return;
    expect(pelzaune_column(PELZAUNE_RFC3339, text, length, &entry, 1, &refused) == 1 && !refused && entry == count, it->text, __LINE__);
}

/* The strict format has the same result, but for a text with another byte between date and time. */
static void test_strict(const border *it)
{
    size_t length = strlen(it->text);
    const uint8_t *text = at_end(it->text, length);
    pelzaune_moment m = { 7, 7, 7, 7, 7, 7, 7, 7 };
    const pelzaune_moment *v = &it->value;
    pelzaune_status wanted = it->status;
    if (!wanted && !strchr("Tt ", text[10])) wanted = PELZAUNE_INVALID_COMPONENT + SEPARATOR;
    expect(pelzaune_parse_moment(PELZAUNE_RFC3339_STRICT, text, length, &m) == wanted, it->text, __LINE__);
    if (wanted) expect(m.year == 7 && m.offset == 7 && m.month == 7 && m.second == 7, it->text, __LINE__);
    else expect(m.year == v->year && m.second == v->second && m.nanosecond == v->nanosecond && m.offset == v->offset, it->text, __LINE__);
}

int main(void)
{
    if (!has_pages()) return 2;
    for (size_t k = 0; k < sizeof borders / sizeof *borders; k++) {
        test_border(&borders[k]);
        test_strict(&borders[k]);
    }
    printf("%d passed, %d failed\n", passed, failed);
    return failed != 0;
}
