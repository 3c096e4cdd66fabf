/* Tests of the calls that format moments by descriptions. Prints 'N passed, M failed'. */
#include "check.h"
#include <time.h>

/* The numbers of components in a status. */
enum { YEAR = 256 * 1, MONTH = 256 * 2, DAY = 256 * 3, HOUR = 256 * 8, MINUTE = 256 * 9, SECOND = 256 * 10, NANOSECOND = 256 * 11,
    SECONDS = 256 * 19, IGNORE = 256 * 23 };

#define LOG "%d/%b/%Y:%H:%M:%S %z"
#define MAIL "%a, %d %b %Y %H:%M:%S %z"
#define WITH_FRACTION "[year]-[month]-[day]T[hour]:[minute]:[second].[subsecond][offset_hour sign:mandatory]:[offset_minute]"

/* Moments of the examples: year, nanosecond, offset, month, day, hour, minute, second. */
#define APACHE { 2000, 0, -25200, 10, 10, 13, 55, 36 }       /* Apache's documentation of its log format */
#define MAIL_1997 { 1997, 0, -21600, 11, 21, 9, 55, 6 }      /* RFC 2822, appendix A.1.1 */
#define MAIL_1969 { 1969, 0, -12600, 2, 13, 23, 32, 54 }     /* RFC 2822, appendix A.1.3 */
#define HTTP { 1994, 0, 0, 11, 6, 8, 49, 37 }                /* RFC 9110, section 5.6.7 */
#define ZULU { 1985, 520000000, 0, 4, 12, 23, 20, 50 }       /* RFC 3339, section 5.8, as are the next two */
#define PACIFIC { 1996, 0, -28800, 12, 19, 16, 39, 57 }
#define AMSTERDAM { 1937, 870000000, 1200, 1, 1, 12, 0, 27 }
#define WEEK { 2021, 0, 0, 1, 2, 3, 4, 5 }                   /* a Saturday in the ISO week 2020-W53, before the first Sunday */
#define NOON { 2021, 0, 0, 1, 2, 12, 5, 9 }
#define MIDNIGHT { 2021, 0, 0, 1, 2, 0, 5, 9 }
#define BEFORE { 1969, 900000000, 0, 12, 31, 23, 59, 59 }    /* a tenth of a second before 1970 */
#define BERLIN { 1880, 0, 3208, 1, 1, 0, 53, 28 }            /* local mean time, 53:28 ahead of UTC */
#define FIRST { -999999, 0, 93599, 1, 1, 0, 0, 0 }
#define LAST { 999999, 999999999, -93599, 12, 31, 23, 59, 59 }

/* A description, a moment, and its text. */
typedef struct {
    uint32_t syntax;
    const char *description;
    pelzaune_moment moment;
    const char *text;
} example;
static const example examples[] = {
    { PELZAUNE_STRFTIME, LOG, APACHE, "10/Oct/2000:13:55:36 -0700" },
    { PELZAUNE_STRFTIME, MAIL, MAIL_1997, "Fri, 21 Nov 1997 09:55:06 -0600" },
    { PELZAUNE_STRFTIME, MAIL, MAIL_1969, "Thu, 13 Feb 1969 23:32:54 -0330" },
    { PELZAUNE_STRFTIME, "%a, %d %b %Y %T GMT", HTTP, "Sun, 06 Nov 1994 08:49:37 GMT" },
    { PELZAUNE_STRFTIME, "%A, %d-%b-%y %T GMT", HTTP, "Sunday, 06-Nov-94 08:49:37 GMT" },
    { PELZAUNE_STRFTIME, "%a %b %e %H:%M:%S %Y", HTTP, "Sun Nov  6 08:49:37 1994" },
    { PELZAUNE_STRFTIME, "%c", HTTP, "Sun Nov  6 08:49:37 1994" },
    /* 24 years with 6 leap days, and 309 days of 1994, have 9075 days; 9075 * 86400 + 31777 */
    { PELZAUNE_STRFTIME, "%s", HTTP, "784111777" },
    { PELZAUNE_BRACKETS_2, WITH_FRACTION, ZULU, "1985-04-12T23:20:50.52+00:00" },
    { PELZAUNE_BRACKETS_2, WITH_FRACTION, PACIFIC, "1996-12-19T16:39:57.0-08:00" },
    { PELZAUNE_BRACKETS_1, WITH_FRACTION, AMSTERDAM, "1937-01-01T12:00:27.87+00:20" },
    /* fractions and offsets of strftime */
    { PELZAUNE_STRFTIME, "%F %T%.f|%f|%3f|%6f|%9f|%N", ZULU, "1985-04-12 23:20:50.52|52|520|520000|520000000|520000000" },
    { PELZAUNE_STRFTIME, "%X%.f|%f|%3f", PACIFIC, "16:39:57.0|0|000" },
    { PELZAUNE_STRFTIME, "%z|%:z", MAIL_1969, "-0330|-03:30" },
    { PELZAUNE_STRFTIME, "%D %R%n%t100%%", ZULU, "04/12/85 23:20\n\t100%" },
    { PELZAUNE_STRFTIME, "%-d.%-m.%Y|%_m|%_H|%0e|%-j|%C", HTTP, "6.11.1994|11| 8|06|310|19" },
    /* weeks, weekdays and days of the year */
    { PELZAUNE_STRFTIME, "%j|%U|%W|%V|%G|%g|%u|%w", WEEK, "002|00|00|53|2020|20|6|6" },
    { PELZAUNE_STRFTIME, "%j|%U|%W|%V|%G|%g|%u|%w", HTTP, "310|45|44|44|1994|94|7|0" },
    { PELZAUNE_BRACKETS_2, "[year base:iso_week]-W[week_number]-[weekday repr:monday]", WEEK, "2020-W53-6" },
    { PELZAUNE_BRACKETS_2, "[weekday repr:sunday][weekday repr:monday one_indexed:false][week_number repr:sunday padding:none]", HTTP,
        "1645" },
    { PELZAUNE_BRACKETS_2, "[year]-[ordinal]|[ordinal padding:space]|[ordinal padding:none]", WEEK, "2021-002|  2|2" },
    /* names, also where any case is parsed, and clocks of 12 hours */
    { PELZAUNE_BRACKETS_2, "[weekday], [month repr:long] [day padding:none], [year]", HTTP, "Sunday, November 6, 1994" },
    { PELZAUNE_BRACKETS_2, "[weekday repr:short case_sensitive:false] [month repr:short case_sensitive:false]", HTTP, "Sun Nov" },
    { PELZAUNE_BRACKETS_2, "[hour repr:12]:[minute padding:none] [period case_sensitive:false]", NOON, "12:5 PM" },
    { PELZAUNE_STRFTIME, "%I:%M %p|%k|%l|%P", MIDNIGHT, "12:05 AM| 0|12|am" },
    { PELZAUNE_STRFTIME, "%r|%l:%M %P", ZULU, "11:20:50 PM|11:20 pm" },
    /* optional items, and the first of each choice */
    { PELZAUNE_BRACKETS_2, "[hour]:[minute][optional [:[second][optional [.[subsecond digits:2]]]]]", PACIFIC, "16:39:57.00" },
    { PELZAUNE_BRACKETS_2, "[first [[month repr:short]] [[month]]] [day]", PACIFIC, "Dec 19" },
    { PELZAUNE_BRACKETS_2, "[first [a[first [b[optional [c]]] [[ignore count:2]]]] [d]]e[optional [[first [f] [g]]]]", ZULU, "abcef" },
    /* years: a sign above 9999, and four digits without it */
    { PELZAUNE_BRACKETS_2, "[year]|[year repr:century]|[year repr:last_two]", { -1, 0, 0, 1, 1, 0, 0, 0 }, "-0001|-00|01" },
    { PELZAUNE_BRACKETS_2, "[year]|[year sign:mandatory]|[year padding:none]|[year padding:space]", { 7, 0, 0, 1, 1, 0, 0, 0 },
        "0007|+0007|7|   7" },
    { PELZAUNE_BRACKETS_2, "[year]|[year repr:century]|[year repr:last_two]", { 12345, 0, 0, 1, 1, 0, 0, 0 }, "+12345|+123|45" },
    { PELZAUNE_BRACKETS_2, "[year range:standard]|[year range:standard repr:century]", { -9999, 0, 0, 12, 31, 0, 0, 0 }, "-9999|-99" },
    /* 10000-01-01 is a Saturday, like 2000-01-01 a whole number of 400 years before it, so its week belongs to 9999 */
    { PELZAUNE_BRACKETS_2, "[year base:iso_week range:standard]-W[week_number]", { 10000, 0, 0, 1, 1, 0, 0, 0 }, "9999-W52" },
    { PELZAUNE_STRFTIME, "%F|%C", LAST, "+999999-12-31|+9999" },
    /* offsets, whose sign is that of each part; without the seconds they are cut off */
    { PELZAUNE_BRACKETS_2, "[offset_hour]:[offset_minute]:[offset_second]", { 2021, 0, -30, 1, 2, 3, 4, 5 }, "-00:00:30" },
    { PELZAUNE_BRACKETS_2, "[offset_hour]|[offset_hour sign:mandatory padding:none]|[offset_minute]", { 2021, 0, 5400, 1, 2, 3, 4, 5 },
        "01|+1|30" },
    { PELZAUNE_BRACKETS_2, "[offset_hour sign:mandatory]:[offset_minute]:[offset_second]", BERLIN, "+00:53:28" },
    { PELZAUNE_STRFTIME, "%H:%M %z", BERLIN, "00:53 +0053" },
    { PELZAUNE_BRACKETS_2, "[offset_hour][offset_minute][offset_second]", LAST, "-255959" },
    /* counts from 1970, rounded down */
    { PELZAUNE_BRACKETS_2, "[unix_timestamp] [unix_timestamp precision:millisecond]", BEFORE, "-1 -100" },
    { PELZAUNE_BRACKETS_2, "[unix_timestamp precision:microsecond] [unix_timestamp precision:nanosecond]", BEFORE, "-100000 -100000000" },
    { PELZAUNE_BRACKETS_2, "[unix_timestamp sign:mandatory]", { 1970, 0, 3600, 1, 1, 1, 0, 0 }, "+0" },
    /* 365961662 days * 86400 + 93599 seconds before 1970, and 364522972 days * 86400 - 1 + 93599 after it */
    { PELZAUNE_BRACKETS_2, "[unix_timestamp precision:nanosecond]", FIRST, "-31619087690399000000000" },
    { PELZAUNE_BRACKETS_2, "[unix_timestamp precision:nanosecond]", LAST, "31494784874398999999999" },
    /* other bytes */
    { PELZAUNE_BRACKETS_2, "\\[[year]\\]\xff%[end]", ZULU, "[1985]\xff%" },
    { PELZAUNE_BRACKETS_1, "[[[year]", ZULU, "[1985" },
    { PELZAUNE_STRFTIME, "[year]", ZULU, "[year]" },
    { PELZAUNE_BRACKETS_2, "", ZULU, "" },
};
enum { EXAMPLES = sizeof examples / sizeof *examples };

/* The result of the call by the text of a description, or by the stored one unless it is NULL. */
static pelzaune_status format(uint32_t syntax, const char *text, const pelzaune_description *stored, const pelzaune_moment *m,
    uint8_t *buffer, size_t capacity, size_t *length)
{
    size_t size = strlen(text);
    if (stored) return pelzaune_described_format_moment(stored, m, buffer, capacity, length);
    return pelzaune_read_format_moment(syntax, described(text, size), size, m, buffer, capacity, length);
}

/* Whether the text is written as far as it fits, before an inaccessible page, and no other byte. */
static int fits(const example *it, const pelzaune_description *stored, size_t capacity)
{
    size_t length = 77, wanted = strlen(it->text), shown = capacity < wanted ? capacity : wanted;
    uint8_t *at = page + PAGE - capacity;
    memset(page, '#', PAGE);
    int right = format(it->syntax, it->description, stored, &it->moment, at, capacity, &length) == PELZAUNE_OK && length == wanted;
    for (size_t k = shown; k < capacity; k++) right &= at[k] == '#';
    return right && at[-1] == '#' && memcmp(at, it->text, shown) == 0;
}

/* Checks each example with each capacity, and with NULL, by both calls. */
static void test_examples(void)
{
    for (const example *it = examples; it < examples + EXAMPLES; it++) {
        pelzaune_description stored;
        size_t length = 77, other = 77;
        int right = describe(it->syntax, it->description, &stored);
        for (size_t capacity = 0; capacity <= strlen(it->text) + 3; capacity++)
            right &= fits(it, NULL, capacity) && fits(it, &stored, capacity);
        right &= fits(it, &stored, PAGE - 1);
        right &= format(it->syntax, it->description, NULL, &it->moment, NULL, 0, &length) == PELZAUNE_OK && length == strlen(it->text);
        right &= format(it->syntax, it->description, &stored, &it->moment, NULL, 0, &other) == PELZAUNE_OK && other == length;
        expect(right, it->description, __LINE__);
    }
    pelzaune_moment m = ZULU;
    size_t length = 77;
    EXPECT(pelzaune_read_format_moment(PELZAUNE_BRACKETS_2, NULL, 0, &m, NULL, 0, &length) == PELZAUNE_OK && length == 0);
    EXPECT(pelzaune_read_format_moment(PELZAUNE_BRACKETS_2, TEXT("a\0b"), &m, page, PAGE - 3, &length) == PELZAUNE_OK && length == 3
        && memcmp(page, "a\0b", 3) == 0);
}

/* The status of a moment without a text, by both calls. They leave the buffer and the length unchanged, whatever the
 * capacity. */
static pelzaune_status refuses(uint32_t syntax, const char *description, pelzaune_moment m)
{
    uint8_t text[] = "unchanged";
    pelzaune_description stored;
    size_t length = 77;
    pelzaune_status status = format(syntax, description, NULL, &m, text, sizeof text, &length);
    int right = format(syntax, description, NULL, &m, NULL, 0, &length) == status;
    if (describe(syntax, description, &stored))
        right &= format(syntax, description, &stored, &m, text, sizeof text, &length) == status
            && format(syntax, description, &stored, &m, text, 1, &length) == status;
    return right && length == 77 && memcmp(text, "unchanged", sizeof text) == 0 ? status : PELZAUNE_OK;
}

/* Components that can't be written. The first one is reported. */
static void test_no_text(void)
{
    const pelzaune_moment m = ZULU, after = { 10000, 0, 0, 12, 31, 0, 0, 0 }, before = { -10000, 0, 0, 12, 31, 0, 0, 0 };
    EXPECT(refuses(PELZAUNE_BRACKETS_2, "[year range:standard]", after) == PELZAUNE_NO_TEXT + YEAR);
    EXPECT(refuses(PELZAUNE_BRACKETS_2, "[year range:standard]", before) == PELZAUNE_NO_TEXT + YEAR);
    EXPECT(refuses(PELZAUNE_BRACKETS_1, "[day] [year range:standard repr:century]", after) == PELZAUNE_NO_TEXT + YEAR);
    EXPECT(refuses(PELZAUNE_BRACKETS_2, "[year range:standard base:iso_week]", after) == PELZAUNE_NO_TEXT + YEAR);
    EXPECT(refuses(PELZAUNE_BRACKETS_2, "[ignore count:1]", m) == PELZAUNE_NO_TEXT + IGNORE);
    EXPECT(refuses(PELZAUNE_BRACKETS_2, "[day][optional [[ignore count:5]]]", m) == PELZAUNE_NO_TEXT + IGNORE);
    EXPECT(refuses(PELZAUNE_BRACKETS_2, "[first [x[ignore count:5]] [[day]]]", m) == PELZAUNE_NO_TEXT + IGNORE);
    EXPECT(refuses(PELZAUNE_BRACKETS_2, "[ignore count:1][year range:standard]", after) == PELZAUNE_NO_TEXT + IGNORE);
    EXPECT(refuses(PELZAUNE_BRACKETS_2, "[year range:standard][ignore count:1]", after) == PELZAUNE_NO_TEXT + YEAR);
}

/* Members of a moment that are out of range. The first one is reported. */
static void test_ranges(void)
{
    pelzaune_moment m = { 1000000, 1000000000, 93600, 13, 32, 24, 60, 60 };
    EXPECT(refuses(PELZAUNE_STRFTIME, "%F", m) == PELZAUNE_RANGE + MONTH);
    m.month = 0;
    EXPECT(refuses(PELZAUNE_STRFTIME, "%F", m) == PELZAUNE_RANGE + MONTH);
    m.month = 4;
    EXPECT(refuses(PELZAUNE_STRFTIME, "%F", m) == PELZAUNE_RANGE + YEAR);
    m.year = 2021;
    EXPECT(refuses(PELZAUNE_STRFTIME, "%F", m) == PELZAUNE_RANGE_OF_OTHERS + DAY);
    m.day = 31;
    EXPECT(refuses(PELZAUNE_STRFTIME, "%F", m) == PELZAUNE_RANGE_OF_OTHERS + DAY);
    m.day = 30;
    EXPECT(refuses(PELZAUNE_STRFTIME, "%F", m) == PELZAUNE_RANGE + HOUR);
    m.hour = 23;
    EXPECT(refuses(PELZAUNE_STRFTIME, "", m) == PELZAUNE_RANGE + MINUTE);
    m.minute = 59;
    EXPECT(refuses(PELZAUNE_BRACKETS_2, "[ignore count:1]", m) == PELZAUNE_RANGE + SECOND);
    m.second = 59;
    EXPECT(refuses(PELZAUNE_BRACKETS_2, "[year]", m) == PELZAUNE_RANGE + NANOSECOND);
    m.nanosecond = 999999999;
    EXPECT(refuses(PELZAUNE_BRACKETS_2, "[year]", m) == PELZAUNE_RANGE + SECONDS);
    m.offset = -93600;
    EXPECT(refuses(PELZAUNE_BRACKETS_2, "[year]", m) == PELZAUNE_RANGE + SECONDS);
}

/* Errors of a description come before those of the moment, and are those of the call that checks it. */
static void test_faults(void)
{
    static const char *const faults[] = { "[yaer]", "[year", "[year]-[month repr:shrot]", "[]", "a\\b", "%Z", "%", "[ignore]",
        "[optional year]", "-----------------------------------------------------------------" };
    const pelzaune_moment m = ZULU, wrong = { 2021, 0, 0, 13, 1, 0, 0, 0 };
    for (size_t k = 0; k < sizeof faults / sizeof *faults; k++)
        for (uint32_t syntax = 0; syntax <= 4; syntax++) {
            size_t index, size = strlen(faults[k]);
            pelzaune_status status = pelzaune_check_description(syntax, described(faults[k], size), size, &index);
            int right = !status || (refuses(syntax, faults[k], m) == status && refuses(syntax, faults[k], wrong) == status);
            expect(right, faults[k], __LINE__);
        }
    EXPECT(refuses(PELZAUNE_BRACKETS_2, "[year]-[month", m) == PELZAUNE_UNCLOSED_BRACKET);
    EXPECT(refuses(PELZAUNE_BRACKETS_2, "[yaer]", m) == PELZAUNE_COMPONENT_NAME);
    EXPECT(refuses(PELZAUNE_STRFTIME, "%Z", m) == PELZAUNE_NOT_SUPPORTED);
    EXPECT(refuses(0, "[year]", m) == PELZAUNE_UNKNOWN_SYNTAX && refuses(4, "%Y", wrong) == PELZAUNE_UNKNOWN_SYNTAX);
}

/* 51 counts of 20 bytes and 4 bytes have 1024 bytes. One more byte is too many, whatever the capacity. */
static void test_longest(void)
{
    static const char count[] = "[unix_timestamp precision:nanosecond sign:mandatory]";
    char description[51 * sizeof count + 8], *end = description;
    const pelzaune_moment m = WEEK;
    pelzaune_description stored;
    size_t length = 77, other = 77;
    for (int k = 0; k < 51; k++) end += sprintf(end, "%s", count);
    strcpy(end, "....");
    EXPECT(describe(PELZAUNE_BRACKETS_2, description, &stored));
    EXPECT(format(PELZAUNE_BRACKETS_2, description, &stored, &m, page + PAGE - 1024, 1024, &length) == PELZAUNE_OK
        && length == PELZAUNE_DESCRIBED_TEXT);
    /* 18629 days * 86400 + 11045 seconds */
    EXPECT(memcmp(page + PAGE - 24, "+1609556645000000000....", 24) == 0);
    EXPECT(format(PELZAUNE_BRACKETS_2, description, NULL, &m, page + PAGE - 1025, 1025, &other) == PELZAUNE_OK && other == length);
    strcpy(end, ".....");
    EXPECT(refuses(PELZAUNE_BRACKETS_2, description, m) == PELZAUNE_TEXT_TOO_LONG);
    EXPECT(strcmp(pelzaune_text(PELZAUNE_TEXT_TOO_LONG), "the text has more than 1024 bytes") == 0);
}

/* Whether the texts of some days, from 1600 to 2428, are those of the C library. */
static int as_strftime(const char *form)
{
    pelzaune_description stored;
    int right = describe(PELZAUNE_STRFTIME, form, &stored);
    for (int k = 0; k < 60000; k++) {
        char wanted[256];
        uint8_t text[256];
        size_t length = 0;
        time_t seconds = (time_t)k * (5 * 86400 + 3671) - INT64_C(11676096000);
        struct tm tm;
        right &= gmtime_r(&seconds, &tm) != NULL;
        pelzaune_moment m = { tm.tm_year + 1900, 0, 0, (uint8_t)(tm.tm_mon + 1), (uint8_t)tm.tm_mday, (uint8_t)tm.tm_hour,
            (uint8_t)tm.tm_min, (uint8_t)tm.tm_sec };
        size_t size = strftime(wanted, sizeof wanted, form, &tm);
        right &= pelzaune_described_format_moment(&stored, &m, text, sizeof text, &length) == PELZAUNE_OK && length == size
            && memcmp(text, wanted, size) == 0;
    }
    return right;
}

static void test_as_strftime(void)
{
    EXPECT(as_strftime("%a %A %b %B %h %C %d %e %G %g %H %I %j %k %l %M %m %P %p %S %U %u %V %W %w %Y %y %z"));
    EXPECT(as_strftime("%D %F %R %r %T %X %x %c"));
}

static int is_same(const pelzaune_moment *m, const pelzaune_moment *other)
{
    return m->year == other->year && m->month == other->month && m->day == other->day && m->hour == other->hour
        && m->minute == other->minute && m->second == other->second && m->nanosecond == other->nanosecond
        && m->offset == other->offset;
}

/* Texts of moments are parsed as these moments, by the description and by a format that it describes. */
static void test_read_back(void)
{
    static const struct { uint32_t syntax, format; const char *description; } forms[] = {
        { PELZAUNE_BRACKETS_2, PELZAUNE_ISO8601, WITH_FRACTION }, { PELZAUNE_BRACKETS_1, PELZAUNE_RFC3339, WITH_FRACTION },
        { PELZAUNE_STRFTIME, PELZAUNE_RFC3339_STRICT, "%FT%T%.f%:z" }, { PELZAUNE_STRFTIME, PELZAUNE_RFC2822, MAIL },
        { PELZAUNE_STRFTIME, PELZAUNE_RFC2822, "%e %b %Y %T %z" }, { PELZAUNE_STRFTIME, PELZAUNE_ISO8601, "%G-W%V-%uT%H:%M:%S,%N%:z" } };
    for (size_t k = 0; k < sizeof forms / sizeof *forms; k++) {
        pelzaune_description stored;
        int right = describe(forms[k].syntax, forms[k].description, &stored);
        for (const row *it = rows; it < rows + ROWS; it++) {
            uint8_t text[64];
            size_t length = 0;
            pelzaune_moment m, other, kept = it->value;
            if (forms[k].format == PELZAUNE_RFC2822) kept.nanosecond = 0;
            right &= pelzaune_described_format_moment(&stored, &kept, text, sizeof text, &length) == PELZAUNE_OK;
            const uint8_t *at = at_end((const char *)text, length);
            right &= pelzaune_described_moment(&stored, at, length, &m) == PELZAUNE_OK && is_same(&m, &kept);
            if (kept.year < 1900 || kept.year > 9999) continue;
            right &= pelzaune_parse_moment(forms[k].format, at, length, &other) == PELZAUNE_OK && is_same(&other, &kept);
        }
        expect(right, forms[k].description, __LINE__);
    }
}

/* By any numbers the call returns, and writes a text of at most 1024 bytes as far as it fits, or nothing. */
static void test_any_numbers(void)
{
    static uint8_t whole[PELZAUNE_DESCRIBED_TEXT];
    uint64_t seed = 2822;
    int right = 1, written = 0;
    pelzaune_description *at = (pelzaune_description *)(void *)(other_page + PAGE - sizeof *at);
    for (int round = 0; round < 20000; round++) {
        for (size_t k = 0; k < 129; k++) {
            seed = seed * UINT64_C(6364136223846793005) + 1442695040888963407;
            at->numbers[k] = round % 3 ? seed >> 22 : seed & UINT64_C(0x01072f0003000f);
        }
        if (round % 2) at->numbers[0] = seed >> 58;
        const pelzaune_moment *m = &rows[(seed >> 33) % ROWS].value;
        size_t length = 77, other = 77, capacity = (seed >> 40) % 80;
        pelzaune_status status = pelzaune_described_format_moment(at, m, whole, sizeof whole, &length);
        memset(page, '#', PAGE);
        right &= pelzaune_described_format_moment(at, m, page + PAGE - capacity, capacity, &other) == status && other == length;
        size_t shown = status ? 0 : length < capacity ? length : capacity;
        right &= memcmp(page + PAGE - capacity, whole, shown) == 0 && page[PAGE - capacity - 1] == '#';
        for (size_t k = shown; k < capacity; k++) right &= page[PAGE - capacity + k] == '#';
        right &= status ? length == 77 : length <= PELZAUNE_DESCRIBED_TEXT;
        written += !status;
    }
    EXPECT(right && written > 1000);
}

int main(void)
{
    if (!has_pages()) return 2;
    test_examples();
    test_no_text();
    test_ranges();
    test_faults();
    test_longest();
    test_as_strftime();
    test_read_back();
    test_any_numbers();
    printf("%d passed, %d failed\n", passed, failed);
    return failed != 0;
}
