/* Tests of what a text is missing for a value. Prints 'N passed, M failed'. */
#include "check.h"

enum { DATE = PELZAUNE_NEEDS_DATE, TIME = PELZAUNE_NEEDS_TIME, OFFSET = PELZAUNE_NEEDS_OFFSET, MOMENT = DATE + TIME + OFFSET };
#define MISSING(component) (PELZAUNE_INSUFFICIENT + 256u * (component))
enum { YEAR = 1, MONTH = 2, DAY = 3, HOUR = 8, MINUTE = 9, SECOND = 10, PERIOD = 13, OFFSET_HOUR = 14 };

/* A description in brackets, a text, what is needed, and the status that is expected. */
static const struct {
    const char *description, *text;
    uint32_t needs;
    pelzaune_status status;
} cases[] = {
    { "[year]-[month]-[day]T[hour]:[minute][offset_hour sign:mandatory]", "2021-01-02T03:04+01", MOMENT, PELZAUNE_OK },
    { "[year]-[month]-[day]T[hour]:[minute]", "2021-01-02T03:04", MOMENT, MISSING(OFFSET_HOUR) },
    { "[year]-[month]-[day]T[hour]:[minute]", "2021-01-02T03:04", DATE + TIME, PELZAUNE_OK },
    { "[month]-[day] [hour]:[minute]", "01-02 03:04", MOMENT, MISSING(YEAR) },
    { "[month]-[day] [hour]:[minute]", "01-02 03:04", TIME, PELZAUNE_OK },
    { "[year]-[month]", "2021-01", DATE, MISSING(DAY) },
    { "[year] [day]", "2021 02", DATE, MISSING(MONTH) },
    { "[year]-[month]", "2021-01", TIME, MISSING(HOUR) },
    { "[year]-[month]", "2021-01", OFFSET, MISSING(OFFSET_HOUR) },
    { "[year]-[month]", "2021-01", 0, PELZAUNE_OK },
    { "[year]-[ordinal]", "2021-002", DATE, PELZAUNE_OK },
    { "[year]-[week_number repr:monday]-[weekday repr:monday]", "2021-01-2", DATE, PELZAUNE_OK },
    { "[year base:iso_week]-[week_number]-[weekday repr:monday]", "2021-01-2", DATE, PELZAUNE_OK },
    { "[year]-[week_number]-[weekday repr:monday]", "2021-01-2", DATE, MISSING(YEAR) },
    { "[year repr:last_two]-[ordinal]", "21-002", DATE, MISSING(YEAR) },
    { "[hour repr:12]:[minute]", "03:04", TIME, MISSING(PERIOD) },
    { "[hour repr:12] [period]", "03 PM", TIME, PELZAUNE_OK },
    { "[minute]:[second]", "04:05", TIME, MISSING(HOUR) },
    { "[hour]h[second]", "03h05", TIME, MISSING(MINUTE) },
    { "[hour]:[minute].[subsecond]", "03:04.5", TIME, MISSING(SECOND) },
    { "[hour].[subsecond]", "03.5", TIME, MISSING(MINUTE) },
    { "[unix_timestamp]", "1609556645", MOMENT, PELZAUNE_OK },
    { "[unix_timestamp]", "1609556645", DATE, MISSING(DAY) },
    { "[year]", "x", MOMENT, PELZAUNE_INVALID_COMPONENT + 256 * YEAR },
    { "[year]", "2021x", MOMENT, PELZAUNE_TRAILING },
    { "[year", "2021", MOMENT, PELZAUNE_UNCLOSED_BRACKET },
};

static void test_cases(void)
{
    for (size_t k = 0; k < sizeof cases / sizeof *cases; k++) {
        size_t length = strlen(cases[k].text), size = strlen(cases[k].description);
        pelzaune_description held;
        const uint8_t *text = at_end(cases[k].text, length);
        pelzaune_status found = pelzaune_read_missing(cases[k].needs, PELZAUNE_BRACKETS_2, described(cases[k].description, size), size, text, length);
        expect(found == cases[k].status, cases[k].description, (int)k);
        if (describe(PELZAUNE_BRACKETS_2, cases[k].description, &held))
            expect(pelzaune_described_missing(cases[k].needs, &held, text, length) == cases[k].status, cases[k].text, (int)k);
    }
}

static void test_formats(void)
{
    EXPECT(pelzaune_missing(MOMENT, PELZAUNE_RFC3339, TEXT("2021-01-02_03:04:05Z")) == PELZAUNE_OK);
    EXPECT(pelzaune_missing(MOMENT, PELZAUNE_RFC3339_STRICT, TEXT("2021-01-02_03:04:05Z")) == PELZAUNE_INVALID_COMPONENT + 256 * 22);
    EXPECT(pelzaune_missing(MOMENT, PELZAUNE_RFC2822, TEXT("Sat, 02 Jan 2021 03:04 +0000")) == PELZAUNE_OK);
    EXPECT(pelzaune_missing(MOMENT, PELZAUNE_ISO8601, TEXT("2021-01-02T03:04")) == MISSING(OFFSET_HOUR));
    EXPECT(pelzaune_missing(MOMENT, PELZAUNE_ISO8601, TEXT("2021-01-02")) == MISSING(HOUR));
    EXPECT(pelzaune_missing(MOMENT, PELZAUNE_ISO8601, TEXT("T03:04Z")) == MISSING(DAY));
    EXPECT(pelzaune_missing(MOMENT, 5, TEXT("2021-01-02")) == PELZAUNE_UNKNOWN_FORMAT);
    EXPECT(pelzaune_read_missing(MOMENT, 4, DESCRIPTION("[year]"), TEXT("2021")) == PELZAUNE_UNKNOWN_SYNTAX);
    EXPECT(pelzaune_read_missing(DATE, PELZAUNE_STRFTIME, DESCRIPTION("%b %d"), TEXT("Jan 02")) == MISSING(YEAR));
}

/* The texts of these statuses. */
static void test_texts(void)
{
    EXPECT(strcmp(pelzaune_text(MISSING(YEAR)), "missing year") == 0);
    EXPECT(strcmp(pelzaune_text(MISSING(DAY)), "missing day") == 0);
    EXPECT(strcmp(pelzaune_text(MISSING(PERIOD)), "missing AM or PM") == 0);
    EXPECT(strcmp(pelzaune_text(MISSING(OFFSET_HOUR)), "missing offset") == 0);
    for (uint32_t component = 0; component <= 23; component++) {
        uint8_t buffer[128];
        const char *text = pelzaune_text(MISSING(component));
        size_t length = pelzaune_write_text(MISSING(component), buffer, sizeof buffer);
        EXPECT(length == strlen(text) && memcmp(buffer, text, length) == 0);
    }
}

/* A text without one of these values lacks a component of it, and only then. */
static void test_parts(void)
{
    static const char *const texts[] = { "2021-01-02T03:04Z", "2021-01-02T03:04", "2021-01-02", "T03:04Z", "T03:04", "2020-W53-6", "2020-366T23Z" };
    for (size_t k = 0; k < sizeof texts / sizeof *texts; k++) {
        size_t length = strlen(texts[k]);
        const uint8_t *text = at_end(texts[k], length);
        pelzaune_parts p;
        EXPECT(pelzaune_parse_parts(PELZAUNE_ISO8601, text, length, &p) == PELZAUNE_OK);
        EXPECT((PELZAUNE_KIND(pelzaune_missing(DATE, PELZAUNE_ISO8601, text, length)) == 4) == (p.date_status == PELZAUNE_INSUFFICIENT));
        EXPECT((PELZAUNE_KIND(pelzaune_missing(TIME, PELZAUNE_ISO8601, text, length)) == 4) == (p.time_status == PELZAUNE_INSUFFICIENT));
        EXPECT((PELZAUNE_KIND(pelzaune_missing(OFFSET, PELZAUNE_ISO8601, text, length)) == 4) == (p.offset_status == PELZAUNE_INSUFFICIENT));
    }
}

int main(void)
{
    if (!has_pages()) return 2;
    test_cases();
    test_formats();
    test_texts();
    test_parts();
    printf("%d passed, %d failed\n", passed, failed);
    return failed != 0;
}
