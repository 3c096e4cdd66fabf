/* The extension's plain C without a server, for the sanitizers: counts at the ends of their ranges, and each function
 * over texts and descriptions that end at the end of their memory. */
#include "counts.h"
#include "formats.h"
#include <assert.h>
#include <stdlib.h>

/* A copy in memory of its own, so that the sanitizers detect each read past its end. */
static bytes alone(const char *text)
{
    bytes it = { NULL, strlen(text) };
    uint8_t *held = malloc(it.length ? it.length : 1);
    assert(held);
    memcpy(held, text, it.length);
    it.at = held;
    return it;
}

static void freed(bytes it)
{
    free((void *)it.at);
}

static void test_days(void)
{
    assert(days_of((pelzaune_date){ 2000, 1, 1 }) == 0 && days_of((pelzaune_date){ 1970, 1, 1 }) == -UNIX_2000 / SECONDS_A_DAY);
    assert(days_of((pelzaune_date){ -4713, 11, 24 }) * SECONDS_A_DAY == FIRST_SECOND);
    assert(days_of((pelzaune_date){ 294277, 1, 1 }) * SECONDS_A_DAY == END_SECOND);
    for (int64_t day = days_of((pelzaune_date){ -999999, 1, 1 }); day < 366000000; day += 997)
        assert(days_of(date_of(day)) == day);
}

static void test_ranges(void)
{
    const pelzaune_instant first = { FIRST_SECOND + UNIX_2000, 0 }, last = { END_SECOND + UNIX_2000 - 1, 999999999 };
    const pelzaune_instant before = { first.seconds - 1, 999999999 }, after = { last.seconds + 1, 0 };
    const pelzaune_local least = { -999999, 0, 1, 1, 0, 0, 0 }, most = { 999999, 999999999, 12, 31, 23, 59, 59 };
    const pelzaune_date earliest = { -999999, 1, 1 }, latest = { 999999, 12, 31 };
    int64_t count = 7;
    int32_t day = 7;
    assert(!count_of_instant(&before, &count) && !count_of_instant(&after, &count) && count == 7);
    assert(!count_of_local(&least, &count) && !count_of_local(&most, &count) && count == 7);
    assert(count_of_instant(&first, &count) && count == FIRST_SECOND * 1000000);
    assert(count_of_instant(&last, &count) && count == END_SECOND * 1000000 - 1);
    assert(!count_of_date(&earliest, &day) && day == 7 && count_of_date(&latest, &day) && day == 2495 * 146097 - 1);
}

/* Parses and writes by a format, and locates the error of a rejected text. */
static void take(const char *format, const char *text)
{
    static const int64_t counts[] = { FIRST_SECOND * 1000000, END_SECOND * 1000000 - 1, -1, 0, 1 };
    bytes given = alone(format), it = alone(text);
    form by;
    size_t index = 0;
    if (read_form(given, &by, &index) == PELZAUNE_OK) {
        pelzaune_status reason = reason_of(&by, it);
        refusal why = placed(reason, given, it);
        char wanted[EXPECTATION_ROOM];
        if (why.wanted) write_expectation(&why, wanted);
        for (size_t k = 0; k < sizeof counts / sizeof *counts; k++)
            for (int32_t offset = -86340; offset <= 86340; offset += 28780) {
                size_t length = 0;
                uint8_t *written = malloc(PELZAUNE_DESCRIBED_TEXT);
                assert(written);
                pelzaune_moment moment = moment_of_count(counts[k], offset);
                pelzaune_status status = format_by(&by, &moment, written, PELZAUNE_DESCRIBED_TEXT, &length);
                assert(length <= PELZAUNE_DESCRIBED_TEXT && (!status || PELZAUNE_KIND(status) == PELZAUNE_NO_TEXT));
                free(written);
            }
    } else {
        assert(index <= given.length);
    }
    freed(given);
    freed(it);
}

static void test_texts(void)
{
    static const char *const formats[] = { "", "rfc3339", "rfc2822", "iso8601", "rfc339", "[", "[year]", "\\[", "]", "[[[", "[optional [", "[first ",
        "[year padding:]", "[year :]", "[ year padding:none ]-[MONTH repr:Long]", "%Y-%m-%d %H:%M:%S %z", "%", "%-", "%_d%0e%-H",
        "%c%D%x%F%R%T%X%r%n%t%%%s%u%w%U%V%W%j%k%l%p%P%a%A%b%h%B%C%g%G%y%I", "[optional [[hour]:[minute]]] [first [[ordinal]] [\\[x\\]]]",
        "[first [a] [b[optional [c]]]]", "[unix_timestamp precision:nanosecond sign:mandatory]", "[unix_timestamp precision:millisecond]",
        "[subsecond digits:3][subsecond]", "[ignore count:3]", "[end]", "[week_number repr:iso][weekday repr:sunday one_indexed:false]",
        "[year range:standard base:iso_week]", "[year repr:century][year repr:last_two]", "[offset_hour][offset_minute][offset_second]",
        "[period case:lower][hour repr:12 padding:space]" };
    static const char *const texts[] = { "", "2", "2021-01-02T03:04:05Z", "2021-13-02", "Sat, 02 Jan 2021 03:04:05 +0000", "(((",
        "\xff\xff", "99999999999" };
    for (size_t k = 0; k < sizeof formats / sizeof *formats; k++)
        for (size_t n = 0; n < sizeof texts / sizeof *texts; n++) take(formats[k], texts[n]);
}

/* Moments at offsets: Berlin's local mean time was 53 minutes and 28 seconds ahead of UTC. */
static void test_moments(void)
{
    static const struct { int64_t count; int32_t offset; const char *text; } rows[] = {
        { 0, 0, "2000-01-01 00:00:00.000000 +00:00:00" }, { -1, 0, "1999-12-31 23:59:59.999999 +00:00:00" },
        { -1, 19800, "2000-01-01 05:29:59.999999 +05:30:00" }, { 1, -1, "1999-12-31 23:59:59.000001 -00:00:01" },
        { -3208 * INT64_C(1000000), 3208, "2000-01-01 00:00:00.000000 +00:53:28" },
        { FIRST_SECOND * 1000000, 0, "-4713-11-24 00:00:00.000000 +00:00:00" },
        { END_SECOND * 1000000 - 1, 60, "+294277-01-01 00:00:59.999999 +00:01:00" } };
    const bytes given = alone("[year]-[month]-[day] [hour]:[minute]:[second].[subsecond digits:6] [offset_hour sign:mandatory]:[offset_minute]:[offset_second]");
    form by;
    size_t index;
    assert(read_form(given, &by, &index) == PELZAUNE_OK);
    for (size_t k = 0; k < sizeof rows / sizeof *rows; k++) {
        uint8_t text[64];
        size_t length = 0;
        pelzaune_moment moment = moment_of_count(rows[k].count, rows[k].offset);
        assert(format_by(&by, &moment, text, sizeof text, &length) == PELZAUNE_OK);
        assert(length == strlen(rows[k].text) && memcmp(text, rows[k].text, length) == 0);
    }
    freed(given);
}

int main(void)
{
    test_days();
    test_moments();
    test_ranges();
    test_texts();
    return 0;
}
