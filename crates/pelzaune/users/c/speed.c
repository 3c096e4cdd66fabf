/* Parses a text many times, to count instructions.
 *
 *     speed moment|instant|nanoseconds|local FORMAT TIMES TEXT
 *     speed read|described|clock|date|time|strptime|fields DESCRIPTION TIMES TEXT
 *     speed column FORMAT TIMES TEXT
 *     speed described_column DESCRIPTION TIMES TEXT
 *
 * FORMAT is the number of a format, DESCRIPTION a description of strftime. `read` parses an instant by the text of the
 * description, which each call parses again. `described`, `clock`, `date` and `time` parse an instant, a date and time,
 * a date and a time by a description that is parsed once. `strptime` gets the seconds by strptime and timegm, `fields`
 * calls strptime alone. The text and a copy of it are parsed in turn, and a sum that depends on each result is printed,
 * so that the compiler can't hoist a part of a parse out of the loop. A column has a thousand lines of the text, and
 * TIMES / 1000 columns are parsed. */
#define _GNU_SOURCE
#include "pelzaune.h"
#include <stdio.h>
#include <stdlib.h>
#include <string.h>
#include <time.h>

/* The format or description. */
typedef struct {
    uint32_t format;
    const char *text;
    pelzaune_description held;
} how;

/* The fields of a text by the C library, or nothing. */
static int by_strptime(const char *text, const char *description, struct tm *tm)
{
    memset(tm, 0, sizeof *tm);
    const char *end = strptime(text, description, tm);
    return end && !*end;
}

/* The Unix seconds of these fields. */
static int64_t seconds_of(struct tm tm)
{
    long offset = tm.tm_gmtoff;
    return (int64_t)timegm(&tm) - offset;
}

static const char *const calls[] = { "moment", "instant", "nanoseconds", "local", "column", "read", "described", "clock", "date", "time",
    "described_column", "strptime", "fields" };
enum { MOMENT, INSTANT, NANOSECONDS, LOCAL, COLUMN, READ, DESCRIBED, CLOCK, DATE, TIME, DESCRIBED_COLUMN, STRPTIME, FIELDS, CALLS };

/* A number that depends on the result of a call. */
static int64_t answer(int call, const how *it, const char *text, size_t length)
{
    const uint8_t *bytes = (const uint8_t *)text;
    pelzaune_moment moment;
    pelzaune_instant instant;
    pelzaune_local local;
    pelzaune_date date;
    pelzaune_time time;
    int64_t count;
    struct tm tm;
    switch (call) {
    case MOMENT: return pelzaune_parse_moment(it->format, bytes, length, &moment) ? -1 : moment.second + moment.offset;
    case INSTANT: return pelzaune_parse_instant(it->format, bytes, length, &instant) ? -1 : instant.seconds;
    case NANOSECONDS: return pelzaune_parse_nanoseconds(it->format, bytes, length, &count) ? -1 : count;
    case LOCAL: return pelzaune_parse_local(it->format, bytes, length, &local) ? -1 : local.second + local.day;
    case READ: return pelzaune_read_instant(PELZAUNE_STRFTIME, (const uint8_t *)it->text, strlen(it->text), bytes, length, &instant)
        ? -1 : instant.seconds;
    case DESCRIBED: return pelzaune_described_instant(&it->held, bytes, length, &instant) ? -1 : instant.seconds;
    case CLOCK: return pelzaune_described_local(&it->held, bytes, length, &local) ? -1 : local.second + local.day;
    case DATE: return pelzaune_described_date(&it->held, bytes, length, &date) ? -1 : date.day;
    case TIME: return pelzaune_described_time(&it->held, bytes, length, &time) ? -1 : time.minute;
    case STRPTIME: return by_strptime(text, it->text, &tm) ? seconds_of(tm) : -1;
    default: return by_strptime(text, it->text, &tm) ? tm.tm_mday + tm.tm_min : -1;
    }
}

enum { LINES = 1000 };

/* The sum of the results of this many columns of that line. */
static uint64_t sum_of_columns(int call, const how *it, const char *line, long times)
{
    static int64_t entries[LINES];
    size_t length = strlen(line) + 1, refused;
    uint8_t *text = malloc(LINES * length);
    uint64_t sum = 0;
    for (size_t k = 0; text && k < LINES * length; k++) text[k] = (uint8_t)(k % length == length - 1 ? '\n' : line[k % length]);
    for (long k = 0; text && k < times; k++) {
        sum += call == COLUMN ? pelzaune_column(it->format, text, LINES * length, entries, LINES, &refused)
            : pelzaune_described_column(&it->held, text, LINES * length, entries, LINES, &refused);
        sum += (uint64_t)entries[k % LINES] + refused;
    }
    free(text);
    return sum;
}

int main(int argc, char **argv)
{
    if (argc != 5) return 2;
    int call = 0;
    while (call < CALLS && strcmp(argv[1], calls[call])) call++;
    how it = { (uint32_t)strtoul(argv[2], NULL, 10), argv[2], { { 0 } } };
    size_t index, length = strlen(argv[4]);
    if (call == CALLS || (call >= DESCRIBED && call <= DESCRIBED_COLUMN
        && pelzaune_describe(PELZAUNE_STRFTIME, (const uint8_t *)argv[2], strlen(argv[2]), &it.held, &index))) return 2;
    long times = strtol(argv[3], NULL, 10);
    char *texts[2] = { argv[4], strdup(argv[4]) };
    uint64_t sum = 0;
    if (call == COLUMN || call == DESCRIBED_COLUMN) sum = sum_of_columns(call, &it, argv[4], times / LINES);
    else for (long k = 0; k < times; k++) sum += (uint64_t)answer(call, &it, texts[k % 2], length);
    printf("%llu\n", (unsigned long long)sum);
    free(texts[1]);
    return 0;
}
