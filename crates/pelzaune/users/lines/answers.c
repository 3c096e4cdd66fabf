/* Answers the lines that make_lines.py writes.
 *
 *     answers moments|nanoseconds
 *
 * `moments` prints what time_lines does. `nanoseconds` prints what Python and JavaScript compute, for which rfc3339 is
 * the strict format: the nanoseconds from 1970-01-01T00:00:00Z, or the error, and `too wide` for an instant that doesn't
 * fit 64 bits. It also checks that they agree with the moment and with a column. */
#define _POSIX_C_SOURCE 200809L
#include "pelzaune.h"
#include <inttypes.h>
#include <stdio.h>
#include <stdlib.h>
#include <string.h>
#include <sys/types.h>

/* The days from 1970-01-01 to a date, counted in cycles of 400 years that start in March. */
static int64_t days_of(const pelzaune_moment *m)
{
    int64_t year = m->year - (m->month <= 2) + 1000000, month = (m->month + 9) % 12;
    int64_t day = 365 * year + year / 4 - year / 100 + year / 400 + (153 * month + 2) / 5 + m->day - 1;
    /* 1970-01-01 is day 306 of the year that starts on 1969-03-01 */
    int64_t first = 1001969;
    return day - (365 * first + first / 4 - first / 100 + first / 400 + 306);
}

static int64_t seconds_of(const pelzaune_moment *m)
{
    return days_of(m) * 86400 + m->hour * 3600 + m->minute * 60 + m->second - m->offset;
}

static void print_moment(const pelzaune_moment *m)
{
    int32_t offset = m->offset < 0 ? -m->offset : m->offset;
    printf("%s%04d-%02d-%02d %02d:%02d:%02d.%09" PRIu32 " %c%02d:%02d:%02d\n", m->year < 0 ? "-" : "", m->year < 0 ? -m->year : m->year,
        m->month, m->day, m->hour, m->minute, m->second, m->nanosecond, m->offset < 0 ? '-' : '+', offset / 3600, offset / 60 % 60, offset % 60);
}

/* Prints the nanoseconds, and returns whether the moment and a column of the line agree. */
static int print_nanoseconds(uint32_t format, const uint8_t *text, size_t length, const pelzaune_moment *m, pelzaune_status why)
{
    int64_t count = PELZAUNE_NO_COUNT, entry;
    size_t refused, lines;
    pelzaune_status status = pelzaune_parse_nanoseconds(format, text, length, &count);
    lines = pelzaune_column(format, text, length, &entry, 1, &refused);
    if (status == PELZAUNE_OK) printf("%" PRId64 "\n", count);
    else if (status == PELZAUNE_TOO_WIDE) puts("too wide");
    else {
        uint32_t needs = PELZAUNE_NEEDS_DATE + PELZAUNE_NEEDS_TIME + PELZAUNE_NEEDS_OFFSET;
        pelzaune_status missing = status == PELZAUNE_INSUFFICIENT ? pelzaune_missing(needs, format, text, length) : PELZAUNE_OK;
        printf("error: %s\n", pelzaune_text(missing ? missing : status));
    }
    if (length && text[length - 1] != '\r' && (lines != 1 || entry != count || refused != (status != PELZAUNE_OK))) return 0;
    if (status == PELZAUNE_TOO_WIDE) return why == PELZAUNE_OK;
    int64_t rest = (count % 1000000000 + 1000000000) % 1000000000;
    return status == why && (status || (rest == m->nanosecond && count / 1000000000 - (count % 1000000000 < 0) == seconds_of(m)));
}

int main(int argc, char **argv)
{
    static const char *const names[] = { "rfc3339", "rfc2822", "iso8601" };
    int is_moments = argc == 2 && strcmp(argv[1], "moments") == 0, agree = 1;
    char *line = NULL;
    size_t room = 0;
    ssize_t size;
    while ((size = getline(&line, &room, stdin)) > 0) {
        uint32_t format = 0;
        for (uint32_t k = 0; k < 3; k++)
            if (strncmp(line, names[k], 7) == 0) format = k + 1;
        if (!is_moments && format == PELZAUNE_RFC3339) format = PELZAUNE_RFC3339_STRICT;
        const uint8_t *text = (const uint8_t *)line + strlen("rfc3339\tdatetime\t");
        size_t length = (size_t)size - strlen("rfc3339\tdatetime\t") - 1;
        pelzaune_moment m;
        pelzaune_status status = pelzaune_parse_moment(format, text, length, &m);
        if (!is_moments) agree &= print_nanoseconds(format, text, length, &m, status);
        else if (status) printf("error: %s\n", pelzaune_text(status));
        else print_moment(&m);
    }
    free(line);
    return !agree;
}
