/* Prints each line of standard input with its first field as Unix seconds.
 *
 *     log_seconds [rfc3339|rfc2822|iso8601] [SEPARATOR]
 *
 * The format is in any case. A field ends at the separator, by default a space. A line with a rejected field is printed unchanged, and the error
 * is printed to standard error. The exit status is 1 if a line was rejected, and 2 for wrong arguments. */
#define _POSIX_C_SOURCE 200809L
#include "pelzaune.h"
#include <inttypes.h>
#include <stdio.h>
#include <stdlib.h>
#include <string.h>
#include <strings.h>
#include <sys/types.h>

static uint32_t format_named(const char *name)
{
    if (strcasecmp(name, "rfc3339") == 0) return PELZAUNE_RFC3339_STRICT;
    if (strcasecmp(name, "rfc2822") == 0) return PELZAUNE_RFC2822;
    if (strcasecmp(name, "iso8601") == 0) return PELZAUNE_ISO8601;
    return 0;
}

/* Prints a line, and returns the status of its field. */
static pelzaune_status print_line(uint32_t format, int separator, const char *line, size_t length)
{
    const char *end = memchr(line, separator, length);
    size_t field = end ? (size_t)(end - line) : length;
    pelzaune_instant instant;
    pelzaune_status status = pelzaune_parse_instant(format, (const uint8_t *)line, field, &instant);
    if (status == PELZAUNE_OK) {
        printf("%" PRId64, instant.seconds);
        line += field;
        length -= field;
    }
    fwrite(line, 1, length, stdout);
    putchar('\n');
    return status;
}

int main(int argc, char **argv)
{
    uint32_t format = argc > 1 ? format_named(argv[1]) : PELZAUNE_RFC3339_STRICT;
    int separator = argc > 2 ? argv[2][0] : ' ';
    if (!format || !separator || argc > 3) {
        fprintf(stderr, "usage: log_seconds [rfc3339|rfc2822|iso8601] [SEPARATOR]\n");
        return 2;
    }
    char *line = NULL;
    size_t room = 0;
    ssize_t count;
    int refused = 0;
    for (unsigned long number = 1; (count = getline(&line, &room, stdin)) >= 0; number++) {
        size_t length = (size_t)count;
        if (length && line[length - 1] == '\n') length--;
        pelzaune_status status = print_line(format, separator, line, length);
        if (status) {
            fprintf(stderr, "line %lu: %s\n", number, pelzaune_text(status));
            refused = 1;
        }
    }
    free(line);
    return refused;
}
