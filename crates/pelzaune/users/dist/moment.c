/* Prints the moment of a text of RFC 3339, in UTC, and its Unix seconds. */
#include <inttypes.h>
#include <pelzaune.h>
#include <stdio.h>
#include <string.h>

int main(int argc, char **argv)
{
    const uint8_t *text = (const uint8_t *)(argc == 2 ? argv[1] : "");
    size_t length = strlen((const char *)text), written;
    pelzaune_local utc;
    pelzaune_instant instant;
    uint8_t bytes[PELZAUNE_MOMENT_TEXT];
    pelzaune_status status = pelzaune_parse_instant(PELZAUNE_RFC3339, text, length, &instant);
    if (!status) status = pelzaune_parse_utc(PELZAUNE_RFC3339, text, length, &utc);
    if (!status) {
        pelzaune_moment moment = { utc.year, utc.nanosecond, 0, utc.month, utc.day, utc.hour, utc.minute, utc.second };
        status = pelzaune_format_moment(PELZAUNE_RFC3339, &moment, bytes, sizeof bytes, &written);
    }
    if (status) {
        fprintf(stderr, "%s\n", pelzaune_text(status));
        return 1;
    }
    printf("%.*s %" PRId64 "\n", (int)written, (const char *)bytes, instant.seconds);
    return 0;
}
