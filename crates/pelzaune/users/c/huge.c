/* Texts of up to 3 GiB, which map the same few pages repeatedly and end before an inaccessible page. Prints 'N passed,
 * M failed'. */
#define _GNU_SOURCE
#include "pelzaune.h"
#include <stdio.h>
#include <string.h>
#include <sys/mman.h>
#include <unistd.h>

static int passed, failed;

static void expect(int is_right, const char *what, int line)
{
    if (is_right) passed++;
    else { failed++; printf("line %d: %s\n", line, what); }
}
#define EXPECT(is_right) expect((is_right), #is_right, __LINE__)

enum { PIECE = 1 << 22, PAGE = 4096 };
#define HUGE ((size_t)3 << 30)

/* Bytes of one kind before an inaccessible page. The first piece and the last are writable. */
static uint8_t *filled(uint8_t byte)
{
    static uint8_t *text;
    if (text) munmap(text, HUGE + PAGE);
    text = mmap(NULL, HUGE + PAGE, PROT_NONE, MAP_PRIVATE | MAP_ANONYMOUS | MAP_NORESERVE, -1, 0);
    int file = memfd_create("piece", 0);
    if (text == MAP_FAILED || file < 0 || ftruncate(file, PIECE)) return NULL;
    for (size_t at = 0; at < HUGE; at += PIECE) {
        int kind = at == 0 || at + PIECE == HUGE ? MAP_PRIVATE : MAP_SHARED;
        if (mmap(text + at, PIECE, PROT_READ | PROT_WRITE, kind | MAP_FIXED, file, 0) == MAP_FAILED) return NULL;
    }
    memset(text + PIECE, byte, PIECE);
    memset(text, byte, PIECE);
    memset(text + HUGE - PIECE, byte, PIECE);
    close(file);
    return text;
}

/* Whether each call rejects a text of one repeated byte. */
static int refuses(const uint8_t *text, size_t length)
{
    static const uint8_t form[] = "%Y-%m-%d";
    pelzaune_moment m;
    pelzaune_local l;
    pelzaune_date d;
    pelzaune_time t;
    pelzaune_instant i;
    pelzaune_parts p;
    pelzaune_description held;
    int32_t offset;
    int64_t n;
    size_t index = 0;
    int refused = 1;
    for (uint32_t format = 1; format <= 4; format++)
        refused &= pelzaune_parse_moment(format, text, length, &m) && pelzaune_parse_local(format, text, length, &l)
            && pelzaune_parse_utc(format, text, length, &l) && pelzaune_parse_date(format, text, length, &d)
            && pelzaune_parse_time(format, text, length, &t) && pelzaune_parse_offset(format, text, length, &offset)
            && pelzaune_parse_instant(format, text, length, &i) && pelzaune_parse_nanoseconds(format, text, length, &n)
            && pelzaune_parse_parts(format, text, length, &p);
    refused &= pelzaune_read_date(3, form, sizeof form - 1, text, length, &d) && pelzaune_read_nanoseconds(3, form, sizeof form - 1, text, length, &n);
    refused &= pelzaune_describe(3, form, sizeof form - 1, &held, &index) == PELZAUNE_OK && pelzaune_described_date(&held, text, length, &d);
    return refused;
}

/* Whether a text of one line is parsed as a moment, and its line as a column. */
static int has(uint32_t format, const uint8_t *text, size_t length, int64_t count)
{
    int64_t entry = 7;
    size_t refused = 7;
    pelzaune_moment m;
    return pelzaune_parse_moment(format, text, length, &m) == PELZAUNE_OK
        && pelzaune_column(format, text, length, &entry, 1, &refused) == 1 && refused == 0 && entry == count;
}

int main(void)
{
    static const uint8_t bytes[] = { 0, '0', '9', '-', 'x', 0xff };
    const size_t lengths[] = { (size_t)INT32_MAX, (size_t)INT32_MAX + 1, (size_t)INT32_MAX + 2, HUGE };
    for (size_t b = 0; b < sizeof bytes; b++) {
        uint8_t *text = filled(bytes[b]);
        if (!text) return 2;
        for (size_t k = 0; k < 4; k++) EXPECT(refuses(text + HUGE - lengths[k], lengths[k]));
    }
    /* A very long description. */
    pelzaune_description held;
    pelzaune_date d;
    size_t index = 77;
    uint8_t *text = filled('x');
    if (!text) return 2;
    EXPECT(pelzaune_check_description(PELZAUNE_BRACKETS_2, text, HUGE, &index) == PELZAUNE_TOO_LONG && index == 77);
    EXPECT(pelzaune_describe(PELZAUNE_STRFTIME, text, HUGE, &held, &index) == PELZAUNE_TOO_LONG && index == 77);
    EXPECT(pelzaune_read_date(PELZAUNE_BRACKETS_1, text, HUGE, text, 1, &d) == PELZAUNE_TOO_LONG);
    /* Very many digits of a fraction, of which nine count, and the offset. */
    text = filled('1');
    if (!text) return 2;
    memcpy(text, "1970-01-01T00:00:00.", 20);
    text[HUGE - 1] = 'Z';
    EXPECT(has(PELZAUNE_RFC3339, text, HUGE, 111111111) && has(PELZAUNE_RFC3339_STRICT, text, HUGE, 111111111));
    /* Very many blanks. */
    text = filled(' ');
    if (!text) return 2;
    memcpy(text, "Thu, 01 Jan 1970 00:00:01", 25);
    memcpy(text + HUGE - 3, "GMT", 3);
    EXPECT(has(PELZAUNE_RFC2822, text, HUGE, 1000000000));
    /* A column of one line, and of two. */
    size_t refused = 7;
    int64_t entries[3] = { 7, 7, 7 };
    text[PIECE - 1] = '\n';
    EXPECT(pelzaune_column(PELZAUNE_RFC3339, text, HUGE, entries, 3, &refused) == 2 && refused == 2);
    EXPECT(entries[0] == PELZAUNE_NO_COUNT && entries[1] == PELZAUNE_NO_COUNT && entries[2] == 7);
    EXPECT(pelzaune_column(PELZAUNE_ISO8601, text, HUGE, NULL, 0, &refused) == 2 && refused == 0);
    printf("%d passed, %d failed\n", passed, failed);
    return failed != 0;
}
