/* Measures the stack that calls use, with their frames. Each call runs on a painted stack of its own, whose bytes are
 * counted from the deepest changed one. Prints a line for each, and fails where one uses more than 16 KiB. */
#define _GNU_SOURCE
#include "pelzaune.h"
#include <pthread.h>
#include <stdio.h>
#include <string.h>
#include <sys/mman.h>

enum { STACK = 1 << 20, MOST = 16 << 10, PAINT = 0xA5 };
static uint8_t *stack;

#define BYTES(text) (const uint8_t *)(text), sizeof(text) - 1
#define BRACKETS "[year]-[month]-[day]T[hour]:[minute]:[second][optional [.[subsecond]]]"
#define DEEP "[optional [[optional [[optional [[optional [[optional [[optional [[optional [[optional [[hour]]]]]]]]]]]]]]]]]"
#define CHOICES "[first [[first [[first [[first [[first [[first [[month repr:long]] [[week_number]]]]]]]]]]]]"
#define COMMENT "(((((((((((((((((((((((((((((((x)))))))))))))))))))))))))))))))"

static pelzaune_description held, deep;
static const pelzaune_moment now = { .year = 2021, .month = 1, .day = 2, .hour = 3, .nanosecond = 5, .offset = 19800 };
static pelzaune_moment moment;
static pelzaune_local local;
static pelzaune_date date;
static pelzaune_time time_of_day;
static pelzaune_instant instant;
static pelzaune_parts parts;
static pelzaune_place place;
static int64_t count, entries[4];
static int32_t offset;
static size_t length, refused;
static uint8_t buffer[PELZAUNE_DESCRIBED_TEXT];

static void nothing(void) {}
static void rfc3339(void) { pelzaune_parse_moment(PELZAUNE_RFC3339, BYTES("2021-01-02T03:04:05.123456789+05:30"), &moment); }
static void strict(void) { pelzaune_parse_date(PELZAUNE_RFC3339_STRICT, BYTES("2021-01-02_03:04:05Z"), &date); }
static void leap_second(void) { pelzaune_parse_instant(PELZAUNE_RFC3339, BYTES("2016-12-31T23:59:60Z"), &instant); }
static void mail_date(void) { pelzaune_parse_moment(PELZAUNE_RFC2822, BYTES(COMMENT "Sat, 02 " COMMENT " Jan 21 03:04:05 EST" COMMENT), &moment); }
static void week_date(void) { pelzaune_parse_moment(PELZAUNE_ISO8601, BYTES("2020-W53-6T03:04:05,123456789+05:30"), &moment); }
static void iso_local(void) { pelzaune_parse_local(PELZAUNE_ISO8601, BYTES("20210102T030405,25"), &local); }
static void utc(void) { pelzaune_parse_utc(PELZAUNE_ISO8601, BYTES("2021-01-02T03:04:05.5-23:59"), &local); }
static void only_date(void) { pelzaune_parse_date(PELZAUNE_ISO8601, BYTES("2020-366"), &date); }
static void only_time(void) { pelzaune_parse_time(PELZAUNE_ISO8601, BYTES("T03:04:05.25"), &time_of_day); }
static void only_offset(void) { pelzaune_parse_offset(PELZAUNE_RFC2822, BYTES("02 Jan 2021 03:04 PDT"), &offset); }
static void nanoseconds(void) { pelzaune_parse_nanoseconds(PELZAUNE_RFC3339, BYTES("2021-01-02T03:04:05.5Z"), &count); }
static void all_parts(void) { pelzaune_parse_parts(PELZAUNE_ISO8601, BYTES("2021-01-02T03:04:05.5+05:30"), &parts); }
static void check(void) { pelzaune_check_description(PELZAUNE_BRACKETS_2, BYTES(BRACKETS), &length); }
static void describe(void) { pelzaune_describe(PELZAUNE_STRFTIME, BYTES("%d/%b/%Y:%H:%M:%S %z"), &held, &length); }
static void read_text(void) { pelzaune_read_local(PELZAUNE_BRACKETS_2, BYTES(BRACKETS), BYTES("2021-01-02T03:04:05.25"), &local); }
static void read_deep(void) { pelzaune_read_parts(PELZAUNE_BRACKETS_2, BYTES(DEEP), BYTES("12"), &parts); }
static void read_choices(void) { pelzaune_read_parts(PELZAUNE_BRACKETS_2, BYTES(CHOICES), BYTES("December"), &parts); }
static void described(void) { pelzaune_described_instant(&held, BYTES("10/Oct/2000:13:55:36 -0700"), &instant); }
static void described_deep(void) { pelzaune_described_time(&deep, BYTES("12"), &time_of_day); }
static void locate(void) { pelzaune_locate(PELZAUNE_RFC2822, BYTES("Sat, 02 " COMMENT " Jan 21 03:04:65"), &place); }
static void locate_strict(void) { pelzaune_locate(PELZAUNE_RFC3339_STRICT, BYTES("2021-01-02_03:04:05Z"), &place); }
static void locate_iso(void) { pelzaune_locate(PELZAUNE_ISO8601, BYTES("2021-01-02T03:04:65"), &place); }
static void read_locate(void) { pelzaune_read_locate(PELZAUNE_BRACKETS_2, BYTES(DEEP), BYTES("x"), &place); }
static void column(void) { pelzaune_column(PELZAUNE_RFC2822, BYTES("02 Jan 2021 03:04 EST\n" COMMENT "x\n"), entries, 4, &refused); }
static void read_column(void) { pelzaune_read_column(PELZAUNE_BRACKETS_2, BYTES(BRACKETS), BYTES("2021-01-02T03:04:05.25\nx\n"), entries, 4, &refused); }
static void described_column(void) { pelzaune_described_column(&held, BYTES("10/Oct/2000:13:55:36 -0700\nx\n"), entries, 4, &refused); }
#define TO_BUFFER &now, buffer, sizeof buffer, &length
static void format_moment(void) { pelzaune_format_moment(PELZAUNE_RFC3339, TO_BUFFER); }
static void read_format(void) { pelzaune_read_format_moment(PELZAUNE_STRFTIME, BYTES("%A, %d. %B %Y %T.%N %z"), TO_BUFFER); }
static void read_format_deep(void) { pelzaune_read_format_moment(PELZAUNE_BRACKETS_2, BYTES(DEEP), TO_BUFFER); }
static void read_format_choices(void) { pelzaune_read_format_moment(PELZAUNE_BRACKETS_2, BYTES(CHOICES), TO_BUFFER); }
static void described_format(void) { pelzaune_described_format_moment(&held, TO_BUFFER); }
static void described_format_deep(void) { pelzaune_described_format_moment(&deep, TO_BUFFER); }
static void write_text(void) { pelzaune_write_text(PELZAUNE_RANGE_OF_OTHERS + 256, buffer, sizeof buffer); }

static const struct { const char *name; void (*run)(void); } calls[] = {
    { "parse_moment, RFC 3339", rfc3339 }, { "parse_date, strict", strict }, { "parse_instant, a leap second", leap_second },
    { "parse_moment, comments", mail_date }, { "parse_moment, a week", week_date }, { "parse_local", iso_local }, { "parse_utc", utc }, { "parse_date", only_date },
    { "parse_time", only_time }, { "parse_offset", only_offset }, { "parse_nanoseconds", nanoseconds }, { "parse_parts", all_parts },
    { "check_description", check }, { "describe", describe }, { "read_local", read_text }, { "read_parts, deep", read_deep },
    { "read_parts, choices", read_choices }, { "described_instant", described }, { "described_time, deep", described_deep },
    { "locate, a mail date", locate }, { "locate, strict", locate_strict }, { "locate, ISO 8601", locate_iso },
    { "read_locate, deep", read_locate }, { "column", column }, { "read_column", read_column },
    { "described_column", described_column }, { "format_moment", format_moment }, { "read_format_moment", read_format },
    { "read_format_moment, deep", read_format_deep }, { "read_format_moment, choices", read_format_choices },
    { "described_format_moment", described_format }, { "described_format_moment, deep", described_format_deep }, { "write_text", write_text },
};

static void *start(void *call)
{
    (*(void (**)(void))call)();
    return NULL;
}

/* How many bytes of its stack a thread changes that makes the call, or -1 without a thread. */
static long depth(void (*run)(void))
{
    pthread_attr_t attributes;
    pthread_t thread;
    memset(stack, PAINT, STACK);
    if (pthread_attr_init(&attributes) || pthread_attr_setstack(&attributes, stack, STACK)
        || pthread_create(&thread, &attributes, start, &run) || pthread_join(thread, NULL)) return -1;
    pthread_attr_destroy(&attributes);
    long untouched = 0;
    while (untouched < STACK && stack[untouched] == PAINT) untouched++;
    return STACK - untouched;
}

int main(void)
{
    long most = 0;
    stack = mmap(NULL, STACK, PROT_READ | PROT_WRITE, MAP_PRIVATE | MAP_ANONYMOUS, -1, 0);
    if (stack == MAP_FAILED || pelzaune_describe(PELZAUNE_BRACKETS_2, BYTES(DEEP), &deep, &length)) return 2;
    describe();
    long thread = depth(nothing);
    if (thread < 0) return 2;
    for (size_t k = 0; k < sizeof calls / sizeof *calls; k++) {
        long bytes = depth(calls[k].run) - thread;
        printf("%6ld bytes: %s\n", bytes, calls[k].name);
        if (bytes > most) most = bytes;
    }
    printf("at most %ld bytes of stack\n", most);
    return most > MOST;
}
