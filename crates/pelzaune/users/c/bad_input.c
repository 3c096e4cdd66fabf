/* Every call of the interface, with every prefix of the texts and of three descriptions, each before an inaccessible
 * page, and with NULL where that is allowed. Prints 'N passed, M failed'. */
#include "check.h"

/* Room for the output of any call, with guard bytes on both sides. */
typedef struct {
    uint8_t before[16];
    union {
        pelzaune_moment moment;
        pelzaune_local local;
        pelzaune_date date;
        pelzaune_time time;
        pelzaune_instant instant;
        pelzaune_parts parts;
        int32_t offset;
        int64_t nanoseconds, entries[4];
        size_t number;
        pelzaune_place place;
        uint8_t bytes[64];
    } out;
    uint8_t after[16];
} room;

enum { CALLS = 13, DESCRIBED = 9 };

/* The result of a call by a format. */
static uint64_t by_format(int call, uint32_t format, const uint8_t *text, size_t length, room *r)
{
    size_t refused;
    switch (call) {
    case 0: return pelzaune_parse_moment(format, text, length, &r->out.moment);
    case 1: return pelzaune_parse_local(format, text, length, &r->out.local);
    case 2: return pelzaune_parse_utc(format, text, length, &r->out.local);
    case 3: return pelzaune_parse_date(format, text, length, &r->out.date);
    case 4: return pelzaune_parse_time(format, text, length, &r->out.time);
    case 5: return pelzaune_parse_offset(format, text, length, &r->out.offset);
    case 6: return pelzaune_parse_instant(format, text, length, &r->out.instant);
    case 7: return pelzaune_parse_nanoseconds(format, text, length, &r->out.nanoseconds);
    case 8: return pelzaune_parse_parts(format, text, length, &r->out.parts);
    case 9: return pelzaune_column(format, text, length, r->out.entries, 4, &refused) * 8 + refused;
    case 10: return pelzaune_column(format, text, length, NULL, 0, &refused) * 8 + refused;
    case 11: return pelzaune_locate(format, text, length, &r->out.place);
    default: return pelzaune_check_description(format, text, length, &r->out.number);
    }
}

/* The result of a call by a description. */
static uint64_t by_description(int call, uint32_t syntax, const uint8_t *description, size_t size, const uint8_t *text, size_t length, room *r)
{
    size_t refused;
    switch (call) {
    case 0: return pelzaune_read_moment(syntax, description, size, text, length, &r->out.moment);
    case 1: return pelzaune_read_local(syntax, description, size, text, length, &r->out.local);
    case 2: return pelzaune_read_utc(syntax, description, size, text, length, &r->out.local);
    case 3: return pelzaune_read_date(syntax, description, size, text, length, &r->out.date);
    case 4: return pelzaune_read_time(syntax, description, size, text, length, &r->out.time);
    case 5: return pelzaune_read_offset(syntax, description, size, text, length, &r->out.offset);
    case 6: return pelzaune_read_nanoseconds(syntax, description, size, text, length, &r->out.nanoseconds);
    case 7: return pelzaune_read_locate(syntax, description, size, text, length, &r->out.place);
    default: return pelzaune_read_column(syntax, description, size, text, length, r->out.entries, 4, &refused) * 8 + refused;
    }
}

static int is_whole(const room *r)
{
    int whole = 1;
    for (int k = 0; k < 16; k++) whole &= r->before[k] == 0xa5 && r->after[k] == 0xa5;
    return whole;
}

/* Checks that a call returns and writes the same wherever the text is in memory, and writes nothing else. */
static void test_formats(void)
{
    for (int call = 0; call < CALLS; call++)
        for (uint32_t format = 0; format <= 5; format++) {
            int right = 1;
            for (const row *it = rows; it < rows + ROWS; it++)
                for (size_t length = 0; length <= strlen(it->text); length++) {
                    room one, other;
                    memset(&one, 0xa5, sizeof one);
                    memset(&other, 0xa5, sizeof other);
                    uint64_t answer = by_format(call, format, at_end(it->text, length), length, &one);
                    right &= by_format(call, format, at_front(it->text, length), length, &other) == answer;
                    right &= memcmp(&one, &other, sizeof one) == 0 && is_whole(&one);
                    if (!length) right &= by_format(call, format, NULL, 0, &other) == answer;
                }
            EXPECT(right);
        }
}

static const char *const descriptions[] = {
    "[year]-[month]-[day]T[hour]:[minute]:[second][optional [.[subsecond]]][first [Z] [[offset_hour]]]",
    "%a, %d %b %Y %H:%M:%S %z",
    "[weekday repr:short], [day] \\[[month repr:short case_sensitive:false]] [ignore count:4]",
};

static void test_descriptions(void)
{
    for (int call = 0; call < DESCRIBED; call++)
        for (uint32_t syntax = 0; syntax <= 4; syntax++) {
            int right = 1;
            for (size_t d = 0; d < sizeof descriptions / sizeof *descriptions; d++)
                for (size_t size = 0; size <= strlen(descriptions[d]); size++)
                    for (size_t length = 0; length <= strlen(rows[5].text); length += 3) {
                        room one, other;
                        memset(&one, 0xa5, sizeof one);
                        memset(&other, 0xa5, sizeof other);
                        const uint8_t *description = described(descriptions[d], size);
                        const char *text = rows[d % 2 ? 5 : 0].text;
                        size_t given = length < strlen(text) ? length : strlen(text);
                        uint64_t answer = by_description(call, syntax, description, size, at_end(text, given), given, &one);
                        right &= by_description(call, syntax, description, size, at_front(text, given), given, &other) == answer;
                        right &= memcmp(&one, &other, sizeof one) == 0 && is_whole(&one);
                        if (!size) right &= by_description(call, syntax, NULL, 0, given ? at_end(text, given) : NULL, given, &other) == answer;
                    }
            EXPECT(right);
        }
}

/* Checks that both calls that format a moment by a description, by each prefix of it, agree with the call that checks it,
 * wherever the description is, and write nothing but the text that fits. */
static void test_described_texts(void)
{
    for (uint32_t syntax = 0; syntax <= 4; syntax++) {
        int right = 1;
        for (size_t d = 0; d < sizeof descriptions / sizeof *descriptions; d++)
            for (size_t size = 0; size <= strlen(descriptions[d]); size++) {
                pelzaune_description stored;
                const pelzaune_moment *m = &rows[size % ROWS].value;
                size_t length = 77, other = 77, index, fits = size % 48;
                room one, two;
                memset(&one, 0xa5, sizeof one);
                memset(&two, 0xa5, sizeof two);
                const uint8_t *at = described(descriptions[d], size);
                pelzaune_status status = pelzaune_read_format_moment(syntax, at, size, m, one.out.bytes, fits, &length);
                pelzaune_status fault = pelzaune_describe(syntax, at_front(descriptions[d], size), size, &stored, &index);
                if (!fault) fault = pelzaune_described_format_moment(&stored, m, two.out.bytes, fits, &other);
                right &= status == fault && length == other && is_whole(&one) && memcmp(&one, &two, sizeof one) == 0;
                for (size_t k = status ? 0 : length < fits ? length : fits; k < sizeof one.out; k++) right &= one.out.bytes[k] == 0xa5;
                if (!size) right &= pelzaune_read_format_moment(syntax, NULL, 0, m, NULL, 0, &other) == status;
            }
        EXPECT(right);
    }
}

/* Checks each capacity of a buffer for the text of a moment and of a status, at the end of a page. */
static void test_capacities(void)
{
    int right = 1;
    for (const row *it = rows; it < rows + ROWS; it++)
        for (uint32_t format = 0; format <= 5; format++)
            for (size_t capacity = 0; capacity <= 40; capacity++) {
                uint8_t whole[40];
                size_t length = 0, other = 0;
                pelzaune_status status = pelzaune_format_moment(format, &it->value, whole, sizeof whole, &length);
                uint8_t *at = page + PAGE - capacity;
                memset(page, '#', PAGE);
                right &= pelzaune_format_moment(format, &it->value, at, capacity, &other) == status && other == length;
                right &= at[-1] == '#' && (status || memcmp(at, whole, capacity < length ? capacity : length) == 0);
                if (!status && capacity > length) right &= at[length] == '#';
                right &= pelzaune_write_text(status, at, capacity) == strlen(pelzaune_text(status)) && at[-1] == '#';
            }
    EXPECT(right);
}

static int is_same(const pelzaune_moment *m, const pelzaune_moment *other)
{
    return m->year == other->year && m->month == other->month && m->day == other->day && m->hour == other->hour
        && m->minute == other->minute && m->second == other->second && m->offset == other->offset;
}

/* Whether the moment is rejected, or has a text by the description that is parsed back. */
static int is_read_back(const pelzaune_description *all, const pelzaune_moment *m)
{
    uint8_t text[64];
    size_t length = 0;
    pelzaune_moment again;
    pelzaune_status status = pelzaune_described_format_moment(all, m, text, sizeof text, &length);
    if (status) return PELZAUNE_KIND(status) == PELZAUNE_RANGE || PELZAUNE_KIND(status) == PELZAUNE_RANGE_OF_OTHERS;
    return pelzaune_described_moment(all, text, length, &again) == PELZAUNE_OK && is_same(&again, m) && again.nanosecond == m->nanosecond;
}

/* Checks that moments of any bytes are rejected, or have a text that is parsed back. */
static void test_made_moments(void)
{
    pelzaune_description all;
    uint64_t seed = 8601;
    int right = describe(PELZAUNE_BRACKETS_2, "[year]-[ordinal] [hour]:[minute]:[second].[subsecond] "
        "[offset_hour sign:mandatory]:[offset_minute]:[offset_second]", &all);
    for (int round = 0; round < 100000; round++) {
        pelzaune_moment m;
        uint8_t *bytes = (uint8_t *)&m;
        for (size_t k = 0; k < sizeof m; k++) {
            seed = seed * UINT64_C(6364136223846793005) + 1442695040888963407;
            bytes[k] = (uint8_t)(seed >> 56);
        }
        if (round % 2) {
            m.year %= 11000, m.offset %= 2, m.month %= 14, m.day %= 33, m.hour %= 25, m.minute %= 61, m.second %= 61;
            m.offset *= 60 * (int32_t)(seed >> 50) % 1500, m.nanosecond %= 1000000001;
        }
        for (uint32_t format = 1; format <= 4; format++) {
            uint8_t text[PELZAUNE_MOMENT_TEXT];
            size_t length = 0;
            pelzaune_moment again;
            if (pelzaune_format_moment(format, &m, text, sizeof text, &length)) continue;
            right &= pelzaune_parse_moment(format, text, length, &again) == PELZAUNE_OK && is_same(&again, &m)
                && again.nanosecond == (format == PELZAUNE_RFC2822 ? 0 : m.nanosecond);
        }
        right &= is_read_back(&all, &m);
    }
    EXPECT(right);
}

int main(void)
{
    if (!has_pages()) return 2;
    test_formats();
    test_descriptions();
    test_described_texts();
    test_capacities();
    test_made_moments();
    printf("%d passed, %d failed\n", passed, failed);
    return failed != 0;
}
