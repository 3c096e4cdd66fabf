/* A fuzz target over the calls of the library. `make fuzz` runs it under libFuzzer, and `make test-c` once on each seed.
 *
 * An input is a text, which is parsed by each format; or a digit for a syntax, a description, the byte 0, and a text, which
 * is parsed by the description. An unknown syntax is rejected, and then the bytes after the 0 are the numbers of a stored
 * description. A failed check aborts. */
#include "check.h"
#include <stdlib.h>

int LLVMFuzzerTestOneInput(const uint8_t *data, size_t size);

static const char *seed; /* the line of a seed that runs, or NULL */

static void check(int is_right, const char *what, int line)
{
    if (is_right) return;
    fprintf(stderr, "fuzz.c, line %d: not %s%s%s\n", line, what, seed ? "\nseed: " : "", seed ? seed : "");
    abort();
}
#define CHECK(is_right) check((is_right), #is_right, __LINE__)

/* Numbers of components. */
enum { YEAR = 1, MONTH = 2, DAY = 3, HOUR = 8, MINUTE = 9, SECOND = 10, SUBSECOND = 12, OFFSET_HOUR = 14, OFFSET_MINUTE = 15,
    MINUTES = 18, SEPARATOR = 22 };
#define STATUS(kind, component) (PELZAUNE_##kind + 256u * (component))

enum { MOMENT, LOCAL, UTC, DATE, TIME, OFFSET, INSTANT, NANOSECONDS, PARTS, CALLS };
enum { UNCHANGED = 0xa5, ROOM = 128 }; /* the byte that fills an output, and the bytes at the end of a page that do so */

typedef union {
    pelzaune_moment moment;
    pelzaune_local local, utc;
    pelzaune_date date;
    pelzaune_time time;
    pelzaune_instant instant;
    pelzaune_parts parts;
    int32_t offset;
    int64_t nanoseconds;
    uint8_t bytes[64];
} value;
static const size_t sizes[CALLS] = { sizeof(pelzaune_moment), sizeof(pelzaune_local), sizeof(pelzaune_local), sizeof(pelzaune_date),
    sizeof(pelzaune_time), sizeof(int32_t), sizeof(pelzaune_instant), sizeof(int64_t), sizeof(pelzaune_parts) };

/* The way to parse a text: by a stored description, by the text of one, or by a format. */
typedef struct {
    const pelzaune_description *stored; /* or NULL */
    const uint8_t *description;         /* or NULL */
    size_t size;
    uint32_t number; /* of the syntax or the format */
    int has_count;   /* whether a text may have a Unix timestamp */
} parser;

/* A text and what each call returns and writes for it. */
typedef struct {
    const uint8_t *text;
    size_t length;
    pelzaune_status status[CALLS];
    value value[CALLS];
} result;

static pelzaune_status parse(int call, const parser *by, const uint8_t *text, size_t length, value *out)
{
#define CASE(call, name) \
    case call: \
        if (by->stored) return pelzaune_described_##name(by->stored, text, length, &out->name); \
        if (by->description) return pelzaune_read_##name(by->number, by->description, by->size, text, length, &out->name); \
        return pelzaune_parse_##name(by->number, text, length, &out->name);
    switch (call) {
    CASE(MOMENT, moment)
    CASE(LOCAL, local)
    CASE(UTC, utc)
    CASE(DATE, date)
    CASE(TIME, time)
    CASE(OFFSET, offset)
    CASE(INSTANT, instant)
    CASE(NANOSECONDS, nanoseconds)
    default: CASE(PARTS, parts)
    }
}

static pelzaune_status missing(uint32_t needs, const parser *by, const uint8_t *text, size_t length)
{
    if (by->stored) return pelzaune_described_missing(needs, by->stored, text, length);
    if (by->description) return pelzaune_read_missing(needs, by->number, by->description, by->size, text, length);
    return pelzaune_missing(needs, by->number, text, length);
}

static size_t column(const parser *by, const uint8_t *text, size_t length, int64_t *entries, size_t capacity, size_t *refused)
{
    if (by->stored) return pelzaune_described_column(by->stored, text, length, entries, capacity, refused);
    if (by->description) return pelzaune_read_column(by->number, by->description, by->size, text, length, entries, capacity, refused);
    return pelzaune_column(by->number, text, length, entries, capacity, refused);
}

static int is_unchanged(const void *from, size_t size)
{
    const uint8_t *bytes = from;
    for (size_t k = 0; k < size; k++)
        if (bytes[k] != UNCHANGED) return 0;
    return 1;
}

/* Checks that a status has a text, which is truncated to the buffer. */
static void check_status(pelzaune_status status, size_t capacity)
{
    uint8_t buffer[96];
    const char *text = pelzaune_text(status);
    size_t length = strlen(text), used = capacity < length ? capacity : length;
    memset(buffer, UNCHANGED, sizeof buffer);
    CHECK((status == PELZAUNE_OK) == (length == 0) && length <= sizeof buffer);
    CHECK(pelzaune_write_text(status, buffer, capacity) == length && memcmp(buffer, text, used) == 0);
    CHECK(is_unchanged(buffer + used, sizeof buffer - used));
}

/* Runs each call, with the text at the end of its page and at its start. An error leaves the output unchanged. */
static result parse_all(const parser *by, const uint8_t *text, size_t length)
{
    result r = { .length = length };
    for (int call = 0; call < CALLS; call++) {
        value other, *one = &r.value[call];
        memset(&other, UNCHANGED, sizeof other);
        memset(one, UNCHANGED, sizeof *one);
        pelzaune_status status = parse(call, by, at_front((const char *)text, length), length, &other);
        r.text = at_end((const char *)text, length);
        r.status[call] = parse(call, by, r.text, length, one);
        CHECK(r.status[call] == status && memcmp(one, &other, sizeof other) == 0);
        size_t written = status ? 0 : sizes[call];
        CHECK(is_unchanged(one->bytes + written, sizeof *one - written));
        check_status(status, length % 97);
    }
    return r;
}

/* The days from 1970-01-01. The calendar repeats after 400 years, so each year may be moved above 0. */
static int64_t days_of(int64_t year, int month, int day)
{
    static const int before[] = { 0, 31, 59, 90, 120, 151, 181, 212, 243, 273, 304, 334, 365 };
    int64_t y = year + 1000000, last = y - 1;
    int is_leap = y % 4 == 0 && (y % 100 != 0 || y % 400 == 0);
    return 365 * y + last / 4 - last / 100 + last / 400 + before[month - 1] + (is_leap && month > 2) + day - 1 - INT64_C(365962027);
}

/* The seconds from 1970-01-01T00:00:00Z. */
static int64_t seconds_of(const pelzaune_moment *m)
{
    return days_of(m->year, m->month, m->day) * 86400 + m->hour * 3600 + m->minute * 60 + m->second - m->offset;
}

static int is_same(const pelzaune_moment *m, const pelzaune_moment *other)
{
    return m->year == other->year && m->month == other->month && m->day == other->day && m->hour == other->hour
        && m->minute == other->minute && m->second == other->second && m->nanosecond == other->nanosecond
        && m->offset == other->offset;
}

/* Checks the counts and the time in UTC of a moment. */
static void check_counts(const result *r)
{
    const pelzaune_moment *m = &r->value[MOMENT].moment;
    const pelzaune_local *u = &r->value[UTC].utc;
    pelzaune_status count = r->status[NANOSECONDS];
    CHECK(r->status[INSTANT] == r->status[MOMENT]);
    if (r->status[MOMENT]) {
        CHECK(count == r->status[MOMENT]);
        return;
    }
    int64_t seconds = seconds_of(m), after = seconds + (seconds < 0);
    CHECK(r->value[INSTANT].instant.seconds == seconds && r->value[INSTANT].instant.nanoseconds == m->nanosecond);
    int64_t rest = (int64_t)m->nanosecond - (seconds < 0 ? 1000000000 : 0); /* of either sign, as the seconds */
    int fits = after < INT64_C(9223372036) && after > -INT64_C(9223372036);
    fits |= after == INT64_C(9223372036) && rest <= 854775807;
    fits |= after == -INT64_C(9223372036) && rest >= -854775808;
    CHECK(count == (fits ? PELZAUNE_OK : PELZAUNE_TOO_WIDE));
    if (fits) CHECK(r->value[NANOSECONDS].nanoseconds == after * 1000000000 + rest);
    if (r->status[UTC]) {
        CHECK(r->status[UTC] == STATUS(RANGE_OF_OTHERS, YEAR) && (m->year == -999999 || m->year == 999999));
        return;
    }
    pelzaune_moment in_utc = { u->year, u->nanosecond, 0, u->month, u->day, u->hour, u->minute, u->second };
    CHECK(seconds_of(&in_utc) == seconds && u->nanosecond == m->nanosecond);
}

/* Checks the date, the time, both and the moment against the parts. A leap second has a moment without a time, and a
 * Unix timestamp one without parts. */
static void check_parts(const parser *by, const result *r)
{
    const pelzaune_parts *p = &r->value[PARTS].parts;
    const pelzaune_moment *m = &r->value[MOMENT].moment;
    const pelzaune_local *l = &r->value[LOCAL].local;
    for (int call = 0; call < PARTS && r->status[PARTS]; call++)
        CHECK(by->stored || by->description ? r->status[call] == r->status[PARTS] : r->status[call] != PELZAUNE_OK);
    if (r->status[PARTS]) return;
    CHECK(r->status[DATE] == p->date_status && r->status[TIME] == p->time_status && r->status[OFFSET] == p->offset_status);
    CHECK(memcmp(&p->date, &r->value[DATE].date, sizeof(int32_t) + 2) == 0);
    CHECK(memcmp(&p->time, &r->value[TIME].time, sizeof(uint32_t) + 3) == 0);
    CHECK(memcmp(&p->offset, &r->value[OFFSET].offset, sizeof p->offset) == 0);
    int has_both = !p->date_status && !p->time_status;
    pelzaune_moment of_parts = { p->date.year, p->time.nanosecond, p->offset, p->date.month, p->date.day, p->time.hour, p->time.minute,
        p->time.second };
    CHECK((r->status[LOCAL] == PELZAUNE_OK) == has_both);
    if (has_both) {
        pelzaune_moment of_local = { l->year, l->nanosecond, p->offset, l->month, l->day, l->hour, l->minute, l->second };
        CHECK(is_same(&of_local, &of_parts));
    }
    if (by->has_count || p->time_status == STATUS(RANGE, SECOND)) return;
    CHECK((r->status[MOMENT] == PELZAUNE_OK) == (has_both && !p->offset_status));
    if (!r->status[MOMENT]) CHECK(is_same(m, &of_parts));
}

/* Checks that a component is missing exactly for a part that is, the date's first. */
static void check_missing(const parser *by, const result *r)
{
    pelzaune_status of[8] = { 0 }, parts[3] = { r->value[PARTS].parts.date_status, r->value[PARTS].parts.time_status,
        r->value[PARTS].parts.offset_status };
    for (uint32_t needs = 0; needs < 8; needs++) of[needs] = missing(needs, by, r->text, r->length);
    if (r->status[PARTS]) {
        for (uint32_t needs = 0; needs < 8; needs++) CHECK(of[needs] == r->status[PARTS]);
        return;
    }
    for (int k = 0; k < 3; k++) {
        pelzaune_status its = of[1 << k];
        CHECK((parts[k] == PELZAUNE_INSUFFICIENT) == (its != PELZAUNE_OK));
        CHECK(!its || (PELZAUNE_KIND(its) == PELZAUNE_INSUFFICIENT && PELZAUNE_COMPONENT(its)));
    }
    for (uint32_t needs = 0; needs < 8; needs++) {
        pelzaune_status first = PELZAUNE_OK;
        for (uint32_t part = 4; part; part >>= 1)
            if (needs & part && of[part]) first = of[part];
        CHECK(of[needs] == first || (by->has_count && needs == 7 && !of[needs]));
        check_status(of[needs], r->length % 29);
    }
}

/* Checks that the place of an error lies within the text, and that a text without an error has no place. */
static void check_place(const parser *by, const result *r)
{
    pelzaune_place place;
    memset(&place, UNCHANGED, sizeof place);
    pelzaune_status status = by->description ? pelzaune_read_locate(by->number, by->description, by->size, r->text, r->length, &place)
                                             : pelzaune_locate(by->number, r->text, r->length, &place);
    CHECK((status == PELZAUNE_OK) == (r->status[PARTS] == PELZAUNE_OK));
    if (!status || PELZAUNE_KIND(status) >= PELZAUNE_UNKNOWN_FORMAT) {
        CHECK(is_unchanged(&place, sizeof place) && status == r->status[PARTS]);
        return;
    }
    CHECK(place.index <= r->length);
    switch (PELZAUNE_KIND(status)) {
    case PELZAUNE_INVALID_LITERAL: CHECK(place.index == r->length || r->text[place.index] != place.byte); break;
    case PELZAUNE_INVALID_COMPONENT: CHECK(place.byte == 0 && PELZAUNE_COMPONENT(status)); break;
    default: CHECK(status == PELZAUNE_TRAILING && place.index < r->length && place.byte == 0);
    }
}

/* Checks a column against its lines, each parsed alone without CR at its end. */
static void check_column(const parser *by, const result *r)
{
    int64_t entries[8];
    size_t capacity = r->length % 8, refused = 77, other = 77, wrong = 0, lines = 0, start = 0;
    memset(entries, UNCHANGED, sizeof entries);
    size_t count = column(by, r->text, r->length, entries, capacity, &refused);
    CHECK(column(by, r->text, r->length, NULL, 0, &other) == count && other == 0);
    for (size_t k = 0; k <= r->length; k++) {
        if (k < r->length ? r->text[k] != '\n' : start == k) continue;
        size_t end = k > start && r->text[k - 1] == '\r' ? k - 1 : k;
        if (lines < capacity) {
            value alone = { .nanoseconds = PELZAUNE_NO_COUNT };
            wrong += parse(NANOSECONDS, by, r->text + start, end - start, &alone) != PELZAUNE_OK;
            CHECK(entries[lines] == alone.nanoseconds);
        }
        lines++, start = k + 1;
    }
    size_t used = lines < capacity ? lines : capacity;
    CHECK(count == lines && refused == wrong && is_unchanged(entries + used, sizeof entries - used * sizeof *entries));
}

/* A slow reader: the bytes from `at` on are unread, and after an error nothing is read. */
typedef struct {
    const uint8_t *text;
    size_t length, at;
    pelzaune_status status;
} reader;

static int next_is(const reader *r, uint8_t least, uint8_t most)
{
    return r->at < r->length && r->text[r->at] >= least && r->text[r->at] <= most;
}

static void expect_if(reader *r, int is_right, pelzaune_status status)
{
    if (!r->status && !is_right) r->status = status;
}

static void read_byte(reader *r, uint8_t byte)
{
    expect_if(r, next_is(r, byte, byte), PELZAUNE_INVALID_LITERAL);
    if (!r->status) r->at++;
}

static int read_digits(reader *r, int count, uint32_t component)
{
    int number = 0;
    for (; count && !r->status; count--) {
        expect_if(r, next_is(r, '0', '9'), STATUS(INVALID_COMPONENT, component));
        if (!r->status) number = 10 * number + r->text[r->at++] - '0';
    }
    return number;
}

static uint32_t read_fraction(reader *r)
{
    uint32_t nanosecond = 0, unit = 100000000;
    if (r->status || !next_is(r, '.', '.')) return 0;
    r->at++;
    expect_if(r, next_is(r, '0', '9'), STATUS(INVALID_COMPONENT, SUBSECOND));
    for (; !r->status && next_is(r, '0', '9'); unit /= 10) nanosecond += unit * (r->text[r->at++] - (uint32_t)'0');
    return nanosecond;
}

static int32_t read_offset(reader *r)
{
    if (next_is(r, 'Z', 'Z') || next_is(r, 'z', 'z')) {
        r->at++;
        return 0;
    }
    int sign = next_is(r, '-', '-') ? -1 : 1;
    expect_if(r, sign < 0 || next_is(r, '+', '+'), STATUS(INVALID_COMPONENT, OFFSET_HOUR));
    r->at++;
    int hours = read_digits(r, 2, OFFSET_HOUR);
    expect_if(r, hours <= 23, STATUS(INVALID_COMPONENT, OFFSET_HOUR));
    read_byte(r, ':');
    int minutes = read_digits(r, 2, OFFSET_MINUTE);
    expect_if(r, minutes <= 59, STATUS(RANGE, MINUTES));
    return sign * (hours * 3600 + minutes * 60);
}

/* Whether the second after a moment in UTC begins a month, which is that of its date or the next one. */
static int ends_month(const pelzaune_moment *m)
{
    int64_t next = seconds_of(m) + 1;
    return next == days_of(m->year, m->month, 1) * 86400 || next == days_of(m->year, m->month + 1, 1) * 86400;
}

/* Reads a text by RFC 3339, first all of its form and then its ranges. Returns the status. */
static pelzaune_status read_slowly(int is_strict, const uint8_t *text, size_t length, pelzaune_moment *m)
{
    reader r = { text, length, 0, PELZAUNE_OK };
    m->year = read_digits(&r, 4, YEAR);
    read_byte(&r, '-');
    m->month = (uint8_t)read_digits(&r, 2, MONTH);
    expect_if(&r, m->month != 0, STATUS(INVALID_COMPONENT, MONTH));
    read_byte(&r, '-');
    m->day = (uint8_t)read_digits(&r, 2, DAY);
    int is_separated = next_is(&r, ' ', ' ') || next_is(&r, 'T', 'T') || next_is(&r, 't', 't');
    expect_if(&r, is_strict ? is_separated : r.at < length, STATUS(INVALID_COMPONENT, SEPARATOR));
    r.at++;
    m->hour = (uint8_t)read_digits(&r, 2, HOUR);
    read_byte(&r, ':');
    m->minute = (uint8_t)read_digits(&r, 2, MINUTE);
    read_byte(&r, ':');
    m->second = (uint8_t)read_digits(&r, 2, SECOND);
    m->nanosecond = read_fraction(&r);
    m->offset = read_offset(&r);
    expect_if(&r, r.at == length, PELZAUNE_TRAILING);
    expect_if(&r, m->month <= 12, STATUS(RANGE, MONTH));
    if (r.status) return r.status;
    expect_if(&r, m->day >= 1 && days_of(m->year, m->month, m->day) < days_of(m->year, m->month + 1, 1), STATUS(RANGE_OF_OTHERS, DAY));
    expect_if(&r, m->hour <= 23, STATUS(RANGE, HOUR));
    expect_if(&r, m->minute <= 59, STATUS(RANGE, MINUTE));
    expect_if(&r, m->second <= 60, STATUS(RANGE, SECOND));
    if (r.status || m->second < 60) return r.status;
    m->second = 59, m->nanosecond = 999999999;
    return ends_month(m) ? PELZAUNE_OK : STATUS(RANGE_OF_OTHERS, SECOND);
}

/* Checks RFC 3339 against the slow reader. */
static void check_slowly(const parser *by, const result *r)
{
    pelzaune_moment m;
    pelzaune_status status = read_slowly(by->number == PELZAUNE_RFC3339_STRICT, r->text, r->length, &m);
    CHECK(r->status[MOMENT] == status);
    if (!status) CHECK(is_same(&m, &r->value[MOMENT].moment));
}

/* Checks what two calls wrote: a text, whole and truncated to a buffer at the end of a page, or nothing. */
static void check_written(pelzaune_status status, size_t length, const uint8_t *whole, size_t size, size_t capacity)
{
    const uint8_t *at = page + PAGE - capacity;
    size_t written = status ? 0 : length, used = written < capacity ? written : capacity;
    CHECK(status ? length == UNCHANGED : length <= size);
    CHECK(is_unchanged(whole + written, size - written) && is_unchanged(page + PAGE - ROOM, ROOM - capacity));
    CHECK(memcmp(at, whole, used) == 0 && is_unchanged(at + used, capacity - used));
    check_status(status, capacity);
}

/* Checks that a moment has no text in a format, or one that is truncated to the buffer and is read back. */
static void check_format(uint32_t format, const pelzaune_moment *m, size_t capacity)
{
    uint8_t text[PELZAUNE_MOMENT_TEXT];
    size_t length = UNCHANGED, other = UNCHANGED;
    pelzaune_moment again, kept = *m;
    memset(page + PAGE - ROOM, UNCHANGED, ROOM);
    memset(text, UNCHANGED, sizeof text);
    pelzaune_status status = pelzaune_format_moment(format, m, text, sizeof text, &length);
    CHECK(pelzaune_format_moment(format, m, page + PAGE - capacity, capacity, &other) == status && other == length);
    check_written(status, length, text, sizeof text, capacity);
    if (status) return;
    if (format == PELZAUNE_RFC2822) kept.nanosecond = 0;
    CHECK(pelzaune_parse_moment(format, at_end((const char *)text, length), length, &again) == PELZAUNE_OK && is_same(&again, &kept));
}

/* Checks the text of a moment by a description, both by the stored one and by its text. */
static void check_described_format(const parser *by, const pelzaune_description *stored, const pelzaune_moment *m, size_t capacity)
{
    static uint8_t text[PELZAUNE_DESCRIBED_TEXT];
    uint8_t *at = page + PAGE - capacity;
    size_t length = UNCHANGED, other = UNCHANGED;
    memset(page + PAGE - ROOM, UNCHANGED, ROOM);
    memset(text, UNCHANGED, sizeof text);
    pelzaune_status status = pelzaune_described_format_moment(stored, m, text, sizeof text, &length);
    CHECK(pelzaune_read_format_moment(by->number, by->description, by->size, m, at, capacity, &other) == status && other == length);
    check_written(status, length, text, sizeof text, capacity);
}

/* Checks that a moment is out of range, or is read back from its text by a description of all its parts. */
static void check_whole(const pelzaune_moment *m)
{
    static const char whole[] = "[year]-[ordinal] [hour]:[minute]:[second].[subsecond] [offset_hour]:[offset_minute]:[offset_second]";
    static pelzaune_description stored;
    uint8_t text[64];
    size_t length, index;
    pelzaune_moment again;
    if (!stored.numbers[0])
        CHECK(pelzaune_describe(PELZAUNE_BRACKETS_2, (const uint8_t *)whole, sizeof whole - 1, &stored, &index) == PELZAUNE_OK);
    pelzaune_status status = pelzaune_described_format_moment(&stored, m, text, sizeof text, &length);
    if (status) CHECK(PELZAUNE_KIND(status) == PELZAUNE_RANGE || PELZAUNE_KIND(status) == PELZAUNE_RANGE_OF_OTHERS);
    else CHECK(pelzaune_described_moment(&stored, at_end((const char *)text, length), length, &again) == PELZAUNE_OK && is_same(&again, m));
}

/* A moment of the first bytes of a text. Every second one is close to the ranges of its members. */
static pelzaune_moment made_moment(const uint8_t *text, size_t length)
{
    pelzaune_moment m = { 2021, 5, 3600, 1, 2, 3, 4, 5 };
    memcpy(&m, text, length < sizeof m ? length : sizeof m);
    if (m.nanosecond % 2) return m;
    m.year %= 11000, m.month %= 14, m.day %= 33, m.hour %= 25, m.minute %= 61, m.second %= 61, m.nanosecond %= 1000000001;
    m.offset = m.offset % 1500 * 60;
    return m;
}

/* Checks that each text that the strict format accepts has an equal moment by the other. */
static void check_strict(const result *other, const result *strict)
{
    if (!strict->status[MOMENT]) CHECK(!other->status[MOMENT] && is_same(&other->value[MOMENT].moment, &strict->value[MOMENT].moment));
    if (!strict->status[PARTS]) CHECK(!other->status[PARTS]);
}

static void check_formats(const uint8_t *text, size_t length)
{
    result results[6];
    pelzaune_moment made = made_moment(text, length);
    for (uint32_t format = 0; format <= 5; format++) {
        parser by = { .number = format };
        result *r = &results[format];
        *r = parse_all(&by, text, length);
        check_counts(r);
        check_parts(&by, r);
        check_missing(&by, r);
        check_place(&by, r);
        check_column(&by, r);
        if (format == PELZAUNE_RFC3339 || format == PELZAUNE_RFC3339_STRICT) check_slowly(&by, r);
        for (uint32_t other = 0; other <= 5 && !r->status[MOMENT]; other++) check_format(other, &r->value[MOMENT].moment, length % 40);
        check_format(format, &made, length % 40);
    }
    check_strict(&results[PELZAUNE_RFC3339], &results[PELZAUNE_RFC3339_STRICT]);
    check_whole(&made);
}

/* Whether a description may have a Unix timestamp: in brackets a name with `mp`, in any case, and in strftime an `s`. */
static int may_have_count(const parser *by)
{
    const uint8_t *d = by->description;
    for (size_t k = 0; k < by->size; k++)
        if (by->number == PELZAUNE_STRFTIME ? d[k] == 's' : k && (d[k - 1] | 32) == 'm' && (d[k] | 32) == 'p') return 1;
    return 0;
}

/* Stores a description at the end of a page. Returns its status, which the call that only checks it returns, too. */
static pelzaune_status check_description(const parser *by, pelzaune_description *stored)
{
    size_t index = SIZE_MAX, other = SIZE_MAX;
    memset(stored, UNCHANGED, sizeof *stored);
    pelzaune_status status = pelzaune_describe(by->number, by->description, by->size, stored, &index);
    CHECK(pelzaune_check_description(by->number, by->description, by->size, &other) == status && other == index);
    CHECK((index == SIZE_MAX) == (!status || status == PELZAUNE_TOO_LONG || status == PELZAUNE_UNKNOWN_SYNTAX));
    CHECK(index == SIZE_MAX || index <= by->size);
    if (status) CHECK(is_unchanged(stored, sizeof *stored));
    check_status(status, by->size % 97);
    return status;
}

/* Checks a text by a description and, unless it is NULL, by the stored one, with equal results. */
static void check_described(const parser *by, const pelzaune_description *stored, const uint8_t *text, size_t length)
{
    pelzaune_moment made = made_moment(text, length);
    result r = parse_all(by, text, length);
    check_counts(&r);
    check_parts(by, &r);
    check_missing(by, &r);
    check_place(by, &r);
    check_column(by, &r);
    if (!stored) return;
    parser other = { .stored = stored, .has_count = by->has_count };
    result again = parse_all(&other, text, length);
    CHECK(memcmp(r.status, again.status, sizeof r.status) == 0 && memcmp(r.value, again.value, sizeof r.value) == 0);
    check_missing(&other, &again);
    check_column(&other, &again);
    check_described_format(by, stored, r.status[MOMENT] ? &made : &r.value[MOMENT].moment, length % 48);
}

/* Checks a text by a description of any numbers, of which the given bytes are the first. */
static void check_numbers(pelzaune_description *stored, const uint8_t *bytes, size_t size, const uint8_t *text, size_t length)
{
    parser by = { .stored = stored, .has_count = 1 };
    memset(stored, 0, sizeof *stored);
    memcpy(stored, bytes, size < sizeof *stored ? size : sizeof *stored);
    result r = parse_all(&by, text, length);
    check_counts(&r);
    check_parts(&by, &r);
    check_missing(&by, &r);
    check_column(&by, &r);
}

int LLVMFuzzerTestOneInput(const uint8_t *data, size_t size)
{
    static pelzaune_description *stored;
    if (!page) {
        CHECK(has_pages());
        stored = (pelzaune_description *)(void *)(guarded_page() + PAGE) - 1;
    }
    if (size > PAGE) return 0;
    const uint8_t *zero = size ? memchr(data, 0, size) : NULL, *text = zero ? zero + 1 : data;
    size_t length = size - (size_t)(text - data);
    if (!zero || zero == data) {
        check_formats(text, length);
        return 0;
    }
    size_t of_description = (size_t)(zero - data) - 1;
    parser by = { NULL, described((const char *)data + 1, of_description), of_description, data[0] & 7, 0 };
    by.has_count = may_have_count(&by);
    pelzaune_status status = check_description(&by, stored);
    check_described(&by, status ? NULL : stored, text, length);
    if (by.number > PELZAUNE_STRFTIME) check_numbers(stored, text, length, data + 1, of_description);
    return 0;
}

#ifndef FUZZED
/* Replaces \n, \r, \t, \0, \\ and \xHH by their bytes. Returns the length. */
static size_t unescape(char *line)
{
    static const char marks[] = "nrt0\\", bytes[] = "\n\r\t\0\\";
    char *to = line;
    for (const char *from = line; *from; from++) {
        unsigned byte;
        const char *mark = *from == '\\' && from[1] ? strchr(marks, from[1]) : NULL;
        if (mark) *to++ = bytes[mark - marks], from++;
        else if (sscanf(from, "\\x%2x", &byte) == 1) *to++ = (char)byte, from += 3;
        else *to++ = *from;
    }
    return (size_t)(to - line);
}

/* Runs each line of a file as a seed. Writes the seeds into the folder that a second argument names, a file each. */
int main(int count, char **words)
{
    char line[PAGE], kept[PAGE], path[PAGE];
    FILE *seeds = fopen(count > 1 ? words[1] : "users/c/fuzz_seeds.txt", "r");
    if (!seeds) return 2;
    while (fgets(line, sizeof line, seeds)) {
        line[strcspn(line, "\n")] = 0;
        strcpy(kept, line);
        seed = kept;
        size_t length = unescape(line);
        LLVMFuzzerTestOneInput((const uint8_t *)line, length);
        passed++;
        if (count < 3) continue;
        snprintf(path, sizeof path, "%s/seed_%d", words[2], passed);
        FILE *out = fopen(path, "w");
        if (!out || fwrite(line, 1, length, out) != length || fclose(out)) return 2;
    }
    fclose(seeds);
    printf("%d passed, %d failed\n", passed, failed);
    return passed == 0;
}
#endif
