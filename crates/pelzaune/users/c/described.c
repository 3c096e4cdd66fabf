/* Tests of parsed descriptions. Prints 'N passed, M failed'. */
#include "check.h"

typedef struct {
    uint32_t syntax;
    const char *description, *text;
} pair;

/* Each kind of step, with its choices. */
static const pair pairs[] = {
    { PELZAUNE_BRACKETS_2, "[year]-[month]-[day]", "2021-03-04" },
    { PELZAUNE_BRACKETS_1, "[[[year]", "[2021" },
    { PELZAUNE_BRACKETS_2, "[year padding:space sign:mandatory]/[month padding:none]/[day padding:space]", "+2021/3/ 4" },
    { PELZAUNE_BRACKETS_2, "[year repr:full range:standard][month repr:long][day padding:none]", "2021March4" },
    { PELZAUNE_BRACKETS_2, "[year repr:century][year repr:last_two]-[ordinal]", "2021-063" },
    { PELZAUNE_BRACKETS_2, "[year repr:century range:standard][year repr:last_two]-[ordinal padding:none]", "2021-63" },
    { PELZAUNE_BRACKETS_2, "[year base:iso_week]-W[week_number]-[weekday repr:monday]", "2020-W53-6" },
    { PELZAUNE_BRACKETS_2, "[year base:iso_week repr:century][year base:iso_week repr:last_two]-W[week_number]-[weekday repr:sunday]", "2020-W53-7" },
    { PELZAUNE_BRACKETS_2, "[year] [week_number repr:sunday] [weekday]", "2021 09 Thursday" },
    { PELZAUNE_BRACKETS_2, "[year] [week_number repr:monday] [weekday repr:short case_sensitive:false]", "2021 09 thu" },
    { PELZAUNE_BRACKETS_2, "[hour repr:12 padding:none]:[minute][optional [:[second][optional [.[subsecond]]]]] [period case:lower]", "1:05:09.25 pm" },
    { PELZAUNE_BRACKETS_2, "[hour]:[minute]:[second].[subsecond digits:3]", "13:05:09.250" },
    { PELZAUNE_BRACKETS_2, "[hour] [period case_sensitive:false][ignore count:3][minute]", "13 Pm???05" },
    { PELZAUNE_BRACKETS_2, "[unix_timestamp precision:nanosecond sign:mandatory]", "+1609556645000000001" },
    { PELZAUNE_BRACKETS_2, "[unix_timestamp precision:microsecond]", "1609556645000001" },
    { PELZAUNE_BRACKETS_2, "[unix_timestamp precision:millisecond]", "-1609556645001" },
    { PELZAUNE_BRACKETS_2, "[year]-[month]-[day]T[hour]:[minute]:[second][first [Z] [[offset_hour sign:mandatory]:[offset_minute]:[offset_second]]]",
        "2021-01-02T03:04:05-08:30:15" },
    { PELZAUNE_BRACKETS_2, "[year]-[month]-[day][end trailing_input:discard]", "2021-01-02 and more" },
    { PELZAUNE_STRFTIME, "%a, %d %b %Y %H:%M:%S %z", "Sat, 02 Jan 2021 03:04:05 -0030" },
    { PELZAUNE_STRFTIME, "%d/%b/%Y:%H:%M:%S %z", "02/Jan/2021:03:04:05 -0030" },
    { PELZAUNE_STRFTIME, "%H:%M", "23:59" },
    { PELZAUNE_STRFTIME, "%s", "1609556645" },
};
enum { PAIRS = sizeof pairs / sizeof *pairs, CALLS = 9 };

typedef union {
    pelzaune_moment moment;
    pelzaune_local local;
    pelzaune_date date;
    pelzaune_time time;
    pelzaune_instant instant;
    pelzaune_parts parts;
    int32_t offset;
    int64_t nanoseconds;
    uint8_t bytes[64];
} value;

/* The result of a call by a parsed description. */
static pelzaune_status by_description(int call, const pelzaune_description *d, const uint8_t *text, size_t length, value *out)
{
    switch (call) {
    case 0: return pelzaune_described_moment(d, text, length, &out->moment);
    case 1: return pelzaune_described_local(d, text, length, &out->local);
    case 2: return pelzaune_described_utc(d, text, length, &out->local);
    case 3: return pelzaune_described_date(d, text, length, &out->date);
    case 4: return pelzaune_described_time(d, text, length, &out->time);
    case 5: return pelzaune_described_offset(d, text, length, &out->offset);
    case 6: return pelzaune_described_instant(d, text, length, &out->instant);
    case 7: return pelzaune_described_nanoseconds(d, text, length, &out->nanoseconds);
    default: return pelzaune_described_parts(d, text, length, &out->parts);
    }
}

/* The result of a call by the text of the description. */
static pelzaune_status by_text(int call, const pair *it, const uint8_t *text, size_t length, value *out)
{
    const uint8_t *d = (const uint8_t *)it->description;
    size_t size = strlen(it->description);
    switch (call) {
    case 0: return pelzaune_read_moment(it->syntax, d, size, text, length, &out->moment);
    case 1: return pelzaune_read_local(it->syntax, d, size, text, length, &out->local);
    case 2: return pelzaune_read_utc(it->syntax, d, size, text, length, &out->local);
    case 3: return pelzaune_read_date(it->syntax, d, size, text, length, &out->date);
    case 4: return pelzaune_read_time(it->syntax, d, size, text, length, &out->time);
    case 5: return pelzaune_read_offset(it->syntax, d, size, text, length, &out->offset);
    case 6: return pelzaune_read_instant(it->syntax, d, size, text, length, &out->instant);
    case 7: return pelzaune_read_nanoseconds(it->syntax, d, size, text, length, &out->nanoseconds);
    default: return pelzaune_read_parts(it->syntax, d, size, text, length, &out->parts);
    }
}

/* Whether both return and write the same for a text, wherever it is in memory. */
static int alike(int call, const pair *it, const pelzaune_description *d, const char *text, size_t length)
{
    value one, other;
    memset(&one, 0xa5, sizeof one);
    memset(&other, 0xa5, sizeof other);
    pelzaune_status status = by_description(call, d, at_end(text, length), length, &one);
    return by_text(call, it, at_front(text, length), length, &other) == status && memcmp(&one, &other, sizeof one) == 0;
}

/* Checks every prefix of the text, and the text with each of its bytes changed. */
static void test_same_as_by_text(void)
{
    for (const pair *it = pairs; it < pairs + PAIRS; it++) {
        pelzaune_description d, copy;
        expect(describe(it->syntax, it->description, &d), it->description, __LINE__);
        copy = d;
        memset(&d, 0x5a, sizeof d);
        int right = 1;
        for (int call = 0; call < CALLS; call++)
            for (size_t length = 0; length <= strlen(it->text); length++) {
                char changed[64];
                right &= alike(call, it, &copy, it->text, length);
                strcpy(changed, it->text);
                if (changed[length]) changed[length] = "0Z+ x"[length % 5];
                right &= alike(call, it, &copy, changed, strlen(changed));
            }
        expect(right, it->description, __LINE__);
    }
}

/* Descriptions whose texts have one form, and others that are close to one. */
static const pair forms[] = {
    { PELZAUNE_STRFTIME, "%Y-%m-%d", "2021-03-04" },
    { PELZAUNE_BRACKETS_2, "[year range:standard]/[month]/[day]", "2021/03/04" },
    { PELZAUNE_STRFTIME, "%d/%b/%Y", "04/Mar/2021" },
    { PELZAUNE_STRFTIME, "%H:%M:%S", "05:06:07" },
    { PELZAUNE_STRFTIME, "%Y-%m-%d %H:%M:%S", "2021-03-04 05:06:07" },
    { PELZAUNE_STRFTIME, "%d/%b/%Y:%H:%M:%S %z", "04/Mar/2021:05:06:07 -0530" },
    { PELZAUNE_STRFTIME, "%Y-%m-%dT%H:%M:%S%z", "2021-03-04T05:06:07+0530" },
    { PELZAUNE_BRACKETS_2, "[year]-[month]-[day]T[hour].[minute].[second] [offset_hour sign:mandatory]:[offset_minute]", "2021-03-04T05.06.07 +05:30" },
    { PELZAUNE_STRFTIME, "%Y-%m/%d", "2021-03/04" },
    { PELZAUNE_BRACKETS_2, "[year]-[month padding:none]-[day]", "2021-03-04" },
    { PELZAUNE_BRACKETS_2, "[year]-[month]-[day padding:space]", "2021-03-04" },
    { PELZAUNE_BRACKETS_2, "[year sign:mandatory]-[month]-[day]", "+2021-03-04" },
    { PELZAUNE_BRACKETS_2, "[day]/[month repr:short case_sensitive:false]/[year]", "04/Mar/2021" },
    { PELZAUNE_BRACKETS_2, "[hour repr:12]:[minute]:[second]", "05:06:07" },
    { PELZAUNE_STRFTIME, "%H:%M:%S.", "05:06:07." },
    { PELZAUNE_BRACKETS_2, "[year]-[month]-[day] [hour]:[minute]:[second] [offset_hour]:[offset_minute]", "2021-03-04 05:06:07 +05:30" },
};
enum { FORMS = sizeof forms / sizeof *forms };

/* Whether a line among others is stored as it is alone without CR at its end, by the parsed description and by its text. */
static int is_column(const pair *it, const pelzaune_description *d, const char *text)
{
    char lines[3 * 64];
    int64_t alone = PELZAUNE_NO_COUNT, read[3] = { 7, 7, 7 }, entries[3] = { 7, 7, 7 };
    size_t size = strlen(it->description), length = (size_t)sprintf(lines, "\n%s\n", text), refused, other, end = strlen(text);
    if (end && text[end - 1] == '\r') end--;
    int wrong = pelzaune_read_nanoseconds(it->syntax, described(it->description, size), size, at_end(text, end), end, &alone) != PELZAUNE_OK;
    int right = pelzaune_described_column(d, at_end(lines, length), length, entries, 3, &refused) == 2;
    right &= pelzaune_read_column(it->syntax, described(it->description, size), size, at_front(lines, length), length, read, 3, &other) == 2;
    return right && refused == (size_t)wrong + 1 && other == refused && entries[0] == PELZAUNE_NO_COUNT && entries[1] == alone
        && entries[2] == 7 && memcmp(entries, read, sizeof read) == 0;
}

/* Checks the text of a form, with each of its bytes changed to each other one, and with one more byte. */
static void test_forms(void)
{
    static const int calls[] = { 0, 1, 3, 4 };
    for (const pair *it = forms; it < forms + FORMS; it++) {
        pelzaune_description d;
        int right = describe(it->syntax, it->description, &d) && is_column(it, &d, it->text);
        size_t length = strlen(it->text);
        for (size_t at = 0; at <= length; at++)
            for (int byte = 0; byte < 256; byte++) {
                char changed[64];
                strcpy(changed, it->text);
                changed[at] = (char)byte;
                size_t size = at < length ? length : length + 1;
                for (size_t k = 0; k < sizeof calls / sizeof *calls; k++) right &= alike(calls[k], it, &d, changed, size);
                changed[size] = 0;
                if (byte && byte != '\n') right &= is_column(it, &d, changed);
            }
        expect(right, it->description, __LINE__);
    }
}

static int same_date(pelzaune_date p, int year, int month, int day)
{
    return p.year == year && p.month == month && p.day == day;
}

static int same_time(pelzaune_time p, int hour, int minute, int second, uint32_t nanosecond)
{
    return p.hour == hour && p.minute == minute && p.second == second && p.nanosecond == nanosecond;
}

/* Whether the date, the time, both and the moment agree with the parts, which have no fast path by form. */
static int as_parts(const pelzaune_description *d, const uint8_t *text, size_t length)
{
    pelzaune_parts p;
    pelzaune_date date;
    pelzaune_time time;
    pelzaune_local local;
    pelzaune_moment m;
    pelzaune_status status = pelzaune_described_parts(d, text, length, &p);
    pelzaune_status of_date = pelzaune_described_date(d, text, length, &date), of_time = pelzaune_described_time(d, text, length, &time);
    pelzaune_status of_local = pelzaune_described_local(d, text, length, &local), of_moment = pelzaune_described_moment(d, text, length, &m);
    if (status) return of_date == status && of_time == status && of_local == status && of_moment == status;
    int both = !p.date_status && !p.time_status, all = both && !p.offset_status;
    return of_date == p.date_status && (of_date || same_date(p.date, date.year, date.month, date.day))
        && of_time == p.time_status && (of_time || same_time(p.time, time.hour, time.minute, time.second, time.nanosecond))
        && (of_local == PELZAUNE_OK) == both && (of_local || (same_date(p.date, local.year, local.month, local.day)
            && same_time(p.time, local.hour, local.minute, local.second, local.nanosecond)))
        && (of_moment == PELZAUNE_OK) == all && (of_moment || (same_date(p.date, m.year, m.month, m.day)
            && same_time(p.time, m.hour, m.minute, m.second, m.nanosecond) && p.offset == m.offset));
}

/* A description whose bytes are overwritten and restored in turn: each call uses the current bytes. */
static void test_overwritten(void)
{
    for (const pair *it = forms; it < forms + FORMS; it++) {
        pelzaune_description d, copy;
        int right = describe(it->syntax, it->description, &d);
        size_t length = strlen(it->text);
        copy = d;
        for (size_t at = 0; at < 8 + 16 * (d.numbers[0] + 1); at++) {
            uint8_t *byte = (uint8_t *)&copy + at;
            for (int other = 0; other < 256; other += other == 36 ? 5 : other < 48 ? 1 : 23) { /* a timestamp, 37 to 40, makes a moment without parts */
                *byte = (uint8_t)other;
                right &= as_parts(&copy, at_end(it->text, length), length);
            }
            *byte = ((const uint8_t *)&d)[at];
            right &= alike(3, it, &copy, it->text, length) && alike(1, it, &copy, it->text, length);
        }
        expect(right, it->description, __LINE__);
    }
}

/* Each text is parsed by a part of its description. */
static void test_read(void)
{
    for (const pair *it = pairs; it < pairs + PAIRS; it++) {
        pelzaune_description d;
        pelzaune_parts p;
        int right = describe(it->syntax, it->description, &d);
        right &= pelzaune_described_parts(&d, TEXT(""), &p) != PELZAUNE_OK;
        right &= pelzaune_described_parts(&d, at_end(it->text, strlen(it->text)), strlen(it->text), &p) == PELZAUNE_OK;
        expect(right, it->description, __LINE__);
    }
}

static void test_values(void)
{
    pelzaune_description d;
    pelzaune_date date;
    pelzaune_time time;
    pelzaune_moment m;
    int64_t n, entries[3] = { 7, 7, 7 };
    size_t refused;
    EXPECT(describe(PELZAUNE_STRFTIME, "%Y-%m-%d", &d));
    EXPECT(pelzaune_described_date(&d, TEXT("2020-02-29"), &date) == PELZAUNE_OK && date.year == 2020 && date.month == 2 && date.day == 29);
    EXPECT(pelzaune_described_date(&d, TEXT("-2020-02-29"), &date) == PELZAUNE_OK && date.year == -2020);
    EXPECT(pelzaune_described_date(&d, TEXT("2021-02-29"), &date) == PELZAUNE_RANGE_OF_OTHERS + 256 * 3);
    EXPECT(pelzaune_described_date(&d, TEXT("2021-13-29"), &date) == PELZAUNE_INVALID_COMPONENT + 256 * 2);
    EXPECT(pelzaune_described_date(&d, TEXT("2021/12-29"), &date) == PELZAUNE_INVALID_LITERAL);
    EXPECT(pelzaune_described_date(&d, TEXT("2021-12-29Z"), &date) == PELZAUNE_TRAILING && date.year == -2020);
    EXPECT(pelzaune_described_moment(&d, TEXT("2021-12-29"), &m) == PELZAUNE_INSUFFICIENT);
    EXPECT(describe(PELZAUNE_BRACKETS_2, "at [hour repr:12 padding:none]:[minute][optional [:[second]]] [period]", &d));
    EXPECT(pelzaune_described_time(&d, TEXT("at 1:05 PM"), &time) == PELZAUNE_OK && time.hour == 13 && time.minute == 5 && time.second == 0);
    EXPECT(pelzaune_described_time(&d, TEXT("at 1:05:59 AM"), &time) == PELZAUNE_OK && time.hour == 1 && time.second == 59);
    EXPECT(pelzaune_described_time(&d, TEXT("al 1:05 PM"), &time) == PELZAUNE_INVALID_LITERAL && time.second == 59);
    /* 2021-01-02T03:34:05Z: 18629 days after 1970-01-01, of 86400 seconds, and 12845 seconds */
    int64_t log = (18629 * INT64_C(86400) + 12845) * 1000000000;
    EXPECT(describe(PELZAUNE_STRFTIME, "%d/%b/%Y:%H:%M:%S %z", &d));
    EXPECT(pelzaune_described_nanoseconds(&d, TEXT("02/Jan/2021:03:04:05 -0030"), &n) == PELZAUNE_OK && n == log);
    EXPECT(pelzaune_described_column(&d, TEXT("02/Jan/2021:03:04:05 -0030\n02/Jam/2021:03:04:05 -0030\n"), entries, 3, &refused) == 2
        && refused == 1);
    EXPECT(entries[0] == log && entries[1] == PELZAUNE_NO_COUNT && entries[2] == 7);
    EXPECT(pelzaune_described_column(&d, NULL, 0, NULL, 0, &refused) == 0 && refused == 0);
}

/* The errors of descriptions, which write nothing. The call that only checks one agrees. */
static void test_faults(void)
{
    static const char *const texts[] = { "[yaer]", "[year", "[year]-[month repr:shrot]", "[]", "a\\b", "%Z", "%", "[ignore]", "[optional year]",
        "-----------------------------------------------------------------" };
    for (size_t k = 0; k < sizeof texts / sizeof *texts; k++)
        for (uint32_t syntax = 0; syntax <= 4; syntax++) {
            pelzaune_description d;
            memset(&d, 0xa5, sizeof d);
            size_t index = 77, other = 77, size = strlen(texts[k]);
            pelzaune_status status = pelzaune_describe(syntax, described(texts[k], size), size, &d, &index);
            int right = pelzaune_check_description(syntax, described(texts[k], size), size, &other) == status && index == other;
            for (size_t at = 0; at < sizeof d && status; at++) right &= ((const uint8_t *)&d)[at] == 0xa5;
            expect(right, texts[k], __LINE__);
        }
    pelzaune_description d;
    size_t index = 77;
    EXPECT(pelzaune_describe(PELZAUNE_BRACKETS_2, NULL, 0, &d, &index) == PELZAUNE_OK && index == 77);
    EXPECT(pelzaune_describe(PELZAUNE_BRACKETS_2, TEXT("[year]-[yaer]"), &d, &index) == PELZAUNE_COMPONENT_NAME && index == 8);
}

/* Numbers that no text describes are a description, too: each call returns, and reads no byte beside the text and them. */
static void test_any_numbers(void)
{
    static const char text[] = "2021-01-02T03:04:05.123456789+05:30";
    uint64_t seed = 8601;
    int right = 1;
    pelzaune_description *at = (pelzaune_description *)(void *)(other_page + PAGE - sizeof *at);
    for (int round = 0; round < 20000; round++) {
        for (size_t k = 0; k < 129; k++) {
            seed = seed * UINT64_C(6364136223846793005) + 1442695040888963407;
            at->numbers[k] = round % 3 ? seed >> 22 : seed & UINT64_C(0x01072f0003000f);
        }
        if (round % 2) at->numbers[0] = seed >> 58;
        for (int call = 0; call < CALLS; call++) {
            value one, other;
            size_t length = (seed >> 40) % sizeof text;
            memset(&one, 0xa5, sizeof one);
            memset(&other, 0xa5, sizeof other);
            pelzaune_status status = by_description(call, at, at_end(text, length), length, &one);
            right &= by_description(call, at, at_front(text, length), length, &other) == status && memcmp(&one, &other, sizeof one) == 0;
        }
    }
    EXPECT(right);
}

int main(void)
{
    if (!has_pages()) return 2;
    EXPECT(sizeof(pelzaune_description) == 1032);
    test_same_as_by_text();
    test_forms();
    test_overwritten();
    test_read();
    test_values();
    test_faults();
    test_any_numbers();
    printf("%d passed, %d failed\n", passed, failed);
    return failed != 0;
}
