/* Tests of columns and of the texts of moments. Prints 'N passed, M failed'. */
#include "check.h"

/* Four lines, the last without LF: a day after the start of 1970, a nanosecond after it, an invalid month, and an hour
 * before it by its offset. */
static const char four_lines[] =
    "1970-01-02T00:00:00Z\n1970-01-01T00:00:00.000000001Z\n1970-13-01T00:00:00Z\n1970-01-01T00:00:00+01:00";
static const int64_t four_counts[] = { INT64_C(86400000000000), 1, PELZAUNE_NO_COUNT, INT64_C(-3600000000000) };
#define FOUR TEXT(four_lines)

static void test_columns(void)
{
    int64_t entries[6] = { 7, 7, 7, 7, 7, 7 };
    size_t refused = 77;
    EXPECT(pelzaune_column(PELZAUNE_RFC3339, FOUR, entries, 6, &refused) == 4 && refused == 1);
    EXPECT(memcmp(entries, four_counts, sizeof four_counts) == 0 && entries[4] == 7 && entries[5] == 7);
    for (int k = 0; k < 6; k++) entries[k] = 7;
    EXPECT(pelzaune_column(PELZAUNE_RFC3339, FOUR, entries, 2, &refused) == 4 && refused == 0);
    EXPECT(memcmp(entries, four_counts, 2 * sizeof *entries) == 0 && entries[2] == 7);
    EXPECT(pelzaune_column(PELZAUNE_RFC3339, FOUR, NULL, 0, &refused) == 4 && refused == 0);
    EXPECT(pelzaune_column(PELZAUNE_RFC3339, NULL, 0, entries, 6, &refused) == 0 && refused == 0 && entries[2] == 7);
    EXPECT(pelzaune_column(PELZAUNE_RFC3339, TEXT("\n"), entries, 6, &refused) == 1 && refused == 1 && entries[0] == PELZAUNE_NO_COUNT);
    EXPECT(pelzaune_column(PELZAUNE_RFC3339, TEXT("\n\r\n1970-01-01T00:00:01Z\r\n"), entries, 6, &refused) == 3 && refused == 2);
    EXPECT(entries[0] == PELZAUNE_NO_COUNT && entries[1] == PELZAUNE_NO_COUNT && entries[2] == 1000000000);
    EXPECT(pelzaune_column(PELZAUNE_RFC3339, TEXT("1970-01-01T00:00:02Z\r\r\n1970-01-01T00:00:03Z\r"), entries, 6, &refused) == 2
        && refused == 1 && entries[0] == PELZAUNE_NO_COUNT && entries[1] == INT64_C(3000000000));
    EXPECT(pelzaune_column(5, FOUR, entries, 6, &refused) == 4 && refused == 4 && entries[3] == PELZAUNE_NO_COUNT);
    EXPECT(pelzaune_column(PELZAUNE_RFC3339_STRICT, TEXT("1970-01-02_00:00:00Z\n1970-01-02 00:00:00Z\n"), entries, 6, &refused) == 2
        && refused == 1 && entries[0] == PELZAUNE_NO_COUNT && entries[1] == four_counts[0]);
    EXPECT(pelzaune_column(PELZAUNE_RFC2822, TEXT("Fri, 02 Jan 1970 00:00:00 GMT\n1970-01-01T00:00:00Z\n"), entries, 6, &refused) == 2
        && refused == 1 && entries[0] == four_counts[0]);
    EXPECT(pelzaune_column(PELZAUNE_ISO8601, TEXT("1970-002T00Z\n1970-002\n"), entries, 6, &refused) == 2 && refused == 1
        && entries[0] == four_counts[0]);
    /* The instant whose count is the least number isn't rejected. */
    EXPECT(pelzaune_column(PELZAUNE_RFC3339, TEXT("1677-09-21T00:12:43.145224192Z"), entries, 6, &refused) == 1 && refused == 0
        && entries[0] == PELZAUNE_NO_COUNT);
    EXPECT(pelzaune_column(PELZAUNE_RFC3339, TEXT("1677-09-21T00:12:43.145224191Z"), entries, 6, &refused) == 1 && refused == 1);
}

static void test_described_columns(void)
{
    int64_t entries[3] = { 7, 7, 7 };
    size_t refused = 77;
    EXPECT(pelzaune_read_column(PELZAUNE_STRFTIME, DESCRIPTION("%d/%b/%Y:%H:%M:%S %z"),
        TEXT("01/Jan/1970:00:00:01 +0000\n01/Jam/1970:00:00:01 +0000\n"), entries, 3, &refused) == 2 && refused == 1);
    EXPECT(entries[0] == 1000000000 && entries[1] == PELZAUNE_NO_COUNT && entries[2] == 7);
    EXPECT(pelzaune_read_column(PELZAUNE_BRACKETS_2, DESCRIPTION("[unix_timestamp]"), TEXT("-1\n2"), entries, 3, &refused) == 2 && refused == 0);
    EXPECT(entries[0] == -1000000000 && entries[1] == 2000000000 && entries[2] == 7);
    EXPECT(pelzaune_read_column(PELZAUNE_BRACKETS_2, DESCRIPTION("[unix"), TEXT("-1\n2"), entries, 3, &refused) == 2 && refused == 2);
    EXPECT(pelzaune_read_column(0, DESCRIPTION("[unix_timestamp]"), TEXT("-1\n2"), entries, 3, &refused) == 2 && refused == 2);
    EXPECT(pelzaune_read_column(PELZAUNE_STRFTIME, NULL, 0, TEXT("\nx"), entries, 3, &refused) == 2 && refused == 2);
}

/* Whether a column equals its lines, parsed alone without CR at their ends. */
static int is_each_alone(const char *text, size_t length)
{
    static int64_t entries[PAGE];
    size_t refused, without = 0, line = 0, start = 0;
    int right = 1;
    size_t count = pelzaune_column(PELZAUNE_RFC3339, at_end(text, length), length, entries, PAGE, &refused);
    for (size_t k = 0; k <= length; k++) {
        if (k < length && text[k] != '\n') continue;
        int64_t alone = PELZAUNE_NO_COUNT;
        if (k == length && k == start) break;
        size_t end = k > start && text[k - 1] == '\r' ? k - 1 : k;
        without += pelzaune_parse_nanoseconds(PELZAUNE_RFC3339, (const uint8_t *)text + start, end - start, &alone) != PELZAUNE_OK;
        right &= line < count && entries[line++] == alone;
        start = k + 1;
    }
    return right && line == count && without == refused;
}

static void test_each_line(void)
{
    static char text[PAGE];
    uint64_t seed = 2822;
    int right = 1;
    for (int round = 0; round < 300; round++) {
        size_t length = 0;
        while (length < sizeof text - 40) {
            seed = seed * UINT64_C(6364136223846793005) + 1442695040888963407;
            length += (size_t)sprintf(text + length, "20%02d-0%d-%02dT03:04:0%dZ%s", (int)(seed >> 33) % 100, 1 + (int)(seed >> 40) % 9,
                (int)(seed >> 45) % 40, (int)(seed >> 50) % 10, (seed >> 60) ? "\n" : "");
        }
        right &= is_each_alone(text, length);
    }
    EXPECT(right);
}

/* Checks lines with each of their bytes changed to each other one, and each of their prefixes. */
static void test_changed_lines(void)
{
    static const char *const texts[] = { "2021-01-02T03:04:05Z", "2021-01-02T03:04:05Z\n1970-01-01T00:00:01Z\n",
        "2021-01-02T03:04:05.123456789+05:30\n2021-01-02T03:04:05-00:30\n", "2021-01-02T03:04:05.5Z\n\n1970-01-01T00:00:01.25+00:00" };
    for (size_t k = 0; k < sizeof texts / sizeof *texts; k++) {
        size_t length = strlen(texts[k]);
        int right = 1;
        for (size_t at = 0; at < length; at++) {
            right &= is_each_alone(texts[k], at);
            for (int byte = 0; byte < 256; byte++) {
                char changed[80];
                memcpy(changed, texts[k], length);
                changed[at] = (char)byte;
                right &= is_each_alone(changed, length);
            }
        }
        expect(right, texts[k], __LINE__);
    }
}

/* Whether the text is that of the moment, written at the end of the page. */
static int writes(uint32_t format, const pelzaune_moment *m, const char *text)
{
    size_t length = 77, wanted = strlen(text);
    uint8_t *at = page + PAGE - wanted;
    memset(page, '#', PAGE);
    return pelzaune_format_moment(format, m, at, wanted, &length) == PELZAUNE_OK && length == wanted && memcmp(at, text, wanted) == 0
        && at[-1] == '#';
}

/* The status of a moment without a text. It leaves the buffer and the length unchanged. */
static pelzaune_status refuses(uint32_t format, const pelzaune_moment *m)
{
    uint8_t text[] = "unchanged";
    size_t length = 77;
    pelzaune_status status = pelzaune_format_moment(format, m, text, sizeof text, &length);
    return length == 77 && memcmp(text, "unchanged", sizeof text) == 0 ? status : PELZAUNE_OK;
}

static void test_texts_of_moments(void)
{
    pelzaune_moment m = { 1985, 520000000, 0, 4, 12, 23, 20, 50 };
    EXPECT(writes(PELZAUNE_RFC3339, &m, "1985-04-12T23:20:50.52Z"));
    EXPECT(writes(PELZAUNE_RFC3339_STRICT, &m, "1985-04-12T23:20:50.52Z"));
    EXPECT(writes(PELZAUNE_ISO8601, &m, "1985-04-12T23:20:50.520000000Z"));
    EXPECT(writes(PELZAUNE_RFC2822, &m, "Fri, 12 Apr 1985 23:20:50 +0000"));
    m.offset = -30600;
    EXPECT(writes(PELZAUNE_ISO8601, &m, "1985-04-12T23:20:50.520000000-08:30"));
    uint8_t few[] = "....";
    size_t length;
    EXPECT(pelzaune_format_moment(PELZAUNE_RFC3339, &m, few, 3, &length) == PELZAUNE_OK && length == 28 && memcmp(few, "198.", 4) == 0);
    EXPECT(pelzaune_format_moment(PELZAUNE_ISO8601, &m, NULL, 0, &length) == PELZAUNE_OK && length == PELZAUNE_MOMENT_TEXT);
    EXPECT(refuses(0, &m) == PELZAUNE_UNKNOWN_FORMAT);
    /* every member is out of range; the first one is reported */
    pelzaune_moment wrong = { 1000000, 1000000000, 93600, 13, 32, 24, 60, 60 };
    EXPECT(refuses(1, &wrong) == PELZAUNE_RANGE + 256 * 2);
    wrong.month = 0;
    EXPECT(refuses(1, &wrong) == PELZAUNE_RANGE + 256 * 2);
    wrong.month = 4;
    EXPECT(refuses(1, &wrong) == PELZAUNE_RANGE + 256 * 1);
    wrong.year = 2021;
    EXPECT(refuses(1, &wrong) == PELZAUNE_RANGE_OF_OTHERS + 256 * 3);
    wrong.day = 30;
    EXPECT(refuses(1, &wrong) == PELZAUNE_RANGE + 256 * 8);
    wrong.hour = 23;
    EXPECT(refuses(1, &wrong) == PELZAUNE_RANGE + 256 * 9);
    wrong.minute = 59;
    EXPECT(refuses(1, &wrong) == PELZAUNE_RANGE + 256 * 10);
    wrong.second = 59;
    EXPECT(refuses(1, &wrong) == PELZAUNE_RANGE + 256 * 11);
    wrong.nanosecond = 999999999;
    EXPECT(refuses(1, &wrong) == PELZAUNE_RANGE + 256 * 19);
    /* components that the format can't write */
    wrong.offset = 93599;
    EXPECT(refuses(1, &wrong) == PELZAUNE_NO_TEXT + 256 * 14 && refuses(4, &wrong) == PELZAUNE_NO_TEXT + 256 * 14 && refuses(3, &wrong) == PELZAUNE_NO_TEXT + 256 * 14);
    EXPECT(refuses(2, &wrong) == PELZAUNE_NO_TEXT + 256 * 16);
    wrong.offset = 1;
    EXPECT(refuses(1, &wrong) == PELZAUNE_NO_TEXT + 256 * 16 && refuses(2, &wrong) == PELZAUNE_NO_TEXT + 256 * 16);
    wrong.year = -1;
    EXPECT(refuses(1, &wrong) == PELZAUNE_NO_TEXT + 256 * 1);
    wrong.offset = 0, wrong.year = 1899;
    EXPECT(refuses(2, &wrong) == PELZAUNE_NO_TEXT + 256 * 1 && writes(1, &wrong, "1899-04-30T23:59:59.999999999Z"));
    wrong.year = 10000;
    EXPECT(refuses(1, &wrong) == PELZAUNE_NO_TEXT + 256 * 1 && refuses(2, &wrong) == PELZAUNE_NO_TEXT + 256 * 1);
}

/* Checks that the text of a moment is parsed as that moment, in RFC 2822 without its fraction. */
static void test_read_back(void)
{
    int right = 1;
    for (const row *it = rows; it < rows + ROWS; it++)
        for (uint32_t format = 1; format <= 4; format++) {
            uint8_t text[PELZAUNE_MOMENT_TEXT];
            size_t length;
            pelzaune_moment m, kept = it->value;
            pelzaune_status status = pelzaune_format_moment(format, &kept, text, sizeof text, &length);
            if (status) {
                right &= PELZAUNE_KIND(status) == PELZAUNE_NO_TEXT && (kept.year < 1900 || kept.year > 9999);
                continue;
            }
            if (format == PELZAUNE_RFC2822) kept.nanosecond = 0;
            right &= pelzaune_parse_moment(format, at_end((const char *)text, length), length, &m) == PELZAUNE_OK && m.year == kept.year
                && m.month == kept.month && m.day == kept.day && m.hour == kept.hour && m.minute == kept.minute
                && m.second == kept.second && m.nanosecond == kept.nanosecond && m.offset == kept.offset;
        }
    EXPECT(right);
}

int main(void)
{
    if (!has_pages()) return 2;
    test_columns();
    test_described_columns();
    test_each_line();
    test_changed_lines();
    test_texts_of_moments();
    test_read_back();
    printf("%d passed, %d failed\n", passed, failed);
    return failed != 0;
}
