/* An extension of SQLite with functions that return NULL for NULL. Each but the last takes a text and an optional format:
 *
 *     pelzaune_unix       the seconds from 1970-01-01T00:00:00Z to the text's instant, rounded down
 *     pelzaune_unix_ns    the nanoseconds, where 64 bits hold them: from 1677-09-21 to 2262-04-11
 *     pelzaune_rfc3339    the text's moment, written by RFC 3339
 *     pelzaune_date       the text's date, as 1985-04-12
 *     pelzaune_time       the text's time, as 23:20:50.52, with the digits of a fraction that it needs
 *     pelzaune_place      where a text fails, as JSON: {"index":5,"expectation":"month","reason":".."}
 *     pelzaune_text       the text's moment, written by a format: it takes a text, its format and the other format
 *
 * The others return NULL for a rejected text and for a value that they can't write, such as a year after 9999, and
 * pelzaune_place returns it for a text with a value. Its index and expectation are null where the text is parsed, and the
 * calendar has no such date. pelzaune_text returns NULL for a rejected text, and a moment that it can't write is an error.
 *
 * A format is 'rfc3339', the default, 'rfc2822' or 'iso8601', in any case, or a description: one with a % is of strftime,
 * and any other has a [. 'rfc3339' accepts T, t or a space between date and time. Any other format is an error, and so
 * are an invalid description and a text above 1 MiB.
 *
 *     .load ./pelzaune_sqlite */
#include <sqlite3ext.h>
SQLITE_EXTENSION_INIT1
#include "formats.h"

/* SQLite from 3.45 on has to know which functions return a subtype. */
#ifndef SQLITE_RESULT_SUBTYPE
#define SQLITE_RESULT_SUBTYPE 0
#endif

/* The subtype of JSON, by which SQLite's own functions don't take it as a string. */
enum { JSON_SUBTYPE = 'J' };

/* The text of a call, and its format. */
typedef struct {
    bytes text;
    form format;
} question;

static bytes bytes_of(sqlite3_value *value)
{
    bytes it = { sqlite3_value_text(value), 0 };
    it.length = (size_t)sqlite3_value_bytes(value);
    return it;
}

/* Gets the bytes of an argument. Returns 0 after reporting the error of one that is too long, or without memory. */
static int take_bytes(sqlite3_context *context, const char *argument, sqlite3_value *value, bytes *out)
{
    char message[TOO_LONG_ROOM];
    *out = bytes_of(value);
    if (!out->at) sqlite3_result_error_nomem(context);
    if (!out->at || out->length <= TEXT_MOST) return out->at != NULL;
    write_too_long(argument, out->length, message);
    sqlite3_result_error(context, message, -1);
    return 0;
}

/* Parses a format. Returns 0 after reporting the error of an invalid one. */
static int ask_format(sqlite3_context *context, sqlite3_value *value, form *format)
{
    size_t index;
    bytes given;
    if (!take_bytes(context, "format", value, &given)) return 0;
    pelzaune_status status = read_form(given, format, &index);
    if (status) sqlite3_result_error(context, text_of_fault(status), -1);
    return !status;
}

/* Does so once for an argument that is constant in each row: SQLite caches it until the statement ends. */
static int take_format(sqlite3_context *context, sqlite3_value **values, int argument, form *format)
{
    const form *kept = sqlite3_get_auxdata(context, argument);
    if (kept) *format = *kept;
    else {
        if (!ask_format(context, values[argument], format)) return 0;
        form *copy = sqlite3_malloc(sizeof *copy);
        if (copy) *copy = *format;
        if (copy) sqlite3_set_auxdata(context, argument, copy, sqlite3_free);
    }
    return 1;
}

/* Gets the arguments. Returns 0 if there is nothing to parse. */
static int ask(sqlite3_context *context, int count, sqlite3_value **values, question *asked)
{
    asked->format.number = PELZAUNE_RFC3339_STRICT;
    for (int k = 0; k < count; k++)
        if (sqlite3_value_type(values[k]) == SQLITE_NULL) return 0;
    if (count > 1 && !take_format(context, values, 1, &asked->format)) return 0;
    return take_bytes(context, "text", values[0], &asked->text);
}

static void call_unix(sqlite3_context *context, int count, sqlite3_value **values)
{
    question it;
    pelzaune_instant instant;
    if (!ask(context, count, values, &it)) return;
    if (!instant_by(&it.format, it.text, &instant)) sqlite3_result_int64(context, instant.seconds);
}

static void call_unix_ns(sqlite3_context *context, int count, sqlite3_value **values)
{
    question it;
    int64_t nanoseconds;
    if (!ask(context, count, values, &it)) return;
    if (!nanoseconds_by(&it.format, it.text, &nanoseconds)) sqlite3_result_int64(context, nanoseconds);
}

static void call_rfc3339(sqlite3_context *context, int count, sqlite3_value **values)
{
    question it;
    pelzaune_moment moment;
    uint8_t text[PELZAUNE_MOMENT_TEXT];
    size_t length;
    if (!ask(context, count, values, &it)) return;
    pelzaune_status status = moment_by(&it.format, it.text, &moment);
    if (!status) status = pelzaune_format_moment(PELZAUNE_RFC3339, &moment, text, sizeof text, &length);
    if (!status) sqlite3_result_text(context, (const char *)text, (int)length, SQLITE_TRANSIENT);
}

/* An error has the library's text, since a format such as one with an `ignore` can't write any moment. */
static void call_text(sqlite3_context *context, int count, sqlite3_value **values)
{
    question it;
    form other;
    pelzaune_moment moment;
    uint8_t text[PELZAUNE_DESCRIBED_TEXT];
    size_t length;
    if (!ask(context, count, values, &it) || !take_format(context, values, 2, &other)) return;
    if (moment_by(&it.format, it.text, &moment)) return;
    pelzaune_status status = format_by(&other, &moment, text, sizeof text, &length);
    if (status) sqlite3_result_error(context, pelzaune_text(status), -1);
    else sqlite3_result_text(context, (const char *)text, (int)length, SQLITE_TRANSIENT);
}

/* The years are those of SQLite's own functions of dates. */
static void call_date(sqlite3_context *context, int count, sqlite3_value **values)
{
    question it;
    pelzaune_date date;
    char text[24];
    if (!ask(context, count, values, &it)) return;
    if (date_by(&it.format, it.text, &date) || date.year < 0 || date.year > 9999) return;
    snprintf(text, sizeof text, "%04d-%02d-%02d", (int)date.year, date.month, date.day);
    sqlite3_result_text(context, text, -1, SQLITE_TRANSIENT);
}

static void call_time(sqlite3_context *context, int count, sqlite3_value **values)
{
    question it;
    pelzaune_time time;
    char text[32];
    if (!ask(context, count, values, &it) || time_by(&it.format, it.text, &time)) return;
    int length = snprintf(text, sizeof text, "%02d:%02d:%02d.%09lu", time.hour, time.minute, time.second, (unsigned long)time.nanosecond);
    while (text[length - 1] == '0' && time.nanosecond) length--;
    sqlite3_result_text(context, text, time.nanosecond ? length : 8, SQLITE_TRANSIENT);
}

/* Writes the bytes of JSON for a text of ASCII without control bytes, which fit. */
static void write_json(const char *text, char *out)
{
    *out++ = '"';
    for (; *text; text++) {
        if (*text == '"' || *text == '\\') *out++ = '\\';
        *out++ = *text;
    }
    *out++ = '"';
    *out = 0;
}

/* The location of an error as JSON. Without one the text is parsed, and its date or time is invalid. */
static void result_place(sqlite3_context *context, const refusal *why)
{
    char wanted[EXPECTATION_ROOM], as_json[2 * EXPECTATION_ROOM + 2] = "null", index[24] = "null";
    if (why->wanted) {
        snprintf(index, sizeof index, "%zu", why->place.index);
        write_expectation(why, wanted);
        write_json(wanted, as_json);
    }
    char *row = sqlite3_mprintf("{\"index\":%s,\"expectation\":%s,\"reason\":\"%s\"}", index, as_json, pelzaune_text(why->reason));
    if (!row) {
        sqlite3_result_error_nomem(context);
        return;
    }
    sqlite3_result_text(context, row, -1, sqlite3_free);
    sqlite3_result_subtype(context, JSON_SUBTYPE);
}

static void call_place(sqlite3_context *context, int count, sqlite3_value **values)
{
    question it;
    if (!ask(context, count, values, &it)) return;
    pelzaune_status reason = reason_of(&it.format, it.text);
    if (!reason) return;
    bytes given = { (const uint8_t *)"rfc3339", 7 };
    if (count > 1) given = bytes_of(values[1]);
    refusal why = placed(reason, given, it.text);
    result_place(context, &why);
}

int sqlite3_pelzaunesqlite_init(sqlite3 *db, char **error, const sqlite3_api_routines *routines)
{
    const int flags = SQLITE_UTF8 | SQLITE_DETERMINISTIC | SQLITE_INNOCUOUS;
    SQLITE_EXTENSION_INIT2(routines);
    (void)error;
    static const struct { const char *name; int least, most, more; void (*call)(sqlite3_context *, int, sqlite3_value **); } functions[] = {
        { "pelzaune_unix", 1, 2, 0, call_unix }, { "pelzaune_unix_ns", 1, 2, 0, call_unix_ns }, { "pelzaune_rfc3339", 1, 2, 0, call_rfc3339 },
        { "pelzaune_date", 1, 2, 0, call_date }, { "pelzaune_time", 1, 2, 0, call_time }, { "pelzaune_text", 3, 3, 0, call_text },
        { "pelzaune_place", 1, 2, SQLITE_RESULT_SUBTYPE, call_place } };
    int status = SQLITE_OK;
    for (size_t k = 0; !status && k < sizeof functions / sizeof *functions; k++)
        for (int count = functions[k].least; !status && count <= functions[k].most; count++)
            status = sqlite3_create_function(db, functions[k].name, count, flags | functions[k].more, NULL, functions[k].call, NULL, NULL);
    return status;
}
