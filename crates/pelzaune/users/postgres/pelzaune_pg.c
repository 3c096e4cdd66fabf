/* An extension of PostgreSQL: texts with dates and times as values of the server's types, and back. Its interface is
 * pelzaune--1.0.sql. A function with `try_` in its name returns NULL for a text for which the other one raises an error. */
#include "postgres.h"
#include "access/detoast.h"
#include "catalog/pg_type.h"
#include "common/int.h"
#include "fmgr.h"
#include "funcapi.h"
#include "mb/pg_wchar.h"
#include "nodes/primnodes.h"
#include "utils/builtins.h"
#include "utils/date.h"
#include "utils/numeric.h"
#include "utils/timestamp.h"
#include "asking.h"
#include "counts.h"

PG_MODULE_MAGIC;

StaticAssertDecl(FIRST_SECOND * 1000000 == MIN_TIMESTAMP, "timestamps begin on another day");
StaticAssertDecl(END_SECOND * 1000000 == END_TIMESTAMP, "timestamps end on another day");
StaticAssertDecl(FIRST_SECOND / SECONDS_A_DAY == DATETIME_MIN_JULIAN - POSTGRES_EPOCH_JDATE, "dates begin on another day");

static inline ending take_timestamptz(question *it, Datum *value)
{
    pelzaune_instant found;
    int64_t count;
    it->status = instant_by(it->by, it->text, &found);
    if (it->status) return REFUSED;
    if (!count_of_instant(&found, &count)) return OUT_OF_RANGE;
    *value = TimestampTzGetDatum(count);
    return ANSWERED;
}

static inline ending take_timestamp(question *it, Datum *value)
{
    pelzaune_local found;
    int64_t count;
    it->status = local_by(it->by, it->text, &found);
    if (it->status) return REFUSED;
    if (!count_of_local(&found, &count)) return OUT_OF_RANGE;
    *value = TimestampGetDatum(count);
    return ANSWERED;
}

static inline ending take_date(question *it, Datum *value)
{
    pelzaune_date found;
    int32_t count;
    it->status = date_by(it->by, it->text, &found);
    if (it->status) return REFUSED;
    if (!count_of_date(&found, &count)) return OUT_OF_RANGE;
    *value = DateADTGetDatum(count);
    return ANSWERED;
}

static inline ending take_time(question *it, Datum *value)
{
    pelzaune_time found;
    it->status = time_by(it->by, it->text, &found);
    if (it->status) return REFUSED;
    *value = TimeADTGetDatum(count_of_time(&found));
    return ANSWERED;
}

static Datum number_of(int64 value)
{
    return NumericGetDatum(int64_to_numeric(value));
}

/* The nanoseconds of an instant. 64 bits hold those from 1677 to 2262. */
static Datum nanoseconds_of(const pelzaune_instant *it)
{
    int64 count;
    if (!pg_mul_s64_overflow(it->seconds, 1000000000, &count) && !pg_add_s64_overflow(count, it->nanoseconds, &count))
        return number_of(count);
    Datum whole = DirectFunctionCall2(numeric_mul, number_of(it->seconds), number_of(1000000000));
    return DirectFunctionCall2(numeric_add, whole, number_of(it->nanoseconds));
}

static inline ending take_unix_ns(question *it, Datum *value)
{
    pelzaune_instant found;
    it->status = instant_by(it->by, it->text, &found);
    if (it->status) return REFUSED;
    *value = nanoseconds_of(&found);
    return ANSWERED;
}

/* Two functions of SQL: one that raises an error of that type, and one that returns NULL instead, unless the format is
 * invalid. */
#define CALLS(name, type) \
    PG_FUNCTION_INFO_V1(call_##name); \
    Datum call_##name(PG_FUNCTION_ARGS) \
    { \
        question it; \
        Datum value; \
        ending how = ask(fcinfo, &it); \
        if (how == ANSWERED) how = take_##name(&it, &value); \
        if (how != ANSWERED) tell(how, &it, type); \
        return value; \
    } \
    PG_FUNCTION_INFO_V1(call_try_##name); \
    Datum call_try_##name(PG_FUNCTION_ARGS) \
    { \
        question it; \
        Datum value; \
        ending how = ask(fcinfo, &it); \
        if (how == ANSWERED) how = take_##name(&it, &value); \
        if (how == NO_FORMAT) tell_fault(&it); \
        if (how != ANSWERED) PG_RETURN_NULL(); \
        return value; \
    }
CALLS(timestamptz, "timestamp")
CALLS(timestamp, "timestamp")
CALLS(date, "date")
CALLS(time, "time")
CALLS(unix_ns, "numeric")

/* A row of index, expectation and reason. The first two are NULL where the text is parsed, and its date or time is
 * invalid. */
static Datum row_of(FunctionCallInfo fcinfo, const refusal *why)
{
    TupleDesc row;
    char wanted[EXPECTATION_ROOM];
    bool is_null[3] = { !why->wanted, !why->wanted, false };
    if (get_call_result_type(fcinfo, NULL, &row) != TYPEFUNC_COMPOSITE) elog(ERROR, "return type must be a row type");
    write_expectation(why, wanted);
    Datum values[3] = { Int64GetDatum((int64)why->place.index), CStringGetTextDatum(wanted),
        CStringGetTextDatum(pelzaune_text(why->reason)) };
    return HeapTupleGetDatum(heap_form_tuple(BlessTupleDesc(row), values, is_null));
}

PG_FUNCTION_INFO_V1(call_place);
Datum call_place(PG_FUNCTION_ARGS)
{
    question it;
    ending how = ask(fcinfo, &it);
    if (how != ANSWERED) tell(how, &it, "place");
    pelzaune_status reason = reason_of(it.by, it.text);
    if (!reason) PG_RETURN_NULL();
    refusal why = placed(reason, it.format, it.text);
    return row_of(fcinfo, &why);
}

/* The seconds ahead of UTC of an offset such as +05:30. */
static int32_t seconds_of(bytes it)
{
    static const char form[] = "[offset_hour sign:mandatory]:[offset_minute]";
    const bytes described = { (const uint8_t *)form, sizeof form - 1 };
    int32_t seconds = 0;
    pelzaune_status status = pelzaune_read_offset(PELZAUNE_BRACKETS_2, described.at, described.length, it.at, it.length, &seconds);
    if (status) tell_refusal(status, described, it);
    return seconds;
}

/* The seconds ahead of UTC that a moment has in a zone: Z, an offset, or a time zone of the server, which has its own
 * error for an unknown one. */
static int32_t offset_of(const text *zone, TimestampTz at)
{
    bytes it = bytes_of(zone);
    if (it.length == 1 && *it.at == 'Z') return 0;
    if (!it.length || strchr("+-0123456789", *it.at)) return seconds_of(it);
    Datum local = DirectFunctionCall2(timestamptz_zone, PointerGetDatum(zone), TimestampTzGetDatum(at));
    return (int32_t)((DatumGetTimestamp(local) - at) / USECS_PER_SEC);
}

PG_FUNCTION_INFO_V1(call_text);
Datum call_text(PG_FUNCTION_ARGS)
{
    TimestampTz at = PG_GETARG_TIMESTAMPTZ(0);
    question asked;
    uint8_t written[PELZAUNE_DESCRIBED_TEXT];
    size_t length;
    if (ask_format(fcinfo, &asked) != ANSWERED) tell_fault(&asked);
    if (TIMESTAMP_NOT_FINITE(at)) tell(OUT_OF_RANGE, &asked, "timestamp");
    pelzaune_moment moment = moment_of_count(at, offset_of(PG_GETARG_TEXT_PP(2), at));
    pelzaune_status status = format_by(asked.by, &moment, written, sizeof written, &length);
    if (status) ereport(ERROR, (errcode(sqlstate_of(status)), errmsg_internal("%s", pelzaune_text(status))));
    PG_RETURN_TEXT_P(cstring_to_text_with_len((const char *)written, (int)length));
}
