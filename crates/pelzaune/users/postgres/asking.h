/* Shared code of the extension's calls: the arguments, the format that is cached from row to row, and errors. The
 * server's own headers are included before it. */
#ifndef PELZAUNE_ASKING_H
#define PELZAUNE_ASKING_H

#include "formats.h"

/* The outcome of a call. */
typedef enum { ANSWERED, NO_FORMAT, TOO_LONG, REFUSED, OUT_OF_RANGE } ending;

/* The arguments of a call, and why it fails: a status of the library, and for a format the index of its fault. */
typedef struct {
    bytes format, text;
    const form *by;
    pelzaune_status status;
    size_t index;
} question;

/* A parsed format, and its text. A fixed one is constant for all calls by this expression. */
typedef struct {
    form by;
    bool is_read, is_fixed;
    size_t length, room;
    uint8_t *written;
} kept_form;

static inline bytes bytes_of(const text *it)
{
    bytes found = { (const uint8_t *)VARDATA_ANY(it), VARSIZE_ANY_EXHDR(it) };
    return found;
}

/* The bytes of an argument. One that is too long isn't even decompressed: it has its length alone. */
static inline bytes argument_of(Datum given)
{
    if (!VARATT_IS_SHORT(DatumGetPointer(given))) {
        bytes found = { NULL, toast_raw_datum_size(given) - VARHDRSZ };
        if (found.length > TEXT_MOST) return found;
    }
    return bytes_of(DatumGetTextPP(given));
}

/* Raises the error of an argument that is too long. */
_Noreturn static void tell_length(const char *argument, size_t length)
{
    char message[TOO_LONG_ROOM];
    write_too_long(argument, length, message);
    ereport(ERROR, (errcode(ERRCODE_PROGRAM_LIMIT_EXCEEDED), errmsg_internal("%s", message)));
}

/* Parses a format into the cache. An error of the server leaves the cache empty. */
static pelzaune_status keep(kept_form *kept, MemoryContext context, question *it)
{
    kept->is_read = false;
    it->index = 0;
    pelzaune_status status = read_form(it->format, &kept->by, &it->index);
    if (status) return status;
    if (kept->room < it->format.length) {
        kept->room = 0;
        if (kept->written) pfree(kept->written);
        kept->written = NULL;
        kept->written = MemoryContextAlloc(context, it->format.length);
        kept->room = it->format.length;
    }
    if (it->format.length) memcpy(kept->written, it->format.at, it->format.length);
    kept->length = it->format.length;
    kept->is_read = true;
    return PELZAUNE_OK;
}

/* Whether the second argument is a constant of the expression. A parameter isn't, since its value may change. */
static bool has_constant(const FmgrInfo *called)
{
    const FuncExpr *call = (const FuncExpr *)called->fn_expr;
    return call && IsA(call, FuncExpr) && list_length(call->args) > 1 && IsA(lsecond(call->args), Const);
}

/* Parses the second argument, which is the format, unless it is known to equal that of the row before. */
static ending ask_other_format(FunctionCallInfo fcinfo, question *it)
{
    FmgrInfo *called = fcinfo->flinfo;
    kept_form *kept = called->fn_extra;
    it->format = argument_of(PG_GETARG_DATUM(1));
    if (!it->format.at) tell_length("format", it->format.length);
    if (!kept) kept = called->fn_extra = MemoryContextAllocZero(called->fn_mcxt, sizeof *kept);
    it->by = &kept->by;
    if (kept->is_read && kept->length == it->format.length && memcmp(kept->written, it->format.at, kept->length) == 0)
        return ANSWERED;
    it->status = keep(kept, called->fn_mcxt, it);
    kept->is_fixed = kept->is_read && has_constant(called);
    return it->status ? NO_FORMAT : ANSWERED;
}

static inline ending ask_format(FunctionCallInfo fcinfo, question *it)
{
    const kept_form *kept = fcinfo->flinfo->fn_extra;
    if (!kept || !kept->is_fixed) return ask_other_format(fcinfo, it);
    it->by = &kept->by;
    it->format = (bytes){ kept->written, kept->length };
    return ANSWERED;
}

/* Gets both arguments: the format, and the first, which is the text. */
static inline ending ask(FunctionCallInfo fcinfo, question *it)
{
    it->text = argument_of(PG_GETARG_DATUM(0));
    ending how = ask_format(fcinfo, it);
    return how == ANSWERED && !it->text.at ? TOO_LONG : how;
}

/* The most bytes of a text in a message. */
#define SHOWN_MOST 100

/* A text for a message: its start, with control bytes as \x1b, and if the server's encoding defines no characters, as
 * SQL_ASCII, also the bytes above ASCII. */
static const char *shown(bytes it)
{
    int size = pg_mbcliplen((const char *)it.at, (int)it.length, SHOWN_MOST);
    bool has_characters = GetDatabaseEncoding() != PG_SQL_ASCII;
    StringInfoData out;
    initStringInfo(&out);
    for (int k = 0; k < size; k++) {
        uint8_t byte = it.at[k];
        if (byte < 32 || byte == 127 || (byte > 127 && !has_characters)) appendStringInfo(&out, "\\x%02x", byte);
        else appendStringInfoChar(&out, (char)byte);
    }
    if ((size_t)size < it.length) appendStringInfoString(&out, "...");
    return out.data;
}

static int sqlstate_of(pelzaune_status status)
{
    switch (PELZAUNE_KIND(status)) {
    case PELZAUNE_RANGE:
    case PELZAUNE_RANGE_OF_OTHERS:
    case PELZAUNE_NO_TEXT:
        return ERRCODE_DATETIME_FIELD_OVERFLOW;
    case PELZAUNE_TEXT_TOO_LONG:
        return ERRCODE_PROGRAM_LIMIT_EXCEEDED;
    default:
        return ERRCODE_INVALID_DATETIME_FORMAT;
    }
}

/* Where a text fails, as a sentence. */
static const char *detail_of(pelzaune_status status, bytes format, bytes text)
{
    refusal why = placed(status, format, text);
    char wanted[EXPECTATION_ROOM];
    if (!why.wanted) return psprintf("The text is \"%s\".", shown(text));
    write_expectation(&why, wanted);
    return psprintf("Expected %s at index %zu of \"%s\".", wanted, why.place.index, shown(text));
}

_Noreturn static void tell_refusal(pelzaune_status status, bytes format, bytes text)
{
    ereport(ERROR, (errcode(sqlstate_of(status)), errmsg_internal("%s", pelzaune_text(status)),
        errdetail_internal("%s", detail_of(status, format, text))));
}

_Noreturn static void tell_fault(const question *it)
{
    bool has_index = it->status != PELZAUNE_TOO_LONG && it->status != PELZAUNE_UNKNOWN_FORMAT;
    ereport(ERROR, (errcode(ERRCODE_INVALID_DATETIME_FORMAT), errmsg_internal("%s", text_of_fault(it->status)),
        has_index ? errdetail_internal("At index %zu of the format \"%s\".", it->index, shown(it->format))
            : errdetail_internal("The format is \"%s\".", shown(it->format))));
}

/* Raises the error of a call. A value that the server's type can't represent has the server's own error. */
_Noreturn static void tell(ending how, const question *it, const char *type)
{
    if (how == NO_FORMAT) tell_fault(it);
    if (how == TOO_LONG) tell_length("text", it->text.length);
    if (how == REFUSED) tell_refusal(it->status, it->format, it->text);
    ereport(ERROR, (errcode(ERRCODE_DATETIME_VALUE_OUT_OF_RANGE), errmsg("%s out of range", type)));
}

#endif
