/* Shared code of the extensions of SQLite and PostgreSQL: formats by their names, descriptions, and the errors of
 * texts.
 *
 * A format is 'rfc3339', 'rfc2822' or 'iso8601', in any case, or a description: one with a % is of strftime, and any
 * other has a [. A text with neither isn't a format, so that a misspelled name is an error. 'rfc3339' accepts T, t or a
 * space between date and time. */
#ifndef PELZAUNE_SQL_FORMATS_H
#define PELZAUNE_SQL_FORMATS_H

#include "pelzaune.h"
#include <stdio.h>
#include <string.h>

/* A format: a number, or 0 and a parsed description. */
typedef struct {
    uint32_t number;
    pelzaune_description held;
} form;

/* Borrowed bytes. */
typedef struct {
    const uint8_t *at;
    size_t length;
} bytes;

static inline uint8_t lowered(uint8_t byte)
{
    return byte >= 'A' && byte <= 'Z' ? byte + 32 : byte;
}

/* Whether it is that word, in any case. */
static inline int is_called(bytes it, const char *word)
{
    if (it.length != strlen(word)) return 0;
    for (size_t k = 0; k < it.length; k++)
        if (lowered(it.at[k]) != (uint8_t)word[k]) return 0;
    return 1;
}

/* The number of the format with that name, or 0. */
static inline uint32_t number_of_format(bytes name)
{
    static const struct { const char *name; uint32_t number; } formats[] = {
        { "rfc3339", PELZAUNE_RFC3339_STRICT }, { "rfc2822", PELZAUNE_RFC2822 }, { "iso8601", PELZAUNE_ISO8601 } };
    for (size_t k = 0; k < sizeof formats / sizeof *formats; k++)
        if (is_called(name, formats[k].name)) return formats[k].number;
    return 0;
}

/* The most bytes of a text, and of a format. A call for that many takes some milliseconds, so that a statement can be
 * interrupted between two calls. */
#define TEXT_MOST (1 << 20)

/* The room for the output of `write_too_long`. */
#define TOO_LONG_ROOM 96

/* Writes the error of a longer text or format. */
static inline void write_too_long(const char *argument, size_t length, char *out)
{
    snprintf(out, TOO_LONG_ROOM, "%s is too long to parse (%zu bytes, max %d bytes)", argument, length, TEXT_MOST);
}

static inline int has_byte(bytes it, char byte)
{
    return it.length && memchr(it.at, byte, it.length) != NULL;
}

static inline uint32_t syntax_of(bytes description)
{
    return has_byte(description, '%') ? PELZAUNE_STRFTIME : PELZAUNE_BRACKETS_2;
}

/* Parses a format. If it is invalid, *out is unchanged. PELZAUNE_UNKNOWN_FORMAT means that it is neither a name nor a
 * description; with another status *index is that of the description's fault. */
static inline pelzaune_status read_form(bytes given, form *out, size_t *index)
{
    uint32_t number = number_of_format(given);
    if (!number) {
        if (!has_byte(given, '%') && !has_byte(given, '[')) return PELZAUNE_UNKNOWN_FORMAT;
        pelzaune_status status = pelzaune_describe(syntax_of(given), given.at, given.length, &out->held, index);
        if (status) return status;
    }
    out->number = number;
    return PELZAUNE_OK;
}

/* The message for an invalid format. */
static inline const char *text_of_fault(pelzaune_status status)
{
    return status == PELZAUNE_UNKNOWN_FORMAT ? "format must be rfc3339, rfc2822, iso8601, or a description with % or ["
        : pelzaune_text(status);
}

/* The status of a rejected text, with the component that is missing for what is needed, if one is. */
static inline pelzaune_status with_missing(pelzaune_status status, uint32_t needs, const form *by, bytes it)
{
    if (status != PELZAUNE_INSUFFICIENT) return status;
    pelzaune_status missing = by->number ? pelzaune_missing(needs, by->number, it.at, it.length)
        : pelzaune_described_missing(needs, &by->held, it.at, it.length);
    return missing ? missing : status;
}

/* What values need. */
enum { NEEDS_DATE = PELZAUNE_NEEDS_DATE, NEEDS_TIME = PELZAUNE_NEEDS_TIME, NEEDS_LOCAL = NEEDS_DATE + NEEDS_TIME,
    NEEDS_MOMENT = NEEDS_LOCAL + PELZAUNE_NEEDS_OFFSET };

/* Parses a text by a format into the value of the call's name, which needs that. */
#define PARSED_BY_FORM(name, type, needs) \
    static inline pelzaune_status name##_by(const form *by, bytes it, type *out) \
    { \
        return with_missing(by->number ? pelzaune_parse_##name(by->number, it.at, it.length, out) \
            : pelzaune_described_##name(&by->held, it.at, it.length, out), needs, by, it); \
    }
PARSED_BY_FORM(moment, pelzaune_moment, NEEDS_MOMENT)
PARSED_BY_FORM(instant, pelzaune_instant, NEEDS_MOMENT)
PARSED_BY_FORM(nanoseconds, int64_t, NEEDS_MOMENT)
PARSED_BY_FORM(local, pelzaune_local, NEEDS_LOCAL)
PARSED_BY_FORM(date, pelzaune_date, NEEDS_DATE)
PARSED_BY_FORM(time, pelzaune_time, NEEDS_TIME)
PARSED_BY_FORM(parts, pelzaune_parts, 0)
#undef PARSED_BY_FORM

/* Writes a moment by a format over the start of the buffer, where PELZAUNE_DESCRIBED_TEXT bytes hold any text. */
static inline pelzaune_status format_by(const form *by, const pelzaune_moment *moment, uint8_t *buffer, size_t capacity, size_t *length)
{
    return by->number ? pelzaune_format_moment(by->number, moment, buffer, capacity, length)
        : pelzaune_described_format_moment(&by->held, moment, buffer, capacity, length);
}

/* The error of a text: the reason, and, unless `wanted` is 0, what was expected at a place of the text. */
typedef struct {
    pelzaune_status reason, wanted;
    pelzaune_place place;
} refusal;

/* Locates the error of a text that the format, given as text, rejects for that reason. */
static inline refusal placed(pelzaune_status reason, bytes given, bytes it)
{
    refusal found = { reason, PELZAUNE_OK, { 0, 0 } };
    uint32_t number = number_of_format(given);
    found.wanted = number ? pelzaune_locate(number, it.at, it.length, &found.place)
        : pelzaune_read_locate(syntax_of(given), given.at, given.length, it.at, it.length, &found.place);
    return found;
}

static inline int is_refused(pelzaune_status status)
{
    return status && PELZAUNE_KIND(status) != PELZAUNE_INSUFFICIENT;
}

/* The status of a text that has neither a moment, a date, a time nor an offset, or an invalid one. 0: it has one. */
static inline pelzaune_status reason_of(const form *by, bytes it)
{
    pelzaune_moment moment;
    pelzaune_parts parts = { .date_status = PELZAUNE_OK };
    pelzaune_status none = moment_by(by, it, &moment);
    if (!none) return PELZAUNE_OK;
    if (parts_by(by, it, &parts)) return none;
    const pelzaune_status each[] = { parts.date_status, parts.time_status, parts.offset_status };
    for (int k = 0; k < 3; k++)
        if (is_refused(each[k])) return each[k];
    return each[0] && each[1] && each[2] ? none : PELZAUNE_OK;
}

/* The room for the output of `write_expectation`. */
#define EXPECTATION_ROOM 24

/* Writes what was expected at a place: the name of a component, 'T' for a byte (or '\x1b'), or the end. */
static inline void write_expectation(const refusal *why, char *out)
{
    unsigned byte = why->place.byte;
    const char *told = pelzaune_text(why->wanted), *name = strchr(told, '\'');
    if (PELZAUNE_KIND(why->wanted) == PELZAUNE_TRAILING)
        snprintf(out, EXPECTATION_ROOM, "the end");
    else if (PELZAUNE_KIND(why->wanted) == PELZAUNE_INVALID_LITERAL)
        snprintf(out, EXPECTATION_ROOM, byte >= 32 && byte < 127 ? "'%c'" : "'\\x%02x'", byte);
    else
        snprintf(out, EXPECTATION_ROOM, "%.*s", name ? (int)strcspn(name + 1, "'") : 0, name ? name + 1 : "");
}

#endif
