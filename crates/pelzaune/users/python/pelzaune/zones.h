/* Zones that a caller names, and the offset of texts that have none. */
#ifndef ZONES_H
#define ZONES_H

#include "asking.h"

/* The tzinfo of an offset such as Z or +05:30, or NULL without an error if it is none. */
static PyObject *fixed_zone(const char *text, size_t length)
{
    static const char form[] = "[offset_hour sign:mandatory]:[offset_minute]";
    int32_t seconds = 0;
    if (length == 1 && *text == 'Z') return Py_NewRef(PyDateTime_TimeZone_UTC);
    if (pelzaune_read_offset(PELZAUNE_BRACKETS_2, (const uint8_t *)form, sizeof form - 1, (const uint8_t *)text, length, &seconds)
        || seconds <= -86400 || seconds >= 86400) return NULL;
    PyObject *delta = PyDelta_FromDSU(0, seconds, 0);
    PyObject *zone = delta ? PyTimeZone_FromOffset(delta) : NULL;
    Py_XDECREF(delta);
    return zone;
}

/* The tzinfo of the IANA database with that name, or the error of zoneinfo. */
static PyObject *named_zone(PyObject *name)
{
    PyObject *zones = PyImport_ImportModule("zoneinfo");
    PyObject *zone = zones ? PyObject_CallMethod(zones, "ZoneInfo", "O", name) : NULL;
    Py_XDECREF(zones);
    return zone;
}

/* The tzinfo of an argument: a tzinfo, an offset or the name of a time zone. */
static PyObject *zone_from(PyObject *given, const char *argument)
{
    Py_ssize_t length;
    if (PyTZInfo_Check(given)) return Py_NewRef(given);
    if (!PyUnicode_Check(given)) {
        PyErr_Format(PyExc_TypeError, "%s must be a tzinfo or str, not %s", argument, Py_TYPE(given)->tp_name);
        return NULL;
    }
    const char *text = PyUnicode_AsUTF8AndSize(given, &length);
    PyObject *zone = text ? fixed_zone(text, (size_t)length) : NULL;
    if (zone || PyErr_Occurred()) return zone;
    if (length && !strchr("+-0123456789", *text)) return named_zone(given);
    PyErr_Format(PyExc_ValueError, "%s must be a tzinfo, an offset such as '+05:30' or the name of a time zone, not %R", argument, given);
    return NULL;
}

/* Gets the seconds of a timedelta. Returns 0 without an error where they aren't whole. */
static int seconds_of(PyObject *delta, int32_t *seconds)
{
    *seconds = PyDateTime_DELTA_GET_DAYS(delta) * 86400 + PyDateTime_DELTA_GET_SECONDS(delta);
    return !PyDateTime_DELTA_GET_MICROSECONDS(delta);
}

/* Gets the offset of texts without one from an argument, which may be None. */
static int fallback_of(PyObject *given, fallback *out)
{
    out->is_given = 0;
    out->zone = NULL;
    if (!given || given == Py_None) return 1;
    PyObject *zone = zone_from(given, "offset");
    if (!zone) return 0;
    out->is_given = 1;
    out->zone = zone;
    if (!Py_IS_TYPE(zone, Py_TYPE(PyDateTime_TimeZone_UTC))) return 1;
    PyObject *delta = PyObject_CallMethod(zone, "utcoffset", "O", Py_None);
    int known = delta && PyDelta_Check(delta) && seconds_of(delta, &out->fixed);
    if (known) out->zone = NULL;
    else if (!PyErr_Occurred()) PyErr_Format(PyExc_ValueError, "offset must be whole seconds, not %R", zone);
    Py_XDECREF(delta);
    Py_DECREF(zone);
    return known;
}

/* The offset of a zone at a date and time, as datetime has it with fold=0. Needs the interpreter's lock. Returns 0 with an
 * error, also where the zone has no offset. */
static int offset_at(PyObject *zone, const pelzaune_local *at, int32_t *offset)
{
    PyObject *when = PyDateTimeAPI->DateTime_FromDateAndTime(at->year, at->month, at->day, at->hour, at->minute, at->second,
        (int)(at->nanosecond / 1000), zone, PyDateTimeAPI->DateTimeType);
    PyObject *delta = when ? PyObject_CallMethod(when, "utcoffset", NULL) : NULL;
    int known = delta && PyDelta_Check(delta) && seconds_of(delta, offset);
    if (!known && !PyErr_Occurred()) PyErr_Format(PyExc_ValueError, "offset must be whole seconds, not those of %R", zone);
    Py_XDECREF(when);
    Py_XDECREF(delta);
    return known;
}

/* Days from 1970-01-01 to a date from 1600 on, in years that start in March. */
static int64_t days_of(const pelzaune_local *it)
{
    int64_t year = it->year - (it->month < 3), month = it->month + (it->month < 3 ? 9 : -3);
    return 365 * year + year / 4 - year / 100 + year / 400 + (153 * month + 2) / 5 + it->day - 719469;
}

/* The nanoseconds of a date and time at an offset, if 64 bits hold them: from the second -9223372037 to 9223372036. */
static pelzaune_status count_of(const pelzaune_local *it, int32_t offset, int64_t *count)
{
    int64_t second = days_of(it) * 86400 + (it->hour * 60 + it->minute) * 60 + it->second - offset;
    int64_t rest = it->nanosecond;
    if (second < 0) second++, rest -= 1000000000; /* the same instant, by numbers of one sign */
    if (second < -9223372036 || second > 9223372036) return PELZAUNE_TOO_WIDE;
    second *= 1000000000;
    if (second > 0 ? rest > INT64_MAX - second : rest < INT64_MIN - second) return PELZAUNE_TOO_WIDE;
    *count = second + rest;
    return PELZAUNE_OK;
}

/* The date and time of a text without an offset. By RFC 3339 and RFC 2822 it is read as if it had that of UTC. */
static pelzaune_status local_of(const question *asked, pelzaune_local *out)
{
    int is_mail = asked->number == PELZAUNE_RFC2822;
    size_t more = is_mail ? 6 : 1;
    uint8_t few[256], *whole = few;
    if (asked->held || asked->number == PELZAUNE_ISO8601) return ASK(local, *asked, out);
    if (asked->length + more > sizeof few) whole = PyMem_RawMalloc(asked->length + more);
    if (!whole) return PELZAUNE_INSUFFICIENT;
    memcpy(whole, asked->bytes, asked->length);
    memcpy(whole + asked->length, is_mail ? " +0000" : "Z", more);
    pelzaune_status status = pelzaune_parse_local(asked->number, whole, asked->length + more, out);
    if (whole != few) PyMem_RawFree(whole);
    return status;
}

/* Whether the zone of the arguments has raised an error. */
static inline int has_raised(const question *asked)
{
    return asked->offset.zone && PyErr_Occurred();
}

/* Whether a status is about the hour of an offset, as that of a text of RFC 3339 without one is. */
static int is_of_offset(pelzaune_status status)
{
    return PELZAUNE_COMPONENT(status) == 14;
}

/* The nanoseconds of a text that may have no offset, and is rejected without one. A zone is asked with the interpreter's
 * lock, and may raise an error: then the status is that of the text without it. */
static pelzaune_status nanoseconds_at(const question *asked, pelzaune_status status, int64_t *count)
{
    pelzaune_local local;
    int32_t offset = asked->offset.fixed;
    int is_open = asked->held || asked->number == PELZAUNE_ISO8601; /* whether the format has texts without an offset */
    if (is_open ? status != PELZAUNE_INSUFFICIENT : asked->number == PELZAUNE_RFC3339_STRICT && !is_of_offset(status)) return status;
    pelzaune_status other = local_of(asked, &local);
    if (other) return is_of_offset(status) && !is_of_offset(other) ? other : status;
    if (local.year < 1677 || local.year > 2262) return PELZAUNE_TOO_WIDE;
    if (asked->offset.zone && !offset_at(asked->offset.zone, &local, &offset)) return status;
    return count_of(&local, offset, count);
}

/* The nanoseconds of a text, which may take its offset from the arguments. */
static inline pelzaune_status nanoseconds_of(const question *asked, int64_t *count)
{
    pelzaune_status status = ASK(nanoseconds, *asked, count);
    if (!status || !asked->offset.is_given || status == PELZAUNE_TOO_WIDE) return status;
    return nanoseconds_at(asked, status, count);
}

#endif
