/* Texts of datetimes. */
#ifndef FORMATTING_H
#define FORMATTING_H

#include "zones.h"

static PyObject *utcoffset, *astimezone, *nanosecond; /* names of a datetime's attributes */

/* Makes these names once, since a call by a name that is made for it is slower. */
static int make_names(void)
{
    utcoffset = PyUnicode_InternFromString("utcoffset");
    astimezone = PyUnicode_InternFromString("astimezone");
    nanosecond = PyUnicode_InternFromString("nanosecond");
    return !utcoffset || !astimezone || !nanosecond;
}

/* The format and the zone of the texts of one datetime or of many. It isn't copied: `asked` may point into itself. */
typedef struct {
    question asked; /* only its format */
    PyObject *zone; /* owned; NULL where each datetime keeps its own */
    int is_many;
    size_t index;   /* of the datetime, among many */
} layout;

/* Raises the error of a datetime without a text. Takes over the reference. */
static PyObject *refuse_value(const layout *in, const char *text, PyObject *component)
{
    char whole[192];
    if (in->is_many) snprintf(whole, sizeof whole, "value %zu: %s", in->index, text);
    return raise(format_error, in->is_many ? whole : text, component);
}

/* The offset of a datetime in seconds ahead of UTC. */
static int offset_of(const layout *in, PyObject *value, int32_t *offset)
{
    PyObject *delta = PyObject_CallMethodNoArgs(value, utcoffset);
    int known = delta && PyDelta_Check(delta);
    if (delta && !known) refuse_value(in, "a datetime without a zone has no text", PyUnicode_FromString("offset hour"));
    if (known && !seconds_of(delta, offset)) {
        refuse_value(in, "an offset of a part of a second has no text", PyUnicode_FromString("offset second"));
        known = 0;
    }
    Py_XDECREF(delta);
    return known;
}

/* Gets the nanoseconds after the second, also those after the microsecond, which a Timestamp of pandas has. */
static int nanosecond_of(PyObject *value, uint32_t *out)
{
    *out = 1000 * (uint32_t)PyDateTime_DATE_GET_MICROSECOND(value);
    if (PyDateTime_CheckExact(value)) return 1;
    PyObject *rest = PyObject_GetAttr(value, nanosecond);
    if (!rest && PyErr_ExceptionMatches(PyExc_AttributeError)) {
        PyErr_Clear();
        return 1;
    }
    long count = rest ? PyLong_AsLong(rest) : -1;
    Py_XDECREF(rest);
    if (!PyErr_Occurred() && (count < 0 || count > 999)) PyErr_SetString(PyExc_ValueError, "nanosecond must be in 0..999");
    if (PyErr_Occurred()) return 0;
    *out += (uint32_t)count;
    return 1;
}

/* Raises an error for a value that isn't a datetime. */
static int is_datetime(const layout *in, PyObject *value)
{
    if (PyDateTime_Check(value)) return 1;
    if (in->is_many) PyErr_Format(PyExc_TypeError, "value %zu must be datetime, not %s", in->index, Py_TYPE(value)->tp_name);
    else PyErr_Format(PyExc_TypeError, "value must be datetime, not %s", Py_TYPE(value)->tp_name);
    return 0;
}

/* The datetime in the zone of the texts, or as it is without one. */
static PyObject *shown_in(const layout *in, PyObject *value)
{
    int32_t offset;
    if (!is_datetime(in, value)) return NULL;
    if (!in->zone) return Py_NewRef(value);
    PyObject *shown = offset_of(in, value, &offset) ? PyObject_CallMethodOneArg(value, astimezone, in->zone) : NULL;
    if (shown && !PyDateTime_Check(shown)) {
        PyErr_Format(PyExc_TypeError, "astimezone() returned %s instead of datetime", Py_TYPE(shown)->tp_name);
        Py_CLEAR(shown);
    }
    return shown;
}

/* The str of a text. One that isn't UTF-8, which a description of bytes may have, raises an error whose cause is the
 * UnicodeDecodeError. */
static PyObject *str_of(const layout *in, const uint8_t *text, size_t length)
{
    PyObject *made = PyUnicode_DecodeUTF8((const char *)text, (Py_ssize_t)length, NULL);
    if (made || !PyErr_ExceptionMatches(PyExc_UnicodeDecodeError)) return made;
    PyObject *cause = take_raised(), *message = PyObject_Str(cause);
    const char *reason = message ? PyUnicode_AsUTF8(message) : NULL;
    if (reason) refuse_value(in, reason, Py_NewRef(Py_None));
    Py_XDECREF(message);
    add_cause(cause);
    return NULL;
}

/* The text of a datetime as it is. */
static PyObject *text_of(const layout *in, PyObject *value)
{
    uint8_t text[PELZAUNE_DESCRIBED_TEXT];
    size_t length;
    int32_t offset;
    uint32_t rest;
    if (!offset_of(in, value, &offset) || !nanosecond_of(value, &rest)) return NULL;
    pelzaune_moment m = { PyDateTime_GET_YEAR(value), rest, offset, (uint8_t)PyDateTime_GET_MONTH(value),
        (uint8_t)PyDateTime_GET_DAY(value), (uint8_t)PyDateTime_DATE_GET_HOUR(value), (uint8_t)PyDateTime_DATE_GET_MINUTE(value),
        (uint8_t)PyDateTime_DATE_GET_SECOND(value) };
    pelzaune_status status = in->asked.held
        ? pelzaune_described_format_moment(in->asked.held, &m, text, sizeof text, &length)
        : pelzaune_format_moment(in->asked.number, &m, text, sizeof text, &length);
    if (status == PELZAUNE_OK) return str_of(in, text, length);
    return refuse_value(in, pelzaune_text(status), name_of(PELZAUNE_COMPONENT(status)));
}

/* The text of a datetime in the zone of the texts. */
static PyObject *text_in(const layout *in, PyObject *value)
{
    PyObject *shown = shown_in(in, value);
    PyObject *text = shown ? text_of(in, shown) : NULL;
    Py_XDECREF(shown);
    return text;
}

/* Gets the format and the zone of arguments. On an error nothing is owned. */
static int layout_of(PyObject *format, PyObject *zone, layout *out)
{
    out->zone = NULL;
    if (!format_of(format, &out->asked)) return 0;
    if (!zone || zone == Py_None) return 1;
    out->zone = zone_from(zone, "zone");
    return out->zone != NULL;
}

static PyObject *format_datetime(GIVEN)
{
    static const char *const names[] = { "value", "format", "zone" };
    PyObject *values[3];
    layout in = { .is_many = 0 };
    (void)self;
    if (!arguments("format_datetime", names, 1, 3, given, count, named, values) || !layout_of(values[1], values[2], &in)) return NULL;
    PyObject *text = text_in(&in, values[0]);
    Py_XDECREF(in.zone);
    return text;
}

/* Appends the text of a datetime to a list. An error has its index. */
static int append_text(const layout *in, PyObject *value, PyObject *texts)
{
    PyObject *text = text_in(in, value);
    int failed = !text || PyList_Append(texts, text);
    if (!text) tell_text(in->index);
    Py_XDECREF(text);
    return !failed;
}

/* Lets other threads run, and handles signals, after every 1024th datetime. */
static int let_others_run(const layout *in)
{
    if (in->index % 1024) return 1;
    Py_BEGIN_ALLOW_THREADS
    Py_END_ALLOW_THREADS
    return !PyErr_CheckSignals();
}

/* The texts of all values of an iterator, or the error of the first without one. */
static PyObject *texts_of(layout *in, PyObject *iterator)
{
    PyObject *texts = PyList_New(0), *value = NULL;
    while (texts && (value = PyIter_Next(iterator))) {
        int found = append_text(in, value, texts);
        Py_DECREF(value);
        in->index++;
        if (!found || !let_others_run(in)) Py_CLEAR(texts);
    }
    if (PyErr_Occurred()) Py_CLEAR(texts);
    return texts;
}

static PyObject *format_many(GIVEN)
{
    static const char *const names[] = { "values", "format", "zone" };
    PyObject *values[3];
    layout in = { .is_many = 1 };
    (void)self;
    if (!arguments("format_many", names, 1, 3, given, count, named, values) || !layout_of(values[1], values[2], &in)) return NULL;
    PyObject *iterator = PyObject_GetIter(values[0]);
    PyObject *texts = iterator ? texts_of(&in, iterator) : NULL;
    Py_XDECREF(iterator);
    Py_XDECREF(in.zone);
    return texts;
}

#endif
