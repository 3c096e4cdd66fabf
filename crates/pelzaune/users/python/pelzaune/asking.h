/* The arguments of a call of the module, and the error of a rejected text. */
#ifndef ASKING_H
#define ASKING_H

#include "formats.h"

/* The index at which a text fails, or None if it doesn't. */
static PyObject *index_of(const question *asked)
{
    pelzaune_place place;
    size_t length;
    pelzaune_status status;
    const uint8_t *form = asked->held ? bytes_of(asked->form, "format", description_error, &length) : NULL;
    if (form) status = pelzaune_read_locate(syntax_of(form, length), form, length, asked->bytes, asked->length, &place);
    else if (asked->held) return NULL;
    else status = pelzaune_locate(asked->number, asked->bytes, asked->length, &place);
    return status == PELZAUNE_OK ? Py_NewRef(Py_None) : PyLong_FromSize_t(place.index);
}

/* What a moment needs. */
#define NEEDS_MOMENT (PELZAUNE_NEEDS_DATE + PELZAUNE_NEEDS_TIME + PELZAUNE_NEEDS_OFFSET)

/* The status of a rejected text, with the component that is missing for what is needed, if one is. */
static pelzaune_status with_missing(pelzaune_status status, uint32_t needs, const question *asked)
{
    if (status != PELZAUNE_INSUFFICIENT) return status;
    pelzaune_status missing = asked->held
        ? pelzaune_described_missing(needs, asked->held, asked->bytes, asked->length)
        : pelzaune_missing(needs, asked->number, asked->bytes, asked->length);
    return missing ? missing : status;
}

/* Raises the error of a rejected text, for what is needed. */
static PyObject *refuse(pelzaune_status status, uint32_t needs, const question *asked)
{
    status = with_missing(status, needs, asked);
    return raise_at(parse_error, pelzaune_text(status), name_of(PELZAUNE_COMPONENT(status)), index_of(asked));
}

/* Stores arguments by the names of a call's parameters in `values`, with NULL for an omitted one. The first `required`
 * are mandatory. */
static int arguments(const char *call, const char *const *names, Py_ssize_t required, Py_ssize_t all, PyObject *const *given,
    Py_ssize_t count, PyObject *named, PyObject **values)
{
    if (count > all) {
        PyErr_Format(PyExc_TypeError, "%s() takes at most %zd arguments (%zd given)", call, all, count);
        return 0;
    }
    for (Py_ssize_t k = 0; k < all; k++) values[k] = k < count ? given[k] : NULL;
    for (Py_ssize_t k = 0; named && k < PyTuple_GET_SIZE(named); k++) {
        PyObject *name = PyTuple_GET_ITEM(named, k);
        Py_ssize_t at = 0;
        while (at < all && PyUnicode_CompareWithASCIIString(name, names[at])) at++;
        if (at == all) PyErr_Format(PyExc_TypeError, "%s() got an unexpected keyword argument '%U'", call, name);
        else if (values[at]) PyErr_Format(PyExc_TypeError, "%s() got multiple values for argument '%U'", call, name);
        if (at == all || values[at]) return 0;
        values[at] = given[count + k];
    }
    for (Py_ssize_t k = 0; k < required; k++)
        if (!values[k]) {
            PyErr_Format(PyExc_TypeError, "%s() missing required argument: '%s'", call, names[k]);
            return 0;
        }
    return 1;
}

/* Gets the text and the format of a call. */
static inline int ask(const char *call, PyObject *const *given, Py_ssize_t count, PyObject *named, question *asked)
{
    static const char *const names[] = { "text", "format" };
    PyObject *values[2];
    if (count >= 1 && count <= 2 && !named) {
        values[0] = given[0];
        values[1] = count == 2 ? given[1] : NULL;
    } else if (!arguments(call, names, 1, 2, given, count, named, values)) return 0;
    asked->bytes = bytes_of(values[0], "text", parse_error, &asked->length);
    return asked->bytes && format_of(values[1], asked);
}

/* The result of a call of the library, by a format or by a description. */
#define ASK(target, asked, out) ((asked).held \
    ? pelzaune_described_##target((asked).held, (asked).bytes, (asked).length, out) \
    : pelzaune_parse_##target((asked).number, (asked).bytes, (asked).length, out))

#define GIVEN PyObject *self, PyObject *const *given, Py_ssize_t count, PyObject *named

#endif
