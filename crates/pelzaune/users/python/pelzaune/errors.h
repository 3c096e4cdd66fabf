/* The exceptions of the module, and how they are raised. The texts of statuses are the library's. */
#ifndef ERRORS_H
#define ERRORS_H

#define PY_SSIZE_T_CLEAN
#include <Python.h>
#include <datetime.h>
#include "pelzaune.h"

static PyObject *parse_error, *description_error, *format_error;

/* Sets an attribute of an error. Takes over both references, where they aren't NULL. */
static int tell(PyObject *error, const char *name, PyObject *value)
{
    int failed = !error || !value || PyObject_SetAttrString(error, name, value);
    Py_XDECREF(value);
    return failed;
}

/* The name of a component, or None for 0. */
static PyObject *name_of(uint32_t component)
{
    if (!component) return Py_NewRef(Py_None);
    const char *name = pelzaune_text(PELZAUNE_RANGE + 256 * component);
    return PyUnicode_FromStringAndSize(name, (Py_ssize_t)(strlen(name) - strlen(" is out of range")));
}

/* Raises an error of that type, with the text, the name of a component and an index or None. Takes over both references. */
static PyObject *raise_at(PyObject *type, const char *text, PyObject *component, PyObject *index)
{
    PyObject *error = component && index ? PyObject_CallFunction(type, "s", text) : NULL;
    int failed = tell(error, "component", component);
    if (index == Py_None) Py_DECREF(index);
    else failed |= tell(error, "index", index);
    if (!failed) PyErr_SetObject(type, error);
    Py_XDECREF(error);
    return NULL;
}

/* Raises such an error without an index. */
static PyObject *raise(PyObject *type, const char *text, PyObject *component)
{
    return raise_at(type, text, component, Py_NewRef(Py_None));
}

/* Adds the index of a text, among many, to the raised error. */
static void tell_text(size_t index)
{
    PyObject *type, *error, *trace;
    PyErr_Fetch(&type, &error, &trace);
    PyErr_NormalizeException(&type, &error, &trace);
    if (tell(error, "text_index", PyLong_FromSize_t(index))) PyErr_Clear();
    PyErr_Restore(type, error, trace);
}

/* Clears the raised error, and returns it as an object without its traceback. */
static PyObject *take_raised(void)
{
    PyObject *type, *error, *trace;
    PyErr_Fetch(&type, &error, &trace);
    PyErr_NormalizeException(&type, &error, &trace);
    Py_XDECREF(type);
    Py_XDECREF(trace);
    return error;
}

/* Makes an error the cause of the raised one. Takes over the reference. */
static void add_cause(PyObject *cause)
{
    PyObject *type, *error, *trace;
    PyErr_Fetch(&type, &error, &trace);
    PyErr_NormalizeException(&type, &error, &trace);
    if (error) PyException_SetCause(error, cause);
    else Py_XDECREF(cause);
    PyErr_Restore(type, error, trace);
}

/* The bytes of UTF-8 before the character at that index. */
static PyObject *bytes_before(PyObject *text, Py_ssize_t index)
{
    Py_ssize_t length = 0;
    PyObject *before = PyUnicode_Substring(text, 0, index);
    const char *bytes = before ? PyUnicode_AsUTF8AndSize(before, &length) : NULL;
    Py_XDECREF(before);
    return bytes ? PyLong_FromSsize_t(length) : NULL;
}

/* Replaces the UnicodeEncodeError of a str with a lone surrogate by an error of that type at its index, whose cause it
 * becomes. */
static void raise_surrogate(PyObject *type, PyObject *text)
{
    Py_ssize_t start = 0;
    PyObject *cause = take_raised();
    PyObject *message = PyUnicodeEncodeError_GetStart(cause, &start) ? NULL : PyObject_Str(cause);
    const char *said = message ? PyUnicode_AsUTF8(message) : NULL;
    if (said) raise_at(type, said, Py_NewRef(Py_None), bytes_before(text, start));
    Py_XDECREF(message);
    add_cause(cause);
}

/* The bytes of a `str` or of `bytes`. A `str` is read as UTF-8, which every format rejects unless it is ASCII. One that
 * UTF-8 can't encode raises an error of that type. */
static inline const uint8_t *bytes_of(PyObject *text, const char *name, PyObject *type, size_t *length)
{
    Py_ssize_t count = 0;
    const char *bytes = NULL;
    if (PyUnicode_Check(text) && PyUnicode_IS_COMPACT_ASCII(text)) {
        bytes = (const char *)PyUnicode_1BYTE_DATA(text);
        count = PyUnicode_GET_LENGTH(text);
    } else if (PyUnicode_Check(text)) {
        bytes = PyUnicode_AsUTF8AndSize(text, &count);
        if (!bytes && PyErr_ExceptionMatches(PyExc_UnicodeEncodeError)) raise_surrogate(type, text);
    } else if (PyBytes_Check(text)) {
        bytes = PyBytes_AS_STRING(text);
        count = PyBytes_GET_SIZE(text);
    } else PyErr_Format(PyExc_TypeError, "%s must be str or bytes, not %s", name, Py_TYPE(text)->tp_name);
    *length = (size_t)count;
    return (const uint8_t *)bytes;
}

#endif
