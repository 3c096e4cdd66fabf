/* Formats: the enum Format, their names, and descriptions. */
#ifndef FORMATS_H
#define FORMATS_H

#include "errors.h"

/* The formats by their names, which are accepted in any case. The members of Format are these in upper case, and count from
 * 1. Their numbers in the library may be others. */
static const struct { const char *name, *member; uint32_t number; } named_formats[] = {
    { "rfc3339", "RFC3339", PELZAUNE_RFC3339_STRICT },
    { "rfc2822", "RFC2822", PELZAUNE_RFC2822 },
    { "iso8601", "ISO8601", PELZAUNE_ISO8601 },
};
enum { NAMED_FORMATS = sizeof named_formats / sizeof *named_formats };

/* A parsed description: an object of the class Description. */
typedef struct {
    PyObject_HEAD
    PyObject *text; /* as it was passed */
    pelzaune_description held;
} description;

static PyTypeObject *description_type;

/* The offset of a text that has none: fixed, or that of a zone at the text's date and time. */
typedef struct {
    int is_given;
    int32_t fixed;  /* in seconds ahead of UTC */
    PyObject *zone; /* owned; NULL where the offset is fixed */
} fallback;

/* The text of a call, its format, which is a number or a description, and the offset for a text without one. */
typedef struct {
    const uint8_t *bytes;
    size_t length;
    uint32_t number;                  /* of the format, if there is no description */
    const pelzaune_description *held; /* that of an object, or `read`, or NULL */
    PyObject *form;                   /* its text */
    fallback offset;                  /* only of columns */
    pelzaune_description read;        /* parsed from a text */
} question;

/* Raises an error that lists the formats, for an argument that is shown so. Takes over the reference. */
static int refuse_format(PyObject *type, PyObject *shown)
{
    char choices[96] = "";
    for (size_t k = 0; k < NAMED_FORMATS; k++) {
        strncat(choices, named_formats[k].member, sizeof choices - strlen(choices) - 1);
        strncat(choices, ", ", sizeof choices - strlen(choices) - 1);
    }
    if (shown) PyErr_Format(type, "format must be %sa Description, or the text of one, not %U", choices, shown);
    Py_XDECREF(shown);
    return 0;
}

/* Gets the number of a format: a member of Format, or an int with its value. */
static inline int number_of(PyObject *given, uint32_t *number)
{
    int overflow = 0;
    if (PyBool_Check(given)) return refuse_format(PyExc_TypeError, PyUnicode_FromString("bool"));
    long value = PyLong_AsLongAndOverflow(given, &overflow);
    if (overflow || value < 1 || value > NAMED_FORMATS) return refuse_format(PyExc_ValueError, PyObject_Repr(given));
    *number = named_formats[value - 1].number;
    return 1;
}

/* The number of the format with that name, or 0. */
static inline uint32_t number_of_name(const uint8_t *bytes, size_t length)
{
    for (size_t k = 0; k < NAMED_FORMATS; k++)
        if (length == strlen(named_formats[k].name) && PyOS_strnicmp((const char *)bytes, named_formats[k].name, (Py_ssize_t)length) == 0)
            return named_formats[k].number;
    return 0;
}

/* The syntax of a description: strftime's if it contains a `%`, else brackets. */
static inline uint32_t syntax_of(const uint8_t *bytes, size_t length)
{
    return memchr(bytes, '%', length) ? PELZAUNE_STRFTIME : PELZAUNE_BRACKETS_2;
}

/* Parses a description, or raises its error, with the index of its first fault. */
static int describe(const uint8_t *bytes, size_t length, pelzaune_description *out)
{
    size_t index = SIZE_MAX;
    pelzaune_status status = pelzaune_describe(syntax_of(bytes, length), bytes, length, out, &index);
    if (status == PELZAUNE_OK) return 1;
    raise_at(description_error, pelzaune_text(status), Py_NewRef(Py_None), index == SIZE_MAX ? Py_NewRef(Py_None) : PyLong_FromSize_t(index));
    return 0;
}

/* Raises an error that lists the formats, for a text that is neither a name nor a description. It isn't a ParseError, since
 * callers catch that for each of many texts. */
static int refuse_name(const uint8_t *bytes, size_t length)
{
    PyObject *text = PyUnicode_DecodeUTF8((const char *)bytes, (Py_ssize_t)(length < 80 ? length : 80), "replace");
    PyObject *shown = text ? PyObject_Repr(text) : NULL;
    Py_XDECREF(text);
    return refuse_format(PyExc_ValueError, shown);
}

/* Gets a format of its text: a name, or a description, which has a % or a [. A text with neither is a misspelled name. */
static inline int format_of_text(PyObject *format, question *asked)
{
    size_t length;
    if (!PyUnicode_Check(format) && !PyBytes_Check(format))
        return refuse_format(PyExc_TypeError, PyUnicode_FromString(Py_TYPE(format)->tp_name));
    const uint8_t *bytes = bytes_of(format, "format", description_error, &length);
    if (!bytes) return 0;
    asked->number = number_of_name(bytes, length);
    if (asked->number) return 1;
    if (!memchr(bytes, '%', length) && !memchr(bytes, '[', length)) return refuse_name(bytes, length);
    asked->held = &asked->read;
    asked->form = format;
    return describe(bytes, length, &asked->read);
}

/* Gets a format: a number, an object of the class Description, a name, or the text of a description. */
static inline int format_of(PyObject *format, question *asked)
{
    asked->held = NULL;
    asked->number = named_formats[0].number;
    if (!format) return 1;
    if (PyLong_Check(format)) return number_of(format, &asked->number);
    if (Py_IS_TYPE(format, description_type)) {
        asked->held = &((description *)format)->held;
        asked->form = ((description *)format)->text;
        return 1;
    }
    return format_of_text(format, asked);
}

/* The pairs of names and values of the enum's members. */
static PyObject *members_of_format(void)
{
    PyObject *members = PyList_New(0);
    for (size_t k = 0; members && k < NAMED_FORMATS; k++) {
        PyObject *member = Py_BuildValue("(sI)", named_formats[k].member, (unsigned)k + 1);
        if (!member || PyList_Append(members, member)) Py_CLEAR(members);
        Py_XDECREF(member);
    }
    return members;
}

/* The class Format: an enum.IntEnum with the formats. */
static PyObject *make_format_class(void)
{
    PyObject *enums = PyImport_ImportModule("enum"), *members = members_of_format();
    PyObject *base = enums ? PyObject_GetAttrString(enums, "IntEnum") : NULL;
    PyObject *given = base && members ? Py_BuildValue("(sO)", "Format", members) : NULL;
    PyObject *named = given ? Py_BuildValue("{s:s,s:s}", "module", "pelzaune", "qualname", "Format") : NULL;
    PyObject *made = named ? PyObject_Call(base, given, named) : NULL;
    PyObject *doc = made ? PyUnicode_FromString("The formats with names. Their names are accepted too, in any case, as 'rfc3339'.\n\n"
        "RFC3339 accepts T, t or a space between date and time.") : NULL;
    if (!doc || PyObject_SetAttrString(made, "__doc__", doc)) Py_CLEAR(made);
    Py_XDECREF(enums);
    Py_XDECREF(members);
    Py_XDECREF(base);
    Py_XDECREF(given);
    Py_XDECREF(named);
    Py_XDECREF(doc);
    return made;
}

/* Adds the class, and its members by their names. */
static int add_formats(PyObject *made)
{
    PyObject *formats = make_format_class();
    int failed = !formats || PyModule_AddObjectRef(made, "Format", formats);
    for (size_t k = 0; !failed && k < NAMED_FORMATS; k++) {
        PyObject *member = PyObject_GetAttrString(formats, named_formats[k].member);
        failed = !member || PyModule_AddObjectRef(made, named_formats[k].member, member);
        Py_XDECREF(member);
    }
    Py_XDECREF(formats);
    return failed;
}

#endif
