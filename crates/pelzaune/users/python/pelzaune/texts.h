/* Gathers texts of Python a batch at a time, so that they can be parsed without the interpreter's lock. */
#ifndef TEXTS_H
#define TEXTS_H

#include <math.h>
#include "batches.h"

/* A text is prefetched this many texts before it is copied. */
enum { AHEAD = 32 };

/* The source of texts: an iterator, or a list, a tuple or an array of numpy, whose elements have a fixed length or are
 * objects. */
typedef struct {
    PyObject *iterator;
    PyObject *elements; /* the list, tuple or array; or NULL */
    Py_buffer held;     /* the elements' buffer, while a batch is gathered */
    Py_ssize_t extent;  /* the length of a list or a tuple */
    int kind;           /* of an element: 'S' for bytes, 'U' for characters, 'O' for an object */
    int is_swapped;     /* whether a character's bytes are in the opposite of this processor's order */
    uint32_t *wide;     /* the characters of an element */
    size_t width;       /* of an element, in characters, for which there is room */
    size_t index;       /* of the next text */
    PyObject *missing;  /* a tuple of the objects that represent a missing text, as NaN does then; or NULL */
    int refuses;        /* whether a rejected text has an entry instead of raising an error */
} source;

/* Makes room for the characters of an element. */
static int widen(source *from, size_t width)
{
    if (from->wide && width <= from->width) return 1;
    PyMem_Free(from->wide);
    from->width = width;
    from->wide = PyMem_Malloc(width * sizeof *from->wide + 1);
    if (!from->wide) PyErr_NoMemory();
    return from->wide != NULL;
}

/* Parses the format of an array's elements, such as 20w, >20w, 20s or O, and returns whether they may be texts. */
static int is_of_texts(source *from)
{
    const char *format = from->held.format ? from->held.format : "";
    from->is_swapped = *format == (PY_BIG_ENDIAN ? '<' : '>');
    format += strspn(format, "@=<>!^");
    format += strspn(format, "0123456789");
    from->kind = *format == 'w' ? 'U' : *format == 's' ? 'S' : 'O';
    return *format && strchr("wsO", *format) && !format[1] && from->held.ndim == 1;
}

/* Whether an object is a list or a tuple, and not of a subclass that may return its elements in another way. */
static int is_list(PyObject *given)
{
    return PyList_CheckExact(given) || PyTuple_CheckExact(given);
}

/* Holds a list or a tuple, like an array of objects. */
static int hold_list(source *from)
{
    static Py_ssize_t step = sizeof(PyObject *);
    from->kind = 'O';
    from->extent = PySequence_Fast_GET_SIZE(from->elements);
    from->held = (Py_buffer){ .buf = PySequence_Fast_ITEMS(from->elements), .shape = &from->extent, .strides = &step };
    return 1;
}

/* Holds elements while a batch is gathered. No Python code runs meanwhile, so they can only be changed between batches.
 * Returns -1 with an error, and 0 where the elements of an array aren't texts. */
static int hold(source *from)
{
    if (is_list(from->elements)) return hold_list(from);
    if (PyObject_GetBuffer(from->elements, &from->held, PyBUF_RECORDS_RO)) {
        if (PyErr_ExceptionMatches(PyExc_MemoryError)) return -1;
        PyErr_Clear();
        return 0;
    }
    int found = is_of_texts(from);
    if (found && from->kind == 'U' && !widen(from, (size_t)from->held.itemsize / sizeof *from->wide)) found = -1;
    if (found != 1) PyBuffer_Release(&from->held);
    return found;
}

/* Whether an object is an array of numpy, and not of a subclass that changes the meaning of its elements. */
static int is_array(PyObject *given)
{
    PyObject *name = PyUnicode_FromString("numpy");
    PyObject *numpy = name ? PyImport_GetModule(name) : NULL;
    PyObject *type = numpy ? PyObject_GetAttrString(numpy, "ndarray") : NULL;
    int found = type && (PyObject *)Py_TYPE(given) == type;
    Py_XDECREF(name);
    Py_XDECREF(numpy);
    Py_XDECREF(type);
    PyErr_Clear();
    return found;
}

/* Starts at the argument. A Series of pandas and similar objects are replaced by their array. */
static int open_source(PyObject *given, source *from)
{
    if (PyUnicode_Check(given) || PyBytes_Check(given)) {
        PyErr_Format(PyExc_TypeError, "texts must be an iterable of texts, not one %s", Py_TYPE(given)->tp_name);
        return 0;
    }
    int asks = !PyList_Check(given) && !PyTuple_Check(given) && PyObject_HasAttrString(given, "to_numpy");
    PyObject *all = asks ? PyObject_CallMethod(given, "to_numpy", NULL) : Py_NewRef(given);
    if (!all) return 0;
    if (is_list(all) || is_array(all)) {
        from->elements = Py_NewRef(all);
        int found = hold(from);
        if (found == 1) PyBuffer_Release(&from->held);
        else Py_CLEAR(from->elements);
        if (found) {
            Py_DECREF(all);
            return found == 1;
        }
    }
    from->iterator = PyObject_GetIter(all);
    Py_DECREF(all);
    return from->iterator != NULL;
}

/* Releases a source. */
static void close_source(source *from)
{
    Py_XDECREF(from->iterator);
    Py_XDECREF(from->elements);
    PyMem_Free(from->wide);
}

/* Whether an object represents a missing text. */
static int is_missing(const source *from, PyObject *owner)
{
    if (!from->missing) return 0;
    if (PyFloat_Check(owner)) return isnan(PyFloat_AS_DOUBLE(owner));
    for (Py_ssize_t k = 0; k < PyTuple_GET_SIZE(from->missing); k++)
        if (PyTuple_GET_ITEM(from->missing, k) == owner) return 1;
    return 0;
}

/* A text without bytes is rejected if it is a str that UTF-8 can't encode, as with half of a surrogate pair. It ends its
 * batch, since objects may have been collected while its error was made. Any other error stays raised, with its index. */
static int without_bytes(const source *from, batch *into)
{
    if (!from->refuses || !PyErr_ExceptionMatches(parse_error)) {
        tell_text(from->index);
        return ERROR;
    }
    PyErr_Clear();
    return add_text(into, (const uint8_t *)"", 0) == TEXT ? LAST_TEXT : ERROR;
}

/* Takes an object as a text, and releases it. */
static int take_object(const source *from, PyObject *owner, batch *into)
{
    int found = ERROR;
    if (PyUnicode_Check(owner) || PyBytes_Check(owner)) {
        size_t length;
        const uint8_t *bytes = bytes_of(owner, "text", parse_error, &length);
        found = bytes ? add_text(into, bytes, length) : without_bytes(from, into);
    } else if (is_missing(from, owner)) found = add_missing(into);
    else {
        PyErr_Format(PyExc_TypeError, "text %zu must be str or bytes, not %s", from->index, Py_TYPE(owner)->tp_name);
        tell_text(from->index);
    }
    Py_DECREF(owner);
    return found;
}

/* Copies bytes without the NULs at their end, which numpy appends. */
static int take_bytes(const source *from, const uint8_t *element, batch *into)
{
    size_t length = (size_t)from->held.itemsize;
    uint8_t *place = make_place(into, length);
    if (!place) return ERROR;
    memcpy(place, element, length);
    while (length && !place[length - 1]) length--;
    return end_text(into, length);
}

/* Copies the characters of an element, in this processor's byte order, and returns the union of their bits. */
static uint32_t copy_wide(const source *from, const uint8_t *element, size_t count)
{
    uint32_t bits = 0;
    memcpy(from->wide, element, count * sizeof bits);
    for (size_t k = 0; from->is_swapped && k < count; k++) {
        uint32_t its = from->wide[k];
        from->wide[k] = its << 24 | (its & 0xff00) << 8 | (its >> 8 & 0xff00) | its >> 24;
    }
    for (size_t k = 0; k < count; k++) bits |= from->wide[k];
    return bits;
}

/* Makes a str of characters that aren't all ASCII. */
static int take_wide(const source *from, size_t count, batch *into)
{
    for (size_t k = 0; k < count; k++)
        if (from->wide[k] > 0x10ffff) {
            raise(parse_error, "a character is not in range(0x110000)", Py_NewRef(Py_None));
            return without_bytes(from, into);
        }
    PyObject *made = PyUnicode_FromKindAndData(PyUnicode_4BYTE_KIND, from->wide, (Py_ssize_t)count);
    return made ? take_object(from, made, into) : ERROR;
}

/* Copies characters without the NULs at their end. */
static int take_characters(const source *from, const uint8_t *element, batch *into)
{
    size_t count = (size_t)from->held.itemsize / sizeof(uint32_t);
    uint32_t bits = copy_wide(from, element, count);
    while (count && !from->wide[count - 1]) count--;
    if (bits >= 0x80) return take_wide(from, count, into);
    uint8_t *place = make_place(into, count);
    for (size_t k = 0; place && k < count; k++) place[k] = (uint8_t)from->wide[k];
    return place ? end_text(into, count) : ERROR;
}

/* The object of an element. */
static PyObject *object_at(const uint8_t *element)
{
    PyObject *owner;
    memcpy(&owner, element, sizeof owner);
    return owner ? owner : Py_None;
}

/* Takes the next held element. */
static int next_element(const source *from, batch *into)
{
    if (from->index >= (size_t)from->held.shape[0]) return NO_TEXT;
    const uint8_t *element = (const uint8_t *)from->held.buf + (Py_ssize_t)from->index * from->held.strides[0];
    if (from->kind == 'S') return take_bytes(from, element, into);
    if (from->kind == 'U') return take_characters(from, element, into);
    return take_object(from, Py_NewRef(object_at(element)), into);
}

/* Prefetches a text that is taken soon. Most are no longer than two cache lines. */
static void fetch(const PyObject *owner)
{
    __builtin_prefetch(owner);
    __builtin_prefetch((const char *)owner + 64);
}

/* Takes the next objects as long as they are str of ASCII, as most are, without further checks. */
static int next_ascii(source *from, batch *into)
{
    const uint8_t *elements = from->held.buf;
    const Py_ssize_t step = from->held.strides[0], all = from->held.shape[0];
    Py_ssize_t k = (Py_ssize_t)from->index;
    int found = TEXT;
    while (found == TEXT && k < all && has_room(into)) {
        PyObject *owner = object_at(elements + k * step);
        if (AHEAD < all - k) fetch(object_at(elements + (k + AHEAD) * step));
        if (!PyUnicode_CheckExact(owner) || !PyUnicode_IS_COMPACT_ASCII(owner)) break;
        found = add_text(into, PyUnicode_1BYTE_DATA(owner), (size_t)PyUnicode_GET_LENGTH(owner));
        k += found == TEXT;
    }
    from->index = (size_t)k;
    return found;
}

/* Takes the iterator's next text. */
static int next_object(const source *from, batch *into)
{
    PyObject *owner = PyIter_Next(from->iterator);
    if (owner) return take_object(from, owner, into);
    return PyErr_Occurred() ? ERROR : NO_TEXT;
}

/* Fills a batch with the next texts. Returns TEXT, or NO_TEXT if no more follow, or ERROR with that of the text after
 * them. */
static int gather(source *from, batch *into)
{
    into->count = into->missing = into->length = into->places[0] = 0;
    into->has_return = 0;
    int found = from->elements ? hold(from) : 1;
    if (found == 0) PyErr_SetString(PyExc_RuntimeError, "the array of texts was changed while it was read");
    if (found != 1) return ERROR;
    while (found == TEXT && has_room(into)) {
        found = from->elements ? next_element(from, into) : next_object(from, into);
        if (found >= TEXT) from->index++;
        if (found == TEXT && from->elements && from->kind == 'O') found = next_ascii(from, into);
    }
    if (from->elements) PyBuffer_Release(&from->held);
    return found == LAST_TEXT ? TEXT : found;
}

#endif
