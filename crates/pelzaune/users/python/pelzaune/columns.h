/* The lines of a text, as numbers in a buffer. */
#ifndef COLUMNS_H
#define COLUMNS_H

#include "blocks.h"
#include "numbers.h"

/* The most entries that are collected before they are appended to the result: those of some milliseconds. */
enum { MOST_ENTRIES = 1 << 19 };

/* The entries of lines: a buffer with room for some, of which the first are filled. */
typedef struct {
    int64_t *start;
    size_t filled, room;
    int is_fixed;   /* whether lines without room are only counted */
    size_t counted; /* the lines of all blocks */
    size_t refused;
    size_t wanted;  /* the lines of a block that found no room, or 0 */
} entries_of_lines;

/* Parses blocks until they end, there is no room for one, or the time is up. Needs no lock, except for a zone. Returns 0 if
 * there is no memory. */
static int parse_some(lines *these, entries_of_lines *out)
{
    int64_t start = nanoseconds_now();
    size_t room, count;
    do {
        size_t refused;
        if (!out->wanted && !next_block(these)) return 0;
        room = out->room - out->filled;
        count = parse_block(&these->asked, out->start + out->filled, room, &refused);
        out->wanted = !out->is_fixed && count > room ? count : 0;
        if (out->wanted) return 1;
        out->counted += count;
        out->refused += refused;
        out->filled += count < room ? count : room;
        room -= count < room ? count : room;
    } while (these->left && (out->is_fixed || room > 2 * count) && nanoseconds_now() - start < MOST_NANOSECONDS && !has_raised(&these->asked));
    return 1;
}

/* Does so without the interpreter's lock, and then handles signals. Returns 0 with an error. */
static int parse_unlocked(lines *these, entries_of_lines *out)
{
    PyThreadState *others = these->asked.offset.zone ? NULL : PyEval_SaveThread();
    int has_memory = parse_some(these, out);
    if (others) PyEval_RestoreThread(others);
    if (PyErr_Occurred() || PyErr_CheckSignals()) return 0;
    if (!has_memory) PyErr_NoMemory();
    return has_memory;
}

/* Makes room for entries. It is a little more than none where the text is short. */
static int make_room(entries_of_lines *out, size_t room)
{
    PyMem_RawFree(out->start);
    out->start = PyMem_RawMalloc(room * sizeof *out->start + 1);
    out->room = out->start ? room : 0;
    if (!out->start) PyErr_NoMemory();
    return out->start != NULL;
}

/* Moves the entries to the end of the result, and makes room for a block that found none. */
static int flush(entries_of_lines *out, PyObject *result)
{
    if (!append(result, out->start, out->filled)) return 0;
    out->filled = 0;
    return out->wanted <= out->room || make_room(out, out->wanted);
}

static PyObject *column(GIVEN)
{
    static const char *const names[] = { "text", "format", "offset" };
    PyObject *values[3];
    lines these;
    entries_of_lines out = { 0 };
    (void)self;
    if (!arguments("column", names, 1, 3, given, count, named, values) || !take_lines(values[0], values[1], values[2], &these)) return NULL;
    PyObject *result = make_array();
    int found = result && make_room(&out, these.left < MOST_ENTRIES ? these.left : MOST_ENTRIES);
    while (found && (these.left || out.wanted)) found = parse_unlocked(&these, &out) && flush(&out, result);
    if (!found) Py_CLEAR(result);
    PyMem_RawFree(out.start);
    release(&these);
    return result;
}

/* Whether a buffer has signed numbers of 64 bits in this processor's byte order. */
static int is_of_numbers(const Py_buffer *entries)
{
    const char *format = entries->format ? entries->format : "B";
    if (strchr("@=<", format[0])) format++;
    return entries->itemsize == sizeof(int64_t) && (strcmp(format, "q") == 0 || strcmp(format, "l") == 0)
        && (!entries->len || (uintptr_t)entries->buf % sizeof(int64_t) == 0);
}

/* Whether a buffer has bytes of the lines. */
static int overlaps(const lines *these, const Py_buffer *entries)
{
    uintptr_t text = (uintptr_t)these->next, out = (uintptr_t)entries->buf;
    return these->left && entries->len && text < out + (size_t)entries->len && out < text + these->left;
}

/* Raises an error for a buffer that can't have the entries. */
static int may_have(const lines *these, const Py_buffer *entries)
{
    if (!is_of_numbers(entries)) PyErr_SetString(PyExc_TypeError, "out must be a buffer of signed numbers of 64 bits, as array('q') is");
    else if (overlaps(these, entries)) PyErr_SetString(PyExc_ValueError, "text and out must not overlap");
    else return 1;
    return 0;
}

static PyObject *column_into(GIVEN)
{
    static const char *const names[] = { "text", "out", "format", "offset" };
    PyObject *values[4], *answer = NULL;
    lines these;
    Py_buffer entries;
    (void)self;
    if (!arguments("column_into", names, 2, 4, given, count, named, values) || !take_lines(values[0], values[2], values[3], &these)) return NULL;
    if (PyObject_GetBuffer(values[1], &entries, PyBUF_WRITABLE | PyBUF_C_CONTIGUOUS | PyBUF_FORMAT) == 0) {
        entries_of_lines out = { .start = entries.buf, .room = (size_t)entries.len / sizeof(int64_t), .is_fixed = 1 };
        int found = may_have(&these, &entries);
        while (found && these.left) found = parse_unlocked(&these, &out);
        if (found) answer = Py_BuildValue("nn", (Py_ssize_t)out.counted, (Py_ssize_t)out.refused);
        PyBuffer_Release(&entries);
    }
    release(&these);
    return answer;
}

#endif
