/* Many texts of Python, as numbers. */
#ifndef MANY_H
#define MANY_H

#include "numbers.h"
#include "texts.h"
#include "zones.h"

/* Whether a text of a batch is missing. */
static int is_none(const batch *these, size_t index)
{
    return these->places[index] == these->places[index + 1];
}

/* The call for a text of a batch. */
static pelzaune_status ask_text(const batch *these, size_t index, question *asked, int64_t *entry)
{
    asked->bytes = these->column + these->places[index];
    asked->length = these->places[index + 1] - these->places[index] - 1;
    return nanoseconds_of(asked, entry);
}

/* Parses the texts of a batch one by one, and returns how many are rejected. It ends early with the error of a zone. */
static size_t parse_each(batch *these, question *asked)
{
    size_t refused = 0;
    for (size_t k = 0; k < these->count && !has_raised(asked); k++) {
        int is_there = !is_none(these, k);
        if (is_there && !ask_text(these, k, asked, &these->entries[k])) continue;
        these->entries[k] = PELZAUNE_NO_COUNT;
        refused += (size_t)is_there;
    }
    return refused;
}

/* Spreads the numbers of the present texts over the entries, past those of the missing texts before them. */
static void spread(batch *these)
{
    size_t to = these->count, from = to - these->missing;
    while (from < to) {
        to--;
        these->entries[to] = is_none(these, to) ? PELZAUNE_NO_COUNT : these->entries[--from];
    }
}

/* Parses the texts of a batch by a format, as the lines of a column, and returns how many are rejected. There are more
 * lines than texts if a text contains LF, and a line has no CR at its end: then each text is parsed by itself. */
static size_t parse_column(batch *these, question *asked)
{
    size_t refused, there = these->count - these->missing;
    if (these->has_return || pelzaune_column(asked->number, these->column, these->length, these->entries, there, &refused) != there)
        return parse_each(these, asked);
    spread(these);
    return refused;
}

/* Parses the texts of a batch without the interpreter's lock, unless a zone needs it, and returns how many are rejected. */
static size_t parse_batch(batch *these, question *asked)
{
    PyThreadState *others = these->length < FEW_BYTES || asked->offset.zone ? NULL : PyEval_SaveThread();
    size_t refused = asked->held || asked->offset.is_given ? parse_each(these, asked) : parse_column(these, asked);
    if (others) PyEval_RestoreThread(others);
    return refused;
}

/* How many texts of a batch have the number of a rejected one, which is also that of one instant. */
static size_t without_count(const batch *these)
{
    size_t found = 0;
    for (size_t k = 0; k < these->count; k++) found += these->entries[k] == PELZAUNE_NO_COUNT;
    return found - these->missing;
}

/* Raises the error of a rejected text, with its index. */
static void refuse_text(pelzaune_status status, question *asked, size_t index)
{
    char said[128];
    status = with_missing(status, NEEDS_MOMENT, asked);
    snprintf(said, sizeof said, "text %zu: %s", index, pelzaune_text(status));
    raise_at(parse_error, said, name_of(PELZAUNE_COMPONENT(status)), index_of(asked));
    tell_text(index);
}

/* Appends the indices of a batch's rejected texts to the others, or raises the error of the first. They are among the
 * texts with the number of a rejected one, and may be all of them. The batch starts at the text with index `first`. */
static int tell_refused(const source *from, batch *these, question *asked, int are_all, size_t first, PyObject *refused)
{
    int64_t entry;
    size_t count = 0;
    for (size_t k = 0; k < these->count; k++) {
        if (these->entries[k] != PELZAUNE_NO_COUNT || is_none(these, k)) continue;
        pelzaune_status status = are_all && from->refuses ? PELZAUNE_TOO_WIDE : ask_text(these, k, asked, &entry);
        if (has_raised(asked)) return 0;
        if (!status && !are_all) continue;
        if (!from->refuses) {
            refuse_text(status ? status : PELZAUNE_TOO_WIDE, asked, first + k);
            return 0;
        }
        these->refused[count++] = (int64_t)(first + k);
    }
    return append(refused, these->refused, count);
}

/* Appends the numbers of a batch to the entries. If texts may be missing, one that parses as their number is rejected. */
static int read_batch(const source *from, batch *these, question *asked, PyObject *entries, PyObject *refused)
{
    size_t first = from->index - these->count, wrong = parse_batch(these, asked), without = wrong;
    if (has_raised(asked)) return 0;
    if (wrong || from->missing) without = without_count(these);
    if (from->missing) wrong = without;
    if (wrong && !tell_refused(from, these, asked, wrong == without, first, refused)) return 0;
    return append(entries, these->entries, these->count);
}

/* Parses all texts. An error is that of the first text with one. */
static int read_texts(source *from, question *asked, batch *these, PyObject *entries, PyObject *refused)
{
    PyObject *type, *error, *trace;
    int found = TEXT;
    while (found == TEXT) {
        found = gather(from, these);
        PyErr_Fetch(&type, &error, &trace); /* of the text after the batch */
        if (read_batch(from, these, asked, entries, refused)) PyErr_Restore(type, error, trace);
        else {
            found = ERROR;
            Py_XDECREF(type);
            Py_XDECREF(error);
            Py_XDECREF(trace);
        }
        if (found == TEXT && PyErr_CheckSignals()) found = ERROR;
    }
    return found == NO_TEXT;
}

/* The numbers of all texts, and, if texts may be rejected, the indices of the rejected ones. */
static PyObject *numbers_of(source *from, question *asked)
{
    PyObject *entries = make_array(), *refused = from->refuses ? make_array() : Py_NewRef(Py_None), *answer = NULL;
    batch *these = PyMem_Malloc(sizeof *these);
    if (these) these->column = NULL, these->room = 0;
    else PyErr_NoMemory();
    if (these && entries && refused && read_texts(from, asked, these, entries, refused))
        answer = from->refuses ? PyTuple_Pack(2, entries, refused) : Py_NewRef(entries);
    if (these) PyMem_Free(these->column);
    PyMem_Free(these);
    Py_XDECREF(entries);
    Py_XDECREF(refused);
    return answer;
}

/* Gets whether a text may be rejected. */
static int errors_of(PyObject *errors, int *refuses)
{
    static const char *const choices[] = { "raise", "none", "coerce" };
    for (size_t k = 0; errors && k < sizeof choices / sizeof *choices; k++)
        if (PyUnicode_Check(errors) && PyUnicode_CompareWithASCIIString(errors, choices[k]) == 0) {
            *refuses = k > 0;
            return 1;
        }
    *refuses = 0;
    if (errors) PyErr_Format(PyExc_ValueError, "errors must be 'raise', 'none' or 'coerce', not %R", errors);
    return !errors;
}

/* The result of a call with those texts, format, errors, offset and missing texts. */
static PyObject *answer_many(PyObject *const *values)
{
    source from = { .missing = values[4] };
    question asked;
    PyObject *answer = NULL;
    if (!errors_of(values[2], &from.refuses) || !format_of(values[1], &asked) || !fallback_of(values[3], &asked.offset)) return NULL;
    if (open_source(values[0], &from)) answer = numbers_of(&from, &asked);
    close_source(&from);
    Py_XDECREF(asked.offset.zone);
    return answer;
}

static PyObject *parse_many(GIVEN)
{
    static const char *const names[] = { "texts", "format", "errors", "offset" };
    PyObject *values[5] = { NULL };
    (void)self;
    return arguments("parse_many", names, 1, 4, given, count, named, values) ? answer_many(values) : NULL;
}

/* For pelzaune.pandas: as parse_many, with a tuple of the objects that represent a missing text, as NaN does. Its entry
 * is NO_COUNT, so that no other text may have that number. */
static PyObject *_parse_present(GIVEN)
{
    static const char *const names[] = { "texts", "format", "errors", "offset", "missing" };
    PyObject *values[5];
    (void)self;
    if (!arguments("_parse_present", names, 5, 5, given, count, named, values)) return NULL;
    if (PyTuple_Check(values[4])) return answer_many(values);
    PyErr_SetString(PyExc_TypeError, "missing must be a tuple");
    return NULL;
}

#endif
