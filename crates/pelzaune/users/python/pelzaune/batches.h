/* A batch of texts, as the lines of a column. */
#ifndef BATCHES_H
#define BATCHES_H

#include "asking.h"

/* The most texts of a batch: enough that waiting for the interpreter after each batch is cheap, and few enough for the
 * caches. */
enum { MOST_TEXTS = 8192 };

/* A batch ends with the text that makes it this long. */
enum { MOST_BYTES = 1 << 18 };

/* A shorter batch is parsed before the interpreter could be reacquired. */
enum { FEW_BYTES = 4096 };

/* Gathered texts: copies, with LF after each one but those that are missing. A str without UTF-8 has no bytes, and an
 * empty text is rejected by any format. */
typedef struct {
    uint8_t *column;
    size_t length, room;
    size_t count, missing;         /* the number of texts, and of missing ones */
    int has_return;                /* whether a text ends with CR, which the end of a column's line may have */
    size_t places[MOST_TEXTS + 1]; /* where each text starts, and the end: equal to the next where the text is missing */
    int64_t entries[MOST_TEXTS];   /* the number of each text */
    int64_t refused[MOST_TEXTS];   /* the indices of rejected texts */
} batch;

/* The result of taking a text. */
enum { ERROR = -1, NO_TEXT, TEXT, LAST_TEXT /* of its batch */ };

/* Whether one more text fits a batch. */
static int has_room(const batch *these)
{
    return these->count < MOST_TEXTS && these->length < MOST_BYTES;
}

/* Makes room for a text of that length, and returns its start, or NULL with an error. */
static uint8_t *make_place(batch *into, size_t length)
{
    if (length >= into->room - into->length) {
        size_t room = 2 * into->length + length + FEW_BYTES;
        uint8_t *column = PyMem_Realloc(into->column, room);
        if (!column) {
            PyErr_NoMemory();
            return NULL;
        }
        into->column = column;
        into->room = room;
    }
    return into->column + into->length;
}

/* Ends a text of this length at its start. */
static int end_text(batch *into, size_t length)
{
    into->length += length;
    into->has_return |= length && into->column[into->length - 1] == '\r';
    into->column[into->length++] = '\n';
    into->places[++into->count] = into->length;
    return TEXT;
}

/* Appends a text to a batch. */
static int add_text(batch *into, const uint8_t *bytes, size_t length)
{
    uint8_t *place = make_place(into, length);
    if (!place) return ERROR;
    memcpy(place, bytes, length);
    return end_text(into, length);
}

/* Appends a missing text. */
static int add_missing(batch *into)
{
    into->places[++into->count] = into->length;
    into->missing++;
    return TEXT;
}

#endif
