/* The lines of a text in blocks, so that a call can be interrupted, and memory that others write is copied. */
#ifndef BLOCKS_H
#define BLOCKS_H

#include "zones.h"
#include <time.h>

/* A block has this many bytes, unless a line has more: few enough for the caches and for a timely interrupt. */
enum { BLOCK_BYTES = 1 << 18 };

/* After this many nanoseconds the interpreter's lock is reacquired for signals. It may have to be waited for. */
enum { MOST_NANOSECONDS = 20000000 };

/* The lines of a column that are still to be parsed: a str or bytes, or a buffer that is exported to us. */
typedef struct {
    Py_buffer held;
    int is_held;         /* whether the text is such a buffer, whose bytes others may change meanwhile */
    uint8_t *copy;       /* of a block of such a buffer */
    size_t room;         /* of the copy */
    const uint8_t *next; /* the start of the next block */
    size_t left;         /* the number of bytes after it */
    question asked;      /* the block, and the format */
} lines;

/* Releases the lines. */
static void release(lines *these)
{
    if (these->is_held) PyBuffer_Release(&these->held);
    Py_CLEAR(these->asked.offset.zone);
    PyMem_RawFree(these->copy);
}

/* Gets the lines of a `str` or of a contiguous buffer, the format, and the offset of lines without one. On an error
 * nothing is held. */
static int take_lines(PyObject *text, PyObject *format, PyObject *offset, lines *these)
{
    these->is_held = 0;
    these->copy = NULL;
    these->room = 0;
    these->asked.bytes = NULL;
    these->asked.length = 0;
    if (!format_of(format, &these->asked) || !fallback_of(offset, &these->asked.offset)) return 0;
    if (PyUnicode_Check(text) || PyBytes_Check(text)) {
        these->next = bytes_of(text, "text", parse_error, &these->left);
    } else if (PyObject_GetBuffer(text, &these->held, PyBUF_SIMPLE) == 0) {
        these->is_held = 1;
        these->next = these->held.buf ? these->held.buf : (const uint8_t *)"";
        these->left = (size_t)these->held.len;
    } else these->next = NULL;
    if (!these->next) release(these);
    return these->next != NULL;
}

/* Makes room for a copy of this many bytes. Needs no lock. */
static int make_copy_room(lines *these, size_t size)
{
    if (size <= these->room) return 1;
    PyMem_RawFree(these->copy);
    these->copy = PyMem_RawMalloc(size);
    these->room = these->copy ? size : 0;
    return these->copy != NULL;
}

/* The length of the whole lines in a block: up to its last LF. */
static size_t whole_lines(const uint8_t *block, size_t size)
{
    while (size && block[size - 1] != '\n') size--;
    return size;
}

/* Gets the next block: whole lines. Needs no lock, and returns 0 if there is no memory. */
static int next_block(lines *these)
{
    size_t size = 0, end = 0;
    for (size_t most = BLOCK_BYTES; !end && these->left; most *= 2) {
        size = these->left < most ? these->left : most;
        these->asked.bytes = these->next;
        if (these->is_held) {
            if (!make_copy_room(these, size)) return 0;
            memcpy(these->copy, these->next, size);
            these->asked.bytes = these->copy;
        }
        end = size == these->left ? size : whole_lines(these->asked.bytes, size);
    }
    these->asked.length = end;
    these->next += end;
    these->left -= end;
    return 1;
}

/* Parses each line of the block by itself, with the offset of the arguments if it has none, as pelzaune_column does. */
static size_t parse_lines(const question *block, int64_t *entries, size_t capacity, size_t *refused)
{
    question line = *block;
    size_t count = 0;
    *refused = 0;
    if (block->held == &block->read) line.held = &line.read;
    for (size_t at = 0, size; at < block->length && !has_raised(block); at += size + 1, count++) {
        line.bytes = block->bytes + at;
        const uint8_t *end = memchr(line.bytes, '\n', block->length - at);
        size = end ? (size_t)(end - line.bytes) : block->length - at;
        line.length = size && line.bytes[size - 1] == '\r' ? size - 1 : size;
        if (count >= capacity || !nanoseconds_of(&line, &entries[count])) continue;
        entries[count] = PELZAUNE_NO_COUNT;
        ++*refused;
    }
    return count;
}

/* Parses as many lines of the block as there are entries, and returns how many lines it has. */
static size_t parse_block(const question *block, int64_t *entries, size_t capacity, size_t *refused)
{
    if (block->offset.is_given) return parse_lines(block, entries, capacity, refused);
    if (block->held) return pelzaune_described_column(block->held, block->bytes, block->length, entries, capacity, refused);
    return pelzaune_column(block->number, block->bytes, block->length, entries, capacity, refused);
}

static int64_t nanoseconds_now(void)
{
    struct timespec now;
    clock_gettime(CLOCK_MONOTONIC, &now);
    return (int64_t)now.tv_sec * 1000000000 + now.tv_nsec;
}

#endif
