/* Numbers of 64 bits in an array('q'). */
#ifndef NUMBERS_H
#define NUMBERS_H

#include "asking.h"

static PyObject *array_of_q; /* array('q') */
static PyObject *frombytes;  /* the name of its method */

/* A new array('q') without numbers. */
static PyObject *make_array(void)
{
    return PySequence_Repeat(array_of_q, 0);
}

/* Appends numbers to an array, whose memory is never filled or copied as a whole: that would delay signals. */
static int append(PyObject *array, const int64_t *start, size_t count)
{
    if (!count) return 1;
    PyObject *bytes = PyMemoryView_FromMemory((char *)(uintptr_t)start, (Py_ssize_t)(count * sizeof *start), PyBUF_READ);
    PyObject *done = bytes ? PyObject_CallMethodOneArg(array, frombytes, bytes) : NULL;
    Py_XDECREF(bytes);
    Py_XDECREF(done);
    return done != NULL;
}

#endif
