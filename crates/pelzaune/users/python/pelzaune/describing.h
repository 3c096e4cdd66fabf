/* The class Description: a description that is parsed once, for many texts. */
#ifndef DESCRIBING_H
#define DESCRIBING_H

#include "asking.h"

static PyObject *description_new(PyTypeObject *type, PyObject *given, PyObject *named)
{
    static char *names[] = { "text", NULL };
    PyObject *text;
    size_t length;
    pelzaune_description held;
    if (!PyArg_ParseTupleAndKeywords(given, named, "O:Description", names, &text)) return NULL;
    const uint8_t *bytes = bytes_of(text, "text", description_error, &length);
    if (!bytes || !describe(bytes, length, &held)) return NULL;
    description *made = (description *)type->tp_alloc(type, 0);
    if (made) {
        made->held = held;
        made->text = Py_NewRef(text);
    }
    return (PyObject *)made;
}

/* The text may be of a subclass of str, and have attributes that refer to the object. As a tuple it needs no tp_clear: the
 * attributes are cleared, so that no call ever finds an object without its text. */
static int description_traverse(PyObject *self, visitproc visit, void *arg)
{
    Py_VISIT(Py_TYPE(self));
    Py_VISIT(((description *)self)->text);
    return 0;
}

static void description_free(PyObject *self)
{
    PyTypeObject *type = Py_TYPE(self);
    PyObject_GC_UnTrack(self);
    Py_XDECREF(((description *)self)->text);
    type->tp_free(self);
    Py_DECREF(type);
}

static PyObject *description_repr(PyObject *self)
{
    return PyUnicode_FromFormat("pelzaune.Description(%R)", ((description *)self)->text);
}

/* Two are equal if they were parsed from equal texts. */
static PyObject *description_compare(PyObject *self, PyObject *other, int which)
{
    if ((which != Py_EQ && which != Py_NE) || !Py_IS_TYPE(other, description_type)) Py_RETURN_NOTIMPLEMENTED;
    return PyObject_RichCompare(((description *)self)->text, ((description *)other)->text, which);
}

static Py_hash_t description_hash(PyObject *self)
{
    return PyObject_Hash(((description *)self)->text);
}

static PyObject *description_reduce(PyObject *self, PyObject *none)
{
    (void)none;
    return Py_BuildValue("O(O)", Py_TYPE(self), ((description *)self)->text);
}

static PyObject *description_text(PyObject *self, void *none)
{
    (void)none;
    return Py_NewRef(((description *)self)->text);
}

static PyMethodDef description_methods[] = {
    { "__reduce__", description_reduce, METH_NOARGS, "The call that makes it again, in another process." },
    { NULL, NULL, 0, NULL },
};

static PyGetSetDef description_parts[] = {
    { "text", description_text, NULL, "The text that it was parsed from.", NULL },
    { NULL, NULL, NULL, NULL, NULL },
};

static PyType_Slot description_slots[] = {
    { Py_tp_new, description_new },
    { Py_tp_dealloc, description_free },
    { Py_tp_traverse, description_traverse },
    { Py_tp_repr, description_repr },
    { Py_tp_richcompare, description_compare },
    { Py_tp_hash, description_hash },
    { Py_tp_methods, description_methods },
    { Py_tp_getset, description_parts },
    { Py_tp_doc, "Description(text)\n--\n\nA format of your own, which is parsed once, for many texts.\n\n"
        "It is one of strftime if it contains a %, such as %Y-%m-%d, and otherwise in brackets, such as\n"
        "[year]-[month]-[day]. Raises DescriptionError." },
    { 0, NULL },
};

static PyType_Spec description_spec = { "pelzaune.Description", sizeof(description), 0,
    Py_TPFLAGS_DEFAULT | Py_TPFLAGS_HAVE_GC | Py_TPFLAGS_IMMUTABLETYPE, description_slots };

static int add_description(PyObject *made)
{
    description_type = (PyTypeObject *)PyType_FromSpec(&description_spec);
    return !description_type || PyModule_AddObjectRef(made, "Description", (PyObject *)description_type);
}

#endif
