/* Tuples with names for their values, of which rows are made. rows.py has the same class. */
#include "_mmdb.h"

/* What tuples do. */
static binaryfunc tuple_subscript;
static richcmpfunc tuple_compare;

/* The name under which the type of a row has the places of its columns, by their names. */
static PyObject *places_word;

static PyObject *missing(PyObject *row, PyObject *name)
{
    return PyErr_Occurred() ? NULL : PyObject_CallMethod(row, "_missing", "O", name);
}

static PyObject *named_subscript(PyObject *row, PyObject *key)
{
    if (!PyUnicode_Check(key))
        return tuple_subscript(row, key);
    PyObject *places = PyObject_GetAttr((PyObject *)Py_TYPE(row), places_word), *value = NULL;
    if (places == NULL)
        return NULL;
    PyObject *place = PyDict_GetItemWithError(places, key);
    value = place == NULL ? missing(row, key) : tuple_subscript(row, place);
    Py_DECREF(places);
    return value;
}

/* A list is compared as the tuple of its values. */
static PyObject *named_compare(PyObject *row, PyObject *other, int how)
{
    if (!PyList_Check(other) || (how != Py_EQ && how != Py_NE))
        return tuple_compare(row, other, how);
    PyObject *values = PyList_AsTuple(other), *found = NULL;
    if (values != NULL)
        found = tuple_compare(row, values, how);
    Py_XDECREF(values);
    return found;
}

int named_begin(PyObject *module)
{
    PyTypeObject *tuple = &PyTuple_Type;
    PyType_Slot slots[] = {
        { Py_tp_doc, (void *)"A tuple with names for its values, of which `mmdb.Row` is made." },
        { Py_mp_subscript, named_subscript },
        { Py_tp_richcompare, named_compare },
        { Py_tp_hash, PyType_GetSlot(tuple, Py_tp_hash) },
        { 0, NULL },
    };
    PyType_Spec spec = {
        .name = "mmdb._mmdb.Named",
        .flags = Py_TPFLAGS_DEFAULT | Py_TPFLAGS_BASETYPE,
        .slots = slots,
    };
    tuple_subscript = (binaryfunc)PyType_GetSlot(tuple, Py_mp_subscript);
    tuple_compare = (richcmpfunc)PyType_GetSlot(tuple, Py_tp_richcompare);
    places_word = PyUnicode_InternFromString("_places");
    PyObject *bases = PyTuple_Pack(1, (PyObject *)tuple), *type = NULL;
    if (places_word != NULL && bases != NULL)
        type = PyType_FromSpecWithBases(&spec, bases);
    int status = type == NULL ? -1 : PyModule_AddObjectRef(module, "Named", type);
    Py_XDECREF(bases);
    Py_XDECREF(type);
    return status;
}
