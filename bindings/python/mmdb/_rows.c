/* Rows and their values, which are made of cells. */
#include "_mmdb.h"

static PyObject *value_of(const mmdb_rows *rows, const mmdb_cell *cell)
{
    if (cell->kind == MMDB_INTEGER)
        return PyLong_FromLongLong(cell->integer);
    if (cell->kind == MMDB_TEXT) {
        mmdb_bytes text = mmdb_text(rows, cell);
        return PyUnicode_DecodeUTF8((const char *)text.at, (Py_ssize_t)text.length, "strict");
    }
    return none();
}

/* How objects are made of a type that is made of list or tuple. */
typedef struct {
    PyTypeObject *type;
    newfunc make;
} Maker;

/* No arguments. */
static PyObject *nothing;

static Maker maker_of(PyObject *type)
{
    return (Maker){ (PyTypeObject *)type, (newfunc)PyType_GetSlot((PyTypeObject *)type, Py_tp_new) };
}

static PyObject *empty_list(Maker maker)
{
    return maker.make(maker.type, nothing, NULL);
}

/* Puts a value at the end of a list, and lets go of it. */
static int push(PyObject *list, PyObject *value)
{
    int status = value == NULL ? -1 : PyList_Append(list, value);
    Py_XDECREF(value);
    return status;
}

/* Puts the values of a row into a new tuple, which may be null, and gives it. Their bytes in the library are added to the
   size. */
static PyObject *filled(PyObject *tuple, const mmdb_rows *rows, size_t number, size_t *size)
{
    for (size_t column = 0; tuple != NULL && column < rows->columns; column++) {
        const mmdb_cell *cell = mmdb_cell_at(rows, number, column);
        PyObject *value = value_of(rows, cell);
        *size += sizeof *cell + (cell->kind == MMDB_TEXT ? cell->length : 0);
        if (value == NULL || PyTuple_SetItem(tuple, (Py_ssize_t)column, value) < 0)
            Py_CLEAR(tuple);
    }
    return tuple;
}

/* Whether a tuple has nothing but its items, so that it is whole once they are put into it. From Python 3.14 on it also
   has its hash, and is made by its type alone. */
static int is_items_alone;

/* A row. */
static PyObject *row_of(Maker maker, const mmdb_rows *rows, size_t number, size_t *size)
{
    Py_ssize_t columns = (Py_ssize_t)rows->columns;
    if (is_items_alone)
        return filled(PyType_GenericAlloc(maker.type, columns), rows, number, size);
    PyObject *values = filled(PyTuple_New(columns), rows, number, size), *row = NULL;
    PyObject *argument = values == NULL ? NULL : PyTuple_Pack(1, values);
    if (argument != NULL)
        row = maker.make(maker.type, argument, NULL);
    Py_XDECREF(argument);
    Py_XDECREF(values);
    return row;
}

/* The names under which rows have their columns' names and types. */
static PyObject *names_word, *types_word;

static PyObject *list_of_rows(PyObject *shape, const mmdb_rows *rows, size_t *size)
{
    Maker maker = maker_of(PyTuple_GetItem(shape, 3));
    PyObject *list = empty_list(maker_of(PyTuple_GetItem(shape, 0)));
    if (list != NULL && (PyObject_SetAttr(list, names_word, PyTuple_GetItem(shape, 1)) < 0 ||
                         PyObject_SetAttr(list, types_word, PyTuple_GetItem(shape, 2)) < 0))
        Py_CLEAR(list);
    for (size_t number = 0; list != NULL && number < rows->rows; number++) {
        int wants_end = number % ROWS_BETWEEN_SIGNALS == ROWS_BETWEEN_SIGNALS - 1 && PyErr_CheckSignals() < 0;
        if (wants_end || push(list, row_of(maker, rows, number, size)) < 0)
            Py_CLEAR(list);
    }
    return list;
}

/* (What the collector ends could make the cells bad, and waits.) */
PyObject *rows_of(PyObject *shape, const mmdb_rows *rows, size_t *size)
{
    int is_collecting = PyGC_Disable();
    PyObject *list = list_of_rows(shape, rows, size);
    if (is_collecting)
        PyGC_Enable();
    return list;
}

PyObject *column_of(const mmdb_rows *rows, size_t column)
{
    PyObject *tuple = PyTuple_New((Py_ssize_t)rows->rows);
    for (size_t number = 0; tuple != NULL && number < rows->rows; number++) {
        PyObject *value = value_of(rows, mmdb_cell_at(rows, number, column));
        if (value == NULL)
            Py_CLEAR(tuple);
        else
            PyTuple_SetItem(tuple, (Py_ssize_t)number, value);
    }
    return tuple;
}

int rows_begin(void)
{
    PyObject *version = PySys_GetObject("hexversion");
    is_items_alone = version != NULL && PyLong_AsLong(version) < 0x030E0000;
    names_word = PyUnicode_InternFromString("names");
    types_word = PyUnicode_InternFromString("types");
    nothing = PyTuple_New(0);
    return names_word == NULL || types_word == NULL || nothing == NULL ? -1 : 0;
}
