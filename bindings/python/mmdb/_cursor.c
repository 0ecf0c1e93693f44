/* Cursors: the rows of a select, which are read page by page. Until one is closed, nobody changes the tables.

   A generator of pages.py has each. It may be closed at any time, also where waiting for a turn could last for ever, and the library
   wants none for that: a cursor is a handle of its own. */
#include "_mmdb.h"

typedef struct {
    PyObject_HEAD
    Handle *handle; /* in whose turn it is read; or null once nothing is read any more */
    mmdb_cursor cursor;
    PyObject *shape;           /* of its rows, or None in a transaction, where it isn't open */
    PyObject *placed, *values; /* of its select, for the words of a refusal */
} Cursor;

static PyTypeObject *cursor_type;

static int cursor_traverse(PyObject *self, visitproc visit, void *arg)
{
    Py_VISIT(Py_TYPE(self));
    Py_VISIT(((Cursor *)self)->handle);
    return 0;
}

static int cursor_clear(PyObject *self)
{
    mmdb_cursor_close(&((Cursor *)self)->cursor);
    Py_CLEAR(((Cursor *)self)->handle);
    return 0;
}

static void cursor_dealloc(PyObject *self)
{
    Cursor *cursor = (Cursor *)self;
    PyObject_GC_UnTrack(self);
    cursor_clear(self);
    Py_CLEAR(cursor->shape);
    Py_CLEAR(cursor->placed);
    Py_CLEAR(cursor->values);
    free_object(self);
}

PyObject *cursor_of(Handle *handle, Statement *statement, PyObject *values)
{
    Cursor *cursor = (Cursor *)PyType_GenericAlloc(cursor_type, 0);
    if (cursor == NULL)
        return NULL;
    cursor->handle = (Handle *)Py_NewRef((PyObject *)handle);
    cursor->placed = Py_NewRef(statement->placed);
    cursor->values = Py_NewRef(values);
    cursor->shape = statement_open_cursor(handle, statement, values, &cursor->cursor);
    if (cursor->shape != NULL && cursor->shape != Py_None)
        return (PyObject *)cursor;
    PyObject *given = cursor->shape == NULL ? NULL : none();
    Py_DECREF(cursor);
    return given;
}

static PyObject *cursor_closed(PyObject *self, void *Py_UNUSED(none))
{
    return PyBool_FromLong(((Cursor *)self)->cursor.inside == NULL);
}

static PyObject *cursor_close(PyObject *self, PyObject *Py_UNUSED(none))
{
    Cursor *cursor = (Cursor *)self;
    /* (it is moved, so that it is freed by nothing else) */
    mmdb_cursor closing = cursor->cursor;
    cursor->cursor.inside = NULL;
    Py_BEGIN_ALLOW_THREADS
    mmdb_cursor_close(&closing);
    Py_END_ALLOW_THREADS
    return none();
}

/* Raises what a status says of a read. Gives null. */
static PyObject *failed(const Cursor *cursor, uint32_t status)
{
    PyObject *handle = (PyObject *)cursor->handle;
    if (status != MMDB_NO_MEMORY) {
        handle_failed(cursor->handle, status);
        return NULL;
    }
    PyObject *given =
        PyObject_CallMethod(handle, "_refuse", "OOyO", cursor->placed, cursor->values, "error 90 no memory\n", Py_None);
    if (given == NULL)
        return NULL;
    Py_DECREF(given);
    return nothing_raised();
}

static PyObject *cursor_fetch(PyObject *self, PyObject *wanted)
{
    Cursor *cursor = (Cursor *)self;
    Handle *handle = cursor->handle;
    mmdb_rows rows;
    uint32_t status;
    size_t size = 0, most = PyLong_AsSize_t(wanted);
    if (PyErr_Occurred())
        return NULL;
    if (handle == NULL) {
        PyErr_SetString(PyExc_ValueError, "mmdb: the rows are closed");
        return NULL;
    }
    take(handle->turn);
    /* (it is moved, so that nothing closes it meanwhile) */
    mmdb_cursor reading = cursor->cursor;
    cursor->cursor.inside = NULL;
    Py_BEGIN_ALLOW_THREADS
    status = mmdb_cursor_fetch(&reading, most, &rows);
    Py_END_ALLOW_THREADS
    PyObject *found = status == MMDB_DONE ? rows_of(cursor->shape, &rows, &size) : failed(cursor, status);
    cursor->cursor = reading;
    give(handle->turn);
    return found;
}

static PyMethodDef cursor_methods[] = {
    { "fetch", cursor_fetch, METH_O, "The next rows, so many at most, with their values as they are stored." },
    { "close", cursor_close, METH_NOARGS, "Lets the tables go. A second call does nothing. It wants no turn." },
    { NULL, NULL, 0, NULL },
};

static PyGetSetDef cursor_members[] = {
    { "closed", cursor_closed, NULL, "Whether it is closed.", NULL },
    { NULL, NULL, NULL, NULL, NULL },
};

static PyType_Slot cursor_slots[] = {
    { Py_tp_doc, (void *)"The rows of a select, which are read page by page. Until it is closed, nobody changes the tables." },
    { Py_tp_dealloc, cursor_dealloc },
    { Py_tp_traverse, cursor_traverse },
    { Py_tp_clear, cursor_clear },
    { Py_tp_methods, cursor_methods },
    { Py_tp_getset, cursor_members },
    { 0, NULL },
};

static PyType_Spec cursor_spec = {
    .name = "mmdb._mmdb.Cursor",
    .basicsize = sizeof(Cursor),
    .flags = Py_TPFLAGS_DEFAULT | Py_TPFLAGS_DISALLOW_INSTANTIATION | Py_TPFLAGS_HAVE_GC,
    .slots = cursor_slots,
};

int cursor_begin(PyObject *module)
{
    cursor_type = (PyTypeObject *)PyType_FromSpec(&cursor_spec);
    return cursor_type == NULL ? -1 : PyModule_AddObjectRef(module, "Cursor", (PyObject *)cursor_type);
}
