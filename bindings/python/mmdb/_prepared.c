/* Statements that are prepared by name. */
#include "_mmdb.h"

typedef struct {
    PyObject_HEAD
    Handle *handle; /* null where it is closed */
    Statement statement;
} Prepared;

static PyTypeObject *prepared_type;

static int prepared_init(PyObject *self, PyObject *given, PyObject *Py_UNUSED(named))
{
    Prepared *prepared = (Prepared *)self;
    PyObject *handle, *placed;
    if (!PyArg_ParseTuple(given, "O!O!", handle_type, &handle, &PyTuple_Type, &placed))
        return -1;
    if (prepared->handle != NULL) {
        PyErr_SetString(PyExc_TypeError, "mmdb: a statement is prepared once");
        return -1;
    }
    Statement *statement = &prepared->statement;
    if (statement_take(statement, placed) < 0)
        return -1;
    take(((Handle *)handle)->turn);
    int status = statement_prepare((Handle *)handle, statement);
    give(((Handle *)handle)->turn);
    if (status == 0)
        prepared->handle = (Handle *)Py_NewRef(handle);
    return status;
}

/* Lets the statement go at any time, where waiting for its turn could last for ever. */
static void let_go(Prepared *prepared)
{
    Handle *handle = prepared->handle;
    if (handle == NULL)
        return;
    prepared->handle = NULL;
    if (take_now(handle->turn)) {
        statement_finalize(handle, &prepared->statement);
        give(handle->turn);
    } else if (prepared->statement.is_prepared) {
        size_t count = handle->let_go_count;
        uint32_t *more = PyMem_Realloc(handle->let_go, (count + 1) * sizeof *more);
        /* (where there is no memory for that, it is let go with the database) */
        if (more != NULL) {
            more[count] = prepared->statement.given.number;
            handle->let_go = more;
            handle->let_go_count = count + 1;
        }
    }
    Py_DECREF(handle);
}

static int prepared_traverse(PyObject *self, visitproc visit, void *arg)
{
    Py_VISIT(Py_TYPE(self));
    Py_VISIT(((Prepared *)self)->handle);
    return 0;
}

static int prepared_clear(PyObject *self)
{
    let_go((Prepared *)self);
    return 0;
}

static void prepared_dealloc(PyObject *self)
{
    PyObject_GC_UnTrack(self);
    let_go((Prepared *)self);
    statement_clear(&((Prepared *)self)->statement);
    free_object(self);
}

static PyObject *prepared_closed(PyObject *self, void *Py_UNUSED(none))
{
    return PyBool_FromLong(((Prepared *)self)->handle == NULL);
}

/* Waits for the turn of its database, which is given; or gives null, and nothing is raised, where it is closed. */
static Handle *turn_of(Prepared *prepared)
{
    Handle *handle = prepared->handle;
    if (handle == NULL)
        return NULL;
    Py_INCREF(handle);
    take(handle->turn);
    if (prepared->handle != NULL)
        return handle;
    give(handle->turn);
    Py_DECREF(handle);
    return NULL;
}

static void end_turn(Handle *handle)
{
    give(handle->turn);
    Py_DECREF(handle);
}

static PyObject *is_closed(void)
{
    PyErr_SetString(PyExc_ValueError, "mmdb: the statement is closed");
    return NULL;
}

static PyObject *prepared_close(PyObject *self, PyObject *Py_UNUSED(none))
{
    Prepared *prepared = (Prepared *)self;
    Handle *handle = turn_of(prepared);
    if (handle != NULL) {
        statement_finalize(handle, &prepared->statement);
        Py_CLEAR(prepared->handle);
        end_turn(handle);
    }
    return none();
}

static PyObject *prepared_execute(PyObject *self, PyObject *const *given, Py_ssize_t count, PyObject *keywords)
{
    Prepared *prepared = (Prepared *)self;
    Handle *handle = turn_of(prepared);
    PyObject *found = NULL, *parameters, *named;
    if (handle != NULL) {
        found = ended(handle, statement_done_by(handle, &prepared->statement, given, count, keywords));
        Py_DECREF(handle);
    }
    if (found != NULL || PyErr_Occurred())
        return found;
    parameters = tuple_of(given, count);
    named = named_of(given + count, keywords);
    if (parameters != NULL && named != NULL)
        found = PyObject_CallMethod(self, "_perform", "OO", parameters, named);
    Py_XDECREF(parameters);
    Py_XDECREF(named);
    return found;
}

/* Does it with values or with rows of them. Those that aren't stored as they are, are put into that form by a method. */
static PyObject *prepared_done_anyhow(PyObject *self, PyObject *values, const char *how,
                                      PyObject *(*done)(Handle *, Statement *, PyObject *))
{
    Prepared *prepared = (Prepared *)self;
    PyObject *found = NULL, *stored = Py_NewRef(values);
    for (int tries = 0; tries < 2 && stored != NULL && found == NULL && !PyErr_Occurred(); tries++) {
        Handle *handle = turn_of(prepared);
        if (handle == NULL) {
            is_closed();
            break;
        }
        found = ended(handle, done(handle, &prepared->statement, stored));
        if (found == NULL && !PyErr_Occurred()) {
            Py_DECREF(stored);
            stored = PyObject_CallMethod((PyObject *)handle, how, "(O)", values);
        }
        Py_DECREF(handle);
    }
    Py_XDECREF(stored);
    return found != NULL || PyErr_Occurred() ? found : nothing_raised();
}

static PyObject *prepared_done(PyObject *self, PyObject *values)
{
    return prepared_done_anyhow(self, values, "_stored_values", statement_done);
}

static PyObject *prepared_done_many(PyObject *self, PyObject *rows)
{
    return prepared_done_anyhow(self, rows, "_stored_rows", statement_done_many);
}

static PyObject *prepared_count(PyObject *self, PyObject *values)
{
    return prepared_done_anyhow(self, values, "_stored_values", statement_count);
}

static PyObject *prepared_first(PyObject *self, PyObject *asked)
{
    return prepared_done_anyhow(self, asked, "_stored_values", statement_first);
}

static PyObject *prepared_names(PyObject *self, PyObject *Py_UNUSED(none))
{
    Prepared *prepared = (Prepared *)self;
    Handle *handle = turn_of(prepared);
    if (handle == NULL)
        return is_closed();
    PyObject *names = statement_names(handle, &prepared->statement);
    end_turn(handle);
    return names;
}

static PyMethodDef prepared_methods[] = {
    { "close", prepared_close, METH_NOARGS,
      "close($self, /)\n--\n\nLets the statement go. A second call does nothing." },
    { "execute", FAST(prepared_execute), METH_FASTCALL | METH_KEYWORDS,
      "execute($self, /, *parameters, **named)\n--\n\n"
      "Does it with these parameters, and gives its rows, or how many rows it was about." },
    { "_done", prepared_done, METH_O, "Does it with these values." },
    { "_done_many", prepared_done_many, METH_O, "Does it with each of these rows of values." },
    { "_count", prepared_count, METH_O, "How many rows it shows with these values." },
    { "_first", prepared_first, METH_O, "The first rows that it shows: how many at most comes before its values." },
    { "_names", prepared_names, METH_NOARGS, "The names of its columns, whatever its parameters are." },
    { NULL, NULL, 0, NULL },
};

static PyGetSetDef prepared_members[] = {
    { "closed", prepared_closed, NULL, "Whether it is closed.", NULL },
    { NULL, NULL, NULL, NULL, NULL },
};

static PyType_Slot prepared_slots[] = {
    { Py_tp_doc, (void *)"A statement that is prepared once, of which `mmdb.Statement` is made." },
    { Py_tp_init, prepared_init },
    { Py_tp_dealloc, prepared_dealloc },
    { Py_tp_traverse, prepared_traverse },
    { Py_tp_clear, prepared_clear },
    { Py_tp_methods, prepared_methods },
    { Py_tp_getset, prepared_members },
    { 0, NULL },
};

static PyType_Spec prepared_spec = {
    .name = "mmdb._mmdb.Prepared",
    .basicsize = sizeof(Prepared),
    .flags = Py_TPFLAGS_DEFAULT | Py_TPFLAGS_BASETYPE | Py_TPFLAGS_HAVE_GC,
    .slots = prepared_slots,
};

int prepared_begin(PyObject *module)
{
    prepared_type = (PyTypeObject *)PyType_FromSpec(&prepared_spec);
    return prepared_type == NULL ? -1 : PyModule_AddObjectRef(module, "Prepared", (PyObject *)prepared_type);
}
