/* The extension: an open database, and the module. */
#include "_mmdb.h"

#include <string.h>

void free_object(PyObject *self)
{
    PyTypeObject *type = Py_TYPE(self);
    freefunc release = (freefunc)PyType_GetSlot(type, Py_tp_free);
    release(self);
    Py_DECREF(type);
}

/* ---- a database */

PyTypeObject *handle_type;

static PyObject *handle_new(PyTypeObject *type, PyObject *Py_UNUSED(given), PyObject *Py_UNUSED(named))
{
    Handle *handle = (Handle *)PyType_GenericAlloc(type, 0);
    if (handle == NULL)
        return NULL;
    handle->turn = (Turn *)new_turn();
    handle->kept = PyDict_New();
    if (handle->turn == NULL || handle->kept == NULL)
        Py_CLEAR(handle);
    return (PyObject *)handle;
}

static int handle_init(PyObject *self, PyObject *given, PyObject *Py_UNUSED(named))
{
    Handle *handle = (Handle *)self;
    unsigned int policy, rows, block;
    if (!PyArg_ParseTuple(given, "III", &policy, &rows, &block))
        return -1;
    uint32_t status = mmdb_open(&handle->db, policy, rows, block);
    if (status == MMDB_DONE)
        status = interrupts_open(handle);
    return status == MMDB_DONE ? 0 : handle_failed(handle, status);
}

static void handle_dealloc(PyObject *self)
{
    Handle *handle = (Handle *)self;
    interrupts_close(handle);
    mmdb_close(&handle->db);
    PyMem_Free(handle->let_go);
    Py_CLEAR(handle->kept);
    Py_CLEAR(handle->turn);
    free_object(self);
}

static PyObject *handle_turn(PyObject *self, void *Py_UNUSED(none))
{
    return Py_NewRef((PyObject *)((Handle *)self)->turn);
}

static PyObject *handle_closed(PyObject *self, void *Py_UNUSED(none))
{
    return PyBool_FromLong(((Handle *)self)->db.inside == NULL);
}

static PyObject *handle_close(PyObject *self, PyObject *Py_UNUSED(none))
{
    Handle *handle = (Handle *)self;
    take(handle->turn);
    kept_forget_all(handle);
    handle->let_go_count = 0;
    /* (it is moved, so that the handle is closed from now on, and freed by nothing else) */
    mmdb closing = handle->db;
    handle->db.inside = NULL;
    interrupts_close(handle);
    Py_BEGIN_ALLOW_THREADS
    mmdb_close(&closing);
    Py_END_ALLOW_THREADS
    give(handle->turn);
    return none();
}

/* Puts an exception behind the one that was raised later, and those behind that, as Python does. It is let go. */
static void put_behind(PyObject *type, PyObject *why, PyObject *trace)
{
    PyObject *later_type, *later, *later_trace, *behind;
    PyErr_Fetch(&later_type, &later, &later_trace);
    PyErr_NormalizeException(&later_type, &later, &later_trace);
    PyErr_NormalizeException(&type, &why, &trace);
    if (trace != NULL)
        PyException_SetTraceback(why, trace);
    PyObject *last = later;
    while ((behind = PyException_GetContext(last)) != NULL) {
        Py_DECREF(behind);
        last = behind;
    }
    PyException_SetContext(last, why);
    PyErr_Restore(later_type, later, later_trace);
    Py_DECREF(type);
    Py_XDECREF(trace);
}

/* Calls a method for those who watch, and gives what the call found. What the call raised stays, unless the method raises too. */
static PyObject *watched(Handle *handle, const char *method, PyObject *found)
{
    PyObject *type, *why, *trace;
    PyErr_Fetch(&type, &why, &trace);
    PyObject *done = PyObject_CallMethod((PyObject *)handle, method, NULL);
    if (done != NULL) {
        Py_DECREF(done);
        PyErr_Restore(type, why, trace);
        return found;
    }
    Py_XDECREF(found);
    if (type != NULL)
        put_behind(type, why, trace);
    return NULL;
}

/* Ends the turn of a call that may have changed rows, of which those who watch are told. */
static PyObject *ended_and_told(Handle *handle, PyObject *found)
{
    handle->has_changed = 0;
    found = watched(handle, "_note", found);
    give(handle->turn);
    return watched(handle, "_tell", found);
}

PyObject *ended(Handle *handle, PyObject *found)
{
    if (handle->has_changed && handle->is_watched)
        return ended_and_told(handle, found);
    PyObject *shape = handle->converting, *read = found;
    handle->converting = NULL;
    give(handle->turn);
    if (shape == NULL)
        return found;
    if (found != NULL) {
        read = PyObject_CallMethod(shape, "converted", "(O)", found);
        Py_DECREF(found);
    }
    Py_DECREF(shape);
    return read;
}

PyObject *nothing_raised(void)
{
    PyErr_SetString(PyExc_SystemError, "mmdb: nothing was raised");
    return NULL;
}

/* Does what a line says that came to one of the calls, and is no statement that is kept, or doesn't fit it. */
static PyObject *perform(Handle *handle, const char *call, PyObject *const *given, Py_ssize_t count, PyObject *keywords)
{
    PyObject *told = NULL, *parameters = tuple_of(given + 1, count - 1), *named = named_of(given + count, keywords);
    if (parameters != NULL && named != NULL)
        told = PyObject_CallMethod((PyObject *)handle, "_perform", "sOOO", call, given[0], parameters, named);
    Py_XDECREF(parameters);
    Py_XDECREF(named);
    return told;
}

/* Does what a line says that came to one of the calls. `is_select` is 1 or 0 where it takes these alone, else -1. */
static PyObject *do_line(PyObject *self, const char *call, int is_select, PyObject *const *given, Py_ssize_t count,
                         PyObject *keywords)
{
    Handle *handle = (Handle *)self;
    if (count < 1)
        return PyErr_Format(PyExc_TypeError, "%s() wants a line", call);
    if (PyUnicode_CheckExact(given[0])) {
        PyObject *told = NULL;
        take(handle->turn);
        Statement *statement = kept_by(handle, given[0]);
        if (statement == NULL && !PyErr_Occurred() && count == 1 && keywords == NULL)
            statement = kept_plain(handle, given[0]);
        if (statement != NULL && (is_select < 0 || is_select == statement->is_select))
            told = statement_done_by(handle, statement, given + 1, count - 1, keywords);
        told = ended(handle, told);
        if (told != NULL || PyErr_Occurred())
            return told;
    }
    return perform(handle, call, given, count, keywords);
}

static PyObject *handle_execute(PyObject *self, PyObject *const *given, Py_ssize_t count, PyObject *keywords)
{
    return do_line(self, "execute", -1, given, count, keywords);
}

static PyObject *handle_select(PyObject *self, PyObject *const *given, Py_ssize_t count, PyObject *keywords)
{
    return do_line(self, "select", 1, given, count, keywords);
}

static PyObject *handle_change(PyObject *self, PyObject *const *given, Py_ssize_t count, PyObject *keywords)
{
    return do_line(self, "change", 0, given, count, keywords);
}

/* A line, where its parameters stand, and their values, or several rows of these. */
typedef struct {
    PyObject *line, *placed, *values;
} Given;

static PyObject *done_with(PyObject *self, const Given *given, PyObject *values,
                           PyObject *(*done)(Handle *, Statement *, PyObject *))
{
    Handle *handle = (Handle *)self;
    PyObject *found = NULL;
    take(handle->turn);
    Statement *statement = kept_anyway(handle, given->line, given->placed);
    if (statement != NULL)
        found = done(handle, statement, values);
    return ended(handle, found);
}

/* The same, where values that aren't stored as they are, are put into that form by a method. */
static PyObject *done_anyhow(PyObject *self, const Given *given, const char *how,
                             PyObject *(*done)(Handle *, Statement *, PyObject *))
{
    PyObject *found = done_with(self, given, given->values, done);
    if (found != NULL || PyErr_Occurred())
        return found;
    PyObject *stored = PyObject_CallMethod(self, how, "(O)", given->values);
    if (stored == NULL)
        return NULL;
    found = done_with(self, given, stored, done);
    Py_DECREF(stored);
    return found != NULL || PyErr_Occurred() ? found : nothing_raised();
}

static PyObject *handle_done(PyObject *self, PyObject *words)
{
    Given given;
    if (!PyArg_ParseTuple(words, "OO!O!", &given.line, &PyTuple_Type, &given.placed, &PyTuple_Type, &given.values))
        return NULL;
    return done_anyhow(self, &given, "_stored_values", statement_done);
}

static PyObject *handle_done_many(PyObject *self, PyObject *words)
{
    Given given;
    if (!PyArg_ParseTuple(words, "OO!O!", &given.line, &PyTuple_Type, &given.placed, &PyList_Type, &given.values))
        return NULL;
    return done_anyhow(self, &given, "_stored_rows", statement_done_many);
}

static PyObject *handle_count(PyObject *self, PyObject *words)
{
    Given given;
    if (!PyArg_ParseTuple(words, "OO!O!", &given.line, &PyTuple_Type, &given.placed, &PyTuple_Type, &given.values))
        return NULL;
    return done_anyhow(self, &given, "_stored_values", statement_count);
}

static PyObject *handle_first(PyObject *self, PyObject *words)
{
    Given given;
    if (!PyArg_ParseTuple(words, "OO!O!", &given.line, &PyTuple_Type, &given.placed, &PyTuple_Type, &given.values))
        return NULL;
    return done_anyhow(self, &given, "_stored_values", statement_first);
}

/* The first rows of a select with their values as they are stored, whatever columns are read as. */
static PyObject *page_of(Handle *handle, Statement *statement, PyObject *asked)
{
    PyObject *found = statement_first(handle, statement, asked);
    Py_CLEAR(handle->converting);
    return found;
}

/* Does a select with stored values. */
static PyObject *done_with_stored(PyObject *self, PyObject *words, PyObject *(*done)(Handle *, Statement *, PyObject *))
{
    Given given;
    if (!PyArg_ParseTuple(words, "OO!O!", &given.line, &PyTuple_Type, &given.placed, &PyTuple_Type, &given.values))
        return NULL;
    PyObject *found = done_with(self, &given, given.values, done);
    return found != NULL || PyErr_Occurred() ? found : nothing_raised();
}

static PyObject *handle_page(PyObject *self, PyObject *words)
{
    return done_with_stored(self, words, page_of);
}

static PyObject *handle_cursor(PyObject *self, PyObject *words)
{
    return done_with_stored(self, words, cursor_of);
}

/* The bytes of an answer, or none of an empty line; or null, and what a status says is raised. */
static PyObject *told(Handle *handle, uint32_t status, mmdb_bytes answer)
{
    if (status != MMDB_DONE && (status != MMDB_NO_LINE || handle->db.inside == NULL)) {
        handle_failed(handle, status);
        return NULL;
    }
    return PyBytes_FromStringAndSize((const char *)answer.at, (Py_ssize_t)answer.length);
}

/* The bytes of an object, whose type was looked at. */
static mmdb_bytes content_of(PyObject *bytes)
{
    char *at = NULL;
    Py_ssize_t length = 0;
    PyBytes_AsStringAndSize(bytes, &at, &length);
    return (mmdb_bytes){ (const unsigned char *)at, (size_t)length };
}

/* Gives an answer, once its changes are noted for those who watch. What is refused has changed nothing, and its reason may be asked for
   next. */
static PyObject *noted(Handle *handle, PyObject *answer)
{
    static const char refusal[] = "error ";
    if (answer == NULL || !handle->is_watched)
        return answer;
    mmdb_bytes content = content_of(answer);
    if (content.length >= sizeof refusal - 1 && memcmp(content.at, refusal, sizeof refusal - 1) == 0)
        return answer;
    return watched(handle, "_note", answer);
}

static PyObject *handle_command(PyObject *self, PyObject *given)
{
    Handle *handle = (Handle *)self;
    PyObject *line;
    mmdb_bytes answer;
    uint32_t status;
    /* (of the formats none with # would do in each version of Python) */
    if (!PyArg_ParseTuple(given, "S", &line))
        return NULL;
    mmdb_bytes request = content_of(line);
    handle->commands++;
    Py_BEGIN_ALLOW_THREADS
    status = mmdb_command(&handle->db, request.at, request.length, &answer);
    Py_END_ALLOW_THREADS
    return noted(handle, told(handle, status, answer));
}

static PyObject *handle_load(PyObject *self, PyObject *given)
{
    Handle *handle = (Handle *)self;
    PyObject *line, *block;
    mmdb_bytes answer;
    uint32_t status;
    if (!PyArg_ParseTuple(given, "SS", &line, &block))
        return NULL;
    mmdb_bytes request = content_of(line), rows = content_of(block);
    handle->commands++;
    Py_BEGIN_ALLOW_THREADS
    status = mmdb_load(&handle->db, request.at, request.length, rows.at, rows.length, &answer);
    Py_END_ALLOW_THREADS
    return noted(handle, told(handle, status, answer));
}

static PyObject *handle_indexes(PyObject *self, PyObject *given)
{
    Handle *handle = (Handle *)self;
    PyObject *table;
    mmdb_bytes answer;
    if (!PyArg_ParseTuple(given, "S", &table))
        return NULL;
    mmdb_bytes name = content_of(table);
    uint32_t status;
    Py_BEGIN_ALLOW_THREADS
    status = mmdb_indexes(&handle->db, name.at, name.length, &answer);
    Py_END_ALLOW_THREADS
    return told(handle, status, answer);
}

static PyObject *handle_version(PyObject *self, PyObject *given)
{
    Handle *handle = (Handle *)self;
    PyObject *table;
    uint64_t version;
    if (!PyArg_ParseTuple(given, "S", &table))
        return NULL;
    mmdb_bytes name = content_of(table);
    uint32_t status = mmdb_version(&handle->db, name.at, name.length, &version);
    if (status == MMDB_DONE)
        return PyLong_FromUnsignedLongLong(version);
    mmdb_bytes answer = { NULL, 0 };
    return told(handle, status == MMDB_REFUSED ? mmdb_answer(&handle->db, &answer) : status, answer);
}

static PyObject *handle_plan(PyObject *self, PyObject *given)
{
    Handle *handle = (Handle *)self;
    PyObject *line;
    mmdb_bytes answer;
    if (!PyArg_ParseTuple(given, "S", &line))
        return NULL;
    mmdb_bytes asked = content_of(line);
    uint32_t status;
    Py_BEGIN_ALLOW_THREADS
    status = mmdb_plan(&handle->db, asked.at, asked.length, &answer);
    Py_END_ALLOW_THREADS
    return told(handle, status == MMDB_REFUSED ? MMDB_DONE : status, answer);
}

static PyObject *handle_reason(PyObject *self, PyObject *given)
{
    Handle *handle = (Handle *)self;
    PyObject *line, *block;
    mmdb_bytes words;
    if (!PyArg_ParseTuple(given, "SS", &line, &block))
        return NULL;
    mmdb_bytes request = content_of(line), rows = content_of(block);
    uint32_t status;
    Py_BEGIN_ALLOW_THREADS
    status = mmdb_reason(&handle->db, request.at, request.length, rows.at, rows.length, &words);
    Py_END_ALLOW_THREADS
    PyObject *bytes = status == MMDB_NO_MEMORY ? Py_NewRef(Py_None) : told(handle, status, words);
    if (bytes == NULL || bytes == Py_None)
        return bytes;
    Py_DECREF(bytes);
    if (words.length == 0)
        return none();
    return PyUnicode_DecodeUTF8((const char *)words.at, (Py_ssize_t)words.length, "strict");
}

static PyObject *handle_clone(PyObject *self, PyObject *given)
{
    Handle *handle = (Handle *)self;
    PyObject *copy;
    uint32_t status;
    if (!PyArg_ParseTuple(given, "O!", handle_type, &copy))
        return NULL;
    mmdb *into = &((Handle *)copy)->db;
    interrupts_close((Handle *)copy);
    Py_BEGIN_ALLOW_THREADS
    mmdb_close(into);
    status = mmdb_clone(&handle->db, into);
    Py_END_ALLOW_THREADS
    if (status == MMDB_DONE)
        status = interrupts_open((Handle *)copy);
    if (status == MMDB_DONE)
        return none();
    handle_failed(handle, status);
    return NULL;
}

/* Takes a step with a handle, by one of the calls of the library. */
static PyObject *stepped(PyObject *self, mmdb_status (*step)(mmdb *))
{
    Handle *handle = (Handle *)self;
    uint32_t status;
    Py_BEGIN_ALLOW_THREADS
    status = step(&handle->db);
    Py_END_ALLOW_THREADS
    if (status == MMDB_DONE)
        return none();
    handle_failed(handle, status);
    return NULL;
}

static PyObject *handle_begin(PyObject *self, PyObject *Py_UNUSED(none))
{
    return stepped(self, mmdb_begin);
}

static PyObject *handle_commit(PyObject *self, PyObject *Py_UNUSED(none))
{
    return stepped(self, mmdb_commit);
}

static PyObject *handle_rollback(PyObject *self, PyObject *Py_UNUSED(none))
{
    Handle *handle = (Handle *)self;
    /* (rows that come back may make a statement last that was quick) */
    handle->commands++;
    PyObject *done = stepped(self, mmdb_rollback);
    if (done != NULL && handle->is_watched)
        done = watched(handle, "_note", done);
    if (done == NULL)
        return NULL;
    Py_DECREF(done);
    return PyBool_FromLong(handle->is_watched);
}

static PyObject *handle_leave(PyObject *self, PyObject *Py_UNUSED(none))
{
    return stepped(self, mmdb_leave);
}

static PyObject *handle_renew_turn(PyObject *self, PyObject *Py_UNUSED(none))
{
    return renew_turn(((Handle *)self)->turn) < 0 ? NULL : none();
}

static PyObject *handle_share(PyObject *self, PyObject *given)
{
    Handle *handle = (Handle *)self;
    PyObject *reader;
    uint32_t status;
    if (!PyArg_ParseTuple(given, "O!", handle_type, &reader))
        return NULL;
    Py_BEGIN_ALLOW_THREADS
    status = mmdb_share(&handle->db, &((Handle *)reader)->db);
    Py_END_ALLOW_THREADS
    if (status == MMDB_DONE)
        return none();
    handle_failed(handle, status);
    return NULL;
}

static PyObject *handle_transactions(PyObject *self, PyObject *Py_UNUSED(none))
{
    return PyLong_FromSize_t(mmdb_transactions(&((Handle *)self)->db));
}

static PyObject *handle_keep(PyObject *self, PyObject *Py_UNUSED(none))
{
    Turn *turn = ((Handle *)self)->turn;
    unsigned long thread = PyThread_get_thread_ident();
    if (turn->keeper != thread) {
        take(turn);
        turn->keeper = thread;
    }
    turn->depth++;
    return none();
}

static PyObject *handle_end_keeping(PyObject *self, PyObject *Py_UNUSED(none))
{
    Turn *turn = ((Handle *)self)->turn;
    if (--turn->depth == 0) {
        turn->keeper = 0;
        give(turn);
    }
    return none();
}

static PyObject *handle_be_watched(PyObject *self, PyObject *is_watched)
{
    int is_true = PyObject_IsTrue(is_watched);
    if (is_true < 0)
        return NULL;
    ((Handle *)self)->is_watched = is_true;
    ((Handle *)self)->has_changed = 0;
    return none();
}

static PyObject *handle_is_kept(PyObject *self, void *Py_UNUSED(none))
{
    return PyBool_FromLong(((Handle *)self)->turn->keeper == PyThread_get_thread_ident());
}

static PyObject *handle_interrupt(PyObject *self, PyObject *Py_UNUSED(none))
{
    interrupts_ask((Handle *)self);
    return none();
}

static PyObject *handle_forget(PyObject *self, PyObject *Py_UNUSED(none))
{
    ((Handle *)self)->declarations++;
    return none();
}

static PyMethodDef handle_methods[] = {
    { "close", handle_close, METH_NOARGS,
      "close($self, /)\n--\n\nGives all memory of the database back. A second call does nothing." },
    { "execute", FAST(handle_execute), METH_FASTCALL | METH_KEYWORDS,
      "execute($self, line, /, *parameters, **named)\n--\n\nDoes what a command says, and gives what it answers." },
    { "select", FAST(handle_select), METH_FASTCALL | METH_KEYWORDS,
      "select($self, line, /, *parameters, **named)\n--\n\nDoes a select, and gives its rows." },
    { "change", FAST(handle_change), METH_FASTCALL | METH_KEYWORDS,
      "change($self, line, /, *parameters, **named)\n--\n\n"
      "Does an insert, an update or a delete, and gives how many rows it was about." },
    { "_done", handle_done, METH_VARARGS, "Does a statement, which is kept by its line, with these values." },
    { "_done_many", handle_done_many, METH_VARARGS,
      "Does a statement, which is kept by its line, with each of these rows of values." },
    { "_count", handle_count, METH_VARARGS,
      "How many rows a select shows, which is kept by its line, with these values." },
    { "_first", handle_first, METH_VARARGS,
      "The first rows of a select, which is kept by its line: how many at most comes before its values." },
    { "_page", handle_page, METH_VARARGS, "The same of stored values. Those of the rows are as they are stored too." },
    { "_cursor", handle_cursor, METH_VARARGS,
      "A cursor on the rows of a select, which is kept by its line, with these stored values. None in a transaction." },
    { "_command", handle_command, METH_VARARGS, "What is answered to a line." },
    { "_load", handle_load, METH_VARARGS, "What is answered to a line with its block." },
    { "_indexes", handle_indexes, METH_VARARGS, "What is answered to who asks how the indexes of a table stand." },
    { "_version", handle_version, METH_VARARGS,
      "The number of the newest change of a table, or of all if its name is empty; or the refusal." },
    { "_plan", handle_plan, METH_VARARGS, "The plan of the select in a line, or the refusal of the line." },
    { "_reason", handle_reason, METH_VARARGS, "Why the line that was just answered was refused, with its block." },
    { "_begin", handle_begin, METH_NOARGS, "Begins a transaction." },
    { "_commit", handle_commit, METH_NOARGS, "Ends the innermost transaction, and keeps what was done in it." },
    { "_rollback", handle_rollback, METH_NOARGS,
      "Ends the innermost transaction, and restores the tables that it began with. Gives whether somebody is to be told." },
    { "_transactions", handle_transactions, METH_NOARGS, "How many transactions are open." },
    { "_keep", handle_keep, METH_NOARGS, "Has other threads wait with their calls. It wants no turn." },
    { "_end_keeping", handle_end_keeping, METH_NOARGS, "Ends that." },
    { "_be_watched", handle_be_watched, METH_O, "Has changes noted and told from now on, or no more." },
    { "_renew_turn", handle_renew_turn, METH_NOARGS,
      "Gives a new turn in a child of fork, where the threads that had the turn aren't, but for this one." },
    { "_share", handle_share, METH_VARARGS, "Has another handle share the tables, in the place of its own." },
    { "_clone", handle_clone, METH_VARARGS, "Gives another handle, which has no statements, a copy of the tables." },
    { "_leave", handle_leave, METH_NOARGS, "Leaves the tables, and has none then." },
    { "_interrupt", handle_interrupt, METH_NOARGS, "Asks the select to end that is under way. It wants no turn." },
    { "_forget", handle_forget, METH_NOARGS, "Forgets what is known of the columns of statements." },
    { NULL, NULL, 0, NULL },
};

static PyGetSetDef handle_members[] = {
    { "closed", handle_closed, NULL, "Whether it is closed.", NULL },
    { "_turn", handle_turn, NULL, "The turn of its calls.", NULL },
    { "_is_kept", handle_is_kept, NULL, "Whether this thread has others wait with their calls.", NULL },
    { NULL, NULL, NULL, NULL, NULL },
};

static PyType_Slot handle_slots[] = {
    { Py_tp_doc, (void *)"An open database, of which `mmdb.Database` is made." },
    { Py_tp_new, handle_new },
    { Py_tp_init, handle_init },
    { Py_tp_dealloc, handle_dealloc },
    { Py_tp_methods, handle_methods },
    { Py_tp_getset, handle_members },
    { 0, NULL },
};

static PyType_Spec handle_spec = {
    .name = "mmdb._mmdb.Handle",
    .basicsize = sizeof(Handle),
    .flags = Py_TPFLAGS_DEFAULT | Py_TPFLAGS_BASETYPE,
    .slots = handle_slots,
};

/* ---- the module */

static PyMethodDef module_methods[] = {
    { "odd_field", odd_field, METH_O,
      "Where the first field of a CSV begins whose quote marks are odd, and whether it is open." },
    { "picked_lines", picked_lines, METH_VARARGS, "The records of a load with fields of the lines of a CSV, and how many they are." },
    { "plain_records", plain_records, METH_VARARGS, "The records of a load with these rows, where all values are stored as they are." },
    { NULL, NULL, 0, NULL },
};

static struct PyModuleDef module = {
    PyModuleDef_HEAD_INIT,
    .m_name = "_mmdb",
    .m_doc = "The library, as the package mmdb wants it.",
    .m_size = -1,
    .m_methods = module_methods,
};

PyMODINIT_FUNC PyInit__mmdb(void)
{
    PyObject *made = PyModule_Create(&module);
    if (made == NULL)
        return NULL;
    handle_type = (PyTypeObject *)PyType_FromSpec(&handle_spec);
    if (handle_type == NULL || PyModule_AddObjectRef(made, "Handle", (PyObject *)handle_type) < 0 || rows_begin() < 0 ||
        kept_begin() < 0 || turns_begin() < 0 || interrupts_begin() < 0 || named_begin(made) < 0 || prepared_begin(made) < 0 ||
        cursor_begin(made) < 0)
        Py_CLEAR(made);
    return made;
}
