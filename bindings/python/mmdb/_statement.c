/* What is done with one statement: values in, and what is raised. */
#include "_mmdb.h"

#include <string.h>

/* An execution that gives more rows isn't quick. */
#define MANY_ROWS 256

/* How many bytes a statement that waits may hold. */
#define HELD ((size_t)1 << 16)

/* How many rows of a select are wanted where all are. */
#define ALL SIZE_MAX

/* How many values are put in order without asking for memory. No command that is accepted has as many places. */
#define MOST_VALUES 64

void statement_clear(Statement *statement)
{
    Py_CLEAR(statement->placed);
    Py_CLEAR(statement->line);
    Py_CLEAR(statement->names);
    Py_CLEAR(statement->shape);
}

int statement_take(Statement *statement, PyObject *placed)
{
    PyObject *line, *names;
    Py_ssize_t places, wanted;
    int is_select, is_statement;
    if (!PyArg_ParseTuple(placed, "SOnO!nppO", &line, &(PyObject *){ NULL }, &places, &PyTuple_Type, &names, &wanted,
                          &is_select, &is_statement, &(PyObject *){ NULL }))
        return -1;
    statement_clear(statement);
    statement->placed = Py_NewRef(placed);
    statement->line = Py_NewRef(line);
    statement->names = PyTuple_Size(names) > 0 ? Py_NewRef(names) : NULL;
    statement->places = places;
    statement->wanted = wanted;
    statement->is_select = is_select;
    return 0;
}

void statement_finalize(Handle *handle, Statement *statement)
{
    if (statement->is_prepared) {
        statement->is_prepared = 0;
        mmdb_finalize(&handle->db, statement->given.number);
    }
}

/* ---- what isn't done */

/* Calls a method that is there to raise. */
static int raised(PyObject *given)
{
    if (given != NULL) {
        Py_DECREF(given);
        PyErr_SetString(PyExc_SystemError, "mmdb: nothing was raised");
    }
    return -1;
}

int handle_failed(Handle *handle, uint32_t status)
{
    return raised(PyObject_CallMethod((PyObject *)handle, "_failed", "I", (unsigned int)status));
}

PyObject *tuple_of(PyObject *const *values, Py_ssize_t count)
{
    PyObject *tuple = PyTuple_New(count);
    for (Py_ssize_t at = 0; tuple != NULL && at < count; at++)
        PyTuple_SetItem(tuple, at, Py_NewRef(values[at]));
    return tuple;
}

/* Why a statement was just refused, by the library's words, or None. Its columns are those of the prepared line. */
static PyObject *reason_of(Handle *handle, const Statement *statement)
{
    mmdb_bytes words;
    uint32_t status;
    if (statement->is_prepared) {
        status = mmdb_statement_reason(&handle->db, statement->given.number, &words);
    } else {
        Py_ssize_t length;
        const char *line = bytes_of(statement->line, &length);
        if (line == NULL)
            return NULL;
        status = mmdb_prepare_reason(&handle->db, line, (size_t)length, &words);
    }
    if (status != MMDB_DONE || words.length == 0)
        return none();
    return PyUnicode_DecodeUTF8((const char *)words.at, (Py_ssize_t)words.length, "strict");
}

/* Raises what a status says of a statement with these values. */
static int refused(Handle *handle, Statement *statement, uint32_t status, PyObject *const *values, Py_ssize_t count)
{
    static const char no_memory[] = "error 90 no memory\n";
    mmdb_bytes answer = { (const unsigned char *)no_memory, sizeof no_memory - 1 };
    if (status != MMDB_REFUSED && status != MMDB_NO_MEMORY)
        return handle_failed(handle, status);
    if (status == MMDB_REFUSED)
        mmdb_answer(&handle->db, &answer);
    PyObject *told = PyBytes_FromStringAndSize((const char *)answer.at, (Py_ssize_t)answer.length);
    PyObject *reason = status == MMDB_REFUSED ? reason_of(handle, statement) : none();
    PyObject *given = tuple_of(values, count);
    if (told != NULL && reason != NULL && given != NULL)
        raised(PyObject_CallMethod((PyObject *)handle, "_refuse", "OOOO", statement->placed, given, told, reason));
    Py_XDECREF(told);
    Py_XDECREF(reason);
    Py_XDECREF(given);
    return -1;
}

/* ---- values in */

/* What is given in the place of a kind or of an mmdb_status: that it is no value, or that something was raised. */
enum { NO_VALUE = -1, RAISED = -2 };

/* The mmdb_kind of a value, or NO_VALUE. A bool is none, though it is an int. */
static int kind_of(PyObject *value)
{
    if (PyLong_CheckExact(value))
        return MMDB_INTEGER;
    if (PyUnicode_CheckExact(value) || PyUnicode_Check(value))
        return MMDB_TEXT;
    if (value == Py_None)
        return MMDB_NULL;
    return PyLong_Check(value) && !PyBool_Check(value) ? MMDB_INTEGER : NO_VALUE;
}

/* Binds a value into a place, or looks at it alone where there is no handle, and adds how long a text is. Gives an
   mmdb_status, NO_VALUE or RAISED. */
static int bind(Handle *handle, uint32_t number, uint32_t place, PyObject *value, size_t *size)
{
    int kind = kind_of(value), is_past = 0;
    if (kind == MMDB_INTEGER) {
        long long integer = PyLong_AsLongLongAndOverflow(value, &is_past);
        if (is_past)
            return NO_VALUE;
        return handle == NULL ? MMDB_DONE : (int)mmdb_bind_integer(&handle->db, number, place, integer);
    }
    if (kind == MMDB_TEXT) {
        Py_ssize_t length;
        const char *text = PyUnicode_AsUTF8AndSize(value, &length);
        if (text == NULL) {
            if (!PyErr_ExceptionMatches(PyExc_UnicodeEncodeError))
                return RAISED;
            PyErr_Clear();
            return NO_VALUE;
        }
        *size += (size_t)length;
        return handle == NULL ? MMDB_DONE : (int)mmdb_bind_text(&handle->db, number, place, text, (size_t)length);
    }
    if (kind == MMDB_NULL)
        return handle == NULL ? MMDB_DONE : (int)mmdb_bind_null(&handle->db, number, place);
    return NO_VALUE;
}

const char *bytes_of(PyObject *line, Py_ssize_t *length)
{
    char *bytes;
    if (PyUnicode_Check(line))
        return PyUnicode_AsUTF8AndSize(line, length);
    return PyBytes_AsStringAndSize(line, &bytes, length) < 0 ? NULL : bytes;
}

/* Prepares a statement where it isn't. The values are for the words of a refusal. */
static int prepare(Handle *handle, Statement *statement, PyObject *const *values, Py_ssize_t count)
{
    Py_ssize_t length;
    if (statement->is_prepared)
        return 0;
    while (handle->let_go_count > 0)
        mmdb_finalize(&handle->db, handle->let_go[--handle->let_go_count]);
    const char *line = bytes_of(statement->line, &length);
    if (line == NULL)
        return -1;
    uint32_t status = mmdb_prepare(&handle->db, line, (size_t)length, &statement->given);
    if (status != MMDB_DONE)
        return refused(handle, statement, status, values, count);
    statement->is_prepared = 1;
    Py_CLEAR(statement->shape);
    if (statement->given.places == (size_t)statement->places)
        return 0;
    statement_finalize(handle, statement);
    return handle_failed(handle, MMDB_NO_SUCH_PLACE);
}

/* Binds all values. Gives MMDB_DONE, NO_VALUE where one is none, or RAISED. */
static int bind_all(Handle *handle, Statement *statement, PyObject *const *values, Py_ssize_t count, size_t *size)
{
    for (Py_ssize_t place = 0; place < count; place++) {
        int status = bind(handle, statement->given.number, (uint32_t)place, values[place], size);
        if (status == MMDB_DONE)
            continue;
        if (status > 0)
            refused(handle, statement, (uint32_t)status, values, count);
        return status > 0 ? RAISED : status;
    }
    return MMDB_DONE;
}

/* ---- its columns */

int statement_know_shape(Handle *handle, Statement *statement)
{
    mmdb_rows columns;
    if (statement->shape != NULL && statement->declarations == handle->declarations)
        return 0;
    Py_CLEAR(statement->shape);
    statement->declarations = handle->declarations;
    if (mmdb_columns(&handle->db, statement->given.number, &columns) != MMDB_DONE || columns.columns < 2)
        return 0;
    PyObject *names = column_of(&columns, 0), *kinds = column_of(&columns, 1);
    if (names != NULL && kinds != NULL)
        statement->shape = PyObject_CallMethod((PyObject *)handle, "_shaped", "OO", names, kinds);
    statement->columns = columns.rows;
    Py_XDECREF(names);
    Py_XDECREF(kinds);
    return statement->shape == NULL ? -1 : 0;
}

/* ---- doing */

/* What is known of how long a statement takes. Of another kind of lines that was known there it is forgotten. */
static Pace *pace_of(Handle *handle, Statement *statement)
{
    if (statement->kind == 0)
        return &statement->pace;
    Pace *pace = &handle->paces[(statement->kind >> 1) % PACES];
    if (pace->kind != statement->kind)
        *pace = (Pace){ .kind = statement->kind };
    return pace;
}

static uint32_t execute_by(Handle *handle, Step *step)
{
    return mmdb_execute(&handle->db, step->statement, step->rows);
}

static uint32_t first_by(Handle *handle, Step *step)
{
    return mmdb_first(&handle->db, step->statement, step->most, step->rows);
}

static uint32_t count_by(Handle *handle, Step *step)
{
    return mmdb_count(&handle->db, step->statement, &step->count);
}

static uint32_t cursor_by(Handle *handle, Step *step)
{
    return mmdb_cursor_open(&handle->db, step->statement, step->cursor);
}

/* Whether a step was done. Else what its status says is raised, if it hasn't been yet. */
static int was_done(Handle *handle, Statement *statement, uint32_t status, PyObject *const *values, Py_ssize_t count)
{
    if (status == MMDB_DONE)
        return 1;
    if (status != STEP_RAISED)
        refused(handle, statement, status, values, count);
    return 0;
}

/* To release the interpreter's lock costs more than a tenth of a quick execution, so that most of them hold it. */
static int execute(Handle *handle, Statement *statement, PyObject *const *values, Py_ssize_t count, mmdb_rows *rows)
{
    uint32_t status;
    Pace *pace = pace_of(handle, statement);
    if (is_quick(handle, pace)) {
        status = mmdb_execute(&handle->db, statement->given.number, rows);
        if (rows->rows > MANY_ROWS)
            pace->quick = pace->was_quick = 0;
    } else {
        Step step = { .take = execute_by, .statement = statement->given.number, .rows = rows };
        status = take_step(handle, &step, pace, statement->is_select);
    }
    if (!was_done(handle, statement, status, values, count))
        return -1;
    handle->has_changed |= !statement->is_select;
    return 0;
}

/* Finds the first rows of a select, so many at most, while other threads go on. */
static int find_first(Handle *handle, Statement *statement, PyObject *const *values, Py_ssize_t count, size_t most,
                      mmdb_rows *rows)
{
    Step step = { .take = first_by, .statement = statement->given.number, .most = most, .rows = rows };
    uint32_t status = take_select(handle, &step, &statement->pace_of_first);
    return was_done(handle, statement, status, values, count) ? 0 : -1;
}

/* Does a select whose values are bound, or finds only its first rows where they are fewer than ALL. It is done once more where its
   rows have other columns than those known. */
static PyObject *selected(Handle *handle, Statement *statement, PyObject *const *values, Py_ssize_t count, size_t most,
                          size_t *size)
{
    mmdb_rows rows;
    for (int tries = 0; tries < 2; tries++) {
        if (statement_know_shape(handle, statement) < 0)
            return NULL;
        int status = most == ALL ? execute(handle, statement, values, count, &rows)
                                 : find_first(handle, statement, values, count, most, &rows);
        if (status < 0)
            return NULL;
        if (statement->shape != NULL && statement->columns == rows.columns) {
            if (PyTuple_GetItem(statement->shape, 4) != Py_None)
                handle->converting = Py_NewRef(statement->shape);
            return rows_of(statement->shape, &rows, size);
        }
        Py_CLEAR(statement->shape);
    }
    handle_failed(handle, MMDB_REFUSED);
    return NULL;
}

/* Does a statement with these values. Gives its rows, or how many rows it was about; or null, where something was
   raised, or, and then `fits` is 0, one of them is no value. */
static PyObject *done(Handle *handle, Statement *statement, PyObject *const *values, Py_ssize_t count, int *fits)
{
    mmdb_rows rows;
    size_t size = 0;
    PyObject *given;
    *fits = 1;
    if (prepare(handle, statement, values, count) < 0)
        return NULL;
    int status = bind_all(handle, statement, values, count, &size);
    *fits = status != NO_VALUE;
    if (status != MMDB_DONE)
        return NULL;
    if (statement->is_select)
        given = selected(handle, statement, values, count, ALL, &size);
    else if (execute(handle, statement, values, count, &rows) < 0)
        given = NULL;
    else
        given = PyLong_FromUnsignedLongLong(rows.changed);
    if (size > HELD)
        statement_finalize(handle, statement);
    return given;
}

/* The values of a tuple: in `room` where they have room there, else in memory that is to be freed. */
static PyObject **values_of(PyObject *tuple, PyObject **room, Py_ssize_t *count)
{
    *count = PyTuple_Size(tuple);
    if (*count < 0)
        return NULL;
    PyObject **values = *count <= MOST_VALUES ? room : PyMem_Malloc((size_t)*count * sizeof *values);
    if (values == NULL) {
        PyErr_NoMemory();
        return NULL;
    }
    for (Py_ssize_t at = 0; at < *count; at++)
        values[at] = PyTuple_GetItem(tuple, at);
    return values;
}

/* Takes a step with a statement, whose values are nulls, which are for the words of a refusal. */
static int with_nulls(Handle *handle, Statement *statement,
                      int (*step)(Handle *, Statement *, PyObject *const *, Py_ssize_t))
{
    PyObject *room[MOST_VALUES], *nulls = PyTuple_New(statement->places);
    Py_ssize_t count;
    for (Py_ssize_t at = 0; nulls != NULL && at < statement->places; at++)
        PyTuple_SetItem(nulls, at, Py_NewRef(Py_None));
    PyObject **values = nulls == NULL ? NULL : values_of(nulls, room, &count);
    int status = values == NULL ? -1 : step(handle, statement, values, count);
    if (values != room)
        PyMem_Free(values);
    Py_XDECREF(nulls);
    return status;
}

int statement_prepare(Handle *handle, Statement *statement)
{
    return with_nulls(handle, statement, prepare);
}

/* Makes the columns known. */
static int know_names(Handle *handle, Statement *statement, PyObject *const *values, Py_ssize_t count)
{
    if (prepare(handle, statement, values, count) < 0 || statement_know_shape(handle, statement) < 0)
        return -1;
    return statement->shape != NULL ? 0 : refused(handle, statement, MMDB_REFUSED, values, count);
}

PyObject *statement_names(Handle *handle, Statement *statement)
{
    if (with_nulls(handle, statement, know_names) < 0)
        return NULL;
    return Py_NewRef(PyTuple_GetItem(statement->shape, 1));
}

PyObject *statement_done(Handle *handle, Statement *statement, PyObject *tuple)
{
    PyObject *room[MOST_VALUES];
    Py_ssize_t count;
    int fits;
    PyObject **values = values_of(tuple, room, &count);
    if (values == NULL)
        return NULL;
    PyObject *given = done(handle, statement, values, count, &fits);
    if (values != room)
        PyMem_Free(values);
    return given;
}

/* Counts the rows of a select whose values are bound, while other threads go on. */
static PyObject *counted(Handle *handle, Statement *statement, PyObject *const *values, Py_ssize_t count)
{
    Step step = { .take = count_by, .statement = statement->given.number };
    uint32_t status = take_select(handle, &step, &statement->pace_of_count);
    return was_done(handle, statement, status, values, count) ? PyLong_FromUnsignedLongLong(step.count) : NULL;
}

PyObject *statement_count(Handle *handle, Statement *statement, PyObject *tuple)
{
    PyObject *room[MOST_VALUES], *given = NULL;
    Py_ssize_t count;
    size_t size = 0;
    PyObject **values = values_of(tuple, room, &count);
    if (values == NULL)
        return NULL;
    if (prepare(handle, statement, values, count) == 0 && bind_all(handle, statement, values, count, &size) == MMDB_DONE)
        given = counted(handle, statement, values, count);
    if (size > HELD)
        statement_finalize(handle, statement);
    if (values != room)
        PyMem_Free(values);
    return given;
}

PyObject *statement_first(Handle *handle, Statement *statement, PyObject *asked)
{
    PyObject *room[MOST_VALUES], *given = NULL, *wanted = PyTuple_GetItem(asked, 0);
    Py_ssize_t count;
    size_t size = 0, most = wanted == NULL ? 0 : PyLong_AsSize_t(wanted);
    PyObject **values = PyErr_Occurred() ? NULL : values_of(asked, room, &count);
    if (values == NULL)
        return NULL;
    PyObject *const *parameters = values + 1;
    count--;
    if (prepare(handle, statement, parameters, count) == 0 &&
        bind_all(handle, statement, parameters, count, &size) == MMDB_DONE)
        given = selected(handle, statement, parameters, count, most, &size);
    if (size > HELD)
        statement_finalize(handle, statement);
    if (values != room)
        PyMem_Free(values);
    return given;
}

/* Opens a cursor on the rows of a select whose values are bound, while other threads go on. Gives whether it is open; in a transaction
   it isn't, and nothing is raised. */
static int open_cursor(Handle *handle, Statement *statement, PyObject *const *values, Py_ssize_t count, mmdb_cursor *cursor)
{
    Pace unknown = { .kind = 0 };
    Step step = { .take = cursor_by, .statement = statement->given.number, .cursor = cursor };
    uint32_t status = take_step(handle, &step, &unknown, 1);
    return status != MMDB_IN_TRANSACTION && was_done(handle, statement, status, values, count);
}

/* The shape of the rows of a cursor. Where the columns that are known aren't theirs, they are asked for once more, which is only refused
   for memory. */
static PyObject *shape_of_cursor(Handle *handle, Statement *statement, PyObject *const *values, Py_ssize_t count,
                                 mmdb_cursor *cursor)
{
    mmdb_rows rows;
    uint32_t status = mmdb_cursor_fetch(cursor, 0, &rows);
    if (status != MMDB_DONE) {
        handle_failed(handle, status);
        return NULL;
    }
    if (statement->columns != rows.columns)
        Py_CLEAR(statement->shape);
    if (statement_know_shape(handle, statement) < 0)
        return NULL;
    if (statement->shape != NULL && statement->columns == rows.columns)
        return Py_NewRef(statement->shape);
    if (statement->shape == NULL)
        refused(handle, statement, MMDB_REFUSED, values, count);
    else
        handle_failed(handle, MMDB_REFUSED);
    return NULL;
}

PyObject *statement_open_cursor(Handle *handle, Statement *statement, PyObject *tuple, mmdb_cursor *cursor)
{
    PyObject *room[MOST_VALUES], *shape = NULL;
    Py_ssize_t count;
    size_t size = 0;
    PyObject **values = values_of(tuple, room, &count);
    if (values == NULL)
        return NULL;
    if (prepare(handle, statement, values, count) == 0 && bind_all(handle, statement, values, count, &size) == MMDB_DONE) {
        if (open_cursor(handle, statement, values, count, cursor))
            shape = shape_of_cursor(handle, statement, values, count, cursor);
        else if (!PyErr_Occurred())
            shape = none();
    }
    if (size > HELD)
        statement_finalize(handle, statement);
    if (values != room)
        PyMem_Free(values);
    return shape;
}

/* Looks at all values of rows: gives MMDB_DONE, NO_VALUE or RAISED. */
static int check_rows(PyObject *rows)
{
    size_t size = 0;
    Py_ssize_t count = PyList_Size(rows);
    for (Py_ssize_t number = 0; number < count; number++) {
        PyObject *row = PyList_GetItem(rows, number);
        Py_ssize_t width = PyTuple_Size(row);
        if (width < 0)
            return RAISED;
        for (Py_ssize_t place = 0; place < width; place++) {
            int status = bind(NULL, 0, 0, PyTuple_GetItem(row, place), &size);
            if (status != MMDB_DONE)
                return status;
        }
    }
    return MMDB_DONE;
}

/* Does a statement with one of several rows, and adds how many rows it was about. */
static int add_row(Handle *handle, Statement *statement, PyObject *row, uint64_t *changed)
{
    PyObject *room[MOST_VALUES];
    Py_ssize_t count;
    size_t size = 0;
    mmdb_rows rows;
    PyObject **values = values_of(row, room, &count);
    if (values == NULL)
        return -1;
    int status = prepare(handle, statement, values, count);
    if (status == 0)
        status = bind_all(handle, statement, values, count, &size) == MMDB_DONE ? 0 : -1;
    if (status == 0)
        status = execute(handle, statement, values, count, &rows);
    if (status == 0)
        *changed += rows.changed;
    if (size > HELD)
        statement_finalize(handle, statement);
    if (values != room)
        PyMem_Free(values);
    return status;
}

/* ---- many inserts by one call */

/* So many rows at least are inserted by one call, and so many at most. */
#define LEAST_TOGETHER 200
#define MOST_TOGETHER 65536

/* Cells, and the bytes of their texts, as mmdb_execute_many takes them. */
typedef struct {
    mmdb_cell *cells;
    size_t count;
    char *texts;
    size_t length;
    size_t room;
} Batch;

static void batch_free(Batch *batch)
{
    PyMem_Free(batch->cells);
    PyMem_Free(batch->texts);
}

/* Puts a text behind the others. Gives 0 where it has no place there, or there is no memory for it. */
static int put_text(Batch *batch, const char *text, size_t length, mmdb_cell *cell)
{
    if (length > UINT16_MAX || batch->length + length > UINT32_MAX)
        return 0;
    if (batch->length + length > batch->room) {
        size_t room = 2 * (batch->length + length);
        char *texts = PyMem_Realloc(batch->texts, room);
        if (texts == NULL)
            return 0;
        batch->texts = texts;
        batch->room = room;
    }
    memcpy(batch->texts + batch->length, text, length);
    cell->at = (uint32_t)batch->length;
    cell->length = (uint16_t)length;
    batch->length += length;
    return 1;
}

/* Puts a value behind the others, which was looked at before. Gives 0 where that can't be. */
static int put_value(Batch *batch, PyObject *value)
{
    int kind = kind_of(value), is_past = 0;
    mmdb_cell cell = { 0, 0, 0, (uint16_t)kind };
    if (kind == MMDB_INTEGER) {
        cell.integer = PyLong_AsLongLongAndOverflow(value, &is_past);
    } else if (kind == MMDB_TEXT) {
        Py_ssize_t length;
        const char *text = PyUnicode_AsUTF8AndSize(value, &length);
        if (text == NULL) {
            PyErr_Clear();
            return 0;
        }
        if (!put_text(batch, text, (size_t)length, &cell))
            return 0;
    }
    batch->cells[batch->count++] = cell;
    return !is_past;
}

/* Puts the values of so many rows into cells. Gives 0 where that can't be. */
static int put_rows(Batch *batch, PyObject *rows, Py_ssize_t from, Py_ssize_t count, Py_ssize_t places)
{
    batch->cells = PyMem_Malloc((size_t)count * (size_t)places * sizeof *batch->cells);
    for (Py_ssize_t number = from; batch->cells != NULL && number < from + count; number++) {
        PyObject *row = PyList_GetItem(rows, number);
        if (PyTuple_Size(row) != places)
            return 0;
        for (Py_ssize_t place = 0; place < places; place++)
            if (!put_value(batch, PyTuple_GetItem(row, place)))
                return 0;
    }
    return batch->cells != NULL;
}

/* Does a statement with so many rows while other threads go on, and adds how many rows it was about. Gives 0 where nothing was
   done; why is found row by row. */
static int add_rows(Handle *handle, Statement *statement, PyObject *rows, Py_ssize_t from, Py_ssize_t count, uint64_t *changed)
{
    Batch batch = { NULL, 0, NULL, 0, 0 };
    uint32_t status = MMDB_NOT_ROWS, number = statement->given.number;
    uint64_t added = 0;
    if (put_rows(&batch, rows, from, count, statement->places)) {
        Py_BEGIN_ALLOW_THREADS
        status = mmdb_execute_many(&handle->db, number, batch.cells, batch.count, batch.texts, batch.length, &added);
        Py_END_ALLOW_THREADS
    }
    batch_free(&batch);
    *changed += added;
    return status == MMDB_DONE;
}

/* Whether rows go in by it. */
static int is_insert(const Statement *statement)
{
    static const char word[] = "insert";
    Py_ssize_t length;
    const char *line = bytes_of(statement->line, &length);
    while (line != NULL && length > 0 && *line == ' ')
        line++, length--;
    if (line == NULL)
        PyErr_Clear();
    return line != NULL && length >= (Py_ssize_t)sizeof word && memcmp(line, word, sizeof word - 1) == 0;
}

/* Does an insert with the rows from a number on, as far as they go in together, of which all go in or none. Gives the number of the
   first that hasn't. */
static Py_ssize_t put_together(Handle *handle, Statement *statement, PyObject *rows, Py_ssize_t from, uint64_t *changed)
{
    Py_ssize_t all = PyList_Size(rows);
    while (from < all) {
        Py_ssize_t count = all - from < MOST_TOGETHER ? all - from : MOST_TOGETHER;
        if (PyErr_CheckSignals() < 0 || !add_rows(handle, statement, rows, from, count, changed))
            return from;
        from += count;
    }
    return from;
}

PyObject *statement_done_many(Handle *handle, Statement *statement, PyObject *rows)
{
    uint64_t changed = 0;
    int is_together = PyList_Size(rows) >= LEAST_TOGETHER && statement->places > 0 && is_insert(statement);
    if (check_rows(rows) != MMDB_DONE)
        return NULL;
    for (Py_ssize_t number = 0; number < PyList_Size(rows); number++) {
        if (number % ROWS_BETWEEN_SIGNALS == ROWS_BETWEEN_SIGNALS - 1 && PyErr_CheckSignals() < 0)
            return NULL;
        if (add_row(handle, statement, PyList_GetItem(rows, number), &changed) < 0)
            return NULL;
        // (the first has prepared it)
        if (number == 0 && is_together)
            number = put_together(handle, statement, rows, 1, &changed) - 1;
        if (PyErr_Occurred())
            return NULL;
    }
    return PyLong_FromUnsignedLongLong(changed);
}

/* Puts the values of a call into the order of the places. Gives null where that is no matter of a look. */
static PyObject *const *ordered(const Statement *statement, PyObject *const *values, Py_ssize_t count,
                                PyObject *keywords, PyObject **room)
{
    Py_ssize_t named = keywords == NULL ? 0 : PyTuple_Size(keywords);
    if (statement->names == NULL)
        return named == 0 && count == statement->places ? values : NULL;
    if (count != 0 || named != statement->wanted || statement->places > MOST_VALUES)
        return NULL;
    for (Py_ssize_t place = 0; place < statement->places; place++) {
        PyObject *name = PyTuple_GetItem(statement->names, place);
        Py_ssize_t at = 0;
        while (at < named && PyUnicode_Compare(name, PyTuple_GetItem(keywords, at)) != 0)
            at++;
        if (at == named)
            return NULL;
        room[place] = values[at];
    }
    return room;
}

PyObject *statement_done_by(Handle *handle, Statement *statement, PyObject *const *parameters, Py_ssize_t count,
                            PyObject *keywords)
{
    PyObject *room[MOST_VALUES];
    int fits;
    PyObject *const *values = ordered(statement, parameters, count, keywords, room);
    return values == NULL ? NULL : done(handle, statement, values, statement->places, &fits);
}

PyObject *named_of(PyObject *const *values, PyObject *keywords)
{
    PyObject *named = PyDict_New();
    Py_ssize_t count = keywords == NULL ? 0 : PyTuple_Size(keywords);
    for (Py_ssize_t at = 0; named != NULL && at < count; at++)
        if (PyDict_SetItem(named, PyTuple_GetItem(keywords, at), values[at]) < 0)
            Py_CLEAR(named);
    return named;
}
