/* The records of a load. They are made of rows whose values are all stored as they are, as values.py makes them of any rows; and of a CSV
   without odd quote marks, as csvs.py makes them of any CSV. */
#include "_mmdb.h"

#include <string.h>

/* The digits of the longest integer, with its sign. */
enum { MOST_DIGITS = 20 };

/* What a column takes, by the letter that stands for it. */
enum { INTEGERS = 'i', TEXTS = 't', INTEGERS_OR_NULL = 'I', TEXTS_OR_NULL = 'T' };

/* Bytes that are being written. */
typedef struct {
    char *at;
    size_t length, room;
} Written;

/* How a value, a row or all of them were written. */
typedef enum { FAILED = -1, WRITTEN, NOT_PLAIN } Outcome;

/* Makes room for some more bytes, and gives where they go. Null where there is no memory. */
static char *more(Written *to, size_t count)
{
    if (to->at == NULL || to->room - to->length < count) {
        size_t room = (to->room + count) * 2;
        char *at = PyMem_Realloc(to->at, room);
        if (at == NULL)
            return NULL;
        to->at = at;
        to->room = room;
    }
    return to->at + to->length;
}

static Outcome put(Written *to, const char *bytes, size_t count)
{
    char *at = more(to, count);
    if (at == NULL)
        return FAILED;
    memcpy(at, bytes, count);
    to->length += count;
    return WRITTEN;
}

static Outcome put_integer(Written *to, PyObject *value)
{
    char digits[MOST_DIGITS], *at = digits + sizeof digits;
    int is_past;
    const long long integer = PyLong_AsLongLongAndOverflow(value, &is_past);
    if (is_past)
        return NOT_PLAIN;
    unsigned long long left = integer < 0 ? 0 - (unsigned long long)integer : (unsigned long long)integer;
    do
        *--at = (char)('0' + left % 10);
    while ((left /= 10) > 0);
    if (integer < 0)
        *--at = '-';
    return put(to, at, (size_t)(digits + sizeof digits - at));
}

static int is_quoted(const char *text, size_t length)
{
    int found = 0;
    for (size_t i = 0; i < length; i++)
        found |= text[i] == ',' || text[i] == '"' || text[i] == '\r' || text[i] == '\n';
    return found;
}

/* Puts a text between quote marks, with those in it doubled. */
static Outcome put_quoted(Written *to, const char *text, size_t length)
{
    char *at = more(to, 2 * length + 2);
    if (at == NULL)
        return FAILED;
    *at++ = '"';
    for (size_t i = 0; i < length; i++) {
        if (text[i] == '"')
            *at++ = '"';
        *at++ = text[i];
    }
    *at++ = '"';
    to->length = (size_t)(at - to->at);
    return WRITTEN;
}

static Outcome put_text(Written *to, PyObject *value, int takes_null)
{
    Py_ssize_t length;
    const char *text = PyUnicode_AsUTF8AndSize(value, &length);
    if (text == NULL) {
        /* (what is wrong with it is told where it is put in order) */
        PyErr_Clear();
        return NOT_PLAIN;
    }
    if (takes_null && length == 0)
        return NOT_PLAIN;
    return is_quoted(text, (size_t)length) ? put_quoted(to, text, (size_t)length) : put(to, text, (size_t)length);
}

static Outcome put_value(Written *to, PyObject *value, char column)
{
    const int takes_null = column == INTEGERS_OR_NULL || column == TEXTS_OR_NULL;
    const int is_integers = column == INTEGERS || column == INTEGERS_OR_NULL;
    if (value == Py_None)
        return takes_null ? WRITTEN : NOT_PLAIN;
    if (is_integers)
        return PyLong_CheckExact(value) ? put_integer(to, value) : NOT_PLAIN;
    return PyUnicode_CheckExact(value) ? put_text(to, value, takes_null) : NOT_PLAIN;
}

/* Puts the record of a row, which is a tuple. */
static Outcome put_row(Written *to, PyObject *row, const char *columns, Py_ssize_t count)
{
    const size_t before = to->length;
    Outcome outcome = PyTuple_CheckExact(row) && PyTuple_Size(row) == count ? WRITTEN : NOT_PLAIN;
    for (Py_ssize_t i = 0; i < count && outcome == WRITTEN; i++) {
        if (i > 0)
            outcome = put(to, ",", 1);
        if (outcome == WRITTEN)
            outcome = put_value(to, PyTuple_GetItem(row, i), columns[i]);
    }
    /* (an empty line would be no record) */
    return outcome == WRITTEN && to->length == before ? put(to, "\"\"", 2) : outcome;
}

PyObject *plain_records(PyObject *Py_UNUSED(module), PyObject *given)
{
    const char *columns;
    Py_ssize_t count;
    PyObject *rows, *made = NULL;
    if (!PyArg_ParseTuple(given, "y#O!", &columns, &count, &PyList_Type, &rows))
        return NULL;
    Written to = { NULL, 0, 0 };
    Outcome outcome = WRITTEN;
    for (Py_ssize_t i = 0; i < PyList_Size(rows) && outcome == WRITTEN; i++) {
        if (i > 0)
            outcome = put(&to, "\n", 1);
        if (outcome == WRITTEN)
            outcome = put_row(&to, PyList_GetItem(rows, i), columns, count);
    }
    if (outcome == WRITTEN)
        made = PyBytes_FromStringAndSize(to.at, (Py_ssize_t)to.length);
    else
        made = outcome == NOT_PLAIN ? none() : PyErr_NoMemory();
    PyMem_Free(to.at);
    return made;
}

/* The fields that the columns take: their places, where one below 0 has none. */
typedef struct {
    Py_ssize_t *places, count, width;
    char separator;
    int is_checked, has_quotes;
} Picks;

/* Finds the end of a quoted field. Gives null if its quote marks are odd. */
static const char *behind_quotes(const char *at, const char *end, char separator)
{
    for (at++; (at = memchr(at, '"', (size_t)(end - at))) != NULL; at += 2) {
        if (at + 1 == end || at[1] == separator || at[1] == '\n' || at[1] == '\r')
            return at + 1;
        if (at[1] != '"')
            return NULL;
    }
    return NULL;
}

/* Finds the end of the field that begins here. Gives null if its quote marks are odd. */
static const char *behind_field(const char *at, const char *end, const Picks *picks)
{
    if (picks->has_quotes && at < end && *at == '"')
        return behind_quotes(at, end, picks->separator);
    while (at < end && *at != picks->separator && *at != '\n' && *at != '\r')
        at++;
    return at;
}

/* Finds where the fields of a record begin, and one byte behind its end. Gives its end, or null if the fields are not as many, or the
   quote marks of one are odd. */
static const char *find_fields(const char *at, const char *end, const Picks *picks, const char **fields)
{
    for (Py_ssize_t count = 0; count < picks->width; at++) {
        fields[count++] = at;
        at = behind_field(at, end, picks);
        if (at == NULL)
            return NULL;
        if (at < end && *at == picks->separator)
            continue;
        fields[picks->width] = at + 1;
        return count == picks->width ? at : NULL;
    }
    return NULL;
}

/* Puts a field of a line. One between quote marks is a field of a block as it is. */
static Outcome put_field(Written *to, const char *field, size_t length, const Picks *picks)
{
    const int is_whole = picks->has_quotes && length > 0 && *field == '"';
    return !is_whole && picks->is_checked && is_quoted(field, length) ? put_quoted(to, field, length) : put(to, field, length);
}

/* Puts the record of a line's fields. */
static Outcome put_fields(Written *to, const char *const *fields, const Picks *picks)
{
    const size_t before = to->length;
    Outcome outcome = WRITTEN;
    for (Py_ssize_t i = 0; i < picks->count && outcome == WRITTEN; i++) {
        const Py_ssize_t place = picks->places[i];
        if (i > 0)
            outcome = put(to, ",", 1);
        if (outcome == FAILED || place < 0)
            continue;
        outcome = put_field(to, fields[place], (size_t)(fields[place + 1] - 1 - fields[place]), picks);
    }
    return outcome == WRITTEN && to->length == before ? put(to, "\"\"", 2) : outcome;
}

/* Puts all records, each of which begins in a line that has a byte, and counts them. */
static Outcome put_lines(Written *to, const char *at, const char *end, const char **fields, const Picks *picks, Py_ssize_t *count)
{
    Outcome outcome = WRITTEN;
    while (at < end && outcome == WRITTEN) {
        if (*at == '\n' || *at == '\r') {
            at++;
            continue;
        }
        at = find_fields(at, end, picks, fields);
        if (at == NULL)
            return NOT_PLAIN;
        if ((*count)++ > 0)
            outcome = put(to, "\n", 1);
        if (outcome == WRITTEN)
            outcome = put_fields(to, fields, picks);
    }
    return outcome;
}

/* Reads the places of the fields, each of which is below the width. */
static int read_places(PyObject *listed, Picks *picks)
{
    picks->count = PyTuple_Size(listed);
    picks->places = PyMem_Malloc(((size_t)picks->count + 1) * sizeof *picks->places);
    if (picks->places == NULL) {
        PyErr_NoMemory();
        return 0;
    }
    for (Py_ssize_t i = 0; i < picks->count; i++) {
        picks->places[i] = PyLong_AsSsize_t(PyTuple_GetItem(listed, i));
        if (picks->places[i] >= picks->width)
            PyErr_SetString(PyExc_IndexError, "a place is past the width");
        if (PyErr_Occurred() != NULL)
            return 0;
    }
    return 1;
}

PyObject *picked_lines(PyObject *Py_UNUSED(module), PyObject *given)
{
    const char *content, **fields = NULL;
    Py_ssize_t length, count = 0;
    PyObject *listed, *made = NULL;
    Picks picks = { NULL, 0, 0, ',', 0, 0 };
    if (!PyArg_ParseTuple(given, "y#cnO!pp", &content, &length, &picks.separator, &picks.width, &PyTuple_Type, &listed, &picks.is_checked,
                          &picks.has_quotes))
        return NULL;
    if (picks.width < 1)
        return none();
    Written to = { NULL, 0, 0 };
    if (read_places(listed, &picks)) {
        fields = PyMem_Malloc(((size_t)picks.width + 1) * sizeof *fields);
        const Outcome outcome = fields == NULL ? FAILED : put_lines(&to, content, content + length, fields, &picks, &count);
        if (outcome == WRITTEN)
            made = Py_BuildValue("y#n", to.at == NULL ? "" : to.at, (Py_ssize_t)to.length, count);
        else
            made = outcome == NOT_PLAIN ? none() : PyErr_NoMemory();
    }
    PyMem_Free(fields);
    PyMem_Free(picks.places);
    PyMem_Free(to.at);
    return made;
}
