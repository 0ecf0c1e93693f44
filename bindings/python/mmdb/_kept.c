/* Statements that are kept by their lines, of which the longest unused go. */
#include "_mmdb.h"

#include <string.h>

/* How many statements are kept. */
#define KEPT 128

/* How many bytes a line has at most. Longer ones are refused, and not kept. */
#define LONGEST_LINE 8192

static PyTypeObject *kept_type;

static void kept_dealloc(PyObject *self)
{
    statement_clear(&((Kept *)self)->statement);
    Py_CLEAR(((Kept *)self)->line);
    free_object(self);
}

static PyType_Slot kept_slots[] = {
    { Py_tp_doc, (void *)"A statement that is kept by its line." },
    { Py_tp_dealloc, kept_dealloc },
    { 0, NULL },
};

static PyType_Spec kept_spec = {
    .name = "mmdb._mmdb.Kept",
    .basicsize = sizeof(Kept),
    .flags = Py_TPFLAGS_DEFAULT | Py_TPFLAGS_DISALLOW_INSTANTIATION,
    .slots = kept_slots,
};

/* Takes one out of the order of uses. */
static void unlink_kept(Handle *handle, Kept *kept)
{
    *(kept->older == NULL ? &handle->oldest : &kept->older->newer) = kept->newer;
    *(kept->newer == NULL ? &handle->newest : &kept->newer->older) = kept->older;
}

/* Puts one to the end of the order of uses. */
static void link_kept(Handle *handle, Kept *kept)
{
    kept->newer = NULL;
    kept->older = handle->newest;
    *(handle->newest == NULL ? &handle->oldest : &handle->newest->newer) = kept;
    handle->newest = kept;
}

/* Takes the longest unused statement out, and makes its object ready for another one. */
static Kept *take_oldest(Handle *handle)
{
    Kept *oldest = (Kept *)Py_NewRef((PyObject *)handle->oldest);
    statement_finalize(handle, &oldest->statement);
    unlink_kept(handle, oldest);
    int status = PyDict_DelItem(handle->kept, oldest->line);
    statement_clear(&oldest->statement);
    Py_CLEAR(oldest->line);
    oldest->statement = (Statement){ .placed = NULL };
    if (status == 0)
        return oldest;
    Py_DECREF(oldest);
    return NULL;
}

void kept_forget_all(Handle *handle)
{
    handle->oldest = handle->newest = NULL;
    PyDict_Clear(handle->kept);
}

Statement *kept_by(Handle *handle, PyObject *line)
{
    Kept *kept = (Kept *)PyDict_GetItemWithError(handle->kept, line);
    if (kept == NULL)
        return NULL;
    if (handle->newest != kept) {
        unlink_kept(handle, kept);
        link_kept(handle, kept);
    }
    return &kept->statement;
}

/* A statement that is kept by a line from now on, whose fields are yet to be filled in. */
static Statement *keep_new(Handle *handle, PyObject *line)
{
    int is_full = handle->oldest != NULL && PyDict_Size(handle->kept) >= KEPT;
    Kept *kept = is_full ? take_oldest(handle) : (Kept *)PyType_GenericAlloc(kept_type, 0);
    if (kept == NULL)
        return NULL;
    kept->line = Py_NewRef(line);
    int status = PyDict_SetItem(handle->kept, line, (PyObject *)kept);
    if (status == 0)
        link_kept(handle, kept);
    Py_DECREF(kept);
    return status == 0 ? &kept->statement : NULL;
}

Statement *kept_anyway(Handle *handle, PyObject *line, PyObject *placed)
{
    Statement *statement = kept_by(handle, line), made = { .placed = NULL };
    if (statement != NULL || PyErr_Occurred() || statement_take(&made, placed) < 0)
        return statement;
    statement = keep_new(handle, line);
    if (statement == NULL)
        statement_clear(&made);
    else
        *statement = made;
    return statement;
}

/* Whether a line is a statement without places at the first look: what is left out here is looked at by Python. */
static int is_plain(const char *line, Py_ssize_t length)
{
    static const char *const words[] = { "select ", "insert ", "update ", "delete " };
    const size_t front = 7;
    int is_statement = 0;
    if (line == NULL || (size_t)length <= front || length > LONGEST_LINE)
        return 0;
    for (size_t at = 0; at < sizeof words / sizeof *words; at++)
        is_statement |= memcmp(line, words[at], front) == 0;
    return is_statement && !memchr(line, '?', (size_t)length) && !memchr(line, ':', (size_t)length) &&
           !memchr(line, '\n', (size_t)length);
}

/* Whether a digit is the first one of an integer, by the mark before it. */
static int begins_an_integer(char before)
{
    return strchr(" \t=<>(,-", before) != NULL;
}

/* The kind of a line, which is never 0: lines are of the same one that are alike up to their first value, and about as long.
   So a line that is made anew for each key is known to be as quick as the one before. */
static uint32_t kind_of_line(const char *line, Py_ssize_t length)
{
    uint32_t kind = 2166136261u;
    for (Py_ssize_t at = 1; at < length; at++) {
        unsigned char mark = (unsigned char)line[at];
        if (mark <= '9' && (mark == '\'' || (mark >= '0' && begins_an_integer(line[at - 1]))))
            break;
        kind = (kind ^ mark) * 16777619u;
    }
    return (kind ^ ((uint32_t)length >> 4)) | 1;
}

Statement *kept_plain(Handle *handle, PyObject *line)
{
    Py_ssize_t length;
    const char *bytes = bytes_of(line, &length);
    if (bytes == NULL && PyErr_ExceptionMatches(PyExc_UnicodeEncodeError))
        PyErr_Clear();
    if (!is_plain(bytes, length))
        return NULL;
    Statement *statement = keep_new(handle, line);
    if (statement == NULL)
        return NULL;
    statement->placed = Py_NewRef(line);
    statement->line = Py_NewRef(line);
    statement->is_select = *bytes == 's';
    statement->kind = kind_of_line(bytes, length);
    return statement;
}

int kept_begin(void)
{
    kept_type = (PyTypeObject *)PyType_FromSpec(&kept_spec);
    return kept_type == NULL ? -1 : 0;
}
