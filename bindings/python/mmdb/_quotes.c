/* Quote marks of a CSV that are odd. quotes.py says what they are, and has the same. */
#include "_mmdb.h"

#include <string.h>

static int ends_a_field(char mark)
{
    return mark == ',' || mark == '\r' || mark == '\n';
}

/* The mark that closes a field, whose content begins here. Null where none does. */
static const char *closing(const char *at, const char *end)
{
    while ((at = memchr(at, '"', (size_t)(end - at))) != NULL) {
        if (at + 1 == end || at[1] != '"')
            return at;
        at += 2;
    }
    return NULL;
}

/* The mark that opens the first field that is odd, and whether it is never closed. Null where there is none. */
static const char *odd_opening(const char *begin, const char *end, int *is_open)
{
    const char *at = begin;
    *is_open = 0;
    while ((at = memchr(at, '"', (size_t)(end - at))) != NULL) {
        const char *close = at;
        if (at == begin || ends_a_field(at[-1])) {
            close = closing(at + 1, end);
            *is_open = close == NULL;
            if (*is_open || (close + 1 < end && !ends_a_field(close[1])))
                return at;
        }
        at = close + 1;
    }
    return NULL;
}

PyObject *odd_field(PyObject *Py_UNUSED(module), PyObject *content)
{
    char *begin;
    Py_ssize_t length;
    int is_open;
    if (PyBytes_AsStringAndSize(content, &begin, &length) < 0)
        return NULL;
    const char *found;
    Py_BEGIN_ALLOW_THREADS
    found = odd_opening(begin, begin + length, &is_open);
    Py_END_ALLOW_THREADS
    return found == NULL ? none() : Py_BuildValue("nO", (Py_ssize_t)(found - begin), is_open ? Py_True : Py_False);
}
