/* What the parts of the extension share: statements, those that are kept by their lines, and databases.

   The extension does what library.py does by ctypes, over the library's archive. What goes well is done in it. What
   wants to be put in order, doesn't fit, or is refused is handed to the Python class that is made of the one here, by
   its methods `_perform`, `_stored_values`, `_stored_rows`, `_shaped`, `_refuse` and `_failed`. Where somebody watches
   its changes, they are noted and told by its methods `_note` and `_tell`.

   Each call has its turn, so that they come one after another. The interpreter's lock is released while the library is in
   a call that may last, so that other threads go on; those that call the same database wait for their turn. What may
   last: a line, a load, a close, a cursor, and the execution of a statement that isn't known to be quick. */
#ifndef MMDB_EXTENSION_H
#define MMDB_EXTENSION_H

#define PY_SSIZE_T_CLEAN
#define Py_LIMITED_API 0x030A0000
#include <Python.h>

#include "mmdb.h"

/* A function that takes its arguments one by one, as methods have it. */
#define FAST(function) ((PyCFunction)(void (*)(void))(function))

/* None. (Py_RETURN_NONE of later headers is wrong for earlier versions, where None is counted as any object is.) */
static inline PyObject *none(void)
{
    return Py_NewRef(Py_None);
}

/* What is known of how long executions take, of a statement or of a kind of lines. */
typedef struct {
    uint32_t kind;     /* of lines, or 0 */
    unsigned quick;    /* how many more executions are taken to be quick, and hold the interpreter's lock */
    int was_quick;     /* whether the last one was that was looked at */
    uint64_t commands; /* how many lines and loads there were when that was found */
} Pace;

/* After how many rows it is asked whether the user wants an end. */
#define ROWS_BETWEEN_SIGNALS 1024

/* How many kinds of lines a pace is known of at most. */
#define PACES 64

/* A statement. It is prepared where it wasn't yet, or was let go since. */
typedef struct {
    PyObject *placed;  /* the line, and where its parameters stand: Placed of lines.py; or a str without places */
    PyObject *line;    /* of these the bytes with a ? at each place, or that str */
    PyObject *names;   /* and the names of the places, or null where there are none */
    Py_ssize_t places; /* how many there are */
    Py_ssize_t wanted; /* how many values it wants, each name counted once */
    int is_select;
    int is_prepared;
    mmdb_statement given;
    PyObject *shape;       /* of the columns, or null, which is a tuple: Shape of rows.py */
    size_t columns;        /* how many these are */
    uint64_t declarations; /* how many declarations there were when they were asked for */
    uint32_t kind;         /* that of its line, whose pace it has; or 0, and it has its own */
    Pace pace;
    Pace pace_of_first, pace_of_count; /* those where its first rows are found, and where its rows are counted */
} Statement;

/* A statement that is kept by its line, and those that were used before it and after it. */
typedef struct Kept {
    PyObject_HEAD
    Statement statement;
    PyObject *line;
    struct Kept *older, *newer;
} Kept;

/* The turn of the calls on a database. */
typedef struct Turn {
    PyObject_HEAD
    PyThread_type_lock lock;
    PyThread_type_lock own; /* is taken in its place by a thread that keeps it, and so has the others wait */
    unsigned long keeper;   /* that thread, or 0 */
    unsigned depth;         /* how often it began to keep it */
} Turn;

typedef struct {
    PyObject_HEAD
    mmdb db;
    Turn *turn;
    PyObject *kept;        /* by each line its Kept */
    Kept *oldest, *newest; /* of these, by their last use */
    uint64_t declarations; /* what is known of columns is known as of one of these numbers */
    uint64_t commands;     /* how many lines and loads were done, which may make statements last that were quick */
    Pace paces[PACES];     /* of kinds of lines, by the kind */
    PyObject *converting;  /* the shape of the rows just found, where columns of it are read as other types; or null */
    uint32_t *let_go;      /* the numbers of statements that were let go while another call had its turn */
    size_t let_go_count;
    mmdb_interrupter interrupter; /* what asks the select that is under way to end */
    mmdb_interrupter by_signal;   /* and what does in a handler of signals; or none */
    uint64_t asks;                /* how often it was asked by the first of these */
    int is_watched;  /* whether changes are noted and told */
    int has_changed; /* whether a statement may have changed rows since that was done last */
} Handle;

/* Of a call that gives int or a pointer, -1 or null says that something was raised, where nothing else is told. Those
   that take a handle want its turn. */

/* What _turns.c has. */

/* Makes the type of turns. */
int turns_begin(void);

PyObject *new_turn(void);

/* Waits for a turn; takes it if nobody has it, and gives whether that was so; and ends it. */
void take(Turn *turn);
int take_now(Turn *turn);
void give(Turn *turn);

/* In a child of fork: the threads that had the turn aren't here, but for this one. */
int renew_turn(Turn *turn);

/* What _interrupts.c has: selects that are asked to end, by a thread or by Ctrl-C. */

/* A step of a call that may last: how it is taken, and with what. */
typedef struct Step {
    uint32_t (*take)(Handle *handle, struct Step *step);
    uint32_t statement;
    size_t most;
    mmdb_rows *rows;
    uint64_t count;
    mmdb_cursor *cursor;
} Step;

/* What is given in the place of an mmdb_status where something was raised. */
#define STEP_RAISED UINT32_MAX

/* Makes ready for children of fork. */
int interrupts_begin(void);

/* Opens what asks the selects of a handle to end. Gives an mmdb_status. */
uint32_t interrupts_open(Handle *handle);

/* Closes it. It wants no turn, and may be called again. */
void interrupts_close(Handle *handle);

/* Asks the select of a handle to end that is under way. It wants no turn. */
void interrupts_ask(Handle *handle);

/* Whether a step is taken to be quick, as one before it was. */
int is_quick(const Handle *handle, Pace *pace);

/* Takes a step while other threads go on, and notes whether it was quick. A select may be asked to end, by a signal only if the last
   one that was looked at wasn't quick. Gives an mmdb_status, or STEP_RAISED. */
uint32_t take_step(Handle *handle, Step *step, Pace *pace, int is_select);

/* The same of a select, which may be taken to be quick. */
uint32_t take_select(Handle *handle, Step *step, Pace *pace);

/* What _mmdb.c has. */

/* The type of databases. */
extern PyTypeObject *handle_type;

/* Ends the turn of a call, and gives what it found: rows with those columns read as other types that are to be. */
PyObject *ended(Handle *handle, PyObject *found);

/* Raises that nothing was raised where something had to be. Gives null. */
PyObject *nothing_raised(void);

/* What _prepared.c has: statements that are prepared by name. Makes the type of them, and puts it into the module. */
int prepared_begin(PyObject *module);

/* What _cursor.c has: selects that are read page by page. */

/* Makes the type of cursors, and puts it into the module. */
int cursor_begin(PyObject *module);

/* A cursor on the rows that a select shows with the stored values of a tuple. Gives None in a transaction. */
PyObject *cursor_of(Handle *handle, Statement *statement, PyObject *values);

/* What _rows.c has: rows and their values, which are made of cells. */

/* Makes what they share. */
int rows_begin(void);

/* Rows of a shape. How many bytes their cells and texts are is added to the size. */
PyObject *rows_of(PyObject *shape, const mmdb_rows *rows, size_t *size);

/* The values of a column, as a tuple. */
PyObject *column_of(const mmdb_rows *rows, size_t column);

/* What _statement.c has: what is done with one statement. */

/* Takes the fields of Placed, by their order. */
int statement_take(Statement *statement, PyObject *placed);

void statement_clear(Statement *statement);

/* Prepares a statement where it isn't. What refuses it tells why of a line whose places have nulls. */
int statement_prepare(Handle *handle, Statement *statement);

/* Lets a statement go, which may be prepared again. */
void statement_finalize(Handle *handle, Statement *statement);

/* Asks for the columns where they aren't known. Where it is refused, they stay unknown, and the execution is refused
   too. */
int statement_know_shape(Handle *handle, Statement *statement);

/* The names of its columns, whatever its values are. What refuses them tells why of a line whose places have nulls. */
PyObject *statement_names(Handle *handle, Statement *statement);

/* Does a statement with the values of a tuple. Gives its rows, or how many rows it was about. Gives null, and nothing is
   raised, where one of the values isn't stored as it is. */
PyObject *statement_done(Handle *handle, Statement *statement, PyObject *values);

/* Does it with the parameters of a call. Gives null, and nothing is raised, where they don't fit at the first look. */
PyObject *statement_done_by(Handle *handle, Statement *statement, PyObject *const *parameters, Py_ssize_t count,
                            PyObject *keywords);

/* Counts the rows that a select shows with the values of a tuple. Gives null, and nothing is raised, where one of the values
   isn't stored as it is. */
PyObject *statement_count(Handle *handle, Statement *statement, PyObject *values);

/* The first rows that a select shows, by a tuple of how many at most and of its values. Gives null, and nothing is raised, where one
   of the values isn't stored as it is. */
PyObject *statement_first(Handle *handle, Statement *statement, PyObject *asked);

/* Opens a cursor on the rows that a select shows with the values of a tuple, and gives their shape; or None in a transaction, where it
   isn't opened. Gives null, and nothing is raised, where one of the values isn't stored as it is. */
PyObject *statement_open_cursor(Handle *handle, Statement *statement, PyObject *values, mmdb_cursor *cursor);

/* Does an insert, an update or a delete with each row of a list of tuples, and gives how many rows all were about. Gives
   null, and nothing is raised or done, where one of the values isn't stored as it is. */
PyObject *statement_done_many(Handle *handle, Statement *statement, PyObject *rows);

/* Raises what a status says of a call. Gives -1. */
int handle_failed(Handle *handle, uint32_t status);

/* Values as a tuple; and the keywords of a call, with their values, as a dict. */
PyObject *tuple_of(PyObject *const *values, Py_ssize_t count);
PyObject *named_of(PyObject *const *values, PyObject *keywords);

/* The bytes of a line that is bytes or a str. Gives null, and why is raised, where that has none. */
const char *bytes_of(PyObject *line, Py_ssize_t *length);

/* What _kept.c has: statements that are kept by their lines, of which the longest unused go. */

/* Makes the type of them. */
int kept_begin(void);

/* The statement that is kept by a line, which is noted as used. Gives null also where there is none. */
Statement *kept_by(Handle *handle, PyObject *line);

/* The same, which is kept from now on where it wasn't. */
Statement *kept_anyway(Handle *handle, PyObject *line, PyObject *placed);

/* The statement of a line that isn't kept yet, where it has no places at the first look. Gives null also if it has. */
Statement *kept_plain(Handle *handle, PyObject *line);

void kept_forget_all(Handle *handle);

/* What _named.c has: tuples with names for their values. */

/* Makes the type of them, and puts it into the module. */
int named_begin(PyObject *module);

/* What _quotes.c has: where the first field of a CSV begins whose quote marks are odd, and whether it is open; or None. */
PyObject *odd_field(PyObject *module, PyObject *content);

/* What _records.c has: the records of a load with these rows, a list of tuples, where columns have letters: `i` for integers, `t` for
   texts, and large ones where nulls are taken too. Gives None where one of the values isn't stored there as it is. */
PyObject *plain_records(PyObject *module, PyObject *given);

/* The records of a load with fields of the lines of a CSV, and how many they are: of its bytes, which have no quote marks, the byte that
   separates fields, how many each line has, where those of the columns are, and whether they may need quote marks in a block. None where a
   line has another number of fields. */
PyObject *picked_lines(PyObject *module, PyObject *given);

/* Gives the memory of an object of one of the types here back. */
void free_object(PyObject *self);

#endif
