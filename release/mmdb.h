/* mmdb: a relational database in main memory, in your own process. For C99 and C++11 and what came after them.

       mmdb db = MMDB_CLOSED;
       mmdb_bytes answer;
       if (mmdb_open(&db, MMDB_AUTO, MMDB_MOST, MMDB_MOST) == MMDB_DONE &&
           mmdb_command(&db, "table t (id int)", 16, &answer) == MMDB_DONE)
           fwrite(answer.at, 1, answer.length, stdout);
       mmdb_close(&db);

   A handle is one pointer, which is the library's. Make it MMDB_CLOSED before its first use; each call takes its
   address. Each handle is for one call at a time, whichever thread makes it, also where it is the second handle of a
   call. A lock, or a thread's start or end, orders the calls on a handle. Calls on two handles may run at the same time.
   Handles share no tables unless mmdb_share says so: then each of them reads the tables, and none changes them. To write,
   have every other handle leave first, and close every cursor. Nothing here but mmdb_interrupt is to be called from a
   signal handler.

   Nothing is kept on disk, and no call reads or writes a file or a socket. No call ends the process: one that runs out
   of memory gives MMDB_NO_MEMORY or `error 90`. Only mmdb_close frees what a handle holds, and what an interrupter, a
   restore or a cursor holds only the call that closes it.

   Bytes go in by a pointer and a length. They need no zero byte behind them, are read during the call alone, and stay
   the caller's. They are not what the same handle answered: to give that back to it, copy it first. None of the
   pointers of a call points into what another of them points to.

   A null pointer means the same everywhere. A null handle is a closed one, and null with the length 0 is no bytes.
   Null in the place of an answer, of a statement, of rows or of a count says that these aren't wanted. Null with any
   other length is MMDB_NO_LINE.

   What is done more than once, or with values that come from elsewhere, is best done by a statement. It is prepared
   once, its values are bound and not written into a line, and its rows are cells and not text to be read. The rows of a
   line that is done once are cells too, where mmdb_query does it.

       mmdb_statement insert;
       mmdb_rows rows;
       if (mmdb_prepare(&db, "insert t (?)", 12, &insert) == MMDB_DONE &&
           mmdb_bind_integer(&db, insert.number, 0, 7) == MMDB_DONE &&
           mmdb_execute(&db, insert.number, &rows) == MMDB_DONE)
           printf("%d\n", (int)rows.changed);

   What lines there are and how they are answered is told by docs/language.md, the calls at length by docs/c.md. */
#ifndef MMDB_H
#define MMDB_H

#include <stddef.h>
#include <stdint.h>

#ifdef __cplusplus
extern "C" {
#endif

/* The version of this header, which is that of its library. */
#define MMDB_VERSION "0.1.0"
#define MMDB_VERSION_MAJOR 0
#define MMDB_VERSION_MINOR 1
#define MMDB_VERSION_PATCH 0

/* An open database, or none where inside is null. It is never copied: a copy would be freed twice. */
typedef struct mmdb {
    void *inside;
} mmdb;

/* What ends the selects of a database, or nothing where inside is null. It is a handle of its own, and never copied. */
typedef struct mmdb_interrupter {
    void *inside;
} mmdb_interrupter;

/* A dump that is taken in, or nothing where inside is null. It is a handle of its own, and never copied. */
typedef struct mmdb_restore {
    void *inside;
} mmdb_restore;

/* The rows of a select that are read page by page, or none where inside is null. It is a handle of its own, and never
   copied. */
typedef struct mmdb_cursor {
    void *inside;
} mmdb_cursor;

/* Where a save goes on: MMDB_SAVE_BEGIN at first, and MMDB_SAVE_OVER in `part` behind the last piece. The rest is the
   library's. It holds nothing, and may be copied. */
typedef struct mmdb_save_mark {
    uint64_t version;
    size_t table;
    uint32_t part;
    uint32_t row;
} mmdb_save_mark;

#define MMDB_SAVE_BEGIN { 0, 0, 0, 0 }
#define MMDB_SAVE_OVER UINT32_C(5)

#ifdef __cplusplus
#define MMDB_CLOSED {}
#define MMDB_NO_INTERRUPTER {}
#define MMDB_NO_RESTORE {}
#define MMDB_NO_CURSOR {}
#else
#define MMDB_CLOSED { NULL }
#define MMDB_NO_INTERRUPTER { NULL }
#define MMDB_NO_RESTORE { NULL }
#define MMDB_NO_CURSOR { NULL }
#endif

/* Bytes that the library keeps. They do not end in a zero byte. `at` is never null, also of no bytes. */
typedef struct mmdb_bytes {
    const unsigned char *at;
    size_t length;
} mmdb_bytes;

/* What stands in a cell. */
typedef enum mmdb_kind { MMDB_NULL = 0, MMDB_INTEGER = 1, MMDB_TEXT = 2 } mmdb_kind;

/* A value: a null; an integer; or a text, by where it begins among the bytes of the texts of its rows, and how long it
   is. It has 16 bytes. */
typedef struct mmdb_cell {
    int64_t integer;
    uint32_t at;
    uint16_t length;
    uint16_t kind;
} mmdb_cell;

/* The cells of rows, one row behind the other: mmdb_cell_at finds one, and mmdb_text the bytes of its text. `changed`
   is how many rows an insert, an update or a delete was about. The cells and the texts are the library's. Neither
   pointer is ever null. */
typedef struct mmdb_rows {
    const mmdb_cell *cells;
    const unsigned char *texts;
    size_t rows;
    size_t columns;
    uint64_t changed;
} mmdb_rows;

/* A statement that was prepared: its number, by which the calls take it, and how many places it has. */
typedef struct mmdb_statement {
    uint32_t number;
    uint32_t places;
} mmdb_statement;

/* What a call gives. After each but MMDB_DONE an answer has no bytes, save that of MMDB_REFUSED, and the tables are as
   they were, save where a piece found no room for its answers. Of mmdb_command and mmdb_load MMDB_DONE says that a line
   was judged and answered; whether it was refused is told by the answer, and by mmdb_refusal. Of a statement MMDB_DONE
   says that it was done. */
typedef enum mmdb_status {
    MMDB_DONE = 0,
    MMDB_NOT_OPEN = 1,           /* the handle is closed, or null */
    MMDB_IS_OPEN = 2,            /* mmdb_open of a handle that is open, mmdb_clone and mmdb_restore_end into one;
                                    mmdb_interrupter_open, mmdb_restore_open and mmdb_cursor_open of what is open. It stays
                                    as it is */
    MMDB_NO_SUCH_POLICY = 3,     /* mmdb_open, mmdb_restore_open with a number that is none of mmdb_policy */
    MMDB_LIMIT_OUT_OF_RANGE = 4, /* mmdb_open, mmdb_restore_open with rows that are not 1 to MMDB_MOST, or a block past
                                    MMDB_MOST */
    MMDB_NO_LINE = 5,            /* a line that is null or has no bytes; a block, a piece or a name that is null and has
                                    some */
    MMDB_NOT_ONE_REQUEST = 6,    /* a line feed in a line; a line that asks for a block of another length than given */
    MMDB_NO_MEMORY = 7,          /* mmdb_open, mmdb_interrupter_open, mmdb_begin, mmdb_share, mmdb_leave, mmdb_clone,
                                    mmdb_prepare, mmdb_bind_text of more than 14 bytes, mmdb_save, mmdb_restore_open,
                                    mmdb_restore_take, mmdb_restore_end, mmdb_cursor_fetch, and the calls that tell a reason:
                                    none was found.
                                    mmdb_feed: none for the answers; the stream is over */
    MMDB_ENDED = 8,              /* mmdb_feed of a stream that is over; the other calls go on */
    MMDB_NO_SUCH_STATEMENT = 9,  /* the number names no statement, or one that was finalised */
    MMDB_NO_SUCH_PLACE = 10,     /* the statement has no place of that number */
    MMDB_NOT_UTF8 = 11,          /* mmdb_bind_text, mmdb_execute_many: a text is not UTF-8 */
    MMDB_REFUSED = 12,           /* mmdb_prepare, mmdb_execute, mmdb_execute_many, mmdb_first, mmdb_columns, mmdb_count,
                                    mmdb_cursor_open, mmdb_query, mmdb_plan, mmdb_version, mmdb_save: refused. mmdb_answer and
                                    mmdb_refusal tell why, as `error 41 key exists` and a line feed; nothing changed.
                                    mmdb_restore_take: a line of the dump was refused */
    MMDB_TOO_LARGE = 13,         /* mmdb_execute, mmdb_first, mmdb_cursor_fetch, mmdb_query: the texts of the rows are more than
                                    4 GiB together; mmdb_prepare: the database has 4294967296 statements; mmdb_count,
                                    mmdb_execute_many: there are 2^64 rows or more. Nothing changed */
    MMDB_SHARED = 14,            /* mmdb_command, mmdb_load, mmdb_execute, mmdb_execute_many and mmdb_query of a change;
                                    mmdb_feed, mmdb_begin: another handle shares the tables, or a cursor on them is open.
                                    Nothing changed */
    MMDB_NO_TRANSACTION = 15,    /* mmdb_commit, mmdb_rollback: no transaction is open */
    MMDB_IN_TRANSACTION = 16,    /* mmdb_share, mmdb_leave, mmdb_clone, mmdb_cursor_open: a transaction is open. Nothing
                                    changed */
    MMDB_NOT_ROWS = 17,          /* mmdb_execute_many: the cells are no rows of the statement's values. Nothing changed */
    MMDB_INTERRUPTED = 18,       /* mmdb_execute, mmdb_first, mmdb_count, mmdb_cursor_open and mmdb_query of a select:
                                    mmdb_interrupt ended it while it was under way. Nothing changed */
    MMDB_NOT_A_DUMP = 19,        /* mmdb_restore_take, mmdb_restore_end: what came is no dump, or not a whole one */
    MMDB_CHANGED = 20            /* mmdb_save: a table was changed since the save began */
} mmdb_status;

/* How plans are chosen. No policy changes an answer, only what it costs. MMDB_AUTO is the one to take. */
typedef enum mmdb_policy {
    MMDB_AUTO = 0,
    MMDB_SCAN = 1,
    MMDB_HASH = 2,
    MMDB_TREE = 3,
    MMDB_MERGE = 4
} mmdb_policy;

/* The greatest number of rows of a table, and of bytes of a block. */
#define MMDB_MOST UINT32_C(16777216)

/* The calls. Each gives an mmdb_status, but for the seven that say otherwise or give nothing. */

/* Opens a database without tables. A table takes `rows` rows at most, from 1 to MMDB_MOST, and a block that is loaded
   or dumped has `block` bytes at most, from 0 to MMDB_MOST; no memory is taken ahead for either.
   Gives MMDB_DONE, and then the handle is open until mmdb_close; or MMDB_NOT_OPEN where db is null, MMDB_IS_OPEN,
   MMDB_NO_SUCH_POLICY, MMDB_LIMIT_OUT_OF_RANGE or MMDB_NO_MEMORY, and then it is as it was. */
uint32_t mmdb_open(mmdb *db, uint32_t policy, uint32_t rows, uint32_t block);

/* Answers one line, which has no line feed. One carriage return at its end is dropped, so the line may be what stands
   before a line feed in any file. A line that asks for a block, as `load T 20` does, goes to mmdb_load.
   Gives MMDB_DONE and the answer, which is good until the next call on this handle: the bytes that the program mmdb
   writes for the line, none for blanks and comments. Or gives MMDB_NOT_OPEN, MMDB_NO_LINE or MMDB_NOT_ONE_REQUEST; or
   MMDB_SHARED where another handle shares the tables, and the line is right by its names and values and would change
   them: a select, `tables`, `dump` and a line that is wrong are answered as ever. */
uint32_t mmdb_command(mmdb *db, const void *line, size_t length, mmdb_bytes *answer);

/* Answers one line with the block that it asks for: `load T 20` with 20 bytes. Answer and statuses are as those of
   mmdb_command; MMDB_NOT_ONE_REQUEST is also given where the line asks for no block and one is given. */
uint32_t mmdb_load(mmdb *db, const void *line, size_t length, const void *block, size_t block_length,
                   mmdb_bytes *answer);

/* Prepares an insert, an update, a delete or a select in which each ? that stands in no text is the place of a value.
   Places are numbered from 0 as they stand. One carriage return at the line's end is dropped. The statement is kept
   until mmdb_finalize or mmdb_close, whatever becomes of the tables.
   Gives MMDB_DONE and the statement, whose places have nulls. Or gives MMDB_NOT_OPEN, MMDB_NO_LINE or MMDB_NO_MEMORY;
   or MMDB_REFUSED, in this order: by 10 where the line is too long, by 11 where it is not UTF-8, by 20 where it spells
   no statement, as with a line feed in it, blanks, comments and all other commands, or by what the names and the given
   values are refused by (30, 32, 33, 34, 35, 45). Or gives MMDB_TOO_LARGE where there are 4294967296 statements. Then
   there is no statement. */
uint32_t mmdb_prepare(mmdb *db, const void *line, size_t length, mmdb_statement *statement);

/* Puts a value into a place of a statement, by their numbers. It stays until another is bound there, also while the
   statement is executed. A text is copied; it may hold line feeds, as no line can, and each byte that UTF-8 lets it.
   Gives MMDB_DONE; or MMDB_NOT_OPEN, MMDB_NO_SUCH_STATEMENT or MMDB_NO_SUCH_PLACE; of a text also MMDB_NO_LINE where it
   is null and has a length, MMDB_NOT_UTF8, or MMDB_NO_MEMORY where it has more than 14 bytes: an integer, a null and a
   text of at most 14 bytes need no memory. After any but MMDB_DONE all is as it was. The answers are left as they
   are. */
uint32_t mmdb_bind_integer(mmdb *db, uint32_t statement, uint32_t place, int64_t value);
uint32_t mmdb_bind_text(mmdb *db, uint32_t statement, uint32_t place, const void *text, size_t length);
uint32_t mmdb_bind_null(mmdb *db, uint32_t statement, uint32_t place);

/* Does what the command with the bound values does.
   Gives MMDB_DONE: and of a select its rows, which are good until this statement is executed again, asked for its first
   rows or finalised, or the handle is closed; of the others `changed`, and no rows. Or gives MMDB_REFUSED as the line
   with these values would be, in the same order, and by 90 when out of memory; MMDB_TOO_LARGE where the texts of its rows
   are more than 4 GiB together; MMDB_SHARED where it is no select, its names and values are right, and another handle
   shares the tables; MMDB_INTERRUPTED of a select; or MMDB_NOT_OPEN or MMDB_NO_SUCH_STATEMENT. */
uint32_t mmdb_execute(mmdb *db, uint32_t statement, mmdb_rows *rows);

/* Does what an insert, an update or a delete does with many rows of values: all of them, or none. There are `count` cells,
   a row behind the other, each with a cell for every place of the statement; those that mmdb_execute gave of a select will
   do. A text lies among the bytes at `texts`, from `at` on. The values are copied where they are kept, and those that are
   bound stay. Of each row the values are judged first, in the order of the rows, and then the rows are done one after the
   other. Where an insert makes many rows they go in by rising keys, as those of a load do.
   Gives MMDB_DONE and in `changed` how many rows of tables were changed in all. Or gives MMDB_REFUSED as mmdb_execute would
   of the first row that is refused: 41, 42 and 43 have the number of that row, counted from 1, as `error 41 key exists
   (record 3)`; by 20 of a select; by 90 when out of memory. Or gives MMDB_NOT_ROWS where the cells are no multiple of the
   places, a kind is none of mmdb_kind, or a text lies elsewhere; MMDB_NOT_UTF8; MMDB_SHARED as mmdb_execute does;
   MMDB_TOO_LARGE; or MMDB_NOT_OPEN or MMDB_NO_SUCH_STATEMENT. Then nothing has changed. */
uint32_t mmdb_execute_many(mmdb *db, uint32_t statement, const mmdb_cell *cells, size_t count, const void *texts,
                           size_t texts_length, uint64_t *changed);

/* The columns that the rows of a select have, whatever values are bound: a row for each, of two cells, its name as T.c
   and its kind, which is the integer MMDB_INTEGER or MMDB_TEXT. Another statement has no columns. They are good until
   the next call on this handle.
   Gives MMDB_DONE and the columns; or MMDB_REFUSED where mmdb_prepare of the line would be refused now, as by 30 once
   its table is dropped, or by 90 when out of memory; or MMDB_NOT_OPEN or MMDB_NO_SUCH_STATEMENT. */
uint32_t mmdb_columns(mmdb *db, uint32_t statement, mmdb_rows *columns);

/* How many rows a select shows with the bound values: as many as mmdb_execute would give. They are counted and not kept,
   and what the statement has shown stays. The rows of one whole table are counted without a look at them.
   Gives MMDB_DONE and the count; or MMDB_REFUSED as mmdb_execute would be, in the same order, or else by 20 where the
   statement is no select, which is not done; or MMDB_TOO_LARGE where there are 2^64 rows or more; or MMDB_INTERRUPTED,
   MMDB_NOT_OPEN or MMDB_NO_SUCH_STATEMENT. */
uint32_t mmdb_count(mmdb *db, uint32_t statement, uint64_t *count);

/* The first rows that a select shows with the bound values, so many at most, in the order in which mmdb_execute gives all.
   They come in the place of what this statement has shown, and are good as long. Where most is 0 there are none, and the
   number of columns is given. Rows of one table are walked in the order of their keys, from the first that the conditions
   let pass, and no more are looked at than it takes, unless an index on another column finds them. (Where few pass, each
   row may be looked at first.) With `distinct` and with joins all are found first. So `where id > ?` with the last key of
   one page gives the next, and nothing is held between two pages, while the tables may change.
   Gives MMDB_DONE and the rows; or MMDB_REFUSED as mmdb_execute would be, in the same order, or else by 20 where the
   statement is no select, which is not done; or MMDB_TOO_LARGE where the texts of these rows are more than 4 GiB together;
   or MMDB_INTERRUPTED, MMDB_NOT_OPEN or MMDB_NO_SUCH_STATEMENT. */
uint32_t mmdb_first(mmdb *db, uint32_t statement, size_t most, mmdb_rows *rows);

/* Opens a cursor on the rows that a select shows with the bound values, to be read page by page by mmdb_cursor_fetch, in the
   order in which mmdb_execute gives all. They are found now and kept as references to the rows of the tables, 32 bytes a row
   or twice that, and no cell is made yet; what the statement has shown stays. Joins and `distinct` are what it is for: of one
   table, mmdb_first and the last key go on with nothing held. The cursor holds the tables, as a second handle does that
   shares them: until it is closed no handle changes them (MMDB_SHARED), and all may read. It needs its statement no longer,
   and outlives its database. It may be read by another thread than its database.
   Gives MMDB_DONE, and then the cursor is open until mmdb_cursor_close; or MMDB_NOT_OPEN where db is closed or a handle is
   null; or MMDB_IS_OPEN where the cursor is open; or MMDB_NO_SUCH_STATEMENT; or MMDB_IN_TRANSACTION; or MMDB_REFUSED as
   mmdb_execute would be, in the same order, or else by 20 where the statement is no select; or MMDB_INTERRUPTED. Then the
   cursor is as it was. */
uint32_t mmdb_cursor_open(mmdb *db, uint32_t statement, mmdb_cursor *cursor);

/* Reads the next rows of a cursor, so many at most: behind the last there are none. They are good until the next call on
   this cursor. Where most is 0 none is read, and the number of columns is given.
   Gives MMDB_DONE and the rows; or MMDB_NOT_OPEN where the cursor is closed or null; or MMDB_NO_MEMORY; or MMDB_TOO_LARGE
   where the texts of these rows are more than 4 GiB together. Then none was read, and fewer can be asked for. */
uint32_t mmdb_cursor_fetch(mmdb_cursor *cursor, size_t most, mmdb_rows *rows);

/* Closes a cursor and frees what it holds. It is MMDB_NO_CURSOR then, and may be opened again. Of a closed one and of null
   nothing is done. */
void mmdb_cursor_close(mmdb_cursor *cursor);

/* Frees a statement: its rows are good no longer, and its number may be given to another. It needs no memory. The
   answers are left as they are.
   Gives MMDB_DONE; or MMDB_NOT_OPEN or MMDB_NO_SUCH_STATEMENT. */
uint32_t mmdb_finalize(mmdb *db, uint32_t statement);

/* Does the insert, the update, the delete or the select that a line spells, as mmdb_command does, and gives what
   mmdb_execute would: rows as cells, or `changed`. No statement is kept. One carriage return at the line's end is
   dropped.
   Gives MMDB_DONE: and of a select its rows, which are good until the next mmdb_query on this handle or mmdb_close,
   whatever other calls there are; of the others `changed`, and no rows. Or gives MMDB_NOT_OPEN or MMDB_NO_LINE; or
   MMDB_REFUSED as mmdb_command would be answered, in the same order, and by 90 when out of memory. A line feed, a ? in
   no text, blanks, comments and all other commands are 20, once the line is neither too long (10) nor other than UTF-8
   (11). Or gives MMDB_TOO_LARGE where the texts of the rows are more than 4 GiB together; or MMDB_SHARED or
   MMDB_INTERRUPTED as mmdb_execute does. */
uint32_t mmdb_query(mmdb *db, const void *line, size_t length, mmdb_rows *rows);

/* Opens what ends the selects of a handle. Several may be opened of one handle, and each is closed by itself. One that
   outlives its database does nothing from then on. A handle keeps its interrupters where it shares tables and leaves them;
   a reader that mmdb_share opens, and a copy, begin with none.
   Gives MMDB_DONE, and then the interrupter is open until mmdb_interrupter_close; or MMDB_NOT_OPEN where db is closed or a
   handle is null, MMDB_IS_OPEN where the interrupter is open, or MMDB_NO_MEMORY. Then it is as it was. */
uint32_t mmdb_interrupter_open(mmdb *db, mmdb_interrupter *interrupter);

/* Asks the select that is under way in a call on that handle to end; mmdb_execute, mmdb_first, mmdb_count,
   mmdb_cursor_open or mmdb_query then gives MMDB_INTERRUPTED. Where none is under way nothing comes of it, as each select
   begins unasked. It is called from any thread, also while the handle is in a call, and from a signal handler: it takes no
   memory and no lock, and waits for nothing. Who interrupts from two threads, or from one and from a handler, opens two
   interrupters. The select looks once for each row or pair that it joins, walks or shows. It doesn't look while it searches
   one table, joins by following references, makes a hash of one for a join, sorts what it found, or tells rows apart for
   `distinct`. Each of these takes some seconds at most for a million rows. No change is cut, nor an answer of mmdb_command,
   mmdb_load and mmdb_feed, nor what mmdb_cursor_fetch reads. Of a closed interrupter and of null nothing is done. */
void mmdb_interrupt(mmdb_interrupter *interrupter);

/* Closes an interrupter and frees it, while no mmdb_interrupt is in it. It is MMDB_NO_INTERRUPTER then, and may be opened
   again. Of a closed one and of null nothing is done. */
void mmdb_interrupter_close(mmdb_interrupter *interrupter);

/* Takes the next bytes of a stream of lines and blocks, cut wherever it may be, and answers each request that ends in
   them, at its line feed or with the last byte of its block; mmdb_answer gives these answers. A request whose end is
   yet to come waits for the next piece. mmdb_command and mmdb_load stand beside the stream and leave what waits.
   Gives MMDB_DONE; MMDB_NOT_OPEN; MMDB_NO_LINE; MMDB_NO_MEMORY where the answers found no room, and then the stream is
   over, and requests of this piece may have been done; MMDB_ENDED where it was over before; or MMDB_SHARED, and then the
   piece was not taken, and the last answers have no bytes. */
uint32_t mmdb_feed(mmdb *db, const void *piece, size_t length);

/* Tells how the indexes of a table stand, by its name, beside the stream; it changes nothing. The answer is as that of a
   select: `rows N`, the line `column,kind,rows,height,nodes,fill,buckets,longest`, and a record for each index, the tree of
   the key first, then the declared ones in their order. A tree has its height, its nodes, and in fill how many rows stand
   in a node in the mean; a hash has its buckets, and in longest how many rows stand in the fullest. The other fields are
   empty. Where there is no such table the answer is a refusal: 30, or 11 where the name is not UTF-8.
   Gives MMDB_DONE and the answer, which is good until the next call on this handle. Or gives MMDB_NOT_OPEN, or
   MMDB_NO_LINE where the name is null and has a length. */
uint32_t mmdb_indexes(mmdb *db, const void *table, size_t length, mmdb_bytes *answer);

/* Tells the number of the newest change of the table of a name, beside the stream, so that whoever keeps something beside
   the table sees that it is old; it changes nothing. Where the name has no bytes it is the number of the newest change of
   any table. Each command or statement that inserts, changes or deletes rows of a table raises that of the table and that
   of all. Declaring and dropping a table raises that of all, and a rollback that of every table. What is about no row
   raises none, nor does what is refused, but for an mmdb_execute_many, which may as a rollback does. A table that is
   declared anew has a greater number than any had before. Handles that share tables are told the same numbers.
   Gives MMDB_DONE and the number, and the last answers have no bytes then; or MMDB_NOT_OPEN; or MMDB_NO_LINE where the
   name is null and has a length; or MMDB_REFUSED, and the refusal is the answer: 30 where there is no such table, 11 where
   the name is not UTF-8, 90 when out of memory. */
uint32_t mmdb_version(mmdb *db, const void *table, size_t length, uint64_t *version);

/* Tells the plan of the select that a line spells, beside the stream; the select is not done, and nothing changes. The
   answer has a line for each step: how the rows of the first table are found, each join, and how rows are shown. It is for
   people, and its words may change from version to version. One carriage return at the line's end is dropped.
   Gives MMDB_DONE and the answer, which is good until the next call on this handle; or MMDB_NOT_OPEN or MMDB_NO_LINE; or
   MMDB_REFUSED and the refusal: as mmdb_query would be refused, or by 20 where the line spells an insert, an update or a
   delete, or by 90 when out of memory. */
uint32_t mmdb_plan(mmdb *db, const void *line, size_t length, mmdb_bytes *answer);

/* The answers of the last call that was done or refused, one behind the other: of the piece that was fed, or of the
   line. Of a piece whose answers found no room it is a front of them. Where a statement was prepared, executed, counted or
   asked for its first rows, its columns or a cursor, or a line queried, they are its refusal, or no bytes. Any other call
   leaves them as they are: one that binds or finalises, and one that can't be answered, as of a number that names no
   statement.
   Gives MMDB_DONE, and bytes that are good until the next call but this one, mmdb_refusal and those that tell a reason;
   or MMDB_NOT_OPEN. */
uint32_t mmdb_answer(mmdb *db, mmdb_bytes *answer);

/* Gives no status, but the number of the refusal that the last answers begin with, as 41 of `error 41 key exists`; or
   0 where they begin with none, or there are none, or the handle is closed. */
uint32_t mmdb_refusal(mmdb *db);

/* Why a line was refused, with the block that it asks for, in one line of English: for people, who are told what stands
   at which column, or which name, column, value or row it was. It is asked right behind the mmdb_command, mmdb_load,
   mmdb_query or mmdb_plan that was refused, while the tables are as they were, and changes neither them nor the answers.
   What the words are may change from version to version; the number of the refusal doesn't.
   Gives MMDB_DONE and the words, which are good until the next call on this handle: no bytes where the last answers
   begin with no refusal, or it is none of this line. Or gives MMDB_NOT_OPEN, MMDB_NO_LINE, or MMDB_NO_MEMORY where none
   was found for the words. */
uint32_t mmdb_reason(mmdb *db, const void *line, size_t length, const void *block, size_t block_length,
                     mmdb_bytes *reason);

/* Why a line was refused by mmdb_prepare, in words as those of mmdb_reason. The line is the one that was given, with each
   ? that it has, and columns count its characters. It is asked right behind that call. It also tells why mmdb_query
   refused a line that is another command than an insert, an update, a delete or a select.
   Gives MMDB_DONE and the words, as mmdb_reason does; or MMDB_NOT_OPEN, MMDB_NO_LINE or MMDB_NO_MEMORY. */
uint32_t mmdb_prepare_reason(mmdb *db, const void *line, size_t length, mmdb_bytes *reason);

/* Why a statement was refused by mmdb_execute, mmdb_columns, mmdb_count, mmdb_first or mmdb_cursor_open, in words as those
   of mmdb_reason. It is asked right behind that call, with the values still bound. Where a value is to blame that was bound
   to a ?, the words begin with the column at which this ? stands in the line that was prepared, as `column 11: t has a row
   with the key 1`. Tables, statements, rows and answers stay as they are.
   Gives MMDB_DONE and the words, which are good until the next call on this handle: no bytes where the last answers begin
   with no refusal, or it is none of this statement. Or gives MMDB_NOT_OPEN, MMDB_NO_SUCH_STATEMENT, or MMDB_NO_MEMORY
   where none was found for the words. */
uint32_t mmdb_statement_reason(mmdb *db, uint32_t statement, mmdb_bytes *reason);

/* Begins a transaction, in those of the handle that are open: a second is a savepoint of the first. The stream, the
   statements, the rows and the answers stay, here and where a transaction ends. In it all is done that is done outside,
   but for mmdb_share, mmdb_leave, mmdb_clone and mmdb_cursor_open.
   Gives MMDB_DONE; or MMDB_NOT_OPEN, MMDB_NO_MEMORY or MMDB_SHARED, and then none has begun. */
uint32_t mmdb_begin(mmdb *db);

/* Ends the innermost transaction. After mmdb_commit the tables stay as they are; after mmdb_rollback they are those that it
   began with, whatever was done since. A rollback needs no memory.
   Gives MMDB_DONE; or MMDB_NOT_OPEN or MMDB_NO_TRANSACTION, and then all is as it was. */
uint32_t mmdb_commit(mmdb *db);
uint32_t mmdb_rollback(mmdb *db);

/* Gives no status, but how many transactions are open: 0 also of a closed handle. */
size_t mmdb_transactions(mmdb *db);

/* Has a second handle share the tables of a first, and its stream, in the place of its own. A closed reader is open then,
   without statements. Where it was open, its statements with their values, its rows and its answers stay. All is as it
   was of db. While two handles share tables, each reads them by mmdb_command, mmdb_execute and mmdb_query of a select, by
   mmdb_command of `tables` and `dump`, and by mmdb_columns, mmdb_count, mmdb_first, mmdb_cursor_open, mmdb_plan, mmdb_indexes,
   mmdb_version, mmdb_save and mmdb_clone; neither changes them (MMDB_SHARED). Both are in a call here.
   Gives MMDB_DONE; or MMDB_NOT_OPEN where db is closed or a handle is null, MMDB_IN_TRANSACTION where a transaction of
   either is open, or MMDB_NO_MEMORY, and then reader is as it was. */
uint32_t mmdb_share(mmdb *db, mmdb *reader);

/* Has a handle leave its tables, which are freed where no other handle shares them. It has none then, and a new stream.
   Its statements with their values, its rows and its answers stay: a statement is refused by 30 until the handle shares
   or declares its tables again.
   Gives MMDB_DONE; or MMDB_NOT_OPEN, MMDB_IN_TRANSACTION, or MMDB_NO_MEMORY where it has shared its tables with none, and
   then it is as it was. */
uint32_t mmdb_leave(mmdb *reader);

/* Opens a second handle with a copy of the tables of a first: the same declarations, indexes and rows, under the same
   limits and the same policy, in memory of its own. The copy has no statements, and a new stream. It takes time for the
   rows and the indexes as they lie in memory, and compares nothing. All is as it was of db, which may be a reader.
   Gives MMDB_DONE; or MMDB_NOT_OPEN where db is closed or a handle is null, MMDB_IS_OPEN where copy is open,
   MMDB_IN_TRANSACTION where a transaction of db is open, or MMDB_NO_MEMORY. Then copy is as it was. */
uint32_t mmdb_clone(mmdb *db, mmdb *copy);

/* Makes the next piece of a dump: the bytes that declare all tables, their rows and their indexes, so that these lines and
   blocks make an empty database like this one. They are what the shell's .dump writes and mmdb_restore_take reads. The
   mark is MMDB_SAVE_BEGIN at first and goes on by each piece; once `part` is MMDB_SAVE_OVER the dump is whole, and there
   are only pieces of no bytes. A piece has one block at most, of 16384 rows at most; some have no bytes. Nothing is held
   between two calls, so who stops early frees nothing. In a transaction its changes are saved too.

       mmdb_save_mark mark = MMDB_SAVE_BEGIN;
       while (mark.part != MMDB_SAVE_OVER && (status = mmdb_save(&db, &mark, &piece)) == MMDB_DONE)
           fwrite(piece.at, 1, piece.length, file);

   Gives MMDB_DONE and the piece, which is good until the next call on this handle. Or gives MMDB_NOT_OPEN where db is
   closed or null, or the mark is null; MMDB_CHANGED where a table was changed, declared or dropped since the first piece,
   and the save begins anew; MMDB_NO_MEMORY; or MMDB_REFUSED where no dump can hold a row: by 64 where it has no room in a
   block, by 20 where its key has a line feed and a reference of it that takes nulls is the empty text. Then the mark is as
   it was. */
uint32_t mmdb_save(mmdb *db, mmdb_save_mark *mark, mmdb_bytes *piece);

/* Opens what takes in a dump, to open a database of it under this policy and these limits, which are those of mmdb_open.
   Gives MMDB_DONE, and then the restore is open until mmdb_restore_end or mmdb_restore_close; or MMDB_NOT_OPEN where it is
   null, MMDB_IS_OPEN, MMDB_NO_SUCH_POLICY, MMDB_LIMIT_OUT_OF_RANGE or MMDB_NO_MEMORY, and then it is as it was. */
uint32_t mmdb_restore_open(mmdb_restore *restore, uint32_t policy, uint32_t rows, uint32_t block);

/* Takes in the next bytes of a dump, cut wherever it may be, and does the lines that end in them.
   Gives MMDB_DONE; or MMDB_NOT_OPEN; MMDB_NO_LINE; MMDB_NO_MEMORY; MMDB_NOT_A_DUMP where the bytes so far don't begin as
   a dump, or an earlier piece was not taken; or MMDB_REFUSED where a line is refused, with its answer, which is good until
   the next call on this restore: `error 41 key exists (record 3)` and a line feed, say. Then no further piece is taken, and
   there is no database. */
uint32_t mmdb_restore_take(mmdb_restore *restore, const void *piece, size_t length, mmdb_bytes *answer);

/* Opens a database of a dump that was taken in whole, and closes the restore.
   Gives MMDB_DONE, and then db is open; or MMDB_NOT_OPEN where the restore is closed or a handle is null, MMDB_IS_OPEN
   where db is open, MMDB_NOT_A_DUMP where the bytes so far don't end as a dump of these tables and rows, or a piece was not
   taken, or MMDB_NO_MEMORY. Then both are as they were. */
uint32_t mmdb_restore_end(mmdb_restore *restore, mmdb *db);

/* Closes a restore and frees what was taken in. It is MMDB_NO_RESTORE then, and may be opened again. Of a closed one and of
   null nothing is done. */
void mmdb_restore_close(mmdb_restore *restore);

/* Closes a handle and frees all that it holds; its answers are no longer valid. Tables that another handle shares stay.
   It is MMDB_CLOSED then, and may be opened again. Of a closed handle and of null nothing is done. */
void mmdb_close(mmdb *db);

/* The cell of a row and a column, both numbered from 0. Neither is past the last: that isn't checked. */
static inline const mmdb_cell *mmdb_cell_at(const mmdb_rows *rows, size_t row, size_t column)
{
    return rows->cells + row * rows->columns + column;
}

/* The bytes of a cell's text, which are good as long as the rows are. */
static inline mmdb_bytes mmdb_text(const mmdb_rows *rows, const mmdb_cell *cell)
{
    mmdb_bytes text = { rows->texts + cell->at, cell->length };
    return text;
}

/* Words for a status, which stay good. */
static inline const char *mmdb_status_text(uint32_t status)
{
    switch (status) {
    case MMDB_DONE: return "done";
    case MMDB_NOT_OPEN: return "the database is not open";
    case MMDB_IS_OPEN: return "the handle is open already";
    case MMDB_NO_SUCH_POLICY: return "no such policy";
    case MMDB_LIMIT_OUT_OF_RANGE: return "a limit is out of range";
    case MMDB_NO_LINE: return "no line, or null with a length";
    case MMDB_NOT_ONE_REQUEST: return "not one line with the block that it asks for";
    case MMDB_NO_MEMORY: return "no memory";
    case MMDB_ENDED: return "the stream is over";
    case MMDB_NO_SUCH_STATEMENT: return "no such statement";
    case MMDB_NO_SUCH_PLACE: return "the statement has no such place";
    case MMDB_NOT_UTF8: return "the text is not UTF-8";
    case MMDB_REFUSED: return "refused, as the answer tells";
    case MMDB_TOO_LARGE: return "more than 4 GiB of texts, 4294967296 statements, or 2^64 rows to count";
    case MMDB_SHARED: return "another handle shares the tables";
    case MMDB_NO_TRANSACTION: return "no transaction is open";
    case MMDB_IN_TRANSACTION: return "not done in a transaction";
    case MMDB_NOT_ROWS: return "the cells are no rows of the statement's values";
    case MMDB_INTERRUPTED: return "the select was interrupted";
    case MMDB_NOT_A_DUMP: return "no dump, or not a whole one";
    case MMDB_CHANGED: return "a table was changed since the save began";
    default: return "no such status";
    }
}

/* From here on: how null is met. The library's own functions, which are those above, take no null pointer, not even to
   no bytes. So a program calls them through the functions below, under the same names, and these cost no call. Who
   reaches the library without this header, from another language or by dlsym, sees to it that no pointer is null. */

static inline int mmdb_checked_is_closed(const mmdb *db)
{
    return !db || !db->inside;
}

/* What the library gives, as a status. */
static inline mmdb_status mmdb_checked_status(uint32_t status)
{
#ifdef __cplusplus
    return static_cast<mmdb_status>(status);
#else
    return (mmdb_status)status;
#endif
}

static inline const void *mmdb_checked_bytes(const void *bytes)
{
    return bytes ? bytes : "";
}

/* Where the answer goes: to the caller, or where it isn't wanted to a place of its own. It has no bytes at first. */
static inline mmdb_bytes *mmdb_checked_answer_at(mmdb_bytes *answer, mmdb_bytes *unwanted)
{
    static const unsigned char no_bytes[1] = { 0 };
    mmdb_bytes *to = answer ? answer : unwanted;
    to->at = no_bytes;
    to->length = 0;
    return to;
}

/* Where rows go: as answers do. There are none at first. */
static inline mmdb_rows *mmdb_checked_rows_at(mmdb_rows *rows, mmdb_rows *unwanted)
{
    static const mmdb_cell no_cell = { 0, 0, 0, MMDB_NULL };
    static const unsigned char no_bytes[1] = { 0 };
    mmdb_rows *to = rows ? rows : unwanted;
    to->cells = &no_cell;
    to->texts = no_bytes;
    to->rows = 0;
    to->columns = 0;
    to->changed = 0;
    return to;
}

/* Where a statement goes: as answers do. At first its number names none. */
static inline mmdb_statement *mmdb_checked_statement_at(mmdb_statement *statement, mmdb_statement *unwanted)
{
    mmdb_statement *to = statement ? statement : unwanted;
    to->number = UINT32_MAX;
    to->places = 0;
    return to;
}

static inline mmdb_status mmdb_checked_open(mmdb *db, uint32_t policy, uint32_t rows, uint32_t block)
{
    return !db ? MMDB_NOT_OPEN : mmdb_checked_status(mmdb_open(db, policy, rows, block));
}

static inline mmdb_status mmdb_checked_command(mmdb *db, const void *line, size_t length, mmdb_bytes *answer)
{
    mmdb_bytes unwanted;
    mmdb_bytes *to = mmdb_checked_answer_at(answer, &unwanted);
    if (mmdb_checked_is_closed(db))
        return MMDB_NOT_OPEN;
    return line ? mmdb_checked_status(mmdb_command(db, line, length, to)) : MMDB_NO_LINE;
}

static inline mmdb_status mmdb_checked_load(mmdb *db, const void *line, size_t length, const void *block,
                                            size_t block_length, mmdb_bytes *answer)
{
    mmdb_bytes unwanted;
    mmdb_bytes *to = mmdb_checked_answer_at(answer, &unwanted);
    if (mmdb_checked_is_closed(db))
        return MMDB_NOT_OPEN;
    if (!line || (!block && block_length != 0))
        return MMDB_NO_LINE;
    return mmdb_checked_status(mmdb_load(db, line, length, mmdb_checked_bytes(block), block_length, to));
}

static inline mmdb_status mmdb_checked_prepare(mmdb *db, const void *line, size_t length, mmdb_statement *statement)
{
    mmdb_statement unwanted;
    mmdb_statement *to = mmdb_checked_statement_at(statement, &unwanted);
    if (mmdb_checked_is_closed(db))
        return MMDB_NOT_OPEN;
    return line ? mmdb_checked_status(mmdb_prepare(db, line, length, to)) : MMDB_NO_LINE;
}

static inline mmdb_status mmdb_checked_bind_integer(mmdb *db, uint32_t statement, uint32_t place, int64_t value)
{
    if (mmdb_checked_is_closed(db))
        return MMDB_NOT_OPEN;
    return mmdb_checked_status(mmdb_bind_integer(db, statement, place, value));
}

static inline mmdb_status mmdb_checked_bind_text(mmdb *db, uint32_t statement, uint32_t place, const void *text,
                                                 size_t length)
{
    if (mmdb_checked_is_closed(db))
        return MMDB_NOT_OPEN;
    if (!text && length != 0)
        return MMDB_NO_LINE;
    return mmdb_checked_status(mmdb_bind_text(db, statement, place, mmdb_checked_bytes(text), length));
}

static inline mmdb_status mmdb_checked_bind_null(mmdb *db, uint32_t statement, uint32_t place)
{
    return mmdb_checked_is_closed(db) ? MMDB_NOT_OPEN : mmdb_checked_status(mmdb_bind_null(db, statement, place));
}

static inline mmdb_status mmdb_checked_execute(mmdb *db, uint32_t statement, mmdb_rows *rows)
{
    mmdb_rows unwanted;
    mmdb_rows *to = mmdb_checked_rows_at(rows, &unwanted);
    return mmdb_checked_is_closed(db) ? MMDB_NOT_OPEN : mmdb_checked_status(mmdb_execute(db, statement, to));
}

static inline mmdb_status mmdb_checked_execute_many(mmdb *db, uint32_t statement, const mmdb_cell *cells, size_t count,
                                                    const void *texts, size_t texts_length, uint64_t *changed)
{
    static const mmdb_cell no_cell = { 0, 0, 0, MMDB_NULL };
    uint64_t unwanted;
    uint64_t *to = changed ? changed : &unwanted;
    *to = 0;
    if (mmdb_checked_is_closed(db))
        return MMDB_NOT_OPEN;
    if ((!cells && count != 0) || (!texts && texts_length != 0))
        return MMDB_NOT_ROWS;
    return mmdb_checked_status(mmdb_execute_many(db, statement, cells ? cells : &no_cell, count,
                                                 mmdb_checked_bytes(texts), texts_length, to));
}

static inline mmdb_status mmdb_checked_columns(mmdb *db, uint32_t statement, mmdb_rows *columns)
{
    mmdb_rows unwanted;
    mmdb_rows *to = mmdb_checked_rows_at(columns, &unwanted);
    return mmdb_checked_is_closed(db) ? MMDB_NOT_OPEN : mmdb_checked_status(mmdb_columns(db, statement, to));
}

static inline mmdb_status mmdb_checked_count(mmdb *db, uint32_t statement, uint64_t *count)
{
    uint64_t unwanted;
    uint64_t *to = count ? count : &unwanted;
    *to = 0;
    return mmdb_checked_is_closed(db) ? MMDB_NOT_OPEN : mmdb_checked_status(mmdb_count(db, statement, to));
}

static inline mmdb_status mmdb_checked_first(mmdb *db, uint32_t statement, size_t most, mmdb_rows *rows)
{
    mmdb_rows unwanted;
    mmdb_rows *to = mmdb_checked_rows_at(rows, &unwanted);
    return mmdb_checked_is_closed(db) ? MMDB_NOT_OPEN : mmdb_checked_status(mmdb_first(db, statement, most, to));
}

static inline mmdb_status mmdb_checked_cursor_open(mmdb *db, uint32_t statement, mmdb_cursor *cursor)
{
    if (mmdb_checked_is_closed(db) || !cursor)
        return MMDB_NOT_OPEN;
    return mmdb_checked_status(mmdb_cursor_open(db, statement, cursor));
}

static inline mmdb_status mmdb_checked_cursor_fetch(mmdb_cursor *cursor, size_t most, mmdb_rows *rows)
{
    mmdb_rows unwanted;
    mmdb_rows *to = mmdb_checked_rows_at(rows, &unwanted);
    if (!cursor || !cursor->inside)
        return MMDB_NOT_OPEN;
    return mmdb_checked_status(mmdb_cursor_fetch(cursor, most, to));
}

static inline void mmdb_checked_cursor_close(mmdb_cursor *cursor)
{
    if (cursor && cursor->inside)
        mmdb_cursor_close(cursor);
}

static inline mmdb_status mmdb_checked_finalize(mmdb *db, uint32_t statement)
{
    return mmdb_checked_is_closed(db) ? MMDB_NOT_OPEN : mmdb_checked_status(mmdb_finalize(db, statement));
}

static inline mmdb_status mmdb_checked_query(mmdb *db, const void *line, size_t length, mmdb_rows *rows)
{
    mmdb_rows unwanted;
    mmdb_rows *to = mmdb_checked_rows_at(rows, &unwanted);
    if (mmdb_checked_is_closed(db))
        return MMDB_NOT_OPEN;
    return line ? mmdb_checked_status(mmdb_query(db, line, length, to)) : MMDB_NO_LINE;
}

static inline mmdb_status mmdb_checked_interrupter_open(mmdb *db, mmdb_interrupter *interrupter)
{
    if (mmdb_checked_is_closed(db) || !interrupter)
        return MMDB_NOT_OPEN;
    return mmdb_checked_status(mmdb_interrupter_open(db, interrupter));
}

static inline void mmdb_checked_interrupt(mmdb_interrupter *interrupter)
{
    if (interrupter && interrupter->inside)
        mmdb_interrupt(interrupter);
}

static inline void mmdb_checked_interrupter_close(mmdb_interrupter *interrupter)
{
    if (interrupter && interrupter->inside)
        mmdb_interrupter_close(interrupter);
}

static inline mmdb_status mmdb_checked_feed(mmdb *db, const void *piece, size_t length)
{
    if (mmdb_checked_is_closed(db))
        return MMDB_NOT_OPEN;
    if (!piece && length != 0)
        return MMDB_NO_LINE;
    return mmdb_checked_status(mmdb_feed(db, mmdb_checked_bytes(piece), length));
}

static inline mmdb_status mmdb_checked_indexes(mmdb *db, const void *table, size_t length, mmdb_bytes *answer)
{
    mmdb_bytes unwanted;
    mmdb_bytes *to = mmdb_checked_answer_at(answer, &unwanted);
    if (mmdb_checked_is_closed(db))
        return MMDB_NOT_OPEN;
    if (!table && length != 0)
        return MMDB_NO_LINE;
    return mmdb_checked_status(mmdb_indexes(db, mmdb_checked_bytes(table), length, to));
}

static inline mmdb_status mmdb_checked_version(mmdb *db, const void *table, size_t length, uint64_t *version)
{
    uint64_t unwanted;
    uint64_t *to = version ? version : &unwanted;
    *to = 0;
    if (mmdb_checked_is_closed(db))
        return MMDB_NOT_OPEN;
    if (!table && length != 0)
        return MMDB_NO_LINE;
    return mmdb_checked_status(mmdb_version(db, mmdb_checked_bytes(table), length, to));
}

static inline mmdb_status mmdb_checked_plan(mmdb *db, const void *line, size_t length, mmdb_bytes *answer)
{
    mmdb_bytes unwanted;
    mmdb_bytes *to = mmdb_checked_answer_at(answer, &unwanted);
    if (mmdb_checked_is_closed(db))
        return MMDB_NOT_OPEN;
    return line ? mmdb_checked_status(mmdb_plan(db, line, length, to)) : MMDB_NO_LINE;
}

static inline mmdb_status mmdb_checked_answer(mmdb *db, mmdb_bytes *answer)
{
    mmdb_bytes unwanted;
    mmdb_bytes *to = mmdb_checked_answer_at(answer, &unwanted);
    return mmdb_checked_is_closed(db) ? MMDB_NOT_OPEN : mmdb_checked_status(mmdb_answer(db, to));
}

static inline uint32_t mmdb_checked_refusal(mmdb *db)
{
    return mmdb_checked_is_closed(db) ? 0 : mmdb_refusal(db);
}

static inline mmdb_status mmdb_checked_reason(mmdb *db, const void *line, size_t length, const void *block,
                                              size_t block_length, mmdb_bytes *reason)
{
    mmdb_bytes unwanted;
    mmdb_bytes *to = mmdb_checked_answer_at(reason, &unwanted);
    if (mmdb_checked_is_closed(db))
        return MMDB_NOT_OPEN;
    if (!line || (!block && block_length != 0))
        return MMDB_NO_LINE;
    return mmdb_checked_status(mmdb_reason(db, line, length, mmdb_checked_bytes(block), block_length, to));
}

static inline mmdb_status mmdb_checked_prepare_reason(mmdb *db, const void *line, size_t length, mmdb_bytes *reason)
{
    mmdb_bytes unwanted;
    mmdb_bytes *to = mmdb_checked_answer_at(reason, &unwanted);
    if (mmdb_checked_is_closed(db))
        return MMDB_NOT_OPEN;
    return line ? mmdb_checked_status(mmdb_prepare_reason(db, line, length, to)) : MMDB_NO_LINE;
}

static inline mmdb_status mmdb_checked_statement_reason(mmdb *db, uint32_t statement, mmdb_bytes *reason)
{
    mmdb_bytes unwanted;
    mmdb_bytes *to = mmdb_checked_answer_at(reason, &unwanted);
    return mmdb_checked_is_closed(db) ? MMDB_NOT_OPEN : mmdb_checked_status(mmdb_statement_reason(db, statement, to));
}

static inline mmdb_status mmdb_checked_begin(mmdb *db)
{
    return mmdb_checked_is_closed(db) ? MMDB_NOT_OPEN : mmdb_checked_status(mmdb_begin(db));
}

static inline mmdb_status mmdb_checked_commit(mmdb *db)
{
    return mmdb_checked_is_closed(db) ? MMDB_NOT_OPEN : mmdb_checked_status(mmdb_commit(db));
}

static inline mmdb_status mmdb_checked_rollback(mmdb *db)
{
    return mmdb_checked_is_closed(db) ? MMDB_NOT_OPEN : mmdb_checked_status(mmdb_rollback(db));
}

static inline size_t mmdb_checked_transactions(mmdb *db)
{
    return mmdb_checked_is_closed(db) ? 0 : mmdb_transactions(db);
}

static inline mmdb_status mmdb_checked_share(mmdb *db, mmdb *reader)
{
    if (mmdb_checked_is_closed(db) || !reader)
        return MMDB_NOT_OPEN;
    if (db == reader)
        return mmdb_transactions(db) == 0 ? MMDB_DONE : MMDB_IN_TRANSACTION;
    return mmdb_checked_status(mmdb_share(db, reader));
}

static inline mmdb_status mmdb_checked_leave(mmdb *reader)
{
    return mmdb_checked_is_closed(reader) ? MMDB_NOT_OPEN : mmdb_checked_status(mmdb_leave(reader));
}

static inline mmdb_status mmdb_checked_clone(mmdb *db, mmdb *copy)
{
    if (mmdb_checked_is_closed(db) || !copy)
        return MMDB_NOT_OPEN;
    return db == copy ? MMDB_IS_OPEN : mmdb_checked_status(mmdb_clone(db, copy));
}

static inline mmdb_status mmdb_checked_save(mmdb *db, mmdb_save_mark *mark, mmdb_bytes *piece)
{
    mmdb_bytes unwanted;
    mmdb_bytes *to = mmdb_checked_answer_at(piece, &unwanted);
    if (mmdb_checked_is_closed(db) || !mark)
        return MMDB_NOT_OPEN;
    return mmdb_checked_status(mmdb_save(db, mark, to));
}

static inline mmdb_status mmdb_checked_restore_open(mmdb_restore *restore, uint32_t policy, uint32_t rows, uint32_t block)
{
    return !restore ? MMDB_NOT_OPEN : mmdb_checked_status(mmdb_restore_open(restore, policy, rows, block));
}

static inline mmdb_status mmdb_checked_restore_take(mmdb_restore *restore, const void *piece, size_t length,
                                                    mmdb_bytes *answer)
{
    mmdb_bytes unwanted;
    mmdb_bytes *to = mmdb_checked_answer_at(answer, &unwanted);
    if (!restore || !restore->inside)
        return MMDB_NOT_OPEN;
    if (!piece && length > 0)
        return MMDB_NO_LINE;
    return mmdb_checked_status(mmdb_restore_take(restore, mmdb_checked_bytes(piece), length, to));
}

static inline mmdb_status mmdb_checked_restore_end(mmdb_restore *restore, mmdb *db)
{
    if (!restore || !restore->inside || !db)
        return MMDB_NOT_OPEN;
    return mmdb_checked_status(mmdb_restore_end(restore, db));
}

static inline void mmdb_checked_restore_close(mmdb_restore *restore)
{
    if (restore && restore->inside)
        mmdb_restore_close(restore);
}

static inline void mmdb_checked_close(mmdb *db)
{
    if (!mmdb_checked_is_closed(db))
        mmdb_close(db);
}

#define mmdb_open mmdb_checked_open
#define mmdb_command mmdb_checked_command
#define mmdb_load mmdb_checked_load
#define mmdb_prepare mmdb_checked_prepare
#define mmdb_bind_integer mmdb_checked_bind_integer
#define mmdb_bind_text mmdb_checked_bind_text
#define mmdb_bind_null mmdb_checked_bind_null
#define mmdb_execute mmdb_checked_execute
#define mmdb_execute_many mmdb_checked_execute_many
#define mmdb_columns mmdb_checked_columns
#define mmdb_count mmdb_checked_count
#define mmdb_first mmdb_checked_first
#define mmdb_cursor_open mmdb_checked_cursor_open
#define mmdb_cursor_fetch mmdb_checked_cursor_fetch
#define mmdb_cursor_close mmdb_checked_cursor_close
#define mmdb_finalize mmdb_checked_finalize
#define mmdb_query mmdb_checked_query
#define mmdb_interrupter_open mmdb_checked_interrupter_open
#define mmdb_interrupt mmdb_checked_interrupt
#define mmdb_interrupter_close mmdb_checked_interrupter_close
#define mmdb_feed mmdb_checked_feed
#define mmdb_indexes mmdb_checked_indexes
#define mmdb_version mmdb_checked_version
#define mmdb_plan mmdb_checked_plan
#define mmdb_answer mmdb_checked_answer
#define mmdb_refusal mmdb_checked_refusal
#define mmdb_reason mmdb_checked_reason
#define mmdb_prepare_reason mmdb_checked_prepare_reason
#define mmdb_statement_reason mmdb_checked_statement_reason
#define mmdb_begin mmdb_checked_begin
#define mmdb_commit mmdb_checked_commit
#define mmdb_rollback mmdb_checked_rollback
#define mmdb_transactions mmdb_checked_transactions
#define mmdb_share mmdb_checked_share
#define mmdb_leave mmdb_checked_leave
#define mmdb_clone mmdb_checked_clone
#define mmdb_save mmdb_checked_save
#define mmdb_restore_open mmdb_checked_restore_open
#define mmdb_restore_take mmdb_checked_restore_take
#define mmdb_restore_end mmdb_checked_restore_end
#define mmdb_restore_close mmdb_checked_restore_close
#define mmdb_close mmdb_checked_close

#ifdef __cplusplus
}
#endif
#endif
