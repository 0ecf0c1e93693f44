/* Makes the calls of standard input, one after another. A call is a line of its name and three numbers, and behind it the bytes
   that these number: of a line or a text, and of a block. It is on the handle that was opened last, or on that which a line
   `on N 0 0` names. What the calls give is not looked at, which has been done where they were written down
   (tests/support/tape.py). It is linked with tests/support/refuse_nth.c: a line `refuse N 0 0` says which of the calls for memory
   from then on finds none. */
#include "checking.h"

#include <inttypes.h>
#include <stdlib.h>

enum { HANDLES = 8 };

long refuse_nth(long nth);

/* A call: its name, its numbers, and its bytes. */
typedef struct call {
    char name[16];
    uint64_t numbers[3];
    unsigned char *bytes;
} call;

static size_t bytes_behind(const call *of, size_t number)
{
    return strchr(of->name, '+') == NULL ? 0 : (size_t)of->numbers[number];
}

/* Reads the next call. Gives 0 where there is none. One whose name ends with a + has bytes, as many as its first two numbers
   say. */
static int read_call(call *to)
{
    char line[128];
    size_t length;
    if (fgets(line, sizeof line, stdin) == NULL)
        return 0;
    if (sscanf(line, "%15s %" SCNu64 " %" SCNu64 " %" SCNu64, to->name, &to->numbers[0], &to->numbers[1], &to->numbers[2]) != 4)
        exit(3);
    length = bytes_behind(to, 0) + bytes_behind(to, 1);
    to->bytes = (unsigned char *)malloc(length + 1);
    if (fread(to->bytes, 1, length, stdin) != length)
        exit(3);
    return 1;
}

static int is(const call *of, const char *name)
{
    return strcmp(of->name, name) == 0;
}

static mmdb handles[HANDLES];
static mmdb_restore restore = MMDB_NO_RESTORE;
static mmdb_cursor cursor = MMDB_NO_CURSOR;
static mmdb_save_mark mark = MMDB_SAVE_BEGIN;

static mmdb *handle(uint64_t number)
{
    if (number >= HANDLES)
        exit(3);
    return &handles[number];
}

static void close_all(void)
{
    for (int i = 0; i < HANDLES; i++)
        mmdb_close(&handles[i]);
}

static void open_anew(const call *of)
{
    close_all();
    GIVES(mmdb_open(&handles[0], (uint32_t)of->numbers[0], (uint32_t)of->numbers[1], (uint32_t)of->numbers[2]), MMDB_DONE);
}

/* The calls on lines, on pieces and on answers. Gives 0 where it is none of these. */
static int asks(mmdb *db, const call *of)
{
    const size_t length = (size_t)of->numbers[0], block_length = (size_t)of->numbers[1];
    mmdb_bytes answer;
    if (is(of, "command+"))
        mmdb_command(db, of->bytes, length, &answer);
    else if (is(of, "load+"))
        mmdb_load(db, of->bytes, length, of->bytes + length, block_length, &answer);
    else if (is(of, "feed+"))
        mmdb_feed(db, of->bytes, length);
    else if (is(of, "reason+"))
        mmdb_reason(db, of->bytes, length, of->bytes + length, block_length, &answer);
    else if (is(of, "why_line+"))
        mmdb_prepare_reason(db, of->bytes, length, &answer);
    else if (is(of, "indexes+"))
        mmdb_indexes(db, of->bytes, length, &answer);
    else if (is(of, "answer"))
        mmdb_answer(db, &answer);
    else if (is(of, "refusal"))
        mmdb_refusal(db);
    else
        return 0;
    return 1;
}

/* The calls on statements. Gives 0 where it is none of these. */
static int states(mmdb *db, const call *of)
{
    const uint32_t number = (uint32_t)of->numbers[0], place = (uint32_t)of->numbers[1];
    mmdb_statement statement;
    mmdb_rows rows;
    mmdb_bytes reason;
    uint64_t count;
    if (is(of, "prepare+"))
        mmdb_prepare(db, of->bytes, (size_t)of->numbers[0], &statement);
    else if (is(of, "text+"))
        mmdb_bind_text(db, (uint32_t)(of->numbers[2] >> 32), (uint32_t)of->numbers[2], of->bytes, (size_t)of->numbers[0]);
    else if (is(of, "integer"))
        mmdb_bind_integer(db, number, place, (int64_t)of->numbers[2]);
    else if (is(of, "null"))
        mmdb_bind_null(db, number, place);
    else if (is(of, "execute"))
        mmdb_execute(db, number, &rows);
    else if (is(of, "columns"))
        mmdb_columns(db, number, &rows);
    else if (is(of, "first"))
        mmdb_first(db, number, (size_t)of->numbers[1], &rows);
    else if (is(of, "count"))
        mmdb_count(db, number, &count);
    else if (is(of, "why"))
        mmdb_statement_reason(db, number, &reason);
    else if (is(of, "finalize"))
        mmdb_finalize(db, number);
    else if (is(of, "query+"))
        mmdb_query(db, of->bytes, (size_t)of->numbers[0], &rows);
    else
        return 0;
    return 1;
}

/* The calls that read the rows of a statement page by page. Gives 0 where it is none of these. */
static int reads_pages(mmdb *db, const call *of)
{
    mmdb_rows rows;
    if (is(of, "cursor_open"))
        mmdb_cursor_open(db, (uint32_t)of->numbers[0], &cursor);
    else if (is(of, "cursor_fetch"))
        mmdb_cursor_fetch(&cursor, (size_t)of->numbers[0], &rows);
    else if (is(of, "cursor_close"))
        mmdb_cursor_close(&cursor);
    else
        return 0;
    return 1;
}

/* The calls on transactions. Gives 0 where it is none of these. */
static int transacts(mmdb *db, const call *of)
{
    if (is(of, "begin"))
        mmdb_begin(db);
    else if (is(of, "commit"))
        mmdb_commit(db);
    else if (is(of, "rollback"))
        mmdb_rollback(db);
    else if (is(of, "transactions"))
        mmdb_transactions(db);
    else
        return 0;
    return 1;
}

/* The calls of handles that share tables, and the end of a handle. Gives 0 where it is none of these. */
static int shares(mmdb *db, const call *of)
{
    if (is(of, "share"))
        mmdb_share(db, handle(of->numbers[0]));
    else if (is(of, "leave"))
        mmdb_leave(db);
    else if (is(of, "close"))
        mmdb_close(db);
    else
        return 0;
    return 1;
}

/* The calls that save a database and restore one. Gives 0 where it is none of these. */
static int saves(mmdb *db, const call *of)
{
    static const mmdb_save_mark begin = MMDB_SAVE_BEGIN;
    mmdb_bytes told;
    if (is(of, "save")) {
        mark = of->numbers[0] ? begin : mark;
        mmdb_save(db, &mark, &told);
    } else if (is(of, "restore_open"))
        mmdb_restore_open(&restore, (uint32_t)of->numbers[0], (uint32_t)of->numbers[1], (uint32_t)of->numbers[2]);
    else if (is(of, "restore_take+"))
        mmdb_restore_take(&restore, of->bytes, (size_t)of->numbers[0], &told);
    else if (is(of, "restore_end"))
        mmdb_restore_end(&restore, handle(of->numbers[0]));
    else if (is(of, "restore_close"))
        mmdb_restore_close(&restore);
    else
        return 0;
    return 1;
}

/* Makes a call, in which memory may be refused, and gives how many calls for memory there are to the refused one yet. */
static long make(mmdb *db, const call *of, long to_refused)
{
    refuse_nth(to_refused);
    CHECK(asks(db, of) || states(db, of) || reads_pages(db, of) || transacts(db, of) || shares(db, of) || saves(db, of));
    return refuse_nth(0);
}

int main(void)
{
    mmdb *db = &handles[0];
    long to_refused = 0;
    call next;
    while (read_call(&next)) {
        if (is(&next, "open"))
            open_anew(&next);
        if (is(&next, "open") || is(&next, "on"))
            db = handle(is(&next, "on") ? next.numbers[0] : 0);
        else if (is(&next, "refuse"))
            to_refused = (long)next.numbers[0];
        else
            to_refused = make(db, &next, to_refused);
        free(next.bytes);
    }
    close_all();
    mmdb_cursor_close(&cursor);
    mmdb_restore_close(&restore);
    return checks_failed != 0;
}
