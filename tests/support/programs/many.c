/* Statements that are executed with many rows of values: each status of the call, what it leaves as it was, and under drawn rows that it
   does what executions one after the other do, all of them or none. */
#include "allocations.h"
#include "cells.h"
#include "checking.h"

enum { PLACES = 3, MOST = 40, ROUNDS = 400, KEYS = 60, NUMBER = 10000 };

static const char LONG[] = "a text that is longer than a slot of few bytes";

/* Rows of values as a program hands them in. */
typedef struct batch {
    mmdb_cell cells[MOST * PLACES];
    size_t count;
    char texts[MOST * PLACES * 64];
    size_t length;
} batch;

static void put_integer(batch *to, int64_t integer)
{
    const mmdb_cell cell = { integer, 0, 0, MMDB_INTEGER };
    to->cells[to->count++] = cell;
}

static void put_null(batch *to)
{
    const mmdb_cell cell = { 0, 0, 0, MMDB_NULL };
    to->cells[to->count++] = cell;
}

static void put_text(batch *to, const char *text)
{
    mmdb_cell cell = { 0, 0, 0, MMDB_TEXT };
    cell.at = (uint32_t)to->length;
    cell.length = (uint16_t)strlen(text);
    memcpy(to->texts + to->length, text, strlen(text));
    to->length += strlen(text);
    to->cells[to->count++] = cell;
}

static void put_row(batch *to, int64_t id, const char *text, int64_t k)
{
    put_integer(to, id);
    put_text(to, text);
    put_integer(to, k);
}

static mmdb_status execute_many(mmdb *db, mmdb_statement statement, const batch *of, uint64_t *changed)
{
    return mmdb_execute_many(db, statement.number, of->cells, of->count, of->texts, of->length, changed);
}

static mmdb opened(uint32_t rows)
{
    mmdb db = MMDB_CLOSED;
    GIVES(mmdb_open(&db, MMDB_AUTO, rows, MMDB_MOST), MMDB_DONE);
    does(&db, "table u (k int)");
    does(&db, "table t (id int, s text, k ref u null)");
    does(&db, "index t s hash");
    does(&db, "index t k tree");
    for (int k = 0; k < 5; k++) {
        char line[32];
        snprintf(line, sizeof line, "insert u (%d)", k);
        does(&db, line);
    }
    return db;
}

/* Whether the rows of t are these records. */
static int dumps(mmdb *db, const char *records)
{
    char text[256];
    mmdb_bytes answer;
    snprintf(text, sizeof text, "load t %zu\nid,s,k\n%s", strlen("id,s,k\n") + strlen(records), records);
    GIVES(command(db, "dump t", &answer), MMDB_DONE);
    return reads(answer, text);
}

/* ---- worked rows */

static void rows_go_in_in_any_order(void)
{
    mmdb db = opened(MMDB_MOST);
    const mmdb_statement insert = prepared(&db, "insert t (?, ?, ?)");
    batch rows = { .count = 0 };
    uint64_t changed = 7;
    put_row(&rows, 3, "c", 1);
    put_row(&rows, 1, LONG, 2);
    put_integer(&rows, 2);
    put_text(&rows, "b");
    put_null(&rows);
    GIVES(execute_many(&db, insert, &rows, &changed), MMDB_DONE);
    CHECK(changed == 3 && mmdb_refusal(&db) == 0);
    CHECK(dumps(&db, "1,a text that is longer than a slot of few bytes,2\n2,b,\n3,c,1\n"));
    mmdb_close(&db);
}

static void slots_stand_in_any_order_beside_given_values(void)
{
    mmdb db = opened(MMDB_MOST);
    const mmdb_statement insert = prepared(&db, "insert t (?, 'given', ?)");
    batch rows = { .count = 0 };
    uint64_t changed = 0;
    put_integer(&rows, 8);
    put_integer(&rows, 4);
    put_integer(&rows, 7);
    put_null(&rows);
    GIVES(execute_many(&db, insert, &rows, &changed), MMDB_DONE);
    CHECK(changed == 2 && dumps(&db, "7,given,\n8,given,4\n"));
    mmdb_close(&db);
}

static void updates_and_deletes_tell_the_sum(void)
{
    mmdb db = opened(MMDB_MOST);
    const mmdb_statement insert = prepared(&db, "insert t (?, ?, ?)");
    const mmdb_statement update = prepared(&db, "update t set s = ? where id >= ?"), erase = prepared(&db, "delete t where k = ?");
    batch rows = { .count = 0 }, sets = { .count = 0 }, keys = { .count = 0 };
    uint64_t changed = 0;
    for (int64_t id = 0; id < 10; id++)
        put_row(&rows, id, "x", id % 5);
    GIVES(execute_many(&db, insert, &rows, &changed), MMDB_DONE);
    put_text(&sets, "y");
    put_integer(&sets, 5);
    put_text(&sets, LONG);
    put_integer(&sets, 9);
    GIVES(execute_many(&db, update, &sets, &changed), MMDB_DONE);
    CHECK(changed == 6);
    for (int64_t k = 1; k < 5; k++)
        put_integer(&keys, k);
    GIVES(execute_many(&db, erase, &keys, &changed), MMDB_DONE);
    CHECK(changed == 8 && dumps(&db, "0,x,0\n5,y,0\n"));
    mmdb_close(&db);
}

/* ---- each status */

static void is_refused(mmdb *db, mmdb_statement of, const batch *rows, const char *answer)
{
    uint64_t changed = 7;
    GIVES(execute_many(db, of, rows, &changed), MMDB_REFUSED);
    CHECK(changed == 0 && is_refused_by(db, answer));
    CHECK(dumps(db, "1,a,0\n"));
}

static void each_refusal_is_met(void)
{
    mmdb db = opened(5);
    const mmdb_statement insert = prepared(&db, "insert t (?, ?, ?)"), select = prepared(&db, "select * from t where id = ?");
    const mmdb_statement update = prepared(&db, "update t set k = ? where id = ?"), erase = prepared(&db, "delete u where k = ?");
    batch twice = { .count = 0 }, held = { .count = 0 }, none = { .count = 0 }, full = { .count = 0 }, wrong = { .count = 0 };
    batch keys = { .count = 0 }, sets = { .count = 0 }, erased = { .count = 0 };
    does(&db, "insert t (1, 'a', 0)");
    put_row(&twice, 2, "b", 0);
    put_row(&twice, 2, "c", 0);
    is_refused(&db, insert, &twice, "error 41 key exists (record 2)\n");
    put_row(&held, 3, "b", 0);
    put_row(&held, 2, "b", 0);
    put_row(&held, 1, "b", 0);
    is_refused(&db, insert, &held, "error 41 key exists (record 3)\n");
    put_row(&none, 2, "b", 9);
    is_refused(&db, insert, &none, "error 42 no referenced row (record 1)\n");
    for (int64_t id = 2; id < 7; id++)
        put_row(&full, id, "b", 0);
    is_refused(&db, insert, &full, "error 43 table full (record 5)\n");
    put_row(&wrong, 1, "b", 0);
    put_text(&wrong, "no number");
    put_null(&wrong);
    put_null(&wrong);
    is_refused(&db, insert, &wrong, "error 35 wrong type\n");
    put_integer(&keys, 1);
    is_refused(&db, select, &keys, "error 20 not a command\n");
    put_integer(&sets, 1);
    put_integer(&sets, 1);
    put_integer(&sets, 9);
    put_integer(&sets, 1);
    is_refused(&db, update, &sets, "error 42 no referenced row (record 2)\n");
    put_integer(&erased, 1);
    put_integer(&erased, 0);
    is_refused(&db, erase, &erased, "error 44 row is referenced\n");
    does(&db, "insert t (2, 'b', 1)");
    does(&db, "delete t where id = 2");
    does(&db, "drop table t");
    GIVES(execute_many(&db, insert, &twice, NULL), MMDB_REFUSED);
    CHECK(is_refused_by(&db, "error 30 no such table\n"));
    mmdb_close(&db);
}

static void are_no_rows(mmdb *db, mmdb_statement of, const mmdb_cell *cells, size_t count, const char *texts, mmdb_status status)
{
    uint64_t changed = 7;
    GIVES(mmdb_execute_many(db, of.number, cells, count, texts, texts == NULL ? 0 : strlen(texts), &changed), status);
    CHECK(changed == 0);
}

static void cells_that_are_no_rows_are_told(void)
{
    mmdb db = opened(MMDB_MOST);
    const mmdb_statement insert = prepared(&db, "insert t (?, ?, ?)"), given = prepared(&db, "insert t (1, 'a', 0)");
    mmdb_cell cells[PLACES] = { { 1, 0, 0, MMDB_INTEGER }, { 0, 1, 2, MMDB_TEXT }, { 0, UINT32_MAX, UINT16_MAX, MMDB_NULL } };
    does(&db, "insert t (9, 'x', 0)");
    GIVES(command(&db, "insert t (9, 'x', 0)", NULL), MMDB_DONE);
    are_no_rows(&db, insert, cells, 2, "abc", MMDB_NOT_ROWS);
    are_no_rows(&db, given, cells, 1, "abc", MMDB_NOT_ROWS);
    are_no_rows(&db, insert, cells, PLACES, "ab", MMDB_NOT_ROWS);
    are_no_rows(&db, insert, cells, PLACES, NULL, MMDB_NOT_ROWS);
    are_no_rows(&db, insert, NULL, PLACES, "abc", MMDB_NOT_ROWS);
    are_no_rows(&db, insert, cells, PLACES, "a\xff\xff", MMDB_NOT_UTF8);
    cells[2].kind = 3;
    are_no_rows(&db, insert, cells, PLACES, "abc", MMDB_NOT_ROWS);
    cells[2].kind = MMDB_NULL;
    CHECK(is_refused_by(&db, "error 41 key exists\n"));
    are_no_rows(&db, insert, NULL, 0, NULL, MMDB_DONE);
    are_no_rows(&db, given, NULL, 0, NULL, MMDB_DONE);
    CHECK(mmdb_refusal(&db) == 0 && dumps(&db, "9,x,0\n"));
    GIVES(mmdb_execute_many(&db, insert.number, cells, PLACES, "abc", 3, NULL), MMDB_DONE);
    CHECK(dumps(&db, "1,bc,\n9,x,0\n"));
    mmdb_close(&db);
}

static void numbers_and_handles_are_told(void)
{
    mmdb db = opened(MMDB_MOST), reader = MMDB_CLOSED, closed = MMDB_CLOSED;
    const mmdb_statement insert = prepared(&db, "insert t (?, ?, ?)"), erase = prepared(&db, "delete t where id = ?");
    batch rows = { .count = 0 }, keys = { .count = 0 };
    put_row(&rows, 1, "a", 0);
    put_integer(&keys, 1);
    mmdb_statement other = insert;
    other.number = NUMBER;
    GIVES(execute_many(&db, other, &rows, NULL), MMDB_NO_SUCH_STATEMENT);
    GIVES(execute_many(&closed, insert, &rows, NULL), MMDB_NOT_OPEN);
    GIVES(mmdb_execute_many(NULL, 0, NULL, 0, NULL, 0, NULL), MMDB_NOT_OPEN);
    GIVES(mmdb_share(&db, &reader), MMDB_DONE);
    GIVES(execute_many(&db, insert, &rows, NULL), MMDB_SHARED);
    GIVES(execute_many(&db, erase, &keys, NULL), MMDB_SHARED);
    mmdb_close(&reader);
    GIVES(execute_many(&db, insert, &rows, NULL), MMDB_DONE);
    GIVES(execute_many(&db, erase, &keys, NULL), MMDB_DONE);
    CHECK(dumps(&db, ""));
    mmdb_close(&db);
}

static void values_that_are_bound_stay(void)
{
    mmdb db = opened(MMDB_MOST);
    const mmdb_statement insert = prepared(&db, "insert t (?, ?, ?)");
    batch rows = { .count = 0 };
    GIVES(mmdb_bind_integer(&db, insert.number, 0, 5), MMDB_DONE);
    GIVES(mmdb_bind_text(&db, insert.number, 1, "bound", 5), MMDB_DONE);
    put_row(&rows, 1, "a", 0);
    GIVES(execute_many(&db, insert, &rows, NULL), MMDB_DONE);
    GIVES(mmdb_execute(&db, insert.number, NULL), MMDB_DONE);
    CHECK(dumps(&db, "1,a,0\n5,bound,\n"));
    mmdb_close(&db);
}

/* ---- beside executions one after the other */

static uint32_t drawn_last = 1;

static uint32_t drawn(uint32_t below)
{
    drawn_last = drawn_last * 1664525u + 1013904223u;
    return (drawn_last >> 8) % below;
}

static void draw_row(batch *to, const char *kind)
{
    for (; *kind; kind++) {
        if (*kind == 'i')
            put_integer(to, drawn(KEYS));
        else if (*kind == 'k' && drawn(8) == 0)
            put_null(to);
        else if (*kind == 'k')
            put_integer(to, drawn(40) == 0 ? 9 : drawn(5));
        else
            put_text(to, drawn(2) ? LONG : "s");
    }
}

/* Executes with each row in a transaction, which is rolled back where one is refused. */
static mmdb_status one_by_one(mmdb *db, mmdb_statement of, const batch *rows, uint64_t *changed)
{
    *changed = 0;
    GIVES(mmdb_begin(db), MMDB_DONE);
    for (size_t at = 0; at < rows->count; at += of.places) {
        mmdb_rows given;
        for (uint32_t place = 0; place < of.places; place++) {
            const mmdb_cell *cell = rows->cells + at + place;
            if (cell->kind == MMDB_INTEGER)
                GIVES(mmdb_bind_integer(db, of.number, place, cell->integer), MMDB_DONE);
            else if (cell->kind == MMDB_TEXT)
                GIVES(mmdb_bind_text(db, of.number, place, rows->texts + cell->at, cell->length), MMDB_DONE);
            else
                GIVES(mmdb_bind_null(db, of.number, place), MMDB_DONE);
        }
        if (mmdb_execute(db, of.number, &given) != MMDB_DONE) {
            const uint32_t refusal = mmdb_refusal(db);
            GIVES(mmdb_rollback(db), MMDB_DONE);
            *changed = refusal;
            return MMDB_REFUSED;
        }
        *changed += given.changed;
    }
    GIVES(mmdb_commit(db), MMDB_DONE);
    return MMDB_DONE;
}

static int are_alike(mmdb *one, mmdb *other)
{
    mmdb_bytes dump, expected;
    GIVES(command(one, "dump t", &dump), MMDB_DONE);
    GIVES(command(other, "dump t", &expected), MMDB_DONE);
    return dump.length == expected.length && memcmp(dump.at, expected.at, dump.length) == 0;
}

static void drawn_rows_do_what_single_ones_do(void)
{
    static const struct {
        const char *line;
        const char *kinds;
        uint32_t most;
    } STATEMENTS[] = {
        { "insert t (?, ?, ?)", "itk", MOST / 4 },
        { "insert t (?, 'given', ?)", "ik", 4 },
        { "update t set s = ?, k = ? where id < ?", "tki", MOST },
        { "update t set k = ? where id = ?", "ki", MOST },
        { "delete t where id = ?", "i", MOST },
        { "delete t where s = ? and k = ?", "tk", 4 },
    };
    mmdb one = opened(KEYS / 2), other = opened(KEYS / 2);
    int done = 0, refused = 0;
    for (int round = 0; round < ROUNDS; round++) {
        const size_t kind = drawn(sizeof STATEMENTS / sizeof STATEMENTS[0]);
        const mmdb_statement many = prepared(&one, STATEMENTS[kind].line), single = prepared(&other, STATEMENTS[kind].line);
        batch rows = { .count = 0 };
        uint64_t changed, expected;
        const uint32_t count = drawn(STATEMENTS[kind].most);
        for (uint32_t row = 0; row < count; row++)
            draw_row(&rows, STATEMENTS[kind].kinds);
        if (drawn(3) == 0)
            GIVES(mmdb_begin(&one), MMDB_DONE);
        const mmdb_status status = execute_many(&one, many, &rows, &changed);
        GIVES(status, one_by_one(&other, single, &rows, &expected));
        CHECK(status == MMDB_DONE ? changed == expected : mmdb_refusal(&one) == expected);
        if (mmdb_transactions(&one) != 0)
            GIVES(mmdb_commit(&one), MMDB_DONE);
        CHECK(are_alike(&one, &other));
        done += status == MMDB_DONE && changed != 0;
        refused += status == MMDB_REFUSED;
        GIVES(mmdb_finalize(&one, many.number), MMDB_DONE);
        GIVES(mmdb_finalize(&other, single.number), MMDB_DONE);
    }
    CHECK(done > ROUNDS / 10 && refused > ROUNDS / 10);
    mmdb_close(&one);
    mmdb_close(&other);
}

int main(void)
{
    rows_go_in_in_any_order();
    slots_stand_in_any_order_beside_given_values();
    updates_and_deletes_tell_the_sum();
    each_refusal_is_met();
    cells_that_are_no_rows_are_told();
    numbers_and_handles_are_told();
    values_that_are_bound_stay();
    drawn_rows_do_what_single_ones_do();
    CHECK(allocations_held() == 0);
    return checks_failed != 0;
}
