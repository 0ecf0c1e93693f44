/* Counts of selects: each status of the call; under each policy the count of each kind of select, which is how many rows its execution
   shows; and what a count leaves as it was. */
#include "allocations.h"
#include "cells.h"
#include "checking.h"

#include <limits.h>

enum { ROWS = 2500, GROUPS = 7, NUMBER = 10000 };

/* Selects, each by a plan of its own, with a place for a number or without one. */
static const char *const SELECTS[] = {
    "select * from t",
    "select id from t where id = ?",
    "select id from t where id <> ?",
    "select s from t where g = ?",
    "select id from t where g <> ? and s <> 'none'",
    "select * from t where n >= ?",
    "select * from t where n < ? and g = 1",
    "select id from t where c = ?",
    "select distinct g from t",
    "select distinct s, g from t where id > ?",
    "select distinct n from t where g = ?",
    "select * from t join u on t.c = u.k",
    "select u.k from t join u on t.c = u.k where t.id < ?",
    "select t.id from t join u on t.g = u.k where u.k <> ?",
    "select t.id, w.n from t join w on t.g = w.n where t.id >= ?",
    "select distinct u.k from t join u on t.c = u.k join w on w.n = t.g where w.n < ?",
};

/* Tables with so many rows: of u and of w there are as many as groups. */
static mmdb opened(uint32_t policy, int64_t rows)
{
    mmdb db = MMDB_CLOSED;
    mmdb_statement insert;
    GIVES(mmdb_open(&db, policy, MMDB_MOST, MMDB_MOST), MMDB_DONE);
    does(&db, "table u (k int)");
    does(&db, "table w (id int, n int)");
    does(&db, "table t (id int, s text, g int, n int, c ref u null)");
    does(&db, "index t n tree");
    does(&db, "index t c hash");
    for (int64_t group = 0; group < GROUPS; group++) {
        insert = prepared(&db, "insert u (?)");
        GIVES(mmdb_bind_integer(&db, insert.number, 0, group), MMDB_DONE);
        GIVES(mmdb_execute(&db, insert.number, NULL), MMDB_DONE);
        insert = prepared(&db, "insert w (?, ?)");
        GIVES(mmdb_bind_integer(&db, insert.number, 0, group), MMDB_DONE);
        GIVES(mmdb_bind_integer(&db, insert.number, 1, group / 2), MMDB_DONE);
        GIVES(mmdb_execute(&db, insert.number, NULL), MMDB_DONE);
    }
    insert = prepared(&db, "insert t (?, 'some text', ?, ?, ?)");
    for (int64_t id = 0; id < rows; id++) {
        GIVES(mmdb_bind_integer(&db, insert.number, 0, id), MMDB_DONE);
        GIVES(mmdb_bind_integer(&db, insert.number, 1, id % GROUPS), MMDB_DONE);
        GIVES(mmdb_bind_integer(&db, insert.number, 2, id / 3), MMDB_DONE);
        if (id % 2 == 0)
            GIVES(mmdb_bind_integer(&db, insert.number, 3, id % GROUPS), MMDB_DONE);
        else
            GIVES(mmdb_bind_null(&db, insert.number, 3), MMDB_DONE);
        GIVES(mmdb_execute(&db, insert.number, NULL), MMDB_DONE);
    }
    return db;
}

/* The count of a statement that isn't refused. */
static uint64_t counted(mmdb *db, mmdb_statement of)
{
    uint64_t count = UINT64_MAX;
    GIVES(mmdb_count(db, of.number, &count), MMDB_DONE);
    return count;
}

/* ---- what is counted */

static void a_select_is_counted(mmdb *db, const char *line)
{
    const int64_t values[] = { 0, 1, 3, 100, ROWS };
    const mmdb_statement select = prepared(db, line);
    for (size_t i = 0; i < sizeof values / sizeof values[0]; i++) {
        mmdb_rows rows = other_rows();
        uint64_t count;
        if (select.places != 0)
            GIVES(mmdb_bind_integer(db, select.number, 0, values[i]), MMDB_DONE);
        count = counted(db, select);
        GIVES(mmdb_execute(db, select.number, &rows), MMDB_DONE);
        CHECK(count == rows.rows);
        CHECK(counted(db, select) == rows.rows);
    }
    GIVES(mmdb_finalize(db, select.number), MMDB_DONE);
}

static void each_select_is_counted(uint32_t policy, int64_t rows)
{
    mmdb db = opened(policy, rows);
    CHECK(counted(&db, prepared(&db, "select * from t")) == (uint64_t)rows);
    for (size_t i = 0; i < sizeof SELECTS / sizeof SELECTS[0]; i++)
        a_select_is_counted(&db, SELECTS[i]);
    mmdb_close(&db);
}

/* ---- each status */

static void a_closed_handle_is_told(mmdb *db)
{
    uint64_t count = 7;
    GIVES(mmdb_count(db, 0, &count), MMDB_NOT_OPEN);
    CHECK(count == 0);
    GIVES(mmdb_count(db, 0, NULL), MMDB_NOT_OPEN);
}

/* Counts a statement that is refused so. */
static void is_refused(mmdb *db, mmdb_statement of, const char *answer)
{
    uint64_t count = 7;
    GIVES(mmdb_count(db, of.number, &count), MMDB_REFUSED);
    CHECK(count == 0);
    CHECK(is_refused_by(db, answer));
}

static void each_status_is_met(void)
{
    mmdb db = opened(MMDB_AUTO, 3);
    const mmdb_statement select = prepared(&db, "select * from t where id < ?"), all = prepared(&db, "select * from w");
    mmdb_bytes answer;
    uint64_t count = 7;
    GIVES(mmdb_count(&db, NUMBER, &count), MMDB_NO_SUCH_STATEMENT);
    CHECK(count == 0);
    GIVES(mmdb_count(&db, UINT32_MAX, NULL), MMDB_NO_SUCH_STATEMENT);
    is_refused(&db, select, "error 35 wrong type\n");
    GIVES(mmdb_statement_reason(&db, select.number, &answer), MMDB_DONE);
    CHECK(answer.length > 0);
    GIVES(mmdb_bind_integer(&db, select.number, 0, 2), MMDB_DONE);
    GIVES(mmdb_count(&db, select.number, NULL), MMDB_DONE);
    CHECK(counted(&db, select) == 2);
    GIVES(mmdb_answer(&db, &answer), MMDB_DONE);
    CHECK(reads(answer, "") && mmdb_refusal(&db) == 0);
    does(&db, "drop table w");
    is_refused(&db, all, "error 30 no such table\n");
    GIVES(mmdb_finalize(&db, all.number), MMDB_DONE);
    GIVES(mmdb_count(&db, all.number, NULL), MMDB_NO_SUCH_STATEMENT);
    CHECK(is_refused_by(&db, "error 30 no such table\n"));
    mmdb_close(&db);
}

/* A change is refused by what it would be refused by, and else by 20. It isn't done. */
static void no_change_is_counted_or_done(void)
{
    mmdb db = opened(MMDB_AUTO, 3);
    const mmdb_statement insert = prepared(&db, "insert u (?)"), all = prepared(&db, "select * from u");
    is_refused(&db, insert, "error 35 wrong type\n");
    GIVES(mmdb_bind_integer(&db, insert.number, 0, GROUPS), MMDB_DONE);
    is_refused(&db, insert, "error 20 not a command\n");
    is_refused(&db, prepared(&db, "insert u (100)"), "error 20 not a command\n");
    is_refused(&db, prepared(&db, "update t set s = 'other'"), "error 20 not a command\n");
    is_refused(&db, prepared(&db, "update t set id = 1"), "error 36 key cannot be set\n");
    is_refused(&db, prepared(&db, "delete t"), "error 20 not a command\n");
    CHECK(counted(&db, all) == GROUPS);
    CHECK(counted(&db, prepared(&db, "select * from t where s = 'some text'")) == 3);
    GIVES(mmdb_execute(&db, insert.number, NULL), MMDB_DONE);
    CHECK(counted(&db, all) == GROUPS + 1);
    mmdb_close(&db);
}

/* ---- what stays */

static void rows_that_were_shown_stay(void)
{
    mmdb db = opened(MMDB_AUTO, ROWS);
    const mmdb_statement select = prepared(&db, "select id from t where n < ?");
    mmdb_rows rows, queried;
    GIVES(mmdb_bind_integer(&db, select.number, 0, 1), MMDB_DONE);
    GIVES(mmdb_execute(&db, select.number, &rows), MMDB_DONE);
    GIVES(mmdb_query(&db, "select k from u where k = 1", 27, &queried), MMDB_DONE);
    GIVES(mmdb_bind_integer(&db, select.number, 0, ROWS), MMDB_DONE);
    CHECK(counted(&db, select) == ROWS);
    CHECK(rows.rows == 3 && is_integer(&rows, 0, 0, 0) && is_integer(&rows, 2, 0, 2));
    CHECK(queried.rows == 1 && is_integer(&queried, 0, 0, 1));
    mmdb_close(&db);
}

static void a_count_is_of_the_tables_in_a_transaction(void)
{
    mmdb db = opened(MMDB_AUTO, 3);
    const mmdb_statement all = prepared(&db, "select * from t"), some = prepared(&db, "select * from t where id >= 0");
    GIVES(mmdb_begin(&db), MMDB_DONE);
    does(&db, "insert t (3, 'more', 1, 1, null)");
    CHECK(counted(&db, all) == 4 && counted(&db, some) == 4);
    does(&db, "delete t where id < 2");
    CHECK(counted(&db, all) == 2 && counted(&db, some) == 2);
    GIVES(mmdb_rollback(&db), MMDB_DONE);
    CHECK(counted(&db, all) == 3 && counted(&db, some) == 3);
    mmdb_close(&db);
}

/* To count a whole table, or the row of a key, takes no memory, and no count keeps any. */
static void no_memory_is_kept(void)
{
    mmdb db = opened(MMDB_AUTO, ROWS);
    const mmdb_statement all = prepared(&db, "select * from t"), one = prepared(&db, "select s from t where id = 7");
    const mmdb_statement many = prepared(&db, "select * from t where s = 'some text'");
    long held;
    CHECK(counted(&db, all) == ROWS && counted(&db, one) == 1 && counted(&db, many) == ROWS);
    held = allocations_held();
    CHECK(counted(&db, many) == ROWS);
    CHECK(allocations_held() == held);
    allocations_refuse(0, LONG_MAX);
    CHECK(counted(&db, all) == ROWS && counted(&db, one) == 1);
    CHECK(allocations_refused() == 0);
    allocations_refuse(0, 0);
    mmdb_close(&db);
}

int main(void)
{
    a_closed_handle_is_told(NULL);
    for (uint32_t policy = MMDB_AUTO; policy <= MMDB_MERGE; policy++) {
        each_select_is_counted(policy, 0);
        each_select_is_counted(policy, 20);
        each_select_is_counted(policy, policy == MMDB_AUTO ? ROWS : 300);
    }
    each_status_is_met();
    no_change_is_counted_or_done();
    rows_that_were_shown_stay();
    a_count_is_of_the_tables_in_a_transaction();
    no_memory_is_kept();
    CHECK(allocations_held() == 0);
    return checks_failed != 0;
}
