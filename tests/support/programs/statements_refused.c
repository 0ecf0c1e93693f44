/* Refuses each call for memory of each call on a statement in turn, and of each query of a line. It then says that there
   was none, and everything is as it was, the values that are bound too; or it is done as ever. What was refused is done
   when it is called again. A second handle, which is never refused anything, tells what is as ever. */
#include "allocations.h"
#include "cells.h"
#include "checking.h"

enum { MANY = 20 };

static const char LONG[] = "a text that is longer than a slot of few bytes, and than some more of them";

/* A handle with rows, and statements whose values are bound. */
typedef struct kept {
    mmdb db;
    mmdb_statement insert;
    mmdb_statement update;
    mmdb_statement erase;
    mmdb_statement select;
    mmdb_statement join;
    mmdb_statement find;
} kept;

static void open_kept(kept *to)
{
    const kept fresh = { MMDB_CLOSED, { 0, 0 }, { 0, 0 }, { 0, 0 }, { 0, 0 }, { 0, 0 }, { 0, 0 } };
    mmdb *db = &to->db;
    *to = fresh;
    GIVES(mmdb_open(db, MMDB_AUTO, MMDB_MOST, MMDB_MOST), MMDB_DONE);
    GIVES(command(db, "table u (k text)", NULL), MMDB_DONE);
    GIVES(command(db, "table t (id int, s text, c ref u null)", NULL), MMDB_DONE);
    GIVES(command(db, "index t s hash", NULL), MMDB_DONE);
    GIVES(load(db, "load u 23", "k\na key of some length\n", NULL), MMDB_DONE);
    GIVES(load(db, "load t 56", "id,s,c\n1,a,\n2,another text,a key of some length\n3,\"c\n\",\n", NULL), MMDB_DONE);
    GIVES(mmdb_refusal(db), 0);
    to->insert = prepared(db, "insert t (?, ?, null)");
    to->update = prepared(db, "update t set s = ? where id > ?");
    to->erase = prepared(db, "delete t where s <> ?");
    to->select = prepared(db, "select * from t where id >= ?");
    to->join = prepared(db, "select distinct t.s, u.k from t join u on t.c = u.k where t.s <> ?");
    to->find = prepared(db, "select s, id from t where s = ?");
    GIVES(mmdb_bind_integer(db, to->insert.number, 0, 4), MMDB_DONE);
    GIVES(mmdb_bind_text(db, to->insert.number, 1, LONG, strlen(LONG)), MMDB_DONE);
    GIVES(mmdb_bind_text(db, to->update.number, 0, LONG, strlen(LONG)), MMDB_DONE);
    GIVES(mmdb_bind_integer(db, to->update.number, 1, 1), MMDB_DONE);
    GIVES(mmdb_bind_text(db, to->erase.number, 0, "a", 1), MMDB_DONE);
    GIVES(mmdb_bind_integer(db, to->select.number, 0, 1), MMDB_DONE);
    GIVES(mmdb_bind_text(db, to->join.number, 0, "a", 1), MMDB_DONE);
    GIVES(mmdb_bind_text(db, to->find.number, 0, "another text", 12), MMDB_DONE);
}

/* The calls, each of which can be made again where it wasn't done. So many statements are prepared that room is made for
   them more than once. */
static mmdb_status prepares(kept *of, mmdb_rows *rows)
{
    static const char LINE[] = "select s, c from t where s = ? and id < ? and c <> 'a text that is given'";
    mmdb_statement statement;
    mmdb_status status = MMDB_DONE;
    (void)rows;
    for (int i = 0; i < MANY && status == MMDB_DONE; i++)
        status = mmdb_prepare(&of->db, LINE, strlen(LINE), &statement);
    return status;
}

static mmdb_status binds(kept *of, mmdb_rows *rows)
{
    (void)rows;
    return mmdb_bind_text(&of->db, of->insert.number, 1, LONG + 1, strlen(LONG) - 1);
}

static mmdb_status inserts(kept *of, mmdb_rows *rows)
{
    return mmdb_execute(&of->db, of->insert.number, rows);
}

static mmdb_status updates(kept *of, mmdb_rows *rows)
{
    return mmdb_execute(&of->db, of->update.number, rows);
}

static mmdb_status erases(kept *of, mmdb_rows *rows)
{
    return mmdb_execute(&of->db, of->erase.number, rows);
}

static mmdb_status selects(kept *of, mmdb_rows *rows)
{
    return mmdb_execute(&of->db, of->select.number, rows);
}

static mmdb_status joins(kept *of, mmdb_rows *rows)
{
    return mmdb_execute(&of->db, of->join.number, rows);
}

static mmdb_status shows_first(kept *of, mmdb_rows *rows)
{
    return mmdb_first(&of->db, of->select.number, 2, rows);
}

static mmdb_status shows_first_by_hash(kept *of, mmdb_rows *rows)
{
    return mmdb_first(&of->db, of->find.number, 2, rows);
}

static mmdb_status shows_first_joined(kept *of, mmdb_rows *rows)
{
    return mmdb_first(&of->db, of->join.number, 1, rows);
}

static mmdb_status query(kept *of, const char *line, mmdb_rows *rows)
{
    return mmdb_query(&of->db, line, strlen(line), rows);
}

static mmdb_status queries(kept *of, mmdb_rows *rows)
{
    return query(of, "select distinct t.s, u.k from t join u on t.c = u.k where t.s <> 'a text that is given'", rows);
}

static mmdb_status inserts_by_query(kept *of, mmdb_rows *rows)
{
    return query(of, "insert t (5, 'a text that is longer than a slot of few bytes', 'a key of some length')", rows);
}

static mmdb_status updates_by_query(kept *of, mmdb_rows *rows)
{
    return query(of, "update t set s = 'a text that is longer than a slot of few bytes' where id > 1", rows);
}

static mmdb_status erases_by_query(kept *of, mmdb_rows *rows)
{
    return query(of, "delete t where s <> 'a'", rows);
}

static mmdb_status tells_columns(kept *of, mmdb_rows *rows)
{
    return mmdb_columns(&of->db, of->select.number, rows);
}

/* How many rows there are is told where the number of those that were changed is. */
static mmdb_status counts(kept *of, mmdb_rows *rows)
{
    return mmdb_count(&of->db, of->select.number, &rows->changed);
}

static mmdb_status counts_joined(kept *of, mmdb_rows *rows)
{
    return mmdb_count(&of->db, of->join.number, &rows->changed);
}

/* Two rows for a statement whose places take an integer and a text, or a text alone. How many rows were changed is told as of a count. */
static mmdb_status executes_many(kept *of, mmdb_statement statement, mmdb_rows *rows)
{
    const uint16_t length = (uint16_t)(strlen(LONG) - 1);
    const mmdb_cell cells[] = {
        { 6, 0, 0, MMDB_INTEGER }, { 0, 1, length, MMDB_TEXT }, { 5, 0, 0, MMDB_INTEGER }, { 0, 0, length, MMDB_TEXT },
    };
    const mmdb_cell texts[] = { cells[1], cells[0], cells[3], cells[2] };
    const int is_insert = statement.number == of->insert.number;
    return mmdb_execute_many(&of->db, statement.number, is_insert ? cells : texts, 4, LONG, strlen(LONG), &rows->changed);
}

static mmdb_status inserts_many(kept *of, mmdb_rows *rows)
{
    return executes_many(of, of->insert, rows);
}

static mmdb_status updates_many(kept *of, mmdb_rows *rows)
{
    return executes_many(of, of->update, rows);
}

static mmdb_status erases_many(kept *of, mmdb_rows *rows)
{
    const uint16_t length = (uint16_t)strlen(LONG);
    const mmdb_cell cells[] = { { 0, 0, length, MMDB_TEXT }, { 0, 0, 1, MMDB_TEXT } };
    return mmdb_execute_many(&of->db, of->erase.number, cells, 2, LONG, strlen(LONG), &rows->changed);
}

typedef mmdb_status (*step)(kept *of, mmdb_rows *rows);

static const struct {
    step does;
    mmdb_status without_memory;
} STEPS[] = {
    { prepares, MMDB_NO_MEMORY },
    { binds, MMDB_NO_MEMORY },
    { inserts, MMDB_REFUSED },
    { updates, MMDB_REFUSED },
    { erases, MMDB_REFUSED },
    { inserts_many, MMDB_REFUSED },
    { updates_many, MMDB_REFUSED },
    { erases_many, MMDB_REFUSED },
    { selects, MMDB_REFUSED },
    { joins, MMDB_REFUSED },
    { tells_columns, MMDB_REFUSED },
    { shows_first, MMDB_REFUSED },
    { shows_first_by_hash, MMDB_REFUSED },
    { shows_first_joined, MMDB_REFUSED },
    { counts, MMDB_REFUSED },
    { counts_joined, MMDB_REFUSED },
    { queries, MMDB_REFUSED },
    { inserts_by_query, MMDB_REFUSED },
    { updates_by_query, MMDB_REFUSED },
    { erases_by_query, MMDB_REFUSED },
};

static int are_alike(const mmdb_rows *one, const mmdb_rows *other)
{
    int alike = one->rows == other->rows && one->columns == other->columns && one->changed == other->changed;
    for (size_t i = 0; alike && i < one->rows * one->columns; i++)
        alike = are_same(one, one->cells + i, other, other->cells + i);
    return alike;
}

static int is_as(kept *one, kept *other)
{
    mmdb_bytes answer, expected;
    mmdb_rows rows, expected_rows;
    GIVES(command(&one->db, "dump t", &answer), MMDB_DONE);
    GIVES(command(&other->db, "dump t", &expected), MMDB_DONE);
    GIVES(selects(one, &rows), MMDB_DONE);
    GIVES(selects(other, &expected_rows), MMDB_DONE);
    return answer.length == expected.length && memcmp(answer.at, expected.at, answer.length) == 0 &&
           are_alike(&rows, &expected_rows);
}

static void expects_90(mmdb *db)
{
    mmdb_bytes answer;
    GIVES(mmdb_refusal(db), 90);
    GIVES(mmdb_answer(db, &answer), MMDB_DONE);
    CHECK(reads(answer, "error 90 no memory\n"));
}

/* What became of a call one of whose calls for memory was refused. */
typedef enum outcome { NONE_WAS_REFUSED, DONE_AS_EVER, NO_MEMORY } outcome;

static outcome tries(size_t number, long met)
{
    kept one, twin;
    mmdb_rows rows, expected;
    mmdb_status status;
    outcome ends;
    open_kept(&one);
    open_kept(&twin);
    memset(&rows, 0, sizeof rows);
    memset(&expected, 0, sizeof expected);
    allocations_refuse(met, 1);
    status = STEPS[number].does(&one, &rows);
    ends = allocations_refused() == 0 ? NONE_WAS_REFUSED : status == MMDB_DONE ? DONE_AS_EVER : NO_MEMORY;
    allocations_refuse(0, 0);
    if (ends == NO_MEMORY) {
        GIVES(status, STEPS[number].without_memory);
        if (status == MMDB_REFUSED)
            expects_90(&one.db);
        if (STEPS[number].does == binds)
            CHECK(inserts(&one, &rows) == inserts(&twin, &expected));
        CHECK(is_as(&one, &twin));
        status = STEPS[number].does(&one, &rows);
    }
    GIVES(status, MMDB_DONE);
    GIVES(STEPS[number].does(&twin, &expected), MMDB_DONE);
    CHECK(are_alike(&rows, &expected));
    CHECK(is_as(&one, &twin));
    mmdb_close(&one.db);
    mmdb_close(&twin.db);
    CHECK(allocations_held() == 0);
    return ends;
}

int main(void)
{
    long refused = 0;
    for (size_t number = 0; number < sizeof STEPS / sizeof STEPS[0]; number++) {
        outcome ends = NO_MEMORY;
        for (long met = 0; ends != NONE_WAS_REFUSED; met++) {
            ends = tries(number, met);
            refused += ends == NO_MEMORY;
        }
    }
    CHECK(refused > 0);
    return checks_failed != 0;
}
