/* Meets each status of mmdb_query, each kind of cell and of command, and what its rows are good for. */
#include "allocations.h"
#include "cells.h"
#include "checking.h"

#include <limits.h>
#include <stdlib.h>

enum { LONGEST_TEXT = 1024, LONGEST_LINE = 8192, MANY = 3000 };

static mmdb_status query(mmdb *db, const char *line, mmdb_rows *rows)
{
    return mmdb_query(db, line, strlen(line), rows);
}

/* How many rows a line is about that isn't refused and shows none. */
static uint64_t changed_by(mmdb *db, const char *line)
{
    mmdb_rows rows = other_rows();
    GIVES(query(db, line, &rows), MMDB_DONE);
    CHECK(rows.rows == 0 && rows.columns == 0 && rows.cells != NULL && rows.texts != NULL);
    return rows.changed;
}

static void a_closed_handle_is_told(mmdb *db)
{
    mmdb_rows rows = other_rows();
    GIVES(query(db, "delete t", &rows), MMDB_NOT_OPEN);
    CHECK(has_none(rows));
    GIVES(mmdb_query(db, NULL, 0, NULL), MMDB_NOT_OPEN);
    GIVES(query(NULL, "delete t", NULL), MMDB_NOT_OPEN);
}

static void null_is_met(mmdb *db)
{
    mmdb_rows rows = other_rows();
    GIVES(mmdb_query(db, NULL, 0, &rows), MMDB_NO_LINE);
    CHECK(has_none(rows));
    rows = other_rows();
    GIVES(mmdb_query(db, NULL, 5, &rows), MMDB_NO_LINE);
    CHECK(has_none(rows));
    GIVES(mmdb_query(db, "delete t", 0, NULL), MMDB_NO_LINE);
    GIVES(mmdb_query(db, "delete t and more", 8, NULL), MMDB_DONE);
}

static void each_command_on_rows_is_done(mmdb *db)
{
    mmdb_rows rows = other_rows();
    mmdb_bytes answer;
    CHECK(changed_by(db, "insert t (-9223372036854775808, '', null)") == 1);
    CHECK(changed_by(db, "insert t (9223372036854775807, 'it''s ? ', 'k')\r") == 1);
    CHECK(changed_by(db, "update t set s = 'x' where id > 0") == 1);
    GIVES(query(db, " select id , s , c from t", &rows), MMDB_DONE);
    CHECK(rows.rows == 2 && rows.columns == 3 && rows.changed == 0);
    CHECK(is_integer(&rows, 0, 0, INT64_MIN) && is_text(&rows, 0, 1, "") && is_null(&rows, 0, 2));
    CHECK(is_integer(&rows, 1, 0, INT64_MAX) && is_text(&rows, 1, 1, "x") && is_text(&rows, 1, 2, "k"));
    GIVES(mmdb_answer(db, &answer), MMDB_DONE);
    CHECK(reads(answer, "") && mmdb_refusal(db) == 0);
    GIVES(query(db, "select distinct u.k, t.s from t join u on t.c = u.k", &rows), MMDB_DONE);
    CHECK(rows.rows == 1 && rows.columns == 2 && is_text(&rows, 0, 0, "k") && is_text(&rows, 0, 1, "x"));
    GIVES(query(db, "select s from t where s = '?'", &rows), MMDB_DONE);
    CHECK(rows.rows == 0 && rows.columns == 1 && rows.cells != NULL && rows.texts != NULL);
    GIVES(query(db, "select * from t", NULL), MMDB_DONE);
    CHECK(changed_by(db, "delete t where id < 0") == 1);
    CHECK(changed_by(db, "delete t") == 1);
    CHECK(changed_by(db, "delete t") == 0);
}

static void a_line_is_refused_as_it_is_answered(mmdb *db)
{
    static const struct {
        const char *line;
        const char *answer;
    } REFUSED[] = {
        { "delete t where s = '\377'", "error 11 not UTF-8\n" },
        { " \t", "error 20 not a command\n" },
        { "# a comment", "error 20 not a command\n" },
        { "tables", "error 20 not a command\n" },
        { "table v (id int)", "error 20 not a command\n" },
        { "drop table t", "error 20 not a command\n" },
        { "index t s hash", "error 20 not a command\n" },
        { "dump t", "error 20 not a command\n" },
        { "load t 5", "error 20 not a command\n" },
        { "noise", "error 20 not a command\n" },
        { "insert t (?, 'a', null)", "error 20 not a command\n" },
        { "select * from t where id = ?", "error 20 not a command\n" },
        { "delete t\n", "error 20 not a command\n" },
        { "delete t\ndelete u", "error 20 not a command\n" },
        { "delete t\r\r", "error 20 not a command\n" },
        { "select * from v", "error 30 no such table\n" },
        { "select nothing from t", "error 32 no such column\n" },
        { "update t set s = 'a', s = 'b'", "error 33 column named twice\n" },
        { "select * from t join t on t.id = t.id", "error 34 table named twice\n" },
        { "insert t ('a', 'a', null)", "error 35 wrong type\n" },
        { "update t set id = 1", "error 36 key cannot be set\n" },
        { "insert t (1, 'b', null)", "error 41 key exists\n" },
        { "insert t (2, 'b', 'nobody')", "error 42 no referenced row\n" },
        { "delete u", "error 44 row is referenced\n" },
        { "insert t (1)", "error 45 wrong number of values\n" },
    };
    char line[LONGEST_LINE + 2];
    mmdb_rows rows;
    CHECK(changed_by(db, "insert t (1, 'a', 'k')") == 1);
    for (size_t i = 0; i < sizeof REFUSED / sizeof REFUSED[0]; i++) {
        rows = other_rows();
        GIVES(query(db, REFUSED[i].line, &rows), MMDB_REFUSED);
        CHECK(has_none(rows));
        CHECK(is_refused_by(db, REFUSED[i].answer));
    }
    memset(line, ' ', sizeof line);
    memcpy(line, "select * from t", 15);
    GIVES(mmdb_query(db, line, LONGEST_LINE, &rows), MMDB_DONE);
    CHECK(rows.rows == 1 && is_integer(&rows, 0, 0, 1) && is_text(&rows, 0, 1, "a"));
    GIVES(mmdb_query(db, line, LONGEST_LINE + 1, NULL), MMDB_REFUSED);
    CHECK(is_refused_by(db, "error 10 line too long\n"));
    memset(line, 'x', sizeof line);
    memcpy(line, "insert t (2, '", 14);
    memcpy(line + 14 + LONGEST_TEXT + 1, "', null)", 8);
    GIVES(mmdb_query(db, line, 14 + LONGEST_TEXT + 1 + 8, NULL), MMDB_REFUSED);
    CHECK(is_refused_by(db, "error 46 text too long\n"));
}

/* With the row above. */
static void the_reason_is_that_of_the_line(mmdb *db)
{
    static const char LINE[] = "insert t (1, 'b', null)";
    mmdb_bytes reason;
    GIVES(query(db, LINE, NULL), MMDB_REFUSED);
    GIVES(mmdb_reason(db, LINE, strlen(LINE), NULL, 0, &reason), MMDB_DONE);
    CHECK(reads(reason, "t has a row with the key 1"));
    CHECK(is_refused_by(db, "error 41 key exists\n"));
}

/* With the row above. Whatever else is done leaves the rows, also by lines and by statements. */
static void rows_are_good_until_the_next_query(mmdb *db)
{
    mmdb_rows rows, others;
    mmdb_statement select;
    GIVES(query(db, "select id, s from t", &rows), MMDB_DONE);
    GIVES(mmdb_prepare(db, "select * from u", 15, &select), MMDB_DONE);
    GIVES(mmdb_execute(db, select.number, &others), MMDB_DONE);
    GIVES(mmdb_columns(db, select.number, NULL), MMDB_DONE);
    GIVES(command(db, "select * from u", NULL), MMDB_DONE);
    GIVES(command(db, "delete t", NULL), MMDB_DONE);
    GIVES(feed(db, "dump u\n"), MMDB_DONE);
    CHECK(rows.rows == 1 && is_integer(&rows, 0, 0, 1) && is_text(&rows, 0, 1, "a"));
    GIVES(query(db, "select * from t", &rows), MMDB_DONE);
    CHECK(rows.rows == 0 && rows.columns == 3);
    CHECK(others.rows == 1 && is_text(&others, 0, 0, "k"));
    GIVES(mmdb_finalize(db, select.number), MMDB_DONE);
}

/* What waits of a stream is left, and what statements have bound. */
static void it_stands_beside_the_stream_and_the_statements(mmdb *db)
{
    mmdb_statement insert;
    mmdb_bytes answer;
    mmdb_rows rows;
    GIVES(mmdb_prepare(db, "insert t (?, 'a', null)", 23, &insert), MMDB_DONE);
    GIVES(mmdb_bind_integer(db, insert.number, 0, 5), MMDB_DONE);
    GIVES(feed(db, "select id fr"), MMDB_DONE);
    CHECK(changed_by(db, "insert t (4, 'four', null)") == 1);
    GIVES(mmdb_execute(db, insert.number, &rows), MMDB_DONE);
    CHECK(rows.changed == 1);
    GIVES(feed(db, "om t\n"), MMDB_DONE);
    GIVES(mmdb_answer(db, &answer), MMDB_DONE);
    CHECK(reads(answer, "rows 2\nt.id\n4\n5\n"));
    GIVES(query(db, "select c from t where id = 5", &rows), MMDB_DONE);
    CHECK(rows.rows == 1 && is_null(&rows, 0, 0));
}

static void many_rows_are_shown(mmdb *db)
{
    mmdb_rows rows;
    char line[64];
    for (int id = 0; id < MANY; id++) {
        sprintf(line, "insert many (%d, 'text %d')", id, id);
        CHECK(changed_by(db, line) == 1);
    }
    GIVES(query(db, "select * from many", &rows), MMDB_DONE);
    CHECK(rows.rows == MANY && rows.columns == 2);
    for (int id = 0; id < MANY && checks_failed == 0; id++) {
        sprintf(line, "text %d", id);
        CHECK(is_integer(&rows, (size_t)id, 0, id) && is_text(&rows, (size_t)id, 1, line));
    }
    CHECK(changed_by(db, "update many set s = ''") == MANY);
    CHECK(changed_by(db, "delete many where id >= 1000") == MANY - 1000);
}

int main(void)
{
    mmdb db = MMDB_CLOSED;
    a_closed_handle_is_told(&db);
    GIVES(mmdb_open(&db, MMDB_AUTO, MMDB_MOST, MMDB_MOST), MMDB_DONE);
    GIVES(command(&db, "table u (k text)", NULL), MMDB_DONE);
    GIVES(command(&db, "table t (id int, s text, c ref u null)", NULL), MMDB_DONE);
    GIVES(command(&db, "table many (id int, s text)", NULL), MMDB_DONE);
    CHECK(changed_by(&db, "insert u ('k')") == 1);
    null_is_met(&db);
    each_command_on_rows_is_done(&db);
    a_line_is_refused_as_it_is_answered(&db);
    the_reason_is_that_of_the_line(&db);
    rows_are_good_until_the_next_query(&db);
    it_stands_beside_the_stream_and_the_statements(&db);
    many_rows_are_shown(&db);
    mmdb_close(&db);
    a_closed_handle_is_told(&db);
    CHECK(allocations_held() == 0);
    return checks_failed != 0;
}
