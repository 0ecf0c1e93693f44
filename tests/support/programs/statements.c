/* Meets each status of each call on statements, values that are none of what is wanted, and the ends of what rows are
   good for. */
#include "allocations.h"
#include "cells.h"
#include "checking.h"

#include <limits.h>
#include <stdlib.h>

enum { LONGEST_TEXT = 1024, LONGEST_LINE = 8192, NUMBERS = 10000 };

static mmdb_status prepare(mmdb *db, const char *line, mmdb_statement *statement)
{
    return mmdb_prepare(db, line, strlen(line), statement);
}

static mmdb_status bind_text(mmdb *db, mmdb_statement statement, uint32_t place, const char *text)
{
    return mmdb_bind_text(db, statement.number, place, text, strlen(text));
}

/* Opens a database with the tables `u (k text)` and `t (id int, s text, c ref u null)`, and a row of u. */
static void open_with_tables(mmdb *db)
{
    GIVES(mmdb_open(db, MMDB_AUTO, MMDB_MOST, MMDB_MOST), MMDB_DONE);
    GIVES(command(db, "table u (k text)", NULL), MMDB_DONE);
    GIVES(command(db, "table t (id int, s text, c ref u null)", NULL), MMDB_DONE);
    GIVES(command(db, "insert u ('')", NULL), MMDB_DONE);
    GIVES(mmdb_refusal(db), 0);
}

static int names_none(mmdb_statement statement)
{
    return statement.number == UINT32_MAX && statement.places == 0;
}

/* Executes a statement that isn't refused, and tells how many rows it was about. */
static uint64_t changed_by(mmdb *db, mmdb_statement statement)
{
    mmdb_rows rows = other_rows();
    GIVES(mmdb_execute(db, statement.number, &rows), MMDB_DONE);
    CHECK(rows.rows == 0);
    return rows.changed;
}

static void a_closed_handle_is_told(mmdb *db)
{
    mmdb_statement statement = { 0, 7 };
    mmdb_rows rows = other_rows();
    GIVES(mmdb_prepare(db, "delete t", 8, &statement), MMDB_NOT_OPEN);
    CHECK(names_none(statement));
    GIVES(mmdb_prepare(db, NULL, 0, NULL), MMDB_NOT_OPEN);
    GIVES(mmdb_bind_integer(db, 0, 0, 1), MMDB_NOT_OPEN);
    GIVES(mmdb_bind_text(db, 0, 0, "a", 1), MMDB_NOT_OPEN);
    GIVES(mmdb_bind_text(db, 0, 0, NULL, 1), MMDB_NOT_OPEN);
    GIVES(mmdb_bind_null(db, 0, 0), MMDB_NOT_OPEN);
    GIVES(mmdb_execute(db, 0, &rows), MMDB_NOT_OPEN);
    CHECK(has_none(rows));
    GIVES(mmdb_execute(db, 0, NULL), MMDB_NOT_OPEN);
    rows = other_rows();
    GIVES(mmdb_columns(db, 0, &rows), MMDB_NOT_OPEN);
    CHECK(has_none(rows));
    GIVES(mmdb_columns(db, 0, NULL), MMDB_NOT_OPEN);
    GIVES(mmdb_finalize(db, 0), MMDB_NOT_OPEN);
}

static void prepare_gives_each_status(mmdb *db)
{
    mmdb_statement statement = { 0, 7 };
    GIVES(mmdb_prepare(db, NULL, 0, &statement), MMDB_NO_LINE);
    CHECK(names_none(statement));
    GIVES(mmdb_prepare(db, NULL, 5, NULL), MMDB_NO_LINE);
    GIVES(mmdb_prepare(db, "delete t", 0, &statement), MMDB_NO_LINE);
    GIVES(prepare(db, "delete t", NULL), MMDB_DONE);
    GIVES(mmdb_prepare(db, "delete t and more", 8, &statement), MMDB_DONE);
    CHECK(statement.places == 0);
    CHECK(prepared(db, "insert t (?, ?, ?)").places == 3);
    CHECK(prepared(db, "insert t (?, '?', ?)").places == 2);
    CHECK(prepared(db, "insert t (1, 'it''s ?', null)").places == 0);
    CHECK(prepared(db, "update t set s = ?, c = ? where id >= ? and id<?").places == 4);
    CHECK(prepared(db, "delete t where s = ?\r").places == 1);
    CHECK(prepared(db, "select distinct s from t join u on t.c = u.k where t.id <> ? and k = ?").places == 2);
}

/* What is refused whatever the values are. */
static void a_line_that_is_no_statement_is_refused(mmdb *db)
{
    static const struct {
        const char *line;
        const char *answer;
    } REFUSED[] = {
        { "delete t where s = '\377'", "error 11 not UTF-8\n" },
        { "delete t where s = '\377'\n", "error 11 not UTF-8\n" },
        { " \t", "error 20 not a command\n" },
        { "# a comment, is it?", "error 20 not a command\n" },
        { "tables", "error 20 not a command\n" },
        { "table v (id int)", "error 20 not a command\n" },
        { "drop table t", "error 20 not a command\n" },
        { "dump t", "error 20 not a command\n" },
        { "load t 5", "error 20 not a command\n" },
        { "noise", "error 20 not a command\n" },
        { "?", "error 20 not a command\n" },
        { "insert t (?, ?, ?", "error 20 not a command\n" },
        { "insert t (??, 'a', null)", "error 20 not a command\n" },
        { "insert t (-?, 'a', null)", "error 20 not a command\n" },
        { "insert ? (1, 'a', null)", "error 20 not a command\n" },
        { "select ? from t", "error 20 not a command\n" },
        { "delete t where ? = 1", "error 20 not a command\n" },
        { "delete t where id = ?\n", "error 20 not a command\n" },
        { "delete t where id = ?\r\r", "error 20 not a command\n" },
        { "insert v (?)", "error 30 no such table\n" },
        { "select * from v where id = ?", "error 30 no such table\n" },
        { "select nothing from t where id = ?", "error 32 no such column\n" },
        { "update t set nothing = ?", "error 32 no such column\n" },
        { "delete t where nothing = ?", "error 32 no such column\n" },
        { "update t set s = ?, s = ?", "error 33 column named twice\n" },
        { "select id, id from t", "error 33 column named twice\n" },
        { "select * from t join t on t.id = t.id", "error 34 table named twice\n" },
        { "select * from t where id = 'a' and s = ?", "error 35 wrong type\n" },
        { "select * from t join u on t.id = u.k", "error 35 wrong type\n" },
        { "insert t ('a', ?, ?)", "error 35 wrong type\n" },
        { "insert t (?, ?)", "error 45 wrong number of values\n" },
    };
    char line[LONGEST_LINE + 2];
    mmdb_statement statement;
    for (size_t i = 0; i < sizeof REFUSED / sizeof REFUSED[0]; i++) {
        GIVES(prepare(db, REFUSED[i].line, &statement), MMDB_REFUSED);
        CHECK(names_none(statement));
        CHECK(is_refused_by(db, REFUSED[i].answer));
    }
    memset(line, ' ', sizeof line);
    memcpy(line, "delete t", 8);
    GIVES(mmdb_prepare(db, line, LONGEST_LINE, &statement), MMDB_DONE);
    GIVES(mmdb_prepare(db, line, LONGEST_LINE + 1, &statement), MMDB_REFUSED);
    CHECK(is_refused_by(db, "error 10 line too long\n"));
    line[9] = '\n';
    GIVES(mmdb_prepare(db, line, LONGEST_LINE + 1, &statement), MMDB_REFUSED);
    CHECK(is_refused_by(db, "error 10 line too long\n"));
}

static void binding_gives_each_status(mmdb *db)
{
    static const char *const NO_TEXTS[] = { "\377", "\300\200", "\355\240\200", "\303", "a\342\202", "\365\200\200\200" };
    mmdb_statement insert = prepared(db, "insert t (?, ?, null)"), gone = prepared(db, "delete t where id = ?");
    const uint32_t none[] = { gone.number, NUMBERS, UINT32_MAX }, past[] = { 2, 3, UINT32_MAX };
    GIVES(mmdb_finalize(db, gone.number), MMDB_DONE);
    GIVES(mmdb_bind_integer(db, insert.number, 0, 20), MMDB_DONE);
    GIVES(bind_text(db, insert, 1, "kept"), MMDB_DONE);
    for (size_t i = 0; i < sizeof none / sizeof none[0]; i++) {
        GIVES(mmdb_bind_integer(db, none[i], 0, 1), MMDB_NO_SUCH_STATEMENT);
        GIVES(mmdb_bind_text(db, none[i], 0, "a", 1), MMDB_NO_SUCH_STATEMENT);
        GIVES(mmdb_bind_null(db, none[i], 0), MMDB_NO_SUCH_STATEMENT);
    }
    for (size_t i = 0; i < sizeof past / sizeof past[0]; i++) {
        GIVES(mmdb_bind_integer(db, insert.number, past[i], 1), MMDB_NO_SUCH_PLACE);
        GIVES(mmdb_bind_text(db, insert.number, past[i], "a", 1), MMDB_NO_SUCH_PLACE);
        GIVES(mmdb_bind_null(db, insert.number, past[i]), MMDB_NO_SUCH_PLACE);
    }
    for (size_t i = 0; i < sizeof NO_TEXTS / sizeof NO_TEXTS[0]; i++)
        GIVES(bind_text(db, insert, 1, NO_TEXTS[i]), MMDB_NOT_UTF8);
    GIVES(mmdb_bind_text(db, insert.number, 1, NULL, 1), MMDB_NO_LINE);
    CHECK(changed_by(db, insert) == 1);
    GIVES(mmdb_bind_text(db, insert.number, 1, NULL, 0), MMDB_DONE);
    GIVES(mmdb_bind_integer(db, insert.number, 0, 21), MMDB_DONE);
    CHECK(changed_by(db, insert) == 1);
}

/* In the rows that the calls above put in: what wasn't bound has changed nothing. */
static void what_was_bound_has_stayed(mmdb *db)
{
    mmdb_statement select = prepared(db, "select id, s from t");
    mmdb_rows rows;
    GIVES(mmdb_execute(db, select.number, &rows), MMDB_DONE);
    CHECK(rows.rows == 2 && is_integer(&rows, 0, 0, 20) && is_text(&rows, 0, 1, "kept"));
    CHECK(rows.rows == 2 && is_integer(&rows, 1, 0, 21) && is_text(&rows, 1, 1, ""));
    GIVES(command(db, "delete t", NULL), MMDB_DONE);
}

/* It puts in rows with the least key and the greatest. */
static void execute_gives_each_status(mmdb *db)
{
    mmdb_statement insert = prepared(db, "insert t (?, ?, ?)");
    mmdb_rows rows = other_rows();
    mmdb_bytes answer;
    GIVES(mmdb_execute(db, NUMBERS, &rows), MMDB_NO_SUCH_STATEMENT);
    CHECK(has_none(rows));
    GIVES(mmdb_execute(db, UINT32_MAX, NULL), MMDB_NO_SUCH_STATEMENT);
    rows = other_rows();
    GIVES(mmdb_execute(db, insert.number, &rows), MMDB_REFUSED);
    CHECK(has_none(rows));
    CHECK(is_refused_by(db, "error 35 wrong type\n"));
    GIVES(mmdb_bind_integer(db, insert.number, 0, INT64_MIN), MMDB_DONE);
    GIVES(bind_text(db, insert, 1, "least"), MMDB_DONE);
    CHECK(changed_by(db, insert) == 1);
    GIVES(mmdb_answer(db, &answer), MMDB_DONE);
    CHECK(reads(answer, ""));
    GIVES(mmdb_refusal(db), 0);
    GIVES(mmdb_execute(db, insert.number, NULL), MMDB_REFUSED);
    CHECK(is_refused_by(db, "error 41 key exists\n"));
    GIVES(mmdb_bind_integer(db, insert.number, 0, INT64_MAX), MMDB_DONE);
    GIVES(bind_text(db, insert, 2, ""), MMDB_DONE);
    CHECK(changed_by(db, insert) == 1);
    GIVES(mmdb_bind_integer(db, insert.number, 0, 5), MMDB_DONE);
    GIVES(bind_text(db, insert, 2, "nobody"), MMDB_DONE);
    GIVES(mmdb_execute(db, insert.number, NULL), MMDB_REFUSED);
    GIVES(mmdb_execute(db, NUMBERS, NULL), MMDB_NO_SUCH_STATEMENT);
    GIVES(mmdb_columns(db, NUMBERS, NULL), MMDB_NO_SUCH_STATEMENT);
    CHECK(is_refused_by(db, "error 42 no referenced row\n"));
}

static void a_select_gives_cells(mmdb *db)
{
    mmdb_statement select = prepared(db, "select id, s, c from t where id >= ?");
    mmdb_rows rows;
    GIVES(mmdb_execute(db, select.number, NULL), MMDB_REFUSED);
    CHECK(is_refused_by(db, "error 35 wrong type\n"));
    GIVES(mmdb_bind_integer(db, select.number, 0, INT64_MIN), MMDB_DONE);
    GIVES(mmdb_execute(db, select.number, NULL), MMDB_DONE);
    GIVES(mmdb_execute(db, select.number, &rows), MMDB_DONE);
    CHECK(rows.rows == 2 && rows.columns == 3 && rows.changed == 0);
    CHECK(is_integer(&rows, 0, 0, INT64_MIN) && is_text(&rows, 0, 1, "least") && is_null(&rows, 0, 2));
    CHECK(is_integer(&rows, 1, 0, INT64_MAX) && is_text(&rows, 1, 1, "least") && is_text(&rows, 1, 2, ""));
    GIVES(mmdb_bind_integer(db, select.number, 0, INT64_MAX), MMDB_DONE);
    GIVES(mmdb_execute(db, select.number, &rows), MMDB_DONE);
    CHECK(rows.rows == 1 && is_integer(&rows, 0, 0, INT64_MAX));
    GIVES(command(db, "delete t", NULL), MMDB_DONE);
    GIVES(mmdb_execute(db, select.number, &rows), MMDB_DONE);
    CHECK(rows.rows == 0 && rows.columns == 3 && rows.cells != NULL);
}

static void changes_tell_how_many_rows_they_were_about(mmdb *db)
{
    mmdb_statement insert = prepared(db, "insert t (?, 'a', null)"), clear = prepared(db, "delete t where s = ?");
    mmdb_statement update = prepared(db, "update t set s = ? where id < ?"), key = prepared(db, "update t set id = ?");
    mmdb_statement refer = prepared(db, "update t set c = '' where id = ?"), erase = prepared(db, "delete u where k = ?");
    for (int64_t id = 0; id < 10; id++) {
        GIVES(mmdb_bind_integer(db, insert.number, 0, id), MMDB_DONE);
        CHECK(changed_by(db, insert) == 1);
    }
    GIVES(bind_text(db, update, 0, "b"), MMDB_DONE);
    GIVES(mmdb_bind_integer(db, update.number, 1, 7), MMDB_DONE);
    CHECK(changed_by(db, update) == 7);
    CHECK(changed_by(db, update) == 7);
    GIVES(bind_text(db, clear, 0, "a"), MMDB_DONE);
    CHECK(changed_by(db, clear) == 3);
    CHECK(changed_by(db, clear) == 0);
    GIVES(mmdb_execute(db, key.number, NULL), MMDB_REFUSED);
    CHECK(is_refused_by(db, "error 35 wrong type\n"));
    GIVES(mmdb_bind_integer(db, key.number, 0, 1), MMDB_DONE);
    GIVES(mmdb_execute(db, key.number, NULL), MMDB_REFUSED);
    CHECK(is_refused_by(db, "error 36 key cannot be set\n"));
    GIVES(mmdb_bind_integer(db, refer.number, 0, 3), MMDB_DONE);
    CHECK(changed_by(db, refer) == 1);
    GIVES(bind_text(db, erase, 0, ""), MMDB_DONE);
    GIVES(mmdb_execute(db, erase.number, NULL), MMDB_REFUSED);
    CHECK(is_refused_by(db, "error 44 row is referenced\n"));
    GIVES(command(db, "delete t", NULL), MMDB_DONE);
}

static void a_full_table_takes_no_row(void)
{
    mmdb db = MMDB_CLOSED;
    mmdb_statement insert;
    GIVES(mmdb_open(&db, MMDB_AUTO, 2, 0), MMDB_DONE);
    GIVES(command(&db, "table t (id int)", NULL), MMDB_DONE);
    insert = prepared(&db, "insert t (?)");
    for (int64_t id = 0; id < 2; id++) {
        GIVES(mmdb_bind_integer(&db, insert.number, 0, id), MMDB_DONE);
        CHECK(changed_by(&db, insert) == 1);
    }
    GIVES(mmdb_bind_integer(&db, insert.number, 0, 2), MMDB_DONE);
    GIVES(mmdb_execute(&db, insert.number, NULL), MMDB_REFUSED);
    CHECK(is_refused_by(&db, "error 43 table full\n"));
    mmdb_close(&db);
}

/* A value is one value, whatever it holds, and is copied when it is bound. */
static void a_text_may_hold_anything_that_is_utf8(mmdb *db)
{
    static const struct {
        const char *text;
        size_t length;
    } TEXTS[] = {
        { "", 0 },          { "\0", 1 },         { "a\0b", 3 },
        { "\n", 1 },        { "two\nlines\n", 10 }, { "\r\n", 2 },
        { "?", 1 },         { "'", 1 },          { "'); delete t", 12 },
        { "\"a\",b", 5 },   { "null", 4 },       { "\303\251\342\202\254\360\237\230\200", 9 },
    };
    const size_t count = sizeof TEXTS / sizeof TEXTS[0];
    mmdb_statement insert = prepared(db, "insert t (?, ?, null)"), select = prepared(db, "select s from t");
    char longest[LONGEST_TEXT];
    mmdb_rows rows;
    for (size_t i = 0; i < count; i++) {
        char copied[16];
        memcpy(copied, TEXTS[i].text, TEXTS[i].length);
        GIVES(mmdb_bind_integer(db, insert.number, 0, (int64_t)i), MMDB_DONE);
        GIVES(mmdb_bind_text(db, insert.number, 1, copied, TEXTS[i].length), MMDB_DONE);
        memset(copied, '!', sizeof copied);
        CHECK(changed_by(db, insert) == 1);
    }
    memset(longest, '\'', sizeof longest);
    GIVES(mmdb_bind_integer(db, insert.number, 0, (int64_t)count), MMDB_DONE);
    GIVES(mmdb_bind_text(db, insert.number, 1, longest, sizeof longest), MMDB_DONE);
    CHECK(changed_by(db, insert) == 1);
    GIVES(mmdb_execute(db, select.number, &rows), MMDB_DONE);
    CHECK(rows.rows == count + 1 && rows.columns == 1);
    for (size_t i = 0; i < count && i < rows.rows; i++)
        CHECK(is_bytes(&rows, i, 0, TEXTS[i].text, TEXTS[i].length));
    CHECK(rows.rows > count && is_bytes(&rows, count, 0, longest, sizeof longest));
}

/* In the rows of the texts above. */
static void a_text_is_compared_and_set_whatever_it_holds(mmdb *db)
{
    mmdb_statement select = prepared(db, "select id from t where s = ?");
    mmdb_statement update = prepared(db, "update t set s = ? where id = ?");
    mmdb_rows rows;
    GIVES(mmdb_bind_text(db, select.number, 0, "two\nlines\n", 10), MMDB_DONE);
    GIVES(mmdb_execute(db, select.number, &rows), MMDB_DONE);
    CHECK(rows.rows == 1 && is_integer(&rows, 0, 0, 4));
    GIVES(mmdb_bind_text(db, select.number, 0, "a\0b", 3), MMDB_DONE);
    GIVES(mmdb_execute(db, select.number, &rows), MMDB_DONE);
    CHECK(rows.rows == 1 && is_integer(&rows, 0, 0, 2));
    GIVES(mmdb_bind_text(db, update.number, 0, "\n\n", 2), MMDB_DONE);
    GIVES(mmdb_bind_integer(db, update.number, 1, 2), MMDB_DONE);
    CHECK(changed_by(db, update) == 1);
    GIVES(mmdb_execute(db, select.number, &rows), MMDB_DONE);
    CHECK(rows.rows == 0);
    GIVES(command(db, "delete t", NULL), MMDB_DONE);
}

/* A type that is wrong comes before a length, and both before what follows. */
static void a_text_that_is_too_long_is_refused(mmdb *db)
{
    enum { LENGTH = 100000 };
    char *text = (char *)malloc(LENGTH);
    const size_t lengths[] = { LONGEST_TEXT + 1, LONGEST_LINE, LENGTH };
    mmdb_statement insert = prepared(db, "insert t (?, ?, null)"), update = prepared(db, "update t set s = ?, id = 1");
    mmdb_statement select = prepared(db, "select id from t where s < ?");
    mmdb_rows rows;
    memset(text, 'x', LENGTH);
    GIVES(command(db, "insert t (1, 'x', null)", NULL), MMDB_DONE);
    for (size_t i = 0; i < sizeof lengths / sizeof lengths[0]; i++) {
        GIVES(mmdb_bind_null(db, insert.number, 0), MMDB_DONE);
        GIVES(mmdb_bind_text(db, insert.number, 1, text, lengths[i]), MMDB_DONE);
        GIVES(mmdb_execute(db, insert.number, NULL), MMDB_REFUSED);
        CHECK(is_refused_by(db, "error 35 wrong type\n"));
        GIVES(mmdb_bind_integer(db, insert.number, 0, 1), MMDB_DONE);
        GIVES(mmdb_execute(db, insert.number, NULL), MMDB_REFUSED);
        CHECK(is_refused_by(db, "error 46 text too long\n"));
        GIVES(mmdb_bind_text(db, update.number, 0, text, lengths[i]), MMDB_DONE);
        GIVES(mmdb_execute(db, update.number, NULL), MMDB_REFUSED);
        CHECK(is_refused_by(db, "error 46 text too long\n"));
        GIVES(mmdb_bind_text(db, select.number, 0, text, lengths[i]), MMDB_DONE);
        GIVES(mmdb_execute(db, select.number, &rows), MMDB_DONE);
        CHECK(rows.rows == 1 && is_integer(&rows, 0, 0, 1));
    }
    free(text);
    GIVES(command(db, "delete t", NULL), MMDB_DONE);
}

static void a_value_of_another_type_is_refused(mmdb *db)
{
    mmdb_statement insert = prepared(db, "insert t (?, 'a', ?)"), update = prepared(db, "update t set s = ?");
    mmdb_statement erase = prepared(db, "delete t where id = ?"), select = prepared(db, "select * from t where c < ?");
    GIVES(bind_text(db, insert, 0, "1"), MMDB_DONE);
    GIVES(mmdb_execute(db, insert.number, NULL), MMDB_REFUSED);
    CHECK(is_refused_by(db, "error 35 wrong type\n"));
    GIVES(mmdb_bind_integer(db, insert.number, 0, 1), MMDB_DONE);
    GIVES(mmdb_bind_integer(db, insert.number, 1, 1), MMDB_DONE);
    GIVES(mmdb_execute(db, insert.number, NULL), MMDB_REFUSED);
    CHECK(is_refused_by(db, "error 35 wrong type\n"));
    GIVES(mmdb_bind_null(db, insert.number, 1), MMDB_DONE);
    CHECK(changed_by(db, insert) == 1);
    GIVES(mmdb_execute(db, update.number, NULL), MMDB_REFUSED);
    CHECK(is_refused_by(db, "error 35 wrong type\n"));
    GIVES(mmdb_bind_integer(db, update.number, 0, 1), MMDB_DONE);
    GIVES(mmdb_execute(db, update.number, NULL), MMDB_REFUSED);
    CHECK(is_refused_by(db, "error 35 wrong type\n"));
    GIVES(bind_text(db, erase, 0, "a"), MMDB_DONE);
    GIVES(mmdb_execute(db, erase.number, NULL), MMDB_REFUSED);
    CHECK(is_refused_by(db, "error 35 wrong type\n"));
    GIVES(mmdb_execute(db, select.number, NULL), MMDB_REFUSED);
    CHECK(is_refused_by(db, "error 35 wrong type\n"));
    GIVES(command(db, "delete t", NULL), MMDB_DONE);
}

/* What is checked behind the values is told by the execution, also where there are none to come. */
static void what_comes_behind_the_values_is_told_last(mmdb *db)
{
    char line[LONGEST_TEXT + 100] = "insert t (1, '";
    mmdb_statement key = prepared(db, "update t set id = 5"), conditions, text;
    const size_t front = strlen(line);
    memset(line + front, 'x', LONGEST_TEXT + 1);
    strcpy(line + front + LONGEST_TEXT + 1, "', null)");
    text = prepared(db, line);
    strcpy(line, "delete t where id = 0");
    for (int more = 0; more < 8; more++)
        strcat(line, " and id = ?");
    conditions = prepared(db, line);
    GIVES(mmdb_execute(db, key.number, NULL), MMDB_REFUSED);
    CHECK(is_refused_by(db, "error 36 key cannot be set\n"));
    GIVES(mmdb_execute(db, text.number, NULL), MMDB_REFUSED);
    CHECK(is_refused_by(db, "error 46 text too long\n"));
    GIVES(mmdb_execute(db, conditions.number, NULL), MMDB_REFUSED);
    CHECK(is_refused_by(db, "error 35 wrong type\n"));
    for (uint32_t place = 0; place < conditions.places; place++)
        GIVES(mmdb_bind_integer(db, conditions.number, place, 1), MMDB_DONE);
    GIVES(mmdb_execute(db, conditions.number, NULL), MMDB_REFUSED);
    CHECK(is_refused_by(db, "error 37 too many\n"));
}

/* A refusal is told until a statement is prepared or executed, or a line is done. */
static void binding_leaves_the_answers(mmdb *db)
{
    mmdb_statement insert = prepared(db, "insert u (?)"), select = prepared(db, "select * from u");
    mmdb_bytes answer;
    GIVES(mmdb_execute(db, insert.number, NULL), MMDB_REFUSED);
    GIVES(bind_text(db, insert, 0, ""), MMDB_DONE);
    GIVES(mmdb_bind_null(db, insert.number, 7), MMDB_NO_SUCH_PLACE);
    CHECK(is_refused_by(db, "error 35 wrong type\n"));
    GIVES(mmdb_execute(db, insert.number, NULL), MMDB_REFUSED);
    GIVES(mmdb_finalize(db, insert.number), MMDB_DONE);
    CHECK(is_refused_by(db, "error 41 key exists\n"));
    GIVES(mmdb_execute(db, select.number, NULL), MMDB_DONE);
    GIVES(mmdb_answer(db, &answer), MMDB_DONE);
    CHECK(reads(answer, "") && mmdb_refusal(db) == 0);
    GIVES(command(db, "tables", NULL), MMDB_DONE);
    GIVES(prepare(db, "select * from u", NULL), MMDB_DONE);
    GIVES(mmdb_answer(db, &answer), MMDB_DONE);
    CHECK(reads(answer, ""));
}

/* The words are those of the line with the values in their places. */
static void the_reason_is_that_of_the_line(mmdb *db)
{
    static const char LINE[] = "insert t (1, 'it''s', null)";
    mmdb_statement insert = prepared(db, "insert t (?, ?, null)");
    mmdb_bytes reason;
    GIVES(mmdb_bind_integer(db, insert.number, 0, 1), MMDB_DONE);
    GIVES(bind_text(db, insert, 1, "it's"), MMDB_DONE);
    CHECK(changed_by(db, insert) == 1);
    GIVES(mmdb_execute(db, insert.number, NULL), MMDB_REFUSED);
    GIVES(mmdb_reason(db, LINE, strlen(LINE), NULL, 0, &reason), MMDB_DONE);
    CHECK(reads(reason, "t has a row with the key 1"));
    CHECK(is_refused_by(db, "error 41 key exists\n"));
    GIVES(prepare(db, "select nothing from t", NULL), MMDB_REFUSED);
    GIVES(mmdb_reason(db, "select nothing from t", 21, NULL, 0, &reason), MMDB_DONE);
    CHECK(reads(reason, "nothing is no column of t"));
    GIVES(command(db, "delete t", NULL), MMDB_DONE);
}

static void columns_give_each_status(mmdb *db)
{
    mmdb_statement select = prepared(db, "select * from t join u on t.c = u.k where t.id < ?");
    mmdb_statement few = prepared(db, "select distinct c, id from t"), insert = prepared(db, "insert u (?)");
    mmdb_rows columns = other_rows();
    GIVES(mmdb_columns(db, NUMBERS, &columns), MMDB_NO_SUCH_STATEMENT);
    CHECK(has_none(columns));
    GIVES(mmdb_execute(db, select.number, NULL), MMDB_REFUSED);
    GIVES(mmdb_columns(db, select.number, NULL), MMDB_DONE);
    GIVES(bind_text(db, select, 0, "a text, which no key is"), MMDB_DONE);
    GIVES(mmdb_columns(db, select.number, &columns), MMDB_DONE);
    CHECK(columns.rows == 4 && columns.columns == 2 && columns.changed == 0);
    CHECK(is_text(&columns, 0, 0, "t.id") && is_integer(&columns, 0, 1, MMDB_INTEGER));
    CHECK(is_text(&columns, 1, 0, "t.s") && is_integer(&columns, 1, 1, MMDB_TEXT));
    CHECK(is_text(&columns, 2, 0, "t.c") && is_integer(&columns, 2, 1, MMDB_TEXT));
    CHECK(is_text(&columns, 3, 0, "u.k") && is_integer(&columns, 3, 1, MMDB_TEXT));
    GIVES(mmdb_columns(db, few.number, &columns), MMDB_DONE);
    CHECK(columns.rows == 2 && is_text(&columns, 0, 0, "t.c") && is_text(&columns, 1, 0, "t.id"));
    GIVES(mmdb_columns(db, insert.number, &columns), MMDB_DONE);
    CHECK(columns.rows == 0);
}

static void a_finalised_statement_is_none(mmdb *db)
{
    mmdb_statement one = prepared(db, "select * from u"), other = prepared(db, "select k from u"), again;
    mmdb_rows rows;
    GIVES(mmdb_finalize(db, NUMBERS), MMDB_NO_SUCH_STATEMENT);
    GIVES(mmdb_finalize(db, UINT32_MAX), MMDB_NO_SUCH_STATEMENT);
    GIVES(mmdb_finalize(db, one.number), MMDB_DONE);
    GIVES(mmdb_finalize(db, one.number), MMDB_NO_SUCH_STATEMENT);
    GIVES(mmdb_execute(db, one.number, NULL), MMDB_NO_SUCH_STATEMENT);
    GIVES(mmdb_columns(db, one.number, NULL), MMDB_NO_SUCH_STATEMENT);
    again = prepared(db, "select * from u where k = ?");
    CHECK(again.number != other.number && again.places == 1);
    GIVES(mmdb_execute(db, again.number, NULL), MMDB_REFUSED);
    GIVES(mmdb_execute(db, other.number, &rows), MMDB_DONE);
    CHECK(rows.rows == 1 && is_text(&rows, 0, 0, ""));
}

/* Rows stay as they are whatever else is done on the handle. */
static void rows_are_good_until_their_statement_is_executed_again(mmdb *db)
{
    mmdb_statement one = prepared(db, "select * from t"), other = prepared(db, "select s from t where id = ?");
    mmdb_statement insert = prepared(db, "insert t (?, ?, '')");
    mmdb_rows rows, others;
    GIVES(mmdb_bind_integer(db, insert.number, 0, 1), MMDB_DONE);
    GIVES(bind_text(db, insert, 1, "one"), MMDB_DONE);
    CHECK(changed_by(db, insert) == 1);
    GIVES(mmdb_execute(db, one.number, &rows), MMDB_DONE);
    GIVES(mmdb_bind_integer(db, insert.number, 0, 2), MMDB_DONE);
    GIVES(bind_text(db, insert, 1, "two"), MMDB_DONE);
    CHECK(changed_by(db, insert) == 1);
    GIVES(mmdb_bind_integer(db, other.number, 0, 2), MMDB_DONE);
    GIVES(mmdb_execute(db, other.number, &others), MMDB_DONE);
    for (int i = 0; i < 1000; i++)
        mmdb_finalize(db, prepared(db, "select * from u where k = ?").number);
    GIVES(command(db, "select * from t", NULL), MMDB_DONE);
    GIVES(command(db, "drop table t", NULL), MMDB_DONE);
    GIVES(mmdb_refusal(db), 0);
    CHECK(rows.rows == 1 && is_integer(&rows, 0, 0, 1) && is_text(&rows, 0, 1, "one") && is_text(&rows, 0, 2, ""));
    CHECK(others.rows == 1 && is_text(&others, 0, 0, "two"));
}

/* A statement is what its line is of the tables as they are when it is executed. */
static void a_statement_outlives_its_table(mmdb *db)
{
    mmdb_statement insert = prepared(db, "insert v (?, ?)"), select = prepared(db, "select * from v where id = ?");
    mmdb_rows rows;
    GIVES(mmdb_bind_integer(db, insert.number, 0, 1), MMDB_DONE);
    GIVES(bind_text(db, insert, 1, "a"), MMDB_DONE);
    GIVES(mmdb_bind_integer(db, select.number, 0, 1), MMDB_DONE);
    CHECK(changed_by(db, insert) == 1);
    GIVES(command(db, "drop table v", NULL), MMDB_DONE);
    GIVES(mmdb_execute(db, insert.number, NULL), MMDB_REFUSED);
    CHECK(is_refused_by(db, "error 30 no such table\n"));
    GIVES(mmdb_columns(db, select.number, NULL), MMDB_REFUSED);
    CHECK(is_refused_by(db, "error 30 no such table\n"));
    GIVES(command(db, "table v (s text, id int)", NULL), MMDB_DONE);
    GIVES(mmdb_execute(db, insert.number, NULL), MMDB_REFUSED);
    CHECK(is_refused_by(db, "error 35 wrong type\n"));
    GIVES(bind_text(db, insert, 0, "b"), MMDB_DONE);
    GIVES(mmdb_bind_integer(db, insert.number, 1, 1), MMDB_DONE);
    CHECK(changed_by(db, insert) == 1);
    GIVES(mmdb_execute(db, select.number, &rows), MMDB_DONE);
    CHECK(rows.rows == 1 && rows.columns == 2 && is_text(&rows, 0, 0, "b") && is_integer(&rows, 0, 1, 1));
    GIVES(command(db, "drop table v", NULL), MMDB_DONE);
    GIVES(command(db, "table v (id int)", NULL), MMDB_DONE);
    GIVES(mmdb_execute(db, insert.number, NULL), MMDB_REFUSED);
    CHECK(is_refused_by(db, "error 45 wrong number of values\n"));
    GIVES(mmdb_columns(db, select.number, &rows), MMDB_DONE);
    CHECK(rows.rows == 1 && is_text(&rows, 0, 0, "v.id"));
    GIVES(command(db, "drop table v", NULL), MMDB_DONE);
    GIVES(command(db, "table v (number int, s text)", NULL), MMDB_DONE);
    GIVES(mmdb_execute(db, select.number, NULL), MMDB_REFUSED);
    CHECK(is_refused_by(db, "error 32 no such column\n"));
}

static void many_statements_are_kept(mmdb *db)
{
    static uint32_t numbers[NUMBERS];
    mmdb_rows rows;
    for (int64_t i = 0; i < NUMBERS; i++) {
        mmdb_statement insert = prepared(db, "insert many (?)");
        numbers[i] = insert.number;
        GIVES(mmdb_bind_integer(db, insert.number, 0, i), MMDB_DONE);
    }
    for (int i = 0; i < NUMBERS; i++) {
        GIVES(mmdb_execute(db, numbers[i], &rows), MMDB_DONE);
        CHECK(rows.changed == 1);
    }
    for (int i = 0; i < NUMBERS; i += 2)
        GIVES(mmdb_finalize(db, numbers[i]), MMDB_DONE);
    GIVES(command(db, "delete many", NULL), MMDB_DONE);
    for (int i = 1; i < NUMBERS; i += 2)
        GIVES(mmdb_execute(db, numbers[i], NULL), MMDB_DONE);
    GIVES(mmdb_execute(db, prepared(db, "select * from many").number, &rows), MMDB_DONE);
    CHECK(rows.rows == NUMBERS / 2);
    for (size_t row = 0; row < rows.rows; row++)
        CHECK(is_integer(&rows, row, 0, 2 * (int64_t)row + 1));
}

/* Executes the statement that is about a row by its key, for keys from `first` below `end`. */
static void find_each(mmdb *db, mmdb_statement by_key, int64_t first, int64_t end)
{
    for (int64_t id = first; id < end; id++) {
        mmdb_rows rows = other_rows();
        GIVES(mmdb_bind_integer(db, by_key.number, 0, id), MMDB_DONE);
        GIVES(mmdb_execute(db, by_key.number, &rows), MMDB_DONE);
        CHECK(rows.changed == 1 || (rows.rows == 1 && is_integer(&rows, 0, 0, id) && is_text(&rows, 0, 1, "fourteen bytes")));
    }
}

/* To select, delete, insert or update a row by its key takes no memory where that was done before, a row has gone whose place there
   is, and no text has more than 14 bytes. */
static void one_row_takes_no_memory(void)
{
    mmdb db = MMDB_CLOSED;
    open_with_tables(&db);
    mmdb_statement insert = prepared(&db, "insert t (?, 'fourteen bytes', null)");
    mmdb_statement select = prepared(&db, "select id, s from t where id = ?");
    mmdb_statement whole = prepared(&db, "select * from t where id = ?");
    mmdb_statement update = prepared(&db, "update t set s = 'fourteen bytes' where id = ?");
    mmdb_statement delete = prepared(&db, "delete t where id = ?");
    find_each(&db, insert, 0, 100);
    find_each(&db, select, 0, 1);
    find_each(&db, whole, 0, 1);
    find_each(&db, update, 0, 1);
    find_each(&db, delete, 0, 1);
    allocations_refuse(0, LONG_MAX);
    find_each(&db, select, 1, 100);
    find_each(&db, whole, 1, 100);
    find_each(&db, delete, 1, 100);
    find_each(&db, insert, 1, 50);
    find_each(&db, update, 1, 50);
    find_each(&db, select, 1, 50);
    CHECK(allocations_refused() == 0);
    allocations_refuse(0, 0);
    mmdb_close(&db);
}

/* To select or update the one row that has a value under an index takes no memory either. */
static void one_row_under_an_index_takes_no_memory(const char *index)
{
    mmdb db = MMDB_CLOSED;
    open_with_tables(&db);
    GIVES(command(&db, "table w (k int, s text, id int)", NULL), MMDB_DONE);
    GIVES(command(&db, index, NULL), MMDB_DONE);
    GIVES(mmdb_refusal(&db), 0);
    mmdb_statement insert = prepared(&db, "insert w (?, 'fourteen bytes', ?)");
    for (int64_t id = 0; id < 100; id++) {
        GIVES(mmdb_bind_integer(&db, insert.number, 0, 100 - id), MMDB_DONE);
        GIVES(mmdb_bind_integer(&db, insert.number, 1, id), MMDB_DONE);
        CHECK(changed_by(&db, insert) == 1);
    }
    mmdb_statement select = prepared(&db, "select id, s from w where id = ?");
    mmdb_statement update = prepared(&db, "update w set s = 'fourteen bytes' where id = ?");
    find_each(&db, select, 0, 1);
    find_each(&db, update, 0, 1);
    allocations_refuse(0, LONG_MAX);
    find_each(&db, select, 1, 100);
    find_each(&db, update, 1, 100);
    CHECK(allocations_refused() == 0);
    allocations_refuse(0, 0);
    mmdb_close(&db);
}

int main(void)
{
    mmdb db = MMDB_CLOSED;
    CHECK(sizeof(mmdb_cell) == 16);
    a_closed_handle_is_told(NULL);
    a_closed_handle_is_told(&db);
    open_with_tables(&db);
    prepare_gives_each_status(&db);
    a_line_that_is_no_statement_is_refused(&db);
    binding_gives_each_status(&db);
    what_was_bound_has_stayed(&db);
    execute_gives_each_status(&db);
    a_select_gives_cells(&db);
    changes_tell_how_many_rows_they_were_about(&db);
    a_full_table_takes_no_row();
    a_text_may_hold_anything_that_is_utf8(&db);
    a_text_is_compared_and_set_whatever_it_holds(&db);
    a_text_that_is_too_long_is_refused(&db);
    a_value_of_another_type_is_refused(&db);
    what_comes_behind_the_values_is_told_last(&db);
    binding_leaves_the_answers(&db);
    the_reason_is_that_of_the_line(&db);
    columns_give_each_status(&db);
    a_finalised_statement_is_none(&db);
    rows_are_good_until_their_statement_is_executed_again(&db);
    GIVES(command(&db, "table v (id int, s text)", NULL), MMDB_DONE);
    a_statement_outlives_its_table(&db);
    GIVES(command(&db, "table many (id int)", NULL), MMDB_DONE);
    many_statements_are_kept(&db);
    one_row_takes_no_memory();
    one_row_under_an_index_takes_no_memory("index w id hash");
    one_row_under_an_index_takes_no_memory("index w id tree");
    mmdb_close(&db);
    a_closed_handle_is_told(&db);
    CHECK(allocations_held() == 0);
    return checks_failed != 0;
}
