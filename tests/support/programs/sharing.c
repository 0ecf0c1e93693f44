/* Handles that share tables: each status of the two calls, what each other call gives meanwhile, and what stays. However the
   handles are closed, all memory comes back. */
#include "allocations.h"
#include "checking.h"

static const char TABLE[] = "table t (id int, s text)";
static const char SELECT[] = "select s from t where id = ?";
static const char INSERT[] = "insert t (?, ?)";

static mmdb_status query(mmdb *db, const char *line, mmdb_rows *rows)
{
    return mmdb_query(db, line, strlen(line), rows);
}

/* A database with the table t, which has the row 1, 'one'. */
static mmdb opened(void)
{
    mmdb db = MMDB_CLOSED;
    GIVES(mmdb_open(&db, MMDB_AUTO, MMDB_MOST, MMDB_MOST), MMDB_DONE);
    GIVES(command(&db, TABLE, NULL), MMDB_DONE);
    GIVES(query(&db, "insert t (1, 'one')", NULL), MMDB_DONE);
    return db;
}

static mmdb sharing(mmdb *db)
{
    mmdb reader = MMDB_CLOSED;
    GIVES(mmdb_share(db, &reader), MMDB_DONE);
    CHECK(reader.inside != NULL);
    return reader;
}

static int has_rows(mmdb *db, size_t count)
{
    mmdb_rows rows;
    return query(db, "select * from t", &rows) == MMDB_DONE && rows.rows == count;
}

static int shows_one(const mmdb_rows *rows)
{
    return rows->rows == 1 && rows->columns == 1 && reads(mmdb_text(rows, mmdb_cell_at(rows, 0, 0)), "one");
}

static int finds_one(mmdb *db, mmdb_statement find, mmdb_rows *rows)
{
    return mmdb_bind_integer(db, find.number, 0, 1) == MMDB_DONE &&
           mmdb_execute(db, find.number, rows) == MMDB_DONE && shows_one(rows);
}

static void closed_handles_and_null_are_told(void)
{
    mmdb closed = MMDB_CLOSED, reader = MMDB_CLOSED, db = opened();
    GIVES(mmdb_share(&closed, &reader), MMDB_NOT_OPEN);
    GIVES(mmdb_share(NULL, &reader), MMDB_NOT_OPEN);
    GIVES(mmdb_share(&closed, &closed), MMDB_NOT_OPEN);
    CHECK(reader.inside == NULL);
    GIVES(mmdb_share(&db, NULL), MMDB_NOT_OPEN);
    GIVES(mmdb_share(&closed, &db), MMDB_NOT_OPEN);
    CHECK(has_rows(&db, 1));
    GIVES(mmdb_leave(&closed), MMDB_NOT_OPEN);
    GIVES(mmdb_leave(NULL), MMDB_NOT_OPEN);
    GIVES(mmdb_share(&db, &db), MMDB_DONE);
    GIVES(query(&db, "insert t (2, 'two')", NULL), MMDB_DONE);
    mmdb_close(&db);
}

/* What a handle gives that shares its tables with another. */
static void it_changes_nothing(mmdb *db)
{
    mmdb_rows rows;
    mmdb_bytes answer;
    mmdb_statement insert = prepared(db, INSERT);
    GIVES(mmdb_bind_integer(db, insert.number, 0, 2), MMDB_DONE);
    GIVES(mmdb_bind_text(db, insert.number, 1, "two", 3), MMDB_DONE);
    GIVES(mmdb_execute(db, insert.number, &rows), MMDB_SHARED);
    CHECK(rows.rows == 0 && rows.changed == 0);
    GIVES(mmdb_answer(db, &answer), MMDB_DONE);
    CHECK(reads(answer, ""));
    GIVES(query(db, "insert t (2, 'two')", &rows), MMDB_SHARED);
    GIVES(query(db, "update t set s = 'two'", &rows), MMDB_SHARED);
    GIVES(query(db, "delete t", &rows), MMDB_SHARED);
    GIVES(command(db, "delete t", &answer), MMDB_SHARED);
    CHECK(reads(answer, ""));
    GIVES(command(db, "table u (id int)", NULL), MMDB_SHARED);
    GIVES(load(db, "load t 9", "id,s\n2,b\n", &answer), MMDB_SHARED);
    GIVES(feed(db, "delete t\n"), MMDB_SHARED);
    GIVES(mmdb_answer(db, &answer), MMDB_DONE);
    CHECK(reads(answer, ""));
    /* A key that is there is no name and no value: what would find it is a change. */
    GIVES(command(db, "insert t (1, 'one')", NULL), MMDB_SHARED);
    GIVES(command(db, "drop table t", NULL), MMDB_SHARED);
    GIVES(command(db, "index t s hash", NULL), MMDB_SHARED);
    GIVES(mmdb_finalize(db, insert.number), MMDB_DONE);
    CHECK(has_rows(db, 1));
}

static int answers(mmdb *db, const char *line, const char *expected)
{
    mmdb_bytes answer;
    return command(db, line, &answer) == MMDB_DONE && reads(answer, expected);
}

/* A change is refused by what it would be refused by before it comes to be one. */
static void it_is_refused_as_ever(mmdb *db)
{
    mmdb_bytes answer;
    mmdb_statement insert = prepared(db, INSERT);
    GIVES(mmdb_bind_text(db, insert.number, 0, "two", 3), MMDB_DONE);
    GIVES(mmdb_execute(db, insert.number, NULL), MMDB_REFUSED);
    GIVES(mmdb_refusal(db), 35);
    GIVES(mmdb_statement_reason(db, insert.number, &answer), MMDB_DONE);
    CHECK(answer.length > 0);
    GIVES(query(db, "delete u", NULL), MMDB_REFUSED);
    GIVES(mmdb_refusal(db), 30);
    CHECK(answers(db, "drop table u", "error 30 no such table\n"));
    CHECK(mmdb_refusal(db) == 30);
    GIVES(mmdb_reason(db, "drop table u", 12, NULL, 0, &answer), MMDB_DONE);
    CHECK(answer.length > 0);
    CHECK(answers(db, "table t (id int)", "error 31 table exists\n"));
    CHECK(answers(db, "insert t ('two', 2)", "error 35 wrong type\n"));
    CHECK(answers(db, "drop t", "error 20 not a command\n"));
    CHECK(answers(db, "select \xff", "error 11 not UTF-8\n"));
    GIVES(load(db, "load t 9", "id,r\n2,b\n", &answer), MMDB_DONE);
    CHECK(reads(answer, "error 61 bad header\n"));
    GIVES(load(db, "load t 8", "id,s\n2,b\n", NULL), MMDB_NOT_ONE_REQUEST);
    GIVES(command(db, "", NULL), MMDB_NO_LINE);
    GIVES(command(db, "tables\ntables", NULL), MMDB_NOT_ONE_REQUEST);
    GIVES(mmdb_execute(db, 7, NULL), MMDB_NO_SUCH_STATEMENT);
    GIVES(mmdb_finalize(db, insert.number), MMDB_DONE);
}

static void it_reads(mmdb *db)
{
    mmdb_rows rows, columns;
    mmdb_cursor cursor = MMDB_NO_CURSOR;
    mmdb_bytes answer;
    uint64_t count = 0;
    mmdb_statement find = prepared(db, SELECT);
    CHECK(finds_one(db, find, &rows));
    GIVES(mmdb_count(db, find.number, &count), MMDB_DONE);
    CHECK(count == 1);
    GIVES(mmdb_first(db, find.number, 5, &rows), MMDB_DONE);
    CHECK(shows_one(&rows));
    GIVES(mmdb_cursor_open(db, find.number, &cursor), MMDB_DONE);
    GIVES(mmdb_cursor_fetch(&cursor, 5, &rows), MMDB_DONE);
    CHECK(shows_one(&rows));
    mmdb_cursor_close(&cursor);
    GIVES(mmdb_columns(db, find.number, &columns), MMDB_DONE);
    CHECK(columns.rows == 1 && reads(mmdb_text(&columns, mmdb_cell_at(&columns, 0, 0)), "t.s"));
    GIVES(mmdb_indexes(db, "t", 1, &answer), MMDB_DONE);
    CHECK(answer.length > 0);
    GIVES(mmdb_plan(db, "select s from t", 15, &answer), MMDB_DONE);
    CHECK(answer.length > 0);
    CHECK(answers(db, "select * from t where id = 1\r", "rows 1\nt.id,t.s\n1,one\n"));
    CHECK(answers(db, "tables", "table t (id int, s text)\nok 1\n"));
    CHECK(answers(db, "dump t", "load t 11\nid,s\n1,one\n"));
    CHECK(answers(db, " ", "") && answers(db, "# t", ""));
    GIVES(mmdb_finalize(db, find.number), MMDB_DONE);
}

static void each_of_two_reads_and_none_changes(void)
{
    mmdb db = opened(), reader = sharing(&db);
    for (mmdb *one = &db; one; one = one == &db ? &reader : NULL) {
        it_changes_nothing(one);
        it_is_refused_as_ever(one);
        it_reads(one);
    }
    mmdb_close(&reader);
    GIVES(query(&db, "insert t (2, 'two')", NULL), MMDB_DONE);
    CHECK(has_rows(&db, 2));
    mmdb_close(&db);
}

static void what_a_reader_has_stays_when_it_leaves(void)
{
    mmdb db = opened(), reader = sharing(&db);
    mmdb_rows rows, queried;
    mmdb_bytes answer;
    mmdb_statement find = prepared(&reader, SELECT);
    CHECK(finds_one(&reader, find, &rows));
    GIVES(query(&reader, "select s from t", &queried), MMDB_DONE);
    GIVES(query(&reader, "select s from u", NULL), MMDB_REFUSED);
    GIVES(mmdb_leave(&reader), MMDB_DONE);
    CHECK(shows_one(&rows) && shows_one(&queried));
    GIVES(mmdb_refusal(&reader), 30);
    GIVES(query(&db, "insert t (2, 'two')", NULL), MMDB_DONE);
    GIVES(mmdb_execute(&reader, find.number, NULL), MMDB_REFUSED);
    GIVES(mmdb_refusal(&reader), 30);
    GIVES(command(&reader, "tables", &answer), MMDB_DONE);
    CHECK(reads(answer, "ok 0\n"));
    GIVES(command(&reader, TABLE, NULL), MMDB_DONE);
    GIVES(mmdb_execute(&reader, find.number, &rows), MMDB_DONE);
    CHECK(rows.rows == 0);
    /* The tables of its own go, and the value is still bound. */
    GIVES(mmdb_share(&db, &reader), MMDB_DONE);
    GIVES(mmdb_execute(&reader, find.number, &rows), MMDB_DONE);
    CHECK(shows_one(&rows) && has_rows(&reader, 2));
    mmdb_close(&db);
    GIVES(query(&reader, "insert t (3, 'three')", NULL), MMDB_DONE);
    CHECK(has_rows(&reader, 3));
    mmdb_close(&reader);
}

/* How often the execution of a statement that shows one row asks for memory. */
static long asked_by(mmdb *db, mmdb_statement find)
{
    mmdb_rows rows;
    allocations_refuse(0, 0);
    GIVES(mmdb_execute(db, find.number, &rows), MMDB_DONE);
    CHECK(shows_one(&rows));
    return allocations_asked();
}

static void share_again(mmdb *db, mmdb *reader, const char *line)
{
    GIVES(mmdb_leave(reader), MMDB_DONE);
    GIVES(command(db, line, NULL), MMDB_DONE);
    GIVES(mmdb_share(db, reader), MMDB_DONE);
}

/* What a statement means is looked up anew only where the tables have other names or columns. */
static void meanings_stay_while_names_and_columns_do(void)
{
    mmdb db = opened(), reader = sharing(&db);
    mmdb_rows rows;
    mmdb_statement find = prepared(&reader, SELECT);
    CHECK(finds_one(&reader, find, &rows) && asked_by(&reader, find) == 0);
    share_again(&db, &reader, "insert t (2, 'two')");
    CHECK(asked_by(&reader, find) == 0);
    share_again(&db, &reader, "index t s hash");
    CHECK(asked_by(&reader, find) == 0);
    share_again(&db, &reader, "table u (id int, t ref t)");
    CHECK(asked_by(&reader, find) > 0 && asked_by(&reader, find) == 0);
    share_again(&db, &reader, "drop table u");
    share_again(&db, &reader, "table u (id int, t ref t null)");
    CHECK(asked_by(&reader, find) > 0 && asked_by(&reader, find) == 0);
    /* The same line means another column of another table of that name. */
    GIVES(mmdb_leave(&reader), MMDB_DONE);
    GIVES(command(&db, "drop table u", NULL), MMDB_DONE);
    GIVES(command(&db, "drop table t", NULL), MMDB_DONE);
    GIVES(command(&db, "table t (id int, n int, s text)", NULL), MMDB_DONE);
    GIVES(command(&db, "insert t (1, 7, 'one')", NULL), MMDB_DONE);
    GIVES(mmdb_share(&db, &reader), MMDB_DONE);
    CHECK(asked_by(&reader, find) > 0 && asked_by(&reader, find) == 0);
    mmdb_close(&reader);
    mmdb_close(&db);
}

static void a_stream_goes_with_the_tables(void)
{
    mmdb db = opened(), reader = MMDB_CLOSED;
    mmdb_bytes answer;
    GIVES(feed(&db, "insert t (2"), MMDB_DONE);
    GIVES(mmdb_share(&db, &reader), MMDB_DONE);
    mmdb_close(&db);
    GIVES(feed(&reader, ", 'two')\n"), MMDB_DONE);
    GIVES(mmdb_answer(&reader, &answer), MMDB_DONE);
    CHECK(reads(answer, "ok 1\n"));
    mmdb_close(&reader);
}

/* Three handles, closed in each order: the last may write, and with it all memory comes back. */
static void handles_are_closed_in_any_order(void)
{
    static const int orders[6][3] = { { 0, 1, 2 }, { 0, 2, 1 }, { 1, 0, 2 }, { 1, 2, 0 }, { 2, 0, 1 }, { 2, 1, 0 } };
    for (int order = 0; order < 6; order++) {
        const long held = allocations_held();
        mmdb handles[3];
        handles[0] = opened();
        handles[1] = sharing(&handles[0]);
        handles[2] = sharing(&handles[1]);
        mmdb_close(&handles[orders[order][0]]);
        GIVES(query(&handles[orders[order][1]], "insert t (2, 'two')", NULL), MMDB_SHARED);
        mmdb_close(&handles[orders[order][1]]);
        CHECK(allocations_held() > held);
        GIVES(query(&handles[orders[order][2]], "insert t (2, 'two')", NULL), MMDB_DONE);
        CHECK(has_rows(&handles[orders[order][2]], 2));
        mmdb_close(&handles[orders[order][2]]);
        CHECK(allocations_held() == held);
    }
}

/* Refuses each call for memory of a call in its turn, and gives how many there were. */
static long refusals_of_leaving(mmdb *reader)
{
    long met = 0;
    for (;; met++) {
        mmdb_status given;
        allocations_refuse(met, 1);
        given = mmdb_leave(reader);
        if (allocations_refused() == 0) {
            GIVES(given, MMDB_DONE);
            return met;
        }
        GIVES(given, MMDB_NO_MEMORY);
        CHECK(has_rows(reader, 1));
    }
}

static long refusals_of_sharing(mmdb *db, mmdb *reader)
{
    const int was_closed = reader->inside == NULL;
    long met = 0;
    for (;; met++) {
        mmdb_status given;
        allocations_refuse(met, 1);
        given = mmdb_share(db, reader);
        if (allocations_refused() == 0) {
            GIVES(given, MMDB_DONE);
            return met;
        }
        GIVES(given, MMDB_NO_MEMORY);
        CHECK((reader->inside == NULL) == was_closed);
        GIVES(query(db, "update t set s = 'one'", NULL), MMDB_DONE);
    }
}

/* A line gives that status and that answer, or it is answered 90. */
static long refusals_of_lines(mmdb *reader, const char *line, mmdb_status status, const char *expected)
{
    long met = 0;
    for (;; met++) {
        mmdb_status given;
        mmdb_bytes answer;
        int as_ever;
        allocations_refuse(met, 1);
        given = command(reader, line, &answer);
        as_ever = given == status && reads(answer, expected);
        if (allocations_refused() == 0) {
            CHECK(as_ever);
            return met;
        }
        CHECK(as_ever || (given == MMDB_DONE && reads(answer, "error 90 no memory\n")));
        CHECK(has_rows(reader, 1));
    }
}

static void memory_is_refused(void)
{
    mmdb db = opened(), alone = opened(), reader = MMDB_CLOSED;
    CHECK(refusals_of_sharing(&db, &reader) > 0);
    CHECK(refusals_of_lines(&reader, "select s from t where id <> 5", MMDB_DONE, "rows 1\nt.s\none\n") > 0);
    CHECK(refusals_of_lines(&reader, "dump t", MMDB_DONE, "load t 11\nid,s\n1,one\n") > 0);
    CHECK(refusals_of_lines(&reader, "insert t (5, 'a text of more than 14 bytes')", MMDB_SHARED, "") > 0);
    /* A handle that shares tables needs none to leave them. */
    CHECK(refusals_of_leaving(&reader) == 0);
    CHECK(refusals_of_sharing(&db, &reader) > 0);
    mmdb_close(&reader);
    CHECK(refusals_of_leaving(&db) == 0);
    mmdb_close(&db);
    /* One that never shared any needs some. */
    CHECK(refusals_of_leaving(&alone) > 0);
    mmdb_close(&alone);
}

int main(void)
{
    closed_handles_and_null_are_told();
    each_of_two_reads_and_none_changes();
    what_a_reader_has_stays_when_it_leaves();
    meanings_stay_while_names_and_columns_do();
    a_stream_goes_with_the_tables();
    handles_are_closed_in_any_order();
    memory_is_refused();
    CHECK(allocations_held() == 0);
    return checks_failed != 0;
}
