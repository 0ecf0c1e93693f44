/* The numbers of the newest changes: what raises that of a table and that of all, what raises none, and each status of the call. */
#include "allocations.h"
#include "checking.h"

#define LONG_NAME "a_name_of_many_letters"

static void is_refused(mmdb *db, const char *line, uint32_t number)
{
    GIVES(command(db, line, NULL), MMDB_DONE);
    GIVES(mmdb_refusal(db), number);
}

/* The number of a table, or of all. */
static uint64_t version(mmdb *db, const char *table)
{
    uint64_t number = 0;
    mmdb_bytes answer;
    GIVES(mmdb_version(db, table, strlen(table), &number), MMDB_DONE);
    GIVES(mmdb_answer(db, &answer), MMDB_DONE);
    CHECK(answer.length == 0);
    return number;
}

/* The numbers of all, of t and of u. */
typedef struct {
    uint64_t all, t, u;
} numbers;

static numbers numbers_of(mmdb *db)
{
    const numbers now = { version(db, ""), version(db, "t"), version(db, "u") };
    CHECK(now.t <= now.all && now.u <= now.all);
    return now;
}

/* Whether the numbers of t and of u rose since, or stayed; that of all rose if one of them did. */
static int rose(mmdb *db, numbers *before, int of_t, int of_u)
{
    const numbers now = numbers_of(db);
    const int is_so = (now.t > before->t) == of_t && (now.u > before->u) == of_u && (now.all > before->all) == (of_t || of_u)
                      && now.t >= before->t && now.u >= before->u;
    *before = now;
    return is_so;
}

static mmdb opened(void)
{
    mmdb db = MMDB_CLOSED;
    GIVES(mmdb_open(&db, MMDB_AUTO, 4, MMDB_MOST), MMDB_DONE);
    CHECK(version(&db, "") == 0);
    does(&db, "table t (id int, n int)");
    does(&db, "table u (id int, t ref t null)");
    return db;
}

static void commands_raise_numbers(void)
{
    mmdb db = opened();
    numbers before = numbers_of(&db);
    CHECK(before.all > 0);
    does(&db, "insert t (1, 10)");
    CHECK(rose(&db, &before, 1, 0));
    does(&db, "insert u (1, 1)");
    CHECK(rose(&db, &before, 0, 1));
    does(&db, "update t set n = 11 where id = 1");
    CHECK(rose(&db, &before, 1, 0));
    GIVES(load(&db, "load t 15", "id,n\n2,20\n3,30\n", NULL), MMDB_DONE);
    CHECK(mmdb_refusal(&db) == 0 && rose(&db, &before, 1, 0));
    does(&db, "delete t where id >= 2");
    CHECK(rose(&db, &before, 1, 0));
    GIVES(feed(&db, "insert t (2, 20)\ninsert u (2, 2)\n"), MMDB_DONE);
    CHECK(rose(&db, &before, 1, 1));
    mmdb_close(&db);
}

static void what_changes_no_row_raises_none(void)
{
    mmdb db = opened();
    mmdb_rows rows;
    numbers before;
    does(&db, "insert t (1, 10)");
    does(&db, "insert u (1, 1)");
    before = numbers_of(&db);
    is_refused(&db, "insert t (1, 11)", 41);
    is_refused(&db, "insert u (2, 9)", 42);
    is_refused(&db, "delete t", 44);
    is_refused(&db, "update u set t = 9", 42);
    GIVES(load(&db, "load t 19", "id,n\n2,20\n3,30\n1,1\n", NULL), MMDB_DONE);
    GIVES(mmdb_refusal(&db), 41);
    GIVES(load(&db, "load t 5", "id,n\n", NULL), MMDB_DONE);
    does(&db, "delete t where id > 7");
    does(&db, "update t set n = 1 where n = 7");
    does(&db, "index t n hash");
    does(&db, "dump t");
    GIVES(mmdb_query(&db, "select * from t", 15, &rows), MMDB_DONE);
    GIVES(mmdb_begin(&db), MMDB_DONE);
    GIVES(mmdb_commit(&db), MMDB_DONE);
    CHECK(rose(&db, &before, 0, 0));
    mmdb_close(&db);
}

static void statements_raise_numbers(void)
{
    mmdb db = opened();
    mmdb_statement insert, change;
    const mmdb_cell cells[] = {
        { 2, 0, 0, MMDB_INTEGER }, { 20, 0, 0, MMDB_INTEGER }, { 3, 0, 0, MMDB_INTEGER }, { 30, 0, 0, MMDB_INTEGER },
    };
    numbers before = numbers_of(&db);
    GIVES(mmdb_prepare(&db, "insert t (?, ?)", 15, &insert), MMDB_DONE);
    GIVES(mmdb_prepare(&db, "update t set n = 5 where id = ?", 31, &change), MMDB_DONE);
    CHECK(rose(&db, &before, 0, 0));
    GIVES(mmdb_bind_integer(&db, insert.number, 0, 1), MMDB_DONE);
    GIVES(mmdb_bind_integer(&db, insert.number, 1, 10), MMDB_DONE);
    GIVES(mmdb_execute(&db, insert.number, NULL), MMDB_DONE);
    CHECK(rose(&db, &before, 1, 0));
    GIVES(mmdb_execute(&db, insert.number, NULL), MMDB_REFUSED);
    CHECK(rose(&db, &before, 0, 0));
    GIVES(mmdb_execute_many(&db, insert.number, cells, 4, NULL, 0, NULL), MMDB_DONE);
    CHECK(rose(&db, &before, 1, 0));
    GIVES(mmdb_bind_integer(&db, change.number, 0, 1), MMDB_DONE);
    GIVES(mmdb_execute(&db, change.number, NULL), MMDB_DONE);
    CHECK(rose(&db, &before, 1, 0));
    GIVES(mmdb_query(&db, "delete t where id = 1", 21, NULL), MMDB_DONE);
    CHECK(rose(&db, &before, 1, 0));
    mmdb_close(&db);
}

/* A table that takes the name of another has a greater number, and so has each after a rollback. */
static void tables_come_and_go(void)
{
    mmdb db = opened();
    numbers before;
    uint64_t all, was;
    does(&db, "insert u (1, null)");
    was = version(&db, "u");
    all = version(&db, "");
    does(&db, "drop table u");
    CHECK(version(&db, "") > all);
    all = version(&db, "");
    does(&db, "table u (id int)");
    CHECK(version(&db, "") > all && version(&db, "u") > was);
    before = numbers_of(&db);
    GIVES(mmdb_begin(&db), MMDB_DONE);
    does(&db, "insert t (1, 1)");
    CHECK(rose(&db, &before, 1, 0));
    does(&db, "drop table u");
    does(&db, "table u (id int)");
    before = numbers_of(&db);
    GIVES(mmdb_rollback(&db), MMDB_DONE);
    CHECK(rose(&db, &before, 1, 1));
    mmdb_close(&db);
}

static void handles_that_share_are_told_the_same(void)
{
    mmdb db = opened(), reader = MMDB_CLOSED;
    numbers own, other;
    does(&db, "insert t (1, 1)");
    GIVES(mmdb_open(&reader, MMDB_AUTO, MMDB_MOST, MMDB_MOST), MMDB_DONE);
    CHECK(version(&reader, "") == 0);
    GIVES(mmdb_share(&db, &reader), MMDB_DONE);
    own = numbers_of(&db);
    other = numbers_of(&reader);
    CHECK(own.all == other.all && own.t == other.t && own.u == other.u);
    GIVES(mmdb_leave(&reader), MMDB_DONE);
    CHECK(version(&reader, "") == 0);
    does(&db, "insert t (2, 2)");
    CHECK(rose(&db, &own, 1, 0));
    mmdb_close(&reader);
    mmdb_close(&db);
}

static void each_status_is_given(void)
{
    mmdb db = MMDB_CLOSED;
    uint64_t number = 7;
    mmdb_bytes answer;
    GIVES(mmdb_version(&db, "t", 1, &number), MMDB_NOT_OPEN);
    CHECK(number == 0);
    GIVES(mmdb_version(NULL, NULL, 1, NULL), MMDB_NOT_OPEN);
    db = opened();
    number = 7;
    GIVES(mmdb_version(&db, NULL, 1, &number), MMDB_NO_LINE);
    CHECK(number == 0);
    GIVES(mmdb_version(&db, NULL, 0, &number), MMDB_DONE);
    CHECK(number == version(&db, ""));
    GIVES(mmdb_version(&db, "t", 1, NULL), MMDB_DONE);
    number = 7;
    GIVES(mmdb_version(&db, "v", 1, &number), MMDB_REFUSED);
    CHECK(number == 0 && mmdb_refusal(&db) == 30);
    GIVES(mmdb_reason(&db, "dump v", 6, NULL, 0, &answer), MMDB_DONE);
    CHECK(answer.length > 0);
    GIVES(mmdb_version(&db, "\377", 1, &number), MMDB_REFUSED);
    GIVES(mmdb_refusal(&db), 11);
    does(&db, "table " LONG_NAME " (id int)");
    allocations_refuse(0, 1);
    GIVES(mmdb_version(&db, LONG_NAME, strlen(LONG_NAME), &number), MMDB_REFUSED);
    CHECK(allocations_refused() == 1 && mmdb_refusal(&db) == 90);
    allocations_refuse(0, 0);
    CHECK(version(&db, LONG_NAME) > 0);
    mmdb_close(&db);
}

int main(void)
{
    commands_raise_numbers();
    what_changes_no_row_raises_none();
    statements_raise_numbers();
    tables_come_and_go();
    handles_that_share_are_told_the_same();
    each_status_is_given();
    CHECK(allocations_held() == 0);
    return checks_failed != 0;
}
