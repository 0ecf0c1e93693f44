/* Copies of databases: they have the same tables, rows and indexes, and go their own ways; each status; and each call for memory refused
   in turn. */
#include "allocations.h"
#include "checking.h"

enum { ROWS = 1000 };

static const char *const TABLES[] = { "t", "u" };

/* Whether two handles answer a line alike. */
static int answer_alike(mmdb *one, mmdb *other, const char *line)
{
    mmdb_bytes of_one, of_other;
    GIVES(command(one, line, &of_one), MMDB_DONE);
    GIVES(command(other, line, &of_other), MMDB_DONE);
    return of_one.length == of_other.length && memcmp(of_one.at, of_other.at, of_one.length) == 0;
}

/* Whether the indexes of two handles stand alike, and their tables have the same numbers. */
static int stand_alike(mmdb *one, mmdb *other, const char *table)
{
    mmdb_bytes of_one, of_other;
    uint64_t first = 1, second = 2;
    GIVES(mmdb_indexes(one, table, strlen(table), &of_one), MMDB_DONE);
    GIVES(mmdb_indexes(other, table, strlen(table), &of_other), MMDB_DONE);
    GIVES(mmdb_version(one, table, strlen(table), &first), MMDB_DONE);
    GIVES(mmdb_version(other, table, strlen(table), &second), MMDB_DONE);
    return of_one.length == of_other.length && memcmp(of_one.at, of_other.at, of_one.length) == 0 && first == second;
}

static void are_alike(mmdb *one, mmdb *other)
{
    CHECK(answer_alike(one, other, "tables"));
    for (size_t i = 0; i < sizeof TABLES / sizeof TABLES[0]; i++) {
        char line[64];
        snprintf(line, sizeof line, "dump %s", TABLES[i]);
        CHECK(answer_alike(one, other, line) && stand_alike(one, other, TABLES[i]));
    }
    CHECK(answer_alike(one, other, "select * from u where n = 3"));
    CHECK(answer_alike(one, other, "select u.id, t.s from u join t on u.t = t.id where t.s >= 'text 5'"));
}

/* Tables with so many rows, of which some were deleted again. */
static mmdb opened(int rows)
{
    mmdb db = MMDB_CLOSED;
    char line[128];
    GIVES(mmdb_open(&db, MMDB_AUTO, 2 * ROWS, MMDB_MOST), MMDB_DONE);
    does(&db, "table t (id int, s text)");
    does(&db, "table u (id int, t ref t null, n int, s text)");
    does(&db, "index t s tree");
    does(&db, "index u n hash");
    does(&db, "index u t tree");
    for (int id = 0; id < rows; id++) {
        snprintf(line, sizeof line, "insert t (%d, 'text %d, which is longer than a cell')", id * 7 % rows, id);
        does(&db, line);
    }
    for (int id = 0; id < rows; id++) {
        snprintf(line, sizeof line, id % 4 == 0 ? "insert u (%d, null, %d, '')" : "insert u (%d, %d, 3, 'x')", id, id * 3 % rows);
        does(&db, line);
    }
    does(&db, "delete u where n < 2");
    return db;
}

static void copies_go_their_own_ways(int rows)
{
    mmdb db = opened(rows), copy = MMDB_CLOSED, other = MMDB_CLOSED;
    mmdb_bytes answer;
    GIVES(mmdb_clone(&db, &copy), MMDB_DONE);
    are_alike(&db, &copy);
    GIVES(mmdb_clone(&copy, &other), MMDB_DONE);
    does(&copy, "insert t (-1, 'new')");
    does(&copy, "insert u (-1, -1, 3, 'new')");
    does(&copy, "update u set n = 5 where n = 3");
    does(&copy, "drop index u n hash");
    are_alike(&db, &other);
    does(&copy, "delete u");
    does(&copy, "delete t");
    are_alike(&db, &other);
    GIVES(mmdb_refusal(&db), 0);
    does(&db, "insert t (-1, 'new')");
    GIVES(command(&other, "select * from t where id = -1", &answer), MMDB_DONE);
    CHECK(reads(answer, "rows 0\nt.id,t.s\n"));
    mmdb_close(&db);
    does(&other, "insert u (-2, null, 3, 'new')");
    mmdb_close(&other);
    mmdb_close(&copy);
}

/* A copy has the limits of the other, and neither its statements nor its stream. */
static void what_a_copy_has(void)
{
    mmdb db = opened(2), copy = MMDB_CLOSED;
    mmdb_statement made;
    GIVES(mmdb_prepare(&db, "select * from t", 15, &made), MMDB_DONE);
    GIVES(feed(&db, "insert t (-5, "), MMDB_DONE);
    GIVES(mmdb_clone(&db, &copy), MMDB_DONE);
    GIVES(mmdb_execute(&copy, made.number, NULL), MMDB_NO_SUCH_STATEMENT);
    GIVES(feed(&copy, "insert t (-4, 'a')\n"), MMDB_DONE);
    GIVES(mmdb_refusal(&copy), 0);
    GIVES(feed(&db, "'a')\n"), MMDB_DONE);
    GIVES(mmdb_refusal(&db), 0);
    for (int id = 3; mmdb_refusal(&copy) == 0; id++) {
        char line[64];
        CHECK(id <= 2 * ROWS);
        snprintf(line, sizeof line, "insert t (%d, 'x')", id);
        GIVES(command(&copy, line, NULL), MMDB_DONE);
    }
    GIVES(mmdb_refusal(&copy), 43);
    mmdb_close(&copy);
    mmdb_close(&db);
}

static void a_reader_is_copied(void)
{
    mmdb db = opened(20), reader = MMDB_CLOSED, copy = MMDB_CLOSED;
    GIVES(mmdb_share(&db, &reader), MMDB_DONE);
    GIVES(mmdb_clone(&reader, &copy), MMDB_DONE);
    are_alike(&db, &copy);
    does(&copy, "delete u");
    GIVES(command(&db, "delete u", NULL), MMDB_SHARED);
    mmdb_close(&reader);
    mmdb_close(&db);
    mmdb_close(&copy);
}

static void each_status_is_given(void)
{
    mmdb db = MMDB_CLOSED, copy = MMDB_CLOSED;
    GIVES(mmdb_clone(&db, &copy), MMDB_NOT_OPEN);
    GIVES(mmdb_clone(NULL, &copy), MMDB_NOT_OPEN);
    db = opened(2);
    GIVES(mmdb_clone(&db, NULL), MMDB_NOT_OPEN);
    GIVES(mmdb_clone(&db, &db), MMDB_IS_OPEN);
    GIVES(mmdb_begin(&db), MMDB_DONE);
    does(&db, "delete u");
    GIVES(mmdb_clone(&db, &copy), MMDB_IN_TRANSACTION);
    GIVES(command(&copy, "tables", NULL), MMDB_NOT_OPEN);
    GIVES(mmdb_rollback(&db), MMDB_DONE);
    GIVES(mmdb_clone(&db, &copy), MMDB_DONE);
    GIVES(mmdb_clone(&db, &copy), MMDB_IS_OPEN);
    are_alike(&db, &copy);
    mmdb_close(&copy);
    mmdb_close(&db);
}

static void each_call_for_memory_is_refused(int rows)
{
    mmdb db = opened(rows);
    const long held = allocations_held();
    long refused = 0;
    for (mmdb_status status = MMDB_NO_MEMORY; status != MMDB_DONE; refused++) {
        mmdb copy = MMDB_CLOSED;
        allocations_refuse(refused, 1);
        status = mmdb_clone(&db, &copy);
        const int is_refused = allocations_refused() == 1;
        allocations_refuse(0, 0);
        CHECK(status == (is_refused ? MMDB_NO_MEMORY : MMDB_DONE));
        if (status == MMDB_DONE)
            are_alike(&db, &copy);
        mmdb_close(&copy);
        CHECK(allocations_held() == held);
    }
    CHECK(refused > 10);
    mmdb_close(&db);
}

int main(void)
{
    copies_go_their_own_ways(0);
    copies_go_their_own_ways(9);
    copies_go_their_own_ways(ROWS);
    what_a_copy_has();
    a_reader_is_copied();
    each_status_is_given();
    each_call_for_memory_is_refused(40);
    CHECK(allocations_held() == 0);
    return checks_failed != 0;
}
