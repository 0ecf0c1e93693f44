/* Updates in transactions: of integers, of short and long texts, of references, and of columns under each kind of index. After a rollback
   each index finds what it found before, and as much memory is held. After a commit the memory of the replaced values is given back.
   Each call for memory is refused in its turn. */
#include "departments.h"

#define ROUNDS 100

#define SEVENTH "a name that no cell of a row can hold 7"
#define LONG "another name that no cell of a row can hold"

/* ---- values */

/* An update that changes what is seen, and how many rows it is about. */
typedef struct changing {
    const char *line;
    size_t rows;
} changing;

static const changing UPDATES[] = {
    { "update emp set age = 77", EMPS },
    { "update emp set age = -9223372036854775808 where id = 7", 1 },
    { "update emp set age = 9223372036854775807 where age > 30", EMPS / 40 * 29 },
    { "update emp set name = '' where dept = 3", EMPS / DEPTS },
    { "update emp set name = 'fourteen bytes' where id < 100", 100 },
    { "update emp set name = '" LONG "' where age = 20", EMPS / 40 },
    { "update emp set name = '" SEVENTH "' where name <> '" SEVENTH "'", EMPS / 50 * 49 },
    { "update emp set dept = 5 where dept = 3", EMPS / DEPTS },
    { "update emp set dept = null where id >= 500", 100 },
    { "update emp set age = 20, name = 'x', dept = 3 where id > 299", 300 },
    { "update dept set name = '" LONG "'", DEPTS },
    { "update dept set name = 'd' where id = 0", 1 },
};

enum { MOST_UPDATES = sizeof UPDATES / sizeof *UPDATES };

static void each_is_undone_and_each_is_kept(void)
{
    for (size_t i = 0; i < MOST_UPDATES; i++) {
        mmdb db = opened(EMPS), twin = opened(EMPS);
        picture before = taken_of(&db), updated;
        CHECK(changed_by(&twin, UPDATES[i].line) == UPDATES[i].rows);
        updated = taken_of(&twin);
        for (int is_kept = 0; is_kept < 2; is_kept++) {
            begin(&db);
            CHECK(changed_by(&db, UPDATES[i].line) == UPDATES[i].rows);
            CHECK(!is_as_in(&db, before) && is_as_in(&db, updated));
            if (is_kept)
                commit(&db);
            else
                roll_back(&db);
            CHECK(is_as_in(&db, is_kept ? updated : before));
        }
        mmdb_close(&db);
        mmdb_close(&twin);
        free(before.text);
        free(updated.text);
    }
}

/* What sets no other value, or finds no row, is undone too. */
static void nothing_changes(void)
{
    mmdb db = opened(EMPS);
    picture before = taken_of(&db);
    begin(&db);
    CHECK(changed_by(&db, "update emp set age = 20 where age = 20") == EMPS / 40);
    CHECK(changed_by(&db, "update emp set dept = 3 where dept = 3") == EMPS / DEPTS);
    CHECK(changed_by(&db, "update emp set age = 1 where id = -1") == 0);
    is_refused(&db, "update emp set age = 1, dept = -1", 42);
    is_refused(&db, "update emp set age = null", 35);
    is_refused(&db, "update emp set id = 1", 36);
    CHECK(is_as_in(&db, before));
    roll_back(&db);
    CHECK(is_as_in(&db, before));
    mmdb_close(&db);
    free(before.text);
}

/* All of them, each in a transaction inside that before it, rolled back one after another. */
static void one_in_another(void)
{
    mmdb db = opened(EMPS);
    picture before[MOST_UPDATES];
    for (size_t i = 0; i < MOST_UPDATES; i++) {
        before[i] = taken_of(&db);
        begin(&db);
        CHECK(query(&db, UPDATES[i].line, NULL) == MMDB_DONE);
    }
    for (size_t i = MOST_UPDATES; i > 0; i--) {
        roll_back(&db);
        CHECK(is_as_in(&db, before[i - 1]));
        free(before[i - 1].text);
    }
    mmdb_close(&db);
}

/* Rows that are updated several times, around a savepoint whose updates are undone alone. */
static void a_savepoint(void)
{
    mmdb db = opened(EMPS);
    picture before = taken_of(&db), between;
    begin(&db);
    CHECK(changed_by(&db, "update emp set age = 1, name = 'first' where id < 300") == 300);
    CHECK(changed_by(&db, "update emp set age = 2, name = '" LONG "' where id < 200") == 200);
    between = taken_of(&db);
    begin(&db);
    CHECK(changed_by(&db, "update emp set age = 3 where name = '" LONG "'") == 200);
    CHECK(changed_by(&db, "update emp set name = 'short', dept = null where id < 400") == 400);
    CHECK(changed_by(&db, "update emp set age = 4 where name = 'short'") == 400);
    roll_back(&db);
    CHECK(is_as_in(&db, between));
    begin(&db);
    CHECK(changed_by(&db, "update emp set age = 5, dept = 7") == EMPS);
    commit(&db);
    CHECK(!is_as_in(&db, between));
    roll_back(&db);
    CHECK(is_as_in(&db, before));
    mmdb_close(&db);
    free(between.text);
    free(before.text);
}

/* ---- references */

/* Rows that no longer refer to a row let it go. After the rollback they refer to it again, each once. */
static void links_are_set_and_set_back(void)
{
    mmdb db = opened(EMPS);
    picture before = taken_of(&db);
    for (int times = 0; times < 2; times++) {
        begin(&db);
        CHECK(changed_by(&db, "update emp set dept = 5 where dept = 3") == EMPS / DEPTS);
        CHECK(changed_by(&db, "delete dept where id = 3") == 1);
        is_refused(&db, "update emp set dept = 3 where id = 7", 42);
        is_refused(&db, "delete dept where id = 5", 44);
        CHECK(changed_by(&db, "insert dept (3, 'anew')") == 1);
        CHECK(changed_by(&db, "update emp set dept = 3 where id = 7") == 1);
        roll_back(&db);
        CHECK(is_as_in(&db, before));
    }
    is_refused(&db, "delete dept where id = 3", 44);
    for (int dept = 3; dept <= 5; dept += 2) {
        char line[64];
        snprintf(line, sizeof line, "delete emp where dept = %d", dept);
        CHECK(changed_by(&db, line) == EMPS / DEPTS);
        snprintf(line, sizeof line, "delete dept where id = %d", dept);
        CHECK(changed_by(&db, line) == 1);
    }
    mmdb_close(&db);
    free(before.text);
}

/* As above, but committed: only the rows that were named last are referred to. */
static void a_commit_keeps_links(void)
{
    mmdb db = opened(EMPS);
    begin(&db);
    CHECK(changed_by(&db, "update emp set dept = 5 where dept = 3") == EMPS / DEPTS);
    begin(&db);
    CHECK(changed_by(&db, "update emp set dept = null where dept = 5") == 2 * EMPS / DEPTS);
    commit(&db);
    CHECK(changed_by(&db, "update emp set dept = 3 where id = 7") == 1);
    commit(&db);
    CHECK(changed_by(&db, "delete dept where id = 5") == 1);
    is_refused(&db, "delete dept where id = 3", 44);
    CHECK(changed_by(&db, "update emp set dept = null where id = 7") == 1);
    CHECK(changed_by(&db, "delete dept where id = 3") == 1);
    mmdb_close(&db);
}

/* ---- among other changes */

/* Updates rows that come, go and come anew, in every order of these. */
static void change_much(mmdb *db)
{
    CHECK(changed_by(db, "update emp set name = 'short', age = 1, dept = 5 where id = 7") == 1);
    CHECK(changed_by(db, "delete emp where id = 7") == 1);
    CHECK(changed_by(db, "insert emp (7, '" LONG "', 5, 2)") == 1);
    CHECK(changed_by(db, "update emp set name = 'shorter', dept = 3 where id = 7") == 1);
    CHECK(changed_by(db, "insert emp (-1, 'Ann', 3, 20)") == 1);
    CHECK(changed_by(db, "update emp set name = '" LONG "', age = 3 where id < 0") == 1);
    CHECK(changed_by(db, "delete emp where id < 0") == 1);
    CHECK(changed_by(db, "update emp set age = 4 where id >= 100") == EMPS - 100);
    CHECK(changed_by(db, "delete emp where age = 4") == EMPS - 100);
    load_emps(db, 100, EMPS - 100);
    CHECK(changed_by(db, "update emp set name = 'loaded', dept = null where id >= 100") == EMPS - 100);
    CHECK(changed_by(db, "delete emp where name = 'loaded'") == EMPS - 100);
    load_emps(db, 100, EMPS - 100);
}

static void updated_rows_come_and_go(void)
{
    mmdb db = opened(EMPS);
    picture before = taken_of(&db), between;
    begin(&db);
    change_much(&db);
    between = taken_of(&db);
    begin(&db);
    change_much(&db);
    roll_back(&db);
    CHECK(is_as_in(&db, between));
    begin(&db);
    change_much(&db);
    commit(&db);
    /* (as rows are taken out, a list of the store gets shorter) */
    CHECK(shortens_a_block_as_rolled_back(&db));
    CHECK(is_as_in(&db, before));
    begin(&db);
    change_much(&db);
    commit(&db);
    CHECK(is_as_in(&db, between));
    mmdb_close(&db);
    free(between.text);
    free(before.text);
}

/* ---- memory */

static void do_all_updates(mmdb *db)
{
    for (size_t i = 0; i < MOST_UPDATES; i++)
        CHECK(query(db, UPDATES[i].line, NULL) == MMDB_DONE);
}

static void set_all(mmdb *db)
{
    CHECK(changed_by(db, "update emp set name = '" LONG "', age = 1, dept = 1") == EMPS);
}

/* Sets all values, long ones to short ones. */
static void shorten_all(mmdb *db)
{
    CHECK(changed_by(db, "update emp set name = '" LONG "', age = 2, dept = null") == EMPS);
    CHECK(changed_by(db, "update emp set name = 'short', age = 1, dept = 1") == EMPS);
}

static void a_commit_gives_the_memory_back(void)
{
    const long outside = held_after(shorten_all, 0), inside = held_after(shorten_all, 1);
    CHECK(inside <= outside + outside / 100);
}

/* Begins, updates, and changes what is updated otherwise. Gives how many updates were refused. */
static int updates_refused(mmdb *db)
{
    int refused = 0;
    if (mmdb_begin(db) != MMDB_DONE)
        return 0;
    refused += !was_done(db, "update emp set name = '" LONG "', age = 1 where dept = 3");
    refused += !was_done(db, "update emp set dept = 5 where id < 40");
    was_done(db, "delete emp where dept = 5");
    if (mmdb_begin(db) != MMDB_DONE)
        return refused;
    refused += !was_done(db, "update emp set age = 2, dept = 4, name = 'short' where id > 20");
    was_done(db, "insert emp (-1, '" LONG "', 2, 20)");
    refused += !was_done(db, "update emp set name = '" LONG ", anew'");
    return refused;
}

int main(void)
{
    each_is_undone_and_each_is_kept();
    nothing_changes();
    one_in_another();
    a_savepoint();
    links_are_set_and_set_back();
    a_commit_keeps_links();
    updated_rows_come_and_go();
    rounds_hold_what_the_first_held(ROUNDS, do_all_updates, set_all);
    a_commit_gives_the_memory_back();
    each_call_for_memory_is_refused(updates_refused);
    CHECK(allocations_held() == 0);
    return checks_failed != 0;
}
