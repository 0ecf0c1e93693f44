/* Deletes in transactions, where rows refer to rows and where there are many. After a rollback each index finds what it found before,
   and as much memory is held. After a commit the memory of the deleted rows is given back. Each call for memory is refused in its
   turn. */
#include "departments.h"

#define ROUNDS 50

/* ---- references */

/* A row goes once those that refer to it are gone, and after the rollback neither is. */
static void a_row_goes_behind_its_referrers(void)
{
    mmdb db = opened(EMPS);
    picture before = taken_of(&db);
    begin(&db);
    is_refused(&db, "delete dept where id = 3", 44);
    CHECK(changed_by(&db, "delete emp where dept = 3") == EMPS / DEPTS);
    CHECK(changed_by(&db, "delete dept where id = 3") == 1);
    is_refused(&db, "insert emp (-1, 'Ann', 3, 20)", 42);
    CHECK(changed_by(&db, "insert dept (3, 'anew')") == 1);
    CHECK(changed_by(&db, "insert emp (-1, 'Ann', 3, 20)") == 1);
    is_refused(&db, "delete dept where id = 3", 44);
    roll_back(&db);
    CHECK(is_as_in(&db, before));
    is_refused(&db, "delete dept where id = 3", 44);
    CHECK(changed_by(&db, "delete emp where dept = 3") == EMPS / DEPTS);
    CHECK(changed_by(&db, "delete dept where id = 3") == 1);
    mmdb_close(&db);
    free(before.text);
}

/* As above, but each delete is in a transaction of its own, inside another. */
static void each_rollback_restores_its_referrers(void)
{
    mmdb db = opened(EMPS);
    picture before = taken_of(&db), without_emps;
    begin(&db);
    begin(&db);
    CHECK(changed_by(&db, "delete emp where dept = 3") == EMPS / DEPTS);
    commit(&db);
    without_emps = taken_of(&db);
    begin(&db);
    CHECK(changed_by(&db, "delete dept where id = 3") == 1);
    roll_back(&db);
    CHECK(is_as_in(&db, without_emps));
    begin(&db);
    CHECK(changed_by(&db, "insert emp (-1, 'Ann', 3, 20)") == 1);
    is_refused(&db, "delete dept where id = 3", 44);
    roll_back(&db);
    CHECK(changed_by(&db, "delete dept where id = 3") == 1);
    roll_back(&db);
    CHECK(is_as_in(&db, before));
    is_refused(&db, "delete dept where id = 3", 44);
    mmdb_close(&db);
    free(without_emps.text);
    free(before.text);
}

/* What is committed goes for good, and so do its references. */
static void a_commit_keeps_what_is_deleted(void)
{
    mmdb db = opened(EMPS);
    begin(&db);
    CHECK(changed_by(&db, "delete emp where dept = 3") == EMPS / DEPTS);
    begin(&db);
    CHECK(changed_by(&db, "delete dept where id = 3") == 1);
    commit(&db);
    commit(&db);
    is_refused(&db, "insert emp (-1, 'Ann', 3, 20)", 42);
    CHECK(changed_by(&db, "insert dept (3, 'anew')") == 1);
    CHECK(changed_by(&db, "delete dept where id = 3") == 1);
    CHECK(changed_by(&db, "delete emp") == EMPS - EMPS / DEPTS);
    CHECK(changed_by(&db, "delete dept") == DEPTS - 1);
    mmdb_close(&db);
}

/* ---- rows that come anew */

/* Deletes by each index and inserts rows under some of the keys again: by a line, by a load. */
static void come_anew(mmdb *db)
{
    CHECK(changed_by(db, "delete emp where id = 7") == 1);
    CHECK(changed_by(db, "insert emp (7, 'anew', null, 20)") == 1);
    is_refused(db, "insert emp (7, 'once more', null, 20)", 41);
    CHECK(changed_by(db, "delete emp where age = 20") > 1);
    CHECK(changed_by(db, "delete emp where name = 'a name that no cell of a row can hold 7'") > 1);
    CHECK(changed_by(db, "delete emp where id >= 100") > 1);
    load_emps(db, 100, EMPS - 100);
    CHECK(changed_by(db, "insert emp (7, 'once more', 2, 20)") == 1);
}

static void rows_come_anew_under_their_keys(void)
{
    mmdb db = opened(EMPS);
    picture before = taken_of(&db), between;
    begin(&db);
    come_anew(&db);
    CHECK(!is_as_in(&db, before));
    between = taken_of(&db);
    begin(&db);
    CHECK(changed_by(&db, "delete emp") > 0);
    load_emps(&db, 0, EMPS);
    CHECK(is_as_in(&db, before));
    begin(&db);
    CHECK(changed_by(&db, "delete emp where id < 300") == 300);
    commit(&db);
    roll_back(&db);
    CHECK(is_as_in(&db, between));
    roll_back(&db);
    CHECK(is_as_in(&db, before));
    begin(&db);
    come_anew(&db);
    commit(&db);
    CHECK(is_as_in(&db, between));
    mmdb_close(&db);
    free(between.text);
    free(before.text);
}

/* ---- memory */

static void delete_emps(mmdb *db)
{
    CHECK(changed_by(db, "delete emp") > 0);
}

static void delete_all(mmdb *db)
{
    CHECK(changed_by(db, "delete emp") == EMPS);
    CHECK(changed_by(db, "delete dept") == DEPTS);
}

static void a_commit_gives_the_memory_back(void)
{
    const long outside = held_after(delete_all, 0), inside = held_after(delete_all, 1);
    CHECK(inside <= outside);
}

/* Begins, deletes and inserts. Gives how many deletes were refused. */
static int deletes_refused(mmdb *db)
{
    int refused = 0;
    if (mmdb_begin(db) != MMDB_DONE)
        return 0;
    refused += !was_done(db, "delete emp where dept = 3");
    if (was_done(db, "delete emp where id = 7"))
        was_done(db, "insert emp (7, 'a name that no cell of a row can hold, anew', 2, 20)");
    else
        refused++;
    if (mmdb_begin(db) != MMDB_DONE)
        return refused;
    refused += !was_done(db, "delete emp where age > 25");
    was_done(db, "insert emp (-1, 'a name that no cell of a row can hold, anew', 2, 20)");
    refused += !was_done(db, "delete emp");
    return refused;
}

int main(void)
{
    a_row_goes_behind_its_referrers();
    each_rollback_restores_its_referrers();
    a_commit_keeps_what_is_deleted();
    rows_come_anew_under_their_keys();
    rounds_hold_what_the_first_held(ROUNDS, come_anew, delete_emps);
    a_commit_gives_the_memory_back();
    each_call_for_memory_is_refused(deletes_refused);
    CHECK(allocations_held() == 0);
    return checks_failed != 0;
}
