/* Tables and indexes that are declared in transactions: a table with its rows and with others that refer to it, an index over rows
   that came, were updated and were deleted. After a rollback all is as before, names are free, and statements find no such table.
   After a commit all is as if it had been declared outside. Each call for memory is refused in its turn. */
#include "cells.h"
#include "declaring.h"

#define ROUNDS 100

/* ---- tables */

/* What is made is found, and holds what it refers to. */
static void use_tables(mmdb *db)
{
    answers(db, "select task.id, emp.id from task join proj on task.proj = proj.id join emp on proj.lead = emp.id where task.dept = 3",
            "rows 1\ntask.id,emp.id\na,7\n");
    answers(db, "select id from proj where name = '" LONG "'", "rows 1\nproj.id\n2\n");
    is_refused(db, "delete emp where id = 7", 44);
    is_refused(db, "delete proj where id = 2", 44);
    is_refused(db, "insert task ('b', 4, null)", 42);
    CHECK(changed_by(db, "update proj set lead = 9, name = 'Mars' where id = 1") == 1);
    CHECK(changed_by(db, "delete task where proj = 2") == 1);
    CHECK(changed_by(db, "delete proj where lead = 8") == 1);
    CHECK(changed_by(db, "delete emp where id = 8") == 1);
    answers(db, "select id from proj where lead >= 0", "rows 1\nproj.id\n1\n");
    answers(db, "table task (id int)", "error 31 table exists\n");
    answers(db, "index task proj hash", "error 39 index exists\n");
}

/* A rollback takes them back with their rows. Their names are free, and what they referred to is held no longer. */
static void tables_are_gone(void)
{
    mmdb db = opened(EMPS);
    picture before = taken_of(&db);
    for (int times = 0; times < 3; times++) {
        begin(&db);
        make_tables(&db);
        use_tables(&db);
        CHECK(!is_as_in(&db, before));
        roll_back(&db);
        CHECK(is_as_in(&db, before));
        is_no_table(&db, "proj");
        is_no_table(&db, "task");
        begin(&db);
        CHECK(changed_by(&db, "delete emp where id < 9") == 9);
        roll_back(&db);
    }
    declare(&db, "table task (id int, what text)");
    CHECK(changed_by(&db, "insert task (1, 'anew')") == 1);
    answers(&db, "dump task", "load task 15\nid,what\n1,anew\n");
    answers(&db, "drop table task", "ok\n");
    CHECK(changed_by(&db, "delete emp where id < 9") == 9);
    mmdb_close(&db);
    free(before.text);
}

/* What a commit keeps is as if it had been made outside, and can be dropped. */
static void tables_are_kept(void)
{
    mmdb db = opened(EMPS), twin = opened(EMPS);
    picture made;
    make_tables(&twin);
    use_tables(&twin);
    made = taken_of(&twin);
    begin(&db);
    make_tables(&db);
    begin(&db);
    use_tables(&db);
    commit(&db);
    commit(&db);
    CHECK(is_as_in(&db, made));
    CHECK(is_answered_alike(&db, &twin, "dump proj") && is_answered_alike(&db, &twin, "dump task"));
    is_refused(&db, "delete emp where id = 9", 44);
    answers(&db, "drop table proj", "error 40 table is referenced\n");
    answers(&db, "drop table task", "ok\n");
    answers(&db, "drop index proj lead tree", "ok\n");
    answers(&db, "drop table proj", "ok\n");
    CHECK(changed_by(&db, "delete emp where id = 9") == 1);
    mmdb_close(&db);
    mmdb_close(&twin);
    free(made.text);
}

/* A table of one transaction, whose rows and indexes are of others in it. */
static void one_in_another(void)
{
    mmdb db = opened(EMPS);
    picture before = taken_of(&db), between;
    begin(&db);
    declare(&db, "table proj (id int, lead ref emp null, name text)");
    CHECK(changed_by(&db, "insert proj (1, 7, 'Moon')") == 1);
    between = taken_of(&db);
    begin(&db);
    declare(&db, "index proj name hash");
    CHECK(changed_by(&db, "insert proj (2, 8, 'Sun')") == 1);
    CHECK(changed_by(&db, "update proj set name = '" LONG "'") == 2);
    declare(&db, "table task (id int, proj ref proj)");
    CHECK(changed_by(&db, "insert task (1, 2)") == 1);
    roll_back(&db);
    CHECK(is_as_in(&db, between));
    is_no_table(&db, "task");
    answers(&db, "dump proj", "load proj 22\nid,lead,name\n1,7,Moon\n");
    begin(&db);
    declare(&db, "table task (id text)");
    declare(&db, "index proj name hash");
    CHECK(changed_by(&db, "delete proj where name = 'Moon'") == 1);
    commit(&db);
    answers(&db, "tables",
            "table dept (id int, name text)\ntable emp (id int, name text, dept ref dept null, age int)\nindex emp dept hash\n"
            "index emp name hash\nindex emp age tree\ntable proj (id int, lead ref emp null, name text)\nindex proj name hash\n"
            "table task (id text)\nok 4\n");
    roll_back(&db);
    CHECK(is_as_in(&db, before));
    is_no_table(&db, "proj");
    is_no_table(&db, "task");
    mmdb_close(&db);
    free(between.text);
    free(before.text);
}

/* What is refused declares nothing, and the transaction goes on. */
static void some_are_refused(void)
{
    static const struct {
        const char *line, *answer;
    } REFUSED[] = {
        { "table dept (id int)", "error 31 table exists\n" },
        { "table proj (id int, lead ref nobody)", NO_TABLE },
        { "table proj (id int, lead ref proj)", NO_TABLE },
        { "table proj (id int, n int, n text)", "error 33 column named twice\n" },
        { "index emp name hash", "error 39 index exists\n" },
        { "index emp id tree", "error 39 index exists\n" },
        { "index emp nothing tree", "error 32 no such column\n" },
        { "index proj id hash", NO_TABLE },
        { "index emp name list", "error 20 not a command\n" },
    };
    mmdb db = opened(EMPS);
    picture before = taken_of(&db);
    begin(&db);
    for (size_t i = 0; i < sizeof REFUSED / sizeof *REFUSED; i++)
        answers(&db, REFUSED[i].line, REFUSED[i].answer);
    CHECK(is_as_in(&db, before));
    declare(&db, "index emp name tree");
    for (size_t i = 0; i < sizeof REFUSED / sizeof *REFUSED; i++)
        answers(&db, REFUSED[i].line, REFUSED[i].answer);
    roll_back(&db);
    CHECK(is_as_in(&db, before));
    mmdb_close(&db);
    free(before.text);
}

/* ---- indexes */

/* Those that the tables don't have, of each kind. Of each a select that it serves. */
static const char *const INDEXES[][2] = {
    { "index emp name tree", "select id from emp where name >= 'b'" },      { "index emp age hash", "select id from emp where age = 77" },
    { "index emp dept tree", "select id from emp where dept >= 7" },        { "index emp id hash", "select name from emp where id = 103" },
    { "index dept name tree", "select id from dept where name < 'dept 5'" }, { "index dept name hash", "select id from dept where name = 'dept 3'" },
    { "index dept id hash", "select name from dept where id = 3" },
};

enum { MOST_INDEXES = sizeof INDEXES / sizeof *INDEXES };

/* Rows that are deleted, updated and inserted before an index is made, some under keys of deleted ones; and after it. */
static const char *const BEFORE[] = {
    "delete emp where id < 50",
    "update emp set name = '" LONG "', age = 77, dept = null where id >= 50 and id < 100",
    "update emp set name = 'short', age = 77, dept = 19 where id >= 100 and id < 150",
    "insert emp (7, 'anew', 3, 77)",
    "insert emp (8, 'anew', 3, 77)",
    "delete emp where id = 8",
    "update dept set name = '" LONG "' where id = 3",
};
static const char *const AFTER[] = {
    "delete emp where id >= 90 and id < 110",
    "update emp set name = 'later', age = 20, dept = 7 where id >= 40 and id < 120",
    "insert emp (8, '" LONG "', 19, 77)",
    "insert emp (103, 'back', null, 77)",
    "delete emp where id = 7",
    "insert dept (20, 'dept 3')",
    "update dept set name = 'dept 3' where id = 3",
};

static void change_before(mmdb *db)
{
    for (size_t i = 0; i < sizeof BEFORE / sizeof *BEFORE; i++)
        CHECK(changed_by(db, BEFORE[i]) > 0);
}

static void change_after(mmdb *db)
{
    for (size_t i = 0; i < sizeof AFTER / sizeof *AFTER; i++)
        CHECK(changed_by(db, AFTER[i]) > 0);
}

static void make_indexes(mmdb *db)
{
    for (size_t i = 0; i < MOST_INDEXES; i++)
        declare(db, INDEXES[i][0]);
}

static int finds_alike(mmdb *db, mmdb *twin)
{
    int alike = 1;
    for (size_t i = 0; i < MOST_INDEXES; i++)
        alike &= is_answered_alike(db, twin, INDEXES[i][1]);
    return alike;
}

/* Makes an index among other changes, perhaps in a transaction of its own, and rolls all back or commits it. */
static void an_index_among_changes(const char *line, int is_inner, int is_kept)
{
    mmdb db = opened(EMPS), twin = opened(EMPS), fresh = opened(EMPS);
    picture before = taken_of(&db), made;
    change_before(&twin);
    declare(&twin, line);
    begin(&db);
    change_before(&db);
    if (is_inner)
        begin(&db);
    declare(&db, line);
    CHECK(finds_alike(&db, &twin));
    if (is_inner)
        commit(&db);
    change_after(&db);
    change_after(&twin);
    made = taken_of(&twin);
    CHECK(is_as_in(&db, made) && finds_alike(&db, &twin));
    if (is_kept)
        commit(&db);
    else
        roll_back(&db);
    CHECK(is_as_in(&db, is_kept ? made : before) && finds_alike(&db, is_kept ? &twin : &fresh));
    answers(&db, line, is_kept ? "error 39 index exists\n" : "ok\n");
    CHECK(finds_alike(&db, is_kept ? &twin : &fresh));
    mmdb_close(&db);
    mmdb_close(&twin);
    mmdb_close(&fresh);
    free(before.text);
    free(made.text);
}

static void each_index_is_undone_and_kept(void)
{
    for (size_t i = 0; i < MOST_INDEXES; i++)
        for (int is_inner = 0; is_inner < 2; is_inner++)
            for (int is_kept = 0; is_kept < 2; is_kept++)
                an_index_among_changes(INDEXES[i][0], is_inner, is_kept);
}

static const char *const EMP_BEFORE[] = { "id,tree", "dept,hash", "name,hash", "age,tree" };
static const char *const EMP_MADE[] = { "id,tree", "dept,hash", "name,hash", "age,tree", "name,tree", "age,hash", "dept,tree", "id,hash" };

/* Indexes that are made where all rows are deleted, or before all are. */
static void indexes_of_deleted_rows(void)
{
    mmdb db = opened(EMPS), twin = opened(EMPS);
    picture before = taken_of(&db);
    begin(&db);
    CHECK(changed_by(&db, "delete emp") == EMPS);
    CHECK(changed_by(&db, "delete dept where id <> 3") == DEPTS - 1);
    make_indexes(&db);
    has_indexes(&db, "emp", EMP_MADE, 8, 0);
    CHECK(changed_by(&db, "insert emp (7, '" LONG "', 3, 77)") == 1);
    has_indexes(&db, "emp", EMP_MADE, 8, 1);
    answers(&db, INDEXES[1][1], "rows 1\nemp.id\n7\n");
    roll_back(&db);
    CHECK(is_as_in(&db, before) && finds_alike(&db, &twin));
    has_indexes(&db, "emp", EMP_BEFORE, 4, EMPS);
    begin(&db);
    make_indexes(&db);
    begin(&db);
    CHECK(changed_by(&db, "delete emp") == EMPS);
    has_indexes(&db, "emp", EMP_MADE, 8, 0);
    load_emps(&db, 0, 10);
    roll_back(&db);
    has_indexes(&db, "emp", EMP_MADE, 8, EMPS);
    CHECK(finds_alike(&db, &twin));
    commit(&db);
    has_indexes(&db, "emp", EMP_MADE, 8, EMPS);
    CHECK(finds_alike(&db, &twin));
    mmdb_close(&db);
    mmdb_close(&twin);
    free(before.text);
}

/* An index that was there is as it was, whatever was made after it and rolled back. */
static void older_indexes_stay(void)
{
    mmdb db = opened(EMPS), twin = opened(EMPS);
    begin(&db);
    for (size_t i = 0; i < MOST_INDEXES; i++) {
        declare(&db, INDEXES[i][0]);
        begin(&db);
        change_before(&db);
        change_after(&db);
        roll_back(&db);
        CHECK(finds_alike(&db, &twin));
        begin(&db);
    }
    for (size_t i = 0; i < MOST_INDEXES; i++) {
        roll_back(&db);
        CHECK(finds_alike(&db, &twin));
    }
    roll_back(&db);
    has_indexes(&db, "emp", EMP_BEFORE, 4, EMPS);
    CHECK(finds_alike(&db, &twin));
    mmdb_close(&db);
    mmdb_close(&twin);
}

/* ---- statements */

/* Binds an integer and a text to the two places of a statement. */
static void bind_both(mmdb *db, mmdb_statement to, int64_t integer, const char *text, uint32_t place_of_text)
{
    GIVES(mmdb_bind_integer(db, to.number, 1 - place_of_text, integer), MMDB_DONE);
    GIVES(mmdb_bind_text(db, to.number, place_of_text, text, strlen(text)), MMDB_DONE);
}

/* Executes a change, and gives how many rows it was about. */
static size_t executed(mmdb *db, mmdb_statement of)
{
    mmdb_rows rows = { 0 };
    GIVES(mmdb_execute(db, of.number, &rows), MMDB_DONE);
    return rows.changed;
}

/* A statement is refused so, executed and asked for its columns. */
static void finds_no_table(mmdb *db, mmdb_statement of)
{
    GIVES(mmdb_execute(db, of.number, NULL), MMDB_REFUSED);
    CHECK(is_refused_by(db, NO_TABLE));
    GIVES(mmdb_columns(db, of.number, NULL), MMDB_REFUSED);
    CHECK(is_refused_by(db, NO_TABLE));
}

static void has_columns(mmdb *db, mmdb_statement of, const char *first, enum mmdb_kind kind, size_t count)
{
    mmdb_rows columns = other_rows();
    GIVES(mmdb_columns(db, of.number, &columns), MMDB_DONE);
    CHECK(columns.rows == count && is_text(&columns, 0, 0, first) && is_integer(&columns, 0, 1, kind));
}

/* A statement on a table of the transaction is refused after the rollback, and works once there is such a table again. */
static void a_statement_outlives_a_rollback(void)
{
    mmdb db = opened(EMPS);
    mmdb_statement insert, select;
    mmdb_rows rows, anew;
    begin(&db);
    GIVES(mmdb_prepare(&db, "select * from v", strlen("select * from v"), &select), MMDB_REFUSED);
    CHECK(is_refused_by(&db, NO_TABLE));
    declare(&db, "table v (id int, s text)");
    insert = prepared(&db, "insert v (?, ?)");
    select = prepared(&db, "select * from v");
    bind_both(&db, insert, 1, LONG, 1);
    CHECK(executed(&db, insert) == 1);
    GIVES(mmdb_execute(&db, select.number, &rows), MMDB_DONE);
    roll_back(&db);
    CHECK(rows.rows == 1 && is_integer(&rows, 0, 0, 1) && is_text(&rows, 0, 1, LONG));
    finds_no_table(&db, insert);
    finds_no_table(&db, select);
    begin(&db);
    finds_no_table(&db, select);
    declare(&db, "table v (id int, s text)");
    commit(&db);
    CHECK(executed(&db, insert) == 1);
    has_columns(&db, select, "v.id", MMDB_INTEGER, 2);
    GIVES(mmdb_execute(&db, select.number, &anew), MMDB_DONE);
    CHECK(anew.rows == 1 && is_integer(&anew, 0, 0, 1) && is_text(&anew, 0, 1, LONG));
    mmdb_close(&db);
}

/* A statement is of the tables as they are, of which several have had its table's name. */
static void a_statement_means_another_table(void)
{
    mmdb db = opened(EMPS);
    mmdb_statement insert, select;
    mmdb_rows rows;
    declare(&db, "table v (id int, s text)");
    insert = prepared(&db, "insert v (?, ?)");
    select = prepared(&db, "select * from v");
    bind_both(&db, insert, 1, "a", 1);
    CHECK(executed(&db, insert) == 1);
    answers(&db, "drop table v", "ok\n");
    begin(&db);
    declare(&db, "table v (s text, id int)");
    has_columns(&db, select, "v.s", MMDB_TEXT, 2);
    GIVES(mmdb_execute(&db, insert.number, NULL), MMDB_REFUSED);
    CHECK(is_refused_by(&db, "error 35 wrong type\n"));
    bind_both(&db, insert, 2, "b", 0);
    CHECK(executed(&db, insert) == 1);
    GIVES(mmdb_execute(&db, select.number, &rows), MMDB_DONE);
    CHECK(rows.rows == 1 && is_text(&rows, 0, 0, "b") && is_integer(&rows, 0, 1, 2));
    roll_back(&db);
    finds_no_table(&db, insert);
    finds_no_table(&db, select);
    begin(&db);
    declare(&db, "table w (id int)");
    declare(&db, "table v (n int)");
    has_columns(&db, select, "v.n", MMDB_INTEGER, 1);
    GIVES(mmdb_execute(&db, insert.number, NULL), MMDB_REFUSED);
    CHECK(is_refused_by(&db, "error 45 wrong number of values\n"));
    roll_back(&db);
    finds_no_table(&db, insert);
    declare(&db, "table v (id int, s text)");
    bind_both(&db, insert, 3, "c", 1);
    CHECK(executed(&db, insert) == 1);
    has_columns(&db, select, "v.id", MMDB_INTEGER, 2);
    mmdb_close(&db);
}

/* A statement that takes an index finds the same rows where that comes and goes. */
static void a_statement_loses_its_index(void)
{
    mmdb db = opened(EMPS);
    mmdb_statement by_name = prepared(&db, "select id from emp where name >= ?"), by_age = prepared(&db, "delete emp where age = ?");
    mmdb_rows rows;
    GIVES(mmdb_bind_text(&db, by_name.number, 0, "b", 1), MMDB_DONE);
    GIVES(mmdb_bind_integer(&db, by_age.number, 0, 20), MMDB_DONE);
    for (int times = 0; times < 3; times++) {
        begin(&db);
        change_before(&db);
        make_indexes(&db);
        GIVES(mmdb_execute(&db, by_name.number, &rows), MMDB_DONE);
        CHECK(rows.rows == 50);
        CHECK(executed(&db, by_age) == EMPS / 40 - 4);
        roll_back(&db);
        GIVES(mmdb_execute(&db, by_name.number, &rows), MMDB_DONE);
        CHECK(rows.rows == 0);
        begin(&db);
        CHECK(executed(&db, by_age) == EMPS / 40);
        roll_back(&db);
    }
    mmdb_close(&db);
}

/* ---- memory */

static void declare_much(mmdb *db)
{
    make_tables(db);
    use_tables(db);
    make_indexes(db);
}

static void delete_and_declare(mmdb *db)
{
    CHECK(changed_by(db, "delete emp where id > 99") == EMPS - 100);
    declare(db, "table more (id int, task ref task)");
}

/* What is noted of a transaction keeps its memory for the next one: 56 bytes a command and 4 a row, of 64 at most here. */
static void a_commit_gives_the_memory_back(void)
{
    const long outside = held_after(declare_much, 0), inside = held_after(declare_much, 1);
    CHECK(inside <= outside + 64 * (56 + 4));
}

/* Begins, and declares among other changes. Gives how many declarations were refused. */
static int declarations_refused(mmdb *db)
{
    int refused = 0;
    if (mmdb_begin(db) != MMDB_DONE)
        return 0;
    was_done(db, "delete emp where dept = 3");
    refused += !was_declared(db, "index emp name tree");
    if (was_declared(db, "table proj (id int, lead ref emp null, name text)")) {
        was_done(db, "insert proj (1, 7, '" LONG "')");
        refused += !was_declared(db, "index proj name hash");
    } else {
        refused++;
    }
    was_done(db, "update emp set name = '" LONG "' where id < 40");
    if (mmdb_begin(db) != MMDB_DONE)
        return refused;
    refused += !was_declared(db, "table task (id text, dept ref dept)");
    refused += !was_declared(db, "index emp age hash");
    was_done(db, "update emp set age = 77");
    return refused;
}

int main(void)
{
    tables_are_gone();
    tables_are_kept();
    one_in_another();
    some_are_refused();
    each_index_is_undone_and_kept();
    indexes_of_deleted_rows();
    older_indexes_stay();
    a_statement_outlives_a_rollback();
    a_statement_means_another_table();
    a_statement_loses_its_index();
    rounds_hold_what_the_first_held(ROUNDS, declare_much, delete_and_declare);
    a_commit_gives_the_memory_back();
    each_call_for_memory_is_refused(declarations_refused);
    CHECK(allocations_held() == 0);
    return checks_failed != 0;
}
