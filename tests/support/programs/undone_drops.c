/* Tables and indexes that are dropped in transactions: a table with its rows and its links in both directions, of which others stand
   behind it, and another that takes its name; an index whose rows change meanwhile. After a rollback all is as before, after a commit
   all is as if it had been dropped outside. Each call for memory is refused in its turn. */
#include "cells.h"
#include "declaring.h"

#define ROUNDS 100
#define NOTES 300

/* Departments, people, notes that refer to some of these, and behind them the tables that refer to people and to one another. */
static mmdb company(void)
{
    mmdb db = opened(EMPS);
    char rows[NOTES * 24] = "id,emp,what\n";
    size_t length = strlen(rows);
    declare(&db, "table note (id int, emp ref emp null, what text)");
    declare(&db, "index note emp hash");
    for (int id = 0; id < NOTES; id++)
        length += (size_t)snprintf(rows + length, sizeof rows - length, "%d,%d,note %d\n", id, 100 + id, id % 7);
    load_rows(&db, "note", rows);
    declare(&db, "index note what tree");
    make_tables(&db);
    return db;
}

/* What is declared and all rows, what each index finds, and joins of all tables. */
static const char *const LOOKS[] = {
    "tables",
    "dump dept",
    "dump emp",
    "dump note",
    "dump proj",
    "dump task",
    "dump more",
    "select * from emp where id >= 500",
    "select * from emp where dept = 3",
    "select * from emp where dept >= 17",
    "select id from emp where name = 'a name that no cell of a row can hold 7'",
    "select id from emp where name = '" LONG "'",
    "select id from emp where age > 30",
    "select id from emp where age = 77",
    "select id from note where emp = 105",
    "select * from note where what <= 'note 1'",
    "select * from note where what = 'anew'",
    "select name from proj where lead >= 8",
    "select id from proj where name = 'Mars'",
    "select id from task where proj = 1",
    "select note.id, emp.name, dept.name from note join emp on note.emp = emp.id join dept on emp.dept = dept.id where note.id < 40",
    "select task.id, emp.id from task join proj on task.proj = proj.id join emp on proj.lead = emp.id",
};

static int looks_alike(mmdb *db, mmdb *twin)
{
    int alike = 1;
    for (size_t i = 0; i < sizeof LOOKS / sizeof *LOOKS; i++) {
        const int is = is_answered_alike(db, twin, LOOKS[i]);
        if (!is)
            fprintf(stderr, "%s isn't answered alike\n", LOOKS[i]);
        alike &= is;
    }
    return alike;
}

/* Of each index its column, its kind and its rows, as both tell them; the shapes of trees and hashes may differ. */
static int tells_alike(mmdb *db, mmdb *twin, const char *table)
{
    mmdb_bytes one, other;
    char told[2][2048];
    const char *at[2] = { told[0], told[1] };
    int alike = 1;
    GIVES(mmdb_indexes(db, table, strlen(table), &one), MMDB_DONE);
    GIVES(mmdb_indexes(twin, table, strlen(table), &other), MMDB_DONE);
    snprintf(told[0], sizeof told[0], "%.*s", (int)one.length, (const char *)one.at);
    snprintf(told[1], sizeof told[1], "%.*s", (int)other.length, (const char *)other.at);
    while (alike && *at[0] && *at[1]) {
        size_t front = 0;
        for (int commas = 0; at[0][front] && at[0][front] != '\n' && commas < 3; front++)
            commas += at[0][front] == ',';
        alike = strncmp(at[0], at[1], front) == 0;
        for (int i = 0; i < 2; i++)
            at[i] += strcspn(at[i], "\n") + (strchr(at[i], '\n') != NULL);
    }
    return alike && !*at[0] && !*at[1];
}

static int is_alike(mmdb *db, mmdb *twin)
{
    static const char *const TABLES[] = { "dept", "emp", "note", "proj", "task", "more" };
    int alike = looks_alike(db, twin);
    for (size_t i = 0; i < sizeof TABLES / sizeof *TABLES; i++)
        alike &= tells_alike(db, twin, TABLES[i]);
    return alike;
}

static void both(mmdb *db, mmdb *twin, const char *line)
{
    const int is = is_answered_alike(db, twin, line);
    if (!is)
        fprintf(stderr, "%s isn't answered alike\n", line);
    CHECK(is);
}

/* ---- each drop among changes */

/* Drops of one line or two. Behind each the answers of the first once it is kept. */
static const char *const DROPS[][3] = {
    { "drop index emp dept hash", NULL, "error 38 no such index\n" },   { "drop index emp name hash", NULL, "error 38 no such index\n" },
    { "drop index emp age tree", NULL, "error 38 no such index\n" },    { "drop index note emp hash", NULL, "error 38 no such index\n" },
    { "drop index note what tree", NULL, "error 38 no such index\n" },  { "drop index proj lead tree", NULL, "error 38 no such index\n" },
    { "drop index task proj hash", NULL, "error 38 no such index\n" },  { "drop table note", NULL, NO_TABLE },
    { "drop table task", NULL, NO_TABLE },                              { "drop table task", "drop table proj", NO_TABLE },
    { "drop table note", "drop table task", NO_TABLE },                 { "drop index note emp hash", "drop table note", NO_TABLE },
    { "drop index emp name hash", "drop index emp dept hash", "error 38 no such index\n" },
};

enum { MOST_DROPS = sizeof DROPS / sizeof *DROPS };

/* Changes before a drop, and after it; some of these are refused where a table is gone. */
static const char *const BEFORE[] = {
    "delete emp where id >= 550",
    "update emp set name = '" LONG "', age = 77, dept = null where id >= 50 and id < 100",
    "insert note (300, 60, 'anew')",
    "delete note where id < 5",
    "update note set emp = 9, what = 'anew' where id = 6",
    "update proj set lead = 9, name = 'Mars' where id = 1",
    "delete task where proj = 2",
    "insert task ('c', 3, 5)",
};
static const char *const AFTER[] = {
    "insert note (301, 61, 'anew')",
    "update note set emp = null where id > 200",
    "delete emp where id = 310",
    "delete emp where id = 7",
    "delete emp where id = 9",
    "insert emp (7, 'anew', 3, 77)",
    "insert task ('d', 1, null)",
    "update task set dept = 4",
    "delete proj where id = 3",
    "index emp age hash",
    "index note id hash",
    "update emp set age = 21, name = 'later', dept = 17 where age > 40",
    "delete dept where id = 3",
    "table more (id int, emp ref emp)",
    "insert more (1, 20)",
    "delete task where proj = 1",
};

static void change_both(mmdb *db, mmdb *twin, const char *const *lines, size_t count)
{
    for (size_t i = 0; i < count; i++)
        both(db, twin, lines[i]);
}

static void drop(mmdb *db, const char *const *lines)
{
    declare(db, lines[0]);
    if (lines[1])
        declare(db, lines[1]);
}

/* Drops among other changes, perhaps in a transaction of its own, and rolls all back or commits it. */
static void a_drop_among_changes(const char *const *lines, int is_inner, int is_kept)
{
    mmdb db = company(), twin = company(), fresh = company();
    begin(&db);
    change_both(&db, &twin, BEFORE, sizeof BEFORE / sizeof *BEFORE);
    if (is_inner)
        begin(&db);
    drop(&db, lines);
    drop(&twin, lines);
    CHECK(is_alike(&db, &twin));
    if (is_inner)
        commit(&db);
    change_both(&db, &twin, AFTER, sizeof AFTER / sizeof *AFTER);
    CHECK(is_alike(&db, &twin));
    if (is_kept)
        commit(&db);
    else
        roll_back(&db);
    CHECK(is_alike(&db, is_kept ? &twin : &fresh));
    answers(&db, lines[0], is_kept ? lines[2] : "ok\n");
    if (!is_kept)
        declare(&fresh, lines[0]);
    change_both(&db, is_kept ? &twin : &fresh, AFTER, sizeof AFTER / sizeof *AFTER);
    CHECK(is_alike(&db, is_kept ? &twin : &fresh));
    mmdb_close(&db);
    mmdb_close(&twin);
    mmdb_close(&fresh);
}

static void each_drop_is_undone_and_kept(void)
{
    for (size_t i = 0; i < MOST_DROPS; i++)
        for (int is_inner = 0; is_inner < 2; is_inner++)
            for (int is_kept = 0; is_kept < 2; is_kept++)
                a_drop_among_changes(DROPS[i], is_inner, is_kept);
}

/* ---- tables */

/* What a dropped table referred to is free, and is held again behind a rollback; what refers to one can't refer to nothing then. */
static void links_come_back(void)
{
    mmdb db = company(), fresh = company();
    begin(&db);
    is_refused(&db, "delete proj where id = 2", 44);
    answers(&db, "drop table proj", "error 40 table is referenced\n");
    declare(&db, "drop table task");
    is_no_table(&db, "task");
    begin(&db);
    CHECK(changed_by(&db, "delete proj where id = 2") == 1);
    declare(&db, "drop table proj");
    is_no_table(&db, "proj");
    CHECK(changed_by(&db, "delete emp where id < 9") == 9);
    declare(&db, "drop table note");
    declare(&db, "drop table emp");
    declare(&db, "drop table dept");
    answers(&db, "tables", "ok 0\n");
    roll_back(&db);
    is_refused(&db, "delete emp where id = 7", 44);
    CHECK(changed_by(&db, "delete proj where id = 2") == 1);
    CHECK(changed_by(&db, "delete emp where id = 8") == 1);
    answers(&db, "drop table emp", "error 40 table is referenced\n");
    roll_back(&db);
    CHECK(is_alike(&db, &fresh));
    is_refused(&db, "delete emp where id = 8", 44);
    is_refused(&db, "delete proj where id = 2", 44);
    is_refused(&db, "insert task ('b', 4, null)", 42);
    answers(&db, "drop table proj", "error 40 table is referenced\n");
    CHECK(changed_by(&db, "delete task where proj = 2") == 1);
    CHECK(changed_by(&db, "delete proj where id = 2") == 1);
    CHECK(changed_by(&db, "delete emp where id = 8") == 1);
    mmdb_close(&db);
    mmdb_close(&fresh);
}

static void is_as_fresh(mmdb *db)
{
    mmdb fresh = company();
    CHECK(is_alike(db, &fresh));
    mmdb_close(&fresh);
}

/* Two others take the name of a dropped table, one after the other. */
static void another_takes_its_name(int is_kept)
{
    mmdb db = company();
    begin(&db);
    declare(&db, "drop table note");
    declare(&db, "table note (what text, proj ref proj, n int)");
    CHECK(changed_by(&db, "insert note ('" LONG "', 2, 7)") == 1);
    declare(&db, "index note n hash");
    begin(&db);
    declare(&db, "drop table note");
    declare(&db, "table note (id int)");
    CHECK(changed_by(&db, "insert note (5)") == 1);
    answers(&db, "dump note", "load note 5\nid\n5\n");
    roll_back(&db);
    answers(&db, "select * from note where n = 7", "rows 1\nnote.what,note.proj,note.n\n" LONG ",2,7\n");
    is_refused(&db, "delete proj where id = 2", 44);
    begin(&db);
    declare(&db, "drop table note");
    commit(&db);
    declare(&db, "table note (s text)");
    if (is_kept)
        commit(&db);
    else
        roll_back(&db);
    if (is_kept)
        answers(&db, "dump note", "load note 2\ns\n");
    else
        is_as_fresh(&db);
    declare(&db, "drop table note");
    is_no_table(&db, "note");
    mmdb_close(&db);
}

/* A table of a transaction is dropped in it, with its rows, and comes back where only the drop is undone. */
static void one_that_was_made_in_it(void)
{
    static const char *const MADE = "load more 25\nid,emp\n1,20\n2,21\n7,\n9,20\n";
    mmdb db = company();
    begin(&db);
    declare(&db, "drop table note");
    declare(&db, "table more (id int, emp ref emp null)");
    load_rows(&db, "more", "id,emp\n1,20\n2,21\n7,\n8,20\n");
    declare(&db, "index more emp tree");
    CHECK(changed_by(&db, "delete more where id = 8") == 1);
    CHECK(changed_by(&db, "insert more (9, 20)") == 1);
    begin(&db);
    declare(&db, "drop index more emp tree");
    declare(&db, "drop table more");
    is_no_table(&db, "more");
    CHECK(changed_by(&db, "delete emp where id = 21") == 1);
    roll_back(&db);
    answers(&db, "dump more", MADE);
    answers(&db, "select id from more where emp >= 20", "rows 3\nmore.id\n1\n2\n9\n");
    is_refused(&db, "delete emp where id = 21", 44);
    declare(&db, "drop table more");
    roll_back(&db);
    is_as_fresh(&db);
    is_no_table(&db, "more");
    mmdb_close(&db);
}

/* Tables before and behind a dropped one are changed while it is gone. */
static void tables_around_it_change(void)
{
    mmdb db = company(), twin = company();
    begin(&db);
    declare(&db, "drop table note");
    for (int times = 0; times < 3; times++) {
        begin(&db);
        CHECK(changed_by(&db, "insert task ('b', 3, 7)") == 1);
        CHECK(changed_by(&db, "update proj set lead = 400 where id = 3") == 1);
        declare(&db, "index task dept hash");
        declare(&db, "drop index proj lead tree");
        CHECK(changed_by(&db, "delete task where id = 'a'") == 1);
        CHECK(changed_by(&db, "delete proj where id = 1") == 1);
        declare(&db, "drop table task");
        declare(&db, "table more (id int, proj ref proj)");
        CHECK(changed_by(&db, "insert more (1, 3)") == 1);
        is_refused(&db, "delete emp where id = 400", 44);
        roll_back(&db);
        answers(&db, "select id from task where proj = 1", "rows 1\ntask.id\na\n");
    }
    roll_back(&db);
    CHECK(is_alike(&db, &twin));
    begin(&db);
    declare(&db, "drop table note");
    CHECK(changed_by(&db, "insert task ('b', 3, 7)") == 1);
    CHECK(changed_by(&db, "insert proj (4, 20, 'Mars')") == 1);
    commit(&db);
    declare(&twin, "drop table note");
    CHECK(changed_by(&twin, "insert task ('b', 3, 7)") == 1);
    CHECK(changed_by(&twin, "insert proj (4, 20, 'Mars')") == 1);
    CHECK(is_alike(&db, &twin));
    mmdb_close(&db);
    mmdb_close(&twin);
}

/* Drops in three transactions, of which each is rolled back by itself. */
static void one_in_another(void)
{
    mmdb db = company(), first = company(), second = company();
    begin(&db);
    drop(&db, DROPS[1]);
    drop(&first, DROPS[1]);
    drop(&second, DROPS[1]);
    begin(&db);
    drop(&db, DROPS[9]);
    drop(&second, DROPS[9]);
    begin(&db);
    drop(&db, DROPS[7]);
    drop(&db, DROPS[2]);
    declare(&db, "drop table emp");
    declare(&db, "table emp (name text)");
    declare(&db, "index emp name hash");
    roll_back(&db);
    CHECK(is_alike(&db, &second));
    roll_back(&db);
    CHECK(is_alike(&db, &first));
    roll_back(&db);
    is_as_fresh(&db);
    mmdb_close(&db);
    mmdb_close(&first);
    mmdb_close(&second);
}

/* What is refused drops nothing, and the transaction goes on. */
static void some_are_refused(void)
{
    static const struct {
        const char *line, *answer;
    } REFUSED[] = {
        { "drop table dept", "error 40 table is referenced\n" },
        { "drop table emp", "error 40 table is referenced\n" },
        { "drop table proj", "error 40 table is referenced\n" },
        { "drop table nothing", NO_TABLE },
        { "drop index emp name tree", "error 38 no such index\n" },
        { "drop index emp id tree", "error 38 no such index\n" },
        { "drop index emp nothing tree", "error 32 no such column\n" },
        { "drop index nothing id hash", NO_TABLE },
        { "drop table", "error 20 not a command\n" },
        { "drop", "error 20 not a command\n" },
    };
    mmdb db = company();
    begin(&db);
    for (size_t i = 0; i < sizeof REFUSED / sizeof *REFUSED; i++)
        answers(&db, REFUSED[i].line, REFUSED[i].answer);
    is_as_fresh(&db);
    declare(&db, "drop table note");
    for (size_t i = 0; i < sizeof REFUSED / sizeof *REFUSED; i++)
        answers(&db, REFUSED[i].line, REFUSED[i].answer);
    roll_back(&db);
    is_as_fresh(&db);
    mmdb_close(&db);
}

/* ---- indexes */

/* An index that is dropped and made again comes back at its place; one is dropped twice. */
static void an_index_is_made_again(void)
{
    static const char *const IS[] = { "id,tree", "dept,hash", "name,hash", "age,tree" };
    static const char *const AGAIN[] = { "id,tree", "name,hash", "age,tree", "dept,hash", "dept,tree" };
    mmdb db = company();
    begin(&db);
    for (int times = 0; times < 3; times++) {
        declare(&db, "drop index emp dept hash");
        CHECK(changed_by(&db, "update emp set dept = 3 where id < 40") == 40);
        declare(&db, "index emp dept hash");
        declare(&db, "index emp dept tree");
        has_indexes(&db, "emp", AGAIN, 5, EMPS);
        declare(&db, "drop index emp dept tree");
    }
    roll_back(&db);
    has_indexes(&db, "emp", IS, 4, EMPS);
    is_as_fresh(&db);
    mmdb_close(&db);
}

/* An index is dropped where rows are deleted and updated, and these come back together. */
static void an_index_of_deleted_rows(void)
{
    mmdb db = company();
    begin(&db);
    declare(&db, "drop table note");
    CHECK(changed_by(&db, "delete emp where id > 9") == EMPS - 10);
    declare(&db, "drop index emp name hash");
    CHECK(changed_by(&db, "update emp set name = '" LONG "', age = 77, dept = null") == 10);
    declare(&db, "drop index emp age tree");
    begin(&db);
    load_emps(&db, 10, 300);
    declare(&db, "drop index emp dept hash");
    CHECK(changed_by(&db, "delete emp where age = 20") > 0);
    roll_back(&db);
    answers(&db, "select id from emp where dept = 3", "rows 0\nemp.id\n");
    answers(&db, "select id from emp where dept = null and id < 2", "rows 2\nemp.id\n0\n1\n");
    roll_back(&db);
    is_as_fresh(&db);
    mmdb_close(&db);
}

/* ---- statements and pieces */

static size_t rows_found(mmdb *db, mmdb_statement of)
{
    mmdb_rows rows = { 0 };
    GIVES(mmdb_execute(db, of.number, &rows), MMDB_DONE);
    return rows.rows;
}

/* A statement is of the tables as they are: it is refused while its table is gone, and finds the same rows by any index. */
static void statements_go_on(void)
{
    mmdb db = company();
    mmdb_statement of_notes = prepared(&db, "select * from note where what = 'note 3'");
    mmdb_statement by_name = prepared(&db, "select id from emp where name = 'a name that no cell of a row can hold 7'");
    for (int times = 0; times < 3; times++) {
        begin(&db);
        CHECK(rows_found(&db, by_name) == 12);
        declare(&db, "drop index emp name hash");
        CHECK(rows_found(&db, by_name) == 12);
        declare(&db, "drop table note");
        GIVES(mmdb_execute(&db, of_notes.number, NULL), MMDB_REFUSED);
        CHECK(is_refused_by(&db, NO_TABLE));
        declare(&db, "table note (id int, what text)");
        CHECK(rows_found(&db, of_notes) == 0);
        CHECK(changed_by(&db, "insert note (1, 'note 3')") == 1);
        CHECK(rows_found(&db, of_notes) == 1);
        CHECK(changed_by(&db, "delete emp where id = 57") == 1);
        CHECK(rows_found(&db, by_name) == 11);
        roll_back(&db);
        CHECK(rows_found(&db, of_notes) == 43);
        CHECK(rows_found(&db, by_name) == 12);
    }
    mmdb_close(&db);
}

static void pieces(mmdb *db, const char *piece, const char *expected)
{
    mmdb_bytes answer;
    GIVES(mmdb_feed(db, piece, strlen(piece)), MMDB_DONE);
    GIVES(mmdb_answer(db, &answer), MMDB_DONE);
    CHECK(reads(answer, expected));
}

/* What pieces do is undone, and a request whose pieces came on both sides of a begin, a commit or a rollback is done at its end. */
static void pieces_are_undone(void)
{
    mmdb db = company();
    begin(&db);
    pieces(&db, "drop table note\ntable note (id int)\nload note 7\nid\n1", "ok\nok\n");
    begin(&db);
    pieces(&db, "\n2\ninsert note (3)\nins", "ok 2\nok 1\n");
    answers(&db, "dump note", "load note 9\nid\n1\n2\n3\n");
    roll_back(&db);
    answers(&db, "dump note", "load note 3\nid\n");
    pieces(&db, "ert note (4)\ndrop index emp name hash\ndrop ta", "ok 1\nok\n");
    roll_back(&db);
    is_as_fresh(&db);
    begin(&db);
    pieces(&db, "ble task\ndrop table proj\n", "ok\nok\n");
    is_no_table(&db, "proj");
    roll_back(&db);
    is_as_fresh(&db);
    mmdb_close(&db);
}

/* ---- memory */

static void drop_much(mmdb *db)
{
    declare(db, "drop index emp name hash");
    CHECK(changed_by(db, "update emp set name = '" LONG "', age = 77 where id > 99") == EMPS - 100);
    make_tables(db);
    declare(db, "drop index proj name hash");
    declare(db, "drop table task");
    declare(db, "drop table proj");
    declare(db, "drop index emp age tree");
    declare(db, "drop table emp");
}

static void drop_and_declare(mmdb *db)
{
    declare(db, "table emp (id int, name text, dept ref dept)");
    declare(db, "index emp name hash");
    CHECK(changed_by(db, "insert emp (1, '" LONG "', 3)") == 1);
    declare(db, "drop table emp");
    declare(db, "drop table dept");
}

static void drop_all(mmdb *db)
{
    drop_much(db);
    drop_and_declare(db);
}

/* What is noted of a transaction keeps its memory for the next one: 56 bytes a command and 4 a row, of 64 at most here. */
static void a_commit_gives_the_memory_back(void)
{
    const long outside = held_after(drop_all, 0), inside = held_after(drop_all, 1);
    CHECK(inside <= outside + 64 * (56 + 4));
}

/* Makes changes and a drop, of which one call for memory is refused, and tells whether it was. Where the drop is refused, nothing has
   changed. */
static int is_drop_met(const char *line, long met, int *refused)
{
    mmdb db = opened(80);
    picture before = taken_of(&db), between;
    int is_last, was;
    begin(&db);
    was_done(&db, "delete emp where dept = 3");
    was_done(&db, "update emp set name = '" LONG "' where id < 40");
    between = taken_of(&db);
    allocations_refuse(met, 1);
    was = was_declared(&db, line);
    is_last = allocations_refused() == 0;
    allocations_refuse(0, 0);
    *refused += !was;
    CHECK(is_as_in(&db, between) == !was);
    if (!was)
        declare(&db, line);
    roll_back(&db);
    CHECK(is_as_in(&db, before));
    mmdb_close(&db);
    free(before.text);
    free(between.text);
    return !is_last;
}

static void a_refused_drop_changes_nothing(void)
{
    static const char *const LINES[] = { "drop table emp", "drop index emp name hash", "drop index emp dept hash",
                                         "drop index emp age tree" };
    int refused = 0;
    for (size_t i = 0; i < sizeof LINES / sizeof *LINES; i++)
        for (long met = 0; is_drop_met(LINES[i], met, &refused);)
            met++;
    CHECK(refused > 0);
}

/* Begins, and drops among other changes. Gives how many drops were refused. */
static int drops_refused(mmdb *db)
{
    int refused = 0;
    if (mmdb_begin(db) != MMDB_DONE)
        return 0;
    was_done(db, "delete emp where dept = 3");
    refused += !was_declared(db, "drop index emp name hash");
    was_done(db, "update emp set name = '" LONG "' where id < 40");
    if (mmdb_begin(db) != MMDB_DONE)
        return refused;
    refused += !was_declared(db, "drop index emp age tree");
    if (!was_declared(db, "drop table emp"))
        return refused + 1;
    if (was_declared(db, "table emp (name text, dept ref dept)"))
        was_done(db, "insert emp ('" LONG "', 3)");
    else
        return refused;
    if (!was_declared(db, "drop table emp"))
        return refused + 1;
    return refused + !was_declared(db, "drop table dept");
}

int main(void)
{
    each_drop_is_undone_and_kept();
    links_come_back();
    another_takes_its_name(0);
    another_takes_its_name(1);
    one_that_was_made_in_it();
    tables_around_it_change();
    one_in_another();
    some_are_refused();
    an_index_is_made_again();
    an_index_of_deleted_rows();
    statements_go_on();
    pieces_are_undone();
    rounds_hold_what_the_first_held(ROUNDS, drop_much, drop_and_declare);
    a_commit_gives_the_memory_back();
    a_refused_drop_changes_nothing();
    each_call_for_memory_is_refused(drops_refused);
    CHECK(allocations_held() == 0);
    return checks_failed != 0;
}
