/* Cursors: the rows of selects that are read in pages of any size, beside those of an execution and under each policy. Each status of the
   three calls; what is done, and what is declined, while a cursor is open; and what it needs no longer. Each call for memory of an open
   and of a fetch is refused in turn. */
#include "allocations.h"
#include "selecting.h"

enum { STATEMENT_PAGE = 7, LITTLE = 4096, BYTES_OF_ROW = 32 };

static const char JOIN[] = "select t.id, t.s, u.k from t join u on t.c = u.k where t.id >= ?";

static mmdb_cursor cursor_of(mmdb *db, mmdb_statement of)
{
    mmdb_cursor cursor = MMDB_NO_CURSOR;
    GIVES(mmdb_cursor_open(db, of.number, &cursor), MMDB_DONE);
    CHECK(cursor.inside != NULL);
    return cursor;
}

/* A cursor on the rows of a select with a value in its place. No statement of it is left. */
static mmdb_cursor cursor_of_line(mmdb *db, const char *line, int64_t value)
{
    const mmdb_statement of = prepared(db, line);
    mmdb_cursor cursor;
    binds(db, of, 0, value);
    cursor = cursor_of(db, of);
    GIVES(mmdb_finalize(db, of.number), MMDB_DONE);
    return cursor;
}

static mmdb_rows fetched(mmdb_cursor *from, size_t most)
{
    mmdb_rows rows = other_rows();
    GIVES(mmdb_cursor_fetch(from, most, &rows), MMDB_DONE);
    CHECK(rows.rows <= most && rows.columns > 0 && rows.changed == 0);
    return rows;
}

static void closes(mmdb_cursor *cursor)
{
    mmdb_cursor_close(cursor);
    CHECK(cursor->inside == NULL);
}

/* Whether a page has those rows that stand behind so many. */
static int is_page_of(const mmdb_rows *all, size_t behind, const mmdb_rows *page)
{
    const mmdb_cell *from = all->cells + behind * all->columns;
    int is_same = page->columns == all->columns && behind + page->rows <= all->rows;
    for (size_t i = 0; is_same && i < page->rows * page->columns; i++)
        is_same = are_same(page, page->cells + i, all, from + i);
    return is_same;
}

/* Whether a page has the integers of a step from the first on, in its first column. */
static int has_integers(const mmdb_rows *page, size_t rows, int64_t first, int64_t step)
{
    int has = page->rows == rows;
    for (size_t i = 0; has && i < rows; i++)
        has = is_integer(page, i, 0, first + (int64_t)i * step);
    return has;
}

/* ---- pages of the rows of an execution */

/* How many rows the page of a number has at most: as many as most, or where that is 0 none, one, two, and so on. */
static size_t page_size(size_t most, size_t page)
{
    return most == 0 ? page : most;
}

/* Reads a cursor to its end. Its pages are the rows of an execution, one behind the other. Behind the last there are none. */
static void pages_are_rows(mmdb_cursor *from, const mmdb_rows *all, size_t most)
{
    size_t behind = 0;
    mmdb_rows page;
    for (size_t i = 0; behind < all->rows; i++) {
        const size_t size = page_size(most, i), left = all->rows - behind;
        page = fetched(from, size);
        CHECK(page.rows == (left < size ? left : size) && is_page_of(all, behind, &page));
        if (page.rows == 0 && size > 0)
            return;
        behind += page.rows;
    }
    for (size_t i = 0; i < 3; i++) {
        page = fetched(from, i);
        CHECK(has_none(page) && page.columns == all->columns);
    }
}

/* Compares pages of each size with what the statement shows, which stays. */
static void rows_are_read_in_pages(mmdb *db, mmdb_statement of)
{
    const size_t sizes[] = { 0, 1, 7, 1000, SIZE_MAX };
    mmdb_cursor cursors[sizeof sizes / sizeof sizes[0]];
    mmdb_rows all = other_rows();
    GIVES(mmdb_execute(db, of.number, &all), MMDB_DONE);
    for (size_t i = 0; i < sizeof sizes / sizeof sizes[0]; i++)
        cursors[i] = cursor_of(db, of);
    for (size_t i = 0; i < sizeof sizes / sizeof sizes[0]; i++) {
        pages_are_rows(&cursors[i], &all, sizes[i]);
        closes(&cursors[i]);
    }
}

static void each_select_is_read_in_pages(uint32_t policy, int64_t rows)
{
    mmdb db = opened(policy, rows);
    char line[256];
    for (size_t i = 0; i < sizeof SELECTS / sizeof SELECTS[0]; i++) {
        const mmdb_statement of = prepared(&db, SELECTS[i]);
        for (size_t j = 0; j < sizeof VALUES / sizeof VALUES[0]; j++) {
            if (of.places != 0)
                binds(&db, of, 0, VALUES[j]);
            rows_are_read_in_pages(&db, of);
        }
    }
    for (int i = 0; i < DRAWN; i++) {
        const int failed = checks_failed;
        draw_select(line, sizeof line, (uint32_t)rows);
        rows_are_read_in_pages(&db, prepared(&db, line));
        if (checks_failed != failed)
            fprintf(stderr, "%s\n", line);
    }
    mmdb_close(&db);
}

/* Of 2500 rows, of which each second has no u. A text is long in each third row. */
static void worked_rows_are_read(uint32_t policy)
{
    mmdb db = opened(policy, ROWS);
    mmdb_cursor join = cursor_of_line(&db, JOIN, 2490), one = cursor_of_line(&db, "select id from t where id > ?", 2496);
    mmdb_cursor groups = cursor_of_line(&db, "select distinct g from t where id >= ?", 2), none = cursor_of_line(&db, JOIN, ROWS);
    mmdb_rows page = fetched(&join, 2);
    CHECK(page.columns == 3 && has_integers(&page, 2, 2490, 2) && is_text(&page, 0, 1, LONG) && is_text(&page, 1, 1, "short"));
    CHECK(is_integer(&page, 0, 2, 2490 % GROUPS) && is_integer(&page, 1, 2, 2492 % GROUPS));
    page = fetched(&groups, 3);
    CHECK(page.columns == 1 && has_integers(&page, 3, 0, 1));
    page = fetched(&join, 9);
    CHECK(has_integers(&page, 3, 2494, 2) && is_text(&page, 1, 1, LONG));
    page = fetched(&groups, 9);
    CHECK(has_integers(&page, GROUPS - 3, 3, 1));
    page = fetched(&one, SIZE_MAX);
    CHECK(page.columns == 1 && has_integers(&page, 3, 2497, 1));
    page = fetched(&none, 1);
    CHECK(has_none(page) && page.columns == 3);
    closes(&join);
    closes(&groups);
    closes(&one);
    closes(&none);
    mmdb_close(&db);
}

/* ---- each status */

static void closed_handles_and_null_are_told(void)
{
    mmdb db = opened(MMDB_AUTO, FEW), closed = MMDB_CLOSED;
    mmdb_cursor cursor = MMDB_NO_CURSOR;
    mmdb_rows rows = other_rows();
    const mmdb_statement all = prepared(&db, "select id from t");
    GIVES(mmdb_cursor_open(NULL, all.number, &cursor), MMDB_NOT_OPEN);
    GIVES(mmdb_cursor_open(&closed, all.number, &cursor), MMDB_NOT_OPEN);
    GIVES(mmdb_cursor_open(&db, all.number, NULL), MMDB_NOT_OPEN);
    GIVES(mmdb_cursor_open(NULL, all.number, NULL), MMDB_NOT_OPEN);
    CHECK(cursor.inside == NULL && closed.inside == NULL);
    GIVES(mmdb_cursor_fetch(&cursor, 1, &rows), MMDB_NOT_OPEN);
    CHECK(has_none(rows) && rows.columns == 0);
    rows = other_rows();
    GIVES(mmdb_cursor_fetch(NULL, SIZE_MAX, &rows), MMDB_NOT_OPEN);
    CHECK(has_none(rows) && rows.columns == 0);
    GIVES(mmdb_cursor_fetch(&cursor, 1, NULL), MMDB_NOT_OPEN);
    mmdb_cursor_close(NULL);
    closes(&cursor);
    cursor = cursor_of(&db, all);
    GIVES(mmdb_cursor_open(&closed, all.number, &cursor), MMDB_NOT_OPEN);
    GIVES(mmdb_cursor_open(NULL, all.number, &cursor), MMDB_NOT_OPEN);
    rows = fetched(&cursor, SIZE_MAX);
    CHECK(has_integers(&rows, FEW, 0, 1));
    closes(&cursor);
    closes(&cursor);
    GIVES(mmdb_cursor_fetch(&cursor, 1, &rows), MMDB_NOT_OPEN);
    does(&db, "delete t");
    mmdb_close(&db);
}

/* An open cursor goes on where it was, whatever it is to be opened on. One that was closed begins anew. */
static void an_open_cursor_goes_on(void)
{
    mmdb db = opened(MMDB_AUTO, FEW), other = opened(MMDB_AUTO, FEW);
    const mmdb_statement of = prepared(&db, "select id from t where id >= ?"), insert = prepared(&db, "insert u (9)");
    mmdb_cursor cursor;
    mmdb_rows rows;
    void *inside;
    binds(&db, of, 0, 5);
    cursor = cursor_of(&db, of);
    inside = cursor.inside;
    rows = fetched(&cursor, 3);
    binds(&db, of, 0, 0);
    GIVES(mmdb_cursor_open(&db, of.number, &cursor), MMDB_IS_OPEN);
    GIVES(mmdb_cursor_open(&db, insert.number, &cursor), MMDB_IS_OPEN);
    GIVES(mmdb_cursor_open(&db, NUMBER, &cursor), MMDB_IS_OPEN);
    GIVES(mmdb_cursor_open(&other, 0, &cursor), MMDB_IS_OPEN);
    CHECK(cursor.inside == inside && has_integers(&rows, 3, 5, 1));
    rows = fetched(&cursor, 3);
    CHECK(has_integers(&rows, 3, 8, 1));
    closes(&cursor);
    GIVES(mmdb_cursor_open(&db, of.number, &cursor), MMDB_DONE);
    rows = fetched(&cursor, 3);
    CHECK(has_integers(&rows, 3, 0, 1));
    closes(&cursor);
    mmdb_close(&other);
    mmdb_close(&db);
}

/* None of the rows are read where none are asked for, or where they aren't wanted they are passed over. */
static void none_and_unwanted_rows_are_fetched(void)
{
    mmdb db = opened(MMDB_AUTO, FEW);
    mmdb_cursor cursor = cursor_of_line(&db, "select id, s, g from t where id >= ?", 0);
    mmdb_rows rows;
    for (int i = 0; i < 3; i++) {
        rows = fetched(&cursor, 0);
        CHECK(has_none(rows) && rows.columns == 3);
    }
    rows = fetched(&cursor, 2);
    CHECK(has_integers(&rows, 2, 0, 1));
    GIVES(mmdb_cursor_fetch(&cursor, 3, NULL), MMDB_DONE);
    rows = fetched(&cursor, 0);
    CHECK(has_none(rows) && rows.columns == 3);
    rows = fetched(&cursor, SIZE_MAX);
    CHECK(has_integers(&rows, FEW - 5, 5, 1));
    closes(&cursor);
    mmdb_close(&db);
}

/* No cursor is opened on a statement that is refused so. Nothing holds the tables then. */
static void is_refused(mmdb *db, mmdb_statement of, const char *answer)
{
    mmdb_cursor cursor = MMDB_NO_CURSOR;
    GIVES(mmdb_cursor_open(db, of.number, &cursor), MMDB_REFUSED);
    CHECK(cursor.inside == NULL && is_refused_by(db, answer));
    does(db, "update t set n = 3 where id = 6");
}

static void each_refusal_is_met(void)
{
    mmdb db = opened(MMDB_AUTO, FEW);
    const mmdb_statement select = prepared(&db, "select id from t where id < ?"), more = prepared(&db, "insert u (?)");
    const mmdb_statement joined = prepared(&db, "select t.id from t join w on t.g = w.n");
    mmdb_cursor cursor = MMDB_NO_CURSOR;
    mmdb_bytes answer;
    GIVES(mmdb_cursor_open(&db, NUMBER, &cursor), MMDB_NO_SUCH_STATEMENT);
    GIVES(mmdb_cursor_open(&db, UINT32_MAX, &cursor), MMDB_NO_SUCH_STATEMENT);
    is_refused(&db, select, "error 35 wrong type\n");
    GIVES(mmdb_cursor_open(&db, select.number, &cursor), MMDB_REFUSED);
    GIVES(mmdb_statement_reason(&db, select.number, &answer), MMDB_DONE);
    CHECK(answer.length > 10 && memcmp(answer.at, "column 29:", 10) == 0);
    is_refused(&db, more, "error 35 wrong type\n");
    binds(&db, more, 0, GROUPS);
    is_refused(&db, more, "error 20 not a command\n");
    is_refused(&db, prepared(&db, "update t set s = 'other'"), "error 20 not a command\n");
    is_refused(&db, prepared(&db, "update t set id = 1"), "error 36 key cannot be set\n");
    is_refused(&db, prepared(&db, "delete t"), "error 20 not a command\n");
    does(&db, "drop table w");
    is_refused(&db, joined, "error 30 no such table\n");
    GIVES(mmdb_finalize(&db, joined.number), MMDB_DONE);
    GIVES(mmdb_cursor_open(&db, joined.number, &cursor), MMDB_NO_SUCH_STATEMENT);
    CHECK(cursor.inside == NULL);
    binds(&db, select, 0, 2);
    cursor = cursor_of(&db, select);
    GIVES(mmdb_answer(&db, &answer), MMDB_DONE);
    CHECK(reads(answer, "") && mmdb_refusal(&db) == 0);
    closes(&cursor);
    mmdb_close(&db);
}

/* In a transaction no cursor is opened, and where one is open no transaction begins. */
static void none_is_opened_in_a_transaction(void)
{
    mmdb db = opened(MMDB_AUTO, FEW);
    const mmdb_statement all = prepared(&db, "select id from t");
    mmdb_cursor cursor = MMDB_NO_CURSOR;
    mmdb_rows rows;
    for (int is_kept = 0; is_kept < 2; is_kept++) {
        GIVES(mmdb_begin(&db), MMDB_DONE);
        does(&db, "insert t (-1, 'more', 1, 1, null)");
        GIVES(mmdb_cursor_open(&db, all.number, &cursor), MMDB_IN_TRANSACTION);
        GIVES(mmdb_cursor_open(&db, NUMBER, &cursor), MMDB_NO_SUCH_STATEMENT);
        GIVES(mmdb_begin(&db), MMDB_DONE);
        GIVES(mmdb_cursor_open(&db, all.number, &cursor), MMDB_IN_TRANSACTION);
        GIVES(mmdb_commit(&db), MMDB_DONE);
        GIVES(mmdb_cursor_open(&db, all.number, &cursor), MMDB_IN_TRANSACTION);
        CHECK(cursor.inside == NULL && mmdb_transactions(&db) == 1);
        GIVES(is_kept ? mmdb_commit(&db) : mmdb_rollback(&db), MMDB_DONE);
        cursor = cursor_of(&db, all);
        GIVES(mmdb_begin(&db), MMDB_SHARED);
        rows = fetched(&cursor, SIZE_MAX);
        CHECK(has_integers(&rows, is_kept ? FEW + 1 : FEW, is_kept ? -1 : 0, 1));
        closes(&cursor);
    }
    mmdb_close(&db);
}

/* ---- what is declined and what is done while one is open */

typedef mmdb_status (*change)(mmdb *db);

static mmdb_status inserts(mmdb *db) { return command(db, "insert u (10)", NULL); }
static mmdb_status updates(mmdb *db) { return command(db, "update t set s = 'other' where id = 1", NULL); }
static mmdb_status deletes(mmdb *db) { return command(db, "delete t where id = 1", NULL); }
static mmdb_status declares(mmdb *db) { return command(db, "table x (id int)", NULL); }
static mmdb_status drops(mmdb *db) { return command(db, "drop table w", NULL); }
static mmdb_status loads(mmdb *db) { return load(db, "load u 5", "k\n11\n", NULL); }
static mmdb_status feeds(mmdb *db) { return feed(db, "insert u (12)\n"); }
static mmdb_status queries(mmdb *db) { return mmdb_query(db, "insert u (13)", 13, NULL); }

static mmdb_status executes(mmdb *db)
{
    const mmdb_statement insert = prepared(db, "insert u (?)");
    binds(db, insert, 0, 14);
    return mmdb_execute(db, insert.number, NULL);
}

static mmdb_status executes_many(mmdb *db)
{
    const mmdb_cell cells[] = { { 15, 0, 0, MMDB_INTEGER }, { 16, 0, 0, MMDB_INTEGER } };
    return mmdb_execute_many(db, prepared(db, "insert u (?)").number, cells, 2, NULL, 0, NULL);
}

static mmdb_status begins_and_rolls_back(mmdb *db)
{
    const mmdb_status begun = mmdb_begin(db);
    if (begun == MMDB_DONE)
        GIVES(mmdb_rollback(db), MMDB_DONE);
    return begun;
}

static const change CHANGES[] = {
    inserts, updates, deletes, declares, drops, loads, feeds, queries, executes, executes_many, begins_and_rolls_back,
};

static uint64_t version_of(mmdb *db)
{
    uint64_t version = 0;
    GIVES(mmdb_version(db, NULL, 0, &version), MMDB_DONE);
    return version;
}

/* Each kind of change is declined, or else done, which raises the number of the newest change. */
static void each_change_gives(mmdb *db, mmdb_status expected)
{
    for (size_t i = 0; i < sizeof CHANGES / sizeof CHANGES[0]; i++) {
        const uint64_t version = version_of(db);
        GIVES(CHANGES[i](db), expected);
        GIVES(mmdb_refusal(db), 0);
        CHECK((version_of(db) > version) == (expected == MMDB_DONE));
    }
}

static void no_change_is_done_while_one_is_open(void)
{
    mmdb db = opened(MMDB_AUTO, FEW);
    mmdb_cursor cursor = cursor_of_line(&db, "select id from t where id >= ?", 0), second;
    mmdb_rows rows = fetched(&cursor, 5);
    mmdb_bytes answer;
    each_change_gives(&db, MMDB_SHARED);
    GIVES(command(&db, "delete x", &answer), MMDB_DONE);
    CHECK(reads(answer, "error 30 no such table\n") && has_integers(&rows, 5, 0, 1));
    second = cursor_of_line(&db, "select id from t where id >= ?", 9);
    closes(&cursor);
    each_change_gives(&db, MMDB_SHARED);
    rows = fetched(&second, SIZE_MAX);
    CHECK(has_integers(&rows, FEW - 9, 9, 1));
    each_change_gives(&db, MMDB_SHARED);
    closes(&second);
    each_change_gives(&db, MMDB_DONE);
    mmdb_close(&db);
}

/* What changes nothing is done, and a copy is changed alone. */
static void all_is_read_while_one_is_open(mmdb *db)
{
    const mmdb_statement all = prepared(db, "select id from t");
    mmdb copy = MMDB_CLOSED;
    mmdb_save_mark mark = MMDB_SAVE_BEGIN;
    mmdb_bytes answer;
    mmdb_rows rows;
    uint64_t count = 0;
    GIVES(mmdb_execute(db, all.number, &rows), MMDB_DONE);
    CHECK(has_integers(&rows, FEW, 0, 1));
    GIVES(mmdb_first(db, all.number, 2, &rows), MMDB_DONE);
    CHECK(has_integers(&rows, 2, 0, 1));
    GIVES(mmdb_count(db, all.number, &count), MMDB_DONE);
    GIVES(mmdb_columns(db, all.number, &rows), MMDB_DONE);
    CHECK(count == FEW && rows.rows == 1);
    GIVES(mmdb_query(db, "select k from u", 15, &rows), MMDB_DONE);
    CHECK(has_integers(&rows, GROUPS, 0, 1));
    GIVES(command(db, "select id from t where id = 3", &answer), MMDB_DONE);
    CHECK(reads(answer, "rows 1\nt.id\n3\n"));
    GIVES(mmdb_plan(db, "select id from t", 16, &answer), MMDB_DONE);
    GIVES(mmdb_indexes(db, "t", 1, &answer), MMDB_DONE);
    while (mark.part != MMDB_SAVE_OVER && mmdb_save(db, &mark, &answer) == MMDB_DONE)
        continue;
    CHECK(mark.part == MMDB_SAVE_OVER);
    GIVES(mmdb_clone(db, &copy), MMDB_DONE);
    does(&copy, "delete t");
    mmdb_close(&copy);
}

/* A handle that shared the tables of an open cursor leaves them, and has others. The cursor reads those that it was opened on. */
static void handles_share_and_leave_while_one_is_open(void)
{
    mmdb db = opened(MMDB_AUTO, FEW), reader = MMDB_CLOSED;
    mmdb_cursor cursor = cursor_of_line(&db, JOIN, 0), of_reader;
    mmdb_rows rows = fetched(&cursor, 2);
    CHECK(has_integers(&rows, 2, 0, 2));
    all_is_read_while_one_is_open(&db);
    GIVES(mmdb_share(&db, &reader), MMDB_DONE);
    of_reader = cursor_of_line(&reader, JOIN, 10);
    all_is_read_while_one_is_open(&reader);
    GIVES(mmdb_leave(&db), MMDB_DONE);
    does(&db, "table t (id int)");
    does(&db, "insert t (1)");
    GIVES(mmdb_query(&reader, "delete t", 8, NULL), MMDB_SHARED);
    rows = fetched(&cursor, 2);
    CHECK(has_integers(&rows, 2, 4, 2));
    GIVES(mmdb_leave(&reader), MMDB_DONE);
    GIVES(mmdb_share(&db, &reader), MMDB_DONE);
    GIVES(mmdb_query(&reader, "select id from t", 16, &rows), MMDB_DONE);
    CHECK(has_integers(&rows, 1, 1, 1));
    mmdb_close(&reader);
    does(&db, "insert t (2)");
    rows = fetched(&of_reader, SIZE_MAX);
    CHECK(has_integers(&rows, 5, 10, 2));
    rows = fetched(&cursor, SIZE_MAX);
    CHECK(has_integers(&rows, 6, 8, 2));
    closes(&cursor);
    closes(&of_reader);
    mmdb_close(&db);
}

/* ---- what stays, and what it needs no longer */

/* What a statement has shown stays, and what each cursor has, whatever the others are asked for. */
static void rows_of_others_stay(void)
{
    mmdb db = opened(MMDB_AUTO, ROWS), reader = MMDB_CLOSED;
    const mmdb_statement of = prepared(&db, "select id, s from t where id > ?");
    mmdb_cursor one, other, third;
    mmdb_rows shown, pages[3], queried;
    binds(&db, of, 0, 4);
    GIVES(mmdb_execute(&db, of.number, &shown), MMDB_DONE);
    GIVES(mmdb_query(&db, "select k from u where k = 1", 27, &queried), MMDB_DONE);
    one = cursor_of(&db, of);
    binds(&db, of, 0, 100);
    other = cursor_of(&db, of);
    GIVES(mmdb_share(&db, &reader), MMDB_DONE);
    third = cursor_of_line(&reader, JOIN, 1000);
    for (int64_t read = 0; read < ROWS; read += STATEMENT_PAGE) {
        const int64_t left = ROWS - 101 - read;
        pages[0] = fetched(&one, STATEMENT_PAGE);
        pages[1] = fetched(&other, STATEMENT_PAGE);
        pages[2] = fetched(&third, 1);
        CHECK(read + 5 + STATEMENT_PAGE > ROWS || has_integers(&pages[0], STATEMENT_PAGE, read + 5, 1));
        CHECK(left < STATEMENT_PAGE || has_integers(&pages[1], STATEMENT_PAGE, read + 101, 1));
        CHECK(has_integers(&pages[2], 1, 1000 + read / STATEMENT_PAGE * 2, 2));
    }
    CHECK(shown.rows == ROWS - 5 && has_integers(&shown, ROWS - 5, 5, 1) && is_text(&shown, 1, 1, LONG));
    CHECK(has_integers(&queried, 1, 1, 1));
    GIVES(mmdb_execute(&db, of.number, &shown), MMDB_DONE);
    CHECK(has_integers(&shown, ROWS - 101, 101, 1) && has_integers(&pages[2], 1, 1000 + (ROWS - 1) / STATEMENT_PAGE * 2, 2));
    closes(&one);
    closes(&other);
    closes(&third);
    mmdb_close(&reader);
    mmdb_close(&db);
}

/* A cursor needs neither its statement nor its database, and is closed before or behind it. All memory comes back with the last of them. */
static void it_outlives_its_statement_and_database(void)
{
    for (int order = 0; order < 4; order++) {
        const long held = allocations_held();
        mmdb db = opened(MMDB_AUTO, FEW), reader = MMDB_CLOSED;
        mmdb_cursor one = cursor_of_line(&db, JOIN, 0), other = cursor_of_line(&db, "select distinct s from t where id >= ?", 0);
        mmdb_rows rows = fetched(&one, 1);
        if (order > 1)
            GIVES(mmdb_share(&db, &reader), MMDB_DONE);
        mmdb_close(&db);
        CHECK(has_integers(&rows, 1, 0, 1));
        rows = fetched(&one, 2);
        CHECK(has_integers(&rows, 2, 2, 2) && is_text(&rows, 1, 1, "short"));
        rows = fetched(&other, SIZE_MAX);
        CHECK(rows.rows == 3 && is_text(&rows, 0, 0, LONG) && is_text(&rows, 1, 0, "short") && is_text(&rows, 2, 0, RARE));
        closes(order % 2 == 0 ? &one : &other);
        if (order > 1) {
            GIVES(mmdb_query(&reader, "delete t", 8, NULL), MMDB_SHARED);
            closes(order % 2 == 0 ? &other : &one);
            does(&reader, "delete t");
        }
        mmdb_close(&reader);
        closes(order % 2 == 0 ? &other : &one);
        CHECK(allocations_held() == held);
    }
}

/* How many bytes a cursor holds that has been read to its end, in pages of few rows. */
static long bytes_held(mmdb *db, const char *line, size_t *rows)
{
    const long before = allocations_bytes();
    mmdb_cursor cursor = cursor_of_line(db, line, 0);
    mmdb_rows page = other_rows();
    long held;
    for (*rows = 0; page.rows != 0; *rows += page.rows)
        page = fetched(&cursor, STATEMENT_PAGE);
    held = allocations_bytes() - before;
    closes(&cursor);
    return held;
}

/* A cursor on many rows keeps references to them, and the cells of few. Its handle keeps nothing more behind a second one. */
static void it_holds_references(mmdb *db, const char *line)
{
    size_t rows;
    long blocks;
    bytes_held(db, line, &rows);
    blocks = allocations_held();
    /* (a list that grows doubles) */
    CHECK(bytes_held(db, line, &rows) < (long)(2 * BYTES_OF_ROW * rows) + LITTLE);
    CHECK(rows >= ROWS / 2 && allocations_held() == blocks);
}

static void each_holds_references(void)
{
    mmdb db = opened(MMDB_AUTO, ROWS);
    it_holds_references(&db, JOIN);
    it_holds_references(&db, "select * from t where id >= ?");
    it_holds_references(&db, "select distinct * from t where id >= ?");
    it_holds_references(&db, "select * from t join w on t.g = w.n where t.id >= ?");
    mmdb_close(&db);
}

/* ---- each call for memory is refused */

/* Opens a cursor with a call for memory refused. Gives whether there was one. Where it was refused for that, nothing holds the tables. */
static int opens_with_refusal(mmdb *db, mmdb_statement of, long met, mmdb_cursor *cursor, long *refused)
{
    mmdb_status status;
    int is_met;
    allocations_refuse(met, 1);
    status = mmdb_cursor_open(db, of.number, cursor);
    is_met = allocations_refused() != 0;
    allocations_refuse(0, 0);
    if (is_met && status != MMDB_DONE) {
        GIVES(status, MMDB_REFUSED);
        CHECK(cursor->inside == NULL && is_refused_by(db, "error 90 no memory\n"));
        does(db, "update w set n = 3 where id = 6");
        *cursor = cursor_of(db, of);
        ++*refused;
    }
    return is_met;
}

/* Reads a page with a call for memory refused. Gives whether there was one. None was read where it was refused, and then it comes. */
static int fetches_with_refusal(mmdb_cursor *from, const mmdb_rows *all, long met, long *refused)
{
    mmdb_rows page = other_rows();
    mmdb_status status;
    int is_met;
    allocations_refuse(met, 1);
    status = mmdb_cursor_fetch(from, STATEMENT_PAGE, &page);
    is_met = allocations_refused() != 0;
    allocations_refuse(0, 0);
    if (is_met && status != MMDB_DONE) {
        GIVES(status, MMDB_NO_MEMORY);
        CHECK(has_none(page) && page.columns == 0);
        page = fetched(from, STATEMENT_PAGE);
        ++*refused;
    }
    CHECK(page.rows == STATEMENT_PAGE && is_page_of(all, 0, &page));
    page = fetched(from, SIZE_MAX);
    CHECK(page.rows == all->rows - STATEMENT_PAGE && is_page_of(all, STATEMENT_PAGE, &page));
    return is_met;
}

/* On a handle of its own: a second open takes less memory than the first. Gives whether there was a call for memory to be refused. */
static int is_refused_in_turn(const char *line, long met, long *opens, long *fetches)
{
    const long held = allocations_held();
    mmdb db = opened(MMDB_AUTO, FEW);
    const mmdb_statement of = prepared(&db, line), shows = prepared(&db, line);
    mmdb_cursor cursor = MMDB_NO_CURSOR;
    mmdb_rows all;
    int is_met;
    binds(&db, of, 0, 0);
    binds(&db, shows, 0, 0);
    GIVES(mmdb_execute(&db, shows.number, &all), MMDB_DONE);
    is_met = opens_with_refusal(&db, of, met, &cursor, opens);
    is_met += fetches_with_refusal(&cursor, &all, met, fetches);
    mmdb_cursor_close(&cursor);
    does(&db, "delete t");
    mmdb_close(&db);
    CHECK(allocations_held() == held);
    return is_met;
}

static void memory_is_refused(void)
{
    static const char *const LINES[] = {
        JOIN, "select distinct id, s from t where id >= ?", "select * from t where id >= ?",
        "select w.id, t.s from t join w on t.g = w.n where w.id >= ?",
    };
    for (size_t i = 0; i < sizeof LINES / sizeof LINES[0]; i++) {
        long opens = 0, fetches = 0;
        for (long met = 0; is_refused_in_turn(LINES[i], met, &opens, &fetches); met++)
            continue;
        CHECK(opens > 1 && fetches > 0);
    }
}

int main(void)
{
    for (uint32_t policy = MMDB_AUTO; policy <= MMDB_MERGE; policy++) {
        each_select_is_read_in_pages(policy, 0);
        each_select_is_read_in_pages(policy, FEW);
        each_select_is_read_in_pages(policy, policy == MMDB_AUTO ? ROWS : 300);
        worked_rows_are_read(policy);
    }
    closed_handles_and_null_are_told();
    an_open_cursor_goes_on();
    none_and_unwanted_rows_are_fetched();
    each_refusal_is_met();
    none_is_opened_in_a_transaction();
    no_change_is_done_while_one_is_open();
    handles_share_and_leave_while_one_is_open();
    rows_of_others_stay();
    it_outlives_its_statement_and_database();
    each_holds_references();
    memory_is_refused();
    CHECK(allocations_held() == 0);
    return checks_failed != 0;
}
