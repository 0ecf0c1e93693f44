/* The first rows of selects: each status of the call, worked rows of each way to find them, and what the call leaves as it was. Under
   each policy those of each kind of select, and of drawn ones, are the front of what an execution shows. */
#include "allocations.h"
#include "selecting.h"

enum { PAGE = 64 };

static mmdb_rows first(mmdb *db, mmdb_statement of, size_t most)
{
    mmdb_rows rows = other_rows();
    GIVES(mmdb_first(db, of.number, most, &rows), MMDB_DONE);
    return rows;
}

/* ---- the front of an execution */

static int is_front(const mmdb_rows *front, const mmdb_rows *all, size_t most)
{
    const size_t rows = all->rows < most ? all->rows : most;
    int is_same = front->rows == rows && front->columns == all->columns && front->columns > 0 && front->changed == 0;
    for (size_t i = 0; is_same && i < rows * all->columns; i++)
        is_same = are_same(front, front->cells + i, all, all->cells + i);
    return is_same;
}

/* Compares the first rows of a select with all rows, which another statement of the same line shows. */
static void a_front_is_shown(mmdb *db, mmdb_statement asked, mmdb_statement executed)
{
    mmdb_rows all = other_rows(), rows;
    GIVES(mmdb_execute(db, executed.number, &all), MMDB_DONE);
    const size_t mosts[] = { 0, 1, 5, all.rows / 2, all.rows, all.rows + 1, SIZE_MAX };
    for (size_t i = 0; i < sizeof mosts / sizeof mosts[0]; i++) {
        rows = first(db, asked, mosts[i]);
        CHECK(is_front(&rows, &all, mosts[i]));
    }
}

static void a_select_has_first_rows(mmdb *db, const char *line)
{
    const mmdb_statement asked = prepared(db, line), executed = prepared(db, line);
    for (size_t i = 0; i < sizeof VALUES / sizeof VALUES[0]; i++) {
        if (asked.places != 0) {
            binds(db, asked, 0, VALUES[i]);
            binds(db, executed, 0, VALUES[i]);
        }
        a_front_is_shown(db, asked, executed);
    }
    GIVES(mmdb_finalize(db, asked.number), MMDB_DONE);
    GIVES(mmdb_finalize(db, executed.number), MMDB_DONE);
}

static void drawn_selects_have_first_rows(mmdb *db, uint32_t rows)
{
    char line[256];
    for (int i = 0; i < DRAWN; i++) {
        draw_select(line, sizeof line, rows);
        const mmdb_statement asked = prepared(db, line), executed = prepared(db, line);
        const int failed = checks_failed;
        a_front_is_shown(db, asked, executed);
        if (checks_failed != failed)
            fprintf(stderr, "%s\n", line);
        GIVES(mmdb_finalize(db, asked.number), MMDB_DONE);
        GIVES(mmdb_finalize(db, executed.number), MMDB_DONE);
    }
}

static void each_select_has_first_rows(uint32_t policy, int64_t rows)
{
    mmdb db = opened(policy, rows);
    for (size_t i = 0; i < sizeof SELECTS / sizeof SELECTS[0]; i++)
        a_select_has_first_rows(&db, SELECTS[i]);
    drawn_selects_have_first_rows(&db, (uint32_t)rows);
    mmdb_close(&db);
}

/* ---- worked rows */

/* Checks that a select of one column of integers, with a value in its place, begins with these. */
static void begins(mmdb *db, const char *line, int64_t value, size_t most, const int64_t *expected, size_t count)
{
    const mmdb_statement select = prepared(db, line);
    mmdb_rows rows;
    binds(db, select, 0, value);
    rows = first(db, select, most);
    check(rows.rows == count && rows.columns == 1, line, __FILE__, __LINE__);
    for (size_t i = 0; i < rows.rows && i < count; i++)
        check(is_integer(&rows, i, 0, expected[i]), line, __FILE__, __LINE__);
    GIVES(mmdb_finalize(db, select.number), MMDB_DONE);
}

#define BEGINS(db, line, value, most, ...) begins(db, line, value, most, (const int64_t[]){ __VA_ARGS__ }, \
                                                  sizeof((const int64_t[]){ __VA_ARGS__ }) / sizeof(int64_t))

/* Of 2500 rows. A text is rare in the row 1250; n falls from 833 to 0 as the keys rise; c is null of every odd key. */
static void worked_rows_are_shown(uint32_t policy)
{
    mmdb db = opened(policy, ROWS);
    BEGINS(&db, "select id from t where id >= ?", -5, 3, 0, 1, 2);
    BEGINS(&db, "select id from t where id > ?", 2, 4, 3, 4, 5, 6);
    BEGINS(&db, "select id from t where id > ?", 2497, 4, 2498, 2499);
    BEGINS(&db, "select id from t where id > ? and id <= 12", 9, 100, 10, 11, 12);
    BEGINS(&db, "select id from t where id > ? and id <= 12", 9, 2, 10, 11);
    BEGINS(&db, "select id from t where id = ?", 77, 1, 77);
    BEGINS(&db, "select id from t where id = ? and g = 0", 77, 9, 77);
    BEGINS(&db, "select id from t where id <> ?", 0, 2, 1, 2);
    BEGINS(&db, "select id from t where g = ?", 3, 3, 3, 10, 17);
    BEGINS(&db, "select id from t where g = ? and id > 2490", 3, 9, 2495);
    BEGINS(&db, "select id from t where s = 'the only text of its kind' and id > ?", 5, 9, 1250);
    BEGINS(&db, "select id from t where n = ?", 800, 2, 98, 99);
    BEGINS(&db, "select id from t where n >= ?", 832, 9, 0, 1, 2, 3, 4);
    BEGINS(&db, "select id from t where n < ?", 1, 2, 2498, 2499);
    BEGINS(&db, "select id from t where c = ?", 4, 3, 4, 18, 32);
    BEGINS(&db, "select id from t where c = ? and id > 40", 4, 1, 46);
    BEGINS(&db, "select distinct g from t where id >= ?", 3, 4, 0, 1, 2, 3);
    BEGINS(&db, "select t.id from t join u on t.c = u.k where t.id > ?", 3, 3, 4, 6, 8);
    BEGINS(&db, "select t.id from t join w on t.g = w.n where w.n < ?", 2, 5, 0, 0, 1, 1, 7);
    mmdb_close(&db);
}

/* Texts, short and long, and nulls. */
static void worked_cells_are_shown(void)
{
    mmdb db = opened(MMDB_AUTO, ROWS);
    mmdb_rows rows = first(&db, prepared(&db, "select * from t"), 2);
    CHECK(rows.rows == 2 && rows.columns == 5 && rows.changed == 0);
    CHECK(is_integer(&rows, 0, 0, 0) && is_text(&rows, 0, 1, LONG) && is_integer(&rows, 0, 2, 0));
    CHECK(is_integer(&rows, 0, 3, 833) && is_integer(&rows, 0, 4, 0));
    CHECK(is_integer(&rows, 1, 0, 1) && is_text(&rows, 1, 1, "short") && is_integer(&rows, 1, 2, 1));
    CHECK(is_integer(&rows, 1, 3, 833) && is_null(&rows, 1, 4));
    rows = first(&db, prepared(&db, "select c, s from t where id > 0"), 0);
    CHECK(has_none(rows) && rows.columns == 2);
    rows = first(&db, prepared(&db, "select * from u join w on u.k = w.n where w.n > 9"), SIZE_MAX);
    CHECK(has_none(rows) && rows.columns == 3);
    mmdb_close(&db);
}

/* The last key of a page finds the next page, while rows of pages that were shown go, and others come that are still to be shown. */
static void pages_are_shown_while_rows_change(void)
{
    mmdb db = opened(MMDB_AUTO, ROWS);
    const mmdb_statement page = prepared(&db, "select id, s from t where id > ?");
    const mmdb_statement gone = prepared(&db, "delete t where id = ?"), more = prepared(&db, "insert t (?, 'more', 9, 9, null)");
    int64_t last = -1, seen = 0;
    mmdb_rows rows = other_rows();
    while (rows.rows != 0) {
        binds(&db, page, 0, last);
        rows = first(&db, page, PAGE);
        CHECK(rows.rows == PAGE || last >= ROWS - PAGE);
        for (size_t i = 0; i < rows.rows; i++) {
            const int64_t id = mmdb_cell_at(&rows, i, 0)->integer;
            CHECK(id > last);
            CHECK(is_text(&rows, i, 1, id >= ROWS ? "more" : text_of(id, ROWS)));
            last = id;
            seen++;
        }
        if (last >= ROWS)
            continue;
        binds(&db, gone, 0, last);
        GIVES(mmdb_execute(&db, gone.number, NULL), MMDB_DONE);
        binds(&db, more, 0, ROWS + last);
        GIVES(mmdb_execute(&db, more.number, NULL), MMDB_DONE);
    }
    CHECK(last > ROWS && seen == ROWS + (ROWS + PAGE - 1) / PAGE - 1);
    mmdb_close(&db);
}

/* ---- each status */

static void a_closed_handle_is_told(mmdb *db)
{
    mmdb_rows rows = other_rows();
    GIVES(mmdb_first(db, 0, 1, &rows), MMDB_NOT_OPEN);
    CHECK(has_none(rows) && rows.columns == 0);
    GIVES(mmdb_first(db, 0, SIZE_MAX, NULL), MMDB_NOT_OPEN);
}

/* Asks a statement for its first rows that is refused so, also where none are wanted. */
static void is_refused(mmdb *db, mmdb_statement of, const char *answer)
{
    for (size_t most = 0; most < 2; most++) {
        mmdb_rows rows = other_rows();
        GIVES(mmdb_first(db, of.number, most, &rows), MMDB_REFUSED);
        CHECK(has_none(rows) && rows.columns == 0);
        CHECK(is_refused_by(db, answer));
    }
}

static void each_status_is_met(void)
{
    mmdb db = opened(MMDB_AUTO, FEW);
    const mmdb_statement select = prepared(&db, "select id from t where id < ?"), all = prepared(&db, "select * from w");
    mmdb_bytes answer;
    mmdb_rows rows = other_rows();
    GIVES(mmdb_first(&db, NUMBER, 1, &rows), MMDB_NO_SUCH_STATEMENT);
    CHECK(has_none(rows));
    GIVES(mmdb_first(&db, UINT32_MAX, 0, NULL), MMDB_NO_SUCH_STATEMENT);
    is_refused(&db, select, "error 35 wrong type\n");
    GIVES(mmdb_statement_reason(&db, select.number, &answer), MMDB_DONE);
    CHECK(answer.length > 10 && memcmp(answer.at, "column 29:", 10) == 0);
    binds(&db, select, 0, 2);
    GIVES(mmdb_first(&db, select.number, 1, NULL), MMDB_DONE);
    rows = first(&db, select, 9);
    CHECK(rows.rows == 2 && is_integer(&rows, 1, 0, 1));
    GIVES(mmdb_answer(&db, &answer), MMDB_DONE);
    CHECK(reads(answer, "") && mmdb_refusal(&db) == 0);
    does(&db, "drop table w");
    is_refused(&db, all, "error 30 no such table\n");
    GIVES(mmdb_finalize(&db, all.number), MMDB_DONE);
    GIVES(mmdb_first(&db, all.number, 1, NULL), MMDB_NO_SUCH_STATEMENT);
    CHECK(is_refused_by(&db, "error 30 no such table\n"));
    mmdb_close(&db);
}

/* A change is refused by what it would be refused by, and else by 20. It isn't done. */
static void no_change_is_shown_or_done(void)
{
    mmdb db = opened(MMDB_AUTO, FEW);
    const mmdb_statement insert = prepared(&db, "insert u (?)"), all = prepared(&db, "select * from u");
    is_refused(&db, insert, "error 35 wrong type\n");
    binds(&db, insert, 0, GROUPS);
    is_refused(&db, insert, "error 20 not a command\n");
    is_refused(&db, prepared(&db, "update t set s = 'other'"), "error 20 not a command\n");
    is_refused(&db, prepared(&db, "update t set id = 1"), "error 36 key cannot be set\n");
    is_refused(&db, prepared(&db, "delete t"), "error 20 not a command\n");
    CHECK(first(&db, all, SIZE_MAX).rows == GROUPS);
    CHECK(first(&db, prepared(&db, "select * from t where s <> 'other'"), SIZE_MAX).rows == FEW);
    GIVES(mmdb_execute(&db, insert.number, NULL), MMDB_DONE);
    CHECK(first(&db, all, SIZE_MAX).rows == GROUPS + 1);
    mmdb_close(&db);
}

/* ---- what stays */

static void other_rows_stay(void)
{
    mmdb db = opened(MMDB_AUTO, ROWS);
    const mmdb_statement one = prepared(&db, "select id from t where id > ?"), other = prepared(&db, "select s from t where id > ?");
    mmdb_rows shown, front, queried;
    binds(&db, one, 0, 4);
    binds(&db, other, 0, 4);
    GIVES(mmdb_query(&db, "select k from u where k = 1", 27, &queried), MMDB_DONE);
    GIVES(mmdb_execute(&db, other.number, &shown), MMDB_DONE);
    front = first(&db, one, 3);
    binds(&db, one, 0, 100);
    does(&db, "delete t where id = 5");
    CHECK(front.rows == 3 && is_integer(&front, 0, 0, 5) && is_integer(&front, 2, 0, 7));
    CHECK(shown.rows == ROWS - 5 && is_text(&shown, 0, 0, "short") && is_text(&shown, 1, 0, LONG));
    CHECK(queried.rows == 1 && is_integer(&queried, 0, 0, 1));
    /* The statement's own are others once it is asked or executed again. */
    front = first(&db, one, 1);
    CHECK(front.rows == 1 && is_integer(&front, 0, 0, 101));
    GIVES(mmdb_execute(&db, one.number, &front), MMDB_DONE);
    CHECK(front.rows == ROWS - 101 && is_integer(&front, 0, 0, 101));
    CHECK(is_text(&shown, 1, 0, LONG) && is_integer(&queried, 0, 0, 1));
    mmdb_close(&db);
}

static void they_are_of_the_tables_in_a_transaction(void)
{
    mmdb db = opened(MMDB_AUTO, FEW);
    GIVES(mmdb_begin(&db), MMDB_DONE);
    does(&db, "insert t (-1, 'more', 1, 1, null)");
    BEGINS(&db, "select id from t where id < ?", 3, 2, -1, 0);
    does(&db, "delete t where id < 2");
    BEGINS(&db, "select id from t where id < ?", 9, 2, 2, 3);
    BEGINS(&db, "select id from t where n > ?", 1, 2, 2, 3);
    GIVES(mmdb_rollback(&db), MMDB_DONE);
    BEGINS(&db, "select id from t where id < ?", 9, 2, 0, 1);
    mmdb_close(&db);
}

static void they_are_read_on_shared_tables(void)
{
    mmdb db = opened(MMDB_AUTO, FEW), reader = MMDB_CLOSED;
    mmdb_statement all;
    GIVES(mmdb_share(&db, &reader), MMDB_DONE);
    all = prepared(&reader, "select * from t");
    for (mmdb *one = &db; one; one = one == &db ? &reader : NULL) {
        BEGINS(one, "select id from t where id > ?", 3, 2, 4, 5);
        BEGINS(one, "select id from t where c = ?", 2, 9, 2, 16);
        is_refused(one, prepared(one, "delete t"), "error 20 not a command\n");
    }
    CHECK(first(&reader, all, SIZE_MAX).rows == FEW);
    GIVES(mmdb_leave(&reader), MMDB_DONE);
    is_refused(&reader, all, "error 30 no such table\n");
    mmdb_close(&reader);
    mmdb_close(&db);
}

/* The first rows of many take memory for themselves alone, and none once a statement has shown as many. */
static void few_rows_take_little_memory(void)
{
    mmdb db = opened(MMDB_AUTO, ROWS);
    const mmdb_statement page = prepared(&db, "select * from t where id > ? and s <> 'none'");
    long asked, held;
    binds(&db, page, 0, -1);
    held = allocations_bytes();
    CHECK(first(&db, page, 5).rows == 5);
    CHECK(allocations_bytes() - held < 4096);
    held = allocations_held();
    for (int64_t last = 0; last < ROWS - 5; last += 100) {
        binds(&db, page, 0, last);
        asked = allocations_asked();
        CHECK(first(&db, page, 5).rows == 5);
        CHECK(last == 0 || allocations_asked() == asked);
    }
    CHECK(allocations_held() == held);
    mmdb_close(&db);
}

int main(void)
{
    mmdb closed = MMDB_CLOSED;
    a_closed_handle_is_told(NULL);
    a_closed_handle_is_told(&closed);
    for (uint32_t policy = MMDB_AUTO; policy <= MMDB_MERGE; policy++) {
        each_select_has_first_rows(policy, 0);
        each_select_has_first_rows(policy, FEW);
        each_select_has_first_rows(policy, policy == MMDB_AUTO ? ROWS : 300);
        worked_rows_are_shown(policy);
    }
    worked_cells_are_shown();
    pages_are_shown_while_rows_change();
    each_status_is_met();
    no_change_is_shown_or_done();
    other_rows_stay();
    they_are_of_the_tables_in_a_transaction();
    they_are_read_on_shared_tables();
    few_rows_take_little_memory();
    CHECK(allocations_held() == 0);
    return checks_failed != 0;
}
