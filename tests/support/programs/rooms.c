/* Selects that find several rows by a tree or a hash, on a handle that is alone and on a reader, in the order of their keys or in another.
   Once warm they ask for no memory. The room for many rows is freed. Each call for memory of a cold one is refused in turn. */
#include "departments.h"

/* So many rows that the references to them take more than 64 KiB. */
#define MANY 20000
#define BLOCK 5000
#define WARM 100

static const char RANGE[] = "select id, name from emp where id >= ? and id < ?";
static const char YOUNG[] = "select id from emp where age = ?";
/* A tree finds these by their age, and a hash in its own order. */
static const char BETWEEN[] = "select id from emp where age >= ? and age < ?";
static const char OF_DEPT[] = "select id from emp where dept = ?";

static void bind(mmdb *db, mmdb_statement to, size_t place, int value)
{
    GIVES(mmdb_bind_integer(db, to.number, place, value), MMDB_DONE);
}

/* Whether an execution shows so many rows, whose first column rises by a step from a number on. */
static int shows(mmdb *db, mmdb_statement find, size_t count, int first, int step)
{
    mmdb_rows rows;
    if (mmdb_execute(db, find.number, &rows) != MMDB_DONE || rows.rows != count)
        return 0;
    for (size_t i = 0; i < count; i++)
        if (mmdb_cell_at(&rows, i, 0)->integer != first + (int)i * step)
            return 0;
    return 1;
}

/* How many calls for memory a warm execution makes. The one before it shows another value, and as many rows. */
static long asked_by(mmdb *db, mmdb_statement find, size_t count, int first, int step)
{
    allocations_refuse(0, 0);
    CHECK(shows(db, find, count, first, step));
    return allocations_asked();
}

static void warm_selects_ask_for_none(mmdb *db)
{
    mmdb_statement range = prepared(db, RANGE), young = prepared(db, YOUNG);
    bind(db, range, 0, 0);
    bind(db, range, 1, WARM);
    CHECK(asked_by(db, range, WARM, 0, 1) > 0);
    bind(db, range, 0, 300);
    bind(db, range, 1, 300 + WARM);
    CHECK(asked_by(db, range, WARM, 300, 1) == 0);
    bind(db, young, 0, 20);
    CHECK(shows(db, young, EMPS / 40, 0, 40));
    bind(db, young, 0, 27);
    CHECK(asked_by(db, young, EMPS / 40, 7, 40) == 0);
    CHECK(asked_by(db, range, WARM, 300, 1) == 0);
    GIVES(mmdb_finalize(db, range.number), MMDB_DONE);
    GIVES(mmdb_finalize(db, young.number), MMDB_DONE);
}

static void warm_selects_that_sort_ask_for_none(mmdb *db)
{
    mmdb_statement between = prepared(db, BETWEEN), of_dept = prepared(db, OF_DEPT);
    bind(db, between, 0, 20);
    bind(db, between, 1, 60);
    CHECK(asked_by(db, between, EMPS, 0, 1) > 0);
    CHECK(asked_by(db, between, EMPS, 0, 1) == 0);
    bind(db, of_dept, 0, 3);
    CHECK(shows(db, of_dept, EMPS / DEPTS, 3, DEPTS));
    bind(db, of_dept, 0, 7);
    CHECK(asked_by(db, of_dept, EMPS / DEPTS, 7, DEPTS) == 0);
    GIVES(mmdb_finalize(db, between.number), MMDB_DONE);
    GIVES(mmdb_finalize(db, of_dept.number), MMDB_DONE);
}

static void of_handles_that_are_alone_or_share(void)
{
    mmdb db = opened(EMPS), reader = MMDB_CLOSED;
    warm_selects_ask_for_none(&db);
    warm_selects_that_sort_ask_for_none(&db);
    GIVES(mmdb_share(&db, &reader), MMDB_DONE);
    warm_selects_ask_for_none(&reader);
    warm_selects_that_sort_ask_for_none(&reader);
    warm_selects_ask_for_none(&db);
    mmdb_close(&db);
    mmdb_close(&reader);
}

/* Keys that are texts are read where they lie. */
static void of_keys_that_are_texts(void)
{
    static const char *const MADE[] = { "table word (w text, n int)", "index word n tree", "insert word ('b', 1)", "insert word ('c', 2)",
                                        "insert word ('a', 3)" };
    mmdb db = MMDB_CLOSED;
    mmdb_statement find;
    mmdb_rows rows;
    GIVES(mmdb_open(&db, MMDB_AUTO, MMDB_MOST, MMDB_MOST), MMDB_DONE);
    for (size_t i = 0; i < sizeof MADE / sizeof *MADE; i++)
        GIVES(command(&db, MADE[i], NULL), MMDB_DONE);
    find = prepared(&db, "select n from word where n >= ?");
    bind(&db, find, 0, 1);
    GIVES(mmdb_execute(&db, find.number, &rows), MMDB_DONE);
    allocations_refuse(0, 0);
    GIVES(mmdb_execute(&db, find.number, &rows), MMDB_DONE);
    CHECK(allocations_asked() == 0);
    CHECK(rows.rows == 3 && mmdb_cell_at(&rows, 0, 0)->integer == 3 && mmdb_cell_at(&rows, 1, 0)->integer == 1 &&
          mmdb_cell_at(&rows, 2, 0)->integer == 2);
    mmdb_close(&db);
}

/* The bytes that are held once a statement has shown rows between two numbers, and is finalised. */
static long held_once_shown(mmdb *db, const char *line, int from, int to, size_t count)
{
    mmdb_statement range = prepared(db, line);
    bind(db, range, 0, from);
    bind(db, range, 1, to);
    CHECK(shows(db, range, count, 0, 1));
    GIVES(mmdb_finalize(db, range.number), MMDB_DONE);
    return allocations_bytes();
}

static void the_room_for_many_rows_is_freed(void)
{
    mmdb db = opened(0);
    long none, few;
    for (int first = 0; first < MANY; first += BLOCK)
        load_emps(&db, first, BLOCK);
    none = held_once_shown(&db, RANGE, 0, 0, 0);
    few = held_once_shown(&db, RANGE, 0, 1000, 1000);
    CHECK(none < few && few <= none + 8 * 1024);
    CHECK(held_once_shown(&db, RANGE, 0, MANY, MANY) <= none);
    CHECK(held_once_shown(&db, BETWEEN, 20, 60, MANY) <= none);
    mmdb_close(&db);
}

/* Each call for memory of a cold select of rows between two numbers is refused in turn. Gives how many there are. */
static long refusals(mmdb *db, const char *line, int from, int to, size_t count, int first)
{
    long met = 0;
    for (;; met++) {
        mmdb reader = MMDB_CLOSED;
        mmdb_statement range;
        mmdb_status given;
        GIVES(mmdb_share(db, &reader), MMDB_DONE);
        range = prepared(&reader, line);
        bind(&reader, range, 0, from);
        bind(&reader, range, 1, to);
        allocations_refuse(met, 1);
        given = mmdb_execute(&reader, range.number, NULL);
        if (allocations_refused() == 0) {
            allocations_refuse(0, 0);
            GIVES(given, MMDB_DONE);
            mmdb_close(&reader);
            return met;
        }
        GIVES(given, MMDB_REFUSED);
        GIVES(mmdb_refusal(&reader), 90);
        CHECK(shows(&reader, range, count, first, 1));
        mmdb_close(&reader);
    }
}

static void memory_is_refused(void)
{
    mmdb db = opened(EMPS);
    CHECK(refusals(&db, RANGE, 100, 100 + WARM, WARM, 100) > 2);
    CHECK(refusals(&db, BETWEEN, 20, 60, EMPS, 0) > 3);
    mmdb_close(&db);
}

int main(void)
{
    of_handles_that_are_alone_or_share();
    of_keys_that_are_texts();
    the_room_for_many_rows_is_freed();
    memory_is_refused();
    CHECK(allocations_held() == 0);
    return checks_failed != 0;
}
