/* Selects that are ended while they are under way, in each call that does one and under each policy: by other threads, and by a handler of
   signals. What was ended is done when it is called again, and all is as it was. No ask that comes before a select ends it, nor
   a change, nor a line that is answered in text. ROWS is how many rows each table has. */
#define _GNU_SOURCE
#include "allocations.h"
#include "cells.h"
#include "storming.h"

#include <limits.h>
#include <time.h>

#ifndef ROWS
#define ROWS 2000
#endif
/* The sanitizer of threads keeps a signal until the thread makes a call of the C library, which a select may never do. */
#ifdef __SANITIZE_THREAD__
enum { HAS_SIGNALS = 0 };
#else
enum { HAS_SIGNALS = 1 };
#endif
enum { GROUPS = 40, LONGEST_WAIT = 100, MOST_LINE = 160, ASKS = 1000, LEAST_ASKS = 10, TIMES = 3 };

/* Selects that take long, each with a place for the number 0. */
static const char *const LINES[] = {
    "select a.id, b.id from a join b on a.k = b.k where b.id >= ?",
    "select distinct a.k from a join b on a.k = b.k where b.id >= ?",
    "select b.id from c join a on c.a = a.id join b on a.k = b.k where c.id >= ?",
    "select c.id, a.k from c join a on c.a = a.id where a.id >= ?",
};
enum { SELECTS = sizeof LINES / sizeof LINES[0] };

/* A select as a statement, to whose place the number is bound, and as a line in which it stands; and what it shows. */
typedef struct asked {
    mmdb_statement of;
    char line[MOST_LINE];
    size_t rows;
    uint64_t sum;
} asked;

static uint64_t sum_of(const mmdb_rows *rows)
{
    uint64_t sum = rows->columns;
    for (size_t i = 0; i < rows->rows * rows->columns; i++)
        sum = sum * 31 + (uint64_t)rows->cells[i].integer + rows->cells[i].kind;
    return sum;
}

/* ---- the tables, and what is asked of them */

static void fills(mmdb *db, const char *line, int64_t groups)
{
    static mmdb_cell cells[2 * ROWS];
    const mmdb_statement insert = prepared(db, line);
    for (int64_t i = 0; i < ROWS; i++) {
        const mmdb_cell key = { i, 0, 0, MMDB_INTEGER }, second = { i % groups, 0, 0, MMDB_INTEGER };
        cells[2 * i] = key;
        cells[2 * i + 1] = second;
    }
    GIVES(mmdb_execute_many(db, insert.number, cells, 2 * ROWS, NULL, 0, NULL), MMDB_DONE);
    GIVES(mmdb_finalize(db, insert.number), MMDB_DONE);
}

/* Tables of which a and b have as many values to be joined by as groups. Each policy has the indexes that it follows. */
static mmdb opened(uint32_t policy)
{
    mmdb db = MMDB_CLOSED;
    GIVES(mmdb_open(&db, policy, MMDB_MOST, MMDB_MOST), MMDB_DONE);
    does(&db, "table a (id int, k int)");
    does(&db, "table b (id int, k int)");
    does(&db, "table c (id int, a ref a)");
    if (policy == MMDB_HASH)
        does(&db, "index b k hash");
    if (policy == MMDB_TREE || policy == MMDB_MERGE)
        does(&db, "index b k tree");
    if (policy == MMDB_MERGE)
        does(&db, "index a k tree");
    fills(&db, "insert a (?, ?)", GROUPS);
    fills(&db, "insert b (?, ?)", GROUPS);
    fills(&db, "insert c (?, ?)", ROWS);
    return db;
}

/* A select that was executed, which no one asked to end. */
static asked asking(mmdb *db, const char *line)
{
    asked to = { prepared(db, line), "", 0, 0 };
    mmdb_rows rows = other_rows();
    strcpy(to.line, line);
    *strchr(to.line, '?') = '0';
    GIVES(mmdb_bind_integer(db, to.of.number, 0, 0), MMDB_DONE);
    GIVES(mmdb_execute(db, to.of.number, &rows), MMDB_DONE);
    CHECK(rows.rows > 0);
    to.rows = rows.rows;
    to.sum = sum_of(&rows);
    return to;
}

/* ---- the calls that do a select */

static int is_as_asked(const asked *of, mmdb_status status, const mmdb_rows *rows)
{
    if (status != MMDB_DONE)
        return has_none(*rows) && rows->columns == 0;
    return rows->rows == of->rows && sum_of(rows) == of->sum && rows->changed == 0;
}

static mmdb_status executes(mmdb *db, const asked *of)
{
    mmdb_rows rows = other_rows();
    const mmdb_status status = mmdb_execute(db, of->of.number, &rows);
    CHECK(is_as_asked(of, status, &rows));
    return status;
}

static mmdb_status asks_first(mmdb *db, const asked *of)
{
    mmdb_rows rows = other_rows();
    const mmdb_status status = mmdb_first(db, of->of.number, SIZE_MAX, &rows);
    CHECK(is_as_asked(of, status, &rows));
    return status;
}

static mmdb_status queries(mmdb *db, const asked *of)
{
    mmdb_rows rows = other_rows();
    const mmdb_status status = mmdb_query(db, of->line, strlen(of->line), &rows);
    CHECK(is_as_asked(of, status, &rows));
    return status;
}

static mmdb_status counts(mmdb *db, const asked *of)
{
    uint64_t count = 7;
    const mmdb_status status = mmdb_count(db, of->of.number, &count);
    CHECK(count == (status == MMDB_DONE ? of->rows : 0));
    return status;
}

/* What a cursor reads that was opened is asked to end too, which it doesn't. */
static mmdb_status opens_cursor(mmdb *db, const asked *of)
{
    mmdb_cursor cursor = MMDB_NO_CURSOR;
    mmdb_rows rows = other_rows();
    const mmdb_status status = mmdb_cursor_open(db, of->of.number, &cursor);
    CHECK((cursor.inside != NULL) == (status == MMDB_DONE));
    GIVES(mmdb_cursor_fetch(&cursor, SIZE_MAX, &rows), status == MMDB_DONE ? MMDB_DONE : MMDB_NOT_OPEN);
    CHECK(is_as_asked(of, status, &rows));
    mmdb_cursor_close(&cursor);
    return status;
}

typedef mmdb_status (*way)(mmdb *db, const asked *of);

/* The last opens a cursor. That is not done in a transaction; and it shows no rows, so it doesn't look while it follows links. */
static const way WAYS[] = { executes, asks_first, queries, counts, opens_cursor };
enum { WAY_COUNT = sizeof WAYS / sizeof WAYS[0], WAYS_IN_TRANSACTIONS = WAY_COUNT - 1, BY_LINKS = SELECTS - 1 };

/* Does a select until it is ended, while someone asks it to. Until then it is done as ever. */
static void is_ended(mmdb *db, way by, const asked *of)
{
    const time_t begun = time(NULL);
    mmdb_status status = MMDB_DONE;
    mmdb_bytes answer;
    while (status == MMDB_DONE && time(NULL) - begun < LONGEST_WAIT)
        status = by(db, of);
    GIVES(status, MMDB_INTERRUPTED);
    GIVES(mmdb_answer(db, &answer), MMDB_DONE);
    CHECK(reads(answer, "") && mmdb_refusal(db) == 0);
}

static void is_ended_by_a_thread(mmdb *db, way by, const asked *of)
{
    storm asks;
    begin_storm(&asks, db, 0);
    is_ended(db, by, of);
    end_storm(&asks);
    GIVES(by(db, of), MMDB_DONE);
}

static int has_rows(mmdb *db, const char *table, size_t rows)
{
    char line[MOST_LINE];
    mmdb_rows all;
    snprintf(line, sizeof line, "select * from %s", table);
    return mmdb_query(db, line, strlen(line), &all) == MMDB_DONE && all.rows == rows;
}

/* ---- by another thread */

/* What another statement has shown stays. What the select itself has shown stays where it was counted or asked for a cursor. */
static void each_select_is_ended(uint32_t policy)
{
    mmdb db = opened(policy);
    const mmdb_statement few = prepared(&db, "select id, k from b where id < 3");
    mmdb_rows shown, selected;
    GIVES(mmdb_execute(&db, few.number, &shown), MMDB_DONE);
    for (int i = 0; i < SELECTS; i++) {
        const asked of = asking(&db, LINES[i]);
        for (int j = 0; j < (i == BY_LINKS ? WAY_COUNT - 1 : WAY_COUNT); j++) {
            GIVES(mmdb_execute(&db, of.of.number, &selected), MMDB_DONE);
            is_ended_by_a_thread(&db, WAYS[j], &of);
            if (WAYS[j] == counts || WAYS[j] == opens_cursor)
                CHECK(selected.rows == of.rows && sum_of(&selected) == of.sum);
        }
        GIVES(mmdb_finalize(&db, of.of.number), MMDB_DONE);
    }
    CHECK(shown.rows == 3 && shown.columns == 2 && is_integer(&shown, 2, 0, 2) && is_integer(&shown, 2, 1, 2));
    CHECK(has_rows(&db, "a", ROWS) && has_rows(&db, "b", ROWS) && has_rows(&db, "c", ROWS));
    mmdb_close(&db);
}

static void two_threads_ask(void)
{
    mmdb db = opened(MMDB_AUTO);
    const asked of = asking(&db, LINES[0]);
    storm one, other;
    begin_storm(&one, &db, 0);
    begin_storm(&other, &db, 0);
    is_ended(&db, executes, &of);
    end_storm(&one);
    is_ended(&db, executes, &of);
    is_ended(&db, counts, &of);
    end_storm(&other);
    GIVES(executes(&db, &of), MMDB_DONE);
    mmdb_close(&db);
}

static void it_is_ended_in_a_transaction(void)
{
    mmdb db = opened(MMDB_AUTO);
    const asked before = asking(&db, LINES[0]);
    GIVES(mmdb_begin(&db), MMDB_DONE);
    does(&db, "insert a (-1, 3)");
    does(&db, "delete b where k = 7");
    for (int j = 0; j < WAYS_IN_TRANSACTIONS; j++) {
        const asked of = asking(&db, LINES[0]);
        CHECK(of.rows != before.rows);
        is_ended_by_a_thread(&db, WAYS[j], &of);
        CHECK(mmdb_transactions(&db) == 1);
    }
    GIVES(mmdb_rollback(&db), MMDB_DONE);
    GIVES(executes(&db, &before), MMDB_DONE);
    mmdb_close(&db);
}

/* ---- by a handler of signals */

/* A thread that sends signals to another until it is told to stop. */
typedef struct sender {
    pthread_t to;
    int is_over;
} sender;

static void *send_on(void *given)
{
    sender *const of = (sender *)given;
    const struct timespec pause = { 0, 300000 };
    while (!__atomic_load_n(&of->is_over, __ATOMIC_RELAXED)) {
        CHECK(pthread_kill(of->to, SIGUSR1) == 0);
        nanosleep(&pause, NULL);
    }
    return NULL;
}

static void each_call_is_ended_by_a_signal(void)
{
    mmdb db = opened(MMDB_SCAN);
    const asked of = asking(&db, LINES[0]);
    sender sends = { pthread_self(), 0 };
    pthread_t thread;
    for (int j = 0; j < WAY_COUNT; j++) {
        begin_signals(&db, 500);
        is_ended(&db, WAYS[j], &of);
        end_signals();
        GIVES(WAYS[j](&db, &of), MMDB_DONE);
    }
    GIVES(mmdb_interrupter_open(&db, &by_handler), MMDB_DONE);
    handles(SIGUSR1, handle);
    CHECK(pthread_create(&thread, NULL, send_on, &sends) == 0);
    is_ended(&db, executes, &of);
    __atomic_store_n(&sends.is_over, 1, __ATOMIC_RELAXED);
    CHECK(pthread_join(thread, NULL) == 0);
    handles(SIGUSR1, SIG_IGN);
    mmdb_interrupter_close(&by_handler);
    GIVES(executes(&db, &of), MMDB_DONE);
    mmdb_close(&db);
}

/* ---- what isn't ended */

static void an_ask_before_a_select_is_forgotten(void)
{
    mmdb db = opened(MMDB_AUTO);
    mmdb_interrupter with = MMDB_NO_INTERRUPTER;
    const asked of = asking(&db, LINES[0]);
    GIVES(mmdb_interrupter_open(&db, &with), MMDB_DONE);
    for (int j = 0; j < WAY_COUNT; j++) {
        mmdb_interrupt(&with);
        mmdb_interrupt(&with);
        GIVES(WAYS[j](&db, &of), MMDB_DONE);
    }
    mmdb_interrupt(&with);
    does(&db, "select * from a");
    GIVES(executes(&db, &of), MMDB_DONE);
    mmdb_interrupter_close(&with);
    mmdb_close(&db);
}

/* A database that is asked, and one with the same tables that isn't. */
typedef struct pair {
    mmdb db;
    mmdb twin;
} pair;

static int are_alike(pair *of, mmdb_status one, mmdb_status other)
{
    mmdb_bytes answer, expected;
    GIVES(one, other);
    GIVES(mmdb_answer(&of->db, &answer), MMDB_DONE);
    GIVES(mmdb_answer(&of->twin, &expected), MMDB_DONE);
    return answer.length == expected.length && memcmp(answer.at, expected.at, answer.length) == 0;
}

static void is_answered_alike(pair *of, const char *line)
{
    check(are_alike(of, command(&of->db, line, NULL), command(&of->twin, line, NULL)), line, __FILE__, __LINE__);
}

/* Each call that changes tables, and each that answers in text. */
static void each_is_whole(pair *of)
{
    static const char PIECE[] = "select a.id, b.id from a join b on a.k = b.k\nupdate a set k = 3 where k <> 4\ninsert a (-2, 5)\ndump b\n";
    static const char BLOCK[] = "id,k\n-5,1\n-6,2\n-7,3\n", GONE[] = "delete a where id < 0 and k >= 0";
    static const char *const ANSWERED[] = {
        "select a.id, b.id from a join b on a.k = b.k", "select distinct k from a", "update b set k = 8 where id >= 0", "dump b",
        "delete b where k = 8 and id > 100", "index b k hash", "table d (id int, b ref b)", "tables", "insert d (1, 1)", "drop table d",
    };
    mmdb *const both[] = { &of->db, &of->twin };
    uint64_t changed[2];
    mmdb_rows rows[2];
    mmdb_bytes plans[2];
    CHECK(are_alike(of, load(&of->db, "load b 20", BLOCK, NULL), load(&of->twin, "load b 20", BLOCK, NULL)));
    for (size_t i = 0; i < sizeof ANSWERED / sizeof ANSWERED[0]; i++)
        is_answered_alike(of, ANSWERED[i]);
    CHECK(are_alike(of, feed(&of->db, PIECE), feed(&of->twin, PIECE)));
    for (int i = 0; i < 2; i++) {
        const mmdb_statement update = prepared(both[i], "update a set k = ? where id >= ?");
        const mmdb_cell cells[] = { { 4, 0, 0, MMDB_INTEGER }, { 0, 0, 0, MMDB_INTEGER }, { 6, 0, 0, MMDB_INTEGER }, { 9, 0, 0, MMDB_INTEGER } };
        GIVES(mmdb_execute_many(both[i], update.number, cells, 4, NULL, 0, &changed[i]), MMDB_DONE);
        GIVES(mmdb_bind_integer(both[i], update.number, 0, 11), MMDB_DONE);
        GIVES(mmdb_bind_integer(both[i], update.number, 1, 5), MMDB_DONE);
        GIVES(mmdb_execute(both[i], update.number, &rows[i]), MMDB_DONE);
        changed[i] += rows[i].changed;
        GIVES(mmdb_query(both[i], GONE, strlen(GONE), &rows[i]), MMDB_DONE);
        changed[i] += rows[i].changed;
        GIVES(mmdb_plan(both[i], "select * from a", 15, &plans[i]), MMDB_DONE);
        CHECK(plans[i].length > 0);
        GIVES(mmdb_columns(both[i], update.number, &rows[i]), MMDB_DONE);
        GIVES(mmdb_finalize(both[i], update.number), MMDB_DONE);
    }
    CHECK(changed[0] == changed[1] && changed[0] > ROWS);
    is_answered_alike(of, "dump a");
    is_answered_alike(of, "dump b");
}

static void changes_and_texts_are_whole(void)
{
    pair of = { MMDB_CLOSED, MMDB_CLOSED };
    storm asks;
    of.db = opened(MMDB_AUTO);
    of.twin = opened(MMDB_AUTO);
    begin_storm(&asks, &of.db, 0);
    do
        each_is_whole(&of);
    while (__atomic_load_n(&asks.asks, __ATOMIC_RELAXED) < LEAST_ASKS);
    end_storm(&asks);
    mmdb_close(&of.db);
    mmdb_close(&of.twin);
}

/* ---- handles that share tables */

/* A reader that does a select again and again, and counts what isn't right, until it is told to stop. */
typedef struct reader {
    mmdb db;
    asked of;
    int times;
    int wrong;
    int is_over;
} reader;

static void *read_on(void *given)
{
    reader *const to = (reader *)given;
    while (to->times < TIMES || !__atomic_load_n(&to->is_over, __ATOMIC_RELAXED)) {
        to->wrong += WAYS[to->times % WAY_COUNT](&to->db, &to->of) != MMDB_DONE;
        to->times++;
    }
    return NULL;
}

static void one_reader_is_ended_and_another_is_not(void)
{
    mmdb db = opened(MMDB_AUTO), one = MMDB_CLOSED;
    reader other = { MMDB_CLOSED, { { 0, 0 }, "", 0, 0 }, 0, 0, 0 };
    const asked of = asking(&db, LINES[0]);
    asked of_one;
    pthread_t thread;
    storm asks;
    GIVES(mmdb_share(&db, &one), MMDB_DONE);
    GIVES(mmdb_share(&db, &other.db), MMDB_DONE);
    of_one = asking(&one, LINES[0]);
    other.of = asking(&other.db, LINES[0]);
    begin_storm(&asks, &one, 0);
    CHECK(pthread_create(&thread, NULL, read_on, &other) == 0);
    for (int j = 0; j < WAY_COUNT; j++)
        is_ended(&one, WAYS[j], &of_one);
    GIVES(executes(&db, &of), MMDB_DONE);
    __atomic_store_n(&other.is_over, 1, __ATOMIC_RELAXED);
    CHECK(pthread_join(thread, NULL) == 0);
    CHECK(other.wrong == 0 && other.times >= TIMES);
    end_storm(&asks);
    GIVES(executes(&one, &of_one), MMDB_DONE);
    /* The handle that the tables came from is asked, and none that shares them. */
    begin_storm(&asks, &db, 0);
    is_ended(&db, executes, &of);
    GIVES(executes(&one, &of_one), MMDB_DONE);
    end_storm(&asks);
    mmdb_close(&db);
    mmdb_close(&one);
    mmdb_close(&other.db);
}

/* A handle that shares tables, leaves them and has others keeps its interrupters. A reader that is opened and a copy have none. */
static void interrupters_stay_with_their_handle(void)
{
    mmdb db = opened(MMDB_AUTO), own = opened(MMDB_SCAN), copy = MMDB_CLOSED;
    const asked of = asking(&db, LINES[0]), of_own = asking(&own, LINES[0]);
    asked of_copy;
    storm asks, asks_own;
    begin_storm(&asks_own, &own, 0);
    is_ended(&own, executes, &of_own);
    GIVES(mmdb_share(&db, &own), MMDB_DONE);
    begin_storm(&asks, &db, 0);
    is_ended(&own, executes, &of_own);
    is_ended(&db, executes, &of);
    GIVES(mmdb_clone(&db, &copy), MMDB_DONE);
    of_copy = asking(&copy, LINES[0]);
    GIVES(executes(&copy, &of_copy), MMDB_DONE);
    GIVES(mmdb_leave(&own), MMDB_DONE);
    GIVES(mmdb_execute(&own, of_own.of.number, NULL), MMDB_REFUSED);
    is_ended(&db, executes, &of);
    end_storm(&asks);
    GIVES(mmdb_share(&copy, &own), MMDB_DONE);
    is_ended(&own, executes, &of_own);
    GIVES(executes(&copy, &of_copy), MMDB_DONE);
    end_storm(&asks_own);
    GIVES(executes(&own, &of_own), MMDB_DONE);
    mmdb_close(&copy);
    mmdb_close(&own);
    mmdb_close(&db);
}

/* ---- the calls themselves */

static void each_status_is_met(void)
{
    mmdb db = opened(MMDB_AUTO), closed = MMDB_CLOSED;
    mmdb_interrupter with = MMDB_NO_INTERRUPTER;
    mmdb_bytes answer;
    void *inside;
    GIVES(mmdb_interrupter_open(NULL, &with), MMDB_NOT_OPEN);
    GIVES(mmdb_interrupter_open(&closed, &with), MMDB_NOT_OPEN);
    GIVES(mmdb_interrupter_open(&db, NULL), MMDB_NOT_OPEN);
    GIVES(mmdb_interrupter_open(NULL, NULL), MMDB_NOT_OPEN);
    CHECK(with.inside == NULL);
    mmdb_interrupt(NULL);
    mmdb_interrupt(&with);
    mmdb_interrupter_close(NULL);
    mmdb_interrupter_close(&with);
    GIVES(command(&db, "select id from a where id = 5", NULL), MMDB_DONE);
    GIVES(mmdb_interrupter_open(&db, &with), MMDB_DONE);
    inside = with.inside;
    mmdb_interrupt(&with);
    GIVES(mmdb_interrupter_open(&db, &with), MMDB_IS_OPEN);
    GIVES(mmdb_interrupter_open(&closed, &with), MMDB_NOT_OPEN);
    CHECK(inside != NULL && with.inside == inside);
    GIVES(mmdb_answer(&db, &answer), MMDB_DONE);
    CHECK(reads(answer, "rows 1\na.id\n5\n"));
    mmdb_interrupter_close(&with);
    CHECK(with.inside == NULL);
    mmdb_interrupter_close(&with);
    GIVES(mmdb_interrupter_open(&db, &with), MMDB_DONE);
    mmdb_interrupter_close(&with);
    mmdb_close(&db);
    GIVES(mmdb_interrupter_open(&db, &with), MMDB_NOT_OPEN);
    CHECK(with.inside == NULL);
}

/* Several are closed in each order, with the database before them, between them or behind them. */
static void interrupters_are_closed_in_any_order(void)
{
    static const int ORDERS[6][3] = { { 0, 1, 2 }, { 0, 2, 1 }, { 1, 0, 2 }, { 1, 2, 0 }, { 2, 0, 1 }, { 2, 1, 0 } };
    for (int order = 0; order < 6; order++) {
        const long held = allocations_held();
        mmdb db = MMDB_CLOSED;
        mmdb_interrupter with[2] = { MMDB_NO_INTERRUPTER, MMDB_NO_INTERRUPTER };
        GIVES(mmdb_open(&db, MMDB_AUTO, MMDB_MOST, MMDB_MOST), MMDB_DONE);
        GIVES(mmdb_interrupter_open(&db, &with[0]), MMDB_DONE);
        GIVES(mmdb_interrupter_open(&db, &with[1]), MMDB_DONE);
        CHECK(with[0].inside != with[1].inside);
        for (int i = 0; i < 3; i++) {
            if (ORDERS[order][i] == 2)
                mmdb_close(&db);
            else
                mmdb_interrupter_close(&with[ORDERS[order][i]]);
            mmdb_interrupt(&with[0]);
            mmdb_interrupt(&with[1]);
        }
        CHECK(allocations_held() == held);
    }
}

/* An interrupter outlives its database, and ends nothing of another in the same handle. */
static void one_outlives_its_database(void)
{
    mmdb db = opened(MMDB_AUTO);
    storm asks, asks_new;
    asked of;
    begin_storm(&asks, &db, 0);
    mmdb_close(&db);
    db = opened(MMDB_AUTO);
    of = asking(&db, LINES[0]);
    for (int i = 0; i < TIMES * WAY_COUNT; i++)
        GIVES(WAYS[i % WAY_COUNT](&db, &of), MMDB_DONE);
    begin_storm(&asks_new, &db, 0);
    is_ended(&db, executes, &of);
    end_storm(&asks_new);
    GIVES(executes(&db, &of), MMDB_DONE);
    mmdb_close(&db);
    end_storm(&asks);
}

/* A database keeps what its interrupters share, once one was opened or nearly was. */
static void memory_is_refused(void)
{
    mmdb db = opened(MMDB_AUTO);
    mmdb_interrupter with = MMDB_NO_INTERRUPTER;
    const asked of = asking(&db, LINES[0]);
    mmdb_status status = MMDB_NO_MEMORY;
    long held = allocations_held(), met = 0;
    for (; status != MMDB_DONE; met++) {
        allocations_refuse(met, 1);
        status = mmdb_interrupter_open(&db, &with);
        CHECK(allocations_refused() == (status == MMDB_NO_MEMORY));
        CHECK((with.inside == NULL) == (status == MMDB_NO_MEMORY));
        if (status != MMDB_DONE) {
            GIVES(status, MMDB_NO_MEMORY);
            CHECK(allocations_held() <= held + 1);
            allocations_refuse(0, 0);
            GIVES(executes(&db, &of), MMDB_DONE);
        }
    }
    CHECK(met > 1);
    allocations_refuse(0, 0);
    mmdb_interrupter_close(&with);
    held = allocations_held();
    GIVES(mmdb_interrupter_open(&db, &with), MMDB_DONE);
    mmdb_interrupter_close(&with);
    CHECK(allocations_held() == held);
    mmdb_close(&db);
}

/* To ask takes no memory and gives none back, also behind the end of the database. */
static void asks_take_no_memory(void)
{
    mmdb db = opened(MMDB_AUTO);
    mmdb_interrupter with = MMDB_NO_INTERRUPTER;
    GIVES(mmdb_interrupter_open(&db, &with), MMDB_DONE);
    for (int i = 0; i < 2; i++) {
        const long held = allocations_held();
        allocations_refuse(0, LONG_MAX);
        for (int j = 0; j < ASKS; j++)
            mmdb_interrupt(&with);
        CHECK(allocations_asked() == 0 && allocations_held() == held);
        allocations_refuse(0, 0);
        mmdb_close(&db);
    }
    mmdb_interrupter_close(&with);
}

int main(void)
{
    each_status_is_met();
    interrupters_are_closed_in_any_order();
    memory_is_refused();
    asks_take_no_memory();
    for (uint32_t policy = MMDB_AUTO; policy <= MMDB_MERGE; policy++)
        each_select_is_ended(policy);
    two_threads_ask();
    it_is_ended_in_a_transaction();
    if (HAS_SIGNALS)
        each_call_is_ended_by_a_signal();
    an_ask_before_a_select_is_forgotten();
    changes_and_texts_are_whole();
    one_reader_is_ended_and_another_is_not();
    interrupters_stay_with_their_handle();
    one_outlives_its_database();
    CHECK(allocations_held() == 0);
    return checks_failed != 0;
}
