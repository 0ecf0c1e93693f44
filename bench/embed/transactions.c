/* Times what transactions cost, over a table of so many rows, by statements that are prepared once: mmdb outside and inside of a
   transaction, and SQLite over `:memory:` in a savepoint. Each figure is a line: what was done, the microseconds of mmdb
   outside and inside, those of SQLite, and 0 for what one of them doesn't do. */
#define _POSIX_C_SOURCE 200809L
#define PROGRAM "transactions"
#include "mmdb.h"
#include "timing.h"

#include <inttypes.h>
#include <sqlite3.h>
#include <stdio.h>
#include <stdlib.h>
#include <string.h>

enum { ROUNDS = 7, MOST_CHANGES = 10000, FIXTURES = 1000, LONGEST_ROW = 64, LINE = 64 };
enum { BLOCK = 8 << 20, BLOCKS = 8 };

typedef enum kind { INSERT, UPDATE, DELETE, KINDS } kind;

static const char *const NAMES[KINDS] = { "insert by key", "update by key", "delete by key" };
static const char *const OURS[KINDS] = { "insert t (?, ?, ?)", "update t set n = ?, s = ? where id = ?", "delete t where id = ?" };
static const char *const THEIRS[KINDS] = { "insert into t values (?, ?, ?)", "update t set n = ?, s = ? where id = ?",
                                           "delete from t where id = ?" };

/* How a transaction begins and ends: a savepoint of SQLite is rolled back to, and then released. */
typedef enum step { BEGIN, ROLL_BACK, RELEASE, STEPS } step;
static const char *const STEP_NAMES[STEPS] = { "savepoint s", "rollback to s", "release s" };

static mmdb ours = MMDB_CLOSED;
static mmdb_statement prepared[KINDS];
static sqlite3 *theirs = NULL;
static sqlite3_stmt *their_prepared[KINDS], *their_steps[STEPS];

static void command(const char *line)
{
    insist(mmdb_command(&ours, line, strlen(line), NULL) == MMDB_DONE && mmdb_refusal(&ours) == 0, line);
}

static void change_ours(kind of, int64_t key)
{
    const uint32_t statement = prepared[of].number, at = of == UPDATE ? 2 : 0, number = of == UPDATE ? 0 : 1;
    char text[9];
    letters(text, key);
    mmdb_bind_integer(&ours, statement, at, key);
    if (of != DELETE) {
        mmdb_bind_integer(&ours, statement, number, key / 2);
        mmdb_bind_text(&ours, statement, number + 1, text, 8);
    }
    insist(mmdb_execute(&ours, statement, NULL) == MMDB_DONE, OURS[of]);
}

static void change_theirs(kind of, int64_t key)
{
    sqlite3_stmt *statement = their_prepared[of];
    const int at = of == UPDATE ? 3 : 1, number = of == UPDATE ? 1 : 2;
    char text[9];
    letters(text, key);
    sqlite3_bind_int64(statement, at, key);
    if (of != DELETE) {
        sqlite3_bind_int64(statement, number, key / 2);
        sqlite3_bind_text(statement, number + 1, text, 8, SQLITE_STATIC);
    }
    insist(sqlite3_step(statement) == SQLITE_DONE, THEIRS[of]);
    sqlite3_reset(statement);
}

typedef void (*change)(kind of, int64_t key);

static double changes(change does, kind of, const int64_t *keys, int64_t count)
{
    double before = seconds();
    for (int64_t i = 0; i < count; i++)
        does(of, keys[i]);
    return seconds() - before;
}

static void step_theirs(step of)
{
    insist(sqlite3_step(their_steps[of]) == SQLITE_DONE, STEP_NAMES[of]);
    sqlite3_reset(their_steps[of]);
}

static void begin_ours(void)
{
    insist(mmdb_begin(&ours) == MMDB_DONE, "mmdb_begin");
}

static void roll_back_ours(void)
{
    insist(mmdb_rollback(&ours) == MMDB_DONE, "mmdb_rollback");
}

static void begin_theirs(void)
{
    step_theirs(BEGIN);
}

static void roll_back_theirs(void)
{
    step_theirs(ROLL_BACK);
    step_theirs(RELEASE);
}

static void keep_less(double *best, double took)
{
    if (took < *best)
        *best = took;
}

static void tell(const char *what, double outside, double inside, double in_theirs)
{
    printf("%s\t%f\t%f\t%f\n", what, outside * 1e6, inside * 1e6, in_theirs * 1e6);
    fflush(stdout);
}

/* The seconds of a change outside. What it put in or took out is taken out or put in again. */
static double outside(kind of, const int64_t *keys, int64_t count)
{
    double took = changes(change_ours, of, keys, count);
    if (of != UPDATE)
        changes(change_ours, of == INSERT ? DELETE : INSERT, keys, count);
    return took;
}

/* The seconds of a change in a transaction that is rolled back. */
static double inside(change does, void (*begin)(void), void (*roll_back)(void), kind of, const int64_t *keys, int64_t count)
{
    double took;
    begin();
    took = changes(does, of, keys, count);
    roll_back();
    return took;
}

/* Keys in the table are even, and new ones odd. */
static void compare(kind of, int64_t rows)
{
    static int64_t keys[MOST_CHANGES];
    const int64_t count = rows < MOST_CHANGES ? rows : MOST_CHANGES;
    double best[3] = { 1e9, 1e9, 1e9 };
    shuffle(keys, count, rows / count * 2, of == INSERT);
    for (int turn = 0; turn < ROUNDS; turn++) {
        keep_less(&best[0], outside(of, keys, count));
        keep_less(&best[1], inside(change_ours, begin_ours, roll_back_ours, of, keys, count));
        keep_less(&best[2], inside(change_theirs, begin_theirs, roll_back_theirs, of, keys, count));
    }
    tell(NAMES[of], best[0] / (double)count, best[1] / (double)count, best[2] / (double)count);
}

/* A test: 8 inserts, 6 updates and 6 deletes. */
static void fixture(change does, int64_t rows, int64_t first)
{
    for (int i = 0; i < 8; i++)
        does(INSERT, 2 * ((first + i * 7919) % rows) + 1);
    for (int i = 0; i < 6; i++)
        does(UPDATE, 2 * ((first + i * 104729) % rows));
    for (int i = 0; i < 6; i++)
        does(DELETE, 2 * ((first + 3 + i * 1299709) % rows));
}

static double fixtures(change does, void (*begin)(void), void (*roll_back)(void), int64_t rows)
{
    double before = seconds();
    for (int i = 0; i < FIXTURES; i++) {
        begin();
        fixture(does, rows, (int64_t)draw((uint64_t)rows));
        roll_back();
    }
    return (seconds() - before) / FIXTURES;
}

static void compare_fixtures(int64_t rows)
{
    double best[2] = { 1e9, 1e9 };
    for (int turn = 0; turn < ROUNDS; turn++) {
        keep_less(&best[0], fixtures(change_ours, begin_ours, roll_back_ours, rows));
        keep_less(&best[1], fixtures(change_theirs, begin_theirs, roll_back_theirs, rows));
    }
    tell("20 changes, undone", 0, best[0], best[1]);
}

/* As many inserts as there are rows: their time outside, in a transaction, and that of the rollback, each by the insert. */
static void compare_rollbacks(int64_t rows)
{
    int64_t *keys = (int64_t *)calloc((size_t)rows, sizeof *keys);
    double best[3] = { 1e9, 1e9, 1e9 }, before;
    insist(keys != NULL, "calloc");
    shuffle(keys, rows, 2, 1);
    for (int turn = 0; turn < 3; turn++) {
        keep_less(&best[0], outside(INSERT, keys, rows));
        begin_ours();
        keep_less(&best[1], changes(change_ours, INSERT, keys, rows));
        before = seconds();
        roll_back_ours();
        keep_less(&best[2], seconds() - before);
    }
    tell("as many inserts", best[0] / (double)rows, best[1] / (double)rows, 0);
    tell("their rollback", 0, best[2] / (double)rows, 0);
    free(keys);
}

/* A block of rows by rising keys, from this one on: its length, and the key behind it. */
static size_t write_block(char *block, size_t most, int64_t *key)
{
    size_t length = (size_t)sprintf(block, "id,n,s\n");
    char text[9];
    for (; length + LONGEST_ROW < most; *key += 2) {
        letters(text, *key);
        length += (size_t)sprintf(block + length, "%" PRId64 ",%" PRId64 ",%s\n", *key, *key / 2, text);
    }
    return length;
}

static void load_block(const char *block, size_t length)
{
    char line[LINE];
    snprintf(line, sizeof line, "load u %zu", length);
    insist(mmdb_load(&ours, line, strlen(line), block, length, NULL) == MMDB_DONE && mmdb_refusal(&ours) == 0, line);
}

/* The seconds of loads of 64 MiB into an empty table, block by block, and how many rows they have. */
static double loads(char *block, int is_inside, int64_t *rows)
{
    double took = 0, before;
    int64_t key = 0;
    command("table u (id int, n int, s text)");
    if (is_inside)
        begin_ours();
    for (int i = 0; i < BLOCKS; i++) {
        size_t length = write_block(block, BLOCK, &key);
        before = seconds();
        load_block(block, length);
        took += seconds() - before;
    }
    before = seconds();
    if (is_inside)
        insist(mmdb_commit(&ours) == MMDB_DONE, "mmdb_commit");
    took += seconds() - before;
    *rows = key / 2;
    command("drop table u");
    return took;
}

static void compare_loads(void)
{
    char *block = (char *)malloc(BLOCK);
    double best[2] = { 1e9, 1e9 };
    int64_t rows;
    insist(block != NULL, "malloc");
    for (int turn = 0; turn < 3; turn++) {
        keep_less(&best[0], loads(block, 0, &rows) / (double)rows);
        keep_less(&best[1], loads(block, 1, &rows) / (double)rows);
    }
    tell("a row of a load of 64 MiB", best[0], best[1], 0);
    free(block);
}

static void fill(int64_t rows)
{
    int64_t *keys = (int64_t *)calloc((size_t)rows, sizeof *keys);
    insist(keys != NULL, "calloc");
    shuffle(keys, rows, 2, 0);
    changes(change_ours, INSERT, keys, rows);
    sqlite3_exec(theirs, "begin", NULL, NULL, NULL);
    changes(change_theirs, INSERT, keys, rows);
    sqlite3_exec(theirs, "commit", NULL, NULL, NULL);
    free(keys);
}

static void open_both(void)
{
    insist(mmdb_open(&ours, MMDB_AUTO, MMDB_MOST, MMDB_MOST) == MMDB_DONE, "mmdb_open");
    command("table t (id int, n int, s text)");
    insist(sqlite3_open(":memory:", &theirs) == SQLITE_OK, "sqlite3_open");
    sqlite3_exec(theirs, "create table t (id integer primary key, n integer, s text)", NULL, NULL, NULL);
    for (int i = 0; i < KINDS; i++) {
        insist(mmdb_prepare(&ours, OURS[i], strlen(OURS[i]), &prepared[i]) == MMDB_DONE, OURS[i]);
        insist(sqlite3_prepare_v2(theirs, THEIRS[i], -1, &their_prepared[i], NULL) == SQLITE_OK, THEIRS[i]);
    }
    for (int i = 0; i < STEPS; i++)
        insist(sqlite3_prepare_v2(theirs, STEP_NAMES[i], -1, &their_steps[i], NULL) == SQLITE_OK, STEP_NAMES[i]);
}

static void close_both(void)
{
    for (int i = 0; i < KINDS; i++)
        sqlite3_finalize(their_prepared[i]);
    for (int i = 0; i < STEPS; i++)
        sqlite3_finalize(their_steps[i]);
    sqlite3_close(theirs);
    mmdb_close(&ours);
}

int main(int count, char **words)
{
    int64_t rows = count == 2 ? strtoll(words[1], NULL, 10) : 0;
    insist(rows > 0, "transactions ROWS");
    open_both();
    fill(rows);
    for (kind of = INSERT; of < KINDS; of++)
        compare(of, rows);
    compare_fixtures(rows);
    compare_rollbacks(rows);
    compare_loads();
    close_both();
    return 0;
}
