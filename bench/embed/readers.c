/* Times how many reads of one table of so many rows one thread does in a second, and several. By mmdb handles share its tables
   behind a lock for readers; by SQLite threads have a shared cache, and then one connection. Each figure is a line: what
   was read, by what, the reads of one thread in a second, and how many times as many all of them do. */
#define _XOPEN_SOURCE 600
#include "mmdb.h"

#include <inttypes.h>
#include <pthread.h>
#include <sqlite3.h>
#include <stdio.h>
#include <stdlib.h>
#include <string.h>
#include <time.h>

enum { ROUNDS = 5, MOST_THREADS = 64, ROWS_OF_A_BLOCK = 100000, LONGEST_ROW = 64, RANGE = 100, FEW = 10 };

/* A read: its statement in both, how many are done under one lock, and how many a thread does in a round. */
typedef struct work {
    const char *name;
    const char *ours;
    const char *theirs;
    int places;
    int of_a_lock;
    int count;
} work;

static const work WORKS[] = {
    { "by key, 16 a lock", "select * from t where id = ?", "select * from t where id = ?", 1, 16, 64000 },
    { "by key, 1 a lock", "select * from t where id = ?", "select * from t where id = ?", 1, 1, 64000 },
    { "range of 100", "select * from t where id >= ? and id < ?", "select * from t where id >= ? and id < ?", 2, 1, 8000 },
    { "scan", "select id from t where n < ?", "select id from t where n < ?", 1, 1, 12 },
};
enum { WORKS_COUNT = sizeof WORKS / sizeof WORKS[0] };

/* What a thread reads by, and with. */
typedef enum way { SHARED_TABLES, SHARED_CACHE, ONE_CONNECTION, WAYS } way;
static const char *const WAY_NAMES[WAYS] = { "mmdb", "SQLite, shared cache", "SQLite, one connection" };

typedef struct thread {
    mmdb reader;
    mmdb_statement ours[WORKS_COUNT];
    sqlite3 *theirs;
    sqlite3_stmt *their_statements[WAYS][WORKS_COUNT];
    const work *of;
    way by;
    uint64_t state;
    uint64_t sum;
    pthread_t runs;
} thread;

static const char CACHE[] = "file:readers?mode=memory&cache=shared";
static int64_t rows_of_table;
static mmdb tables = MMDB_CLOSED;
static sqlite3 *connection = NULL;
static pthread_rwlock_t lock = PTHREAD_RWLOCK_INITIALIZER;
static pthread_mutex_t turn = PTHREAD_MUTEX_INITIALIZER;
static thread threads[MOST_THREADS];

static void insist(int holds, const char *what)
{
    if (holds)
        return;
    fprintf(stderr, "readers: %s fails\n", what);
    exit(1);
}

static int64_t draw(thread *one, int64_t most)
{
    one->state ^= one->state << 13;
    one->state ^= one->state >> 7;
    one->state ^= one->state << 17;
    return (int64_t)(one->state % (uint64_t)most);
}

/* The values of the places: a key, the keys of a range, or a number that few rows are below. */
static void draw_values(thread *one, int64_t values[2])
{
    if (one->of == &WORKS[WORKS_COUNT - 1]) {
        values[0] = FEW + draw(one, FEW);
        return;
    }
    values[0] = draw(one, rows_of_table - RANGE);
    values[1] = values[0] + RANGE;
}

/* A number of each row: no two have the same, and they don't rise with the keys. */
static int64_t number_of(int64_t key)
{
    return key * 7919 % rows_of_table;
}

static void read_ours(thread *one, const int64_t values[2])
{
    uint32_t number = one->ours[one->of - WORKS].number;
    mmdb_rows found;
    for (int place = 0; place < one->of->places; place++)
        insist(mmdb_bind_integer(&one->reader, number, (uint32_t)place, values[place]) == MMDB_DONE, "a bind");
    insist(mmdb_execute(&one->reader, number, &found) == MMDB_DONE, one->of->ours);
    for (size_t row = 0; row < found.rows; row++)
        one->sum += (uint64_t)mmdb_cell_at(&found, row, 0)->integer;
}

static void read_theirs(thread *one, const int64_t values[2])
{
    sqlite3_stmt *statement = one->their_statements[one->by][one->of - WORKS];
    for (int place = 0; place < one->of->places; place++)
        insist(sqlite3_bind_int64(statement, place + 1, values[place]) == SQLITE_OK, "a bind");
    while (sqlite3_step(statement) == SQLITE_ROW)
        one->sum += (uint64_t)sqlite3_column_int64(statement, 0);
    insist(sqlite3_reset(statement) == SQLITE_OK, one->of->theirs);
}

static void take(way by)
{
    if (by == SHARED_TABLES)
        pthread_rwlock_rdlock(&lock);
    else if (by == ONE_CONNECTION)
        pthread_mutex_lock(&turn);
}

static void give(way by)
{
    if (by == SHARED_TABLES)
        pthread_rwlock_unlock(&lock);
    else if (by == ONE_CONNECTION)
        pthread_mutex_unlock(&turn);
}

static void *read_all(void *of)
{
    thread *one = of;
    int64_t values[2] = { 0, 0 };
    for (int done = 0; done < one->of->count; done += one->of->of_a_lock) {
        take(one->by);
        for (int read = 0; read < one->of->of_a_lock; read++) {
            draw_values(one, values);
            if (one->by == SHARED_TABLES)
                read_ours(one, values);
            else
                read_theirs(one, values);
        }
        give(one->by);
    }
    return NULL;
}

static double now(void)
{
    struct timespec at;
    insist(clock_gettime(CLOCK_MONOTONIC, &at) == 0, "the clock");
    return (double)at.tv_sec + (double)at.tv_nsec / 1e9;
}

/* How many reads a second so many threads do together, the most of some rounds. */
static double rate(const work *of, way by, int count)
{
    double most = 0;
    for (int round = 0; round < ROUNDS; round++) {
        double began = now();
        for (int i = 0; i < count; i++) {
            threads[i].of = of;
            threads[i].by = by;
            insist(pthread_create(&threads[i].runs, NULL, read_all, &threads[i]) == 0, "a thread");
        }
        for (int i = 0; i < count; i++)
            insist(pthread_join(threads[i].runs, NULL) == 0, "a thread's end");
        double reads = (double)of->count * count / (now() - began);
        if (reads > most)
            most = reads;
    }
    return most;
}

static void command(const char *line)
{
    insist(mmdb_command(&tables, line, strlen(line), NULL) == MMDB_DONE && mmdb_refusal(&tables) == 0, line);
}

static void fill_ours(void)
{
    static char block[ROWS_OF_A_BLOCK * LONGEST_ROW + LONGEST_ROW];
    char line[64];
    insist(mmdb_open(&tables, MMDB_AUTO, MMDB_MOST, MMDB_MOST) == MMDB_DONE, "mmdb_open");
    command("table t (id int, n int, s text)");
    for (int64_t key = 0; key < rows_of_table;) {
        size_t length = (size_t)sprintf(block, "id,n,s\n");
        for (int row = 0; row < ROWS_OF_A_BLOCK && key < rows_of_table; row++, key++)
            length += (size_t)sprintf(block + length, "%" PRId64 ",%" PRId64 ",text %02d\n", key, number_of(key), (int)(key % 100));
        int size = sprintf(line, "load t %zu", length);
        insist(mmdb_load(&tables, line, (size_t)size, block, length, NULL) == MMDB_DONE && mmdb_refusal(&tables) == 0, line);
    }
}

static void their_command(const char *line)
{
    insist(sqlite3_exec(connection, line, NULL, NULL, NULL) == SQLITE_OK, line);
}

static sqlite3 *connected(int flags)
{
    sqlite3 *made;
    int open = SQLITE_OPEN_READWRITE | SQLITE_OPEN_CREATE | SQLITE_OPEN_URI | flags;
    insist(sqlite3_open_v2(CACHE, &made, open, NULL) == SQLITE_OK, "sqlite3_open_v2");
    return made;
}

static void fill_theirs(void)
{
    sqlite3_stmt *insert;
    char text[16];
    connection = connected(SQLITE_OPEN_NOMUTEX);
    their_command("create table t (id integer primary key, n integer, s text); begin");
    insist(sqlite3_prepare_v2(connection, "insert into t values (?, ?, ?)", -1, &insert, NULL) == SQLITE_OK, "an insert");
    for (int64_t key = 0; key < rows_of_table; key++) {
        int length = sprintf(text, "text %02d", (int)(key % 100));
        sqlite3_bind_int64(insert, 1, key);
        sqlite3_bind_int64(insert, 2, number_of(key));
        sqlite3_bind_text(insert, 3, text, length, SQLITE_TRANSIENT);
        insist(sqlite3_step(insert) == SQLITE_DONE && sqlite3_reset(insert) == SQLITE_OK, "an insert");
    }
    sqlite3_finalize(insert);
    their_command("commit");
}

static void prepare(thread *one, int number)
{
    one->state = 88172645463325252u + (uint64_t)number * 7919;
    one->theirs = connected(SQLITE_OPEN_NOMUTEX);
    insist(mmdb_share(&tables, &one->reader) == MMDB_DONE, "mmdb_share");
    for (int at = 0; at < WORKS_COUNT; at++) {
        const work *of = &WORKS[at];
        insist(mmdb_prepare(&one->reader, of->ours, strlen(of->ours), &one->ours[at]) == MMDB_DONE, of->ours);
        sqlite3_stmt **own = &one->their_statements[SHARED_CACHE][at], **same = &one->their_statements[ONE_CONNECTION][at];
        insist(sqlite3_prepare_v2(one->theirs, of->theirs, -1, own, NULL) == SQLITE_OK, of->theirs);
        insist(sqlite3_prepare_v2(connection, of->theirs, -1, same, NULL) == SQLITE_OK, of->theirs);
    }
}

static void close_all(int count)
{
    for (int i = 0; i < count; i++) {
        mmdb_close(&threads[i].reader);
        for (int at = 0; at < WORKS_COUNT; at++) {
            sqlite3_finalize(threads[i].their_statements[SHARED_CACHE][at]);
            sqlite3_finalize(threads[i].their_statements[ONE_CONNECTION][at]);
        }
        sqlite3_close(threads[i].theirs);
    }
    mmdb_close(&tables);
    sqlite3_close(connection);
}

int main(int argc, char **argv)
{
    rows_of_table = argc > 1 ? strtoll(argv[1], NULL, 10) : 1000000;
    int count = argc > 2 ? (int)strtol(argv[2], NULL, 10) : 4;
    insist(rows_of_table > RANGE && count > 0 && count <= MOST_THREADS, "the number of rows or of threads");
    fill_ours();
    fill_theirs();
    for (int i = 0; i < count; i++)
        prepare(&threads[i], i);
    for (int at = 0; at < WORKS_COUNT; at++)
        for (way by = SHARED_TABLES; by < WAYS; by++) {
            double one = rate(&WORKS[at], by, 1), all = rate(&WORKS[at], by, count);
            printf("%s\t%s\t%.0f\t%.2f\n", WORKS[at].name, WAY_NAMES[by], one, all / one);
            fflush(stdout);
        }
    close_all(count);
    return 0;
}
