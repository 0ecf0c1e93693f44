/* What a child of fork has of the handles of a program with threads. A second thread makes a call, in which it stops before one of
   its calls for memory, or before it frees a block; then the first thread forks. In the child the handle in that call is closed,
   and the others are as they were. No call there waits, and a new database opens in its place. With the word `running` the second
   thread doesn't stop, and the child uses the handles alone that this thread doesn't use.

   It is linked with --wrap of the calls for memory. A child that waits is ended by its alarm. */
#define _POSIX_C_SOURCE 200809L
#include "checking.h"
#include "wrapped.h"

#include <pthread.h>
#include <semaphore.h>
#include <stdlib.h>
#include <sys/wait.h>
#include <unistd.h>

#ifndef FORKS
#define FORKS 100
#endif
/* Whether this is compiled with a sanitizer that has locks of its own in each call for memory, and doesn't free them in a child. */
#ifndef HAS_LOCKS
#define HAS_LOCKS 0
#endif
enum { LONGEST_WAIT = 60, ROWS = 30, LEAST_STOPS = 200 };

/* A database, a reader of its tables, and a database apart. */
static mmdb db, reader, apart;
static mmdb_interrupter of_db, of_apart;
static mmdb_cursor cursor;
static mmdb_statement insert, find, find_on_reader;
static mmdb_rows rows;

/* The calls for memory before the one at which the thread stops, or less than 0. Only that thread counts them. */
static __thread long before_stop = -1;
static sem_t stopped, goes_on;

static void may_stop(void)
{
    if (before_stop-- != 0)
        return;
    sem_post(&stopped);
    sem_wait(&goes_on);
}

/* No other thread is in such a call at a fork, where a child would wait for the sanitizer's locks. */
static pthread_mutex_t in_memory = PTHREAD_MUTEX_INITIALIZER;

static void enter(void)
{
    if (HAS_LOCKS)
        pthread_mutex_lock(&in_memory);
}

static void leave(void)
{
    if (HAS_LOCKS)
        pthread_mutex_unlock(&in_memory);
}

static void *left(void *block)
{
    leave();
    return block;
}

void *__wrap_malloc(size_t size)
{
    may_stop();
    enter();
    return left(__real_malloc(size));
}

void *__wrap_calloc(size_t count, size_t size)
{
    may_stop();
    enter();
    return left(__real_calloc(count, size));
}

void *__wrap_realloc(void *block, size_t size)
{
    may_stop();
    enter();
    return left(__real_realloc(block, size));
}

void __wrap_free(void *block)
{
    may_stop();
    enter();
    __real_free(block);
    leave();
}

/* ---- the handles */

static int has_rows(mmdb *of, size_t count)
{
    mmdb_rows all;
    return mmdb_query(of, "select * from t", 15, &all) == MMDB_DONE && all.rows == count;
}

static void open_filled(mmdb *to)
{
    static const char ROW[] = "insert t (%d, 'the text of the row %d')";
    char line[100];
    GIVES(mmdb_open(to, MMDB_AUTO, MMDB_MOST, MMDB_MOST), MMDB_DONE);
    GIVES(command(to, "table t (id int, s text)", NULL), MMDB_DONE);
    GIVES(command(to, "index t s hash", NULL), MMDB_DONE);
    for (int row = 0; row < ROWS; row++) {
        snprintf(line, sizeof line, ROW, row, row);
        GIVES(command(to, line, NULL), MMDB_DONE);
    }
}

static void prepare(mmdb *on, const char *line, mmdb_statement *to)
{
    GIVES(mmdb_prepare(on, line, strlen(line), to), MMDB_DONE);
}

static void open_all(int is_shared)
{
    open_filled(&db);
    prepare(&db, "insert t (?, 'a text that is longer than a cell')", &insert);
    prepare(&db, "select s from t where id >= ?", &find);
    GIVES(mmdb_bind_integer(&db, insert.number, 0, ROWS), MMDB_DONE);
    GIVES(mmdb_bind_integer(&db, find.number, 0, ROWS / 2), MMDB_DONE);
    if (!is_shared)
        return;
    GIVES(mmdb_share(&db, &reader), MMDB_DONE);
    prepare(&reader, "select s from t where id >= ?", &find_on_reader);
    GIVES(mmdb_bind_integer(&reader, find_on_reader.number, 0, ROWS / 2), MMDB_DONE);
}

/* ---- the calls of the second thread */

static mmdb_status calls_command(void) { return command(&db, "insert t (-1, 'a text that is longer than a cell')", NULL); }
static mmdb_status calls_delete(void) { return command(&db, "delete t where id > 2", NULL); }
static mmdb_status calls_declare(void) { return command(&db, "table u (id int, k ref t)", NULL); }
static mmdb_status calls_load(void) { return load(&db, "load t 15", "id,s\n-1,a\n-2,b\n", NULL); }
static mmdb_status calls_feed(void) { return feed(&db, "insert t (-1, 'a')\ndump t\n"); }
static mmdb_status calls_execute(void) { return mmdb_execute(&db, insert.number, NULL); }
static mmdb_status calls_select(void) { return mmdb_execute(&db, find.number, &rows); }
static mmdb_status calls_query(void) { return mmdb_query(&db, "select distinct s from t", 24, &rows); }
static mmdb_status calls_prepare(void) { return mmdb_prepare(&db, "select id from t where s = ?", 28, &find); }
static mmdb_status calls_finalize(void) { return mmdb_finalize(&db, find.number); }
static mmdb_status calls_rollback(void) { return mmdb_rollback(&db); }
static mmdb_status calls_reader(void) { return mmdb_execute(&reader, find_on_reader.number, &rows); }
static mmdb_status calls_share(void) { return mmdb_share(&db, &reader); }
static mmdb_status calls_leave(void) { return mmdb_leave(&reader); }
static mmdb_status calls_interrupter(void) { return mmdb_interrupter_open(&db, &of_db); }
static mmdb_status calls_cursor(void) { return mmdb_cursor_open(&db, find.number, &cursor); }
static mmdb_status calls_fetch(void) { return mmdb_cursor_fetch(&cursor, ROWS, &rows); }

static mmdb_status calls_close(void)
{
    mmdb_close(&db);
    return MMDB_DONE;
}

/* A call, the handle that is in it or null where that is the cursor, whether the reader shares the tables before it, and whether these stay
   shared. */
typedef struct tried {
    mmdb_status (*call)(void);
    mmdb *on;
    int is_shared;
    int goes_on;
} tried;

static const tried CALLS[] = {
    { calls_command, &db, 0, 0 }, { calls_delete, &db, 0, 0 },   { calls_declare, &db, 0, 0 },   { calls_load, &db, 0, 0 },
    { calls_feed, &db, 0, 0 },    { calls_execute, &db, 0, 0 },  { calls_select, &db, 0, 0 },    { calls_query, &db, 0, 0 },
    { calls_prepare, &db, 0, 0 }, { calls_finalize, &db, 0, 0 }, { calls_rollback, &db, 0, 0 },  { calls_close, &db, 0, 0 },
    { calls_select, &db, 1, 1 },  { calls_query, &db, 1, 1 },    { calls_close, &db, 1, 0 },     { calls_reader, &reader, 1, 1 },
    { calls_leave, &reader, 1, 0 }, { calls_share, &reader, 0, 0 }, { calls_interrupter, &db, 0, 0 },
    { calls_cursor, &db, 0, 0 },  { calls_fetch, NULL, 0, 1 },
};

/* Which call is made, before which call for memory it stops, what it gave, and whether it has ended. */
typedef struct turn {
    const tried *of;
    long stop;
    mmdb_status given;
    int has_ended;
} turn;

static void *make_call(void *given)
{
    turn *const now = (turn *)given;
    before_stop = now->stop;
    now->given = now->of->call();
    now->has_ended = before_stop >= 0;
    before_stop = -1;
    sem_post(&stopped);
    return NULL;
}

/* ---- the child */

/* Each call on a handle that was in a call says at once that it is closed, and a new database opens in its place. */
static void is_closed(mmdb *was)
{
    mmdb_bytes answer;
    GIVES(command(was, "tables", &answer), MMDB_NOT_OPEN);
    GIVES(load(was, "load t 0", "", NULL), MMDB_NOT_OPEN);
    GIVES(feed(was, "tables\n"), MMDB_NOT_OPEN);
    GIVES(mmdb_prepare(was, "delete t", 8, &find), MMDB_NOT_OPEN);
    GIVES(mmdb_execute(was, 0, &rows), MMDB_NOT_OPEN);
    GIVES(mmdb_query(was, "select * from t", 15, &rows), MMDB_NOT_OPEN);
    GIVES(mmdb_answer(was, &answer), MMDB_NOT_OPEN);
    GIVES(mmdb_begin(was), MMDB_NOT_OPEN);
    GIVES(mmdb_rollback(was), MMDB_NOT_OPEN);
    GIVES(mmdb_leave(was), MMDB_NOT_OPEN);
    GIVES(mmdb_interrupter_open(was, &of_apart), MMDB_NOT_OPEN);
    CHECK(mmdb_transactions(was) == 0);
    mmdb_close(was);
    open_filled(was);
    CHECK(has_rows(was, ROWS));
    mmdb_close(was);
}

/* A cursor that was in a call, or that one was to open, is closed and opens anew. */
static void cursor_is_closed(void)
{
    GIVES(mmdb_cursor_fetch(&cursor, 1, &rows), MMDB_NOT_OPEN);
    prepare(&apart, "select s from t", &find);
    GIVES(mmdb_cursor_open(&apart, find.number, &cursor), MMDB_DONE);
    GIVES(mmdb_cursor_fetch(&cursor, ROWS + 1, &rows), MMDB_DONE);
    CHECK(rows.rows == ROWS);
    mmdb_cursor_close(&cursor);
}

/* A database that no other thread was in a call on is changed, rolled back and closed. Its interrupter outlives it. */
static void goes_on_apart(void)
{
    GIVES(mmdb_begin(&apart), MMDB_DONE);
    GIVES(command(&apart, "delete t where id > 2", NULL), MMDB_DONE);
    GIVES(mmdb_rollback(&apart), MMDB_DONE);
    GIVES(command(&apart, "insert t (-1, 'a text that is longer than a cell')", NULL), MMDB_DONE);
    mmdb_interrupt(&of_apart);
    CHECK(has_rows(&apart, ROWS + 1));
    mmdb_close(&apart);
    mmdb_interrupt(&of_apart);
    mmdb_interrupter_close(&of_apart);
}

/* A handle that shared its tables with that in a call, or with a cursor in one, reads them, and none changes them any more. */
static void reads_on(mmdb *other)
{
    CHECK(has_rows(other, ROWS));
    GIVES(mmdb_query(other, "delete t", 8, NULL), MMDB_SHARED);
    GIVES(mmdb_begin(other), MMDB_SHARED);
    CHECK(has_rows(other, ROWS));
    mmdb_close(other);
}

/* What the child has of the call in which the second thread stopped, or of none where that thread runs. */
static void check_child(const turn *now)
{
    checks_failed = 0;
    alarm(LONGEST_WAIT);
    if (now != NULL && now->of->on != NULL)
        is_closed(now->of->on);
    if (now != NULL && (now->of->call == calls_cursor || now->of->call == calls_fetch))
        cursor_is_closed();
    if (now != NULL && now->of->call == calls_share)
        is_closed(&db);
    if (now != NULL && now->of->goes_on)
        reads_on(now->of->on == &db ? &reader : &db);
    goes_on_apart();
    open_filled(&apart);
    CHECK(has_rows(&apart, ROWS));
    _exit(checks_failed != 0);
}

static void fork_once(const turn *now)
{
    int status = 0;
    pid_t child;
    enter();
    child = fork();
    leave();
    if (child == 0)
        check_child(now);
    CHECK(child > 0 && waitpid(child, &status, 0) == child);
    GIVES((uint32_t)status, 0);
}

/* ---- the first thread */

/* Makes a call that stops before a call for memory. Gives 0 where it has fewer of them. */
static int forks_within(const tried *of, long stop)
{
    turn now = { of, stop, MMDB_DONE, 0 };
    pthread_t thread;
    open_all(of->is_shared);
    if (of->call == calls_rollback) {
        GIVES(mmdb_begin(&db), MMDB_DONE);
        GIVES(command(&db, "delete t where id > 2", NULL), MMDB_DONE);
    }
    if (of->call == calls_fetch)
        GIVES(calls_cursor(), MMDB_DONE);
    CHECK(pthread_create(&thread, NULL, make_call, &now) == 0);
    sem_wait(&stopped);
    if (!now.has_ended) {
        fork_once(&now);
        sem_post(&goes_on);
        sem_wait(&stopped);
    }
    CHECK(pthread_join(thread, NULL) == 0);
    GIVES(now.given, MMDB_DONE);
    mmdb_interrupter_close(&of_db);
    mmdb_cursor_close(&cursor);
    mmdb_close(&reader);
    mmdb_close(&db);
    return !now.has_ended;
}

static void stop_in_each_call(void)
{
    long stops = 0;
    for (size_t i = 0; i < sizeof CALLS / sizeof *CALLS; i++) {
        long stop = 0;
        while (forks_within(&CALLS[i], stop))
            stop++;
        stops += stop;
    }
    CHECK(stops >= LEAST_STOPS);
}

static sem_t is_over;

static void *call_all(void *none)
{
    while (sem_trywait(&is_over) != 0) {
        open_filled(&db);
        GIVES(command(&db, "delete t where id > 2", NULL), MMDB_DONE);
        GIVES(mmdb_query(&db, "select * from t", 15, &rows), MMDB_DONE);
        mmdb_close(&db);
    }
    return none;
}

static void fork_while_it_runs(void)
{
    pthread_t thread;
    CHECK(pthread_create(&thread, NULL, call_all, NULL) == 0);
    for (int i = 0; i < FORKS; i++)
        fork_once(NULL);
    sem_post(&is_over);
    CHECK(pthread_join(thread, NULL) == 0);
}

int main(int count, char **words)
{
    CHECK(sem_init(&stopped, 0, 0) == 0 && sem_init(&goes_on, 0, 0) == 0 && sem_init(&is_over, 0, 0) == 0);
    open_filled(&apart);
    GIVES(mmdb_interrupter_open(&apart, &of_apart), MMDB_DONE);
    if (count == 2 && strcmp(words[1], "running") == 0)
        fork_while_it_runs();
    else
        stop_in_each_call();
    mmdb_close(&apart);
    mmdb_interrupter_close(&of_apart);
    return checks_failed != 0;
}
