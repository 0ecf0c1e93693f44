/* Cursors that are read in other threads than those that call on their databases. Meanwhile these are read, others are opened on them, and
   they are closed. Changes are declined until each thread has closed its cursor. A cursor goes from thread to thread, under a lock. */
#define _GNU_SOURCE
#include "cells.h"

#include <pthread.h>

#ifndef TURNS
#define TURNS 50
#endif
enum { THREADS = 4, ROWS = 600, DEPTS = 8, PAGE = 50 };

static const char JOIN[] = "select emp.id, dept.name from emp join dept on emp.dept = dept.id where emp.id >= ?";
static const char DISTINCT[] = "select distinct id, name from emp where id >= ?";

/* What a thread reads: a cursor on rows with the numbers from the first on. It counts its calls, so that the sanitizer of threads sees
   calls that nothing orders, though it doesn't see what the library reads and writes. They stand a line of the cache apart. */
typedef struct reader {
    mmdb_cursor cursor;
    int first;
    size_t page;
    long calls;
    int wrong;
    char apart[64];
} reader;

static void inserts(mmdb *db, const char *form, int id, int second)
{
    char line[120];
    snprintf(line, sizeof line, form, id, id, second);
    does(db, line);
}

static mmdb opened(void)
{
    mmdb db = MMDB_CLOSED;
    GIVES(mmdb_open(&db, MMDB_AUTO, MMDB_MOST, MMDB_MOST), MMDB_DONE);
    does(&db, "table dept (id int, name text)");
    does(&db, "table emp (id int, name text, dept ref dept)");
    for (int id = 0; id < DEPTS; id++)
        inserts(&db, "insert dept (%d, 'the department with the number %d')", id, 0);
    for (int id = 0; id < ROWS; id++)
        inserts(&db, "insert emp (%d, 'the row with the number %d', %d)", id, id % DEPTS);
    return db;
}

static mmdb_statement bound(mmdb *db, const char *line, int first)
{
    const mmdb_statement of = prepared(db, line);
    GIVES(mmdb_bind_integer(db, of.number, 0, first), MMDB_DONE);
    return of;
}

static void opens(mmdb *db, const char *line, int first, size_t page, reader *to)
{
    const mmdb_statement of = bound(db, line, first);
    const reader fresh = { MMDB_NO_CURSOR, first, page, 0, 0, "" };
    *to = fresh;
    GIVES(mmdb_cursor_open(db, of.number, &to->cursor), MMDB_DONE);
    GIVES(mmdb_finalize(db, of.number), MMDB_DONE);
}

/* Whether the second cell ends with the number of the row, or of its department. */
static int has_text(const mmdb_rows *page, size_t row, int id)
{
    const mmdb_bytes text = mmdb_text(page, mmdb_cell_at(page, row, 1));
    char end[24];
    int length = snprintf(end, sizeof end, " %d", text.at[4] == 'd' ? id % DEPTS : id);
    return text.length > (size_t)length && memcmp(text.at + text.length - length, end, (size_t)length) == 0;
}

/* Reads one page. Gives whether it has rows. */
static int reads_page(reader *of)
{
    mmdb_rows page;
    of->calls++;
    of->wrong += mmdb_cursor_fetch(&of->cursor, of->page, &page) != MMDB_DONE;
    for (size_t i = 0; i < page.rows; i++)
        of->wrong += !is_integer(&page, i, 0, of->first + (int)i) || !has_text(&page, i, of->first + (int)i);
    of->first += (int)page.rows;
    return page.rows != 0;
}

/* Also an order of the closings that the sanitizer sees: it sees none of the library's own atomics. */
static pthread_mutex_t lock = PTHREAD_MUTEX_INITIALIZER;

static void *reads_all(void *given)
{
    reader *const of = (reader *)given;
    while (reads_page(of))
        continue;
    of->wrong += of->first != ROWS;
    pthread_mutex_lock(&lock);
    mmdb_cursor_close(&of->cursor);
    pthread_mutex_unlock(&lock);
    return NULL;
}

static void begins(pthread_t *threads, reader *readers)
{
    for (int i = 0; i < THREADS; i++)
        CHECK(pthread_create(&threads[i], NULL, reads_all, &readers[i]) == 0);
}

static void ends(pthread_t *threads, reader *readers)
{
    for (int i = 0; i < THREADS; i++) {
        CHECK(pthread_join(threads[i], NULL) == 0);
        CHECK(readers[i].wrong == 0 && readers[i].cursor.inside == NULL && readers[i].calls > 1);
    }
}

/* The statement is executed, and a cursor on it opened and read. No change is done while a cursor of this thread is open. */
static void reads_beside(mmdb *db, mmdb_statement of)
{
    reader own;
    mmdb_rows rows;
    opens(db, JOIN, ROWS - PAGE, PAGE, &own);
    GIVES(mmdb_execute(db, of.number, &rows), MMDB_DONE);
    CHECK(rows.rows == ROWS && is_integer(&rows, ROWS - 1, 0, ROWS - 1));
    CHECK(reads_page(&own) && !reads_page(&own) && own.wrong == 0);
    GIVES(command(db, "delete emp", NULL), MMDB_SHARED);
    GIVES(mmdb_begin(db), MMDB_SHARED);
    mmdb_cursor_close(&own.cursor);
}

/* Cursors of two handles are read, while the first is. Once all are closed it changes its tables. */
static void others_read_while_it_is_read(void)
{
    mmdb db = opened(), second = MMDB_CLOSED;
    const mmdb_statement all = bound(&db, JOIN, 0);
    pthread_t threads[THREADS];
    reader readers[THREADS];
    for (int turn = 0; turn < TURNS; turn++) {
        GIVES(mmdb_share(&db, &second), MMDB_DONE);
        for (int i = 0; i < THREADS; i++)
            opens(i % 2 == 0 ? &db : &second, i < 2 ? JOIN : DISTINCT, turn % ROWS, (size_t)(turn % 90) + 1, &readers[i]);
        mmdb_close(&second);
        begins(threads, readers);
        reads_beside(&db, all);
        ends(threads, readers);
        does(&db, turn % 2 == 0 ? "index emp name hash" : "drop index emp name hash");
    }
    mmdb_close(&db);
}

/* The tables are freed with the last cursor, in whichever thread. */
static void others_read_while_it_is_closed(void)
{
    for (int turn = 0; turn < TURNS; turn++) {
        mmdb db = opened();
        pthread_t threads[THREADS];
        reader readers[THREADS];
        for (int i = 0; i < THREADS; i++)
            opens(&db, i % 2 == 0 ? JOIN : DISTINCT, 0, PAGE, &readers[i]);
        begins(threads, readers);
        pthread_mutex_lock(&lock);
        mmdb_close(&db);
        pthread_mutex_unlock(&lock);
        ends(threads, readers);
    }
}

/* ---- one cursor of all threads */

static void *reads_in_turn(void *given)
{
    int has_rows = 1;
    while (has_rows) {
        pthread_mutex_lock(&lock);
        has_rows = reads_page((reader *)given);
        pthread_mutex_unlock(&lock);
    }
    return NULL;
}

static void threads_read_one_in_turn(void)
{
    mmdb db = opened();
    pthread_t threads[THREADS];
    for (int turn = 0; turn < TURNS; turn++) {
        reader one;
        opens(&db, JOIN, 0, 1, &one);
        for (int i = 0; i < THREADS; i++)
            CHECK(pthread_create(&threads[i], NULL, reads_in_turn, &one) == 0);
        for (int i = 0; i < THREADS; i++)
            CHECK(pthread_join(threads[i], NULL) == 0);
        CHECK(one.wrong == 0 && one.first == ROWS && one.calls == ROWS + THREADS);
        mmdb_cursor_close(&one.cursor);
    }
    mmdb_close(&db);
}

int main(void)
{
    others_read_while_it_is_read();
    others_read_while_it_is_closed();
    threads_read_one_in_turn();
    return checks_failed != 0;
}
