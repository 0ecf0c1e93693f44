/* Four threads read the same tables, each by a handle of its own, and a fifth writes now and then. It holds the lock for writing,
   has each reader leave, inserts a row, and has them share the tables again. With -DUNLOCKED nobody takes the lock. */
#define _GNU_SOURCE
#include "checking.h"

#include <pthread.h>
#include <stdlib.h>

enum { READERS = 4 };

/* A reader's handle and statements. A thread counts each of its calls on the handle, so that the sanitizer of threads sees calls that
   no lock orders, though it doesn't see what the library reads and writes. Handles stand a line of the cache apart. */
typedef struct reader {
    mmdb db;
    mmdb_statement find;
    mmdb_statement insert;
    long calls;
    int wrong;
    char apart[64];
} reader;

static mmdb db = MMDB_CLOSED;
static reader readers[READERS];
static pthread_rwlock_t lock;
static int count;

#ifdef UNLOCKED
static void lock_to_read(void) {}
static void lock_to_write(void) {}
static void unlock(void) {}
#else
static void lock_to_read(void) { pthread_rwlock_rdlock(&lock); }
static void lock_to_write(void) { pthread_rwlock_wrlock(&lock); }
static void unlock(void) { pthread_rwlock_unlock(&lock); }
#endif

static mmdb_status insert_row(mmdb *into, int row)
{
    char line[100];
    snprintf(line, sizeof line, "insert t (%d, 'the row with the number %d')", row, row);
    return mmdb_query(into, line, strlen(line), NULL);
}

/* The texts of the rows from a number on, which are the handle's own. */
static int are_rows_from(const mmdb_rows *rows, int least)
{
    char text[100];
    for (size_t row = 0; row < rows->rows; row++) {
        snprintf(text, sizeof text, "the row with the number %d", least + (int)row);
        if (!reads(mmdb_text(rows, mmdb_cell_at(rows, row, 0)), text))
            return 0;
    }
    return 1;
}

static void reads_from(reader *of, int turn)
{
    mmdb_rows rows;
    int least;
    lock_to_read();
    of->calls++;
    least = count - turn % 8;
    of->wrong += mmdb_bind_integer(&of->db, of->find.number, 0, least) != MMDB_DONE;
    of->wrong += mmdb_execute(&of->db, of->find.number, &rows) != MMDB_DONE;
    of->wrong += rows.rows != (size_t)(turn % 8);
    if (turn % 16 == 0) {
        of->wrong += mmdb_execute(&of->db, of->insert.number, NULL) != MMDB_SHARED;
        of->wrong += mmdb_command(&of->db, "delete t", 8, NULL) != MMDB_SHARED;
    }
    unlock();
    of->wrong += !are_rows_from(&rows, least);
}

static void *read_all(void *given)
{
    for (int turn = 0; turn < READS; turn++)
        reads_from((reader *)given, turn);
    return NULL;
}

static void writes_one(reader *of, int *wrong)
{
    lock_to_write();
    *wrong += insert_row(&db, count) != MMDB_SHARED;
    for (int i = 0; i < READERS; i++) {
        of[i].calls++;
        *wrong += mmdb_leave(&of[i].db) != MMDB_DONE;
    }
    *wrong += insert_row(&db, count) != MMDB_DONE;
    count++;
    for (int i = 0; i < READERS; i++)
        *wrong += mmdb_share(&db, &of[i].db) != MMDB_DONE;
    unlock();
}

static void *write_all(void *given)
{
    for (int i = 0; i < WRITES; i++)
        writes_one(readers, (int *)given);
    return NULL;
}

static void begin(reader *of)
{
    static const char select[] = "select s from t where id >= ?", insert[] = "insert t (-1, 'none')";
    GIVES(mmdb_share(&db, &of->db), MMDB_DONE);
    GIVES(mmdb_prepare(&of->db, select, strlen(select), &of->find), MMDB_DONE);
    GIVES(mmdb_prepare(&of->db, insert, strlen(insert), &of->insert), MMDB_DONE);
}

static void run(void)
{
    pthread_t threads[READERS], writer;
    int wrong = 0;
    for (int i = 0; i < READERS; i++)
        CHECK(pthread_create(&threads[i], NULL, read_all, &readers[i]) == 0);
    CHECK(pthread_create(&writer, NULL, write_all, &wrong) == 0);
    CHECK(pthread_join(writer, NULL) == 0);
    for (int i = 0; i < READERS; i++) {
        CHECK(pthread_join(threads[i], NULL) == 0);
        CHECK(readers[i].wrong == 0);
    }
    CHECK(wrong == 0);
}

int main(void)
{
    pthread_rwlockattr_t kind;
    mmdb_rows rows;
    CHECK(pthread_rwlockattr_init(&kind) == 0);
    CHECK(pthread_rwlockattr_setkind_np(&kind, PTHREAD_RWLOCK_PREFER_WRITER_NONRECURSIVE_NP) == 0);
    CHECK(pthread_rwlock_init(&lock, &kind) == 0);
    GIVES(mmdb_open(&db, MMDB_AUTO, MMDB_MOST, MMDB_MOST), MMDB_DONE);
    GIVES(command(&db, "table t (id int, s text)", NULL), MMDB_DONE);
    for (; count < 100; count++)
        GIVES(insert_row(&db, count), MMDB_DONE);
    for (int i = 0; i < READERS; i++)
        begin(&readers[i]);
    run();
    mmdb_close(&db);
    for (int i = 0; i < READERS; i++) {
        GIVES(mmdb_query(&readers[i].db, "select id from t", 16, &rows), MMDB_DONE);
        CHECK(rows.rows == (size_t)count && count == 100 + WRITES);
        mmdb_close(&readers[i].db);
    }
    return checks_failed != 0;
}
