/* A routing table that many threads ask while one changes it. Each of those who ask has a handle of its own, which shares the
   tables. A lock for readers and a writer says when they leave, so that they see all of a change or nothing.
   `shared_routes 64 100000 1000` has 64 threads that ask 100,000 times each, and 1,000 changes. */
#ifndef _GNU_SOURCE
#define _GNU_SOURCE
#endif
#include "mmdb.h"

#include <pthread.h>
#include <stdio.h>
#include <stdlib.h>
#include <string.h>

/* How many threads ask, how often each of them does, and how many changes there are, where no words say it. */
enum { READERS = 4, QUESTIONS = 50, CHANGES = 3, MOST_READERS = 1000 };

/* A prefix is one number: its address, and behind that how many bits of this count. */
#define PREFIX(address, bits) ((int64_t)(address) * 64 + (bits))
#define WIDE PREFIX(UINT32_C(0x0a000000), 8)
#define NARROW PREFIX(UINT32_C(0x0a010000), 16)

/* The lengths of the prefixes that there are, and two addresses whose routes are changed together. */
static const int BITS[] = { 16, 8, 0 };
static const uint32_t BY_WIDE = UINT32_C(0x0a090909), BY_NARROW = UINT32_C(0x0a010203);

/* What a thread has that asks. Handles of different threads are kept apart, since each call writes to its handle. */
typedef struct reader {
    mmdb db;
    mmdb_statement find;
    pthread_t thread;
    long questions;
    int is_done;
    char apart[64];
} reader;

static mmdb db;
static mmdb_statement insert, lead;
static pthread_rwlock_t lock;
static reader *readers;
static long reader_count;

/* Whether a call was done. Tells why it wasn't: by the answer where it was refused. */
static int is_done(mmdb *of, const char *what, mmdb_status status)
{
    mmdb_bytes answer;
    if (status == MMDB_DONE)
        return 1;
    if (status == MMDB_REFUSED && mmdb_answer(of, &answer) == MMDB_DONE)
        fprintf(stderr, "shared_routes: %s: %.*s", what, (int)answer.length, (const char *)answer.at);
    else
        fprintf(stderr, "shared_routes: %s: %s\n", what, mmdb_status_text(status));
    return 0;
}

static int prepares(mmdb *of, const char *line, mmdb_statement *statement)
{
    return is_done(of, line, mmdb_prepare(of, line, strlen(line), statement));
}

/* Executes a statement with two integers. */
static int does(mmdb_statement statement, int64_t first, int64_t second)
{
    return is_done(&db, "bind", mmdb_bind_integer(&db, statement.number, 0, first)) &&
           is_done(&db, "bind", mmdb_bind_integer(&db, statement.number, 1, second)) &&
           is_done(&db, "execute", mmdb_execute(&db, statement.number, NULL));
}

static int declares(void)
{
    static const char table[] = "table route (prefix int, hop int)";
    return is_done(&db, "open", mmdb_open(&db, MMDB_AUTO, MMDB_MOST, MMDB_MOST)) &&
           is_done(&db, table, mmdb_command(&db, table, strlen(table), NULL)) &&
           is_done(&db, table, mmdb_refusal(&db) == 0 ? MMDB_DONE : MMDB_REFUSED) &&
           prepares(&db, "insert route (?, ?)", &insert) &&
           prepares(&db, "update route set hop = ? where prefix = ?", &lead) &&
           does(insert, PREFIX(0, 0), 9) &&
           does(insert, WIDE, 0) &&
           does(insert, NARROW, 0);
}

/* Finds the hop of an address: that of the longest prefix that holds it. */
static int finds(reader *of, uint32_t address, int64_t *hop)
{
    for (size_t i = 0; i < sizeof BITS / sizeof *BITS; i++) {
        const uint32_t counted = BITS[i] == 0 ? 0 : address & (UINT32_MAX << (32 - BITS[i]));
        mmdb_rows rows;
        if (!is_done(&of->db, "bind", mmdb_bind_integer(&of->db, of->find.number, 0, PREFIX(counted, BITS[i]))) ||
            !is_done(&of->db, "find", mmdb_execute(&of->db, of->find.number, &rows)))
            return 0;
        if (rows.rows == 1) {
            *hop = mmdb_cell_at(&rows, 0, 0)->integer;
            return 1;
        }
    }
    fputs("shared_routes: an address has no route\n", stderr);
    return 0;
}

/* Asks for both addresses while nobody writes. */
static int asks(reader *of)
{
    int64_t wide = 0, narrow = 0;
    int done;
    pthread_rwlock_rdlock(&lock);
    done = finds(of, BY_WIDE, &wide) && finds(of, BY_NARROW, &narrow);
    pthread_rwlock_unlock(&lock);
    if (done && wide != narrow)
        fprintf(stderr, "shared_routes: half of a change was seen, %d and %d\n", (int)wide, (int)narrow);
    return done && wide == narrow;
}

static void *asks_all(void *given)
{
    reader *of = (reader *)given;
    for (long i = 0; i < of->questions && of->is_done; i++)
        of->is_done = asks(of);
    return NULL;
}

static int leave_all(void)
{
    int done = 1;
    for (long i = 0; i < reader_count && done; i++)
        done = is_done(&readers[i].db, "leave", mmdb_leave(&readers[i].db));
    return done;
}

static int share_all(void)
{
    int done = 1;
    for (long i = 0; i < reader_count && done; i++)
        done = is_done(&db, "share", mmdb_share(&db, &readers[i].db));
    return done;
}

/* Leads both routes to another hop. The tables are changed while no other handle shares them. */
static int changes(int64_t hop)
{
    int done;
    pthread_rwlock_wrlock(&lock);
    done = leave_all() && does(lead, hop, WIDE) && does(lead, hop, NARROW) && share_all();
    pthread_rwlock_unlock(&lock);
    return done;
}

/* Begins a thread that asks, and says whether it did. */
static int begins(reader *of, long questions)
{
    of->questions = questions;
    of->is_done = prepares(&of->db, "select hop from route where prefix = ?", &of->find);
    if (!of->is_done)
        return 0;
    if (pthread_create(&of->thread, NULL, asks_all, of) == 0)
        return 1;
    fputs("shared_routes: no memory for a thread\n", stderr);
    return 0;
}

/* Has all threads ask while the routes are changed. */
static int runs(long questions, long change_count)
{
    int done = 1;
    long begun = 0;
    while (begun < reader_count && begins(&readers[begun], questions))
        begun++;
    done = begun == reader_count;
    for (long i = 0; i < change_count && done; i++)
        done = changes(i + 1);
    for (long i = 0; i < begun; i++)
        done &= pthread_join(readers[i].thread, NULL) == 0 && readers[i].is_done;
    return done;
}

/* A lock that lets a writer in before those who come to read behind it. Else many readers would keep it out. */
static int makes_lock(void)
{
    pthread_rwlockattr_t kind;
    return pthread_rwlockattr_init(&kind) == 0 &&
           pthread_rwlockattr_setkind_np(&kind, PTHREAD_RWLOCK_PREFER_WRITER_NONRECURSIVE_NP) == 0 &&
           pthread_rwlock_init(&lock, &kind) == 0;
}

/* The number that a word says, or another one where there is none. */
static long said(int count, char **words, int at, long otherwise)
{
    return at < count ? strtol(words[at], NULL, 10) : otherwise;
}

int main(int count, char **words)
{
    const long questions = said(count, words, 2, QUESTIONS), change_count = said(count, words, 3, CHANGES);
    int done;
    reader_count = said(count, words, 1, READERS);
    if (reader_count < 1 || reader_count > MOST_READERS || questions < 0 || change_count < 0) {
        fputs("shared_routes [THREADS [QUESTIONS [CHANGES]]]\n", stderr);
        return EXIT_FAILURE;
    }
    readers = (reader *)calloc((size_t)reader_count, sizeof *readers);
    if (readers == NULL)
        fputs("shared_routes: no memory\n", stderr);
    done = readers != NULL && makes_lock() && declares() && share_all() && runs(questions, change_count);
    if (done)
        printf("%ld threads asked %ld times, and saw all of each of %ld changes or nothing\n", reader_count,
               reader_count * questions, change_count);
    mmdb_close(&db);
    for (long i = 0; readers != NULL && i < reader_count; i++)
        mmdb_close(&readers[i].db);
    free(readers);
    return done ? EXIT_SUCCESS : EXIT_FAILURE;
}
