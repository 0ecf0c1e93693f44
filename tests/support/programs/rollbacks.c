/* Rounds of begin, changes and rollback; and the same changes in a transaction that is committed, and in none. Behind
   each it writes what that was, and the bytes are counted that are held then (tests/support/count_held.c). */
#define _POSIX_C_SOURCE 200809L
#include "checking.h"

#include <stdlib.h>
#include <unistd.h>

enum { ROUNDS = 100, ROUNDS_OF_MANY = 10, ROWS = 1000, BLOCKS = 5, BLOCK = 65536 };

static void mark(const char *word)
{
    CHECK(write(STDOUT_FILENO, word, strlen(word)) == (ssize_t)strlen(word));
}

static void answered(mmdb *db, const char *line)
{
    mmdb_bytes answer;
    GIVES(command(db, line, &answer), MMDB_DONE);
    CHECK(answer.length >= 2 && memcmp(answer.at, "ok", 2) == 0);
}

static void insert(mmdb *db, int first, int count)
{
    char line[128];
    for (int key = first; key < first + count; key++) {
        snprintf(line, sizeof line, "insert emp (%d, '%0*d', %d, %d)", key, key % 3 * 20, key, 1 + key % 9, key % 50);
        answered(db, line);
    }
}

static void load_rows(mmdb *db, int first, int count)
{
    static char block[BLOCK];
    mmdb_bytes answer;
    char line[32];
    size_t length = (size_t)snprintf(block, BLOCK, "id,name,dept,n\n");
    for (int key = first; key < first + count; key++)
        length += (size_t)snprintf(block + length, BLOCK - length, "%d,loaded %0*d,,%d\n", key, key % 3 * 20, key, key % 50);
    snprintf(line, sizeof line, "load emp %zu", length);
    GIVES(mmdb_load(db, line, strlen(line), block, length, &answer), MMDB_DONE);
    CHECK(answer.length >= 2 && memcmp(answer.at, "ok", 2) == 0);
}

/* A database with rows in two tables, under indexes of both kinds. */
static mmdb opened(void)
{
    mmdb db = MMDB_CLOSED;
    GIVES(mmdb_open(&db, MMDB_AUTO, MMDB_MOST, MMDB_MOST), MMDB_DONE);
    answered(&db, "table dept (id int, name text)");
    answered(&db, "table emp (id int, name text, dept ref dept null, n int)");
    answered(&db, "index emp name hash");
    answered(&db, "index emp dept tree");
    answered(&db, "index emp n tree");
    answered(&db, "index emp n hash");
    for (int key = 1; key < 10; key++) {
        char line[64];
        snprintf(line, sizeof line, "insert dept (%d, 'dept')", key);
        answered(&db, line);
    }
    insert(&db, 0, ROWS);
    return db;
}

/* Tables that refer to others, with rows, and indexes of these and of rows that are there. */
static void declare(mmdb *db)
{
    char line[96];
    answered(db, "table proj (id int, lead ref emp null, name text)");
    answered(db, "index proj lead hash");
    answered(db, "table task (id int, proj ref proj null)");
    for (int key = 0; key < ROWS; key++) {
        snprintf(line, sizeof line, "insert proj (%d, %d, '%0*d')", key, key % 100, key % 3 * 20, key);
        answered(db, line);
    }
    answered(db, "index proj name tree");
    answered(db, "index emp dept hash");
    answered(db, "index emp name tree");
}

static void changes(mmdb *db)
{
    insert(db, ROWS, ROWS);
    load_rows(db, 2 * ROWS, ROWS);
    answered(db, "update emp set name = 'a name that is longer than fourteen bytes' where n < 10");
    answered(db, "update emp set n = 3, dept = null where id > 500");
    answered(db, "delete emp where id >= 200 and id < 700");
    declare(db);
}

/* Changes in a transaction, and others in two that are in it. */
static void round_of_changes(mmdb *db)
{
    GIVES(mmdb_begin(db), MMDB_DONE);
    changes(db);
    GIVES(mmdb_begin(db), MMDB_DONE);
    load_rows(db, 3 * ROWS, ROWS);
    GIVES(mmdb_commit(db), MMDB_DONE);
    GIVES(mmdb_begin(db), MMDB_DONE);
    answered(db, "update emp set name = 'short', n = 1000");
    answered(db, "index proj lead tree");
    answered(db, "delete proj");
    answered(db, "table more (id int, task ref task)");
    answered(db, "delete emp");
    load_rows(db, 4 * ROWS, ROWS);
    answered(db, "drop index emp n hash");
    answered(db, "drop table more");
    answered(db, "drop table task");
    answered(db, "drop table proj");
    answered(db, "drop table emp");
    answered(db, "table emp (id text)");
    GIVES(mmdb_rollback(db), MMDB_DONE);
    GIVES(mmdb_rollback(db), MMDB_DONE);
}

static void rounds(void)
{
    mmdb db = opened();
    for (int round = 0; round < ROUNDS; round++) {
        round_of_changes(&db);
        mark("rolled back\n");
    }
    mmdb_close(&db);
}

/* So many rows at once that a rollback takes them out in the order of their keys. */
static void rounds_of_many(void)
{
    mmdb db = opened();
    for (int round = 0; round < ROUNDS_OF_MANY; round++) {
        GIVES(mmdb_begin(&db), MMDB_DONE);
        for (int block = 1; block <= BLOCKS; block++)
            load_rows(&db, block * ROWS, ROWS);
        GIVES(mmdb_rollback(&db), MMDB_DONE);
        mark("many rolled back\n");
    }
    mmdb_close(&db);
}

/* Makes the changes, and takes all rows out where that is wanted, in a transaction that is committed or in none. */
static void change_once(int in_transaction, int takes_all, const char *word)
{
    mmdb db = opened();
    if (in_transaction)
        GIVES(mmdb_begin(&db), MMDB_DONE);
    changes(&db);
    if (takes_all) {
        answered(&db, "drop index emp n tree");
        answered(&db, "drop table task");
        answered(&db, "drop table proj");
        answered(&db, "delete emp where id >= 0");
    }
    if (in_transaction)
        GIVES(mmdb_commit(&db), MMDB_DONE);
    mark(word);
    mmdb_close(&db);
    mark("closed\n");
}

int main(void)
{
    rounds();
    mark("closed\n");
    rounds_of_many();
    mark("closed\n");
    change_once(1, 0, "committed\n");
    change_once(0, 0, "plain\n");
    change_once(1, 1, "gone by a commit\n");
    change_once(0, 1, "gone\n");
    return checks_failed != 0;
}
