/* What the programs share that undo changes: departments, people who refer to them, and what each index finds of them. */
#ifndef DEPARTMENTS_H
#define DEPARTMENTS_H

#include "allocations.h"
#include "checking.h"

#include <stdlib.h>

#define DEPTS 20
#define EMPS 600
#define MOST_BLOCK (1 << 20)

/* What the lines of SEEN are answered, as one text. */
typedef struct picture {
    char *text;
    size_t length;
} picture;

/* What is declared, both tables, and each index of the second: that of its key, a tree, two hashes, and the references of the first. */
static const char *const SEEN[] = {
    "tables",
    "dump dept",
    "dump emp",
    "select * from emp where id = 7",
    "select * from emp where id >= 500",
    "select * from emp where dept = 3",
    "select * from emp where name = 'a name that no cell of a row can hold 7'",
    "select * from emp where age > 30",
    "select * from emp where age = 20",
    "select emp.id, dept.name from emp join dept on emp.dept = dept.id where emp.age < 30",
    "select distinct name from emp where dept = 2",
};

static inline mmdb_status query(mmdb *db, const char *line, mmdb_rows *rows)
{
    return mmdb_query(db, line, strlen(line), rows);
}

static inline size_t changed_by(mmdb *db, const char *line)
{
    mmdb_rows rows = { 0 };
    GIVES(query(db, line, &rows), MMDB_DONE);
    return rows.changed;
}

static inline void is_refused(mmdb *db, const char *line, uint32_t number)
{
    GIVES(query(db, line, NULL), MMDB_REFUSED);
    GIVES(mmdb_refusal(db), number);
}

static inline picture taken_of(mmdb *db)
{
    picture of = { NULL, 0 };
    for (size_t i = 0; i < sizeof SEEN / sizeof *SEEN; i++) {
        mmdb_bytes answer;
        GIVES(command(db, SEEN[i], &answer), MMDB_DONE);
        of.text = (char *)realloc(of.text, of.length + answer.length + 1);
        memcpy(of.text + of.length, answer.at, answer.length);
        of.length += answer.length;
    }
    return of;
}

static inline int is_as_in(mmdb *db, picture before)
{
    picture now = taken_of(db);
    const int same = now.length == before.length && memcmp(now.text, before.text, now.length) == 0;
    free(now.text);
    return same;
}

static inline void load_rows(mmdb *db, const char *table, const char *rows)
{
    char line[64];
    mmdb_bytes answer;
    snprintf(line, sizeof line, "load %s %zu", table, strlen(rows));
    GIVES(load(db, line, rows, &answer), MMDB_DONE);
    CHECK(answer.length > 3 && memcmp(answer.at, "ok ", 3) == 0);
}

static inline void load_emps(mmdb *db, int first, int count)
{
    char *rows = (char *)malloc(MOST_BLOCK);
    int length = snprintf(rows, MOST_BLOCK, "id,name,dept,age\n");
    for (int id = first; id < first + count; id++)
        length += snprintf(rows + length, (size_t)(MOST_BLOCK - length), "%d,a name that no cell of a row can hold %d,%d,%d\n", id, id % 50,
                           id % DEPTS, 20 + id % 40);
    load_rows(db, "emp", rows);
    free(rows);
}

/* Departments, and people who refer to them. */
static inline mmdb opened(int emps)
{
    static const char *const DECLARED[] = { "table dept (id int, name text)", "table emp (id int, name text, dept ref dept null, age int)",
                                            "index emp dept hash", "index emp name hash", "index emp age tree" };
    mmdb db = MMDB_CLOSED;
    char rows[DEPTS * 16] = "id,name\n";
    GIVES(mmdb_open(&db, MMDB_AUTO, MMDB_MOST, MMDB_MOST), MMDB_DONE);
    for (size_t i = 0; i < sizeof DECLARED / sizeof *DECLARED; i++)
        GIVES(command(&db, DECLARED[i], NULL), MMDB_DONE);
    for (int id = 0; id < DEPTS; id++)
        snprintf(rows + strlen(rows), sizeof rows - strlen(rows), "%d,dept %d\n", id, id);
    load_rows(&db, "dept", rows);
    if (emps > 0)
        load_emps(&db, 0, emps);
    return db;
}

static inline void begin(mmdb *db)
{
    GIVES(mmdb_begin(db), MMDB_DONE);
}

static inline void commit(mmdb *db)
{
    GIVES(mmdb_commit(db), MMDB_DONE);
}

/* Rolls back, for which no memory is asked. Gives whether a block was to get shorter, which is refused then. */
static inline int shortens_a_block_as_rolled_back(mmdb *db)
{
    int shortens;
    allocations_refuse(0, 1);
    GIVES(mmdb_rollback(db), MMDB_DONE);
    CHECK(allocations_asked() == 0);
    shortens = allocations_refused() > 0;
    allocations_refuse(0, 0);
    return shortens;
}

/* Rolls back, for which no memory is called, not to make a block shorter either. */
static inline void roll_back(mmdb *db)
{
    CHECK(!shortens_a_block_as_rolled_back(db));
}

/* ---- memory */

typedef void (*change)(mmdb *db);

/* Makes changes in a transaction, and others in one that is committed in it, and rolls all back, round after round. Each holds at
   most a hundredth more than the first, as a block is now and then longer than was asked for. */
static inline void rounds_hold_what_the_first_held(int rounds, change outer, change inner)
{
    mmdb db = opened(EMPS);
    picture before = taken_of(&db);
    long first = 0;
    for (int round = 0; round < rounds; round++) {
        begin(&db);
        outer(&db);
        begin(&db);
        inner(&db);
        commit(&db);
        roll_back(&db);
        if (round == 0)
            first = allocations_bytes();
        CHECK(allocations_bytes() <= first + first / 100);
    }
    CHECK(is_as_in(&db, before));
    mmdb_close(&db);
    free(before.text);
}

/* Makes changes, and gives the bytes that are held then. A load has asked for just the heads of hashes that its rows need, which the next
   row doubles; so one comes and goes before. */
static inline long held_after(change changes, int in_transaction)
{
    const long before = allocations_bytes();
    mmdb db = opened(EMPS);
    long held;
    CHECK(changed_by(&db, "insert emp (1000, 'comes and goes', 3, 77)") == 1);
    CHECK(changed_by(&db, "delete emp where id = 1000") == 1);
    if (in_transaction)
        begin(&db);
    changes(&db);
    if (in_transaction)
        commit(&db);
    held = allocations_bytes() - before;
    mmdb_close(&db);
    CHECK(allocations_bytes() == before);
    return held;
}

/* Whether a change was done, which is refused by no memory otherwise. */
static inline int was_done(mmdb *db, const char *line)
{
    const uint32_t status = query(db, line, NULL);
    if (status != MMDB_DONE) {
        GIVES(status, MMDB_REFUSED);
        GIVES(mmdb_refusal(db), 90);
    }
    return status == MMDB_DONE;
}

/* Begins transactions and makes changes in them. Gives how many of those changes were refused. */
typedef int (*changer)(mmdb *db);

/* Whether the call for memory behind this many was refused. A rollback restores what there was, and calls for none. */
static inline int is_met(changer changes, long met, int *refused)
{
    mmdb db = opened(80);
    picture before = taken_of(&db);
    int is_last;
    allocations_refuse(met, 1);
    *refused += changes(&db);
    is_last = allocations_refused() == 0;
    allocations_refuse(0, 0);
    while (mmdb_transactions(&db) > 0)
        roll_back(&db);
    CHECK(is_as_in(&db, before));
    CHECK(changed_by(&db, "delete emp") == 80);
    CHECK(changed_by(&db, "delete dept") == DEPTS);
    mmdb_close(&db);
    free(before.text);
    return !is_last;
}

static inline void each_call_for_memory_is_refused(changer changes)
{
    long met = 0;
    int refused = 0;
    while (is_met(changes, met, &refused))
        met++;
    CHECK(refused > 0);
}

#endif
