/* What the programs share that ask selects in another way than by an execution: tables, selects of each kind with values for their
   places, and drawn ones. */
#ifndef SELECTING_H
#define SELECTING_H

#include "cells.h"

#include <inttypes.h>

enum { ROWS = 2500, FEW = 20, GROUPS = 7, DRAWN = 60, NUMBER = 10000 };

static const char LONG[] = "a text that is longer than a slot of few bytes, and than some more of them";
static const char RARE[] = "the only text of its kind";

/* Selects, each by a way of its own, with a place for a number or without one. */
static const char *const SELECTS[] = {
    "select * from t",
    "select id from t where id > ?",
    "select id, s from t where id >= ? and id < 40",
    "select s from t where id = ?",
    "select id from t where id <> ?",
    "select id from t where id < ? and id > 3 and g = 2",
    "select s, id from t where g = ?",
    "select id from t where s = 'the only text of its kind' and id >= ?",
    "select * from t where n >= ?",
    "select id from t where n < ? and g = 1",
    "select id, n from t where n = ? and id > 1",
    "select id from t where c = ?",
    "select id from t where c = ? and id > 20",
    "select distinct g from t where id > ?",
    "select distinct s, g from t where id < ?",
    "select * from t join u on t.c = u.k where t.id >= ?",
    "select u.k from t join u on t.c = u.k where t.id < ?",
    "select t.id from t join u on t.g = u.k where u.k <> ?",
    "select t.id, w.n from t join w on t.g = w.n where t.id >= ?",
    "select distinct u.k from t join u on t.c = u.k join w on w.n = t.g where w.n < ?",
};

/* What is bound to the place in turn. */
static const int64_t VALUES[] = { -1, 0, 1, 3, 100, ROWS - 2, ROWS };

static inline void binds(mmdb *db, mmdb_statement to, uint32_t place, int64_t value)
{
    GIVES(mmdb_bind_integer(db, to.number, place, value), MMDB_DONE);
}

/* The text of a row: every third is long, and one of them all is rare. */
static inline const char *text_of(int64_t id, int64_t rows)
{
    return id == rows / 2 ? RARE : id % 3 == 0 ? LONG : "short";
}

static inline void fill(mmdb *db, int64_t rows)
{
    const mmdb_statement insert = prepared(db, "insert t (?, ?, ?, ?, ?)");
    for (int64_t i = 0; i < rows; i++) {
        /* (so that they go in by no order of the keys) */
        const int64_t id = i * 7 % rows;
        const char *text = text_of(id, rows);
        binds(db, insert, 0, id);
        GIVES(mmdb_bind_text(db, insert.number, 1, text, strlen(text)), MMDB_DONE);
        binds(db, insert, 2, id % GROUPS);
        binds(db, insert, 3, (rows - id) / 3);
        if (id % 2 == 0)
            binds(db, insert, 4, id % GROUPS);
        else
            GIVES(mmdb_bind_null(db, insert.number, 4), MMDB_DONE);
        GIVES(mmdb_execute(db, insert.number, NULL), MMDB_DONE);
    }
    GIVES(mmdb_finalize(db, insert.number), MMDB_DONE);
}

/* Tables with so many rows: of u and of w there are as many as groups. */
static inline mmdb opened(uint32_t policy, int64_t rows)
{
    mmdb db = MMDB_CLOSED;
    GIVES(mmdb_open(&db, policy, MMDB_MOST, MMDB_MOST), MMDB_DONE);
    does(&db, "table u (k int)");
    does(&db, "table w (id int, n int)");
    does(&db, "table t (id int, s text, g int, n int, c ref u null)");
    does(&db, "index t n tree");
    does(&db, "index t c hash");
    GIVES(load(&db, "load u 16", "k\n6\n5\n4\n3\n2\n1\n0\n", NULL), MMDB_DONE);
    GIVES(load(&db, "load w 33", "id,n\n0,0\n1,0\n2,1\n3,1\n4,2\n5,2\n6,3\n", NULL), MMDB_DONE);
    fill(&db, rows);
    return db;
}

static uint64_t drawn_last = 1;

static inline uint32_t drawn(uint32_t below)
{
    drawn_last = drawn_last * UINT64_C(6364136223846793005) + UINT64_C(1442695040888963407);
    return (uint32_t)(drawn_last >> 33) % below;
}

/* Writes a select with up to three conditions on columns of t, mostly of it alone. */
static inline void draw_select(char *line, size_t size, uint32_t rows)
{
    static const char *const SHOWN[] = { "*", "t.id", "distinct t.g", "t.s, t.id", "distinct t.s, t.c", "t.n" };
    static const char *const FROM[] = { "t", "t", "t", "t join u on t.c = u.k", "u join t on t.g = u.k" };
    static const char *const TESTED[] = { "t.id", "t.id", "t.id", "t.g", "t.n", "t.c" };
    static const char *const BY[] = { "=", "<>", "<", "<=", ">", ">=", ">", "<" };
    const uint32_t conditions = drawn(4);
    int length = snprintf(line, size, "select %s from %s", SHOWN[drawn(6)], FROM[drawn(5)]);
    for (uint32_t i = 0; i < conditions; i++) {
        const char *column = TESTED[drawn(6)];
        const uint32_t value = strcmp(column, "t.id") == 0 || strcmp(column, "t.n") == 0 ? drawn(rows + 2) : drawn(GROUPS + 1);
        length += snprintf(line + length, size - (size_t)length, " %s %s %s %" PRIu32, i == 0 ? "where" : "and", column,
                           BY[drawn(8)], value);
    }
}

#endif
