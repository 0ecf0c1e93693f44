/* What the programs share that look at rows and refusals: whether a cell is what it has to be, and whether there are none. */
#ifndef CELLS_H
#define CELLS_H

#include "checking.h"

#include <stdlib.h>

/* Rows that no call has given, to see that a call gives some. */
static inline mmdb_rows other_rows(void)
{
    static const mmdb_cell cell = { 7, 7, 7, 7 };
    mmdb_rows rows = { &cell, (const unsigned char *)"before", 7, 7, 7 };
    return rows;
}

static inline int has_none(mmdb_rows rows)
{
    return rows.cells != NULL && rows.texts != NULL && rows.rows == 0 && rows.changed == 0;
}

static inline int is_null(const mmdb_rows *rows, size_t row, size_t column)
{
    return mmdb_cell_at(rows, row, column)->kind == MMDB_NULL;
}

static inline int is_integer(const mmdb_rows *rows, size_t row, size_t column, int64_t value)
{
    const mmdb_cell *cell = mmdb_cell_at(rows, row, column);
    return cell->kind == MMDB_INTEGER && cell->integer == value;
}

static inline int is_bytes(const mmdb_rows *rows, size_t row, size_t column, const char *text, size_t length)
{
    const mmdb_cell *cell = mmdb_cell_at(rows, row, column);
    mmdb_bytes bytes = mmdb_text(rows, cell);
    return cell->kind == MMDB_TEXT && bytes.length == length && memcmp(bytes.at, text, length) == 0;
}

static inline int is_text(const mmdb_rows *rows, size_t row, size_t column, const char *text)
{
    return is_bytes(rows, row, column, text, strlen(text));
}

/* Whether two cells, each of its rows, hold the same value. */
static inline int are_same(const mmdb_rows *of, const mmdb_cell *cell, const mmdb_rows *other_of, const mmdb_cell *other)
{
    const mmdb_bytes text = mmdb_text(of, cell), as = mmdb_text(other_of, other);
    if (cell->kind != other->kind)
        return 0;
    if (cell->kind == MMDB_TEXT)
        return text.length == as.length && memcmp(text.at, as.at, as.length) == 0;
    return cell->kind == MMDB_NULL || cell->integer == other->integer;
}

/* Whether the last call was refused by this number, as is told by the answer and beside it. */
static inline int is_refused_by(mmdb *db, const char *answer)
{
    mmdb_bytes told;
    return mmdb_answer(db, &told) == MMDB_DONE && reads(told, answer) &&
           mmdb_refusal(db) == (uint32_t)strtoul(answer + strlen("error "), NULL, 10);
}

#endif
