/* What the programs share that save databases and restore them: dumps in one block of bytes, whether a piece is as the header says, and
   whether two databases are alike. */
#ifndef SAVING_H
#define SAVING_H

#include "cells.h"

enum { MOST_ROWS_OF_A_PIECE = 16384, MOST_PIECES = 100000, MOST_TABLES = 64, LONGEST_LISTING = 65536, MOST_COPIED = 20000 };

/* Bytes that grow by those that are put behind them. */
typedef struct dump {
    char *at;
    size_t length, room;
} dump;

static inline void append(dump *to, const void *some, size_t length)
{
    if (to->length + length > to->room) {
        to->room = 2 * (to->length + length) + 1;
        to->at = (char *)realloc(to->at, to->room);
    }
    if (length > 0)
        memcpy(to->at + to->length, some, length);
    to->length += length;
}

static inline void frees(dump *of)
{
    const dump none = { NULL, 0, 0 };
    free(of->at);
    *of = none;
}

static inline int are_equal(const dump *one, const dump *other)
{
    return one->length == other->length && (one->length == 0 || memcmp(one->at, other->at, one->length) == 0);
}

/* ---- pieces */

/* The number that a line ends with. */
static inline size_t last_number(const char *line, const char *end)
{
    size_t number = 0, unit = 1;
    for (; end > line && end[-1] >= '0' && end[-1] <= '9'; end--, unit *= 10)
        number += (size_t)(end[-1] - '0') * unit;
    return number;
}

/* How many records a block has behind the names of its columns. */
static inline size_t records_in(const char *block, size_t length)
{
    size_t records = 0;
    int is_quoted = 0;
    for (size_t i = 0; i < length; i++) {
        is_quoted ^= block[i] == '"';
        records += block[i] == '\n' && !is_quoted;
    }
    return records - 1;
}

/* Whether a piece is whole lines, and has one block at most, which has some rows and neither too many nor too many bytes. */
static inline int is_piece(mmdb_bytes piece, uint32_t most)
{
    const char *at = (const char *)piece.at, *end = at + piece.length, *line = at;
    size_t blocks = 0, length, rows;
    while (at < end) {
        line = at;
        at = (const char *)memchr(at, '\n', (size_t)(end - at));
        if (!at++)
            return 0;
        if (at - line < 5 || memcmp(line, "load ", 5) != 0)
            continue;
        length = last_number(line, at - 1);
        if (blocks++ > 0 || length > most || length > (size_t)(end - at) || at[length - 1] != '\n')
            return 0;
        rows = records_in(at, length);
        if (rows == 0 || rows > MOST_ROWS_OF_A_PIECE)
            return 0;
        at += length;
    }
    return 1;
}

/* The rest of a dump from a mark on, whose blocks may have so many bytes. */
static inline dump saved_from(mmdb *db, mmdb_save_mark mark, uint32_t most)
{
    dump to = { NULL, 0, 0 };
    mmdb_bytes piece;
    for (int i = 0; i < MOST_PIECES && mark.part != MMDB_SAVE_OVER; i++) {
        const mmdb_status status = mmdb_save(db, &mark, &piece);
        GIVES(status, MMDB_DONE);
        CHECK(is_piece(piece, most));
        if (status != MMDB_DONE)
            break;
        append(&to, piece.at, piece.length);
    }
    CHECK(mark.part == MMDB_SAVE_OVER);
    return to;
}

static inline dump saved(mmdb *db, uint32_t most)
{
    const mmdb_save_mark begin = MMDB_SAVE_BEGIN;
    return saved_from(db, begin, most);
}

/* ---- what is taken in */

/* Takes in bytes, which lie in a block of just their length. */
static inline mmdb_status takes(mmdb_restore *restore, const void *some, size_t length, mmdb_bytes *answer)
{
    char *just = (char *)malloc(length + (length == 0));
    mmdb_status status;
    memcpy(just, some, length);
    status = mmdb_restore_take(restore, just, length, answer);
    free(just);
    return status;
}

static inline mmdb_status takes_text(mmdb_restore *restore, const char *text, mmdb_bytes *answer)
{
    return takes(restore, text, strlen(text), answer);
}

/* A database of a dump that comes in pieces of so many bytes. */
static inline mmdb restored(const dump *of, size_t step, uint32_t most)
{
    mmdb_restore restore = MMDB_NO_RESTORE;
    mmdb db = MMDB_CLOSED;
    mmdb_bytes answer;
    int untaken = 0;
    GIVES(mmdb_restore_open(&restore, MMDB_AUTO, MMDB_MOST, most), MMDB_DONE);
    for (size_t at = 0; at < of->length && untaken == 0; at += step) {
        const size_t left = of->length - at;
        const size_t length = left < step ? left : step;
        /* (bytes of very many pieces stay where they lie) */
        const mmdb_status status = of->length / step > MOST_COPIED ? mmdb_restore_take(&restore, of->at + at, length, &answer)
                                                                   : takes(&restore, of->at + at, length, &answer);
        untaken += status != MMDB_DONE || answer.length != 0;
    }
    CHECK(untaken == 0);
    GIVES(mmdb_restore_end(&restore, &db), MMDB_DONE);
    CHECK(restore.inside == NULL && db.inside != NULL);
    return db;
}

/* ---- databases that are alike */

/* Puts what a line is answered behind these bytes. */
static inline void append_answer(dump *to, mmdb *db, const char *line)
{
    mmdb_bytes answer;
    GIVES(command(db, line, &answer), MMDB_DONE);
    append(to, answer.at, answer.length);
}

/* Puts what an index of a table has behind these bytes: its column, its kind and its rows, and not how it stands. */
static inline void append_indexes(dump *to, mmdb *db, const char *table)
{
    mmdb_bytes answer;
    size_t commas = 0;
    GIVES(mmdb_indexes(db, table, strlen(table), &answer), MMDB_DONE);
    for (size_t i = 0; i < answer.length; i++) {
        commas = answer.at[i] == '\n' ? 0 : commas + (answer.at[i] == ',');
        if (commas < 3)
            append(to, answer.at + i, 1);
    }
}

/* The names of the tables, in a listing that is kept meanwhile. */
static inline size_t names_of(mmdb *db, char *listing, const char *names[])
{
    size_t count = 0;
    mmdb_bytes answer;
    GIVES(command(db, "tables", &answer), MMDB_DONE);
    CHECK(answer.length < LONGEST_LISTING);
    memcpy(listing, answer.at, answer.length);
    listing[answer.length] = '\0';
    for (char *line = strtok(listing, "\n"); line && count < MOST_TABLES; line = strtok(NULL, "\n")) {
        if (strncmp(line, "table ", 6) != 0)
            continue;
        *strchr(line + 6, ' ') = '\0';
        names[count++] = line + 6;
    }
    return count;
}

/* All that a database has: its declarations, the rows of each table, and its indexes. */
static inline dump all_of(mmdb *db, int has_indexes)
{
    static char listing[LONGEST_LISTING];
    const char *names[MOST_TABLES];
    const size_t count = names_of(db, listing, names);
    dump all = { NULL, 0, 0 };
    char line[80];
    append_answer(&all, db, "tables");
    for (size_t i = 0; i < count; i++) {
        snprintf(line, sizeof line, "select * from %s", names[i]);
        append_answer(&all, db, line);
        if (has_indexes)
            append_indexes(&all, db, names[i]);
    }
    return all;
}

static inline int are_alike(mmdb *one, mmdb *other)
{
    dump first = all_of(one, 1), second = all_of(other, 1);
    const int are = are_equal(&first, &second);
    frees(&first);
    frees(&second);
    return are;
}

#endif
