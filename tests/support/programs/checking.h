/* What the programs of these tests share: checks that say where they fail, and lines as C writes them. */
#ifndef CHECKING_H
#define CHECKING_H

#include "mmdb.h"

#include <stdio.h>
#include <string.h>

static int checks_failed = 0;

#define CHECK(holds) check((holds), #holds, __FILE__, __LINE__)
#define GIVES(call, expected) gives((call), (expected), #call, __FILE__, __LINE__)

static inline void check(int holds, const char *what, const char *file, int line)
{
    if (holds)
        return;
    fprintf(stderr, "%s:%d: %s\n", file, line, what);
    checks_failed++;
}

static inline void gives(uint32_t given, uint32_t expected, const char *call, const char *file, int line)
{
    if (given == expected)
        return;
    fprintf(stderr, "%s:%d: %s gives %u and not %u\n", file, line, call, (unsigned)given, (unsigned)expected);
    checks_failed++;
}

static inline int reads(mmdb_bytes answer, const char *text)
{
    return answer.length == strlen(text) && memcmp(answer.at, text, answer.length) == 0;
}

static inline mmdb_status command(mmdb *db, const char *line, mmdb_bytes *answer)
{
    return mmdb_command(db, line, strlen(line), answer);
}

/* Does a line that must not be refused. */
static inline void does(mmdb *db, const char *line)
{
    GIVES(command(db, line, NULL), MMDB_DONE);
    GIVES(mmdb_refusal(db), 0);
}

static inline mmdb_statement prepared(mmdb *db, const char *line)
{
    mmdb_statement statement = { 0, 0 };
    GIVES(mmdb_prepare(db, line, strlen(line), &statement), MMDB_DONE);
    return statement;
}

static inline mmdb_status load(mmdb *db, const char *line, const char *block, mmdb_bytes *answer)
{
    return mmdb_load(db, line, strlen(line), block, strlen(block), answer);
}

static inline mmdb_status feed(mmdb *db, const char *piece)
{
    return mmdb_feed(db, piece, strlen(piece));
}

#endif
