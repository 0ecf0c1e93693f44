/* What the programs share that undo what is declared and dropped: how lines are answered and prepared, how indexes are
   told, and more tables. */
#ifndef DECLARING_H
#define DECLARING_H

#include "departments.h"

#define LONG "another name that no cell of a row can hold"
#define NO_TABLE "error 30 no such table\n"

static inline void answers(mmdb *db, const char *line, const char *expected)
{
    mmdb_bytes answer;
    GIVES(command(db, line, &answer), MMDB_DONE);
    if (!reads(answer, expected))
        fprintf(stderr, "%s is answered %.*s", line, (int)answer.length, (const char *)answer.at);
    CHECK(reads(answer, expected));
}

static inline void declare(mmdb *db, const char *line)
{
    answers(db, line, "ok\n");
}

static inline int is_answered_alike(mmdb *db, mmdb *twin, const char *line)
{
    mmdb_bytes one, other;
    GIVES(command(db, line, &one), MMDB_DONE);
    GIVES(command(twin, line, &other), MMDB_DONE);
    return one.length == other.length && memcmp(one.at, other.at, one.length) == 0;
}

/* Each index of a table is told with its column, its kind and this number of rows. */
static inline void has_indexes(mmdb *db, const char *table, const char *const *indexes, size_t count, size_t rows)
{
    mmdb_bytes told;
    char front[64], text[2048];
    const char *at = text;
    GIVES(mmdb_indexes(db, table, strlen(table), &told), MMDB_DONE);
    snprintf(text, sizeof text, "%.*s", (int)told.length, (const char *)told.at);
    snprintf(front, sizeof front, "rows %zu\n", count);
    CHECK(strncmp(at, front, strlen(front)) == 0);
    for (size_t i = 0; i < count; i++) {
        at = strchr(at, '\n') + 1;
        at += i == 0 ? strcspn(at, "\n") + 1 : 0;
        snprintf(front, sizeof front, "%s,%zu,", indexes[i], rows);
        CHECK(strncmp(at, front, strlen(front)) == 0);
    }
}

static inline void is_no_table(mmdb *db, const char *name)
{
    static const char *const LINES[] = { "dump %s", "select * from %s", "insert %s (1)", "delete %s", "index %s id hash" };
    mmdb_bytes told;
    char line[64];
    for (size_t i = 0; i < sizeof LINES / sizeof *LINES; i++) {
        snprintf(line, sizeof line, LINES[i], name);
        answers(db, line, NO_TABLE);
    }
    GIVES(mmdb_indexes(db, name, strlen(name), &told), MMDB_DONE);
    CHECK(reads(told, NO_TABLE));
}

/* A table that refers to one that is there, and another that refers to both. They have rows, and indexes made before and after these. */
static inline void make_tables(mmdb *db)
{
    static const char *const PROJ[] = { "id,tree", "lead,tree", "name,hash" }, *const TASK[] = { "id,tree", "proj,hash" };
    declare(db, "table proj (id int, lead ref emp null, name text)");
    declare(db, "index proj lead tree");
    load_rows(db, "proj", "id,lead,name\n1,7,Moon\n2,8," LONG "\n3,,Sun\n");
    declare(db, "index proj name hash");
    declare(db, "table task (id text, proj ref proj, dept ref dept null)");
    CHECK(changed_by(db, "insert task ('a', 1, 3)") == 1);
    CHECK(changed_by(db, "insert task ('" LONG "', 2, null)") == 1);
    declare(db, "index task proj hash");
    has_indexes(db, "proj", PROJ, 3, 3);
    has_indexes(db, "task", TASK, 2, 2);
}

/* Whether something was declared or dropped, which is refused by no memory otherwise. */
static inline int was_declared(mmdb *db, const char *line)
{
    mmdb_bytes answer;
    GIVES(command(db, line, &answer), MMDB_DONE);
    CHECK(reads(answer, "ok\n") || reads(answer, "error 90 no memory\n"));
    return mmdb_refusal(db) == 0;
}

#endif
