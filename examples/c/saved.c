/* A database that is saved to a file piece by piece, and another one that is restored of that file. */
#include "mmdb.h"

#include <stdio.h>
#include <string.h>

static const char *const LINES[] = {
    "table dept (id int, name text)",
    "table emp (id int, name text, dept ref dept null)",
    "index emp dept hash",
    "insert dept (10, 'toys')",
    "insert emp (1, 'Ann', 10)",
    "insert emp (2, 'Bob \"B\"', null)",
};

/* Whether a call was done. Tells why it wasn't. */
static int is_done(const char *what, mmdb_status status)
{
    if (status != MMDB_DONE)
        fprintf(stderr, "saved: %s: %s\n", what, mmdb_status_text(status));
    return status == MMDB_DONE;
}

/* Whether a line was done, whose answer is shown if it is asked for or a refusal. */
static int does(mmdb *db, const char *line, int is_shown)
{
    mmdb_bytes answer;
    if (!is_done(line, mmdb_command(db, line, strlen(line), &answer)))
        return 0;
    if (is_shown || mmdb_refusal(db) != 0)
        fwrite(answer.at, 1, answer.length, mmdb_refusal(db) != 0 ? stderr : stdout);
    return mmdb_refusal(db) == 0;
}

/* Writes the pieces of a database to a file, and shows them. */
static int saves(mmdb *db, FILE *file)
{
    mmdb_save_mark mark = MMDB_SAVE_BEGIN;
    mmdb_status status = MMDB_DONE;
    mmdb_bytes piece;
    while (mark.part != MMDB_SAVE_OVER && (status = mmdb_save(db, &mark, &piece)) == MMDB_DONE) {
        fwrite(piece.at, 1, piece.length, file);
        fwrite(piece.at, 1, piece.length, stdout);
    }
    if (fflush(file) != 0 || ferror(file)) {
        fprintf(stderr, "saved: the file can't be written\n");
        return 0;
    }
    return is_done("save", status);
}

/* Opens a database of a file, which is read in parts of a few bytes. A line of it that is refused is told. */
static int restores(mmdb *db, FILE *file)
{
    mmdb_restore restore = MMDB_NO_RESTORE;
    mmdb_status status = mmdb_restore_open(&restore, MMDB_AUTO, MMDB_MOST, MMDB_MOST);
    mmdb_bytes answer;
    char part[64];
    size_t length;
    while (status == MMDB_DONE && (length = fread(part, 1, sizeof part, file)) > 0) {
        status = mmdb_restore_take(&restore, part, length, &answer);
        if (status == MMDB_REFUSED)
            fwrite(answer.at, 1, answer.length, stderr);
    }
    if (status == MMDB_DONE)
        status = mmdb_restore_end(&restore, db);
    mmdb_restore_close(&restore);
    return is_done("restore", status);
}

static int saves_and_restores(mmdb *db, mmdb *other, FILE *file)
{
    int is_well = is_done("open", mmdb_open(db, MMDB_AUTO, MMDB_MOST, MMDB_MOST));
    for (size_t i = 0; is_well && i < sizeof LINES / sizeof LINES[0]; i++)
        is_well = does(db, LINES[i], 0);
    if (!is_well || !saves(db, file))
        return 0;
    rewind(file);
    return restores(other, file) && does(other, "select emp.name, dept.name from emp join dept on emp.dept = dept.id", 1);
}

int main(void)
{
    mmdb db = MMDB_CLOSED, other = MMDB_CLOSED;
    FILE *file = tmpfile();
    const int is_well = file && saves_and_restores(&db, &other, file);
    if (file)
        fclose(file);
    else
        fprintf(stderr, "saved: no file, or no memory for it\n");
    mmdb_close(&other);
    mmdb_close(&db);
    return is_well ? 0 : 1;
}
