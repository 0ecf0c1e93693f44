/* Selects whose texts are more than 4 GiB together, in each call that tells rows. It takes some seven gigabytes. */
#include "cells.h"

enum { LONG_ROWS = 1100, OTHER_ROWS = 4096, BYTES = 1024, PAGE = 1000 };

static const char LINE[] = "select a.s from a join b on a.k = b.k";

static mmdb filled(void)
{
    mmdb db = MMDB_CLOSED;
    char text[BYTES];
    mmdb_statement of;
    memset(text, 'x', sizeof text);
    GIVES(mmdb_open(&db, MMDB_AUTO, MMDB_MOST, MMDB_MOST), MMDB_DONE);
    does(&db, "table a (id int, k int, s text)");
    does(&db, "table b (id int, k int)");
    of = prepared(&db, "insert a (?, 1, ?)");
    GIVES(mmdb_bind_text(&db, of.number, 1, text, sizeof text), MMDB_DONE);
    for (int id = 0; id < LONG_ROWS; id++) {
        GIVES(mmdb_bind_integer(&db, of.number, 0, id), MMDB_DONE);
        GIVES(mmdb_execute(&db, of.number, NULL), MMDB_DONE);
    }
    of = prepared(&db, "insert b (?, 1)");
    for (int id = 0; id < OTHER_ROWS; id++) {
        GIVES(mmdb_bind_integer(&db, of.number, 0, id), MMDB_DONE);
        GIVES(mmdb_execute(&db, of.number, NULL), MMDB_DONE);
    }
    return db;
}

/* After a fetch of too many none was read, and fewer come. */
static void of_a_cursor(mmdb *db, mmdb_statement of)
{
    mmdb_cursor cursor = MMDB_NO_CURSOR;
    mmdb_rows rows;
    GIVES(mmdb_cursor_open(db, of.number, &cursor), MMDB_DONE);
    GIVES(mmdb_cursor_fetch(&cursor, SIZE_MAX, &rows), MMDB_TOO_LARGE);
    CHECK(rows.rows == 0);
    GIVES(mmdb_cursor_fetch(&cursor, PAGE, &rows), MMDB_DONE);
    CHECK(rows.rows == PAGE && mmdb_cell_at(&rows, PAGE - 1, 0)->length == BYTES);
    mmdb_cursor_close(&cursor);
}

int main(void)
{
    mmdb db = filled();
    const mmdb_statement of = prepared(&db, LINE);
    mmdb_rows rows;
    uint64_t count;
    of_a_cursor(&db, of);
    GIVES(mmdb_execute(&db, of.number, &rows), MMDB_TOO_LARGE);
    GIVES(mmdb_first(&db, of.number, SIZE_MAX, &rows), MMDB_TOO_LARGE);
    GIVES(mmdb_finalize(&db, of.number), MMDB_DONE);
    GIVES(mmdb_query(&db, LINE, strlen(LINE), &rows), MMDB_TOO_LARGE);
    {
        const mmdb_statement again = prepared(&db, LINE);
        GIVES(mmdb_count(&db, again.number, &count), MMDB_DONE);
        CHECK(count == (uint64_t)LONG_ROWS * OTHER_ROWS);
    }
    does(&db, "delete b where id < 4000");
    mmdb_close(&db);
    return checks_failed != 0;
}
