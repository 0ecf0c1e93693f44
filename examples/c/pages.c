/* The rows of a join that are read page by page by a cursor. As long as it is open all handles read the tables, and none changes them. */
#include "mmdb.h"

#include <inttypes.h>
#include <stdio.h>
#include <string.h>

enum { PAGE = 2 };

static const char *const LINES[] = {
    "table person (id int, name text)",
    "table bill (id int, person ref person, cents int)",
    "insert person (1, 'Ann')",
    "insert person (2, 'Bob')",
    "insert bill (1, 1, 250)",
    "insert bill (2, 2, 300)",
    "insert bill (3, 1, 75)",
    "insert bill (4, 2, 60)",
    "insert bill (5, 1, 120)",
};
static const char SELECT[] = "select bill.id, name, cents from bill join person on bill.person = person.id where cents >= ?";
static const char MORE[] = "insert bill (6, 2, 90)";

/* Whether a call was done. Tells why it wasn't: by the answer where it was refused. */
static int is_done(mmdb *db, const char *what, mmdb_status status)
{
    mmdb_bytes answer;
    if (status == MMDB_DONE)
        return 1;
    if (status == MMDB_REFUSED && mmdb_answer(db, &answer) == MMDB_DONE)
        fprintf(stderr, "pages: %s: %.*s", what, (int)answer.length, (const char *)answer.at);
    else
        fprintf(stderr, "pages: %s: %s\n", what, mmdb_status_text(status));
    return 0;
}

/* Does each line. Its refusal is an answer. */
static int does_all(mmdb *db)
{
    int is_well = is_done(db, "open", mmdb_open(db, MMDB_AUTO, MMDB_MOST, MMDB_MOST));
    for (size_t i = 0; is_well && i < sizeof LINES / sizeof LINES[0]; i++) {
        is_well = is_done(db, LINES[i], mmdb_command(db, LINES[i], strlen(LINES[i]), NULL));
        if (is_well && mmdb_refusal(db) != 0)
            is_well = is_done(db, LINES[i], MMDB_REFUSED);
    }
    return is_well;
}

/* Opens a cursor on the bills of so many cents at least. The statement isn't needed any longer then. */
static int opens(mmdb *db, int64_t least, mmdb_cursor *cursor)
{
    mmdb_statement select;
    int is_well;
    if (!is_done(db, SELECT, mmdb_prepare(db, SELECT, strlen(SELECT), &select)))
        return 0;
    is_well = is_done(db, SELECT, mmdb_bind_integer(db, select.number, 0, least)) &&
              is_done(db, SELECT, mmdb_cursor_open(db, select.number, cursor));
    mmdb_finalize(db, select.number);
    return is_well;
}

static void shows(const mmdb_rows *page)
{
    for (size_t row = 0; row < page->rows; row++) {
        mmdb_bytes name = mmdb_text(page, mmdb_cell_at(page, row, 1));
        printf("%" PRId64 " %.*s %" PRId64 "\n", mmdb_cell_at(page, row, 0)->integer, (int)name.length, (const char *)name.at,
               mmdb_cell_at(page, row, 2)->integer);
    }
}

/* Reads all pages. Behind the last row there are none. */
static int reads(mmdb *db, mmdb_cursor *cursor)
{
    mmdb_status status;
    mmdb_rows page;
    int number = 0;
    while ((status = mmdb_cursor_fetch(cursor, PAGE, &page)) == MMDB_DONE && page.rows > 0) {
        printf("page %d\n", ++number);
        shows(&page);
    }
    return is_done(db, "fetch", status);
}

/* A change is declined while the cursor is open, and done once it is closed. */
static int changes(mmdb *db, mmdb_cursor *cursor)
{
    const mmdb_status status = mmdb_query(db, MORE, strlen(MORE), NULL);
    if (status != MMDB_SHARED)
        return is_done(db, MORE, status);
    printf("no change while the cursor is open\n");
    mmdb_cursor_close(cursor);
    return is_done(db, MORE, mmdb_query(db, MORE, strlen(MORE), NULL));
}

int main(void)
{
    mmdb db = MMDB_CLOSED;
    mmdb_cursor cursor = MMDB_NO_CURSOR;
    const int is_well = does_all(&db) && opens(&db, 70, &cursor) && reads(&db, &cursor) && changes(&db, &cursor) &&
                        opens(&db, 90, &cursor) && reads(&db, &cursor);
    mmdb_cursor_close(&cursor);
    mmdb_close(&db);
    return is_well ? 0 : 1;
}
