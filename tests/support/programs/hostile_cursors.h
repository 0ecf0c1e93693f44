/* Cursors for fuzz.c, which includes this behind its own calls. Statements are any, some of them kept for an open alone. Pages are of any
   size. Each has as many rows as are asked for, or as are left of those that the select counted. */

/* Selects that are kept for an open alone. */
static const char *const SELECTS[] = {
    "select * from t", "select distinct s, n from t", "select t.s, u.id from t join u on t.id = u.t", "select id from u",
};

/* What an open gives: as the header tells. */
static uint32_t of_open(const handle *of, int has_statement, const reading *to)
{
    if (!of->is_open)
        return only(MMDB_NOT_OPEN);
    if (to->is_open)
        return only(MMDB_IS_OPEN);
    if (!has_statement)
        return only(MMDB_NO_SUCH_STATEMENT);
    return of->transactions > 0 ? only(MMDB_IN_TRANSACTION) : only(MMDB_DONE) | only(MMDB_REFUSED);
}

static void is_opened(handle *of, uint32_t number, reading *to)
{
    to->is_open = 1;
    to->tables = of->tables;
    to->last.has_rows = 0;
    GIVES(mmdb_count(&of->db, number, &to->left), MMDB_DONE);
}

static void opens_cursor(handle *of, reading *to)
{
    const char *line = SELECTS[drawn(sizeof SELECTS / sizeof SELECTS[0])];
    mmdb_statement own;
    const int is_own = is_drawn(70) && mmdb_prepare(&of->db, line, strlen(line), &own) == MMDB_DONE;
    const statement *on = is_own ? NULL : any_statement(of);
    const uint32_t number = is_own ? own.number : on ? on->of.number : no_statement(of);
    const int is_of_null = is_drawn(3), is_null = is_drawn(3);
    const uint32_t allowed = is_of_null || is_null ? only(MMDB_NOT_OPEN) : of_open(of, is_own || on, to);
    void *const inside = to->with.inside;
    const mmdb_status status = mmdb_cursor_open(is_of_null ? NULL : &of->db, number, is_null ? NULL : &to->with);
    is_within(status, allowed, "cursor_open");
    CHECK(status == MMDB_DONE ? to->with.inside != NULL : to->with.inside == inside);
    if (status == MMDB_DONE)
        is_opened(of, number, to);
    if (is_own)
        GIVES(mmdb_finalize(&of->db, number), MMDB_DONE);
}

static void closes_cursor(reading *of)
{
    mmdb_cursor_close(&of->with);
    CHECK(of->with.inside == NULL);
    of->is_open = 0;
    of->last.has_rows = 0;
}

static void fetches(reading *from)
{
    const size_t most = is_drawn(90) ? (size_t)drawn(6) : SIZE_MAX - (size_t)drawn(3);
    const uint64_t expected = from->left < most ? from->left : most;
    const int is_unwanted = is_drawn(5);
    mmdb_rows rows;
    mmdb_status status;
    CHECK(!from->last.has_rows || sum_of(&from->last.rows) == from->last.sum);
    if (is_drawn(3))
        is_within(mmdb_cursor_fetch(NULL, most, &rows), only(MMDB_NOT_OPEN), "cursor_fetch");
    status = mmdb_cursor_fetch(&from->with, most, is_unwanted ? NULL : &rows);
    is_within(status, only(from->is_open ? MMDB_DONE : MMDB_NOT_OPEN), "cursor_fetch");
    from->last.has_rows = 0;
    from->left -= from->is_open ? expected : 0;
    if (is_unwanted)
        return;
    CHECK(rows.rows == (from->is_open ? expected : 0) && (rows.columns > 0) == from->is_open && rows.changed == 0);
    takes_rows(&from->last, status, rows);
}

static void reads_by_cursors(handle *of)
{
    reading *to = &readings[drawn(CURSORS)];
    const uint64_t luck = drawn(100);
    if (luck < 30)
        opens_cursor(of, to);
    else if (luck < 75)
        fetches(to);
    else
        closes_cursor(to);
}

static void reads_null(void)
{
    mmdb_cursor cursor = MMDB_NO_CURSOR;
    mmdb_rows rows;
    CHECK(mmdb_cursor_open(NULL, 0, &cursor) == MMDB_NOT_OPEN && mmdb_cursor_open(NULL, 0, NULL) == MMDB_NOT_OPEN && cursor.inside == NULL);
    CHECK(mmdb_cursor_fetch(NULL, 1, &rows) == MMDB_NOT_OPEN && rows.rows == 0 && mmdb_cursor_fetch(NULL, SIZE_MAX, NULL) == MMDB_NOT_OPEN);
    mmdb_cursor_close(NULL);
}
