/* Saves and restores for fuzz.c, which includes this behind its own calls. Marks have any numbers. Dumps are those that were saved last,
   cut anywhere, with any bytes between. One that was taken in as it is opens a database, and one of which a piece was not taken none. */

enum { RESTORES = 3, MOST_DUMP = 100000, MOST_PIECES = 1000 };

/* A dump that is taken in: what of it is still to come, and whether something else came, or a piece was not taken. */
typedef struct restoring {
    mmdb_restore with;
    int is_open, is_spoiled, is_lost;
    bytes dump;
    size_t at;
} restoring;

static restoring restorings[RESTORES];
static mmdb_save_mark last_mark;
static bytes last_dump;

static uint64_t any_number(void)
{
    const uint64_t any[] = { drawn(6), drawn(6), drawn(70), drawn(20000), UINT64_MAX - drawn(4), UINT64_C(1) << drawn(64) };
    return any[drawn(sizeof any / sizeof any[0])];
}

/* Where a save may have stood, or a mark with any numbers. */
static mmdb_save_mark any_mark(void)
{
    mmdb_save_mark mark = last_mark;
    if (is_drawn(30))
        mark.version = any_number();
    if (is_drawn(70))
        mark.part = (uint32_t)any_number();
    if (is_drawn(50))
        mark.table = (size_t)any_number();
    if (is_drawn(50))
        mark.row = (uint32_t)any_number();
    return mark;
}

static void asks_for_a_piece(handle *of)
{
    mmdb_save_mark mark = any_mark();
    const mmdb_save_mark before = mark;
    const int is_none = is_drawn(3);
    mmdb_bytes piece;
    const mmdb_status status = mmdb_save(&of->db, is_none ? NULL : &mark, is_drawn(95) ? &piece : NULL);
    const uint32_t allowed = only(MMDB_DONE) | only(MMDB_CHANGED) | only(MMDB_REFUSED);
    is_within(status, of->is_open && !is_none ? allowed : only(MMDB_NOT_OPEN), "save");
    CHECK(status == MMDB_DONE || memcmp(&mark, &before, sizeof mark) == 0);
}

/* Saves a database whole, if no row is in the way. What it is saved as may be restored then. */
static void saves_all(handle *of)
{
    mmdb_save_mark mark;
    mmdb_status status = MMDB_DONE;
    bytes dump = { (unsigned char *)malloc(MOST_DUMP), 0 };
    memset(&mark, 0, sizeof mark);
    for (int i = 0; i < MOST_PIECES && status == MMDB_DONE && mark.part != MMDB_SAVE_OVER; i++) {
        mmdb_bytes piece;
        status = mmdb_save(&of->db, &mark, &piece);
        is_within(status, of->is_open ? only(MMDB_DONE) | only(MMDB_REFUSED) : only(MMDB_NOT_OPEN), "save");
        reads_answer(of, piece);
        if (status == MMDB_DONE && is_drawn(20))
            last_mark = mark;
        if (dump.length + piece.length > MOST_DUMP)
            status = MMDB_TOO_LARGE;
        else
            memcpy(dump.at + dump.length, piece.at, piece.length);
        dump.length += status == MMDB_DONE ? piece.length : 0;
    }
    if (status != MMDB_DONE) {
        free(dump.at);
        return;
    }
    CHECK(mark.part == MMDB_SAVE_OVER);
    free(last_dump.at);
    last_dump = cut_to_length(dump);
}

static void saves(handle *of)
{
    if (is_drawn(50))
        asks_for_a_piece(of);
    else
        saves_all(of);
}

static void opens_restore(restoring *to)
{
    static const uint32_t ROWS[] = { 0, 1, 5, MMDB_MOST, MMDB_MOST, MMDB_MOST, MMDB_MOST, MMDB_MOST + 1, UINT32_MAX };
    const uint32_t policy = (uint32_t)drawn(MMDB_MERGE + 2), rows = ROWS[drawn(9)], most = is_drawn(90) ? MMDB_MOST : ROWS[drawn(9)];
    const int is_out = rows == 0 || rows > MMDB_MOST || most > MMDB_MOST;
    const mmdb_status status = mmdb_restore_open(&to->with, policy, rows, most);
    uint32_t allowed = only(MMDB_DONE);
    if (to->is_open)
        allowed = only(MMDB_IS_OPEN);
    else if (policy > MMDB_MERGE || is_out)
        allowed = (policy > MMDB_MERGE ? only(MMDB_NO_SUCH_POLICY) : 0) | (is_out ? only(MMDB_LIMIT_OUT_OF_RANGE) : 0);
    is_within(status, allowed, "restore_open");
    if (status != MMDB_DONE)
        return;
    to->is_open = 1;
    to->is_spoiled = to->is_lost = 0;
    to->at = 0;
    to->dump.at = (unsigned char *)malloc(last_dump.length);
    to->dump.length = last_dump.length;
    if (last_dump.length > 0)
        memcpy(to->dump.at, last_dump.at, last_dump.length);
}

static void forgets(restoring *of)
{
    const bytes none = { NULL, 0 };
    CHECK(of->with.inside == NULL);
    free(of->dump.at);
    of->dump = none;
    of->is_open = 0;
}

static void closes_restore(restoring *of)
{
    mmdb_restore_close(&of->with);
    forgets(of);
}

/* The next bytes of the dump, in a block of just their length. */
static bytes next_bytes(restoring *of)
{
    const size_t left = of->dump.length - of->at, length = is_drawn(20) ? left : drawn(left + 1);
    bytes next = { (unsigned char *)malloc(length), length };
    if (length > 0)
        memcpy(next.at, of->dump.at + of->at, length);
    of->at += length;
    return next;
}

static void takes(restoring *of)
{
    const int is_other = of->is_open && is_drawn(10);
    const bytes piece = !of->is_open || is_other ? given_bytes_to("") : next_bytes(of);
    mmdb_bytes answer;
    const mmdb_status status = mmdb_restore_take(&of->with, piece.at, piece.length, &answer);
    uint32_t allowed = only(MMDB_DONE) | only(MMDB_NOT_A_DUMP) | only(MMDB_REFUSED);
    if (!of->is_open)
        allowed = only(MMDB_NOT_OPEN);
    else if (is_null(piece))
        allowed = only(MMDB_NO_LINE);
    else if (of->is_lost)
        allowed = only(MMDB_NOT_A_DUMP);
    else if (!of->is_spoiled && !is_other)
        allowed = only(MMDB_DONE) | only(MMDB_REFUSED);
    is_within(status, allowed, "restore_take");
    CHECK(status == MMDB_REFUSED ? answer.length > 6 && memcmp(answer.at, "error ", 6) == 0 : answer.length == 0);
    of->is_spoiled |= is_other && !is_null(piece) && piece.length > 0;
    of->is_lost |= of->is_open && status != MMDB_DONE && status != MMDB_NO_LINE;
    free(piece.at);
}

/* Ends a restore into a handle, which mostly is closed for it. */
static void ends(restoring *of, handle *to)
{
    const int is_none = is_drawn(3), is_whole = !of->is_spoiled && !of->is_lost && of->at == of->dump.length && of->at > 0;
    mmdb_status status;
    uint32_t allowed = only(MMDB_NOT_A_DUMP);
    if (of->is_open && is_whole && to->is_open && is_drawn(50))
        closes(to);
    status = mmdb_restore_end(&of->with, is_none ? NULL : &to->db);
    if (!of->is_open || is_none)
        allowed = only(MMDB_NOT_OPEN);
    else if (to->is_open)
        allowed = only(MMDB_IS_OPEN);
    else if (is_whole)
        allowed = only(MMDB_DONE);
    else if (of->is_spoiled && !of->is_lost)
        allowed |= only(MMDB_DONE);
    is_within(status, allowed, "restore_end");
    if (status != MMDB_DONE)
        return;
    forgets(of);
    to->is_open = 1;
    to->tables = ++tables_made;
}

static void restores(handle *to)
{
    restoring *of = &restorings[drawn(RESTORES)];
    const uint64_t luck = drawn(100);
    if (luck < 25)
        opens_restore(of);
    else if (luck < 30)
        closes_restore(of);
    else if (luck < 75)
        takes(of);
    else
        ends(of, to);
}

static void ends_all_restores(void)
{
    for (size_t i = 0; i < RESTORES; i++)
        closes_restore(&restorings[i]);
    free(last_dump.at);
}

static void saves_and_restores_null(void)
{
    mmdb_save_mark mark = MMDB_SAVE_BEGIN;
    mmdb_bytes told;
    CHECK(mmdb_save(NULL, &mark, &told) == MMDB_NOT_OPEN && mmdb_save(NULL, NULL, NULL) == MMDB_NOT_OPEN && mark.part == 0);
    CHECK(mmdb_restore_open(NULL, 0, 1, 1) == MMDB_NOT_OPEN && mmdb_restore_take(NULL, "", 0, &told) == MMDB_NOT_OPEN);
    CHECK(mmdb_restore_take(NULL, NULL, 7, NULL) == MMDB_NOT_OPEN && mmdb_restore_end(NULL, NULL) == MMDB_NOT_OPEN);
    mmdb_restore_close(NULL);
}
