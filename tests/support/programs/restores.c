/* Dumps that are taken in: cut at each byte, with each byte turned, wrong in each line, with a line that is refused, under limits and
   policies; and each status of the calls. */
#include "allocations.h"
#include "filled.h"

#define FIRST "# mmdb dump 1\n"
#define LAST(tables, rows) "# end of the dump: " #tables " tables, " #rows " rows\n"
#define SMALL FIRST "table t (id int, s text)\nload t 13\nid,s\n1,a\n2,b\nindex t s hash\n" LAST(1, 2)
#define TABLE "table t (id int)\n"

static void opens(mmdb_restore *restore)
{
    GIVES(mmdb_restore_open(restore, MMDB_AUTO, MMDB_MOST, MMDB_MOST), MMDB_DONE);
}

/* Checks that nothing more comes of a restore, which is closed then. */
static void is_over(mmdb_restore *restore)
{
    mmdb db = MMDB_CLOSED;
    mmdb_bytes answer = { NULL, 7 };
    GIVES(takes_text(restore, FIRST, &answer), MMDB_NOT_A_DUMP);
    CHECK(answer.at != NULL && answer.length == 0);
    GIVES(takes_text(restore, "", &answer), MMDB_NOT_A_DUMP);
    GIVES(mmdb_restore_end(restore, &db), MMDB_NOT_A_DUMP);
    CHECK(restore->inside != NULL && db.inside == NULL);
    mmdb_restore_close(restore);
    CHECK(restore->inside == NULL);
}

/* A database of a dump, which has this one table with its rows. */
static void is_small(mmdb *db)
{
    mmdb_bytes answer;
    GIVES(command(db, "tables", &answer), MMDB_DONE);
    CHECK(reads(answer, "table t (id int, s text)\nindex t s hash\nok 1\n"));
    GIVES(command(db, "select * from t where s >= 'a'", &answer), MMDB_DONE);
    CHECK(reads(answer, "rows 2\nt.id,t.s\n1,a\n2,b\n"));
}

/* ---- dumps that are no whole ones */

/* A dump is whole at its last byte, and not before; until then an end changes nothing, and takes nothing away. */
static void a_dump_is_whole_at_its_last_byte(const dump *of, mmdb *as)
{
    mmdb_restore restore = MMDB_NO_RESTORE;
    mmdb db = MMDB_CLOSED;
    int early = 0;
    opens(&restore);
    for (size_t i = 0; i < of->length; i++) {
        early += mmdb_restore_end(&restore, &db) != MMDB_NOT_A_DUMP || restore.inside == NULL || db.inside != NULL;
        GIVES(takes(&restore, of->at + i, 1, NULL), MMDB_DONE);
    }
    CHECK(early == 0);
    GIVES(mmdb_restore_end(&restore, &db), MMDB_DONE);
    CHECK(restore.inside == NULL && are_alike(as, &db));
    mmdb_close(&db);
}

static void a_dump_that_is_cut_is_none(const dump *of)
{
    for (size_t length = 0; length < of->length; length++) {
        mmdb_restore restore = MMDB_NO_RESTORE;
        mmdb db = MMDB_CLOSED;
        opens(&restore);
        GIVES(takes(&restore, of->at, length, NULL), MMDB_DONE);
        GIVES(mmdb_restore_end(&restore, &db), MMDB_NOT_A_DUMP);
        CHECK(db.inside == NULL && restore.inside != NULL);
        mmdb_restore_close(&restore);
    }
}

/* Whatever stands in the place of a byte, a restore ends by one of its statuses, and gives a database or none. */
static void each_byte_may_be_another(const dump *of)
{
    static const char BYTES[] = { '\n', ' ', '0', '9', 'x', '"', ',', '\'', '\0', '\xff', '#' };
    for (size_t i = 0; i < of->length; i++) {
        const char before = of->at[i];
        for (size_t j = 0; j < sizeof BYTES; j++) {
            mmdb_restore restore = MMDB_NO_RESTORE;
            mmdb db = MMDB_CLOSED;
            mmdb_bytes answer;
            mmdb_status taken, status;
            of->at[i] = BYTES[j];
            opens(&restore);
            taken = takes(&restore, of->at, of->length, &answer);
            CHECK(taken == MMDB_DONE || taken == MMDB_NOT_A_DUMP || taken == MMDB_REFUSED);
            CHECK((taken == MMDB_REFUSED) == (answer.length > 6 && memcmp(answer.at, "error ", 6) == 0));
            status = mmdb_restore_end(&restore, &db);
            CHECK(status == MMDB_NOT_A_DUMP || (status == MMDB_DONE && taken == MMDB_DONE));
            CHECK((db.inside != NULL) == (status == MMDB_DONE) && (restore.inside == NULL) == (status == MMDB_DONE));
            mmdb_close(&db);
            mmdb_restore_close(&restore);
        }
        of->at[i] = before;
    }
}

static void cut_and_turned(void)
{
    mmdb db = filled(&FILLINGS[0]);
    for (size_t i = 0; i < FILLING_COUNT; i++) {
        dump of;
        mmdb_close(&db);
        db = filled(&FILLINGS[i]);
        of = saved(&db, FILLINGS[i].most);
        if (of.length < 4000) {
            a_dump_is_whole_at_its_last_byte(&of, &db);
            a_dump_that_is_cut_is_none(&of);
            if (of.length < 1000)
                each_byte_may_be_another(&of);
        }
        frees(&of);
    }
    mmdb_close(&db);
}

/* ---- dumps with a wrong line */

/* Takes in a dump by pieces of so many bytes, until one isn't taken. */
static mmdb_status taken_by(mmdb_restore *restore, const char *of, size_t step, mmdb_bytes *answer)
{
    const size_t length = strlen(of);
    mmdb_status status = MMDB_DONE;
    for (size_t at = 0; at < length && status == MMDB_DONE; at += step)
        status = takes(restore, of + at, length - at < step ? length - at : step, answer);
    return status;
}

/* It is no dump, whatever its pieces are. */
static void is_no_dump(const char *of)
{
    const size_t steps[] = { 1, 7, SIZE_MAX };
    for (size_t i = 0; i < sizeof steps / sizeof steps[0]; i++) {
        mmdb_restore restore = MMDB_NO_RESTORE;
        mmdb db = MMDB_CLOSED;
        mmdb_bytes answer = { NULL, 7 };
        mmdb_status status;
        opens(&restore);
        status = taken_by(&restore, of, steps[i], &answer);
        if (status != MMDB_DONE && status != MMDB_NOT_A_DUMP)
            fprintf(stderr, "%u by %s", (unsigned)status, of);
        CHECK(status == MMDB_DONE || (status == MMDB_NOT_A_DUMP && answer.at != NULL && answer.length == 0));
        GIVES(mmdb_restore_end(&restore, &db), MMDB_NOT_A_DUMP);
        if (db.inside != NULL)
            fprintf(stderr, "a dump: %s", of);
        mmdb_close(&db);
        if (status == MMDB_NOT_A_DUMP)
            is_over(&restore);
        mmdb_restore_close(&restore);
    }
}

static void wrong_dumps_are_none(void)
{
    static const char *const WRONG[] = {
        /* another first line */
        "\n", "x", "tables\n", "# mmdb dump 2\n" LAST(0, 0), "# mmdb dump 10\n" LAST(0, 0), "# mmdb dump 01\n" LAST(0, 0),
        "# mmdb dump 1 \n" LAST(0, 0), "# mmdb dump 1\r\n" LAST(0, 0), " " FIRST LAST(0, 0), "\n" FIRST LAST(0, 0),
        "# mmdb Dump 1\n" LAST(0, 0), "\xef\xbb\xbf" FIRST LAST(0, 0), "# mmdb dump\n" LAST(0, 0), "# mmdb dump \n" LAST(0, 0), LAST(0, 0),
        TABLE LAST(1, 0),
        /* another last line */
        FIRST, FIRST TABLE, FIRST LAST(1, 0), FIRST LAST(0, 1), FIRST TABLE LAST(0, 0), FIRST TABLE LAST(2, 0), FIRST TABLE LAST(1, 1),
        FIRST TABLE "load t 5\nid\n1\n" LAST(1, 0), FIRST TABLE "load t 5\nid\n1\n" LAST(1, 2), FIRST LAST(00, 0), FIRST LAST(0, 00),
        FIRST LAST(-0, 0), FIRST LAST(18446744073709551616, 0), FIRST LAST(0, 4294967296), FIRST "# end of the dump\n",
        FIRST "# end of the dump: 0 tables, 0 rows \n", FIRST "# end of the dump: 0 tables, 0 rows\r\n",
        FIRST "# end of the dump: 0  tables, 0 rows\n", FIRST "# End of the dump: 0 tables, 0 rows\n",
        /* something behind it */
        FIRST LAST(0, 0) "\n", FIRST LAST(0, 0) " ", FIRST LAST(0, 0) "#", FIRST LAST(0, 0) TABLE,
        SMALL FIRST LAST(0, 0), SMALL "#\n",
    };
    for (size_t i = 0; i < sizeof WRONG / sizeof WRONG[0]; i++)
        is_no_dump(WRONG[i]);
}

/* Other lines of the language are done as well: the last line tells whether the dump is whole. */
static void other_lines_are_done(void)
{
    static const char *const LINES[] = { "delete t\n", "select * from t\n", "tables\n", "dump t\n", "# more\n", "#\n", "\n", " \n", FIRST };
    char of[512];
    for (size_t i = 0; i < sizeof LINES / sizeof LINES[0]; i++) {
        mmdb_restore restore = MMDB_NO_RESTORE;
        mmdb db = MMDB_CLOSED;
        mmdb_bytes answer = { NULL, 7 };
        snprintf(of, sizeof of, "%s%s%s%s", FIRST, TABLE, LINES[i], LAST(1, 0));
        opens(&restore);
        GIVES(taken_by(&restore, of, 7, &answer), MMDB_DONE);
        GIVES(mmdb_restore_end(&restore, &db), MMDB_DONE);
        mmdb_close(&db);
    }
}

/* ---- dumps with a line that is refused */

/* The line behind the first part is refused with this answer, and nothing more is taken then. */
static void is_refused(const char *front, const char *line, const char *answer, uint32_t rows, uint32_t most)
{
    const size_t steps[] = { 1, 7, SIZE_MAX };
    for (size_t i = 0; i < sizeof steps / sizeof steps[0]; i++) {
        mmdb_restore restore = MMDB_NO_RESTORE;
        mmdb_bytes told = { NULL, 7 };
        char whole[512];
        GIVES(mmdb_restore_open(&restore, MMDB_AUTO, rows, most), MMDB_DONE);
        GIVES(taken_by(&restore, front, steps[i], &told), MMDB_DONE);
        snprintf(whole, sizeof whole, "%s%s", line, i == 2 ? LAST(1, 0) : "");
        GIVES(taken_by(&restore, whole, steps[i], &told), MMDB_REFUSED);
        CHECK(reads(told, answer));
        if (!reads(told, answer))
            fprintf(stderr, "%s is answered %.*s", line, (int)told.length, (const char *)told.at);
        is_over(&restore);
    }
}

static void refused_lines_are_told(void)
{
    const uint32_t most = MMDB_MOST;
    is_refused(FIRST TABLE, "table t (id int)\n", "error 31 table exists\n", most, most);
    is_refused(FIRST TABLE, "table u (id int, t ref v)\n", "error 30 no such table\n", most, most);
    is_refused(FIRST TABLE, "table 5 (id int)\n", "error 20 not a command\n", most, most);
    is_refused(FIRST TABLE, "index t n hash\n", "error 32 no such column\n", most, most);
    is_refused(FIRST TABLE "index t id hash\n", "index t id hash\n", "error 39 index exists\n", most, most);
    is_refused(FIRST TABLE, "update t set id = 1\n", "error 36 key cannot be set\n", most, most);
    is_refused(FIRST TABLE, "update t set id = 'a\n", "error 20 not a command\n", most, most);
    is_refused(FIRST TABLE, "update t set \xff\n", "error 11 not UTF-8\n", most, most);
    is_refused(FIRST TABLE, "load u 5\nid\n1\n", "error 30 no such table\n", most, most);
    is_refused(FIRST TABLE, "load t 5\nie\n1\n", "error 61 bad header\n", most, most);
    is_refused(FIRST TABLE, "load t 7\nid\n1\nx\n", "error 62 bad record 2\n", most, most);
    is_refused(FIRST TABLE, "load t 9\nid\n1\n2\n1\n", "error 41 key exists (record 3)\n", most, most);
    is_refused(FIRST TABLE "load t 5\nid\n1\n", "load t 7\nid\n2\n1\n", "error 41 key exists (record 2)\n", most, most);
    is_refused(FIRST TABLE, "load t 9\nid\n1\n2\n3\n", "error 43 table full (record 3)\n", 2, most);
    is_refused(FIRST TABLE, "load t 9\nid\n1\n2\n3\n", "error 12 block too long\n", most, 8);
    is_refused(FIRST TABLE "table u (id int, t ref t)\n", "load u 9\nid,t\n1,7\n", "error 42 no referenced row (record 1)\n", most, most);
}

/* ---- limits, policies, and what a restored database is */

static void limits_are_those_of_the_database(void)
{
    mmdb_restore restore = MMDB_NO_RESTORE;
    mmdb db = MMDB_CLOSED;
    mmdb_bytes answer;
    for (uint32_t policy = MMDB_AUTO; policy <= MMDB_MERGE; policy++) {
        GIVES(mmdb_restore_open(&restore, policy, 3, 13), MMDB_DONE);
        GIVES(takes_text(&restore, SMALL, &answer), MMDB_DONE);
        GIVES(mmdb_restore_end(&restore, &db), MMDB_DONE);
        is_small(&db);
        GIVES(command(&db, "insert t (3, '')", &answer), MMDB_DONE);
        CHECK(reads(answer, "ok 1\n"));
        GIVES(command(&db, "insert t (4, '')", &answer), MMDB_DONE);
        CHECK(reads(answer, "error 43 table full\n"));
        GIVES(load(&db, "load t 14", "id,s\n4,c\n5,dd\n", &answer), MMDB_DONE);
        CHECK(reads(answer, "error 12 block too long\n"));
        mmdb_close(&db);
    }
}

/* Two dumps are taken in at once, and beside them a database is saved. */
static void restores_are_of_their_own(void)
{
    mmdb_restore one = MMDB_NO_RESTORE, other = MMDB_NO_RESTORE;
    mmdb first = MMDB_CLOSED, second = MMDB_CLOSED, db = filled(&FILLINGS[4]);
    dump of = saved(&db, MMDB_MOST);
    opens(&one);
    opens(&other);
    for (size_t i = 0; i < of.length; i++) {
        GIVES(takes(&one, of.at + i, 1, NULL), MMDB_DONE);
        if (i < strlen(SMALL))
            GIVES(takes(&other, SMALL + i, 1, NULL), MMDB_DONE);
    }
    GIVES(mmdb_restore_end(&other, &second), MMDB_DONE);
    GIVES(mmdb_restore_end(&one, &first), MMDB_DONE);
    is_small(&second);
    CHECK(are_alike(&first, &db));
    frees(&of);
    mmdb_close(&first);
    mmdb_close(&second);
    mmdb_close(&db);
}

/* ---- each status */

static void open_gives_each_status(void)
{
    mmdb_restore restore = MMDB_NO_RESTORE;
    void *inside;
    GIVES(mmdb_restore_open(NULL, MMDB_AUTO, MMDB_MOST, MMDB_MOST), MMDB_NOT_OPEN);
    GIVES(mmdb_restore_open(NULL, UINT32_MAX, 0, UINT32_MAX), MMDB_NOT_OPEN);
    GIVES(mmdb_restore_open(&restore, MMDB_MERGE + 1, MMDB_MOST, MMDB_MOST), MMDB_NO_SUCH_POLICY);
    GIVES(mmdb_restore_open(&restore, UINT32_MAX, MMDB_MOST, MMDB_MOST), MMDB_NO_SUCH_POLICY);
    GIVES(mmdb_restore_open(&restore, MMDB_AUTO, 0, MMDB_MOST), MMDB_LIMIT_OUT_OF_RANGE);
    GIVES(mmdb_restore_open(&restore, MMDB_AUTO, MMDB_MOST + 1, MMDB_MOST), MMDB_LIMIT_OUT_OF_RANGE);
    GIVES(mmdb_restore_open(&restore, MMDB_AUTO, UINT32_MAX, 0), MMDB_LIMIT_OUT_OF_RANGE);
    GIVES(mmdb_restore_open(&restore, MMDB_AUTO, 1, MMDB_MOST + 1), MMDB_LIMIT_OUT_OF_RANGE);
    GIVES(mmdb_restore_open(&restore, MMDB_AUTO, 1, UINT32_MAX), MMDB_LIMIT_OUT_OF_RANGE);
    CHECK(restore.inside == NULL);
    for (uint32_t policy = MMDB_AUTO; policy <= MMDB_MERGE; policy++) {
        GIVES(mmdb_restore_open(&restore, policy, 1, 0), MMDB_DONE);
        inside = restore.inside;
        GIVES(mmdb_restore_open(&restore, policy, 1, 0), MMDB_IS_OPEN);
        GIVES(mmdb_restore_open(&restore, UINT32_MAX, 0, UINT32_MAX), MMDB_IS_OPEN);
        CHECK(inside != NULL && restore.inside == inside);
        mmdb_restore_close(&restore);
        CHECK(restore.inside == NULL);
        mmdb_restore_close(&restore);
    }
    mmdb_restore_close(NULL);
}

static void what_is_closed_is_told(void)
{
    mmdb_restore restore = MMDB_NO_RESTORE;
    mmdb db = MMDB_CLOSED;
    mmdb_bytes answer = { NULL, 7 };
    GIVES(mmdb_restore_take(NULL, FIRST, 14, &answer), MMDB_NOT_OPEN);
    CHECK(answer.at != NULL && answer.length == 0);
    answer.length = 7;
    GIVES(mmdb_restore_take(&restore, FIRST, 14, &answer), MMDB_NOT_OPEN);
    CHECK(answer.at != NULL && answer.length == 0);
    GIVES(mmdb_restore_take(&restore, NULL, 1, NULL), MMDB_NOT_OPEN);
    GIVES(mmdb_restore_take(NULL, NULL, 0, NULL), MMDB_NOT_OPEN);
    GIVES(mmdb_restore_end(NULL, &db), MMDB_NOT_OPEN);
    GIVES(mmdb_restore_end(&restore, &db), MMDB_NOT_OPEN);
    GIVES(mmdb_restore_end(&restore, NULL), MMDB_NOT_OPEN);
    GIVES(mmdb_restore_end(NULL, NULL), MMDB_NOT_OPEN);
    CHECK(restore.inside == NULL && db.inside == NULL);
}

static void take_and_end_give_each_status(void)
{
    mmdb_restore restore = MMDB_NO_RESTORE;
    mmdb db = MMDB_CLOSED, other = filled(&FILLINGS[4]);
    mmdb_bytes answer = { NULL, 7 };
    void *inside = other.inside;
    opens(&restore);
    GIVES(mmdb_restore_take(&restore, NULL, 0, &answer), MMDB_DONE);
    CHECK(answer.at != NULL && answer.length == 0);
    GIVES(mmdb_restore_take(&restore, "", 0, NULL), MMDB_DONE);
    GIVES(mmdb_restore_take(&restore, NULL, 1, &answer), MMDB_NO_LINE);
    CHECK(answer.at != NULL && answer.length == 0);
    GIVES(mmdb_restore_end(&restore, &db), MMDB_NOT_A_DUMP);
    GIVES(mmdb_restore_end(&restore, NULL), MMDB_NOT_OPEN);
    GIVES(mmdb_restore_end(&restore, &other), MMDB_IS_OPEN);
    /* (null was no piece, so that all goes on) */
    GIVES(takes_text(&restore, SMALL, &answer), MMDB_DONE);
    CHECK(answer.at != NULL && answer.length == 0);
    GIVES(mmdb_restore_take(&restore, NULL, SIZE_MAX, NULL), MMDB_NO_LINE);
    GIVES(mmdb_restore_take(&restore, NULL, 0, NULL), MMDB_DONE);
    GIVES(mmdb_restore_end(&restore, &other), MMDB_IS_OPEN);
    CHECK(other.inside == inside && restore.inside != NULL);
    GIVES(mmdb_restore_end(&restore, NULL), MMDB_NOT_OPEN);
    GIVES(mmdb_restore_end(&restore, &db), MMDB_DONE);
    CHECK(restore.inside == NULL);
    is_small(&db);
    GIVES(mmdb_restore_end(&restore, &db), MMDB_NOT_OPEN);
    GIVES(takes_text(&restore, SMALL, &answer), MMDB_NOT_OPEN);
    mmdb_close(&db);
    mmdb_close(&other);
}

/* One that was closed midway, or has ended, may be opened again. */
static void restores_are_opened_again(void)
{
    mmdb_restore restore = MMDB_NO_RESTORE;
    mmdb db = MMDB_CLOSED;
    const long held = allocations_held();
    for (size_t length = 0; length <= strlen(SMALL); length += 5) {
        opens(&restore);
        GIVES(takes(&restore, SMALL, length, NULL), MMDB_DONE);
        mmdb_restore_close(&restore);
        CHECK(restore.inside == NULL && allocations_held() == held);
    }
    for (int i = 0; i < 3; i++) {
        opens(&restore);
        GIVES(takes_text(&restore, SMALL, NULL), MMDB_DONE);
        GIVES(mmdb_restore_end(&restore, &db), MMDB_DONE);
        is_small(&db);
        mmdb_close(&db);
        CHECK(allocations_held() == held);
    }
}

int main(void)
{
    open_gives_each_status();
    what_is_closed_is_told();
    take_and_end_give_each_status();
    restores_are_opened_again();
    limits_are_those_of_the_database();
    restores_are_of_their_own();
    wrong_dumps_are_none();
    other_lines_are_done();
    refused_lines_are_told();
    cut_and_turned();
    CHECK(allocations_held() == 0);
    return checks_failed != 0;
}
