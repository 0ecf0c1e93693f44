/* Databases that are saved piece by piece, and restored of pieces of any length: of each kind, as written by hand, cut and wrong; what
   changes between two pieces; each status; and marks and limits of a hostile caller. With a folder as its word it only puts a dump of each
   database there, and beside it what the database has, for tests/test_embedding_saves.py. */
#include "allocations.h"
#include "filled.h"

/* The longest record of a company, with the names of its columns, has so many bytes. */
enum { STEPS = 4, MARKS = 2000, LONGEST_NAME = 256, LONGEST_RECORD = 47, MOST_SPARE = 1 << 17 };

static const char EMPTY[] = "# mmdb dump 1\n# end of the dump: 0 tables, 0 rows\n";

/* What has_a_company is saved as. */
static const char COMPANY[] =
    "# mmdb dump 1\n"
    "table dept (name text)\n"
    "table emp (id int, name text, dept ref dept null, boss int)\n"
    "table part (id int, of ref emp, made ref emp null)\n"
    "table none (id int)\n"
    "load dept 22\nname\n\"\"\nshoes\n\"to\nys\"\n"
    "index dept name hash\n"
    "load emp 98\nid,name,dept,boss\n-9223372036854775808,,,0\n1,\"a \"\"b\"\", 'c'\nd\r\",shoes,-1\n2,\"\n\",\"to\nys\",1\n3,null,,2\n"
    "update emp set dept = '' where id = 3\n"
    "index emp dept hash\nindex emp dept tree\nindex emp boss tree\n"
    "load part 22\nid,of,made\n7,1,\n8,3,2\n"
    "# end of the dump: 4 tables, 9 rows\n";

static const mmdb_save_mark BEGIN = MMDB_SAVE_BEGIN;

static dump dump_of(const char *text)
{
    dump of = { NULL, 0, 0 };
    append(&of, text, strlen(text));
    return of;
}

static int are_same_marks(mmdb_save_mark one, mmdb_save_mark other)
{
    return one.version == other.version && one.table == other.table && one.part == other.part && one.row == other.row;
}

static mmdb company(void)
{
    const filling with = { "company", has_a_company, MMDB_MOST };
    return filled(&with);
}

/* Checks that the next piece gives this status, and that the mark stays. */
static void gives_no_piece(mmdb *db, mmdb_save_mark mark, mmdb_status expected)
{
    const mmdb_save_mark before = mark;
    mmdb_bytes piece = { NULL, 7 };
    GIVES(mmdb_save(db, &mark, &piece), expected);
    CHECK(are_same_marks(mark, before));
    CHECK(piece.at != NULL && (piece.length == 0 || expected == MMDB_REFUSED));
}

static void goes_on(mmdb *db, mmdb_save_mark *mark)
{
    mmdb_bytes piece;
    GIVES(mmdb_save(db, mark, &piece), MMDB_DONE);
    CHECK(is_piece(piece, MMDB_MOST));
}

/* ---- databases of each kind */

/* The pieces are lines and blocks of the language: a stream that an empty database answers without a refusal. */
static void are_requests(mmdb *db, const dump *of, uint32_t most)
{
    mmdb fed = MMDB_CLOSED;
    mmdb_bytes answer;
    GIVES(mmdb_open(&fed, MMDB_SCAN, MMDB_MOST, most), MMDB_DONE);
    GIVES(mmdb_feed(&fed, of->at, of->length), MMDB_DONE);
    GIVES(mmdb_answer(&fed, &answer), MMDB_DONE);
    CHECK(answer.length < 6 || memcmp(answer.at, "error ", 6) != 0);
    for (size_t i = 0; i + 7 < answer.length; i++)
        CHECK(memcmp(answer.at + i, "\nerror ", 7) != 0);
    CHECK(are_alike(db, &fed));
    mmdb_close(&fed);
}

/* A restored database is used like another. */
static void is_used(mmdb *db)
{
    GIVES(mmdb_refusal(db), 0);
    CHECK(mmdb_transactions(db) == 0);
    GIVES(mmdb_begin(db), MMDB_DONE);
    GIVES(command(db, "table more (id int)", NULL), MMDB_DONE);
    GIVES(command(db, "insert more (1)", NULL), MMDB_DONE);
    GIVES(mmdb_rollback(db), MMDB_DONE);
    GIVES(command(db, "insert more (1)", NULL), MMDB_DONE);
    GIVES(mmdb_refusal(db), 30);
}

static void is_saved_and_restored(const filling *with)
{
    const size_t steps[STEPS] = { 1, 7, 4096, SIZE_MAX };
    mmdb db = filled(with);
    dump of = saved(&db, with->most), again = saved(&db, with->most);
    CHECK(are_equal(&of, &again));
    frees(&again);
    for (int i = 0; i < STEPS; i++) {
        mmdb other = restored(&of, steps[i], with->most);
        CHECK(are_alike(&db, &other));
        again = saved(&other, with->most);
        CHECK(are_equal(&of, &again));
        is_used(&other);
        frees(&again);
        mmdb_close(&other);
    }
    are_requests(&db, &of, with->most);
    frees(&of);
    mmdb_close(&db);
}

static void each_is_saved_and_restored(void)
{
    for (size_t i = 0; i < FILLING_COUNT; i++) {
        const int failed = checks_failed;
        is_saved_and_restored(&FILLINGS[i]);
        if (checks_failed != failed)
            fprintf(stderr, "(of %s)\n", FILLINGS[i].name);
    }
}

static void is_saved_as(mmdb *db, const char *expected)
{
    dump of = saved(db, MMDB_MOST), as = dump_of(expected);
    CHECK(are_equal(&of, &as));
    if (!are_equal(&of, &as))
        fprintf(stderr, "it is saved as\n%.*s\n", (int)of.length, of.at);
    frees(&of);
    frees(&as);
}

static void dumps_are_as_written(void)
{
    mmdb db = MMDB_CLOSED;
    GIVES(mmdb_open(&db, MMDB_AUTO, 1, 0), MMDB_DONE);
    is_saved_as(&db, EMPTY);
    mmdb_close(&db);
    db = company();
    is_saved_as(&db, COMPANY);
    mmdb_close(&db);
}

/* Under each limit of blocks a dump has all rows, or the first that has no room is told. */
static void blocks_are_cut_under_each_limit(void)
{
    for (uint32_t most = 0; most < 120; most++) {
        const filling with = { "", has_a_company, most };
        mmdb db = filled(&with);
        mmdb_save_mark mark = MMDB_SAVE_BEGIN;
        mmdb_status status = MMDB_DONE;
        if (most < LONGEST_RECORD) {
            for (int i = 0; i < MOST_PIECES && status == MMDB_DONE && mark.part != MMDB_SAVE_OVER; i++)
                status = mmdb_save(&db, &mark, NULL);
            GIVES(status, MMDB_REFUSED);
            CHECK(is_refused_by(&db, "error 64 dump too long\n"));
        } else {
            dump of = saved(&db, most);
            mmdb other = restored(&of, 5, most);
            CHECK(are_alike(&db, &other));
            mmdb_close(&other);
            frees(&of);
        }
        mmdb_close(&db);
    }
}

/* ---- marks */

static void a_mark_may_be_copied(void)
{
    mmdb db = company();
    mmdb_save_mark mark = MMDB_SAVE_BEGIN;
    dump before = { NULL, 0, 0 }, whole = saved(&db, MMDB_MOST);
    mmdb_bytes piece;
    for (int i = 0; i < MOST_PIECES && mark.part != MMDB_SAVE_OVER; i++) {
        dump rest = saved_from(&db, mark, MMDB_MOST), both = { NULL, 0, 0 };
        append(&both, before.at, before.length);
        append(&both, rest.at, rest.length);
        CHECK(are_equal(&both, &whole));
        GIVES(mmdb_save(&db, &mark, &piece), MMDB_DONE);
        append(&before, piece.at, piece.length);
        frees(&rest);
        frees(&both);
    }
    CHECK(are_equal(&before, &whole));
    for (int i = 0; i < 3; i++) {
        GIVES(mmdb_save(&db, &mark, &piece), MMDB_DONE);
        CHECK(mark.part == MMDB_SAVE_OVER && piece.at != NULL && piece.length == 0);
    }
    frees(&before);
    frees(&whole);
    mmdb_close(&db);
}

/* What a change makes of a save that has begun: it is told at the next piece, and a new save has it. */
static void is_told_as_changed(mmdb *db, mmdb_save_mark mark)
{
    gives_no_piece(db, mark, MMDB_CHANGED);
    gives_no_piece(db, mark, MMDB_CHANGED);
    mark = BEGIN;
    goes_on(db, &mark);
}

static void is_ended_by(const char *change, int pieces, int in_transaction)
{
    mmdb db = company();
    mmdb_save_mark mark = MMDB_SAVE_BEGIN;
    if (in_transaction)
        GIVES(mmdb_begin(&db), MMDB_DONE);
    for (int made = 0; made < pieces; made++)
        goes_on(&db, &mark);
    does(&db, change);
    is_told_as_changed(&db, mark);
    mmdb_close(&db);
}

static void changes_between_pieces_are_told(void)
{
    static const char *const CHANGES[] = {
        "insert none (1)", "insert emp (9, '', null, 1)", "update emp set boss = 5 where id = 1", "delete part where id = 7", "delete part",
        "table more (id int)", "drop table none", "drop table part",
    };
    for (size_t i = 0; i < sizeof CHANGES / sizeof CHANGES[0]; i++)
        for (int pieces = 1; pieces < 6; pieces++) {
            is_ended_by(CHANGES[i], pieces, 0);
            is_ended_by(CHANGES[i], pieces, 1);
        }
}

static void loads_and_pieces_are_told_too(void)
{
    mmdb db = company();
    mmdb_save_mark mark = MMDB_SAVE_BEGIN;
    goes_on(&db, &mark);
    GIVES(load(&db, "load none 5", "id\n1\n", NULL), MMDB_DONE);
    is_told_as_changed(&db, mark);
    mark = BEGIN;
    goes_on(&db, &mark);
    GIVES(feed(&db, "insert none (2)"), MMDB_DONE);
    goes_on(&db, &mark);
    GIVES(feed(&db, "\n"), MMDB_DONE);
    is_told_as_changed(&db, mark);
    mmdb_close(&db);
}

/* What changes no row between two pieces ends no save, which has all as ever, and leaves rows and the stream as they are. */
static void what_changes_nothing_ends_no_save(void)
{
    mmdb db = company();
    mmdb_save_mark mark = MMDB_SAVE_BEGIN;
    dump of = { NULL, 0, 0 }, as = dump_of(COMPANY);
    mmdb_statement all = prepared(&db, "select * from emp");
    mmdb_bytes piece;
    mmdb_rows rows;
    GIVES(mmdb_execute(&db, all.number, &rows), MMDB_DONE);
    for (int i = 0; i < MOST_PIECES && mark.part != MMDB_SAVE_OVER; i++) {
        GIVES(mmdb_save(&db, &mark, &piece), MMDB_DONE);
        append(&of, piece.at, piece.length);
        CHECK(rows.rows == 4 && is_text(&rows, 1, 2, "shoes") && is_text(&rows, 2, 1, "\n"));
        GIVES(mmdb_execute(&db, all.number, &rows), MMDB_DONE);
        GIVES(command(&db, "insert emp (1, '', null, 1)", NULL), MMDB_DONE);
        GIVES(mmdb_refusal(&db), 41);
        GIVES(command(&db, "delete part where id > 100", NULL), MMDB_DONE);
        GIVES(command(&db, "dump emp", NULL), MMDB_DONE);
        GIVES(mmdb_begin(&db), MMDB_DONE);
        GIVES(mmdb_commit(&db), MMDB_DONE);
        GIVES(feed(&db, i == 0 ? "insert none " : ""), MMDB_DONE);
    }
    CHECK(are_equal(&of, &as));
    GIVES(feed(&db, "(4)\n"), MMDB_DONE);
    GIVES(mmdb_answer(&db, &piece), MMDB_DONE);
    CHECK(reads(piece, "ok 1\n"));
    frees(&of);
    frees(&as);
    mmdb_close(&db);
}

/* What a save takes is for one piece, however many there are, and nothing is to be given back if it ends early. */
static void a_save_holds_a_piece(void)
{
    const filling with = { "", has_many_rows, SMALL_BLOCK };
    mmdb db = filled(&with);
    mmdb_save_mark mark = MMDB_SAVE_BEGIN;
    const long held = allocations_bytes();
    while (mark.part != MMDB_SAVE_OVER && checks_failed == 0) {
        goes_on(&db, &mark);
        CHECK(allocations_bytes() - held < 4 * SMALL_BLOCK + MOST_SPARE);
    }
    mark = BEGIN;
    for (int i = 0; i < 50; i++)
        goes_on(&db, &mark);
    mmdb_close(&db);
}

/* An index that comes or goes changes no table. The dump has it where it wasn't written yet. */
static void an_index_may_come_and_go(void)
{
    mmdb db = company();
    mmdb_save_mark mark = MMDB_SAVE_BEGIN;
    dump rest;
    goes_on(&db, &mark);
    does(&db, "index part made hash");
    does(&db, "drop index emp boss tree");
    rest = saved_from(&db, mark, MMDB_MOST);
    frees(&rest);
    rest = saved(&db, MMDB_MOST);
    mmdb other = restored(&rest, 100, MMDB_MOST);
    CHECK(are_alike(&db, &other));
    frees(&rest);
    mmdb_close(&other);
    mmdb_close(&db);
}

static uint64_t drawn_last = 1;

static uint64_t drawn(uint64_t below)
{
    drawn_last = drawn_last * UINT64_C(6364136223846793005) + UINT64_C(1442695040888963407);
    return (drawn_last >> 33) % below;
}

/* A number that a mark may be given, and mostly one near those that it has. */
static uint64_t any_number(uint64_t most)
{
    const uint64_t any[] = { drawn(8), drawn(8), drawn(8), drawn(20000), most, most - drawn(4), most / 2, UINT64_C(1) << drawn(64) };
    return any[drawn(sizeof any / sizeof any[0])];
}

/* Whatever stands in a mark, a call ends with a piece or says that the tables changed, and nothing becomes of them. */
static void any_mark_may_be_given(const filling *with)
{
    mmdb db = filled(with);
    dump before = saved(&db, with->most), after;
    mmdb_save_mark of_it = MMDB_SAVE_BEGIN;
    goes_on(&db, &of_it);
    for (int i = 0; i < MARKS; i++) {
        mmdb_save_mark mark = { drawn(4) ? of_it.version : any_number(UINT64_MAX), (size_t)any_number(SIZE_MAX),
                                (uint32_t)any_number(UINT32_MAX), (uint32_t)any_number(UINT32_MAX) };
        mmdb_status status = MMDB_DONE;
        for (int piece = 0; piece < 8 && status == MMDB_DONE; piece++) {
            const mmdb_save_mark given = mark;
            mmdb_bytes told = { NULL, 7 };
            status = mmdb_save(&db, &mark, &told);
            CHECK(status == MMDB_DONE || (status == MMDB_CHANGED && are_same_marks(mark, given)));
            CHECK(is_piece(told, with->most));
        }
    }
    after = saved(&db, with->most);
    CHECK(are_equal(&before, &after));
    frees(&before);
    frees(&after);
    mmdb_close(&db);
}

/* ---- transactions and shared tables */

static void a_transaction_is_saved(void)
{
    mmdb db = company(), other;
    dump of;
    GIVES(mmdb_begin(&db), MMDB_DONE);
    does(&db, "delete part");
    does(&db, "insert none (5)");
    GIVES(mmdb_begin(&db), MMDB_DONE);
    does(&db, "drop table part");
    does(&db, "table more (id int, e ref emp null)");
    does(&db, "insert more (1, 3)");
    of = saved(&db, MMDB_MOST);
    other = restored(&of, 50, MMDB_MOST);
    CHECK(are_alike(&db, &other) && mmdb_transactions(&db) == 2);
    frees(&of);
    mmdb_close(&other);
    GIVES(mmdb_rollback(&db), MMDB_DONE);
    GIVES(mmdb_rollback(&db), MMDB_DONE);
    is_saved_as(&db, COMPANY);
    mmdb_close(&db);
}

static void a_rollback_between_pieces_is_told(void)
{
    mmdb db = company();
    mmdb_save_mark mark = MMDB_SAVE_BEGIN;
    GIVES(mmdb_begin(&db), MMDB_DONE);
    does(&db, "insert none (5)");
    goes_on(&db, &mark);
    goes_on(&db, &mark);
    GIVES(mmdb_rollback(&db), MMDB_DONE);
    is_told_as_changed(&db, mark);
    is_saved_as(&db, COMPANY);
    GIVES(mmdb_begin(&db), MMDB_DONE);
    mark = BEGIN;
    goes_on(&db, &mark);
    GIVES(mmdb_commit(&db), MMDB_DONE);
    goes_on(&db, &mark);
    mmdb_close(&db);
}

static void readers_save(void)
{
    mmdb db = company(), reader = MMDB_CLOSED;
    mmdb_save_mark mark = MMDB_SAVE_BEGIN, of_reader = MMDB_SAVE_BEGIN;
    GIVES(mmdb_share(&db, &reader), MMDB_DONE);
    is_saved_as(&reader, COMPANY);
    is_saved_as(&db, COMPANY);
    goes_on(&db, &mark);
    goes_on(&reader, &of_reader);
    GIVES(command(&db, "delete part", NULL), MMDB_SHARED);
    goes_on(&db, &mark);
    goes_on(&reader, &of_reader);
    GIVES(mmdb_leave(&reader), MMDB_DONE);
    is_saved_as(&reader, EMPTY);
    does(&db, "delete part");
    is_told_as_changed(&db, mark);
    mmdb_close(&db);
    mmdb_close(&reader);
}

/* The last handle of tables saves them, whose others were closed. */
static void a_reader_saves_alone(void)
{
    mmdb db = company(), reader = MMDB_CLOSED;
    GIVES(mmdb_share(&db, &reader), MMDB_DONE);
    mmdb_close(&db);
    is_saved_as(&reader, COMPANY);
    does(&reader, "delete part");
    mmdb_close(&reader);
}

/* ---- what no dump can hold */

/* Saves until a piece is refused, which goes on to be. */
static void is_unsaved(mmdb *db, const char *answer)
{
    mmdb_save_mark mark = MMDB_SAVE_BEGIN;
    mmdb_status status = MMDB_DONE;
    mmdb_bytes piece;
    for (int i = 0; i < MOST_PIECES && status == MMDB_DONE && mark.part != MMDB_SAVE_OVER; i++) {
        const mmdb_save_mark before = mark;
        status = mmdb_save(db, &mark, &piece);
        CHECK(status == MMDB_DONE || are_same_marks(mark, before));
    }
    GIVES(status, MMDB_REFUSED);
    CHECK(reads(piece, "") && is_refused_by(db, answer));
    gives_no_piece(db, mark, MMDB_REFUSED);
    CHECK(is_refused_by(db, answer));
}

static void a_row_without_room_is_told(void)
{
    mmdb db = MMDB_CLOSED;
    GIVES(mmdb_open(&db, MMDB_AUTO, MMDB_MOST, 40), MMDB_DONE);
    does(&db, "table t (id int, s text)");
    does(&db, "insert t (0, 'x')");
    /* (the names of the columns are five bytes, and the record has three more than its text) */
    INSERTS(&db, "insert t (1, ?)", text("xxxxxxxxxxxxxxxxxxxxxxxxxxxxxxxx"));
    dump of = saved(&db, 40);
    mmdb other = restored(&of, 3, 40);
    CHECK(are_alike(&db, &other));
    mmdb_close(&other);
    frees(&of);
    does(&db, "update t set s = 'xxxxxxxxxxxxxxxxxxxxxxxxxxxxxxxxx' where id = 1");
    is_unsaved(&db, "error 64 dump too long\n");
    does(&db, "update t set s = 'xxxxxxxxxxxxxxxxxxxxxxxxxxxxxx\"' where id = 1");
    is_unsaved(&db, "error 64 dump too long\n");
    does(&db, "delete t where id = 1");
    is_saved_as(&db, "# mmdb dump 1\ntable t (id int, s text)\nload t 9\nid,s\n0,x\n# end of the dump: 1 tables, 1 rows\n");
    mmdb_close(&db);
}

static void a_row_that_no_line_sets_is_told(void)
{
    mmdb db = company();
    does(&db, "table u (k text, d ref dept null, e ref dept null)");
    INSERTS(&db, "insert u (?, ?, ?)", text("a"), text(""), text("shoes"));
    INSERTS(&db, "insert u (?, ?, ?)", text("a\nb"), nothing(), text("shoes"));
    dump of = saved(&db, MMDB_MOST);
    frees(&of);
    INSERTS(&db, "insert u (?, ?, ?)", text("a\nc"), nothing(), text(""));
    is_unsaved(&db, "error 20 not a command\n");
    does(&db, "update u set e = null where e = ''");
    of = saved(&db, MMDB_MOST);
    mmdb other = restored(&of, 9, MMDB_MOST);
    CHECK(are_alike(&db, &other));
    mmdb_close(&other);
    frees(&of);
    does(&db, "update u set d = ''");
    is_unsaved(&db, "error 20 not a command\n");
    mmdb_close(&db);
}

/* ---- each status of a save */

static void save_gives_each_status(void)
{
    mmdb db = MMDB_CLOSED;
    mmdb_save_mark mark = MMDB_SAVE_BEGIN;
    mmdb_bytes piece = { NULL, 7 };
    gives_no_piece(NULL, mark, MMDB_NOT_OPEN);
    gives_no_piece(&db, mark, MMDB_NOT_OPEN);
    GIVES(mmdb_save(NULL, NULL, NULL), MMDB_NOT_OPEN);
    GIVES(mmdb_save(&db, NULL, &piece), MMDB_NOT_OPEN);
    CHECK(piece.at != NULL && piece.length == 0);
    db = company();
    piece.length = 7;
    GIVES(mmdb_save(&db, NULL, &piece), MMDB_NOT_OPEN);
    CHECK(piece.at != NULL && piece.length == 0);
    GIVES(mmdb_save(&db, NULL, NULL), MMDB_NOT_OPEN);
    for (int i = 0; i < MOST_PIECES && mark.part != MMDB_SAVE_OVER; i++)
        GIVES(mmdb_save(&db, &mark, NULL), MMDB_DONE);
    CHECK(mark.part == MMDB_SAVE_OVER);
    mmdb_close(&db);
    gives_no_piece(&db, mark, MMDB_NOT_OPEN);
    gives_no_piece(&db, BEGIN, MMDB_NOT_OPEN);
}

/* ---- what is written for other programs */

static void write_file(const char *folder, const filling *of, const char *ending, const dump *content)
{
    char name[LONGEST_NAME];
    FILE *file;
    snprintf(name, sizeof name, "%s/%s.%s", folder, of->name, ending);
    file = fopen(name, "wb");
    CHECK(file != NULL && fwrite(content->at, 1, content->length, file) == content->length && fclose(file) == 0);
}

static void write_each(const char *folder)
{
    for (size_t i = 0; i < FILLING_COUNT; i++) {
        mmdb db = filled(&FILLINGS[i]);
        dump of = saved(&db, FILLINGS[i].most), all = all_of(&db, 0);
        write_file(folder, &FILLINGS[i], "mmdb", &of);
        write_file(folder, &FILLINGS[i], "told", &all);
        frees(&of);
        frees(&all);
        mmdb_close(&db);
    }
}

static void check_all(void)
{
    dumps_are_as_written();
    blocks_are_cut_under_each_limit();
    each_is_saved_and_restored();
    a_mark_may_be_copied();
    changes_between_pieces_are_told();
    loads_and_pieces_are_told_too();
    what_changes_nothing_ends_no_save();
    a_save_holds_a_piece();
    an_index_may_come_and_go();
    for (size_t i = 0; i < FILLING_COUNT; i++)
        any_mark_may_be_given(&FILLINGS[i]);
    a_transaction_is_saved();
    a_rollback_between_pieces_is_told();
    readers_save();
    a_reader_saves_alone();
    a_row_without_room_is_told();
    a_row_that_no_line_sets_is_told();
    save_gives_each_status();
}

int main(int count, char **words)
{
    if (count == 2)
        write_each(words[1]);
    else
        check_all();
    CHECK(allocations_held() == 0);
    return checks_failed != 0;
}
