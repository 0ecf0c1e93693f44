/* Meets each status of each call, each kind of null pointer, and the ends of what an answer is good for. */
#include "allocations.h"
#include "checking.h"

static const char TABLE[] = "table t (id int, s text)";

/* An answer that no call has given, to see that a call gives one. */
static mmdb_bytes another(void)
{
    mmdb_bytes answer = { (const unsigned char *)"before", 6 };
    return answer;
}

static void open_gives_each_status(void)
{
    mmdb db = MMDB_CLOSED;
    void *inside;
    GIVES(mmdb_open(NULL, MMDB_AUTO, MMDB_MOST, MMDB_MOST), MMDB_NOT_OPEN);
    GIVES(mmdb_open(&db, MMDB_MERGE + 1, MMDB_MOST, MMDB_MOST), MMDB_NO_SUCH_POLICY);
    GIVES(mmdb_open(&db, UINT32_MAX, MMDB_MOST, MMDB_MOST), MMDB_NO_SUCH_POLICY);
    GIVES(mmdb_open(&db, MMDB_AUTO, 0, MMDB_MOST), MMDB_LIMIT_OUT_OF_RANGE);
    GIVES(mmdb_open(&db, MMDB_AUTO, MMDB_MOST + 1, MMDB_MOST), MMDB_LIMIT_OUT_OF_RANGE);
    GIVES(mmdb_open(&db, MMDB_AUTO, UINT32_MAX, 0), MMDB_LIMIT_OUT_OF_RANGE);
    GIVES(mmdb_open(&db, MMDB_AUTO, 1, MMDB_MOST + 1), MMDB_LIMIT_OUT_OF_RANGE);
    allocations_refuse(0, 1);
    GIVES(mmdb_open(&db, MMDB_AUTO, MMDB_MOST, MMDB_MOST), MMDB_NO_MEMORY);
    CHECK(allocations_refused() == 1);
    CHECK(db.inside == NULL);
    GIVES(mmdb_open(&db, MMDB_AUTO, MMDB_MOST, MMDB_MOST), MMDB_DONE);
    inside = db.inside;
    GIVES(mmdb_open(&db, MMDB_AUTO, MMDB_MOST, MMDB_MOST), MMDB_IS_OPEN);
    GIVES(mmdb_open(&db, UINT32_MAX, 0, UINT32_MAX), MMDB_IS_OPEN);
    CHECK(inside != NULL && db.inside == inside);
    mmdb_close(&db);
    CHECK(db.inside == NULL);
}

static void each_policy_and_the_ends_of_the_limits_are_opened(void)
{
    mmdb_bytes answer;
    for (uint32_t policy = MMDB_AUTO; policy <= MMDB_MERGE; policy++) {
        mmdb db = MMDB_CLOSED;
        GIVES(mmdb_open(&db, policy, 1, 0), MMDB_DONE);
        GIVES(command(&db, TABLE, &answer), MMDB_DONE);
        GIVES(command(&db, "insert t (1, 'a')", &answer), MMDB_DONE);
        CHECK(reads(answer, "ok 1\n"));
        GIVES(command(&db, "insert t (2, 'b')", &answer), MMDB_DONE);
        CHECK(reads(answer, "error 43 table full\n"));
        GIVES(load(&db, "load t 5", "id,s\n", &answer), MMDB_DONE);
        CHECK(reads(answer, "error 12 block too long\n"));
        mmdb_close(&db);
    }
}

static void a_closed_handle_is_told(mmdb *db)
{
    mmdb_bytes answer = another();
    GIVES(command(db, TABLE, &answer), MMDB_NOT_OPEN);
    CHECK(reads(answer, ""));
    answer = another();
    GIVES(load(db, "load t 5", "id,s\n", &answer), MMDB_NOT_OPEN);
    CHECK(reads(answer, ""));
    answer = another();
    GIVES(mmdb_answer(db, &answer), MMDB_NOT_OPEN);
    CHECK(reads(answer, ""));
    GIVES(mmdb_command(db, NULL, 0, NULL), MMDB_NOT_OPEN);
    GIVES(mmdb_load(db, NULL, 0, NULL, 1, NULL), MMDB_NOT_OPEN);
    GIVES(mmdb_feed(db, NULL, 1), MMDB_NOT_OPEN);
    GIVES(feed(db, "tables\n"), MMDB_NOT_OPEN);
    GIVES(mmdb_answer(db, NULL), MMDB_NOT_OPEN);
    GIVES(mmdb_refusal(db), 0);
    answer = another();
    GIVES(mmdb_reason(db, TABLE, 5, NULL, 0, &answer), MMDB_NOT_OPEN);
    CHECK(reads(answer, ""));
    GIVES(mmdb_reason(db, NULL, 0, NULL, 1, NULL), MMDB_NOT_OPEN);
    answer = another();
    GIVES(mmdb_indexes(db, "t", 1, &answer), MMDB_NOT_OPEN);
    CHECK(reads(answer, ""));
    GIVES(mmdb_indexes(db, NULL, 1, NULL), MMDB_NOT_OPEN);
    answer = another();
    GIVES(mmdb_plan(db, TABLE, 5, &answer), MMDB_NOT_OPEN);
    CHECK(reads(answer, ""));
    GIVES(mmdb_plan(db, NULL, 1, NULL), MMDB_NOT_OPEN);
    mmdb_close(db);
}

static void command_gives_each_status(mmdb *db)
{
    mmdb_bytes answer;
    GIVES(command(db, TABLE, &answer), MMDB_DONE);
    CHECK(reads(answer, "ok\n"));
    GIVES(command(db, "tables\r", NULL), MMDB_DONE);
    GIVES(mmdb_command(db, "insert t (1, 'a')nothing of this", 17, &answer), MMDB_DONE);
    CHECK(reads(answer, "ok 1\n"));
    GIVES(command(db, " # a comment", &answer), MMDB_DONE);
    CHECK(reads(answer, ""));
    answer = another();
    GIVES(mmdb_command(db, NULL, 0, &answer), MMDB_NO_LINE);
    CHECK(reads(answer, ""));
    GIVES(mmdb_command(db, NULL, 5, &answer), MMDB_NO_LINE);
    GIVES(mmdb_command(db, "tables", 0, &answer), MMDB_NO_LINE);
    answer = another();
    GIVES(command(db, "delete t\n", &answer), MMDB_NOT_ONE_REQUEST);
    CHECK(reads(answer, ""));
    GIVES(command(db, "\n", &answer), MMDB_NOT_ONE_REQUEST);
    GIVES(command(db, "delete t\ndelete t", &answer), MMDB_NOT_ONE_REQUEST);
    GIVES(command(db, "load t 5", &answer), MMDB_NOT_ONE_REQUEST);
    GIVES(command(db, "load t 0", &answer), MMDB_DONE);
    CHECK(reads(answer, "error 61 bad header\n"));
    GIVES(command(db, "select * from t", &answer), MMDB_DONE);
    CHECK(reads(answer, "rows 1\nt.id,t.s\n1,a\n"));
}

static void load_gives_each_status(mmdb *db)
{
    mmdb_bytes answer;
    GIVES(load(db, "load t 9", "id,s\n2,b\n", &answer), MMDB_DONE);
    CHECK(reads(answer, "ok 1\n"));
    GIVES(load(db, "load t 9\r", "id,s\n2,b\n", &answer), MMDB_DONE);
    CHECK(reads(answer, "error 41 key exists (record 1)\n"));
    GIVES(mmdb_load(db, "load t 0", 8, NULL, 0, &answer), MMDB_DONE);
    CHECK(reads(answer, "error 61 bad header\n"));
    GIVES(mmdb_load(db, "tables", 6, NULL, 0, NULL), MMDB_DONE);
    answer = another();
    GIVES(mmdb_load(db, NULL, 0, "id,s\n", 5, &answer), MMDB_NO_LINE);
    CHECK(reads(answer, ""));
    GIVES(mmdb_load(db, "load t 5", 0, "id,s\n", 5, &answer), MMDB_NO_LINE);
    GIVES(mmdb_load(db, "load t 5", 8, NULL, 5, &answer), MMDB_NO_LINE);
    answer = another();
    GIVES(load(db, "load t 5\n", "id,s\n", &answer), MMDB_NOT_ONE_REQUEST);
    CHECK(reads(answer, ""));
    GIVES(load(db, "load t 5", "id,s", &answer), MMDB_NOT_ONE_REQUEST);
    GIVES(load(db, "load t 4", "id,s\n", &answer), MMDB_NOT_ONE_REQUEST);
    GIVES(load(db, "delete t", "id,s\n", &answer), MMDB_NOT_ONE_REQUEST);
    GIVES(mmdb_load(db, "load t 5", 8, NULL, 0, &answer), MMDB_NOT_ONE_REQUEST);
    GIVES(command(db, "select id from t", &answer), MMDB_DONE);
    CHECK(reads(answer, "rows 2\nt.id\n1\n2\n"));
}

static void feed_gives_each_status(mmdb *db)
{
    mmdb_bytes answer;
    GIVES(mmdb_feed(db, NULL, 0), MMDB_DONE);
    GIVES(mmdb_feed(db, NULL, 1), MMDB_NO_LINE);
    GIVES(feed(db, "insert t (3, 'c')\nload t 9\nid,"), MMDB_DONE);
    GIVES(mmdb_answer(db, &answer), MMDB_DONE);
    CHECK(reads(answer, "ok 1\n"));
    GIVES(command(db, "delete t where id = 3", &answer), MMDB_DONE);
    CHECK(reads(answer, "ok 1\n"));
    GIVES(feed(db, "s\n3,d\ninsert t (3, 'e')\n"), MMDB_DONE);
    GIVES(mmdb_answer(db, NULL), MMDB_DONE);
    GIVES(mmdb_answer(db, &answer), MMDB_DONE);
    CHECK(reads(answer, "ok 1\nerror 41 key exists\n"));
    GIVES(feed(db, "select s from t where id"), MMDB_DONE);
    GIVES(mmdb_answer(db, &answer), MMDB_DONE);
    CHECK(reads(answer, ""));
    GIVES(feed(db, " = 3\n"), MMDB_DONE);
    GIVES(mmdb_answer(db, &answer), MMDB_DONE);
    CHECK(reads(answer, "rows 1\nt.s\nd\n"));
}

/* A hundred answers in one piece, with no memory for them, end the stream and nothing else. */
static void a_stream_ends_where_its_answers_find_no_room(mmdb *db)
{
    mmdb_bytes answer;
    char piece[2000] = "";
    for (int line = 0; line < 100; line++)
        strcat(piece, "select * from t\n");
    allocations_refuse(0, 1000000);
    GIVES(feed(db, piece), MMDB_NO_MEMORY);
    CHECK(allocations_refused() > 0);
    allocations_refuse(0, 0);
    GIVES(feed(db, "tables\n"), MMDB_ENDED);
    GIVES(mmdb_feed(db, NULL, 0), MMDB_ENDED);
    GIVES(command(db, "select id from t", &answer), MMDB_DONE);
    CHECK(reads(answer, "rows 3\nt.id\n1\n2\n3\n"));
    GIVES(load(db, "load t 9", "id,s\n4,f\n", &answer), MMDB_DONE);
    CHECK(reads(answer, "ok 1\n"));
}

static void answers_and_refusals_are_those_of_the_last_call(mmdb *db)
{
    mmdb_bytes answer, again;
    GIVES(command(db, "insert t (1, 'x')", &answer), MMDB_DONE);
    GIVES(mmdb_refusal(db), 41);
    GIVES(mmdb_refusal(db), 41);
    GIVES(mmdb_answer(db, &again), MMDB_DONE);
    CHECK(reads(again, "error 41 key exists\n"));
    CHECK(again.at == answer.at && again.length == answer.length);
    GIVES(command(db, "select id from t where id = 1", NULL), MMDB_DONE);
    GIVES(mmdb_refusal(db), 0);
    GIVES(command(db, "# nothing", &answer), MMDB_DONE);
    GIVES(mmdb_refusal(db), 0);
    GIVES(command(db, "noise", &answer), MMDB_DONE);
    GIVES(mmdb_refusal(db), 20);
}

static void reason_gives_each_status(mmdb *db)
{
    mmdb_bytes answer, reason;
    GIVES(command(db, "select nothing from t", &answer), MMDB_DONE);
    GIVES(mmdb_reason(db, "select nothing from t", 21, NULL, 0, &reason), MMDB_DONE);
    CHECK(reads(reason, "nothing is no column of t"));
    GIVES(mmdb_reason(db, "select nothing from t\r", 22, "", 0, NULL), MMDB_DONE);
    CHECK(reads(answer, "error 32 no such column\n"));
    GIVES(mmdb_refusal(db), 32);
    GIVES(mmdb_reason(db, "insert t (1, 'x')", 17, NULL, 0, &reason), MMDB_DONE);
    CHECK(reads(reason, ""));
    allocations_refuse(0, 1);
    reason = another();
    GIVES(mmdb_reason(db, "select nothing from t", 21, NULL, 0, &reason), MMDB_NO_MEMORY);
    CHECK(reads(reason, ""));
    CHECK(allocations_refused() == 1);
    allocations_refuse(0, 0);
    GIVES(mmdb_reason(db, "", 0, NULL, 0, &reason), MMDB_NO_LINE);
    GIVES(mmdb_reason(db, NULL, 0, NULL, 0, &reason), MMDB_NO_LINE);
    GIVES(mmdb_reason(db, "tables", 6, NULL, 1, &reason), MMDB_NO_LINE);
    GIVES(mmdb_answer(db, &answer), MMDB_DONE);
    CHECK(reads(answer, "error 32 no such column\n"));
    GIVES(load(db, "load t 9", "id,s\n1,b\n", &answer), MMDB_DONE);
    GIVES(mmdb_reason(db, "load t 9", 8, "id,s\n1,b\n", 9, &reason), MMDB_DONE);
    CHECK(reads(reason, "t has a row with the key 1"));
    GIVES(command(db, "tables", NULL), MMDB_DONE);
    GIVES(mmdb_reason(db, "noise", 5, NULL, 0, &reason), MMDB_DONE);
    CHECK(reads(reason, ""));
}

static void indexes_give_each_status(mmdb *db)
{
    mmdb_bytes answer;
    static const char heading[] = "column,kind,rows,height,nodes,fill,buckets,longest\n";
    char expected[200];
    GIVES(command(db, "table indexed (id int, s text)", NULL), MMDB_DONE);
    GIVES(command(db, "index indexed s hash", NULL), MMDB_DONE);
    GIVES(mmdb_indexes(db, "indexed", 7, &answer), MMDB_DONE);
    snprintf(expected, sizeof expected, "rows 2\n%sid,tree,0,0,0,0,,\ns,hash,0,,,,4,0\n", heading);
    CHECK(reads(answer, expected));
    GIVES(mmdb_answer(db, &answer), MMDB_DONE);
    CHECK(reads(answer, expected));
    GIVES(mmdb_refusal(db), 0);
    GIVES(mmdb_indexes(db, "indexed", 7, NULL), MMDB_DONE);
    GIVES(mmdb_indexes(db, "indexed\n", 8, &answer), MMDB_DONE);
    CHECK(reads(answer, "error 30 no such table\n"));
    GIVES(mmdb_refusal(db), 30);
    GIVES(mmdb_reason(db, "dump indexe", 11, NULL, 0, &answer), MMDB_DONE);
    CHECK(reads(answer, "indexe is no table: is indexed meant?"));
    GIVES(mmdb_indexes(db, "\377", 1, &answer), MMDB_DONE);
    CHECK(reads(answer, "error 11 not UTF-8\n"));
    GIVES(mmdb_indexes(db, NULL, 0, &answer), MMDB_DONE);
    CHECK(reads(answer, "error 30 no such table\n"));
    answer = another();
    GIVES(mmdb_indexes(db, NULL, 1, &answer), MMDB_NO_LINE);
    CHECK(reads(answer, ""));
    GIVES(command(db, "drop table indexed", NULL), MMDB_DONE);
}

static void indexes_want_memory_for_their_answer(void)
{
    mmdb db = MMDB_CLOSED;
    mmdb_bytes answer;
    GIVES(mmdb_open(&db, MMDB_AUTO, MMDB_MOST, MMDB_MOST), MMDB_DONE);
    GIVES(command(&db, "table t (id int)", NULL), MMDB_DONE);
    allocations_refuse(0, 1);
    GIVES(mmdb_indexes(&db, "t", 1, &answer), MMDB_DONE);
    CHECK(reads(answer, "error 90 no memory\n"));
    CHECK(allocations_refused() == 1);
    allocations_refuse(0, 0);
    GIVES(mmdb_indexes(&db, "t", 1, &answer), MMDB_DONE);
    CHECK(reads(answer, "rows 1\ncolumn,kind,rows,height,nodes,fill,buckets,longest\nid,tree,0,0,0,0,,\n"));
    mmdb_close(&db);
}

static mmdb_status plan(mmdb *db, const char *line, mmdb_bytes *answer)
{
    return mmdb_plan(db, line, strlen(line), answer);
}

static void plan_gives_each_status(mmdb *db)
{
    mmdb_bytes answer;
    static const char told[] = "search of planned by the key, 0 rows\nshow the only row from where it lies\n";
    GIVES(command(db, "table planned (id int, s text)", NULL), MMDB_DONE);
    GIVES(plan(db, "select * from planned where id = 1\r", &answer), MMDB_DONE);
    CHECK(reads(answer, told));
    GIVES(mmdb_answer(db, &answer), MMDB_DONE);
    CHECK(reads(answer, told));
    GIVES(mmdb_refusal(db), 0);
    GIVES(plan(db, "select s from planned", NULL), MMDB_DONE);
    GIVES(plan(db, "select * from plannd", &answer), MMDB_REFUSED);
    CHECK(reads(answer, "error 30 no such table\n"));
    GIVES(mmdb_refusal(db), 30);
    GIVES(mmdb_reason(db, "select * from plannd", 20, NULL, 0, &answer), MMDB_DONE);
    CHECK(reads(answer, "plannd is no table: is planned meant?"));
    GIVES(plan(db, "delete planned", &answer), MMDB_REFUSED);
    CHECK(reads(answer, "error 20 not a command\n"));
    GIVES(plan(db, "tables", &answer), MMDB_REFUSED);
    CHECK(reads(answer, "error 20 not a command\n"));
    GIVES(plan(db, "\377", &answer), MMDB_REFUSED);
    CHECK(reads(answer, "error 11 not UTF-8\n"));
    answer = another();
    GIVES(plan(db, "", &answer), MMDB_NO_LINE);
    CHECK(reads(answer, ""));
    answer = another();
    GIVES(mmdb_plan(db, NULL, 1, &answer), MMDB_NO_LINE);
    CHECK(reads(answer, ""));
    GIVES(command(db, "drop table planned", NULL), MMDB_DONE);
}

static void plans_want_memory_for_their_words(mmdb *db)
{
    mmdb_bytes answer;
    static const char line[] = "select t.s from t join u on u.t = t.id where t.s = 'a'";
    mmdb_status status;
    long refused;
    int met = -1, refusals = 0;
    GIVES(command(db, "table u (id int, t ref t)", NULL), MMDB_DONE);
    do {
        allocations_refuse(++met, 1);
        status = plan(db, line, &answer);
        refused = allocations_refused();
        CHECK(status == MMDB_DONE || (refused > 0 && reads(answer, "error 90 no memory\n")));
        refusals += status == MMDB_REFUSED;
        allocations_refuse(0, 0);
    } while (refused > 0 && met < 1000);
    GIVES(status, MMDB_DONE);
    CHECK(refusals > 0);
    GIVES(command(db, "drop table u", NULL), MMDB_DONE);
}

static void each_status_has_words_of_its_own(void)
{
    for (uint32_t one = MMDB_DONE; one <= MMDB_CHANGED + 1; one++)
        for (uint32_t other = MMDB_DONE; other < one; other++)
            CHECK(strcmp(mmdb_status_text(one), mmdb_status_text(other)) != 0);
}

int main(void)
{
    mmdb db = MMDB_CLOSED;
    open_gives_each_status();
    each_policy_and_the_ends_of_the_limits_are_opened();
    a_closed_handle_is_told(NULL);
    a_closed_handle_is_told(&db);
    GIVES(mmdb_open(&db, MMDB_AUTO, MMDB_MOST, MMDB_MOST), MMDB_DONE);
    command_gives_each_status(&db);
    load_gives_each_status(&db);
    feed_gives_each_status(&db);
    answers_and_refusals_are_those_of_the_last_call(&db);
    a_stream_ends_where_its_answers_find_no_room(&db);
    answers_and_refusals_are_those_of_the_last_call(&db);
    reason_gives_each_status(&db);
    indexes_give_each_status(&db);
    indexes_want_memory_for_their_answer();
    plan_gives_each_status(&db);
    plans_want_memory_for_their_words(&db);
    mmdb_close(&db);
    a_closed_handle_is_told(&db);
    each_status_has_words_of_its_own();
    CHECK(allocations_held() == 0);
    return checks_failed != 0;
}
