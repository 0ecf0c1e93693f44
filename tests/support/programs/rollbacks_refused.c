/* Refuses each call for memory of each change in a transaction in turn. A change that is refused by 90 has changed nothing,
   and is done when it is asked for again. The rollbacks behind it call for no memory, and restore what there was. A twin,
   which is never refused anything, tells what there is. */
#include "allocations.h"
#include "checking.h"

enum { ROOM = 65536 };

#define LONG "a text that is longer than fourteen bytes"

/* A line and its block, which are a query where there is no block; or a transaction that begins, which has no line. */
typedef struct step {
    const char *line;
    const char *block;
} step;

static const step DECLARED[] = {
    { "table dept (id int, name text)", "" },
    { "table emp (id int, name text, dept ref dept null, n int)", "" },
    { "index emp name tree", "" },
    { "index emp name hash", "" },
    { "index emp dept hash", "" },
    { "index emp n tree", "" },
    { "load dept 31", "id,name\n1,toys\n2,shoes\n3,\"a\nb\"\n" },
    { "load emp 42", "id,name,dept,n\n1,Al,1,5\n2,Bo,2,4\n3,Cy,1,3\n" },
};

static const step STEPS[] = {
    { NULL, NULL },
    { "insert emp (4, '" LONG "', 2, 2)", NULL },
    { "insert emp (5, 'Ed', null, 1)", "" },
    { "load emp 92", "id,name,dept,n\n6," LONG ",1,9\n7,Flo,,8\n8,Gus,2,7\n9,Hal,1,6\n" },
    { "update emp set name = '" LONG " too', dept = 2 where id > 2", NULL },
    { "table made (id int, dept ref dept null, what text)", "" },
    { "insert made (1, 1, '" LONG "')", NULL },
    { "index made what tree", "" },
    { NULL, NULL },
    { "delete emp where id > 5", "" },
    { "index emp dept tree", "" },
    { "table more (id text, made ref made)", "" },
    { "insert more ('" LONG "', 1)", "" },
    { "index made dept hash", "" },
    { "load made 37", "id,dept,what\n2,,Mo\n3,2,Tu\n4,1,\n5,,We\n" },
    { "insert emp (6, '" LONG "', 1, 9)", NULL },
    { "update emp set n = 7, name = 'short'", "" },
    { "update emp set dept = 3 where id = 1", NULL },
    { "update emp set dept = null, n = 8 where dept = 3", "" },
    { "delete dept where id = 3", NULL },
    { "index emp n hash", "" },
    { "delete emp", NULL },
    { "load emp 31", "id,name,dept,n\n1,It,,1\n2,Jo,,2\n" },
};

enum { MOST_STEPS = sizeof STEPS / sizeof STEPS[0], MOST_DECLARED = sizeof DECLARED / sizeof DECLARED[0] };

/* How a step ended. */
typedef enum outcome { DONE, REFUSED_BY_90 } outcome;

static outcome outcome_of(mmdb *db, mmdb_status status)
{
    const int is_refused = status == MMDB_NO_MEMORY || mmdb_refusal(db) == 90;
    CHECK(is_refused || (status == MMDB_DONE && mmdb_refusal(db) == 0));
    return is_refused ? REFUSED_BY_90 : DONE;
}

static outcome do_step(mmdb *db, step of)
{
    if (!of.line)
        return mmdb_begin(db) == MMDB_DONE ? DONE : REFUSED_BY_90;
    if (of.block)
        return outcome_of(db, load(db, of.line, of.block, NULL));
    return outcome_of(db, mmdb_query(db, of.line, strlen(of.line), NULL));
}

/* What the questions are answered that tell all that a handle has. */
typedef struct state {
    unsigned char bytes[ROOM];
    size_t length;
} state;

static void look(mmdb *db, state *to)
{
    static const char *const QUESTIONS[] = {
        "tables", "dump dept", "dump emp", "select * from emp where name >= ''", "select * from emp where name = '" LONG "'",
        "select * from emp where name = 'short'", "select * from emp where dept = 1", "select * from emp where dept = 2",
        "select * from emp where dept = null", "select * from emp where n > 0", "select * from emp where id >= 0",
        "select * from emp where dept >= 2", "select * from emp where n = 7", "dump made", "dump more",
        "select * from made where what >= 'N'", "select * from made where dept = 1",
        "select more.id, made.what from more join made on more.made = made.id",
        "select * from dept where id >= 0", "select emp.id, dept.name from emp join dept on emp.dept = dept.id",
    };
    mmdb_bytes answer;
    to->length = 0;
    for (size_t i = 0; i < sizeof QUESTIONS / sizeof QUESTIONS[0]; i++) {
        GIVES(command(db, QUESTIONS[i], &answer), MMDB_DONE);
        CHECK(to->length + answer.length <= ROOM);
        memcpy(to->bytes + to->length, answer.at, answer.length);
        to->length += answer.length;
    }
}

static int is_as(mmdb *one, mmdb *other)
{
    static state first, second;
    look(one, &first);
    look(other, &second);
    return first.length == second.length && memcmp(first.bytes, second.bytes, first.length) == 0;
}

static void open_declared(mmdb *db)
{
    mmdb_bytes answer;
    GIVES(mmdb_open(db, MMDB_AUTO, MMDB_MOST, MMDB_MOST), MMDB_DONE);
    for (size_t i = 0; i < MOST_DECLARED; i++) {
        GIVES(load(db, DECLARED[i].line, DECLARED[i].block, &answer), MMDB_DONE);
        CHECK(answer.length >= 2 && memcmp(answer.at, "ok", 2) == 0);
    }
}

static void open_after(mmdb *db, size_t steps)
{
    open_declared(db);
    for (size_t i = 0; i < steps; i++)
        CHECK(do_step(db, STEPS[i]) != REFUSED_BY_90);
}

/* Rolls all back, which calls for no memory. */
static void roll_back(mmdb *db)
{
    while (mmdb_transactions(db) != 0) {
        allocations_refuse(0, 1);
        GIVES(mmdb_rollback(db), MMDB_DONE);
        CHECK(allocations_asked() == 0);
        CHECK(allocations_refused() == 0);
        allocations_refuse(0, 0);
    }
}

/* Does a step after those before it, with the call for memory behind so many refused. Gives whether one was. */
static int is_refused(size_t number, long met, long *refused_by_90)
{
    mmdb db = MMDB_CLOSED, twin = MMDB_CLOSED, declared = MMDB_CLOSED;
    outcome ends;
    long refused;
    open_after(&db, number);
    open_after(&twin, number);
    open_declared(&declared);
    allocations_refuse(met, 1);
    ends = do_step(&db, STEPS[number]);
    refused = allocations_refused();
    allocations_refuse(0, 0);
    if (ends == REFUSED_BY_90) {
        CHECK(refused == 1);
        CHECK(mmdb_transactions(&db) == mmdb_transactions(&twin));
        CHECK(is_as(&db, &twin));
        ends = met % 2 == 0 ? do_step(&db, STEPS[number]) : REFUSED_BY_90;
        ++*refused_by_90;
    }
    if (ends != REFUSED_BY_90)
        CHECK(do_step(&twin, STEPS[number]) == ends);
    CHECK(is_as(&db, &twin));
    roll_back(&db);
    CHECK(is_as(&db, &declared));
    mmdb_close(&db);
    mmdb_close(&twin);
    mmdb_close(&declared);
    CHECK(allocations_held() == 0);
    return refused != 0;
}

/* The words of the steps. That of a transaction that begins has no letters. */
static const char *const WORDS[] = { "insert", "load", "update", "delete", "table", "index", "" };

enum { KINDS = sizeof WORDS / sizeof WORDS[0] };

static size_t kind_of(step of)
{
    size_t kind = 0;
    while (kind < KINDS - 1 && !(of.line && strncmp(of.line, WORDS[kind], strlen(WORDS[kind])) == 0))
        kind++;
    return kind;
}

int main(void)
{
    long refused_by_90[KINDS] = { 0 };
    for (size_t number = 0; number < MOST_STEPS; number++) {
        long met = 0;
        while (is_refused(number, met, &refused_by_90[kind_of(STEPS[number])]))
            met++;
    }
    for (size_t kind = 0; kind < KINDS; kind++)
        CHECK(refused_by_90[kind] > 0);
    return checks_failed != 0;
}
