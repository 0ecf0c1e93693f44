/* Refuses each call for memory of each request in turn. A request is then answered `error 90` and leaves everything as
   it was, or it is answered as with memory; so is a question about a plan or about indexes. Its reason is the same as with
   memory, or out of memory. A second handle, which is never refused anything, shows what is answered with memory. */
#include "allocations.h"
#include "checking.h"

/* FILLED is how many requests there are before the first that takes something away. */
enum { ROOM = 65536, FILLED = 10 };

typedef struct request {
    const char *line;
    const char *block;
} request;

static const request REQUESTS[] = {
    { "table dept (id int, name text)", "" },
    { "table emp (id int, name text, dept ref dept null)", "" },
    { "load dept 31", "id,name\n1,toys\n2,shoes\n3,\"a\nb\"\n" },
    { "insert emp (1, 'a name that is longer than a slot of few bytes', 2)", "" },
    { "index emp dept tree", "" },
    { "index emp name hash", "" },
    { "index dept name tree", "" },
    { "insert emp (2, 'Bob', null)", "" },
    { "load emp 45", "id,name,dept\n3,Cy,1\n4,Di,1\n5,,\n6,Ed,3\n7,Flo,\n" },
    { "load emp 21", "id,name,dept\n8,x,1\n1," },
    { "select * from emp", "" },
    { "select emp.name, dept.name from emp join dept on emp.dept = dept.id where emp.id > 1", "" },
    { "select distinct dept.name from emp join dept on emp.dept = dept.id", "" },
    { "update emp set dept = 3, name = 'another name that is as long as the first' where id <> 4", "" },
    { "update emp set dept = 9", "" },
    { "delete dept where id = 3", "" },
    { "delete emp where id > 3", "" },
    { "drop index emp dept tree", "" },
    { "dump emp", "" },
    { "tables", "" },
    { "drop table dept", "" },
    { "drop table emp", "" },
    { "# a comment", "" },
    { "noise", "" },
};

/* What the questions are answered that tell all that a handle has. */
typedef struct state {
    unsigned char bytes[ROOM];
    size_t length;
} state;

static void append(mmdb *db, const char *line, state *to)
{
    mmdb_bytes answer;
    GIVES(command(db, line, &answer), MMDB_DONE);
    CHECK(to->length + answer.length <= ROOM);
    memcpy(to->bytes + to->length, answer.at, answer.length);
    to->length += answer.length;
}

static int is_as(mmdb *one, mmdb *other)
{
    static const char *const QUESTIONS[] = {
        "tables", "dump dept", "dump emp", "select * from dept where name = 'toys'",
        "select * from emp where name = 'Bob'", "select id, dept from emp where dept >= 0",
    };
    static state first, second;
    first.length = second.length = 0;
    for (size_t i = 0; i < sizeof QUESTIONS / sizeof QUESTIONS[0]; i++) {
        append(one, QUESTIONS[i], &first);
        append(other, QUESTIONS[i], &second);
    }
    return first.length == second.length && memcmp(first.bytes, second.bytes, first.length) == 0;
}

static int is_answered_alike(mmdb_bytes one, mmdb_bytes other)
{
    return one.length == other.length && memcmp(one.at, other.at, one.length) == 0;
}

/* Opens a handle and asks it the first so many requests. */
static void open_after(mmdb *db, size_t count)
{
    GIVES(mmdb_open(db, MMDB_AUTO, MMDB_MOST, MMDB_MOST), MMDB_DONE);
    for (size_t i = 0; i < count; i++)
        GIVES(load(db, REQUESTS[i].line, REQUESTS[i].block, NULL), MMDB_DONE);
}

/* What became of a request one of whose calls for memory was refused. */
typedef enum outcome { NONE_WAS_REFUSED, ANSWERED_AS_EVER, ANSWERED_90 } outcome;

/* How the last call on a handle ended. No more calls for memory are refused. */
static outcome ended(mmdb *db)
{
    outcome ends = allocations_refused() == 0 ? NONE_WAS_REFUSED : mmdb_refusal(db) == 90 ? ANSWERED_90 : ANSWERED_AS_EVER;
    allocations_refuse(0, 0);
    return ends;
}

/* Asks a request after all those before it, with the call for memory behind so many refused. */
static outcome tries(size_t number, long met)
{
    const request asked = REQUESTS[number];
    mmdb db = MMDB_CLOSED, twin = MMDB_CLOSED;
    mmdb_bytes answer, expected;
    mmdb_status status;
    outcome ends;
    open_after(&db, number);
    open_after(&twin, number);
    allocations_refuse(met, 1);
    status = load(&db, asked.line, asked.block, &answer);
    ends = ended(&db);
    GIVES(status, MMDB_DONE);
    if (ends == ANSWERED_90) {
        CHECK(reads(answer, "error 90 no memory\n"));
    } else {
        GIVES(load(&twin, asked.line, asked.block, &expected), MMDB_DONE);
        CHECK(is_answered_alike(answer, expected));
    }
    CHECK(is_as(&db, &twin));
    mmdb_close(&db);
    mmdb_close(&twin);
    CHECK(allocations_held() == 0);
    return ends;
}

/* Refuses each call for memory of a request in turn. Gives how often it was answered `error 90`. */
static long refuses_each(size_t number)
{
    long refused = 0;
    outcome ends = ANSWERED_90;
    for (long met = 0; ends != NONE_WAS_REFUSED; met++) {
        ends = tries(number, met);
        refused += ends == ANSWERED_90;
    }
    return refused;
}

/* What is asked beside the requests: for a plan, or for the state of indexes. */
typedef uint32_t question(mmdb *, const void *, size_t, mmdb_bytes *);

/* Asks it of filled tables, with the call for memory behind so many refused. */
static outcome asks_beside(question *asks, const char *about, long met)
{
    mmdb db = MMDB_CLOSED, twin = MMDB_CLOSED;
    mmdb_bytes answer, expected;
    uint32_t status;
    outcome ends;
    open_after(&db, FILLED);
    open_after(&twin, FILLED);
    allocations_refuse(met, 1);
    status = asks(&db, about, strlen(about), &answer);
    ends = ended(&db);
    GIVES(asks(&twin, about, strlen(about), &expected), MMDB_DONE);
    if (ends == ANSWERED_90)
        CHECK(status == (asks == mmdb_plan ? MMDB_REFUSED : MMDB_DONE) && reads(answer, "error 90 no memory\n"));
    else
        CHECK(status == MMDB_DONE && is_answered_alike(answer, expected));
    CHECK(is_as(&db, &twin));
    mmdb_close(&db);
    mmdb_close(&twin);
    CHECK(allocations_held() == 0);
    return ends;
}

/* Refuses each call for memory of a question in turn. Gives how often it was answered `error 90`. */
static long refuses_each_beside(question *asks, const char *about)
{
    long refused = 0;
    outcome ends = ANSWERED_90;
    for (long met = 0; ends != NONE_WAS_REFUSED; met++) {
        ends = asks_beside(asks, about, met);
        refused += ends == ANSWERED_90;
    }
    return refused;
}

static void are_asked_beside(void)
{
    static const char *const SELECTS[] = {
        "select * from emp where id = 3", "select distinct name from emp where dept >= 1 and name <> 'Cy'",
        "select emp.name, dept.name from emp join dept on emp.dept = dept.id where dept.name = 'toys'",
        "select emp.name, dept.id from emp join dept on emp.name = dept.name",
    };
    CHECK(refuses_each_beside(mmdb_indexes, "emp") > 0 && refuses_each_beside(mmdb_indexes, "dept") > 0);
    for (size_t i = 0; i < sizeof SELECTS / sizeof SELECTS[0]; i++)
        CHECK(refuses_each_beside(mmdb_plan, SELECTS[i]) > 0);
}

/* Opens a handle with each of its calls for memory refused in turn. */
static void opens(void)
{
    mmdb db = MMDB_CLOSED;
    mmdb_status status = MMDB_NO_MEMORY;
    for (long met = 0; status == MMDB_NO_MEMORY; met++) {
        allocations_refuse(met, 1);
        status = mmdb_open(&db, MMDB_AUTO, MMDB_MOST, MMDB_MOST);
        CHECK(allocations_refused() == (status == MMDB_NO_MEMORY));
        allocations_refuse(0, 0);
        CHECK(status == MMDB_DONE || (db.inside == NULL && allocations_held() == 0));
    }
    GIVES(status, MMDB_DONE);
    mmdb_close(&db);
    CHECK(allocations_held() == 0);
}

/* Feeds all requests as one piece, with the call for memory behind so many refused. Gives whether one was. */
static int feeds(long met)
{
    mmdb db = MMDB_CLOSED;
    mmdb_status status;
    mmdb_bytes answer;
    char piece[ROOM] = "";
    long refused;
    for (size_t i = 0; i < sizeof REQUESTS / sizeof REQUESTS[0]; i++) {
        strcat(piece, REQUESTS[i].line);
        strcat(piece, "\n");
        strcat(piece, REQUESTS[i].block);
    }
    GIVES(mmdb_open(&db, MMDB_AUTO, MMDB_MOST, MMDB_MOST), MMDB_DONE);
    allocations_refuse(met, 1);
    status = feed(&db, piece);
    refused = allocations_refused();
    allocations_refuse(0, 0);
    CHECK(status == MMDB_DONE || (status == MMDB_NO_MEMORY && refused == 1));
    GIVES(feed(&db, "# more\n"), status == MMDB_DONE ? MMDB_DONE : MMDB_ENDED);
    GIVES(command(&db, "table another (id int)", &answer), MMDB_DONE);
    CHECK(reads(answer, "ok\n"));
    mmdb_close(&db);
    CHECK(allocations_held() == 0);
    return refused != 0;
}

/* Asks why a request was refused, where it was, with each call for memory refused in turn: the words are those with memory, or
   none, out of memory. Gives how often there were none. */
static long asks_why(size_t number)
{
    const request asked = REQUESTS[number];
    const size_t length = strlen(asked.line), block = strlen(asked.block);
    mmdb db = MMDB_CLOSED, twin = MMDB_CLOSED;
    mmdb_bytes words, expected;
    mmdb_status status = MMDB_DONE;
    long refused = 0, is_refused = 1;
    open_after(&db, number + 1);
    open_after(&twin, number + 1);
    GIVES(mmdb_reason(&twin, asked.line, length, asked.block, block, &expected), MMDB_DONE);
    CHECK((mmdb_refusal(&twin) != 0) == (expected.length != 0));
    for (long met = 0; is_refused; met++) {
        allocations_refuse(met, 1);
        status = mmdb_reason(&db, asked.line, length, asked.block, block, &words);
        is_refused = allocations_refused();
        allocations_refuse(0, 0);
        if (status == MMDB_DONE)
            CHECK(is_answered_alike(words, expected));
        else
            CHECK(status == MMDB_NO_MEMORY && is_refused == 1);
        refused += status == MMDB_NO_MEMORY;
    }
    GIVES(status, MMDB_DONE);
    mmdb_close(&db);
    mmdb_close(&twin);
    CHECK(allocations_held() == 0);
    return refused;
}

int main(void)
{
    long met = 0, refused = 0, untold = 0;
    opens();
    for (size_t i = 0; i < sizeof REQUESTS / sizeof REQUESTS[0]; i++)
        refused += refuses_each(i);
    CHECK(refused > 0);
    are_asked_beside();
    for (size_t i = 0; i < sizeof REQUESTS / sizeof REQUESTS[0]; i++)
        untold += asks_why(i);
    CHECK(untold > 0);
    while (feeds(met))
        met++;
    CHECK(met > 0);
    return checks_failed != 0;
}
