/* Makes calls of each kind with a hostile caller's arguments, within what the header allows. Lines and texts have any bytes, zero bytes
   among them, and any length; null comes with a length and without. Numbers of statements and of places name none, and handles are
   closed, null or open. The words are the SEED and the number of CALLS.

   Each status must be one that the header names, and NOT_OPEN, NO_LINE, NO_SUCH_STATEMENT and NO_SUCH_PLACE come exactly where they
   must, and NOT_ROWS of null. So do IN_TRANSACTION, and SHARED of a piece and of a transaction. Answers are read to their end. The rows
   of each statement stay until it is executed again or asked for its first rows, those of a line until the next query, and those of a
   cursor until the next call on it. */
#include "checking.h"

#include <inttypes.h>
#include <stdlib.h>

enum { HANDLES = 3, MOST_STATEMENTS = 24, MOST_BYTES = 20000, MOST_TRANSACTIONS = 5, INTERRUPTERS = 4, CURSORS = 2 };

/* A statement that is there, or the line last queried: whether the last call was done, its rows then, and what they add up to. */
typedef struct statement {
    mmdb_statement of;
    int has_rows;
    mmdb_rows rows;
    uint64_t sum;
} statement;

/* Handles whose tables have the same number share them. */
typedef struct handle {
    mmdb db;
    int is_open;
    uint64_t tables;
    size_t transactions;
    statement kept[MOST_STATEMENTS];
    size_t count;
    statement queried;
} handle;

/* Bytes in a block of just their length; or null. */
typedef struct bytes {
    unsigned char *at;
    size_t length;
} bytes;

/* What asks the selects of any handle to end, which may have been closed since. No select is under way then, so that none ends. */
typedef struct interrupter {
    mmdb_interrupter with;
    int is_open;
} interrupter;

/* A cursor holds the tables of that number. So many rows are still to be read; and those that were read last. */
typedef struct reading {
    mmdb_cursor with;
    int is_open;
    uint64_t tables;
    uint64_t left;
    statement last;
} reading;

static handle handles[HANDLES];
static reading readings[CURSORS];
static interrupter interrupters[INTERRUPTERS];
static uint64_t state;
static uint64_t tables_made;
static uint64_t statuses[MMDB_CHANGED + 1];

static uint64_t drawn(uint64_t below)
{
    uint64_t of;
    state += UINT64_C(0x9E3779B97F4A7C15);
    of = (state ^ (state >> 30)) * UINT64_C(0xBF58476D1CE4E5B9);
    of = (of ^ (of >> 27)) * UINT64_C(0x94D049BB133111EB);
    return (of ^ (of >> 31)) % below;
}

static int is_drawn(unsigned percent)
{
    return drawn(100) < percent;
}

/* ---- what is given */

static const char *const WORDS[] = {
    "table",  "t",    "u",     "id",   "n",       "s",     "int",  "text", "ref",  "null", "insert", "update",
    "delete", "load", "dump",  "set",  "where",   "from",  "join", "on",   "(",    ")",    ",",      ".",
    "=",      "<>",   "<",     "<=",   ">",       ">=",    "?",    "*",    "'a'",  "''",   "'it''s'", "1",
    "-7",     "007",  "index", "tree", "hash",    "drop",  "and",  "#",    "\t",   "\r",   "\xc3\xa9", "\xff",
    "select", "9223372036854775807", "tables", "distinct", "t.id", "u.t", "load t 9", "id,n\n1,2\n", "\n", "\"",
};
static const char *const LINES[] = {
    "table t (id int, n int, s text)", "table t (id int, n int, s text)", "table t (id int, n int, s text)",
    "table u (id text, t ref t null)", "table u (id text, t ref t null)", "table u (id text, t ref t null)", "index t n tree", "index t n hash", "index t s hash",
    "index u t tree", "drop index t n hash", "insert t (?, ?, ?)", "insert u (?, ?)", "insert t (%, %, '%')", "insert u ('%', %)",
    "update t set n = ? where id < ?", "update t set s = '%' where n = %", "update u set t = ? where id = ?", "delete t where id > ?",
    "delete u where t = ?", "delete t where n = %", "select * from t", "select id, s from t where n >= ? and n < ?",
    "select distinct s from t", "select t.id, u.id from t join u on t.id = u.t where t.n <> ?", "select * from u where id = ?",
    "select n from t where s = ?", "dump t", "dump u", "tables", "load t 21", "load u 15",
};

static void put(bytes *to, const void *some, size_t length)
{
    if (to->length + length <= MOST_BYTES)
        memcpy(to->at + to->length, some, length);
    to->length += to->length + length <= MOST_BYTES ? length : 0;
}

/* A line as it is meant, with small numbers in its places of %. */
static void put_line(bytes *to)
{
    const char *line = LINES[drawn(sizeof LINES / sizeof LINES[0])];
    if (is_drawn(1))
        line = is_drawn(50) ? "drop table u" : "drop table t";
    for (; *line != '\0'; line++) {
        char number[24];
        sprintf(number, "%d", (int)drawn(40) - 5);
        put(to, *line == '%' ? number : line, *line == '%' ? strlen(number) : 1);
    }
}

static void put_words(bytes *to)
{
    for (uint64_t left = drawn(20); left > 0; left--) {
        const char *word = WORDS[drawn(sizeof WORDS / sizeof WORDS[0])];
        put(to, word, strlen(word));
        put(to, " ", drawn(2));
    }
}

static void put_any(bytes *to, uint64_t count)
{
    for (; count > 0; count--) {
        const unsigned char byte = (unsigned char)drawn(256);
        put(to, &byte, 1);
    }
}

static void put_many(bytes *to)
{
    static const char *const MANY[] = { "x", "'", "\xc3\xa9", "\n", "a,", "\"", " ", "0", "(" };
    const char *of = MANY[drawn(sizeof MANY / sizeof MANY[0])];
    for (uint64_t left = drawn(is_drawn(20) ? 9000 : 1100); left > 0; left--)
        put(to, of, strlen(of));
}

/* One byte is turned, taken out or doubled. */
static void change(bytes *of)
{
    const size_t at = of->length == 0 ? 0 : drawn(of->length);
    if (of->length == 0)
        return;
    if (is_drawn(50))
        of->at[at] = (unsigned char)drawn(256);
    else
        memmove(of->at + at, of->at + at + 1, --of->length - at);
}

static bytes cut_to_length(bytes of)
{
    bytes just = { (unsigned char *)malloc(of.length), of.length };
    if (of.length > 0)
        memcpy(just.at, of.at, of.length);
    free(of.at);
    return just;
}

static bytes some_bytes(const char *end)
{
    bytes of = { (unsigned char *)malloc(MOST_BYTES), 0 };
    const uint64_t kind = drawn(20);
    if (kind < 13)
        put_line(&of);
    else if (kind < 16)
        put_words(&of);
    else if (kind < 18)
        put_any(&of, drawn(60));
    else if (kind < 19)
        put_many(&of);
    if (is_drawn(8))
        change(&of);
    if (is_drawn(4))
        put(&of, "\r", 1);
    put(&of, end, strlen(end));
    return cut_to_length(of);
}

/* Bytes with that end, and sometimes null, with a length or without. */
static bytes given_bytes_to(const char *end)
{
    bytes of = some_bytes(end);
    if (is_drawn(3)) {
        free(of.at);
        of.at = NULL;
        of.length = is_drawn(50) ? 0 : 1 + drawn(1000);
    }
    return of;
}

static bytes given_bytes(void)
{
    return given_bytes_to("");
}

static bytes block(void)
{
    static const char *const BLOCKS[] = { "id,n,s\n1,2,a\n3,4,b\n5\n", "id,n,s\n7,2,a\n8,4,\n", "id,t\na,1\nb,\nc,3\n", "id,t\nd,\nf,\nx,\n" };
    const char *of = BLOCKS[drawn(sizeof BLOCKS / sizeof BLOCKS[0])];
    bytes to = { (unsigned char *)malloc(MOST_BYTES), 0 };
    if (is_drawn(20))
        return free(to.at), given_bytes();
    put(&to, of, strlen(of));
    if (is_drawn(20))
        change(&to);
    return cut_to_length(to);
}

/* ---- what is expected */

static uint32_t only(mmdb_status status)
{
    return UINT32_C(1) << status;
}

static int is_within(mmdb_status status, uint32_t allowed, const char *call)
{
    const int is = status <= MMDB_CHANGED && (allowed >> status & 1) != 0;
    if (!is)
        fprintf(stderr, "%s gives %u\n", call, (unsigned)status);
    checks_failed += !is;
    statuses[status <= MMDB_CHANGED ? status : 0]++;
    return is;
}

/* Whether another handle shares the tables of this one. */
static int has_sharer(const handle *of)
{
    int others = 0;
    for (size_t i = 0; i < HANDLES; i++)
        others += &handles[i] != of && handles[i].is_open && handles[i].tables == of->tables;
    return of->is_open && others > 0;
}

/* Whether another handle shares them, or a cursor holds them. */
static int is_shared(const handle *of)
{
    int holders = has_sharer(of);
    for (size_t i = 0; i < CURSORS; i++)
        holders += readings[i].is_open && readings[i].tables == of->tables;
    return of->is_open && holders > 0;
}

/* What more a call may give where tables are shared, if it would change them. */
static uint32_t if_shared(const handle *of)
{
    return is_shared(of) ? only(MMDB_SHARED) : 0;
}

/* What a line may give. */
static uint32_t of_line(const handle *of)
{
    return only(MMDB_DONE) | only(MMDB_NOT_ONE_REQUEST) | if_shared(of);
}

/* What a statement or a query may give. */
static uint32_t of_statement(const handle *of)
{
    return only(MMDB_DONE) | only(MMDB_REFUSED) | if_shared(of);
}

static int is_null(bytes of)
{
    return of.at == NULL && of.length > 0;
}

/* The number of an answer's refusal, which has to be that which is told. Each byte of it is read. */
static void reads_answer(handle *of, mmdb_bytes answer)
{
    uint64_t sum = 0;
    for (size_t i = 0; i < answer.length; i++)
        sum += answer.at[i];
    CHECK(answer.length == 0 || sum > 0);
    CHECK(answer.length == 0 || answer.at[answer.length - 1] == '\n' || memcmp(answer.at, "load ", 5) == 0);
    if (answer.length >= 8 && memcmp(answer.at, "error ", 6) == 0)
        CHECK(mmdb_refusal(&of->db) == (uint32_t)(answer.at[6] - '0') * 10 + (uint32_t)(answer.at[7] - '0'));
}

static uint64_t sum_of(const mmdb_rows *rows)
{
    uint64_t sum = rows->rows * 31 + rows->columns;
    for (size_t i = 0; i < rows->rows * rows->columns; i++) {
        const mmdb_cell *cell = rows->cells + i;
        const mmdb_bytes text = cell->kind == MMDB_TEXT ? mmdb_text(rows, cell) : (mmdb_bytes){ rows->texts, 0 };
        sum = sum * 31 + cell->kind + (cell->kind == MMDB_INTEGER ? (uint64_t)cell->integer : 0);
        CHECK(cell->kind <= MMDB_TEXT);
        for (size_t at = 0; at < text.length; at++)
            sum = sum * 31 + text.at[at];
    }
    return sum;
}

/* ---- the calls */

static statement *any_statement(handle *of)
{
    return of->count > 0 && is_drawn(90) ? &of->kept[drawn(of->count)] : NULL;
}

/* A number that names none of the statements that are there. */
static uint32_t no_statement(const handle *of)
{
    uint32_t number = is_drawn(50) ? UINT32_MAX - (uint32_t)drawn(3) : (uint32_t)drawn(MOST_STATEMENTS + 8);
    for (size_t i = 0; i < of->count; i++)
        number = of->kept[i].of.number == number ? UINT32_MAX : number;
    return number;
}

static void opens(handle *of)
{
    static const uint32_t ROWS[] = { 0, 1, 5, 100, MMDB_MOST, MMDB_MOST, MMDB_MOST, MMDB_MOST + 1, UINT32_MAX };
    const uint32_t policy = (uint32_t)drawn(MMDB_MERGE + 2), rows = ROWS[drawn(9)], most = is_drawn(80) ? MMDB_MOST : ROWS[drawn(9)];
    const int is_out = rows == 0 || rows > MMDB_MOST || most > MMDB_MOST;
    const mmdb_status status = mmdb_open(&of->db, policy, rows, most);
    uint32_t allowed = only(MMDB_DONE);
    if (of->is_open)
        allowed = only(MMDB_IS_OPEN);
    else if (policy > MMDB_MERGE || is_out)
        allowed = (policy > MMDB_MERGE ? only(MMDB_NO_SUCH_POLICY) : 0) | (is_out ? only(MMDB_LIMIT_OUT_OF_RANGE) : 0);
    is_within(status, allowed, "open");
    of->is_open |= status == MMDB_DONE;
    if (status == MMDB_DONE)
        of->tables = ++tables_made;
}

static void closes(handle *of)
{
    mmdb_close(&of->db);
    CHECK(of->db.inside == NULL);
    of->is_open = 0;
    of->transactions = 0;
    of->count = 0;
    of->queried.has_rows = 0;
}

static void commands(handle *of)
{
    const bytes line = given_bytes();
    mmdb_bytes answer;
    const mmdb_status status = mmdb_command(&of->db, line.at, line.length, is_drawn(95) ? &answer : NULL);
    const int is_none = line.at == NULL || line.length == 0;
    const uint32_t allowed = is_none ? only(MMDB_NO_LINE) : of_line(of);
    if (is_within(status, of->is_open ? allowed : only(MMDB_NOT_OPEN), "command") && status == MMDB_DONE &&
        mmdb_answer(&of->db, &answer) == MMDB_DONE)
        reads_answer(of, answer);
    free(line.at);
}

static void loads(handle *of)
{
    const bytes with = block();
    char line[64];
    mmdb_bytes answer;
    mmdb_status status;
    uint32_t allowed = of_line(of);
    sprintf(line, "load %s %zu", is_drawn(50) ? "t" : "u", is_drawn(90) ? with.length : (size_t)drawn(40));
    status = mmdb_load(&of->db, line, strlen(line), with.at, with.length, &answer);
    if (is_null(with))
        allowed = only(MMDB_NO_LINE);
    if (is_within(status, of->is_open ? allowed : only(MMDB_NOT_OPEN), "load") && status == MMDB_DONE)
        reads_answer(of, answer);
    free(with.at);
}

static void feeds(handle *of)
{
    const bytes piece = given_bytes_to(is_drawn(80) ? "\n" : "");
    const mmdb_status status = mmdb_feed(&of->db, piece.at, piece.length);
    /* (whatever it says, it is declined where tables are shared) */
    const uint32_t allowed = only(is_null(piece) ? MMDB_NO_LINE : is_shared(of) ? MMDB_SHARED : MMDB_DONE);
    mmdb_bytes answer;
    if (is_within(status, of->is_open ? allowed : only(MMDB_NOT_OPEN), "feed") && status == MMDB_DONE) {
        GIVES(mmdb_answer(&of->db, &answer), MMDB_DONE);
        reads_answer(of, answer);
    }
    free(piece.at);
}

static void tells(handle *of)
{
    const bytes line = given_bytes(), with = is_drawn(50) ? given_bytes() : block();
    const int is_reason = is_drawn(60);
    mmdb_bytes told;
    const mmdb_status status = is_reason ? mmdb_reason(&of->db, line.at, line.length, with.at, with.length, &told)
                                         : mmdb_indexes(&of->db, line.at, line.length, &told);
    uint32_t allowed = only(MMDB_DONE);
    if (is_null(line) || (is_reason && is_null(with)))
        allowed = only(MMDB_NO_LINE);
    else if (is_reason && line.length == 0)
        allowed |= only(MMDB_NO_LINE);
    if (is_within(status, of->is_open ? allowed : only(MMDB_NOT_OPEN), is_reason ? "reason" : "indexes") && status == MMDB_DONE) {
        if (is_reason)
            CHECK(memchr(told.at, '\n', told.length) == NULL);
        else
            reads_answer(of, told);
    }
    free(line.at);
    free(with.at);
}

static void tells_the_version(handle *of)
{
    const bytes table = given_bytes();
    uint64_t version = 7;
    const mmdb_status status = mmdb_version(&of->db, table.at, table.length, &version);
    const uint32_t allowed = is_null(table) ? only(MMDB_NO_LINE) : only(MMDB_DONE) | only(MMDB_REFUSED);
    if (is_within(status, of->is_open ? allowed : only(MMDB_NOT_OPEN), "version") && status != MMDB_DONE)
        CHECK(version == 0);
    free(table.at);
}

static void prepares(handle *of)
{
    const bytes line = given_bytes();
    mmdb_statement made;
    const mmdb_status status = mmdb_prepare(&of->db, line.at, line.length, &made);
    const int is_none = line.at == NULL || line.length == 0;
    const uint32_t allowed = is_none ? only(MMDB_NO_LINE) : only(MMDB_DONE) | only(MMDB_REFUSED);
    is_within(status, of->is_open ? allowed : only(MMDB_NOT_OPEN), "prepare");
    if (status != MMDB_DONE)
        CHECK(made.number == UINT32_MAX && made.places == 0);
    for (size_t i = 0; status == MMDB_DONE && i < of->count; i++)
        CHECK(of->kept[i].of.number != made.number);
    if (status == MMDB_DONE && of->count < MOST_STATEMENTS) {
        memset(&of->kept[of->count], 0, sizeof of->kept[0]);
        of->kept[of->count++].of = made;
    } else if (status == MMDB_DONE) {
        GIVES(mmdb_finalize(&of->db, made.number), MMDB_DONE);
    }
    free(line.at);
}

static void binds(handle *of)
{
    const statement *to = any_statement(of);
    const uint32_t number = to ? to->of.number : no_statement(of);
    const uint32_t place = is_drawn(90) && to && to->of.places > 0 ? (uint32_t)drawn(to->of.places) : (uint32_t)drawn(UINT32_MAX);
    const int is_there = to && place < to->of.places;
    const bytes text = given_bytes();
    const uint64_t kind = drawn(3);
    mmdb_status status;
    uint32_t allowed = only(MMDB_DONE) | (kind == 1 ? only(MMDB_NOT_UTF8) : 0);
    if (kind == 0)
        status = mmdb_bind_integer(&of->db, number, place, is_drawn(90) ? (int64_t)drawn(40) - 5 : (int64_t)drawn(UINT64_MAX));
    else if (kind == 1)
        status = mmdb_bind_text(&of->db, number, place, text.at, text.length);
    else
        status = mmdb_bind_null(&of->db, number, place);
    if (!of->is_open)
        allowed = only(MMDB_NOT_OPEN);
    else if (kind == 1 && is_null(text))
        allowed = only(MMDB_NO_LINE);
    else if (!is_there)
        allowed = only(to ? MMDB_NO_SUCH_PLACE : MMDB_NO_SUCH_STATEMENT) | (kind == 1 ? only(MMDB_NOT_UTF8) : 0);
    is_within(status, allowed, "bind");
    free(text.at);
}

/* The rows of a statement, if there is one, are those that a call has just told. */
static void takes_rows(statement *to, mmdb_status status, mmdb_rows rows)
{
    const uint64_t sum = sum_of(&rows);
    if (!to)
        return;
    to->has_rows = status == MMDB_DONE;
    to->rows = rows;
    to->sum = sum;
}

static void executes(handle *of)
{
    statement *to = any_statement(of);
    const uint32_t number = to ? to->of.number : no_statement(of);
    mmdb_rows rows;
    const mmdb_status status = mmdb_execute(&of->db, number, &rows);
    const uint32_t allowed = to ? of_statement(of) : only(MMDB_NO_SUCH_STATEMENT);
    is_within(status, of->is_open ? allowed : only(MMDB_NOT_OPEN), "execute");
    takes_rows(to, status, rows);
}

static void asks_first(handle *of)
{
    statement *to = any_statement(of);
    const size_t most = is_drawn(80) ? (size_t)drawn(6) : SIZE_MAX - (size_t)drawn(3);
    mmdb_rows rows;
    const mmdb_status status = mmdb_first(&of->db, to ? to->of.number : no_statement(of), most, &rows);
    const uint32_t allowed = to ? only(MMDB_DONE) | only(MMDB_REFUSED) : only(MMDB_NO_SUCH_STATEMENT);
    is_within(status, of->is_open ? allowed : only(MMDB_NOT_OPEN), "first");
    CHECK(rows.rows <= most);
    takes_rows(to, status, rows);
}

/* A cell of any kind, whose text may lie elsewhere. */
static mmdb_cell any_cell(size_t length)
{
    const mmdb_cell cell = {
        (int64_t)drawn(40) - 5,
        (uint32_t)(is_drawn(95) ? drawn(length + 1) : drawn(UINT32_MAX)),
        (uint16_t)(is_drawn(90) ? drawn(4) : drawn(UINT16_MAX)),
        (uint16_t)(is_drawn(97) ? drawn(3) : drawn(UINT16_MAX)),
    };
    return cell;
}

/* Rows of as many cells as there are places, or any number of cells; or null. They lie in a block of just their length. */
static void executes_many(handle *of)
{
    const statement *to = any_statement(of);
    const bytes texts = given_bytes();
    const size_t rows = drawn(6), count = is_drawn(90) && to ? rows * to->of.places : drawn(9);
    mmdb_cell *cells = is_drawn(97) ? malloc((count + (count == 0)) * sizeof *cells) : NULL;
    const int is_none = is_null(texts) || (cells == NULL && count > 0);
    uint32_t allowed = of_statement(of) | only(MMDB_NOT_ROWS) | only(MMDB_NOT_UTF8);
    uint64_t changed = 7;
    mmdb_status status;
    for (size_t i = 0; cells != NULL && i < count; i++)
        cells[i] = any_cell(texts.length);
    status = mmdb_execute_many(&of->db, to ? to->of.number : no_statement(of), cells, count, texts.at, texts.length, &changed);
    if (!of->is_open)
        allowed = only(MMDB_NOT_OPEN);
    else if (is_none)
        allowed = only(MMDB_NOT_ROWS);
    else if (!to)
        allowed = only(MMDB_NO_SUCH_STATEMENT);
    is_within(status, allowed, "execute_many");
    CHECK(status == MMDB_DONE || changed == 0);
    free(cells);
    free(texts.at);
}

static void queries(handle *of)
{
    const bytes line = given_bytes();
    const mmdb_status status = mmdb_query(&of->db, line.at, line.length, &of->queried.rows);
    const int is_none = line.at == NULL || line.length == 0;
    const uint32_t allowed = is_none ? only(MMDB_NO_LINE) : of_statement(of);
    is_within(status, of->is_open ? allowed : only(MMDB_NOT_OPEN), "query");
    of->queried.has_rows = 1;
    of->queried.sum = sum_of(&of->queried.rows);
    free(line.at);
}

static void asks_plan(handle *of)
{
    const bytes line = given_bytes();
    mmdb_bytes told;
    const mmdb_status status = mmdb_plan(&of->db, line.at, line.length, &told);
    const int is_none = line.at == NULL || line.length == 0;
    const uint32_t allowed = is_none ? only(MMDB_NO_LINE) : only(MMDB_DONE) | only(MMDB_REFUSED);
    if (is_within(status, of->is_open ? allowed : only(MMDB_NOT_OPEN), "plan") && !is_none)
        reads_answer(of, told);
    free(line.at);
}

static void asks_columns(handle *of)
{
    const statement *to = any_statement(of);
    mmdb_rows rows;
    const mmdb_status status = mmdb_columns(&of->db, to ? to->of.number : no_statement(of), &rows);
    const uint32_t allowed = to ? only(MMDB_DONE) | only(MMDB_REFUSED) : only(MMDB_NO_SUCH_STATEMENT);
    is_within(status, of->is_open ? allowed : only(MMDB_NOT_OPEN), "columns");
    CHECK(status == MMDB_DONE || rows.rows == 0);
    sum_of(&rows);
}

static void counts(handle *of)
{
    const statement *to = any_statement(of);
    uint64_t count = 7;
    const mmdb_status status = mmdb_count(&of->db, to ? to->of.number : no_statement(of), is_drawn(10) ? NULL : &count);
    const uint32_t allowed = to ? only(MMDB_DONE) | only(MMDB_REFUSED) : only(MMDB_NO_SUCH_STATEMENT);
    is_within(status, of->is_open ? allowed : only(MMDB_NOT_OPEN), "count");
    CHECK(status == MMDB_DONE || count == 0 || count == 7);
}

static void asks_why(handle *of)
{
    const statement *to = any_statement(of);
    const bytes line = given_bytes();
    const int is_of_line = is_drawn(50), is_none = line.at == NULL || line.length == 0;
    mmdb_bytes told;
    const mmdb_status status = is_of_line ? mmdb_prepare_reason(&of->db, line.at, line.length, &told)
                                          : mmdb_statement_reason(&of->db, to ? to->of.number : no_statement(of), &told);
    uint32_t allowed = only(MMDB_DONE);
    if (is_of_line && is_none)
        allowed = only(MMDB_NO_LINE);
    else if (!is_of_line && !to)
        allowed = only(MMDB_NO_SUCH_STATEMENT);
    is_within(status, of->is_open ? allowed : only(MMDB_NOT_OPEN), is_of_line ? "prepare_reason" : "statement_reason");
    CHECK(memchr(told.at, '\n', told.length) == NULL);
    free(line.at);
}

static void finalizes(handle *of)
{
    statement *to = any_statement(of);
    const mmdb_status status = mmdb_finalize(&of->db, to ? to->of.number : no_statement(of));
    is_within(status, !of->is_open ? only(MMDB_NOT_OPEN) : only(to ? MMDB_DONE : MMDB_NO_SUCH_STATEMENT), "finalize");
    if (to)
        *to = of->kept[--of->count];
}

static void begins(handle *of)
{
    const mmdb_status begun = is_shared(of) ? MMDB_SHARED : MMDB_DONE;
    if (of->transactions == MOST_TRANSACTIONS)
        return;
    is_within(mmdb_begin(&of->db), only(of->is_open ? begun : MMDB_NOT_OPEN), "begin");
    of->transactions += of->is_open && begun == MMDB_DONE;
    CHECK(mmdb_transactions(&of->db) == of->transactions);
}

static void commits_or_rolls_back(handle *of)
{
    const int is_commit = is_drawn(50);
    const mmdb_status status = is_commit ? mmdb_commit(&of->db) : mmdb_rollback(&of->db);
    const mmdb_status ended = of->transactions > 0 ? MMDB_DONE : MMDB_NO_TRANSACTION;
    is_within(status, only(of->is_open ? ended : MMDB_NOT_OPEN), is_commit ? "commit" : "rollback");
    of->transactions -= of->transactions > 0;
    CHECK(mmdb_transactions(&of->db) == of->transactions);
}

/* Has any handle, or null, share the tables of another, or of none. One that was closed is open then. */
static void shares(handle *of)
{
    handle *with = is_drawn(95) ? &handles[drawn(HANDLES)] : NULL;
    const int is_of_null = is_drawn(5);
    const mmdb_status status = mmdb_share(is_of_null ? NULL : &of->db, with ? &with->db : NULL);
    mmdb_status expected = MMDB_NOT_OPEN;
    if (of->is_open && !is_of_null && with)
        expected = of->transactions > 0 || with->transactions > 0 ? MMDB_IN_TRANSACTION : MMDB_DONE;
    if (is_within(status, only(expected), "share") && status == MMDB_DONE) {
        with->is_open = 1;
        with->tables = of->tables;
    }
}

/* Seldom a handle leaves tables that no other shares, as they are gone then. */
static void leaves(handle *of)
{
    const mmdb_status left = of->transactions > 0 ? MMDB_IN_TRANSACTION : MMDB_DONE;
    if (of->is_open && !has_sharer(of) && is_drawn(95))
        return;
    is_within(mmdb_leave(&of->db), only(of->is_open ? left : MMDB_NOT_OPEN), "leave");
    if (left == MMDB_DONE)
        of->tables = ++tables_made;
}

static void opens_interrupter(handle *of, interrupter *to)
{
    const int is_of_null = is_drawn(5), is_null = is_drawn(5);
    const int was_open = to->is_open;
    void *const inside = to->with.inside;
    const mmdb_status status = mmdb_interrupter_open(is_of_null ? NULL : &of->db, is_null ? NULL : &to->with);
    mmdb_status expected = MMDB_NOT_OPEN;
    if (of->is_open && !is_of_null && !is_null)
        expected = was_open ? MMDB_IS_OPEN : MMDB_DONE;
    is_within(status, only(expected), "interrupter_open");
    to->is_open |= status == MMDB_DONE;
    CHECK((to->with.inside != NULL) == to->is_open && (!was_open || to->with.inside == inside));
}

static void closes_interrupter(interrupter *of)
{
    mmdb_interrupter_close(&of->with);
    of->is_open = 0;
    CHECK(of->with.inside == NULL);
}

static void interrupts(handle *of)
{
    interrupter *to = &interrupters[drawn(INTERRUPTERS)];
    const uint64_t luck = drawn(100);
    if (luck < 30)
        opens_interrupter(of, to);
    else if (luck < 40)
        closes_interrupter(to);
    else
        mmdb_interrupt(is_drawn(95) ? &to->with : NULL);
}

/* The rows of each statement are as they were when it was executed. */
static void looks_at_rows(handle *of)
{
    mmdb_bytes answer;
    is_within(mmdb_answer(&of->db, &answer), only(of->is_open ? MMDB_DONE : MMDB_NOT_OPEN), "answer");
    for (size_t i = 0; i < of->count; i++)
        CHECK(!of->kept[i].has_rows || sum_of(&of->kept[i].rows) == of->kept[i].sum);
    CHECK(!of->queried.has_rows || sum_of(&of->queried.rows) == of->queried.sum);
}

#include "hostile_cursors.h"
#include "hostile_saves.h"

static void calls_on_null(void)
{
    uint64_t count = 7, version = 7;
    mmdb_bytes answer;
    mmdb_rows rows;
    mmdb_statement made;
    CHECK(mmdb_version(NULL, "", 0, &version) == MMDB_NOT_OPEN && version == 0 && mmdb_version(NULL, NULL, 1, NULL) == MMDB_NOT_OPEN);
    CHECK(mmdb_open(NULL, 0, 1, 1) == MMDB_NOT_OPEN && mmdb_command(NULL, "", 0, &answer) == MMDB_NOT_OPEN);
    CHECK(mmdb_load(NULL, "", 0, "", 0, NULL) == MMDB_NOT_OPEN && mmdb_feed(NULL, "", 0) == MMDB_NOT_OPEN);
    CHECK(mmdb_prepare(NULL, "", 0, &made) == MMDB_NOT_OPEN && mmdb_execute(NULL, 0, &rows) == MMDB_NOT_OPEN);
    CHECK(mmdb_columns(NULL, 0, NULL) == MMDB_NOT_OPEN && mmdb_finalize(NULL, 0) == MMDB_NOT_OPEN);
    CHECK(mmdb_count(NULL, 0, &count) == MMDB_NOT_OPEN && count == 0 && mmdb_count(NULL, 0, NULL) == MMDB_NOT_OPEN);
    CHECK(mmdb_execute_many(NULL, 0, NULL, 1, NULL, 1, NULL) == MMDB_NOT_OPEN);
    CHECK(mmdb_first(NULL, 0, 1, &rows) == MMDB_NOT_OPEN && rows.rows == 0 && mmdb_first(NULL, 0, SIZE_MAX, NULL) == MMDB_NOT_OPEN);
    CHECK(mmdb_bind_null(NULL, 0, 0) == MMDB_NOT_OPEN && mmdb_bind_text(NULL, 0, 0, NULL, 7) == MMDB_NOT_OPEN);
    CHECK(mmdb_reason(NULL, NULL, 1, NULL, 1, &answer) == MMDB_NOT_OPEN && mmdb_indexes(NULL, "", 0, NULL) == MMDB_NOT_OPEN);
    CHECK(mmdb_prepare_reason(NULL, NULL, 1, &answer) == MMDB_NOT_OPEN && mmdb_statement_reason(NULL, 0, NULL) == MMDB_NOT_OPEN);
    CHECK(mmdb_query(NULL, "", 0, &rows) == MMDB_NOT_OPEN && mmdb_query(NULL, NULL, 1, NULL) == MMDB_NOT_OPEN);
    CHECK(mmdb_plan(NULL, "", 0, &answer) == MMDB_NOT_OPEN && mmdb_plan(NULL, NULL, 1, NULL) == MMDB_NOT_OPEN);
    CHECK(mmdb_answer(NULL, &answer) == MMDB_NOT_OPEN && mmdb_refusal(NULL) == 0);
    CHECK(mmdb_begin(NULL) == MMDB_NOT_OPEN && mmdb_transactions(NULL) == 0);
    CHECK(mmdb_commit(NULL) == MMDB_NOT_OPEN && mmdb_rollback(NULL) == MMDB_NOT_OPEN);
    CHECK(mmdb_share(NULL, NULL) == MMDB_NOT_OPEN && mmdb_leave(NULL) == MMDB_NOT_OPEN && mmdb_clone(NULL, NULL) == MMDB_NOT_OPEN);
    CHECK(mmdb_interrupter_open(NULL, NULL) == MMDB_NOT_OPEN);
    reads_null();
    saves_and_restores_null();
    mmdb_interrupt(NULL);
    mmdb_interrupter_close(NULL);
    mmdb_close(NULL);
}

typedef void (*maker)(handle *of);

static const maker MAKERS[] = {
    commands, commands, commands, commands, loads,    loads,     feeds,    feeds,        prepares,     prepares,      prepares,
    binds,    binds,    binds,    binds,    executes, executes,  executes, asks_columns, asks_columns, looks_at_rows, tells,
    queries,  queries,  asks_why, asks_plan, counts,  begins,    leaves,   commits_or_rolls_back, commits_or_rolls_back,
    executes_many, executes_many, tells_the_version, asks_first, asks_first, interrupts, interrupts,
    saves, saves, restores, restores, restores, restores, reads_by_cursors, reads_by_cursors, reads_by_cursors,
};

/* One call. Handles are seldom opened, closed and shared, so that much becomes of what they have. */
static void call(void)
{
    handle *of = &handles[drawn(HANDLES)];
    const uint64_t luck = drawn(1000);
    if (luck < 15 || !of->is_open)
        opens(of);
    else if (luck < 17)
        closes(of);
    else if (luck < 30)
        finalizes(of);
    else if (luck < 32)
        calls_on_null();
    else if (luck < 44)
        shares(of);
    if (luck >= 44 || is_drawn(10))
        MAKERS[drawn(sizeof MAKERS / sizeof MAKERS[0])](of);
}

int main(int count, char **words)
{
    uint64_t calls = count == 3 ? strtoull(words[2], NULL, 10) : 0;
    state = count == 3 ? strtoull(words[1], NULL, 10) : 0;
    for (; calls > 0 && checks_failed == 0; calls--)
        call();
    for (size_t i = 0; i < HANDLES; i++)
        closes(&handles[i]);
    for (size_t i = 0; i < CURSORS; i++)
        closes_cursor(&readings[i]);
    for (size_t i = 0; i < INTERRUPTERS; i++)
        closes_interrupter(&interrupters[i]);
    ends_all_restores();
    for (size_t i = 0; i <= MMDB_CHANGED; i++)
        printf("%s: %" PRIu64 "\n", mmdb_status_text((uint32_t)i), statuses[i]);
    return checks_failed != 0;
}
