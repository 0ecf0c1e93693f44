/* Meets each status of the calls that tell why a statement was refused and why a line is none, and reads their words. */
#include "allocations.h"
#include "checking.h"

enum { MOST_VALUES = 3, NUMBERS = 10000, LONGEST_TEXT = 1024 };

/* A value that is bound: a null, an integer or a text. */
typedef struct value {
    mmdb_kind kind;
    int64_t integer;
    const char *text;
} value;

#define NOTHING { MMDB_NULL, 0, NULL }
#define INTEGER(number) { MMDB_INTEGER, (number), NULL }
#define TEXT(characters) { MMDB_TEXT, 0, (characters) }

/* A text that is too long to be stored. It is made before it is bound. */
static char too_long[LONGEST_TEXT + 2];

/* A statement with its values, the number that it is refused by, and why. */
static const struct {
    const char *line;
    value values[MOST_VALUES];
    uint32_t number;
    const char *reason;
} STATEMENTS[] = {
    { "insert emp (?, ?, ?)", { INTEGER(1), TEXT("Bob"), INTEGER(10) }, 41, "column 13: emp has a row with the key 1" },
    { "insert emp (1, ?, ?)", { TEXT("Bob"), INTEGER(10) }, 41, "emp has a row with the key 1" },
    { "insert emp (?, 'it''s ?', ?)",
      { INTEGER(2), INTEGER(30) },
      42,
      "column 27: dept has no row with the key 30, which column dept names" },
    { "update emp set name = 'é', dept = ? where id = ?",
      { INTEGER(30), INTEGER(1) },
      42,
      "column 35: dept has no row with the key 30, which column dept names" },
    { "insert emp (?,?,?)", { INTEGER(2), INTEGER(5), NOTHING }, 35, "column 15: column name of emp has texts, and 5 is an integer" },
    { "select * from emp where id = 1 and name = ?",
      { INTEGER(5) },
      35,
      "column 43: column name of emp has texts, and 5 is an integer" },
    { "update emp set name = ? where id=?",
      { TEXT("two\nlines"), TEXT("1\n2") },
      35,
      "column 34: column id of emp has integers, and '1<U+000A>2' is a text" },
    { "insert emp (?, ?, null)", { INTEGER(2), NOTHING }, 35, "column 16: column name of emp takes no null" },
    { "delete emp where dept < ?", { NOTHING }, 35, "column 25: null has no order, and stands behind = and <> alone: dept" },
    { "insert emp (?, ?, null)",
      { INTEGER(2), TEXT(too_long) },
      46,
      "column 16: the text for column name has 1025 bytes, and 1024 are allowed" },
    { "update emp set id = ?", { INTEGER(5) }, 36, "id is the key of emp, and no key is set" },
    { "delete dept where id = ?",
      { INTEGER(20) },
      44,
      "the row of dept with the key 20 is named in column dept of the row of emp with the key 1" },
};

/* Lines that are not prepared, the number that they are refused by, and why. */
static const struct {
    const char *line;
    uint32_t number;
    const char *reason;
} LINES[] = {
    { "select * from emp where salary = ?", 32, "salary is no column of emp" },
    { "select * from staff where id = ?", 30, "staff is no table" },
    { "insert emp (?, 5, ?)", 35, "column name of emp has texts, and 5 is an integer" },
    { "insert emp (?)", 45, "a row of emp has a value for each column: 3, not 1" },
    { "insert emp (?, ?, ?", 20, "column 20: wanted a comma or ), found the end of the line" },
    { "insert emp (?, Bob, ?)", 20, "column 16: Bob is no value: a text stands between quote marks" },
    { "selct * from emp where id = ?", 20, "column 1: selct is no statement: is select meant?" },
    { "drop table emp", 20, "column 1: wanted insert, update, delete or select, found drop" },
    { "# select * from emp", 20, "a blank line and a comment are no statement" },
    { "select *\nfrom emp", 20, "a statement is one line, with no line feed in it" },
    { "select \377 from emp", 11, "at byte 8 no character begins" },
};

static void bind(mmdb *db, mmdb_statement to, uint32_t place, const value *bound)
{
    if (bound->kind == MMDB_INTEGER)
        GIVES(mmdb_bind_integer(db, to.number, place, bound->integer), MMDB_DONE);
    else if (bound->kind == MMDB_TEXT)
        GIVES(mmdb_bind_text(db, to.number, place, bound->text, strlen(bound->text)), MMDB_DONE);
    else
        GIVES(mmdb_bind_null(db, to.number, place), MMDB_DONE);
}

static mmdb_bytes another(void)
{
    const mmdb_bytes bytes = { (const unsigned char *)"another", 7 };
    return bytes;
}

static void open_with_tables(mmdb *db)
{
    GIVES(mmdb_open(db, MMDB_AUTO, MMDB_MOST, MMDB_MOST), MMDB_DONE);
    GIVES(command(db, "table dept (id int, name text)", NULL), MMDB_DONE);
    GIVES(command(db, "table emp (id int, name text, dept ref dept null)", NULL), MMDB_DONE);
    GIVES(load(db, "load dept 25", "id,name\n10,toys\n20,shoes\n", NULL), MMDB_DONE);
    GIVES(command(db, "insert emp (1, 'Ann', 20)", NULL), MMDB_DONE);
    GIVES(mmdb_refusal(db), 0);
}

static void a_closed_handle_is_told(mmdb *db)
{
    mmdb_bytes reason = another();
    GIVES(mmdb_statement_reason(db, 0, &reason), MMDB_NOT_OPEN);
    CHECK(reads(reason, ""));
    GIVES(mmdb_statement_reason(db, 0, NULL), MMDB_NOT_OPEN);
    reason = another();
    GIVES(mmdb_prepare_reason(db, "delete t", 8, &reason), MMDB_NOT_OPEN);
    CHECK(reads(reason, ""));
    GIVES(mmdb_prepare_reason(db, NULL, 0, NULL), MMDB_NOT_OPEN);
}

/* Asks why a line was not prepared, or, where that is null, why the statement of a number was refused. */
static mmdb_status asks(mmdb *db, const char *line, uint32_t number, mmdb_bytes *reason)
{
    return line ? mmdb_prepare_reason(db, line, strlen(line), reason) : mmdb_statement_reason(db, number, reason);
}

/* Asks so with each call for memory refused in turn: the words are these, or there was no memory for them. */
static void tells(mmdb *db, const char *line, uint32_t number, const char *words)
{
    mmdb_status status = MMDB_NO_MEMORY;
    for (long met = 0; status == MMDB_NO_MEMORY; met++) {
        mmdb_bytes reason = another();
        allocations_refuse(met, 1);
        status = asks(db, line, number, &reason);
        CHECK(status == MMDB_DONE || allocations_refused() == 1);
        allocations_refuse(0, 0);
        CHECK(reads(reason, status == MMDB_DONE ? words : ""));
    }
    GIVES(status, MMDB_DONE);
    GIVES(asks(db, line, number, NULL), MMDB_DONE);
}

static void each_refusal_of_a_statement_has_its_reason(mmdb *db)
{
    mmdb_bytes before, after;
    for (size_t i = 0; i < sizeof STATEMENTS / sizeof STATEMENTS[0]; i++) {
        mmdb_statement statement = prepared(db, STATEMENTS[i].line);
        for (uint32_t place = 0; place < statement.places; place++)
            bind(db, statement, place, &STATEMENTS[i].values[place]);
        GIVES(mmdb_execute(db, statement.number, NULL), MMDB_REFUSED);
        GIVES(mmdb_refusal(db), STATEMENTS[i].number);
        GIVES(mmdb_answer(db, &before), MMDB_DONE);
        tells(db, NULL, statement.number, STATEMENTS[i].reason);
        GIVES(mmdb_answer(db, &after), MMDB_DONE);
        CHECK(before.at == after.at && before.length == after.length);
        GIVES(mmdb_refusal(db), STATEMENTS[i].number);
        GIVES(mmdb_finalize(db, statement.number), MMDB_DONE);
    }
}

static void each_line_that_is_not_prepared_has_its_reason(mmdb *db)
{
    for (size_t i = 0; i < sizeof LINES / sizeof LINES[0]; i++) {
        GIVES(mmdb_prepare(db, LINES[i].line, strlen(LINES[i].line), NULL), MMDB_REFUSED);
        GIVES(mmdb_refusal(db), LINES[i].number);
        tells(db, LINES[i].line, 0, LINES[i].reason);
        GIVES(mmdb_refusal(db), LINES[i].number);
    }
}

static void each_status_is_given(mmdb *db)
{
    static const char LINE[] = "insert emp (?, ?, ?)";
    mmdb_statement insert = prepared(db, LINE);
    mmdb_bytes reason = another();
    GIVES(mmdb_statement_reason(db, NUMBERS, &reason), MMDB_NO_SUCH_STATEMENT);
    CHECK(reads(reason, ""));
    GIVES(mmdb_statement_reason(db, insert.number, &reason), MMDB_DONE);
    CHECK(reads(reason, ""));
    GIVES(mmdb_execute(db, insert.number, NULL), MMDB_REFUSED);
    GIVES(mmdb_statement_reason(db, insert.number, &reason), MMDB_DONE);
    CHECK(reads(reason, "column 13: column id of emp takes no null"));
    GIVES(mmdb_statement_reason(db, NUMBERS, NULL), MMDB_NO_SUCH_STATEMENT);
    GIVES(mmdb_refusal(db), 35);
    GIVES(mmdb_prepare_reason(db, LINE, strlen(LINE), &reason), MMDB_DONE);
    CHECK(reads(reason, ""));
    reason = another();
    GIVES(mmdb_prepare_reason(db, "", 0, &reason), MMDB_NO_LINE);
    CHECK(reads(reason, ""));
    GIVES(mmdb_prepare_reason(db, NULL, 0, NULL), MMDB_NO_LINE);
    GIVES(mmdb_prepare_reason(db, NULL, 7, &reason), MMDB_NO_LINE);
    GIVES(mmdb_refusal(db), 35);
    GIVES(mmdb_finalize(db, insert.number), MMDB_DONE);
    GIVES(mmdb_statement_reason(db, insert.number, &reason), MMDB_NO_SUCH_STATEMENT);
}

/* What is refused whatever is bound is explained by the statement's number too, once its table is gone. */
static void a_statement_without_its_table_has_its_reason(mmdb *db)
{
    mmdb_rows rows;
    GIVES(command(db, "table gone (id int)", NULL), MMDB_DONE);
    mmdb_statement select = prepared(db, "select id from gone where id < ?");
    GIVES(command(db, "drop table gone", NULL), MMDB_DONE);
    GIVES(mmdb_columns(db, select.number, &rows), MMDB_REFUSED);
    tells(db, NULL, select.number, "gone is no table");
    GIVES(mmdb_execute(db, select.number, &rows), MMDB_REFUSED);
    tells(db, NULL, select.number, "gone is no table");
    GIVES(mmdb_finalize(db, select.number), MMDB_DONE);
}

/* A reason leaves the values that are bound, and the rows that another statement has shown. */
static void values_and_rows_stay(mmdb *db)
{
    mmdb_statement select = prepared(db, "select name from emp where id = ?"), insert = prepared(db, "insert emp (?, 'Bob', null)");
    mmdb_rows rows;
    GIVES(mmdb_bind_integer(db, select.number, 0, 1), MMDB_DONE);
    GIVES(mmdb_execute(db, select.number, &rows), MMDB_DONE);
    GIVES(mmdb_bind_integer(db, insert.number, 0, 1), MMDB_DONE);
    GIVES(mmdb_execute(db, insert.number, NULL), MMDB_REFUSED);
    tells(db, NULL, insert.number, "column 13: emp has a row with the key 1");
    CHECK(rows.rows == 1 && reads(mmdb_text(&rows, mmdb_cell_at(&rows, 0, 0)), "Ann"));
    GIVES(mmdb_execute(db, insert.number, NULL), MMDB_REFUSED);
    GIVES(mmdb_refusal(db), 41);
    GIVES(mmdb_finalize(db, select.number), MMDB_DONE);
    GIVES(mmdb_finalize(db, insert.number), MMDB_DONE);
}

/* A query reads a command, in which a ? is a mistake. Why another command is none for it is told as of a line to prepare. */
static void a_query_has_its_reason(mmdb *db)
{
    mmdb_bytes reason;
    GIVES(mmdb_query(db, "insert emp (?, 5)", 17, NULL), MMDB_REFUSED);
    GIVES(mmdb_reason(db, "insert emp (?, 5)", 17, NULL, 0, &reason), MMDB_DONE);
    CHECK(reads(reason, "column 13: wanted a value, found ?: a ? is allowed in prepared statements only"));
    GIVES(mmdb_query(db, "tables", 6, NULL), MMDB_REFUSED);
    GIVES(mmdb_prepare_reason(db, "tables", 6, &reason), MMDB_DONE);
    CHECK(reads(reason, "column 1: wanted insert, update, delete or select, found tables"));
}

int main(void)
{
    mmdb db = MMDB_CLOSED;
    memset(too_long, 'x', LONGEST_TEXT + 1);
    a_closed_handle_is_told(NULL);
    a_closed_handle_is_told(&db);
    open_with_tables(&db);
    each_status_is_given(&db);
    each_refusal_of_a_statement_has_its_reason(&db);
    each_line_that_is_not_prepared_has_its_reason(&db);
    a_statement_without_its_table_has_its_reason(&db);
    values_and_rows_stay(&db);
    a_query_has_its_reason(&db);
    mmdb_close(&db);
    a_closed_handle_is_told(&db);
    CHECK(allocations_held() == 0);
    return checks_failed != 0;
}
