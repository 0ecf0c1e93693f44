/* Times mmdb beside SQLite over `:memory:`, both in this process, on the same statements over a table of so many rows. By
   the word `inserts` it times inserts into an empty one. Each figure is a line: what was done, the way of both, the
   microseconds of mmdb and those of SQLite. A statement's text is made within its time, and the rows of a select are read. */
#define _POSIX_C_SOURCE 200809L
#define PROGRAM "beside"
#include "mmdb.h"
#include "timing.h"

#include <inttypes.h>
#include <sqlite3.h>
#include <stdio.h>
#include <stdlib.h>
#include <string.h>

enum { ROUNDS = 7, STATEMENTS = 10000, SELECTS = 100, MOST_NEW = 2000, LINE = 200 };
enum { ROWS_OF_A_SELECT = 1000, FIRST_ROWS = 100, ROWS_OF_A_BLOCK = 100000, INSERTS = 100000, LONGEST_ROW = 64 };

typedef enum kind { SELECT, INSERT, UPDATE, DELETE, RANGE, COUNT, FIRST, KINDS } kind;

/* Both are asked by a new text each time, and by statements that are prepared once. */
typedef enum way { OUR_TEXT, THEIR_TEXT, OUR_STATEMENT, THEIR_STATEMENT, WAYS } way;

static const char *const NAMES[KINDS] = { "select by key", "insert by key", "update by key", "delete by key",
                                          "select of 1,000", "count of 1,000", "first 100 of 1,000" };

/* The statements of both: a key, a number and a text of eight letters go into each, or the keys of a range. A count and the first
   rows are asked by a statement alone. */
static const char *const OUR_TEXTS[COUNT] = {
    "select * from t where id = %1$" PRId64,
    "insert t (%1$" PRId64 ", %2$" PRId64 ", '%3$s')",
    "update t set n = %2$" PRId64 ", s = '%3$s' where id = %1$" PRId64,
    "delete t where id = %1$" PRId64,
    "select * from t where id >= %1$" PRId64 " and id < %2$" PRId64,
};
static const char *const THEIR_TEXTS[COUNT] = {
    "select * from t where id = %1$" PRId64,
    "insert into t values (%1$" PRId64 ", %2$" PRId64 ", '%3$s')",
    "update t set n = %2$" PRId64 ", s = '%3$s' where id = %1$" PRId64,
    "delete from t where id = %1$" PRId64,
    "select * from t where id >= %1$" PRId64 " and id < %2$" PRId64,
};
static const char *const OUR_STATEMENTS[KINDS] = {
    "select * from t where id = ?",
    "insert t (?, ?, ?)",
    "update t set n = ?, s = ? where id = ?",
    "delete t where id = ?",
    "select * from t where id >= ? and id < ?",
    "select * from t where id >= ? and id < ?",
    "select * from t where id >= ? and id < ?",
};
static const char *const THEIR_STATEMENTS[KINDS] = {
    "select * from t where id = ?",
    "insert into t values (?, ?, ?)",
    "update t set n = ?, s = ? where id = ?",
    "delete from t where id = ?",
    "select * from t where id >= ? and id < ?",
    "select count(*) from t where id >= ? and id < ?",
    "select * from t where id >= ? and id < ? order by id limit 100",
};

/* Both databases, and what was read of their rows, so that nothing is left out. */
static mmdb ours = MMDB_CLOSED;
static mmdb_statement prepared[KINDS];
static sqlite3 *theirs = NULL;
static sqlite3_stmt *their_prepared[KINDS];
static uint64_t sums[WAYS];

/* What goes into a statement. */
typedef struct values {
    int64_t key;
    int64_t number;
    char text[9];
} values;

static int is_range(kind of)
{
    return of == RANGE || of == COUNT || of == FIRST;
}

static values values_of(kind of, int64_t key)
{
    values made = { key, is_range(of) ? key + 2 * ROWS_OF_A_SELECT : key / 2, "" };
    letters(made.text, key);
    return made;
}

static int is_read(kind of)
{
    return of == SELECT || is_range(of);
}

/* Reads the records of an answer, in which no field is quoted. */
static void read_answer(mmdb_bytes answer)
{
    const char *record = (const char *)answer.at, *end = record + answer.length;
    char *behind;
    for (int line = 0; line < 2; line++)
        record = (const char *)memchr(record, '\n', (size_t)(end - record)) + 1;
    while (record < end) {
        sums[OUR_TEXT] += (uint64_t)strtoll(record, &behind, 10);
        sums[OUR_TEXT] += (uint64_t)strtoll(behind + 1, &behind, 10);
        sums[OUR_TEXT] += (unsigned char)behind[1];
        record = (const char *)memchr(behind, '\n', (size_t)(end - behind)) + 1;
    }
}

static void read_rows(const mmdb_rows *rows)
{
    for (size_t row = 0; row < rows->rows; row++) {
        sums[OUR_STATEMENT] += (uint64_t)mmdb_cell_at(rows, row, 0)->integer;
        sums[OUR_STATEMENT] += (uint64_t)mmdb_cell_at(rows, row, 1)->integer;
        sums[OUR_STATEMENT] += mmdb_text(rows, mmdb_cell_at(rows, row, 2)).at[0];
    }
}

static void read_theirs(sqlite3_stmt *row, kind of, way by)
{
    sums[by] += (uint64_t)sqlite3_column_int64(row, 0);
    if (of == COUNT)
        return;
    sums[by] += (uint64_t)sqlite3_column_int64(row, 1);
    sums[by] += sqlite3_column_text(row, 2)[0];
}

static void do_our_text(kind of, const values *with)
{
    char line[LINE];
    mmdb_bytes answer;
    int length = snprintf(line, sizeof line, OUR_TEXTS[of], with->key, with->number, with->text);
    insist(mmdb_command(&ours, line, (size_t)length, &answer) == MMDB_DONE && mmdb_refusal(&ours) == 0, line);
    if (is_read(of))
        read_answer(answer);
}

static void do_our_statement(kind of, const values *with)
{
    const uint32_t statement = prepared[of].number;
    mmdb_rows rows;
    mmdb_status status;
    uint64_t counted;
    uint32_t key = of == UPDATE ? 2 : 0, number = of == UPDATE ? 0 : 1;
    mmdb_bind_integer(&ours, statement, key, with->key);
    if (of == INSERT || of == UPDATE)
        mmdb_bind_text(&ours, statement, number + 1, with->text, 8);
    if (of == INSERT || of == UPDATE || is_range(of))
        mmdb_bind_integer(&ours, statement, number, with->number);
    if (of == COUNT) {
        insist(mmdb_count(&ours, statement, &counted) == MMDB_DONE, OUR_STATEMENTS[of]);
        sums[OUR_STATEMENT] += counted;
        return;
    }
    status = of == FIRST ? mmdb_first(&ours, statement, FIRST_ROWS, &rows) : mmdb_execute(&ours, statement, &rows);
    insist(status == MMDB_DONE, OUR_STATEMENTS[of]);
    if (is_read(of))
        read_rows(&rows);
}

static void finish_theirs(sqlite3_stmt *statement, kind of, way by)
{
    int status = sqlite3_step(statement);
    for (; is_read(of) && status == SQLITE_ROW; status = sqlite3_step(statement))
        read_theirs(statement, of, by);
    insist(status == SQLITE_DONE, sqlite3_sql(statement));
}

static void do_their_text(kind of, const values *with)
{
    char line[LINE];
    sqlite3_stmt *statement;
    int length = snprintf(line, sizeof line, THEIR_TEXTS[of], with->key, with->number, with->text);
    insist(sqlite3_prepare_v2(theirs, line, length + 1, &statement, NULL) == SQLITE_OK, line);
    finish_theirs(statement, of, THEIR_TEXT);
    sqlite3_finalize(statement);
}

static void do_their_statement(kind of, const values *with)
{
    sqlite3_stmt *statement = their_prepared[of];
    int key = of == UPDATE ? 3 : 1, number = of == UPDATE ? 1 : 2;
    sqlite3_bind_int64(statement, key, with->key);
    if (of == INSERT || of == UPDATE)
        sqlite3_bind_text(statement, number + 1, with->text, 8, SQLITE_STATIC);
    if (of == INSERT || of == UPDATE || is_range(of))
        sqlite3_bind_int64(statement, number, with->number);
    finish_theirs(statement, of, THEIR_STATEMENT);
    sqlite3_reset(statement);
}

static void do_one(way by, kind of, int64_t key)
{
    static void (*const WAY[WAYS])(kind, const values *) = { do_our_text, do_their_text, do_our_statement,
                                                             do_their_statement };
    values with = values_of(of, key);
    WAY[by](of, &with);
}

static double batch(way by, kind of, const int64_t *keys, int64_t count)
{
    double before = seconds();
    for (int64_t i = 0; i < count; i++)
        do_one(by, of, keys[i]);
    return seconds() - before;
}

/* Draws the keys of some statements, and gives their number. The keys in the table are even, and new ones are odd. */
static int64_t draw_keys(int64_t *keys, kind of, int64_t rows)
{
    int64_t most = rows < MOST_NEW ? rows : MOST_NEW, count = is_range(of) ? SELECTS : STATEMENTS;
    if (of == INSERT || of == DELETE) {
        shuffle(keys, most, rows / most * 2, 1);
        return most;
    }
    if (is_range(of))
        rows -= ROWS_OF_A_SELECT - 1;
    for (int64_t i = 0; i < count; i++)
        keys[i] = 2 * (int64_t)draw((uint64_t)rows);
    return count;
}

/* The seconds of a statement, of some thousands. What is inserted is taken out again, in batches that make the table at
   most twice as large. */
static double statement(way by, kind of, int64_t rows)
{
    static int64_t keys[STATEMENTS];
    const way in_both = by == OUR_TEXT || by == OUR_STATEMENT ? OUR_STATEMENT : THEIR_STATEMENT;
    int64_t count = draw_keys(keys, of, rows);
    int64_t batches = is_range(of) ? 1 : STATEMENTS / count;
    double took = 0;
    for (int64_t i = 0; i < batches; i++) {
        if (of == DELETE)
            batch(in_both, INSERT, keys, count);
        took += batch(by, of, keys, count);
        if (of == INSERT)
            batch(in_both, DELETE, keys, count);
    }
    return took / (double)(batches * count);
}

static void tell(const char *what, const char *by, double of_ours, double of_theirs)
{
    printf("%s\t%s\t%f\t%f\n", what, by, of_ours * 1e6, of_theirs * 1e6);
    fflush(stdout);
}

static void compare(kind of, int64_t rows)
{
    const way first = of == COUNT || of == FIRST ? OUR_STATEMENT : OUR_TEXT;
    double best[WAYS] = { 1e9, 1e9, 1e9, 1e9 };
    for (int round = 0; round < ROUNDS; round++) {
        for (way by = first; by < WAYS; by++) {
            double took = statement(by, of, rows);
            if (took < best[by])
                best[by] = took;
        }
    }
    if (first == OUR_TEXT)
        tell(NAMES[of], "new text", best[OUR_TEXT], best[THEIR_TEXT]);
    tell(NAMES[of], "statement", best[OUR_STATEMENT], best[THEIR_STATEMENT]);
}

/* Puts the rows of these keys in by one call. */
static double insert_together(const int64_t *keys)
{
    static mmdb_cell cells[3 * INSERTS];
    static char texts[8 * INSERTS];
    uint64_t changed = 0;
    double before = seconds();
    for (int64_t i = 0; i < INSERTS; i++) {
        const values with = values_of(INSERT, keys[i]);
        const mmdb_cell key = { with.key, 0, 0, MMDB_INTEGER }, number = { with.number, 0, 0, MMDB_INTEGER };
        const mmdb_cell text = { 0, (uint32_t)(8 * i), 8, MMDB_TEXT };
        cells[3 * i] = key;
        cells[3 * i + 1] = number;
        cells[3 * i + 2] = text;
        memcpy(texts + 8 * i, with.text, 8);
    }
    mmdb_execute_many(&ours, prepared[INSERT].number, cells, 3 * INSERTS, texts, sizeof texts, &changed);
    insist(changed == INSERTS, OUR_STATEMENTS[INSERT]);
    return seconds() - before;
}

/* The seconds of a row of many that one statement inserts into an empty table, in SQLite in one transaction; or, by the way of texts,
   that one call does. */
static double inserts(way by, const int64_t *keys)
{
    double took;
    sqlite3_exec(theirs, "begin", NULL, NULL, NULL);
    took = by == OUR_TEXT ? insert_together(keys) : batch(by, INSERT, keys, INSERTS);
    sqlite3_exec(theirs, "commit", NULL, NULL, NULL);
    sqlite3_exec(theirs, "delete from t", NULL, NULL, NULL);
    insist(mmdb_command(&ours, "delete t", 8, NULL) == MMDB_DONE, "delete t");
    return took / INSERTS;
}

static void compare_inserts(void)
{
    static int64_t keys[INSERTS];
    double best[WAYS] = { 1e9, 1e9, 1e9, 1e9 };
    shuffle(keys, INSERTS, 2, 0);
    for (int turn = 0; turn < ROUNDS; turn++) {
        static const way BY[] = { OUR_TEXT, OUR_STATEMENT, THEIR_STATEMENT };
        for (size_t i = 0; i < sizeof BY / sizeof BY[0]; i++) {
            double took = inserts(BY[i], keys);
            if (took < best[BY[i]])
                best[BY[i]] = took;
        }
    }
    tell("100,000 inserts", "statement", best[OUR_STATEMENT], best[THEIR_STATEMENT]);
    tell("100,000 inserts", "one call", best[OUR_TEXT], best[THEIR_STATEMENT]);
}

static void load_block(const char *block, size_t length)
{
    char line[LINE];
    snprintf(line, sizeof line, "load t %zu", length);
    insist(mmdb_load(&ours, line, strlen(line), block, length, NULL) == MMDB_DONE && mmdb_refusal(&ours) == 0, line);
}

/* Puts these keys into both, in their order. */
static void fill(const int64_t *keys, int64_t rows)
{
    size_t room = (size_t)ROWS_OF_A_BLOCK * LONGEST_ROW, length = 0;
    char *block = (char *)malloc(room);
    insist(block != NULL, "malloc");
    sqlite3_exec(theirs, "begin", NULL, NULL, NULL);
    for (int64_t i = 0; i < rows; i++) {
        const values with = values_of(INSERT, keys[i]);
        do_their_statement(INSERT, &with);
        if (length == 0)
            length = (size_t)sprintf(block, "id,n,s\n");
        length += (size_t)sprintf(block + length, "%" PRId64 ",%" PRId64 ",%s\n", with.key, with.number,
                                  with.text);
        if ((i + 1) % ROWS_OF_A_BLOCK == 0 || i == rows - 1) {
            load_block(block, length);
            length = 0;
        }
    }
    sqlite3_exec(theirs, "commit", NULL, NULL, NULL);
    free(block);
}

static void open_both(void)
{
    static const char TABLE[] = "table t (id int, n int, s text)";
    insist(mmdb_open(&ours, MMDB_AUTO, MMDB_MOST, MMDB_MOST) == MMDB_DONE, "mmdb_open");
    insist(mmdb_command(&ours, TABLE, strlen(TABLE), NULL) == MMDB_DONE, TABLE);
    insist(sqlite3_open(":memory:", &theirs) == SQLITE_OK, "sqlite3_open");
    sqlite3_exec(theirs, "create table t (id integer primary key, n integer, s text)", NULL, NULL, NULL);
    for (int i = 0; i < KINDS; i++) {
        const char *line = OUR_STATEMENTS[i], *text = THEIR_STATEMENTS[i];
        insist(mmdb_prepare(&ours, line, strlen(line), &prepared[i]) == MMDB_DONE, line);
        insist(sqlite3_prepare_v2(theirs, text, -1, &their_prepared[i], NULL) == SQLITE_OK, text);
    }
}

/* The seconds of a copy of all tables, in SQLite by its backup. */
static double copy_ours(void)
{
    mmdb copy = MMDB_CLOSED;
    double before = seconds(), took;
    insist(mmdb_clone(&ours, &copy) == MMDB_DONE, "mmdb_clone");
    took = seconds() - before;
    mmdb_close(&copy);
    return took;
}

static double copy_theirs(void)
{
    sqlite3 *copy = NULL;
    sqlite3_backup *backup;
    double before, took;
    insist(sqlite3_open(":memory:", &copy) == SQLITE_OK, "sqlite3_open");
    before = seconds();
    backup = sqlite3_backup_init(copy, "main", theirs, "main");
    insist(backup != NULL && sqlite3_backup_step(backup, -1) == SQLITE_DONE, "sqlite3_backup_step");
    sqlite3_backup_finish(backup);
    took = seconds() - before;
    sqlite3_close(copy);
    return took;
}

static void compare_copies(void)
{
    double best[2] = { 1e9, 1e9 };
    for (int turn = 0; turn < ROUNDS; turn++) {
        const double took[2] = { copy_ours(), copy_theirs() };
        for (int i = 0; i < 2; i++)
            best[i] = took[i] < best[i] ? took[i] : best[i];
    }
    tell("copy of the tables", "one call", best[0], best[1]);
}

static void compare_all(int64_t rows)
{
    int64_t *keys = (int64_t *)calloc((size_t)rows, sizeof *keys);
    insist(keys != NULL, "calloc");
    shuffle(keys, rows, 2, 0);
    fill(keys, rows);
    free(keys);
    for (kind of = SELECT; of <= DELETE; of++)
        compare(of, rows);
    for (kind of = RANGE; of < KINDS && rows >= ROWS_OF_A_SELECT; of++)
        compare(of, rows);
    compare_copies();
    for (way by = OUR_TEXT; by < WAYS; by++)
        insist(sums[by] != 0, "a select");
}

int main(int count, char **words)
{
    int64_t rows = count == 2 ? strtoll(words[1], NULL, 10) : 0;
    int only_inserts = count == 2 && strcmp(words[1], "inserts") == 0;
    if (count == 2 && strcmp(words[1], "--version") == 0)
        return puts(sqlite3_libversion()) < 0;
    insist(rows > 0 || only_inserts, "beside ROWS and beside inserts");
    open_both();
    if (only_inserts)
        compare_inserts();
    else
        compare_all(rows);
    for (int i = 0; i < KINDS; i++)
        sqlite3_finalize(their_prepared[i]);
    sqlite3_close(theirs);
    mmdb_close(&ours);
    return 0;
}
