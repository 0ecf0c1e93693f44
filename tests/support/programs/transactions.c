/* Transactions: each status of their calls, what every other call gives meanwhile, and begin, insert, update, delete, commit and rollback
   in every order of six, nested to three, beside plain lists that are copied at each begin. A rollback calls for no memory. */
#include "allocations.h"
#include "checking.h"

#define DEPTH 3
#define STEPS 6
#define WAYS 6
#define LOADED 2
#define KEYS (STEPS + LOADED)
#define NUMBERS 3
#define ANY (-1)

#define LONG "by an update that no cell can hold"

enum text { NO_ROW, BY_STATEMENT, BY_LINE, BY_LOAD, BY_UPDATE, TEXTS };

static const char *const TEXT[TEXTS] = { "none", "by statement", "by line", "by load", LONG };

/* The text and the number that each key has in a table, or NO_ROW. */
typedef struct list {
    unsigned char text[KEYS];
    unsigned char number[KEYS];
} list;

/* Which rows of it are meant: those with this key, this text and this number, each where it isn't ANY. Or what they are set to. */
typedef struct asked {
    int key, text, number;
} asked;

static const asked ALL = { ANY, ANY, ANY };

/* A database beside the lists that it has and had. */
typedef struct pair {
    mmdb db;
    mmdb_statement insert, set, gone;
    list now;
    list saved[DEPTH];
    size_t open;
} pair;

static mmdb_status query(mmdb *db, const char *line, mmdb_rows *rows)
{
    return mmdb_query(db, line, strlen(line), rows);
}

/* ---- plain lists */

static void put(list *of, int key, enum text text)
{
    of->text[key] = (unsigned char)text;
    of->number[key] = (unsigned char)(key % NUMBERS);
}

static int is_asked(const list *of, int key, asked which)
{
    return of->text[key] != NO_ROW && (which.key == ANY || which.key == key) && (which.text == ANY || which.text == of->text[key]) &&
           (which.number == ANY || which.number == of->number[key]);
}

static size_t rows_of(const list *of, asked which)
{
    size_t count = 0;
    for (int key = 0; key < KEYS; key++)
        count += (size_t)is_asked(of, key, which);
    return count;
}

/* Takes the rows out of the list, and gives how many they were. */
static size_t taken_out(list *of, asked which)
{
    const size_t count = rows_of(of, which);
    for (int key = 0; key < KEYS; key++)
        if (is_asked(of, key, which))
            of->text[key] = NO_ROW;
    return count;
}

/* Sets the rows to a text and a number, and gives how many they are. */
static size_t set_to(list *of, asked which, asked to)
{
    const list before = *of;
    for (int key = 0; key < KEYS; key++)
        if (is_asked(&before, key, which)) {
            of->text[key] = (unsigned char)(to.text == ANY ? of->text[key] : to.text);
            of->number[key] = (unsigned char)(to.number == ANY ? of->number[key] : to.number);
        }
    return rows_of(&before, which);
}

/* The first key that has a row, or that has none. */
static int first_key(const list *of, int has_row)
{
    int key = 0;
    while (key < KEYS - 1 && (of->text[key] != NO_ROW) != has_row)
        key++;
    return key;
}

/* ---- inserts, updates and deletes */

static void insert_by_statement(pair *both, int key)
{
    mmdb_rows rows;
    GIVES(mmdb_bind_integer(&both->db, both->insert.number, 0, key), MMDB_DONE);
    GIVES(mmdb_bind_integer(&both->db, both->insert.number, 1, key % NUMBERS), MMDB_DONE);
    GIVES(mmdb_execute(&both->db, both->insert.number, &rows), MMDB_DONE);
    CHECK(rows.changed == 1);
    put(&both->now, key, BY_STATEMENT);
}

static void insert_by_line(pair *both, int key)
{
    char line[64];
    snprintf(line, sizeof line, "insert t (%d, 'by line', %d)", key, key % NUMBERS);
    GIVES(query(&both->db, line, NULL), MMDB_DONE);
    put(&both->now, key, BY_LINE);
}

static void insert_by_load(pair *both, int key)
{
    mmdb_bytes answer;
    char line[64], block[64];
    snprintf(block, sizeof block, "id,s,n\n%d,by load,%d\n", key, key % NUMBERS);
    snprintf(line, sizeof line, "load t %zu", strlen(block));
    GIVES(load(&both->db, line, block, &answer), MMDB_DONE);
    CHECK(reads(answer, "ok 1\n"));
    put(&both->now, key, BY_LOAD);
}

/* Inserts the first key without a row by the statement, by a line or by a load, as the step is. */
static void insert(pair *both, int step)
{
    static void (*const INSERTS[])(pair *, int) = { insert_by_statement, insert_by_line, insert_by_load };
    INSERTS[step % 3](both, first_key(&both->now, 0));
}

/* Sets the first row, by its key, to a long text and another number. */
static void update_by_statement(pair *both)
{
    const int key = first_key(&both->now, 1), number = (both->now.number[key] + 1) % NUMBERS;
    const asked which = { key, ANY, ANY }, to = { ANY, BY_UPDATE, number };
    mmdb_rows rows;
    GIVES(mmdb_bind_integer(&both->db, both->set.number, 0, number), MMDB_DONE);
    GIVES(mmdb_bind_integer(&both->db, both->set.number, 1, key), MMDB_DONE);
    GIVES(mmdb_execute(&both->db, both->set.number, &rows), MMDB_DONE);
    CHECK(rows.changed == set_to(&both->now, which, to));
}

/* Sets those of a text, by the hash. */
static void update_by_line(pair *both)
{
    const asked which = { ANY, BY_LOAD, ANY }, to = { ANY, ANY, 0 };
    mmdb_bytes answer;
    char expected[16];
    GIVES(command(&both->db, "update t set n = 0 where s = 'by load'", &answer), MMDB_DONE);
    snprintf(expected, sizeof expected, "ok %zu\n", set_to(&both->now, which, to));
    CHECK(reads(answer, expected));
}

/* Sets those of a number, by the tree. */
static void update_by_query(pair *both)
{
    const asked which = { ANY, ANY, 1 }, to = { ANY, BY_LINE, 2 };
    mmdb_rows rows;
    GIVES(query(&both->db, "update t set s = 'by line', n = 2 where n = 1", &rows), MMDB_DONE);
    CHECK(rows.changed == set_to(&both->now, which, to));
}

static void update(pair *both, int step)
{
    static void (*const UPDATES[])(pair *) = { update_by_statement, update_by_line, update_by_query };
    UPDATES[step % 3](both);
}

/* Deletes the first row, by its key. */
static void delete_by_statement(pair *both)
{
    const int key = first_key(&both->now, 1);
    const asked which = { key, ANY, ANY };
    mmdb_rows rows;
    GIVES(mmdb_bind_integer(&both->db, both->gone.number, 0, key), MMDB_DONE);
    GIVES(mmdb_execute(&both->db, both->gone.number, &rows), MMDB_DONE);
    CHECK(rows.changed == taken_out(&both->now, which));
}

/* Deletes those of a text, by the hash. */
static void delete_by_line(pair *both)
{
    const asked which = { ANY, BY_LOAD, ANY };
    mmdb_bytes answer;
    char expected[16];
    GIVES(command(&both->db, "delete t where s = 'by load'", &answer), MMDB_DONE);
    snprintf(expected, sizeof expected, "ok %zu\n", taken_out(&both->now, which));
    CHECK(reads(answer, expected));
}

/* Deletes those of a number, by the tree. */
static void delete_by_query(pair *both)
{
    const asked which = { ANY, ANY, 0 };
    mmdb_rows rows;
    GIVES(query(&both->db, "delete t where n = 0", &rows), MMDB_DONE);
    CHECK(rows.changed == taken_out(&both->now, which));
}

static void delete(pair *both, int step)
{
    static void (*const DELETES[])(pair *) = { delete_by_statement, delete_by_line, delete_by_query };
    DELETES[step % 3](both);
}

/* A table with two rows, a hash and a tree. */
static pair opened(void)
{
    pair both;
    memset(&both, 0, sizeof both);
    GIVES(mmdb_open(&both.db, MMDB_AUTO, MMDB_MOST, MMDB_MOST), MMDB_DONE);
    GIVES(command(&both.db, "table t (id int, s text, n int)", NULL), MMDB_DONE);
    GIVES(command(&both.db, "index t s hash", NULL), MMDB_DONE);
    GIVES(command(&both.db, "index t n tree", NULL), MMDB_DONE);
    both.insert = prepared(&both.db, "insert t (?, 'by statement', ?)");
    both.set = prepared(&both.db, "update t set s = '" LONG "', n = ? where id = ?");
    both.gone = prepared(&both.db, "delete t where id = ?");
    for (int key = 0; key < LOADED; key++)
        insert_by_load(&both, key);
    return both;
}

static void begin(pair *both)
{
    GIVES(mmdb_begin(&both->db), MMDB_DONE);
    both->saved[both->open++] = both->now;
}

static void commit(pair *both)
{
    GIVES(mmdb_commit(&both->db), MMDB_DONE);
    both->open--;
}

static void roll_back(pair *both)
{
    allocations_refuse(0, 1);
    GIVES(mmdb_rollback(&both->db), MMDB_DONE);
    CHECK(allocations_asked() == 0);
    CHECK(allocations_refused() == 0);
    allocations_refuse(0, 0);
    both->now = both->saved[--both->open];
}

/* ---- what is found */

/* A select finds the rows of the list that are meant, and no others. */
static void finds(pair *both, const char *line, asked which)
{
    mmdb_rows rows;
    GIVES(query(&both->db, line, &rows), MMDB_DONE);
    CHECK(rows.rows == rows_of(&both->now, which));
    for (size_t row = 0; row < rows.rows; row++)
        CHECK(is_asked(&both->now, (int)mmdb_cell_at(&rows, row, 0)->integer, which));
}

static void finds_each_key(pair *both)
{
    char line[64];
    for (int key = 0; key < KEYS; key++) {
        const asked which = { key, ANY, ANY };
        snprintf(line, sizeof line, "select id from t where id = %d", key);
        finds(both, line, which);
    }
}

static void finds_each_text_and_number(pair *both)
{
    char line[64];
    for (int text = BY_STATEMENT; text < TEXTS; text++) {
        const asked which = { ANY, text, ANY };
        snprintf(line, sizeof line, "select id from t where s = '%s'", TEXT[text]);
        finds(both, line, which);
    }
    for (int number = 0; number < NUMBERS; number++) {
        const asked which = { ANY, ANY, number };
        snprintf(line, sizeof line, "select id from t where n = %d", number);
        finds(both, line, which);
    }
}

static void dumps_the_list(pair *both)
{
    char rows[KEYS * 48] = "", expected[sizeof rows + 32];
    mmdb_bytes answer;
    size_t length = 0;
    for (int key = 0; key < KEYS; key++)
        if (both->now.text[key] != NO_ROW)
            length += (size_t)snprintf(rows + length, sizeof rows - length, "%d,%s,%d\n", key, TEXT[both->now.text[key]], both->now.number[key]);
    snprintf(expected, sizeof expected, "load t %zu\nid,s,n\n%s", strlen("id,s,n\n") + length, rows);
    GIVES(command(&both->db, "dump t", &answer), MMDB_DONE);
    CHECK(reads(answer, expected));
}

/* The table has the rows of the list and no others, and so has each of its indexes. */
static void are_alike(pair *both)
{
    finds(both, "select id from t", ALL);
    finds_each_key(both);
    finds_each_text_and_number(both);
    dumps_the_list(both);
    CHECK(mmdb_transactions(&both->db) == both->open);
}

/* Does the steps that a number spells, one digit each. Gives whether it nests no deeper than three, and ends only what is open. */
static int is_done(pair *both, unsigned spelled)
{
    for (int step = 0; step < STEPS; step++, spelled /= WAYS) {
        const unsigned way = spelled % WAYS;
        if ((way == 0 && both->open == DEPTH) || ((way == 1 || way == 2) && both->open == 0))
            return 0;
        switch (way) {
        case 0:
            begin(both);
            break;
        case 1:
            commit(both);
            break;
        case 2:
            roll_back(both);
            break;
        case 3:
            delete(both, step);
            break;
        case 4:
            update(both, step);
            break;
        default:
            insert(both, step);
        }
        are_alike(both);
    }
    return 1;
}

static void each_order_is_as_of_plain_lists(void)
{
    unsigned orders = 1, done = 0;
    for (int step = 0; step < STEPS; step++)
        orders *= WAYS;
    for (unsigned order = 0; order < orders; order++) {
        const long held = allocations_held();
        pair both = opened();
        done += (unsigned)is_done(&both, order);
        mmdb_close(&both.db);
        CHECK(allocations_held() == held);
    }
    CHECK(done > orders / 5);
}

static void closed_handles_and_null_are_told(void)
{
    mmdb closed = MMDB_CLOSED;
    GIVES(mmdb_begin(NULL), MMDB_NOT_OPEN);
    GIVES(mmdb_begin(&closed), MMDB_NOT_OPEN);
    GIVES(mmdb_commit(NULL), MMDB_NOT_OPEN);
    GIVES(mmdb_commit(&closed), MMDB_NOT_OPEN);
    GIVES(mmdb_rollback(NULL), MMDB_NOT_OPEN);
    GIVES(mmdb_rollback(&closed), MMDB_NOT_OPEN);
    CHECK(mmdb_transactions(NULL) == 0);
    CHECK(mmdb_transactions(&closed) == 0);
}

static void none_is_open(void)
{
    pair both = opened();
    for (int times = 0; times < 3; times++) {
        GIVES(mmdb_commit(&both.db), MMDB_NO_TRANSACTION);
        GIVES(mmdb_rollback(&both.db), MMDB_NO_TRANSACTION);
        are_alike(&both);
        begin(&both);
        update(&both, times);
        if (times == 1)
            commit(&both);
        else
            roll_back(&both);
    }
    mmdb_close(&both.db);
}

static void none_begins_where_tables_are_shared(void)
{
    pair both = opened();
    mmdb reader = MMDB_CLOSED;
    GIVES(mmdb_share(&both.db, &reader), MMDB_DONE);
    GIVES(mmdb_begin(&both.db), MMDB_SHARED);
    GIVES(mmdb_commit(&reader), MMDB_NO_TRANSACTION);
    GIVES(mmdb_rollback(&both.db), MMDB_NO_TRANSACTION);
    CHECK(mmdb_transactions(&both.db) == 0);
    mmdb_close(&reader);
    GIVES(mmdb_begin(&both.db), MMDB_DONE);
    mmdb_close(&both.db);
}

/* Drops and pieces are done and undone as all else. */
static void drops_and_pieces_are_done(mmdb *db)
{
    static const char *const DROPPED = "drop index t s hash\ndrop table t\n# none\ndrop tab";
    mmdb_bytes answer;
    GIVES(mmdb_begin(db), MMDB_DONE);
    GIVES(load(db, "drop index t s hash", "", &answer), MMDB_DONE);
    CHECK(reads(answer, "ok\n"));
    GIVES(load(db, "drop t 5", "id,s\n", NULL), MMDB_NOT_ONE_REQUEST);
    GIVES(mmdb_rollback(db), MMDB_DONE);
    GIVES(mmdb_begin(db), MMDB_DONE);
    GIVES(feed(db, DROPPED), MMDB_DONE);
    GIVES(mmdb_answer(db, &answer), MMDB_DONE);
    CHECK(reads(answer, "ok\nok\n"));
    GIVES(command(db, "tables", &answer), MMDB_DONE);
    CHECK(reads(answer, "ok 0\n"));
    GIVES(mmdb_rollback(db), MMDB_DONE);
    GIVES(feed(db, "le u\n"), MMDB_DONE);
    GIVES(mmdb_answer(db, &answer), MMDB_DONE);
    CHECK(reads(answer, "error 30 no such table\n"));
}

static void other_lines_are_answered(mmdb *db)
{
    static const struct {
        const char *line, *answer;
    } OTHERS[] = {
        { " tables", "table t (id int, s text, n int)\nindex t s hash\nindex t n tree\nok 1\n" },
        { "dump t", "load t 48\nid,s,n\n0,by load,0\n1,by load,1\n2,by statement,2\n" },
        { "select id from t where n > 1", "rows 1\nt.id\n2\n" },
        { "insert t (0, 'x', 1)", "error 41 key exists\n" },
        { "insert t ('x', 'x', 1)", "error 35 wrong type\n" },
        { "update t set s = 'x' where id = 9", "ok 0\n" },
        { "update t set n = 3 where n = 3", "ok 0\n" },
        { "update t set n = 'x'", "error 35 wrong type\n" },
        { "update t set id = 3", "error 36 key cannot be set\n" },
        { "update t set m = 0", "error 32 no such column\n" },
        { "update u set s = 'x'", "error 30 no such table\n" },
        { "update nothing", "error 20 not a command\n" },
        { "delete t where id = 9", "ok 0\n" },
        { "delete t where m = 0", "error 32 no such column\n" },
        { "delete u", "error 30 no such table\n" },
        { "delete", "error 20 not a command\n" },
        { "table t (id int)", "error 31 table exists\n" },
        { "table u (id int, v ref v)", "error 30 no such table\n" },
        { "table u (id int, id int)", "error 33 column named twice\n" },
        { "table", "error 20 not a command\n" },
        { "tablex u (id int)", "error 20 not a command\n" },
        { "index t s hash", "error 39 index exists\n" },
        { "index t id tree", "error 39 index exists\n" },
        { "index t m tree", "error 32 no such column\n" },
        { "index u n tree", "error 30 no such table\n" },
        { " \tindex nothing", "error 20 not a command\n" },
        { "indexx t n hash", "error 20 not a command\n" },
        { "dro table t", "error 20 not a command\n" },
        { "drop", "error 20 not a command\n" },
        { "drop,", "error 20 not a command\n" },
        { " \tdrop nothing", "error 20 not a command\n" },
        { "dropped table t", "error 20 not a command\n" },
        { "drop table u", "error 30 no such table\n" },
        { "drop index t m tree", "error 32 no such column\n" },
        { "drop index t id hash", "error 38 no such index\n" },
        { "updat t set s = 'x'", "error 20 not a command\n" },
        { "no command", "error 20 not a command\n" },
        { "# a comment", "" },
        { " ", "" },
        { "\t# drop table t", "" },
    };
    for (size_t i = 0; i < sizeof OTHERS / sizeof *OTHERS; i++) {
        mmdb_bytes answer;
        GIVES(command(db, OTHERS[i].line, &answer), MMDB_DONE);
        CHECK(reads(answer, OTHERS[i].answer));
    }
    GIVES(mmdb_plan(db, "select id from t", 16, NULL), MMDB_DONE);
}

static void statements_are_refused_as_ever(pair *both)
{
    mmdb_statement set = prepared(&both->db, "update t set s = ? where id = 9");
    mmdb_rows rows;
    GIVES(mmdb_bind_integer(&both->db, set.number, 0, 1), MMDB_DONE);
    GIVES(mmdb_execute(&both->db, set.number, NULL), MMDB_REFUSED);
    CHECK(mmdb_refusal(&both->db) == 35);
    GIVES(mmdb_bind_text(&both->db, set.number, 0, "x", 1), MMDB_DONE);
    GIVES(mmdb_execute(&both->db, set.number, &rows), MMDB_DONE);
    CHECK(rows.changed == 0);
    GIVES(query(&both->db, "update u set s = 'x'", NULL), MMDB_REFUSED);
    CHECK(mmdb_refusal(&both->db) == 30);
}

static void tables_are_neither_shared_nor_left(mmdb *db)
{
    mmdb closed = MMDB_CLOSED;
    mmdb_cursor cursor = MMDB_NO_CURSOR;
    pair other = opened();
    GIVES(mmdb_share(db, &closed), MMDB_IN_TRANSACTION);
    CHECK(closed.inside == NULL);
    GIVES(mmdb_share(db, db), MMDB_IN_TRANSACTION);
    GIVES(mmdb_share(&other.db, db), MMDB_IN_TRANSACTION);
    GIVES(mmdb_share(db, &other.db), MMDB_IN_TRANSACTION);
    GIVES(mmdb_leave(db), MMDB_IN_TRANSACTION);
    GIVES(mmdb_cursor_open(db, prepared(db, "select * from t").number, &cursor), MMDB_IN_TRANSACTION);
    CHECK(cursor.inside == NULL);
    mmdb_close(&other.db);
}

static void what_is_done_in_one(void)
{
    pair both = opened();
    begin(&both);
    insert(&both, 0);
    drops_and_pieces_are_done(&both.db);
    other_lines_are_answered(&both.db);
    statements_are_refused_as_ever(&both);
    tables_are_neither_shared_nor_left(&both.db);
    are_alike(&both);
    roll_back(&both);
    are_alike(&both);
    mmdb_close(&both.db);
}

/* What was shown, answered and fed stays where a transaction begins and ends, whatever was deleted in it. */
static void rows_answers_and_the_stream_stay(void)
{
    pair both = opened();
    mmdb_bytes answer;
    mmdb_rows rows;
    begin(&both);
    delete_by_line(&both);
    insert_by_line(&both, 1);
    GIVES(feed(&both.db, "select i"), MMDB_DONE);
    commit(&both);
    GIVES(query(&both.db, "select s from t", &rows), MMDB_DONE);
    GIVES(command(&both.db, "select id from t", NULL), MMDB_DONE);
    begin(&both);
    roll_back(&both);
    begin(&both);
    commit(&both);
    GIVES(mmdb_answer(&both.db, &answer), MMDB_DONE);
    CHECK(reads(answer, "rows 1\nt.id\n1\n"));
    CHECK(reads(mmdb_text(&rows, mmdb_cell_at(&rows, 0, 0)), "by line"));
    begin(&both);
    delete_by_statement(&both);
    GIVES(query(&both.db, "select s from t", &rows), MMDB_DONE);
    CHECK(rows.rows == 0);
    roll_back(&both);
    GIVES(feed(&both.db, "d from t\n"), MMDB_DONE);
    GIVES(mmdb_answer(&both.db, &answer), MMDB_DONE);
    CHECK(reads(answer, "rows 1\nt.id\n1\n"));
    mmdb_close(&both.db);
}

int main(void)
{
    closed_handles_and_null_are_told();
    none_is_open();
    none_begins_where_tables_are_shared();
    what_is_done_in_one();
    rows_answers_and_the_stream_stay();
    each_order_is_as_of_plain_lists();
    CHECK(allocations_held() == 0);
    return checks_failed != 0;
}
