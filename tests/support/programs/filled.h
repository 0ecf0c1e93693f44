/* The databases that are saved: of each kind of tables, rows, values, references and indexes. */
#ifndef FILLED_H
#define FILLED_H

#include "saving.h"

#define LONG_TEXT "a text that is longer than the fourteen bytes that lie in a cell"

enum { MANY = 2 * MOST_ROWS_OF_A_PIECE + 100, SMALL_BLOCK = 4200, FEW_BYTES = 64 };

/* A value of a row. */
typedef struct value {
    uint16_t kind;
    int64_t integer;
    const char *text;
    size_t length;
} value;

static inline value number(int64_t of)
{
    const value is = { MMDB_INTEGER, of, NULL, 0 };
    return is;
}

static inline value nothing(void)
{
    const value is = { MMDB_NULL, 0, NULL, 0 };
    return is;
}

static inline value bytes_at(const char *text, size_t length)
{
    const value is = { MMDB_TEXT, 0, text, length };
    return is;
}

static inline value text(const char *of)
{
    return bytes_at(of, strlen(of));
}

/* Inserts a row of values by a line with as many places. */
static inline void inserts(mmdb *db, const char *line, const value *row, size_t count)
{
    const mmdb_statement insert = prepared(db, line);
    CHECK(insert.places == count);
    for (uint32_t i = 0; i < count; i++) {
        if (row[i].kind == MMDB_INTEGER)
            GIVES(mmdb_bind_integer(db, insert.number, i, row[i].integer), MMDB_DONE);
        else if (row[i].kind == MMDB_TEXT)
            GIVES(mmdb_bind_text(db, insert.number, i, row[i].text, row[i].length), MMDB_DONE);
    }
    GIVES(mmdb_execute(db, insert.number, NULL), MMDB_DONE);
    GIVES(mmdb_finalize(db, insert.number), MMDB_DONE);
}

#define INSERTS(db, line, ...) inserts(db, line, (const value[]){ __VA_ARGS__ }, sizeof((const value[]){ __VA_ARGS__ }) / sizeof(value))

/* ---- the databases */

static inline void has_nothing(mmdb *db)
{
    (void)db;
}

static inline void has_no_rows(mmdb *db)
{
    does(db, "table a (k text, n int)");
    does(db, "table b (id int, s text, a ref a null, a2 ref a)");
    does(db, "table c (id int, b ref b, b2 ref b null, a ref a null)");
    does(db, "index a k hash");
    does(db, "index a n tree");
    does(db, "index b a hash");
    does(db, "index b a tree");
    does(db, "index c b2 hash");
    does(db, "index c id hash");
}

/* What a company is saved as is written in saves.c. */
static inline void has_a_company(mmdb *db)
{
    does(db, "table dept (name text)");
    does(db, "table emp (id int, name text, dept ref dept null, boss int)");
    does(db, "index emp dept hash");
    does(db, "index emp dept tree");
    does(db, "index emp boss tree");
    does(db, "index dept name hash");
    does(db, "table part (id int, of ref emp, made ref emp null)");
    does(db, "table none (id int)");
    INSERTS(db, "insert dept (?)", text("shoes"));
    INSERTS(db, "insert dept (?)", text("to\nys"));
    INSERTS(db, "insert dept (?)", text(""));
    INSERTS(db, "insert emp (?, ?, ?, ?)", number(3), text("null"), text(""), number(2));
    INSERTS(db, "insert emp (?, ?, ?, ?)", number(1), text("a \"b\", 'c'\nd\r"), text("shoes"), number(-1));
    INSERTS(db, "insert emp (?, ?, ?, ?)", number(2), text("\n"), text("to\nys"), number(1));
    INSERTS(db, "insert emp (?, ?, ?, ?)", number(INT64_MIN), text(""), nothing(), number(0));
    INSERTS(db, "insert part (?, ?, ?)", number(7), number(1), nothing());
    INSERTS(db, "insert part (?, ?, ?)", number(8), number(3), number(2));
}

/* A text as the byte `at` is put between others. */
static const struct {
    const char *at;
    size_t length;
} ODD_TEXTS[] = {
#define ODD(text) { text, sizeof text - 1 }
    ODD(""), ODD(","), ODD("\""), ODD("\"\""), ODD("\n"), ODD("\r"), ODD("\r\n"), ODD("\n\n"), ODD("a\nb"), ODD("a\rb"), ODD("\"a\""),
    ODD("a\"b"), ODD("5\""), ODD("'"), ODD("''"), ODD("it's"), ODD("\xef\xbb\xbf"), ODD("\xef\xbb\xbf" "a"), ODD("\xef\xbb\xbf\"a\""),
    ODD("\0"), ODD("a\0b"), ODD(" "), ODD(" a "), ODD("\t"), ODD("null"), ODD("#"), ODD("# end of the dump"), ODD("load t 5"), ODD("7"),
    ODD("-7"), ODD("\xc3\xa9"), ODD("\xe2\x82\xac"), ODD("\xf0\x9f\x98\x80"), ODD("\xe2\x80\xa8"), ODD("fourteen bytes"),
    ODD("fifteen bytes, "), ODD(LONG_TEXT), ODD(LONG_TEXT "\n" LONG_TEXT), ODD("\"" LONG_TEXT "\""), ODD(LONG_TEXT ",\r" LONG_TEXT),
    ODD("id,s,r\n1,a,b\n"), ODD("\\"), ODD("\\n"), ODD("?"), ODD("%s"),
#undef ODD
};

enum { ODD_COUNT = sizeof ODD_TEXTS / sizeof ODD_TEXTS[0], LONGEST_TEXT = 1024 };

static inline value odd(size_t number)
{
    return bytes_at(ODD_TEXTS[number % ODD_COUNT].at, ODD_TEXTS[number % ODD_COUNT].length);
}

static inline int has_line_feed(value of)
{
    return memchr(of.text, '\n', of.length) != NULL;
}

/* Every text is a key, a value, and in a reference that takes nulls, which is the empty text or null in between. If a key has a line
   feed it isn't the empty text, as no dump can hold that. */
static inline void has_odd_texts(mmdb *db)
{
    char longest[LONGEST_TEXT];
    memset(longest, '"', sizeof longest);
    does(db, "table k (k text)");
    does(db, "table t (id int, s text, r ref k null, q ref k null)");
    does(db, "table u (k text, n int, r ref k null)");
    does(db, "index t r hash");
    does(db, "index t s tree");
    for (size_t i = 0; i < ODD_COUNT; i++)
        INSERTS(db, "insert k (?)", odd(i));
    INSERTS(db, "insert k (?)", bytes_at(longest, sizeof longest));
    for (size_t i = 0; i < 4 * ODD_COUNT; i++)
        INSERTS(db, "insert t (?, ?, ?, ?)", number((int64_t)(i * 7 % 400)), odd(i), i % 3 == 1 ? nothing() : odd(i % 3 == 0 ? 0 : i / 3),
                i % 5 == 0 ? odd(0) : odd(i / 2));
    for (size_t i = 0; i < ODD_COUNT; i++)
        INSERTS(db, "insert u (?, ?, ?)", odd(i), number((int64_t)i), has_line_feed(odd(i)) ? nothing() : odd(0));
    INSERTS(db, "insert u (?, ?, ?)", bytes_at(longest, sizeof longest), number(-1), bytes_at(longest, sizeof longest));
}

static inline void has_numbers(mmdb *db)
{
    static const int64_t NUMBERS[] = { INT64_MIN, INT64_MIN + 1, -10, -1, 0, 1, 9, 10, 99, 100, INT64_MAX - 1, INT64_MAX };
    does(db, "table n (id int)");
    does(db, "table m (id int, n ref n, o ref n null, v int)");
    does(db, "index m n tree");
    does(db, "index m o hash");
    for (size_t i = 0; i < sizeof NUMBERS / sizeof NUMBERS[0]; i++)
        INSERTS(db, "insert n (?)", number(NUMBERS[i]));
    for (size_t i = 0; i < sizeof NUMBERS / sizeof NUMBERS[0]; i++)
        INSERTS(db, "insert m (?, ?, ?, ?)", number(NUMBERS[i]), number(NUMBERS[11 - i]), i % 2 ? number(NUMBERS[i / 2]) : nothing(),
                number(NUMBERS[i]));
}

/* Tables of which each refers to the one before, as many as there may be. */
static inline void has_many_tables(mmdb *db)
{
    char line[160];
    does(db, "table t0 (id int, s text)");
    does(db, "insert t0 (0, '')");
    for (int i = 1; i < MOST_TABLES; i++) {
        snprintf(line, sizeof line, "table t%d (id int, s text, r ref t%d, o ref t%d null)", i, i - 1, i / 2);
        does(db, line);
        snprintf(line, sizeof line, "index t%d %s %s", i, i % 2 ? "r" : "o", i % 3 ? "tree" : "hash");
        does(db, line);
        snprintf(line, sizeof line, "insert t%d (%d, 'x', %d, null)", i, i, i - 1);
        does(db, line);
    }
}

/* Tables, rows and indexes that are gone, and others in their place. */
static inline void has_what_stayed(mmdb *db)
{
    char line[80];
    does(db, "table a (id int)");
    does(db, "table b (id int, a ref a)");
    does(db, "table c (k text, n int)");
    does(db, "index c n hash");
    does(db, "index c k hash");
    does(db, "drop table b");
    does(db, "drop table a");
    does(db, "table b (id int, c ref c null)");
    does(db, "table a (id int, b ref b null)");
    does(db, "drop index c n hash");
    does(db, "index c n tree");
    does(db, "insert c ('', 1)");
    for (int i = 0; i < 500; i++) {
        snprintf(line, sizeof line, "insert b (%d, %s)", i * 3 % 500, i % 7 ? "null" : "''");
        does(db, line);
    }
    does(db, "delete b where id >= 40 and id < 300");
    does(db, "delete b where id = 7");
    does(db, "insert b (-5, '')");
    does(db, "insert a (1, 301)");
    does(db, "update b set c = '' where id > 400 and id < 410");
}

/* As many columns as there may be, of each kind. */
static inline void has_many_columns(mmdb *db)
{
    does(db, "table k (k text)");
    does(db, "insert k ('')");
    does(db, "insert k ('b')");
    does(db, "table w (a text, b int, c ref k, d ref k null, e text, f ref k null, g int, h ref k, i text, j ref k null, k int, l text,"
             " m ref k null, n ref k null, o text, p ref k null)");
    does(db, "insert w ('', 1, '', '', '', null, 2, 'b', '', 'b', -3, '''', '', null, 'x', '')");
    does(db, "insert w ('b', 1, 'b', null, '', 'b', 2, '', 'y', '', -3, '\"', null, '', ',', '')");
    does(db, "insert w ('c', 1, 'b', null, '', 'b', 2, '', 'y', 'b', -3, '\"', null, 'b', ',', null)");
}

/* Inserts rows of an integer, a text and a text in a reference, which is empty around the end of each piece. */
static inline void inserts_many(mmdb *db, const char *line, size_t rows)
{
    const mmdb_statement insert = prepared(db, line);
    mmdb_cell *cells = (mmdb_cell *)malloc(3 * rows * sizeof *cells);
    for (size_t i = 0; i < rows; i++) {
        const size_t in_piece = i % MOST_ROWS_OF_A_PIECE;
        const mmdb_cell id = { (int64_t)i, 0, 0, MMDB_INTEGER }, s = { 0, 0, (uint16_t)(i % 20), MMDB_TEXT };
        const mmdb_cell none = { 0, 0, 0, MMDB_NULL }, empty = { 0, 0, 0, MMDB_TEXT };
        cells[3 * i] = id;
        cells[3 * i + 1] = s;
        cells[3 * i + 2] = in_piece < 2 || in_piece > MOST_ROWS_OF_A_PIECE - 3 ? empty : none;
    }
    GIVES(mmdb_execute_many(db, insert.number, cells, 3 * rows, LONG_TEXT, strlen(LONG_TEXT), NULL), MMDB_DONE);
    GIVES(mmdb_finalize(db, insert.number), MMDB_DONE);
    free(cells);
}

/* Of u there are just as many as a piece holds, and of v one more. */
static inline void has_many_rows(mmdb *db)
{
    does(db, "table k (k text)");
    does(db, "insert k ('')");
    does(db, "table t (id int, s text, k ref k null)");
    does(db, "table u (id int, s text, k ref k null)");
    does(db, "table v (id int, s text, k ref k null)");
    does(db, "index t k hash");
    does(db, "index u s tree");
    inserts_many(db, "insert t (?, ?, ?)", MANY);
    inserts_many(db, "insert u (?, ?, ?)", MOST_ROWS_OF_A_PIECE);
    inserts_many(db, "insert v (?, ?, ?)", MOST_ROWS_OF_A_PIECE + 1);
}

/* Keys of texts that are quoted, mostly with a line feed. */
static inline void has_many_keys(mmdb *db)
{
    mmdb_statement insert;
    char key[24];
    does(db, "table t (k text, n int)");
    insert = prepared(db, "insert t (?, ?)");
    for (int i = 0; i < MOST_ROWS_OF_A_PIECE + 50; i++) {
        snprintf(key, sizeof key, "%d\"%s", i, i % 3 ? "\n" : "");
        GIVES(mmdb_bind_text(db, insert.number, 0, key, strlen(key)), MMDB_DONE);
        GIVES(mmdb_bind_integer(db, insert.number, 1, -i), MMDB_DONE);
        GIVES(mmdb_execute(db, insert.number, NULL), MMDB_DONE);
    }
    GIVES(mmdb_finalize(db, insert.number), MMDB_DONE);
}

/* ---- all of them */

/* A database, and the most bytes of a block of it. */
typedef struct filling {
    const char *name;
    void (*fills)(mmdb *db);
    uint32_t most;
} filling;

static const filling FILLINGS[] = {
    { "nothing", has_nothing, MMDB_MOST },
    { "no-block", has_nothing, 0 },
    { "no-rows", has_no_rows, MMDB_MOST },
    { "no-rows-no-block", has_no_rows, 0 },
    { "company", has_a_company, MMDB_MOST },
    { "company-cut", has_a_company, FEW_BYTES },
    { "odd-texts", has_odd_texts, MMDB_MOST },
    { "odd-texts-cut", has_odd_texts, SMALL_BLOCK },
    { "numbers", has_numbers, MMDB_MOST },
    { "numbers-cut", has_numbers, 2 * FEW_BYTES },
    { "many-tables", has_many_tables, MMDB_MOST },
    { "many-columns", has_many_columns, MMDB_MOST },
    { "many-columns-cut", has_many_columns, 2 * FEW_BYTES },
    { "what-stayed", has_what_stayed, MMDB_MOST },
    { "what-stayed-cut", has_what_stayed, FEW_BYTES },
    { "many-rows", has_many_rows, MMDB_MOST },
    { "many-rows-cut", has_many_rows, SMALL_BLOCK },
    { "many-keys", has_many_keys, MMDB_MOST },
    { "many-keys-cut", has_many_keys, SMALL_BLOCK },
};
enum { FILLING_COUNT = sizeof FILLINGS / sizeof FILLINGS[0] };

static inline mmdb filled(const filling *with)
{
    mmdb db = MMDB_CLOSED;
    GIVES(mmdb_open(&db, MMDB_AUTO, MMDB_MOST, with->most), MMDB_DONE);
    with->fills(&db);
    return db;
}

#endif
