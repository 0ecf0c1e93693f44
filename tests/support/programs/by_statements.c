/* Makes the calls of standard input on one handle, and writes their answers. A line that begins as an insert, an update, a
   delete or a select is done by a statement, whose answer is put together from its rows. Where VALUES_STAY is 0, a ?
   stands in its line for each number, text and null, and these are bound. Statements are kept, so that they outlive
   tables, and each is executed again where its line comes again. The program's words are the handle's limits.

   A statement may also be told by calls of its own: `kept LENGTH` or `prepared LENGTH` with its line, for each place
   `integer LENGTH`, `text LENGTH` or `null 0` with the value, and `execute 0`. One that is prepared is finalised behind
   that. `open 1` with the digit of a policy begins anew, with no tables; lines stay lines from there on.

   Where VALUES_STAY is 0 the rows of each select are also read by a cursor, in pages of few rows.

   Where INTERRUPTED is 1, all is asked to end at random times. A select that was ended is executed again until it isn't, and it is
   counted, asked for all of its first rows and queried beside. How many were ended is told on standard error. */
#define _GNU_SOURCE
#include "calls.h"
#include "cells.h"

#include <errno.h>
#include <inttypes.h>

#ifndef INTERRUPTED
#define INTERRUPTED 0
#endif
#if INTERRUPTED
#include "storming.h"
#endif

enum { LONGEST_LINE = 8192, MOST_KEPT = 500, DIGITS_OF_PAUSES = 18, SIGNALS_APART = 40, MOST_TRIES = 5 };

/* A line with places, and the values that stood in them. */
typedef struct written {
    int is_kept;
    char line[LONGEST_LINE + 1];
    size_t length;
    size_t places;
    struct value {
        mmdb_kind kind;
        int64_t integer;
        const unsigned char *text;
        size_t length;
    } values[LONGEST_LINE];
    /* The texts, with each doubled mark once. */
    unsigned char texts[LONGEST_LINE];
    size_t texts_length;
} written;

static struct {
    char *line;
    size_t length;
    mmdb_statement statement;
} kept[MOST_KEPT];
static size_t kept_count = 0;

static int lines_stay = 0;

static int is_of_word(unsigned char byte)
{
    return (byte >= 'a' && byte <= 'z') || (byte >= 'A' && byte <= 'Z') || (byte >= '0' && byte <= '9') || byte == '_';
}

static size_t word_length(const unsigned char *at, const unsigned char *end)
{
    size_t length = 0;
    while (at + length < end && is_of_word(at[length]))
        length++;
    return length;
}

static int is_word(const unsigned char *at, size_t length, const char *word)
{
    return length == strlen(word) && memcmp(at, word, length) == 0;
}

static int is_call(call of, const char *name)
{
    return strcmp(of.name, name) == 0;
}

static int is_on_rows(call of)
{
    const unsigned char *at = of.bytes, *end = of.bytes + of.length;
    size_t length;
    if (lines_stay || !is_call(of, "command") || of.length > LONGEST_LINE)
        return 0;
    while (at < end && (*at == ' ' || *at == '\t'))
        at++;
    length = word_length(at, end);
    return is_word(at, length, "insert") || is_word(at, length, "update") || is_word(at, length, "delete") ||
           is_word(at, length, "select");
}

static void put(written *to, const unsigned char *bytes, size_t length)
{
    memcpy(to->line + to->length, bytes, length);
    to->length += length;
}

static void begin(written *to, int is_kept)
{
    to->is_kept = is_kept;
    to->length = to->places = to->texts_length = 0;
}

static void put_value(written *to, mmdb_kind kind, int64_t integer, const unsigned char *text, size_t length)
{
    const struct value value = { kind, integer, text, length };
    to->values[to->places++] = value;
}

static void put_place(written *to, mmdb_kind kind, int64_t integer, const unsigned char *text, size_t length)
{
    put_value(to, kind, integer, text, length);
    to->line[to->length++] = '?';
}

/* The text that begins there: where it ends, or null where it doesn't. */
static const unsigned char *put_text(written *to, const unsigned char *at, const unsigned char *end)
{
    unsigned char *text = to->texts + to->texts_length;
    size_t length = 0;
    for (at++; at < end; at++) {
        if (*at == '\'' && (at + 1 == end || at[1] != '\'')) {
            to->texts_length += length;
            put_place(to, MMDB_TEXT, 0, text, length);
            return at + 1;
        }
        at += *at == '\'';
        text[length++] = *at;
    }
    return NULL;
}

/* The word or the number that begins there, with the sign before it. What is no number of 64 bits stays as it is. */
static const unsigned char *put_word(written *to, const unsigned char *at, const unsigned char *end)
{
    const size_t sign = *at == '-', length = sign + word_length(at + sign, end);
    char digits[LONGEST_LINE + 1], *behind;
    int64_t integer;
    memcpy(digits, at, length);
    digits[length] = '\0';
    errno = 0;
    integer = strtoll(digits, &behind, 10);
    if (length > sign && behind == digits + length && errno == 0)
        put_place(to, MMDB_INTEGER, integer, NULL, 0);
    else if (is_word(at, length, "null"))
        put_place(to, MMDB_NULL, 0, NULL, 0);
    else
        put(to, at, length);
    return at + length;
}

/* Gives 0 where the line has a text without an end, or a ? that is none of these. */
static int write_with_places(written *to, call of)
{
    const unsigned char *at = of.bytes, *end = of.bytes + of.length;
    begin(to, 1);
    while (at != NULL && at < end) {
        if (*at == '?')
            return 0;
        if (*at == '\'') {
            at = put_text(to, at, end);
        } else if (is_of_word(*at) || *at == '-') {
            at = put_word(to, at, end);
        } else {
            put(to, at, 1);
            at++;
        }
    }
    if (VALUES_STAY) {
        to->length = to->places = 0;
        put(to, of.bytes, of.length);
    }
    return at != NULL;
}

/* Takes the value that a call tells of the next place. Gives 0 where it tells none. */
static int put_told(written *to, call of)
{
    char digits[32];
    if (is_call(of, "null")) {
        put_value(to, MMDB_NULL, 0, NULL, 0);
    } else if (is_call(of, "integer") && of.length < sizeof digits) {
        memcpy(digits, of.bytes, of.length);
        digits[of.length] = '\0';
        put_value(to, MMDB_INTEGER, strtoll(digits, NULL, 10), NULL, 0);
    } else if (is_call(of, "text") && of.length <= sizeof to->texts - to->texts_length) {
        unsigned char *text = to->texts + to->texts_length;
        memcpy(text, of.bytes, of.length);
        to->texts_length += of.length;
        put_value(to, MMDB_TEXT, 0, text, of.length);
    } else {
        return 0;
    }
    return 1;
}

static mmdb_status prepare(mmdb *db, const written *line, mmdb_statement *statement)
{
    const mmdb_status status = mmdb_prepare(db, line->line, line->length, statement);
    CHECK(status != MMDB_DONE || statement->places == line->places);
    return status;
}

/* The statement of a line, which is kept. */
static mmdb_status keep(mmdb *db, const written *line, mmdb_statement *statement)
{
    mmdb_status status;
    for (size_t i = 0; i < kept_count; i++) {
        if (kept[i].length == line->length && memcmp(kept[i].line, line->line, line->length) == 0) {
            *statement = kept[i].statement;
            return MMDB_DONE;
        }
    }
    status = prepare(db, line, statement);
    if (status == MMDB_DONE && kept_count < MOST_KEPT) {
        kept[kept_count].line = (char *)malloc(line->length + 1);
        memcpy(kept[kept_count].line, line->line, line->length);
        kept[kept_count].length = line->length;
        kept[kept_count++].statement = *statement;
    }
    return status;
}

static void keep_none(void)
{
    while (kept_count > 0)
        free(kept[--kept_count].line);
}

static mmdb_status bind(mmdb *db, uint32_t number, const written *line)
{
    for (uint32_t place = 0; place < line->places; place++) {
        const struct value value = line->values[place];
        const mmdb_status status =
            value.kind == MMDB_NULL      ? mmdb_bind_null(db, number, place)
            : value.kind == MMDB_INTEGER ? mmdb_bind_integer(db, number, place, value.integer)
                                         : mmdb_bind_text(db, number, place, value.text, value.length);
        if (status != MMDB_DONE)
            return status;
    }
    return MMDB_DONE;
}

static void write_text(mmdb_bytes text)
{
    int is_quoted = 0;
    for (size_t i = 0; i < text.length; i++)
        is_quoted |= strchr(",\"\r\n", text.at[i]) != NULL && text.at[i] != '\0';
    if (is_quoted)
        putchar('"');
    for (size_t i = 0; i < text.length; i++) {
        if (text.at[i] == '"')
            putchar('"');
        putchar(text.at[i]);
    }
    if (is_quoted)
        putchar('"');
}

static void write_cell(const mmdb_rows *rows, const mmdb_cell *cell)
{
    const mmdb_bytes text = mmdb_text(rows, cell);
    const int is_empty = cell->kind == MMDB_NULL || (cell->kind == MMDB_TEXT && text.length == 0);
    if (cell->kind == MMDB_INTEGER)
        printf("%" PRId64, cell->integer);
    else if (!is_empty)
        write_text(text);
    else if (rows->columns == 1)
        fputs("\"\"", stdout);
}

/* The names and the kinds of the columns of the last statement, which are copied, and as many as there are. */
static char header[1 << 17];
static size_t header_length;
static int64_t kinds[1024];

static void write_header(const mmdb_rows *columns)
{
    header_length = 0;
    for (size_t column = 0; column < columns->rows; column++) {
        const mmdb_bytes name = mmdb_text(columns, mmdb_cell_at(columns, column, 0));
        header_length += (size_t)sprintf(header + header_length, "%s%.*s", column == 0 ? "" : ",", (int)name.length,
                                         (const char *)name.at);
        kinds[column] = mmdb_cell_at(columns, column, 1)->integer;
    }
}

/* Writes the answer of a select. A cell has the kind of its column, or is null. */
static void write_rows(const mmdb_rows *rows)
{
    printf("rows %zu\n%s\n", rows->rows, header);
    for (size_t row = 0; row < rows->rows; row++) {
        for (size_t column = 0; column < rows->columns; column++) {
            const mmdb_cell *cell = mmdb_cell_at(rows, row, column);
            CHECK(cell->kind == MMDB_NULL || cell->kind == kinds[column]);
            if (column > 0)
                putchar(',');
            write_cell(rows, cell);
        }
        putchar('\n');
    }
}

static void write_refusal(mmdb *db)
{
    mmdb_bytes answer;
    GIVES(mmdb_answer(db, &answer), MMDB_DONE);
    CHECK(mmdb_refusal(db) != 0);
    fwrite(answer.at, 1, answer.length, stdout);
}

/* Reads a cursor to its end, and closes it. Its pages, each of another number of rows, are the rows of an execution. */
static void is_read_in_pages(mmdb_cursor *from, const mmdb_rows *all)
{
    size_t read = 0, most = 1;
    mmdb_rows page = *all;
    while (page.rows > 0) {
        GIVES(mmdb_cursor_fetch(from, most, &page), MMDB_DONE);
        CHECK(page.columns == all->columns && page.rows == (all->rows - read < most ? all->rows - read : most));
        for (size_t i = 0; i < page.rows * page.columns; i++)
            CHECK(are_same(&page, page.cells + i, all, all->cells + read * all->columns + i));
        read += page.rows;
        most = most % 5 * 3 + 1;
    }
    CHECK(read == all->rows);
    mmdb_cursor_close(from);
}

#if INTERRUPTED

static storm asks;
static long ended = 0;
static int tries = 0;

static void begin_asking(mmdb *db)
{
    begin_storm(&asks, db, DIGITS_OF_PAUSES);
    begin_signals(db, SIGNALS_APART);
}

static void end_asking(void)
{
    end_signals();
    end_storm(&asks);
}

/* Whether a call has to be made again, as it was ended. After so many tries no signal comes till it is done: it may take longer than
   they stand apart. */
static int is_ended(mmdb_status status)
{
    if (status != MMDB_INTERRUPTED) {
        if (tries >= MOST_TRIES)
            set_timer(SIGNALS_APART);
        tries = 0;
        return 0;
    }
    ended++;
    tries++;
    if (tries == MOST_TRIES)
        set_timer(0);
    return 1;
}

/* What a select shows that was executed is shown in each other way too. */
static void shows_beside(mmdb *db, uint32_t number, const written *line, size_t rows)
{
    mmdb_rows shown;
    uint64_t count;
    mmdb_status status;
    while (is_ended(status = mmdb_count(db, number, &count)))
        continue;
    GIVES(status, MMDB_DONE);
    CHECK(count == rows);
    while (line->places == 0 && is_ended(status = mmdb_query(db, line->line, line->length, &shown)))
        continue;
    GIVES(status, MMDB_DONE);
    CHECK(line->places > 0 || shown.rows == rows);
    while (is_ended(status = mmdb_first(db, number, SIZE_MAX, &shown)))
        continue;
    GIVES(status, MMDB_DONE);
    CHECK(shown.rows == rows);
}

static mmdb_status executed(mmdb *db, uint32_t number, const written *line, mmdb_rows *rows)
{
    mmdb_cursor cursor = MMDB_NO_CURSOR;
    mmdb_status status;
    while (is_ended(status = mmdb_execute(db, number, rows)))
        continue;
    if (status != MMDB_DONE || rows->columns == 0)
        return status;
    shows_beside(db, number, line, rows->rows);
    while (is_ended(status = mmdb_execute(db, number, rows)))
        continue;
    GIVES(status, MMDB_DONE);
    while (is_ended(status = mmdb_cursor_open(db, number, &cursor)))
        continue;
    GIVES(status, MMDB_DONE);
    is_read_in_pages(&cursor, rows);
    return status;
}

#else

static void begin_asking(mmdb *db)
{
    (void)db;
}

static void end_asking(void) {}

static mmdb_status executed(mmdb *db, uint32_t number, const written *line, mmdb_rows *rows)
{
    mmdb_cursor cursor = MMDB_NO_CURSOR;
    const mmdb_status status = mmdb_execute(db, number, rows);
    (void)line;
    if (VALUES_STAY || status != MMDB_DONE || rows->columns == 0)
        return status;
    GIVES(mmdb_cursor_open(db, number, &cursor), MMDB_DONE);
    is_read_in_pages(&cursor, rows);
    return status;
}

#endif

/* Executes a statement with the values of a line, and writes the answer that the line would have. */
static void execute(mmdb *db, uint32_t number, const written *line)
{
    mmdb_rows rows, columns;
    mmdb_status status = bind(db, number, line);
    if (status == MMDB_DONE)
        status = mmdb_columns(db, number, &columns);
    if (status == MMDB_NOT_UTF8) {
        fputs("error 11 not UTF-8\n", stdout);
        return;
    }
    if (status == MMDB_DONE) {
        write_header(&columns);
        status = executed(db, number, line, &rows);
    }
    if (status == MMDB_DONE && header_length > 0)
        write_rows(&rows);
    else if (status == MMDB_DONE)
        printf("ok %" PRIu64 "\n", rows.changed);
    else if (status == MMDB_REFUSED)
        write_refusal(db);
    else
        GIVES(status, MMDB_DONE);
}

/* Does a line by a statement. */
static void performs(mmdb *db, const written *line)
{
    mmdb_statement statement;
    const mmdb_status status = line->is_kept ? keep(db, line, &statement) : prepare(db, line, &statement);
    if (status == MMDB_REFUSED) {
        write_refusal(db);
        return;
    }
    GIVES(status, MMDB_DONE);
    execute(db, statement.number, line);
    if (!line->is_kept)
        GIVES(mmdb_finalize(db, statement.number), MMDB_DONE);
}

static void begin_anew(mmdb *db, call of)
{
    const uint32_t policy = of.length == 1 ? (uint32_t)(of.bytes[0] - '0') : UINT32_MAX;
    lines_stay = 1;
    keep_none();
    end_asking();
    mmdb_close(db);
    GIVES(mmdb_open(db, policy, MMDB_MOST, MMDB_MOST), MMDB_DONE);
    begin_asking(db);
}

/* Makes a call, or notes what it tells of a statement. */
static void answers(mmdb *db, written *line, call of)
{
    mmdb_bytes answer;
    if (is_call(of, "kept") || is_call(of, "prepared")) {
        begin(line, is_call(of, "kept"));
        put(line, of.bytes, of.length);
    } else if (is_call(of, "execute") || (is_on_rows(of) && write_with_places(line, of))) {
        performs(db, line);
    } else if (is_call(of, "open")) {
        begin_anew(db, of);
    } else if (!put_told(line, of)) {
        GIVES(answer_to(db, of, &answer), MMDB_DONE);
        fwrite(answer.at, 1, answer.length, stdout);
    }
}

int main(int count, char **words)
{
    static written line;
    mmdb db = MMDB_CLOSED;
    call next;
    GIVES(open_by_words(&db, count, words), MMDB_DONE);
    begin_asking(&db);
    while (read_call(&next)) {
        answers(&db, &line, next);
        free(next.bytes);
    }
    end_asking();
    mmdb_close(&db);
    keep_none();
#if INTERRUPTED
    fprintf(stderr, "%ld selects were ended\n", ended);
#endif
    return checks_failed != 0;
}
