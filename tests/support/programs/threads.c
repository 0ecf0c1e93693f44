/* Threads with a handle each, at the same time: THREADS of them. Each has its own tables, of ROWS rows, and is given its own
   answers. */
#include "checking.h"

#include <pthread.h>

enum { POLICIES = MMDB_MERGE + 1 };

/* One thread's handle and number, its statement, and how many of its answers were none of its own. */
typedef struct worker {
    mmdb db;
    mmdb_statement find;
    int number;
    int wrong;
} worker;

static void expects(worker *of, const char *line, const char *expected)
{
    mmdb_bytes answer;
    of->wrong += command(&of->db, line, &answer) != MMDB_DONE || !reads(answer, expected);
}

static void finds(worker *of, int row, const char *expected)
{
    mmdb_rows rows;
    mmdb_bytes text = { NULL, 0 };
    of->wrong += mmdb_bind_integer(&of->db, of->find.number, 0, row) != MMDB_DONE;
    of->wrong += mmdb_execute(&of->db, of->find.number, &rows) != MMDB_DONE || rows.rows != 1;
    if (rows.rows == 1)
        text = mmdb_text(&rows, mmdb_cell_at(&rows, 0, 0));
    of->wrong += !reads(text, expected);
}

static void works_on_row(worker *of, int row)
{
    char line[200], expected[200], text[100];
    snprintf(line, sizeof line, "insert t (%d, 'row %d of %d')", row, row, of->number);
    expects(of, line, "ok 1\n");
    expects(of, line, "error 41 key exists\n");
    of->wrong += mmdb_refusal(&of->db) != 41;
    snprintf(line, sizeof line, "select s from t where id = %d", row);
    snprintf(text, sizeof text, "row %d of %d", row, of->number);
    snprintf(expected, sizeof expected, "rows 1\nt.s\n%s\n", text);
    expects(of, line, expected);
    finds(of, row, text);
}

static void *work(void *given)
{
    worker *of = (worker *)given;
    char line[200], expected[200];
    const int kept = of->number % ROWS;
    of->wrong += mmdb_open(&of->db, (uint32_t)(of->number % POLICIES), MMDB_MOST, MMDB_MOST) != MMDB_DONE;
    expects(of, "table t (id int, s text)", "ok\n");
    expects(of, "index t s hash", "ok\n");
    of->wrong += mmdb_prepare(&of->db, "select s from t where id = ?", 28, &of->find) != MMDB_DONE;
    for (int row = 0; row < ROWS; row++)
        works_on_row(of, row);
    snprintf(line, sizeof line, "delete t where id >= %d", kept);
    snprintf(expected, sizeof expected, "ok %d\n", ROWS - kept);
    expects(of, line, expected);
    mmdb_close(&of->db);
    return NULL;
}

int main(void)
{
    pthread_t threads[THREADS];
    worker workers[THREADS];
    for (int i = 0; i < THREADS; i++) {
        const worker fresh = { MMDB_CLOSED, { 0, 0 }, i, 0 };
        workers[i] = fresh;
        CHECK(pthread_create(&threads[i], NULL, work, &workers[i]) == 0);
    }
    for (int i = 0; i < THREADS; i++) {
        CHECK(pthread_join(threads[i], NULL) == 0);
        CHECK(workers[i].wrong == 0);
    }
    return checks_failed != 0;
}
