/* Executes prepared statements of mmdb and of SQLite in batches for bench/papers/run, which loads this as a library. Each
   batch reads the processor's clock before and after, and every cell of the rows that its statements answer. */
#define _POSIX_C_SOURCE 200809L
#include "mmdb.h"

#include <malloc.h>
#include <sqlite3.h>
#include <stdint.h>
#include <time.h>

/* Steps one after another: each executes the statement of its kind with the next values. All values are integers. */
typedef struct batch {
    const uint8_t *kinds;
    const int64_t *values;
    size_t steps;
    double seconds;
    uint64_t rows;
    uint64_t sum;
} batch;

static double processor_seconds(void)
{
    struct timespec now;
    clock_gettime(CLOCK_PROCESS_CPUTIME_ID, &now);
    return (double)now.tv_sec + (double)now.tv_nsec / 1e9;
}

/* The bytes of the blocks that this process has from the C library, with what it keeps beside them. */
uint64_t memory_in_use(void)
{
    struct mallinfo2 now = mallinfo2();
    return now.uordblks + now.hblkhd;
}

static void read_ours(batch *of, const mmdb_rows *rows)
{
    size_t cells = rows->rows * rows->columns;
    for (size_t i = 0; i < cells; i++)
        of->sum += (uint64_t)rows->cells[i].integer;
    of->rows += rows->rows;
}

static void read_theirs(batch *of, sqlite3_stmt *row)
{
    int columns = sqlite3_column_count(row);
    for (int i = 0; i < columns; i++)
        of->sum += (uint64_t)sqlite3_column_int64(row, i);
    of->rows++;
}

/* Gives the number of steps that were done, which is less than all where one is refused. */
size_t execute_ours(mmdb *db, const mmdb_statement *statements, batch *of)
{
    const int64_t *value = of->values;
    size_t step = 0;
    double before = processor_seconds();
    for (; step < of->steps; step++) {
        const mmdb_statement *statement = &statements[of->kinds[step]];
        mmdb_rows rows;
        for (uint32_t place = 0; place < statement->places; place++)
            mmdb_bind_integer(db, statement->number, place, *value++);
        if (mmdb_execute(db, statement->number, &rows) != MMDB_DONE)
            break;
        read_ours(of, &rows);
    }
    of->seconds = processor_seconds() - before;
    return step;
}

/* As execute_ours. */
size_t execute_theirs(sqlite3_stmt *const *statements, batch *of)
{
    const int64_t *value = of->values;
    size_t step = 0;
    double before = processor_seconds();
    for (; step < of->steps; step++) {
        sqlite3_stmt *statement = statements[of->kinds[step]];
        int places = sqlite3_bind_parameter_count(statement), status;
        for (int place = 1; place <= places; place++)
            sqlite3_bind_int64(statement, place, *value++);
        while ((status = sqlite3_step(statement)) == SQLITE_ROW)
            read_theirs(of, statement);
        sqlite3_reset(statement);
        if (status != SQLITE_DONE)
            break;
    }
    of->seconds = processor_seconds() - before;
    return step;
}
