/* Answers pairs of pieces of standard input, each pair on a handle of its own: what comes before, and what is measured. A pair is
   a line of the policy's number and of the lengths of the two, and behind it so many bytes. For each it writes a line: how many
   nanoseconds of a processor the second piece took, how many refusals answered the first, and how many the second. Valgrind
   counts the instructions of `measured` alone. */
#define _POSIX_C_SOURCE 199309L
#include "calls.h"

#include <inttypes.h>
#include <malloc.h>
#include <time.h>

/* A block that the allocator seeks among all free blocks. */
enum { LARGE_BLOCK = 1 << 16 };

mmdb_status measured(mmdb *db, const unsigned char *piece, size_t length);

__attribute__((noinline)) mmdb_status measured(mmdb *db, const unsigned char *piece, size_t length)
{
    return mmdb_feed(db, piece, length);
}

/* How much of a processor's time this process has had. */
static uint64_t nanoseconds(void)
{
    struct timespec had;
    CHECK(clock_gettime(CLOCK_PROCESS_CPUTIME_ID, &had) == 0);
    return (uint64_t)had.tv_sec * 1000000000 + (uint64_t)had.tv_nsec;
}

/* How many lines of the last answers begin as refusals do. */
static unsigned refusals(mmdb *db)
{
    static const char ERROR[] = "error ";
    const size_t length = strlen(ERROR);
    const char *line, *end;
    unsigned count = 0;
    mmdb_bytes answers;
    GIVES(mmdb_answer(db, &answers), MMDB_DONE);
    line = (const char *)answers.at;
    end = line + answers.length;
    while (line < end) {
        count += (size_t)(end - line) >= length && memcmp(line, ERROR, length) == 0;
        line = (const char *)memchr(line, '\n', (size_t)(end - line)) + 1;
    }
    return count;
}

/* Joins the free blocks that the pairs before have left. Else the next large block that is given back joins them, and the pair that
   gives it back is counted for it. */
static void settle(void)
{
    malloc_trim(0);
    free(malloc(LARGE_BLOCK));
}

static void measure(const call *pair)
{
    mmdb db = MMDB_CLOSED;
    unsigned before;
    uint64_t took;
    GIVES(mmdb_open(&db, (uint32_t)strtoul(pair->name, NULL, 10), MMDB_MOST, MMDB_MOST), MMDB_DONE);
    GIVES(mmdb_feed(&db, pair->bytes, pair->length), MMDB_DONE);
    before = refusals(&db);
    settle();
    took = nanoseconds();
    GIVES(measured(&db, pair->bytes + pair->length, pair->block_length), MMDB_DONE);
    took = nanoseconds() - took;
    printf("%" PRIu64 " %u %u\n", took, before, refusals(&db));
    mmdb_close(&db);
}

int main(void)
{
    call pair;
    while (read_call(&pair)) {
        measure(&pair);
        free(pair.bytes);
    }
    return checks_failed != 0;
}
