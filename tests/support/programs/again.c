/* Makes the calls of standard input on one handle, and writes their answers; and then on another for each call for
   memory, which is refused there. What is answered `error 90` then is asked again, and has its answer. Its words are the
   handles' limits. At the end it says how often something was asked again. It is linked with a library whose calls for
   memory are counted, and its own aren't. */
#include "allocations.h"
#include "calls.h"

/* A call, and its answer where no call for memory is refused. */
typedef struct asked {
    call call;
    unsigned char *answer;
    size_t length;
} asked;

static asked *calls = NULL;
static size_t calls_read = 0;
static long asked_again = 0;

static void read_calls(void)
{
    size_t room = 0;
    call next;
    while (read_call(&next)) {
        if (calls_read == room) {
            room = 2 * room + 1000;
            calls = (asked *)realloc(calls, room * sizeof *calls);
        }
        calls[calls_read++].call = next;
    }
}

static void free_calls(void)
{
    for (size_t i = 0; i < calls_read; i++) {
        free(calls[i].call.bytes);
        free(calls[i].answer);
    }
    free(calls);
}

/* Makes each call, keeps its answer, and writes it. */
static void asks(mmdb *db)
{
    mmdb_bytes answer;
    for (size_t i = 0; i < calls_read; i++) {
        GIVES(answer_to(db, calls[i].call, &answer), MMDB_DONE);
        calls[i].answer = (unsigned char *)malloc(answer.length);
        calls[i].length = answer.length;
        memcpy(calls[i].answer, answer.at, answer.length);
        fwrite(answer.at, 1, answer.length, stdout);
    }
}

static int is_front_of(mmdb_bytes front, asked of)
{
    return front.length <= of.length && memcmp(front.at, of.answer, front.length) == 0;
}

/* Makes each call on a handle one of whose calls for memory is refused. What is answered by want of memory is asked
   again, a request that was fed in pieces from its first piece on. Where the answers of a piece find no room, the stream is
   over, and what there is of them is a front of them. */
static void asks_again(mmdb *db)
{
    mmdb_bytes answer;
    size_t first = 0;
    for (size_t i = 0; i < calls_read; i++) {
        const mmdb_status status = answer_to(db, calls[i].call, &answer);
        if (status == MMDB_NO_MEMORY) {
            CHECK(allocations_refused() == 1 && is_front_of(answer, calls[i]));
            return;
        }
        GIVES(status, MMDB_DONE);
        if (allocations_refused() == 1 && reads(answer, "error 90 no memory\n")) {
            asked_again++;
            for (size_t from = first; from <= i; from++)
                GIVES(answer_to(db, calls[from].call, &answer), MMDB_DONE);
        }
        CHECK(answer.length == calls[i].length && is_front_of(answer, calls[i]));
        if (answer.length > 0)
            first = i + 1;
    }
}

/* Makes the calls with the call for memory behind so many refused. Gives whether one was. */
static int refuses(long met, int count, char **words)
{
    mmdb db = MMDB_CLOSED;
    mmdb_status status;
    long refused;
    allocations_refuse(met, 1);
    status = open_by_words(&db, count, words);
    if (status == MMDB_DONE)
        asks_again(&db);
    refused = allocations_refused();
    allocations_refuse(0, 0);
    CHECK(status == MMDB_DONE || (status == MMDB_NO_MEMORY && refused == 1));
    mmdb_close(&db);
    CHECK(allocations_held() == 0);
    return refused == 1;
}

int main(int count, char **words)
{
    mmdb db = MMDB_CLOSED;
    long met = 0;
    read_calls();
    GIVES(open_by_words(&db, count, words), MMDB_DONE);
    asks(&db);
    mmdb_close(&db);
    while (refuses(met, count, words))
        met++;
    free_calls();
    fprintf(stderr, "%ld asked again\n", asked_again);
    return checks_failed != 0;
}
