/* Makes the calls of standard input, each on a handle that shares the tables of another, and writes each answer. A call that would change
   tables is declined there; the reader leaves then, and the other handle makes it. The program's words are the limits. */
#include "calls.h"

#include <unistd.h>

/* Whether an answer is a change's: of one that was done, or that rows, references, limits or memory refused. */
static int is_of_change(mmdb_bytes answer, uint32_t refusal)
{
    return (answer.length > 2 && memcmp(answer.at, "ok", 2) == 0) || (refusal > 40 && refusal < 45) || refusal == 90;
}

/* Makes a call, and gives 1 if the reader did. */
static int asks(mmdb *db, mmdb *reader, call next, mmdb_bytes *answer)
{
    mmdb_status status;
    GIVES(mmdb_share(db, reader), MMDB_DONE);
    status = answer_to(reader, next, answer);
    if (status == MMDB_DONE)
        return 1;
    GIVES(status, MMDB_SHARED);
    CHECK(answer->length == 0);
    GIVES(mmdb_leave(reader), MMDB_DONE);
    GIVES(answer_to(db, next, answer), MMDB_DONE);
    CHECK(is_of_change(*answer, mmdb_refusal(db)));
    return 0;
}

int main(int count, char **words)
{
    mmdb db = MMDB_CLOSED, reader = MMDB_CLOSED;
    mmdb_bytes answer;
    call next;
    GIVES(open_by_words(&db, count, words), MMDB_DONE);
    while (read_call(&next)) {
        const int is_read = asks(&db, &reader, next, &answer);
        free(next.bytes);
        CHECK(write(STDOUT_FILENO, answer.at, answer.length) == (ssize_t)answer.length);
        CHECK(!is_read || mmdb_leave(&reader) == MMDB_DONE);
    }
    mmdb_close(&reader);
    mmdb_close(&db);
    return checks_failed != 0;
}
