/* Makes the calls of standard input on one handle, and writes each answer by a call of its own, which
   tests/support/count_held.c hears where it is preloaded. The program's words are the handle's limits. */
#include "calls.h"

#include <unistd.h>

/* The number of the refusal that answers begin with, or 0. */
static uint32_t refusal_of(mmdb_bytes answers)
{
    static const char ERROR[] = "error ";
    const size_t length = strlen(ERROR);
    if (answers.length < length || memcmp(answers.at, ERROR, length) != 0)
        return 0;
    return (uint32_t)strtoul((const char *)answers.at + length, NULL, 10);
}

int main(int count, char **words)
{
    mmdb db = MMDB_CLOSED;
    mmdb_bytes answer;
    call next;
    GIVES(open_by_words(&db, count, words), MMDB_DONE);
    while (read_call(&next)) {
        GIVES(answer_to(&db, next, &answer), MMDB_DONE);
        GIVES(mmdb_refusal(&db), refusal_of(answer));
        free(next.bytes);
        CHECK(write(STDOUT_FILENO, answer.at, answer.length) == (ssize_t)answer.length);
    }
    mmdb_close(&db);
    return checks_failed != 0;
}
