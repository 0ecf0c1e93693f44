/* What the programs share that answer calls of standard input: how a call is read and made, and the limits that the
   program's words tell. */
#ifndef CALLS_H
#define CALLS_H

#include "checking.h"

#include <stdlib.h>

/* A call is the line `command LENGTH`, `load LENGTH BLOCK_LENGTH` or `feed LENGTH`, and behind it so many bytes. They lie
   in a block of just their length, so that what reads past their end reads past the block. */
typedef struct call {
    char name[16];
    size_t length;
    size_t block_length;
    unsigned char *bytes;
} call;

/* Reads the next call. Gives 0 where the input has ended. */
static inline int read_call(call *to)
{
    char line[80];
    if (fgets(line, sizeof line, stdin) == NULL)
        return 0;
    to->block_length = 0;
    if (sscanf(line, "%15s %zu %zu", to->name, &to->length, &to->block_length) < 2)
        exit(3);
    to->bytes = (unsigned char *)malloc(to->length + to->block_length);
    if (fread(to->bytes, 1, to->length + to->block_length, stdin) != to->length + to->block_length)
        exit(3);
    return 1;
}

/* Makes a call. Of a piece whose answers found no room the answer is what there is of them. */
static inline mmdb_status answer_to(mmdb *db, call of, mmdb_bytes *answer)
{
    mmdb_status status;
    if (strcmp(of.name, "command") == 0)
        return mmdb_command(db, of.bytes, of.length, answer);
    if (strcmp(of.name, "load") == 0)
        return mmdb_load(db, of.bytes, of.length, of.bytes + of.length, of.block_length, answer);
    status = mmdb_feed(db, of.bytes, of.length);
    GIVES(mmdb_answer(db, answer), MMDB_DONE);
    return status;
}

/* Opens a handle under the limits that the words `ROWS BLOCK` tell, or without words under the greatest. */
static inline mmdb_status open_by_words(mmdb *db, int count, char **words)
{
    const uint32_t rows = count == 3 ? (uint32_t)strtoul(words[1], NULL, 10) : MMDB_MOST;
    const uint32_t block = count == 3 ? (uint32_t)strtoul(words[2], NULL, 10) : MMDB_MOST;
    return mmdb_open(db, MMDB_AUTO, rows, block);
}

#endif
