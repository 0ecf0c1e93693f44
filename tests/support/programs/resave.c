/* Restores a database of the dump on standard input, in pieces of some bytes, and saves it to standard output. The words are the most bytes
   of a block, and how many bytes a piece has. */
#include "checking.h"

#include <stdlib.h>

static void write_all(mmdb *db)
{
    mmdb_save_mark mark = MMDB_SAVE_BEGIN;
    mmdb_status status = MMDB_DONE;
    mmdb_bytes piece;
    while (mark.part != MMDB_SAVE_OVER && status == MMDB_DONE) {
        status = mmdb_save(db, &mark, &piece);
        fwrite(piece.at, 1, piece.length, stdout);
    }
    GIVES(status, MMDB_DONE);
}

int main(int count, char **words)
{
    const size_t most = count == 3 ? strtoul(words[1], NULL, 10) : MMDB_MOST, step = count == 3 ? strtoul(words[2], NULL, 10) : 4096;
    unsigned char *piece = (unsigned char *)malloc(step);
    mmdb_restore restore = MMDB_NO_RESTORE;
    mmdb db = MMDB_CLOSED;
    mmdb_status status;
    size_t length;
    GIVES(mmdb_restore_open(&restore, MMDB_AUTO, MMDB_MOST, (uint32_t)most), MMDB_DONE);
    do {
        length = fread(piece, 1, step, stdin);
        status = mmdb_restore_take(&restore, piece, length, NULL);
        GIVES(status, MMDB_DONE);
    } while (length > 0 && status == MMDB_DONE);
    GIVES(mmdb_restore_end(&restore, &db), MMDB_DONE);
    if (db.inside)
        write_all(&db);
    mmdb_restore_close(&restore);
    mmdb_close(&db);
    free(piece);
    return checks_failed != 0;
}
