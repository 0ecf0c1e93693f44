/* Refuses each call for memory of a save and of a restore in turn. A piece that finds none leaves the mark, and comes when it is asked for
   again. A dump of which a piece found none is taken in no further. An end that finds none is called again. Nothing is held then. */
#include "allocations.h"
#include "filled.h"

/* The databases that are saved and restored here, by their places in FILLINGS: with rows of each kind, in blocks that are cut. */
static const int CHOSEN[] = { 0, 2, 4, 5, 6, 9, 12, 14 };
enum { CHOSEN_COUNT = sizeof CHOSEN / sizeof CHOSEN[0], STEP = 97 };

/* Whether the last calls had one refused that wanted memory. From then on all find it. */
static int was_refused(void)
{
    const int was = allocations_refused() != 0;
    allocations_refuse(0, 0);
    return was;
}

/* ---- saves */

/* Makes the next piece, with the call for memory behind so many refused, and if it was then again. Gives how many calls there were, or -1
   where one was refused. */
static long makes_piece(mmdb *db, mmdb_save_mark *mark, dump *to, long met)
{
    const mmdb_save_mark before = *mark;
    mmdb_bytes piece = { NULL, 7 };
    mmdb_status status;
    long asked;
    int is_refused;
    allocations_refuse(met, 1);
    status = mmdb_save(db, mark, &piece);
    asked = allocations_asked();
    is_refused = was_refused();
    CHECK(status == MMDB_DONE || (status == MMDB_NO_MEMORY && is_refused));
    if (status == MMDB_NO_MEMORY) {
        CHECK(memcmp(&before, mark, sizeof before) == 0 && piece.at != NULL && piece.length == 0);
        GIVES(mmdb_save(db, mark, &piece), MMDB_DONE);
    }
    append(to, piece.at, piece.length);
    return is_refused ? -1 : asked;
}

/* Saves with the call for memory behind so many refused. Gives whether one was. */
static int saves(const filling *with, const dump *expected, long met)
{
    const long held = allocations_held();
    mmdb db = filled(with);
    mmdb_save_mark mark;
    dump of = { NULL, 0, 0 };
    int is_refused = 0;
    memset(&mark, 0, sizeof mark);
    for (int i = 0; i < MOST_PIECES && mark.part != MMDB_SAVE_OVER; i++) {
        const long asked = is_refused ? 0 : makes_piece(&db, &mark, &of, met);
        mmdb_bytes piece;
        if (is_refused) {
            GIVES(mmdb_save(&db, &mark, &piece), MMDB_DONE);
            append(&of, piece.at, piece.length);
        }
        is_refused |= asked < 0;
        met -= asked;
    }
    CHECK(are_equal(&of, expected));
    frees(&of);
    mmdb_close(&db);
    CHECK(allocations_held() == held);
    return is_refused;
}

static void each_call_of_saves_is_refused(void)
{
    long all = 0;
    for (int i = 0; i < CHOSEN_COUNT; i++) {
        const filling *with = &FILLINGS[CHOSEN[i]];
        mmdb db = filled(with);
        dump expected = saved(&db, with->most);
        long met = 0;
        mmdb_close(&db);
        while (saves(with, &expected, met))
            met++;
        all += met;
        frees(&expected);
    }
    CHECK(all > 0);
}

/* ---- restores */

/* A restore of which a piece found no memory takes no more. */
static void takes_no_more(mmdb_restore *restore, const dump *of)
{
    mmdb db = MMDB_CLOSED;
    GIVES(mmdb_restore_take(restore, of->at, of->length, NULL), MMDB_NOT_A_DUMP);
    GIVES(mmdb_restore_take(restore, NULL, 0, NULL), MMDB_NOT_A_DUMP);
    GIVES(mmdb_restore_end(restore, &db), MMDB_NOT_A_DUMP);
    CHECK(restore->inside != NULL && db.inside == NULL);
}

/* Takes in a dump, whose pieces may find no memory. */
static mmdb_status takes_all(mmdb_restore *restore, const dump *of)
{
    mmdb_status status = MMDB_DONE;
    mmdb_bytes answer = { NULL, 7 };
    for (size_t at = 0; at < of->length && status == MMDB_DONE; at += STEP)
        status = mmdb_restore_take(restore, of->at + at, of->length - at < STEP ? of->length - at : STEP, &answer);
    CHECK(status == MMDB_DONE || status == MMDB_NO_MEMORY || (status == MMDB_REFUSED && reads(answer, "error 90 no memory\n")));
    CHECK(status == MMDB_REFUSED || (answer.at != NULL && answer.length == 0));
    return status;
}

/* Opens and takes in a dump, with the call for memory behind so many refused. Gives whether one was. */
static int takes_in(const dump *of, mmdb *as, long met)
{
    const long held = allocations_held();
    mmdb_restore restore = MMDB_NO_RESTORE;
    mmdb db = MMDB_CLOSED;
    mmdb_status status;
    int is_refused;
    allocations_refuse(met, 1);
    status = mmdb_restore_open(&restore, MMDB_AUTO, MMDB_MOST, MMDB_MOST);
    if (status == MMDB_DONE)
        status = takes_all(&restore, of);
    is_refused = was_refused();
    if (restore.inside == NULL) {
        CHECK(status == MMDB_NO_MEMORY && is_refused && allocations_held() == held);
    } else if (status != MMDB_DONE) {
        CHECK(is_refused);
        takes_no_more(&restore, of);
        mmdb_restore_close(&restore);
    } else {
        GIVES(mmdb_restore_end(&restore, &db), MMDB_DONE);
        CHECK(are_alike(as, &db));
        mmdb_close(&db);
    }
    CHECK(restore.inside == NULL && allocations_held() == held);
    return is_refused;
}

/* Ends a restore, with the call for memory behind so many refused. Gives whether one was. */
static int ends(const dump *of, mmdb *as, long met)
{
    const long held = allocations_held();
    mmdb_restore restore = MMDB_NO_RESTORE;
    mmdb db = MMDB_CLOSED;
    mmdb_status status;
    int is_refused;
    GIVES(mmdb_restore_open(&restore, MMDB_AUTO, MMDB_MOST, MMDB_MOST), MMDB_DONE);
    GIVES(takes_all(&restore, of), MMDB_DONE);
    allocations_refuse(met, 1);
    status = mmdb_restore_end(&restore, &db);
    is_refused = was_refused();
    CHECK(status == MMDB_DONE || (status == MMDB_NO_MEMORY && is_refused));
    if (status == MMDB_NO_MEMORY) {
        CHECK(restore.inside != NULL && db.inside == NULL);
        GIVES(mmdb_restore_end(&restore, &db), MMDB_DONE);
    }
    CHECK(restore.inside == NULL && are_alike(as, &db));
    mmdb_close(&db);
    CHECK(allocations_held() == held);
    return is_refused;
}

static void each_call_of_restores_is_refused(void)
{
    for (int i = 0; i < CHOSEN_COUNT; i++) {
        const filling *with = &FILLINGS[CHOSEN[i]];
        mmdb db = filled(with);
        dump of = saved(&db, with->most);
        long met = 0;
        while (takes_in(&of, &db, met))
            met++;
        CHECK(met > 2);
        for (met = 0; ends(&of, &db, met);)
            met++;
        frees(&of);
        mmdb_close(&db);
    }
}

int main(void)
{
    each_call_of_saves_is_refused();
    each_call_of_restores_is_refused();
    CHECK(allocations_held() == 0);
    return checks_failed != 0;
}
