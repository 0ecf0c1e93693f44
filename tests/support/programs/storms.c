/* Threads that ask selects to end at random times, as a library for a test that makes calls in its own process. */
#define _GNU_SOURCE
#include "storming.h"

#include <stdlib.h>

void *storms_begin(mmdb *db, unsigned longest);
long storms_end(void *begun);

/* Begins to ask what is done on a handle to end, until storms_end of what this gives. */
void *storms_begin(mmdb *db, unsigned longest)
{
    storm *const of = (storm *)malloc(sizeof *of);
    begin_storm(of, db, longest);
    return of;
}

/* Gives how many asks there were, or less than 0 where something was wrong. */
long storms_end(void *begun)
{
    const long asks = end_storm((storm *)begun);
    free(begun);
    return checks_failed == 0 ? asks : -1;
}
