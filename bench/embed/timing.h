/* What the programs share that time mmdb and SQLite by the processor's time: how they fail, numbers that are drawn, and a clock.
   PROGRAM is the name of the program. */
#ifndef TIMING_H
#define TIMING_H

#include <inttypes.h>
#include <stdio.h>
#include <stdlib.h>
#include <time.h>

static inline void insist(int holds, const char *what)
{
    if (holds)
        return;
    fprintf(stderr, PROGRAM ": %s fails\n", what);
    exit(1);
}

static inline uint64_t draw(uint64_t most)
{
    static uint64_t state = 88172645463325252u;
    state ^= state << 13;
    state ^= state >> 7;
    state ^= state << 17;
    return state % most;
}

/* Puts the numbers from 0 below `count`, times a factor and a number more, into an order that is drawn. */
static inline void shuffle(int64_t *keys, int64_t count, int64_t factor, int64_t more)
{
    for (int64_t i = 0; i < count; i++) {
        int64_t other = (int64_t)draw((uint64_t)i + 1);
        keys[i] = keys[other];
        keys[other] = factor * i + more;
    }
}

/* A text of eight letters, by a key. */
static inline void letters(char text[9], int64_t key)
{
    for (int i = 0; i < 8; i++)
        text[i] = (char)('a' + ((key >> (3 * i)) & 7));
    text[8] = '\0';
}

static inline double seconds(void)
{
    struct timespec now;
    clock_gettime(CLOCK_PROCESS_CPUTIME_ID, &now);
    return (double)now.tv_sec + (double)now.tv_nsec / 1e9;
}

#endif
