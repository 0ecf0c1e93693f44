/* What the programs share that interrupt selects: a thread that asks the select of a handle to end, again and again, and a handler of
   signals that does. Who includes it defines _GNU_SOURCE before. */
#ifndef STORMING_H
#define STORMING_H

#include "checking.h"

#include <pthread.h>
#include <sched.h>
#include <signal.h>
#include <sys/time.h>
#include <time.h>

enum { SHORT_PAUSE = 16384 };

/* The asks are made with an interrupter of their own, and counted. Between two of them there is a pause of some nanoseconds, of which
   `longest` is the most binary digits; where that is 0 there is none. */
typedef struct storm {
    mmdb_interrupter with;
    unsigned longest;
    uint64_t drawn;
    long asks;
    int is_over;
    pthread_t thread;
} storm;

/* Pauses of each number of digits come equally often. In short ones it turns in a loop. */
static inline void pause_between(storm *of)
{
    struct timespec pause = { 0, 0 };
    of->drawn = of->drawn * UINT64_C(6364136223846793005) + UINT64_C(1442695040888963407);
    pause.tv_nsec = (long)((of->drawn >> 33) & ((UINT64_C(1) << ((of->drawn >> 20) % of->longest + 1)) - 1));
    if (pause.tv_nsec > SHORT_PAUSE)
        nanosleep(&pause, NULL);
    else
        while (pause.tv_nsec-- > 0 && !__atomic_load_n(&of->is_over, __ATOMIC_RELAXED))
            continue;
}

static inline void *ask_on(void *given)
{
    storm *const of = (storm *)given;
    while (!__atomic_load_n(&of->is_over, __ATOMIC_RELAXED)) {
        mmdb_interrupt(&of->with);
        __atomic_fetch_add(&of->asks, 1, __ATOMIC_RELAXED);
        if (of->longest == 0)
            sched_yield();
        else
            pause_between(of);
    }
    return NULL;
}

/* Begins to ask what is done on a handle to end. An ask has been made then. */
static inline void begin_storm(storm *of, mmdb *db, unsigned longest)
{
    const storm fresh = { MMDB_NO_INTERRUPTER, longest, (uint64_t)longest + 1, 0, 0, 0 };
    *of = fresh;
    GIVES(mmdb_interrupter_open(db, &of->with), MMDB_DONE);
    CHECK(pthread_create(&of->thread, NULL, ask_on, of) == 0);
    while (__atomic_load_n(&of->asks, __ATOMIC_RELAXED) == 0)
        sched_yield();
}

/* Ends that, and gives how many asks there were. */
static inline long end_storm(storm *of)
{
    __atomic_store_n(&of->is_over, 1, __ATOMIC_RELAXED);
    CHECK(pthread_join(of->thread, NULL) == 0);
    mmdb_interrupter_close(&of->with);
    return of->asks;
}

/* What the handler asks with. */
static mmdb_interrupter by_handler = MMDB_NO_INTERRUPTER;

static inline void handle(int signal)
{
    (void)signal;
    mmdb_interrupt(&by_handler);
}

static inline void handles(int signal, void (*by)(int signal))
{
    struct sigaction action;
    memset(&action, 0, sizeof action);
    action.sa_handler = by;
    action.sa_flags = SA_RESTART;
    CHECK(sigaction(signal, &action, NULL) == 0);
}

/* Has a signal come after each so many microseconds, or none. */
static inline void set_timer(long microseconds)
{
    const struct itimerval timer = { { 0, microseconds }, { 0, microseconds } };
    CHECK(setitimer(ITIMER_REAL, &timer, NULL) == 0);
}

/* Begins to ask what is done on a handle to end by a handler, at each signal of a timer. */
static inline void begin_signals(mmdb *db, long microseconds)
{
    GIVES(mmdb_interrupter_open(db, &by_handler), MMDB_DONE);
    handles(SIGALRM, handle);
    set_timer(microseconds);
}

static inline void end_signals(void)
{
    set_timer(0);
    handles(SIGALRM, SIG_IGN);
    mmdb_interrupter_close(&by_handler);
}

#endif
