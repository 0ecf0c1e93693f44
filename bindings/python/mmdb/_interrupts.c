/* Selects that are asked to end: by a thread that calls `interrupt`, and by Ctrl-C while the main thread is in one.

   Python's own handler of a signal notes that it came, and the program's function for it is called where the call is at its end.
   So while a select of the main thread may last, a handler of ours stands before Python's: it calls that, and asks the select to
   end. Then the program's function is called. If it raises, as the one for Ctrl-C does, that ends the call. If it returns, the
   select is done again from its start, as is usual for what a signal cuts short. If SIGINT is ignored or ends the process, it stays
   so. Who installs another handler meanwhile keeps it. */
#include "_mmdb.h"

#include <errno.h>
#include <pthread.h>
#include <sched.h>
#include <signal.h>
#include <sys/syscall.h>
#include <time.h>
#include <unistd.h>

/* How many nanoseconds a quick step takes at most, and how many are taken to be quick behind one that was. */
#define QUICK 20000
#define QUICK_ONES 32

/* ---- by a thread */

uint32_t interrupts_open(Handle *handle)
{
    return mmdb_interrupter_open(&handle->db, &handle->interrupter);
}

static void close_one(mmdb_interrupter *interrupter)
{
    if (interrupter->inside != NULL)
        mmdb_interrupter_close(interrupter);
    interrupter->inside = NULL;
}

void interrupts_close(Handle *handle)
{
    close_one(&handle->interrupter);
    close_one(&handle->by_signal);
}

/* (The interpreter's lock is held here, and where it is closed, so that these calls come one after another.) */
void interrupts_ask(Handle *handle)
{
    handle->asks++;
    if (handle->interrupter.inside != NULL)
        mmdb_interrupt(&handle->interrupter);
}

/* ---- by a signal */

/* What asks the select to end that the main thread is in; or null. */
static mmdb_interrupter *under_way;

/* The handler that ours stands before, and whether ours was called. */
static struct sigaction before;
static int was_signalled;

/* How many threads are in our handler, and whether one of them is asking. */
static int in_handler, is_asking;

/* The main thread, or 0 where that isn't known yet. */
static unsigned long main_thread;

static void on_signal(int number, siginfo_t *about, void *context)
{
    int error = errno;
    __atomic_add_fetch(&in_handler, 1, __ATOMIC_SEQ_CST);
    if (before.sa_flags & SA_SIGINFO)
        before.sa_sigaction(number, about, context);
    else
        before.sa_handler(number);
    mmdb_interrupter *interrupter = __atomic_load_n(&under_way, __ATOMIC_SEQ_CST);
    if (interrupter != NULL && !__atomic_exchange_n(&is_asking, 1, __ATOMIC_SEQ_CST)) {
        __atomic_store_n(&was_signalled, 1, __ATOMIC_SEQ_CST);
        mmdb_interrupt(interrupter);
        __atomic_store_n(&is_asking, 0, __ATOMIC_SEQ_CST);
    }
    __atomic_sub_fetch(&in_handler, 1, __ATOMIC_SEQ_CST);
    errno = error;
}

static int is_ours(const struct sigaction *action)
{
    return (action->sa_flags & SA_SIGINFO) && action->sa_sigaction == on_signal;
}

/* Whether a handler can be called by ours. */
static int can_be_called(const struct sigaction *action)
{
    if (action->sa_flags & SA_RESETHAND)
        return 0;
    return (action->sa_flags & SA_SIGINFO) ? !is_ours(action) : action->sa_handler != SIG_DFL && action->sa_handler != SIG_IGN;
}

static int is_main_thread(void)
{
    if (main_thread == 0 && syscall(SYS_gettid) == getpid())
        main_thread = PyThread_get_thread_ident();
    return main_thread == PyThread_get_thread_ident();
}

/* In a child of fork: the thread that is here is the main one, and is in no select. */
static void begin_child(void)
{
    if (under_way != NULL)
        sigaction(SIGINT, &before, NULL);
    main_thread = 0;
    under_way = NULL;
    in_handler = is_asking = 0;
}

/* Puts our handler before the one that is there. Gives whether that was done. */
static int begin_watch(Handle *handle)
{
    if (!is_main_thread() || sigaction(SIGINT, NULL, &before) != 0 || !can_be_called(&before))
        return 0;
    if (handle->by_signal.inside == NULL && mmdb_interrupter_open(&handle->db, &handle->by_signal) != MMDB_DONE)
        return 0;
    struct sigaction ours = before;
    ours.sa_sigaction = on_signal;
    ours.sa_flags |= SA_SIGINFO;
    was_signalled = 0;
    __atomic_store_n(&under_way, &handle->by_signal, __ATOMIC_SEQ_CST);
    return sigaction(SIGINT, &ours, NULL) == 0;
}

/* Takes it away. Gives whether it was called. */
static int end_watch(void)
{
    struct sigaction there;
    if (sigaction(SIGINT, &before, &there) == 0 && !is_ours(&there))
        sigaction(SIGINT, &there, NULL);
    __atomic_store_n(&under_way, NULL, __ATOMIC_SEQ_CST);
    /* (it may be under way in another thread) */
    while (__atomic_load_n(&in_handler, __ATOMIC_SEQ_CST) > 0)
        sched_yield();
    return __atomic_load_n(&was_signalled, __ATOMIC_SEQ_CST);
}

/* ---- steps */

/* Takes a step while other threads go on. Where it is asked for, how many nanoseconds it took is told. */
static uint32_t take_freely(Handle *handle, Step *step, int64_t *took)
{
    uint32_t status;
    struct timespec began = { 0, 0 }, ended = { 0, 0 };
    Py_BEGIN_ALLOW_THREADS
    if (took != NULL)
        clock_gettime(CLOCK_MONOTONIC, &began);
    status = step->take(handle, step);
    if (took != NULL)
        clock_gettime(CLOCK_MONOTONIC, &ended);
    Py_END_ALLOW_THREADS
    if (took != NULL)
        *took = (int64_t)(ended.tv_sec - began.tv_sec) * 1000000000 + (ended.tv_nsec - began.tv_nsec);
    return status;
}

/* Takes a step of a select, which may be asked to end. */
static uint32_t take_interruptibly(Handle *handle, Step *step, int64_t *took)
{
    uint64_t asks = handle->asks;
    for (;;) {
        int is_watched = begin_watch(handle);
        uint32_t status = take_freely(handle, step, took);
        if (!is_watched || !end_watch() || status != MMDB_INTERRUPTED)
            return status;
        if (PyErr_CheckSignals() < 0)
            return STEP_RAISED;
        if (handle->asks != asks)
            return MMDB_INTERRUPTED;
    }
}

uint32_t take_step(Handle *handle, Step *step, Pace *pace, int is_select)
{
    int64_t took;
    int is_long = is_select && !(pace->was_quick && pace->commands == handle->commands);
    uint32_t status = is_long ? take_interruptibly(handle, step, &took) : take_freely(handle, step, &took);
    pace->was_quick = took <= QUICK;
    pace->quick = pace->was_quick ? QUICK_ONES : 0;
    pace->commands = handle->commands;
    return status;
}

int is_quick(const Handle *handle, Pace *pace)
{
    if (pace->quick == 0 || pace->commands != handle->commands)
        return 0;
    pace->quick--;
    return 1;
}

uint32_t take_select(Handle *handle, Step *step, Pace *pace)
{
    return is_quick(handle, pace) ? take_freely(handle, step, NULL) : take_step(handle, step, pace, 1);
}

int interrupts_begin(void)
{
    is_main_thread();
    if (pthread_atfork(NULL, NULL, begin_child) == 0)
        return 0;
    PyErr_NoMemory();
    return -1;
}
