/* Counts the blocks of memory that are given and given back, and refuses the calls for memory that it is told to, or
 * the one of the number in REFUSE_NTH. At the end of the program it says the counts on standard error, but where UNTOLD is
 * defined. Several threads may call. */
#include "allocations.h"
#include "wrapped.h"

#include <malloc.h>
#include <stdio.h>
#include <stdlib.h>

static long left_to_meet = 0;
static long left_to_refuse = 0;
static long refused_calls = 0;
static long asking_calls = 0;
static long given_blocks = 0;
static long returned_blocks = 0;
static long held_bytes = 0;

void allocations_refuse(long met, long refused)
{
    left_to_meet = met;
    left_to_refuse = refused;
    refused_calls = 0;
    asking_calls = 0;
}

long allocations_refused(void)
{
    return refused_calls;
}

long allocations_asked(void)
{
    return asking_calls;
}

long allocations_held(void)
{
    return given_blocks - returned_blocks;
}

long allocations_bytes(void)
{
    return held_bytes;
}

__attribute__((constructor)) static void begin(void)
{
    const char *nth = getenv("REFUSE_NTH");
    if (nth)
        allocations_refuse(atol(nth) - 1, 1);
}

#ifndef UNTOLD
__attribute__((destructor)) static void tell(void)
{
    fprintf(stderr, "%ld blocks given, %ld given back, %ld calls refused\n", given_blocks, returned_blocks, refused_calls);
}
#endif

static void add(long *count, long more)
{
    __atomic_fetch_add(count, more, __ATOMIC_RELAXED);
}

/* Takes one of those that are left, if there is one. */
static int takes(long *left)
{
    long seen = __atomic_load_n(left, __ATOMIC_RELAXED);
    while (seen > 0)
        if (__atomic_compare_exchange_n(left, &seen, seen - 1, 0, __ATOMIC_RELAXED, __ATOMIC_RELAXED))
            return 1;
    return 0;
}

static int is_refused(int is_asking)
{
    add(&asking_calls, is_asking);
    if (takes(&left_to_meet) || !takes(&left_to_refuse))
        return 0;
    add(&refused_calls, 1);
    return 1;
}

static void *counted(void *block)
{
    add(&given_blocks, block != NULL);
    add(&held_bytes, (long)malloc_usable_size(block));
    return block;
}

void *__wrap_malloc(size_t size)
{
    return is_refused(1) ? NULL : counted(__real_malloc(size));
}

void *__wrap_calloc(size_t count, size_t size)
{
    return is_refused(1) ? NULL : counted(__real_calloc(count, size));
}

void *__wrap_realloc(void *block, size_t size)
{
    const long held = (long)malloc_usable_size(block);
    void *grown = is_refused(block == NULL || (long)size > held) ? NULL : __real_realloc(block, size);
    if (block == NULL)
        return counted(grown);
    if (grown != NULL)
        add(&held_bytes, (long)malloc_usable_size(grown) - held);
    return grown;
}

void __wrap_free(void *block)
{
    add(&returned_blocks, block != NULL);
    add(&held_bytes, -(long)malloc_usable_size(block));
    __real_free(block);
}
