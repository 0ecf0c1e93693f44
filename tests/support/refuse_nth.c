/* Refuses one call for memory. Preloaded into a program, it counts the calls for memory that the program makes, and
 * lets the one of the number in REFUSE_NTH find none. It says so by a byte to the open file whose number is in
 * REFUSE_TOLD. Without REFUSE_NTH it refuses nothing. A program that it is linked with says by refuse_nth which of the
 * calls from now on is refused, or by 0 that none is, and hears how many there were to it yet. Several threads may call. */
#include <errno.h>
#include <stddef.h>
#include <stdlib.h>
#include <unistd.h>

extern void *__libc_malloc(size_t size);
extern void *__libc_calloc(size_t count, size_t size);
extern void *__libc_realloc(void *block, size_t size);
extern void *__libc_memalign(size_t alignment, size_t size);

static long left = 0;
static int told = -1;

long refuse_nth(long nth);

long refuse_nth(long nth)
{
    const long before = left;
    left = nth;
    return before;
}

/* Runs once the libraries are loaded and before the program starts, so no earlier call counts. */
__attribute__((constructor)) static void begin(void)
{
    const char *nth = getenv("REFUSE_NTH");
    const char *file = getenv("REFUSE_TOLD");
    if (file)
        told = atoi(file);
    if (nth)
        left = atol(nth);
}

static int is_refused(void)
{
    if (__atomic_load_n(&left, __ATOMIC_RELAXED) <= 0 || __atomic_sub_fetch(&left, 1, __ATOMIC_RELAXED) != 0)
        return 0;
    if (told >= 0 && write(told, "!", 1) != 1)
        abort();
    errno = ENOMEM;
    return 1;
}

void *malloc(size_t size)
{
    return is_refused() ? NULL : __libc_malloc(size);
}

void *calloc(size_t count, size_t size)
{
    return is_refused() ? NULL : __libc_calloc(count, size);
}

void *realloc(void *block, size_t size)
{
    return is_refused() ? NULL : __libc_realloc(block, size);
}

void *aligned_alloc(size_t alignment, size_t size)
{
    return is_refused() ? NULL : __libc_memalign(alignment, size);
}

int posix_memalign(void **block, size_t alignment, size_t size)
{
    if (is_refused())
        return ENOMEM;
    *block = __libc_memalign(alignment, size);
    return *block ? 0 : ENOMEM;
}
