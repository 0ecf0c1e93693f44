/* Counts the memory that a program holds. Preloaded into it, it adds up the bytes that the program asked for and has
 * not given back. Before each text for the standard output it writes a line of its own: their number, and the greatest
 * that it was since the text before. */
#define _GNU_SOURCE
#include <errno.h>
#include <stddef.h>
#include <stdint.h>
#include <stdio.h>
#include <stdlib.h>
#include <string.h>
#include <sys/syscall.h>
#include <unistd.h>

extern void *__libc_memalign(size_t alignment, size_t size);
extern void __libc_free(void *block);

/* What stands in front of each block: how long it is, and how far behind the start of what the C library gave. */
struct front {
    size_t size;
    size_t offset;
};

static size_t held = 0;
static size_t most = 0;

static struct front *front_of(void *block)
{
    return (struct front *)block - 1;
}

static void *take(size_t alignment, size_t size)
{
    size_t offset = alignment > sizeof(struct front) ? alignment : sizeof(struct front);
    char *start = size > SIZE_MAX - offset ? NULL : __libc_memalign(offset, size + offset);
    if (!start) {
        errno = ENOMEM;
        return NULL;
    }
    *front_of(start + offset) = (struct front){size, offset};
    held += size;
    if (most < held)
        most = held;
    return start + offset;
}

void free(void *block)
{
    if (block) {
        held -= front_of(block)->size;
        __libc_free((char *)block - front_of(block)->offset);
    }
}

void *malloc(size_t size)
{
    return take(1, size);
}

void *calloc(size_t count, size_t size)
{
    void *block = size && count > SIZE_MAX / size ? NULL : take(1, count * size);
    return block ? memset(block, 0, count * size) : NULL;
}

void *realloc(void *block, size_t size)
{
    void *other = take(1, size);
    if (other && block) {
        size_t before = front_of(block)->size;
        memcpy(other, block, before < size ? before : size);
        free(block);
    }
    return other;
}

void *aligned_alloc(size_t alignment, size_t size)
{
    return take(alignment, size);
}

int posix_memalign(void **block, size_t alignment, size_t size)
{
    *block = take(alignment, size);
    return *block ? 0 : ENOMEM;
}

ssize_t write(int file, const void *text, size_t length)
{
    if (file == STDOUT_FILENO) {
        char line[64];
        int count = snprintf(line, sizeof line, "\n[held %zu, most %zu]\n", held, most);
        syscall(SYS_write, file, line, (size_t)count);
        most = held;
    }
    return syscall(SYS_write, file, text, length);
}
