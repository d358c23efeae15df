/* Refuses memory to the program that it is loaded into: the calls of malloc and realloc from number FIRST to number
   LAST, of all threads together. repeat.py builds and loads it. */
#include <errno.h>
#include <stdatomic.h>
#include <stddef.h>
#include <stdlib.h>

extern void *__libc_malloc(size_t size);
extern void *__libc_realloc(void *block, size_t size);

static atomic_long calls;
static long first, last;

__attribute__((constructor)) static void begin(void)
{
    first = atol(getenv("FIRST"));
    last = atol(getenv("LAST"));
    calls = 0;
}

static int is_refused(void)
{
    long call = atomic_fetch_add(&calls, 1) + 1;
    if (call < first || call > last)
        return 0;
    errno = ENOMEM;
    return 1;
}

void *malloc(size_t size)
{
    return is_refused() ? NULL : __libc_malloc(size);
}

void *realloc(void *block, size_t size)
{
    return is_refused() ? NULL : __libc_realloc(block, size);
}
