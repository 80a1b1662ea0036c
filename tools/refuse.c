/* Refuses memory to the program that it is loaded into before all others (LD_PRELOAD), for refused_growths.sh.
 *
 * A growth is a call that asks for memory: malloc, calloc, realloc, aligned_alloc or posix_memalign. They are counted from 1 on, in
 * all threads together. The growth numbered REFUSE_AT is refused, and where REFUSE_REST is set each that comes after it, too. A
 * refusal writes a line to the file descriptor 9, if that is open, so that whoever started the program knows of it.
 */
#define _GNU_SOURCE
#include <dlfcn.h>
#include <errno.h>
#include <stdatomic.h>
#include <stdint.h>
#include <stdlib.h>
#include <string.h>
#include <unistd.h>

enum { TOLD = 9 };

static void *(*next_malloc)(size_t);
static void *(*next_realloc)(void *, size_t);
static void *(*next_aligned)(size_t, size_t);
static long first;
static int rest;
static atomic_long grown;

/* Reads what is to be refused, before main or at the first growth. */
__attribute__((constructor)) static void begin(void)
{
    const char *number = getenv("REFUSE_AT");
    if (next_malloc)
        return;
    *(void **)&next_realloc = dlsym(RTLD_NEXT, "realloc");
    *(void **)&next_aligned = dlsym(RTLD_NEXT, "aligned_alloc");
    *(void **)&next_malloc = dlsym(RTLD_NEXT, "malloc");
    first = number ? atol(number) : 0;
    rest = getenv("REFUSE_REST") != NULL;
}

/* Counts a growth, and tells whether it is refused. */
static int refused(void)
{
    long number;
    if (!next_malloc)
        begin();
    number = atomic_fetch_add(&grown, 1) + 1;
    if (first < 1 || number < first || (number > first && !rest))
        return 0;
    if (write(TOLD, "refused\n", 8) < 0) {
        /* Nobody listens. */
    }
    errno = ENOMEM;
    return 1;
}

static void *taken(size_t size)
{
    return refused() ? NULL : next_malloc(size);
}

void *malloc(size_t size)
{
    return taken(size);
}

void *calloc(size_t count, size_t size)
{
    void *made = size && count > SIZE_MAX / size ? NULL : taken(count * size);
    if (made)
        memset(made, 0, count * size);
    return made;
}

void *realloc(void *old, size_t size)
{
    return refused() ? NULL : next_realloc(old, size);
}

void *aligned_alloc(size_t alignment, size_t size)
{
    return refused() ? NULL : next_aligned(alignment, size);
}

int posix_memalign(void **made, size_t alignment, size_t size)
{
    if (refused())
        return ENOMEM;
    *made = next_aligned(alignment, size);
    return *made ? 0 : ENOMEM;
}
