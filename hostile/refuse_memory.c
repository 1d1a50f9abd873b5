/* Loaded before the C library of a program: counts its requests for memory, and refuses the one of the number in REFUSE. It writes
   their number into the file of the descriptor in COUNT. */
#define _GNU_SOURCE
#include <dlfcn.h>
#include <errno.h>
#include <stdio.h>
#include <stdlib.h>
#include <string.h>
#include <unistd.h>

static void *(*next_malloc)(size_t);
static void *(*next_calloc)(size_t, size_t);
static void *(*next_realloc)(void *, size_t);
static void *(*next_aligned)(size_t, size_t);
static int (*next_posix)(void **, size_t, size_t);
static unsigned long calls, refused;
static int counter = -1, ready;
static char early[65536];
static size_t early_used;

__attribute__((constructor)) static void start(void)
{
    const char *text = getenv("REFUSE"), *where = getenv("COUNT");

    next_malloc = dlsym(RTLD_NEXT, "malloc");
    next_calloc = dlsym(RTLD_NEXT, "calloc");
    next_realloc = dlsym(RTLD_NEXT, "realloc");
    next_aligned = dlsym(RTLD_NEXT, "aligned_alloc");
    next_posix = dlsym(RTLD_NEXT, "posix_memalign");
    refused = text ? strtoul(text, NULL, 10) : 0;
    counter = where ? atoi(where) : -1;
    ready = 1;
}

/* Counts a request, and tells whether it is refused. The count is written at each, since a program may end without a word to its
   libraries; threads may ask side by side. */
static int refuses(void)
{
    char line[32];
    unsigned long call;

    if (!ready)
        return 0;
    call = __atomic_add_fetch(&calls, 1, __ATOMIC_SEQ_CST);
    if (counter >= 0 && pwrite(counter, line, snprintf(line, sizeof line, "%020lu\n", call), 0) < 0)
        _exit(99);
    return call == refused && (errno = ENOMEM);
}

/* What the loader asks for before the library is ready. */
static void *before(size_t size)
{
    size = (size + 15) & ~(size_t)15;
    if (early_used + size > sizeof early)
        return NULL;
    early_used += size;
    return early + early_used - size;
}

static int is_early(const void *block)
{
    return (const char *)block >= early && (const char *)block < early + sizeof early;
}

void *malloc(size_t size)
{
    return !ready ? before(size) : refuses() ? NULL : next_malloc(size);
}

void *calloc(size_t count, size_t size)
{
    return !ready ? before(count * size) : refuses() ? NULL : next_calloc(count, size);
}

void *realloc(void *block, size_t size)
{
    void *moved;

    if (!ready || is_early(block)) {
        moved = malloc(size);
        if (moved && block)
            memcpy(moved, block, size);
        return moved;
    }
    return refuses() ? NULL : next_realloc(block, size);
}

void *aligned_alloc(size_t boundary, size_t size)
{
    return refuses() ? NULL : next_aligned(boundary, size);
}

int posix_memalign(void **block, size_t boundary, size_t size)
{
    return refuses() ? ENOMEM : next_posix(block, boundary, size);
}

void free(void *block)
{
    static void (*next_free)(void *);

    if (!next_free)
        next_free = dlsym(RTLD_NEXT, "free");
    if (block && !is_early(block))
        next_free(block);
}
