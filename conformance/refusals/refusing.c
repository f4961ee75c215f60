// Refuses one growth of memory: the one whose number, counted from 1, the environment names in REFUSED_GROWTH. A byte that is written to the
// descriptor that it names in REFUSED_TOLD says that there was such a growth. It is loaded before the C library, whose functions it calls.
#include <errno.h>
#include <stdlib.h>
#include <unistd.h>

extern void *__libc_malloc(size_t size);
extern void *__libc_calloc(size_t count, size_t size);
extern void *__libc_realloc(void *old, size_t size);
extern void *__libc_memalign(size_t alignment, size_t size);

static long left = -1;

static long number(const char *name)
{
    const char *text = getenv(name);
    return text ? atol(text) : -1;
}

static int is_refused(void)
{
    if (left < 0)
        left = number("REFUSED_GROWTH");
    if (left <= 0 || --left > 0)
        return 0;
    int told = number("REFUSED_TOLD");
    if (told >= 0 && write(told, "r", 1) < 0)
        _exit(99);
    errno = ENOMEM;
    return 1;
}

void *malloc(size_t size)
{
    return is_refused() ? NULL : __libc_malloc(size);
}

void *calloc(size_t count, size_t size)
{
    return is_refused() ? NULL : __libc_calloc(count, size);
}

void *realloc(void *old, size_t size)
{
    return size && is_refused() ? NULL : __libc_realloc(old, size);
}

void *aligned_alloc(size_t alignment, size_t size)
{
    return is_refused() ? NULL : __libc_memalign(alignment, size);
}

int posix_memalign(void **place, size_t alignment, size_t size)
{
    if (is_refused())
        return ENOMEM;
    *place = __libc_memalign(alignment, size);
    return *place ? 0 : ENOMEM;
}
