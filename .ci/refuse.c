/* Refuses one allocation of a program that is started with this library before all others: the one whose number,
   from 1 on, stands in REFUSE. A file named by REFUSED is made when that happens. */
#include <errno.h>
#include <fcntl.h>
#include <stdatomic.h>
#include <stdlib.h>
#include <unistd.h>

extern void *__libc_malloc(size_t);
extern void *__libc_calloc(size_t, size_t);
extern void *__libc_realloc(void *, size_t);
extern void *__libc_memalign(size_t, size_t);

static atomic_long seen;
static long refused;

__attribute__((constructor)) static void read_number(void)
{
    const char *number = getenv("REFUSE");
    refused = number ? atol(number) : 0;
}

static int is_refused(void)
{
    if (refused == 0 || atomic_fetch_add(&seen, 1) + 1 != refused)
        return 0;
    const char *file = getenv("REFUSED");
    if (file)
        close(creat(file, 0600));
    errno = ENOMEM;
    return 1;
}

void *malloc(size_t size)
{
    return is_refused() ? NULL : __libc_malloc(size);
}

void *calloc(size_t count, size_t size)
{
    return is_refused() ? NULL : __libc_calloc(count, size);
}

void *realloc(void *old, size_t size)
{
    return is_refused() ? NULL : __libc_realloc(old, size);
}

void *aligned_alloc(size_t alignment, size_t size)
{
    return is_refused() ? NULL : __libc_memalign(alignment, size);
}

int posix_memalign(void **out, size_t alignment, size_t size)
{
    void *made = is_refused() ? NULL : __libc_memalign(alignment, size);
    if (!made)
        return ENOMEM;
    *out = made;
    return 0;
}
