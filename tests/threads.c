/* The threads of a program that is started with this library before all others. Environment variables say what it lacks:

   THREADS    how many threads it may start; each further one is refused
   NO_MEMORY  where it is set, the first thread finds no memory once it has started so many
   LEFT       a file that gets as many octets as threads are left at the end, where the first one waits ten seconds at
              most for the others to end */
#include <dirent.h>
#include <dlfcn.h>
#include <errno.h>
#include <fcntl.h>
#include <limits.h>
#include <pthread.h>
#include <stdatomic.h>
#include <stdlib.h>
#include <sys/syscall.h>
#include <unistd.h>

extern void *__libc_malloc(size_t);
extern void *__libc_calloc(size_t, size_t);
extern void *__libc_realloc(void *, size_t);
extern void *__libc_memalign(size_t, size_t);

static atomic_long started;
static long most = LONG_MAX;
static int refuses_memory;

__attribute__((constructor)) static void read_numbers(void)
{
    const char *number = getenv("THREADS");
    most = number ? atol(number) : LONG_MAX;
    refuses_memory = getenv("NO_MEMORY") != NULL;
}

static int threads_left(void)
{
    DIR *tasks = opendir("/proc/self/task");
    int left = -2; /* the folder itself, and the one above */
    while (tasks && readdir(tasks))
        left++;
    if (tasks)
        closedir(tasks);
    return left;
}

static void note_left(void)
{
    const char *name = getenv("LEFT");
    if (!name)
        return;
    refuses_memory = 0;
    for (int turn = 0; turn < 1000 && threads_left() > 1; turn++)
        usleep(10000);
    int file = open(name, O_WRONLY | O_CREAT | O_TRUNC, 0600);
    for (int left = threads_left(); left > 0; left--)
        if (write(file, "t", 1) != 1)
            break;
    close(file);
}

void _exit(int status)
{
    note_left();
    syscall(SYS_exit_group, status);
    __builtin_unreachable();
}

int pthread_create(pthread_t *thread, const pthread_attr_t *attributes, void *(*run)(void *), void *given)
{
    static int (*create)(pthread_t *, const pthread_attr_t *, void *(*)(void *), void *);
    if (!create)
        *(void **)&create = dlsym(RTLD_NEXT, "pthread_create");
    if (atomic_load(&started) >= most) {
        usleep(100000); /* Those that were started come to wait. */
        return EAGAIN;
    }
    int failed = create(thread, attributes, run, given);
    if (!failed)
        atomic_fetch_add(&started, 1);
    return failed;
}

static int is_refused(void)
{
    if (!refuses_memory || atomic_load(&started) < most || syscall(SYS_gettid) != getpid())
        return 0;
    errno = ENOMEM;
    return 1;
}

void *malloc(size_t size)
{
    return is_refused() ? NULL : __libc_malloc(size);
}

void *calloc(size_t count, size_t size)
{
    return is_refused() ? NULL : __libc_calloc(count, size);
}

void *realloc(void *old, size_t size)
{
    return is_refused() ? NULL : __libc_realloc(old, size);
}

void *aligned_alloc(size_t alignment, size_t size)
{
    return is_refused() ? NULL : __libc_memalign(alignment, size);
}

int posix_memalign(void **out, size_t alignment, size_t size)
{
    void *made = is_refused() ? NULL : __libc_memalign(alignment, size);
    if (!made)
        return ENOMEM;
    *out = made;
    return 0;
}
