/* Standard input that is given in parts and fails, and standard output that is taken in parts and fails, for a program
   that is started with this library before all others. Environment variables say how:

   READ_ROOM, WRITE_ROOM    how many octets are given or taken, before each call fails
   READ_STEP, WRITE_STEP    how many of these a call gives or takes at most
   READ_ERROR, WRITE_ERROR  the error of a call that fails; with 0 a write takes nothing
   FAILS_ONCE               where it is set, only the first call fails that finds no room
   CALLS                    a file that gets a letter for each call that fails: r or w */
#include <errno.h>
#include <fcntl.h>
#include <limits.h>
#include <stdlib.h>
#include <sys/syscall.h>
#include <unistd.h>

struct stream {
    long room;
    long step;
    long error;
};

static struct stream input, output;
static int fails_once;

static long number(const char *name, long otherwise)
{
    const char *text = getenv(name);
    return text ? atol(text) : otherwise;
}

__attribute__((constructor)) static void read_numbers(void)
{
    input = (struct stream){number("READ_ROOM", LONG_MAX), number("READ_STEP", LONG_MAX), number("READ_ERROR", EIO)};
    output = (struct stream){number("WRITE_ROOM", LONG_MAX), number("WRITE_STEP", LONG_MAX), number("WRITE_ERROR", EIO)};
    fails_once = getenv("FAILS_ONCE") != NULL;
}

static void note(char call)
{
    const char *name = getenv("CALLS");
    if (!name)
        return;
    long file = syscall(SYS_open, name, O_WRONLY | O_CREAT | O_APPEND, 0600);
    syscall(SYS_write, file, &call, 1);
    syscall(SYS_close, file);
}

/* What a call of `size` octets comes to, where they are given or taken by the system. */
static ssize_t in_parts(struct stream *stream, char call, long kind, int descriptor, void *octets, size_t size)
{
    if (size == 0)
        return syscall(kind, descriptor, octets, size);
    if (stream->room == 0) {
        note(call);
        if (fails_once)
            stream->room = LONG_MAX;
        errno = (int)stream->error;
        return stream->error ? -1 : 0;
    }
    long most = stream->step < stream->room ? stream->step : stream->room;
    ssize_t done = syscall(kind, descriptor, octets, size < (size_t)most ? size : (size_t)most);
    if (done > 0 && stream->room < LONG_MAX)
        stream->room -= done;
    return done;
}

ssize_t read(int descriptor, void *octets, size_t size)
{
    if (descriptor != 0)
        return syscall(SYS_read, descriptor, octets, size);
    return in_parts(&input, 'r', SYS_read, descriptor, octets, size);
}

ssize_t write(int descriptor, const void *octets, size_t size)
{
    if (descriptor != 1)
        return syscall(SYS_write, descriptor, octets, size);
    return in_parts(&output, 'w', SYS_write, descriptor, (void *)octets, size);
}
