/* Kills a client of examples/scale_out that is started with this library before all others, by SIGKILL, at the step
   that KILL_AT names, as `wait 5`: its fifth wait for the engine, of which each counts before and behind it; `send 5`:
   before its fifth message to Kafka; `line 5`: when its program has got five lines. With KILL_LATE what was handed to
   other threads is done before. */
#define _GNU_SOURCE
#include <dlfcn.h>
#include <errno.h>
#include <signal.h>
#include <stdio.h>
#include <stdlib.h>
#include <string.h>
#include <unistd.h>

static char kind[8];
static long left;
static int is_late;

__attribute__((constructor)) static void read_step(void)
{
    const char *at = getenv("KILL_AT");
    /* The client's program has the same environment. */
    if (at && strncmp(program_invocation_short_name, "serve", 5) == 0)
        sscanf(at, "%7s %ld", kind, &left);
    is_late = getenv("KILL_LATE") != NULL;
}

static void step(const char *one)
{
    if (left == 0 || strcmp(one, kind) || --left)
        return;
    if (is_late)
        usleep(30000);
    kill(getpid(), SIGKILL);
}

static void *real(const char *name)
{
    return dlsym(RTLD_NEXT, name);
}

ssize_t __getdelim(char **line, size_t *room, int end, FILE *file)
{
    step("line");
    return ((ssize_t (*)(char **, size_t *, int, FILE *))real("__getdelim"))(line, room, end, file);
}

ssize_t getline(char **line, size_t *room, FILE *file)
{
    return __getdelim(line, room, '\n', file);
}

/* It takes any number of words, which are handed on as they came. */
int rd_kafka_producev(void *client, ...)
{
    (void)client;
    step("send");
    __builtin_return(__builtin_apply((void (*)())real("rd_kafka_producev"), __builtin_apply_args(), 256));
}

int rd_kafka_flush(void *client, int patience)
{
    step("wait");
    int fault = ((int (*)(void *, int))real("rd_kafka_flush"))(client, patience);
    step("wait");
    return fault;
}

int rd_kafka_commit(void *client, const void *offsets, int is_async)
{
    step("wait");
    int fault = ((int (*)(void *, const void *, int))real("rd_kafka_commit"))(client, offsets, is_async);
    step("wait");
    return fault;
}

int redisGetReply(void *redis, void **reply)
{
    step("wait");
    int fault = ((int (*)(void *, void **))real("redisGetReply"))(redis, reply);
    step("wait");
    return fault;
}
