/* A gateway: many users between TUN devices, judged and counted by several threads, with a PCRF over Gx.
 *     gateway [-b] [-m METRICS] PROFILE.toml PEERS.conf WORKERS NETWORK_DEVICE USER_DEVICE.. < LINES > LOG
 * PROFILE is every session's, without its address; PEERS is freeDiameter's configuration. It makes the devices, says
 * "ready", and takes lines: `open ADDRESS IMSI DEVICE`, with 1 for the first device of users, and `leave ADDRESS`. At
 * their end, at SIGTERM and at SIGINT all users leave, and it ends once the PCRF has heard of their usage. */
#include "gateway.h"
#include <signal.h>
#include <unistd.h>

struct settings settings;

_Noreturn void fail(const char *what, int number) {
    fprintf(stderr, "gateway: %s: %d\n", what, number);
    exit(1);
}

void *room(size_t size) {
    void *at = aligned_alloc(64, (size + 63) / 64 * 64); /* no two threads share a line of the cache */
    if (!at) fail("memory", 0);
    return memset(at, 0, size);
}

/* Reads the words, and returns freeDiameter's configuration. */
static const char *read_words(int count, char **words) {
    for (int word; (word = getopt(count, words, "+bm:")) != -1;) {
        if (word == 'b') settings.is_bare = 1;
        if (word == 'm') settings.metrics = optarg;
    }
    words += optind;
    settings.devices = count - optind - 3;
    if (settings.devices < 2 || settings.devices > MOST_DEVICES) fail("there are too few or too many words", count);
    settings.workers = atoi(words[2]);
    if (settings.workers < 1 || settings.workers > MOST_WORKERS) fail("1 to 16 workers", settings.workers);
    memcpy(settings.device_names, words + 3, sizeof *words * (size_t)settings.devices);
    FILE *file = fopen(words[0], "rb");
    if (!file || !fread(settings.profile, 1, sizeof settings.profile - 1, file)) fail(words[0], 0);
    fclose(file);
    return words[1];
}

static void *take_lines(void *nothing) {
    event came = {.kind = LINE_CAME};
    while (fgets(came.line, sizeof came.line, stdin)) post(came);
    kill(getpid(), SIGTERM);
    return nothing;
}

int main(int count, char **words) {
    sigset_t signals;
    pthread_t lines, dialogues;
    int number;
    const char *peers = read_words(count, words);
    sigemptyset(&signals);
    sigaddset(&signals, SIGTERM);
    sigaddset(&signals, SIGINT);
    pthread_sigmask(SIG_BLOCK, &signals, NULL);
    setvbuf(stdout, NULL, _IOLBF, 0);
    gx_start(peers);
    start_workers();
    puts("ready");
    if (pthread_create(&lines, NULL, take_lines, NULL) || pthread_create(&dialogues, NULL, run_dialogues, NULL))
        fail("a thread", 0);
    sigwait(&signals, &number);
    post((event){.kind = ALL_LEAVE});
    pthread_join(dialogues, NULL);
    gx_stop();
    return 0;
}
