/* WORKERS threads take packets of one session and flush them, while rules come and go by COMMANDS. Compares what the
 * session counts with what the verdicts of the workers add up to.
 *     threads PROFILE.toml WORKERS PACKETS COMMANDS
 * With -DWITHOUT_LOCK nothing orders the calls on the session: .ci/races looks whether that is seen. */
#include "pcef.h"
#include <pthread.h>
#include <stdatomic.h>
#include <stdio.h>
#include <stdlib.h>
#include <string.h>
#include <time.h>

enum { BATCH = 32, OCTETS = 28, PORTS = 20, MOST_WORKERS = 16 };

static pthread_mutex_t session_lock = PTHREAD_MUTEX_INITIALIZER;
static pcef_session *session;
static _Atomic size_t newest; /* a hint: the number of the newest generation */
static long packets_each;

static void lock(void) {
#ifndef WITHOUT_LOCK
    pthread_mutex_lock(&session_lock);
#endif
}

static void unlock(void) {
#ifndef WITHOUT_LOCK
    pthread_mutex_unlock(&session_lock);
#endif
}

typedef struct {
    pthread_t thread;
    pcef_worker *worker;
    unsigned seed;
    size_t held;                /* the number of the generation that it holds */
    uint64_t passed, counted;   /* by its verdicts: packets that pass, and octets that count for the key */
    uint64_t refreshes, faults; /* what must not be */
} thread_worker;

static void *room(size_t size) {
    /* No two workers share a line of the cache. */
    void *at = aligned_alloc(64, (size + 63) / 64 * 64);
    if (!at) exit(3);
    return at;
}

/* Packets from ports that lie scattered. */
static void make_packets(thread_worker *me, uint8_t octets[BATCH][OCTETS], pcef_packet packets[BATCH]) {
    static const uint8_t HEAD[OCTETS] = {0x45, 0, 0, OCTETS, 0, 0, 0, 0, 64, 17, 0, 0, 198, 51,
                                         100,  7, 10, 0, 0, 2, 0, 0, 0x13, 0x88, 0, 8, 0, 0};
    for (int i = 0; i < BATCH; i++) {
        me->seed = me->seed * 1103515245u + 12345u;
        unsigned port = 1000 + (me->seed >> 16) % PORTS;
        memcpy(octets[i], HEAD, OCTETS);
        octets[i][20] = (uint8_t)(port >> 8);
        octets[i][21] = (uint8_t)port;
        packets[i] = (pcef_packet){octets[i], OCTETS, OCTETS, 0};
    }
}

static void refresh(thread_worker *me) {
    lock();
    uint64_t held = pcef_refresh(session, me->worker);
    unlock();
    if (pcef_is_refused(held)) me->faults++;
    me->held = held;
    me->refreshes++;
}

static void *work(void *context) {
    thread_worker *me = context;
    uint8_t octets[BATCH][OCTETS];
    pcef_packet packets[BATCH];
    pcef_verdict verdicts[BATCH];
    for (long n = 0; n < packets_each; n += BATCH) {
        if (atomic_load(&newest) != me->held) refresh(me);
        make_packets(me, octets, packets);
        if (pcef_take(me->worker, packets, BATCH, verdicts, BATCH) != BATCH) me->faults++;
        for (int i = 0; i < BATCH; i++) {
            if (verdicts[i].generation != me->held) me->faults++;
            if (verdicts[i].status != PCEF_PASSED) continue;
            me->passed++;
            if (verdicts[i].slots & 1) me->counted += OCTETS;
        }
        lock();
        if (pcef_is_refused(pcef_flush(session, me->worker))) me->faults++;
        unlock();
    }
    lock();
    if (pcef_is_refused(pcef_finish(session, me->worker))) me->faults++;
    unlock();
    return NULL;
}

/* Does a line of a script, under the lock: whether it is accepted. */
static int accepted(const char *line) {
    static uint8_t answer[65536];
    lock();
    size_t length = pcef_line(session, (const uint8_t *)line, strlen(line), answer, sizeof answer - 1);
    answer[length < sizeof answer ? length : 0] = 0;
    pcef_forget(session);
    atomic_store(&newest, pcef_generation(session));
    unlock();
    return strstr((char *)answer, "\"ok\":true") != NULL;
}

/* Installs two rules and removes one of them, in turn. Returns how many commands are refused. */
static int command_all(int commands) {
    const struct timespec pause = {0, 100000};
    int refused = 0;
    for (int command = 0; command < commands; command++) {
        char line[512];
        int rule = command * 7 % PORTS;
        if (command % 3 == 2)
            snprintf(line, sizeof line, "{\"do\":\"remove\",\"name\":\"r%d\"}", (command - 1) * 7 % PORTS);
        else
            snprintf(line, sizeof line,
                     "{\"do\":\"install\",\"rule\":{\"name\":\"r%d\",\"precedence\":%d,"
                     "\"filters\":[{\"text\":\"permit out 17 from any %d to assigned\"}],\"qci\":9,"
                     "\"arp\":{\"level\":8,\"capability\":false,\"vulnerability\":true},\"gate\":\"ENABLED\","
                     "\"key\":\"k\"}}",
                     rule, rule + 1, 1000 + rule);
        refused += !accepted(line);
        nanosleep(&pause, NULL); /* so that the threads refresh again and again */
    }
    return refused;
}

static int open_session(const char *path) {
    static uint8_t profile[65536];
    FILE *file = fopen(path, "rb");
    if (!file) return 0;
    size_t length = fread(profile, 1, sizeof profile, file);
    fclose(file);
    session = room(pcef_size());
    pcef_room(session);
    return pcef_open(session, profile, length) == PCEF_OK;
}

int main(int argc, char **argv) {
    static thread_worker all[MOST_WORKERS];
    int count = argc == 5 ? atoi(argv[2]) : 0;
    if (count < 1 || count > MOST_WORKERS || !open_session(argv[1])) return 2;
    packets_each = atol(argv[3]);
    if (!accepted("{\"do\":\"monitor\",\"key\":\"k\",\"grant\":100000}")) return 1;
    for (int i = 0; i < count; i++) {
        all[i].worker = room(pcef_worker_size());
        all[i].seed = (unsigned)i + 1;
        all[i].held = pcef_generation(session);
        pcef_worker_room(all[i].worker);
        if (pcef_attach(session, all[i].worker) != i) return 1;
    }
    for (int i = 0; i < count; i++)
        if (pthread_create(&all[i].thread, NULL, work, &all[i])) return 3;
    int refused = command_all(atoi(argv[4]));
    thread_worker sum = {0};
    for (int i = 0; i < count; i++) {
        pthread_join(all[i].thread, NULL);
        sum.passed += all[i].passed, sum.counted += all[i].counted;
        sum.refreshes += all[i].refreshes, sum.faults += all[i].faults;
        free(all[i].worker);
    }
    uint64_t counted = pcef_reported(session, 0) + pcef_unreported(session, 0);
    printf("%d threads, %s commands (%d refused), %lu refreshes: %lu packets pass, the session counts %lu octets, the "
           "verdicts %lu; faults: %lu\n",
           count, argv[4], refused, sum.refreshes, sum.passed, counted, sum.counted, sum.faults);
    pcef_close(session);
    free(session);
    return counted != sum.counted || sum.faults || !sum.passed;
}
