/* Measures counting beside judging: RULES rules, PACKETS_A_CALL packets in a call of pcef_take or pcef_judge, which
 * spread over the rules; a flush where 32 rows wait.
 *     measure_take PROFILE.toml take|judge RULES PACKETS_A_CALL CALLS */
#define _POSIX_C_SOURCE 200809L
#include "pcef.h"
#include <stdio.h>
#include <stdlib.h>
#include <string.h>
#include <time.h>

enum { MOST_PACKETS = 256, OCTETS = 28 };

static uint8_t profile[65536], answer[65536];
static uint8_t octets[MOST_PACKETS][OCTETS];
static pcef_packet packets[MOST_PACKETS];
static pcef_verdict verdicts[MOST_PACKETS];

static double now(void) {
    struct timespec time;
    clock_gettime(CLOCK_PROCESS_CPUTIME_ID, &time);
    return (double)time.tv_sec * 1e9 + (double)time.tv_nsec;
}

static void *room(size_t size) {
    void *at = aligned_alloc(16, (size + 15) / 16 * 16);
    if (!at) exit(3);
    return at;
}

static void line(pcef_session *session, const char *text) {
    size_t needed = pcef_line(session, (const uint8_t *)text, strlen(text), answer, sizeof answer - 1);
    if (needed >= sizeof answer) exit(4);
    answer[needed] = 0;
    if (!strstr((const char *)answer, "\"ok\":true") && !strstr(text, "show")) {
        fprintf(stderr, "%s\n%s\n", text, answer);
        exit(1);
    }
}

/* A session with this number of rules, each for one port of servers, from 1,000 on; all count for one key. */
static pcef_session *open_session(size_t length, int rules) {
    pcef_session *session = room(pcef_size());
    pcef_room(session);
    if (pcef_open(session, profile, length) != PCEF_OK) exit(1);
    line(session, "{\"do\":\"monitor\",\"key\":\"k\",\"grant\":1000000000000}");
    for (int rule = 0; rule < rules; rule++) {
        char text[512];
        snprintf(text, sizeof text,
                 "{\"do\":\"install\",\"rule\":{\"name\":\"r%d\",\"precedence\":%d,"
                 "\"filters\":[{\"text\":\"permit out 17 from any %d to assigned\"}],\"qci\":9,"
                 "\"arp\":{\"level\":8,\"capability\":false,\"vulnerability\":true},\"gate\":\"ENABLED\","
                 "\"key\":\"k\"}}",
                 rule, rule + 1, 1000 + rule);
        line(session, text);
    }
    return session;
}

static void make_packets(size_t count, int rules) {
    for (size_t i = 0; i < count; i++) {
        const uint8_t head[OCTETS] = {0x45, 0, 0, OCTETS, 0, 0, 0, 0, 64, 17, 0, 0, 198, 51,
                                      100,  7, 10, 0, 0, 2, 0, 0, 0x13, 0x88, 0, 8, 0, 0};
        unsigned port = 1000 + (unsigned)i * 37 % (unsigned)rules;
        memcpy(octets[i], head, OCTETS);
        octets[i][20] = (uint8_t)(port >> 8);
        octets[i][21] = (uint8_t)port;
        packets[i] = (pcef_packet){octets[i], OCTETS, OCTETS, 0};
    }
}

/* Takes all packets, and flushes where 32 rows wait. */
static void take(pcef_session *session, pcef_worker *worker, size_t count) {
    for (size_t done = 0; done < count;) {
        done += pcef_take(worker, packets + done, count - done, verdicts + done, count - done);
        if (done == count) return;
        if (verdicts[done].status != PCEF_FULL || pcef_is_refused(pcef_flush(session, worker))) exit(1);
    }
}

int main(int argc, char **argv) {
    FILE *file = argc == 6 ? fopen(argv[1], "rb") : NULL;
    if (!file) {
        fprintf(stderr, "usage: measure_take PROFILE.toml take|judge RULES PACKETS_A_CALL CALLS\n");
        return 2;
    }
    size_t length = fread(profile, 1, sizeof profile, file);
    fclose(file);
    int takes = strcmp(argv[2], "take") == 0, rules = atoi(argv[3]);
    size_t batch = strtoul(argv[4], NULL, 10);
    long calls = atol(argv[5]), passed = 0;
    if (rules < 1 || rules > 64 || batch < 1 || batch > MOST_PACKETS) return 2;

    pcef_session *session = open_session(length, rules);
    pcef_worker *worker = room(pcef_worker_size());
    pcef_worker_room(worker);
    if (pcef_attach(session, worker) > 15) return 1;
    make_packets(batch, rules);
    double start = now();
    for (long call = 0; call < calls; call++) {
        if (takes)
            take(session, worker, batch);
        else
            pcef_judge(session, packets, batch, verdicts, batch);
        passed += verdicts[(size_t)call % batch].status == PCEF_PASSED;
    }
    double taken = now() - start;
    if (pcef_is_refused(pcef_finish(session, worker))) return 1;
    char due[64];
    snprintf(due, sizeof due, "\"unreported\":%lu}", takes ? (unsigned long)calls * batch * OCTETS : 0);
    line(session, "{\"do\":\"show\"}");
    printf("%s, %d rules, %zu packets a call: %.1f ns of processor a packet (%ld of %ld calls passed)\n", argv[2],
           rules, batch, taken / ((double)calls * (double)batch), passed, calls);
    int counted = strstr((const char *)answer, due) != NULL;
    if (!counted) fprintf(stderr, "no %s in %s\n", due, answer);
    pcef_close(session);
    free(session);
    free(worker);
    return passed != calls || !counted;
}
