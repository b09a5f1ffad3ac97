/* Measures pcef_judge: RULES rules in each of SESSIONS sessions, which judge packets in turn, PACKETS_A_CALL in a call.
 *     measure PROFILE.toml RULES SESSIONS PACKETS_A_CALL CALLS */
#define _POSIX_C_SOURCE 200809L
#include "pcef.h"
#include <stdio.h>
#include <stdlib.h>
#include <string.h>
#include <time.h>

enum { MOST_SESSIONS = 10000, MOST_PACKETS = 256, OCTETS = 28 };

static uint8_t profile[65536], answer[65536];
static uint8_t octets[MOST_PACKETS][OCTETS];
static pcef_packet packets[MOST_PACKETS];
static pcef_verdict verdicts[MOST_PACKETS];
static pcef_session *sessions[MOST_SESSIONS];

static double now(void) {
    struct timespec time;
    clock_gettime(CLOCK_PROCESS_CPUTIME_ID, &time);
    return (double)time.tv_sec * 1e9 + (double)time.tv_nsec;
}

/* A session with this number of rules, each for one port of servers, from 1,000 on. */
static pcef_session *open_session(size_t length, int rules) {
    pcef_session *session = aligned_alloc(16, (pcef_size() + 15) / 16 * 16);
    if (!session) exit(3);
    pcef_room(session);
    if (pcef_open(session, profile, length) != PCEF_OK) exit(1);
    for (int rule = 0; rule < rules; rule++) {
        char line[512];
        snprintf(line, sizeof line,
                 "{\"do\":\"install\",\"rule\":{\"name\":\"r%d\",\"precedence\":%d,"
                 "\"filters\":[{\"text\":\"permit out 17 from any %d to assigned\"}],\"qci\":9,"
                 "\"arp\":{\"level\":8,\"capability\":false,\"vulnerability\":true},\"gate\":\"ENABLED\"}}",
                 rule, rule + 1, 1000 + rule);
        size_t needed = pcef_line(session, (const uint8_t *)line, strlen(line), answer, sizeof answer);
        if (needed > sizeof answer || !strstr((const char *)answer, "\"ok\":true")) exit(1);
        memset(answer, 0, needed);
    }
    return session;
}

int main(int argc, char **argv) {
    FILE *file = argc == 6 ? fopen(argv[1], "rb") : NULL;
    if (!file) {
        fprintf(stderr, "usage: measure PROFILE.toml RULES SESSIONS PACKETS_A_CALL CALLS\n");
        return 2;
    }
    size_t length = fread(profile, 1, sizeof profile, file);
    fclose(file);
    int rules = atoi(argv[2]), count = atoi(argv[3]), batch = atoi(argv[4]);
    long calls = atol(argv[5]), passed = 0;
    if (rules < 1 || rules > 64 || count < 1 || count > MOST_SESSIONS || batch < 1 || batch > MOST_PACKETS) return 2;

    for (int i = 0; i < count; i++) sessions[i] = open_session(length, rules);
    for (int i = 0; i < batch; i++) {
        const uint8_t head[OCTETS] = {0x45, 0, 0, OCTETS, 0, 0, 0, 0, 64, 17, 0, 0, 198, 51,
                                      100,  7, 10, 0, 0, 2, 0, 0, 0x13, 0x88, 0, 8, 0, 0};
        int port = 1000 + i * 37 % rules;
        memcpy(octets[i], head, OCTETS);
        octets[i][20] = (uint8_t)(port >> 8);
        octets[i][21] = (uint8_t)port;
        packets[i] = (pcef_packet){octets[i], OCTETS, OCTETS, 0};
    }
    double start = now();
    for (long call = 0; call < calls; call++) {
        pcef_judge(sessions[call % count], packets, (size_t)batch, verdicts, (size_t)batch);
        passed += verdicts[call % batch].status == PCEF_PASSED;
    }
    double taken = now() - start;
    printf("%d rules, %d sessions, %d packets a call: %.1f ns of processor a packet (%ld of %ld calls passed)\n", rules,
           count, batch, taken / ((double)calls * batch), passed, calls);
    for (int i = 0; i < count; i++) {
        pcef_close(sessions[i]);
        free(sessions[i]);
    }
    return passed != calls;
}
