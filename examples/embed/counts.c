/* What a gateway asks beside verdicts: the library's version, the octets of a key, what is left of the limits, what a
 * bearer has, and the name of the rule at a place, in the newest generation and in an older one that a worker still
 * holds. Prints what it looked at.
 *     counts PROFILE.toml */
#include "pcef.h"
#include <stdio.h>
#include <stdlib.h>
#include <string.h>

#define RULE(name, precedence, key)                                                                                    \
    "{\"do\":\"install\",\"rule\":{\"name\":\"" name "\",\"precedence\":" precedence ","                               \
    "\"filters\":[{\"text\":\"permit out ip from any to assigned\"}],\"qci\":9,"                                       \
    "\"arp\":{\"level\":8,\"capability\":false,\"vulnerability\":true},\"gate\":\"ENABLED\",\"key\":\"" key "\"}}"

#define CALL(name, may_preempt)                                                                                        \
    "{\"do\":\"install\",\"rule\":{\"name\":\"" name "\",\"precedence\":10,"                                             \
    "\"filters\":[{\"text\":\"permit out 17 from 192.0.2.1 to assigned\"}],\"qci\":1,"                                  \
    "\"arp\":{\"level\":2,\"capability\":" may_preempt ",\"vulnerability\":false},\"gate\":\"ENABLED\","                 \
    "\"gbr\":{\"up\":64000,\"down\":80000}}}"

static const uint8_t PACKET[] = {0x45, 0, 0, 28, 0, 0,   0, 0, 64,   17, 0, 0, 198, 51,
                                 100,  7, 10, 0, 0, 2, 0, 53, 0x13, 0x88, 0, 8, 0,   0};

static uint8_t profile[65536], text[4096];
static int faults;

static void check(int holds, const char *what) {
    printf("%s: %s\n", holds ? "so" : "NOT SO", what);
    faults += !holds;
}

/* Just so many octets, so that valgrind sees where a handle would need more. */
static void *room(size_t size) {
    void *at;
    if (posix_memalign(&at, 16, size)) exit(3);
    return at;
}

static int accepts(pcef_session *session, const char *line) {
    size_t length = pcef_line(session, (const uint8_t *)line, strlen(line), text, sizeof text - 1);
    if (length >= sizeof text) exit(4);
    text[length] = 0;
    return strstr((const char *)text, "\"ok\":true") != NULL;
}

/* Takes so many packets, and returns the last verdict. */
static pcef_verdict take(pcef_worker *worker, int count) {
    pcef_packet packet = {PACKET, sizeof PACKET, sizeof PACKET, 0};
    pcef_verdict verdict = {0};
    while (count--) pcef_take(worker, &packet, 1, &verdict, 1);
    return verdict;
}

static int is_named(size_t length, const char *name) {
    return length == strlen(name) && !memcmp(text, name, length);
}

/* Whether a bearer has just this. */
static int has(pcef_session *session, uint8_t id, pcef_bearer_state due) {
    pcef_bearer_state bearer;
    memset(&bearer, 0xee, sizeof bearer);
    return pcef_bearer(session, id, &bearer) == PCEF_OK && bearer.up == due.up && bearer.down == due.down &&
           bearer.qci == due.qci && bearer.priority_level == due.priority_level &&
           bearer.preemption_capability == due.preemption_capability &&
           bearer.preemption_vulnerability == due.preemption_vulnerability && bearer.rules == due.rules;
}

/* Whether there is no bearer of this id, for this reason, and nothing is written. */
static int lacks(pcef_session *session, uint8_t id, uint8_t reason) {
    pcef_bearer_state bearer, before;
    memset(&before, 0xee, sizeof before);
    memcpy(&bearer, &before, sizeof bearer);
    return pcef_bearer(session, id, &bearer) == reason && !memcmp(&bearer, &before, sizeof bearer);
}

static void without_a_session(pcef_session *session, pcef_worker *worker) {
    check(pcef_version() == PCEF_VERSION, "the library has the version of its header");
    check(pcef_rows_left(session) == UINT64_MAX && pcef_commands_left(session) == UINT64_MAX &&
              pcef_workers_left(session) == UINT64_MAX && lacks(session, 5, PCEF_BEARER_NO_SESSION) &&
              pcef_reported(session, 0) == UINT64_MAX && pcef_unreported(session, 0) == UINT64_MAX &&
              pcef_rule(session, 0, text, sizeof text) == SIZE_MAX &&
              pcef_worker_rule(worker, 0, text, sizeof text) == SIZE_MAX,
          "without a session and a worker each says so");
}

static void usage(pcef_session *session, pcef_worker *worker) {
    uint64_t rows = pcef_rows_left(session), commands = pcef_commands_left(session);
    check(accepts(session, "{\"do\":\"monitor\",\"key\":\"k\",\"grant\":80}") &&
              accepts(session, "{\"do\":\"triggers\",\"events\":[\"USAGE_REPORT\"]}") &&
              accepts(session, RULE("web", "100", "k")) && pcef_commands_left(session) == commands - 3,
          "three commands are three fewer that are left");
    check(pcef_reported(session, 0) == 0 && pcef_unreported(session, 0) == 0 &&
              pcef_reported(session, 1) == PCEF_NO_KEY && pcef_unreported(session, 255) == PCEF_NO_KEY,
          "the key has counted nothing, and no other is named");
    pcef_refresh(session, worker);
    take(worker, 2);
    check(pcef_rows_left(session) == rows && pcef_unreported(session, 0) == 0, "rows that wait don't count");
    pcef_flush(session, worker);
    check(pcef_rows_left(session) == rows - 2 && pcef_unreported(session, 0) == 56, "rows that were handed over do");
    take(worker, 1);
    check(pcef_flush(session, worker) == 1 && pcef_reported(session, 0) == 84 && pcef_unreported(session, 0) == 0,
          "once the grant of 80 octets is reached, all 84 are reported");
}

static void names(pcef_session *session, pcef_worker *worker) {
    pcef_verdict verdict = take(worker, 1);
    check(is_named(pcef_worker_rule(worker, verdict.place, text, sizeof text), "web"), "the place is that of web");
    check(accepts(session, RULE("voice", "50", "k")), "voice goes before it");
    check(is_named(pcef_rule(session, 0, text, sizeof text), "voice") &&
              is_named(pcef_rule(session, 1, text, sizeof text), "web") &&
              pcef_rule(session, 2, text, sizeof text) == PCEF_NO_RULE,
          "the newest generation has voice and web");
    check(is_named(pcef_worker_rule(worker, 0, text, sizeof text), "web") &&
              pcef_worker_rule(worker, 1, text, sizeof text) == PCEF_NO_RULE,
          "the worker still has web alone");
    memset(text, '.', sizeof text);
    check(pcef_rule(session, 0, text, 3) == 5 && !memcmp(text, "voi..", 5), "as much of a name is written as fits");
}

static void bearers(pcef_session *session) {
    pcef_bearer_state two_rules = {.qci = 9, .priority_level = 8, .preemption_vulnerability = 1, .rules = 2};
    check(has(session, 5, two_rules) && lacks(session, 6, PCEF_NO_BEARER), "web and voice are on the default bearer");
    pcef_bearer_state call = {.up = 64000, .down = 80000, .qci = 1, .priority_level = 2, .rules = 1};
    check(accepts(session, CALL("call", "false")) && has(session, 6, call), "a call has a bearer, its QCI, ARP and rates");
    pcef_bearer_state urgent = call;
    urgent.preemption_capability = 1;
    check(accepts(session, CALL("urgent", "true")) && has(session, 7, urgent), "one of another ARP has another bearer");
    pcef_bearer_state calls = call;
    calls.up = 128000, calls.down = 160000, calls.rules = 2;
    check(accepts(session, CALL("second", "false")) && has(session, 6, calls), "a bearer has the sums of its rules' rates");
    check(accepts(session, "{\"do\":\"remove\",\"name\":\"call\"}") && has(session, 6, call) &&
              accepts(session, "{\"do\":\"remove\",\"name\":\"second\"}") && lacks(session, 6, PCEF_NO_BEARER) &&
              has(session, 7, urgent),
          "a bearer ends with its last rule");
    check(has(session, 5, two_rules) && lacks(session, 4, PCEF_NO_BEARER) && lacks(session, 255, PCEF_NO_BEARER),
          "the default bearer stays, and there is none below it");
}

int main(int argc, char **argv) {
    FILE *file = argc == 2 ? fopen(argv[1], "rb") : NULL;
    if (!file) return 2;
    size_t length = fread(profile, 1, sizeof profile, file);
    fclose(file);
    pcef_session *session = room(pcef_size());
    pcef_worker *worker = room(pcef_worker_size());
    pcef_room(session);
    pcef_worker_room(worker);
    without_a_session(session, worker);
    if (pcef_open(session, profile, length) != PCEF_OK || pcef_attach(session, worker) != 0) return 1;
    usage(session, worker);
    names(session, worker);
    bearers(session);
    check(pcef_workers_left(session) == 15, "one worker of sixteen was attached");
    pcef_drop_worker(worker);
    pcef_close(session);
    free(session);
    free(worker);
    return faults != 0;
}
