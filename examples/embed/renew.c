/* A session goes on in new ones: packets over a profile of 10,000 rows and 40 commands, renewed whenever one of both is
 * nearly used up, beside one session that has room for all. Each grant is reached at the same packet, and of each key
 * the reports of all sessions have every octet. Then each reason why a session isn't renewed. Prints what it looked at.
 *     renew PACKETS */
#include "pcef.h"
#include <stdio.h>
#include <stdlib.h>
#include <string.h>

enum { BATCH = 32, ROOM = 65536, MOST_REPORTS = 100000, KEYS = 2 };

#define RULE(name, precedence, filter, key)                                                                            \
    "{\"do\":\"install\",\"rule\":{\"name\":\"" name "\",\"precedence\":" precedence ",\"filters\":[{\"text\":\"" filter \
    "\"}],\"qci\":9,\"arp\":{\"level\":8,\"capability\":false,\"vulnerability\":true},\"gate\":\"ENABLED\"" key "}}"

static const char SUBSCRIBE[] = "{\"do\":\"triggers\",\"events\":[\"USAGE_REPORT\"]}";
static const char WEB[] = RULE("web", "100", "permit out 17 from any 53 to assigned", ",\"key\":\"vid\"");
static const char REST[] = RULE("rest", "200", "permit out ip from any to assigned", "");
static const char REMOVE_REST[] = "{\"do\":\"remove\",\"name\":\"rest\"}";
static const char *const NAMES[KEYS] = {"vid", "all"};
static const char *const MONITORS[KEYS] = {
    "{\"do\":\"monitor\",\"key\":\"vid\",\"grant\":300000}",
    "{\"do\":\"monitor\",\"key\":\"all\",\"grant\":500000,\"level\":\"session\"}",
};

static int faults;

static void check(int holds, const char *what) {
    printf("%s: %s\n", holds ? "so" : "NOT SO", what);
    faults += !holds;
}

static void *room(size_t size) {
    void *at = aligned_alloc(16, (size + 15) / 16 * 16);
    if (!at) exit(3);
    return at;
}

/* ---- A session with a worker, and what its reports say */

typedef struct {
    pcef_session *session;
    pcef_worker *worker;
    uint64_t next;                              /* the number of the next report that wasn't read */
    uint64_t reported[KEYS];                    /* by all its sessions so far */
    size_t reached[KEYS], places[KEYS][MOST_REPORTS]; /* at which packets the grant was reached */
    size_t renewals, by_commands;
} gateway;

static char text[ROOM];

static void profile(pcef_session *session, unsigned rows, unsigned commands) {
    int length = snprintf(text, sizeof text,
                          "ue = \"10.0.0.2\"\nrows = %u\ncommands = %u\n[default]\nqci = 9\nlevel = 8\n"
                          "capability = false\nvulnerability = true\n[capacity]\nup = 1000000\ndown = 1000000\n",
                          rows, commands);
    if (pcef_open(session, (const uint8_t *)text, (size_t)length) != PCEF_OK) exit(4);
}

/* Does a line. The answer stands in `text`. */
static int accepts(pcef_session *session, const char *line) {
    size_t length = pcef_line(session, (const uint8_t *)line, strlen(line), (uint8_t *)text, sizeof text - 1);
    if (length >= sizeof text) exit(4);
    text[length] = 0;
    return strstr(text, "\"ok\":true") != NULL;
}

/* Renews the session. The answer stands in `text`. */
static int renews(pcef_session *session) {
    size_t length = pcef_renew(session, (uint8_t *)text, sizeof text - 1);
    if (length >= sizeof text) exit(4);
    text[length] = 0;
    return strstr(text, "\"ok\":true") != NULL;
}

/* Adds the octets of the reports in `text`, and says which keys reached their grants, by a bit each. */
static unsigned add_reports(gateway *g, size_t packet) {
    unsigned reached = 0;
    for (const char *at = text; (at = strstr(at, "{\"cause\":\"")) != NULL; at++) {
        const char *key = strstr(at, "\"key\":\""), *octets = strstr(at, "\"octets\":");
        for (int n = 0; key && octets && n < KEYS; n++) {
            if (strncmp(key + 7, NAMES[n], 3) != 0) continue;
            g->reported[n] += strtoull(octets + 9, NULL, 10);
            if (strncmp(at + 10, "Threshold", 9) != 0) continue;
            if (g->reached[n] < MOST_REPORTS) g->places[n][g->reached[n]] = packet;
            g->reached[n]++, reached |= 1u << n;
        }
    }
    return reached;
}

/* Reads the reports that weren't read, and forgets them. A key that reached its grant gets the next one. */
static void read_reports(gateway *g, size_t packet) {
    size_t length = pcef_reports(g->session, g->next, (uint8_t *)text, sizeof text - 1);
    if (length >= sizeof text) exit(4);
    text[length] = 0;
    g->next = pcef_forget(g->session);
    unsigned reached = add_reports(g, packet);
    for (int n = 0; n < KEYS; n++)
        if (reached >> n & 1 && !accepts(g->session, MONITORS[n])) exit(4);
}

static gateway *begin(unsigned rows, unsigned commands) {
    gateway *g = calloc(1, sizeof *g);
    if (!g) exit(3);
    g->session = room(pcef_size()), g->worker = room(pcef_worker_size());
    pcef_room(g->session);
    pcef_worker_room(g->worker);
    profile(g->session, rows, commands);
    if (!accepts(g->session, SUBSCRIBE) || !accepts(g->session, WEB) || !accepts(g->session, REST)) exit(4);
    for (int n = 0; n < KEYS; n++)
        if (!accepts(g->session, MONITORS[n])) exit(4);
    if (pcef_attach(g->session, g->worker) != 0) exit(4);
    return g;
}

static void end(gateway *g) {
    pcef_close(g->session);
    pcef_drop_worker(g->worker);
    free(g->session);
    free(g->worker);
    free(g);
}

/* The worker leaves, the session goes on in a new one, and the worker comes again: to a session whose number is the next
 * one. What the last flush reported was read before. */
static void renew(gateway *g, size_t packet) {
    if (pcef_is_refused(pcef_finish(g->session, g->worker))) exit(4);
    read_reports(g, packet);
    if (!renews(g->session)) exit(4);
    add_reports(g, packet);
    g->next = 0, g->renewals++;
    if (pcef_attach(g->session, g->worker) != 0) exit(4);
}

/* ---- Packets */

/* The nth packet: 28 to 1,500 octets, of which 28 are at hand; every other one is of the web. */
static pcef_packet packet_of(size_t n, uint8_t octets[28]) {
    size_t whole = 28 + n * 37 % 1473;
    const uint8_t header[28] = {0x45, 0, (uint8_t)(whole >> 8), (uint8_t)whole, 0, 0, 0, 0, 64, 17, 0, 0, 198, 51, 100, 7,
                                10, 0, 0, 2, 0, n % 2 ? 53 : 54, 0x13, 0x88, (uint8_t)((whole - 20) >> 8),
                                (uint8_t)(whole - 20), 0, 0};
    memcpy(octets, header, sizeof header);
    return (pcef_packet){octets, 28, whole, 0};
}

static void hand_over(gateway *g, const pcef_packet packets[BATCH], size_t first) {
    pcef_verdict verdicts[BATCH];
    if (pcef_generation(g->session) != SIZE_MAX) pcef_refresh(g->session, g->worker);
    if (pcef_take(g->worker, packets, BATCH, verdicts, BATCH) != BATCH) exit(4);
    if (pcef_is_refused(pcef_flush(g->session, g->worker))) exit(4);
    read_reports(g, first + BATCH);
}

/* A rule goes and comes again, which takes two commands. */
static void change_rules(pcef_session *session) {
    if (!accepts(session, REMOVE_REST) || !accepts(session, REST)) exit(4);
}

/* The octets of a key that its sessions counted: those of all reports, and those that weren't reported yet. */
static uint64_t counted(const gateway *g, int key) {
    uint64_t all = g->reported[key];
    for (uint8_t slot = 0; slot < 8; slot++) {
        char name[16];
        snprintf(name, sizeof name, "{\"key\":\"%s\"", NAMES[key]);
        uint64_t more = pcef_unreported(g->session, slot);
        if (more >= PCEF_NO_KEY) break;
        accepts(g->session, "{\"do\":\"show\"}");
        const char *at = strstr(text, name), *keys = strstr(text, "\"keys\":[");
        size_t place = 0;
        for (const char *other = keys; other && other < at; other = strstr(other + 1, "{\"key\":")) place++;
        if (at && place == slot + 1u) all += more;
    }
    return all;
}

static void go_on(size_t packets) {
    gateway *small = begin(10000, 40), *large = begin(4000000, 100000);
    uint64_t due[KEYS] = {0, 0};
    for (size_t n = 0; n + BATCH <= packets; n += BATCH) {
        uint8_t octets[BATCH][28];
        pcef_packet batch[BATCH];
        for (size_t i = 0; i < BATCH; i++) {
            batch[i] = packet_of(n + i, octets[i]);
            due[0] += (n + i) % 2 ? batch[i].whole : 0, due[1] += batch[i].whole;
        }
        int few_rows = pcef_rows_left(small->session) < BATCH, few_commands = pcef_commands_left(small->session) < 6;
        if (few_rows || few_commands) renew(small, n), small->by_commands += !few_rows;
        hand_over(small, batch, n);
        hand_over(large, batch, n);
        if (n / BATCH % 200 == 199) change_rules(small->session), change_rules(large->session);
    }
    printf("so: %zu packets, %zu renewals, %zu of them for want of commands\n", packets, small->renewals, small->by_commands);
    check(packets < 20000 || (small->by_commands > 0 && small->by_commands < small->renewals),
          "some renewals were for want of rows, and some for want of commands");
    for (int key = 0; key < KEYS; key++) {
        check(small->reached[key] == large->reached[key] && small->reached[key] > 0 &&
                  !memcmp(small->places[key], large->places[key], sizeof small->places[key]),
              "each grant is reached at the same packet as in one session");
        check(counted(small, key) == due[key] && counted(large, key) == due[key],
              "the reports of all sessions have every octet");
    }
    check(pcef_number(small->session, 100) == small->renewals + 1, "each new session has the next number");
    end(small);
    end(large);
}

/* ---- One renewal after the other */

static int is_text(const char *due) { return strcmp(text, due) == 0; }

static pcef_packet one_packet(void) {
    static uint8_t octets[28];
    return packet_of(1, octets);
}

static void answers(void) {
    gateway *g = begin(1000, 6);
    pcef_packet packet = one_packet();
    pcef_verdict verdict;
    check(!renews(g->session) && is_text("{\"count\":1,\"name\":\"WorkersAttached\",\"refused\":10}"),
          "a session with a worker isn't renewed");
    check(pcef_take(g->worker, &packet, 1, &verdict, 1) == 1 && !pcef_is_refused(pcef_finish(g->session, g->worker)),
          "  and the worker is still its own");
    check(renews(g->session) &&
              is_text("{\"bearers\":[],\"ok\":true,\"reports\":[{\"cause\":\"Terminated\",\"key\":\"vid\",\"number\":0,"
                      "\"octets\":65},{\"cause\":\"Terminated\",\"key\":\"all\",\"number\":1,\"octets\":65}]}"),
          "the answer has what wasn't reported");
    check(pcef_rows_left(g->session) == 1000 && pcef_commands_left(g->session) == 1 && pcef_workers_left(g->session) == 16,
          "the new session has all rows and workers, and the commands that the renewal left");
    memset(text, '.', sizeof text);
    size_t length = pcef_renew(g->session, (uint8_t *)text, 8);
    check(length > 8 && !memcmp(text, "{\"bearer.", 9), "as much of an answer is written as fits");
    check(accepts(g->session, "{\"do\":\"notice\",\"event\":\"RAT_CHANGE\",\"value\":\"eutran\"}") == 1 &&
              pcef_commands_left(g->session) == 0 && renews(g->session) && pcef_commands_left(g->session) == 1,
          "a session without a command left is renewed");
    check(!accepts(g->session, "{\"do\":\"renew\"}") && is_text("{\"fault\":5,\"name\":\"UnknownDo\"}"),
          "no line of a script renews it");
    check(accepts(g->session, "{\"do\":\"terminate\"}") && !renews(g->session) &&
              is_text("{\"name\":\"Terminated\",\"refused\":1}"), "a session that was terminated isn't renewed");
    pcef_close(g->session);
    check(pcef_renew(g->session, (uint8_t *)text, sizeof text) == PCEF_NO_SESSION, "without a session there is none to renew");
    profile(g->session, 1000, 2);
    check(accepts(g->session, REST) && accepts(g->session, MONITORS[0]) && !renews(g->session) &&
              is_text("{\"name\":\"CommandsFull\",\"refused\":3}"), "a renewal that takes all commands is refused");
    end(g);
}

/* What a flush reported and nobody read stands in the answer, before the reports of the end. */
static void unread_reports(void) {
    gateway *g = begin(1000, 20);
    pcef_packet packet = one_packet();
    pcef_verdict verdict;
    if (!accepts(g->session, "{\"do\":\"monitor\",\"key\":\"vid\",\"grant\":60}")) exit(4);
    pcef_take(g->worker, &packet, 1, &verdict, 1);
    check(pcef_finish(g->session, g->worker) == 1 && renews(g->session) &&
              is_text("{\"bearers\":[],\"ok\":true,\"reports\":[{\"cause\":\"Threshold\",\"key\":\"vid\",\"number\":0,"
                      "\"octets\":65},{\"cause\":\"Terminated\",\"key\":\"vid\",\"number\":1,\"octets\":0},"
                      "{\"cause\":\"Terminated\",\"key\":\"all\",\"number\":2,\"octets\":65}]}"),
          "reports that weren't forgotten stand in the answer");
    end(g);
}

/* A bearer with another number in the new session. */
static void new_numbers(void) {
    gateway *g = begin(1000, 20);
    pcef_bearer_state bearer;
    pcef_finish(g->session, g->worker);
    if (!accepts(g->session, "{\"do\":\"install\",\"rule\":{\"name\":\"a\",\"precedence\":1,\"filters\":[{\"text\":"
                             "\"permit out ip from any to any\"}],\"qci\":8,\"arp\":{\"level\":1,\"capability\":false,"
                             "\"vulnerability\":true},\"gate\":\"ENABLED\"}}") ||
        !accepts(g->session, "{\"do\":\"install\",\"rule\":{\"name\":\"b\",\"precedence\":2,\"filters\":[{\"text\":"
                             "\"permit out ip from any to any\"}],\"qci\":8,\"arp\":{\"level\":2,\"capability\":false,"
                             "\"vulnerability\":true},\"gate\":\"ENABLED\"}}") ||
        !accepts(g->session, "{\"do\":\"remove\",\"name\":\"a\"}")) exit(4);
    check(pcef_bearer(g->session, 7, &bearer) == PCEF_OK && bearer.priority_level == 2, "the rule b is on bearer 7");
    check(renews(g->session) && strstr(text, "\"bearers\":[{\"new\":6,\"old\":7}]") &&
              pcef_bearer(g->session, 7, &bearer) == PCEF_NO_BEARER &&
              pcef_bearer(g->session, 6, &bearer) == PCEF_OK && bearer.priority_level == 2,
          "which is 6 in the new session, and the answer says so");
    end(g);
}

int main(int argc, char **argv) {
    if (argc != 2) return 2;
    go_on(strtoul(argv[1], NULL, 10));
    answers();
    unread_reports();
    new_numbers();
    return faults != 0;
}
