/* What pcef_take answers to vectors of packets, and what is left of each call of a worker, and of lines of many kinds,
 * and of a renewal, where memory is refused: each allocation in turn, until the call is done. Built with
 * -Wl,--wrap=malloc,--wrap=realloc. Prints what it looked at.
 *     refusals PROFILE.toml */
#include "pcef.h"
#include <stdio.h>
#include <stdlib.h>
#include <string.h>

enum { OCTETS = 28, ROOM = 16384 };

static const char KEY[] = "{\"do\":\"monitor\",\"key\":\"k\",\"grant\":100000}";
static const char RULE[] =
    "{\"do\":\"install\",\"rule\":{\"name\":\"web\",\"precedence\":100,"
    "\"filters\":[{\"text\":\"permit out 17 from any 53 to assigned\"}],\"qci\":9,"
    "\"arp\":{\"level\":8,\"capability\":false,\"vulnerability\":true},\"gate\":\"ENABLED\",\"key\":\"k\"}}";

static const uint8_t PACKET[OCTETS] = {0x45, 0, 0, 28, 0, 0,   0, 0, 64,   17, 0, 0, 198, 51,
                                       100,  7, 10, 0, 0, 2, 0, 53, 0x13, 0x88, 0, 8, 0,   0};
static const uint8_t NO_VERSION[OCTETS] = {0x55};

static uint8_t profile[65536];
static size_t profile_length;
static pcef_session *session;
static pcef_worker *worker;
static int faults;

/* ---- Memory that is refused */

static long left = -1; /* how many allocations are granted before one is refused; below 0 all are granted */

void *__real_malloc(size_t size);
void *__real_realloc(void *at, size_t size);

static int refuses(void) { return left >= 0 && left-- == 0; }

void *__wrap_malloc(size_t size);
void *__wrap_malloc(size_t size) { return refuses() ? NULL : __real_malloc(size); }

void *__wrap_realloc(void *at, size_t size);
void *__wrap_realloc(void *at, size_t size) { return refuses() ? NULL : __real_realloc(at, size); }

/* ---- A session and its worker */

static void check(int holds, const char *what) {
    printf("%s: %s\n", holds ? "so" : "NOT SO", what);
    faults += !holds;
}

static void *room(size_t size) {
    void *at = aligned_alloc(16, (size + 15) / 16 * 16);
    if (!at) exit(3);
    return at;
}

/* Does a line, or renews the session. */
static size_t ask(const char *text, char answer[ROOM]) {
    if (strcmp(text, "renew") == 0) return pcef_renew(session, (uint8_t *)answer, ROOM - 1);
    return pcef_line(session, (const uint8_t *)text, strlen(text), (uint8_t *)answer, ROOM - 1);
}

static void line(const char *text, char answer[ROOM]) {
    size_t length = ask(text, answer);
    if (length >= ROOM) exit(4);
    answer[length] = 0;
}

static int shows(const char *part) {
    char answer[ROOM];
    line("{\"do\":\"show\"}", answer);
    return strstr(answer, part) != NULL;
}

static void begin(void) {
    char answer[ROOM];
    pcef_room(session);
    pcef_worker_room(worker);
    if (pcef_open(session, profile, profile_length) != PCEF_OK) exit(1);
    line(KEY, answer);
    line(RULE, answer);
    if (!strstr(answer, "\"ok\":true")) exit(1);
}

static pcef_packet packet_of(const uint8_t *octets, size_t length, size_t whole) {
    return (pcef_packet){octets, length, whole, 0};
}

/* ---- Vectors */

static void take_vectors(void) {
    pcef_packet packets[40];
    pcef_verdict verdicts[40];
    for (int i = 0; i < 40; i++) packets[i] = packet_of(PACKET, OCTETS, OCTETS);
    check(pcef_take(worker, packets, 0, verdicts, 40) == 0, "no packet is taken of none");
    memset(verdicts, 0xAA, sizeof verdicts);
    check(pcef_take(worker, packets, 3, verdicts, 2) == 2, "two are taken where there are two verdicts");
    check(verdicts[1].status == PCEF_PASSED && verdicts[2].status == 0xAA, "  and no third one is written");
    check(pcef_abandon(session, worker) == 2, "two rows waited");
    check(pcef_attach(session, worker) == 1, "the next worker comes");
    packets[1] = packet_of(NO_VERSION, OCTETS, OCTETS);
    packets[2] = packet_of(PACKET, 10, OCTETS);
    packets[3] = packet_of(PACKET, 0, 0);
    check(pcef_take(worker, packets, 5, verdicts, 5) == 5, "a packet that is none doesn't end the call");
    check(verdicts[0].status == PCEF_PASSED && verdicts[1].status == PCEF_BAD_VERSION &&
              verdicts[2].status == PCEF_TOO_FEW && verdicts[3].status == PCEF_EMPTY &&
              verdicts[4].status == PCEF_PASSED, "  and each verdict says what it is");
    memset(verdicts, 0xAA, sizeof verdicts);
    for (int i = 1; i < 4; i++) packets[i] = packets[0];
    check(pcef_take(worker, packets, 40, verdicts, 40) == 30, "thirty more are taken, since two wait");
    check(verdicts[29].status == PCEF_PASSED && verdicts[30].status == PCEF_FULL, "  and the next verdict says why");
    check(verdicts[31].status == 0xAA, "  and none behind it is written");
    check(pcef_take(worker, packets, 1, verdicts, 1) == 0 && verdicts[0].status == PCEF_FULL, "none is taken then");
    check(!pcef_is_refused(pcef_flush(session, worker)) && shows("\"unreported\":896"), "a flush counts 32 packets");
    check(pcef_take(worker, packets, 1, verdicts, 1) == 1, "then there is room again");
    check(!pcef_is_refused(pcef_finish(session, worker)) && shows("\"unreported\":924"), "its end counts the last one");
    check(pcef_take(worker, packets, 1, verdicts, 1) == 0 && verdicts[0].status == PCEF_NO_WORKER, "it is gone");
}

/* A worker judges by the generation that it holds until it refreshes. */
static void keep_generation(void) {
    char answer[ROOM];
    pcef_packet packet = packet_of(PACKET, OCTETS, OCTETS);
    pcef_verdict before, after;
    pcef_attach(session, worker);
    size_t held = pcef_generation(session);
    line("{\"do\":\"remove\",\"name\":\"web\"}", answer);
    check(pcef_generation(session) == held + 1, "a command makes a generation");
    pcef_take(worker, &packet, 1, &before, 1);
    check(before.generation == held && before.status == PCEF_PASSED, "the worker judges by the one that it holds");
    check(pcef_refresh(session, worker) == held + 1, "it takes the newest one");
    pcef_take(worker, &packet, 1, &after, 1);
    check(after.generation == held + 1 && after.status == PCEF_UNMATCHED, "  and judges by that");
    check(pcef_abandon(session, worker) == 2, "both rows waited");
    line(RULE, answer);
    line(KEY, answer); /* the key ended with its last rule, and what it had is reported */
}

/* ---- Calls */

static uint64_t take_one(void) {
    pcef_packet packet = packet_of(PACKET, OCTETS, OCTETS);
    pcef_verdict verdict;
    return pcef_take(worker, &packet, 1, &verdict, 1) == 1 ? 0 : verdict.status;
}

static uint64_t attach(void) { return pcef_attach(session, worker); }
static uint64_t refresh(void) { return pcef_refresh(session, worker); }
static uint64_t flush(void) { return pcef_flush(session, worker); }
static uint64_t finish(void) { return pcef_finish(session, worker); }

/* Refuses the first allocation of a call, then the second and so on, until the call is done: until then it says that
 * there is no memory, and the session shows what it showed. A call may be done where an allocation is refused that it
 * can do without. Returns how many were refused. */
static long refuse_each(uint64_t (*call)(void), uint64_t no_memory, const char *name) {
    char before[ROOM], after[ROOM], what[128];
    line("{\"do\":\"show\"}", before);
    for (long refused = 0;; refused++) {
        left = refused;
        uint64_t returned = call();
        int was_refused = left < 0;
        left = -1;
        if (returned != no_memory) {
            snprintf(what, sizeof what, "%s is done once %ld allocations are granted", name, refused);
            check(returned < PCEF_AT_NO_SESSION, what);
            return refused + was_refused;
        }
        line("{\"do\":\"show\"}", after);
        if (strcmp(before, after) != 0) check(0, name);
    }
}

static void refuse_memory(void) {
    long refused = refuse_each(attach, PCEF_AT_NO_MEMORY, "pcef_attach");
    for (int i = 0; i < 31; i++) refused += refuse_each(take_one, PCEF_TAKE_NO_MEMORY, "pcef_take");
    refused += refuse_each(refresh, PCEF_MEET_NO_MEMORY, "pcef_refresh");
    refused += refuse_each(flush, PCEF_MEET_NO_MEMORY, "pcef_flush");
    check(shows("\"reported\":924,\"unreported\":868"), "31 packets count, and 33 before");
    refused += refuse_each(take_one, PCEF_TAKE_NO_MEMORY, "pcef_take");
    refused += refuse_each(finish, PCEF_MEET_NO_MEMORY, "pcef_finish");
    check(shows("\"reported\":924,\"unreported\":896"), "and the last one");
    check(refused > 5, "allocations were refused");
    printf("so: %ld allocations were refused\n", refused);
}

/* ---- Lines */

static const char ATTACH[] = "{\"do\":\"attach\"}";
static const char CLOSE[] = "{\"do\":\"close\"}";
static const char FLUSH[] = "{\"do\":\"flush\",\"worker\":0}";
static const char FINISH[] = "{\"do\":\"finish\",\"worker\":0}";
static const char NOTICE[] = "{\"do\":\"notice\",\"event\":\"RAT_CHANGE\",\"value\":\"eutran\"}";
static const char OTHER_KEY[] = "{\"do\":\"monitor\",\"key\":\"other\",\"grant\":9}";
static const char RENEW[] = "renew"; /* no line: pcef_renew */
static const char REMOVE_VOICE[] = "{\"do\":\"remove\",\"name\":\"voice\"}";
static const char REMOVE[] = "{\"do\":\"remove\",\"name\":\"web\"}";
static const char SHOW[] = "{\"do\":\"show\"}";
static const char SUBSCRIBE[] = "{\"do\":\"triggers\",\"events\":[\"RAT_CHANGE\"]}";
static const char TAKE[] = "{\"do\":\"take\",\"worker\":0,\"dir\":\"down\","
                           "\"packet\":\"4500001c0000000040110000c63364070a0000020035138800080000\"}";
static const char VOICE[] =
    "{\"do\":\"install\",\"rule\":{\"name\":\"voice\",\"precedence\":10,"
    "\"filters\":[{\"text\":\"permit out 6 from any to any\"}],\"qci\":1,"
    "\"arp\":{\"level\":2,\"capability\":false,\"vulnerability\":false},"
    "\"gbr\":{\"up\":64000,\"down\":64000},\"gate\":\"ENABLED\"}}";

/* Lines before, the line that finds no memory, and one whose answer tells whether it was done. */
static const struct {
    const char *before[2], *line, *teller;
} ASKED[] = {
    {{NULL}, VOICE, SHOW},
    {{NULL}, OTHER_KEY, SHOW},
    {{NULL}, REMOVE, SHOW},
    {{NULL}, ATTACH, ATTACH},
    {{ATTACH}, TAKE, TAKE},
    {{ATTACH, TAKE}, FLUSH, SHOW},
    {{ATTACH, TAKE}, FINISH, FINISH},
    {{SUBSCRIBE}, NOTICE, NOTICE},
    {{NULL}, CLOSE, CLOSE},
    {{VOICE, REMOVE_VOICE}, RENEW, SHOW},
};

static void begin_anew(size_t asked) {
    char answer[ROOM];
    pcef_close(session);
    begin();
    for (int i = 0; i < 2 && ASKED[asked].before[i]; i++) line(ASKED[asked].before[i], answer);
}

/* What the session answers next: where the line was done, with its answer, or where it wasn't. */
static void tell(size_t asked, int is_done, char answer[ROOM], char told[ROOM]) {
    begin_anew(asked);
    if (is_done) line(ASKED[asked].line, answer);
    line(ASKED[asked].teller, told);
}

/* Refuses each allocation of a line in turn, until none is left. Where the line has no answer for want of memory, the
 * session stands as before it or as after it, which the next answer tells. Counts both. A line may be answered all the
 * same where an allocation is refused that it can do without. */
static void refuse_line(size_t asked, long counts[2]) {
    char due[ROOM] = "", told[2][ROOM], after[ROOM];
    const char *text = ASKED[asked].line;
    tell(asked, 0, due, told[0]);
    tell(asked, 1, due, told[1]);
    int holds = strcmp(told[0], told[1]) != 0, was_refused = 1;
    for (long granted = 0; was_refused; granted++) {
        char written[ROOM] = {0};
        begin_anew(asked);
        left = granted;
        size_t length = ask(text, written);
        was_refused = left < 0;
        left = -1;
        int lacked = length == PCEF_NO_MEMORY;
        line(ASKED[asked].teller, after);
        int is_done = strcmp(after, told[1]) == 0;
        holds &= strcmp(written, lacked ? "" : due) == 0 && (is_done || (lacked && strcmp(after, told[0]) == 0));
        counts[is_done] += lacked;
    }
    check(holds, text);
}

static void refuse_lines(void) {
    long counts[2] = {0, 0};
    for (size_t asked = 0; asked < sizeof ASKED / sizeof *ASKED; asked++) refuse_line(asked, counts);
    check(counts[0] > 50 && counts[1] > 5, "lines without memory were not done, or were done and had no answer");
    printf("so: %ld were not done, and %ld were\n", counts[0], counts[1]);
}

int main(int argc, char **argv) {
    FILE *file = argc == 2 ? fopen(argv[1], "rb") : NULL;
    if (!file) return 2;
    profile_length = fread(profile, 1, sizeof profile, file);
    fclose(file);
    session = room(pcef_size()), worker = room(pcef_worker_size());
    begin();
    if (pcef_attach(session, worker) != 0) return 1;
    take_vectors();
    keep_generation();
    refuse_memory();
    refuse_lines();
    pcef_close(session);
    free(session);
    free(worker);
    return faults != 0;
}
