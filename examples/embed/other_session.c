/* A worker meets a session that isn't its own: one of another handle, and one that was opened later at the same handle.
 * Each refuses it by its number, and nothing changes. Prints what it looked at.
 *     other_session PROFILE.toml */
#include "pcef.h"
#include <stdio.h>
#include <stdlib.h>
#include <string.h>

static const char KEY[] = "{\"do\":\"monitor\",\"key\":\"k\",\"grant\":100000}";
static const char RULE[] =
    "{\"do\":\"install\",\"rule\":{\"name\":\"web\",\"precedence\":100,"
    "\"filters\":[{\"text\":\"permit out 17 from any 53 to assigned\"}],\"qci\":9,"
    "\"arp\":{\"level\":8,\"capability\":false,\"vulnerability\":true},\"gate\":\"ENABLED\",\"key\":\"k\"}}";

static const uint8_t PACKET[] = {0x45, 0, 0, 28, 0, 0,   0, 0, 64,   17, 0, 0, 198, 51,
                                 100,  7, 10, 0, 0, 2, 0, 53, 0x13, 0x88, 0, 8, 0,   0};

static uint8_t profile[65536];
static size_t profile_length;
static int faults;

static void check(int holds, const char *what) {
    printf("%s: %s\n", holds ? "so" : "NOT SO", what);
    faults += !holds;
}

static void *room(size_t size) {
    void *at = aligned_alloc(16, (size + 15) / 16 * 16);
    if (!at) exit(3);
    return at;
}

/* Does a line; the answer is text until the next call with this buffer. */
static const char *line(pcef_session *session, const char *text, uint8_t answer[4096]) {
    size_t length = pcef_line(session, (const uint8_t *)text, strlen(text), answer, 4095);
    if (length > 4095) exit(4);
    answer[length] = 0;
    return (const char *)answer;
}

static void open_session(pcef_session *session) {
    uint8_t answer[4096];
    if (pcef_open(session, profile, profile_length) != PCEF_OK) exit(1);
    if (!strstr(line(session, KEY, answer), "\"ok\":true")) exit(1);
    if (!strstr(line(session, RULE, answer), "\"ok\":true")) exit(1);
}

static pcef_verdict take(pcef_worker *worker) {
    pcef_packet packet = {PACKET, sizeof PACKET, sizeof PACKET, 0};
    pcef_verdict verdict = {0};
    pcef_take(worker, &packet, 1, &verdict, 1);
    return verdict;
}

/* A session that isn't the worker's refuses it, and stands as before. */
static void meet_other(pcef_session *other, pcef_worker *worker, const char *what) {
    uint8_t before[4096], after[4096];
    line(other, "{\"do\":\"show\"}", before);
    int refused = pcef_refresh(other, worker) == PCEF_MEET_OTHER_SESSION &&
                  pcef_flush(other, worker) == PCEF_MEET_OTHER_SESSION &&
                  pcef_finish(other, worker) == PCEF_MEET_OTHER_SESSION &&
                  pcef_abandon(other, worker) == PCEF_MEET_OTHER_SESSION;
    line(other, "{\"do\":\"show\"}", after);
    check(refused, what);
    check(strcmp((const char *)before, (const char *)after) == 0, "  and its session shows what it showed before");
}

/* Without a session, or without a worker, each call says so. */
static void meet_none(pcef_session *session, pcef_worker *worker, uint64_t why, const char *what) {
    check(pcef_refresh(session, worker) == why && pcef_flush(session, worker) == why &&
              pcef_finish(session, worker) == why && pcef_abandon(session, worker) == why, what);
}

int main(int argc, char **argv) {
    FILE *file = argc == 2 ? fopen(argv[1], "rb") : NULL;
    if (!file) return 2;
    profile_length = fread(profile, 1, sizeof profile, file);
    fclose(file);
    uint8_t answer[4096];
    pcef_session *first = room(pcef_size()), *second = room(pcef_size());
    pcef_worker *worker = room(pcef_worker_size());
    pcef_room(first);
    pcef_room(second);
    pcef_worker_room(worker);

    check(pcef_number(second, (uint64_t)1 << 32) == 0, "a new handle numbers its sessions from 0 on");
    check(pcef_attach(first, worker) == PCEF_AT_NO_SESSION, "no worker is attached without a session");
    check(pcef_generation(first) == PCEF_NO_SESSION, "there is no generation without a session");
    check(take(worker).status == PCEF_NO_WORKER, "no packet is taken without a worker");
    meet_none(first, worker, PCEF_MEET_NO_SESSION, "each of the four calls says that there is no session");
    open_session(first);
    open_session(second);
    meet_none(first, worker, PCEF_MEET_NO_WORKER, "each of the four calls says that there is no worker");
    check(pcef_attach(first, worker) == 0, "a worker is attached");
    check(pcef_attach(second, worker) == PCEF_AT_WORKER, "a handle with a worker takes no other");
    check(strstr(line(first, "{\"do\":\"flush\",\"worker\":0}", answer), "NoWorker") != NULL, "no line names it");
    check(take(worker).status == PCEF_PASSED, "it takes a packet");
    meet_other(second, worker, "a session of another handle refuses it");
    check(pcef_flush(first, worker) == 0, "its row is still there, and its session takes it");
    check(strstr(line(first, "{\"do\":\"show\"}", answer), "\"unreported\":28") != NULL, "  and counts 28 octets");
    check(take(worker).status == PCEF_PASSED, "it takes another");
    check(pcef_close(first) == 1, "its session is closed");
    check(pcef_number(first, 7) == 1, "the next session of the handle would have had number 1");
    pcef_number(first, 1);
    open_session(first);
    meet_other(first, worker, "the session that was opened later at its handle refuses it");
    check(take(worker).status == PCEF_PASSED, "it goes on judging by the rules that it holds");
    check(pcef_drop_worker(worker) == 1 && pcef_drop_worker(worker) == 0, "it is dropped, once");
    for (int number = 0; number < 16; number++) {
        check(pcef_attach(first, worker) == number && pcef_abandon(first, worker) == 0, "a worker comes and leaves");
    }
    check(pcef_attach(first, worker) == PCEF_AT_NO_PLACE, "a session attaches sixteen workers");
    check(strstr(line(second, "{\"do\":\"terminate\"}", answer), "\"ok\":true") != NULL, "a session is terminated");
    check(pcef_attach(second, worker) == PCEF_AT_CLOSED, "it attaches none");
    pcef_close(first);
    pcef_close(second);
    free(first);
    free(second);
    free(worker);
    return faults != 0;
}
