/* A session over Gx from its CCR-I to its CCR-T, by the steps of a file: what is done, what has to be returned, and the
 * octets of each message. In a gateway the messages come from a Diameter stack, and go to it. Prints each step.
 *     gx PROFILE.toml STEPS */
#include "pcef.h"
#include <stdio.h>
#include <stdlib.h>
#include <string.h>

static const uint8_t PACKET[] = {0x45, 0, 0, 28, 0, 0,   0, 0, 64,   17, 0, 0, 198, 51,
                                 100,  7, 10, 0, 0, 2, 0, 53, 0x13, 0x88, 0, 8, 0,   0};
static const uint8_t APN[] = {0, 0, 0, 30, 0x40, 0, 0, 16, 'i', 'n', 't', 'e', 'r', 'n', 'e', 't'};

static uint8_t profile[65536], octets[65536], due[65536];
static pcef_session *session;
static pcef_worker *worker;
static pcef_gx *gx;

static void *room(size_t size) {
    void *at;
    if (posix_memalign(&at, 16, size)) exit(3);
    return at;
}

static void check(int holds, const char *step) {
    printf("%s: %.40s\n", holds ? "so" : "NOT SO", step);
    if (!holds) exit(1);
}

/* The octets of a text in hexadecimal. */
static size_t decode(const char *text, uint8_t *into) {
    size_t length = 0;
    unsigned octet;
    while (sscanf(text + 2 * length, "%2x", &octet) == 1) into[length++] = (uint8_t)octet;
    return length;
}

static int are_due(const char *text, size_t length) {
    return length == decode(text, due) && !memcmp(octets, due, length);
}

static int set(uint8_t part, const char *text) {
    return pcef_gx_set(gx, part, (const uint8_t *)text, strlen(text)) == PCEF_OK;
}

/* Counts packets of 28 octets to the user. */
static int take(int count) {
    pcef_packet packet = {PACKET, sizeof PACKET, sizeof PACKET, 0};
    pcef_verdict verdict = {0};
    if (pcef_refresh(session, worker) == PCEF_MEET_NO_WORKER && pcef_attach(session, worker)) return 0;
    while (count--)
        if (pcef_take(worker, &packet, 1, &verdict, 1) != 1 || verdict.status != PCEF_PASSED) return 0;
    return !pcef_is_refused(pcef_flush(session, worker));
}

/* Takes one step, and returns whether it came out as is due. */
static int is_due(const char *word, const char *rest) {
    unsigned returned = 0, hop = 0, end = 0;
    int at = 0;
    if (!strcmp(word, "next") && sscanf(rest, "%u %u %u %n", &returned, &hop, &end, &at) == 3)
        return pcef_gx_next(session, gx, hop, end) == returned && are_due(rest + at, pcef_gx_request(gx, octets, sizeof octets)) &&
               pcef_gx_next(session, gx, 0, 0) == 0;
    if (!strcmp(word, "again"))
        return pcef_gx_again(gx) == 1 && are_due(rest, pcef_gx_request(gx, octets, sizeof octets));
    if (!strcmp(word, "give_up")) return pcef_gx_give_up(gx) == 1 && pcef_gx_give_up(gx) == 0;
    if (!strcmp(word, "reply")) return are_due(rest, pcef_gx_reply(gx, octets, sizeof octets));
    if (!strcmp(word, "finish")) return !pcef_is_refused(pcef_finish(session, worker));
    if (sscanf(rest, "%u %n", &returned, &at) != 1) return 0;
    if (!strcmp(word, "hear")) {
        size_t length = decode(rest + at, octets);
        return pcef_gx_message(session, gx, octets, length) == returned;
    }
    if (!strcmp(word, "take")) return take((int)returned);
    if (!strcmp(word, "notice") && sscanf(rest + at, "%u %n", &hop, &at) == 1) {
        size_t length = decode(strrchr(rest, ' ') + 1, octets);
        return pcef_gx_notice(session, (uint8_t)hop, octets, length) == returned;
    }
    if (!strcmp(word, "end")) return pcef_gx_end(session, gx) == returned;
    if (!strcmp(word, "stage")) return pcef_gx_stage(gx) == returned;
    return 0;
}

static void play(FILE *steps) {
    static char line[16384], word[16];
    pcef_gx_rest left;
    while (fgets(line, sizeof line, steps)) {
        int at = 0;
        line[strcspn(line, "\n")] = 0;
        if (line[0] == '#' || sscanf(line, "%15s %n", word, &at) != 1) continue;
        check(is_due(word, line + at), line);
        if (!strncmp(line, "hear 7 ", 7) && pcef_gx_left(gx, &left) && left.has_result_code)
            printf("the CCR failed: %u\n", (unsigned)left.result_code);
    }
}

int main(int count, char **words) {
    FILE *text = count == 3 ? fopen(words[1], "rb") : NULL, *steps = count == 3 ? fopen(words[2], "r") : NULL;
    if (!text || !steps) return 2;
    size_t length = fread(profile, 1, sizeof profile, text);
    session = room(pcef_size());
    worker = room(pcef_worker_size());
    gx = room(pcef_gx_size());
    pcef_room(session);
    pcef_worker_room(worker);
    pcef_gx_room(gx);
    check(pcef_gx_message(session, gx, octets, 20) == PCEF_GX_NO_DIALOGUE && pcef_gx_stage(gx) == 0, "there is no dialogue");
    check(pcef_gx_set(gx, 5, APN, sizeof APN) == PCEF_GX_NO_PART, "there is no sixth part");
    check(set(PCEF_GX_SESSION_ID, "pcef.example.net;7;1") && set(PCEF_GX_ORIGIN_HOST, "pcef.example.net"), "who speaks");
    check(set(PCEF_GX_ORIGIN_REALM, "example.net") && set(PCEF_GX_DESTINATION_REALM, "example.net"), "their realms");
    check(pcef_gx_set(gx, PCEF_GX_AVPS, APN, sizeof APN - 1) == PCEF_OK && pcef_gx_open(gx, profile, length) == PCEF_GX_NOT_AVPS,
          "an AVP is cut");
    check(pcef_gx_set(gx, PCEF_GX_AVPS, APN, sizeof APN) == PCEF_OK && pcef_gx_open(gx, profile, length) == PCEF_OK, "a dialogue begins");
    check(pcef_gx_open(gx, profile, length) == PCEF_ALREADY_OPEN, "it stays");
    play(steps);
    check(pcef_gx_close(gx) == 1 && pcef_gx_close(gx) == 0 && pcef_close(session) == 1, "all is closed");
    free(gx);
    free(worker);
    free(session);
    fclose(steps);
    fclose(text);
    return 0;
}
