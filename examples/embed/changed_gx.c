/* A session over Gx is handed RARs with each of their octets changed in turn, and each cut short: a request has an answer
 * always, with the identifiers that it came with, and no octet outside is read, as valgrind sees. Prints how many were
 * handed over.
 *     changed_gx PROFILE.toml RARS STEP      every STEP-th octet */
#include "pcef.h"
#include <stdio.h>
#include <stdlib.h>
#include <string.h>

static uint8_t profile[65536], whole[65536], reply[65536];
static pcef_session *session;
static pcef_gx *gx;
static unsigned long requests, answers;

static void *room(size_t size) {
    void *at;
    if (posix_memalign(&at, 16, size)) exit(3);
    return at;
}

static void check(int holds, const char *what) {
    if (!holds) {
        fprintf(stderr, "NOT SO: %s\n", what);
        exit(1);
    }
}

static size_t decode(const char *text, uint8_t *into) {
    size_t length = 0;
    unsigned octet;
    while (sscanf(text + 2 * length, "%2x", &octet) == 1) into[length++] = (uint8_t)octet;
    return length;
}

static void set(uint8_t part, const char *text) {
    check(pcef_gx_set(gx, part, (const uint8_t *)text, strlen(text)) == PCEF_OK, "a part is said");
}

/* Hands a message over that lies in just so many octets, with an End-to-End Identifier of its own: else it would come
 * again. */
static void hand_over(size_t length) {
    uint8_t *octets = malloc(length ? length : 1);
    if (!octets) exit(3);
    memcpy(octets, whole, length);
    for (size_t octet = 0; octet < 4 && length >= 20; octet++) octets[16 + octet] = (uint8_t)((requests + answers) >> (24 - 8 * octet));
    uint8_t said = pcef_gx_message(session, gx, octets, length);
    size_t written = pcef_gx_reply(gx, reply, sizeof reply);
    if (length < 20) check(said == PCEF_GX_NO_MESSAGE, "fewer than 20 octets are no message");
    else if (octets[4] & 0x80) {
        requests++;
        check(said <= PCEF_GX_REFUSED && written >= 20, "a request has an answer");
        check(!(reply[4] & 0x80) && !memcmp(reply + 5, octets + 5, 15), "with its command, application and identifiers");
        check(written == ((size_t)reply[1] << 16 | (size_t)reply[2] << 8 | reply[3]), "and its length");
    } else {
        answers++;
        check(said == PCEF_GX_NOT_OURS || said == PCEF_GX_AT_FAULT, "an answer that nobody waits for is dropped");
    }
    free(octets);
}

static void change(size_t length, size_t step) {
    static const uint8_t OTHERS[] = {0, 1, 0x7f, 0x80, 0xff};
    for (size_t at = 0; at < length; at += step) {
        uint8_t before = whole[at];
        for (size_t other = 0; other < sizeof OTHERS; other++) {
            whole[at] = OTHERS[other];
            hand_over(length);
        }
        for (int by = -4; by <= 4; by++) {
            whole[at] = (uint8_t)(before + by);
            hand_over(length);
        }
        whole[at] = before;
        hand_over(at);
    }
}

int main(int count, char **words) {
    static char line[16384];
    FILE *text = count == 4 ? fopen(words[1], "rb") : NULL, *rars = count == 4 ? fopen(words[2], "r") : NULL;
    if (!text || !rars) return 2;
    size_t length = fread(profile, 1, sizeof profile, text), step = (size_t)strtoul(words[3], NULL, 10);
    session = room(pcef_size());
    gx = room(pcef_gx_size());
    pcef_room(session);
    pcef_gx_room(gx);
    set(PCEF_GX_SESSION_ID, "pcef.example.net;7;1");
    set(PCEF_GX_ORIGIN_HOST, "pcef.example.net");
    set(PCEF_GX_ORIGIN_REALM, "example.net");
    set(PCEF_GX_DESTINATION_REALM, "example.net");
    check(pcef_gx_open(gx, profile, length) == PCEF_OK, "a dialogue begins");
    check(pcef_gx_next(session, gx, 1, 101) == PCEF_GX_INITIAL, "a CCR-I goes out");
    /* its answer: DIAMETER_SUCCESS, and nothing asked for */
    static const char GRANTED[] =
        "0100008c40000110010000160000000100000065000001074000001c706365662e6578616d706c652e6e65743b373b31"
        "000001024000000c010000160000010840000018706372662e6578616d706c652e6e657400000128400000136578616d"
        "706c652e6e6574000000010c4000000c000007d1000001a04000000c000000010000019f4000000c00000000";
    length = decode(GRANTED, whole);
    check(pcef_gx_message(session, gx, whole, length) == PCEF_GX_TOLD, "the session opens");
    while (fgets(line, sizeof line, rars)) {
        if (line[0] == '#') continue;
        length = decode(line, whole);
        check(length > 20, line);
        hand_over(length);
        change(length, step ? step : 1);
    }
    printf("%lu requests are answered, %lu answers dropped\n", requests, answers);
    pcef_gx_close(gx);
    pcef_close(session);
    free(gx);
    free(session);
    fclose(rars);
    fclose(text);
    return 0;
}
