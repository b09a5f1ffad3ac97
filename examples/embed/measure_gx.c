/* What a session over Gx takes. Run it under callgrind with two counts, and take the difference.
 *     measure_gx PROFILE.toml rar COUNT      RARs that install the same four rules, each read, answered and done
 *     measure_gx PROFILE.toml lines COUNT    the same rules by four lines of a session without Gx
 *     measure_gx PROFILE.toml first COUNT    dialogues that begin, each with its CCR-I, and end
 *     measure_gx PROFILE.toml memory 1       octets of the heap, with four rules, with Gx and without */
#include "pcef.h"
#include <malloc.h>
#include <stdio.h>
#include <stdlib.h>
#include <string.h>

#define VENDOR 10415

static uint8_t profile[65536], message[65536], reply[65536];
static size_t profile_length;
static pcef_session *session;
static pcef_gx *gx;

static void *room(size_t size) {
    void *at;
    if (posix_memalign(&at, 16, size)) exit(3);
    return at;
}

static void check(int holds, const char *what) {
    if (!holds) {
        fprintf(stderr, "NOT SO: %s\n", what);
        exit(1);
    }
}

static void put_number(uint8_t *at, uint32_t number) {
    for (int octet = 0; octet < 4; octet++) at[octet] = (uint8_t)(number >> (24 - 8 * octet));
}

/* Begins an AVP, and returns where it begins. */
static size_t begin(size_t at, uint32_t code, uint32_t vendor, uint8_t mandatory) {
    put_number(message + at, code);
    message[at + 4] = (uint8_t)((vendor ? 0x80 : 0) | (mandatory ? 0x40 : 0));
    if (vendor) put_number(message + at + 8, vendor);
    return at + (vendor ? 12 : 8);
}

/* Ends the AVP that begins at `from`, and returns where the next one begins. */
static size_t end(size_t from, size_t at) {
    size_t length = at - from;
    message[from + 5] = 0;
    message[from + 6] = (uint8_t)(length >> 8);
    message[from + 7] = (uint8_t)length;
    while (at % 4) message[at++] = 0;
    return at;
}

static size_t text_avp(size_t at, uint32_t code, uint32_t vendor, const char *text) {
    size_t data = begin(at, code, vendor, 1);
    memcpy(message + data, text, strlen(text));
    return end(at, data + strlen(text));
}

static size_t number_avp(size_t at, uint32_t code, uint32_t vendor, uint32_t number, uint8_t mandatory) {
    size_t data = begin(at, code, vendor, mandatory);
    put_number(message + data, number);
    return end(at, data + 4);
}

/* The four rules: a Charging-Rule-Install with four definitions. */
static size_t put_rules(size_t at) {
    static const char *NAMES[] = {"web", "mail", "dns", "rest"};
    static const char *FLOWS[] = {"permit out 6 from any 443 to assigned", "permit out 6 from any 993 to assigned",
                                  "permit out 17 from any 53 to assigned", "permit out ip from any to assigned"};
    size_t install = at;
    at = begin(install, 1001, VENDOR, 1);
    for (int rule = 0; rule < 4; rule++) {
        size_t definition = at, information, qos, arp;
        at = text_avp(begin(definition, 1003, VENDOR, 1), 1005, VENDOR, NAMES[rule]);
        information = at;
        at = text_avp(begin(information, 1058, VENDOR, 0), 507, VENDOR, FLOWS[rule]);
        at = end(information, number_avp(at, 1080, VENDOR, 3, 0));
        qos = at;
        at = number_avp(begin(qos, 1016, VENDOR, 1), 1028, VENDOR, 9, 1);
        arp = at;
        at = number_avp(begin(arp, 1034, VENDOR, 1), 1046, VENDOR, 8, 1);
        at = number_avp(at, 1047, VENDOR, 1, 1);
        at = end(qos, end(arp, number_avp(at, 1048, VENDOR, 0, 1)));
        at = end(definition, number_avp(at, 1010, VENDOR, 10 + (uint32_t)rule, 1));
    }
    return end(install, at);
}

/* A header and the AVPs of the PCRF; `cca` with CC-Request-Type and -Number 1 and 0. Returns the message's length. */
static size_t build(int cca, uint32_t end_to_end, int has_rules) {
    size_t at = text_avp(20, 263, 0, "pcef.example.net;7;1");
    at = number_avp(at, 258, 0, 16777238, 1);
    at = text_avp(at, 264, 0, "pcrf.example.net");
    at = text_avp(at, 296, 0, "example.net");
    if (cca) {
        at = number_avp(at, 268, 0, 2001, 1);
        at = number_avp(at, 416, 0, 1, 1);
        at = number_avp(at, 415, 0, 0, 1);
    } else {
        at = text_avp(at, 283, 0, "example.net");
        at = text_avp(at, 293, 0, "pcef.example.net");
        at = number_avp(at, 285, 0, 0, 1);
    }
    if (has_rules) at = put_rules(at);
    put_number(message, (uint32_t)at);
    message[0] = 1;
    put_number(message + 4, cca ? 272 : 258);
    message[4] = cca ? 0x40 : 0xC0;
    put_number(message + 8, 16777238);
    put_number(message + 12, 1);
    put_number(message + 16, end_to_end);
    return at;
}

static void set(uint8_t part, const char *text) {
    check(pcef_gx_set(gx, part, (const uint8_t *)text, strlen(text)) == PCEF_OK, "a part is said");
}

/* A dialogue begins, and its CCR-I is out. */
static void propose(void) {
    set(PCEF_GX_SESSION_ID, "pcef.example.net;7;1");
    set(PCEF_GX_ORIGIN_HOST, "pcef.example.net");
    set(PCEF_GX_ORIGIN_REALM, "example.net");
    set(PCEF_GX_DESTINATION_REALM, "example.net");
    check(pcef_gx_open(gx, profile, profile_length) == PCEF_OK, "a dialogue begins");
    check(pcef_gx_next(session, gx, 1, 1) == PCEF_GX_INITIAL && pcef_gx_request(gx, reply, sizeof reply) > 20, "a CCR-I");
}

static void grant(void) {
    check(pcef_gx_message(session, gx, message, build(1, 1, 0)) == PCEF_GX_TOLD, "the session opens");
}

/* Has a message heard that installs the rules. */
static void install(uint32_t end_to_end) {
    size_t length = build(0, end_to_end, 1);
    check(pcef_gx_message(session, gx, message, length) == PCEF_GX_ANSWERED, "the rules are installed");
    check(pcef_gx_reply(gx, reply, sizeof reply) > 20, "there is an answer");
}

static void install_by_lines(void) {
    static const char *LINES[] = {
        "{\"do\":\"install\",\"rule\":{\"name\":\"web\",\"precedence\":10,\"filters\":[{\"text\":\"permit out 6 from any 443 to assigned\",\"flow\":\"bidirectional\"}],\"qci\":9,\"arp\":{\"level\":8,\"capability\":false,\"vulnerability\":true},\"gate\":\"ENABLED\"}}",
        "{\"do\":\"install\",\"rule\":{\"name\":\"mail\",\"precedence\":11,\"filters\":[{\"text\":\"permit out 6 from any 993 to assigned\",\"flow\":\"bidirectional\"}],\"qci\":9,\"arp\":{\"level\":8,\"capability\":false,\"vulnerability\":true},\"gate\":\"ENABLED\"}}",
        "{\"do\":\"install\",\"rule\":{\"name\":\"dns\",\"precedence\":12,\"filters\":[{\"text\":\"permit out 17 from any 53 to assigned\",\"flow\":\"bidirectional\"}],\"qci\":9,\"arp\":{\"level\":8,\"capability\":false,\"vulnerability\":true},\"gate\":\"ENABLED\"}}",
        "{\"do\":\"install\",\"rule\":{\"name\":\"rest\",\"precedence\":13,\"filters\":[{\"text\":\"permit out ip from any to assigned\",\"flow\":\"bidirectional\"}],\"qci\":9,\"arp\":{\"level\":8,\"capability\":false,\"vulnerability\":true},\"gate\":\"ENABLED\"}}"};
    for (int line = 0; line < 4; line++) {
        size_t length = pcef_line(session, (const uint8_t *)LINES[line], strlen(LINES[line]), reply, sizeof reply - 1);
        check(length < sizeof reply, "an answer");
        reply[length] = 0;
        check(strstr((const char *)reply, "\"ok\":true") != NULL, (const char *)reply);
    }
}

static size_t heap(void) { return mallinfo2().uordblks; }

static void memory(void) {
    size_t before = heap();
    propose();
    grant();
    install(2);
    size_t with = heap() - before;
    pcef_gx_close(gx);
    pcef_close(session);
    check(heap() == before, "all is given back");
    check(pcef_open(session, profile, profile_length) == PCEF_OK, "a session without Gx opens");
    install_by_lines();
    printf("%zu octets with Gx, %zu without, and a handle of %zu\n", with, heap() - before, pcef_gx_size());
}

int main(int count, char **words) {
    FILE *text = count == 4 ? fopen(words[1], "rb") : NULL;
    if (!text) return 2;
    profile_length = fread(profile, 1, sizeof profile, text);
    fclose(text);
    uint32_t rounds = (uint32_t)strtoul(words[3], NULL, 10);
    session = room(pcef_size());
    gx = room(pcef_gx_size());
    pcef_room(session);
    pcef_gx_room(gx);
    if (!strcmp(words[2], "memory")) memory();
    if (!strcmp(words[2], "rar")) {
        propose();
        grant();
        for (uint32_t round = 0; round < rounds; round++) install(2 + round);
    }
    if (!strcmp(words[2], "lines")) {
        check(pcef_open(session, profile, profile_length) == PCEF_OK, "a session opens");
        for (uint32_t round = 0; round < rounds; round++) install_by_lines();
    }
    if (!strcmp(words[2], "first"))
        for (uint32_t round = 0; round < rounds; round++) {
            propose();
            pcef_gx_close(gx);
        }
    pcef_gx_close(gx);
    pcef_close(session);
    free(gx);
    free(session);
    return 0;
}
