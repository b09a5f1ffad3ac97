/* Judges packets of which the first octets alone are at hand: each cut at each octet, as standard output says.
 *     fronts PROFILE.toml */
#include "pcef.h"
#include <stdio.h>
#include <stdlib.h>
#include <string.h>

static const char RULE[] =
    "{\"do\":\"install\",\"rule\":{\"name\":\"web\",\"precedence\":100,"
    "\"filters\":[{\"text\":\"permit out 17 from any 53 to assigned\"}],\"qci\":9,"
    "\"arp\":{\"level\":8,\"capability\":false,\"vulnerability\":true},\"gate\":\"ENABLED\"}}";

/* The first 28 octets of one of 1,400: UDP from port 53 of 198.51.100.7 to 10.0.0.2. */
static const uint8_t ANSWER[] = {0x45, 0, 0x05, 0x78, 0, 0,   0, 0, 64,   17,   0,    0, 198, 51,
                                 100,  7, 10,   0,    0, 2, 0, 53,  0x13, 0x88, 0x05, 0x64, 0,  0};

/* The same where it is a later fragment, which has no ports. */
static uint8_t later[sizeof ANSWER];

/* Says where the verdict on a packet of 1,400 octets changes with the number of octets at hand. */
static void show_changes(pcef_session *session, const char *name, const uint8_t *octets, size_t length) {
    int last = -1;
    for (size_t at_hand = 0; at_hand <= length; at_hand++) {
        pcef_verdict verdict = pcef_judge_front(session, 0, octets, at_hand, 1400);
        if (verdict.status != last) printf("%s, from %zu octets on: status %u\n", name, at_hand, verdict.status);
        last = verdict.status;
    }
}

int main(int argc, char **argv) {
    static uint8_t profile[65536], answer[65536];
    FILE *file = argc == 2 ? fopen(argv[1], "rb") : NULL;
    if (!file) {
        fprintf(stderr, "usage: fronts PROFILE.toml\n");
        return 2;
    }
    size_t length = fread(profile, 1, sizeof profile, file);
    fclose(file);

    pcef_session *session = aligned_alloc(16, (pcef_size() + 15) / 16 * 16);
    if (!session) return 3;
    pcef_room(session);
    if (pcef_open(session, profile, length) != PCEF_OK) return 1;
    if (pcef_line(session, (const uint8_t *)RULE, strlen(RULE), answer, sizeof answer) > sizeof answer) return 4;

    memcpy(later, ANSWER, sizeof ANSWER);
    later[7] = 1;
    show_changes(session, "an answer", ANSWER, sizeof ANSWER);
    show_changes(session, "a later fragment", later, sizeof later);
    /* All 28 octets are at hand, and the total length says more. */
    printf("as a whole packet: status %u\n", pcef_judge_one(session, 0, ANSWER, sizeof ANSWER).status);

    pcef_close(session);
    free(session);
    return 0;
}
