/* Opens a session, installs a rule, and judges a packet.
 *     first_packet PROFILE.toml */
#include "pcef.h"
#include <stdio.h>
#include <stdlib.h>
#include <string.h>

static const char RULE[] =
    "{\"do\":\"install\",\"rule\":{\"name\":\"web\",\"precedence\":100,"
    "\"filters\":[{\"text\":\"permit out 17 from any 53 to assigned\"}],\"qci\":9,"
    "\"arp\":{\"level\":8,\"capability\":false,\"vulnerability\":true},\"gate\":\"ENABLED\"}}";

/* 28 octets of UDP from port 53 of 198.51.100.7 to 10.0.0.2. */
static const uint8_t PACKET[] = {0x45, 0, 0, 28, 0, 0,   0, 0, 64,   17, 0, 0, 198, 51,
                                 100,  7, 10, 0, 0, 2, 0, 53, 0x13, 0x88, 0, 8, 0,   0};

int main(int argc, char **argv) {
    static uint8_t profile[65536], answer[65536];
    FILE *file = argc == 2 ? fopen(argv[1], "rb") : NULL;
    if (!file) {
        fprintf(stderr, "usage: first_packet PROFILE.toml\n");
        return 2;
    }
    size_t length = fread(profile, 1, sizeof profile, file);
    fclose(file);

    pcef_session *session = aligned_alloc(16, (pcef_size() + 15) / 16 * 16);
    if (!session) return 3;
    pcef_room(session);
    uint8_t fault = pcef_open(session, profile, length);
    if (fault != PCEF_OK) {
        fprintf(stderr, "the profile isn't opened: %u\n", fault);
        free(session);
        return 1;
    }

    size_t needed = pcef_line(session, (const uint8_t *)RULE, strlen(RULE), answer, sizeof answer);
    if (needed > sizeof answer) return 4; /* no memory, or more than the buffer holds */
    printf("%.*s\n", (int)needed, (const char *)answer);

    pcef_verdict verdict = pcef_judge_one(session, 0, PACKET, sizeof PACKET);
    printf("status %u, bearer %u, place %u, generation %u\n", verdict.status, verdict.bearer, verdict.place,
           verdict.generation);

    pcef_close(session);
    free(session);
    return verdict.status != PCEF_PASSED;
}
