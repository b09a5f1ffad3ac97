/* Answers the lines of standard input, as `pcef script PROFILE.toml` does.
 *     script PROFILE.toml < LINES.jsonl */
#include "pcef.h"
#include <stdio.h>
#include <stdlib.h>
#include <string.h>

static uint8_t profile[65536], answer[1 << 20];
static char line[1 << 19];

int main(int argc, char **argv) {
    FILE *file = argc == 2 ? fopen(argv[1], "rb") : NULL;
    if (!file) {
        fprintf(stderr, "usage: script PROFILE.toml < LINES.jsonl\n");
        return 2;
    }
    size_t length = fread(profile, 1, sizeof profile, file);
    fclose(file);

    pcef_session *session = aligned_alloc(16, (pcef_size() + 15) / 16 * 16);
    if (!session) return 3;
    pcef_room(session);
    uint8_t fault = pcef_open(session, profile, length);
    if (fault != PCEF_OK) {
        fprintf(stderr, "the profile isn't opened: %u\n", fault);
        free(session);
        return 1;
    }
    int status = 0;
    while (status == 0 && fgets(line, sizeof line, stdin)) {
        size_t needed = pcef_line(session, (const uint8_t *)line, strcspn(line, "\n"), answer, sizeof answer);
        if (needed > sizeof answer)
            status = 4; /* no memory, or more than the buffer holds */
        else if (needed > 0)
            printf("%.*s\n", (int)needed, (const char *)answer);
    }
    pcef_close(session);
    free(session);
    return status;
}
