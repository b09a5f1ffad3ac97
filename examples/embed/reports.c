/* A gateway's loop: does the lines of standard input, and after each writes its reports, once, and forgets them. What
 * is written has a line for each line that made reports: a JSON array, the oldest first.
 *     reports PROFILE.toml < LINES.jsonl */
#include "pcef.h"
#include <stdio.h>
#include <stdlib.h>
#include <string.h>

static uint8_t profile[65536], answer[1 << 20], reports[1 << 20];
static char line[1 << 19];

/* Writes the reports from `*next` on, and forgets them: whether there was memory and room for them. */
static int hand_on(pcef_session *session, uint64_t *next) {
    size_t needed = pcef_reports(session, *next, reports, sizeof reports);
    if (needed > sizeof reports) return 0;
    /* Here they go to the PCRF. Only then does the session forget them. */
    if (needed > strlen("[]")) printf("%.*s\n", (int)needed, (const char *)reports);
    *next = pcef_forget(session);
    /* A test of this example, which a gateway leaves out: a forgotten report is refused. */
    return *next == 0 || pcef_reports(session, *next - 1, reports, sizeof reports) == PCEF_FORGOTTEN;
}

int main(int argc, char **argv) {
    FILE *file = argc == 2 ? fopen(argv[1], "rb") : NULL;
    if (!file) {
        fprintf(stderr, "usage: reports PROFILE.toml < LINES.jsonl\n");
        return 2;
    }
    size_t length = fread(profile, 1, sizeof profile, file);
    fclose(file);

    pcef_session *session = aligned_alloc(16, (pcef_size() + 15) / 16 * 16);
    if (!session) return 3;
    pcef_room(session);
    /* The same: a handle without a session says so. */
    if (pcef_forget(session) != PCEF_NO_SESSION) return 1;
    if (pcef_open(session, profile, length) != PCEF_OK) return 1;
    uint64_t next = 0;
    int status = 0;
    while (status == 0 && fgets(line, sizeof line, stdin)) {
        size_t needed = pcef_line(session, (const uint8_t *)line, strcspn(line, "\n"), answer, sizeof answer);
        if (needed > sizeof answer || !hand_on(session, &next)) status = 4; /* no memory, or more than a buffer holds */
    }
    pcef_close(session);
    free(session);
    return status;
}
