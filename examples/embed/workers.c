/* Plays a script whose worker lies at a handle of its own: its lines `take` become one call of pcef_take, `flush`,
 * `refresh` and `finish` the calls of these names. Writes the answers to `show`.
 *     workers PROFILE.toml < LINES.jsonl */
#include "pcef.h"
#include <stdio.h>
#include <stdlib.h>
#include <string.h>

static uint8_t profile[65536], answer[65536], octets[32][2048];
static pcef_packet packets[32];
static pcef_verdict verdicts[32];
static char line[1 << 19];

static void *room(size_t size) { return aligned_alloc(16, (size + 15) / 16 * 16); }

/* Makes a packet of a line's octets. */
static pcef_packet packet_of(uint8_t *to, const char *digits) {
    size_t length = 0;
    while (length < 2048 && sscanf(digits + 2 * length, "%2hhx", to + length) == 1) length++;
    return (pcef_packet){to, length, length, strstr(line, "\"up\"") != NULL};
}

/* Does the line that was read, but `take`: whether it is done. */
static int done(pcef_session *session, pcef_worker *worker) {
    if (strstr(line, "\"attach\"")) return pcef_attach(session, worker) == 0;
    if (strstr(line, "\"refresh\"")) return !pcef_is_refused(pcef_refresh(session, worker));
    if (strstr(line, "\"flush\"")) return !pcef_is_refused(pcef_flush(session, worker));
    if (strstr(line, "\"finish\"")) return !pcef_is_refused(pcef_finish(session, worker));
    size_t length = pcef_line(session, (const uint8_t *)line, strcspn(line, "\n"), answer, sizeof answer);
    if (length > sizeof answer) return 0;
    if (strstr(line, "\"show\"")) printf("%.*s\n", (int)length, (const char *)answer);
    return 1;
}

int main(int argc, char **argv) {
    FILE *file = argc == 2 ? fopen(argv[1], "rb") : NULL;
    if (!file) return 2;
    size_t length = fread(profile, 1, sizeof profile, file), count = 0;
    fclose(file);
    pcef_session *session = room(pcef_size());
    pcef_worker *worker = room(pcef_worker_size());
    if (!session || !worker) return 3;
    pcef_room(session);
    pcef_worker_room(worker);
    int well = pcef_open(session, profile, length) == PCEF_OK;
    while (well && fgets(line, sizeof line, stdin)) {
        const char *digits = strstr(line, "\"packet\":\"");
        if (digits && count < 32) {
            packets[count] = packet_of(octets[count], digits + 10);
            count++;
        } else {
            well = !digits && pcef_take(worker, packets, count, verdicts, count) == count && done(session, worker);
            count = 0;
        }
    }
    pcef_drop_worker(worker); /* 1 where it never left */
    pcef_close(session);
    free(session);
    free(worker);
    return !well;
}
