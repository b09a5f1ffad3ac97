/* Opens and closes a session again and again, with some lines between, and looks whether memory is left; then lets the
 * reports of one session go as they come, and looks whether it grows.
 *     GLIBC_TUNABLES=glibc.malloc.tcache_count=0 churn PROFILE.toml LINES.jsonl TIMES
 * With that setting malloc keeps nothing at hand for the thread, which it would count as in use. */
#include "pcef.h"
#include <malloc.h>
#include <stdio.h>
#include <stdlib.h>
#include <string.h>

static uint8_t profile[65536], answer[1 << 20];
static char lines[64][1 << 12];

/* How many octets the heap has handed out. */
static size_t in_use(void) {
    struct mallinfo2 heap = mallinfo2();
    return heap.uordblks + heap.hblkhd;
}

/* Opens a session, answers the lines, writes the reports, forgets them and closes: whether all went well. */
static int play(pcef_session *session, size_t length, size_t count) {
    if (pcef_open(session, profile, length) != PCEF_OK) return 0;
    if (pcef_open(session, profile, length) != PCEF_ALREADY_OPEN) return 0;
    for (size_t i = 0; i < count; i++) {
        size_t needed = pcef_line(session, (const uint8_t *)lines[i], strcspn(lines[i], "\n"), answer, sizeof answer);
        if (needed > sizeof answer) return 0;
    }
    if (pcef_reports(session, 0, answer, sizeof answer) > sizeof answer) return 0;
    size_t next = pcef_forget(session);
    if (next > 0 && pcef_reports(session, next - 1, answer, sizeof answer) != PCEF_FORGOTTEN) return 0;
    if (pcef_reports(session, next, answer, sizeof answer) != strlen("[]")) return 0;
    return pcef_close(session) == 1;
}

/* Does a line: whether it is accepted. */
static int accepted(pcef_session *session, const char *text) {
    size_t needed = pcef_line(session, (const uint8_t *)text, strlen(text), answer, sizeof answer - 1);
    if (needed >= sizeof answer) return 0;
    answer[needed] = 0;
    return strstr((const char *)answer, "\"ok\":true") != NULL;
}

/* Makes REPORTS reports in a session, one a line, and forgets each, or none: by how many octets the heap grows from the
 * tenth one on; -1 where a line is refused. */
enum { REPORTS = 900 };

static long growth(pcef_session *session, size_t length, int forgets) {
    size_t early = 0;
    if (pcef_open(session, profile, length) != PCEF_OK) return -1;
    if (!accepted(session, "{\"do\":\"triggers\",\"events\":[\"RAT_CHANGE\"]}")) return -1;
    for (size_t made = 1; made <= REPORTS; made++) {
        if (!accepted(session, "{\"do\":\"notice\",\"event\":\"RAT_CHANGE\",\"value\":\"eutran\"}")) return -1;
        if (forgets && pcef_forget(session) != made) return -1;
        if (made == 10) early = in_use();
    }
    size_t late = in_use();
    return pcef_close(session) == 1 ? (long)late - (long)early : -1;
}

int main(int argc, char **argv) {
    FILE *text = argc == 4 ? fopen(argv[1], "rb") : NULL, *script = argc == 4 ? fopen(argv[2], "rb") : NULL;
    if (!text || !script) {
        fprintf(stderr, "usage: churn PROFILE.toml LINES.jsonl TIMES\n");
        return 2;
    }
    size_t length = fread(profile, 1, sizeof profile, text), count = 0;
    while (count < 64 && fgets(lines[count], sizeof lines[count], script)) count++;
    fclose(text);
    fclose(script);

    pcef_session *session = aligned_alloc(16, (pcef_size() + 15) / 16 * 16);
    if (!session) return 3;
    pcef_room(session);
    /* The first round isn't compared: what it takes for the buffers of the C library stays. */
    if (!play(session, length, count)) return 1;
    size_t before = in_use();
    for (long round = atol(argv[3]); round > 0; round--)
        if (!play(session, length, count)) return 1;
    size_t after = in_use();
    if (pcef_line(session, answer, 0, answer + 1, 1) != PCEF_NO_SESSION) return 1;
    if (pcef_close(session) != 0) return 1;
    long kept = growth(session, length, 0), let_go = growth(session, length, 1);
    free(session);
    printf("%s rounds, %zu lines each: %zu octets more in use\n", argv[3], count, after - before);
    printf("%d reports in one session: %ld octets more where none goes, %ld where each goes\n", REPORTS, kept, let_go);
    return after != before || kept < 0 || let_go != 0;
}
