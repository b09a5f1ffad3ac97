/* Plays the same random steps twice: in one session by lines, in the other by the calls of a worker. Each answer, each
 * report, each verdict and what is shown must be the same.
 *     same PROFILE.toml STEPS SEED */
#include "pcef.h"
#include <stdarg.h>
#include <stdio.h>
#include <stdlib.h>
#include <string.h>

enum { OCTETS = 28, MOST_GENERATIONS = 1 << 17, ROOM = 65536 };

static uint8_t profile[ROOM];
static char by_line[ROOM], by_call[ROOM], due[ROOM], reports[ROOM];
static char active[MOST_GENERATIONS][16]; /* for each generation, the names of its rules, one letter each */
static pcef_session *lines, *calls;
static pcef_worker *worker;
static int number = -1; /* of the worker, where one is attached */
static char waiting[32][128];
static int rows;
static uint64_t next_report, seed;
static unsigned long met[8], taken[PCEF_TAKE_NO_MEMORY + 1];

static unsigned random_below(unsigned limit) {
    seed ^= seed << 13, seed ^= seed >> 7, seed ^= seed << 17;
    return (unsigned)(seed >> 33) % limit;
}

static void same(int holds, const char *what) {
    if (holds) return;
    fprintf(stderr, "%s is not the same:\n%s\n%s\n%s\n", what, by_line, by_call, due);
    exit(1);
}

static void *room(size_t size) {
    void *at = aligned_alloc(16, (size + 15) / 16 * 16);
    if (!at) exit(3);
    return at;
}

static void answer(pcef_session *at, char *to, const char *text) {
    size_t length = pcef_line(at, (const uint8_t *)text, strlen(text), (uint8_t *)to, ROOM - 1);
    if (length >= ROOM) exit(4);
    to[length] = 0;
}

/* Does a line by the first session. */
static void line(const char *format, ...) {
    char text[512];
    va_list values;
    va_start(values, format);
    vsnprintf(text, sizeof text, format, values);
    va_end(values);
    answer(lines, by_line, text);
}

/* The reports that the second session made since it was asked last, which then are forgotten. */
static void gather(void) {
    size_t length = pcef_reports(calls, next_report, (uint8_t *)reports, ROOM - 1);
    if (length >= ROOM) exit(4);
    reports[length] = 0;
    next_report = pcef_forget(calls);
}

/* A command, by both. */
static void command(const char *format, ...) {
    char text[512], shown[ROOM];
    va_list values;
    va_start(values, format);
    vsnprintf(text, sizeof text, format, values);
    va_end(values);
    answer(lines, by_line, text);
    answer(calls, by_call, text);
    same(strcmp(by_line, by_call) == 0, text);
    next_report = pcef_forget(calls);
    answer(calls, shown, "{\"do\":\"show\"}");
    size_t generation = pcef_generation(calls);
    snprintf(due, sizeof due, "\"generation\":%zu,", generation);
    same(strstr(shown, due) != NULL, "the generation");
    for (uint8_t slot = 0; pcef_reported(calls, slot) != PCEF_NO_KEY; slot++) {
        snprintf(due, sizeof due, "\"reported\":%lu,\"unreported\":%lu}", (unsigned long)pcef_reported(calls, slot),
                 (unsigned long)pcef_unreported(calls, slot));
        same(strstr(shown, due) != NULL, "what a key counts");
    }
    char *to = active[generation % MOST_GENERATIONS];
    for (const char *from = strchr(shown, '[') + 1; *from != ']'; from++)
        if (*from >= 'a') *to++ = *from;
    *to = 0;
}

/* What a line has for a verdict. */
static void write_verdict(char *to, size_t size, const pcef_verdict *verdict) {
    static const char *const WORDS[] = {"Passed", "Gated", "Unmatched", "Stray"};
    const char *names = active[verdict->generation % MOST_GENERATIONS];
    char bearer[16] = "", rule[16] = "";
    uint8_t name = 0;
    size_t length = pcef_worker_rule(worker, verdict->place, &name, 1);
    if (verdict->place == PCEF_NO_PLACE)
        same(length == PCEF_NO_RULE, "that there is no rule");
    else
        same(length == 1 && name == names[verdict->place], "the name of a rule");
    if (verdict->status == PCEF_PASSED) snprintf(bearer, sizeof bearer, "\"bearer\":%u,", verdict->bearer);
    if (verdict->place != PCEF_NO_PLACE)
        snprintf(rule, sizeof rule, "\"rule\":\"%c\",", names[verdict->place]);
    snprintf(to, size, "{%s\"generation\":%u,%s\"verdict\":\"%s\"}", bearer, verdict->generation, rule,
             WORDS[verdict->status]);
}

/* A packet from one of eight ports, now and then a stray, cut short or of no version. */
static void take(void) {
    uint8_t octets[OCTETS] = {0x45, 0, 0, OCTETS, 0, 0, 0, 0, 64, 17, 0, 0, 198, 51,
                              100,  7, 10, 0, 0, 2, 0, 0, 0x13, 0x88, 0, 8, 0, 0};
    char digits[2 * OCTETS + 1] = "";
    unsigned kind = random_below(16), length = kind == 0 ? random_below(OCTETS) : OCTETS, up = random_below(8) == 0;
    octets[21] = (uint8_t)random_below(8);
    if (kind == 1) octets[0] = 0x55;
    if (kind == 2) octets[19] = 3;
    for (unsigned i = 0; i < length; i++) sprintf(digits + 2 * i, "%02x", octets[i]);
    line("{\"do\":\"take\",\"worker\":%d,\"dir\":\"%s\",\"packet\":\"%s\"}", number, up ? "up" : "down", digits);
    pcef_packet packet = {octets, length, length, (uint8_t)up};
    pcef_verdict verdict = {0};
    size_t count = pcef_take(worker, &packet, 1, &verdict, 1);
    taken[verdict.status]++;
    if (verdict.status == PCEF_FULL)
        snprintf(due, sizeof due, "\"name\":\"BatchFull\"");
    else if (verdict.status > PCEF_STRAY)
        snprintf(due, sizeof due, "{\"code\":%d,\"fault\":11,\"field\":\"packet\",\"name\":\"BadPacket\"}",
                 verdict.status - 4);
    else
        snprintf(due, sizeof due, "{\"ok\":true,\"waiting\":%d}", rows + 1);
    same(strstr(by_line, due) && count == (verdict.status != PCEF_FULL), "a packet");
    if (verdict.status <= PCEF_STRAY) write_verdict(waiting[rows++], sizeof *waiting, &verdict);
}

/* The reports, the number of rows where a worker finishes, and the verdicts. */
static void write_handed_over(const char *last) {
    gather();
    int length = snprintf(due, sizeof due, "\"reports\":%s,%s\"verdicts\":[", reports, last);
    for (int row = 0; row < rows; row++)
        length += snprintf(due + length, sizeof due - (size_t)length, "%s%s", row ? "," : "", waiting[row]);
    snprintf(due + length, sizeof due - (size_t)length, "]}");
}

static void hand_over(int finishes) {
    line("{\"do\":\"%s\",\"worker\":%d}", finishes ? "finish" : "flush", number);
    uint64_t next = finishes ? pcef_finish(calls, worker) : pcef_flush(calls, worker);
    if (next == PCEF_MEET_ROWS_FULL) {
        same(strstr(by_line, "\"RowsFull\"") != NULL, "what is full");
        met[0]++;
        finishes = 2;
        line("{\"do\":\"abandon\",\"worker\":%d}", number);
        snprintf(due, sizeof due, "{\"abandoned\":%d,", rows);
        same(pcef_abandon(calls, worker) == (uint64_t)rows && strstr(by_line, due), "what is abandoned");
    } else {
        same(!pcef_is_refused(next), "a hand-over");
        const char *count = strstr(by_line, "\"rows\":");
        char last[32] = "";
        if (finishes) snprintf(last, sizeof last, "%.*s", (int)strcspn(count, ",") + 1, count);
        write_handed_over(last);
        same(strstr(by_line, due) && next == next_report, "what is handed over");
        met[1]++;
    }
    rows = 0;
    if (finishes) number = -1;
}

static void attach(void) {
    line("{\"do\":\"attach\"}");
    uint8_t came = pcef_attach(calls, worker);
    if (came > 15) {
        same(came == PCEF_AT_NO_PLACE && strstr(by_line, "\"NoPlace\""), "why no worker comes");
        met[2]++;
        return;
    }
    number = came;
    snprintf(due, sizeof due, "{\"generation\":%zu,\"ok\":true,\"worker\":%d}", pcef_generation(calls), number);
    same(strcmp(by_line, due) == 0, "a worker that comes");
}

static void refresh(void) {
    line("{\"do\":\"refresh\",\"worker\":%d}", number);
    snprintf(due, sizeof due, "{\"generation\":%lu,\"ok\":true}", (unsigned long)pcef_refresh(calls, worker));
    same(strcmp(by_line, due) == 0, "a refresh");
}

static void random_command(void) {
    unsigned rule = random_below(4);
    switch (random_below(5)) {
    case 0: command("{\"do\":\"remove\",\"name\":\"%c\"}", 'a' + rule); break;
    case 1: command("{\"do\":\"monitor\",\"key\":\"k%u\",\"grant\":%u}", rule % 2, 1 + random_below(2000)); break;
    case 2: command("{\"do\":\"report\",\"key\":\"k%u\"}", rule % 2); break;
    default:
        command("{\"do\":\"install\",\"rule\":{\"name\":\"%c\",\"precedence\":%u,"
                "\"filters\":[{\"text\":\"permit out 17 from any %u-%u to assigned\"}],\"qci\":%u,"
                "\"arp\":{\"level\":8,\"capability\":false,\"vulnerability\":true},\"gate\":\"%s\",\"key\":\"k%u\"}}",
                'a' + rule, 1 + random_below(100), rule * 2, rule * 2 + random_below(4), 8 + rule % 2,
                random_below(4) ? "ENABLED" : "DISABLED", rule % 2);
    }
}

static void step(void) {
    unsigned kind = random_below(100);
    if (kind < 12)
        random_command();
    else if (number < 0)
        attach();
    else if (kind < 20)
        refresh();
    else if (kind < 24)
        hand_over(0);
    else if (kind == 24 && random_below(20) == 0)
        hand_over(1);
    else
        take();
}

int main(int argc, char **argv) {
    FILE *file = argc == 4 ? fopen(argv[1], "rb") : NULL;
    if (!file) return 2;
    size_t length = fread(profile, 1, sizeof profile, file);
    fclose(file);
    seed = strtoull(argv[3], NULL, 10) * 2654435761u + 1;
    lines = room(pcef_size()), calls = room(pcef_size()), worker = room(pcef_worker_size());
    pcef_room(lines);
    pcef_room(calls);
    pcef_worker_room(worker);
    if (pcef_open(lines, profile, length) != PCEF_OK || pcef_open(calls, profile, length) != PCEF_OK) return 1;
    command("{\"do\":\"triggers\",\"events\":[\"USAGE_REPORT\"]}");
    for (long done = 0; done < atol(argv[2]); done++) step();
    command("{\"do\":\"show\"}");
    printf("%s steps, seed %s: %lu hand-overs, %lu that found the rows full, %lu attaches without a place; "
           "packets passed %lu, gated %lu, unmatched %lu, stray %lu, full %lu; %lu reports: all the same\n",
           argv[2], argv[3], met[1], met[0], met[2], taken[PCEF_PASSED], taken[PCEF_GATED], taken[PCEF_UNMATCHED],
           taken[PCEF_STRAY], taken[PCEF_FULL], (unsigned long)next_report);
    pcef_drop_worker(worker);
    pcef_close(lines);
    pcef_close(calls);
    free(lines), free(calls), free(worker);
    return 0;
}
