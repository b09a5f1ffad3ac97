/* The library for C on the peers' packets: a session with the rules of a file of lines judges them 32 in a call, or a
 * worker takes them and hands them over, 32 at a time.
 *
 *     ours PROFILE LINES PACKETS judge|take verdicts          the place of each packet's rule, or `unmatched` or `stray`
 *     ours PROFILE LINES PACKETS judge|take times SECONDS     the least nanoseconds of a packet in a pass; of a worker
 *                                                             first pcef_take alone, then with pcef_flush
 *     ours PROFILE LINES PACKETS judge|take PASSES            nothing, for callgrind */
#include "packets.h"
#include "pcef.h"
#include <x86intrin.h>

enum { BATCH = 32, ROOM = 1 << 20 };

static pcef_packet *handed;
static pcef_verdict *verdicts;
static uint8_t answer[ROOM];
static pcef_session *session;
static pcef_worker *worker;
static uint64_t ticks;

static void *room(size_t size) {
    void *at = aligned_alloc(16, (size + 15) / 16 * 16);
    if (!at) fail("no memory");
    return at;
}

static void open_session(const char *profile, const char *lines) {
    size_t length;
    const uint8_t *text = whole_file(profile, &length);
    session = room(pcef_size());
    pcef_room(session);
    if (pcef_open(session, text, length) != PCEF_OK) fail("no session");
    char *rest = NULL;
    for (char *line = strtok_r((char *)whole_file(lines, &length), "\n", &rest); line; line = strtok_r(NULL, "\n", &rest)) {
        size_t needed = pcef_line(session, (const uint8_t *)line, strlen(line), answer, ROOM - 1);
        answer[needed < ROOM ? needed : 0] = 0;
        if (!strstr((const char *)answer, "\"ok\":true")) fail((const char *)answer);
    }
}

static void attach(void) {
    worker = room(pcef_worker_size());
    pcef_worker_room(worker);
    if (pcef_attach(session, worker) > 15) fail("no worker");
}

static void hand_packets(const char *path) {
    read_packets(path);
    handed = calloc((size_t)packet_count, sizeof *handed);
    verdicts = calloc((size_t)packet_count, sizeof *verdicts);
    for (int at = 0; at < packet_count; at++)
        handed[at] = (pcef_packet){packets[at].octets, packets[at].length, packets[at].length, !packets[at].direction};
}

static size_t batch_at(int at, int end) { return (size_t)(end - at < BATCH ? end - at : BATCH); }

static void judge(int first, int count) {
    for (int at = first; at < first + count; at += BATCH) {
        size_t some = batch_at(at, first + count);
        pcef_judge(session, handed + at, some, verdicts + at, some);
    }
}

static void take(int first, int count) {
    ticks = 0;
    for (int at = first; at < first + count; at += BATCH) {
        size_t some = batch_at(at, first + count);
        uint64_t from = __rdtsc();
        size_t taken = pcef_take(worker, handed + at, some, verdicts + at, some);
        ticks += __rdtsc() - from;
        if (taken != some || pcef_is_refused(pcef_flush(session, worker))) fail("a packet is refused");
    }
}

static void print_verdicts(void) {
    for (int at = 0; at < packet_count; at++)
        if (verdicts[at].place != PCEF_NO_PLACE)
            printf("%d\n", verdicts[at].place);
        else
            puts(verdicts[at].status == PCEF_UNMATCHED ? "unmatched" : verdicts[at].status == PCEF_STRAY ? "stray" : "none");
}

static double wall_time(void) {
    struct timespec time;
    clock_gettime(CLOCK_MONOTONIC, &time);
    return (double)time.tv_sec * 1e9 + (double)time.tv_nsec;
}

/* The nanoseconds of a tick of the processor's clock. */
static double tick_time(void) {
    double from = wall_time();
    uint64_t started = __rdtsc();
    while (wall_time() - from < 2e7) {
    }
    return (wall_time() - from) / (double)(__rdtsc() - started);
}

/* Takes all packets again and again, and prints the least time of the calls of pcef_take in a pass, and of a pass. */
static void print_take_times(double seconds) {
    double least = 1e30, least_whole = 1e30, started = processor_time(), of_tick = tick_time();
    for (int pass = 0; pass < 3 || processor_time() - started < seconds * 1e9; pass++) {
        double from = processor_time();
        take(0, packet_count);
        double whole = processor_time() - from;
        if ((double)ticks * of_tick < least) least = (double)ticks * of_tick;
        if (whole < least_whole) least_whole = whole;
    }
    printf("%.1f %.1f\n", least / packet_count, least_whole / packet_count);
}

int main(int count, char **words) {
    if (count < 6) fail("usage: ours PROFILE LINES PACKETS judge|take verdicts|times SECONDS|PASSES");
    int is_take = !strcmp(words[4], "take");
    open_session(words[1], words[2]);
    hand_packets(words[3]);
    if (is_take) attach();
    void (*act)(int, int) = is_take ? take : judge;
    if (!strcmp(words[5], "verdicts")) {
        act(0, packet_count);
        print_verdicts();
    } else if (!strcmp(words[5], "times")) {
        double seconds = count > 6 ? atof(words[6]) : 0.2;
        if (is_take)
            print_take_times(seconds);
        else
            printf("%.1f\n", least_time(judge, seconds));
    } else {
        for (int pass = atoi(words[5]); pass > 0; pass--) act(0, packet_count);
    }
    pcef_close(session);
    return 0;
}
