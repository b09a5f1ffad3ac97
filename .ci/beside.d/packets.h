/* What the peers in C share: sets of packets, the parse of a header, times, and a count of instructions by the
 * processor's trap flag, which also counts what valgrind can't run (AVX-512). */
#ifndef PACKETS_H
#define PACKETS_H
#include <signal.h>
#include <stdint.h>
#include <stdio.h>
#include <stdlib.h>
#include <string.h>
#include <time.h>

typedef struct {
    const uint8_t *octets;
    uint32_t length;
    uint32_t direction; /* 0 up, 1 down */
} recorded;

typedef struct {
    uint32_t source, target;
    uint16_t source_port, target_port;
    uint8_t proto, has_ports;
} header;

static recorded *packets;
static int packet_count;

static void fail(const char *why) {
    fprintf(stderr, "%s\n", why);
    exit(1);
}

static uint8_t *whole_file(const char *path, size_t *length) {
    FILE *file = fopen(path, "rb");
    if (!file) fail(path);
    fseek(file, 0, SEEK_END);
    *length = (size_t)ftell(file);
    rewind(file);
    uint8_t *octets = malloc(*length + 1);
    if (!octets || fread(octets, 1, *length, file) != *length) fail(path);
    octets[*length] = 0;
    fclose(file);
    return octets;
}

/* Reads a file of packets in bench_pcef's format. */
static void read_packets(const char *path) {
    size_t length;
    const uint8_t *octets = whole_file(path, &length), *end = octets + length;
    uint32_t count;
    memcpy(&count, octets, 4);
    packets = calloc(count, sizeof *packets);
    for (octets += 4; octets < end && (uint32_t)packet_count < count; packet_count++) {
        uint32_t own = octets[0] | (uint32_t)octets[1] << 8;
        packets[packet_count] = (recorded){octets + 3, own, octets[2]};
        octets += 3 + own;
    }
}

static inline uint16_t pair(const uint8_t *octets) { return (uint16_t)(octets[0] << 8 | octets[1]); }

static inline uint32_t word(const uint8_t *octets) { return (uint32_t)pair(octets) << 16 | pair(octets + 2); }

/* Reads an IPv4 header with all checks of its lengths; 0 where it is none. */
static inline int read_header(const recorded *packet, header *into) {
    const uint8_t *octets = packet->octets;
    if (packet->length < 20 || octets[0] >> 4 != 4) return 0;
    uint32_t own = (octets[0] & 15u) * 4, total = pair(octets + 2);
    if (own < 20 || own > packet->length || total < own || total > packet->length) return 0;
    into->source = word(octets + 12);
    into->target = word(octets + 16);
    into->proto = octets[9];
    into->has_ports = (into->proto == 6 || into->proto == 17 || into->proto == 132) &&
                      !(pair(octets + 6) & 0x1fff) && total >= own + 4;
    into->source_port = into->has_ports ? pair(octets + own) : 0;
    into->target_port = into->has_ports ? pair(octets + own + 2) : 0;
    return 1;
}

static inline double processor_time(void) {
    struct timespec time;
    clock_gettime(CLOCK_PROCESS_CPUTIME_ID, &time);
    return (double)time.tv_sec * 1e9 + (double)time.tv_nsec;
}

static volatile uint64_t steps;

static inline void on_step(int signal) {
    (void)signal;
    steps++;
}

static inline void begin_steps(void) {
    struct sigaction action;
    memset(&action, 0, sizeof action);
    action.sa_handler = on_step;
    sigaction(SIGTRAP, &action, NULL);
    steps = 0;
    __asm__ volatile("sub $128, %%rsp\n pushfq\n orl $0x100, (%%rsp)\n popfq\n add $128, %%rsp" ::: "memory", "cc");
}

static inline uint64_t end_steps(void) {
    __asm__ volatile("sub $128, %%rsp\n pushfq\n andl $~0x100, (%%rsp)\n popfq\n add $128, %%rsp" ::: "memory", "cc");
    return steps;
}

/* Judges all packets again and again for some seconds, and gives the least nanoseconds of a packet in a pass. */
static inline double least_time(void (*judge)(int first, int count), double seconds) {
    double least = 1e30, started = processor_time();
    for (int pass = 0; pass < 3 || processor_time() - started < seconds * 1e9; pass++) {
        double from = processor_time();
        judge(0, packet_count);
        double taken = processor_time() - from;
        if (taken < least) least = taken;
    }
    return least / packet_count;
}

/* Instructions of a packet, over the first ones. */
static inline double step_count(void (*judge)(int first, int count)) {
    int count = packet_count < 1024 ? packet_count : 1024;
    begin_steps();
    judge(0, count);
    return (double)end_steps() / count;
}
#endif
