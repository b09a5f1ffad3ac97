/* A peer: DPDK's rte_acl. The filters of both directions lie in one context with the 5-tuple in its key, a rule's place
 * as priority; a filter with port lists is as many of its rules as there are pairs of ranges. The first octet of the key
 * has the protocol's class (those that filters name, and one for all others), the direction, and whether there are ports.
 *
 *     acl ENTRIES PACKETS UE verdicts          the place of each packet's rule, or `unmatched`, `stray` or `none`
 *     acl ENTRIES PACKETS UE times SECONDS     WAY NANOSECONDS for each way: each algorithm of the processor with single
 *                                              look-ups, batches of 32, and batches whose headers are prefetched
 *     acl ENTRIES PACKETS UE steps             WAY INSTRUCTIONS
 * The time of the build stands on standard error. */
#include "packets.h"
#include <arpa/inet.h>
#include <rte_acl.h>
#include <rte_eal.h>
#include <rte_prefetch.h>
#include <rte_vect.h>
#include <rte_version.h>
#include <unistd.h>

enum { BATCH = 32, MOST_RANGES = 8, UNMATCHED = -1, STRAY = -2, NONE = -3 };

struct key {
    uint8_t kind, unused[3];
    uint32_t source, target;
    uint16_t source_port, target_port;
};

static struct rte_acl_field_def fields[5] = {
    {RTE_ACL_FIELD_TYPE_BITMASK, 1, 0, 0, offsetof(struct key, kind)},
    {RTE_ACL_FIELD_TYPE_MASK, 4, 1, 1, offsetof(struct key, source)},
    {RTE_ACL_FIELD_TYPE_MASK, 4, 2, 2, offsetof(struct key, target)},
    {RTE_ACL_FIELD_TYPE_RANGE, 2, 3, 3, offsetof(struct key, source_port)},
    {RTE_ACL_FIELD_TYPE_RANGE, 2, 4, 3, offsetof(struct key, target_port)}};
RTE_ACL_RULE_DEF(five, 5);

static struct rte_acl_ctx *context;
static enum rte_acl_classify_alg algorithm;
static uint8_t class_of[256];
static uint32_t own;
static int *verdicts;

typedef struct {
    int count;
    uint16_t low[MOST_RANGES], high[MOST_RANGES];
} ranges;

static ranges ranges_of(char *text) {
    ranges found = {0};
    if (*text == '*') return (ranges){1, {0}, {65535}};
    for (char *piece = strtok(text, ","); piece; piece = strtok(NULL, ",")) {
        if (sscanf(piece, "%hu-%hu", &found.low[found.count], &found.high[found.count]) != 2) fail(piece);
        found.count++;
    }
    return found;
}

static void add_entry(char *line) {
    int place, direction, proto, remote_bits, local_bits;
    uint32_t remote, local;
    char far_text[256], near_text[256];
    if (sscanf(line, "%d %d %d %u %d %u %d %255s %255s", &place, &direction, &proto, &remote, &remote_bits, &local,
               &local_bits, far_text, near_text) != 9)
        fail(line);
    int wants_ports = *far_text != '*' || *near_text != '*';
    ranges far = ranges_of(far_text), near = ranges_of(near_text);
    int remote_at = direction ? 1 : 2, local_at = 3 - remote_at;
    struct five rule;
    memset(&rule, 0, sizeof rule);
    rule.data = (struct rte_acl_rule_data){.category_mask = 1, .priority = 1000 - place, .userdata = (uint32_t)place + 1};
    rule.field[0].value.u8 = (uint8_t)((proto < 0 ? 0 : class_of[proto] << 2) | wants_ports << 1 | direction);
    rule.field[0].mask_range.u8 = (uint8_t)((proto < 0 ? 0 : 0xfc) | wants_ports << 1 | 1);
    rule.field[remote_at].value.u32 = remote;
    rule.field[remote_at].mask_range.u32 = (uint32_t)remote_bits;
    rule.field[local_at].value.u32 = local;
    rule.field[local_at].mask_range.u32 = (uint32_t)local_bits;
    for (int a = 0; a < far.count; a++)
        for (int b = 0; b < near.count; b++) {
            rule.field[remote_at + 2].value.u16 = far.low[a];
            rule.field[remote_at + 2].mask_range.u16 = far.high[a];
            rule.field[local_at + 2].value.u16 = near.low[b];
            rule.field[local_at + 2].mask_range.u16 = near.high[b];
            if (rte_acl_add_rules(context, (struct rte_acl_rule *)&rule, 1)) fail("a rule is refused");
        }
}

static void build(const char *path) {
    size_t length;
    char *text = (char *)whole_file(path, &length), *copy = strdup(text), *rest = NULL;
    int classes = 1, proto;
    for (char *line = strtok_r(copy, "\n", &rest); line; line = strtok_r(NULL, "\n", &rest))
        if (sscanf(line, "%*d %*d %d", &proto) == 1 && proto >= 0 && !class_of[proto]) class_of[proto] = (uint8_t)classes++;
    struct rte_acl_param params = {.name = "beside", .socket_id = SOCKET_ID_ANY, .rule_size = RTE_ACL_RULE_SZ(5), .max_rule_num = 100000};
    context = rte_acl_create(&params);
    if (!context) fail("no context");
    for (char *line = strtok_r(text, "\n", &rest); line; line = strtok_r(NULL, "\n", &rest)) add_entry(line);
    /* With a bound on its size it makes fewer tries, which are faster; without one where that can't be met. */
    struct rte_acl_config config = {.num_categories = 1, .num_fields = 5, .max_size = 128u << 20};
    memcpy(config.defs, fields, sizeof fields);
    double from = processor_time();
    if (rte_acl_build(context, &config)) {
        config.max_size = 0;
        if (rte_acl_build(context, &config)) fail("no build");
    }
    fprintf(stderr, "%s, built in %.0f us, bound %zu\n", rte_version(), (processor_time() - from) / 1e3, config.max_size);
}

/* Fills the key of a packet, or gives its verdict. */
static inline int fill(const recorded *packet, struct key *key) {
    header read;
    if (!read_header(packet, &read)) return NONE;
    if ((packet->direction ? read.target : read.source) != own) return STRAY;
    key->kind = (uint8_t)(class_of[read.proto] << 2 | read.has_ports << 1 | packet->direction);
    key->source = htonl(read.source);
    key->target = htonl(read.target);
    key->source_port = htons(read.source_port);
    key->target_port = htons(read.target_port);
    return 0;
}

static void judge_single(int first, int count) {
    for (int at = first; at < first + count; at++) {
        struct key key;
        const uint8_t *data = (const uint8_t *)&key;
        uint32_t found;
        int known = fill(&packets[at], &key);
        if (known) {
            verdicts[at] = known;
            continue;
        }
        rte_acl_classify_alg(context, &data, &found, 1, 1, algorithm);
        verdicts[at] = (int)found - 1;
    }
}

static inline void judge_in_batches(int first, int count, int is_ahead) {
    struct key keys[BATCH];
    const uint8_t *data[BATCH];
    uint32_t found[BATCH];
    int places[BATCH];
    for (int from = first; from < first + count; from += BATCH) {
        int end = from + BATCH < first + count ? from + BATCH : first + count, filled = 0;
        if (is_ahead)
            for (int at = from; at < end; at++) rte_prefetch0(packets[at].octets);
        for (int at = from; at < end; at++) {
            int known = fill(&packets[at], &keys[filled]);
            if (known) {
                verdicts[at] = known;
                continue;
            }
            data[filled] = (const uint8_t *)&keys[filled];
            places[filled++] = at;
        }
        rte_acl_classify_alg(context, data, found, (uint32_t)filled, 1, algorithm);
        for (int n = 0; n < filled; n++) verdicts[places[n]] = (int)found[n] - 1;
    }
}

static void judge_batches(int first, int count) { judge_in_batches(first, count, 0); }

static void judge_ahead(int first, int count) { judge_in_batches(first, count, 1); }

static const struct {
    const char *name;
    void (*judge)(int, int);
} ways[] = {{"single", judge_single}, {"batch", judge_batches}, {"ahead", judge_ahead}};

static const struct {
    const char *name;
    enum rte_acl_classify_alg number;
} algorithms[] = {{"scalar", RTE_ACL_CLASSIFY_SCALAR},
                  {"sse", RTE_ACL_CLASSIFY_SSE},
                  {"avx2", RTE_ACL_CLASSIFY_AVX2},
                  {"avx512x16", RTE_ACL_CLASSIFY_AVX512X16},
                  {"avx512x32", RTE_ACL_CLASSIFY_AVX512X32}};

/* Each way must give the same verdicts. */
static void compare(const char *name, void (*judge)(int, int), const int *due) {
    judge(0, packet_count);
    if (memcmp(verdicts, due, sizeof *due * (size_t)packet_count)) fail(name);
}

static void print_verdicts(const int *due) {
    for (int at = 0; at < packet_count; at++)
        if (due[at] >= 0)
            printf("%d\n", due[at]);
        else
            puts(due[at] == UNMATCHED ? "unmatched" : due[at] == STRAY ? "stray" : "none");
}

int main(int count, char **words) {
    char lcores[32];
    snprintf(lcores, sizeof lcores, "0@(0-%ld)", sysconf(_SC_NPROCESSORS_ONLN) - 1);
    char *eal[] = {"acl", "--no-huge", "--no-pci", "-m", "512", "--no-telemetry", "--no-shconf", "--lcores", lcores,
                   "--log-level=error", "--force-max-simd-bitwidth=512"};
    if (count < 5) fail("usage: acl ENTRIES PACKETS UE verdicts|times SECONDS|steps");
    if (rte_eal_init(sizeof eal / sizeof *eal, eal) < 0) fail("no environment");
    own = ntohl(inet_addr(words[3]));
    read_packets(words[2]);
    build(words[1]);
    verdicts = calloc((size_t)packet_count, sizeof *verdicts);
    int *due = calloc((size_t)packet_count, sizeof *due);
    algorithm = RTE_ACL_CLASSIFY_SCALAR;
    judge_single(0, packet_count);
    memcpy(due, verdicts, sizeof *due * (size_t)packet_count);
    if (!strcmp(words[4], "verdicts")) return print_verdicts(due), 0;
    for (size_t a = 0; a < sizeof algorithms / sizeof *algorithms; a++) {
        if (rte_acl_set_ctx_classify(context, algorithms[a].number)) continue;
        algorithm = algorithms[a].number;
        for (size_t w = 0; w < sizeof ways / sizeof *ways; w++) {
            compare(algorithms[a].name, ways[w].judge, due);
            printf("%s.%s %.1f\n", algorithms[a].name, ways[w].name,
                   !strcmp(words[4], "times") ? least_time(ways[w].judge, atof(words[5])) : step_count(ways[w].judge));
        }
    }
    return 0;
}
