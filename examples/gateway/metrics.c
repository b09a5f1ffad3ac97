/* Totals for Prometheus, and the log of sessions: a line of JSON on standard output for each thing that happens. */
#include "gateway.h"
#include <stdarg.h>
#include <time.h>

counter requests_out[4];

static struct totals {
    uint64_t packets[4], octets[4], unreported;
} ended; /* of sessions that ended */

uint64_t milliseconds(void) {
    struct timespec now;
    clock_gettime(CLOCK_REALTIME, &now);
    return (uint64_t)now.tv_sec * 1000 + (uint64_t)now.tv_nsec / 1000000;
}

static void add_user(struct totals *to, user *of) {
    for (int at = 0; at < 4 * settings.workers; at++) {
        to->packets[at % 4] += of->lanes[at / 4].packets[at % 4];
        to->octets[at % 4] += of->lanes[at / 4].octets[at % 4];
    }
    pthread_mutex_lock(&of->lock);
    for (uint8_t slot = 0; pcef_unreported(of->session, slot) < PCEF_NO_KEY; slot++)
        to->unreported += pcef_unreported(of->session, slot);
    pthread_mutex_unlock(&of->lock);
}

void log_user(const user *of, const char *what, const char *format, ...) {
    char more[512];
    va_list words;
    va_start(words, format);
    vsnprintf(more, sizeof more, format, words);
    va_end(words);
    printf("{\"time\":%.3f,\"user\":\"%s\",\"is\":\"%s\"%s}\n", (double)milliseconds() / 1000, of->text, what, more);
}

/* What a session counted in the end, and whether the PCRF has heard all of it. */
void log_end(user *of, const char *is_told) {
    struct totals all = {0};
    add_user(&all, of);
    add_user(&ended, of);
    log_user(of, "ended", ",\"told\":%s,\"packets\":[%lu,%lu,%lu,%lu],\"passed\":[%lu,%lu],\"dropped\":[%lu,%lu],"
             "\"unreported\":%lu", is_told, all.packets[0], all.packets[1], all.packets[2], all.packets[3], all.octets[0],
             all.octets[1], all.octets[2], all.octets[3], all.unreported);
}

/* Writes a metric, each number behind its label. */
static void put(FILE *to, const char *name, const char *kind, const char *help, int count, const char *const *labels,
                const uint64_t *numbers) {
    fprintf(to, "# HELP %s %s\n# TYPE %s %s\n", name, help, name, kind);
    for (int i = 0; i < count; i++) fprintf(to, "%s%s %lu\n", name, labels[i], numbers[i]);
}

/* Writes the totals so far beside the file, and renames it, so that who reads it reads all of it. */
void write_metrics(void) {
    static const char *const LABELS[] = {"", "{verdict=\"Passed\"}", "{verdict=\"Gated\"}", "{verdict=\"Unmatched\"}",
        "{verdict=\"Stray\"}", "{direction=\"down\"}", "{direction=\"up\"}", "{kind=\"again\"}", "{kind=\"initial\"}",
        "{kind=\"update\"}", "{kind=\"termination\"}"};
    uint64_t open = 0, without = 0, out[] = {requests_out[0], requests_out[1], requests_out[2], requests_out[3]};
    struct totals all = ended;
    char path[4096];
    snprintf(path, sizeof path, "%s.new", settings.metrics ? settings.metrics : "");
    FILE *to = settings.metrics ? fopen(path, "w") : NULL;
    if (!to) return;
    for (user *of = NULL; (of = user_after(of)); open += (uint64_t)of->is_open) add_user(&all, of);
    for (int i = 0; i < settings.workers; i++) without += workers[i].without_session;
    put(to, "pcef_open_sessions", "gauge", "Sessions that are open.", 1, LABELS, &open);
    put(to, "pcef_packets_total", "counter", "Packets by their verdict.", 4, LABELS + 1, all.packets);
    put(to, "pcef_packets_without_session_total", "counter", "Packets of no user.", 1, LABELS, &without);
    put(to, "pcef_passed_bytes_total", "counter", "Octets that passed.", 2, LABELS + 5, all.octets);
    put(to, "pcef_dropped_bytes_total", "counter", "Octets that didn't pass.", 2, LABELS + 5, all.octets + 2);
    put(to, "pcef_unreported_bytes", "gauge", "Octets that aren't reported yet.", 1, LABELS, &all.unreported);
    put(to, "pcef_gx_requests_total", "counter", "CCRs that went out.", 4, LABELS + 7, out);
    if (!fclose(to)) rename(path, settings.metrics);
}
