/* What the PCRF asks for and is told: one thread for the dialogues of all users, and for their coming and going. */
#include "gateway.h"

enum { RETRY_AFTER = 1000, TICK = 100, LAST_WAIT = 10000 }; /* milliseconds */
static uint8_t octets[MESSAGE];
static uint64_t ends_at; /* all have to leave by then; 0: nobody has */

/* Sends the CCR that is out. Where the stack doesn't take it, it goes out once more later. */
static void send_out(user *of) {
    size_t length = pcef_gx_request(of->gx, octets, sizeof octets);
    of->retry_at = gx_send_request(octets, length, of->number) ? 0 : milliseconds() + RETRY_AFTER;
}

/* Sends the CCR that is due, if none is out; of who leaves, a CCR-T in the end. Told reports are forgotten. */
static void send_due(user *of) {
    static uint32_t hop_by_hop;
    if (of->retry_at) return;
    pthread_mutex_lock(&of->lock);
    if (of->is_leaving && of->is_open && pcef_gx_stage(of->gx) == PCEF_GX_OPEN) pcef_gx_end(of->session, of->gx);
    uint8_t kind = pcef_gx_next(of->session, of->gx, ++hop_by_hop, gx_end_to_end());
    if (!kind && !pcef_gx_request(of->gx, octets, 0)) {
        size_t next = pcef_forget(of->session);
        if (next < PCEF_FORGOTTEN) of->next_report = next;
    }
    pthread_mutex_unlock(&of->lock);
    if (kind > PCEF_GX_TERMINATION) of->retry_at = milliseconds() + RETRY_AFTER;
    if (!kind || kind > PCEF_GX_TERMINATION) return;
    add(&requests_out[kind], 1);
    log_user(of, "told", ",\"by\":\"CCR-%c\"", "?IUT"[kind]);
    send_out(of);
}

/* Says who speaks, and begins the dialogue: PCEF_OK, or why it doesn't begin. */
static uint8_t propose(user *of) {
    static char profile[sizeof settings.profile + 64];
    char id[128];
    /* The APN "internet" as Called-Station-Id, and a Subscription-Id with an IMSI of 15 digits. */
    uint8_t avps[] = "\0\0\0\x1e\x40\0\0\x10internet\0\0\x01\xbb\x40\0\0\x2c\0\0\x01\xc2\x40\0\0\x0c\0\0\0\x01"
                     "\0\0\x01\xbc\x40\0\0\x17...............";
    memcpy(avps + 44, of->subscriber, 15);
    snprintf(id, sizeof id, "%s;%lu;%lu", settings.identity, milliseconds(), of->number);
    const char *parts[] = {id, settings.identity, settings.realm, settings.realm};
    uint8_t refused = pcef_gx_set(of->gx, PCEF_GX_AVPS, avps, sizeof avps);
    for (uint8_t part = 0; part < 4; part++)
        refused |= pcef_gx_set(of->gx, part, (const uint8_t *)parts[part], strlen(parts[part]));
    int length = snprintf(profile, sizeof profile, "ue = \"%s\"\n%s", of->text, settings.profile);
    log_user(of, "comes", ",\"subscriber\":\"%s\",\"session\":\"%s\"", of->subscriber, id);
    return refused ? refused : pcef_gx_open(of->gx, (const uint8_t *)profile, (size_t)length);
}

/* A user comes: a CCR-I goes out, and the answer opens its session. */
static void begin(const char *address, const char *subscriber, int device) {
    user *of = new_user(address, subscriber, device);
    uint8_t refused = of ? propose(of) : 255;
    if (!refused) return send_due(of);
    fprintf(stderr, "gateway: %s can't come: %d\n", address, refused);
    if (of) free_user(of);
}

/* A user leaves: its workers finish. Where the PCRF has still to open its session, it leaves after that. */
static void leave(user *of) {
    if (!of->is_leaving && of->is_open) finish_all(of);
    of->is_leaving = 1;
    send_due(of);
}

/* The session's rows or commands come to their end: it is renewed, and the PCRF hears of nothing but usage. The user's
 * packets are dropped meanwhile; where it can't be renewed now, until it can. */
static void renew(user *of) {
    finish_all(of);
    pthread_mutex_lock(&of->lock);
    uint8_t refused = pcef_gx_renew(of->session, of->gx);
    if (!refused) of->next_report = 0;
    pthread_mutex_unlock(&of->lock);
    atomic_store(&of->is_full, refused != 0);
    attach_all(of);
    log_user(of, "renewed", ",\"refused\":%d", refused);
    send_due(of);
    if (refused) of->retry_at = milliseconds() + RETRY_AFTER;
}

static void end(user *of, int is_told) {
    log_end(of, is_told ? "true" : "false");
    free_user(of);
}

/* Does what a message asks for, and what is to be done behind it. */
static void hear(user *of, struct msg *message) {
    pcef_gx_rest left = {0};
    size_t length, reply = 0;
    uint8_t *came = gx_octets(message, &length);
    pthread_mutex_lock(&of->lock);
    uint8_t said = came ? pcef_gx_message(of->session, of->gx, came, length) : PCEF_GX_NO_MESSAGE;
    if (said <= PCEF_GX_REFUSED) reply = pcef_gx_reply(of->gx, octets, sizeof octets);
    if (said < PCEF_GX_NO_DIALOGUE) pcef_gx_left(of->gx, &left);
    if (of->is_open) atomic_store(&of->generation, pcef_generation(of->session));
    pthread_mutex_unlock(&of->lock);
    free(came);
    uint8_t stage = pcef_gx_stage(of->gx);
    log_user(of, "heard", ",\"said\":%d,\"generation\":%lu", said, of->generation);
    gx_reply(message, octets, reply);
    if (said == PCEF_GX_FAILED || said == PCEF_GX_NO_MEMORY) of->retry_at = milliseconds() + RETRY_AFTER;
    if (said >= PCEF_GX_NO_DIALOGUE) return;
    int is_over = stage == PCEF_GX_OVER;
    if (is_over || (said == PCEF_GX_FAILED && stage != PCEF_GX_OPEN)) return end(of, is_over);
    if (stage == PCEF_GX_OPEN && !of->is_open) {
        attach_all(of);
        of->is_open = 1;
        log_user(of, "opened", ",\"generation\":%lu", of->generation);
        if (of->is_leaving) finish_all(of);
    }
    if (left.has_release) leave(of);
    send_due(of);
}

/* `open ADDRESS IMSI DEVICE` or `leave ADDRESS`. */
static void do_line(const char *line) {
    char address[48] = "", subscriber[16] = "";
    int device = 0;
    if (sscanf(line, "open %47s %15s %d", address, subscriber, &device) == 3) return begin(address, subscriber, device);
    if (sscanf(line, "leave %47s", address) != 1) fprintf(stderr, "gateway: no line: %s", line);
    for (user *of = NULL; (of = user_after(of));)
        if (!strcmp(of->text, address)) leave(of);
}

static void handle(const event *came) {
    user *of = user_numbered(came->number);
    if (came->kind == LINE_CAME) return do_line(came->line);
    if (came->message) return of ? hear(of, came->message) : gx_refuse(came->message);
    if (came->kind == ALL_LEAVE) {
        ends_at = milliseconds() + LAST_WAIT;
        for (of = NULL; (of = user_after(of));) leave(of);
    }
    if (of && came->kind == NO_ANSWER) of->retry_at = milliseconds() + RETRY_AFTER;
    if (of && came->kind == CCR_IS_DUE) of->is_full && !of->is_leaving ? renew(of) : send_due(of);
}

/* Sends once more what found no peer or no answer: with the T bit, for the PCRF may have heard it. */
static void retry(user *of) {
    of->retry_at = 0;
    if (of->is_full && !of->is_leaving) renew(of);
    if (!pcef_gx_again(of->gx)) return send_due(of);
    add(&requests_out[0], 1);
    log_user(of, "told", ",\"by\":\"CCR\",\"again\":true");
    send_out(of);
}

void *run_dialogues(void *nothing) {
    uint64_t tick = 0, now;
    while (!ends_at || (user_after(NULL) && milliseconds() < ends_at)) {
        event *came = next_event(milliseconds() + TICK);
        if (came) handle(came);
        free(came);
        if ((now = milliseconds()) < tick + TICK) continue;
        for (user *of = NULL; (of = user_after(of));)
            if (of->retry_at && of->retry_at <= now) retry(of);
        if (now / 1000 != tick / 1000) write_metrics();
        tick = now;
    }
    for (user *of; (of = user_after(NULL));) end(of, 0);
    write_metrics();
    return nothing;
}
