/* A PCEF for tests, as an extension of freeDiameter 1.2 over the library for C: one session, opened when the peer is
 * there. Its packets and its end come as lines of a FIFO: `take COUNT` counts packets of 28 octets to the user, `end`
 * ends the session. What it sends and hears goes into freeDiameter's log.
 *
 *     gcc -Wall -O1 -shared -fPIC -I../../include -o pcef_host.fdx pcef_host.c LIBRARIES -lfdcore -lfdproto -lpthread
 *     freeDiameterd -c pcef.conf
 *
 * LIBRARIES are libpcef_c.a and the two of the toolchain (docs/EMBEDDING.md). freeDiameter calls back in threads of its
 * own, so messages are queued to the session's thread, the only one that makes calls. */
#include <freeDiameter/extension.h>
#include <pcef.h>
#include <stdlib.h>

#define GX 16777238
#define DICTIONARY (fd_g_config->cnf_dict)

static const uint8_t PACKET[] = {0x45, 0, 0, 28, 0, 0,   0, 0, 64,   17, 0, 0, 198, 51,
                                 100,  7, 10, 0, 0, 2, 0, 53, 0x13, 0x88, 0, 8, 0,   0};
static const char SESSION_ID[] = "pcef.example.net;7;1";

static struct fifo *events;
static char profile_path[256], fifo_path[256];
static pcef_session *session;
static pcef_worker *worker;
static pcef_gx *gx;

/* What the session's thread gets: a message of the PCRF, or a line. */
struct event {
    struct msg *message;
    int is_request;
    char line[64];
};

static void post(struct event event) {
    struct event *copy = malloc(sizeof *copy);
    if (!copy) return;
    *copy = event;
    if (fd_fifo_post(events, &copy)) free(copy);
}

static void *room(size_t size) {
    void *at;
    return posix_memalign(&at, 16, size) ? NULL : at;
}

/* An answer of the PCRF, or of a node on the way: it gets the identifiers that its CCR had, for freeDiameter has its
 * own. */
static void on_answer(void *data, struct msg **message) {
    struct msg *query = NULL;
    struct msg_hdr *asked, *answered;
    (void)data;
    if (!fd_msg_answ_getq(*message, &query) && query && !fd_msg_hdr(query, &asked) && !fd_msg_hdr(*message, &answered)) {
        answered->msg_hbhid = asked->msg_hbhid;
        answered->msg_eteid = asked->msg_eteid;
    }
    post((struct event){.message = *message});
    *message = NULL;
}

static int on_rar(struct msg **message, struct avp *avp, struct session *of, void *data, enum disp_action *action) {
    (void)avp, (void)of, (void)data, (void)action;
    post((struct event){.message = *message, .is_request = 1});
    *message = NULL;
    return 0;
}

/* The Service-Context-Id that freeDiameter's dictionary wants in each CCR. */
static int add_context(struct msg *message) {
    static char context[] = "32251@3gpp.org";
    struct dict_object *model;
    struct avp *avp;
    union avp_value value = {.os = {(uint8_t *)context, sizeof context - 1}};
    CHECK_FCT(fd_dict_search(DICTIONARY, DICT_AVP, AVP_BY_NAME_ALL_VENDORS, "Service-Context-Id", &model, ENOENT));
    CHECK_FCT(fd_msg_avp_new(model, 0, &avp));
    CHECK_FCT(fd_msg_avp_setvalue(avp, &value));
    return fd_msg_avp_add(message, MSG_BRW_LAST_CHILD, avp);
}

/* freeDiameter's message of octets that the library wrote. */
static struct msg *parsed(size_t (*write)(pcef_gx *, uint8_t *, size_t)) {
    size_t length = write(gx, NULL + 0, 0);
    uint8_t *octets = length ? malloc(length) : NULL;
    struct msg *message = NULL;
    if (!octets || write(gx, octets, length) != length || fd_msg_parse_buffer(&octets, length, &message)) {
        free(octets);
        return NULL;
    }
    if (fd_msg_parse_dict(message, DICTIONARY, NULL)) {
        fd_msg_free(message);
        return NULL;
    }
    return message;
}

static void send_request(void) {
    struct msg *message = parsed(pcef_gx_request);
    if (!message || add_context(message) || fd_msg_send(&message, on_answer, NULL)) fd_log_error("pcef_host: a CCR can't be sent");
}

/* Sends the CCR that is due. */
static void send_due(void) {
    uint8_t kind = pcef_gx_next(session, gx, (uint32_t)rand(), fd_msg_eteid_get());
    if (!kind) return;
    if (kind > PCEF_GX_TERMINATION) {
        fd_log_error("pcef_host: no CCR goes out: %d", kind);
        return;
    }
    fd_log_notice("pcef_host: a CCR goes out: %d", kind);
    send_request();
}

static void reply(struct msg *query) {
    struct msg *answer = parsed(pcef_gx_reply);
    if (!answer || fd_msg_answ_associate(answer, query) || fd_msg_send(&answer, NULL, NULL))
        fd_log_error("pcef_host: an answer can't be sent");
}

static int counts(int count) {
    pcef_packet packet = {PACKET, sizeof PACKET, sizeof PACKET, 0};
    pcef_verdict verdict;
    if (pcef_refresh(session, worker) == PCEF_MEET_NO_WORKER && pcef_attach(session, worker) > 15) return 0;
    while (count-- > 0) {
        size_t taken = pcef_take(worker, &packet, 1, &verdict, 1);
        if (taken != 1 && pcef_is_refused(pcef_flush(session, worker))) return 0;
        if (taken != 1 && pcef_take(worker, &packet, 1, &verdict, 1) != 1) return 0;
    }
    return !pcef_is_refused(pcef_flush(session, worker));
}

static void end(void) {
    pcef_finish(session, worker);
    fd_log_notice("pcef_host: the session ends: %d", pcef_gx_end(session, gx));
}

/* Whether the answer is freeDiameter's own: no peer is there. The CCR stays out, and goes once more when one may be. */
static int is_undelivered(struct msg *message) {
    struct msg_hdr *header;
    struct avp *avp = NULL;
    struct avp_hdr *code;
    struct dict_object *model;
    return !fd_msg_hdr(message, &header) && header->msg_flags & CMD_FLAG_ERROR &&
           !fd_dict_search(DICTIONARY, DICT_AVP, AVP_BY_NAME, "Result-Code", &model, ENOENT) &&
           !fd_msg_search_avp(message, model, &avp) && avp && !fd_msg_avp_hdr(avp, &code) && code->avp_value &&
           code->avp_value->u32 == 3002;
}

static void again(void) {
    sleep(1);
    if (pcef_gx_again(gx)) {
        fd_log_notice("pcef_host: the CCR goes out once more");
        send_request();
    }
}

static void hear(struct event *event) {
    uint8_t *octets = NULL;
    size_t length = 0;
    pcef_gx_rest left;
    if (!event->is_request && is_undelivered(event->message)) {
        fd_msg_free(event->message);
        again();
        return;
    }
    if (fd_msg_bufferize(event->message, &octets, &length)) return;
    int said = pcef_gx_message(session, gx, octets, length);
    free(octets);
    fd_log_notice("pcef_host: a message says %d, and the dialogue stands at %d", said, pcef_gx_stage(gx));
    if (event->is_request && said <= PCEF_GX_REFUSED) reply(event->message);
    else fd_msg_free(event->message);
    if (said < PCEF_GX_NO_DIALOGUE && pcef_gx_left(gx, &left) && left.has_release) end();
}

static void *run(void *data) {
    struct event *event;
    (void)data;
    /* Extensions start before the stack can send. */
    if (fd_core_waitstartcomplete()) return NULL;
    send_due();
    while (!fd_fifo_get(events, &event)) {
        int count;
        if (event->message) hear(event);
        else if (sscanf(event->line, "take %d", &count) == 1) fd_log_notice("pcef_host: packets count: %d", counts(count));
        else if (!strncmp(event->line, "end", 3)) end();
        free(event);
        send_due();
    }
    return NULL;
}

static void *read_lines(void *data) {
    FILE *lines = fopen(fifo_path, "r");
    struct event event = {0};
    (void)data;
    while (lines && fgets(event.line, sizeof event.line, lines)) post(event);
    return NULL;
}

/* Begins the dialogue of the session with the profile. */
static int begin(void) {
    static uint8_t text[65536];
    FILE *file = fopen(profile_path, "rb");
    size_t length = file ? fread(text, 1, sizeof text, file) : 0;
    if (file) fclose(file);
    session = room(pcef_size()), worker = room(pcef_worker_size()), gx = room(pcef_gx_size());
    if (!session || !worker || !gx) return ENOMEM;
    pcef_room(session);
    pcef_worker_room(worker);
    pcef_gx_room(gx);
    const char *parts[] = {SESSION_ID, fd_g_config->cnf_diamid, fd_g_config->cnf_diamrlm, fd_g_config->cnf_diamrlm};
    for (uint8_t part = 0; part < 4; part++)
        if (pcef_gx_set(gx, part, (const uint8_t *)parts[part], strlen(parts[part]))) return ENOMEM;
    return pcef_gx_open(gx, text, length) ? EINVAL : 0;
}

/* The argument: the path of the profile, a space, and that of the FIFO. */
static int start(char *words) {
    vendor_id_t vendor_id = 10415;
    application_id_t application_id = GX;
    struct dict_application_data named = {GX, "3GPP Gx"};
    struct dict_object *vendor, *application, *rar;
    struct disp_when when;
    pthread_t threads[2];
    if (!words || sscanf(words, "%255s %255s", profile_path, fifo_path) != 2) return EINVAL;
    CHECK_FCT(fd_dict_search(DICTIONARY, DICT_VENDOR, VENDOR_BY_ID, &vendor_id, &vendor, ENOENT));
    if (fd_dict_search(DICTIONARY, DICT_APPLICATION, APPLICATION_BY_ID, &application_id, &application, ENOENT))
        CHECK_FCT(fd_dict_new(DICTIONARY, DICT_APPLICATION, &named, vendor, &application));
    CHECK_FCT(fd_dict_search(DICTIONARY, DICT_COMMAND, CMD_BY_NAME, "Re-Auth-Request", &rar, ENOENT));
    memset(&when, 0, sizeof when);
    when.app = application;
    when.command = rar;
    CHECK_FCT(fd_disp_register(on_rar, DISP_HOW_CC, &when, NULL, NULL));
    CHECK_FCT(fd_disp_app_support(application, vendor, 1, 0));
    CHECK_FCT(fd_fifo_new(&events, 0));
    CHECK_FCT(begin());
    CHECK_POSIX(pthread_create(&threads[0], NULL, run, NULL));
    return pthread_create(&threads[1], NULL, read_lines, NULL);
}

void fd_ext_fini(void) {}

EXTENSION_ENTRY("pcef_host", start, "dict_dcca_3gpp");
