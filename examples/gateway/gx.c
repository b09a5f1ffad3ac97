/* freeDiameter in this process: it owns the connection, the peers and the identifiers, and calls back in threads of its
 * own. What comes waits in a queue for the dialogues' thread, with the events of other threads. */
#include <freeDiameter/extension.h>
#include "gateway.h"

#define DICTIONARY (fd_g_config->cnf_dict)
static struct fifo *events;

void post(event what) {
    event *copy = room(sizeof *copy);
    *copy = what;
    if (fd_fifo_post(events, &copy)) fail("the queue", 0);
}

/* The next event; none until then, in milliseconds since 1970. */
event *next_event(uint64_t until) {
    struct timespec at = {(time_t)(until / 1000), (long)(until % 1000) * 1000000};
    event *next = NULL;
    return fd_fifo_timedget(events, &next, &at) ? NULL : next;
}

/* Nothing was answered, or nothing that counts. */
static void on_silence(void *number, DiamId_t to, size_t to_length, struct msg **message) {
    (void)to, (void)to_length;
    fd_msg_free(*message);
    *message = NULL;
    post((event){.kind = NO_ANSWER, .number = (uintptr_t)number});
}

/* An answer gets the identifiers that its CCR had, for freeDiameter has its own. One with the E bit is of a node on the
 * way, or freeDiameter's own where no peer is there. */
static void on_answer(void *number, struct msg **message) {
    struct msg *query = NULL;
    struct msg_hdr *asked, *answered;
    if (fd_msg_answ_getq(*message, &query) || !query || fd_msg_hdr(query, &asked) || fd_msg_hdr(*message, &answered) ||
        answered->msg_flags & CMD_FLAG_ERROR)
        return on_silence(number, NULL, 0, message);
    answered->msg_hbhid = asked->msg_hbhid;
    answered->msg_eteid = asked->msg_eteid;
    post((event){.kind = MESSAGE_CAME, .number = (uintptr_t)number, .message = *message});
    *message = NULL;
}

/* A request is for the user whose number stands behind the last semicolon of its Session-Id. */
static int on_request(struct msg **message, struct avp *avp, struct session *of, void *data, enum disp_action *action) {
    os0_t id = NULL;
    size_t length = 0;
    const char *last = of && !fd_sess_getsid(of, &id, &length) ? strrchr((const char *)id, ';') : NULL;
    uint64_t number = last ? strtoull(last + 1, NULL, 10) : UINT64_MAX;
    (void)avp, (void)data, (void)action;
    post((event){.kind = MESSAGE_CAME, .number = number, .message = *message});
    *message = NULL;
    return 0;
}

uint8_t *gx_octets(struct msg *message, size_t *length) {
    uint8_t *octets = NULL;
    return fd_msg_bufferize(message, &octets, length) ? NULL : octets;
}

uint32_t gx_end_to_end(void) { return fd_msg_eteid_get(); }

/* freeDiameter's message of octets that the library wrote, if there was room for all. */
static struct msg *parsed(const uint8_t *octets, size_t length) {
    struct msg *message = NULL;
    uint8_t *copy = length <= MESSAGE ? memcpy(room(length), octets, length) : NULL;
    if (!copy || fd_msg_parse_buffer(&copy, length, &message)) free(copy);
    else if (!fd_msg_parse_dict(message, DICTIONARY, NULL)) return message;
    else fd_msg_free(message);
    return NULL;
}

/* Whether the stack took the CCR: then its answer comes, or NO_ANSWER. */
int gx_send_request(const uint8_t *octets, size_t length, uint64_t user_number) {
    struct msg *message = parsed(octets, length);
    struct timespec until = {.tv_sec = time(NULL) + 10};
    return message && !fd_msg_send_timeout(&message, on_answer, (void *)(uintptr_t)user_number, on_silence, &until);
}

/* Sends the reply to a message. One that has none, as an answer, is freed. */
void gx_reply(struct msg *message, const uint8_t *octets, size_t length) {
    struct msg *reply = length ? parsed(octets, length) : NULL;
    if (!reply) fd_msg_free(message);
    else if (fd_msg_answ_associate(reply, message) || fd_msg_send(&reply, NULL, NULL)) fd_msg_free(reply);
}

/* Answers a request of a session that isn't there; an answer for it is freed. */
void gx_refuse(struct msg *message) {
    if (fd_msg_new_answer_from_req(DICTIONARY, &message, 0) ||
        fd_msg_rescode_set(message, "DIAMETER_UNKNOWN_SESSION_ID", NULL, NULL, 1) || fd_msg_send(&message, NULL, NULL))
        fd_msg_free(message);
}

static void log_stack(int level, const char *format, va_list words) {
    if (level >= FD_LOG_ERROR) vfprintf(stderr, format, words), fputc('\n', stderr);
}

/* dict_dcca_3gpp has the AVPs of Gx, and not its application. */
static int add_application(void) {
    vendor_id_t vendor_id = 10415;
    struct dict_application_data named = {16777238, "3GPP Gx"};
    struct dict_object *vendor;
    struct disp_when when = {0};
    CHECK_FCT(fd_fifo_new(&events, 0));
    CHECK_FCT(fd_dict_search(DICTIONARY, DICT_VENDOR, VENDOR_BY_ID, &vendor_id, &vendor, ENOENT));
    CHECK_FCT(fd_dict_new(DICTIONARY, DICT_APPLICATION, &named, vendor, &when.app));
    CHECK_FCT(fd_dict_search(DICTIONARY, DICT_COMMAND, CMD_BY_NAME, "Re-Auth-Request", &when.command, ENOENT));
    CHECK_FCT(fd_disp_register(on_request, DISP_HOW_CC, &when, NULL, NULL));
    return fd_disp_app_support(when.app, vendor, 1, 0);
}

void gx_start(const char *configuration) {
    fd_log_handler_register(log_stack);
    if (fd_core_initialize() || fd_core_parseconf(configuration) || add_application() || fd_core_start() ||
        fd_core_waitstartcomplete())
        fail(configuration, 0);
    settings.identity = fd_g_config->cnf_diamid;
    settings.realm = fd_g_config->cnf_diamrlm;
}

void gx_stop(void) {
    fd_core_shutdown();
    fd_core_wait_shutdown_complete();
}
