/* A PCRF for tests, as an extension of freeDiameter 1.2: it answers each CCR of Gx with DIAMETER_SUCCESS, the first of
 * a session with the AVPs of the line `cca` of its rules, and then sends a RAR for each line `rar`, one every 0.7
 * seconds. One that reports usage is answered with the AVPs of a line `update`. What it receives goes into freeDiameter's
 * log; or, with `RULES FIFO HEARD` as the extension's argument, as lines of JSON into the file HEARD, and each line
 * `rar SESSION-ID AVPS` of the FIFO sends a RAR, to all sessions that it knows where SESSION-ID is `*`; behind the line
 * `mute` it hears CCRs and answers none.
 *
 *     gcc -Wall -O1 -shared -fPIC -o gx_pcrf.fdx gx_pcrf.c -lfdcore -lfdproto -lpthread
 *     freeDiameterd -c pcrf.conf
 *
 * README.md beside it has the packages, and the certificate that freeDiameter wants. rules.conf says how AVPs are
 * written. */
#include <ctype.h>
#include <fcntl.h>
#include <freeDiameter/extension.h>

#define GX 16777238
#define THREE_GPP 10415
#define MAX_TEXT 16384
#define MAX_RARS 16
#define MAX_ANSWERS 32
#define DICTIONARY (fd_g_config->cnf_dict)

static struct dict_object *credit_control_request, *re_auth_request;
static char rar_texts[MAX_RARS][MAX_TEXT];
static int rar_count;

/* What an answer says besides: to the first CCR, or to one that reports usage, of a subscriber or, where it is empty, of
 * those that no such line names. */
static struct answer {
    int is_first;
    char subscriber[64], text[MAX_TEXT];
} answers[MAX_ANSWERS];
static int answer_count;

/* A session as its first CCR names it. */
struct session_names {
    char id[256], host[256], realm[256], subscriber[64];
    int updates; /* how many of its CCRs reported usage */
    struct session_names *next;
};

static pthread_mutex_t lock = PTHREAD_MUTEX_INITIALIZER; /* round what follows */
static struct session_names *sessions;
static char commands_path[256];
static int heard = -1; /* the file for what is heard */
static volatile int is_mute;

static struct dict_object *avp_named(const char *name)
{
    struct dict_object *found = NULL;
    return fd_dict_search(DICTIONARY, DICT_AVP, AVP_BY_NAME_ALL_VENDORS, name, &found, ENOENT) ? NULL : found;
}

/* The value of an AVP's text, `"TEXT"`, `x:HEXADECIMAL` or a number, behind the `=`. Octets go to `octets`. */
static union avp_value value_of(const char **at, enum dict_avp_basetype type, uint8_t *octets, size_t room)
{
    union avp_value value;
    size_t len = 0;
    memset(&value, 0, sizeof value);
    if (type != AVP_TYPE_OCTETSTRING) {
        char *end;
        unsigned long long number = strtoull(*at, &end, 10);
        *at = end;
        if (type == AVP_TYPE_UNSIGNED64 || type == AVP_TYPE_INTEGER64)
            value.u64 = number;
        else
            value.u32 = (uint32_t)number;
        return value;
    }
    if (!strncmp(*at, "x:", 2)) {
        unsigned octet;
        for (*at += 2; len < room && isxdigit((unsigned char)**at) && sscanf(*at, "%2x", &octet) == 1; *at += 2)
            octets[len++] = (uint8_t)octet;
    } else if (**at == '"') {
        for (++*at; len < room && **at && **at != '"'; ++*at)
            octets[len++] = (uint8_t)**at;
        if (**at == '"')
            ++*at;
    }
    value.os.data = octets;
    value.os.len = len;
    return value;
}

/* Adds the AVPs of a text to a message or a grouped AVP, up to a `}` or the end. */
static int add_avps(msg_or_avp *parent, const char **at)
{
    for (;;) {
        char name[128];
        size_t len = 0;
        struct avp *avp;
        struct dict_avp_data kind;
        *at += strspn(*at, " ");
        if (!**at || **at == '}')
            return 0;
        while (**at && !strchr("={ ", **at) && len + 1 < sizeof name)
            name[len++] = *(*at)++;
        name[len] = 0;
        struct dict_object *model = avp_named(name);
        if (!model) {
            fd_log_error("gx_pcrf: no AVP is named '%s'", name);
            return EINVAL;
        }
        CHECK_FCT(fd_dict_getval(model, &kind));
        CHECK_FCT(fd_msg_avp_new(model, 0, &avp));
        if (**at == '{') {
            ++*at;
            CHECK_FCT(add_avps(avp, at));
            if (**at == '}')
                ++*at;
        } else if (**at == '=') {
            uint8_t octets[4096];
            ++*at;
            union avp_value value = value_of(at, kind.avp_basetype, octets, sizeof octets);
            CHECK_FCT(fd_msg_avp_setvalue(avp, &value));
        }
        CHECK_FCT(fd_msg_avp_add(parent, MSG_BRW_LAST_CHILD, avp));
    }
}

static int add_text(struct msg *message, const char *text)
{
    return add_avps(message, &text);
}

static void log_message(const char *what, struct msg *message)
{
    char *text = NULL;
    size_t len = 0;
    fd_log_notice("gx_pcrf: %s %s", what, fd_msg_dump_treeview(&text, &len, NULL, message, DICTIONARY, 1, 1));
    free(text);
}

/* ---- What is heard, as lines */

struct line {
    char text[8192];
    size_t length;
};

static void put(struct line *line, const char *format, ...) __attribute__((format(printf, 2, 3)));

static void put(struct line *line, const char *format, ...)
{
    va_list words;
    va_start(words, format);
    int more = vsnprintf(line->text + line->length, sizeof line->text - line->length, format, words);
    va_end(words);
    if (more > 0 && line->length + (size_t)more < sizeof line->text)
        line->length += (size_t)more;
}

/* The octets of an AVP, as JSON. */
static void put_octets(struct line *line, const union avp_value *value)
{
    put(line, "\"");
    for (size_t at = 0; at < value->os.len; at++) {
        uint8_t octet = value->os.data[at];
        if (octet < 0x20 || octet > 0x7e || octet == '"' || octet == '\\')
            put(line, "\\u%04x", octet);
        else
            put(line, "%c", octet);
    }
    put(line, "\"");
}

static struct avp *first_in(msg_or_avp *parent)
{
    struct avp *first = NULL;
    return fd_msg_browse(parent, MSG_BRW_FIRST_CHILD, &first, NULL) ? NULL : first;
}

static struct avp *behind(struct avp *avp)
{
    struct avp *next = NULL;
    return fd_msg_browse(avp, MSG_BRW_NEXT, &next, NULL) ? NULL : next;
}

/* What the AVPs of a message or a group say, of those that a PCRF for tests asks for. */
static void put_avps(struct line *line, msg_or_avp *parent)
{
    static const struct { uint32_t code; int kind; const char *name; } KNOWN[] = {
        {263, 't', "session"}, {416, 'n', "type"}, {415, 'n', "number"}, {444, 't', "subscriber"}, {268, 'n', "result"},
        {298, 'n', "experimental"}, {443, 'f', NULL}, {297, 'f', NULL}, {446, 'f', NULL}, {1067, 'g', "usage"},
        {1018, 'g', "rule"}, {1066, 't', "key"}, {421, 'l', "octets"}, {1005, 't', "name"}, {1019, 'n', "status"},
        {1031, 'n', "code"}, {1006, 'n', "trigger"}};
    for (struct avp *avp = first_in(parent); avp; avp = behind(avp)) {
        struct avp_hdr *header;
        if (fd_msg_avp_hdr(avp, &header))
            continue;
        for (size_t at = 0; at < sizeof KNOWN / sizeof *KNOWN; at++) {
            if (KNOWN[at].code != header->avp_code)
                continue;
            if (KNOWN[at].kind == 'f')
                put_avps(line, avp);
            else if (KNOWN[at].kind == 'g') {
                put(line, ",[\"%s\"", KNOWN[at].name);
                put_avps(line, avp);
                put(line, "]");
            } else if (header->avp_value && KNOWN[at].kind == 't') {
                put(line, ",[\"%s\",", KNOWN[at].name);
                put_octets(line, header->avp_value);
                put(line, "]");
            } else if (header->avp_value)
                put(line, ",[\"%s\",%llu]", KNOWN[at].name, KNOWN[at].kind == 'l'
                    ? (unsigned long long)header->avp_value->u64 : (unsigned long long)header->avp_value->u32);
        }
    }
}

/* Writes a line: the kind of a message, when it came or went, whether it has the T bit, and what it says. */
static void write_line(const char *what, struct msg *message)
{
    struct line line = {.length = 0};
    struct timespec now;
    struct msg_hdr *header;
    if (fd_msg_hdr(message, &header))
        return;
    clock_gettime(CLOCK_REALTIME, &now);
    put(&line, "[\"%s\",[\"time\",%ld.%09ld],[\"again\",%s]", what, (long)now.tv_sec, now.tv_nsec,
        header->msg_flags & CMD_FLAG_RETRANSMIT ? "true" : "false");
    put_avps(&line, message);
    put(&line, "]\n");
    if (write(heard, line.text, line.length) != (ssize_t)line.length)
        fd_log_error("gx_pcrf: a line can't be written");
}

static void tell(const char *what, struct msg *message)
{
    if (heard >= 0)
        write_line(what, message);
    else if (strcmp(what, "RAR"))
        log_message(what, message);
}

/* ---- Messages */

static void on_raa(void *data, struct msg **message)
{
    (void)data;
    tell("RAA", *message);
    fd_msg_free(*message);
    *message = NULL;
}

static int send_rar(const struct session_names *names, const char *text)
{
    struct msg *message;
    struct msg_hdr *header;
    char front[2048];
    CHECK_FCT(fd_msg_new(re_auth_request, MSGFL_ALLOC_ETEID, &message));
    CHECK_FCT(fd_msg_hdr(message, &header));
    header->msg_appl = GX;
    header->msg_flags |= CMD_FLAG_PROXIABLE;
    snprintf(front, sizeof front,
             "Session-Id=\"%s\" Auth-Application-Id=%d Origin-Host=\"%s\" Origin-Realm=\"%s\" "
             "Destination-Realm=\"%s\" Destination-Host=\"%s\" Re-Auth-Request-Type=0",
             names->id, GX, fd_g_config->cnf_diamid, fd_g_config->cnf_diamrlm, names->realm, names->host);
    CHECK_FCT(add_text(message, front));
    CHECK_FCT(add_text(message, text));
    tell("RAR", message);
    return fd_msg_send(&message, on_raa, NULL);
}

static void *send_rars(void *data)
{
    struct session_names *names = data;
    for (int number = 0; number < rar_count; number++) {
        usleep(700000);
        if (send_rar(names, rar_texts[number]))
            break;
    }
    free(names);
    return NULL;
}

static struct avp_hdr *avp_in(struct msg *message, const char *name)
{
    struct avp *avp = NULL;
    struct avp_hdr *header = NULL;
    if (fd_msg_search_avp(message, avp_named(name), &avp) || !avp || fd_msg_avp_hdr(avp, &header))
        return NULL;
    return header;
}

static uint32_t number_in(struct msg *message, const char *name)
{
    struct avp_hdr *header = avp_in(message, name);
    return header && header->avp_value ? header->avp_value->u32 : 0;
}

static void text_in(struct msg *message, const char *name, char *text, size_t room)
{
    struct avp_hdr *header = avp_in(message, name);
    size_t len = header && header->avp_value ? header->avp_value->os.len : 0;
    if (len >= room)
        len = room - 1;
    if (len)
        memcpy(text, header->avp_value->os.data, len);
    text[len] = 0;
}

/* The Subscription-Id-Data of a CCR; empty where there is none. */
static void subscriber_in(struct msg *message, char *text, size_t room)
{
    struct avp *group = NULL;
    text[0] = 0;
    if (fd_msg_search_avp(message, avp_named("Subscription-Id"), &group) || !group)
        return;
    for (struct avp *avp = first_in(group); avp; avp = behind(avp)) {
        struct avp_hdr *header;
        if (!fd_msg_avp_hdr(avp, &header) && header->avp_code == 444 && header->avp_value)
            snprintf(text, room, "%.*s", (int)header->avp_value->os.len, (const char *)header->avp_value->os.data);
    }
}

/* ---- What it answers */

static struct session_names **place_of(const char *id)
{
    struct session_names **at = &sessions;
    while (*at && strcmp((*at)->id, id))
        at = &(*at)->next;
    return at;
}

/* The text of the line for a CCR: the subscriber's own, else everybody's; of its lines `update` each for one CCR, in
 * order, and the last one for all that follow. */
static const char *line_for(const char *subscriber, int is_first, int turn)
{
    const char *own = NULL, *every = NULL;
    int own_turn = turn, every_turn = turn;
    for (int at = 0; at < answer_count; at++) {
        if (answers[at].is_first != is_first)
            continue;
        if (!answers[at].subscriber[0] && (!every || every_turn-- > 0))
            every = answers[at].text;
        if (answers[at].subscriber[0] && !strcmp(answers[at].subscriber, subscriber) && (!own || own_turn-- > 0))
            own = answers[at].text;
    }
    return own ? own : every ? every : "";
}

/* Keeps the sessions, and finds what the answer to a CCR says besides. */
static const char *answer_to(const struct session_names *names, uint32_t type, int has_usage)
{
    const char *text = "";
    pthread_mutex_lock(&lock);
    struct session_names **at = place_of(names->id), *known = *at;
    if (!known && type != 3 && (known = malloc(sizeof *known))) {
        *known = *names;
        known->next = sessions;
        sessions = known;
    }
    if (type == 1)
        text = line_for(names->subscriber, 1, 0);
    else if (type == 2 && has_usage && known)
        text = line_for(known->subscriber, 0, known->updates++);
    else if (type == 3 && known) {
        *at = known->next;
        free(known);
    }
    pthread_mutex_unlock(&lock);
    return text;
}

/* Sends RARs of the session that a CCR opened, from a thread of their own. */
static void begin_rars(const struct session_names *names)
{
    pthread_t thread;
    struct session_names *copy = malloc(sizeof *copy);
    if (!copy)
        return;
    *copy = *names;
    if (pthread_create(&thread, NULL, send_rars, copy))
        free(copy);
    else
        pthread_detach(thread);
}

static int on_ccr(struct msg **message, struct avp *avp, struct session *session, void *data, enum disp_action *action)
{
    struct session_names names = {.updates = 0};
    char front[256];
    const char *text;
    (void)avp, (void)session, (void)data;
    tell("CCR", *message);
    if (is_mute) {
        fd_msg_free(*message);
        *message = NULL;
        return 0;
    }
    uint32_t type = number_in(*message, "CC-Request-Type");
    uint32_t number = number_in(*message, "CC-Request-Number");
    text_in(*message, "Session-Id", names.id, sizeof names.id);
    text_in(*message, "Origin-Host", names.host, sizeof names.host);
    text_in(*message, "Origin-Realm", names.realm, sizeof names.realm);
    subscriber_in(*message, names.subscriber, sizeof names.subscriber);
    text = answer_to(&names, type, avp_in(*message, "Usage-Monitoring-Information") != NULL);
    CHECK_FCT(fd_msg_new_answer_from_req(DICTIONARY, message, 0));
    CHECK_FCT(fd_msg_rescode_set(*message, "DIAMETER_SUCCESS", NULL, NULL, 1));
    snprintf(front, sizeof front, "Auth-Application-Id=%d CC-Request-Type=%u CC-Request-Number=%u", GX, type, number);
    CHECK_FCT(add_text(*message, front));
    CHECK_FCT(add_text(*message, text));
    if (type == 1)
        begin_rars(&names);
    *action = DISP_ACT_SEND;
    return 0;
}

/* Sends a RAR to a session, which this node may know only by its Session-Id: that begins with the host's name. */
static void send_to(const char *id, const char *text)
{
    struct session_names names = {.updates = 0};
    snprintf(names.id, sizeof names.id, "%s", id);
    snprintf(names.host, sizeof names.host, "%.*s", (int)strcspn(id, ";"), id);
    snprintf(names.realm, sizeof names.realm, "%s", fd_g_config->cnf_diamrlm);
    if (send_rar(&names, text))
        fd_log_error("gx_pcrf: no RAR goes to %s", id);
}

static void send_to_all(const char *text)
{
    pthread_mutex_lock(&lock);
    for (struct session_names *known = sessions; known; known = known->next)
        send_to(known->id, text);
    pthread_mutex_unlock(&lock);
}

static void *obey(void *data)
{
    static char line[MAX_TEXT];
    (void)data;
    int file = open(commands_path, O_RDWR);
    FILE *commands = file < 0 || fd_core_waitstartcomplete() ? NULL : fdopen(file, "r");
    while (commands && fgets(line, sizeof line, commands)) {
        char id[256];
        int at = 0;
        line[strcspn(line, "\r\n")] = 0;
        if (!strcmp(line, "mute"))
            is_mute = 1;
        else if (sscanf(line, "rar %255s %n", id, &at) != 1 || !at)
            fd_log_error("gx_pcrf: '%s' is no command", line);
        else if (!strcmp(id, "*"))
            send_to_all(line + at);
        else
            send_to(id, line + at);
    }
    return NULL;
}

/* Keeps a line `cca AVPS` or `update AVPS`, or one of these behind `for SUBSCRIBER`. */
static void keep_answer(const char *line)
{
    struct answer *answer = &answers[answer_count];
    int at = 0;
    memset(answer, 0, sizeof *answer);
    if (sscanf(line, "for %63s %n", answer->subscriber, &at) == 1 && at)
        line += at;
    answer->is_first = !strncmp(line, "cca ", 4);
    if (answer_count + 1 == MAX_ANSWERS || (!answer->is_first && strncmp(line, "update ", 7)))
        return;
    strcpy(answer->text, strchr(line, ' '));
    answer_count++;
}

/* Reads the lines `cca`, `update` and `rar`; a line that begins with # is a comment. */
static int read_rules(const char *path)
{
    static char line[MAX_TEXT];
    FILE *file = path ? fopen(path, "r") : NULL;
    if (!file) {
        fd_log_error("gx_pcrf: %s can't be read", path ? path : "no file of rules");
        return ENOENT;
    }
    while (fgets(line, sizeof line, file)) {
        line[strcspn(line, "\r\n")] = 0;
        if (!strncmp(line, "rar ", 4) && rar_count < MAX_RARS)
            strcpy(rar_texts[rar_count++], line + 4);
        else
            keep_answer(line);
    }
    fclose(file);
    return 0;
}

/* RFC 8506 and the base protocol want AVPs in messages that TS 29.212 sends without them: their rules go. */
static int want_no_more(const char *command_name, const char *avp_name)
{
    struct dict_object *command, *rule;
    CHECK_FCT(fd_dict_search(DICTIONARY, DICT_COMMAND, CMD_BY_NAME, command_name, &command, ENOENT));
    struct dict_rule_request wanted = {command, avp_named(avp_name)};
    CHECK_FCT(fd_dict_search(DICTIONARY, DICT_RULE, RULE_BY_AVP_AND_PARENT, &wanted, &rule, ENOENT));
    return fd_dict_delete(rule);
}

/* The argument: the path of the rules, and where there are these, of the FIFO and of the file for what is heard. */
static int begin(const char *words)
{
    char rules[256], heard_path[256];
    pthread_t thread;
    int count = words ? sscanf(words, "%255s %255s %255s", rules, commands_path, heard_path) : 0;
    CHECK_FCT(read_rules(count > 0 ? rules : NULL));
    if (count < 3)
        return 0;
    heard = open(heard_path, O_WRONLY | O_CREAT | O_APPEND, 0600);
    return heard < 0 ? errno : pthread_create(&thread, NULL, obey, NULL);
}

/* dict_dcca_3gpp has the AVPs of Gx, and not its application; its commands are those of the base and of credit
 * control. */
static int start(char *rules)
{
    vendor_id_t vendor_id = THREE_GPP;
    application_id_t application_id = GX;
    struct dict_application_data named = {GX, "3GPP Gx"};
    struct dict_object *vendor, *application;
    struct disp_when when;
    CHECK_FCT(begin(rules));
    CHECK_FCT(fd_dict_search(DICTIONARY, DICT_VENDOR, VENDOR_BY_ID, &vendor_id, &vendor, ENOENT));
    if (fd_dict_search(DICTIONARY, DICT_APPLICATION, APPLICATION_BY_ID, &application_id, &application, ENOENT))
        CHECK_FCT(fd_dict_new(DICTIONARY, DICT_APPLICATION, &named, vendor, &application));
    CHECK_FCT(fd_dict_search(DICTIONARY, DICT_COMMAND, CMD_BY_NAME, "Credit-Control-Request", &credit_control_request,
                             ENOENT));
    CHECK_FCT(fd_dict_search(DICTIONARY, DICT_COMMAND, CMD_BY_NAME, "Re-Auth-Request", &re_auth_request, ENOENT));
    CHECK_FCT(want_no_more("Credit-Control-Request", "Service-Context-Id"));
    CHECK_FCT(want_no_more("Re-Auth-Answer", "Result-Code"));
    memset(&when, 0, sizeof when);
    when.app = application;
    when.command = credit_control_request;
    CHECK_FCT(fd_disp_register(on_ccr, DISP_HOW_CC, &when, NULL, NULL));
    return fd_disp_app_support(application, vendor, 1, 0);
}

void fd_ext_fini(void)
{
}

EXTENSION_ENTRY("gx_pcrf", start, "dict_dcca_3gpp");
