/* serve BROKERS PARTITION PROFILE: answers the lines of one partition of the Kafka topic `lines` on the topic
 * `answers`, and waits for more. The key of a message is its session's name, its value the line. An answer has the same
 * key; its value is the line's offset, a space, and the answer, and its header `partition` has the line's partition.
 * Each message has one answer, which leaves as soon as it is made.
 *
 * The topic `sessions` has a record of each open session in the same partition, under its name: the offset behind the
 * last `open` or `renew` that was done, a space, and the session's list behind that line. A record is written once all
 * answers up to its offset are delivered, in the order of the lines. Then the offset up to which answers are delivered
 * is committed for the group `pcef`. Then a record without a value is written for each session that ended.
 *
 * Begun again, it makes each session anew by the list of its newest record, and reads from the least offset of these
 * on, or from the first line on where there is none. It passes over a session's lines below its own offset, and answers
 * only the lines from the committed one on.
 *
 * SIGTERM ends it after the answers to what it read. It ends with the status of its program, `pcef many`, where $PCEF
 * names `pcef`, or it is on the path; with 2 for wrong words, with 4 where the brokers fail, or lines or records don't fit.
 *
 *     cc -O2 -o serve serve.c sessions.c program.c -lrdkafka -ljansson
 */
#define _GNU_SOURCE
#include "sessions.h"

#include <librdkafka/rdkafka.h>
#include <stdlib.h>
#include <string.h>

enum { WAIT = 100, PATIENCE = 30000, MOST_AT_ONCE = 1000 };

struct service {
    struct program program;
    struct sessions sessions;
    rd_kafka_t *reader, *writer;
    int32_t partition;
    /* The first offset whose answer may not be delivered yet, and the first one that isn't committed. */
    int64_t next, committed;
    /* What isn't written yet: records, each a list of name and value, and the names of sessions that ended. */
    json_t *records, *ended;
    /* Whether the program gave no list: a later record would let the next process begin too late. */
    bool is_without_lists;
    bool is_failed;
};

/* A message to send. Its value is NULL where a session ended. */
struct message {
    const char *topic;
    int32_t partition;
    const char *key;
    size_t key_length;
    const char *value;
};

static void complain(struct service *it, const char *what, const char *why) {
    fprintf(stderr, "serve: %s: %s\n", what, why);
    it->is_failed = true;
}

static void delivered(rd_kafka_t *writer, const rd_kafka_message_t *message, void *service) {
    (void)writer;
    if (message->err) complain(service, "a message isn't delivered", rd_kafka_err2str(message->err));
}

/* A client with pairs of words for its settings; the last pair is followed by NULL. */
static rd_kafka_t *client(struct service *it, rd_kafka_type_t type, const char *const *settings) {
    char why[512];
    rd_kafka_conf_t *conf = rd_kafka_conf_new();
    for (; *settings; settings += 2)
        if (rd_kafka_conf_set(conf, settings[0], settings[1], why, sizeof why)) complain(it, settings[0], why);
    rd_kafka_conf_set_opaque(conf, it);
    if (type == RD_KAFKA_PRODUCER) rd_kafka_conf_set_dr_msg_cb(conf, delivered);
    rd_kafka_t *made = it->is_failed ? NULL : rd_kafka_new(type, conf, why, sizeof why);
    if (!made && !it->is_failed) complain(it, "no client", why);
    return made;
}

/* Asks the brokers for the topics that are written, or the first message would wait a second for that. */
static void ask_topics(struct service *it) {
    const rd_kafka_metadata_t *told = NULL;
    rd_kafka_topic_t *topics[] = {rd_kafka_topic_new(it->writer, "answers", NULL),
                                  rd_kafka_topic_new(it->writer, "sessions", NULL)};
    rd_kafka_resp_err_t fault = rd_kafka_metadata(it->writer, 0, NULL, &told, PATIENCE);
    if (fault) complain(it, "the topics to write aren't there", rd_kafka_err2str(fault));
    if (told) rd_kafka_metadata_destroy(told);
    for (int place = 0; place < 2; place++) rd_kafka_topic_destroy(topics[place]);
}

/* Reads a topic's partition from an offset on. */
static rd_kafka_resp_err_t reads(struct service *it, const char *topic, int64_t offset) {
    rd_kafka_topic_partition_list_t *list = rd_kafka_topic_partition_list_new(1);
    rd_kafka_topic_partition_list_add(list, topic, it->partition)->offset = offset;
    rd_kafka_resp_err_t fault = rd_kafka_assign(it->reader, list);
    rd_kafka_topic_partition_list_destroy(list);
    return fault;
}

/* Whether a message is none but a state of the connection, which mends itself, or the topic's end. */
static bool is_passing(const rd_kafka_message_t *message) {
    return message->err == RD_KAFKA_RESP_ERR__TRANSPORT || message->err == RD_KAFKA_RESP_ERR__ALL_BROKERS_DOWN ||
           message->err == RD_KAFKA_RESP_ERR__PARTITION_EOF;
}

/* Reads the newest record of each session, up to the end that the topic has now. */
static void read_records(struct service *it) {
    int64_t low = 0, high = 0;
    rd_kafka_resp_err_t fault =
        rd_kafka_query_watermark_offsets(it->reader, "sessions", it->partition, &low, &high, PATIENCE);
    if (!fault && low < high) fault = reads(it, "sessions", low);
    while (!fault && low < high && !is_told_to_end()) {
        rd_kafka_message_t *one = rd_kafka_consumer_poll(it->reader, WAIT);
        if (!one) continue;
        if (!one->err) {
            sessions_take(&it->sessions, one->key, one->key_len, one->len ? one->payload : NULL, one->len);
            low = one->offset + 1;
        } else if (!is_passing(one))
            fault = one->err;
        /* A broker that compacts may have dropped the last record. */
        if (one->err == RD_KAFKA_RESP_ERR__PARTITION_EOF) low = high;
        rd_kafka_message_destroy(one);
    }
    if (fault) complain(it, "the records of sessions can't be read", rd_kafka_err2str(fault));
    if (*it->sessions.fault) complain(it, "a record of a session can't be read", it->sessions.fault);
}

/* Asks how far answers were committed. */
static void ask_committed(struct service *it) {
    rd_kafka_topic_partition_list_t *list = rd_kafka_topic_partition_list_new(1);
    rd_kafka_topic_partition_t *one = rd_kafka_topic_partition_list_add(list, "lines", it->partition);
    rd_kafka_resp_err_t fault = rd_kafka_committed(it->reader, list, PATIENCE);
    if (!fault) fault = one->err;
    it->committed = one->offset < 0 ? 0 : one->offset;
    it->next = it->committed;
    if (fault) complain(it, "the committed offset can't be read", rd_kafka_err2str(fault));
    rd_kafka_topic_partition_list_destroy(list);
}

/* The offset to read on from: the least of the records', or the topic's first one. Negative where lines don't fit. */
static int64_t first_offset(struct service *it) {
    int64_t low = 0, high = 0;
    rd_kafka_resp_err_t fault =
        rd_kafka_query_watermark_offsets(it->reader, "lines", it->partition, &low, &high, PATIENCE);
    bool has_records = sessions_span(&it->sessions);
    int64_t least = has_records ? (int64_t)it->sessions.least.number : low;
    int64_t greatest = has_records ? (int64_t)it->sessions.greatest.number : low;
    if (fault)
        complain(it, "the partition can't be read", rd_kafka_err2str(fault));
    else if (it->committed > high || greatest > high)
        complain(it, "the topic of lines was made anew", "an answer or a record is of an offset beyond its last line");
    else if (least < low)
        complain(it, "lines of an open session are gone", "the topic has to keep all behind its last open or renew");
    return it->is_failed ? -1 : least;
}

/* Makes the sessions of the records anew, and reads on behind them. False where lines can't be served. */
static bool begins(struct service *it) {
    ask_topics(it);
    if (!it->is_failed) ask_committed(it);
    if (!it->is_failed) read_records(it);
    int64_t from = it->is_failed || is_told_to_end() ? -1 : first_offset(it);
    if (from < 0) return false;
    if (!sessions_play(&it->sessions, &it->program)) {
        if (*it->sessions.fault) complain(it, "a session can't be made anew", it->sessions.fault);
        return false;
    }
    rd_kafka_resp_err_t fault = reads(it, "lines", from);
    if (fault) complain(it, "the partition can't be read", rd_kafka_err2str(fault));
    return !fault;
}

/* Hands a message to the writer, which sends it at once. */
static void send_message(struct service *it, const struct message *message) {
    char partition[16];
    snprintf(partition, sizeof partition, "%d", it->partition);
    rd_kafka_resp_err_t fault;
    do {
        fault = rd_kafka_producev(it->writer, RD_KAFKA_V_TOPIC(message->topic),
                                  RD_KAFKA_V_PARTITION(message->partition),
                                  RD_KAFKA_V_KEY(message->key, message->key_length),
                                  RD_KAFKA_V_VALUE((char *)message->value, message->value ? strlen(message->value) : 0),
                                  RD_KAFKA_V_HEADER("partition", partition, -1),
                                  RD_KAFKA_V_MSGFLAGS(RD_KAFKA_MSG_F_COPY), RD_KAFKA_V_END);
        if (fault == RD_KAFKA_RESP_ERR__QUEUE_FULL) rd_kafka_poll(it->writer, WAIT);
    } while (fault == RD_KAFKA_RESP_ERR__QUEUE_FULL);
    if (fault) complain(it, "a message isn't sent", rd_kafka_err2str(fault));
}

/* An offset, a space and a text; NULL, with a word about it, where there is no memory. */
static char *text_at(struct service *it, int64_t offset, const char *text) {
    char *value = NULL;
    if (asprintf(&value, "%lld %s", (long long)offset, text) >= 0) return value;
    complain(it, "a message isn't sent", "want of memory");
    return NULL;
}

static void answer_line(struct service *it, const rd_kafka_message_t *line, const char *answer) {
    char *value = text_at(it, line->offset, answer);
    if (!value) return;
    send_message(it, &(struct message){"answers", RD_KAFKA_PARTITION_UA, line->key, line->key_len, value});
    free(value);
}

/* Keeps a record until all answers up to its line are delivered. False where the program has ended. */
static bool is_recorded(struct service *it, const rd_kafka_message_t *line) {
    const char *list = NULL;
    if (it->is_without_lists) return true;
    if (!is_listed(&it->program, line->key, line->key_len, &list)) return false;
    it->is_without_lists = !list;
    if (!list) fprintf(stderr, "serve: the program gives no list of lines, so no session is recorded from here on\n");
    char *value = list ? text_at(it, line->offset + 1, list) : NULL;
    if (!value) return true;
    json_t *record = json_pack("[s%s]", line->key, line->key_len, value);
    if (!record || json_array_append_new(it->records, record)) complain(it, "no record", "want of memory");
    json_object_deln(it->ended, line->key, line->key_len);
    free(value);
    return true;
}

/* Answers a line, and keeps what it did to its session. False where the program has ended. */
static bool is_answered(struct service *it, const rd_kafka_message_t *line) {
    const char *answer = why_no_line(line->key, line->key_len, line->payload, line->len);
    bool is_line = !answer;
    if (is_line && is_passed_over(&it->sessions, line->key, line->key_len,
                                  (struct place){(unsigned long long)line->offset + 1, 0}))
        return true;
    if (is_line) answer = program_answers(&it->program, line->key, line->key_len, line->payload, line->len);
    if (!answer) return false;
    if (line->offset >= it->committed) answer_line(it, line, answer);
    enum deed deed = is_line ? deed_of(line->payload, line->len, answer) : WENT_ON;
    if (deed == ENDED) json_object_setn_new(it->ended, line->key, line->key_len, json_true());
    return deed != BEGAN || is_recorded(it, line);
}

/* Serves one message; false where the program has ended, or something failed. */
static bool is_served(struct service *it, const rd_kafka_message_t *line) {
    if (is_passing(line)) return true;
    if (line->err) {
        complain(it, "a line isn't read", rd_kafka_message_errstr(line));
        return false;
    }
    if (!is_answered(it, line)) return false;
    if (line->offset >= it->next) it->next = line->offset + 1;
    return !it->is_failed;
}

/* Waits until all messages are delivered. */
static void deliver(struct service *it) {
    rd_kafka_resp_err_t fault = rd_kafka_flush(it->writer, PATIENCE);
    if (fault) complain(it, "messages aren't delivered", rd_kafka_err2str(fault));
}

/* Writes the records in the order of their lines, so that those of a process that is killed here are the first ones. */
static void write_records(struct service *it) {
    size_t place;
    json_t *record;
    json_array_foreach(it->records, place, record) {
        const json_t *name = json_array_get(record, 0);
        const char *value = json_string_value(json_array_get(record, 1));
        send_message(it, &(struct message){"sessions", it->partition, json_string_value(name), json_string_length(name),
                                           value});
    }
    json_array_clear(it->records);
    deliver(it);
}

static void write_ends(struct service *it) {
    const char *name;
    json_t *is_ended;
    json_object_foreach(it->ended, name, is_ended)
        send_message(it, &(struct message){"sessions", it->partition, name, strlen(name), NULL});
    json_object_clear(it->ended);
    deliver(it);
}

static void commit_offset(struct service *it, bool is_awaited) {
    rd_kafka_topic_partition_list_t *list = rd_kafka_topic_partition_list_new(1);
    rd_kafka_topic_partition_list_add(list, "lines", it->partition)->offset = it->next;
    rd_kafka_resp_err_t fault = rd_kafka_commit(it->reader, list, !is_awaited);
    if (fault) complain(it, "the offset isn't committed", rd_kafka_err2str(fault));
    it->committed = it->next;
    rd_kafka_topic_partition_list_destroy(list);
}

/* Answers, records, the offset, ends: each once all of the kind before are delivered. */
static void commit(struct service *it, bool is_last) {
    bool has_ends = json_object_size(it->ended) > 0;
    if (it->next != it->committed && !it->is_failed) deliver(it);
    if (json_array_size(it->records) && !it->is_failed) write_records(it);
    if (it->next != it->committed && !it->is_failed) commit_offset(it, is_last || has_ends);
    if (has_ends && !it->is_failed) write_ends(it);
}

/* Serves the messages that are there, after the first has come; false where it is time to end. */
static bool goes_on(struct service *it) {
    bool is_whole = true;
    rd_kafka_message_t *line = rd_kafka_consumer_poll(it->reader, WAIT);
    for (int count = 1; line; count++) {
        is_whole = is_served(it, line);
        rd_kafka_message_destroy(line);
        line = is_whole && count < MOST_AT_ONCE ? rd_kafka_consumer_poll(it->reader, 0) : NULL;
    }
    bool is_last = !is_whole || is_told_to_end() || program_has_ended(&it->program);
    commit(it, is_last);
    return !is_last && !it->is_failed;
}

static void serve(struct service *it, const char *brokers) {
    const char *reading[] = {"bootstrap.servers", brokers, "group.id", "pcef", "enable.auto.commit", "false",
                             "auto.offset.reset", "error", "enable.partition.eof", "true", NULL};
    const char *writing[] = {"bootstrap.servers", brokers, "enable.idempotence", "true", "linger.ms", "0", NULL};
    it->reader = client(it, RD_KAFKA_CONSUMER, reading);
    it->writer = client(it, RD_KAFKA_PRODUCER, writing);
    if (it->reader && it->writer) {
        rd_kafka_poll_set_consumer(it->reader);
        if (begins(it))
            while (goes_on(it)) continue;
        rd_kafka_consumer_close(it->reader);
    }
    if (it->writer) rd_kafka_destroy(it->writer);
    if (it->reader) rd_kafka_destroy(it->reader);
}

int main(int count, char **words) {
    char *end = NULL;
    long partition = count == 4 ? strtol(words[2], &end, 10) : -1;
    if (!end || end == words[2] || *end || partition < 0 || partition > INT32_MAX) {
        fprintf(stderr, "usage: serve BROKERS PARTITION PROFILE\n");
        return 2;
    }
    struct service it = {.partition = (int32_t)partition, .records = json_array(), .ended = json_object()};
    if (!program_starts(&it.program, words[3])) {
        perror("serve");
        return 4;
    }
    serve(&it, words[1]);
    int status = program_ends(&it.program);
    sessions_end(&it.sessions);
    json_decref(it.records);
    json_decref(it.ended);
    return it.is_failed ? 4 : status;
}
