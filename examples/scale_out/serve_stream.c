/* serve_stream HOST PORT PARTITION PROFILE: answers the entries of the Redis stream `lines:PARTITION` on the stream
 * `answers`, and waits for more. An entry has the fields `name`, its session's name, and `line`. An answer has the same
 * `name`, `at`, the stream and the identifier of the line, and `answer`. Each entry has one answer, which leaves as
 * soon as it is made.
 *
 * The hash `sessions:PARTITION` has a record of each open session under its name: the identifier of the last `open` or
 * `renew` that was done, a space, and the session's list behind that line. An answer, the place up to which the stream
 * is answered (the key `served:PARTITION`), and what becomes of the record are written in one transaction.
 *
 * Begun again, it makes each session anew by the list of its record, and reads on behind the least identifier of these,
 * or from the first entry on where there is none. It passes over a session's lines up to its own identifier, and
 * answers only the entries behind `served:PARTITION`. So no answer comes twice.
 *
 * SIGTERM ends it after the answers to what it read. It ends with the status of its program, `pcef many`, where $PCEF
 * names `pcef`, or it is on the path; with 2 for wrong words, with 4 where Redis fails, or entries or records don't fit.
 *
 *     cc -O2 -o serve_stream serve_stream.c sessions.c program.c -lhiredis -ljansson
 */
#define _GNU_SOURCE
#include "sessions.h"

#include <hiredis/hiredis.h>
#include <stdlib.h>
#include <string.h>

enum { PLACE_ROOM = 48 };

struct service {
    struct program program;
    redisContext *redis;
    const char *partition;
    struct sessions sessions;
    /* The last entry that was read, and the last one that was answered when this process began. */
    char read[PLACE_ROOM], served[PLACE_ROOM];
    /* The commands of a transaction whose replies aren't taken. */
    int asked;
    /* Whether the program gave no list: a later record would let the next process begin too late. */
    bool is_without_lists;
    bool is_failed;
};

static void complain(struct service *it, const char *what, const char *why) {
    fprintf(stderr, "serve_stream: %s: %s\n", what, why);
    it->is_failed = true;
}

/* Takes a reply; NULL, with a word about it, where there is none or it is an error. */
static redisReply *good(struct service *it, const char *what, redisReply *reply) {
    if (reply && reply->type != REDIS_REPLY_ERROR) return reply;
    complain(it, what, reply ? reply->str : it->redis->errstr);
    if (reply) freeReplyObject(reply);
    return NULL;
}

/* The value of a field of an entry, or of a fact of a stream, or NULL. */
static const redisReply *field(const redisReply *fields, const char *name) {
    for (size_t place = 0; place + 1 < fields->elements; place += 2) {
        const redisReply *one = fields->element[place];
        if (one->len == strlen(name) && !memcmp(one->str, name, one->len)) return fields->element[place + 1];
    }
    return NULL;
}

/* Reads the record of each session. */
static void read_records(struct service *it) {
    char at[32] = "0";
    do {
        const char *words = "HSCAN sessions:%s %s COUNT 1000";
        redisReply *some = good(it, "no records", redisCommand(it->redis, words, it->partition, at));
        if (!some) return;
        const redisReply *pairs = some->element[1];
        for (size_t place = 0; place + 1 < pairs->elements; place += 2) {
            const redisReply *name = pairs->element[place], *record = pairs->element[place + 1];
            sessions_take(&it->sessions, name->str, name->len, record->str, record->len);
        }
        snprintf(at, sizeof at, "%s", some->element[0]->str);
        freeReplyObject(some);
    } while (strcmp(at, "0") && !is_told_to_end());
    if (*it->sessions.fault) complain(it, "a record of a session can't be read", it->sessions.fault);
}

static void text_of(char *text, struct place place) {
    snprintf(text, PLACE_ROOM, "%llu-%llu", place.number, place.rest);
}

/* The identifier of the last entry that the stream ever had. */
static struct place last_entry(struct service *it) {
    struct place last = {0, 0};
    redisReply *facts = redisCommand(it->redis, "XINFO STREAM lines:%s", it->partition);
    /* The stream may not be there yet. */
    bool is_absent = facts && facts->type == REDIS_REPLY_ERROR && !strcmp(facts->str, "ERR no such key");
    if (!is_absent) facts = good(it, "the stream can't be read", facts);
    const redisReply *text = is_absent || !facts ? NULL : field(facts, "last-generated-id");
    if (text) last = place_of(text->str);
    if (facts) freeReplyObject(facts);
    return last;
}

/* Whether the stream has an entry; it has all behind it then, as it is trimmed from its begin on. */
static bool has_entry(struct service *it, const char *entry) {
    redisReply *found = redisCommand(it->redis, "XRANGE lines:%s %s %s", it->partition, entry, entry);
    found = good(it, "the stream can't be read", found);
    bool is_there = found && found->elements == 1;
    if (found) freeReplyObject(found);
    return is_there;
}

/* Finds the entry to read on behind: the least of the records', or none. False where entries don't fit. */
static bool is_placed(struct service *it) {
    struct place last = last_entry(it);
    bool has_records = sessions_span(&it->sessions);
    snprintf(it->read, sizeof it->read, "0-0");
    if (has_records) text_of(it->read, it->sessions.least);
    if (it->is_failed) return false;
    if (is_behind(place_of(it->served), last) || (has_records && is_behind(it->sessions.greatest, last)))
        complain(it, "the stream of lines was made anew", "an answer or a record is of an entry beyond its last one");
    else if (has_records && !has_entry(it, it->read))
        complain(it, "lines of an open session are gone", "the stream has to keep all from its last open or renew on");
    return !it->is_failed;
}

/* Makes the sessions of the records anew, and finds where to read on. False where entries can't be served. */
static bool begins(struct service *it) {
    redisReply *place = good(it, "no place", redisCommand(it->redis, "GET served:%s", it->partition));
    if (!place) return false;
    snprintf(it->served, sizeof it->served, "%s", place->type == REDIS_REPLY_STRING ? place->str : "0-0");
    freeReplyObject(place);
    read_records(it);
    if (it->is_failed || is_told_to_end() || !is_placed(it)) return false;
    if (sessions_play(&it->sessions, &it->program)) return true;
    if (*it->sessions.fault) complain(it, "a session can't be made anew", it->sessions.fault);
    return false;
}

/* Adds what becomes of a session's record. False where the program has ended, or memory is out. */
static bool is_recorded(struct service *it, const redisReply *name, enum deed deed) {
    const char *list = NULL;
    if (deed == ENDED) {
        redisAppendCommand(it->redis, "HDEL sessions:%s %b", it->partition, name->str, name->len);
        it->asked++;
    }
    if (deed != BEGAN || it->is_without_lists) return true;
    if (!is_listed(&it->program, name->str, name->len, &list)) return false;
    it->is_without_lists = !list;
    if (!list) {
        fprintf(stderr, "serve_stream: the program gives no list of lines, so no session is recorded from here on\n");
        return true;
    }
    char *record = NULL;
    if (asprintf(&record, "%s %s", it->read, list) < 0) complain(it, "no record", "want of memory");
    if (it->is_failed) return false;
    redisAppendCommand(it->redis, "HSET sessions:%s %b %s", it->partition, name->str, name->len, record);
    it->asked++;
    free(record);
    return true;
}

/* Takes the reply to a command of a transaction; the last one has the replies of all. */
static void take_reply(struct service *it) {
    void *reply = NULL;
    redisGetReply(it->redis, &reply);
    redisReply *all = good(it, "an answer isn't written", reply);
    for (size_t place = 0; all && all->type == REDIS_REPLY_ARRAY && place < all->elements; place++)
        if (all->element[place]->type == REDIS_REPLY_ERROR)
            complain(it, "an answer isn't written", all->element[place]->str);
    if (all) freeReplyObject(all);
}

/* Writes an answer, that the stream is answered up to here, and what becomes of the session's record, or nothing of
 * these. False where the program has ended. */
static bool is_written(struct service *it, const redisReply *name, const char *answer, enum deed deed) {
    redisContext *redis = it->redis;
    bool is_new = is_behind(place_of(it->read), place_of(it->served));
    if (!is_new && deed == WENT_ON) return true;
    redisAppendCommand(redis, "MULTI");
    it->asked = 1;
    if (is_new) {
        redisAppendCommand(redis, "XADD answers * name %b at lines:%s/%s answer %s", name ? name->str : "",
                           name ? name->len : (size_t)0, it->partition, it->read, answer);
        redisAppendCommand(redis, "SET served:%s %s", it->partition, it->read);
        it->asked += 2;
    }
    if (!is_recorded(it, name, deed)) return false;
    redisAppendCommand(redis, "EXEC");
    for (it->asked++; it->asked; it->asked--) take_reply(it);
    return true;
}

/* Serves one entry; false where the program has ended, or something failed. */
static bool is_served(struct service *it, const redisReply *entry) {
    const redisReply *name = field(entry->element[1], "name"), *line = field(entry->element[1], "line");
    const char *key = name ? name->str : NULL, *value = line ? line->str : "";
    size_t key_length = name ? name->len : 0, length = line ? line->len : 0;
    const char *answer = why_no_line(key, key_length, value, length);
    bool is_line = !answer;
    snprintf(it->read, sizeof it->read, "%s", entry->element[0]->str);
    if (is_line && is_passed_over(&it->sessions, key, key_length, place_of(it->read))) return true;
    if (is_line) answer = program_answers(&it->program, key, key_length, value, length);
    if (!answer) return false;
    enum deed deed = is_line ? deed_of(value, length, answer) : WENT_ON;
    return is_written(it, name, answer, deed) && !it->is_failed;
}

/* Serves the entries that are there, after the first has come; false where it is time to end. */
static bool goes_on(struct service *it) {
    const char *words = "XREAD COUNT 100 BLOCK 100 STREAMS lines:%s %s";
    redisReply *read = good(it, "no line is read", redisCommand(it->redis, words, it->partition, it->read));
    if (!read) return false;
    bool is_whole = true;
    if (read->type == REDIS_REPLY_ARRAY && read->elements) {
        const redisReply *entries = read->element[0]->element[1];
        for (size_t place = 0; is_whole && place < entries->elements; place++)
            is_whole = is_served(it, entries->element[place]);
    }
    freeReplyObject(read);
    return is_whole && !is_told_to_end() && !program_has_ended(&it->program);
}

int main(int count, char **words) {
    int port = count == 5 ? atoi(words[2]) : 0;
    if (port < 1) {
        fprintf(stderr, "usage: serve_stream HOST PORT PARTITION PROFILE\n");
        return 2;
    }
    struct service it = {.partition = words[3], .redis = redisConnect(words[1], port)};
    if (!it.redis || it.redis->err) complain(&it, words[1], it.redis ? it.redis->errstr : "want of memory");
    if (it.is_failed) return 4;
    if (!program_starts(&it.program, words[4])) {
        perror("serve_stream");
        return 4;
    }
    if (begins(&it))
        while (goes_on(&it)) continue;
    int status = program_ends(&it.program);
    sessions_end(&it.sessions);
    redisFree(it.redis);
    return it.is_failed ? 4 : status;
}
