#include "sessions.h"

#include <stdlib.h>
#include <string.h>

/* As `pcef many` reads: any string, any number, and of a key that stands twice the last value. Numbers are looked at by
 * nobody here, and a grant may be beyond jansson's integers. */
enum { AS_THE_PROGRAM = JSON_ALLOW_NUL | JSON_DECODE_INT_AS_REAL };

struct place place_of(const char *text) {
    char *end;
    struct place it = {strtoull(text, &end, 10), 0};
    if (*end == '-') it.rest = strtoull(end + 1, NULL, 10);
    return it;
}

bool is_behind(struct place one, struct place other) {
    return one.number > other.number || (one.number == other.number && one.rest > other.rest);
}

static void find_fault(struct sessions *it, const char *name, size_t name_length, const char *what) {
    int most = name_length < 64 ? (int)name_length : 64;
    snprintf(it->fault, sizeof it->fault, "%.*s: %.160s", most, name, what);
}

void sessions_take(struct sessions *it, const char *name, size_t name_length, const char *record, size_t length) {
    if (!it->records) it->records = json_object();
    /* What is under no name is of no session. */
    if (why_no_line(name, name_length, NULL, 0)) return;
    json_object_deln(it->records, name, name_length);
    if (!record) return;
    json_t *text = json_stringn(record, length);
    if (json_object_setn_new(it->records, name, name_length, text ? text : json_string("")))
        find_fault(it, name, name_length, "want of memory");
}

bool sessions_span(struct sessions *it) {
    const char *name;
    json_t *record;
    bool is_first = true;
    json_object_foreach(it->records, name, record) {
        struct place place = place_of(json_string_value(record));
        if (is_first || is_behind(it->least, place)) it->least = place;
        if (is_first || is_behind(place, it->greatest)) it->greatest = place;
        is_first = false;
    }
    return !is_first;
}

/* Whether an answer says that its line was done. */
static bool is_ok(const char *answer) {
    json_t *said = json_loads(answer, AS_THE_PROGRAM, NULL);
    bool is_done = json_is_true(json_object_get(said, "ok"));
    json_decref(said);
    return is_done;
}

/* The length of the object or list that a text begins with; 0 where there is none. */
static size_t value_length(const char *text) {
    json_error_t end;
    json_t *value = json_loadb(text, strlen(text), AS_THE_PROGRAM | JSON_DISABLE_EOF_CHECK, &end);
    json_decref(value);
    return value ? (size_t)end.position : 0;
}

/* Plays the lines of a list. False where the program has ended, or with a fault. */
static bool is_played(struct sessions *it, struct program *program, const char *name, const char *list) {
    const char *at = list;
    bool is_list = *list == '[';
    do {
        size_t length = value_length(++at);
        is_list = is_list && length && !why_no_line(name, strlen(name), at, length);
        if (!is_list) break;
        const char *answer = program_answers(program, name, strlen(name), at, length);
        if (!answer) return false;
        if (!is_ok(answer)) {
            find_fault(it, name, strlen(name), answer);
            return false;
        }
        at += length;
    } while (*at == ',');
    if (is_list && strcmp(at, "]") == 0) return true;
    find_fault(it, name, strlen(name), "the record has no list of lines");
    return false;
}

bool sessions_play(struct sessions *it, struct program *program) {
    const char *name;
    json_t *record;
    json_object_foreach(it->records, name, record) {
        const char *space = strchr(json_string_value(record), ' ');
        if (!is_played(it, program, name, space ? space + 1 : " ")) return false;
    }
    return true;
}

bool is_passed_over(struct sessions *it, const char *name, size_t name_length, struct place behind) {
    if (!it->records) return false;
    if (is_behind(behind, it->greatest)) {
        sessions_end(it);
        return false;
    }
    const json_t *record = json_object_getn(it->records, name, name_length);
    return record && !is_behind(behind, place_of(json_string_value(record)));
}

static bool is_word(const json_t *text, const char *word) {
    return json_string_length(text) == strlen(word) && !memcmp(json_string_value(text), word, strlen(word));
}

enum deed deed_of(const char *line, size_t length, const char *answer) {
    json_t *said = json_loadb(line, length, AS_THE_PROGRAM, NULL);
    const json_t *word = json_object_get(said, "do");
    enum deed deed = WENT_ON;
    if (is_word(word, "open") || is_word(word, "renew")) deed = BEGAN;
    if (is_word(word, "end")) deed = ENDED;
    json_decref(said);
    return deed != WENT_ON && is_ok(answer) ? deed : WENT_ON;
}

bool is_listed(struct program *program, const char *name, size_t name_length, const char **list) {
    static const char ask[] = "{\"do\":\"lines\"}", before[] = "{\"lines\":", behind[] = ",\"ok\":true}";
    const char *answer = program_answers(program, name, name_length, ask, strlen(ask));
    *list = NULL;
    if (!answer) return false;
    if (strncmp(answer, before, strlen(before))) return true;
    char *text = program->answer + (answer - program->answer) + strlen(before);
    size_t length = value_length(text);
    if (!length || strcmp(text + length, behind)) return true;
    text[length] = 0;
    *list = text;
    return true;
}

void sessions_end(struct sessions *it) {
    json_decref(it->records);
    it->records = NULL;
}
