/* The records of the sessions that are open. A record has a place, a space, and the list that the program gave behind
 * the last line that began the session, an `open` or a `renew`. The list makes the session anew as it was there; its
 * lines up to that place aren't played again. */
#ifndef SESSIONS_H
#define SESSIONS_H

#include "program.h"

#include <jansson.h>

/* Where the lines behind one begin: the offset behind it and 0 in Kafka, the two numbers of its identifier in Redis. */
struct place {
    unsigned long long number, rest;
};

/* What a line did to its session. */
enum deed { WENT_ON, BEGAN, ENDED };

struct sessions {
    /* From names to records. NULL once all lines that they cover are passed. */
    json_t *records;
    /* The first and the last place of a record. */
    struct place least, greatest;
    /* Why the records can't be used; empty where they can. */
    char fault[256];
};

/* The place that a text begins with. */
struct place place_of(const char *text);

bool is_behind(struct place one, struct place other);

/* Takes a record that is newer than those before; `record` is NULL where the session ended. */
void sessions_take(struct sessions *it, const char *name, size_t name_length, const char *record, size_t length);

/* Finds the first and the last place; false where no session is open. */
bool sessions_span(struct sessions *it);

/* Makes all sessions anew. False where the program has ended, or a list isn't accepted, which is the fault then. */
bool sessions_play(struct sessions *it, struct program *program);

/* Whether a session's record covers its line with this place behind it. Lines are asked for in their order. */
bool is_passed_over(struct sessions *it, const char *name, size_t name_length, struct place behind);

/* What a line did, by its own JSON and that of its answer. */
enum deed deed_of(const char *line, size_t length, const char *answer);

/* Asks the program for a session's list, which stands until its next answer; NULL where it gives none. False where it
 * has ended. */
bool is_listed(struct program *program, const char *name, size_t name_length, const char **list);

void sessions_end(struct sessions *it);

#endif
