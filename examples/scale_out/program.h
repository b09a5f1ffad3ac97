/* `pcef many` behind two pipes, in one thread: it gets a line, and gives its answer before it gets the next one. */
#ifndef PROGRAM_H
#define PROGRAM_H

#include <stdbool.h>
#include <stdio.h>
#include <sys/types.h>

struct program {
    pid_t process;
    int lines;
    FILE *answers;
    char *answer;
    size_t answer_room;
    int status;
};

/* Starts `pcef many` with a profile: the program is $PCEF, or `pcef` on the path. False where the system refuses. */
bool program_starts(struct program *it, const char *profile);

/* Why a message can't be a line, as an answer; or NULL. A right name has 1 to 64 octets from 0x21 to 0x7E, so the line
 * has an answer, and a value without a line feed is one line. `name` may be NULL. */
const char *why_no_line(const char *name, size_t name_length, const char *value, size_t value_length);

/* The answer to a message that is a line, without the name; it stands until the next one. NULL where the program has
 * ended. */
const char *program_answers(struct program *it, const char *name, size_t name_length, const char *value,
                            size_t value_length);

/* Whether the program has ended by itself. */
bool program_has_ended(struct program *it);

/* Ends the program's input, waits for its end, and gives its exit status, or 128 and the signal that killed it. */
int program_ends(struct program *it);

/* Whether SIGTERM or SIGINT came; they are caught from program_starts on. */
bool is_told_to_end(void);

#endif
