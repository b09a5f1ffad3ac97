#define _GNU_SOURCE
#include "program.h"

#include <errno.h>
#include <fcntl.h>
#include <signal.h>
#include <stdlib.h>
#include <string.h>
#include <sys/wait.h>
#include <unistd.h>

static volatile sig_atomic_t is_told;

static void tell(int number) {
    (void)number;
    is_told = 1;
}

bool is_told_to_end(void) {
    return is_told;
}

static void catch_signals(void) {
    struct sigaction on_end = {.sa_handler = tell, .sa_flags = SA_RESTART};
    sigaction(SIGTERM, &on_end, NULL);
    sigaction(SIGINT, &on_end, NULL);
    signal(SIGPIPE, SIG_IGN);
}

/* In the new process: it has a group of its own, so that Ctrl-C reaches it by the end of its input alone. */
static void become(const char *profile, int lines, int answers) {
    const char *program = getenv("PCEF");
    if (!program) program = "pcef";
    signal(SIGPIPE, SIG_DFL);
    setpgid(0, 0);
    dup2(lines, 0);
    dup2(answers, 1);
    execlp(program, program, "many", profile, (char *)NULL);
    perror(program);
    _exit(127);
}

bool program_starts(struct program *it, const char *profile) {
    int lines[2], answers[2];
    *it = (struct program){.process = -1};
    if (pipe2(lines, O_CLOEXEC) || pipe2(answers, O_CLOEXEC)) return false;
    it->process = fork();
    if (it->process < 0) return false;
    if (it->process == 0) become(profile, lines[0], answers[1]);
    close(lines[0]);
    close(answers[1]);
    it->lines = lines[1];
    it->answers = fdopen(answers[0], "r");
    catch_signals();
    return it->answers != NULL;
}

const char *why_no_line(const char *name, size_t name_length, const char *value, size_t value_length) {
    if (!name || name_length < 1 || name_length > 64) return "{\"fault\":1,\"name\":\"BadName\"}";
    if (name_length == 1 && name[0] == '-') return "{\"fault\":1,\"name\":\"BadName\"}";
    for (size_t place = 0; place < name_length; place++)
        if (name[place] < 0x21 || name[place] > 0x7E) return "{\"fault\":1,\"name\":\"BadName\"}";
    if (value_length && memchr(value, '\n', value_length)) return "{\"name\":\"LineFeed\",\"refused\":2}";
    return NULL;
}

static bool is_written(int file, const char *text, size_t length) {
    while (length) {
        ssize_t count = write(file, text, length);
        if (count < 0 && errno != EINTR) return false;
        if (count > 0) {
            text += count;
            length -= (size_t)count;
        }
    }
    return true;
}

const char *program_answers(struct program *it, const char *name, size_t name_length, const char *value,
                            size_t value_length) {
    bool is_handed = is_written(it->lines, name, name_length) && is_written(it->lines, " ", 1) &&
                     is_written(it->lines, value, value_length) && is_written(it->lines, "\n", 1);
    if (!is_handed) return NULL;
    ssize_t length = getline(&it->answer, &it->answer_room, it->answers);
    if (length < 1 || it->answer[length - 1] != '\n') return NULL;
    it->answer[length - 1] = 0;
    /* A name has no space. */
    const char *space = strchr(it->answer, ' ');
    return space ? space + 1 : NULL;
}

static bool is_waited_for(struct program *it, int how) {
    int status;
    if (it->process < 0) return true;
    if (waitpid(it->process, &status, how) != it->process) return false;
    it->process = -1;
    it->status = WIFEXITED(status) ? WEXITSTATUS(status) : 128 + WTERMSIG(status);
    return true;
}

bool program_has_ended(struct program *it) {
    return is_waited_for(it, WNOHANG);
}

int program_ends(struct program *it) {
    close(it->lines);
    while (!is_waited_for(it, 0)) continue;
    fclose(it->answers);
    free(it->answer);
    return it->status;
}
