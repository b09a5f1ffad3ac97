/* The gateway's parts. Each file says one thing, which stands below before its calls. */
#ifndef GATEWAY_H
#define GATEWAY_H
#include "pcef.h"
#include <pthread.h>
#include <stdatomic.h>
#include <stdio.h>
#include <stdlib.h>
#include <string.h>

enum { MOST_WORKERS = 16, MOST_DEVICES = 16, MOST_USERS = 4096, BATCH = 32, MESSAGE = 1 << 20 };

extern struct settings {
    int workers, devices;            /* device 0 is the network's, those behind it are the users' */
    int is_bare;                     /* forward all, judge nothing: what the rest is measured beside */
    const char *device_names[MOST_DEVICES], *metrics, *identity, *realm;
    char profile[32768];             /* of every session, without `ue` */
} settings;

typedef _Atomic uint64_t counter;    /* a number that one thread changes and others read */
static inline void add(counter *to, uint64_t more) {
    atomic_store_explicit(to, atomic_load_explicit(to, memory_order_relaxed) + more, memory_order_relaxed);
}

/* The octets of an address; one of version 4 is ::ffff:a.b.c.d. */
typedef unsigned __int128 ip_address;

/* A worker's part in a user's session. */
typedef struct lane {
    pcef_worker *worker;
    uint64_t generation;             /* of the rules that it holds */
    struct user *of;
    struct lane *next_waiting;       /* in its worker's list of lanes whose rows may wait */
    int is_waiting;
    counter packets[4];              /* its rows, by verdict */
    counter octets[4];               /* that passed to the user and from it, and those that didn't */
} lane;

typedef struct user {
    _Atomic(struct user *) next;     /* in its chain of the table */
    ip_address address;
    char text[48], subscriber[16];
    int device;                      /* that its packets come by, and go to */
    uint64_t number;
    pthread_mutex_t lock;            /* round each call that names the session */
    pcef_session *session;
    uint64_t next_report;            /* the number of the next report that is due */
    _Atomic uint64_t generation;     /* a hint: the newest */
    atomic_bool is_full;             /* no more rows are taken: a renewal is due */
    lane *lanes;                     /* one for each worker */
    /* What follows is the dialogues' thread's alone. */
    pcef_gx *gx;
    int is_open, is_leaving;
    uint64_t retry_at;               /* when the CCR that is out, or that failed, goes out once more; 0: not */
} user;

/* main.c: the words, the lines that open and end sessions, and the end. `room` gives memory of zeros. */
_Noreturn void fail(const char *what, int number);
void *room(size_t size);
/* users.c: who has which address, and which number. */
user *find_user(ip_address address);
void show_user(user *of);
void hide_user(user *of);
user *new_user(const char *text, const char *subscriber, int device);
void free_user(user *of);
user *user_numbered(uint64_t number);
user *user_after(const user *last);
/* worker.c: a thread that judges, counts and forwards between TUN devices. */
extern struct gateway_worker {
    pthread_mutex_t turn;            /* held while it has packets: who takes a user away waits for that */
    pthread_t thread;
    int number, queues[MOST_DEVICES];
    lane *waiting;
    counter without_session;         /* packets of no user */
} workers[MOST_WORKERS];
void start_workers(void);
/* session.c: workers and their session, behind its lock. */
void attach_all(user *of);
void finish_all(user *of);
int hand_over(user *of, lane *of_worker);
void refresh(user *of, lane *of_worker);
/* dialogue.c: what the PCRF asks for and is told; one thread for all users. */
void *run_dialogues(void *nothing);
/* gx.c: freeDiameter in this process, which carries messages of Gx; and what the dialogues' thread is told. */
typedef struct {
    enum { LINE_CAME, MESSAGE_CAME, NO_ANSWER, CCR_IS_DUE, ALL_LEAVE } kind;
    uint64_t number;                 /* of the user */
    struct msg *message;             /* freeDiameter's */
    char line[128];
} event;
void post(event what);
event *next_event(uint64_t until);
void gx_start(const char *configuration);
void gx_stop(void);
uint32_t gx_end_to_end(void);
int gx_send_request(const uint8_t *octets, size_t length, uint64_t user_number);
uint8_t *gx_octets(struct msg *message, size_t *length);
void gx_reply(struct msg *message, const uint8_t *octets, size_t length);
void gx_refuse(struct msg *message);
/* metrics.c: totals for Prometheus, and the log of sessions. */
extern counter requests_out[4];      /* by their kind; those that went out once more stand at 0 */
uint64_t milliseconds(void);
void write_metrics(void);
void log_user(const user *of, const char *what, const char *format, ...) __attribute__((format(printf, 3, 4)));
void log_end(user *of, const char *is_told);
#endif
