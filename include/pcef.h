/* pcef.h: a policy and charging enforcement function behind handles: one session of a gateway, and its workers.
 *
 * OWNERSHIP. The memory of a handle is yours: pcef_size() octets, or pcef_worker_size(), aligned to 16. Between
 * pcef_room or pcef_worker_room and the end of the last call on it, nothing else reads, writes, moves or copies it.
 * What a session or a worker holds besides lies on the heap of malloc and free; it goes with pcef_close, and with
 * pcef_finish, pcef_abandon or pcef_drop_worker. Free the memory of a handle after that. In order:
 *     pcef_room; any number of (pcef_open; any calls; pcef_close); free.
 *     pcef_worker_room; any number of (pcef_attach; any calls; pcef_finish or pcef_abandon); free.
 *
 * THREADS. A handle, of a session or of a worker, is in one call at a time. It may go from thread to thread where a
 * lock, a thread's start or join, or a sequentially consistent atomic orders the calls. The library has no lock: where
 * threads share a session, hold one of yours round each call that names it, pcef_line too. pcef_take names the worker
 * alone and needs none. Calls on different handles may be made at the same time. Call nothing from a signal handler,
 * nor in the forked child of a process with threads.
 *
 * ERRORS. A call returns a number that says what came of it. No call sets errno, ends the process, writes anywhere but
 * to the handles, to the buffers that it is given and to the heap, or runs on without end. On a handle without a
 * session each call but pcef_open and pcef_number says so (pcef_judge in each verdict), and changes no handle.
 *
 * WHAT YOU OWE, and no call can see: pointers to live memory of the length that you give, never null, also where the
 * length is 0; handles that pcef_room or pcef_worker_room made; buffers that don't overlap one another or a handle;
 * lengths below 2^63; malloc, realloc and free of one allocator that is safe for threads, and aligns a block to each
 * power of two up to 16 that divides its size (glibc's does); the lock; and the order of THREADS. Last, a worker goes
 * with the session that it was attached to until it leaves, and meets no other session of the same number
 * (pcef_number).
 *
 * UNITS. Text is UTF-8, with a length and no zero at its end. Rates are bits per second. Volumes are octets of IP
 * packets.
 *
 * LINKING. libpcef.so or libpcef.a, as packaging/install makes them; or libpcef_c.a, libos_c.a, liblibc_c.a, in this
 * order. docs/EMBEDDING.md shows both. For 64-bit x86. */
#ifndef PCEF_H
#define PCEF_H
#include <stddef.h>
#include <stdint.h>
#ifdef __cplusplus
extern "C" {
#endif

/* The version of this interface. It goes up where a declaration changes; calls that are added leave it. */
#define PCEF_VERSION 1

/* That of the library: where it isn't PCEF_VERSION, the program was compiled with the header of another one. */
uint32_t pcef_version(void);

/* A session's handle. Only its address is known. */
typedef struct pcef_session pcef_session;

/* How many octets of memory a handle needs. */
size_t pcef_size(void);

/* Makes memory a handle without a session. What the memory held is forgotten, and not freed: call it once for each
 * memory. Takes no memory. */
void pcef_room(pcef_session *at);

/* Opens a session by the text of a profile (docs/FORMATS.md), over the predefined rules that the program pcef has. Its
 * journal is empty, and no worker is attached. PCEF_OK, or why none is opened, and then the handle is as it was. Takes
 * memory. */
uint8_t pcef_open(pcef_session *at, const uint8_t *profile, size_t profile_length);

#define PCEF_OK 0
#define PCEF_NOT_TOML 1
#define PCEF_UNKNOWN_KEY 2
#define PCEF_MISSING_KEY 3
#define PCEF_BAD_VALUE 4
#define PCEF_UNKNOWN_QCI 5
#define PCEF_DEFAULT_IS_GBR 6
#define PCEF_OPEN_NO_MEMORY 7
#define PCEF_NOT_UTF8 8
#define PCEF_ALREADY_OPEN 9

/* Numbers the sessions to come at this handle: the next one gets `first`, those behind it first + 1 and so on; a new
 * handle begins at 0, and an open session keeps its own. Returns the number that the next one would have had. A worker
 * remembers its session's number, and a session of another number refuses it. So give each handle numbers of its own:
 * pcef_number(handle[i], (uint64_t)i << 32). Takes no memory. */
uint64_t pcef_number(pcef_session *at, uint64_t first);

/* Does what a line of a script asks for (docs/FORMATS.md), and returns the length of the answer: the text that
 * `pcef script` writes for the line, without its line feed. As much of it as fits is written to `answer`. A line of
 * spaces, tabs and CR alone has no answer: 0. The line is done even where its answer doesn't fit. An answer to `show`
 * grows with rules and keys, one to `flush` with the rows that waited; 65,536 octets are ample for both. Takes memory.
 * PCEF_NO_SESSION: nothing is done. PCEF_NO_MEMORY: nothing is written, and the session and its workers are as before
 * the line, or as after it, never in between. The answers to the next lines tell which: `show` where the line changes
 * rules, bearers or keys. A caller that can't tell closes the session. */
size_t pcef_line(pcef_session *at, const uint8_t *line, size_t line_length, uint8_t *answer, size_t answer_room);

/* Writes the session's reports from this number on, and returns the length of their text: a JSON array, the oldest
 * first, each as answers have it. Reports are numbered from 0. As much as fits is written to `answer`: where the text
 * is longer, call again with more room. Takes memory. PCEF_NO_SESSION, PCEF_NO_MEMORY, or PCEF_FORGOTTEN where one of
 * these reports was forgotten. */
size_t pcef_reports(pcef_session *at, uint64_t first, uint8_t *answer, size_t answer_room);

/* Forgets the reports that the session made so far, and returns their count, which is the number of the next one.
 * Until then a session keeps them all. A gateway calls pcef_reports from the number that pcef_forget returned last (0
 * at first), hands the text on, and then calls pcef_forget, before the next line or flush. A forgotten report still
 * counts; it can't be written again, and its memory serves for the next ones. Nothing else changes. Takes no memory.
 * PCEF_NO_SESSION. */
size_t pcef_forget(pcef_session *at);

/* Renews the session, and returns the length of the answer, of which as much as fits is written: the session ends as by a
 * line `terminate`, and in its place stands a new one of the same profile, which has taken commands that make it go on:
 * the same rules are active, the same keys on, with the rest of their grants, and the same events subscribed. So a
 * session goes on beyond the rows, commands, keys and workers of one life. Let each worker finish before, and attach
 * again: the new session has the handle's next number (pcef_number). The answer, as of pcef many (docs/FORMATS.md, 'Many
 * sessions'), has each bearer's old and new number beside 5, and all reports that weren't forgotten, those of the end
 * last: read them here, for no other call has them any more. Where the others were forgotten, 4,096 octets are ample. Or
 * it says why the session isn't renewed, and then nothing changes: it was terminated, workers are attached, or the new
 * session would take no command. Report numbers begin at 0 again, and generations at those of the commands. Takes
 * memory. PCEF_NO_SESSION: nothing is done. PCEF_NO_MEMORY: nothing is written, and the session is as before, or it is
 * renewed and its reports are lost; pcef_rows_left tells which, where rows were handed over. */
size_t pcef_renew(pcef_session *at, uint8_t *answer, size_t answer_room);

/* In place of a length or a count. */
#define PCEF_NO_SESSION SIZE_MAX
#define PCEF_NO_MEMORY (SIZE_MAX - 1)
#define PCEF_FORGOTTEN (SIZE_MAX - 2)

/* A packet of IPv4 or IPv6, from the first octet of its IP header on: its first octets, or all of them. */
typedef struct {
    const uint8_t *octets;
    size_t length; /* how many octets are at hand */
    size_t whole;  /* how many the packet has: `length` where it is at hand whole; where less, the packet ends there */
    uint8_t up;    /* 1 from the user equipment, 0 to it */
} pcef_packet;

/* What a generation of rules decides of a packet. */
typedef struct {
    uint32_t generation; /* the number of the generation */
    uint8_t status;      /* PCEF_PASSED to PCEF_TOO_FEW; of pcef_take also PCEF_NO_WORKER to PCEF_TAKE_NO_MEMORY */
    uint8_t bearer;      /* where the packet passes: its bearer, 5 to 15; else 0 */
    uint8_t place;       /* where a rule decided: its place in precedence order, from 0; else PCEF_NO_PLACE */
    uint8_t slots;       /* bit n, from 0: the packet counts for the key that was named n-th, from 0 */
} pcef_verdict;

#define PCEF_PASSED 0
#define PCEF_GATED 1            /* the gate of the rule that fits is closed in this direction */
#define PCEF_UNMATCHED 2        /* no rule fits */
#define PCEF_STRAY 3            /* the packet isn't the session's */
#define PCEF_VERDICT_NO_SESSION 4
#define PCEF_EMPTY 5            /* from here to 9 the octets are no packet, whatever those beyond them are */
#define PCEF_BAD_VERSION 6
#define PCEF_SHORT_HEADER 7
#define PCEF_BAD_HEADER_LENGTH 8
#define PCEF_BAD_TOTAL_LENGTH 9
#define PCEF_TOO_FEW 10         /* the octets that aren't at hand decide: hand over more of the packet */
#define PCEF_NO_WORKER 11       /* from here to 13: pcef_take ended before this packet. The handle has no worker */
#define PCEF_FULL 12            /* 32 rows wait: flush, and go on with this packet */
#define PCEF_TAKE_NO_MEMORY 13
#define PCEF_NO_PLACE 255

/* Judges packets in their order by the newest generation, as many as the smaller of the two counts, and returns their
 * number. A verdict on first octets is that on each packet of `whole` octets that begins with them; PCEF_TOO_FEW says
 * that two such packets are read differently. 64 octets are enough of version 4; of version 6, all headers and four
 * octets behind them. Nothing is counted, and no row is kept: pcef_take and pcef_flush do that. Takes no memory. */
size_t pcef_judge(pcef_session *at, const pcef_packet *packets, size_t packet_count, pcef_verdict *verdicts,
                  size_t verdict_count);

/* The same for one packet of `whole` octets, of which the first `length` are at hand. */
static inline pcef_verdict pcef_judge_front(pcef_session *at, uint8_t up, const uint8_t *octets, size_t length,
                                            size_t whole) {
    pcef_packet packet = {octets, length, whole, up};
    pcef_verdict verdict = {0, PCEF_VERDICT_NO_SESSION, 0, PCEF_NO_PLACE, 0};
    pcef_judge(at, &packet, 1, &verdict, 1);
    return verdict;
}

/* The same for one packet that is at hand whole. */
static inline pcef_verdict pcef_judge_one(pcef_session *at, uint8_t up, const uint8_t *octets, size_t length) {
    return pcef_judge_front(at, up, octets, length, length);
}

/* How many more rows the session takes: those that its profile allows, less those that were handed over. Renew the
 * session before a flush is refused. UINT64_MAX: there is no session. Takes no memory. */
uint64_t pcef_rows_left(pcef_session *at);

/* How many more commands the session's journal takes. UINT64_MAX: there is no session. Takes no memory. */
uint64_t pcef_commands_left(pcef_session *at);

/* How many more workers may be attached: 16 in the session's life, less those that ever were. UINT64_MAX: there is no
 * session. Takes no memory. */
uint64_t pcef_workers_left(pcef_session *at);

/* The octets that the session's rows counted for the key that was named n-th, from 0 (`slots` of a verdict has bit n):
 * those that usage reports have, and the others. UINT64_MAX: there is no session. PCEF_NO_KEY: none was named n-th yet.
 * Take no memory. */
uint64_t pcef_reported(pcef_session *at, uint8_t slot);
uint64_t pcef_unreported(pcef_session *at, uint8_t slot);

#define PCEF_NO_KEY (UINT64_MAX - 7)

/* What a bearer has: what marking and shaping need. */
typedef struct {
    uint64_t up;                      /* its guaranteed uplink rate: the exact sum of its rules' */
    uint64_t down;                    /* the same of the downlink */
    uint8_t qci;                      /* its QCI and ARP, which all its rules have */
    uint8_t priority_level;           /* 1, the highest, to 15 */
    uint8_t preemption_capability;    /* 1: it may pre-empt others */
    uint8_t preemption_vulnerability; /* 1: others may pre-empt it */
    uint8_t rules;                    /* how many active rules are on it: 0 on the default bearer alone */
} pcef_bearer_state;

/* Writes what the bearer of an id has in the newest generation. PCEF_OK, or why there is none, and then nothing is
 * written. The default bearer, 5, stays. The others, 6 to 15, end with their last rule, and the id may go to another
 * bearer: a verdict of an older generation names one of that generation. Takes no memory. */
uint8_t pcef_bearer(pcef_session *at, uint8_t id, pcef_bearer_state *bearer);

#define PCEF_BEARER_NO_SESSION 72
#define PCEF_NO_BEARER 73 /* the session has no bearer of this id now */

/* Closes the session, if there is one, and frees all its memory but the handle's own. Returns 1, or 0 where there was
 * none. A worker that is still attached then waits for pcef_drop_worker alone. */
uint8_t pcef_close(pcef_session *at);

/* ---- Workers: packets that count
 *
 * A worker judges packets by the generation that it holds, and lets up to 32 rows wait, one for each packet. A flush
 * hands them over to the session, and then they count. The worker lies at a handle of its own, which a thread of its
 * own may have. A session attaches 16 in its life. No line names such a worker: to `take`, `flush` and the others of
 * its number the answer is NoWorker. */

/* A worker's handle. Only its address is known. */
typedef struct pcef_worker pcef_worker;

/* How many octets of memory a worker's handle needs. */
size_t pcef_worker_size(void);

/* Makes memory a worker's handle without a worker. What the memory held is forgotten, and not freed. Takes no memory.
 * */
void pcef_worker_room(pcef_worker *worker);

/* Attaches a worker to the session: it holds the newest generation, and no row waits. Returns its number, 0 to 15; or
 * why there is none, and then nothing changes. Takes memory. */
uint8_t pcef_attach(pcef_session *at, pcef_worker *worker);

#define PCEF_AT_NO_SESSION 64
#define PCEF_AT_WORKER 65   /* the handle has a worker, which stays */
#define PCEF_AT_NO_PLACE 66 /* sixteen workers were attached to the session */
#define PCEF_AT_CLOSED 67   /* a line closed or terminated the session */
#define PCEF_AT_NO_MEMORY 68

/* Judges packets in their order by the generation that the worker holds, and lets the row of each wait, as many as the
 * smaller of the two counts, until one can't be taken for now. Returns the number of those before it; where that is
 * less than both counts, the verdict behind them says why: PCEF_NO_WORKER, PCEF_FULL, PCEF_TAKE_NO_MEMORY. A packet of
 * the statuses PCEF_EMPTY to PCEF_TOO_FEW makes no row, and doesn't end it. Reads and writes no session, so it needs
 * no lock. Takes memory for the rows. */
size_t pcef_take(pcef_worker *worker, const pcef_packet *packets, size_t packet_count, pcef_verdict *verdicts,
                 size_t verdict_count);

/* The number of the session's newest generation. A worker that holds another refreshes. Takes no memory.
 * PCEF_NO_SESSION. */
size_t pcef_generation(pcef_session *at);

/* The worker takes the session's newest generation, whose number is returned. Its rows go on waiting, each with the
 * verdict that it has. PCEF_MEET_NO_SESSION, _NO_WORKER, _OTHER_SESSION, _NO_MEMORY. */
uint64_t pcef_refresh(pcef_session *at, pcef_worker *worker);

/* Hands the worker's waiting rows over, all or none, and returns the number of the next report: the flush made those
 * from the number that pcef_forget or the last flush returned up to before this one. Takes memory.
 * PCEF_MEET_NO_SESSION to PCEF_MEET_ROWS_FULL. */
uint64_t pcef_flush(pcef_session *at, pcef_worker *worker);

/* The same with its last rows, and the worker leaves: its handle has none then. Where it is refused, the worker stays.
 * */
uint64_t pcef_finish(pcef_session *at, pcef_worker *worker);

/* The worker leaves without its waiting rows, which never count, and their number is returned, 0 to 32. Takes no
 * memory. PCEF_MEET_NO_SESSION, _NO_WORKER, _OTHER_SESSION. */
uint64_t pcef_abandon(pcef_session *at, pcef_worker *worker);

/* Why pcef_refresh, pcef_flush, pcef_finish or pcef_abandon is refused, which changes nothing: the first reason in
 * this order. */
#define PCEF_MEET_NO_SESSION UINT64_MAX
#define PCEF_MEET_NO_WORKER (UINT64_MAX - 3)
#define PCEF_MEET_OTHER_SESSION (UINT64_MAX - 4) /* the worker remembers another number than the session has */
#define PCEF_MEET_NOT_ATTACHED (UINT64_MAX - 5)  /* the session doesn't know the worker */
#define PCEF_MEET_ROWS_FULL (UINT64_MAX - 6)     /* it would hold more rows than its profile allows */
#define PCEF_MEET_NO_MEMORY (UINT64_MAX - 1)

/* Whether one of these four calls was refused. */
static inline int pcef_is_refused(uint64_t returned) {
    return returned >= PCEF_MEET_ROWS_FULL;
}

/* Writes the name of the rule at a place of the newest generation, or of the one that a worker holds, as a verdict has
 * it: as much as fits, without a zero behind it. Returns its length, 1 to 64. SIZE_MAX: there is no session, or no
 * worker. PCEF_NO_RULE: no rule has this place. Take no memory. */
size_t pcef_rule(pcef_session *at, uint8_t place, uint8_t *name, size_t room);
size_t pcef_worker_rule(pcef_worker *worker, uint8_t place, uint8_t *name, size_t room);

#define PCEF_NO_RULE (SIZE_MAX - 8)

/* Drops a worker whose session is closed, and frees its memory. Returns 1, or 0 where there was none. */
uint8_t pcef_drop_worker(pcef_worker *worker);

/* ---- Gx: a session's dialogue with its PCRF (TS 29.212)
 *
 * The dialogue lies at a handle of its own, beside that of the session, which opens when the PCRF has granted it. The
 * host owns the connection, its peers and identifiers: it hands over whole messages, and sends those that it gets. In
 * order: pcef_gx_set for each part; pcef_gx_open; pcef_gx_next, and the CCR-I is sent; pcef_gx_message for each message
 * of the PCRF with this Session-Id, whose reply is sent; behind each message, line, flush and notice pcef_gx_next until
 * it returns 0, and each CCR is sent; pcef_gx_end where the user leaves or the PCRF wants it; pcef_gx_close. Calls that
 * name the session are under its lock. pcef_forget is for when pcef_gx_next has returned 0 and no CCR is out: a report
 * that is forgotten before it was told is lost to the PCRF. */

/* A handle over Gx. Only its address is known. */
typedef struct pcef_gx pcef_gx;

/* How many octets of memory a handle over Gx needs. */
size_t pcef_gx_size(void);

/* Makes memory a handle without a dialogue. What the memory held is forgotten, and not freed. Takes no memory. */
void pcef_gx_room(pcef_gx *gx);

/* Says a part of what the host knows of the session, before pcef_gx_open. It stays until it is said anew, or till
 * pcef_gx_close. The first four have at most 1,024 octets. Takes memory. PCEF_OK, PCEF_GX_NO_PART,
 * PCEF_OPEN_NO_MEMORY. */
uint8_t pcef_gx_set(pcef_gx *gx, uint8_t part, const uint8_t *octets, size_t length);

#define PCEF_GX_SESSION_ID 0
#define PCEF_GX_ORIGIN_HOST 1
#define PCEF_GX_ORIGIN_REALM 2
#define PCEF_GX_DESTINATION_REALM 3
#define PCEF_GX_AVPS 4 /* whole AVPs for the CCR-I: subscriber, APN, access; at most 65,536 octets */

/* Begins a dialogue of a session that is to have the profile of a text: a CCR-I is due, which proposes its address and
 * the QoS of its default bearer. Where the PCRF grants another QoS, the session gets that. Takes memory. PCEF_OK, or
 * why none begins: the numbers of pcef_open, PCEF_ALREADY_OPEN where there is a dialogue, and the two below. */
uint8_t pcef_gx_open(pcef_gx *gx, const uint8_t *profile, size_t profile_length);

#define PCEF_GX_NOT_AVPS 10  /* the AVPs of the host aren't whole, or too many */
#define PCEF_GX_NO_PART 11   /* of pcef_gx_set: no part has the number */
#define PCEF_GX_LONG_PART 12 /* a part has more than 1,024 octets */

/* Hears a message of the PCRF, whole as it came, in the session. A request has a reply then; the answer to the first
 * CCR opens the session at its handle, which has none before. Returns what the message said, or why it isn't heard,
 * and then nothing changes. Takes memory. */
uint8_t pcef_gx_message(pcef_session *at, pcef_gx *gx, const uint8_t *octets, size_t length);

#define PCEF_GX_ANSWERED 0       /* a request: send the reply */
#define PCEF_GX_ANSWERED_AGAIN 1 /* a request that came again: send the reply; nothing was done */
#define PCEF_GX_REFUSED 2        /* a request without a session: send the reply */
#define PCEF_GX_TOLD 3           /* the CCR that was out succeeded, and what its answer asks for is done */
#define PCEF_GX_CUT_SHORT 4      /* the same, but a key or an event couldn't be had: what stood behind it isn't done */
#define PCEF_GX_ENDED 5          /* the CCR that was out succeeded; the session has ended */
#define PCEF_GX_NOT_OPENED 6     /* no session can have the QoS that the PCRF wants: a CCR-T is due */
#define PCEF_GX_FAILED 7         /* the CCR that was out failed: what it told stays due. A CCR-I isn't sent again */
#define PCEF_GX_NO_DIALOGUE 32   /* from here on nothing has changed. The handle has no dialogue */
#define PCEF_GX_NO_MESSAGE 33    /* fewer than 20 octets */
#define PCEF_GX_NOT_OURS 34      /* no answer to the CCR that is out: drop it */
#define PCEF_GX_AT_FAULT 35      /* an answer at fault: drop it */
#define PCEF_GX_OTHER_SESSION 36 /* the handle has another session, or none */
#define PCEF_GX_HAS_SESSION 37   /* the handle has a session before the dialogue has opened one */
#define PCEF_GX_NO_MEMORY 38     /* hand the message over again */
#define PCEF_GX_FORGOTTEN 39     /* of pcef_gx_next: a report that is to be told is forgotten */
#define PCEF_GX_NO_NUMBER 40     /* of pcef_gx_next: no CC-Request-Number is left */
#define PCEF_GX_WORKERS 41       /* of pcef_gx_end: workers are attached; each finishes first */
#define PCEF_GX_NO_VALUE 42      /* of pcef_gx_notice: no octets, or too many */
#define PCEF_GX_SESSION_REFUSES 43 /* the session has ended, or takes no more commands; of pcef_gx_renew: or has workers */
#define PCEF_GX_NO_EVENT 44      /* of pcef_gx_notice: no event has the number */
#define PCEF_GX_REPORTS_DUE 45   /* of pcef_gx_renew: over 100 reports aren't told yet: CCRs tell them first */

/* What the last message left to the host. Which event triggers it has, and what charging and maximum rates it sets,
 * stands in the message. */
typedef struct {
    uint32_t release;        /* where the PCRF ends the session: the Session-Release-Cause */
    uint32_t result_code;    /* of PCEF_GX_FAILED: the Result-Code, where the answer has one */
    uint8_t has_release;     /* 1: let each worker finish, and call pcef_gx_end */
    uint8_t has_result_code; /* 1 where there is one */
    uint8_t has_triggers;    /* 1: the events in the message are those to watch for from now on, and no others */
} pcef_gx_rest;

/* Writes what the last message that was heard left. Returns 1, or 0 where there is no dialogue, and nothing is written.
 * Takes no memory. */
uint8_t pcef_gx_left(pcef_gx *gx, pcef_gx_rest *rest);

/* Writes the answer to the last request, as much as fits, and returns its length; 0 where there is none. It stays until
 * the next request. Takes no memory. */
size_t pcef_gx_reply(pcef_gx *gx, uint8_t *octets, size_t room);

/* Sends the CCR that is due, where none is out: pcef_gx_request has its octets, with these identifiers. Its answer
 * comes with the same two. Returns what the CCR is for, or 0 where none is due; else PCEF_GX_NO_DIALOGUE,
 * _OTHER_SESSION, _FORGOTTEN, _NO_NUMBER, _NO_MEMORY. What it tells is told once it was answered with success. Takes
 * memory. */
uint8_t pcef_gx_next(pcef_session *at, pcef_gx *gx, uint32_t hop_by_hop, uint32_t end_to_end);

#define PCEF_GX_INITIAL 1
#define PCEF_GX_UPDATE 2
#define PCEF_GX_TERMINATION 3

/* Writes the CCR that is out, as much as fits, and returns its length; 0 where none is out. Takes no memory. */
size_t pcef_gx_request(pcef_gx *gx, uint8_t *octets, size_t room);

/* Marks the CCR that is out as one that may have been sent before, for a host that sends it once more. Returns 1, or 0
 * where none is out. Takes no memory. */
uint8_t pcef_gx_again(pcef_gx *gx);

/* Gives the CCR that is out up: what it tells stays due, and a late answer is dropped. Returns 1, or 0 where none was
 * out. Takes no memory. */
uint8_t pcef_gx_give_up(pcef_gx *gx);

/* Notices that the access of the session changed, by the data of the AVP that tells so: RAT-Type,
 * 3GPP-SGSN-MCC-MNC, 3GPP-User-Location-Info or 3GPP-MS-TimeZone. Where the PCRF subscribed to the event, a CCR-U is
 * due. Takes memory. PCEF_OK, PCEF_GX_OTHER_SESSION where there is none, PCEF_GX_NO_MEMORY, _NO_VALUE,
 * _SESSION_REFUSES, _NO_EVENT. */
uint8_t pcef_gx_notice(pcef_session *at, uint8_t event, const uint8_t *octets, size_t length);

#define PCEF_GX_RAT_CHANGE 2
#define PCEF_GX_PLMN_CHANGE 4
#define PCEF_GX_USER_LOCATION_CHANGE 13
#define PCEF_GX_UE_TIME_ZONE_CHANGE 25

/* Renews the session as pcef_renew does, and goes on with the dialogue: the same Session-Id, and CCRs that are numbered
 * on. The PCRF hears of nothing but usage: what it wasn't told of the old session is due for the next CCR, and a CCR
 * that is out stays out. Let each worker finish before, and attach again; bearers may have other numbers then
 * (pcef_bearer). Changes nothing where it isn't PCEF_OK: PCEF_GX_NO_DIALOGUE, _OTHER_SESSION, _NO_MEMORY, _FORGOTTEN,
 * _SESSION_REFUSES, _REPORTS_DUE. Takes memory. */
uint8_t pcef_gx_renew(pcef_session *at, pcef_gx *gx);

/* Ends the session: the user left, or the PCRF wants it. A CCR-T with the last usage is due then, before the session is
 * closed by pcef_close. PCEF_OK, PCEF_GX_NO_DIALOGUE, _OTHER_SESSION, _WORKERS, _NO_MEMORY. Takes memory. */
uint8_t pcef_gx_end(pcef_session *at, pcef_gx *gx);

/* Where the dialogue stands, 0 where there is none. Takes no memory. */
uint8_t pcef_gx_stage(pcef_gx *gx);

#define PCEF_GX_OPENING 1 /* the PCRF hasn't granted the session yet */
#define PCEF_GX_OPEN 2
#define PCEF_GX_ENDING 3  /* the last usage is to be told */
#define PCEF_GX_OVER 4

/* Drops the dialogue, if there is one, and what the host said, and frees all their memory but the handle's own; the
 * session stays. What isn't told then is lost to the PCRF. Returns 1, or 0 where there was no dialogue. */
uint8_t pcef_gx_close(pcef_gx *gx);

#ifdef __cplusplus
}
#endif
#endif
