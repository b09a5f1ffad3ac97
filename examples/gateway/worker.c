/* A worker: a thread that reads packets of TUN devices, judges them by their user's rules, counts and forwards them. */
#include "gateway.h"
#include <errno.h>
#include <fcntl.h>
#include <linux/if_tun.h>
#include <net/if.h>
#include <poll.h>
#include <sys/ioctl.h>
#include <unistd.h>

enum { OCTETS = 2048, TURNS = 256 }; /* after so many turns rows that wait are handed over */
struct gateway_worker workers[MOST_WORKERS];

/* The user that a packet of a device is of, mostly that of the last one. Who sends in another user's name has to do so by
 * that one's device. */
static inline user *user_of(const pcef_packet *packet, int device, user *last) {
    ip_address address = (ip_address)0xffff0000 << 64;
    if (packet->length >= 20 && packet->octets[0] >> 4 == 4)
        memcpy((uint8_t *)&address + 12, packet->octets + (packet->up ? 12 : 16), 4);
    else if (packet->length >= 40 && packet->octets[0] >> 4 == 6)
        memcpy(&address, packet->octets + (packet->up ? 8 : 24), 16);
    else
        return NULL;
    user *of = last && last->address == address ? last : find_user(address);
    return of && (device == 0 || of->device == device) ? of : NULL;
}

/* Does what a verdict says. What a device doesn't take is lost behind it, as on any link. */
static void forward(struct gateway_worker *me, lane *mine, const pcef_packet *packet, const pcef_verdict *verdict) {
    int passes = verdict->status == PCEF_PASSED, to = me->queues[packet->up ? 0 : mine->of->device];
    if (verdict->status <= PCEF_STRAY) add(&mine->packets[verdict->status], 1);
    add(&mine->octets[packet->up + (passes ? 0 : 2)], packet->length);
    if (passes && write(to, packet->octets, packet->length) < 0) return;
}

/* Takes the packets of one user. What can't be counted for now isn't forwarded. */
static void take(struct gateway_worker *me, user *of, const pcef_packet *packets, size_t count) {
    pcef_verdict verdicts[BATCH];
    lane *mine = &of->lanes[me->number];
    size_t done = 0;
    if (atomic_load(&of->generation) != mine->generation) refresh(of, mine);
    while (done < count && !atomic_load(&of->is_full)) {
        size_t more = pcef_take(mine->worker, packets + done, count - done, verdicts, count - done);
        for (size_t i = 0; i < more; i++) forward(me, mine, &packets[done + i], &verdicts[i]);
        done += more;
        if (done < count && (verdicts[more].status != PCEF_FULL || !hand_over(of, mine))) break;
    }
    for (; done < count; done++) add(&mine->octets[packets[done].up + 2], packets[done].length);
    if (mine->is_waiting) return;
    mine->is_waiting = 1;
    mine->next_waiting = me->waiting;
    me->waiting = mine;
}

/* Takes packets, user by user as they stand beside each other. */
static void take_all(struct gateway_worker *me, int device, const pcef_packet *packets, size_t count) {
    user *of = user_of(&packets[0], device, NULL), *other = NULL;
    for (size_t first = 0, next; first < count; first = next, of = other) {
        for (next = first + 1; next < count && (other = user_of(&packets[next], device, of)) == of; next++) continue;
        if (of) take(me, of, packets + first, next - first);
        else add(&me->without_session, next - first);
    }
}

/* Reads what has come by a device, and takes it. Returns how many packets there were. */
static size_t turn(struct gateway_worker *me, int device) {
    static _Thread_local uint8_t octets[BATCH][OCTETS];
    pcef_packet packets[BATCH];
    size_t count = 0;
    for (ssize_t length; count < BATCH && (length = read(me->queues[device], octets[count], OCTETS)) > 0; count++)
        packets[count] = (pcef_packet){octets[count], (size_t)length, (size_t)length, device != 0};
    if (!count) return 0;
    pthread_mutex_lock(&me->turn);
    if (!settings.is_bare) take_all(me, device, packets, count);
    for (size_t i = 0; settings.is_bare && i < count; i++)
        if (write(me->queues[device == 0], packets[i].octets, packets[i].length) > 0) add(&me->without_session, 1);
    pthread_mutex_unlock(&me->turn);
    return count;
}

/* Hands over what waits, so that no row waits while nothing comes. */
static void hand_all_over(struct gateway_worker *me) {
    pthread_mutex_lock(&me->turn);
    for (lane *mine; (mine = me->waiting);) {
        me->waiting = mine->next_waiting;
        mine->is_waiting = 0;
        hand_over(mine->of, mine);
    }
    pthread_mutex_unlock(&me->turn);
}

static _Noreturn void *work(void *context) {
    struct gateway_worker *me = context;
    struct pollfd ready[MOST_DEVICES];
    for (int i = 0; i < settings.devices; i++) ready[i] = (struct pollfd){me->queues[i], POLLIN, 0};
    for (unsigned turns = 1;; turns++) {
        size_t count = 0;
        for (int i = 0; i < settings.devices; i++) count += turn(me, i);
        if (!count || turns % TURNS == 0) hand_all_over(me);
        if (!count) poll(ready, (nfds_t)settings.devices, 100);
    }
}

/* A queue of a TUN device, which is made where it isn't there. */
static int open_queue(const char *name) {
    struct ifreq request = {.ifr_flags = IFF_TUN | IFF_NO_PI | IFF_MULTI_QUEUE};
    int file = open("/dev/net/tun", O_RDWR | O_NONBLOCK | O_CLOEXEC);
    strncpy(request.ifr_name, name, IFNAMSIZ - 1);
    if (file < 0 || ioctl(file, TUNSETIFF, &request) < 0) fail(name, errno);
    return file;
}

void start_workers(void) {
    for (int i = 0; i < settings.workers; i++) {
        workers[i].number = i;
        pthread_mutex_init(&workers[i].turn, NULL);
        for (int n = 0; n < settings.devices; n++) workers[i].queues[n] = open_queue(settings.device_names[n]);
        if (pthread_create(&workers[i].thread, NULL, work, &workers[i])) fail("a thread", i);
    }
}
