/* Who has which address, and which number. Workers look addresses up without a lock, while the dialogues' thread, and
 * no other, brings users and takes them away. */
#include "gateway.h"
#include <arpa/inet.h>

static _Atomic(user *) chains[4096];
static user *numbered[MOST_USERS]; /* each at its number's remainder */

static _Atomic(user *) *chain_of(ip_address address) {
    return &chains[((uint64_t)(address >> 64 ^ address) * 0x9e3779b97f4a7c15) >> 52];
}

user *find_user(ip_address address) {
    user *at = atomic_load(chain_of(address));
    while (at && at->address != address) at = atomic_load(&at->next);
    return at;
}

/* From here on workers find the user. */
void show_user(user *of) {
    atomic_store(&of->next, atomic_load(chain_of(of->address)));
    atomic_store(chain_of(of->address), of);
}

/* Workers don't find a user that they found any more; one may still be in a turn that did. */
void hide_user(user *of) {
    _Atomic(user *) *at = chain_of(of->address);
    while (atomic_load(at) != of) at = &atomic_load(at)->next;
    atomic_store(at, atomic_load(&of->next));
}

user *user_numbered(uint64_t number) {
    user *of = numbered[number % MOST_USERS];
    return of && of->number == number ? of : NULL;
}

/* The users in some order, each behind the last one; the first where there is none. */
user *user_after(const user *last) {
    for (uint64_t at = last ? last->number % MOST_USERS + 1 : 0; at < MOST_USERS; at++)
        if (numbered[at]) return numbered[at];
    return NULL;
}

static void make_handles(user *of) {
    pcef_room(of->session = room(pcef_size()));
    pcef_gx_room(of->gx = room(pcef_gx_size()));
    of->lanes = room(sizeof(lane) * (size_t)settings.workers);
    for (int i = 0; i < settings.workers; i++) {
        of->lanes[i].of = of;
        pcef_worker_room(of->lanes[i].worker = room(pcef_worker_size()));
    }
}

/* A user without a session, or none: a word is wrong, the address is another user's, or there are too many. */
user *new_user(const char *text, const char *subscriber, int device) {
    static uint64_t next_number;
    uint8_t octets[16] = {[10] = 0xff, [11] = 0xff};
    if (strlen(subscriber) != 15 || device < 1 || device >= settings.devices) return NULL;
    if (inet_pton(AF_INET, text, octets + 12) != 1 && inet_pton(AF_INET6, text, octets) != 1) return NULL;
    for (user *of = NULL; (of = user_after(of));)
        if (!of->is_leaving && !memcmp(&of->address, octets, sizeof octets)) return NULL;
    for (int tries = 0; numbered[next_number % MOST_USERS]; next_number++)
        if (tries++ == MOST_USERS) return NULL;
    user *of = room(sizeof *of);
    numbered[next_number % MOST_USERS] = of;
    of->number = next_number++;
    of->device = device;
    memcpy(&of->address, octets, sizeof octets);
    snprintf(of->text, sizeof of->text, "%s", text);
    snprintf(of->subscriber, sizeof of->subscriber, "%s", subscriber);
    pthread_mutex_init(&of->lock, NULL);
    make_handles(of);
    return of;
}

void free_user(user *of) {
    numbered[of->number % MOST_USERS] = NULL;
    pcef_gx_close(of->gx);
    pcef_close(of->session);
    for (int i = 0; i < settings.workers; i++) {
        pcef_drop_worker(of->lanes[i].worker);
        free(of->lanes[i].worker);
    }
    free(of->lanes);
    free(of->gx);
    free(of->session);
    pthread_mutex_destroy(&of->lock);
    free(of);
}
