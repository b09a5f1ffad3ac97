/* Workers and their session: calls that name both, each under the session's lock. */
#include "gateway.h"

/* Hands a lane's rows over. Returns whether they count now; where not, they wait on. Where the session's rows or commands
 * come to their end, with room for the rows that wait now, a renewal is due. */
int hand_over(user *of, lane *of_worker) {
    pthread_mutex_lock(&of->lock);
    uint64_t next = pcef_flush(of->session, of_worker->worker);
    int counts = !pcef_is_refused(next), is_due = counts && next > of->next_report;
    if (is_due) of->next_report = next;
    int ends = pcef_rows_left(of->session) < 2u * BATCH * (unsigned)settings.workers || pcef_commands_left(of->session) < 16;
    if (counts && ends && !atomic_exchange(&of->is_full, 1)) is_due = 1;
    pthread_mutex_unlock(&of->lock);
    if (is_due) post((event){.kind = CCR_IS_DUE, .number = of->number});
    return counts;
}

/* The lane takes the newest generation. Where there is no memory for that, it goes on by its own. */
void refresh(user *of, lane *of_worker) {
    pthread_mutex_lock(&of->lock);
    uint64_t held = pcef_refresh(of->session, of_worker->worker);
    pthread_mutex_unlock(&of->lock);
    if (!pcef_is_refused(held)) of_worker->generation = held;
}

/* All workers come to a session that was opened. One that can't, for want of memory, drops the user's packets. */
void attach_all(user *of) {
    pthread_mutex_lock(&of->lock);
    atomic_store(&of->generation, pcef_generation(of->session));
    for (int i = 0; i < settings.workers; i++) {
        pcef_attach(of->session, of->lanes[i].worker);
        of->lanes[i].generation = of->generation;
    }
    pthread_mutex_unlock(&of->lock);
    show_user(of);
}

/* All workers leave the session with their last rows. Between its turns a worker has nothing to do with a user that it
 * doesn't find any more, so its handle may be taken then. */
void finish_all(user *of) {
    hide_user(of);
    for (int i = 0; i < settings.workers; i++) {
        pthread_mutex_lock(&workers[i].turn);
        lane **at = &workers[i].waiting;
        while (*at && *at != &of->lanes[i]) at = &(*at)->next_waiting;
        if (*at) *at = (*at)->next_waiting;
        pthread_mutex_lock(&of->lock);
        uint64_t next = pcef_finish(of->session, of->lanes[i].worker);
        uint64_t lost = pcef_is_refused(next) ? pcef_abandon(of->session, of->lanes[i].worker) : 0;
        pthread_mutex_unlock(&of->lock);
        pthread_mutex_unlock(&workers[i].turn);
        if (lost && !pcef_is_refused(lost)) log_user(of, "lost", ",\"worker\":%d,\"rows\":%lu", i, lost);
    }
}
