/* The keeper: a thread that writes the manifest of a record which has just completed, while other callers lead and are answered. Who could learn of the completion
 * is answered when the manifest is on the disk: who completed the record, and who calls something else than what tasks do before a record is complete. */
#include "../job/job.h"
#include "../log/log.h"
#include "../store.h"
#include "manifests.h"

/* Nobody is told that a record is complete which another process may have passed over. */
static void refuse(struct rks_waiter *held, int status) {
    for (struct rks_waiter *w = held; w != NULL; w = w->next) {
        w->status = status;
        rks_drop_answers(w->calls, w->calls_len);
    }
}

/* Closes the store: the place is another's. */
static void close_refused(relkvanu_store *s, int status) {
    char message[RKS_MESSAGE];
    rks_say_fenced(message);
    s->keeper.refused = status;
    rks_bury(s, status, message);
    pthread_cond_broadcast(&s->changed);
}

/* Answers who was held, and lets others be given work. Who comes meanwhile is answered here too, behind those before. */
static void end_work(relkvanu_store *s, int status) {
    struct rks_keeper *keeper = &s->keeper;
    if (status != RELKVANU_STORE_OK) {
        close_refused(s, status);
    }
    for (struct rks_waiter *held; (held = keeper->holds) != NULL;) {
        keeper->holds = NULL;
        keeper->tail = &keeper->holds;
        pthread_mutex_unlock(&s->mutex);
        if (status != RELKVANU_STORE_OK) {
            refuse(held, status);
        }
        rks_tell_all(s, held);
        pthread_mutex_lock(&s->mutex);
    }
    keeper->work = NULL;
    pthread_cond_broadcast(&keeper->changed);
    if (s->timers.orders.len != 0) { /* timers may be told of them now */
        s->timers.version++;
        pthread_cond_broadcast(&s->changed);
    }
}

static void *keeps(void *with) {
    relkvanu_store *s = with;
    struct rks_keeper *keeper = &s->keeper;
    pthread_mutex_lock(&s->mutex);
    while (!keeper->is_ending || keeper->work != NULL) {
        if (keeper->work == NULL) {
            pthread_cond_wait(&keeper->changed, &s->mutex);
            continue;
        }
        struct rks_writing *work = keeper->work;
        pthread_mutex_unlock(&s->mutex);
        int status = rks_write_beside(work);
        pthread_mutex_lock(&s->mutex);
        end_work(s, status);
    }
    pthread_mutex_unlock(&s->mutex);
    return NULL;
}

bool rks_has_keeper(relkvanu_store *s) {
    return s->keeper.is_there = s->keeper.is_there || rks_start(&s->keeper.thread, keeps, s);
}

void rks_keep_beside(relkvanu_store *s, struct rks_writing *work) {
    pthread_mutex_lock(&s->mutex);
    s->keeper.work = work;
    s->keeper.given++;
    pthread_cond_broadcast(&s->keeper.changed);
    pthread_mutex_unlock(&s->mutex);
}

bool rks_is_keeping(relkvanu_store *s) {
    pthread_mutex_lock(&s->mutex);
    bool is_keeping = s->keeper.work != NULL;
    pthread_mutex_unlock(&s->mutex);
    return is_keeping;
}

/* Waits until the keeper has written its work with this number. */
static void await(relkvanu_store *s, uint64_t nth) {
    pthread_mutex_lock(&s->mutex);
    while (s->keeper.work != NULL && s->keeper.given <= nth) {
        pthread_cond_wait(&s->keeper.changed, &s->mutex);
    }
    pthread_mutex_unlock(&s->mutex);
}

void rks_await_keeper(relkvanu_store *s) {
    if (s->kept.beside != NULL) {
        await(s, UINT64_MAX);
    }
}

void rks_await_held(relkvanu_store *s, struct rks_waiter *own) {
    if (own == NULL || own->awaits == 0) {
        return;
    }
    await(s, own->awaits);
    pthread_mutex_lock(&s->mutex);
    int status = s->keeper.refused;
    pthread_mutex_unlock(&s->mutex);
    if (status != RELKVANU_STORE_OK) {
        own->next = NULL;
        refuse(own, status);
    }
}

/* Whether its answers say nothing of a completion: each is that of an acknowledgement that is not the last one, or of a reservation. Submits keep their order. */
static bool says_no_completion(const struct rks_waiter *w) {
    bool is_plain = w->verb == RKS_CALLS && !w->is_submitted;
    for (size_t i = 0; i < w->calls_len && is_plain; i++) {
        relkvanu_answer answer = w->calls[i].answer;
        is_plain = answer.code == RELKVANU_DONE && (answer.what == RELKVANU_ACK_PENDING || answer.what == RELKVANU_RESERVED);
    }
    return is_plain;
}

bool rks_is_held(relkvanu_store *s, struct rks_waiter *w, const struct rks_waiter *own) {
    struct rks_keeper *keeper = &s->keeper;
    bool is_made = w->status == RELKVANU_STORE_OK || w->status == RELKVANU_STORE_NOT_NOW;
    if (s->kept.beside == NULL || !is_made || says_no_completion(w)) {
        return false;
    }
    pthread_mutex_lock(&s->mutex);
    bool is_held = keeper->work != NULL && keeper->refused == RELKVANU_STORE_OK;
    if (keeper->refused != RELKVANU_STORE_OK) { /* it was faster than this group, and found the place to be another's */
        w->status = keeper->refused;
        rks_drop_answers(w->calls, w->calls_len);
    } else if (is_held && w == own) {
        w->awaits = keeper->given;
    } else if (is_held) {
        w->next = NULL;
        *keeper->tail = w;
        keeper->tail = &w->next;
    }
    s->group.callers -= is_held; /* nobody gathers who is held */
    pthread_mutex_unlock(&s->mutex);
    return is_held;
}

void rks_end_keeper(relkvanu_store *s) {
    if (s->keeper.is_there) {
        pthread_mutex_lock(&s->mutex);
        s->keeper.is_ending = true;
        pthread_cond_broadcast(&s->keeper.changed);
        pthread_mutex_unlock(&s->mutex);
        pthread_join(s->keeper.thread, NULL);
        s->keeper.is_there = false;
    }
}
