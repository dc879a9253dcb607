/* Submits: calls whose caller does not wait. A thread of the store leads for them, and an eventfd tells of their completion. */
#include "../commands/commands.h"
#include "../job/job.h"
#include "../store.h"
#include "log.h"

#include <errno.h>
#include <stdlib.h>
#include <unistd.h>

/* Puts a submit that is answered into the queue of completions. */
void rks_complete(relkvanu_store *s, struct rks_waiter *w) {
    uint64_t one = 1;
    w->next = NULL;
    pthread_mutex_lock(&s->mutex);
    bool is_first = s->submits.completed == NULL;
    *s->submits.completed_tail = w;
    s->submits.completed_tail = &w->next;
    while (is_first && write(s->submits.event, &one, sizeof one) < 0 && errno == EINTR) {}
    pthread_mutex_unlock(&s->mutex);
}

static void *helps(void *with) {
    relkvanu_store *s = with;
    for (;;) {
        while (sem_wait(&s->submits.work) != 0) {}
        pthread_mutex_lock(&s->mutex);
        bool is_ending = s->submits.is_ending;
        pthread_mutex_unlock(&s->mutex);
        if (is_ending) {
            return NULL;
        }
        rks_lead(s, NULL);
    }
}

/* Starts the thread at the first submit. */
static bool has_helper(relkvanu_store *s) {
    pthread_mutex_lock(&s->mutex);
    bool is_there = s->submits.has_helper = s->submits.has_helper || rks_start(&s->submits.helper, helps, s);
    pthread_mutex_unlock(&s->mutex);
    return is_there;
}

static int submit(relkvanu_store *s, relkvanu_store_call *calls, size_t calls_len, enum rks_verb verb, uint64_t token) {
    int status = rks_is_forked(s) ? RELKVANU_STORE_FORKED : rks_check_calls(s, calls, calls_len);
    struct rks_waiter *w = status == RELKVANU_STORE_OK && has_helper(s) ? malloc(sizeof *w) : NULL;
    if (w != NULL) {
        *w = (struct rks_waiter){
            .calls = calls, .calls_len = calls_len, .verb = verb, .token = token, .is_submitted = true, .now = relkvanu_store_now(s)};
        status = rks_enter(s, w);
    } else if (status == RELKVANU_STORE_OK) {
        status = RELKVANU_STORE_NO_MEMORY;
    }
    if (status != RELKVANU_STORE_OK) {
        free(w);
        rks_drop_answers(calls, calls_len);
    }
    return status;
}

int relkvanu_store_submit(relkvanu_store *s, relkvanu_store_call *calls, size_t calls_len, uint64_t token) {
    return submit(s, calls, calls_len, RKS_CALLS, token);
}

int relkvanu_store_submit_stop_job(relkvanu_store *s, relkvanu_store_call *call, uint64_t token) {
    *call = (relkvanu_store_call){.call = rks_of_kind(RELKVANU_CALL_SAVEPOINT)};
    return submit(s, call, 1, RKS_STOPS, token);
}

int relkvanu_store_submit_begin_job(relkvanu_store *s, relkvanu_store_call *call, uint64_t token) {
    *call = (relkvanu_store_call){.call = rks_of_kind(RELKVANU_CALL_RESTORE)};
    return submit(s, call, 1, RKS_BEGINS, token);
}

/* The first completion, or NULL. Without any the eventfd can't be read any more. */
static struct rks_waiter *pop(relkvanu_store *s) {
    uint64_t count;
    pthread_mutex_lock(&s->mutex);
    struct rks_waiter *w = s->submits.completed;
    if (w != NULL) {
        s->submits.completed = w->next;
        if (s->submits.completed == NULL) {
            s->submits.completed_tail = &s->submits.completed;
            while (read(s->submits.event, &count, sizeof count) < 0 && errno == EINTR) {}
        }
    }
    pthread_mutex_unlock(&s->mutex);
    return w;
}

size_t relkvanu_store_completed(relkvanu_store *s, relkvanu_store_completion *completions, size_t len) {
    size_t found = 0;
    struct rks_waiter *w;
    while (!rks_is_forked(s) && found < len && (w = pop(s)) != NULL) {
        completions[found++] = (relkvanu_store_completion){w->token, w->status};
        free(w);
    }
    return found;
}

int relkvanu_store_descriptor(const relkvanu_store *s) {
    return s->submits.event;
}

/* The queue is empty. */
void rks_end_submits(relkvanu_store *s) {
    struct rks_waiter *w;
    if (s->submits.has_helper) {
        pthread_mutex_lock(&s->mutex);
        s->submits.is_ending = true;
        pthread_mutex_unlock(&s->mutex);
        sem_post(&s->submits.work);
        pthread_join(s->submits.helper, NULL);
    }
    while ((w = pop(s)) != NULL) {
        free(w);
    }
}
