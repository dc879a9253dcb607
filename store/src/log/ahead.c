/* Rows that are inserted before the commit, which inserts what is left: by who leads, while callers come back; and if there are long runs of parts, by a thread of
 * their own, while who leads makes the calls behind them. Between its two semaphores the connection, the rows that were handed over and the words of a failure are
 * that thread's: who leads waits for it before it uses them, or moves rows. */
#include "../job/job.h"
#include "../store.h"
#include "log.h"

/* If it fails, the commit begins anew, and tells. */
static void insert(relkvanu_store *s, size_t rows, size_t runs) {
    if (rks_insert_rows(s, rows, runs) != RELKVANU_STORE_OK) {
        rks_roll_back(s);
    }
}

static void *inserts(void *with) {
    relkvanu_store *s = with;
    for (;;) {
        while (sem_wait(&s->ahead.begins) != 0) {}
        if (s->ahead.is_ending) {
            return NULL;
        }
        insert(s, s->ahead.rows, s->ahead.runs);
        sem_post(&s->ahead.ended);
    }
}

void rks_await_rows(relkvanu_store *s) {
    while (s->ahead.is_working) {
        s->ahead.is_working = sem_wait(&s->ahead.ended) != 0;
    }
}

static bool is_free(struct rks_ahead *ahead) {
    ahead->is_working = ahead->is_working && sem_trywait(&ahead->ended) != 0;
    return !ahead->is_working;
}

void rks_insert_meanwhile(relkvanu_store *s) {
    if (is_free(&s->ahead) && s->group.rows_len - s->group.inserted >= RKS_MANY) {
        insert(s, s->group.rows_len - s->group.rows_len % RKS_MANY, 0);
    }
}

void rks_insert_ahead(relkvanu_store *s) {
    struct rks_ahead *ahead = &s->ahead;
    const struct rks_extras *b = &s->job.extras;
    size_t ended = b->runs_len == 0 ? 0 : b->runs[b->runs_len - 1].begins; /* the last run may get more */
    if (ended < ahead->bytes + RKS_LONG_RUN || !is_free(ahead)) {
        return;
    }
    ahead->is_there = ahead->is_there || rks_start(&ahead->thread, inserts, s);
    if (ahead->is_there) {
        ahead->bytes = ended;
        ahead->rows = s->group.rows_len - s->group.rows_len % RKS_MANY;
        ahead->runs = b->runs_len - 1;
        ahead->is_working = true;
        sem_post(&ahead->begins);
    }
}

void rks_end_ahead(relkvanu_store *s) {
    rks_await_rows(s);
    if (s->ahead.is_there) {
        s->ahead.is_ending = true;
        sem_post(&s->ahead.begins);
        pthread_join(s->ahead.thread, NULL);
    }
}
