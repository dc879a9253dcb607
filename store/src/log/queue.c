/* The queue of those who wait, and the group commit: its head leads, makes the calls behind it too, and hands the lead on. */
#include "../job/job.h"
#include "../manifests/manifests.h"
#include "../store.h"
#include "log.h"

#include <limits.h>
#include <linux/futex.h>
#include <stdio.h>
#include <sys/syscall.h>
#include <time.h>
#include <unistd.h>

enum { LONGEST_GATHERING = 5000000, WOKEN_AT_ONCE = 32, MADE_AT_ONCE = 32 }; /* ns; callers; callers */

void rks_drop_answers(relkvanu_store_call *calls, size_t calls_len) {
    for (size_t i = 0; i < calls_len; i++) {
        calls[i].answer = calls[i].choice = (relkvanu_answer){.code = RELKVANU_STORE_NOT_MADE};
        calls[i].place = calls[i].term = 0;
        rks_clear_more(&calls[i]);
    }
}

static struct rks_bell *bell_of(relkvanu_store *s, uint32_t number) {
    return &s->queue.bells[number / RKS_BITS % RKS_BELLS];
}

static uint32_t bit_of(uint32_t number) {
    return UINT32_C(1) << number % RKS_BITS;
}

static void ring(struct rks_bell *bell, uint32_t bits) {
    atomic_fetch_add(&bell->rung, 1);
    syscall(SYS_futex, &bell->rung, FUTEX_WAKE_BITSET_PRIVATE, INT_MAX, NULL, NULL, bits);
}

static void call_one(relkvanu_store *s, struct rks_waiter *w) {
    uint32_t number = w->number;
    w->is_called = true;
    ring(bell_of(s, number), bit_of(number));
}

/* Wakes those in a list up to another one. Who is called may be gone at once. */
static void call_all(relkvanu_store *s, struct rks_waiter *first, const struct rks_waiter *behind) {
    struct rks_bell *bell = NULL;
    uint32_t bits = 0;
    for (struct rks_waiter *w = first, *next; w != behind; w = next) {
        uint32_t number = w->number;
        next = w->next;
        if (bits != 0 && bell != bell_of(s, number)) {
            ring(bell, bits);
            bits = 0;
        }
        bell = bell_of(s, number);
        bits |= bit_of(number);
        w->is_called = true;
    }
    if (bits != 0) {
        ring(bell, bits);
    }
}

/* Who calls does so before the word changes: so nobody sleeps who was called. */
static void await_call(relkvanu_store *s, struct rks_waiter *w) {
    struct rks_bell *bell = bell_of(s, w->number);
    for (uint32_t seen = bell->rung; !w->is_called; seen = bell->rung) {
        syscall(SYS_futex, &bell->rung, FUTEX_WAIT_BITSET_PRIVATE, seen, NULL, NULL, bit_of(w->number));
    }
}

/* Wakes the next of those who are answered, and belong to their own threads from then on. Returns whether some are left. */
static bool wake_some(relkvanu_store *s) {
    if (!s->queue.has_sleepers) {
        return false;
    }
    pthread_mutex_lock(&s->mutex);
    struct rks_waiter *first = s->queue.sleepers, *behind = first;
    for (size_t len = 0; behind != NULL && len < WOKEN_AT_ONCE; len++) {
        behind = behind->next;
    }
    s->queue.sleepers = behind;
    s->queue.sleepers_tail = behind == NULL ? &s->queue.sleepers : s->queue.sleepers_tail;
    s->queue.has_sleepers = behind != NULL;
    pthread_mutex_unlock(&s->mutex);
    call_all(s, first, behind);
    return behind != NULL;
}

/* Whether it may be behind others in a group. At most one stop ends in a group, since rks_make has room for one restore that it ends with. */
static bool joins(const struct rks_waiter *w) {
    return w->calls != NULL && w->verb != RKS_STOPS;
}

/* Appends to the queue. With RELKVANU_STORE_OK a waiter that is neither submitted nor answered leads now. */
int rks_enter(relkvanu_store *s, struct rks_waiter *w) {
    if (rks_is_forked(s)) {
        return RELKVANU_STORE_FORKED;
    }
    int status = w->is_submitted ? RELKVANU_STORE_OK : rks_check_reader(s);
    if (status != RELKVANU_STORE_OK) {
        return status;
    }
    w->next = NULL;
    w->is_answered = false;
    w->is_called = false;
    pthread_mutex_lock(&s->mutex);
    if (s->dead != 0) {
        pthread_mutex_unlock(&s->mutex);
        return RELKVANU_STORE_CLOSED;
    }
    *s->queue.tail = w;
    s->queue.tail = &w->next;
    s->queue.queued++;
    w->number = s->queue.came++;
    s->queue.loners += !joins(w);
    if (s->queue.gathers != 0 && (s->queue.queued >= s->queue.gathers || s->queue.loners != 0)) {
        s->queue.gathers = 0;
        pthread_cond_signal(&s->queue.gathered);
    }
    bool leads = !s->queue.is_led, is_submitted = w->is_submitted;
    s->queue.is_led = true;
    if (leads && is_submitted) {
        sem_post(&s->submits.work);
    }
    pthread_mutex_unlock(&s->mutex);
    if (is_submitted) {
        return RELKVANU_STORE_OK; /* it may be answered and freed by now */
    }
    if (!leads) {
        await_call(s, w);
    }
    if (w->is_answered) {
        wake_some(s);
    }
    if (!w->is_answered && w->calls == NULL) {
        rks_await_keeper(s); /* a read sees no record whose manifest is not there yet */
    }
    return RELKVANU_STORE_OK;
}

/* Takes the head out of the queue. With the mutex. */
static struct rks_waiter *take_head(relkvanu_store *s) {
    struct rks_waiter *head = s->queue.head;
    s->queue.head = head->next;
    head->next = NULL;
    if (s->queue.head == NULL) {
        s->queue.tail = &s->queue.head;
    }
    s->queue.queued--;
    s->queue.loners -= !joins(head);
    s->group.callers++;
    return head;
}

void rks_take_alone(relkvanu_store *s) {
    pthread_mutex_lock(&s->mutex);
    s->group.callers = 0;
    take_head(s);
    pthread_mutex_unlock(&s->mutex);
}

/* Moves calls from the queue to the end of a group: the head if the group is empty, and those behind it that join it. Returns the first of them,
 * or NULL. */
static struct rks_waiter *take_calls(relkvanu_store *s, struct rks_waiter ***end, size_t *len) {
    struct rks_waiter **first = *end;
    pthread_mutex_lock(&s->mutex);
    while (s->queue.head != NULL && (s->group.callers == 0 || joins(s->queue.head)) &&
           *len + s->queue.head->calls_len <= RELKVANU_STORE_MOST_CALLS) {
        *len += s->queue.head->calls_len;
        **end = take_head(s);
        *end = &(**end)->next;
    }
    pthread_mutex_unlock(&s->mutex);
    return *first;
}

static void answer(relkvanu_store *s, struct rks_waiter *w, int status) {
    w->status = status == RELKVANU_STORE_OK ? w->refusal : status;
    w->is_answered = true;
    if (w->status != RELKVANU_STORE_OK) {
        rks_drop_answers(w->calls, w->calls_len);
    }
    for (size_t i = 0; i < w->calls_len && w->status == RELKVANU_STORE_OK; i++) {
        w->calls[i].answer = rks_told(s, w->first + i);
    }
}

/* Nobody has to wake them all: each who is woken wakes some of those who are left. So one whom the system lets wait keeps nobody else waiting. Afterwards a
 * waiter belongs to who waits for it. */
static void wake_all(relkvanu_store *s, struct rks_waiter *answered) {
    if (answered == NULL) {
        return;
    }
    pthread_mutex_lock(&s->mutex);
    s->queue.has_sleepers = true;
    *s->queue.sleepers_tail = answered;
    while (*s->queue.sleepers_tail != NULL) {
        s->queue.sleepers_tail = &(*s->queue.sleepers_tail)->next;
    }
    pthread_mutex_unlock(&s->mutex);
    while (wake_some(s)) {}
}

/* Completes the submits of these. Returns the others, who sleep. Afterwards a waiter belongs to who waits for it, and one that was submitted is not the
 * store's any more. */
static struct rks_waiter *tell_submits(relkvanu_store *s, struct rks_waiter *answered) {
    struct rks_waiter *sleepers = NULL, **end = &sleepers;
    for (struct rks_waiter *w = answered, *next; w != NULL; w = next) {
        next = w->next;
        if (w->is_submitted) {
            rks_complete(s, w);
        } else {
            *end = w;
            end = &w->next;
        }
    }
    *end = NULL;
    return sleepers;
}

void rks_tell_all(relkvanu_store *s, struct rks_waiter *answered) {
    wake_all(s, tell_submits(s, answered));
}

/* Answers a group, but for those who have to wait for the keeper. Returns those who sleep, and have to be woken. Who leads sees its own answer. */
static struct rks_waiter *answer_all(relkvanu_store *s, struct rks_waiter *group, int status, const struct rks_waiter *own) {
    struct rks_waiter *answered = NULL, **end = &answered;
    for (struct rks_waiter *w = group, *next; w != NULL; w = next) {
        next = w->next;
        answer(s, w, status);
        if (!rks_is_held(s, w, own) && w != own) {
            *end = w;
            end = &w->next;
        }
    }
    *end = NULL;
    return tell_submits(s, answered);
}

void rks_bury(relkvanu_store *s, int dead, const char *message) {
    s->dead = dead;
    snprintf(s->message, sizeof s->message, "%s", message);
}

static void bury(relkvanu_store *s, int dead) {
    pthread_mutex_lock(&s->mutex);
    rks_bury(s, dead, s->fault);
    pthread_mutex_unlock(&s->mutex);
}

/* The next in the queue leads. If the store is closed, all in the queue are told so. */
void rks_hand_on(relkvanu_store *s, int dead) {
    struct rks_waiter *failed = NULL;
    if (dead != 0) {
        bury(s, dead);
    }
    pthread_mutex_lock(&s->mutex);
    s->counted.counts = s->group.led;
    if (s->dead != 0) {
        failed = s->queue.head;
        s->queue.head = NULL;
        s->queue.tail = &s->queue.head;
        s->queue.queued = s->queue.loners = 0;
    }
    s->group.expected = s->group.callers + s->queue.queued;
    struct rks_waiter *next = s->queue.head;
    s->queue.is_led = next != NULL;
    if (next != NULL && next->is_submitted) {
        sem_post(&s->submits.work);
        next = NULL;
    }
    if (s->dead != 0) {
        pthread_cond_broadcast(&s->changed);
    }
    pthread_mutex_unlock(&s->mutex);
    if (next != NULL) {
        call_one(s, next);
    }
    wake_all(s, answer_all(s, failed, RELKVANU_STORE_CLOSED, NULL));
}

/* Commits the calls that were made. others_go_on: a manifest may be written while other groups are committed. */
static int commit(relkvanu_store *s, bool others_go_on) {
    int status = rks_commit(s, false);
    rks_end_group(s, status);
    if (status == RELKVANU_STORE_OK) {
        status = rks_keep_manifests(s, others_go_on); /* a record that nobody can recover is complete for nobody */
        s->group.led.commits++;
        s->group.led.calls += s->group.rows_len;
        s->group.led.largest = s->group.rows_len > s->group.led.largest ? s->group.rows_len : s->group.led.largest;
        pthread_mutex_lock(&s->mutex);
        s->counted.counts = s->group.led; /* before anybody is told */
        pthread_mutex_unlock(&s->mutex);
    }
    return status;
}

static bool is_untidy(const relkvanu_store *s) {
    return s->log.pages >= RKS_WAL_PAGES;
}

/* Brings the -wal into the file. Returns the status that closes the store, or 0. */
static int tidy(relkvanu_store *s) {
    int status = is_untidy(s) ? rks_checkpoint(s, SQLITE_CHECKPOINT_PASSIVE) : RELKVANU_STORE_OK;
    return status == RELKVANU_STORE_FAILED || status == RELKVANU_STORE_DAMAGED ? RELKVANU_STORE_FAILED : 0;
}

/* Shows what was committed, or closes the store. Returns whether it did. */
static bool closes(relkvanu_store *s, int status) {
    bool is_dead = status == RELKVANU_STORE_STORAGE || (status >= RELKVANU_STORE_FAILED && status <= RELKVANU_STORE_OUT_OF_MEMORY);
    if (is_dead) {
        bury(s, status);
        return true;
    }
    if (s->job.is_news) {
        rks_await_keeper(s); /* timers are told of the phase */
    }
    rks_show(s);
    return false;
}

/* How a leader waits for more callers. */
struct gathering {
    uint64_t end;  /* of all waiting, by rks_monotonic_ns */
    size_t before; /* callers of the group without it */
    bool rests, is_over;
};

/* At most half as long as the last sync took, from now on: what calls cost one by one they also cost in a later group. */
static struct gathering begin_gathering(relkvanu_store *s) {
    uint64_t most = s->group.took / 2 < LONGEST_GATHERING ? s->group.took / 2 : LONGEST_GATHERING;
    bool rests = s->group.resting != 0;
    s->group.resting -= rests;
    return (struct gathering){.end = rks_monotonic_ns() + most, .rests = rests, .is_over = rests};
}

/* Until when it waits for those who are missing: no longer than these calls are worth, since all others wait meanwhile. */
static struct timespec end_of_wait(const relkvanu_store *s, const struct gathering *g, size_t missing) {
    uint64_t worth = rks_monotonic_ns() + s->group.took * missing / s->group.expected;
    return rks_moment_of(worth < g->end ? worth : g->end);
}

/* Waits until all callers are in the group or in the queue, or some more, or one that joins no group. Returns whether the first joins the group: who came meanwhile
 * does, although nobody was waited for. */
static bool has_more(relkvanu_store *s, struct gathering *g) {
    bool waits = s->group.callers < s->group.expected && !g->is_over;
    size_t missing = waits ? s->group.expected - s->group.callers : 0, wanted = missing < MADE_AT_ONCE ? missing : MADE_AT_ONCE;
    struct timespec end = waits ? end_of_wait(s, g, missing) : (struct timespec){0};
    pthread_mutex_lock(&s->mutex);
    for (s->queue.gathers = s->queue.queued < wanted && s->queue.loners == 0 ? wanted : 0; s->queue.gathers != 0 && !g->is_over;) {
        g->is_over = pthread_cond_timedwait(&s->queue.gathered, &s->mutex, &end) != 0;
    }
    s->queue.gathers = 0;
    bool is_more = s->queue.head != NULL && joins(s->queue.head);
    pthread_mutex_unlock(&s->mutex);
    return is_more;
}

/* If callers did not come back, the next leaders do not wait: of 1, 3, 7 and at most 63 groups. */
static void end_gathering(relkvanu_store *s, const struct gathering *g) {
    if (g->rests) {
        return;
    }
    bool is_of_use = g->before >= s->group.expected || 4 * (s->group.callers - g->before) >= s->group.expected - g->before;
    s->group.rests = is_of_use ? 0 : s->group.rests < 63 ? 2 * s->group.rests + 1 : s->group.rests;
    s->group.resting = s->group.rests;
}

/* Takes a group out of the queue, and makes its calls. Callers that were answered together come back one after the other. Who leads makes their calls as
 * they come, and waits for them a little, so that they share a sync again: otherwise each second commit would be that of the first few. */
static struct rks_waiter *make_group(relkvanu_store *s) {
    struct rks_waiter *group = NULL, **end = &group, *more;
    struct gathering g = begin_gathering(s);
    size_t len = 0;
    s->group.callers = 0;
    rks_begin_calls(s);
    while ((more = take_calls(s, &end, &len)) != NULL) {
        rks_make(s, more);
        rks_insert_meanwhile(s); /* while callers come back */
        g.before = g.before == 0 ? s->group.callers : g.before;
        if (!has_more(s, &g)) {
            break;
        }
    }
    end_gathering(s, &g);
    return group;
}

/* Commits the calls that were made, if there are some. Without any all rows so far are committed. */
static int commit_group(relkvanu_store *s, bool others_go_on) {
    if (s->kept.is_due) {
        rks_await_keeper(s); /* manifests are at most one record behind the log */
    }
    if (s->group.rows_len != 0) {
        return commit(s, others_go_on);
    }
    rks_end_group(s, RELKVANU_STORE_OK);
    return RELKVANU_STORE_OK;
}

/* The next one leads before all are awake. Who waits for a turn to lead waits for the -wal too, and who is answered does not. */
void rks_lead(relkvanu_store *s, struct rks_waiter *own) {
    struct rks_waiter *group = make_group(s);
    int status = commit_group(s, s->group.callers > 1 || s->group.expected > 1);
    bool is_dead = closes(s, status);
    struct rks_waiter *sleepers = answer_all(s, group, status, own);
    if (is_untidy(s)) {
        wake_all(s, sleepers);
        sleepers = NULL;
        s->group.callers = 0; /* those who call again wait in the queue when the -wal is in the file: nobody is to count them twice */
    }
    rks_hand_on(s, is_dead ? 0 : tidy(s));
    wake_all(s, sleepers);
    rks_await_held(s, own);
}

int rks_commit_alone(relkvanu_store *s, relkvanu_answer *answer) {
    int status = commit_group(s, false);
    bool is_dead = closes(s, status);
    *answer = rks_told(s, s->group.receipts_len - 1);
    rks_hand_on(s, is_dead ? 0 : tidy(s));
    return status;
}
