/* The clock, what a timer waits for, and how a thread waits for it. */
#include "../log/log.h"
#include "../manifests/manifests.h"
#include "../store.h"
#include "job.h"

#include <string.h>
#include <time.h>

static uint64_t ns_of(clockid_t clock) {
    struct timespec now;
    clock_gettime(clock, &now);
    return (uint64_t)now.tv_sec * 1000000000 + (uint64_t)now.tv_nsec;
}

/* A clock that never jumps, and goes on while the machine is suspended. */
uint64_t rks_clock_ns(void) {
    return ns_of(CLOCK_BOOTTIME);
}

uint64_t rks_monotonic_ns(void) {
    return ns_of(CLOCK_MONOTONIC);
}

struct timespec rks_moment_of(uint64_t ns) {
    return (struct timespec){(time_t)(ns / 1000000000), (long)(ns % 1000000000)};
}

uint64_t rks_wall_clock_ms(void) {
    return ns_of(CLOCK_REALTIME) / 1000000;
}

uint64_t relkvanu_store_now(const relkvanu_store *s) {
    return rks_clock_ns() / 1000000 + s->job.clock_offset;
}

void relkvanu_store_stop(relkvanu_store *s) {
    if (rks_is_forked(s)) {
        return;
    }
    pthread_mutex_lock(&s->mutex);
    s->timers.is_stopped = true;
    pthread_cond_broadcast(&s->changed);
    pthread_mutex_unlock(&s->mutex);
}

/* Waits for another view than that of the version seen, or until a moment of rks_clock_ns. */
int rks_await(relkvanu_store *s, uint64_t seen, uint64_t until) {
    pthread_mutex_lock(&s->mutex);
    while (s->dead == 0 && !s->timers.is_stopped && s->timers.version == seen) {
        uint64_t now = rks_clock_ns();
        if (now >= until) {
            break;
        }
        /* Conditions have no such clock as rks_clock_ns has. An hour at most, in case that the machine is suspended meanwhile. */
        uint64_t left = until - now < UINT64_C(3600000000000) ? until - now : UINT64_C(3600000000000);
        struct timespec end = rks_moment_of(rks_monotonic_ns() + left);
        pthread_cond_timedwait(&s->changed, &s->mutex, &end);
    }
    int status = s->dead != 0 ? RELKVANU_STORE_CLOSED : s->timers.is_stopped ? RELKVANU_STORE_STOPPED : RELKVANU_STORE_OK;
    pthread_mutex_unlock(&s->mutex);
    return status;
}

/* The moment of the next tick; UINT64_MAX: only a call can bring one. */
static uint64_t tick_moment(relkvanu_store *s) {
    if (relkvanu_mode(s->handle).what != RELKVANU_MODE_RUNNING || s->job.phase.phase == RELKVANU_STORE_PHASE_STOPPED) {
        return UINT64_MAX; /* ticks are refused until the job is restored, or begins again */
    }
    relkvanu_answer expires = relkvanu_oldest_expiry(s->handle);
    uint64_t expiry = expires.what == RELKVANU_EXPIRES ? expires.a : UINT64_MAX;
    if (s->job.phase.phase == RELKVANU_STORE_PHASE_STOPPING) {
        expiry = rks_stop_expiry(s);
        return expiry < s->job.tick_after ? s->job.tick_after : expiry;
    }
    /* While as many are pending as may be, due has passed, and only the end of one lets another begin. */
    uint64_t due = s->job.is_held ? UINT64_MAX : relkvanu_due(s->handle).a, next = due < expiry ? due : expiry;
    return next < s->job.tick_after ? s->job.tick_after : next;
}

/* What a timer has to know. */
struct timer {
    uint64_t wait, seen;
    bool is_running, is_news; /* of the job; whether it has stopped running since a timer was told */
    int phase;                /* the status that says its phase, if a timer was not told; 0 */
    bool is_stopped, has_order;
    struct rks_order order;
};

/* A moment that was given ahead of the clock is the clock's own from now on: a tick is due an interval after it, and not when the clock has
 * come so far. */
static void follow_moment(relkvanu_store *s) {
    uint64_t moment = relkvanu_moment(s->handle).a, now = relkvanu_store_now(s);
    s->job.latest = moment;
    if (moment > now) {
        s->job.clock_offset += moment - now;
    }
}

static bool is_same(const struct rks_view *one, const struct rks_view *other) {
    return one->tick == other->tick && one->clock == other->clock && one->is_running == other->is_running &&
           one->has_files == other->has_files && memcmp(&one->phase, &other->phase, sizeof one->phase) == 0;
}

/* So a commit that brings nothing new to timers and discarders wakes none of them. */
void rks_show(relkvanu_store *s) {
    follow_moment(s);
    struct rks_view view = {.tick = tick_moment(s),
        .clock = s->job.clock_offset,
        .is_running = relkvanu_mode(s->handle).what == RELKVANU_MODE_RUNNING,
        .has_files = relkvanu_file_counts(s->handle).waiting != 0,
        .term = relkvanu_term(s->handle).a,
        .phase = s->job.phase};
    pthread_mutex_lock(&s->mutex);
    bool is_other = rks_show_phase(s) || s->job.has_stopped || !is_same(&view, &s->timers.view);
    s->timers.tells_mode = !view.is_running && (s->timers.tells_mode || s->job.has_stopped);
    s->job.has_stopped = false;
    s->timers.view = view;
    s->counted.measures.wal_bytes = (uint64_t)s->file.wal_is.st_size;
    s->counted.measures.log_rows = s->log.place - s->log.first;
    s->counted.measures.last_commit = s->log.committed_at;
    if (is_other) {
        s->timers.version++;
        pthread_cond_broadcast(&s->changed);
    }
    pthread_mutex_unlock(&s->mutex);
}

/* One timer is told, of one thing at a time: an order, then a phase, then that the job has stopped running. */
static void tell(relkvanu_store *s, struct timer *timer) {
    timer->has_order = rks_next_order(s, &timer->order);
    if (timer->has_order) {
        return;
    }
    timer->phase = s->timers.tells_phase;
    s->timers.tells_phase = 0;
    if (timer->phase == 0) {
        timer->is_news = s->timers.tells_mode;
        s->timers.tells_mode = false;
    }
}

static int look(relkvanu_store *s, struct timer *timer, bool tells) {
    if (rks_is_forked(s)) {
        return RELKVANU_STORE_FORKED;
    }
    uint64_t now = relkvanu_store_now(s);
    pthread_mutex_lock(&s->mutex);
    uint64_t next = s->timers.view.tick;
    int status = s->dead != 0 ? RELKVANU_STORE_CLOSED : s->timers.is_stopped ? RELKVANU_STORE_STOPPED : RELKVANU_STORE_OK;
    uint64_t wait = next == UINT64_MAX ? UINT64_MAX : next > now ? next - now : 0;
    *timer = (struct timer){.wait = wait,
        .seen = s->timers.version,
        .is_running = s->timers.view.is_running,
        .is_stopped = s->timers.view.phase.phase == RELKVANU_STORE_PHASE_STOPPED};
    if (tells && status == RELKVANU_STORE_OK) {
        tell(s, timer);
    }
    pthread_mutex_unlock(&s->mutex);
    return status;
}

int relkvanu_store_next_tick(relkvanu_store *s, uint64_t *wait) {
    struct timer timer = {0};
    int status = look(s, &timer, false);
    *wait = timer.wait;
    return status == RELKVANU_STORE_STOPPED ? RELKVANU_STORE_OK : status;
}

uint64_t rks_after(uint64_t ms) {
    uint64_t now = rks_clock_ns();
    return ms > (UINT64_MAX - now) / 1000000 ? UINT64_MAX : now + ms * 1000000;
}

static relkvanu_answer not_running(bool is_news) {
    return (relkvanu_answer){.code = RELKVANU_REFUSED, .what = RELKVANU_NOT_RUNNING, .a = is_news};
}

/* What a timer returns that has waited, and makes no tick. */
static int no_tick(const struct timer *timer, int status, relkvanu_store_call *tick) {
    rks_drop_answers(tick, 1);
    if (status == RELKVANU_STORE_JOB_STOPPED || (status == RELKVANU_STORE_TIMED_OUT && timer->is_stopped)) {
        tick->answer = not_running(status == RELKVANU_STORE_JOB_STOPPED);
        return RELKVANU_STORE_JOB_STOPPED;
    }
    if (status == RELKVANU_STORE_TIMED_OUT && !timer->is_running) {
        tick->answer = not_running(timer->is_news);
        return RELKVANU_STORE_NOT_RUNNING;
    }
    return status;
}

int relkvanu_store_await_tick(relkvanu_store *s, uint64_t longest, relkvanu_store_call *tick) {
    return relkvanu_store_await_tick_with(s, longest, tick, NULL);
}

int relkvanu_store_await_tick_with(relkvanu_store *s, uint64_t longest, relkvanu_store_call *tick, relkvanu_store_more *more) {
    *tick = (relkvanu_store_call){.call = {.kind = RELKVANU_CALL_TICK, .now = RELKVANU_STORE_NOW}, .more = more};
    rks_clear_more(tick);
    int refused = rks_is_forked(s) ? RELKVANU_STORE_OK : rks_check_reader(s);
    if (refused != RELKVANU_STORE_OK) {
        rks_drop_answers(tick, 1);
        return refused;
    }
    for (uint64_t end = rks_after(longest);;) {
        struct timer timer = {0};
        int status = look(s, &timer, true);
        if (status == RELKVANU_STORE_OK && timer.has_order) {
            tick->answer = timer.order.answer;
            tick->choice = timer.order.choice;
            tick->place = timer.order.place;
            tick->term = timer.order.term;
            return status;
        }
        status = status == RELKVANU_STORE_OK ? timer.phase : status;
        if (status == RELKVANU_STORE_OK && timer.wait == 0) {
            return relkvanu_store_calls(s, tick, 1);
        }
        status = status == RELKVANU_STORE_OK && (timer.is_news || rks_clock_ns() >= end) ? RELKVANU_STORE_TIMED_OUT : status;
        if (status == RELKVANU_STORE_OK) {
            uint64_t due = rks_after(timer.wait);
            status = rks_await(s, timer.seen, due < end ? due : end);
        }
        if (status != RELKVANU_STORE_OK) {
            return no_tick(&timer, status, tick);
        }
    }
}
