/* The phases of a job: it runs, it is being stopped, or it is stopped. And the orders: what verbs have made, and a timer hands to the engine. */
#include "../files/files.h"
#include "../log/log.h"
#include "../manifests/manifests.h"
#include "../store.h"
#include "job.h"

#include <inttypes.h>
#include <stdio.h>
#include <string.h>
#include <zlib.h>

static bool is_in(const relkvanu_store *s, uint64_t phase) {
    return s->job.phase.phase == phase;
}

/* Whether a verb may be made in this phase. */
bool rks_allows(const relkvanu_store *s, enum rks_verb verb) {
    return verb == RKS_STOPS ? is_in(s, RELKVANU_STORE_PHASE_RUNNING) : verb != RKS_BEGINS || is_in(s, RELKVANU_STORE_PHASE_STOPPED);
}

/* The moment from which a tick expires the savepoint of the stop. */
uint64_t rks_stop_expiry(const relkvanu_store *s) {
    return s->job.phase.started + s->job.settings.timeout;
}

/* Whether a call would begin a record while the job is being stopped, or is stopped. A tick that ends the stop is none of these. */
bool rks_puts_off(relkvanu_store *s, const relkvanu_call *call, uint64_t now) {
    uint32_t kind = call->kind;
    bool begins = kind == RELKVANU_CALL_TICK || kind == RELKVANU_CALL_TRIGGER || kind == RELKVANU_CALL_SAVEPOINT;
    if (!begins || is_in(s, RELKVANU_STORE_PHASE_RUNNING)) {
        return false;
    }
    uint64_t given = call->now == RELKVANU_STORE_NOW ? now : call->now, latest = relkvanu_moment(s->handle).a;
    uint64_t moment = given > latest ? given : latest;
    return is_in(s, RELKVANU_STORE_PHASE_STOPPED) || kind != RELKVANU_CALL_TICK || moment < rks_stop_expiry(s);
}

static void enter(relkvanu_store *s, struct rks_phase phase) {
    s->job.is_news = s->job.is_news || !is_in(s, phase.phase);
    s->job.phase = phase;
    s->job.writes_phase = true;
}

/* Why a call has ended the savepoint of the stop. */
static uint64_t why_ended(uint32_t what) {
    switch (what) {
    case RELKVANU_TICK_FAILED:
    case RELKVANU_DECLINE_FAILED: return RELKVANU_STORE_STOP_FAILED;
    case RELKVANU_DECLINE_ABORTED: return RELKVANU_STORE_STOP_DECLINED;
    case RELKVANU_CANCELLED: return RELKVANU_STORE_STOP_CANCELLED;
    default: return what <= RELKVANU_TICK_HELD_PAUSE ? RELKVANU_STORE_STOP_EXPIRED : RELKVANU_STORE_STOP_RESTORED;
    }
}

static void fail(relkvanu_store *s, uint64_t why) {
    enter(s, (struct rks_phase){.phase = RELKVANU_STORE_PHASE_RUNNING, .failed = why, .savepoint = s->job.phase.savepoint});
}

static bool ends_the_stop(relkvanu_store *s) {
    uint32_t standing = relkvanu_standing(s->handle, s->job.phase.savepoint).what;
    return standing != RELKVANU_STANDS_PENDING && standing != RELKVANU_STANDS_DONE;
}

/* What an accepted call makes of the phase. */
void rks_follow(relkvanu_store *s, enum rks_verb verb, const relkvanu_store_call *call) {
    uint32_t what = call->answer.what;
    if (verb == RKS_STOPS) {
        enter(s, (struct rks_phase){
                     .phase = RELKVANU_STORE_PHASE_STOPPING, .savepoint = call->answer.a, .started = relkvanu_moment(s->handle).a});
    } else if (verb == RKS_BEGINS) {
        enter(s, (struct rks_phase){.phase = RELKVANU_STORE_PHASE_RUNNING});
    } else if (is_in(s, RELKVANU_STORE_PHASE_STOPPING) && ends_the_stop(s)) {
        fail(s, why_ended(what));
    } else if (is_in(s, RELKVANU_STORE_PHASE_STOPPED) && what == RELKVANU_CANCELLED) {
        fail(s, RELKVANU_STORE_STOP_CANCELLED);
    } else if (is_in(s, RELKVANU_STORE_PHASE_STOPPED) && call->term != 0) {
        s->job.phase.term = call->term; /* a restore of a job that is stopped does not begin it */
        s->job.writes_phase = true;
    }
}

/* Whether the savepoint of the stop is done, so that the job goes back to it now. */
bool rks_has_saved(relkvanu_store *s) {
    return is_in(s, RELKVANU_STORE_PHASE_STOPPING) && relkvanu_standing(s->handle, s->job.phase.savepoint).what == RELKVANU_STANDS_DONE;
}

/* The answer to the restore that ends a stop. It is refused if as many terms have ended as can be counted. */
void rks_stopped(relkvanu_store *s, const relkvanu_store_call *restore) {
    if (restore->answer.code == RELKVANU_DONE) {
        enter(s, (struct rks_phase){.phase = RELKVANU_STORE_PHASE_STOPPED, .savepoint = s->job.phase.savepoint, .term = restore->term});
    } else {
        fail(s, RELKVANU_STORE_STOP_FAILED);
    }
}

/* The orders */

/* A record may have ended before its barrier was sent: tasks that held for it would hold for good. */
static bool is_of_use(relkvanu_store *s, const struct rks_order *order) {
    uint64_t id = order->answer.what == RELKVANU_TICK_TRIGGERED ? order->answer.b : order->answer.a;
    bool is_record = order->answer.what == RELKVANU_TICK_TRIGGERED || order->answer.what == RELKVANU_SAVEPOINT_TRIGGERED;
    return !is_record || relkvanu_standing(s->handle, id).what == RELKVANU_STANDS_PENDING;
}

static void prune(relkvanu_store *s, struct rks_orders *orders) {
    size_t len = 0;
    for (size_t i = 0; i < orders->len; i++) {
        if (is_of_use(s, &orders->of[i])) {
            orders->of[len++] = orders->of[i];
        }
    }
    orders->len = len;
}

/* What is still of use always has room. */
static void append(relkvanu_store *s, struct rks_orders *orders, const struct rks_order *order) {
    if (orders->len == RKS_ORDERS) {
        prune(s, orders);
    }
    if (orders->len < RKS_ORDERS) {
        orders->of[orders->len++] = *order;
    }
}

void rks_order(relkvanu_store *s, const relkvanu_store_call *call) {
    append(s, &s->job.made_orders, &(struct rks_order){call->answer, call->choice, call->place, call->term});
}

/* After a restore or a cancel each order before it is of no use. */
void rks_drop_orders(relkvanu_store *s) {
    s->job.made_orders.len = 0;
    s->job.drops_orders = true;
}

/* Shows timers the phase and the orders. Returns whether there is anything to tell them. */
bool rks_show_phase(relkvanu_store *s) {
    bool is_other = s->job.is_news || s->job.made_orders.len != 0;
    if (s->job.is_news) {
        s->timers.tells_phase = is_in(s, RELKVANU_STORE_PHASE_STOPPED) ? RELKVANU_STORE_JOB_STOPPED
                                : s->job.phase.failed != 0             ? RELKVANU_STORE_NOT_STOPPED
                                                                       : 0;
    }
    s->timers.orders.len = s->job.drops_orders ? 0 : s->timers.orders.len;
    prune(s, &s->timers.orders);
    for (size_t i = 0; i < s->job.made_orders.len; i++) {
        append(s, &s->timers.orders, &s->job.made_orders.of[i]);
    }
    s->job.made_orders.len = 0;
    s->job.is_news = s->job.drops_orders = false;
    return is_other;
}

/* An order tells of the choice, whose manifest the keeper may be writing: no timer is told of it before, and all others go on. */
bool rks_next_order(relkvanu_store *s, struct rks_order *order) {
    if (s->timers.orders.len == 0 || s->keeper.work != NULL) {
        return false;
    }
    *order = s->timers.orders.of[0];
    memmove(s->timers.orders.of, s->timers.orders.of + 1, --s->timers.orders.len * sizeof *s->timers.orders.of);
    return true;
}

int relkvanu_store_phase(relkvanu_store *s, relkvanu_store_job_phase *phase) {
    *phase = (relkvanu_store_job_phase){0};
    if (rks_is_forked(s)) {
        return RELKVANU_STORE_FORKED;
    }
    pthread_mutex_lock(&s->mutex);
    struct rks_phase found = s->timers.view.phase;
    int status = s->dead != 0 ? RELKVANU_STORE_CLOSED : RELKVANU_STORE_OK;
    pthread_mutex_unlock(&s->mutex);
    if (status == RELKVANU_STORE_OK) {
        *phase = (relkvanu_store_job_phase){
            .phase = (uint32_t)found.phase, .stop_failed = (uint32_t)found.failed, .savepoint = found.savepoint, .term = found.term};
    }
    return status;
}

/* The row of the job's file. A file that has none is that of a job that runs. */

static uint32_t sum_of(const struct rks_phase *phase) {
    const uint64_t numbers[] = {phase->phase, phase->failed, phase->savepoint, phase->started, phase->term};
    return (uint32_t)crc32(0, (const Bytef *)numbers, sizeof numbers);
}

/* Within the transaction of the calls that have led to it. */
int rks_write_phase(relkvanu_store *s) {
    static const char TABLE[] =
        "CREATE TABLE IF NOT EXISTS phase(one INTEGER PRIMARY KEY CHECK (one = 1), phase INTEGER NOT NULL, failed INTEGER NOT NULL,"
        " savepoint INTEGER NOT NULL, started INTEGER NOT NULL, term INTEGER NOT NULL, sum INTEGER NOT NULL) STRICT";
    const struct rks_phase *is = &s->job.phase;
    char sql[240];
    snprintf(sql, sizeof sql,
        "INSERT OR REPLACE INTO phase VALUES(1, %" PRIu64 ", %" PRIu64 ", %" PRIu64 ", %" PRIu64 ", %" PRIu64 ", %" PRIu32 ")", is->phase,
        is->failed, is->savepoint, is->started, is->term, sum_of(is));
    int status = rks_run(s, TABLE);
    return status == RELKVANU_STORE_OK ? rks_run(s, sql) : status;
}

static int damaged(relkvanu_store *s) {
    if ((s->options.flags & RELKVANU_STORE_EARLIER_IMAGE) != 0) {
        s->job.phase = (struct rks_phase){0};
        return RELKVANU_STORE_OK; /* where something is damaged the job runs, and an engine can stop it again */
    }
    return rks_refuse(s, RELKVANU_STORE_DAMAGED, "%.400s: the row of the phase is damaged: its checksum is another one", s->file.path);
}

/* An earlier version of the library does not know the row. It may have gone on with the job. */
static void look_again(relkvanu_store *s) {
    relkvanu_answer term = relkvanu_term(s->handle);
    bool is_running = relkvanu_mode(s->handle).what == RELKVANU_MODE_RUNNING;
    bool is_left = is_in(s, RELKVANU_STORE_PHASE_STOPPED) && (!is_running || term.a != s->job.phase.term);
    if ((is_in(s, RELKVANU_STORE_PHASE_STOPPING) && ends_the_stop(s)) || is_left) {
        s->job.phase = (struct rks_phase){.failed = RELKVANU_STORE_STOP_RESTORED, .savepoint = s->job.phase.savepoint};
    }
    s->job.is_news = is_in(s, RELKVANU_STORE_PHASE_STOPPED);
}

/* After the calls of the log were made again. */
int rks_read_phase(relkvanu_store *s) {
    bool is_there;
    uint32_t sum = 0;
    char row[160] = "";
    struct rks_phase *is = &s->job.phase;
    int status = rks_has_table(s, "phase", &is_there);
    if (status != RELKVANU_STORE_OK || !is_there) {
        return status;
    }
    status = rks_ask(s, "SELECT printf('%lld %lld %lld %lld %lld %lld', phase, failed, savepoint, started, term, sum) FROM phase", NULL,
        row, sizeof row);
    if (status != RELKVANU_STORE_OK) {
        return status;
    }
    int found = sscanf(row, "%" SCNu64 " %" SCNu64 " %" SCNu64 " %" SCNu64 " %" SCNu64 " %" SCNu32, &is->phase, &is->failed, &is->savepoint,
        &is->started, &is->term, &sum);
    status = found == 6 && sum == sum_of(is) ? RELKVANU_STORE_OK : damaged(s);
    if (status == RELKVANU_STORE_OK) {
        look_again(s);
    }
    return status;
}
