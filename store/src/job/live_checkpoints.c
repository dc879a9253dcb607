/* The live records beside the coordinator: which of them a call has ended, and what was acknowledged for a pending one. */
#include "../log/log.h"
#include "../manifests/manifests.h"
#include "../store.h"
#include "job.h"

#include <stdlib.h>
#include <string.h>

struct rks_live *rks_live_of(relkvanu_store *s, uint64_t id) {
    struct rks_extras *b = &s->job.extras;
    size_t at = rks_place_of(b->live, b->live_len, sizeof *b->live, id);
    return at < b->live_len && b->live[at].id == id ? &b->live[at] : NULL;
}

/* A call triggers at most one record, and each record ends at most once, and completes at most once. The group may have ended some before. */
bool rks_has_room_for_extras(relkvanu_store *s, size_t calls) {
    struct rks_extras *b = &s->job.extras;
    size_t most = b->live_len + calls;
    return rks_grow(&b->live, &b->live_room, most, sizeof *b->live) &&
           rks_grow(&b->ended, &b->ended_room, b->ended_len + most, sizeof *b->ended) &&
           rks_grow(&b->past, &b->past_room, b->past_len + most, sizeof *b->past);
}

static size_t part_room(const relkvanu_store_call *call) {
    size_t files = call->first_len + call->second_len;
    return sizeof(struct rks_subtask) + files * sizeof(uint64_t) + call->more->payload_len;
}

bool rks_has_room_for_parts(relkvanu_store *s, const struct rks_waiter *more) {
    struct rks_extras *b = &s->job.extras;
    size_t len = 0, room = 0;
    for (const struct rks_waiter *w = more; w != NULL; w = w->next) {
        for (size_t i = 0; i < w->calls_len; i++) {
            const relkvanu_store_call *call = &w->calls[i];
            bool has_part = call->more != NULL && call->call.kind == RELKVANU_CALL_ACK;
            len += has_part;
            room += has_part ? part_room(call) : 0;
        }
    }
    if (b->runs_len + len > b->runs_room || b->parts.room - b->parts.len < room) {
        rks_await_rows(s);
    }
    return len == 0 || (rks_grow(&b->runs, &b->runs_room, b->runs_len + len, sizeof *b->runs) && rks_room(&b->parts, room));
}

/* A record was triggered. Without memory for the times of its acknowledgements the history lacks them. */
static struct rks_live *begin(relkvanu_store *s, uint64_t id, uint32_t kind) {
    struct rks_extras *b = &s->job.extras;
    struct rks_live *it = &b->live[b->live_len++];
    size_t subtasks = relkvanu_missing(s->handle, id).a;
    *it = (struct rks_live){.id = id, .kind = kind, .triggered = relkvanu_moment(s->handle).a, .times_room = subtasks};
    it->times = malloc(subtasks * sizeof *it->times);
    return it;
}

static void forget_times(struct rks_live *it) {
    free(it->times);
    it->times = NULL;
    it->times_len = it->times_room = 0;
}

static void note_ack(relkvanu_store *s, struct rks_live *it, const relkvanu_store_call *call) {
    uint64_t now = s->job.extras.now, took = now > it->triggered ? now - it->triggered : 0;
    it->acks++;
    if (it->times != NULL && it->times_len < it->times_room) {
        it->times[it->times_len++] = took < UINT32_MAX ? (uint32_t)took : UINT32_MAX;
    }
    if (call->more != NULL) {
        it->bytes = it->bytes > INT64_MAX - call->more->bytes ? INT64_MAX : it->bytes + call->more->bytes;
        it->millis = it->millis > call->more->millis ? it->millis : call->more->millis;
        rks_note_part(s, call);
    }
}

static void complete(relkvanu_store *s, struct rks_live *it) {
    it->is_done = true;
    rks_note_past(s, it, RELKVANU_STORE_COMPLETED, NULL);
    forget_times(it);
}

/* A record has ended. */
static void drop(relkvanu_store *s, size_t at, uint32_t outcome, const relkvanu_store_call *call) {
    struct rks_extras *b = &s->job.extras;
    struct rks_live *it = &b->live[at];
    relkvanu_store_more *more = call->more;
    if (!it->is_done) {
        rks_note_past(s, it, outcome, outcome == RELKVANU_STORE_DECLINED ? more : NULL);
    }
    if (it->first_part != 0) {
        b->ended[b->ended_len++] = (struct rks_rows){it->id, it->first_part, it->last_part};
    }
    if (more != NULL) {
        if (more->ended_len < more->ended_room) {
            more->ended[more->ended_len] = it->id;
        }
        more->ended_len++;
    }
    forget_times(it);
    memmove(it, it + 1, (--b->live_len - at) * sizeof *it);
}

/* Why a call has ended a record that was pending. */
static uint32_t outcome_of(relkvanu_store *s, const struct rks_live *it, const relkvanu_store_call *call) {
    switch (call->answer.what) {
    case RELKVANU_DECLINE_ABORTED:
    case RELKVANU_DECLINE_FAILED: return it->id == call->call.number ? RELKVANU_STORE_DECLINED : RELKVANU_STORE_DROPPED;
    case RELKVANU_TICK_FAILED: {
        uint64_t moment = relkvanu_moment(s->handle).a;
        return moment - it->triggered >= s->job.settings.timeout ? RELKVANU_STORE_EXPIRED : RELKVANU_STORE_DROPPED;
    }
    case RELKVANU_TICK_TRIGGERED:
    case RELKVANU_TICK_HELD_INTERVAL:
    case RELKVANU_TICK_HELD_AT_ONCE:
    case RELKVANU_TICK_HELD_PAUSE: return RELKVANU_STORE_EXPIRED;
    default: return RELKVANU_STORE_DROPPED;
    }
}

/* A savepoint that is complete ends by a call that names it alone. */
static bool has_ended(relkvanu_store *s, const struct rks_live *it) {
    uint32_t stands = RELKVANU_STANDS_DONE;
    if (it->kind == RELKVANU_STORE_CHECKPOINT || !it->is_done) {
        stands = relkvanu_standing(s->handle, it->id).what;
    }
    return stands != RELKVANU_STANDS_PENDING && stands != RELKVANU_STANDS_DONE;
}

/* Drops the live records that have ended: from the oldest on, until `most` are found. */
static void drop_ended(relkvanu_store *s, size_t most, const relkvanu_store_call *call) {
    struct rks_extras *b = &s->job.extras;
    for (size_t at = 0; at < b->live_len && most != 0;) {
        if (!has_ended(s, &b->live[at])) {
            at++;
        } else {
            drop(s, at, outcome_of(s, &b->live[at], call), call);
            most--;
        }
    }
}

/* At most how many records a call has ended. */
static size_t most_ended(const relkvanu_store_call *call) {
    relkvanu_answer answer = call->answer;
    switch (answer.what) {
    case RELKVANU_TICK_TRIGGERED:
    case RELKVANU_TICK_HELD_INTERVAL:
    case RELKVANU_TICK_HELD_AT_ONCE:
    case RELKVANU_TICK_HELD_PAUSE:
    case RELKVANU_ACK_COMPLETED:
    case RELKVANU_CONFIGURED: return answer.a;
    case RELKVANU_TICK_FAILED:
    case RELKVANU_DECLINE_FAILED:
    case RELKVANU_RESTORED_CHECKPOINT:
    case RELKVANU_RESTORED_SAVEPOINT:
    case RELKVANU_RESTORED_FRESH:
    case RELKVANU_CANCELLED: return SIZE_MAX;
    default: return 0;
    }
}

/* The record that a call is about, and what the call has made of it. */
static struct rks_live *note_record(relkvanu_store *s, const relkvanu_store_call *call) {
    relkvanu_answer answer = call->answer;
    struct rks_live *it = NULL;
    switch (answer.what) {
    case RELKVANU_TICK_TRIGGERED: return begin(s, answer.b, RELKVANU_STORE_CHECKPOINT);
    case RELKVANU_SAVEPOINT_TRIGGERED: return begin(s, answer.a, RELKVANU_STORE_SAVEPOINT);
    case RELKVANU_RESTORED_CHECKPOINT:
    case RELKVANU_RESTORED_SAVEPOINT: return rks_live_of(s, answer.b);
    case RELKVANU_ACK_PENDING:
    case RELKVANU_ACK_COMPLETED:
        it = rks_live_of(s, call->call.number);
        if (it != NULL) {
            note_ack(s, it, call);
        }
        if (it != NULL && answer.what == RELKVANU_ACK_COMPLETED) {
            complete(s, it);
        }
        return it;
    case RELKVANU_ACK_LATE:
    case RELKVANU_DECLINE_LATE:
    case RELKVANU_DECLINE_ABORTED:
    case RELKVANU_DECLINE_FAILED:
    case RELKVANU_DISPOSED: return rks_live_of(s, call->call.number);
    default: return NULL;
    }
}

void rks_note_extras(relkvanu_store *s, const relkvanu_store_call *call) {
    uint32_t what = call->answer.what;
    const struct rks_live *it = note_record(s, call);
    if (call->more != NULL) {
        call->more->kind = it != NULL ? it->kind : 0;
    }
    if (it != NULL && (what == RELKVANU_DECLINE_ABORTED || what == RELKVANU_DISPOSED)) {
        drop(s, (size_t)(it - s->job.extras.live), outcome_of(s, it, call), call);
    }
    size_t most = most_ended(call);
    if (most != 0) {
        drop_ended(s, most, call);
    }
}

void rks_forget_extras(relkvanu_store *s) {
    struct rks_extras *b = &s->job.extras;
    b->has_parts = b->has_parts || b->runs_len != 0;
    b->has_past = b->has_past || b->past_len != 0;
    b->parts.len = b->runs_len = b->runs_inserted = b->ended_len = b->past_len = 0;
    b->to = 0;
}

void rks_free_extras(relkvanu_store *s) {
    struct rks_extras *b = &s->job.extras;
    for (size_t at = 0; at < b->live_len; at++) {
        free(b->live[at].times);
    }
    free(b->live);
    free(b->parts.at);
    free(b->runs);
    free(b->ended);
    free(b->past);
}

/* After the calls of the log were made again. What acknowledged before the opening has no time. */
int rks_begin_extras(relkvanu_store *s) {
    struct rks_extras *b = &s->job.extras;
    uint64_t moment = relkvanu_moment(s->handle).a;
    for (relkvanu_answer it = relkvanu_live_from(s->handle, 0); it.what != RELKVANU_LIVE_NONE;
         it = relkvanu_live_from(s->handle, it.a + 1)) {
        if (!rks_has_room_for_extras(s, 1)) {
            return RELKVANU_STORE_NO_MEMORY;
        }
        bool is_savepoint = it.what == RELKVANU_LIVE_SAVEPOINT;
        uint32_t kind = is_savepoint ? RELKVANU_STORE_SAVEPOINT : RELKVANU_STORE_CHECKPOINT;
        b->live[b->live_len++] = (struct rks_live){.id = it.a, .kind = kind, .triggered = moment, .is_done = it.b != 0};
    }
    int status = rks_begin_origin(s);
    status = status == RELKVANU_STORE_OK ? rks_begin_parts(s) : status;
    return status == RELKVANU_STORE_OK ? rks_has_table(s, "past", &b->has_past) : status;
}
