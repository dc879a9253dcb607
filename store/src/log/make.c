/* The calls of a group, made in its order. Each crosses to the coordinator once, which writes the line for the log. */
#include "../job/job.h"
#include "../manifests/manifests.h"
#include "../store.h"
#include "kinds.h"
#include "log.h"

#include <inttypes.h>
#include <stdio.h>
#include <stdlib.h>

/* Lines: a block has those of many calls, and a line is at most its words with as many digits as its numbers may have. */
enum { BLOCK = 1 << 16, WORDS = 192, DIGITS = 22 };

/* One block stays for the next group, if it is of the usual size. */
void rks_begin_lines(relkvanu_store *s) {
    while (s->group.lines != NULL && (s->group.lines->before != NULL || s->group.lines->room > BLOCK)) {
        struct rks_block *before = s->group.lines->before;
        free(s->group.lines);
        s->group.lines = before;
    }
    if (s->group.lines != NULL) {
        s->group.lines->len = 0;
    }
}

void rks_free_lines(relkvanu_store *s) {
    rks_begin_lines(s);
    free(s->group.lines);
    s->group.lines = NULL;
}

/* A block with so much room. NULL: no memory. */
static struct rks_block *block_for(relkvanu_store *s, size_t most) {
    if (s->group.lines == NULL || s->group.lines->room - s->group.lines->len < most) {
        size_t room = most > BLOCK ? most : BLOCK;
        struct rks_block *block = malloc(sizeof *block + room);
        if (block == NULL) {
            return NULL;
        }
        block->before = s->group.lines;
        block->len = 0;
        block->room = room;
        s->group.lines = block;
    }
    return s->group.lines;
}

relkvanu_answer rks_make_line(relkvanu_store *s, relkvanu_store_call *call, uint64_t now, struct rks_line *line) {
    relkvanu_call made = call->call;
    relkvanu_made left = {0};
    struct rks_block *block = block_for(s, WORDS + DIGITS * (call->first_len + call->second_len));
    if (block == NULL) {
        return call->answer = (relkvanu_answer){.code = RELKVANU_NO_MEMORY};
    }
    made.now = made.now == RELKVANU_STORE_NOW ? now : made.now;
    *line = (struct rks_line){.at = block->at + block->len};
    relkvanu_answer receipt =
        relkvanu_group_make(s->handle, &s->group.answers, s->group.held, s->group.rows_room, &made, call->first, call->first_len,
            call->second, call->second_len, call->files, call->files_len, block->at + block->len, block->room - block->len, &left);
    line->len = left.written;
    block->len += left.written;
    call->answer = receipt;
    if (receipt.code == RELKVANU_DONE) {
        rks_note_receipt(s, receipt);
        call->answer = s->group.held[s->group.answers.waiting - 1];
    }
    return receipt;
}

/* Whether the moment is so far ahead that one clock must be wrong. It would stop checkpoints until then. */
static bool is_ahead(relkvanu_store *s, const relkvanu_call *call) {
    uint64_t most = s->options.most_ahead;
    if (!rks_has_moment(call->kind) || call->now == RELKVANU_STORE_NOW || call->now <= s->job.latest || call->now - s->job.latest <= most) {
        return false;
    }
    s->job.latest = relkvanu_moment(s->handle).a;
    if (call->now <= s->job.latest || call->now - s->job.latest <= most) {
        return false;
    }
    relkvanu_answer expiry = relkvanu_oldest_expiry(s->handle);
    uint64_t due = relkvanu_due(s->handle).a, waits = expiry.what == RELKVANU_EXPIRES && expiry.a > due ? expiry.a : due;
    return call->now > waits && call->now - waits > most;
}

/* Whether a pending record may have ended, or more may be pending, so that a tick may trigger again. */
static bool may_trigger(relkvanu_answer answer) {
    switch (answer.what) {
    case RELKVANU_CONFIGURED:
    case RELKVANU_ACK_COMPLETED:
    case RELKVANU_DECLINE_ABORTED:
    case RELKVANU_DECLINE_FAILED:
    case RELKVANU_RESTORED_CHECKPOINT:
    case RELKVANU_RESTORED_SAVEPOINT:
    case RELKVANU_RESTORED_FRESH:
    case RELKVANU_CANCELLED: return true;
    default: return answer.what >= RELKVANU_TICK_TRIGGERED && answer.what <= RELKVANU_TICK_FAILED && answer.a != 0;
    }
}

/* Notes what a timer has to know of a call that was made. */
static void note(relkvanu_store *s, const relkvanu_store_call *call) {
    relkvanu_answer answer = call->answer;
    if (answer.what == RELKVANU_CONFIGURED) {
        s->job.settings = rks_settings(call->first);
    } else if (answer.what >= RELKVANU_RESTORED_CHECKPOINT && answer.what <= RELKVANU_CANCELLED) {
        rks_drop_orders(s);
    }
    if (answer.what == RELKVANU_TICK_HELD_AT_ONCE) {
        s->job.is_held = true;
    } else if (may_trigger(answer)) {
        s->job.is_held = false;
    }
    if (answer.what >= RELKVANU_ACK_PENDING && answer.what <= RELKVANU_ACK_LATE) {
        return; /* no acknowledgement changes the mode */
    }
    uint32_t mode = relkvanu_mode(s->handle).what;
    s->job.has_stopped = mode != RELKVANU_MODE_RUNNING && (s->job.has_stopped || mode != s->job.last_mode);
    s->job.last_mode = mode;
}

static void add_row(relkvanu_store *s, relkvanu_store_call *call, struct rks_line line) {
    struct rks_row *row = &s->group.rows[s->group.rows_len++];
    call->place = ++s->log.place;
    *row = (struct rks_row){line, call->answer, call->files, call->place, 0};
    s->log.chain = row->chain = rks_chain(s->log.chain, row);
    s->log.logged += line.len;
}

/* A term begins with an accepted restore, cancel or advance. Who starts tasks gets it from the answer: another one may begin meanwhile. */
static bool begins_a_term(uint32_t what) {
    return what >= RELKVANU_RESTORED_CHECKPOINT && what <= RELKVANU_CANCELLED;
}

/* The savepoint of a stop is done: the job goes back to it, in the same commit. The restore takes no memory, and its line is written here, since
 * relkvanu_make takes some. */
static void end_stop(relkvanu_store *s) {
    uint64_t moment = relkvanu_moment(s->handle).a, id = s->job.phase.savepoint;
    relkvanu_store_call call = {.answer = relkvanu_restore(s->handle, moment, id, NULL, 0)};
    if (call.answer.code == RELKVANU_DONE) {
        int len = snprintf(s->job.stop_line, sizeof s->job.stop_line, "restore %" PRIu64 " %" PRIu64, moment, id);
        call.term = relkvanu_term(s->handle).a;
        note(s, &call);
        rks_note_extras(s, &call);
        rks_note_manifest(s, call.answer);
        add_row(s, &call, (struct rks_line){(const uint8_t *)s->job.stop_line, (size_t)len});
    }
    rks_hold(s, call.answer); /* nobody asked for it */
    s->group.receipts_len--;
    rks_stopped(s, &call);
}

void rks_accept(relkvanu_store *s, enum rks_verb verb, relkvanu_store_call *call, struct rks_line line) {
    uint32_t what = call->answer.what;
    if (what == RELKVANU_TICK_TRIGGERED || what == RELKVANU_SAVEPOINT_TRIGGERED) {
        call->choice = relkvanu_choice(s->handle);
    }
    call->term = begins_a_term(what) ? relkvanu_term(s->handle).a : 0;
    note(s, call);
    rks_note_extras(s, call);
    rks_note_manifest(s, call->answer);
    add_row(s, call, line);
    rks_follow(s, verb, call);
    if (verb != RKS_CALLS || call->call.kind == RELKVANU_CALL_TRIGGER) {
        rks_order(s, call);
    }
    if (rks_has_saved(s)) {
        end_stop(s);
    }
}

/* Why the store itself does not make a call; with RELKVANU_DONE it does. */
static relkvanu_answer refusal(relkvanu_store *s, const struct rks_waiter *w, const relkvanu_call *call) {
    if (is_ahead(s, call)) {
        return (relkvanu_answer){.code = RELKVANU_REFUSED, .what = RELKVANU_MOMENT_TOO_LARGE};
    }
    if (rks_puts_off(s, call, w->now)) {
        return (relkvanu_answer){.code = RELKVANU_REFUSED, .what = RELKVANU_NOT_RUNNING};
    }
    return (relkvanu_answer){.code = RELKVANU_DONE};
}

static void make(relkvanu_store *s, const struct rks_waiter *w, relkvanu_store_call *call) {
    struct rks_line line = {0};
    call->answer = refusal(s, w, &call->call);
    relkvanu_answer receipt = call->answer.code == RELKVANU_DONE ? rks_make_line(s, call, w->now, &line) : call->answer;
    if (receipt.code != RELKVANU_DONE) {
        rks_hold(s, receipt);
        if (receipt.code == RELKVANU_NO_MEMORY && call->call.kind == RELKVANU_CALL_TICK) {
            s->job.tick_after = relkvanu_store_now(s) + 1000;
        }
        return;
    }
    if (receipt.what == RELKVANU_APPEND && (call->answer.what != RELKVANU_TAKEN || call->answer.a != 0)) {
        rks_accept(s, w->verb, call, line); /* a take of no file changes nothing */
    }
}

/* Looks for the files of each savepoint that a list goes back to, before any of its calls is made. */
static int look_for_savepoints(relkvanu_store *s, struct rks_waiter *w) {
    int status = RELKVANU_STORE_OK;
    for (size_t i = 0; i < w->calls_len && status == RELKVANU_STORE_OK; i++) {
        const relkvanu_call *call = &w->calls[i].call;
        const struct rks_live *it = call->kind == RELKVANU_CALL_RESTORE && call->number != 0 ? rks_live_of(s, call->number) : NULL;
        if (it != NULL && it->is_done && it->kind == RELKVANU_STORE_SAVEPOINT) {
            status = rks_look_for(s, it->id, &w->lost);
        }
    }
    return status;
}

/* After a call without memory the later ones of its list are not made. */
static void make_list(relkvanu_store *s, struct rks_waiter *w) {
    bool is_out = w->refusal != RELKVANU_STORE_OK;
    s->job.extras.now = w->now;
    w->first = s->group.receipts_len;
    for (size_t i = 0; i < w->calls_len; i++) {
        if (is_out) {
            rks_hold(s, w->calls[i].answer = (relkvanu_answer){.code = RELKVANU_STORE_NOT_MADE});
        } else {
            make(s, w, &w->calls[i]);
            rks_insert_ahead(s);
            is_out = w->calls[i].answer.code == RELKVANU_NO_MEMORY;
        }
    }
}

void rks_begin_calls(relkvanu_store *s) {
    rks_begin_group(s);
    rks_begin_lines(s);
    rks_forget_extras(s);
}

static bool has_room(relkvanu_store *s, const struct rks_waiter *more) {
    size_t len = s->group.receipts_len + 1; /* the restore that ends a stop */
    for (const struct rks_waiter *w = more; w != NULL; w = w->next) {
        len += w->calls_len;
    }
    return rks_has_rows(s, len) && rks_has_room_for_parts(s, more);
}

void rks_make(relkvanu_store *s, struct rks_waiter *more) {
    bool is_out = !has_room(s, more);
    for (struct rks_waiter *w = more; w != NULL; w = w->next) {
        w->refusal = is_out ? RELKVANU_STORE_NO_MEMORY : rks_allows(s, w->verb) ? look_for_savepoints(s, w) : RELKVANU_STORE_NOT_NOW;
        if (!is_out) {
            make_list(s, w);
        }
    }
}
