/* Calls: they are checked in the caller's thread, and then wait in the queue. */
#include "../job/job.h"
#include "../manifests/manifests.h"
#include "../store.h"
#include "kinds.h"
#include "log.h"

/* Names of a line, and of a list. A list of so many numbers fits into a line beside another one. */
enum { NAMES = 4096, MOST_NAMES = 65536, SHORT_LIST = 2048 };

static bool is_well_formed(const relkvanu_store *s, const relkvanu_store_call *call) {
    uint32_t kind = call->call.kind;
    bool is_sound = rks_is_made(kind) && call->reserved[0] == 0 && (kind != RELKVANU_CALL_FENCE || s->job.names_last) &&
                    (kind != RELKVANU_CALL_TAKE || call->call.number <= call->files_len);
    return is_sound && rks_check_more(call);
}

/* Whether the lists of a call can be refused: a shape, settings, or more files than a line has room for. */
static bool has_limits(const relkvanu_store_call *call) {
    uint32_t kind = call->call.kind;
    bool is_long = call->first_len > SHORT_LIST || call->second_len > SHORT_LIST;
    return kind == RELKVANU_CALL_CONFIGURE || (kind == RELKVANU_CALL_RESTORE && call->first_len != 0) ||
           (is_long && (kind == RELKVANU_CALL_ACK || kind == RELKVANU_CALL_FORFEIT));
}

/* Asks the coordinator's writer of lines, so that no limit stands here a second time. */
static int check_lists(const relkvanu_store_call *call) {
    relkvanu_answer answer = relkvanu_call_line(&call->call, call->first, call->first_len, call->second, call->second_len, NULL, 0);
    return answer.code == RELKVANU_TOO_SHORT   ? RELKVANU_STORE_OK
           : answer.code == RELKVANU_NO_MEMORY ? RELKVANU_STORE_NO_MEMORY
                                               : RELKVANU_STORE_BAD_ARGUMENT;
}

int rks_check_calls(relkvanu_store *s, relkvanu_store_call *calls, size_t calls_len) {
    bool has_len = calls_len != 0 && calls_len <= RELKVANU_STORE_MOST_CALLS;
    int status = has_len ? RELKVANU_STORE_OK : RELKVANU_STORE_BAD_ARGUMENT;
    rks_forget_why();
    for (size_t i = 0; i < calls_len && status == RELKVANU_STORE_OK; i++) {
        relkvanu_store_call *call = &calls[i];
        call->answer = call->choice = (relkvanu_answer){0};
        call->place = call->term = 0;
        rks_clear_more(call);
        status = !is_well_formed(s, call) ? RELKVANU_STORE_BAD_ARGUMENT : has_limits(call) ? check_lists(call) : RELKVANU_STORE_OK;
    }
    return status;
}

/* Notes why the first call that was refused was. */
static void note_refused(relkvanu_store *s, const relkvanu_store_call *calls, size_t calls_len) {
    size_t at = 0;
    while (at < calls_len && calls[at].answer.code == RELKVANU_DONE) {
        at++;
    }
    if (at < calls_len) {
        pthread_mutex_lock(&s->mutex);
        uint64_t term = s->timers.view.term;
        pthread_mutex_unlock(&s->mutex);
        rks_why_refused(&calls[at], term);
    }
}

int rks_call(relkvanu_store *s, relkvanu_store_call *calls, size_t calls_len, enum rks_verb verb) {
    struct rks_waiter w = {.calls = calls, .calls_len = calls_len, .verb = verb, .now = relkvanu_store_now(s)};
    int status = rks_check_calls(s, calls, calls_len);
    status = status == RELKVANU_STORE_OK ? rks_enter(s, &w) : status;
    if (status != RELKVANU_STORE_OK) {
        rks_drop_answers(calls, calls_len);
        return status;
    }
    if (!w.is_answered) {
        rks_lead(s, &w);
    }
    if (w.status == RELKVANU_STORE_OK) { /* who led wrote it, maybe before rks_enter returned */
        note_refused(s, calls, calls_len);
    } else {
        rks_say_lost(w.status, &w.lost);
    }
    return w.status;
}

int relkvanu_store_calls(relkvanu_store *s, relkvanu_store_call *calls, size_t calls_len) {
    return rks_call(s, calls, calls_len, RKS_CALLS);
}

static int make_one(relkvanu_store *s, relkvanu_store_call call, relkvanu_answer *answer) {
    int status = relkvanu_store_calls(s, &call, 1);
    *answer = call.answer;
    return status;
}

int relkvanu_store_ack_in(relkvanu_store *s, uint64_t term, uint64_t now, uint64_t id, uint16_t vertex, uint16_t index,
    const uint64_t *fresh, size_t fresh_len, const uint64_t *reused, size_t reused_len, relkvanu_answer *answer) {
    return relkvanu_store_ack_with(s, term, now, id, vertex, index, fresh, fresh_len, reused, reused_len, NULL, answer);
}

int relkvanu_store_ack_with(relkvanu_store *s, uint64_t term, uint64_t now, uint64_t id, uint16_t vertex, uint16_t index,
    const uint64_t *fresh, size_t fresh_len, const uint64_t *reused, size_t reused_len, relkvanu_store_more *more,
    relkvanu_answer *answer) {
    relkvanu_call call = {.kind = RELKVANU_CALL_ACK, .vertex = vertex, .index = index, .now = now, .number = id, .term = term};
    relkvanu_store_call made = {
        .call = call, .first = fresh, .first_len = fresh_len, .second = reused, .second_len = reused_len, .more = more};
    return make_one(s, made, answer);
}

int relkvanu_store_decline_with(relkvanu_store *s, uint64_t term, uint64_t now, uint64_t id, uint16_t vertex, uint16_t index,
    relkvanu_store_more *more, relkvanu_answer *answer) {
    relkvanu_call call = {.kind = RELKVANU_CALL_DECLINE, .vertex = vertex, .index = index, .now = now, .number = id, .term = term};
    return make_one(s, (relkvanu_store_call){.call = call, .more = more}, answer);
}

int relkvanu_store_reserve(relkvanu_store *s, uint64_t term, uint64_t count, relkvanu_answer *answer) {
    relkvanu_call call = {.kind = RELKVANU_CALL_RESERVE, .number = count, .term = term};
    return make_one(s, (relkvanu_store_call){.call = call}, answer);
}

/* No line has room for as many names as a task can reserve, so there may be several calls, in one list. */
int relkvanu_store_forfeit(relkvanu_store *s, uint64_t term, const uint64_t *names, size_t names_len, relkvanu_answer *answer) {
    relkvanu_store_call calls[MOST_NAMES / NAMES] = {0};
    size_t len = 0, place = 0;
    *answer = (relkvanu_answer){.code = RELKVANU_STORE_NOT_MADE};
    if (names_len > MOST_NAMES) {
        return RELKVANU_STORE_BAD_ARGUMENT;
    }
    do {
        size_t rest = names_len - len * NAMES;
        calls[len] = (relkvanu_store_call){
            .call = {.kind = RELKVANU_CALL_FORFEIT, .term = term}, .first = names + len * NAMES, .first_len = rest < NAMES ? rest : NAMES};
    } while (++len * NAMES < names_len);
    int status = relkvanu_store_calls(s, calls, len);
    while (place + 1 < len && calls[place].answer.code == RELKVANU_DONE) {
        place++;
    }
    *answer = calls[place].answer;
    return status;
}
