/* Submits and threads: completions, order, and what a stop and a close do with those who wait. */
#include "cases.h"

#include <poll.h>

static bool is_readable(relkvanu_store *store, int wait) {
    struct pollfd it = {.fd = relkvanu_store_descriptor(store), .events = POLLIN};
    return poll(&it, 1, wait) == 1 && it.revents == POLLIN;
}

CASE(submits) {
    enum { MANY = 500 };
    static relkvanu_store_call calls[MANY];
    static bool is_seen[MANY];
    relkvanu_store_completion some[7];
    relkvanu_store *store = new_job_alone(0);
    CHECK(!is_readable(store, 0) && relkvanu_store_completed(store, some, 7) == 0, "a completion of nothing");
    CHECK(relkvanu_store_submit(store, calls, 1, 1) == RELKVANU_STORE_BAD_ARGUMENT && calls[0].answer.code == RELKVANU_STORE_NOT_MADE);
    CHECK(relkvanu_store_submit(store, calls, 0, 1) == RELKVANU_STORE_BAD_ARGUMENT, "no call");
    relkvanu *handle; /* all wait behind this read, and are one group */
    CHECK(relkvanu_store_read(store, &handle) == RELKVANU_STORE_OK, "read");
    for (uint64_t i = 0; i < MANY; i++) {
        calls[i] = (relkvanu_store_call){.call = {.kind = RELKVANU_CALL_SAVEPOINT, .now = i}};
        CHECK(relkvanu_store_submit(store, &calls[i], 1, i) == RELKVANU_STORE_OK, "submit");
    }
    CHECK(!is_readable(store, 10), "a completion before the read has ended");
    relkvanu_store_read_end(store);
    for (size_t found = 0; found < MANY;) {
        CHECK(is_readable(store, 300000), "no completion");
        size_t len = relkvanu_store_completed(store, some, 7);
        for (size_t i = 0; i < len; i++, found++) {
            CHECK(
                some[i].status == RELKVANU_STORE_OK && some[i].token == found && !is_seen[some[i].token], "token %" PRIu64, some[i].token);
            is_seen[some[i].token] = true;
            CHECK(calls[some[i].token].answer.what == RELKVANU_SAVEPOINT_TRIGGERED && calls[some[i].token].place == found + 1, "an answer");
        }
    }
    CHECK(!is_readable(store, 0), "a completion too many");
    relkvanu_store_counts counts = totals_of(store);
    CHECK(counts.calls == MANY && counts.largest == MANY && counts.commits == 1, "%" PRIu64 " commits", counts.commits);
    relkvanu_store_call last[2] = {{.call = {.kind = RELKVANU_CALL_DISPOSE, .number = 9}},
        {.call = {.kind = RELKVANU_CALL_DECLINE, .now = 1, .number = 1, .term = 1}}};
    CHECK(relkvanu_store_submit(store, last, 2, 77) == RELKVANU_STORE_OK, "submit");
    relkvanu_store_close(store); /* which waits for it */
    CHECK(last[0].answer.code == RELKVANU_REFUSED && last[1].answer.code == RELKVANU_DONE && last[1].place == MANY + 1, "the last submit");
}

/* Waits for the next completion, which has this token. Returns its status. */
static int completion_of(relkvanu_store *store, uint64_t token) {
    relkvanu_store_completion one;
    CHECK(is_readable(store, 300000) && relkvanu_store_completed(store, &one, 1) == 1, "no completion");
    CHECK(one.token == token, "token %" PRIu64, one.token);
    return one.status;
}

/* A checkpoint now and other settings are calls of a list, and a timer gets the checkpoint. */
static void submits_a_list(relkvanu_store *store) {
    const uint64_t settings[] = {1 << 30, 0, 2, 1 << 30, 7, 3, 0};
    relkvanu_store_call tick,
        list[2] = {{.call = {.kind = RELKVANU_CALL_TRIGGER, .now = RELKVANU_STORE_NOW}},
            {.call = {.kind = RELKVANU_CALL_CONFIGURE, .now = RELKVANU_STORE_NOW}, .first = settings, .first_len = 7}};
    relkvanu_settings found;
    uint64_t shape[1];
    size_t len = 1;
    CHECK(relkvanu_store_submit(store, list, 2, 2) == RELKVANU_STORE_OK && completion_of(store, 2) == RELKVANU_STORE_OK, "a list");
    CHECK(list[0].answer.what == RELKVANU_TICK_TRIGGERED && list[1].answer.what == RELKVANU_CONFIGURED, "%" PRIu32 " and %" PRIu32,
        list[0].answer.what, list[1].answer.what);
    CHECK(relkvanu_store_job(store, &found, shape, &len) == RELKVANU_STORE_OK && found.interval == 1 << 30 && found.tolerable == 7,
        "interval %" PRIu64, found.interval);
    CHECK(relkvanu_store_await_tick(store, 0, &tick) == RELKVANU_STORE_OK && tick.answer.b == list[0].answer.b, "it is handed over");
    list[1].first_len = 6;
    CHECK(relkvanu_store_submit(store, list, 2, 3) == RELKVANU_STORE_BAD_ARGUMENT && !is_readable(store, 10), "six settings");
}

/* Stops the job by a submit. Returns the savepoint, which a timer gets. */
static uint64_t submits_a_stop(relkvanu_store *store, uint64_t token) {
    relkvanu_store_call tick, call, again;
    CHECK(relkvanu_store_submit_stop_job(store, &call, token) == RELKVANU_STORE_OK && completion_of(store, token) == RELKVANU_STORE_OK &&
              call.answer.what == RELKVANU_SAVEPOINT_TRIGGERED,
        "code %" PRIu32 ", what %" PRIu32, call.answer.code, call.answer.what);
    CHECK(phase_of(store).phase == RELKVANU_STORE_PHASE_STOPPING && phase_of(store).savepoint == call.answer.a, "the phase");
    CHECK(relkvanu_store_submit_stop_job(store, &again, token + 1) == RELKVANU_STORE_OK &&
          completion_of(store, token + 1) == RELKVANU_STORE_NOT_NOW && again.answer.code == RELKVANU_STORE_NOT_MADE);
    CHECK(relkvanu_store_await_tick(store, 60000, &tick) == RELKVANU_STORE_OK && tick.answer.what == RELKVANU_SAVEPOINT_TRIGGERED &&
          tick.answer.a == call.answer.a);
    return call.answer.a;
}

static void acks_all(relkvanu_store *store, uint64_t id) {
    relkvanu_answer answer = {0};
    uint64_t file = reserved(store, 1, SUBTASKS);
    for (uint16_t i = 0; i < SUBTASKS; i++) {
        answer = acked_at_0(store, 1, id, i, file + i);
    }
    CHECK(answer.what == RELKVANU_ACK_COMPLETED, "what %" PRIu32, answer.what);
}

/* Two begins of one group: the first is made. */
static void submits_two_begins(relkvanu_store *store, uint64_t savepoint) {
    relkvanu_store_call calls[2], tick;
    begins_read(store);
    for (uint64_t i = 0; i < 2; i++) {
        CHECK(relkvanu_store_submit_begin_job(store, &calls[i], 20 + i) == RELKVANU_STORE_OK, "a begin");
    }
    relkvanu_store_read_end(store);
    CHECK(completion_of(store, 20) == RELKVANU_STORE_OK && completion_of(store, 21) == RELKVANU_STORE_NOT_NOW, "two begins");
    CHECK(calls[0].answer.what == RELKVANU_RESTORED_SAVEPOINT && calls[0].answer.b == savepoint && calls[0].place != 0, "what %" PRIu32,
        calls[0].answer.what);
    CHECK(calls[1].answer.code == RELKVANU_STORE_NOT_MADE && calls[1].place == 0, "code %" PRIu32, calls[1].answer.code);
    CHECK(phase_of(store).phase == RELKVANU_STORE_PHASE_RUNNING, "the phase");
    CHECK(relkvanu_store_await_tick(store, 60000, &tick) == RELKVANU_STORE_OK && tick.answer.what == RELKVANU_RESTORED_SAVEPOINT);
}

CASE(submitted_commands) {
    relkvanu_store_options options = job_options(RELKVANU_STORE_CREATE, 0);
    options.settings.interval = 1 << 30;
    relkvanu_store *store = opens(&options, RELKVANU_STORE_OK);
    relkvanu_store_call call;
    CHECK(relkvanu_store_submit_begin_job(store, &call, 1) == RELKVANU_STORE_OK && completion_of(store, 1) == RELKVANU_STORE_NOT_NOW);
    CHECK(call.answer.code == RELKVANU_STORE_NOT_MADE && call.place == 0, "code %" PRIu32, call.answer.code);
    submits_a_list(store);
    uint64_t savepoint = submits_a_stop(store, 10);
    acks_all(store, savepoint);
    CHECK(phase_of(store).phase == RELKVANU_STORE_PHASE_STOPPED, "the phase");
    submits_two_begins(store, savepoint);
    CHECK(relkvanu_store_submit_stop_job(store, &call, 30) == RELKVANU_STORE_OK, "a stop");
    relkvanu_store_close(store); /* which waits for it */
    CHECK(call.answer.what == RELKVANU_SAVEPOINT_TRIGGERED && call.place != 0, "what %" PRIu32, call.answer.what);
    store = opens_as(&options, RELKVANU_STORE_RECOVER, RELKVANU_STORE_OK);
    CHECK(report.phase == RELKVANU_STORE_PHASE_STOPPING && report.savepoint == call.answer.a, "phase %" PRIu32, report.phase);
    relkvanu_store_close(store);
}

struct caller {
    pthread_t thread;
    relkvanu_store *store;
    unsigned number;
    uint64_t made;
};

enum { CALLERS = 24, ROUNDS = 40 };

/* Lists of calls of one thread have places one after the other. */
static void *makes_lists(void *with) {
    struct caller *caller = with;
    for (unsigned i = 0; i < ROUNDS; i++) {
        relkvanu_store_call calls[3];
        relkvanu *handle;
        for (size_t k = 0; k < 3; k++) {
            calls[k] = (relkvanu_store_call){.call = {.kind = RELKVANU_CALL_TICK, .now = RELKVANU_STORE_NOW}};
        }
        CHECK(relkvanu_store_calls(caller->store, calls, 3) == RELKVANU_STORE_OK, "a list");
        CHECK(calls[1].place == calls[0].place + 1 && calls[2].place == calls[0].place + 2, "another call is in between");
        CHECK(relkvanu_store_read(caller->store, &handle) == RELKVANU_STORE_OK && relkvanu_mode(handle).code == RELKVANU_DONE, "a read");
        relkvanu_store_read_end(caller->store);
        caller->made += 3;
    }
    return NULL;
}

CASE(callers_and_readers) {
    struct caller callers[CALLERS];
    relkvanu_store_options options = job_options(RELKVANU_STORE_CREATE, 50);
    relkvanu_store *store = opens(&options, RELKVANU_STORE_OK);
    for (unsigned i = 0; i < CALLERS; i++) {
        callers[i] = (struct caller){.store = store, .number = i};
        callers[i].thread = starts(makes_lists, &callers[i]);
    }
    for (unsigned i = 0; i < CALLERS; i++) {
        CHECK(pthread_join(callers[i].thread, NULL) == 0 && callers[i].made == 3 * ROUNDS, "a thread");
    }
    relkvanu_store_counts counts = totals_of(store);
    CHECK(counts.calls == CALLERS * ROUNDS * 3 && counts.images > 1, "%" PRIu64 " calls", counts.calls);
    relkvanu_store_close(store);
    store = opens_as(&options, RELKVANU_STORE_RECOVER, RELKVANU_STORE_OK);
    CHECK(report.image_place == CALLERS * ROUNDS * 3, "%" PRIu64, report.image_place);
    relkvanu_store_close(store);
}

static void *awaits(void *with) {
    struct caller *caller = with;
    relkvanu_store_call tick;
    int status;
    while ((status = relkvanu_store_await_tick(caller->store, 600000, &tick)) == RELKVANU_STORE_OK) {
        caller->made++;
    }
    CHECK(status == RELKVANU_STORE_STOPPED, "status %d", status);
    return NULL;
}

/* A commit wakes a timer that waits for an expiry, and a stop ends it. */
CASE(a_woken_timer) {
    relkvanu_store *store = new_job_alone(0);
    struct caller timer = {.store = store};
    timer.thread = starts(awaits, &timer);
    usleep(100000);
    uint64_t asked = 0;
    for (uint64_t id = 1; id <= 3; id++) { /* each decline lets the next one begin */
        relkvanu_store_call call = {
            .call = {.kind = RELKVANU_CALL_DECLINE, .number = id, .term = 1}, .answer = {.code = RELKVANU_STORE_NOT_MADE}};
        for (int i = 0; i < 30000 && call.answer.code != RELKVANU_DONE; i++, asked++) {
            usleep(10000);
            CHECK(relkvanu_store_calls(store, &call, 1) == RELKVANU_STORE_OK, "a decline");
        }
        CHECK(call.answer.what == RELKVANU_DECLINE_ABORTED, "checkpoint %" PRIu64 ": what %" PRIu32 ", code %" PRIu32, id, call.answer.what,
            call.answer.code);
    }
    relkvanu_store_stop(store);
    CHECK(pthread_join(timer.thread, NULL) == 0, "a thread");
    relkvanu_store_counts counts = totals_of(store);
    CHECK(counts.calls < 40 + asked, "the timer spins: %" PRIu64 " calls", counts.calls);
    relkvanu_store_close(store);
}
