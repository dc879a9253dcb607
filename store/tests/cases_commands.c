/* What an operator wants of a job: a checkpoint now, other settings, a stop and a new begin, and the way back to an older checkpoint. */
#include "cases.h"

enum { HOUR = 3600000, MINUTE = 60000, LONG = 600000, SHORT = 30 };

/* A job with names that triggers each minute, and keeps three checkpoints. */
static relkvanu_store_options options_of(uint32_t flags) {
    relkvanu_store_options options = storage_options(flags, 0);
    options.settings = (relkvanu_settings){.interval = MINUTE, .at_once = 2, .timeout = HOUR, .tolerable = 0, .retained = 3};
    return options;
}

static relkvanu_store *minutely_job(void) {
    return opens_with(options_of(RELKVANU_STORE_CREATE));
}

static relkvanu_store *reopened(relkvanu_store *store) {
    relkvanu_store_close(store);
    return opens_with(options_of(RELKVANU_STORE_RECOVER));
}

static void is_in(relkvanu_store *store, uint32_t phase, uint32_t failed, uint64_t savepoint, uint64_t term) {
    relkvanu_store_job_phase is = phase_of(store);
    CHECK(is.phase == phase && is.stop_failed == failed && is.savepoint == savepoint && is.term == term,
        "phase %" PRIu32 " %" PRIu32 ", savepoint %" PRIu64 ", term %" PRIu64, is.phase, is.stop_failed, is.savepoint, is.term);
}

/* The same of the last opening. */
static void was_in(uint32_t phase, uint32_t failed, uint64_t savepoint, size_t steps) {
    CHECK(report.phase == phase && report.stop_failed == failed && report.savepoint == savepoint && report.steps_len == steps,
        "phase %" PRIu32 " %" PRIu32 ", savepoint %" PRIu64 ", %zu steps", report.phase, report.stop_failed, report.savepoint,
        report.steps_len);
}

/* A command that was made has this answer, whose number is of a record, in the term that it began; 0: none. */
static void is_made(int status, const relkvanu_store_call *call, uint32_t what, uint64_t id, uint64_t term) {
    uint64_t number = what == RELKVANU_SAVEPOINT_TRIGGERED ? call->answer.a : call->answer.b;
    CHECK(status == RELKVANU_STORE_OK && call->answer.code == RELKVANU_DONE && call->answer.what == what && number == id &&
              call->term == term,
        "status %d, code %" PRIu32 ", what %" PRIu32 " %" PRIu64 ", term %" PRIu64, status, call->answer.code, call->answer.what, number,
        call->term);
}

/* One that was not made. */
static void is_unmade(int status, int wanted, const relkvanu_store_call *call) {
    CHECK(status == wanted && call->answer.code == RELKVANU_STORE_NOT_MADE, "status %d, code %" PRIu32, status, call->answer.code);
}

/* Acknowledges a record for the first subtasks, with a new file each. */
static relkvanu_answer acks(relkvanu_store *store, uint64_t term, uint64_t id, uint16_t subtasks) {
    relkvanu_answer answer = {0};
    uint64_t file = reserved(store, term, subtasks);
    for (uint16_t i = 0; i < subtasks; i++) {
        answer = takes_part(store, term, id, i, file + i, 1, 0);
    }
    return answer;
}

static uint64_t triggered(relkvanu_store *store) {
    relkvanu_store_call call;
    int status = relkvanu_store_trigger(store, &call);
    is_made(status, &call, RELKVANU_TICK_TRIGGERED, call.answer.b, 0);
    CHECK(call.answer.a == 0, "%" PRIu64 " expired", call.answer.a);
    return call.answer.b;
}

static uint64_t completed(relkvanu_store *store, uint64_t term) {
    uint64_t id = triggered(store);
    CHECK(acks(store, term, id, SUBTASKS).what == RELKVANU_ACK_COMPLETED, "a checkpoint");
    return id;
}

static uint64_t stopping(relkvanu_store *store) {
    relkvanu_store_call call;
    int status = relkvanu_store_stop_job(store, &call);
    is_made(status, &call, RELKVANU_SAVEPOINT_TRIGGERED, call.answer.a, 0);
    is_in(store, RELKVANU_STORE_PHASE_STOPPING, 0, call.answer.a, 0);
    return call.answer.a;
}

/* A job that is stopped, of the tasks of this term. Returns its savepoint. */
static uint64_t stopped(relkvanu_store *store, uint64_t term) {
    uint64_t id = stopping(store);
    CHECK(acks(store, term, id, SUBTASKS).what == RELKVANU_ACK_COMPLETED, "the savepoint");
    is_in(store, RELKVANU_STORE_PHASE_STOPPED, 0, id, term + 1);
    return id;
}

static int awaits(relkvanu_store *store, uint64_t longest, relkvanu_store_call *tick) {
    return relkvanu_store_await_tick(store, longest, tick);
}

/* A timer is handed what this answer says, at once, or before anybody would wait so long. */
static relkvanu_store_call is_handed(relkvanu_store *store, uint32_t what, uint64_t id, uint64_t term) {
    relkvanu_store_call tick;
    is_made(awaits(store, LONG, &tick), &tick, what, id, term);
    return tick;
}

/* The next tick is due within this time, and not before half of it. */
static void is_due_within(relkvanu_store *store, uint64_t longest) {
    uint64_t wait = wait_of(store);
    CHECK(wait > longest / 2 && wait <= longest, "the next one is due after %" PRIu64, wait);
}

static void refused(relkvanu_answer answer, uint32_t what) {
    CHECK(answer.code == RELKVANU_REFUSED && answer.what == what, "code %" PRIu32 ", what %" PRIu32, answer.code, answer.what);
}

static relkvanu_answer asks(relkvanu_store *store, uint32_t kind, uint64_t now) {
    return made(store, (relkvanu_call){.kind = kind, .now = now}).answer;
}

/* The log and the state are those of a second coordinator. */
static void is_as_logged(relkvanu_store **store) {
    struct shadow shadow;
    size_t len;
    relkvanu_store_options options = options_of(RELKVANU_STORE_RECOVER);
    options.image_calls = RELKVANU_STORE_NO_IMAGES;
    relkvanu_store_close(*store);
    struct told *rows = log_rows(in("x.db"), 0, &len);
    shadow_open_as(&shadow, in("x.db"));
    for (size_t i = 0; i < len; i++) {
        shadow_make(&shadow, &rows[i]);
    }
    *store = opens(&options, RELKVANU_STORE_OK);
    CHECK(shadow_equals(&shadow, *store), "another state");
    relkvanu_answer more = relkvanu_reserve(&shadow.handle, relkvanu_term(&shadow.handle).a, 1);
    CHECK(more.code != RELKVANU_DONE || !shadow_equals(&shadow, *store), "the comparison of images sees nothing");
    relkvanu_close(&shadow.handle);
    free(rows);
}

CASE(a_checkpoint_now) {
    relkvanu_store *store = minutely_job();
    relkvanu_store_call tick, call;
    uint64_t id = triggered(store);
    tick = is_handed(store, RELKVANU_TICK_TRIGGERED, id, 0);
    CHECK(tick.choice.what == RELKVANU_CHOICE_FRESH && tick.place == 1, "the choice");
    CHECK(awaits(store, SHORT, &tick) == RELKVANU_STORE_TIMED_OUT, "twice");
    is_due_within(store, MINUTE);
    acks(store, 1, id, SUBTASKS);
    id = completed(store, 1); /* it has ended before a timer asks */
    uint64_t pending[] = {triggered(store), triggered(store)};
    CHECK(relkvanu_store_trigger(store, &call) == RELKVANU_STORE_OK, "a third");
    refused(call.answer, RELKVANU_AT_ONCE);
    for (size_t i = 0; i < 2; i++) {
        CHECK(is_handed(store, RELKVANU_TICK_TRIGGERED, pending[i], 0).choice.a == id, "the choice");
    }
    CHECK(awaits(store, 0, &tick) == RELKVANU_STORE_TIMED_OUT, "more");
    CHECK(asks(store, RELKVANU_CALL_DECLINE, 0).code == RELKVANU_FENCED, "a decline of no term");
    relkvanu_store_close(store);
}

static relkvanu_store *awaited;

static void *awaits_long(void *tick) {
    CHECK(awaits(awaited, LONG, tick) == RELKVANU_STORE_OK, "a timer");
    return tick;
}

/* What another thread has triggered wakes the timer, and so does a shorter interval: within one tick. */
CASE(timers_wake) {
    relkvanu_store_call tick = {.place = 0}, call;
    relkvanu_settings settings = options_of(0).settings;
    awaited = minutely_job();
    pthread_t timer = starts(awaits_long, &tick);
    uint64_t id = triggered(awaited);
    pthread_join(timer, NULL);
    is_made(RELKVANU_STORE_OK, &tick, RELKVANU_TICK_TRIGGERED, id, 0);
    uint64_t before = relkvanu_store_now(awaited);
    timer = starts(awaits_long, &tick);
    settings.interval = 200;
    CHECK(relkvanu_store_configure(awaited, &settings, &call) == RELKVANU_STORE_OK && call.answer.what == RELKVANU_CONFIGURED, "settings");
    pthread_join(timer, NULL);
    is_made(RELKVANU_STORE_OK, &tick, RELKVANU_TICK_TRIGGERED, id + 1, 0);
    CHECK(relkvanu_store_now(awaited) < before + MINUTE / 2, "it waited for the old interval");
    relkvanu_store_close(awaited);
}

static void has_settings(relkvanu_store *store, const relkvanu_settings *settings) {
    relkvanu_settings found;
    uint64_t shape[4];
    size_t len = 4;
    CHECK(relkvanu_store_job(store, &found, shape, &len) == RELKVANU_STORE_OK && len == 1 && shape[0] == SUBTASKS, "the job");
    CHECK(found.interval == settings->interval && found.pause == settings->pause && found.at_once == settings->at_once &&
              found.timeout == settings->timeout && found.tolerable == settings->tolerable && found.retained == settings->retained &&
              found.keep_on_cancel == settings->keep_on_cancel,
        "interval %" PRIu64 ", retained %" PRIu64, found.interval, found.retained);
}

/* Ends without closing the store: its log is replayed then. */
static int configures(void *settings) {
    relkvanu_store_call call;
    relkvanu_store *store = minutely_job();
    for (int i = 0; i < 3; i++) {
        completed(store, 1);
    }
    CHECK(relkvanu_store_configure(store, settings, &call) == RELKVANU_STORE_OK && call.answer.what == RELKVANU_CONFIGURED, "settings");
    CHECK(call.answer.a == 2 && call.answer.b == 2 * SUBTASKS, "%" PRIu64 " checkpoints and %" PRIu64 " files go", call.answer.a,
        call.answer.b);
    has_settings(store, settings);
    return 7;
}

CASE(settings_stay) {
    relkvanu_settings settings = {
        .interval = 700, .pause = 20, .at_once = 1, .timeout = 5000, .tolerable = 2, .retained = 1, .keep_on_cancel = true};
    relkvanu_store_options options = options_of(RELKVANU_STORE_RECOVER);
    CHECK(in_child(configures, &settings) == 7, "a child");
    for (int i = 0; i < 2; i++) { /* from the log, and then from the image */
        relkvanu_store *store = opens(&options, RELKVANU_STORE_OK);
        CHECK(report.settings_differ && (report.replayed != 0) == (i == 0), "%" PRIu64 " calls", report.replayed);
        has_settings(store, &settings);
        relkvanu_store_close(store);
    }
    options.settings = settings;
    relkvanu_store *store = opens(&options, RELKVANU_STORE_OK);
    CHECK(!report.settings_differ, "they are the same");
    is_as_logged(&store);
    relkvanu_store_close(store);
}

CASE(bad_settings) {
    relkvanu_store *store = minutely_job();
    relkvanu_settings settings = options_of(0).settings, before = settings;
    relkvanu_store_call call;
    char why[200];
    settings.interval = 5;
    is_unmade(relkvanu_store_configure(store, &settings, &call), RELKVANU_STORE_BAD_ARGUMENT, &call);
    why_says("settings.interval is 5, and has to be 10 to 2^40 ms");
    triggered(store);
    triggered(store);
    settings.interval = MINUTE;
    settings.at_once = 1;
    CHECK(relkvanu_store_configure(store, &settings, &call) == RELKVANU_STORE_OK, "one at once");
    refused(call.answer, RELKVANU_AT_ONCE);
    has_settings(store, &before);
    CHECK(relkvanu_store_why(why, sizeof why) == 0, "%s", why);
    asks(store, RELKVANU_CALL_CANCEL, 0);
    CHECK(relkvanu_store_configure(store, &before, &call) == RELKVANU_STORE_OK, "after the cancel");
    refused(call.answer, RELKVANU_NOT_RUNNING);
    relkvanu_store_close(store);
}

/* A timer that is held goes on once more may be pending. */
CASE(more_at_once) {
    relkvanu_store *store = minutely_job();
    relkvanu_settings settings = options_of(0).settings;
    relkvanu_store_call call, tick;
    triggered(store);
    triggered(store);
    for (int i = 0; i < 2; i++) {
        CHECK(awaits(store, 0, &tick) == RELKVANU_STORE_OK, "handed over");
    }
    CHECK(asks(store, RELKVANU_CALL_TICK, 2 * MINUTE).what == RELKVANU_TICK_HELD_AT_ONCE, "held");
    CHECK(wait_of(store) > MINUTE, "it spins");
    settings.at_once = 3;
    CHECK(relkvanu_store_configure(store, &settings, &call) == RELKVANU_STORE_OK && call.answer.code == RELKVANU_DONE, "settings");
    is_handed(store, RELKVANU_TICK_TRIGGERED, 3, 0);
    relkvanu_store_close(store);
}

/* What a caller may begin while the job is being stopped, or is stopped: nothing. */
static void nothing_begins(relkvanu_store *store) {
    const uint32_t kinds[] = {RELKVANU_CALL_TICK, RELKVANU_CALL_TRIGGER, RELKVANU_CALL_SAVEPOINT};
    relkvanu_store_call call;
    for (size_t i = 0; i < 3; i++) {
        refused(asks(store, kinds[i], RELKVANU_STORE_NOW), RELKVANU_NOT_RUNNING);
        refused(asks(store, kinds[i], 0), RELKVANU_NOT_RUNNING);
    }
    is_unmade(relkvanu_store_stop_job(store, &call), RELKVANU_STORE_NOT_NOW, &call);
    why_says("is stopped");
}

CASE(a_stop) {
    relkvanu_store *store = minutely_job();
    relkvanu_store_call tick, call;
    relkvanu_store_counts after;
    completed(store, 1);
    CHECK(relkvanu_store_begin_job(store, &call) == RELKVANU_STORE_NOT_NOW, "a job that runs can't begin");
    uint64_t id = stopping(store);
    is_due_within(store, HOUR); /* that of the expiry */
    tick = is_handed(store, RELKVANU_SAVEPOINT_TRIGGERED, id, 0);
    CHECK(tick.choice.what == RELKVANU_CHOICE_CHECKPOINT, "the choice");
    nothing_begins(store);
    CHECK(relkvanu_store_begin_job(store, &call) == RELKVANU_STORE_NOT_NOW, "a job that is being stopped can't begin");
    acks(store, 1, id, SUBTASKS - 1);
    is_in(store, RELKVANU_STORE_PHASE_STOPPING, 0, id, 0);
    uint64_t name = reserved(store, 1, 1);
    relkvanu_store_counts before = totals_of(store);
    CHECK(acked_at_0(store, 1, id, SUBTASKS - 1, name).what == RELKVANU_ACK_COMPLETED, "the last acknowledgement");
    relkvanu_store_count(store, &after);
    CHECK(after.commits == before.commits + 1 && after.calls == before.calls + 2, "one commit has both");
    is_in(store, RELKVANU_STORE_PHASE_STOPPED, 0, id, 2);
    for (int i = 0; i < 2; i++) {
        CHECK(awaits(store, i == 0 ? LONG : SHORT, &tick) == RELKVANU_STORE_JOB_STOPPED && tick.answer.a == (i == 0), "time %d", i);
    }
    CHECK(acked_at_0(store, 1, id, 0, 1).code == RELKVANU_FENCED, "the term of the tasks has ended");
    nothing_begins(store);
    CHECK(wait_of(store) == UINT64_MAX, "a tick");
    is_as_logged(&store);
    relkvanu_store_close(store);
}

/* A stop of an hour: nothing expires, and the job goes on from its savepoint. */
CASE(an_hour) {
    relkvanu_store *store = minutely_job();
    relkvanu_store_call tick, call = {.call = {.kind = RELKVANU_CALL_CONFIGURE, .now = 2 * HOUR}};
    uint64_t numbers[] = {MINUTE, 0, 2, HOUR, 0, 3, 0};
    completed(store, 1);
    uint64_t id = stopped(store, 1);
    call.first = numbers;
    call.first_len = 7;
    CHECK(relkvanu_store_calls(store, &call, 1) == RELKVANU_STORE_OK && call.answer.code == RELKVANU_DONE, "the clock, two hours ahead");
    CHECK(awaits(store, SHORT, &tick) == RELKVANU_STORE_JOB_STOPPED, "a tick");
    CHECK(awaits(store, SHORT, &tick) == RELKVANU_STORE_JOB_STOPPED, "a tick");
    store = reopened(store);
    was_in(RELKVANU_STORE_PHASE_STOPPED, 0, id, 2);
    CHECK(report.term == 2 && report.steps[0] == RELKVANU_STORE_END_TASKS && report.steps[1] == RELKVANU_STORE_DISCARD, "the steps");
    CHECK(report.choice.what == RELKVANU_CHOICE_SAVEPOINT && report.choice.a == id, "the choice");
    CHECK(awaits(store, LONG, &tick) == RELKVANU_STORE_JOB_STOPPED && tick.answer.a == 1, "it is told at once");
    is_made(relkvanu_store_begin_job(store, &call), &call, RELKVANU_RESTORED_SAVEPOINT, id, 3);
    is_in(store, RELKVANU_STORE_PHASE_RUNNING, 0, 0, 0);
    is_handed(store, RELKVANU_RESTORED_SAVEPOINT, id, 3);
    is_due_within(store, MINUTE);
    relkvanu_answer ticked = asks(store, RELKVANU_CALL_TICK, 2 * HOUR + 2 * MINUTE);
    CHECK(ticked.what == RELKVANU_TICK_TRIGGERED && ticked.a == 0, "nothing has expired: what %" PRIu32 " %" PRIu64, ticked.what, ticked.a);
    acks(store, 3, ticked.b, SUBTASKS);
    is_as_logged(&store);
    was_in(RELKVANU_STORE_PHASE_RUNNING, 0, 0, 4);
    relkvanu_store_close(store);
}

/* A stop that this call makes fail, which is told of once. The job runs, and can be stopped again. */
static void fails(relkvanu_call end, uint32_t answer, uint32_t why) {
    char left[40];
    relkvanu_store_call tick;
    relkvanu_store *store = minutely_job();
    completed(store, 1);
    uint64_t id = stopping(store);
    acks(store, 1, id, 2);
    is_handed(store, RELKVANU_SAVEPOINT_TRIGGERED, id, 0);
    end.number = end.kind == RELKVANU_CALL_DECLINE ? id : 0;
    uint32_t what = made(store, end).answer.what;
    CHECK(what == answer, "what %" PRIu32, what);
    is_in(store, RELKVANU_STORE_PHASE_RUNNING, why, id, 0);
    CHECK(awaits(store, LONG, &tick) == RELKVANU_STORE_NOT_STOPPED, "it is told");
    store = reopened(store);
    was_in(RELKVANU_STORE_PHASE_RUNNING, why, id, report.steps_len);
    is_in(store, RELKVANU_STORE_PHASE_RUNNING, why, id, 0);
    if (report.mode.what == RELKVANU_MODE_RUNNING) {
        stopping(store);
    }
    lose_job_of(store);
    snprintf(left, sizeof left, "storage of %" PRIu32, why);
    CHECK(rename(in("storage"), in(left)) == 0, "the folder");
}

CASE(stops_that_fail) {
    fails((relkvanu_call){.kind = RELKVANU_CALL_TICK, .now = 2 * HOUR}, RELKVANU_TICK_TRIGGERED, RELKVANU_STORE_STOP_EXPIRED);
    fails((relkvanu_call){.kind = RELKVANU_CALL_DECLINE, .index = 5, .term = 1}, RELKVANU_DECLINE_ABORTED, RELKVANU_STORE_STOP_DECLINED);
    fails((relkvanu_call){.kind = RELKVANU_CALL_RESTORE}, RELKVANU_RESTORED_CHECKPOINT, RELKVANU_STORE_STOP_RESTORED);
    fails((relkvanu_call){.kind = RELKVANU_CALL_CANCEL}, RELKVANU_CANCELLED, RELKVANU_STORE_STOP_CANCELLED);
}

/* A checkpoint that was pending before the stop fails the job. */
CASE(a_stop_of_a_job_that_fails) {
    relkvanu_store *store = minutely_job();
    relkvanu_store_call tick, call;
    uint64_t pending = triggered(store), id = stopping(store);
    call = made(store, (relkvanu_call){.kind = RELKVANU_CALL_DECLINE, .number = pending, .term = 1});
    CHECK(call.answer.what == RELKVANU_DECLINE_FAILED, "a decline");
    is_in(store, RELKVANU_STORE_PHASE_RUNNING, RELKVANU_STORE_STOP_FAILED, id, 0);
    CHECK(awaits(store, LONG, &tick) == RELKVANU_STORE_NOT_STOPPED, "it is told");
    CHECK(awaits(store, LONG, &tick) == RELKVANU_STORE_NOT_RUNNING && tick.answer.a == 1, "and so is the failure");
    CHECK(relkvanu_store_stop_job(store, &call) == RELKVANU_STORE_OK, "a stop of a failed job");
    refused(call.answer, RELKVANU_NOT_RUNNING);
    relkvanu_store_close(store);
}

/* Other calls of a job that is stopped leave it so: another savepoint, another shape, a cancel alone ends it. */
CASE(calls_while_it_is_stopped) {
    relkvanu_store *store = minutely_job();
    uint64_t shape[] = {3}, first, id;
    relkvanu_store_call call = {.call = {.kind = RELKVANU_CALL_RESTORE}, .first = shape, .first_len = 1};
    completed(store, 1);
    first = done(store, RELKVANU_CALL_SAVEPOINT, 0, 0).a;
    acks(store, 1, first, SUBTASKS);
    id = stopped(store, 1);
    CHECK(relkvanu_store_calls(store, &call, 1) == RELKVANU_STORE_OK && call.answer.b == id && call.term == 3, "another shape");
    is_in(store, RELKVANU_STORE_PHASE_STOPPED, 0, id, 3);
    CHECK(done(store, RELKVANU_CALL_RESTORE, 0, first).b == first, "the first savepoint");
    done(store, RELKVANU_CALL_DISPOSE, 0, id);
    store = reopened(store);
    is_in(store, RELKVANU_STORE_PHASE_STOPPED, 0, id, 4);
    is_made(relkvanu_store_begin_job(store, &call), &call, RELKVANU_RESTORED_SAVEPOINT, first, 5);
    is_handed(store, RELKVANU_RESTORED_SAVEPOINT, first, 5);
    id = stopping(store);
    acks(store, 5, id, 3);
    is_in(store, RELKVANU_STORE_PHASE_STOPPED, 0, id, 6);
    done(store, RELKVANU_CALL_CANCEL, 0, 0);
    is_in(store, RELKVANU_STORE_PHASE_RUNNING, RELKVANU_STORE_STOP_CANCELLED, id, 0);
    relkvanu_store_close(store);
}

/* The phase is in the row of the file: one that is damaged, one that an earlier version of the library has left behind, and none. */
CASE(rows_of_the_phase) {
    relkvanu_store_options options = options_of(RELKVANU_STORE_RECOVER);
    relkvanu_store *store = minutely_job();
    completed(store, 1);
    uint64_t id = stopped(store, 1);
    relkvanu_store_close(store);
    run_sql(in("x.db"), "UPDATE phase SET phase = 0");
    opens_not(&options, RELKVANU_STORE_DAMAGED, "the row of the phase is damaged");
    run_sql(in("x.db"), "UPDATE phase SET phase = 2; CREATE TABLE kept AS SELECT * FROM phase; DROP TABLE phase");
    store = opens(&options, RELKVANU_STORE_OK);
    was_in(RELKVANU_STORE_PHASE_RUNNING, 0, 0, 4); /* a file without a row */
    done(store, RELKVANU_CALL_RESTORE, 0, 0);      /* as an earlier version does */
    relkvanu_store_close(store);
    run_sql(in("x.db"), "CREATE TABLE phase AS SELECT * FROM kept");
    store = opens(&options, RELKVANU_STORE_OK);
    was_in(RELKVANU_STORE_PHASE_RUNNING, RELKVANU_STORE_STOP_RESTORED, id, report.steps_len);
    relkvanu_store_close(store);
}

static void goes_back(relkvanu_store *store, uint64_t id, relkvanu_store_call *call) {
    CHECK(relkvanu_store_go_back(store, id, RELKVANU_STORE_ACCEPT_PUBLISHED, call) == RELKVANU_STORE_OK, "status");
}

CASE(an_older_checkpoint) {
    relkvanu_store *store = minutely_job();
    relkvanu_store_call call, tick;
    for (int i = 0; i < 3; i++) {
        completed(store, 1);
    }
    triggered(store); /* it is dropped */
    relkvanu_store_counts before = totals_of(store);
    goes_back(store, 1, &call);
    relkvanu_store_counts after = totals_of(store);
    is_made(RELKVANU_STORE_OK, &call, RELKVANU_RESTORED_SAVEPOINT, 5, 2);
    CHECK(after.commits == before.commits + 1 && after.calls == before.calls + SUBTASKS + 2, "one commit");
    CHECK(counts_of(store).in_use == SUBTASKS, "%" PRIu64 " files", counts_of(store).in_use);
    is_handed(store, RELKVANU_RESTORED_SAVEPOINT, 5, 2);
    CHECK(acked_at_0(store, 1, 4, 0, 1).code == RELKVANU_FENCED, "the term has ended");
    is_as_logged(&store);
    CHECK(report.choice.what == RELKVANU_CHOICE_SAVEPOINT && report.choice.a == 5, "the choice");
    completed(store, 2);
    done(store, RELKVANU_CALL_DISPOSE, 0, 5);
    uint64_t latest = completed(store, 2);
    goes_back(store, latest, &call); /* which needs no savepoint */
    is_made(RELKVANU_STORE_OK, &call, RELKVANU_RESTORED_CHECKPOINT, latest, 3);
    done(store, RELKVANU_CALL_RESTORE, 0, 0); /* of the engine itself: its term has ended the other one's */
    CHECK(awaits(store, 0, &tick) == RELKVANU_STORE_TIMED_OUT, "the way back of an ended term is handed over");
    relkvanu_store_close(store);
}

CASE(no_way_back) {
    relkvanu_store *store = minutely_job();
    relkvanu_store_call call;
    uint64_t shape[] = {3};
    completed(store, 1);
    completed(store, 1);
    uint64_t pending = triggered(store), ids[] = {0, pending, pending + 1, UINT64_MAX};
    is_unmade(relkvanu_store_go_back(store, 1, 0, &call), RELKVANU_STORE_BAD_ARGUMENT, &call);
    why_says("RELKVANU_STORE_ACCEPT_PUBLISHED");
    relkvanu_store_counts before = totals_of(store);
    for (size_t i = 0; i < 4; i++) {
        goes_back(store, ids[i], &call);
        refused(call.answer, RELKVANU_NO_SUCH_RECORD);
    }
    relkvanu_store_counts after = totals_of(store);
    CHECK(before.commits == after.commits, "a commit");
    call = (relkvanu_store_call){.call = {.kind = RELKVANU_CALL_RESTORE}, .first = shape, .first_len = 1};
    CHECK(relkvanu_store_calls(store, &call, 1) == RELKVANU_STORE_OK && call.term == 2, "another shape");
    goes_back(store, 1, &call);
    CHECK(call.answer.code == RELKVANU_BAD_ARGUMENT && call.answer.what == RELKVANU_BAD_SHAPE && call.place == 0, "code %" PRIu32,
        call.answer.code);
    uint64_t own = triggered(store); /* the job goes on as if nobody had asked */
    CHECK(acks(store, 2, own, 3).what == RELKVANU_ACK_COMPLETED, "a checkpoint");
    is_as_logged(&store);
    relkvanu_store_close(store);
}

/* How many records are live, and the number of one of them that is pending; 0: none is. */
struct live {
    uint64_t records, pending;
};

static struct live live_of(relkvanu_store *store) {
    relkvanu_reads *reads;
    struct live found = {0};
    CHECK(relkvanu_store_look(store, &reads) == RELKVANU_STORE_OK, "a look");
    for (relkvanu_answer it = relkvanu_reads_live_from(reads, 0); it.what != RELKVANU_LIVE_NONE;
         it = relkvanu_reads_live_from(reads, it.a + 1)) {
        found.records++;
        found.pending = it.b == 0 ? it.a : found.pending;
    }
    relkvanu_store_read_end(store);
    return found;
}

/* A submit of one call, and the status of its completion. */
static int submitted(relkvanu_store *store, relkvanu_store_call *call) {
    relkvanu_store_completion completion = {0};
    CHECK(relkvanu_store_submit(store, call, 1, 7) == RELKVANU_STORE_OK, "a submit");
    AWAIT(relkvanu_store_completed(store, &completion, 1) != 0);
    return completion.status;
}

/* A checkpoint or a savepoint that lacks a file: the ways back to it drop no other record, and say which file it is. */
CASE(a_way_back_looks_first) {
    relkvanu_store *store = minutely_job();
    relkvanu_store_call call, tick, list[2];
    relkvanu_counts files;
    uint64_t oldest = completed(store, 1), savepoint = done(store, RELKVANU_CALL_SAVEPOINT, 0, 0).a;
    acks(store, 1, savepoint, SUBTASKS);
    completed(store, 1);
    uint64_t latest = completed(store, 1);
    CHECK(unlink(in("storage/1")) == 0 && unlink(in("storage/12")) == 0, "the files");
    relkvanu_store_counts before = totals_of(store);
    files = counts_of(store);
    CHECK(relkvanu_store_go_back(store, oldest, RELKVANU_STORE_ACCEPT_PUBLISHED, &call) == RELKVANU_STORE_FILE_LOST, "it goes back");
    CHECK(call.answer.code == RELKVANU_STORE_NOT_MADE, "code %" PRIu32, call.answer.code);
    why_says("file 1 of record 1 is missing");
    list[0] = (relkvanu_store_call){.call = {.kind = RELKVANU_CALL_TRIGGER}};
    list[1] = (relkvanu_store_call){.call = {.kind = RELKVANU_CALL_RESTORE, .number = savepoint}};
    CHECK(relkvanu_store_calls(store, list, 2) == RELKVANU_STORE_FILE_LOST && list[0].answer.code == RELKVANU_STORE_NOT_MADE, "a list");
    why_says("file 12 of record 2 is missing");
    call = (relkvanu_store_call){.call = {.kind = RELKVANU_CALL_RESTORE, .number = savepoint}};
    CHECK(submitted(store, &call) == RELKVANU_STORE_FILE_LOST && call.answer.code == RELKVANU_STORE_NOT_MADE, "a submit");
    relkvanu_store_counts after = totals_of(store);
    CHECK(before.commits == after.commits && live_of(store).records == 4 && counts_of(store).in_use == files.in_use && files.waiting == 0);
    CHECK(awaits(store, 0, &tick) == RELKVANU_STORE_TIMED_OUT, "something is handed over");
    is_as_logged(&store);
    make_empty("storage/1");
    make_empty("storage/12");
    CHECK(submitted(store, &call) == RELKVANU_STORE_OK && call.answer.b == savepoint && call.term == 2, "the savepoint is whole");
    CHECK(latest == 4 && live_of(store).records == 1, "%" PRIu64 " records", live_of(store).records);
    relkvanu_store_close(store);
}

/* In the last term the savepoint is made, and the restore to it is refused: so none of the calls is made. */
CASE(a_way_back_is_given_up) {
    relkvanu_store *store = minutely_job();
    relkvanu_store_call call, tick;
    uint64_t last = UINT64_C(1) << 62;
    CHECK(relkvanu_store_advance(store, last - 1, 10, &call) == RELKVANU_STORE_OK && call.term == last, "term %" PRIu64, call.term);
    uint64_t older = completed(store, last), files = counts_of(store).in_use;
    completed(store, last);
    goes_back(store, older, &call);
    CHECK(
        call.answer.code == RELKVANU_FENCED && call.answer.what == RELKVANU_TERMS_USED_UP && call.place == 0, "%" PRIu32, call.answer.what);
    CHECK(live_of(store).records == 2 && counts_of(store).in_use == 2 * files, "%" PRIu64 " records", live_of(store).records);
    CHECK(awaits(store, 0, &tick) == RELKVANU_STORE_TIMED_OUT, "it is handed over");
    is_as_logged(&store);
    CHECK(completed(store, last) == older + 2, "a number was given out");
    is_as_logged(&store);
    relkvanu_store_close(store);
}

/* A job that has failed runs again; one that is stopped stays so; a stop under way is dropped; a cancelled one stays cancelled. */
CASE(ways_back_in_each_mode) {
    relkvanu_store *store = minutely_job();
    relkvanu_store_call call;
    completed(store, 1);
    completed(store, 1);
    call = made(store, (relkvanu_call){.kind = RELKVANU_CALL_DECLINE, .number = triggered(store), .term = 1});
    CHECK(call.answer.what == RELKVANU_DECLINE_FAILED, "it fails");
    goes_back(store, 1, &call);
    is_made(RELKVANU_STORE_OK, &call, RELKVANU_RESTORED_SAVEPOINT, 4, 3);
    is_handed(store, RELKVANU_RESTORED_SAVEPOINT, 4, 3);
    uint64_t older = completed(store, 3);
    completed(store, 3);
    uint64_t id = stopping(store);
    goes_back(store, older, &call);
    is_in(store, RELKVANU_STORE_PHASE_RUNNING, RELKVANU_STORE_STOP_RESTORED, id, 0);
    is_made(RELKVANU_STORE_OK, &call, RELKVANU_RESTORED_SAVEPOINT, id + 1, 4);
    is_handed(store, RELKVANU_RESTORED_SAVEPOINT, id + 1, 4);
    is_as_logged(&store);
    asks(store, RELKVANU_CALL_CANCEL, 0);
    goes_back(store, 1, &call);
    refused(call.answer, RELKVANU_NO_SUCH_RECORD);
    relkvanu_store_close(store);
}

CASE(an_advance) {
    relkvanu_store *store = minutely_job();
    relkvanu_store_call call, tick;
    completed(store, 1);
    is_made(relkvanu_store_advance(store, 40, 5000, &call), &call, RELKVANU_RESTORED_CHECKPOINT, 1, 41);
    CHECK(reserved(store, 41, 1) == 5000, "the first name");
    CHECK(awaits(store, 0, &tick) == RELKVANU_STORE_TIMED_OUT, "it is not handed over");
    CHECK(relkvanu_store_advance(store, 1, 0, &call) == RELKVANU_STORE_OK && call.answer.code == RELKVANU_BAD_ARGUMENT &&
              call.answer.what == RELKVANU_BAD_NAME,
        "code %" PRIu32, call.answer.code);
    is_as_logged(&store);
    relkvanu_store_close(store);
}

/* Tasks, an operator and a timer at once. */
static struct {
    relkvanu_store *store;
    atomic_uint_fast64_t term;
    atomic_bool has_ended;
} crowd;

/* Acknowledges what is pending, without files. What came too late is refused. */
static void *tasks(void *with) {
    while (!crowd.has_ended) {
        uint64_t id = live_of(crowd.store).pending;
        for (uint16_t i = 0; i < SUBTASKS && id != 0; i++) {
            relkvanu_answer answer;
            int status = relkvanu_store_ack_in(crowd.store, crowd.term, RELKVANU_STORE_NOW, id, 0, i, NULL, 0, NULL, 0, &answer);
            CHECK(status == RELKVANU_STORE_OK, "status %d", status);
        }
    }
    return with;
}

static int command(unsigned nth, relkvanu_store_call *call) {
    relkvanu_settings settings = options_of(0).settings;
    settings.retained = 2 + nth % 3;
    switch (nth % 6) {
    case 0: return relkvanu_store_stop_job(crowd.store, call);
    case 1: return relkvanu_store_configure(crowd.store, &settings, call);
    case 2: return relkvanu_store_begin_job(crowd.store, call);
    case 3: return relkvanu_store_go_back(crowd.store, nth / 2, RELKVANU_STORE_ACCEPT_PUBLISHED, call);
    default: return relkvanu_store_trigger(crowd.store, call);
    }
}

/* Until some stops had an end: on a busy machine the tasks may take part late. */
static void *operates(void *with) {
    unsigned *done = with;
    for (unsigned i = 0; i < 240 || (i < 24000 && (done[0] < 3 || done[2] < 2)); i++) {
        relkvanu_store_call call;
        relkvanu_store_job_phase phase = phase_of(crowd.store);
        int status = command(i, &call);
        CHECK(status == RELKVANU_STORE_OK || (status == RELKVANU_STORE_NOT_NOW && (i % 6 == 0 || i % 6 == 2)), "status %d", status);
        done[i % 6] += status == RELKVANU_STORE_OK && call.answer.code == RELKVANU_DONE;
        CHECK(phase.phase <= RELKVANU_STORE_PHASE_STOPPED, "phase %" PRIu32, phase.phase);
        usleep(1000);
    }
    crowd.has_ended = true;
    return with;
}

CASE(commands_of_a_crowd) {
    unsigned done[6] = {0};
    crowd.store = minutely_job();
    crowd.term = 1;
    pthread_t threads[] = {starts(tasks, done), starts(tasks, done), starts(operates, done)};
    while (!crowd.has_ended) {
        relkvanu_store_call tick;
        int status = awaits(crowd.store, SHORT, &tick);
        CHECK(status == RELKVANU_STORE_OK || status == RELKVANU_STORE_TIMED_OUT || status == RELKVANU_STORE_JOB_STOPPED ||
                  status == RELKVANU_STORE_NOT_STOPPED,
            "status %d", status);
        if (status == RELKVANU_STORE_OK && tick.term != 0) {
            CHECK(tick.term > crowd.term, "term %" PRIu64, tick.term);
            crowd.term = tick.term;
        }
    }
    for (size_t i = 0; i < 3; i++) {
        pthread_join(threads[i], NULL);
    }
    CHECK(done[0] > 2 && done[1] > 2 && done[2] > 1 && done[4] > 2, "%u stops, %u settings, %u begins, %u ways back, %u triggers", done[0],
        done[1], done[2], done[3], done[4]);
    is_as_logged(&crowd.store);
    relkvanu_store_close(crowd.store);
}
