/* Calls and reads of one thread: lists, moments, the timer, images and the cut of the log. */
#include "cases.h"

#include "../src/store.h"

CASE(lists) {
    relkvanu_store *store = new_job_alone(0);
    uint64_t fresh[] = {1, 2}, files[4] = {0};
    CHECK(reserved(store, 1, 2) == 1, "names");
    relkvanu_store_call calls[] = {{.call = {.kind = RELKVANU_CALL_TICK, .now = 10}},
        {.call = {.kind = RELKVANU_CALL_DISPOSE, .number = 9}},
        {.call = {.kind = RELKVANU_CALL_ACK, .now = 11, .number = 1, .index = 3, .term = 1}, .first = fresh, .first_len = 2},
        {.call = {.kind = RELKVANU_CALL_TAKE, .number = 4}, .files = files, .files_len = 4},
        {.call = {.kind = RELKVANU_CALL_DECLINE, .now = 12, .number = 1, .term = 1}},
        {.call = {.kind = RELKVANU_CALL_TAKE, .number = 4}, .files = files, .files_len = 4}};
    CHECK(relkvanu_store_calls(store, calls, 6) == RELKVANU_STORE_OK, "the list");
    CHECK(calls[0].answer.what == RELKVANU_TICK_TRIGGERED && calls[0].place == 2 && calls[0].choice.what == RELKVANU_CHOICE_FRESH);
    CHECK(calls[1].answer.code == RELKVANU_REFUSED && calls[1].answer.what == RELKVANU_NO_SUCH_SAVEPOINT && calls[1].place == 0);
    CHECK(calls[2].answer.what == RELKVANU_ACK_PENDING && calls[2].answer.a == 7 && calls[2].place == 3 && calls[2].choice.what == 0);
    CHECK(calls[3].answer.what == RELKVANU_TAKEN && calls[3].answer.a == 0 && calls[3].place == 0, "a take of nothing has no line");
    CHECK(calls[4].answer.what == RELKVANU_DECLINE_ABORTED && calls[4].answer.a == 2 && calls[4].place == 4, "the decline");
    CHECK(calls[5].answer.a == 2 && files[0] + files[1] == 3 && calls[5].place == 5, "the take");
    relkvanu_store_close(store);
}

static void bad(relkvanu_store *store, relkvanu_store_call call, size_t len) {
    relkvanu_store_call calls[] = {call};
    CHECK(relkvanu_store_calls(store, calls, len) == RELKVANU_STORE_BAD_ARGUMENT, "kind %" PRIu32, call.call.kind);
    CHECK(len != 1 || calls[0].answer.code == RELKVANU_STORE_NOT_MADE, "an answer");
}

CASE(bad_arguments) {
    relkvanu_store *store = new_job_alone(0);
    static relkvanu_store_call many[4097];
    uint64_t places[4];
    static uint64_t files[20000];
    bad(store, (relkvanu_store_call){.call = {.kind = 0}}, 1);
    bad(store, (relkvanu_store_call){.call = {.kind = RELKVANU_CALL_SHOW}}, 1);
    bad(store, (relkvanu_store_call){.call = {.kind = RELKVANU_CALL_COUNT}}, 1);
    bad(store, (relkvanu_store_call){.call = {.kind = RELKVANU_CALL_FENCE, .number = 100}}, 1); /* each job has names */
    bad(store, (relkvanu_store_call){.call = {.kind = UINT32_MAX}}, 1);
    bad(store, (relkvanu_store_call){.call = {.kind = RELKVANU_CALL_TICK}, .reserved = {1}}, 1);
    bad(store, (relkvanu_store_call){.call = {.kind = RELKVANU_CALL_TAKE, .number = 5}, .files = places, .files_len = 4}, 1);
    bad(store, (relkvanu_store_call){.call = {.kind = RELKVANU_CALL_TICK}}, 0);
    CHECK(relkvanu_store_calls(store, many, 4097) == RELKVANU_STORE_BAD_ARGUMENT, "a long list");
    for (size_t i = 0; i < 20000; i++) {
        files[i] = UINT64_MAX - i;
    }
    bad(store, (relkvanu_store_call){.call = {.kind = RELKVANU_CALL_ACK}, .first = files, .first_len = 20000}, 1); /* no line has so many */
    relkvanu_store_counts counts = totals_of(store);
    CHECK(counts.calls == 0 && counts.commits == 0, "calls");
    relkvanu_store_close(store);
}

static uint32_t tick_code(relkvanu_store *store, uint64_t now) {
    relkvanu_answer answer = made(store, (relkvanu_call){.kind = RELKVANU_CALL_TICK, .now = now}).answer;
    CHECK(answer.code == RELKVANU_DONE || answer.what == RELKVANU_MOMENT_TOO_LARGE, "what %" PRIu32, answer.what);
    return answer.code;
}

static const uint64_t DAY = 86400000;

CASE(moments) {
    relkvanu_store *store = new_job_alone(0);
    CHECK(relkvanu_store_now(store) < 60000, "a new job begins at 0");
    CHECK(tick_code(store, 10) == RELKVANU_DONE, "due");
    uint64_t expiry = 10 + (UINT64_C(1) << 30);
    CHECK(tick_code(store, expiry + DAY + 1) == RELKVANU_REFUSED, "beyond what a timer waits for");
    CHECK(tick_code(store, UINT64_C(1) << 61) == RELKVANU_REFUSED, "ten years");
    CHECK(tick_code(store, expiry + DAY) == RELKVANU_DONE, "the expiry and a day");
    relkvanu_store_close(store);
    relkvanu_store_options options = job_options(RELKVANU_STORE_RECOVER, 0);
    options.most_ahead = 1000;
    store = opens(&options, RELKVANU_STORE_OK);
    CHECK(report.moment == expiry + DAY, "%" PRIu64, report.moment);
    uint64_t now = relkvanu_store_now(store);
    CHECK(now >= report.moment && now < report.moment + 60000, "the clock goes on from the greatest moment, and not from %" PRIu64, now);
    usleep(20000);
    CHECK(relkvanu_store_now(store) >= now + 15, "the clock stands");
    CHECK(done(store, RELKVANU_CALL_SAVEPOINT, RELKVANU_STORE_NOW, 0).what == RELKVANU_SAVEPOINT_TRIGGERED, "a savepoint");
    CHECK(relkvanu_moment(begins_read(store)).a >= now + 15, "the moment of the call");
    relkvanu_store_read_end(store);
    relkvanu_store_close(store);
}

/* A job that triggers each minute, one at once, and fails with the first that fails. */
CASE(the_next_tick) {
    relkvanu_store_options options = job_options(RELKVANU_STORE_CREATE, 0);
    options.settings = (relkvanu_settings){.interval = 60000, .at_once = 1, .timeout = 7200000, .retained = 1};
    relkvanu_store *store = opens(&options, RELKVANU_STORE_OK);
    relkvanu_store_call tick;
    uint64_t wait = wait_of(store);
    CHECK(wait > 30000 && wait <= 60000, "the first one is due after %" PRIu64, wait);
    CHECK(relkvanu_store_await_tick(store, 30, &tick) == RELKVANU_STORE_TIMED_OUT && tick.answer.code == RELKVANU_STORE_NOT_MADE, "await");
    CHECK(done(store, RELKVANU_CALL_TICK, 60000, 0).what == RELKVANU_TICK_TRIGGERED, "a trigger");
    relkvanu_store_close(store);
    store = opens_as(&options, RELKVANU_STORE_RECOVER, RELKVANU_STORE_OK);
    CHECK(done(store, RELKVANU_CALL_TICK, 120000, 0).what == RELKVANU_TICK_HELD_AT_ONCE, "held");
    wait = wait_of(store);
    CHECK(wait > 7000000 && wait <= 7200000, "it is held until the expiry, and not for %" PRIu64, wait);
    relkvanu_call again = {.kind = RELKVANU_CALL_DECLINE, .now = 120000, .number = 1, .term = report.term};
    CHECK(made(store, again).answer.what == RELKVANU_DECLINE_FAILED, "fails over");
    CHECK(wait_of(store) == UINT64_MAX, "ticks are refused");
    const uint64_t longest[] = {600000, 30}; /* told at once, and then it does not spin */
    for (size_t i = 0; i < 2; i++) {
        CHECK(relkvanu_store_await_tick(store, longest[i], &tick) == RELKVANU_STORE_NOT_RUNNING && tick.answer.code == RELKVANU_REFUSED &&
                  tick.answer.what == RELKVANU_NOT_RUNNING,
            "await: what %" PRIu32, tick.answer.what);
    }
    done(store, RELKVANU_CALL_RESTORE, 120000, 0);
    wait = wait_of(store);
    CHECK(wait > 30000 && wait <= 60000, "it is restored, and due after %" PRIu64, wait);
    relkvanu_store_close(store);
    store = opens(&options, RELKVANU_STORE_OK);
    CHECK(done(store, RELKVANU_CALL_TICK, 180000, 0).what == RELKVANU_TICK_TRIGGERED, "a trigger");
    relkvanu_store_close(store);
}

static relkvanu_store *awaited;

/* A moment ahead is the clock's own at once: the timer goes on from it, and so does one that waits already. */
static void *awaits_a_tick(void *tick) {
    relkvanu_store_call *found = tick;
    while (relkvanu_store_await_tick(awaited, 600000, found) == RELKVANU_STORE_TIMED_OUT) {}
    return tick;
}

CASE(a_moment_ahead) {
    static const uint64_t AHEAD = 20 * 3600000;
    relkvanu_store_options options = job_options(RELKVANU_STORE_CREATE, 0);
    options.settings.interval = 1000;
    options.settings.at_once = 3;
    relkvanu_store_call tick = {.place = 0};
    awaited = opens(&options, RELKVANU_STORE_OK);
    pthread_t timer = starts(awaits_a_tick, &tick);
    done(awaited, RELKVANU_CALL_SAVEPOINT, AHEAD, 0); /* 20 hours ahead */
    CHECK(relkvanu_store_now(awaited) >= AHEAD, "now %" PRIu64, relkvanu_store_now(awaited));
    pthread_join(timer, NULL);
    CHECK(tick.answer.what == RELKVANU_TICK_TRIGGERED, "what %" PRIu32, tick.answer.what);
    CHECK(tick_code(awaited, AHEAD + 2 * AHEAD / 20) == RELKVANU_DONE, "2 hours ahead");
    uint64_t wait = wait_of(awaited);
    CHECK(wait <= 1000, "the next one is due after %" PRIu64, wait);
    relkvanu_store_close(awaited);
}

/* A commit wakes timers and discarders only if what they wait for has changed: otherwise the version of it stays. */
CASE(quiet_commits) {
    relkvanu_store *store = opens_with(storage_options(RELKVANU_STORE_CREATE, RELKVANU_STORE_NO_IMAGES));
    checkpoint(store, 1);
    uint64_t version = store->timers.version;
    checkpoint(store, 101); /* another tick is due, and the files of the first one wait */
    CHECK(store->timers.version > version && store->timers.view.has_files, "%" PRIu64 " versions", store->timers.version - version);
    version = store->timers.version;
    for (int i = 0; i < 50; i++) {
        done(store, RELKVANU_CALL_SAVEPOINT, 20, 0);
    }
    CHECK(store->timers.version <= version + 1, "50 commits, %" PRIu64 " versions",
        store->timers.version - version); /* the first one may move the clock */
    relkvanu_store_close(store);
}

CASE(images_and_cuts) {
    relkvanu_store *store = new_job_alone(100);
    uint64_t calls = 0, file = 1;
    for (; calls < 1800; calls += CHECKPOINT_CALLS, file += 100) {
        checkpoint(store, file);
    }
    relkvanu_store_counts counts = totals_of(store);
    CHECK(counts.images >= 15 && counts.failed_images == 0 && counts.calls == calls && counts.largest == 1, "%" PRIu64 " images",
        counts.images);
    relkvanu_store_close(store);
    size_t len;
    struct told *rows = log_rows(in("x.db"), 0, &len);
    CHECK(len > 100 && len < 300 && rows[len - 1].place == calls, "%zu rows", len);
    free(rows);
    store = opens_with(job_options(RELKVANU_STORE_RECOVER, 100));
    CHECK(report.replayed == 0 && report.image_place == calls, "an image was made at the close");
    checkpoint(store, 1000000);
    relkvanu_store_close(store);
}
