/* The thread that writes a manifest while others call: who goes on meanwhile, who waits, and what becomes of a manifest that can't be written. */
#include "cases.h"

#include "../src/store.h"

/* A caller with a thread of its own. Without calls it reads, or it is a timer. */
struct caller {
    pthread_t thread;
    relkvanu_store *store;
    relkvanu_store_call call;
    bool reads, is_timer;
    char must_be_there[PATHS]; /* when it is answered; "": nothing */
    atomic_bool is_answered;
};

static void *calls(void *with) {
    struct caller *it = with;
    relkvanu *handle;
    int status = it->reads      ? relkvanu_store_read(it->store, &handle)
                 : it->is_timer ? relkvanu_store_await_tick(it->store, 600000, &it->call)
                                : relkvanu_store_calls(it->store, &it->call, 1);
    CHECK(status == RELKVANU_STORE_OK, "status %d", status);
    CHECK(it->must_be_there[0] == 0 || access(it->must_be_there, F_OK) == 0, "%s is not there", it->must_be_there);
    if (it->reads) {
        relkvanu_store_read_end(it->store);
    }
    it->is_answered = true;
    return NULL;
}

static void start(struct caller *it) {
    it->thread = starts(calls, it);
}

/* The manifest of this record has to be there when it is answered. */
static void needs(struct caller *it, uint64_t id) {
    char name[64];
    snprintf(name, sizeof name, "storage/record-%" PRIu64 ".manifest", id);
    snprintf(it->must_be_there, sizeof it->must_be_there, "%s", in(name));
}

static void ends(struct caller *it) {
    CHECK(pthread_join(it->thread, NULL) == 0 && it->is_answered, "a thread");
}

/* The acknowledgement of a subtask without files. */
static relkvanu_store_call ack(uint64_t id, uint16_t index) {
    return (relkvanu_store_call){
        .call = {.kind = RELKVANU_CALL_ACK, .index = index, .now = RELKVANU_STORE_NOW, .number = id, .term = report.term}};
}

static relkvanu_answer makes(relkvanu_store *store, relkvanu_store_call call) {
    CHECK(relkvanu_store_calls(store, &call, 1) == RELKVANU_STORE_OK && call.answer.code == RELKVANU_DONE, "%" PRIu32, call.answer.what);
    return call.answer;
}

/* Begins a record of this kind, which waits for the last acknowledgement. Returns its number. */
static uint64_t nearly_all(relkvanu_store *store, uint32_t kind) {
    uint64_t id = begins(store, kind);
    for (uint16_t i = 0; i + 1 < SUBTASKS; i++) {
        makes(store, ack(id, i));
    }
    return id;
}

/* Calls behind a read, as somebody does who is not alone: then the manifest of a record that it completes is written beside others. */
static void begins_behind_a_read(relkvanu_store *store, struct caller *it) {
    begins_read(store);
    start(it);
    for (bool is_queued = false; !is_queued;) { /* one that came later would be alone */
        usleep(1000);
        pthread_mutex_lock(&store->mutex);
        is_queued = store->queue.queued != 0;
        pthread_mutex_unlock(&store->mutex);
    }
    relkvanu_store_read_end(store);
}

/* Acknowledgements of other records and reservations are answered. Who completed the record, who reads and who begins a record is answered behind the manifest. */
CASE(others_go_on) {
    relkvanu_store *store = new_job_with_manifests();
    uint64_t id = nearly_all(store, RELKVANU_CALL_TRIGGER), other = begins(store, RELKVANU_CALL_SAVEPOINT);
    struct caller completes = {.store = store, .call = ack(id, SUBTASKS - 1)}, reads = {.store = store, .reads = true},
                  begins = {.store = store, .call = {.call = {.kind = RELKVANU_CALL_TICK, .now = RELKVANU_STORE_NOW}}};
    needs(&completes, id);
    needs(&begins, id);
    needs(&reads, id);
    hold_syncs("/record-1.manifest.part");
    begins_behind_a_read(store, &completes);
    await_held_sync();
    CHECK(makes(store, ack(other, 0)).what == RELKVANU_ACK_PENDING, "an acknowledgement");
    reserved(store, 1, 3);
    usleep(20000); /* longer than the interval, so that a tick is due */
    start(&begins);
    usleep(100000);
    start(&reads);
    usleep(200000);
    CHECK(!completes.is_answered && !begins.is_answered && !reads.is_answered, "somebody was told before the manifest was there");
    hold_syncs(NULL);
    ends(&completes);
    ends(&begins);
    ends(&reads);
    CHECK(completes.call.answer.what == RELKVANU_ACK_COMPLETED && begins.call.answer.what == RELKVANU_TICK_TRIGGERED, "the answers");
    CHECK(begins.call.choice.what == RELKVANU_CHOICE_CHECKPOINT && begins.call.choice.a == id, "the choice");
    relkvanu_store_close(store);
}

/* A checkpoint that somebody asks for by hand: he waits for the manifest, and the timer that is told of it, since both are told of the choice. Nobody else does. */
CASE(a_trigger_by_hand) {
    relkvanu_store_options options = storage_options(RELKVANU_STORE_CREATE | RELKVANU_STORE_MANIFESTS, 0);
    options.settings.interval = 1 << 30; /* so that no tick is due */
    relkvanu_store *store = opens(&options, RELKVANU_STORE_OK);
    uint64_t id = nearly_all(store, RELKVANU_CALL_TRIGGER), other = begins(store, RELKVANU_CALL_SAVEPOINT);
    struct caller completes = {.store = store, .call = ack(id, SUBTASKS - 1)}, timer = {.store = store, .is_timer = true},
                  triggers = {.store = store, .call = {.call = {.kind = RELKVANU_CALL_TRIGGER, .now = RELKVANU_STORE_NOW}}},
                  acknowledges = {.store = store, .call = ack(other, 0)};
    needs(&completes, id);
    needs(&timer, id);
    needs(&triggers, id);
    hold_syncs("/record-1.manifest.part");
    begins_behind_a_read(store, &completes);
    await_held_sync();
    start(&timer);
    uint64_t before = totals_of(store).calls;
    start(&triggers);
    AWAIT(totals_of(store).calls != before);
    start(&acknowledges);
    AWAIT(acknowledges.is_answered); /* it waits for no manifest that is not its own */
    ends(&acknowledges);
    usleep(200000);
    CHECK(!completes.is_answered && !triggers.is_answered && !timer.is_answered, "somebody was told before the manifest was there");
    hold_syncs(NULL);
    ends(&completes);
    ends(&triggers);
    ends(&timer);
    CHECK(triggers.call.answer.what == RELKVANU_TICK_TRIGGERED && timer.call.answer.b == triggers.call.answer.b, "the record");
    CHECK(timer.call.choice.what == RELKVANU_CHOICE_CHECKPOINT && timer.call.choice.a == id, "the choice");
    relkvanu_store_close(store);
}

/* Submits are answered in their order. A close waits for the manifest. */
CASE(submits_keep_their_order) {
    relkvanu_store *store = new_job_with_manifests();
    uint64_t id = nearly_all(store, RELKVANU_CALL_SAVEPOINT), other = begins(store, RELKVANU_CALL_SAVEPOINT);
    relkvanu_store_call last = ack(id, SUBTASKS - 1), more = ack(other, 0), again = ack(other, 1);
    relkvanu_store_completion some[3];
    hold_syncs("/record-1.manifest.part");
    begins_read(store);
    CHECK(relkvanu_store_submit(store, &last, 1, 1) == RELKVANU_STORE_OK && relkvanu_store_submit(store, &more, 1, 2) == RELKVANU_STORE_OK);
    relkvanu_store_read_end(store);
    await_held_sync();
    CHECK(relkvanu_store_submit(store, &again, 1, 3) == RELKVANU_STORE_OK, "a submit");
    usleep(200000);
    CHECK(relkvanu_store_completed(store, some, 3) == 0, "a completion before the manifest");
    hold_syncs(NULL);
    for (uint64_t found = 0; found < 3;) {
        size_t len = relkvanu_store_completed(store, some, 1);
        CHECK(len == 0 || (some[0].token == found + 1 && some[0].status == RELKVANU_STORE_OK), "token %" PRIu64, some[0].token);
        found += len;
        usleep(1000);
    }
    CHECK(last.answer.what == RELKVANU_ACK_COMPLETED && again.answer.what == RELKVANU_ACK_PENDING, "the answers");
    CHECK(access(in("storage/record-1.manifest"), F_OK) == 0, "the manifest");
    relkvanu_store_close(store);
}

/* The next completion is committed only behind the manifest of the one before: manifests are at most one record behind the log. */
CASE(one_record_behind) {
    relkvanu_store *store = new_job_with_manifests();
    uint64_t id = nearly_all(store, RELKVANU_CALL_SAVEPOINT), other = nearly_all(store, RELKVANU_CALL_SAVEPOINT);
    struct caller one = {.store = store, .call = ack(id, SUBTASKS - 1)}, two = {.store = store, .call = ack(other, SUBTASKS - 1)};
    needs(&one, id);
    needs(&two, other);
    hold_syncs("/record-1.manifest.part");
    begins_behind_a_read(store, &one);
    await_held_sync();
    uint64_t before = totals_of(store).calls;
    start(&two);
    usleep(200000);
    CHECK(totals_of(store).calls == before && !one.is_answered && !two.is_answered, "%" PRIu64 " calls", totals_of(store).calls);
    hold_syncs(NULL);
    ends(&one);
    ends(&two);
    CHECK(totals_of(store).calls == before + 1, "%" PRIu64 " calls", totals_of(store).calls);
    relkvanu_store_close(store);
}

/* A manifest that can't be written beside others is counted, and written later; one of a record that ended goes then. */
CASE(manifests_that_fail_beside) {
    relkvanu_store *store = new_job_with_manifests();
    makes(store, ack(nearly_all(store, RELKVANU_CALL_SAVEPOINT), SUBTASKS - 1));
    uint64_t next = nearly_all(store, RELKVANU_CALL_TRIGGER);
    struct caller last = {.store = store, .call = ack(next, SUBTASKS - 1)};
    fail_syncs("/storage", EIO); /* the folder's */
    begins_behind_a_read(store, &last);
    ends(&last);
    relkvanu_store_measures measures = measures_of(store);
    CHECK(last.call.answer.what == RELKVANU_ACK_COMPLETED && measures.manifests == 1 && measures.failed_manifests == 1,
        "%" PRIu64 " manifests, %" PRIu64 " failed", measures.manifests, measures.failed_manifests);
    fail_syncs("", 0);
    AWAIT(reserved(store, 1, 1) != 0 && measures_of(store).manifests >= 3); /* both are written again, once a commit comes a second later */
    CHECK(measures_of(store).manifests == 3, "%" PRIu64 " manifests", measures_of(store).manifests);
    relkvanu_store_close(store);
}

/* The manifest of a checkpoint goes when the next one has its own, which is written beside others. */
CASE(ended_manifests_go_beside) {
    relkvanu_store *store = new_job_with_manifests();
    for (uint64_t id = 1; id <= 3; id++) {
        CHECK(nearly_all(store, RELKVANU_CALL_TRIGGER) == id, "the number");
        struct caller last = {.store = store, .call = ack(id, SUBTASKS - 1)};
        begins_behind_a_read(store, &last);
        ends(&last);
    }
    CHECK(access(in("storage/record-1.manifest"), F_OK) != 0 && access(in("storage/record-2.manifest"), F_OK) != 0, "one that ended");
    CHECK(access(in("storage/record-3.manifest"), F_OK) == 0, "the manifest");
    relkvanu_store_close(store);
}

/* The thread reads the files of a record while others call. */
CASE(checksums_beside) {
    relkvanu_store *store = new_job_with_manifests();
    relkvanu_store_close(store);
    store = opens_with(storage_options(RELKVANU_STORE_MANIFESTS | RELKVANU_STORE_CHECKSUMS, 0));
    for (uint64_t id = 1; id <= 3; id++) {
        uint64_t file = reserved(store, report.term, 1);
        CHECK(relkvanu_store_put(store, file, CONTENTS, 9) == RELKVANU_STORE_OK, "no file");
        CHECK(nearly_all(store, RELKVANU_CALL_TRIGGER) == id, "the number");
        struct caller last = {.store = store, .call = ack(id, SUBTASKS - 1)};
        last.call.first = &file;
        last.call.first_len = 1;
        begins_behind_a_read(store, &last);
        ends(&last);
    }
    CHECK(manifest_says(3, ":9},\"sums\":[\"cbf43926\"]}") != NULL, "the check value of CRC-32");
    relkvanu_store_close(store);
}
