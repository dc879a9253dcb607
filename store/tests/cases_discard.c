/* The discarder. */
#include "cases.h"

struct discarding {
    struct discarder is;
    atomic_uint asked, deleted, largest;
    atomic_uint_fast64_t stubborn; /* a file that can't be deleted */
};

static void delete_files(void *with, const uint64_t *files, size_t len, uint8_t *is_gone) {
    struct discarding *d = with;
    CHECK(len >= 1 && len <= d->is.batch, "%zu files", len);
    if (len > d->largest) {
        d->largest = (unsigned)len;
    }
    for (size_t i = 0; i < len; i++) {
        CHECK(is_gone[i] == 0, "file %zu", i);
        is_gone[i] = files[i] != d->stubborn && (unlink(in(stored(files[i]))) == 0 || errno == ENOENT);
        d->deleted += is_gone[i];
        d->asked++;
    }
}

static void start(struct discarding *d, relkvanu_store *store, size_t batch) {
    d->is = (struct discarder){.store = store, .batch = batch, .deletes = delete_files, .with = d};
    start_discarder(&d->is);
}

/* Nothing of it is deleted any more, and the store is closed. */
static void stop(struct discarding *d) {
    stop_discarder(&d->is);
    relkvanu_store_close(d->is.store);
}

CASE(deletes_and_reports) {
    relkvanu_store *store = new_job();
    struct discarding d = {0};
    struct discarder second = {.store = store, .batch = 5, .deletes = delete_files, .with = &d};
    CHECK(relkvanu_store_discard(store, 4096, delete_files, &d) == RELKVANU_STORE_BAD_ARGUMENT, "a large batch");
    start(&d, store, 5);
    for (uint64_t i = 0; i < 4; i++) {
        checkpoint_with_files(store, 1 + i * 100);
    }
    AWAIT(unreported(store) == 0);
    /* (first one that would end by itself) */
    CHECK(relkvanu_store_discard_for(store, 5, 100, NULL, NULL) == RELKVANU_STORE_NOT_NOW, "a second discarder for a while");
    discards(&second);
    CHECK(second.status == RELKVANU_STORE_NOT_NOW, "a second discarder: status %d", second.status);
    CHECK(d.deleted == 48 && d.largest > 1 && !exists(stored(1)) && !exists(stored(216)) && exists(stored(301)), "%u deleted", d.deleted);
    stop(&d);
}

CASE(never_gives_up) {
    relkvanu_store *store = new_job();
    struct discarding d = {.stubborn = 7};
    start(&d, store, 4);
    checkpoint_with_files(store, 1);
    checkpoint_with_files(store, 101);
    AWAIT(unreported(store) == 1);
    unsigned asked = d.asked;
    uint64_t began = relkvanu_store_now(store);
    usleep(500000);
    asked = d.asked - asked;
    uint64_t took = relkvanu_store_now(store) - began; /* a busy machine may sleep for longer */
    CHECK(exists(stored(7)) && asked <= took / 100, "it asks %u times in %" PRIu64 " ms", asked, took);
    checkpoint_with_files(store, 201);
    AWAIT(unreported(store) == 1); /* the others are deleted meanwhile */
    d.stubborn = 0;
    AWAIT(unreported(store) == 0);
    CHECK(!exists(stored(7)) && !exists(stored(110)), "file 7");
    stop(&d);
}

/* A process ended between a take and its reports: one file is deleted, the other is not. */
CASE(settles) {
    relkvanu_store *store = new_job();
    uint64_t files[16];
    relkvanu_store_call take = {.call = {.kind = RELKVANU_CALL_TAKE, .number = 16}, .files = files, .files_len = 16};
    checkpoint_with_files(store, 1);
    checkpoint_with_files(store, 101);
    CHECK(relkvanu_store_calls(store, &take, 1) == RELKVANU_STORE_OK && take.answer.a == 16, "a take");
    CHECK(unlinkat(relkvanu_store_folder(store), "3", 0) == 0, "file 3");
    relkvanu_store_close(store);
    store = opens_with(storage_options(RELKVANU_STORE_RECOVER, 0));
    CHECK(report.taken == 16, "%" PRIu64 " taken", report.taken);
    struct discarding d = {0};
    start(&d, store, 3);
    AWAIT(unreported(store) == 0);
    CHECK(d.asked == 16 && d.deleted == 16 && !exists(stored(1)) && exists(stored(101)), "%u asked", d.asked);
    stop(&d);
}

/* Another host has opened a copy of the job, or has given the folder to another job: nothing of it is deleted any more. */
CASE(another_opening) {
    relkvanu_store *store = new_job();
    struct discarding d = {.is = {.store = store, .batch = 16, .deletes = delete_files, .with = &d}};
    checkpoint_with_files(store, 1);
    checkpoint_with_files(store, 101); /* releases 1 to 16 */
    done(store, RELKVANU_CALL_RESTORE, RELKVANU_STORE_NOW, 0);
    for (uint64_t later = 0; later < 2; later++) {
        write_marker("storage", 1 - later, report.epoch + later);
        for (int again = 0; again < 2; again++) { /* a take; then what is taken */
            discards(&d.is);
            CHECK(d.is.status == RELKVANU_STORE_STORAGE && d.asked == 0 && exists(stored(1)), "status %d, %u asked", d.is.status, d.asked);
        }
        CHECK(relkvanu_store_put(store, 999, "x", 1) == RELKVANU_STORE_STORAGE && !exists(stored(999)), "a put");
        is_swept(store, RELKVANU_STORE_STORAGE, 0);
    }
    write_marker("storage", 0, report.epoch);
    start(&d, store, 16);
    AWAIT(unreported(store) == 0);
    CHECK(!exists(stored(1)) && exists(stored(101)), "the files");
    stop(&d);
}

/* The job ends for a while, without a cancel. Its tasks were killed with names that they had reserved: what they wrote by these is garbage once the term has
 * ended, and not before. Then the folder has the files of the last checkpoint alone. */
CASE(an_end_without_a_cancel) {
    relkvanu_store_options options = storage_options(RELKVANU_STORE_CREATE, 0);
    relkvanu_store *store = opens(&options, RELKVANU_STORE_OK);
    checkpoint_with_files(store, 1);
    checkpoint_with_files(store, 101); /* releases 1 to 16 */
    puts_file(store, 50, RELKVANU_STORE_OK);
    CHECK(renameat(relkvanu_store_folder(store), "50", relkvanu_store_folder(store), "60.part") == 0, "a part");
    puts_file(store, 50, RELKVANU_STORE_OK);
    is_swept(store, RELKVANU_STORE_OK, 0);
    CHECK(files_in("storage") == 34, "a sweep alone leaves them");
    done(store, RELKVANU_CALL_RESTORE, RELKVANU_STORE_NOW, 0);
    is_swept(store, RELKVANU_STORE_OK, 0);
    CHECK(files_in("storage") == 32, "a sweep after the restore");
    while (unreported(store) != 0) {
        CHECK(relkvanu_store_discard_for(store, 0, 10, NULL, NULL) == RELKVANU_STORE_TIMED_OUT, "the discarder");
    }
    CHECK(files_in("storage") == 16 && exists(stored(101)) && exists(stored(116)), "the folder");
    relkvanu_store_close(store);
    store = opens_as(&options, RELKVANU_STORE_RECOVER, RELKVANU_STORE_OK);
    CHECK(report.taken == 0 && report.choice.what == RELKVANU_CHOICE_CHECKPOINT && report.choice.a == 2, "the next opening");
    relkvanu_store_close(store);
}

static bool is_never_asked(void *with, const uint64_t *files, size_t len, uint8_t *is_gone) {
    CHECK(false, "%zu files from %" PRIu64 " with %p, %d", len, files[0], with, is_gone[0]);
}

/* Each of these would wait for what only the end of the read can bring: so the first one waits for a second at most. */
CASE(in_a_read) {
    relkvanu_store *store = new_job();
    struct discarding d = {.stubborn = 0};
    relkvanu_store_call tick;
    CHECK(relkvanu_store_discard_for(store, 0, 1, NULL, NULL) == RELKVANU_STORE_TIMED_OUT, "one that has nothing to settle");
    done(store, RELKVANU_CALL_CANCEL, RELKVANU_STORE_NOW, 0); /* no tick is due any more */
    begins_read(store);
    CHECK(relkvanu_store_discard_for(store, 0, 1000, NULL, NULL) == RELKVANU_STORE_BAD_ARGUMENT, "for a while");
    why_says("this thread reads");
    CHECK(relkvanu_store_discard_storage(store, 0, NULL) == RELKVANU_STORE_BAD_ARGUMENT, "of the folder");
    CHECK(relkvanu_store_discard(store, 5, delete_files, &d) == RELKVANU_STORE_BAD_ARGUMENT, "with a function");
    CHECK(relkvanu_store_discard_for(store, 0, UINT64_MAX, is_never_asked, NULL) == RELKVANU_STORE_BAD_ARGUMENT);
    CHECK(relkvanu_store_await_tick(store, UINT64_MAX, &tick) == RELKVANU_STORE_BAD_ARGUMENT, "a timer");
    CHECK(tick.answer.code == RELKVANU_STORE_NOT_MADE, "its answer");
    is_swept(store, RELKVANU_STORE_BAD_ARGUMENT, 0);
    relkvanu_store_read_end(store);
    CHECK(relkvanu_store_discard_for(store, 0, 1, NULL, NULL) == RELKVANU_STORE_TIMED_OUT, "after the read");
    relkvanu_store_close(store);
}
