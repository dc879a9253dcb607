/* What comes alone or late: a completion, a kill after an opening, a sweep that fails, a time. */
#include "cases.h"

#include <poll.h>
#include <sys/syscall.h>
#include <time.h>

/* Who waits by the descriptor alone is told of one completion, too. */
CASE(lone_completion) {
    relkvanu_store *store = new_job_alone(0);
    relkvanu_store_call call = {.call = {.kind = RELKVANU_CALL_SAVEPOINT}};
    relkvanu_store_completion one;
    struct pollfd it = {.fd = relkvanu_store_descriptor(store), .events = POLLIN};
    for (uint64_t i = 0; i < 3; i++) {
        call.call.now = i;
        CHECK(relkvanu_store_submit(store, &call, 1, 5) == RELKVANU_STORE_OK, "a call");
        CHECK(poll(&it, 1, 300000) == 1, "nothing tells of a lone completion");
        CHECK(relkvanu_store_completed(store, &one, 1) == 1 && one.token == 5 && poll(&it, 1, 0) == 0, "a completion");
    }
    relkvanu_store_close(store);
}

/* A commit has no more calls than a list may have, however many wait. */
CASE(most_calls_of_a_commit) {
    enum { MANY = RELKVANU_STORE_MOST_CALLS + 100 };
    static relkvanu_store_call calls[MANY];
    relkvanu_store *store = new_job_alone(0);
    begins_read(store);
    for (uint64_t i = 0; i < MANY; i++) {
        bool is_decline = i % 2 != 0;
        calls[i].call.kind = is_decline ? RELKVANU_CALL_DECLINE : RELKVANU_CALL_SAVEPOINT;
        calls[i].call.now = i;
        calls[i].call.number = is_decline ? i / 2 + 1 : 0;
        calls[i].call.term = is_decline ? report.term : 0;
        CHECK(relkvanu_store_submit(store, &calls[i], 1, i) == RELKVANU_STORE_OK, "call %" PRIu64, i);
    }
    relkvanu_store_read_end(store);
    relkvanu_store_completion some[64];
    for (size_t found = 0; found < MANY; usleep(100)) {
        found += relkvanu_store_completed(store, some, 64);
    }
    relkvanu_store_counts counts = totals_of(store);
    CHECK(counts.largest == RELKVANU_STORE_MOST_CALLS && counts.commits == 2, "%" PRIu64 " calls, %" PRIu64 " commits",
        (uint64_t)counts.largest, (uint64_t)counts.commits);
    relkvanu_store_close(store);
}

static int open_the_earlier(void *with) {
    relkvanu_store_options *options = with;
    options->flags = RELKVANU_STORE_EARLIER_IMAGE;
    opens(options, RELKVANU_STORE_OK);
    return 7;
}

/* A process that began with the earlier image is killed: the next one needs no flag, since the damaged one is gone. */
CASE(killed_after_an_earlier_image) {
    relkvanu_store_options options = job_options(RELKVANU_STORE_CREATE, 5);
    relkvanu_store *store = opens(&options, RELKVANU_STORE_OK);
    for (uint64_t i = 0; i < 18; i++) {
        done(store, RELKVANU_CALL_SAVEPOINT, i, 0);
    }
    relkvanu_store_close(store);
    run_sql(in("x.db"), "UPDATE image SET sum = sum + 1 WHERE place = (SELECT max(place) FROM image)");
    CHECK(in_child(open_the_earlier, &options) == 7, "a child");
    relkvanu_store_close(opens_as(&options, RELKVANU_STORE_RECOVER, RELKVANU_STORE_OK));
}

static bool is_cut;

static int is_storage_there(void *with) {
    (void)with;
    return RELKVANU_STORAGE_OK;
}

static int delete_none(void *with, const uint64_t *files, size_t len, uint8_t *out) {
    (void)with;
    (void)files;
    memset(out, RELKVANU_STORAGE_UNDELETED, len);
    return RELKVANU_STORAGE_OK;
}

static int list_three(void *with, size_t most, relkvanu_storage_page page, void *with_page) {
    relkvanu_storage_file files[] = {{.file = 900}, {.file = 901}, {.file = 902}};
    (void)with;
    (void)most;
    if (!page(with_page, files, is_cut ? 1 : 3)) {
        return RELKVANU_STORAGE_ENDED;
    }
    return is_cut ? RELKVANU_STORAGE_FAILED : RELKVANU_STORAGE_OK;
}

static void check_unissued(relkvanu_store *store, const char *after) {
    CHECK(totals_of(store).unissued == 3, "%" PRIu64 " after %s", totals_of(store).unissued, after);
}

/* A sweep that fails changes nothing of what the last whole one counted. */
CASE(sweep_that_fails) {
    relkvanu_store *store = new_job();
    relkvanu_storage storage = {.check = is_storage_there, .list = list_three, .delete_files = delete_none};
    size_t left;
    reserved(store, report.term, 5);
    CHECK(relkvanu_store_sweep_storage(store, &storage, &left) == RELKVANU_STORE_OK, "no sweep");
    check_unissued(store, "a whole sweep");
    is_cut = true;
    CHECK(relkvanu_store_sweep_storage(store, &storage, &left) == RELKVANU_STORE_NOT_DONE, "a sweep that fails");
    check_unissued(store, "one that failed");
    relkvanu_store_close(store);
}

static time_t suspended;

/* In place of that of the C library: the machine was suspended for so many seconds. */
int clock_gettime(clockid_t clock, struct timespec *now) {
    int got = (int)syscall(SYS_clock_gettime, clock, now);
    if (clock == CLOCK_BOOTTIME) {
        now->tv_sec += suspended;
    }
    return got;
}

/* The store's time goes on while the machine is suspended. */
CASE(suspension) {
    relkvanu_store *store = new_job_alone(0);
    uint64_t before = relkvanu_store_now(store);
    suspended = 1000000;
    uint64_t after = relkvanu_store_now(store);
    CHECK(after - before >= 1000000000, "%" PRIu64 " ms", after - before);
    relkvanu_store_close(store);
}

/* The name of a storage's marker is no longer than an affix. */
CASE(long_marker_names) {
    char name[300];
    relkvanu_storage_options options = {.flags = RELKVANU_STORAGE_NEW, .path = in("state"), .job = "orders", .marker_name = name};
    relkvanu_storage storage;
    CHECK(mkdir(options.path, 0700) == 0, "a folder");
    for (size_t len = RELKVANU_STORAGE_MOST_AFFIX; len <= 255; len++) {
        int wanted = len > RELKVANU_STORAGE_MOST_AFFIX ? RELKVANU_STORAGE_BAD_ARGUMENT : RELKVANU_STORAGE_OK;
        memset(name, 'm', len);
        name[len] = 0;
        int got = relkvanu_storage_open_folder(&storage, &options);
        CHECK(got == wanted, "%zu bytes: status %d", len, got);
        relkvanu_storage_close_folder(&storage);
    }
}
