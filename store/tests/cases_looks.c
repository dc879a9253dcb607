/* Syncs that fail, and markers that go, in the middle of what must not be reported, answered or kept then. */
#include "cases.h"

#include <dlfcn.h>
#include <sys/syscall.h>
#include <time.h>

enum { RELEASED = 2 * SUBTASKS, ASKS = 6 };

struct discarding {
    struct discarder is;
    void (*meanwhile)(struct discarding *d);
    bool is_gone;
    atomic_uint asked;
    struct timespec at[ASKS];
};

static void note_and_tell(void *with, const uint64_t *files, size_t len, uint8_t *is_gone) {
    struct discarding *d = with;
    (void)files;
    if (d->asked < ASKS) {
        clock_gettime(CLOCK_MONOTONIC, &d->at[d->asked]);
    }
    if (d->meanwhile != NULL) {
        d->meanwhile(d);
    }
    memset(is_gone, d->is_gone, len);
    d->asked++;
}

/* A discarder of a store with files that the second checkpoint has released. */
static void start(struct discarding *d) {
    relkvanu_store *store = new_job();
    d->is = (struct discarder){.store = store, .batch = 4 * RELEASED, .deletes = note_and_tell, .with = d};
    checkpoint(store, 1);
    checkpoint(store, 101);
    CHECK(counts_of(store).waiting == RELEASED, "%" PRIu64 " wait", counts_of(store).waiting);
}

static void stop(struct discarding *d) {
    stop_discarder(&d->is);
    relkvanu_store_close(d->is.store);
}

/* It waits longer after each failure: 0.1, 0.2, 0.4 and 0.8 seconds. A busy machine only makes that longer. */
CASE(waits_grow) {
    struct discarding d = {.is_gone = false};
    start(&d);
    start_discarder(&d.is);
    AWAIT(d.asked >= ASKS);
    stop(&d);
    for (int i = 1; i < ASKS; i++) {
        long waited = (d.at[i].tv_sec - d.at[i - 1].tv_sec) * 1000 + (d.at[i].tv_nsec - d.at[i - 1].tv_nsec) / 1000000;
        CHECK(waited >= (90 << (i - 1)), "after %d failures it waited %ld ms", i, waited);
    }
}

/* After a sync of the folder that failed no deletion is reported, and all are after one that did not. */
CASE(unsynced_deletions) {
    struct discarding d = {.is_gone = true};
    start(&d);
    fail_syncs("/storage", EIO);
    start_discarder(&d.is);
    AWAIT(d.asked >= 2 || unreported(d.is.store) != RELEASED);
    CHECK(unreported(d.is.store) == RELEASED, "%" PRIu64 " are left after a sync that failed", unreported(d.is.store));
    fail_syncs("", 0);
    AWAIT(unreported(d.is.store) == 0);
    stop(&d);
}

static void take_marker(struct discarding *d) {
    int folder = relkvanu_store_folder(d->is.store);
    CHECK(renameat(folder, ".relkvanu-job", folder, "away") == 0, "a marker");
}

/* The marker goes while the files are deleted: it may be another folder, so none is reported, and they wait again. */
CASE(marker_goes_during_deletions) {
    struct discarding d = {.is_gone = true, .meanwhile = take_marker};
    start(&d);
    start_discarder(&d.is);
    AWAIT(d.asked != 0 && (counts_of(d.is.store).taken == 0 || unreported(d.is.store) != RELEASED));
    CHECK(d.asked == 1 && unreported(d.is.store) == RELEASED, "%" PRIu64 " are left without a marker", unreported(d.is.store));
    stop(&d);
}

static bool takes_marker;

/* In place of that of the C library: the deletion of file 1 takes the marker of the folder away, if it is asked to. */
int unlinkat(int folder, const char *name, int flags) {
    int got = (int)syscall(SYS_unlinkat, folder, name, flags);
    if (takes_marker && strcmp(name, "1") == 0) {
        takes_marker = false;
        CHECK(renameat(folder, ".relkvanu-storage", folder, "away") == 0, "a marker");
    }
    return got;
}

/* The same of a storage of a folder. */
CASE(marker_of_a_storage_goes) {
    const char *path = in("state");
    uint64_t files[] = {1, 2, 3};
    uint8_t out[3];
    relkvanu_storage_options options = {.flags = RELKVANU_STORAGE_NEW, .path = path, .job = "orders"};
    relkvanu_storage storage;
    CHECK(mkdir(path, 0700) == 0 && relkvanu_storage_open_folder(&storage, &options) == RELKVANU_STORAGE_OK, "a storage");
    for (size_t i = 0; i < 2; i++) {
        CHECK(storage.put(storage.with, files[i], "a", 1) == RELKVANU_STORAGE_OK, "a put");
    }
    takes_marker = true;
    int got = storage.delete_files(storage.with, files, 3, out);
    CHECK(got == RELKVANU_STORAGE_NOT_THERE && !takes_marker, "status %d", got);
    for (size_t i = 0; i < 3; i++) {
        CHECK(out[i] == RELKVANU_STORAGE_UNDELETED, "file %" PRIu64 ": %d", files[i], out[i]);
    }
    relkvanu_storage_close_folder(&storage);
}

static bool is_damaged;

/* In place of SQLite's: a copy is said to be damaged. */
int sqlite3_exec(sqlite3 *db, const char *sql, int (*row)(void *, int, char **, char **), void *with, char **message) {
    static int (*its)(sqlite3 *, const char *, int (*)(void *, int, char **, char **), void *, char **);
    if (is_damaged && strstr(sql, "quick_check") != NULL) {
        char *value = (char *)"row 5 missing from index", *name = (char *)"quick_check";
        row(with, 1, &value, &name);
        return SQLITE_OK;
    }
    if (its == NULL) {
        *(void **)&its = dlsym(RTLD_NEXT, "sqlite3_exec");
    }
    return its(db, sql, row, with, message);
}

/* A copy that is damaged is no backup, and neither is one that is not synced. */
CASE(bad_copies) {
    char words[RELKVANU_STORE_MESSAGE];
    relkvanu_store *store = new_job_alone(0);
    is_damaged = true;
    int got = relkvanu_store_backup(store, in("b.db"), words, sizeof words);
    CHECK(got == RELKVANU_STORE_NOT_PUT && !exists("b.db") && !exists("b.db.part"), "status %d: %s", got, words);
    is_damaged = false;
    fail_syncs("/b.db.part", EIO);
    got = relkvanu_store_backup(store, in("b.db"), words, sizeof words);
    CHECK(got != RELKVANU_STORE_OK && !exists("b.db"), "status %d: %s", got, words);
    fail_syncs("", 0);
    CHECK(relkvanu_store_backup(store, in("b.db"), words, sizeof words) == RELKVANU_STORE_OK, "%s", words);
    relkvanu_store_close(store);
}

static int leave_wal(void *with) {
    relkvanu_store *store = opens(with, RELKVANU_STORE_OK);
    for (uint64_t i = 0; i < 4; i++) {
        done(store, RELKVANU_CALL_SAVEPOINT, i, 0);
    }
    return 7;
}

/* The sync of what ends so fails, and an opening with it. */
static void refuse_opening(const relkvanu_store_options *options, const char *unsynced) {
    relkvanu_store *store;
    fail_syncs(unsynced, EIO);
    int got = relkvanu_store_open(&store, in("x.db"), options, &report);
    fail_syncs("", 0);
    CHECK(got != RELKVANU_STORE_OK && store == NULL, "status %d without a sync of %s", got, unsynced);
}

/* An opening writes what a killed process left in the -wal again, and opens nothing if that, or the name of a new file, is not synced. */
CASE(unsynced_opening) {
    relkvanu_store_options options = job_options(RELKVANU_STORE_CREATE, 0);
    refuse_opening(&options, "/unsynced_opening");
    CHECK(in_child(leave_wal, &options) == 7, "a child");
    options.flags = RELKVANU_STORE_RECOVER;
    refuse_opening(&options, "x.db-wal");
    /* it is a sync before SQLite opens the file */
    CHECK(!says("SQLite"), "%s", report.message);
}

static bool fails_once, is_full_once;
static unsigned failed_syncs;

/* In place of those of the C library, by which SQLite writes and syncs: the next one of a -wal fails, if it is asked to. */
ssize_t pwrite64(int fd, const void *bytes, size_t len, off64_t at) {
    if (is_full_once && is_file(fd, "-wal")) {
        is_full_once = false;
        errno = ENOSPC;
        return -1;
    }
    return syscall(SYS_pwrite64, fd, bytes, len, at);
}

int fdatasync(int fd) {
    if (fails_once && is_file(fd, "-wal")) {
        fails_once = false;
        failed_syncs++;
        errno = EIO;
        return -1;
    }
    return (int)syscall(SYS_fdatasync, fd);
}

/* A commit whose sync failed is not tried again, however patient the store is: the system may have dropped the pages. */
CASE(unsynced_commit) {
    relkvanu_store_options options = job_options(RELKVANU_STORE_CREATE, 0);
    options.patience = 2000;
    relkvanu_store *store = opens(&options, RELKVANU_STORE_OK);
    done(store, RELKVANU_CALL_SAVEPOINT, 1, 0);
    fails_once = true;
    relkvanu_store_call call = {.call = {.kind = RELKVANU_CALL_SAVEPOINT, .now = 2}};
    int got = relkvanu_store_calls(store, &call, 1);
    CHECK(failed_syncs == 1 && got == RELKVANU_STORE_FAILED, "status %d after %u syncs that failed", got, failed_syncs);
    CHECK(call.answer.code == RELKVANU_STORE_NOT_MADE && call.place == 0, "code %" PRIu32, call.answer.code);
    CHECK(relkvanu_store_calls(store, &call, 1) == RELKVANU_STORE_CLOSED, "it goes on");
    relkvanu_store_close(store);
}

/* A commit that finds no room is tried again, with all calls of the group: of more rows than one statement has. */
CASE(commit_without_room) {
    enum { CALLS = 70 };
    static relkvanu_store_call calls[CALLS];
    relkvanu_store_options options = job_options(RELKVANU_STORE_CREATE, RELKVANU_STORE_NO_IMAGES);
    options.patience = 300000;
    relkvanu_store *store = opens(&options, RELKVANU_STORE_OK);
    for (size_t i = 0; i < CALLS; i++) {
        calls[i].call = (relkvanu_call){.kind = RELKVANU_CALL_RESERVE, .number = 1, .term = 1};
    }
    is_full_once = true;
    CHECK(relkvanu_store_calls(store, calls, CALLS) == RELKVANU_STORE_OK && calls[CALLS - 1].place == CALLS, "a list");
    CHECK(!is_full_once && totals_of(store).retries == 1, "it was not tried again");
    relkvanu_store_close(store);
    store = opens_as(&options, RELKVANU_STORE_RECOVER, RELKVANU_STORE_OK);
    CHECK(report.replayed == CALLS, "%" PRIu64 " calls", report.replayed);
    relkvanu_store_close(store);
}
