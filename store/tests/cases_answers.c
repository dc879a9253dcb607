/* What went wrong is told apart, what an operator measures, misuse, and files that are put from elsewhere. */
#include "cases.h"

#include "../src/store.h"

#include <signal.h>
#include <stdarg.h>
#include <sys/resource.h>
#include <sys/syscall.h>
#include <sys/wait.h>
#include <time.h>

static const char *unopened = "";
static int open_error;
static bool fails_once;

void fail_opens(const char *name, int error) {
    unopened = name;
    open_error = error;
    fails_once = false;
}

void fail_next_open(const char *name, int error) {
    fail_opens(name, error);
    fails_once = true;
}

/* In place of that of the C library. */
int openat(int folder, const char *name, int flags, ...) {
    va_list more;
    va_start(more, flags);
    mode_t mode = (flags & O_CREAT) != 0 ? va_arg(more, mode_t) : 0;
    va_end(more);
    if (open_error != 0 && strcmp(name, unopened) == 0) {
        errno = open_error;
        open_error = fails_once ? 0 : open_error;
        return -1;
    }
    return (int)syscall(SYS_openat, folder, name, flags, mode);
}

static atomic_bool hangs, has_hung;

/* In place of that of the C library: the opening of a lock hangs as that of a disk that does not answer. */
int open(const char *name, int flags, ...) {
    va_list more;
    va_start(more, flags);
    mode_t mode = (flags & O_CREAT) != 0 ? va_arg(more, mode_t) : 0;
    va_end(more);
    size_t len = strlen(name);
    int file = (int)syscall(SYS_openat, AT_FDCWD, name, flags, mode);
    while (hangs && len > 5 && strcmp(name + len - 5, ".lock") == 0) {
        has_hung = true;
        usleep(1000);
    }
    return file;
}

static bool why_has(int error) {
    char words[RELKVANU_STORE_MESSAGE];
    return relkvanu_store_why(words, sizeof words) == strlen(words) && strstr(words, strerror(error)) != NULL;
}

/* The marker can't be read, for each reason: the storage is not gone for it. */
CASE(errors_of_a_storage) {
    static const int errors[] = {EMFILE, EIO, EACCES};
    relkvanu_store *store = new_job();
    for (size_t i = 0; i < sizeof errors / sizeof *errors; i++) {
        fail_opens(".relkvanu-job", errors[i]);
        CHECK(relkvanu_store_put(store, 1, "a", 1) == RELKVANU_STORE_NOT_PUT && errno == errors[i] && why_has(errors[i]), "put %d", errno);
        is_swept(store, RELKVANU_STORE_NOT_DONE, 0);
        CHECK(errno == errors[i] && why_has(errors[i]), "sweep %d", errno);
        fail_opens(".", errors[i]);
        is_swept(store, RELKVANU_STORE_NOT_DONE, 0);
        CHECK(errno == errors[i] && why_has(errors[i]), "list %d", errno);
        fail_opens("1.part", errors[i]);
        CHECK(relkvanu_store_put(store, 1, "a", 1) == RELKVANU_STORE_NOT_PUT && errno == errors[i] && why_has(errors[i]), "part %d", errno);
        fail_opens("", 0);
    }
    CHECK(relkvanu_store_put(store, 1, "a", 1) == RELKVANU_STORE_OK && relkvanu_store_why(NULL, 0) == 0, "a put");
    CHECK(renameat(relkvanu_store_folder(store), ".relkvanu-job", relkvanu_store_folder(store), "away") == 0, "the marker");
    CHECK(relkvanu_store_put(store, 2, "a", 1) == RELKVANU_STORE_STORAGE && relkvanu_store_why(NULL, 0) != 0, "it is gone");
    is_swept(store, RELKVANU_STORE_STORAGE, 0);
    relkvanu_store_close(store);
}

/* So at an opening. Each number of free descriptors is tried: it is never no memory, and no lost storage. */
CASE(errors_of_an_opening) {
    static const int errors[] = {EIO, EMFILE};
    relkvanu_store_options options = storage_options(RELKVANU_STORE_CREATE, 0);
    relkvanu_store_close(opens(&options, RELKVANU_STORE_OK));
    options.flags = RELKVANU_STORE_RECOVER;
    for (size_t i = 0; i < sizeof errors / sizeof *errors; i++) {
        fail_opens(".relkvanu-job", errors[i]);
        opens(&options, RELKVANU_STORE_FAILED);
        CHECK(says(strerror(errors[i])) && errno == errors[i], "%s", report.message);
    }
    fail_opens(".relkvanu-job", EACCES);
    opens(&options, RELKVANU_STORE_READ_ONLY);
    CHECK(says(strerror(EACCES)) && errno == EACCES, "%s", report.message);
    fail_opens("", 0);
    struct rlimit before, limit;
    unsigned refused = 0;
    relkvanu_store *store = NULL;
    CHECK(getrlimit(RLIMIT_NOFILE, &before) == 0, "limit");
    for (limit = before, limit.rlim_cur = (rlim_t)dup(0); store == NULL; limit.rlim_cur++) {
        CHECK(setrlimit(RLIMIT_NOFILE, &limit) == 0, "limit");
        int status = relkvanu_store_open(&store, in("x.db"), &options, &report);
        CHECK(status == RELKVANU_STORE_OK || status == RELKVANU_STORE_FAILED, "status %d: %s", status, report.message);
        CHECK(status == RELKVANU_STORE_OK || report.message[0] != 0, "no message");
        refused += status != RELKVANU_STORE_OK;
    }
    CHECK(refused >= 4, "%u were refused", refused);
    setrlimit(RLIMIT_NOFILE, &before);
    relkvanu_store_close(store);
}

CASE(measures) {
    relkvanu_store *store = new_job_alone(RELKVANU_STORE_NO_IMAGES);
    CHECK(measures_of(store).last_commit == 0 && measures_of(store).log_rows == 0, "a new job");
    for (uint64_t i = 0; i < 7; i++) {
        done(store, RELKVANU_CALL_SAVEPOINT, i, 0);
    }
    relkvanu_store_measures found = measures_of(store);
    uint64_t now = (uint64_t)time(NULL) * 1000;
    struct stat wal;
    CHECK(stat(in("x.db-wal"), &wal) == 0 && found.wal_bytes == (uint64_t)wal.st_size && wal.st_size > 0, "%" PRIu64, found.wal_bytes);
    CHECK(found.log_rows == 7 && found.failed_deletions == 0, "%" PRIu64 " rows", found.log_rows);
    CHECK(found.last_commit <= now + 1000 && found.last_commit + 3600000 > now, "%" PRIu64, found.last_commit);
    found = (relkvanu_store_measures){.log_rows = 99, .last_commit = 99};
    relkvanu_store_measure(store, &found, sizeof found.wal_bytes);
    CHECK(found.wal_bytes == (uint64_t)wal.st_size && found.log_rows == 99, "more than was asked for");
    struct {
        relkvanu_store_measures known;
        uint64_t later;
    } more = {.later = 99};
    relkvanu_store_measure(store, &more.known, sizeof more);
    CHECK(more.known.log_rows == 7 && more.later == 0, "what a later version has");
    relkvanu_store_close(store);
}

/* Deletes nothing, or all; ends the discarder after so many batches. */
struct deleting {
    unsigned batches, ends_after;
    bool is_gone;
    uint64_t began; /* the last batch, by rks_clock_ns */
};

static bool delete_some(void *with, const uint64_t *files, size_t len, uint8_t *is_gone) {
    struct deleting *d = with;
    (void)files;
    d->began = rks_clock_ns();
    memset(is_gone, d->is_gone, len);
    return ++d->batches != d->ends_after;
}

/* After a batch that failed there is none for 100 ms, and for twice as long after each later one. On a slow machine the first of these waits may be over
 * before the next discarder begins. */
static void waits_after_failures(relkvanu_store *store, struct deleting *d) {
    uint64_t first = d->began;
    int status = RELKVANU_STORE_OK;
    while (status == RELKVANU_STORE_OK && d->batches < 8) {
        d->ends_after = d->batches + 1;
        status = relkvanu_store_discard_for(store, 4, 10, delete_some, d);
        CHECK(d->batches == d->ends_after - (status != RELKVANU_STORE_OK), "%u batches", d->batches);
        CHECK(status != RELKVANU_STORE_OK || d->began - first >= 100000000, "it waited %" PRIu64 " ns", d->began - first);
    }
    CHECK(status == RELKVANU_STORE_TIMED_OUT, "it waits for nothing");
}

CASE(a_discarder_for_a_while) {
    relkvanu_store *store = new_job_alone(0);
    struct deleting d = {.ends_after = 1};
    CHECK(relkvanu_store_discard_for(store, 4, 20, delete_some, &d) == RELKVANU_STORE_TIMED_OUT && d.batches == 0, "nothing waits");
    checkpoint(store, 1);
    checkpoint(store, 101); /* 16 files wait */
    CHECK(relkvanu_store_discard_for(store, 4, 60000, delete_some, &d) == RELKVANU_STORE_OK && d.batches == 1, "it ends it");
    CHECK(measures_of(store).failed_deletions == 4, "%" PRIu64, measures_of(store).failed_deletions);
    waits_after_failures(store, &d);
    d = (struct deleting){.is_gone = true, .ends_after = 3};
    CHECK(relkvanu_store_discard_for(store, 4, 60000, delete_some, &d) == RELKVANU_STORE_OK && d.batches == 3, "three batches");
    relkvanu_counts counts = counts_of(store);
    CHECK(counts.waiting == 4 && counts.taken == 0, "%" PRIu64 " wait, %" PRIu64 " are taken", counts.waiting, counts.taken);
    relkvanu_store_stop(store);
    CHECK(relkvanu_store_discard_for(store, 4, 60000, delete_some, &d) == RELKVANU_STORE_STOPPED, "stop");
    relkvanu_store_close(store);
}

/* A thread that waits in await_tick hears of a failed job by a status of its own: cases_calls.c. */
static void says_why(relkvanu_store *store, relkvanu_call call, const uint64_t *first, size_t first_len, const char *words) {
    char found[RELKVANU_STORE_MESSAGE];
    relkvanu_store_call it = {.call = call, .first = first, .first_len = first_len};
    CHECK(relkvanu_store_calls(store, &it, 1) == RELKVANU_STORE_OK, "a call");
    relkvanu_store_why(found, sizeof found);
    CHECK(strcmp(found, words) == 0, "%s, not %s", found, words);
}

/* What was refused names the record, the subtask, the file and both terms; what was made says nothing. */
CASE(why_a_call_was_refused) {
    const uint64_t file = 77, own = 1;
    relkvanu_store *store = new_job_alone(0);
    relkvanu_call ack = {.kind = RELKVANU_CALL_ACK, .now = RELKVANU_STORE_NOW, .number = 1, .term = 1};
    relkvanu_call reserve = {.kind = RELKVANU_CALL_RESERVE, .number = 4, .term = 1}, dispose = {.kind = RELKVANU_CALL_DISPOSE, .number = 9};
    says_why(store, ack, NULL, 0, "record 1, subtask 0.0, term 1: refused UnknownCheckpoint");
    done(store, RELKVANU_CALL_SAVEPOINT, RELKVANU_STORE_NOW, 0);
    says_why(store, reserve, NULL, 0, "");
    says_why(store, ack, &file, 1, "record 1, subtask 0.0, term 1: fenced NeverReserved 77");
    ack.vertex = 7;
    ack.index = 3;
    says_why(store, ack, &own, 1, "record 1, subtask 7.3, term 1: refused UnknownSubtask");
    says_why(store, dispose, NULL, 0, "record 9: refused NoSuchSavepoint");
    says_why(store, (relkvanu_call){.kind = RELKVANU_CALL_TAKE}, NULL, 0, "");
    done(store, RELKVANU_CALL_RESTORE, RELKVANU_STORE_NOW, 0);
    says_why(store, ack, NULL, 0, "record 1, subtask 7.3, term 1: fenced OldTerm; term 2 runs");
    ack.kind = RELKVANU_CALL_DECLINE;
    ack.term = 0;
    says_why(store, ack, NULL, 0, "record 1, subtask 7.3, no term: fenced OldTerm; term 2 runs");
    says_why(store, reserve, NULL, 0, "term 1: fenced OldTerm; term 2 runs");
    done(store, RELKVANU_CALL_CANCEL, RELKVANU_STORE_NOW, 0);
    says_why(store, (relkvanu_call){.kind = RELKVANU_CALL_SAVEPOINT, .now = RELKVANU_STORE_NOW}, NULL, 0, "refused NotRunning");
    relkvanu_store_close(store);
}

CASE(the_job_of_an_opening) {
    relkvanu_store_options options = job_options(RELKVANU_STORE_CREATE, 0);
    relkvanu_settings settings;
    uint64_t shape[256], other[] = {3, 4};
    size_t len = 256;
    options.settings.interval = 1234;
    options.settings.keep_on_cancel = true;
    relkvanu_store *store = opens(&options, RELKVANU_STORE_OK);
    CHECK(relkvanu_store_job(store, &settings, shape, &len) == RELKVANU_STORE_OK && len == 1 && shape[0] == SUBTASKS, "%zu vertices", len);
    relkvanu_store_close(store);
    options = job_options(RELKVANU_STORE_RECOVER, 0);
    store = opens(&options, RELKVANU_STORE_OK);
    CHECK(report.settings_differ, "other settings");
    len = 256;
    CHECK(relkvanu_store_job(store, &settings, shape, &len) == RELKVANU_STORE_OK && settings.interval == 1234 && settings.keep_on_cancel &&
          settings.at_once == 1 && settings.timeout == UINT64_C(1) << 30 && settings.tolerable == 1000 && settings.retained == 1);
    relkvanu_store_call restore = {.call = {.kind = RELKVANU_CALL_RESTORE, .now = 5}, .first = other, .first_len = 2};
    CHECK(relkvanu_store_calls(store, &restore, 1) == RELKVANU_STORE_OK && restore.answer.code == RELKVANU_DONE, "another shape");
    len = 1;
    CHECK(relkvanu_store_job(store, &settings, shape, &len) == RELKVANU_STORE_BAD_ARGUMENT && len == 2, "too few places");
    CHECK(relkvanu_store_job(store, &settings, shape, &len) == RELKVANU_STORE_OK && shape[0] == 3 && shape[1] == 4, "the shape now");
    relkvanu_store_close(store);
}

/* A source of so many bytes, which may fail at one. */
struct source {
    size_t at, len, fails_at;
};

static int64_t gives(void *with, void *to, size_t room) {
    struct source *it = with;
    if (it->fails_at != 0 && it->at >= it->fails_at) {
        errno = EPIPE;
        return -1;
    }
    size_t len = it->len - it->at < room ? it->len - it->at : room;
    len = len > 99999 ? 99999 : len;
    memset(to, 'a' + (int)(it->at % 7), len);
    it->at += len;
    return (int64_t)len;
}

CASE(put_from_elsewhere) {
    relkvanu_store *store = new_job();
    struct stat found, given;
    struct source source = {.len = 1000003};
    CHECK(relkvanu_store_put_from(store, 1, gives, &source) == RELKVANU_STORE_OK, "a source");
    CHECK(stat(in("storage/1"), &found) == 0 && found.st_size == 1000003 && !exists("storage/1.part"), "%ld bytes", (long)found.st_size);
    source = (struct source){.len = 1000003, .fails_at = 500000};
    CHECK(relkvanu_store_put_from(store, 2, gives, &source) == RELKVANU_STORE_NOT_PUT && errno == EPIPE && why_has(EPIPE), "it fails");
    CHECK(!exists("storage/2") && !exists("storage/2.part"), "a part is left");
    source = (struct source){.len = 5};
    CHECK(relkvanu_store_put_from(store, 1, gives, &source) == RELKVANU_STORE_PRESENT, "there is one");
    int file = open(in("made"), O_WRONLY | O_CREAT, 0600);
    CHECK(write(file, "state", 5) == 5 && close(file) == 0 && symlink("made", in("link")) == 0, "a file");
    CHECK(relkvanu_store_put_link(store, 3, AT_FDCWD, in("made")) == RELKVANU_STORE_OK, "a link");
    CHECK(stat(in("storage/3"), &found) == 0 && stat(in("made"), &given) == 0 && found.st_ino == given.st_ino, "another file");
    CHECK(relkvanu_store_put_link(store, 3, AT_FDCWD, in("made")) == RELKVANU_STORE_PRESENT, "there is one");
    CHECK(relkvanu_store_put_link(store, 4, AT_FDCWD, in("nothing")) == RELKVANU_STORE_NOT_PUT && errno == ENOENT, "errno %d", errno);
    CHECK(relkvanu_store_put_link(store, 4, AT_FDCWD, in("link")) == RELKVANU_STORE_NOT_PUT && errno == ELOOP, "errno %d", errno);
    CHECK(relkvanu_store_put_link(store, 4, AT_FDCWD, in("storage")) == RELKVANU_STORE_NOT_PUT && errno == EINVAL, "errno %d", errno);
    fail_syncs("/made", EIO);
    CHECK(relkvanu_store_put_link(store, 4, AT_FDCWD, in("made")) == RELKVANU_STORE_NOT_PUT && errno == EIO, "errno %d", errno);
    fail_syncs("/storage", EIO);
    CHECK(relkvanu_store_put_link(store, 4, AT_FDCWD, in("made")) == RELKVANU_STORE_NOT_PUT && errno == EIO, "errno %d", errno);
    fail_syncs("", 0);
    CHECK(!exists("storage/4") && !exists("storage/4.part") && exists("made"), "a part is left");
    relkvanu_store_close(store);
}

/* A call through the handle of a read is in no log: the store is closed before another one is committed behind it. */
static int writes_in_a_read(void *with) {
    (void)with;
    relkvanu_store *store = new_job_alone(RELKVANU_STORE_NO_IMAGES);
    relkvanu *handle;
    relkvanu_answer answer;
    char words[RELKVANU_STORE_MESSAGE];
    CHECK(relkvanu_store_read(store, &handle) == RELKVANU_STORE_OK && relkvanu_reserve(handle, 1, 5).code == RELKVANU_DONE, "a call");
    relkvanu_store_read_end(store);
    CHECK(relkvanu_store_reserve(store, 1, 10, &answer) == RELKVANU_STORE_CLOSED && answer.code == RELKVANU_STORE_NOT_MADE, "it goes on");
    relkvanu_store_message(store, words, sizeof words);
    CHECK(strstr(words, "through the handle of a read") != NULL, "%s", words);
    _exit(7);
}

CASE(a_write_in_a_read) {
    CHECK(in_child(writes_in_a_read, NULL) == 7, "a child");
    relkvanu_store_close(opens_with(job_options(RELKVANU_STORE_RECOVER, 0)));
    CHECK(report.next_name == 1, "next name %" PRIu64, report.next_name);
}

static void *reserves_beside(void *store) {
    reserved(store, 1, 2);
    return NULL;
}

/* It would wait for itself. A submit does not wait, and other threads do. */
CASE(a_call_in_a_read) {
    relkvanu_store *store = new_job();
    relkvanu *handle;
    relkvanu_answer answer;
    relkvanu_store_completion done_of[2];
    relkvanu_store_call call = {.call = {.kind = RELKVANU_CALL_RESERVE, .number = 1, .term = 1}}, tick;
    size_t completed = 0;
    CHECK(relkvanu_store_read(store, &handle) == RELKVANU_STORE_OK, "a read");
    pthread_t thread = starts(reserves_beside, store);
    CHECK(relkvanu_store_reserve(store, 1, 5, &answer) == RELKVANU_STORE_BAD_ARGUMENT && answer.code == RELKVANU_STORE_NOT_MADE, "a call");
    why_says("this thread reads");
    CHECK(relkvanu_store_read(store, &handle) == RELKVANU_STORE_BAD_ARGUMENT, "another read");
    CHECK(relkvanu_store_term(store, &answer) == RELKVANU_STORE_BAD_ARGUMENT, "a read of the term");
    CHECK(relkvanu_store_stop_job(store, &tick) == RELKVANU_STORE_BAD_ARGUMENT && tick.answer.code == RELKVANU_STORE_NOT_MADE, "a stop");
    CHECK(relkvanu_store_submit(store, &call, 1, 7) == RELKVANU_STORE_OK, "a submit");
    relkvanu_store_close(store); /* does nothing */
    CHECK(relkvanu_term(handle).b == 1, "it reads on");
    relkvanu_store_read_end(store);
    pthread_join(thread, NULL);
    while (completed == 0) {
        completed = relkvanu_store_completed(store, done_of, 2);
    }
    CHECK(done_of[0].status == RELKVANU_STORE_OK && call.answer.code == RELKVANU_DONE, "the submit");
    CHECK(relkvanu_store_reserve(store, 1, 5, &answer) == RELKVANU_STORE_OK && answer.a == 4, "name %" PRIu64, answer.a);
    relkvanu_store_close(store);
}

/* A thread with the least stack that relkvanu_store.h names does all. */
#if defined(__SANITIZE_ADDRESS__) || defined(__SANITIZE_THREAD__)
enum { LEAST_STACK = 1 << 20 }; /* each frame is larger */
#else
enum { LEAST_STACK = 256 << 10 };
#endif

static void *does_all(void *with) {
    static relkvanu_store_call calls[RELKVANU_STORE_MOST_CALLS];
    char words[RELKVANU_STORE_MESSAGE];
    relkvanu_store *store = new_job();
    relkvanu_answer answer;
    for (size_t i = 0; i < RELKVANU_STORE_MOST_CALLS; i++) {
        calls[i] = (relkvanu_store_call){.call = {.kind = RELKVANU_CALL_RESERVE, .number = 1, .term = 1}};
    }
    CHECK(relkvanu_store_calls(store, calls, RELKVANU_STORE_MOST_CALLS) == RELKVANU_STORE_OK, "a list");
    CHECK(
        relkvanu_store_put(store, 1, "a", 1) == RELKVANU_STORE_OK && relkvanu_store_reserve(store, 1, 65536, &answer) == RELKVANU_STORE_OK);
    done(store, RELKVANU_CALL_RESTORE, 5, 0);
    is_swept(store, RELKVANU_STORE_OK, 0);
    CHECK(!exists("storage/1"), "a sweep");
    CHECK(relkvanu_store_discard_for(store, 0, 1, NULL, NULL) == RELKVANU_STORE_TIMED_OUT, "a discarder");
    CHECK(relkvanu_store_backup(store, in("b.db"), words, sizeof words) == RELKVANU_STORE_OK, "%s", words);
    relkvanu_store_close(store);
    relkvanu_store_close(opens_with(storage_options(RELKVANU_STORE_RECOVER, 0)));
    return with;
}

CASE(the_least_stack) {
    pthread_t thread;
    pthread_attr_t with;
    CHECK(pthread_attr_init(&with) == 0 && pthread_attr_setstacksize(&with, LEAST_STACK) == 0, "a stack");
    CHECK(pthread_create(&thread, &with, does_all, NULL) == 0 && pthread_join(thread, NULL) == 0, "a thread");
}

static void *opens_one(void *store) {
    *(relkvanu_store **)store = new_job_alone(0);
    return NULL;
}

/* While a disk does not answer an opening, a fork goes on. The child goes on too, and does not keep the lock of the job. */
CASE(a_fork_beside_a_hung_disk) {
    relkvanu_store *store = NULL;
    int status;
    hangs = true;
    pthread_t thread = starts(opens_one, &store);
    AWAIT(has_hung);
    fflush(NULL);
    pid_t child = fork();
    if (child == 0) {
        pause();
        _exit(0);
    }
    CHECK(child > 0, "fork");
    hangs = false;
    pthread_join(thread, NULL);
    relkvanu_store_close(store);
    relkvanu_store_close(opens_with(job_options(RELKVANU_STORE_RECOVER, 0)));
    CHECK(kill(child, SIGKILL) == 0 && waitpid(child, &status, 0) == child, "the child");
}
