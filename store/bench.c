/* bench FOLDER [SECONDS]: durable acknowledgements a second of 1, 16 and 256 threads, without and with a discarder. Then, of 1 and of 256
 * threads, and of one that acknowledges by lists of 512, by turns with commits by SQLite alone, of as many rows as the groups of these threads or the lists have,
 * the share of its rows a second. The job has 4096 subtasks, and 3 files in each acknowledgement. Last a checkpoint whose subtasks have 1 KB in place of files, by
 * such lists, by turns with the same bytes in one synced file, and in one commit of SQLite alone. */
#define _GNU_SOURCE
#include "../include/relkvanu_store.h"

#include <fcntl.h>
#include <inttypes.h>
#include <poll.h>
#include <pthread.h>
#include <sqlite3.h>
#include <stdatomic.h>
#include <stdio.h>
#include <stdlib.h>
#include <string.h>
#include <sys/random.h>
#include <time.h>
#include <unistd.h>

enum { SUBTASKS = 4096, STATE = 1024, FILES = 3, VERTICES = 4, AHEAD = 4, LIST = 512, MOST_THREADS = 256, MOST_TIMES = 1 << 22, TURNS = 5 };
enum { STEP = 1000000 }; /* ms between two triggers: no timer of the bench ever has a tick to make */

static relkvanu_store *store;
static atomic_uint_fast64_t next_ack, times_len;
static atomic_bool is_over;
static uint64_t term;
static uint32_t times[MOST_TIMES]; /* in units of 0.1 us */
static double group;               /* calls a commit, in the last measurement */
static bool by_lists;
static uint8_t states[SUBTASKS][STATE];

static void check(const char *what, bool is_so, const char *why) {
    if (!is_so) {
        fprintf(stderr, "%s: %s\n", what, why);
        exit(1);
    }
}

static uint64_t now_ns(void) {
    struct timespec now;
    clock_gettime(CLOCK_MONOTONIC, &now);
    return (uint64_t)now.tv_sec * 1000000000 + (uint64_t)now.tv_nsec;
}

static void note(uint64_t began) {
    times[atomic_fetch_add(&times_len, 1) % MOST_TIMES] = (uint32_t)((now_ns() - began) / 100);
}

static void trigger(uint64_t record) {
    relkvanu_store_call call = {.call = {.kind = RELKVANU_CALL_TICK, .now = record * STEP}};
    check("tick", relkvanu_store_calls(store, &call, 1) == RELKVANU_STORE_OK && call.answer.what == RELKVANU_TICK_TRIGGERED, "no trigger");
    relkvanu_answer names = {.what = RELKVANU_RESERVED};
    check("reserve", relkvanu_store_reserve(store, term, SUBTASKS * FILES, &names) == RELKVANU_STORE_OK, "not committed");
    check("reserve", names.code == RELKVANU_DONE && names.what == RELKVANU_RESERVED, "refused");
}

static void *acknowledges(void *unused) {
    while (!atomic_load(&is_over)) {
        uint64_t nth = atomic_fetch_add(&next_ack, 1), record = nth / SUBTASKS + 1, subtask = nth % SUBTASKS,
                 fresh[FILES] = {nth * 3 + 1, nth * 3 + 2, nth * 3 + 3};
        relkvanu_answer answer;
        if (subtask == 0) {
            trigger(record + AHEAD);
        }
        uint64_t began = now_ns();
        uint16_t vertex = (uint16_t)(subtask / 1024), index = (uint16_t)(subtask % 1024);
        int status = relkvanu_store_ack_in(store, term, record * STEP, record, vertex, index, fresh, FILES, NULL, 0, &answer);
        check("ack", status == RELKVANU_STORE_OK && answer.code == RELKVANU_DONE, "not accepted");
        note(began);
    }
    return unused;
}

static int by_length(const void *one, const void *other) {
    uint32_t a = *(const uint32_t *)one, b = *(const uint32_t *)other;
    return (a > b) - (a < b);
}

static void *acknowledges_lists(void *unused) {
    static uint64_t fresh[LIST][FILES];
    static relkvanu_store_call calls[LIST];
    while (!atomic_load(&is_over)) {
        uint64_t nth = atomic_fetch_add(&next_ack, LIST), record = nth / SUBTASKS + 1;
        if (nth % SUBTASKS == 0) {
            trigger(record + AHEAD);
        }
        for (uint64_t i = 0, ack = nth; i < LIST; i++, ack++) {
            uint16_t vertex = (uint16_t)(ack % SUBTASKS / 1024), index = (uint16_t)(ack % 1024);
            memcpy(fresh[i], (uint64_t[FILES]){ack * 3 + 1, ack * 3 + 2, ack * 3 + 3}, sizeof fresh[i]);
            calls[i] = (relkvanu_store_call){
                .call = {RELKVANU_CALL_ACK, vertex, index, record * STEP, record, term}, .first = fresh[i], .first_len = FILES};
        }
        uint64_t began = now_ns();
        check("list", relkvanu_store_calls(store, calls, LIST) == RELKVANU_STORE_OK, "not committed");
        for (size_t i = 0; i < LIST; i++) {
            check("ack", calls[i].answer.code == RELKVANU_DONE, "not accepted");
            note(began);
        }
    }
    return unused;
}

/* Returns how many a second. */
static double tell(const char *what, uint64_t began) {
    double seconds = (double)(now_ns() - began) / 1e9;
    size_t len = times_len < MOST_TIMES ? times_len : MOST_TIMES;
    qsort(times, len, sizeof *times, by_length);
    printf("%-40s %8.0f a second, half of them within %.2f ms, 99 %% within %.2f ms\n", what, (double)times_len / seconds,
        times[len / 2] / 1e4, times[len * 99 / 100] / 1e4);
    fflush(stdout);
    return (double)times_len / seconds;
}

static void remove_job(const char *path) {
    static const char *const ends[] = {"", "-wal", "-shm", ".lock"};
    char name[4200];
    for (size_t i = 0; i < sizeof ends / sizeof *ends; i++) {
        snprintf(name, sizeof name, "%s%s", path, ends[i]);
        unlink(name);
    }
}

static void deletes(void *with, const uint64_t *files, size_t files_len, uint8_t *is_gone) {
    (void)with, (void)files;
    memset(is_gone, 1, files_len); /* the bench makes no files */
}

static void *discards(void *unused) {
    check("discard", relkvanu_store_discard(store, 4000, deletes, NULL) == RELKVANU_STORE_STOPPED, "it has failed");
    return unused;
}

static void note_group(void) {
    relkvanu_store_counts counts;
    relkvanu_store_count(store, &counts);
    group = (double)counts.calls / (double)counts.commits;
}

static void open_job(const char *path) {
    uint64_t shape[VERTICES] = {1024, 1024, 1024, 1024};
    relkvanu_store_options options = {.flags = RELKVANU_STORE_CREATE_ONLY,
        .settings = {.interval = STEP, .at_once = 64, .timeout = UINT64_C(1) << 40, .retained = 1},
        .shape = shape,
        .shape_len = VERTICES};
    relkvanu_store_report report;
    check("open", relkvanu_store_open(&store, path, &options, &report) == RELKVANU_STORE_OK, report.message);
    term = report.term;
    next_ack = times_len = 0;
    is_over = false;
    for (uint64_t record = 1; record <= AHEAD; record++) {
        trigger(record);
    }
}

/* Returns acknowledgements a second. */
static double measure(const char *path, unsigned len, unsigned seconds, bool has_discarder) {
    pthread_t threads[MOST_THREADS], discarder;
    char what[60];
    open_job(path);
    check("thread", !has_discarder || pthread_create(&discarder, NULL, discards, NULL) == 0, "none");
    uint64_t began = now_ns();
    for (unsigned i = 0; i < len; i++) {
        check("thread", pthread_create(&threads[i], NULL, by_lists ? acknowledges_lists : acknowledges, NULL) == 0, "none");
    }
    sleep(seconds);
    is_over = true;
    for (unsigned i = 0; i < len; i++) {
        pthread_join(threads[i], NULL);
    }
    snprintf(what, sizeof what, "store, %u threads%s%s:", len, by_lists ? " by lists" : "", has_discarder ? ", a discarder" : "");
    double found = tell(what, began);
    note_group();
    relkvanu_store_stop(store);
    if (has_discarder) {
        pthread_join(discarder, NULL);
    }
    relkvanu_store_close(store);
    remove_job(path);
    return found;
}

static void insert_rows(sqlite3 *db, sqlite3_stmt *insert, unsigned rows) {
    bool is_done = rows == 1 || sqlite3_exec(db, "BEGIN", NULL, NULL, NULL) == SQLITE_OK;
    for (unsigned i = 0; i < rows; i++) {
        is_done = is_done && sqlite3_step(insert) == SQLITE_DONE && sqlite3_reset(insert) == SQLITE_OK;
    }
    is_done = is_done && (rows == 1 || sqlite3_exec(db, "COMMIT", NULL, NULL, NULL) == SQLITE_OK);
    check("SQLite", is_done, sqlite3_errmsg(db));
}

/* A log of SQLite alone, and a statement that inserts a row. */
static sqlite3 *open_log(const char *path, const char *row, sqlite3_stmt **insert) {
    static const char setup[] = "PRAGMA locking_mode=EXCLUSIVE; PRAGMA journal_mode=WAL; PRAGMA synchronous=FULL; CREATE TABLE log(place "
                                "INTEGER PRIMARY KEY, line)";
    sqlite3 *db = NULL;
    check("SQLite",
        sqlite3_open(path, &db) == SQLITE_OK && sqlite3_exec(db, setup, NULL, NULL, NULL) == SQLITE_OK &&
            sqlite3_prepare_v2(db, row, -1, insert, NULL) == SQLITE_OK,
        sqlite3_errmsg(db));
    return db;
}

/* Rows a second, so many in each commit. */
static double measure_sqlite(const char *path, unsigned seconds, unsigned rows) {
    static const char row[] = "INSERT INTO log(line) VALUES('ack 1000000 1000000 0.1000 +100000001 +100000002 +100000003')";
    sqlite3_stmt *insert;
    sqlite3 *db = open_log(path, row, &insert);
    char what[60];
    times_len = 0;
    uint64_t began = now_ns();
    while (now_ns() - began < seconds * UINT64_C(1000000000)) {
        uint64_t start = now_ns();
        insert_rows(db, insert, rows);
        for (unsigned i = 0; i < rows; i++) {
            note(start);
        }
    }
    snprintf(what, sizeof what, rows == 1 ? "SQLite, a row a commit:" : "SQLite, %u rows a commit:", rows);
    double found = tell(what, began);
    sqlite3_finalize(insert);
    sqlite3_close(db);
    remove_job(path);
    return found;
}

static int by_size(const void *one, const void *other) {
    double a = *(const double *)one, b = *(const double *)other;
    return (a > b) - (a < b);
}

/* By turns, so that both have the same machine: the store, and SQLite alone with groups of the same size. */
static void measure_share(const char *path, unsigned threads, unsigned seconds) {
    double shares[TURNS];
    for (unsigned i = 0; i < TURNS; i++) {
        double stored = measure(path, threads, seconds, false);
        shares[i] = stored / measure_sqlite(path, seconds, by_lists ? LIST : (unsigned)(group + 0.5));
    }
    qsort(shares, TURNS, sizeof *shares, by_size);
    printf("%u threads%s: %.2f of what SQLite commits alone in groups of the same size (%.2f to %.2f)\n", threads,
        by_lists ? " by lists" : "", shares[TURNS / 2], shares[0], shares[TURNS - 1]);
}

/* The ms of a checkpoint, from its trigger until it is complete. An event loop submits the lists, and awaits the last one. */
static double checkpoint(void) {
    static relkvanu_store_call trigger, calls[SUBTASKS];
    static relkvanu_store_more more[SUBTASKS];
    relkvanu_store_completion done[SUBTASKS / LIST];
    struct pollfd event = {.fd = relkvanu_store_descriptor(store), .events = POLLIN};
    uint64_t began = now_ns();
    trigger = (relkvanu_store_call){.call = {.kind = RELKVANU_CALL_TRIGGER, .now = RELKVANU_STORE_NOW}};
    check("trigger", relkvanu_store_calls(store, &trigger, 1) == RELKVANU_STORE_OK && trigger.answer.what == RELKVANU_TICK_TRIGGERED, "no");
    for (uint64_t i = 0; i < SUBTASKS; i++) {
        more[i] = (relkvanu_store_more){.payload = states[i], .payload_len = STATE};
        calls[i] = (relkvanu_store_call){.more = &more[i],
            .call = {RELKVANU_CALL_ACK, (uint16_t)(i / 1024), (uint16_t)(i % 1024), RELKVANU_STORE_NOW, trigger.answer.b, term}};
        check(
            "submit", i % LIST != LIST - 1 || relkvanu_store_submit(store, &calls[i + 1 - LIST], LIST, i) == RELKVANU_STORE_OK, "refused");
    }
    for (size_t found = 0; found < SUBTASKS / LIST && poll(&event, 1, -1) == 1;) {
        found += relkvanu_store_completed(store, done, SUBTASKS / LIST);
    }
    check("checkpoint", calls[SUBTASKS - 1].answer.what == RELKVANU_ACK_COMPLETED, "it is not complete");
    return (double)(now_ns() - began) / 1e6;
}

/* The ms of one file with the same bytes. */
static double one_file(const char *path) {
    uint64_t began = now_ns();
    int file = open(path, O_WRONLY | O_CREAT | O_TRUNC, 0600);
    bool is_there = write(file, states, sizeof states) == sizeof states && fsync(file) == 0 && close(file) == 0;
    check("one file", is_there, path);
    return (double)(now_ns() - began) / 1e6;
}

/* The ms of one commit of SQLite with a row for each state. */
static double one_commit(sqlite3 *db, sqlite3_stmt *insert) {
    uint64_t began = now_ns();
    bool is_there = sqlite3_exec(db, "BEGIN", NULL, NULL, NULL) == SQLITE_OK;
    for (size_t at = 0; at < SUBTASKS; at++) {
        is_there = is_there && sqlite3_bind_blob(insert, 1, states[at], STATE, SQLITE_STATIC) == SQLITE_OK &&
                   sqlite3_step(insert) == SQLITE_DONE && sqlite3_reset(insert) == SQLITE_OK;
    }
    is_there = is_there && sqlite3_exec(db, "COMMIT", NULL, NULL, NULL) == SQLITE_OK;
    check("SQLite", is_there, sqlite3_errmsg(db));
    return (double)(now_ns() - began) / 1e6;
}

/* By turns, so that all have the same machine. */
static void measure_states(const char *path) {
    double ours[TURNS], file[TURNS], commit[TURNS];
    char one[4110], two[4110];
    sqlite3_stmt *insert;
    snprintf(one, sizeof one, "%s.one", path);
    snprintf(two, sizeof two, "%s.two", path);
    open_job(path);
    sqlite3 *db = open_log(two, "INSERT INTO log(line) VALUES(?)", &insert);
    sqlite3_wal_autocheckpoint(db, 4000); /* as the store has it */
    for (unsigned i = 0; i < TURNS; i++) {
        for (size_t at = 0; at < SUBTASKS; at++) {
            check("random bytes", getrandom(states[at], STATE, 0) == STATE, "none");
        }
        ours[i] = checkpoint();
        file[i] = one_file(one);
        commit[i] = one_commit(db, insert);
    }
    relkvanu_store_close(store);
    sqlite3_finalize(insert);
    sqlite3_close(db);
    remove_job(path);
    remove_job(two);
    unlink(one);
    qsort(ours, TURNS, sizeof *ours, by_size);
    qsort(file, TURNS, sizeof *file, by_size);
    qsort(commit, TURNS, sizeof *commit, by_size);
    printf("checkpoint of %d subtasks with %d bytes: %.1f ms, one synced file %.1f ms, one commit of SQLite alone %.1f ms\n", SUBTASKS,
        STATE, ours[TURNS / 2], file[TURNS / 2], commit[TURNS / 2]);
}

int main(int argc, char **argv) {
    char path[4096];
    unsigned seconds = argc > 2 ? (unsigned)atoi(argv[2]) : 3;
    check("bench FOLDER [SECONDS]", argc > 1, "a folder is missing");
    snprintf(path, sizeof path, "%s/bench-%d.db", argv[1], (int)getpid());
    for (unsigned threads = 1; threads <= MOST_THREADS; threads *= 16) {
        measure(path, threads, seconds, false);
        measure(path, threads, seconds, true);
    }
    measure_share(path, 1, seconds);
    measure_share(path, MOST_THREADS, seconds);
    by_lists = true;
    measure_share(path, 1, seconds);
    measure_states(path);
    return 0;
}
