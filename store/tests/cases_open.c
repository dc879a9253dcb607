/* Openings: new jobs, recoveries, who may open, and what the files are. */
#include "cases.h"

#include <signal.h>
#include <sys/syscall.h>
#include <sys/wait.h>

static void check_steps(const uint32_t *steps, size_t len) {
    CHECK(report.steps_len == len && memcmp(report.steps, steps, len * sizeof *steps) == 0, "%zu steps", report.steps_len);
}

CASE(makes_and_recovers) {
    static const uint32_t fresh[] = {RELKVANU_STORE_START_TASKS};
    static const uint32_t again[] = {RELKVANU_STORE_END_TASKS, RELKVANU_STORE_RESTORE, RELKVANU_STORE_SWEEP, RELKVANU_STORE_START_TASKS};
    static const uint32_t ended[] = {RELKVANU_STORE_END_TASKS, RELKVANU_STORE_SWEEP, RELKVANU_STORE_DISCARD};
    relkvanu_store_options options = job_options(RELKVANU_STORE_CREATE_ONLY, RELKVANU_STORE_NO_IMAGES);
    relkvanu_store *store = opens(&options, RELKVANU_STORE_OK);
    CHECK(!report.is_recovered && report.epoch == 1 && report.replayed == 0 && report.choice.what == RELKVANU_CHOICE_FRESH, "the report");
    check_steps(fresh, 1);
    uint64_t job[] = {report.job[0], report.job[1]}, id = checkpoint(store, 1);
    relkvanu_store_close(store);
    options.flags = RELKVANU_STORE_RECOVER;
    options.settings.interval = 11;
    store = opens(&options, RELKVANU_STORE_OK);
    CHECK(report.is_recovered && report.settings_differ && report.epoch == 2 && report.replayed == CHECKPOINT_CALLS &&
          report.image_place == 0);
    CHECK(report.job[0] == job[0] && report.job[1] == job[1] && (job[0] | job[1]) != 0, "another job");
    CHECK(report.choice.what == RELKVANU_CHOICE_CHECKPOINT && report.choice.a == id && report.mode.what == RELKVANU_MODE_RUNNING);
    check_steps(again, 4);
    done(store, RELKVANU_CALL_CANCEL, 1000, 0);
    relkvanu_store_close(store);
    options = job_options(RELKVANU_STORE_CREATE, 5);
    store = opens(&options, RELKVANU_STORE_OK);
    CHECK(!report.settings_differ && report.epoch == 3 && report.replayed == CHECKPOINT_CALLS + 1 && report.moment == 1000 &&
          report.mode.what == RELKVANU_MODE_CANCELLED);
    check_steps(ended, 3);
    relkvanu_store_close(store);
}

CASE(needs_a_flag) {
    relkvanu_store_options options = job_options(RELKVANU_STORE_RECOVER, 0);
    opens(&options, RELKVANU_STORE_ABSENT);
    CHECK(!exists("x.db") && !exists("x.db.lock") && says("x.db"), "%s", report.message);
    close(open(in("x.db"), O_CREAT | O_WRONLY, 0600));
    opens(&options, RELKVANU_STORE_ABSENT);
    relkvanu_store_close(opens_as(&options, RELKVANU_STORE_CREATE, RELKVANU_STORE_OK));
    opens_as(&options, RELKVANU_STORE_CREATE_ONLY, RELKVANU_STORE_PRESENT);
    options.flags = 1u << 20 | RELKVANU_STORE_CREATE;
    opens_not(&options, RELKVANU_STORE_BAD_ARGUMENT, "flags has 0x100000, which is not known");
    options.flags = 16u | RELKVANU_STORE_CREATE;
    opens(&options, RELKVANU_STORE_BAD_ARGUMENT);
    options.flags = RELKVANU_STORE_CREATE;
    options.reserved[3] = 1;
    opens_not(&options, RELKVANU_STORE_BAD_ARGUMENT, "reserved[3] is 1, and has to be 0");
}

/* A value that is outside the limits, and what the message says of it. */
struct outside {
    uint64_t *value;
    uint64_t least, below, most, above; /* the same value twice: there is no such one */
    const char *name, *limits;
};

static void refuses(const relkvanu_store_options *options, const struct outside *it, uint64_t value) {
    char words[120];
    snprintf(words, sizeof words, "settings.%s is %" PRIu64 ", and has to be %s", it->name, value, it->limits);
    opens(options, RELKVANU_STORE_BAD_ARGUMENT);
    CHECK(says(words), "%s, and not %s", report.message, words);
}

static void accepts(const relkvanu_store_options *options) {
    relkvanu_store_close(opens(options, RELKVANU_STORE_OK));
    CHECK(!report.is_recovered, "a job is there");
    unlink(in("x.db"));
    unlink(in("x.db-wal"));
}

/* Each setting at its limits, which are accepted, and outside of them. */
CASE(checks_each_setting) {
    const uint64_t long_time = UINT64_C(1) << 40;
    relkvanu_store_options options = job_options(RELKVANU_STORE_CREATE, 0);
    relkvanu_settings *given = &options.settings;
    const struct outside all[] = {
        {&given->interval, 10, 9, long_time, long_time + 1, "interval", "10 to 2^40 ms"},
        {&given->pause, 0, 0, long_time, long_time + 1, "pause", "0 to 2^40 ms"},
        {&given->at_once, 1, 0, 64, 65, "at_once", "1 to 64"},
        {&given->timeout, 1, 0, long_time, long_time + 1, "timeout", "1 to 2^40 ms"},
        {&given->tolerable, 0, 0, 1000, 1001, "tolerable", "0 to 1000"},
        {&given->retained, 1, 0, 1000, UINT64_MAX, "retained", "1 to 1000"},
    };
    for (size_t i = 0; i < sizeof all / sizeof *all; i++) {
        relkvanu_store_options before = options;
        *all[i].value = all[i].least;
        accepts(&options);
        *all[i].value = all[i].most;
        accepts(&options);
        *all[i].value = all[i].above;
        refuses(&options, &all[i], all[i].above);
        *all[i].value = all[i].below;
        if (all[i].below != all[i].least) {
            refuses(&options, &all[i], all[i].below);
        }
        options = before;
    }
}

static void refuses_shape(uint64_t *shape, size_t len, const char *words) {
    relkvanu_store_options options = job_options(RELKVANU_STORE_CREATE, 0);
    options.shape = shape;
    options.shape_len = len;
    opens(&options, RELKVANU_STORE_BAD_ARGUMENT);
    CHECK(says(words), "%s, and not %s", report.message, words);
}

CASE(checks_the_shape) {
    uint64_t shape[257];
    relkvanu_store_options options = job_options(RELKVANU_STORE_CREATE, 0);
    for (size_t i = 0; i < 257; i++) {
        shape[i] = 16;
    }
    options.settings.interval = 9;
    options.shape_len = 0;
    opens_not(&options, RELKVANU_STORE_BAD_ARGUMENT, "x.db: settings.interval is 9"); /* the first fault */
    options.settings.interval = 10;
    refuses_shape(shape, 0, "the shape has 0 vertices, and has to have 1 to 256");
    refuses_shape(shape, 257, "the shape has 257 vertices, and has to have 1 to 256");
    options.shape = shape;
    options.shape_len = 256; /* 4096 subtasks */
    accepts(&options);
    shape[255] = 17;
    refuses_shape(shape, 256, "the shape has 4097 subtasks, and has to have at most 4096");
    shape[1] = 0;
    refuses_shape(shape, 256, "the shape has 0 subtasks in vertex 1, and has to have at least 1 in each");
    shape[0] = shape[1] = UINT64_MAX;
    refuses_shape(shape, 2, "the shape has 18446744073709551615 subtasks, and has to have at most 4096");
}

CASE(makes_private_files) {
    umask(0);
    relkvanu_store *store = new_job_alone(0);
    for (size_t i = 0; i < 4; i++) {
        struct stat is;
        CHECK(stat(in(JOB_FILES[i]), &is) == 0 && (is.st_mode & 0777) == 0600, "%s has the mode %o", JOB_FILES[i], is.st_mode & 0777);
    }
    relkvanu_store_close(store);
}

/* Opens the job by this name, and returns the status. */
static int status_of(void *name) {
    relkvanu_store *store;
    relkvanu_store_options options = job_options(RELKVANU_STORE_RECOVER, 0);
    int status = relkvanu_store_open(&store, in(name), &options, &report);
    if (status == RELKVANU_STORE_IN_USE) {
        char holder[64];
        snprintf(holder, sizeof holder, "in use by process %ld", (long)getppid());
        CHECK(says(holder) || says("in use by process"), "%s", report.message);
    }
    relkvanu_store_close(store);
    return status;
}

static void check_refused(const char *when) {
    char names[2][8] = {"x.db", "link"};
    for (int i = 0; i < 2; i++) {
        CHECK(in_child(status_of, names[i]) == RELKVANU_STORE_IN_USE, "another process by %s, %s", names[i], when);
        CHECK(status_of(names[i]) == RELKVANU_STORE_IN_USE, "the same process by %s, %s", names[i], when);
    }
    char own[64];
    snprintf(own, sizeof own, "in use by process %ld", (long)getpid());
    CHECK(says(own), "%s", report.message);
}

/* A POSIX lock of this process ends when it closes any descriptor of the file. */
static void open_elsewhere(void) {
    for (size_t i = 0; i < 4; i++) {
        close(open(in(JOB_FILES[i]), O_RDONLY));
    }
}

static int reads_by_sqlite(void *with) {
    sqlite3 *db;
    (void)with;
    CHECK(sqlite3_open(in("x.db"), &db) == SQLITE_OK, "open");
    int code = sqlite3_exec(db, "SELECT count(*) FROM log", NULL, NULL, NULL);
    sqlite3_close(db);
    return code == SQLITE_OK;
}

CASE(one_at_a_time) {
    relkvanu_store *store = new_job_alone(0);
    CHECK(symlink("x.db", in("link")) == 0, "a link");
    check_refused("at first");
    open_elsewhere();
    check_refused("after the files were opened and closed elsewhere");
    CHECK(in_child(reads_by_sqlite, NULL) == 0, "another process reads the file");
    open_elsewhere();
    CHECK(reads_by_sqlite(NULL) == 0 && in_child(reads_by_sqlite, NULL) == 0, "SQLite reads the file");
    checkpoint(store, 1);
    relkvanu_store_close(store);
    CHECK(in_child(status_of, "link") == RELKVANU_STORE_OK, "after the close");
}

static int calls_in_child(void *with) {
    relkvanu_store *store = with;
    relkvanu *handle;
    uint64_t wait, files[1] = {1}, garbage, others;
    relkvanu_answer answer;
    relkvanu_store_call call = {.call = {.kind = RELKVANU_CALL_TICK}};
    bool is_told = relkvanu_store_calls(store, &call, 1) == RELKVANU_STORE_FORKED && call.answer.code == RELKVANU_STORE_NOT_MADE &&
                   relkvanu_store_submit(store, &call, 1, 1) == RELKVANU_STORE_FORKED &&
                   relkvanu_store_read(store, &handle) == RELKVANU_STORE_FORKED &&
                   relkvanu_store_next_tick(store, &wait) == RELKVANU_STORE_FORKED &&
                   relkvanu_store_garbage(store, files, 1, &garbage, &others, &answer) == RELKVANU_STORE_FORKED &&
                   relkvanu_store_discard(store, 1, NULL, NULL) == RELKVANU_STORE_FORKED &&
                   relkvanu_store_backup(store, in("b.db"), message, sizeof message) == RELKVANU_STORE_FORKED && !exists("b.db") &&
                   relkvanu_store_await_tick(store, 1, &call) == RELKVANU_STORE_FORKED;
    relkvanu_store_stop(store);
    relkvanu_store_close(store);
    return is_told ? status_of("x.db") : 99;
}

CASE(a_forked_child) {
    relkvanu_store *store = new_job_alone(RELKVANU_STORE_NO_IMAGES);
    checkpoint(store, 1);
    CHECK(in_child(calls_in_child, store) == RELKVANU_STORE_IN_USE, "a child");
    checkpoint(store, 100);
    relkvanu_store_close(store);
    CHECK(in_child(status_of, "x.db") == RELKVANU_STORE_OK, "after the close");
}

/* Opens the job, leaves a child that lives on, and ends without a close. */
static int ends_with_child(void *with) {
    relkvanu_store *store = new_job_alone(RELKVANU_STORE_NO_IMAGES);
    checkpoint(store, 1);
    if (fork() == 0) {
        pid_t own = getpid(); /* it has closed the locks by now */
        CHECK(write(*(int *)with, &own, sizeof own) == sizeof own, "pipe");
        sleep(60);
        _exit(0);
    }
    return 0;
}

CASE(a_child_that_outlives) {
    int ends[2];
    pid_t child;
    CHECK(pipe(ends) == 0, "pipe");
    CHECK(in_child(ends_with_child, &ends[1]) == 0 && read(ends[0], &child, sizeof child) == sizeof child, "the process");
    CHECK(kill(child, 0) == 0, "the child lives");
    relkvanu_store *store = opens_with(job_options(RELKVANU_STORE_RECOVER, 0));
    CHECK(report.replayed == CHECKPOINT_CALLS, "%" PRIu64, report.replayed);
    kill(child, SIGKILL);
    relkvanu_store_close(store);
}

/* A thread is starting a program: until its exec a child has the files of this process, and no handler of forks runs in it. */
CASE(a_program_that_is_starting) {
    relkvanu_store_options options = job_options(RELKVANU_STORE_CREATE, RELKVANU_STORE_NO_IMAGES);
    relkvanu_store *store = opens(&options, RELKVANU_STORE_OK);
    checkpoint(store, 1);
    pid_t child = (pid_t)syscall(SYS_fork);
    while (child == 0) {
        pause();
    }
    relkvanu_store_close(store);
    options = job_options(RELKVANU_STORE_RECOVER, 0);
    store = opens(&options, RELKVANU_STORE_OK);
    kill(child, SIGKILL);
    CHECK(waitpid(child, NULL, 0) == child, "the child");
    relkvanu_store_close(store);
}

CASE(a_reader_of_another_program) {
    sqlite3 *db;
    relkvanu_store_options options = job_options(RELKVANU_STORE_CREATE, 0);
    relkvanu_store_close(opens(&options, RELKVANU_STORE_OK));
    CHECK(sqlite3_open(in("x.db"), &db) == SQLITE_OK && sqlite3_exec(db, "BEGIN; SELECT * FROM job", NULL, NULL, NULL) == SQLITE_OK);
    opens(&options, RELKVANU_STORE_IN_USE);
    CHECK(says("in use by another program") || says("locked"), "%s", report.message);
    sqlite3_close(db);
    relkvanu_store_close(opens(&options, RELKVANU_STORE_OK));
}

static int lacks_rights(void *with) {
    relkvanu_store_options options = job_options(RELKVANU_STORE_RECOVER, 0);
    (void)with;
    CHECK(setresuid(65534, 65534, 65534) == 0, "nobody");
    opens(&options, RELKVANU_STORE_READ_ONLY);
    return 0;
}

CASE(a_read_only_file) {
    relkvanu_store_options options = job_options(RELKVANU_STORE_CREATE, 0);
    relkvanu_store_close(opens(&options, RELKVANU_STORE_OK));
    CHECK(chmod(in("x.db"), 0444) == 0 && chmod(in("x.db.lock"), 0666) == 0 && chmod(in("x.db-shm"), 0666) == 0 &&
          chmod(in("x.db-wal"), 0666) == 0 && chmod(in("."), 0777) == 0);
    if (geteuid() == 0) {
        CHECK(in_child(lacks_rights, NULL) == 0, "a read-only file");
    } else {
        opens(&options, RELKVANU_STORE_READ_ONLY);
    }
}
