/* cases FOLDER [NAME]: runs each case of the store's tests, or one, in a process and a folder of its own. The last line has the counts. */
#include "cases.h"

#include <dirent.h>
#include <signal.h>
#include <sys/resource.h>
#include <sys/syscall.h>
#include <sys/wait.h>

enum { MOST_CASES = 400 };

static struct test {
    const char *name;
    void (*run)(void);
} cases[MOST_CASES];
static size_t cases_len;
static char folder[400];
relkvanu_store_report report;

void add_case(const char *name, void (*run)(void)) {
    CHECK(cases_len < MOST_CASES, "%s", name);
    cases[cases_len++] = (struct test){name, run};
}

const char *in(const char *name) {
    static _Thread_local char names[4][PATHS];
    static _Thread_local unsigned next;
    char *text = names[next++ % 4];
    snprintf(text, PATHS, "%s/%s", folder, name);
    return text;
}

relkvanu_store *opens_at(const char *name, const relkvanu_store_options *options, int status) {
    relkvanu_store *store;
    int got = relkvanu_store_open(&store, in(name), options, &report);
    CHECK(got == status, "status %d, not %d: %s", got, status, report.message);
    CHECK((store != NULL) == (got == RELKVANU_STORE_OK) && (report.message[0] == 0) == (got == RELKVANU_STORE_OK), "status %d", got);
    return store;
}

relkvanu_store *opens(const relkvanu_store_options *options, int status) {
    return opens_at("x.db", options, status);
}

relkvanu_store *opens_with(relkvanu_store_options options) {
    return opens(&options, RELKVANU_STORE_OK);
}

relkvanu_store *opens_as(relkvanu_store_options *options, uint32_t flags, int status) {
    options->flags = flags;
    return opens(options, status);
}

void opens_not_at(const char *name, const relkvanu_store_options *options, int status, const char *words) {
    opens_at(name, options, status);
    CHECK(says(words), "%s, and not %s", report.message, words);
}

void opens_not(const relkvanu_store_options *options, int status, const char *words) {
    opens_not_at("x.db", options, status, words);
}

relkvanu_store *new_job(void) {
    return opens_with(storage_options(RELKVANU_STORE_CREATE, 0));
}

relkvanu_store *new_job_with_manifests(void) {
    return opens_with(storage_options(RELKVANU_STORE_CREATE | RELKVANU_STORE_MANIFESTS, 0));
}

relkvanu_store *new_job_alone(uint64_t image_calls) {
    return opens_with(job_options(RELKVANU_STORE_CREATE, image_calls));
}

relkvanu_store_options storage_options(uint32_t flags, uint64_t image_calls) {
    static char storage[PATHS];
    relkvanu_store_options options = job_options(flags, image_calls);
    snprintf(storage, sizeof storage, "%s/storage", folder);
    CHECK(mkdir(storage, 0700) == 0 || errno == EEXIST, "%s", storage);
    options.storage = storage;
    return options;
}

bool exists(const char *name) {
    return access(in(name), F_OK) == 0;
}

void make_empty(const char *name) {
    int file = open(in(name), O_CREAT | O_WRONLY | O_EXCL, 0600);
    CHECK(file >= 0, "%s", name);
    close(file);
}

void write_text(const char *name, const char *text) {
    FILE *to = fopen(in(name), "w");
    CHECK(to != NULL && fputs(text, to) >= 0 && fclose(to) == 0, "%s", name);
}

void write_marker(const char *folder, uint64_t other, uint64_t epoch) {
    char name[PATHS], text[100], line[40];
    snprintf(name, sizeof name, "%s/.relkvanu-job", folder);
    snprintf(line, sizeof line, "epoch %" PRIu64 "\n", epoch);
    snprintf(
        text, sizeof text, "relkvanu job %016" PRIx64 "%016" PRIx64 "\n%s", report.job[0] + other, report.job[1], epoch == 0 ? "" : line);
    write_text(name, text);
}

void copy_file(const char *from, const char *to) {
    char command[2 * PATHS + 8];
    snprintf(command, sizeof command, "cp '%s' '%s'", in(from), in(to));
    CHECK(system(command) == 0, "%s", command);
}

size_t files_in(const char *folder) {
    DIR *entries = opendir(in(folder));
    size_t found = 0;
    CHECK(entries != NULL, "%s", folder);
    for (const struct dirent *it; (it = readdir(entries)) != NULL;) {
        found += it->d_name[0] != '.';
    }
    closedir(entries);
    return found;
}

const char *stored(uint64_t file) {
    static _Thread_local char names[4][40];
    static _Thread_local unsigned next;
    char *name = names[next++ % 4];
    snprintf(name, sizeof names[0], "storage/%" PRIu64, file);
    return name;
}

pthread_t starts(void *(*run)(void *with), void *with) {
    pthread_t thread;
    CHECK(pthread_create(&thread, NULL, run, with) == 0, "a thread");
    return thread;
}

void *discards(void *discarder) {
    struct discarder *it = discarder;
    it->status = it->deletes != NULL ? relkvanu_store_discard(it->store, it->batch, it->deletes, it->with)
                                     : relkvanu_store_discard_storage(it->store, it->batch, it->storage);
    return NULL;
}

void start_discarder(struct discarder *it) {
    it->thread = starts(discards, it);
}

void stop_discarder(struct discarder *it) {
    relkvanu_store_stop(it->store);
    CHECK(pthread_join(it->thread, NULL) == 0 && it->status == RELKVANU_STORE_STOPPED, "status %d", it->status);
}

relkvanu_storage own_storage(relkvanu_store *store) {
    relkvanu_storage own;
    CHECK(relkvanu_store_storage(store, &own) == RELKVANU_STORE_OK, "no storage");
    return own;
}

void deletes_file(const relkvanu_storage *storage, uint64_t file, int status, uint8_t outcome) {
    uint8_t found = 9;
    int got = storage->delete_files(storage->with, &file, 1, &found);
    CHECK(got == status && found == outcome, "status %d, not %d; outcome %d", got, status, found);
}

relkvanu *begins_read(relkvanu_store *store) {
    relkvanu *handle;
    CHECK(relkvanu_store_read(store, &handle) == RELKVANU_STORE_OK, "no read");
    return handle;
}

const char *const JOB_FILES[4] = {"x.db", "x.db-wal", "x.db-shm", "x.db.lock"};

void lose_job(void) {
    for (size_t i = 0; i < 4; i++) {
        CHECK(unlink(in(JOB_FILES[i])) == 0 || errno == ENOENT, "%s", JOB_FILES[i]);
    }
}

void lose_job_of(relkvanu_store *store) {
    relkvanu_store_close(store);
    lose_job();
}

uint64_t wait_of(relkvanu_store *store) {
    uint64_t wait;
    CHECK(relkvanu_store_next_tick(store, &wait) == RELKVANU_STORE_OK, "next_tick");
    return wait;
}

relkvanu_store_job_phase phase_of(relkvanu_store *store) {
    relkvanu_store_job_phase phase;
    CHECK(relkvanu_store_phase(store, &phase) == RELKVANU_STORE_OK, "the phase");
    return phase;
}

uint64_t due_of(relkvanu_store *store) {
    uint64_t due = relkvanu_due(begins_read(store)).a;
    relkvanu_store_read_end(store);
    return due;
}

relkvanu_counts counts_of(relkvanu_store *store) {
    relkvanu_counts counts = relkvanu_file_counts(begins_read(store));
    relkvanu_store_read_end(store);
    return counts;
}

uint64_t unreported(relkvanu_store *store) {
    relkvanu_counts counts = counts_of(store);
    return counts.waiting + counts.taken;
}

uint64_t term_of(relkvanu_store *store) {
    relkvanu_answer term;
    CHECK(relkvanu_store_term(store, &term) == RELKVANU_STORE_OK && term.what == RELKVANU_TERM, "no term");
    return term.a;
}

relkvanu_store_counts totals_of(relkvanu_store *store) {
    relkvanu_store_counts counts;
    relkvanu_store_count(store, &counts);
    return counts;
}

relkvanu_store_measures measures_of(relkvanu_store *store) {
    relkvanu_store_measures found;
    relkvanu_store_measure(store, &found, sizeof found);
    return found;
}

uint64_t reserved(relkvanu_store *store, uint64_t term, uint64_t count) {
    relkvanu_answer answer;
    CHECK(relkvanu_store_reserve(store, term, count, &answer) == RELKVANU_STORE_OK && answer.code == RELKVANU_DONE &&
              answer.what == RELKVANU_RESERVED && answer.b == count,
        "code %" PRIu32 ", what %" PRIu32, answer.code, answer.what);
    return answer.a;
}

relkvanu_store_call made(relkvanu_store *store, relkvanu_call call) {
    relkvanu_store_call it = {.call = call};
    int status = relkvanu_store_calls(store, &it, 1);
    CHECK(status == RELKVANU_STORE_OK, "kind %" PRIu32 ": status %d", call.kind, status);
    return it;
}

relkvanu_answer acked_at_0(relkvanu_store *store, uint64_t term, uint64_t id, uint16_t index, uint64_t file) {
    relkvanu_answer answer;
    CHECK(relkvanu_store_ack_in(store, term, 0, id, 0, index, &file, 1, NULL, 0, &answer) == RELKVANU_STORE_OK, "an acknowledgement");
    return answer;
}

relkvanu_answer done(relkvanu_store *store, uint32_t kind, uint64_t now, uint64_t number) {
    relkvanu_answer answer = made(store, (relkvanu_call){.kind = kind, .now = now, .number = number}).answer;
    CHECK(answer.code == RELKVANU_DONE, "kind %" PRIu32 ": code %" PRIu32 ", what %" PRIu32, kind, answer.code, answer.what);
    return answer;
}

uint64_t begins(relkvanu_store *store, uint32_t kind) {
    relkvanu_answer begun = done(store, kind, RELKVANU_STORE_NOW, 0);
    return kind == RELKVANU_CALL_SAVEPOINT ? begun.a : begun.b;
}

relkvanu_answer takes_part(relkvanu_store *store, uint64_t term, uint64_t id, uint16_t index, uint64_t file, size_t len, uint64_t reused) {
    relkvanu_answer answer;
    CHECK(relkvanu_store_put(store, file, CONTENTS, len) == RELKVANU_STORE_OK, "file %" PRIu64, file);
    int status = relkvanu_store_ack_in(store, term, RELKVANU_STORE_NOW, id, 0, index, &file, 1, &reused, reused != 0, &answer);
    CHECK(status == RELKVANU_STORE_OK && answer.code == RELKVANU_DONE, "status %d, what %" PRIu32, status, answer.what);
    return answer;
}

uint64_t completes_with(relkvanu_store *store, uint32_t kind, size_t len, uint64_t reused, uint64_t *first) {
    uint64_t id = begins(store, kind), term = term_of(store), file = reserved(store, term, SUBTASKS);
    for (uint16_t i = 0; i < SUBTASKS; i++) {
        takes_part(store, term, id, i, file + i, len != 0 ? len : i + 1u, i == 0 ? reused : 0);
    }
    if (first != NULL) {
        *first = file;
    }
    return id;
}

uint64_t completes(relkvanu_store *store, uint32_t kind, uint64_t *first) {
    return completes_with(store, kind, 0, 0, first);
}

/* Reserves the names that were not given out up to this one. Returns the term. */
static uint64_t reserve_to(relkvanu_store *store, uint64_t last) {
    relkvanu_answer running, made;
    CHECK(relkvanu_store_term(store, &running) == RELKVANU_STORE_OK && running.what == RELKVANU_TERM, "no term");
    for (uint64_t next = running.b; next <= last; next = made.a + made.b) {
        uint64_t left = last - next + 1;
        int status = relkvanu_store_reserve(store, running.a, left < 65536 ? left : 65536, &made);
        CHECK(status == RELKVANU_STORE_OK && made.what == RELKVANU_RESERVED && made.a == next, "status %d, name %" PRIu64, status, made.a);
    }
    return running.a;
}

uint64_t checkpoint(relkvanu_store *store, uint64_t file) {
    uint64_t term = reserve_to(store, file + 2 * SUBTASKS - 1), due = due_of(store);
    relkvanu_answer ticked = done(store, RELKVANU_CALL_TICK, due, 0);
    CHECK(ticked.what == RELKVANU_TICK_TRIGGERED, "what %" PRIu32, ticked.what);
    for (uint16_t i = 0; i < SUBTASKS; i++) {
        uint64_t fresh[] = {file + 2 * i, file + 2 * i + 1};
        relkvanu_answer answer;
        int status = relkvanu_store_ack_in(store, term, due, ticked.b, 0, i, fresh, 2, NULL, 0, &answer);
        CHECK(status == RELKVANU_STORE_OK && answer.code == RELKVANU_DONE, "status %d, code %" PRIu32 ", what %" PRIu32, status,
            answer.code, answer.what);
    }
    return ticked.b;
}

uint64_t checkpoint_with_files(relkvanu_store *store, uint64_t file) {
    for (uint64_t i = 0; i < 2 * SUBTASKS; i++) {
        puts_file(store, file + i, RELKVANU_STORE_OK);
    }
    return checkpoint(store, file);
}

relkvanu_store_record records[MOST_RECORDS];
size_t records_len;

bool note_record(void *with, const relkvanu_store_record *record) {
    CHECK(with == records && records_len < MOST_RECORDS, "a record");
    records[records_len++] = *record;
    return true;
}

size_t list_records(const char *folder) {
    records_len = 0;
    int status = relkvanu_store_records(in(folder), note_record, records, message, sizeof message);
    CHECK(status == RELKVANU_STORE_OK && message[0] == 0, "status %d: %s", status, message);
    return records_len;
}

void limit_files(size_t bytes) {
    struct rlimit limit;
    CHECK(signal(SIGXFSZ, SIG_IGN) != SIG_ERR && getrlimit(RLIMIT_FSIZE, &limit) == 0, "limits");
    limit.rlim_cur = bytes != 0 ? bytes : limit.rlim_max;
    CHECK(setrlimit(RLIMIT_FSIZE, &limit) == 0, "the limit");
}

int in_child(int (*run)(void *with), void *with) {
    int status;
    fflush(NULL);
    pid_t child = fork();
    if (child == 0) {
        _exit(run(with));
    }
    CHECK(waitpid(child, &status, 0) == child && WIFEXITED(status), "a child ended with %x", status);
    return WEXITSTATUS(status);
}

bool says(const char *words) {
    return strstr(report.message, words) != NULL;
}

void why_says(const char *words) {
    char found[RELKVANU_STORE_MESSAGE] = "";
    size_t len = relkvanu_store_why(found, sizeof found);
    CHECK(len == strlen(found) && strstr(found, words) != NULL, "%s, and not %s", found, words);
}

relkvanu_store_recovered recovered;
relkvanu_store_carried carried;
char message[RELKVANU_STORE_MESSAGE];

/* What a command has left beside the file or folder that it makes. */
static void leaves_nothing(const char *path) {
    static const char *const ends[] = {".part", ".part-wal", ".part-journal", "-journal"}, *const new_ends[] = {
                                                                                               "", "-wal", "-shm", ".lock"};
    const char *slash = strrchr(path, '/'), *name = slash == NULL ? path : slash + 1;
    char part[PATHS];
    for (size_t i = 0; i < 4; i++) {
        snprintf(part, sizeof part, "%s%s", path, ends[i]);
        CHECK(!exists(part), "%s is left", part);
        snprintf(part, sizeof part, "%.*s.%s.relkvanu-new%s", (int)(name - path), path, name, new_ends[i]);
        CHECK(!exists(part), "%s is left", part);
    }
}

static void ended(int got, int status, const char *told, const char *path) {
    CHECK(got == status, "status %d, not %d: %s", got, status, told);
    CHECK((told[0] == 0) == (status == RELKVANU_STORE_OK), "%s", told);
    leaves_nothing(path);
}

void recovers(const char *path, const char *storage, uint64_t record, int status) {
    ended(relkvanu_store_recover(in(path), in(storage), record, &recovered), status, recovered.message, path);
}

void claims(const char *from, uint64_t record, const char *path, const char *storage, int status) {
    ended(relkvanu_store_claim(in(from), record, in(path), in(storage), &recovered), status, recovered.message, path);
    leaves_nothing(storage);
}

void imports(const char *from, uint64_t record, const char *path, const char *storage, int status) {
    ended(relkvanu_store_import(in(from), record, in(path), in(storage), &recovered), status, recovered.message, path);
    leaves_nothing(storage);
}

void exports(const char *from, uint64_t record, const char *to, int status) {
    ended(relkvanu_store_export(in(from), record, in(to), &carried), status, carried.message, to);
}

void backs_up(relkvanu_store *store, const char *name, int status) {
    int got = relkvanu_store_backup(store, in(name), message, sizeof message);
    CHECK(got == status, "status %d, not %d: %s", got, status, message);
    CHECK((message[0] == 0) == (status == RELKVANU_STORE_OK), "%s", message);
}

void puts_file(relkvanu_store *store, uint64_t file, int status) {
    int got = relkvanu_store_put(store, file, "state", 5);
    CHECK(got == status, "file %" PRIu64 ": status %d, not %d", file, got, status);
}

void is_swept(relkvanu_store *store, int status, size_t left) {
    size_t found = 99;
    int got = relkvanu_store_sweep(store, &found);
    CHECK(got == status && found == left, "status %d, not %d; %zu are left, not %zu", got, status, found, left);
}

static const char *unsynced = "";
static int sync_error;

void fail_syncs(const char *end, int error) {
    unsynced = end;
    sync_error = error;
}

static const char *_Atomic held = NULL;
static atomic_int held_now;

void hold_syncs(const char *end) {
    held = end;
}

void await_held_sync(void) {
    AWAIT(held_now != 0);
}

bool is_file(int fd, const char *end) {
    char link[64], path[PATHS] = "";
    size_t len = strlen(end);
    snprintf(link, sizeof link, "/proc/self/fd/%d", fd);
    ssize_t found = readlink(link, path, sizeof path - 1);
    return found >= (ssize_t)len && strcmp(path + found - (ssize_t)len, end) == 0;
}

/* In place of that of the C library. */
int fsync(int fd) {
    const char *end = held;
    bool is_held = end != NULL && is_file(fd, end);
    held_now += is_held;
    while (is_held && held == end) {
        usleep(1000);
    }
    held_now -= is_held;
    if (sync_error != 0 && is_file(fd, unsynced)) {
        errno = sync_error;
        return -1;
    }
    return (int)syscall(SYS_fsync, fd);
}

const char *manifest_says(uint64_t id, const char *words) {
    static char text[1 << 16];
    char name[64];
    snprintf(name, sizeof name, "storage/record-%" PRIu64 ".manifest", id);
    FILE *from = fopen(in(name), "r");
    CHECK(from != NULL, "%s", name);
    text[fread(text, 1, sizeof text - 1, from)] = 0;
    fclose(from);
    const char *at = strstr(text, words);
    return at == NULL ? NULL : at + strlen(words);
}

/* The status of a case, in a folder of its own, by whose name some fail syncs. */
static int runs(const char *within, const struct test *test) {
    int status;
    snprintf(folder, sizeof folder, "%s/%s", within, test->name);
    CHECK(mkdir(folder, 0700) == 0, "%s", folder);
    fflush(NULL);
    pid_t child = fork();
    if (child == 0) {
        const char *most = getenv("CASE_SECONDS");
        alarm(most != NULL ? (unsigned)atoi(most) : 900); /* on a busy machine, or under valgrind */
        test->run();
        exit(0);
    }
    CHECK(waitpid(child, &status, 0) == child, "a case");
    if (status != 0) {
        printf("store: %s failed, status %x\n", test->name, (unsigned)status);
    }
    return status;
}

/* A case whose check failed may have lost a race with a busy machine: two of them get a second try. What a sanitizer has ended has another status. */
static bool passes(const char *within, const struct test *test) {
    static unsigned again;
    char second[300];
    int status = runs(within, test);
    if (status == SIGABRT && again++ < 2) {
        snprintf(second, sizeof second, "%s/again", within);
        CHECK(mkdir(second, 0700) == 0 || errno == EEXIST, "%s", second);
        status = runs(second, test);
        printf("store: second try: the case %s failed, and %s then\n", test->name, status == 0 ? "passed" : "failed");
    }
    return status == 0;
}

int main(int argc, char **argv) {
    unsigned passed = 0, failed = 0;
    char within[300]; /* a folder of this run: it may be a second try */
    CHECK(argc >= 2, "cases FOLDER [NAME]");
    snprintf(within, sizeof within, "%s/XXXXXX", argv[1]);
    CHECK(mkdtemp(within) != NULL, "%s", within);
    for (size_t i = 0; i < cases_len; i++) {
        if (argc < 3 || strcmp(argv[2], cases[i].name) == 0) {
            bool is_passed = passes(within, &cases[i]);
            passed += is_passed;
            failed += !is_passed;
        }
    }
    printf("%u passed, %u failed\n", passed, failed);
    return failed != 0 || passed == 0;
}
