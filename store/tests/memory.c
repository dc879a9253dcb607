/* memory FOLDER: makes a job, recovers it, calls, sweeps and discards, and refuses the n-th request for memory, once and from then on, for each n:
 * those of the store and of the coordinator (malloc and its like, by the linker's --wrap), those of the coordinator alone (relkvanu_alloc.h)
 * and those of SQLite. Each time the job then has exactly what was answered, or the group under way beside it. A job
 * has manifests, of which it is made again with each request refused. The last line has the counts. */
#include "common.h"

#include "../../bindings/c/tests/refusing_heap.h"

#include <dirent.h>
#include <errno.h>
#include <pthread.h>
#include <stdarg.h>
#include <sys/stat.h>
#include <unistd.h>

enum kind { OWN, COORDINATOR, SQLITE, KINDS };
enum { WITH_MANIFESTS = RELKVANU_STORE_CREATE | RELKVANU_STORE_MANIFESTS | RELKVANU_STORE_CHECKSUMS };
enum { WAY_BACK_FILES = 4 * SUBTASKS }; /* with those of the first checkpoint */

static const char *const names[] = {"the store and the coordinator", "the coordinator", "SQLite"};
static unsigned long requests, refused_from, refused_to; /* of the kind that is refused */
static bool is_own, is_lite, is_reached;                 /* is_reached: the last one that was to be refused was asked for */

static bool refuses(bool is_this) {
    bool is_refused = is_this && ++requests >= refused_from && requests < refused_to;
    errno = is_refused ? ENOMEM : errno;
    return is_refused;
}

#define WRAPS(type, name, parameters, arguments)                 \
    type __real_##name parameters;                               \
    type __wrap_##name parameters {                              \
        return refuses(is_own) ? NULL : __real_##name arguments; \
    }

/* clang-format off */
WRAPS(void *, malloc, (size_t size), (size))
WRAPS(void *, calloc, (size_t count, size_t size), (count, size))
WRAPS(void *, realloc, (void *at, size_t size), (at, size))
WRAPS(char *, strdup, (const char *text), (text))
WRAPS(char *, strndup, (const char *text, size_t len), (text, len))
WRAPS(char *, realpath, (const char *path, char *real), (path, real))
/* clang-format on */

int __wrap_asprintf(char **text, const char *format, ...) {
    va_list more;
    va_start(more, format);
    int len = refuses(is_own) ? -1 : vasprintf(text, format, more);
    va_end(more);
    return len;
}

static sqlite3_mem_methods lite;

static void *lite_malloc(int size) {
    return refuses(is_lite) ? NULL : lite.xMalloc(size);
}

static void *lite_realloc(void *at, int size) {
    return refuses(is_lite) ? NULL : lite.xRealloc(at, size);
}

static void watch_sqlite(void) {
    CHECK(sqlite3_config(SQLITE_CONFIG_GETMALLOC, &lite) == SQLITE_OK, "SQLite's allocator");
    sqlite3_mem_methods mine = lite;
    mine.xMalloc = lite_malloc;
    mine.xRealloc = lite_realloc;
    CHECK(sqlite3_config(SQLITE_CONFIG_MALLOC, &mine) == SQLITE_OK && sqlite3_config(SQLITE_CONFIG_LOOKASIDE, 0, 0) == SQLITE_OK);
}

static char folder[PATHS - 20], path[PATHS], storage[PATHS];
static struct told told[400];
static size_t told_len;
static relkvanu_store_report report; /* of the last opening */
static uint64_t term;

static void set_refused(enum kind kind, unsigned long from, bool is_for_good) {
    requests = 0;
    refused_from = from;
    refused_to = is_for_good ? ~0ul : from + 1;
    is_own = kind == OWN;
    is_lite = kind == SQLITE;
    heap_refuse(kind == COORDINATOR ? from : 0);
}

static void set_none(void) {
    is_reached = (is_own || is_lite ? requests : heap_requests()) >= refused_from;
    is_own = is_lite = false;
    heap_refuse(0);
}

static bool has_no_memory(enum kind kind, int status) {
    return status == RELKVANU_STORE_NO_MEMORY || status == RELKVANU_STORE_OUT_OF_MEMORY || status == RELKVANU_STORE_CLOSED ||
           (kind == SQLITE && status == RELKVANU_STORE_FAILED);
}

/* Makes calls, and notes those that were answered. Returns the status, or RELKVANU_STORE_NO_MEMORY if a call had none. */
static int make(relkvanu_store *store, relkvanu_store_call *calls, size_t len) {
    int status = relkvanu_store_calls(store, calls, len);
    bool was_own = is_own, was_lite = is_lite;
    is_own = is_lite = false; /* told_of asks for memory too */
    for (size_t i = 0; i < len; i++) {
        if (status == RELKVANU_STORE_OK && calls[i].place != 0) {
            told[told_len++] = told_of(&calls[i]);
        }
        bool has_none =
            status == RELKVANU_STORE_OK && (calls[i].answer.code == RELKVANU_NO_MEMORY || calls[i].answer.code == RELKVANU_STORE_NOT_MADE);
        CHECK(status == RELKVANU_STORE_OK || calls[i].answer.code == RELKVANU_STORE_NOT_MADE, "an answer with the status %d", status);
        status = has_none ? RELKVANU_STORE_NO_MEMORY : status;
    }
    is_own = was_own;
    is_lite = was_lite;
    return status;
}

static void deletes(void *with, const uint64_t *files, size_t len, uint8_t *is_gone) {
    (void)files;
    memset(is_gone, 1, len);
    relkvanu_store_stop(with);
}

static const char payload[] = "a state that is small";

/* A part of a record, which has its payload, and its files in their order. */
static bool note_part(void *with, const relkvanu_store_part *part) {
    size_t *parts = with;
    CHECK(part->index == *parts && part->payload_len == sizeof payload && memcmp(part->payload, payload, sizeof payload) == 0 &&
              part->bytes == 7 && part->files_len == 2 && part->files[0] == part->files[1] + 1,
        "the part of subtask %d", part->index);
    ++*parts;
    return true;
}

/* Loads a record, with all of it or nothing. */
static int load(relkvanu_store *store, uint64_t id) {
    relkvanu_store_loaded loaded;
    size_t parts = 0;
    int status = relkvanu_store_load(store, id, &loaded, note_part, &parts);
    CHECK(parts == (status == RELKVANU_STORE_OK && loaded.id != 0 ? SUBTASKS : 0), "status %d, %zu parts", status, parts);
    return status == RELKVANU_STORE_FILE_LOST ? RELKVANU_STORE_OK : status; /* most have no files */
}

/* A checkpoint of all subtasks in one list, with a call that has much memory, and a sweep. */
static int work(relkvanu_store *store) {
    uint64_t files[SUBTASKS][2], taken[4];
    relkvanu_store_more more[SUBTASKS];
    relkvanu_store_past past[4];
    size_t past_len = 4;
    relkvanu *handle;
    int status = relkvanu_store_read(store, &handle);
    if (status != RELKVANU_STORE_OK) {
        return status;
    }
    relkvanu_store_call calls[SUBTASKS + 2] = {{.call = {.kind = RELKVANU_CALL_TICK, .now = relkvanu_due(handle).a}}};
    relkvanu_store_read_end(store);
    if ((status = make(store, calls, 1)) != RELKVANU_STORE_OK) {
        return status;
    }
    uint64_t id = calls[0].answer.b;
    calls[0] = (relkvanu_store_call){.call = {.kind = RELKVANU_CALL_RESERVE, .number = 2 * SUBTASKS, .term = term}};
    if ((status = make(store, calls, 1)) != RELKVANU_STORE_OK) {
        return status;
    }
    uint64_t file = calls[0].answer.a;
    for (size_t i = 0; i < SUBTASKS; i++) {
        files[i][0] = file + 2 * i + 1;
        files[i][1] = file + 2 * i;
        more[i] = (relkvanu_store_more){.payload = payload, .payload_len = sizeof payload, .bytes = 7};
        calls[i] = (relkvanu_store_call){.call = {.kind = RELKVANU_CALL_ACK, .number = id, .index = (uint16_t)i, .term = term},
            .first = files[i],
            .first_len = 2,
            .more = &more[i]};
    }
    calls[SUBTASKS] = (relkvanu_store_call){.call = {.kind = RELKVANU_CALL_TAKE, .number = 4}, .files = taken, .files_len = 4};
    calls[SUBTASKS + 1] = (relkvanu_store_call){.call = {.kind = RELKVANU_CALL_RESTORE}};
    if ((status = make(store, calls, SUBTASKS + 2)) != RELKVANU_STORE_OK) {
        return status;
    }
    CHECK(calls[SUBTASKS + 1].term == term + 1, "the term %" PRIu64, calls[SUBTASKS + 1].term);
    term = calls[SUBTASKS + 1].term;
    status = load(store, id);
    status = status == RELKVANU_STORE_OK ? relkvanu_store_history(store, past, &past_len) : status;
    if (status != RELKVANU_STORE_OK) {
        return status;
    }
    bool is_complete = calls[SUBTASKS - 1].answer.what == RELKVANU_ACK_COMPLETED; /* otherwise a list before this one had no memory */
    CHECK(past_len != 0 &&
          (!is_complete || (past[0].id == id && past[0].outcome == RELKVANU_STORE_COMPLETED && past[0].bytes == 7 * SUBTASKS)));
    uint64_t list[] = {1, file}, garbage[2], others[2];
    relkvanu_answer answer;
    status = relkvanu_store_garbage(store, list, 2, garbage, others, &answer);
    CHECK(status != RELKVANU_STORE_OK || answer.code == RELKVANU_DONE, "a sweep");
    return status;
}

/* A backup, which is there if its status says so. Without memory the store goes on. */
static int back_up(relkvanu_store *store) {
    char name[PATHS + 20], part[PATHS + 30], message[RELKVANU_STORE_MESSAGE];
    snprintf(name, sizeof name, "%s.backup", path);
    snprintf(part, sizeof part, "%s.part", name);
    unlink(name);
    int status = relkvanu_store_backup(store, name, message, sizeof message);
    CHECK((status == RELKVANU_STORE_OK) == (access(name, F_OK) == 0) && access(part, F_OK) != 0, "status %d: %s", status, message);
    return status;
}

static int open_and_work(uint64_t images) {
    relkvanu_store *store;
    relkvanu_store_options options = job_options(WITH_MANIFESTS, images);
    options.storage = storage;
    int status = relkvanu_store_open(&store, path, &options, &report);
    term = report.term;
    CHECK((store != NULL) == (status == RELKVANU_STORE_OK), "status %d", status);
    for (uint64_t i = 0; i < 3 && status == RELKVANU_STORE_OK; i++) {
        status = work(store);
    }
    if (status == RELKVANU_STORE_OK && (status = back_up(store)) == RELKVANU_STORE_NO_MEMORY && refused_to != ~0ul) {
        CHECK(work(store) == RELKVANU_STORE_OK, "no call after a backup without memory");
    }
    relkvanu_store_close(store);
    return status;
}

/* Those of a folder, and none of the folders in it. */
static void remove_files(const char *from) {
    DIR *entries = opendir(from);
    CHECK(entries != NULL, "%s", from);
    for (const struct dirent *it; (it = readdir(entries)) != NULL;) {
        unlinkat(dirfd(entries), it->d_name, 0);
    }
    closedir(entries);
}

static void remove_job(void) {
    remove_files(folder);
    remove_files(storage);
    told_len = 0;
}

static relkvanu_store *opens(relkvanu_store_options options) {
    relkvanu_store *store;
    options.storage = storage;
    CHECK(relkvanu_store_open(&store, path, &options, &report) == RELKVANU_STORE_OK, "%s", report.message);
    term = report.term;
    return store;
}

static relkvanu_store *new_job(relkvanu_store_options options) {
    remove_job();
    return opens(options);
}

/* Makes the files of all names. */
static void make_files(uint64_t next_name) {
    char name[PATHS + 30];
    for (uint64_t file = 1; file < next_name; file++) {
        snprintf(name, sizeof name, "%s/%" PRIu64, storage, file);
        FILE *made = fopen(name, "w");
        CHECK(made != NULL && fclose(made) == 0, "%s", name);
    }
}

/* The job has what was told, and at most one list beside. */
static void check_job(void) {
    struct shadow shadow;
    size_t len;
    relkvanu_store_close(opens(job_options(RELKVANU_STORE_CREATE, RELKVANU_STORE_NO_IMAGES)));
    struct told *rows = log_rows(path, 0, &len);
    CHECK(len >= told_len && len <= told_len + SUBTASKS + 2, "%zu calls, %zu were told", len, told_len);
    shadow_open_as(&shadow, path);
    for (size_t i = 0; i < len; i++) {
        CHECK(i >= told_len || (rows[i].place == told[i].place && strcmp(rows[i].line, told[i].line) == 0 && rows[i].a == told[i].a),
            "call %zu: %s, not %s", i + 1, rows[i].line, told[i].line);
        shadow_make(&shadow, &rows[i]);
    }
    relkvanu_store *store = opens(job_options(RELKVANU_STORE_CREATE, RELKVANU_STORE_NO_IMAGES));
    CHECK(shadow_equals(&shadow, store), "another image");
    make_files(report.next_name);
    CHECK(load(store, 0) == RELKVANU_STORE_OK, "what acknowledgements had beside their files");
    relkvanu_store_close(store);
    relkvanu_close(&shadow.handle);
    free(rows);
}

/* Returns whether the request was reached. The images are tried with the calls of the recovery: those before it are all in the log. */
static bool refuse(enum kind kind, unsigned long nth, bool is_for_good, bool is_recovery) {
    remove_job();
    if (is_recovery) {
        CHECK(open_and_work(RELKVANU_STORE_NO_IMAGES) == RELKVANU_STORE_OK, "without a refusal");
    }
    set_refused(kind, nth, is_for_good);
    int status = open_and_work(RELKVANU_STORE_NO_IMAGES);
    set_none();
    CHECK(status == RELKVANU_STORE_OK || has_no_memory(kind, status), "status %d: %s", status, report.message);
    check_job();
    return is_reached;
}

/* Up to this request each is refused in turn, and of later ones fewer and fewer. With more ROUNDS it is three times as far. */
static unsigned long each_up_to(unsigned long usual) {
    const char *rounds = getenv("ROUNDS");
    return rounds == NULL || strcmp(rounds, "1") == 0 ? usual : 3 * usual;
}

static unsigned long refuse_each(enum kind kind, bool is_for_good, bool is_recovery) {
    unsigned long nth = 1, each = each_up_to(50);
    while (refuse(kind, nth, is_for_good, is_recovery)) {
        nth += 1 + nth / each;
    }
    CHECK(nth > 20, "no memory was asked for");
    return nth;
}

static unsigned long makes_without_memory(enum kind kind, bool is_for_good) {
    return refuse_each(kind, is_for_good, false);
}

static unsigned long reopens_without_memory(enum kind kind, bool is_for_good) {
    return refuse_each(kind, is_for_good, true);
}

/* An image that has no memory stops no call, and a discarder goes on. */
static void images_wait(enum kind kind) {
    relkvanu_store_counts counts;
    relkvanu_store_options options = job_options(RELKVANU_STORE_CREATE, 10);
    options.patience = 1000;
    relkvanu_store *store = new_job(options);
    for (uint64_t i = 0; i < 4; i++) {
        CHECK(work(store) == RELKVANU_STORE_OK, "work");
    }
    relkvanu_store_count(store, &counts);
    uint64_t images = counts.images;
    CHECK(images >= 2 && counts.failed_images == 0, "%" PRIu64 " images", images);
    for (unsigned long nth = 1; nth < 2000 && counts.failed_images == 0; nth++) { /* somewhere among these the image asks */
        set_refused(kind, nth, false);
        int status = work(store);
        set_none();
        CHECK(status == RELKVANU_STORE_OK || status == RELKVANU_STORE_NO_MEMORY, "status %d", status);
        relkvanu_store_count(store, &counts);
    }
    CHECK(counts.failed_images == 1, "no image had no memory");
    for (uint64_t i = 0; i < 3; i++) {
        CHECK(work(store) == RELKVANU_STORE_OK, "work");
    }
    relkvanu_store_count(store, &counts);
    CHECK(counts.images > images && relkvanu_store_discard(store, 50, deletes, store) == RELKVANU_STORE_STOPPED, "later");
    relkvanu_store_close(store);
}

static void *discards(void *store) {
    int status = relkvanu_store_discard(store, 50, deletes, store);
    CHECK(status == RELKVANU_STORE_STOPPED, "status %d", status);
    return store;
}

/* A discarder that gets no memory tries again and again, and hears a stop. */
static void stops_without_memory(void) {
    pthread_t discarder;
    relkvanu_store *store = new_job(job_options(RELKVANU_STORE_CREATE, 10));
    set_refused(OWN, 1, true);
    bool was_own = is_own;
    is_own = false; /* the thread itself needs some */
    CHECK(pthread_create(&discarder, NULL, discards, store) == 0, "a thread");
    is_own = was_own;
    usleep(50000);
    relkvanu_store_stop(store);
    CHECK(pthread_join(discarder, NULL) == 0, "it goes on");
    set_none();
    relkvanu_store_close(store);
}

/* A job whose file is lost, with a file for each that it names. */
static uint64_t lose_job(void) {
    relkvanu_store *store = new_job(job_options(WITH_MANIFESTS, RELKVANU_STORE_NO_IMAGES));
    for (uint64_t file = 1; file <= 2 * SUBTASKS; file++) {
        CHECK(relkvanu_store_put(store, file, "state", 5) == RELKVANU_STORE_OK, "file %" PRIu64, file);
    }
    CHECK(work(store) == RELKVANU_STORE_OK, "work");
    relkvanu *handle;
    CHECK(relkvanu_store_read(store, &handle) == RELKVANU_STORE_OK, "a read");
    uint64_t id = relkvanu_choice(handle).a;
    relkvanu_store_read_end(store);
    relkvanu_store_close(store);
    remove_files(folder);
    return id;
}

/* A recovery without memory has done nothing, and the next one makes the job. */
static unsigned long recovers_without_memory(enum kind kind, bool is_for_good) {
    relkvanu_store_recovered recovered;
    uint64_t id = lose_job();
    unsigned long nth = 0, each = each_up_to(34);
    for (is_reached = true; is_reached;) {
        nth += 1 + nth / each;
        set_refused(kind, nth, is_for_good);
        int status = relkvanu_store_recover(path, storage, 0, &recovered);
        set_none();
        bool is_undone = has_no_memory(kind, status) && access(path, F_OK) != 0;
        CHECK(status == RELKVANU_STORE_OK || is_undone, "status %d: %s", status, recovered.message);
        CHECK(is_reached || status == RELKVANU_STORE_OK, "status %d without a refusal", status);
        id = status == RELKVANU_STORE_OK && is_reached ? lose_job() : id; /* it can do without that request */
    }
    CHECK(nth > 20 && recovered.record == id, "record %" PRIu64 " at request %lu", recovered.record, nth);
    relkvanu_store_loaded loaded;
    size_t parts = 0;
    relkvanu_store *store = opens(job_options(RELKVANU_STORE_RECOVER, 0));
    CHECK(relkvanu_store_load(store, id, &loaded, note_part, &parts) == RELKVANU_STORE_OK && parts == SUBTASKS, "%zu parts", parts);
    relkvanu_store_close(store);
    return nth;
}

/* A claim without memory can be made again, and what it takes over is whole then. */
static unsigned long claims_without_memory(enum kind kind, bool is_for_good) {
    relkvanu_store_recovered recovered;
    char from[PATHS + 20], to[PATHS + 40], job[PATHS + 60];
    uint64_t id = lose_job();
    unsigned long nth = 0, taken = 0;
    snprintf(from, sizeof from, "%s", storage);
    snprintf(to, sizeof to, "%s-%d-%d-0", storage, kind, is_for_good);
    for (is_reached = true; is_reached;) {
        nth += 1 + nth / 20;
        snprintf(job, sizeof job, "%s.db", to);
        set_refused(kind, nth, is_for_good);
        int status = relkvanu_store_claim(from, 0, job, to, &recovered);
        set_none();
        bool is_there = access(job, F_OK) == 0;
        CHECK(is_reached || status == RELKVANU_STORE_OK, "status %d without a refusal: %s", status, recovered.message);
        if (status != RELKVANU_STORE_OK && is_there) { /* the job was made, and not all files have left */
            status = relkvanu_store_claim(from, 0, job, to, &recovered);
            CHECK(status == RELKVANU_STORE_OK, "status %d: %s", status, recovered.message);
        }
        CHECK(status == RELKVANU_STORE_OK || access(from, F_OK) == 0, "status %d: %s", status, recovered.message);
        if (status == RELKVANU_STORE_OK) { /* the next one takes it from there */
            CHECK(recovered.record == id && recovered.files != 0, "record %" PRIu64, recovered.record);
            snprintf(from, sizeof from, "%.*s", PATHS + 10, to);
            snprintf(to, sizeof to, "%s-%d-%d-%lu", storage, kind, is_for_good, ++taken);
        }
    }
    CHECK(nth > 20 && taken != 0, "no claim after %lu requests", nth);
    return nth;
}

/* A way back to an older checkpoint for which there is no memory changes nothing, and can be made later. */
static unsigned long way_back_waits(enum kind kind, bool is_for_good) {
    relkvanu_store_call call;
    relkvanu_store_counts before, after;
    relkvanu_store_options options = job_options(RELKVANU_STORE_CREATE, 0);
    options.settings.retained = 3;
    relkvanu_store *store = new_job(options);
    for (uint64_t i = 0; i < 3; i++) {
        CHECK(work(store) == RELKVANU_STORE_OK, "work");
    }
    for (uint64_t file = 1; file <= WAY_BACK_FILES; file++) {
        CHECK(relkvanu_store_put(store, file, "x", 1) == RELKVANU_STORE_OK, "file %" PRIu64, file);
    }
    int status = RELKVANU_STORE_NO_MEMORY;
    unsigned long nth = 0;
    while (status == RELKVANU_STORE_NO_MEMORY) {
        relkvanu_store_count(store, &before);
        set_refused(kind, ++nth, is_for_good);
        status = relkvanu_store_go_back(store, 1, RELKVANU_STORE_ACCEPT_PUBLISHED, &call);
        set_none();
        relkvanu_store_count(store, &after);
        CHECK(status == RELKVANU_STORE_OK || (status == RELKVANU_STORE_NO_MEMORY && call.answer.code == RELKVANU_STORE_NOT_MADE &&
                                                 before.commits == after.commits && before.calls == after.calls),
            "status %d at request %lu", status, nth);
    }
    CHECK(nth > 5 && call.answer.what == RELKVANU_RESTORED_SAVEPOINT && call.term == term + 1, "request %lu, what %" PRIu32, nth,
        call.answer.what);
    term = call.term;
    CHECK(work(store) == RELKVANU_STORE_OK, "work");
    relkvanu_store_close(store);
    return nth;
}

/* Submits a stop. Returns its status, or RELKVANU_STORE_NO_MEMORY if the call had none. */
static int submit_stop(relkvanu_store *store, relkvanu_store_call *call) {
    relkvanu_store_completion one;
    int status = relkvanu_store_submit_stop_job(store, call, 7);
    if (status != RELKVANU_STORE_OK) {
        CHECK(call->answer.code == RELKVANU_STORE_NOT_MADE, "code %" PRIu32, call->answer.code);
        return status;
    }
    while (relkvanu_store_completed(store, &one, 1) == 0) {
        usleep(100);
    }
    bool has_none = one.status == RELKVANU_STORE_OK && call->answer.code == RELKVANU_NO_MEMORY;
    return has_none ? RELKVANU_STORE_NO_MEMORY : one.status;
}

/* A stop that is submitted, and for which there is no memory, changes nothing, and can be submitted later. */
static unsigned long submits_wait(enum kind kind, bool is_for_good) {
    relkvanu_store_call call;
    relkvanu_store_counts counts;
    relkvanu_store_job_phase phase;
    relkvanu_store *store = new_job(job_options(RELKVANU_STORE_CREATE, 0));
    int status = RELKVANU_STORE_NO_MEMORY;
    unsigned long nth = 0;
    while (status == RELKVANU_STORE_NO_MEMORY) {
        set_refused(kind, ++nth, is_for_good);
        status = submit_stop(store, &call);
        set_none();
        relkvanu_store_count(store, &counts);
        CHECK(relkvanu_store_phase(store, &phase) == RELKVANU_STORE_OK, "the phase");
        bool is_made = status == RELKVANU_STORE_OK;
        CHECK((is_made || status == RELKVANU_STORE_NO_MEMORY) && counts.calls == is_made &&
                  phase.phase == (is_made ? RELKVANU_STORE_PHASE_STOPPING : RELKVANU_STORE_PHASE_RUNNING),
            "status %d at request %lu: phase %" PRIu32, status, nth, phase.phase);
    }
    CHECK(nth > 1 && call.answer.what == RELKVANU_SAVEPOINT_TRIGGERED, "request %lu, what %" PRIu32, nth, call.answer.what);
    relkvanu_store_close(store);
    return nth;
}

static bool no_page(void *with, const relkvanu_storage_file *files, size_t len) {
    (void)with;
    return files != NULL && len != 0;
}

/* A folder as a storage: opened, put into, listed and deleted from. */
static int use_folder(const relkvanu_storage_options *options) {
    relkvanu_storage it;
    uint64_t file = 7;
    uint8_t outcome;
    int status = relkvanu_storage_open_folder(&it, options);
    CHECK((it.with != NULL) == (status == RELKVANU_STORAGE_OK), "status %d", status);
    if (status == RELKVANU_STORAGE_OK) {
        status = it.put(it.with, 7, "state", 5);
        CHECK(status == RELKVANU_STORAGE_OK && it.list(it.with, 0, no_page, NULL) == RELKVANU_STORAGE_OK);
        CHECK(it.delete_files(it.with, &file, 1, &outcome) == RELKVANU_STORAGE_OK && outcome == RELKVANU_STORAGE_DELETED, "outcome %d",
            outcome);
    }
    relkvanu_storage_close_folder(&it);
    return status;
}

static unsigned long folder_waits(enum kind kind, bool is_for_good) {
    static char state[PATHS];
    snprintf(state, sizeof state, "%s/state", folder);
    CHECK(mkdir(state, 0700) == 0 || errno == EEXIST, "%s", state);
    relkvanu_storage_options options = {.flags = RELKVANU_STORAGE_NEW, .path = state, .job = "orders", .prefix = "a", .suffix = "b"};
    int status = RELKVANU_STORAGE_NO_MEMORY;
    unsigned long nth = 0;
    while (status == RELKVANU_STORAGE_NO_MEMORY) {
        set_refused(kind, ++nth, is_for_good);
        status = use_folder(&options);
        set_none();
    }
    CHECK(status == RELKVANU_STORAGE_OK && nth > 5, "status %d at request %lu", status, nth);
    return nth;
}

/* A tick that has no memory is not tried again at once: the timer rests for a second. */
static void rests_without_memory(void) {
    relkvanu_store_call tick = {0};
    relkvanu_store_options options = job_options(RELKVANU_STORE_CREATE, RELKVANU_STORE_NO_IMAGES);
    uint64_t before = 0, wait = 0;
    options.settings.interval = 10;
    options.settings.at_once = 64;
    relkvanu_store *store = new_job(options);
    for (unsigned long nth = 1; nth < 100 && tick.answer.code != RELKVANU_NO_MEMORY; nth++) {
        before = relkvanu_store_now(store);
        set_refused(COORDINATOR, nth, false);
        int status = relkvanu_store_await_tick(store, 60000, &tick);
        set_none();
        CHECK(status == RELKVANU_STORE_OK || status == RELKVANU_STORE_NO_MEMORY, "status %d", status); /* without memory for its line */
    }
    CHECK(tick.answer.code == RELKVANU_NO_MEMORY, "no tick asks for memory");
    CHECK(relkvanu_store_next_tick(store, &wait) == RELKVANU_STORE_OK && relkvanu_store_now(store) + wait >= before + 1000,
        "the next tick comes in %" PRIu64 " ms", wait);
    relkvanu_store_close(store);
}

/* How many of the names are garbage: those that were given up. */
static uint64_t given_up(relkvanu_store *store, const uint64_t *names, size_t len) {
    static uint64_t garbage[5000], unissued[5000];
    relkvanu_answer answer;
    CHECK(relkvanu_store_garbage(store, names, len, garbage, unissued, &answer) == RELKVANU_STORE_OK && answer.what == RELKVANU_GARBAGE);
    return answer.a;
}

/* A list of names that takes several calls is given up as a whole only if each call was made: the answer is that of the first that was not. */
static void gives_up_in_parts(void) {
    enum { GIVEN = 5000, OF_A_LINE = 4096 };
    static uint64_t names[GIVEN];
    relkvanu_answer answer = {.code = RELKVANU_STORE_NOT_MADE};
    uint64_t parts = 0;
    bool is_done = false;
    relkvanu_store *store = new_job(job_options(RELKVANU_STORE_CREATE, RELKVANU_STORE_NO_IMAGES));
    for (unsigned long nth = 1; !is_done; nth++) {
        CHECK(relkvanu_store_reserve(store, term, 2 * GIVEN, &answer) == RELKVANU_STORE_OK && answer.code == RELKVANU_DONE, "names");
        for (size_t i = 0; i < GIVEN; i++) {
            names[i] = answer.a + 2 * i; /* so that those which stay are many ranges, which need memory */
        }
        heap_refuse_from(nth); /* one that is refused room to spare asks for less */
        int status = relkvanu_store_forfeit(store, term, names, GIVEN, &answer);
        set_none();
        uint64_t given = given_up(store, names, GIVEN);
        is_done = status == RELKVANU_STORE_OK && answer.code == RELKVANU_DONE;
        CHECK(is_done == (given == GIVEN) && (status == RELKVANU_STORE_OK || (status == RELKVANU_STORE_NO_MEMORY && given == 0)),
            "%" PRIu64 " names were given up, and the status is %d, the code %u", given, status, answer.code);
        parts += given == OF_A_LINE;
    }
    CHECK(parts > 0, "no part had no memory");
    relkvanu_store_close(store);
}

/* What is tried with each request refused in turn, of the first kinds, and whether also with all later ones refused. Each says how many requests there were. */
static const struct tried {
    const char *of;
    unsigned long (*tries)(enum kind kind, bool is_for_good);
    int kinds;
    bool is_for_good;
} all[] = {
    {"a new job", makes_without_memory, KINDS, true},
    {"a recovery", reopens_without_memory, KINDS, true},
    {"a job that was lost", recovers_without_memory, KINDS, true},
    {"a claim", claims_without_memory, KINDS, true},
    {"a way back", way_back_waits, COORDINATOR + 1, false},
    {"a submitted stop", submits_wait, COORDINATOR + 1, false},
    {"a folder", folder_waits, OWN + 1, true},
};

static unsigned tries(const struct tried *it, enum kind kind) {
    unsigned ways = it->is_for_good && kind != COORDINATOR ? 2 : 1; /* the heap of the tests refuses one */
    for (unsigned way = 0; way < ways; way++) {
        unsigned long nth = it->tries(kind, way == 1);
        printf("store: memory of %s, %s, of %s: up to request %lu\n", names[kind], way == 1 ? "for good" : "once", it->of, nth);
    }
    return ways;
}

int main(int argc, char **argv) {
    unsigned passed = 5;
    CHECK(argc == 2, "memory FOLDER");
    snprintf(folder, sizeof folder, "%s", argv[1]);
    snprintf(path, sizeof path, "%s/x.db", folder);
    snprintf(storage, sizeof storage, "%s/storage", folder);
    CHECK(mkdir(storage, 0700) == 0, "%s", storage);
    watch_sqlite();
    for (size_t i = 0; i < sizeof all / sizeof *all; i++) {
        for (int kind = OWN; kind < all[i].kinds; kind++) {
            passed += tries(&all[i], (enum kind)kind);
        }
    }
    images_wait(COORDINATOR);
    images_wait(SQLITE);
    stops_without_memory();
    rests_without_memory();
    gives_up_in_parts();
    printf("%u passed, 0 failed\n", passed);
    return 0;
}
