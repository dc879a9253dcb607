/* Opening and closing a store. */
#include "../files/files.h"
#include "../log/log.h"
#include "../manifests/manifest.h"
#include "../manifests/manifests.h"
#include "../store.h"
#include "job.h"

#include <errno.h>
#include <inttypes.h>
#include <signal.h>
#include <stdio.h>
#include <stdlib.h>
#include <string.h>
#include <sys/eventfd.h>
#include <sys/random.h>
#include <time.h>
#include <unistd.h>

enum { APPLICATION = 0x52564b53, LINES = 16384, NO_STORAGE = 0, TO_MARK = 1, MARKED = 2 };
enum { MOST_NAMES = 65536, MOST_PASSED = 1 << 24 }; /* of a reservation; that an opening of a backup gives out */
static const uint64_t DAY = 86400000, IMAGE_CALLS = 10000;

/* The tables. The lines of the opening are kept as they are written, to compare them with those of a later opening. */
static const char TABLES[] =
    "BEGIN IMMEDIATE;"
    "CREATE TABLE job(one INTEGER PRIMARY KEY CHECK (one = 1), identity TEXT NOT NULL, epoch INTEGER NOT NULL, storage INTEGER NOT NULL,"
    " opening TEXT NOT NULL, library TEXT NOT NULL) STRICT;"
    "CREATE TABLE log(place INTEGER PRIMARY KEY, line TEXT NOT NULL, what INTEGER NOT NULL, a INTEGER NOT NULL, b INTEGER NOT NULL,"
    " files BLOB, chain INTEGER NOT NULL) STRICT;"
    "CREATE TABLE image(place INTEGER PRIMARY KEY, chain INTEGER NOT NULL, sum INTEGER NOT NULL, text BLOB NOT NULL) STRICT;";

/* What a file says of its job. */
struct job {
    int64_t is_there, epoch, storage, format;
    bool is_backup;
    char identity[RKS_IDENTITY + 1], opening[LINES];
};

static int set_fault(relkvanu_store *s, int status, const char *words) {
    return rks_refuse(s, status, "%.400s: %s", s->file.path, words);
}

/* The folder of the storage was not listed: it is gone, or errno says why. */
static int set_listing_fault(relkvanu_store *s, int status) {
    int error = errno;
    status = status == RELKVANU_STORE_NOT_DONE ? rks_status_of_errno(error) : status;
    rks_refuse(s, status, "%.300s: the storage folder can't be read: %s", s->file.path, strerror(error));
    errno = error;
    return status;
}

static bool wants_backup(const relkvanu_store *s) {
    return (s->options.flags & RELKVANU_STORE_BACKUP) != 0;
}

/* A backup that is not where it should be makes no new job. */
static bool may_create(const relkvanu_store *s) {
    return (s->options.flags & (RELKVANU_STORE_CREATE | RELKVANU_STORE_CREATE_ONLY)) != 0 && !wants_backup(s);
}

/* Opens the file, which is made if there may be a new job. */
static int open_files(relkvanu_store *s, const char *path) {
    struct stat file;
    if (stat(path, &file) != 0 && !(errno == ENOENT && may_create(s))) {
        int error = errno, status = rks_file_fault(s, path, error);
        return error == ENOENT ? RELKVANU_STORE_ABSENT : status;
    }
    int status = rks_lock(s, path);
    status = status == RELKVANU_STORE_OK && s->options.storage != NULL ? rks_open_folder(s, s->options.storage) : status;
    if (status == RELKVANU_STORE_OK && (stat(s->file.path, &file) != 0 || file.st_size == 0)) { /* a refusal makes no file */
        status = may_create(s) ? rks_check_new_folder(s, s->options.storage) : set_fault(s, RELKVANU_STORE_ABSENT, "it has no job");
        status = status == RELKVANU_STORE_OK ? rks_make_file(s) : status;
    } else if (status == RELKVANU_STORE_OK && file.st_nlink != 1) {
        status = set_fault(s, RELKVANU_STORE_FAILED, "it has several names, each of which would have a log of its own");
    }
    status = status == RELKVANU_STORE_OK ? rks_check_wal(s) : status;
    status = status == RELKVANU_STORE_OK ? rks_write_again(s) : status;
    return status == RELKVANU_STORE_OK ? rks_open_database(s) : status;
}

/* Whether the format is one of this library, and is that of a backup if one is to be opened, and of none otherwise. */
static int check_format(relkvanu_store *s, struct job *job) {
    job->is_backup = job->format > RKS_BACKUP;
    job->format -= job->is_backup ? RKS_BACKUP : 0;
    if (job->format != RKS_FORMAT) {
        return set_fault(s, RELKVANU_STORE_NOT_A_STORE, "another version of the library made it");
    }
    if (job->is_backup && !wants_backup(s)) {
        return set_fault(
            s, RELKVANU_STORE_STORAGE, "it is a backup, which lacks the calls since it was made: RELKVANU_STORE_BACKUP opens it");
    }
    if (!job->is_backup && wants_backup(s)) {
        return set_fault(s, RELKVANU_STORE_BAD_ARGUMENT, "it is no backup, or was opened before: open it without RELKVANU_STORE_BACKUP");
    }
    return RELKVANU_STORE_OK;
}

/* Reads all pages. SQLite takes a page whose header is damaged for one with fewer rows. An earlier image is wanted where something is damaged. */
static int check_pages(relkvanu_store *s) {
    char found[200] = "ok";
    bool is_checked = (s->options.flags & RELKVANU_STORE_EARLIER_IMAGE) == 0;
    int status = is_checked ? rks_ask(s, "PRAGMA quick_check(1)", NULL, found, sizeof found) : RELKVANU_STORE_OK;
    if (status != RELKVANU_STORE_OK || strcmp(found, "ok") == 0) {
        return status;
    }
    const char *code = strstr(found, "error code=");
    bool is_read = code == NULL || (atoi(code + strlen("error code=")) & 255) == SQLITE_CORRUPT;
    char text[104];
    snprintf(text, sizeof text, "the file %s: %.78s", is_read ? "is damaged" : "can't be read", found);
    return set_fault(s, is_read ? RELKVANU_STORE_DAMAGED : RELKVANU_STORE_FAILED, text);
}

static int read_job(relkvanu_store *s, struct job *job) {
    int64_t application = 0, tables = 0;
    int status = rks_ask(s, "PRAGMA application_id", &application, NULL, 0);
    status = status == RELKVANU_STORE_OK ? rks_ask(s, "PRAGMA user_version", &job->format, NULL, 0) : status;
    status = status == RELKVANU_STORE_OK ? rks_ask(s, "SELECT count(*) FROM sqlite_schema", &tables, NULL, 0) : status;
    if (status != RELKVANU_STORE_OK || (tables == 0 && application == 0)) {
        return status;
    }
    if (application != APPLICATION) {
        return set_fault(s, RELKVANU_STORE_NOT_A_STORE, "it is another kind of database");
    }
    status = check_format(s, job);
    status = status == RELKVANU_STORE_OK ? check_pages(s) : status;
    status = status == RELKVANU_STORE_OK ? rks_ask(s, "SELECT epoch FROM job", &job->epoch, NULL, 0) : status;
    status = status == RELKVANU_STORE_OK ? rks_ask(s, "SELECT storage FROM job", &job->storage, NULL, 0) : status;
    status = status == RELKVANU_STORE_OK ? rks_ask(s, "SELECT identity FROM job", NULL, job->identity, sizeof job->identity) : status;
    status = status == RELKVANU_STORE_OK ? rks_ask(s, "SELECT opening FROM job", NULL, job->opening, sizeof job->opening) : status;
    job->is_there = status == RELKVANU_STORE_OK;
    if (job->is_there && (strlen(job->identity) != RKS_IDENTITY || job->epoch < 1)) {
        return set_fault(s, RELKVANU_STORE_DAMAGED, "the row of the job is damaged");
    }
    memcpy(s->job.identity, job->identity, sizeof s->job.identity);
    return status;
}

/* The lines of an opening, as a text with a zero; empty if no coordinator can be opened so. */
static relkvanu_answer opening_lines(const relkvanu_store_options *o, char lines[LINES]) {
    relkvanu_answer answer = relkvanu_opening_lines(&o->settings, o->shape, o->shape_len, 0, (uint8_t *)lines, LINES - 1);
    lines[answer.code == RELKVANU_DONE ? answer.a : 0] = 0;
    return answer;
}

/* The status of an answer to an opening, which says which of the settings is refused, or what of the shape. */
static int opened(relkvanu_store *s, const relkvanu_store_options *o, relkvanu_answer answer) {
    char words[200] = "";
    if (answer.code == RELKVANU_DONE) {
        return RELKVANU_STORE_OK;
    }
    int status = answer.code == RELKVANU_NO_MEMORY ? RELKVANU_STORE_NO_MEMORY : rks_tell_limit(o, answer.what, words, sizeof words);
    return status == RELKVANU_STORE_BAD_ARGUMENT ? set_fault(s, status, words) : status;
}

/* The first name of a new job: above the numbers of all files that are adopted, so that these count as given out. 0: it gets its names last. */
static int choose_first_name(relkvanu_store *s, uint64_t *name) {
    uint64_t greatest = 0;
    int status = s->storage.folder < 0 ? RELKVANU_STORE_OK : rks_greatest_file(s, &greatest);
    if (status != RELKVANU_STORE_OK) {
        return set_listing_fault(s, status);
    }
    if (greatest >= RKS_MOST_NAME) {
        return set_fault(
            s, RELKVANU_STORE_STORAGE, "the storage folder has a file with a number from 2^62 on, so that no name is above it");
    }
    *name = s->job.names_last ? 0 : greatest + 1;
    return status;
}

/* Opens the coordinator of a new job, at the moment 0, and names the job. Adds what begins its names to the lines. */
static int begin_job(relkvanu_store *s, const relkvanu_store_options *o, char lines[LINES]) {
    uint64_t words[4], name = 0;
    int status = choose_first_name(s, &name);
    if (status != RELKVANU_STORE_OK) {
        return status;
    }
    if (getentropy(words, sizeof words) != 0) {
        return set_fault(s, RELKVANU_STORE_FAILED, "no random numbers");
    }
    rks_identity(&words[2], s->job.identity);
    uint64_t first = 1;
    if (s->job.birth != NULL) {
        memcpy(s->job.identity, s->job.birth->identity, sizeof s->job.identity);
        first = s->job.birth->first;
    }
    relkvanu_answer answer =
        name == 0 ? relkvanu_open(s->handle, &o->settings, o->shape, o->shape_len, 0, first, words[0], words[1])
                  : relkvanu_open_fenced(s->handle, &o->settings, o->shape, o->shape_len, 0, first, name, words[0], words[1]);
    if (name != 0) {
        size_t len = strlen(lines);
        snprintf(lines + len, LINES - len, "fence %" PRIu64 "\n", name);
    }
    status = opened(s, o, answer);
    return status == RELKVANU_STORE_OK ? rks_save(s) : status;
}

static int insert_job(relkvanu_store *s, const char *lines, int storage) {
    sqlite3_int64 epoch = s->job.birth == NULL ? 1 : (sqlite3_int64)s->job.birth->epoch;
    char *sql =
        sqlite3_mprintf("INSERT INTO job VALUES(1, %Q, %lld, %d, %Q, %Q)", s->job.identity, epoch, storage, lines, relkvanu_version());
    bool is_inserted = sql != NULL && sqlite3_exec(s->log.db, sql, NULL, NULL, NULL) == SQLITE_OK;
    sqlite3_free(sql);
    return is_inserted ? RELKVANU_STORE_OK : sql == NULL ? RELKVANU_STORE_NO_MEMORY : rks_fault(s, "job");
}

/* Makes the tables of a new job in one transaction, with the image of its opening. */
static int write_job(relkvanu_store *s, const char *lines, int storage) {
    char pragma[40];
    snprintf(pragma, sizeof pragma, "PRAGMA application_id=%d", APPLICATION);
    int status = rks_run(s, TABLES);
    status = status == RELKVANU_STORE_OK ? rks_run(s, pragma) : status;
    status = status == RELKVANU_STORE_OK ? rks_set_format(s, RKS_FORMAT) : status;
    status = status == RELKVANU_STORE_OK ? insert_job(s, lines, storage) : status;
    status = status == RELKVANU_STORE_OK ? rks_prepare(s) : status;
    status = status == RELKVANU_STORE_OK ? rks_write_image(s) : status;
    return status == RELKVANU_STORE_OK ? rks_step(s, RKS_COMMIT, "commit") : status;
}

static int create(relkvanu_store *s, const relkvanu_store_options *o) {
    char lines[LINES];
    if (!may_create(s)) {
        return set_fault(s, RELKVANU_STORE_ABSENT, "it has no job");
    }
    int status = rks_check_new_folder(s, o->storage);
    status = status == RELKVANU_STORE_OK ? opened(s, o, opening_lines(o, lines)) : status;
    status = status == RELKVANU_STORE_OK ? begin_job(s, o, lines) : status;
    bool is_marked = s->job.birth != NULL && !s->job.birth->is_elsewhere;
    int storage = is_marked ? MARKED : o->storage == NULL ? NO_STORAGE : TO_MARK;
    return status == RELKVANU_STORE_OK ? write_job(s, lines, storage) : status;
}

/* Lets the opening of a backup be later than each that has used the storage since, so that these put and delete nothing more. */
static int pass_openings(relkvanu_store *s, struct job *job, const char *folder) {
    uint64_t last = 0;
    int status = rks_read_marker(s, folder, &last);
    status = status == RELKVANU_STORE_OK ? rks_pass_manifests(s, folder, &last) : status;
    job->epoch = (int64_t)last > job->epoch ? (int64_t)last : job->epoch;
    return status;
}

/* A manifest of a later call than the file has proves that the file is an older copy, also one from the last opening, which the marker does not tell from it. */
static int check_age(relkvanu_store *s, const struct job *job) {
    struct rks_manifests all;
    int status = rks_list_manifests(s->storage.folder, &all);
    for (size_t i = 0; i < all.len && status == RELKVANU_STORE_OK; i++) {
        const struct rks_manifest *it = &all.at[i];
        bool is_of_job = it->status == RELKVANU_STORE_OK && strcmp(it->job, s->job.identity) == 0;
        if (is_of_job && (it->epoch > (uint64_t)job->epoch || (it->epoch == (uint64_t)job->epoch && it->place > s->log.place))) {
            status = rks_refuse(s, RELKVANU_STORE_STORAGE,
                "%.300s: it is an older copy, up to call %" PRIu64 " of opening %" PRId64 ": record-%" PRIu64
                ".manifest in the storage folder is of call %" PRIu64 " of opening %" PRIu64,
                s->file.path, s->log.place, job->epoch, it->id, it->place, it->epoch);
        }
    }
    if (status == RELKVANU_STORE_FAILED) {
        status = rks_file_fault(s, "the manifests of the storage folder", errno);
    }
    rks_free_manifests(&all);
    return status;
}

/* Checks that the storage is that of the job. A process may have ended before the marker of a new job was there. */
static int check_storage(relkvanu_store *s, struct job *job, const char *folder) {
    if (job->storage == NO_STORAGE) {
        return folder == NULL ? RELKVANU_STORE_OK : set_fault(s, RELKVANU_STORE_STORAGE, "the job was made without a storage folder");
    }
    if (folder == NULL) {
        return set_fault(s, RELKVANU_STORE_STORAGE, "the job has a storage folder, and the options name none");
    }
    if (job->storage == TO_MARK && !rks_has_marker(s)) {
        return rks_check_new_folder(s, folder);
    }
    return job->is_backup ? pass_openings(s, job, folder) : rks_check_marker(s, folder, (uint64_t)job->epoch);
}

/* Gives out each name from the next one up to the last. */
static int give_names(relkvanu_store *s, uint64_t term, uint64_t next, uint64_t last) {
    relkvanu_answer made = {.code = RELKVANU_DONE};
    int status = RELKVANU_STORE_OK;
    s->log.next_image = UINT64_MAX; /* fill() says when the first one is due */
    while (next <= last && status == RELKVANU_STORE_OK && made.code == RELKVANU_DONE) {
        uint64_t left = last - next + 1;
        status = relkvanu_store_reserve(s, term, left < MOST_NAMES ? left : MOST_NAMES, &made);
        next = made.a + made.b;
    }
    return status == RELKVANU_STORE_OK && made.code != RELKVANU_DONE ? RELKVANU_STORE_NO_MEMORY : status;
}

/* Gives out the names that the job gave out after the backup was made, as far as the storage folder has files of them. The engine's restore
 * ends the term, so that they are garbage. Until the file is no backup any more each opening does so. */
static int pass_names(relkvanu_store *s) {
    uint64_t greatest = 0;
    relkvanu_answer term = relkvanu_term(s->handle);
    if (s->storage.folder < 0 || relkvanu_mode(s->handle).what == RELKVANU_MODE_CANCELLED) {
        return RELKVANU_STORE_OK;
    }
    int status = rks_greatest_file(s, &greatest);
    if (status != RELKVANU_STORE_OK) {
        return set_listing_fault(s, status);
    }
    if (greatest >= term.b + MOST_PASSED) {
        return set_fault(
            s, RELKVANU_STORE_STORAGE, "the storage folder has a file with a number 2^24 or more above the names of the backup");
    }
    return give_names(s, term.a, term.b, greatest);
}

/* Begins the opening. An image after the one that was opened is damaged. From here on a backup is a job. */
static int begin_epoch(relkvanu_store *s, const struct job *job) {
    char sql[200];
    snprintf(sql, sizeof sql,
        "BEGIN IMMEDIATE; UPDATE job SET epoch = %" PRId64 "; DELETE FROM image WHERE place > %" PRIu64 "; PRAGMA user_version=%" PRId64
        "; COMMIT",
        job->epoch + 1, s->log.image_place, job->format);
    return rks_run(s, sql);
}

/* The settings that the job was made with. Its image and its log say which it has now. */
static int read_settings(relkvanu_store *s, const struct job *job) {
    uint64_t numbers[7] = {0};
    relkvanu_answer says = relkvanu_line_says((const uint8_t *)job->opening, strcspn(job->opening, "\n"), numbers, 7);
    if (says.code == RELKVANU_NO_MEMORY) {
        return RELKVANU_STORE_NO_MEMORY;
    }
    if (says.what != RELKVANU_LINE_CONFIG) {
        return set_fault(s, RELKVANU_STORE_DAMAGED, "the row of the job is damaged");
    }
    s->job.settings = rks_settings(numbers);
    return RELKVANU_STORE_OK;
}

/* Whether the job has other settings than the options say, or was made with another shape. */
static bool differ(relkvanu_store *s, const struct job *job, const relkvanu_store_options *o) {
    char lines[LINES], own[LINES];
    relkvanu_store_options now = *o;
    now.settings = s->job.settings;
    if (opening_lines(o, lines).code != RELKVANU_DONE || opening_lines(&now, own).code != RELKVANU_DONE || strcmp(lines, own) != 0) {
        return true;
    }
    /* the line of the names, if there is one, comes last */
    const char *shape = strchr(lines, '\n'), *made = strchr(job->opening, '\n');
    return strncmp(shape, made, strlen(shape)) != 0;
}

static int recover(relkvanu_store *s, struct job *job, const relkvanu_store_options *o, relkvanu_store_report *report) {
    if ((o->flags & RELKVANU_STORE_CREATE_ONLY) != 0) {
        return set_fault(s, RELKVANU_STORE_PRESENT, "it has a job");
    }
    int status = check_storage(s, job, o->storage);
    status = status == RELKVANU_STORE_OK ? read_settings(s, job) : status;
    status = status == RELKVANU_STORE_OK ? rks_prepare(s) : status;
    status = status == RELKVANU_STORE_OK ? rks_replay(s, report) : status;
    status = status == RELKVANU_STORE_OK && s->storage.folder >= 0 && !job->is_backup ? check_age(s, job) : status;
    status = status == RELKVANU_STORE_OK ? rks_read_phase(s) : status;
    status = status == RELKVANU_STORE_OK ? rks_begin_extras(s) : status;
    status = status == RELKVANU_STORE_OK && !job->is_backup ? rks_check_tail(s) : status;
    status = status == RELKVANU_STORE_OK && job->is_backup ? pass_names(s) : status;
    status = status == RELKVANU_STORE_OK && job->is_backup ? rks_drop_tail(s) : status; /* of another file in this place */
    /* What a torn commit has left in the -wal goes first: with another one behind it, it would look like two that are lost. */
    status = status == RELKVANU_STORE_OK ? rks_checkpoint(s, SQLITE_CHECKPOINT_TRUNCATE) : status;
    status = status == RELKVANU_STORE_OK ? begin_epoch(s, job) : status;
    if (status == RELKVANU_STORE_OK) {
        report->is_recovered = true;
        report->settings_differ = differ(s, job, o);
    }
    return status;
}

/* What is committed so far is in the file itself, and on the disk, before anybody acts on it. */
static int settle(relkvanu_store *s) {
    int status = rks_checkpoint(s, SQLITE_CHECKPOINT_TRUNCATE);
    status = status == RELKVANU_STORE_OK ? rks_sync_folder_of(s, s->file.path) : status;
    /* SQLite may say WAL and not be in it. Then there is no -wal. */
    return status != RELKVANU_STORE_OK ? status : rks_in_place(s) ? RELKVANU_STORE_OK : RELKVANU_STORE_FAILED;
}

/* What was looked at before the first call was made again, once more: the folder may have been fenced since, or taken by another new job. */
static int check_storage_again(relkvanu_store *s, struct job *job, const char *folder) {
    return !job->is_there   ? rks_check_new_folder(s, folder)
           : job->is_backup ? rks_check_marker(s, folder, (uint64_t)job->epoch)
                            : check_storage(s, job, folder);
}

/* Marks the folder with this opening, whose epoch is committed. An older copy of the file is refused then: a sweep of it would delete the files
 * of the later calls. On a full disk a marker that is there stays as it is, so that a discarder can make room. */
static int mark(relkvanu_store *s, struct job *job, const char *folder) {
    if (folder == NULL) {
        return RELKVANU_STORE_OK;
    }
    int status = rks_lock_folder(s, folder);
    status = status == RELKVANU_STORE_OK ? check_storage_again(s, job, folder) : status;
    status = status == RELKVANU_STORE_OK ? rks_write_marker(s, folder, (uint64_t)job->epoch + 1) : status;
    rks_unlock_folder(s);
    if (status == RELKVANU_STORE_FULL && rks_has_marker(s)) {
        status = RELKVANU_STORE_OK;
    }
    return status == RELKVANU_STORE_OK && job->storage != MARKED ? rks_run(s, "UPDATE job SET storage = 2") : status;
}

/* The steps of a job: of a new one, one that is cancelled, one that runs or has failed, one that is stopped, and the backup of such a one. */
static void set_steps(relkvanu_store_report *report, bool is_backup) {
    static const uint32_t fresh[] = {RELKVANU_STORE_START_TASKS};
    static const uint32_t ended[] = {RELKVANU_STORE_END_TASKS, RELKVANU_STORE_SWEEP, RELKVANU_STORE_DISCARD};
    static const uint32_t again[] = {RELKVANU_STORE_END_TASKS, RELKVANU_STORE_RESTORE, RELKVANU_STORE_SWEEP, RELKVANU_STORE_START_TASKS};
    static const uint32_t stopped[] = {RELKVANU_STORE_END_TASKS, RELKVANU_STORE_DISCARD};
    static const uint32_t copied[] = {RELKVANU_STORE_END_TASKS, RELKVANU_STORE_RESTORE, RELKVANU_STORE_SWEEP, RELKVANU_STORE_DISCARD};
    bool is_cancelled = report->mode.what == RELKVANU_MODE_CANCELLED, is_stopped = report->phase == RELKVANU_STORE_PHASE_STOPPED;
    const uint32_t *steps = !report->is_recovered ? fresh : is_cancelled ? ended : !is_stopped ? again : is_backup ? copied : stopped;
    report->steps_len = !report->is_recovered ? 1 : is_cancelled ? 3 : is_stopped && !is_backup ? 2 : 4;
    memcpy(report->steps, steps, report->steps_len * sizeof *steps);
}

static void fill(relkvanu_store *s, const struct job *job, relkvanu_store_report *report) {
    s->job.epoch = report->epoch = (uint64_t)job->epoch + 1;
    sscanf(s->job.identity, "%16" SCNx64 "%16" SCNx64, &report->job[0], &report->job[1]);
    report->taken = relkvanu_file_counts(s->handle).taken;
    report->moment = relkvanu_moment(s->handle).a;
    report->mode = relkvanu_mode(s->handle);
    report->choice = relkvanu_choice(s->handle);
    relkvanu_answer term = relkvanu_term(s->handle);
    report->term = term.a;
    report->next_name = term.b;
    report->phase = (uint32_t)s->job.phase.phase;
    report->stop_failed = (uint32_t)s->job.phase.failed;
    report->savepoint = s->job.phase.savepoint;
    set_steps(report, job->is_backup);
    s->job.clock_offset = report->moment - rks_clock_ns() / 1000000;
    s->job.last_mode = report->mode.what;
    s->job.has_stopped = s->job.last_mode != RELKVANU_MODE_RUNNING;
    rks_show(s);
    s->log.next_image = s->log.image_place + s->options.image_calls;
    rks_write_tail(s);
}

static int open_job(relkvanu_store *s, const char *path, const relkvanu_store_options *o, relkvanu_store_report *report) {
    static const struct job none;
    struct job job = none;
    int status = open_files(s, path);
    status = status == RELKVANU_STORE_OK ? read_job(s, &job) : status;
    if (status == RELKVANU_STORE_OK) {
        status = job.is_there ? recover(s, &job, o, report) : create(s, o);
    }
    status = status == RELKVANU_STORE_OK ? settle(s) : status;
    status = status == RELKVANU_STORE_OK ? mark(s, &job, o->storage) : status;
    if (status == RELKVANU_STORE_OK) {
        fill(s, &job, report);
        status = rks_begin_manifests(s);
    }
    return status;
}

bool rks_start(pthread_t *thread, void *(*runs)(void *), relkvanu_store *s) {
    sigset_t every, before;
    sigfillset(&every);
    pthread_sigmask(SIG_SETMASK, &every, &before);
    bool is_started = pthread_create(thread, NULL, runs, s) == 0;
    pthread_sigmask(SIG_SETMASK, &before, NULL);
    return is_started;
}

/* RELKVANU_STORE_OK, or why not. */
static int begin_store(relkvanu_store *s) {
    pthread_condattr_t by_clock;
    pthread_mutexattr_t spins; /* nobody has the mutex for long */
    s->handle = s->handles;
    s->file.lock = s->file.shm = s->storage.folder = s->submits.event = -1;
    s->queue.tail = &s->queue.head;
    s->queue.sleepers_tail = &s->queue.sleepers;
    s->submits.completed_tail = &s->submits.completed;
    s->keeper.tail = &s->keeper.holds;
    s->process = getpid();
    s->submits.event = eventfd(0, EFD_CLOEXEC | EFD_NONBLOCK);
    if (s->submits.event < 0) {
        return rks_file_fault(s, "an eventfd", errno);
    }
    bool is_done = pthread_mutexattr_init(&spins) == 0 && pthread_mutexattr_settype(&spins, PTHREAD_MUTEX_ADAPTIVE_NP) == 0 &&
                   pthread_mutex_init(&s->mutex, &spins) == 0 && pthread_condattr_init(&by_clock) == 0 &&
                   pthread_condattr_setclock(&by_clock, CLOCK_MONOTONIC) == 0 && pthread_cond_init(&s->changed, &by_clock) == 0 &&
                   pthread_cond_init(&s->queue.gathered, &by_clock) == 0 && pthread_cond_init(&s->keeper.changed, &by_clock) == 0 &&
                   sem_init(&s->submits.work, 0, 0) == 0 && sem_init(&s->ahead.begins, 0, 0) == 0 && sem_init(&s->ahead.ended, 0, 0) == 0;
    return is_done ? RELKVANU_STORE_OK : RELKVANU_STORE_NO_MEMORY;
}

int rks_new_store(relkvanu_store **store, char message[RKS_MESSAGE]) {
    relkvanu_store *s = calloc(1, sizeof *s);
    int status = s == NULL ? RELKVANU_STORE_NO_MEMORY : begin_store(s);
    snprintf(message, RKS_MESSAGE, "%s", s == NULL ? "" : s->fault);
    if (status == RELKVANU_STORE_OK) {
        rks_list(s);
        *store = s;
    } else {
        free(s);
    }
    return status;
}

/* Frees all. A store that is not closed cleanly keeps its -wal. */
void rks_release_store(relkvanu_store *s) {
    int error = errno;
    rks_end_manifests(s);
    rks_end_ahead(s);
    rks_unlist(s);
    rks_close_database(s);
    relkvanu_close(s->handle);
    rks_close(s->storage.folder);
    rks_close(s->submits.event);
    rks_unlock(s);
    rks_free_extras(s);
    rks_free_rows(s);
    rks_free_lines(s);
    free(s->log.image.at);
    free(s);
    errno = error;
}

/* Whether the flags are known and the reserved fields are 0. Otherwise says which is not. */
static bool are_known(const relkvanu_store_options *o, char *message) {
    const uint32_t flags = RELKVANU_STORE_CREATE | RELKVANU_STORE_CREATE_ONLY | RELKVANU_STORE_ADOPT | RELKVANU_STORE_EARLIER_IMAGE |
                           RELKVANU_STORE_BACKUP | RELKVANU_STORE_MANIFESTS | RELKVANU_STORE_CHECKSUMS;
    if ((o->flags & ~flags) != 0) {
        snprintf(message, RKS_MESSAGE, "flags has 0x%" PRIx32 ", which is not known", o->flags & ~flags);
        return false;
    }
    if ((o->flags & (RELKVANU_STORE_CHECKSUMS | RELKVANU_STORE_MANIFESTS)) == RELKVANU_STORE_CHECKSUMS) {
        snprintf(message, RKS_MESSAGE, "checksums are in manifests: RELKVANU_STORE_CHECKSUMS goes with RELKVANU_STORE_MANIFESTS");
        return false;
    }
    for (size_t i = 0; i < sizeof o->reserved / sizeof *o->reserved; i++) {
        if (o->reserved[i] != 0) {
            snprintf(message, RKS_MESSAGE, "reserved[%zu] is %" PRIu64 ", and has to be 0", i, o->reserved[i]);
            return false;
        }
    }
    return true;
}

int rks_open(relkvanu_store **store, const char *path, const relkvanu_store_options *options, relkvanu_store_report *report,
    const struct rks_birth *birth) {
    *store = NULL;
    *report = (relkvanu_store_report){0};
    if (!are_known(options, report->message)) {
        return RELKVANU_STORE_BAD_ARGUMENT;
    }
    relkvanu_store *s;
    int status = rks_new_store(&s, report->message);
    if (status != RELKVANU_STORE_OK) {
        return status;
    }
    s->options = *options;
    s->job.birth = birth;
    s->job.names_last = birth != NULL;
    s->job.settings = options->settings;
    s->options.image_calls = options->image_calls == 0               ? IMAGE_CALLS
                             : options->image_calls > UINT64_MAX / 4 ? RELKVANU_STORE_NO_IMAGES
                                                                     : options->image_calls;
    s->options.most_ahead = options->most_ahead == 0 ? DAY : options->most_ahead;
    status = open_job(s, path, options, report);
    s->options.storage = NULL;
    s->options.shape = NULL;
    s->job.birth = NULL;
    if (status != RELKVANU_STORE_OK) {
        memcpy(report->message, s->fault, sizeof report->message);
        status = status == RELKVANU_STORE_OUT_OF_MEMORY ? RELKVANU_STORE_NO_MEMORY
                 : status == RELKVANU_STORE_BUSY        ? RELKVANU_STORE_IN_USE
                                                        : status;
        rks_release_store(s);
        return status;
    }
    *store = s;
    return RELKVANU_STORE_OK;
}

int relkvanu_store_open(relkvanu_store **store, const char *path, const relkvanu_store_options *options, relkvanu_store_report *report) {
    return rks_open(store, path, options, report, NULL);
}

/* Makes an image, and brings all into the file. */
static void close_cleanly(relkvanu_store *s) {
    s->group.rows_len = 0;
    bool has_calls = s->log.place > s->log.image_place && s->options.image_calls != RELKVANU_STORE_NO_IMAGES;
    if (!has_calls || rks_commit(s, true) == RELKVANU_STORE_OK) {
        rks_checkpoint(s, SQLITE_CHECKPOINT_TRUNCATE);
    }
}

void relkvanu_store_close(relkvanu_store *s) {
    relkvanu *handle;
    if (s == NULL || rks_is_forked(s) || rks_is_reading(s)) {
        return; /* in a child SQLite would take the file for its own */
    }
    if (relkvanu_store_read(s, &handle) == RELKVANU_STORE_OK) {
        close_cleanly(s);
        relkvanu_store_read_end(s);
    }
    rks_end_keeper(s); /* it may hold submits */
    rks_end_submits(s);
    rks_release_store(s);
}
