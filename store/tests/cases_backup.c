/* Backups: what they have, what they refuse, what is beside them, and what happens when one is put back. */
#include "cases.h"

#include <sys/file.h>

enum { CALLERS = 4, BACKUPS = 5, LISTS = 10 };

static bool contains(const char *name, const char *text) {
    char found[64] = "";
    FILE *from = fopen(in(name), "r");
    CHECK(from != NULL, "%s", name);
    size_t len = fread(found, 1, sizeof found - 1, from);
    fclose(from);
    return len == strlen(text) && strcmp(found, text) == 0;
}

static void check_no_part(void) {
    CHECK(
        !exists("b.db.part") && !exists("b.db.part-wal") && !exists("b.db.part-journal") && !exists("b.db-wal") && !exists("b.db-journal"));
}

static bool has_same_state(relkvanu_store *one, relkvanu_store *other) {
    bool is_same = has_same_image(begins_read(one), begins_read(other));
    relkvanu_store_read_end(one);
    relkvanu_store_read_end(other);
    return is_same;
}

/* Recovers a file, which has from so many calls to so many, and closes it. */
static void has_some_calls(const char *name, uint32_t flags, uint64_t least, uint64_t most) {
    relkvanu_store_options options = job_options(flags, RELKVANU_STORE_NO_IMAGES);
    relkvanu_store_close(opens_at(name, &options, RELKVANU_STORE_OK));
    uint64_t found = report.image_place + report.replayed;
    CHECK(report.is_recovered && found >= least && found <= most, "%" PRIu64 " calls, and not %" PRIu64 " to %" PRIu64, found, least, most);
}

static void has_calls(const char *name, uint32_t flags, uint64_t calls) {
    has_some_calls(name, flags, calls, calls);
}

static relkvanu_store *new_job_without_images(void) {
    return new_job_alone(RELKVANU_STORE_NO_IMAGES);
}

CASE(a_backup) {
    relkvanu_store_options options = job_options(RELKVANU_STORE_RECOVER, RELKVANU_STORE_NO_IMAGES);
    struct stat is;
    umask(0);
    relkvanu_store *store = new_job_without_images();
    checkpoint(store, 1);
    backs_up(store, "b.db", RELKVANU_STORE_OK);
    check_no_part();
    CHECK(stat(in("b.db"), &is) == 0 && (is.st_mode & 0777) == 0600 && is.st_nlink == 1, "mode %o", is.st_mode);
    checkpoint(store, 101);
    backs_up(store, "b.db", RELKVANU_STORE_PRESENT);
    backs_up(store, "x.db", RELKVANU_STORE_PRESENT);
    backs_up(store, "c.db", RELKVANU_STORE_OK);
    relkvanu_store_close(store);
    has_calls("x.db", RELKVANU_STORE_RECOVER, 2 * CHECKPOINT_CALLS);
    has_calls("b.db", RELKVANU_STORE_BACKUP, CHECKPOINT_CALLS);
    CHECK(report.epoch == 2, "opening %" PRIu64, report.epoch);
    has_calls("c.db", RELKVANU_STORE_BACKUP, 2 * CHECKPOINT_CALLS);
    store = opens_at("b.db", &options, RELKVANU_STORE_OK); /* from then on it is a job */
    checkpoint(store, 101);
    relkvanu_store *other = opens_at("c.db", &options, RELKVANU_STORE_OK);
    CHECK(has_same_state(store, other), "another state");
    relkvanu_store_close(other);
    relkvanu_store_close(store);
}

/* With images, whose log is cut. */
CASE(a_backup_with_images) {
    relkvanu_store *store = new_job_alone(7);
    for (uint64_t i = 0; i < 40; i++) {
        CHECK(reserved(store, 1, 1) == i + 1, "name %" PRIu64, i + 1);
    }
    backs_up(store, "b.db", RELKVANU_STORE_OK);
    reserved(store, 1, 1);
    relkvanu_store_close(store);
    has_calls("b.db", RELKVANU_STORE_BACKUP, 40);
    CHECK(report.next_name == 41 && report.term == 1 && report.image_place >= 33, "image of call %" PRIu64, report.image_place);
}

/* A file is opened as what it is, and a refusal makes no job and changes none. */
CASE(flags_of_a_backup) {
    relkvanu_store_options options = job_options(RELKVANU_STORE_CREATE | RELKVANU_STORE_BACKUP, 0);
    opens(&options, RELKVANU_STORE_ABSENT);
    CHECK(!exists("x.db"), "a job");
    relkvanu_store *store = opens_as(&options, RELKVANU_STORE_CREATE, RELKVANU_STORE_OK);
    backs_up(store, "b.db", RELKVANU_STORE_OK);
    relkvanu_store_close(store);
    opens_not_at("b.db", &options, RELKVANU_STORE_STORAGE, "RELKVANU_STORE_BACKUP");
    options.flags = RELKVANU_STORE_RECOVER;
    opens_not_at("b.db", &options, RELKVANU_STORE_STORAGE, "backup");
    options.flags = RELKVANU_STORE_BACKUP;
    opens_not(&options, RELKVANU_STORE_BAD_ARGUMENT, "no backup");
    has_calls("b.db", RELKVANU_STORE_BACKUP, 0);
    opens_at("b.db", &options, RELKVANU_STORE_BAD_ARGUMENT);
    has_calls("b.db", RELKVANU_STORE_RECOVER, 0);
    run_sql(in("b.db"), "PRAGMA user_version=5");
    options.flags = RELKVANU_STORE_RECOVER;
    opens_at("b.db", &options, RELKVANU_STORE_NOT_A_STORE);
}

/* What else has the target's names, and what fails. Each time the store goes on. */
CASE(no_backup) {
    relkvanu_store *store = new_job_alone(0);
    checkpoint(store, 1);
    backs_up(store, "nowhere/b.db", RELKVANU_STORE_NOT_PUT);
    CHECK(errno == ENOENT && strstr(message, "nowhere/b.db") != NULL, "%d: %s", errno, message);
    write_text("b.db", "other");
    backs_up(store, "b.db", RELKVANU_STORE_PRESENT);
    CHECK(contains("b.db", "other"), "it was changed");
    unlink(in("b.db"));
    CHECK(symlink("nothing", in("b.db")) == 0, "a link");
    backs_up(store, "b.db", RELKVANU_STORE_PRESENT);
    unlink(in("b.db"));
    write_text("target", "other");
    CHECK(symlink("target", in("b.db.part")) == 0, "a link");
    backs_up(store, "b.db", RELKVANU_STORE_NOT_PUT);
    CHECK(errno == ELOOP && contains("target", "other"), "%d: %s", errno, message);
    unlink(in("b.db.part"));
    write_text("b.db.part", "other");
    int file = open(in("b.db.part"), O_RDWR);
    CHECK(file >= 0 && flock(file, LOCK_EX) == 0, "a lock");
    backs_up(store, "b.db", RELKVANU_STORE_NOT_NOW);
    CHECK(contains("b.db.part", "other"), "the part of another backup");
    close(file);
    checkpoint(store, 101);
    relkvanu_store_close(store);
    has_calls("x.db", RELKVANU_STORE_RECOVER, 2 * CHECKPOINT_CALLS);
}

/* A job whose file has the name of the part, open or not: it stays as it is. */
CASE(a_job_in_the_way) {
    relkvanu_store_options options = job_options(RELKVANU_STORE_CREATE, 0);
    relkvanu_store *other = opens_at("b.db.part", &options, RELKVANU_STORE_OK);
    checkpoint(other, 1);
    backs_up(other, "b.db", RELKVANU_STORE_PRESENT);
    CHECK(strstr(message, "b.db.part: it is the file of a job") != NULL, "%s", message);
    checkpoint(other, 101);
    relkvanu_store_close(other);
    relkvanu_store *store = opens(&options, RELKVANU_STORE_OK);
    backs_up(store, "b.db", RELKVANU_STORE_PRESENT);
    CHECK(!exists("b.db"), "a backup");
    relkvanu_store_close(store);
    has_calls("b.db.part", RELKVANU_STORE_RECOVER, 2 * CHECKPOINT_CALLS);
}

/* What a process left that was killed is begun anew. */
CASE(a_part_that_was_left) {
    relkvanu_store *store = new_job_alone(0);
    checkpoint(store, 1);
    write_text("b.db.part", "SQLite format 3 and other bytes that are no part of a backup");
    write_text("b.db.part-wal", "other");
    write_text("b.db.part-journal", "other");
    CHECK(chmod(in("b.db.part"), 0666) == 0, "mode");
    backs_up(store, "b.db", RELKVANU_STORE_OK);
    struct stat is;
    CHECK(stat(in("b.db"), &is) == 0 && (is.st_mode & 0777) == 0600, "mode %o", is.st_mode);
    check_no_part();
    relkvanu_store_close(store);
    has_calls("b.db", RELKVANU_STORE_BACKUP, CHECKPOINT_CALLS);
}

/* A failed commit closes the store: there is no backup of it. */
CASE(of_a_closed_store) {
    relkvanu_store *store = new_job_alone(0);
    CHECK(rename(in("x.db"), in("y.db")) == 0, "rename");
    relkvanu_store_call call = {.call = {.kind = RELKVANU_CALL_SAVEPOINT}};
    CHECK(relkvanu_store_calls(store, &call, 1) == RELKVANU_STORE_FAILED, "a commit");
    backs_up(store, "b.db", RELKVANU_STORE_CLOSED);
    CHECK(!exists("b.db"), "a backup");
    check_no_part();
    relkvanu_store_close(store);
}

/* Callers that reserve names, one each time. */
struct load {
    relkvanu_store *store;
    atomic_uint_fast64_t answered; /* the greatest name that a caller was told */
    atomic_bool is_over;
    const char *path; /* of a backup */
};

static void *reserves(void *with) {
    struct load *load = with;
    while (!atomic_load(&load->is_over)) {
        uint64_t name = reserved(load->store, 1, 1), before = atomic_load(&load->answered);
        while (before < name && !atomic_compare_exchange_weak(&load->answered, &before, name)) {}
    }
    return NULL;
}

/* A log of several parts, so that commits come between them. */
static void make_long(relkvanu_store *store) {
    static relkvanu_store_call calls[RELKVANU_STORE_MOST_CALLS];
    for (size_t list = 0; list < LISTS; list++) {
        for (size_t i = 0; i < RELKVANU_STORE_MOST_CALLS; i++) {
            calls[i] = (relkvanu_store_call){.call = {.kind = RELKVANU_CALL_RESERVE, .number = 1, .term = 1}};
        }
        CHECK(relkvanu_store_calls(store, calls, RELKVANU_STORE_MOST_CALLS) == RELKVANU_STORE_OK, "a list");
    }
}

/* Each backup has each name that was answered before it began, and none that was not given out before it ended. */
CASE(under_load) {
    uint64_t least[BACKUPS], most[BACKUPS], during = 0;
    pthread_t callers[CALLERS];
    struct load load = {.store = new_job_without_images(), .answered = LISTS * RELKVANU_STORE_MOST_CALLS};
    make_long(load.store);
    for (size_t i = 0; i < CALLERS; i++) {
        callers[i] = starts(reserves, &load);
    }
    for (size_t i = 0; i < BACKUPS; i++) {
        char name[20];
        snprintf(name, sizeof name, "b%zu.db", i);
        least[i] = atomic_load(&load.answered);
        backs_up(load.store, name, RELKVANU_STORE_OK);
        most[i] = atomic_load(&load.answered) + CALLERS;
        during += most[i] - CALLERS - least[i];
    }
    atomic_store(&load.is_over, true);
    for (size_t i = 0; i < CALLERS; i++) {
        pthread_join(callers[i], NULL);
    }
    relkvanu_store_close(load.store);
    CHECK(during > BACKUPS, "%" PRIu64 " calls beside %d backups", during, BACKUPS);
    for (size_t i = 0; i < BACKUPS; i++) {
        char name[20];
        snprintf(name, sizeof name, "b%zu.db", i);
        has_some_calls(name, RELKVANU_STORE_BACKUP, least[i], most[i]);
        CHECK(report.image_place + report.replayed + 1 == report.next_name, "next name %" PRIu64, report.next_name);
    }
}

static void *backs_up_too(void *with) {
    struct load *load = with;
    char words[RELKVANU_STORE_MESSAGE];
    int status = relkvanu_store_backup(load->store, load->path, words, sizeof words);
    CHECK(status == RELKVANU_STORE_OK || status == RELKVANU_STORE_NOT_NOW || status == RELKVANU_STORE_PRESENT, "status %d: %s", status,
        words);
    return status == RELKVANU_STORE_OK ? load : NULL;
}

/* Several at once: one of them makes the file. */
CASE(at_once) {
    pthread_t threads[CALLERS];
    unsigned made = 0;
    struct load load = {.store = new_job_without_images(), .path = in("b.db")};
    make_long(load.store);
    for (size_t i = 0; i < CALLERS; i++) {
        threads[i] = starts(backs_up_too, &load);
    }
    for (size_t i = 0; i < CALLERS; i++) {
        void *is_made;
        pthread_join(threads[i], &is_made);
        made += is_made != NULL;
    }
    relkvanu_store_close(load.store);
    CHECK(made == 1, "%u were made", made);
    check_no_part();
    has_calls("b.db", RELKVANU_STORE_BACKUP, LISTS * RELKVANU_STORE_MOST_CALLS);
}

static bool has_files(uint64_t first) {
    unsigned found = 0;
    for (uint64_t file = first; file < first + SUBTASKS; file++) {
        found += exists(stored(file));
    }
    CHECK(found == 0 || found == SUBTASKS, "%u files from %" PRIu64 " on", found, first);
    return found != 0;
}

/* Deletes what waits, as the discarder does. */
static void discard_all(relkvanu_store *store) {
    uint64_t files[64];
    uint8_t is_gone[64] = {0};
    relkvanu_store_call take = {.call = {.kind = RELKVANU_CALL_TAKE, .number = 64}, .files = files, .files_len = 64};
    CHECK(relkvanu_store_calls(store, &take, 1) == RELKVANU_STORE_OK, "a take");
    relkvanu_store_delete_files(store, files, take.answer.a, is_gone);
    for (size_t i = 0; i < take.answer.a; i++) {
        CHECK(is_gone[i], "file %" PRIu64, files[i]);
        done(store, RELKVANU_CALL_DELETED, 0, files[i]);
    }
}

/* The job went on after the backup, and its files are there: a savepoint of the backup has all its files. The backup gives out no name again, its
 * sweep leaves the files of the savepoint alone, and the store that has gone on puts and deletes nothing more. */
CASE(put_back) {
    relkvanu_store_options options = storage_options(RELKVANU_STORE_RECOVER, 0);
    relkvanu_store *store = new_job();
    uint64_t savepoint = completes(store, RELKVANU_CALL_SAVEPOINT, NULL); /* files 1 to 8 */
    completes(store, RELKVANU_CALL_TRIGGER, NULL);                        /* 9 to 16 */
    backs_up(store, "b.db", RELKVANU_STORE_OK);
    completes(store, RELKVANU_CALL_TRIGGER, NULL); /* 17 to 24 */
    discard_all(store);
    CHECK(has_files(1) && !has_files(9) && has_files(17), "the files");
    opens_at("b.db", &options, RELKVANU_STORE_STORAGE);
    options.flags = RELKVANU_STORE_BACKUP;
    relkvanu_store *back = opens_at("b.db", &options, RELKVANU_STORE_OK);
    CHECK(report.epoch == 2 && report.term == 1 && report.next_name == 25, "next name %" PRIu64, report.next_name);
    puts_file(store, 25, RELKVANU_STORE_STORAGE);
    is_swept(store, RELKVANU_STORE_STORAGE, 0);
    CHECK(done(back, RELKVANU_CALL_RESTORE, RELKVANU_STORE_NOW, savepoint).what == RELKVANU_RESTORED_SAVEPOINT, "a restore");
    is_swept(back, RELKVANU_STORE_OK, 0);
    CHECK(has_files(1) && !has_files(17), "the files after the sweep");
    completes(back, RELKVANU_CALL_TRIGGER, NULL); /* 25 to 32 */
    CHECK(has_files(1) && has_files(25), "the files of the next record");
    relkvanu_store_close(back);
    relkvanu_store_close(store);
    opens(&options, RELKVANU_STORE_BAD_ARGUMENT);
    options.flags = RELKVANU_STORE_RECOVER;
    opens_not(&options, RELKVANU_STORE_STORAGE, "an older copy");
    relkvanu_store_close(opens_at("b.db", &options, RELKVANU_STORE_OK));
    CHECK(report.epoch == 3 && report.term == 2, "opening %" PRIu64, report.epoch);
}

/* The opening of the backup is later than those that the job has had since. */
CASE(put_back_after_openings) {
    relkvanu_store_options options = storage_options(RELKVANU_STORE_RECOVER, 0);
    relkvanu_store *store = new_job();
    backs_up(store, "b.db", RELKVANU_STORE_OK);
    for (int i = 0; i < 3; i++) {
        relkvanu_store_close(store);
        store = opens(&options, RELKVANU_STORE_OK);
    }
    uint64_t last = report.epoch;
    options.flags = RELKVANU_STORE_BACKUP;
    relkvanu_store *back = opens_at("b.db", &options, RELKVANU_STORE_OK);
    CHECK(report.epoch > last, "opening %" PRIu64 " after %" PRIu64, report.epoch, last);
    puts_file(store, 25, RELKVANU_STORE_STORAGE);
    relkvanu_store_close(back);
    relkvanu_store_close(store);
}

/* Opened several times before its first opening has ended, since the process ended or there was a fault: no name comes twice. */
CASE(put_back_again) {
    relkvanu_store_options options = storage_options(RELKVANU_STORE_BACKUP, 0);
    relkvanu_store *store = new_job();
    backs_up(store, "b.db", RELKVANU_STORE_OK);
    completes(store, RELKVANU_CALL_TRIGGER, NULL);
    relkvanu_store_close(store);
    write_text("storage/16777217", "");
    opens_not_at("b.db", &options, RELKVANU_STORE_STORAGE, "2^24");
    unlink(in("storage/16777217"));
    write_text("storage/200000", "");
    run_sql(in("b.db"), "CREATE TRIGGER no BEFORE UPDATE OF epoch ON job BEGIN SELECT RAISE(ABORT, 'no'); END");
    opens_at("b.db", &options, RELKVANU_STORE_FAILED); /* the names are given out, and it still is a backup */
    options.flags = RELKVANU_STORE_RECOVER;
    opens_at("b.db", &options, RELKVANU_STORE_STORAGE);
    run_sql(in("b.db"), "DROP TRIGGER no");
    options.flags = RELKVANU_STORE_BACKUP;
    relkvanu_store_close(opens_at("b.db", &options, RELKVANU_STORE_OK));
    CHECK(report.next_name == 200001 && report.replayed == 4, "next name %" PRIu64, report.next_name);
}

/* A storage of another job, or none, is refused for a backup too. */
CASE(put_back_elsewhere) {
    relkvanu_store_options options = storage_options(RELKVANU_STORE_BACKUP, 0);
    relkvanu_store *store = new_job();
    backs_up(store, "b.db", RELKVANU_STORE_OK);
    relkvanu_store_close(store);
    CHECK(rename(in("storage/.relkvanu-job"), in("marker")) == 0, "the marker");
    opens_not_at("b.db", &options, RELKVANU_STORE_STORAGE, "no marker");
    write_text("storage/.relkvanu-job", "relkvanu job 00000000000000000000000000000001\nepoch 1\n");
    opens_not_at("b.db", &options, RELKVANU_STORE_STORAGE, "another job");
    options.storage = NULL;
    opens_not_at("b.db", &options, RELKVANU_STORE_STORAGE, "the options name none");
}

/* After a cancel no names are given out. */
CASE(of_a_cancelled_job) {
    relkvanu_store_options options = storage_options(RELKVANU_STORE_BACKUP, 0);
    relkvanu_store *store = new_job();
    completes(store, RELKVANU_CALL_TRIGGER, NULL);
    done(store, RELKVANU_CALL_CANCEL, RELKVANU_STORE_NOW, 0);
    backs_up(store, "b.db", RELKVANU_STORE_OK);
    relkvanu_store_close(store);
    write_text("storage/100", "");
    relkvanu_store_close(opens_at("b.db", &options, RELKVANU_STORE_OK));
    CHECK(report.mode.what == RELKVANU_MODE_CANCELLED && report.next_name == SUBTASKS + 1, "next name %" PRIu64, report.next_name);
}
