/* Puts a backup back in the place of a job's file: prepares a new file over a folder of its own, sets the job's files aside, and names the new one. */
#include "../files/files.h"
#include "../files/folder.h"
#include "../job/job.h"
#include "../log/log.h"
#include "../manifests/known_files.h"
#include "../manifests/manifest.h"
#include "../store.h"

#include <errno.h>
#include <fcntl.h>
#include <inttypes.h>
#include <stdio.h>
#include <stdlib.h>
#include <string.h>
#include <unistd.h>

/* Terms that the job may have begun since the backup; how far its names may be above those of the backup. */
static const uint64_t SOME_TERMS = UINT64_C(1) << 32, SOME_NAMES = UINT64_C(1) << 36;
enum { PIECE = 1 << 16 };

struct putting {
    relkvanu_store *old; /* holds the lock, the folder and what went wrong; it is not opened */
    relkvanu_store *job; /* the new one */
    char *path, *folder, *aside;
    uint64_t marked;
    relkvanu_store_recovered *told;
};

/* One text behind the other, to be freed. NULL: no memory. */
static char *joined(const char *one, const char *other) {
    char *text;
    return one != NULL && asprintf(&text, "%s%s", one, other) >= 0 ? text : NULL;
}

/* Copies a file, which is on the disk then. */
static int copy(struct putting *p, const char *from, int follows, const char *to) {
    uint32_t sum;
    int source = open(from, O_RDONLY | O_CLOEXEC | follows);
    if (source < 0) {
        return rks_file_fault(p->old, from, errno);
    }
    int target = open(to, O_WRONLY | O_CREAT | O_EXCL | O_NOFOLLOW | O_CLOEXEC, 0600);
    int error = target < 0 ? errno : rks_give_beside(target, to);
    error = error == 0 ? rks_copy_contents(source, target, &sum) : error;
    error = target >= 0 && close(target) != 0 && error == 0 ? errno : error;
    close(source);
    return error == 0 ? RELKVANU_STORE_OK : rks_file_fault(p->old, to, error);
}

/* Removes what is beside the new file, and the file too if it is to go. */
static int clean(struct putting *p, bool with_file) {
    int status = rks_remove(p->old, p->folder, "/.relkvanu-job");
    status = status == RELKVANU_STORE_OK ? rks_remove(p->old, p->folder, "/.relkvanu-job.new") : status;
    status = status == RELKVANU_STORE_OK && rmdir(p->folder) != 0 && errno != ENOENT ? rks_file_fault(p->old, p->folder, errno) : status;
    return status == RELKVANU_STORE_OK ? rks_remove_job(p->old, p->path, with_file) : status;
}

/* Whether each file of a subtask is in the storage, as long as the manifests say. Otherwise RELKVANU_STORE_FILE_LOST. */
static int find_files(void *with, uint16_t vertex, uint16_t index, const uint64_t *files, size_t len) {
    const struct putting *p = with;
    bool has_all = true;
    (void)vertex, (void)index;
    for (size_t i = 0; i < len && has_all; i++) {
        struct stat is;
        uint64_t bytes;
        has_all = rks_find_file(p->old->storage.folder, files[i], &is) && S_ISREG(is.st_mode);
        has_all = has_all && (!rks_find_length(&p->old->kept.sums, files[i], &bytes) || bytes == (uint64_t)is.st_size);
        p->told->files += has_all;
        p->told->bytes += has_all ? (uint64_t)is.st_size : 0;
    }
    return has_all ? RELKVANU_STORE_OK : RELKVANU_STORE_FILE_LOST;
}

static bool is_whole(struct putting *p, uint64_t id) {
    p->told->files = p->told->bytes = 0;
    return rks_subtasks_of(p->job->handle, id, find_files, p) == RELKVANU_STORE_OK;
}

/* The record to begin from: the choice if its files are all there, or else the last savepoint of which they are; 0: none. A restore takes no older
 * checkpoint. */
static uint64_t choose(struct putting *p) {
    relkvanu_answer choice = relkvanu_choice(p->job->handle);
    uint64_t last = 0;
    if (choice.what != RELKVANU_CHOICE_FRESH && is_whole(p, choice.a)) {
        p->told->is_savepoint = choice.what == RELKVANU_CHOICE_SAVEPOINT;
        return choice.a;
    }
    for (relkvanu_answer it = relkvanu_live_from(p->job->handle, 0); it.what != RELKVANU_LIVE_NONE;
         it = relkvanu_live_from(p->job->handle, it.a + 1)) {
        bool is_done = it.what == RELKVANU_LIVE_SAVEPOINT && it.b != 0;
        last = is_done && is_whole(p, it.a) ? it.a : last;
        p->told->passed += is_done && last != it.a;
    }
    p->told->is_savepoint = true;
    return last != 0 && is_whole(p, last) ? last : 0;
}

static int make(struct putting *p, relkvanu_call made) {
    relkvanu_store_call call = {.call = made};
    int status = relkvanu_store_calls(p->job, &call, 1);
    if (status >= RELKVANU_STORE_FAILED && status <= RELKVANU_STORE_OUT_OF_MEMORY) {
        relkvanu_store_message(p->job, p->old->fault, sizeof p->old->fault);
    } else if (status == RELKVANU_STORE_OK && call.answer.code != RELKVANU_DONE) {
        char text[RELKVANU_ANSWER_TEXT + 1] = "";
        relkvanu_answer_text(&call.answer, (uint8_t *)text, RELKVANU_ANSWER_TEXT);
        status = call.answer.code == RELKVANU_NO_MEMORY ? RELKVANU_STORE_NO_MEMORY
                                                        : rks_say(p->old, RELKVANU_STORE_ABSENT, p->old->file.path, text);
    }
    return status;
}

/* Passes the terms and the names that were given out since. */
static int pass_names(struct putting *p, const relkvanu_store_report *report) {
    uint64_t greatest = 0, next = report->next_name;
    int status = rks_greatest_file(p->old, &greatest);
    if (status != RELKVANU_STORE_OK) {
        return status == RELKVANU_STORE_NOT_DONE ? rks_file_fault(p->old, "the storage folder", errno) : status;
    }
    if (greatest >= next && greatest - next > SOME_NAMES) {
        char words[120];
        snprintf(words, sizeof words, "the storage folder has %" PRIu64 ", which is no file of the job: set it aside", greatest);
        return rks_say(p->old, RELKVANU_STORE_STORAGE, p->old->file.path, words);
    }
    next = greatest >= next ? greatest + 1 : next;
    return make(p, (relkvanu_call){.kind = RELKVANU_CALL_ADVANCE, .term = report->term + SOME_TERMS, .number = next});
}

/* A call that takes the job to the record that was chosen. */
static int restore(struct putting *p, const relkvanu_store_report *report) {
    if (report->mode.what == RELKVANU_MODE_CANCELLED) {
        return rks_say(p->old, RELKVANU_STORE_ABSENT, p->old->file.path, "the job of the backup was cancelled");
    }
    uint64_t id = choose(p);
    if (id == 0) {
        return rks_say(p->old, RELKVANU_STORE_ABSENT, p->old->file.path, "no record of the backup has all its files in the storage folder");
    }
    bool is_choice = relkvanu_choice(p->job->handle).a == id;
    p->told->record = id;
    int status = make(p, (relkvanu_call){.kind = RELKVANU_CALL_RESTORE, .number = is_choice ? 0 : id});
    status = status == RELKVANU_STORE_OK ? pass_names(p, report) : status;
    relkvanu_answer term = relkvanu_term(p->job->handle);
    p->told->term = term.a;
    p->told->next_name = term.b;
    return status;
}

/* The options of the opening are not read: the job keeps its own settings and shape. */
static int open_copy(struct putting *p, relkvanu_store_report *report) {
    static const uint64_t shape[] = {1};
    relkvanu_store_options options = {.flags = RELKVANU_STORE_BACKUP,
        .storage = p->folder,
        .settings = {.interval = 1000, .at_once = 1, .timeout = 1000, .retained = 1},
        .shape = shape,
        .shape_len = 1};
    int status = relkvanu_store_open(&p->job, p->path, &options, report);
    if (status != RELKVANU_STORE_OK) {
        memcpy(p->old->fault, report->message, sizeof p->old->fault);
    } else {
        p->job->storage.is_stand_in = true;
    }
    return status;
}

/* Makes the new file of the backup over a folder that has the marker alone, and closes it. */
static int prepare(struct putting *p, const char *backup) {
    relkvanu_store_report report;
    if (mkdir(p->folder, 0700) != 0) {
        return rks_file_fault(p->old, p->folder, errno);
    }
    int folder = open(p->folder, O_RDONLY | O_DIRECTORY | O_CLOEXEC);
    int error = folder < 0 ? errno : rks_marker_write(folder, p->old->job.identity, p->marked);
    rks_close(folder);
    int status = error == 0 ? copy(p, backup, 0, p->path) : rks_file_fault(p->old, p->folder, error);
    status = status == RELKVANU_STORE_OK ? open_copy(p, &report) : status;
    if (status == RELKVANU_STORE_OK) {
        status = restore(p, &report);
        relkvanu_store_close(p->job);
    }
    return status == RELKVANU_STORE_OK ? rks_check_closed(p->old, p->path) : status;
}

/* Gives a file of the job, if it is there, a second name in the folder with what is set aside. */
static int set_aside(struct putting *p, const char *from, const char *name) {
    char *to;
    struct stat is;
    if (lstat(from, &is) != 0) {
        return errno == ENOENT ? RELKVANU_STORE_OK : rks_file_fault(p->old, from, errno);
    }
    if (asprintf(&to, "%s/%s", p->aside, name) < 0) {
        return RELKVANU_STORE_NO_MEMORY;
    }
    int status = link(from, to) == 0 ? RELKVANU_STORE_OK : rks_file_fault(p->old, to, errno);
    free(to);
    return status;
}

/* Makes the folder of what is set aside. */
static int make_aside(struct putting *p) {
    int made = mkdtemp(p->aside) == NULL ? -1 : open(p->aside, O_RDONLY | O_DIRECTORY | O_NOFOLLOW | O_CLOEXEC);
    int error = made < 0 ? errno : rks_give_beside(made, p->aside);
    rks_close(made);
    return error == 0 ? RELKVANU_STORE_OK : rks_file_fault(p->old, p->aside, error);
}

/* Sets the job's files and a copy of the marker aside, each under a second name before it loses its first. */
static int set_all_aside(struct putting *p, const char *folder) {
    static const char *const ends[] = {"", "-wal", "-shm"};
    const char *base = strrchr(p->old->file.path, '/') + 1;
    int status = make_aside(p);
    if (status != RELKVANU_STORE_OK) {
        return status;
    }
    char *marker = joined(folder, "/.relkvanu-job"), *kept = joined(p->aside, "/.relkvanu-job");
    status = marker != NULL && kept != NULL ? copy(p, marker, O_NOFOLLOW, kept) : RELKVANU_STORE_NO_MEMORY;
    for (size_t i = 0; i < sizeof ends / sizeof *ends && status == RELKVANU_STORE_OK; i++) {
        char from[4200], to[300];
        snprintf(from, sizeof from, "%.4000s%s", p->old->file.path, ends[i]);
        snprintf(to, sizeof to, "%.250s%s", base, ends[i]);
        status = set_aside(p, from, to);
    }
    status = status == RELKVANU_STORE_OK ? rks_sync_folder_of(p->old, kept) : status;
    free(marker);
    free(kept);
    return status == RELKVANU_STORE_OK ? rks_sync_folder_of(p->old, p->old->file.path) : status;
}

/* No engine starts while there is no file of the job. That it has gone is on the disk before its -wal goes: without that the file lacks calls. */
static int replace(struct putting *p) {
    const char *path = p->old->file.path;
    int status = rks_drop_tail(p->old);
    status = status == RELKVANU_STORE_OK ? rks_remove(p->old, path, "") : status;
    status = status == RELKVANU_STORE_OK ? rks_sync_folder_of(p->old, path) : status;
    status = status == RELKVANU_STORE_OK ? rks_remove(p->old, path, "-wal") : status;
    status = status == RELKVANU_STORE_OK ? rks_remove(p->old, path, "-shm") : status;
    return status == RELKVANU_STORE_OK ? rks_name_job(p->old, p->path) : status;
}

static bool has_names(struct putting *p) {
    char *within = rks_folder_of(p->old->file.path);
    p->path = rks_scratch_name(p->old->file.path, "");
    p->folder = rks_scratch_name(p->old->file.path, "-state");
    p->aside = joined(within, "/aside-XXXXXX");
    free(within);
    return p->path != NULL && p->folder != NULL && p->aside != NULL;
}

static int put_back(struct putting *p, const char *backup, const char *path, const char *folder) {
    int status = rks_lock(p->old, path);
    status = status == RELKVANU_STORE_OK ? rks_open_folder(p->old, folder) : status;
    status = status == RELKVANU_STORE_OK ? rks_lock_folder(p->old, folder) : status; /* until the folder is closed */
    status = status == RELKVANU_STORE_OK ? rks_read_owner(p->old, folder, &p->marked) : status;
    status = status == RELKVANU_STORE_OK ? rks_pass_manifests(p->old, folder, &p->marked) : status;
    if (status != RELKVANU_STORE_OK) {
        return status;
    }
    if (!has_names(p)) {
        return RELKVANU_STORE_NO_MEMORY;
    }
    status = clean(p, true); /* what an earlier call has left */
    status = status == RELKVANU_STORE_OK ? prepare(p, backup) : status;
    status = status == RELKVANU_STORE_OK ? clean(p, false) : status;
    status = status == RELKVANU_STORE_OK ? set_all_aside(p, folder) : status;
    status = status == RELKVANU_STORE_OK ? replace(p) : status;
    char fault[RKS_MESSAGE];
    int error = errno;
    memcpy(fault, p->old->fault, sizeof fault);
    clean(p, true);
    memcpy(p->old->fault, fault, sizeof fault);
    errno = error;
    return status;
}

int relkvanu_store_put_back(const char *backup, const char *path, const char *folder, relkvanu_store_recovered *recovered) {
    *recovered = (relkvanu_store_recovered){0};
    struct putting p = {.told = recovered};
    int status = rks_new_store(&p.old, recovered->message);
    if (status != RELKVANU_STORE_OK) {
        return status;
    }
    status = put_back(&p, backup, path, folder);
    if (status != RELKVANU_STORE_OK) {
        *recovered = (relkvanu_store_recovered){0};
    }
    snprintf(recovered->message, sizeof recovered->message, "%s", status == RELKVANU_STORE_OK ? p.aside : p.old->fault);
    rks_release_store(p.old);
    free(p.path);
    free(p.folder);
    free(p.aside);
    return status;
}
