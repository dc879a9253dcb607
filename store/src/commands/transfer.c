/* Carries a complete record from one storage folder to another, by its manifest: for a copy that needs no job, and for a job that begins elsewhere.
 *
 * The folder is made beside its name, and gets it once all is on the disk. A file that both folders can have is linked, so it stays although the
 * first job deletes it. */
#include "../files/files.h"
#include "../files/folder.h"
#include "../job/job.h"
#include "../manifests/known_files.h"
#include "../manifests/manifest.h"
#include "../store.h"
#include "commands.h"

#include <errno.h>
#include <fcntl.h>
#include <inttypes.h>
#include <stdio.h>
#include <stdlib.h>
#include <string.h>
#include <sys/file.h>
#include <unistd.h>

enum { TRIES = 100 }; /* times that a record may end while it is carried */

struct transfer {
    relkvanu_store *from;            /* the folder with its marker, and what went wrong; it is not opened */
    const char *from_name, *to_name; /* the folders */
    char *part;                      /* the folder that is made */
    int to;                          /* the same */
    bool may_link;
    uint64_t passed; /* manifests of the job that are damaged or lack files */
    relkvanu_store_carried *told;
};

static int copy_file(const struct transfer *t, const char *name, uint32_t *sum) {
    int from = openat(t->from->storage.folder, name, O_RDONLY | O_NOFOLLOW | O_NONBLOCK | O_CLOEXEC);
    if (from < 0) {
        return errno;
    }
    int to = openat(t->to, name, O_WRONLY | O_CREAT | O_EXCL | O_NOFOLLOW | O_CLOEXEC, 0600);
    int error = to < 0 ? errno : rks_give(to, t->to);
    error = error == 0 ? rks_copy_contents(from, to, sum) : error;
    error = to >= 0 && close(to) != 0 && error == 0 ? errno : error;
    close(from);
    return error;
}

/* A link is on the disk with the folder, and is not read. File systems without links, or with too few of them, get a copy, of which *sum is the checksum. */
static int carry_file(struct transfer *t, const char *name, bool *is_copy, uint32_t *sum) {
    *is_copy = false;
    if (t->may_link && linkat(t->from->storage.folder, name, t->to, name, 0) == 0) {
        return 0;
    }
    int error = t->may_link ? errno : EXDEV;
    *is_copy = error == EXDEV || error == EPERM || error == EMLINK || error == ENOTSUP || error == ENOSYS;
    t->may_link = t->may_link && error == EMLINK;
    return *is_copy ? copy_file(t, name, sum) : error;
}

/* Carries a file of the record. RELKVANU_STORE_NOT_NOW: it is not there any more. */
static int carry(void *with, const struct rks_part *part) {
    struct transfer *t = with;
    char name[32];
    struct stat found;
    bool is_copy;
    uint32_t sum = 0;
    snprintf(name, sizeof name, "%" PRIu64, part->file);
    if (!part->is_file || rks_find_file(t->to, part->file, &found)) {
        return RELKVANU_STORE_OK; /* several subtasks may have it */
    }
    int error = carry_file(t, name, &is_copy, &sum);
    if (error != 0) {
        return error == ENOENT ? RELKVANU_STORE_NOT_NOW : rks_file_fault(t->from, name, error);
    }
    bool is_there = rks_find_file(t->to, part->file, &found) && S_ISREG(found.st_mode);
    if (!is_there || (part->has_bytes && (uint64_t)found.st_size != part->bytes)) {
        return rks_say(t->from, RELKVANU_STORE_DAMAGED, name, "it is not as long as its manifest says");
    }
    if (is_copy && part->has_sum && part->sum != sum) {
        return rks_say(t->from, RELKVANU_STORE_DAMAGED, name, "it has another checksum than its manifest says");
    }
    t->told->files++;
    t->told->bytes += (uint64_t)found.st_size;
    return RELKVANU_STORE_OK;
}

static int remove_entry(void *with, const struct dirent *entry) {
    return unlinkat(*(const int *)with, entry->d_name, 0) == 0 || errno == ENOENT ? 0 : errno;
}

/* Removes a folder of files. One that is not there is removed. */
static int remove_folder(struct transfer *t, const char *name) {
    int folder = open(name, O_RDONLY | O_DIRECTORY | O_NOFOLLOW | O_CLOEXEC);
    int error = folder < 0 ? errno : rks_each_entry(folder, remove_entry, &folder);
    error = error < 0 ? errno : error;
    rks_close(folder);
    error = error == 0 && rmdir(name) != 0 ? errno : error;
    return error == 0 || error == ENOENT ? RELKVANU_STORE_OK : rks_file_fault(t->from, name, error);
}

static bool is_from(const struct transfer *t) {
    struct stat held, from;
    return fstat(t->to, &held) == 0 && fstat(t->from->storage.folder, &from) == 0 && rks_is_same(&held, &from);
}

/* Opens the part, and locks it. RELKVANU_STORE_NOT_NOW: it has lost its name meanwhile. */
static int open_part(struct transfer *t) {
    t->to = open(t->part, O_RDONLY | O_DIRECTORY | O_NOFOLLOW | O_CLOEXEC);
    if (t->to < 0) {
        return errno == ENOENT ? RELKVANU_STORE_OK : rks_file_fault(t->from, t->part, errno);
    }
    int status = RELKVANU_STORE_OK;
    if (is_from(t)) {
        status = rks_say(t->from, RELKVANU_STORE_PRESENT, t->part, "it is the folder to carry from, and would be made anew");
    } else if (flock(t->to, LOCK_EX | LOCK_NB) != 0) {
        status = errno == EWOULDBLOCK ? rks_say(t->from, RELKVANU_STORE_IN_USE, t->part, "another export or import writes it")
                                      : rks_file_fault(t->from, t->part, errno);
    } else if (!rks_is_named(t->to, t->part)) { /* another call may have finished it, or removed it, before the lock was had */
        status = RELKVANU_STORE_NOT_NOW;
    }
    if (status != RELKVANU_STORE_OK) {
        close(t->to);
        t->to = -1;
    }
    return status;
}

/* Opens the part, which nobody else removes or names while it is open here. */
static int lock_part(struct transfer *t) {
    int status = RELKVANU_STORE_NOT_NOW;
    for (int tries = 0; tries < TRIES && status == RELKVANU_STORE_NOT_NOW; tries++) {
        status = open_part(t);
    }
    return status == RELKVANU_STORE_NOT_NOW ? rks_say(t->from, RELKVANU_STORE_IN_USE, t->part, "other exports or imports write it")
                                            : status;
}

/* The part is that of the user of an empty folder whose name it gets, or else of the folder that it is in. */
static int give_part(struct transfer *t) {
    int empty = open(t->to_name, O_RDONLY | O_DIRECTORY | O_NOFOLLOW | O_CLOEXEC);
    int error = empty >= 0 ? rks_give(t->to, empty) : rks_give_beside(t->to, t->part);
    rks_close(empty);
    return error == 0 ? RELKVANU_STORE_OK : rks_file_fault(t->from, t->part, error);
}

/* Makes the part anew. */
static int make_folder(struct transfer *t) {
    int status = lock_part(t);
    if (t->to >= 0) {
        status = remove_folder(t, t->part);
        close(t->to);
        t->to = -1;
    }
    status = status == RELKVANU_STORE_OK && mkdir(t->part, 0700) != 0 ? rks_file_fault(t->from, t->part, errno) : status;
    status = status == RELKVANU_STORE_OK ? lock_part(t) : status;
    status = status == RELKVANU_STORE_OK && t->to < 0 ? rks_file_fault(t->from, t->part, ENOENT) : status;
    return status == RELKVANU_STORE_OK ? give_part(t) : status;
}

static void drop_folder(struct transfer *t) {
    if (t->to >= 0) {
        int error = errno;
        char fault[RKS_MESSAGE];
        memcpy(fault, t->from->fault, sizeof fault);
        remove_folder(t, t->part);
        close(t->to);
        t->to = -1;
        memcpy(t->from->fault, fault, sizeof fault);
        errno = error;
    }
}

static int write_manifest(struct transfer *t, uint64_t id, const struct rks_text *text) {
    char name[RKS_MANIFEST_NAME];
    rks_manifest_name(id, "", name);
    int file = openat(t->to, name, O_WRONLY | O_CREAT | O_EXCL | O_NOFOLLOW | O_CLOEXEC, 0600);
    int error = file < 0 ? errno : rks_give(file, t->to), written = file < 0 ? 0 : rks_write_new(file, text->at, text->len);
    error = error == 0 ? written : error;
    return error == 0 ? RELKVANU_STORE_OK : rks_file_fault(t->from, name, error);
}

/* Carries one record with its manifest. RELKVANU_STORE_NOT_NOW: it has ended meanwhile. */
static int carry_record(struct transfer *t, struct rks_manifests *all, const struct rks_manifest *m, const char *job) {
    struct rks_text text = {0};
    t->told->record = m->id;
    t->told->is_savepoint = m->is_savepoint;
    t->told->files = t->told->bytes = 0;
    int status = make_folder(t);
    status = status == RELKVANU_STORE_OK ? rks_manifest_parts(all, t->from->storage.folder, m->id, carry, t) : status;
    status = status == RELKVANU_STORE_OK ? rks_manifest_text(all, t->from->storage.folder, m->id, job, &text) : status;
    status = status == RELKVANU_STORE_FAILED && errno == ENOENT ? RELKVANU_STORE_NOT_NOW : status;
    status = status == RELKVANU_STORE_OK ? write_manifest(t, m->id, &text) : status;
    free(text.at);
    return status;
}

static uint64_t count_passed(const struct rks_manifests *all, const char *owner) {
    uint64_t passed = 0;
    for (size_t i = 0; i < all->len; i++) {
        const struct rks_manifest *it = &all->at[i];
        bool is_of_job = it->status == RELKVANU_STORE_OK && (owner == NULL || strcmp(it->job, owner) == 0);
        passed += it->status != RELKVANU_STORE_OK || (is_of_job && it->missing != 0);
    }
    return passed;
}

/* Chooses a record of those that were listed. RELKVANU_STORE_NOT_NOW: list them again. */
static int choose(struct transfer *t, struct rks_manifests *all, uint64_t record, struct rks_manifest **chosen) {
    const char *owner = t->from->job.identity[0] != 0 ? t->from->job.identity : NULL;
    *chosen = rks_choose_manifest(all, owner, record);
    t->passed = count_passed(all, owner);
    if (record == 0 && rks_has_missed(all, t->from->storage.folder, *chosen)) {
        return RELKVANU_STORE_NOT_NOW;
    }
    return rks_check_choice(t->from, t->from_name, all, owner, record, *chosen);
}

/* Chooses a record and carries it. While the job runs it may end meanwhile: then there is a later one. */
static int carry_chosen(struct transfer *t, uint64_t record, const char *job) {
    int status = RELKVANU_STORE_NOT_NOW;
    for (int tries = 0; tries < TRIES && status == RELKVANU_STORE_NOT_NOW; tries++) {
        struct rks_manifests all;
        struct rks_manifest *chosen = NULL;
        drop_folder(t);
        status = rks_list_manifests(t->from->storage.folder, &all);
        if (status != RELKVANU_STORE_OK) {
            status = status == RELKVANU_STORE_NO_MEMORY ? status : rks_file_fault(t->from, t->from_name, errno);
        } else if ((status = choose(t, &all, record, &chosen)) == RELKVANU_STORE_OK) {
            status = carry_record(t, &all, chosen, job);
        }
        rks_free_manifests(&all);
    }
    return status == RELKVANU_STORE_NOT_NOW ? rks_say(t->from, RELKVANU_STORE_ABSENT, t->from_name, "its records end too soon") : status;
}

/* Gives the folder its name, once all of it is on the disk. One of that name has to be empty, or not there. */
static int name_folder(struct transfer *t) {
    if (fsync(t->to) != 0) {
        return rks_file_fault(t->from, t->part, errno);
    }
    if (rename(t->part, t->to_name) != 0) {
        bool is_there = errno == ENOTEMPTY || errno == EEXIST || errno == ENOTDIR;
        return is_there ? rks_say(t->from, RELKVANU_STORE_PRESENT, t->to_name, "it is there, and is no empty folder")
                        : rks_file_fault(t->from, t->to_name, errno);
    }
    close(t->to);
    t->to = -1;
    return rks_sync_folder_of(t->from, t->to_name);
}

static int open_from(struct transfer *t) {
    uint64_t marked = 0;
    bool has_marker; /* an exported folder has none */
    int status = rks_open_folder(t->from, t->from_name);
    return status == RELKVANU_STORE_OK ? rks_find_owner(t->from, t->from_name, &marked, &has_marker) : status;
}

/* Makes the folder. With a job it is the storage of that one, and has its marker. */
static int make(struct transfer *t, uint64_t record, const char *job) {
    int status = open_from(t);
    status = status == RELKVANU_STORE_OK ? carry_chosen(t, record, job) : status;
    int error = status == RELKVANU_STORE_OK && job != NULL ? rks_marker_write(t->to, job, 1) : 0;
    status = error != 0 ? rks_file_fault(t->from, t->part, error) : status;
    status = status == RELKVANU_STORE_OK ? name_folder(t) : status;
    drop_folder(t);
    return status;
}

static int transfer(const char *from, const char *to, uint64_t record, const char *job, relkvanu_store_carried *told_to, uint64_t *passed) {
    relkvanu_store *store;
    *told_to = (relkvanu_store_carried){0};
    int status = rks_new_store(&store, told_to->message);
    if (status != RELKVANU_STORE_OK) {
        return status;
    }
    char *name = rks_without_slashes(to);
    struct transfer t = {.from = store, .from_name = from, .to_name = name, .to = -1, .may_link = true, .told = told_to};
    if (name == NULL || asprintf(&t.part, "%s.part", name) < 0) {
        t.part = NULL;
    }
    status = t.part == NULL ? RELKVANU_STORE_NO_MEMORY : make(&t, record, job);
    *passed = t.passed;
    if (status != RELKVANU_STORE_OK) {
        *told_to = (relkvanu_store_carried){0};
        memcpy(told_to->message, store->fault, sizeof told_to->message);
    }
    free(t.part);
    free(name);
    rks_release_store(store);
    return status;
}

int relkvanu_store_export(const char *folder, uint64_t record, const char *to, relkvanu_store_carried *carried) {
    uint64_t passed;
    return transfer(folder, to, record, NULL, carried, &passed);
}

/* Whether the folder has the record already: an import has ended between the two. Each has the marker of a job, and no file at the path. */
static bool is_carried(const char *folder, const char *from, uint64_t record) {
    struct rks_manifests there = {0}, here = {0};
    int source = open(from, O_RDONLY | O_DIRECTORY | O_CLOEXEC);
    const struct rks_manifest *one = source < 0 ? NULL : rks_list_owned(folder, record, &there);
    bool is_carried = false;
    if (one != NULL && rks_list_manifests(source, &here) == RELKVANU_STORE_OK) {
        for (size_t i = 0; i < here.len; i++) {
            is_carried = is_carried || (here.at[i].job[0] != 0 && strcmp(here.at[i].job, one->origin) == 0);
        }
    }
    rks_free_manifests(&here);
    rks_free_manifests(&there);
    rks_close(source);
    return is_carried;
}

int rks_carry(const char *from, uint64_t record, const char *folder, relkvanu_store_carried *carried, uint64_t *passed) {
    char job[RKS_IDENTITY + 1];
    *carried = (relkvanu_store_carried){0};
    *passed = 0;
    if (!rks_new_identity(job)) {
        snprintf(carried->message, sizeof carried->message, "%.400s: no random numbers", folder);
        return RELKVANU_STORE_FAILED;
    }
    return is_carried(folder, from, record) ? RELKVANU_STORE_OK : transfer(from, folder, record, job, carried, passed);
}

int relkvanu_store_import(const char *from, uint64_t record, const char *path, const char *folder, relkvanu_store_recovered *recovered) {
    uint64_t passed;
    struct stat found;
    relkvanu_store_carried carried;
    *recovered = (relkvanu_store_recovered){0};
    if (stat(path, &found) == 0 && found.st_size != 0) {
        snprintf(recovered->message, sizeof recovered->message, "%.400s: there is a job", path);
        return RELKVANU_STORE_PRESENT;
    }
    int status = rks_carry(from, record, folder, &carried, &passed);
    if (status != RELKVANU_STORE_OK) {
        memcpy(recovered->message, carried.message, sizeof recovered->message);
        return status;
    }
    status = relkvanu_store_recover(path, folder, 0, recovered);
    recovered->passed = status == RELKVANU_STORE_OK ? passed : 0; /* the folder has one manifest */
    return status;
}
