/* Takes a record over from a folder: the job that has the folder is fenced, another one begins from the record, and its files leave the folder.
 *
 * Nothing leaves before the other job is there with links or copies of all files, so a claim that ends in between has lost nothing. Before there is that job the
 * record is marked in the folder, so that no other claim has it too, or takes an earlier one for the latest. */
#include "../files/files.h"
#include "../job/job.h"
#include "../manifests/manifest.h"
#include "../store.h"
#include "commands.h"

#include <errno.h>
#include <fcntl.h>
#include <inttypes.h>
#include <stdio.h>
#include <stdlib.h>
#include <string.h>
#include <unistd.h>

enum { TRIES = 100 }; /* times that records may end while they are listed */

struct claim {
    relkvanu_store *from; /* the folder with its marker, and what went wrong; it is not opened */
    const char *from_name;
    bool has_marker;
    uint64_t epoch;
    struct rks_manifests all;
    void *others; /* the files that other records have */
    char *target; /* the whole path of the folder of the claim: a mark names it */
    relkvanu_store_recovered *told;
};

/* Reads the manifests anew. */
static int list(struct claim *c) {
    rks_free_manifests(&c->all);
    int status = rks_list_manifests(c->from->storage.folder, &c->all);
    return status == RELKVANU_STORE_OK || status == RELKVANU_STORE_NO_MEMORY ? status : rks_file_fault(c->from, c->from_name, errno);
}

static const char *owner(const struct claim *c) {
    return c->has_marker ? c->from->job.identity : NULL;
}

static struct rks_manifest *chosen(struct claim *c, uint64_t record) {
    return rks_choose_manifest(&c->all, owner(c), record);
}

static bool is_mine(const struct claim *c, const struct rks_manifest *mark) {
    return mark != NULL && mark->target != NULL && strcmp(mark->target, c->target) == 0;
}

/* The latest record, if the same call has marked it and ended then. Otherwise 0. */
static uint64_t begun_record(struct claim *c) {
    const struct rks_manifest *latest = rks_latest_manifest(&c->all, owner(c));
    return latest != NULL && is_mine(c, rks_mark_of(&c->all, latest->id)) ? latest->id : 0;
}

/* Whether the record is not another claim's. */
static int check_mark(struct claim *c, uint64_t record) {
    char words[200];
    const struct rks_manifest *mark = rks_mark_of(&c->all, record);
    if (mark == NULL || is_mine(c, mark)) {
        return RELKVANU_STORE_OK;
    }
    rks_say_claimed(mark, words, sizeof words);
    return rks_say(c->from, RELKVANU_STORE_ABSENT, c->from_name, words);
}

/* From now on the record is this claim's. An old job that ran until it was fenced may have ended it: then its manifest is not there. */
static int mark(struct claim *c, uint64_t record) {
    struct rks_text text = {0};
    int folder = c->from->storage.folder, status = rks_mark_text(&c->all, folder, record, c->target, &text), error = errno;
    if (status == RELKVANU_STORE_OK) {
        error = rks_put_manifest(folder, record, RKS_CLAIMED, &text);
        error = error == 0 && fsync(folder) != 0 ? errno : error;
        status = error == 0 ? RELKVANU_STORE_OK : RELKVANU_STORE_FAILED;
    }
    free(text.at);
    if (status != RELKVANU_STORE_FAILED) {
        return status;
    }
    return error == ENOENT ? RELKVANU_STORE_OK : rks_file_fault(c->from, c->from_name, error);
}

/* Reads the manifests anew, and again while records of a job that runs end meanwhile. */
static int list_all(struct claim *c, uint64_t record) {
    int status = list(c);
    for (int tries = 1;
         tries < TRIES && status == RELKVANU_STORE_OK && record == 0 && rks_has_missed(&c->all, c->from->storage.folder, chosen(c, record));
         tries++) {
        status = list(c);
    }
    return status;
}

static bool is_file(const char *path) {
    struct stat found;
    return stat(path, &found) == 0 && found.st_size != 0;
}

static bool is_same_folder(const struct claim *c, const char *folder) {
    struct stat one, other;
    return fstat(c->from->storage.folder, &one) == 0 && stat(folder, &other) == 0 && rks_is_same(&one, &other);
}

static int end_at(void *with, const struct dirent *entry) {
    (void)with, (void)entry;
    return 1;
}

/* Whether there is nothing at the name that an import would not replace. */
static bool is_free(const char *folder) {
    int it = open(folder, O_RDONLY | O_DIRECTORY | O_CLOEXEC);
    bool is_free = it < 0 ? errno == ENOENT : rks_each_entry(it, end_at, NULL) <= 0;
    rks_close(it);
    return is_free;
}

/* The opening that the old job can't have come to: as relkvanu_store_recover counts it. Its file is refused from then on. */
static int fence(struct claim *c) {
    uint64_t last = c->has_marker ? rks_last_opening(&c->all, c->from->job.identity) : 0;
    uint64_t epoch = last > c->epoch ? last : c->epoch;
    return c->has_marker ? rks_write_marker(c->from, c->from_name, epoch + RKS_UNMARKED) : RELKVANU_STORE_OK;
}

/* Whether the folder is that of an import of this record, by its manifest, which its first opening writes anew. */
static const struct rks_manifest *imported(struct claim *c, struct rks_manifests *there, const char *folder) {
    const struct rks_manifest *one = rks_list_owned(folder, 0, there), *found = NULL;
    for (size_t i = 0; i < c->all.len && one != NULL; i++) {
        const struct rks_manifest *it = &c->all.at[i];
        found = it->status == RELKVANU_STORE_OK && it->id == one->id && strcmp(it->job, one->origin) == 0 ? one : found;
    }
    return found;
}

static int note_other(void *with, const struct rks_part *part) {
    struct claim *c = with;
    return !part->is_file || rks_add(&c->others, part->file) ? RELKVANU_STORE_OK : RELKVANU_STORE_NO_MEMORY;
}

/* A file leaves, unless another record has it. */
static int leave(void *with, const struct rks_part *part) {
    struct claim *c = with;
    char name[32];
    if (!part->is_file || rks_has(&c->others, part->file)) {
        return RELKVANU_STORE_OK;
    }
    snprintf(name, sizeof name, "%" PRIu64, part->file);
    bool is_gone = unlinkat(c->from->storage.folder, name, 0) == 0 || errno == ENOENT;
    return is_gone ? RELKVANU_STORE_OK : rks_file_fault(c->from, name, errno);
}

/* An exported folder goes with the mark of its record, once that has left. */
static int leave_folder(struct claim *c) {
    char name[RKS_MANIFEST_NAME];
    for (size_t i = 0; i < c->all.marks_len; i++) {
        rks_manifest_name(c->all.marks[i].id, RKS_CLAIMED, name);
        (void)(is_mine(c, &c->all.marks[i]) && unlinkat(c->from->storage.folder, name, 0) == 0); /* or the folder is not empty, and stays */
    }
    bool is_gone = rmdir(c->from_name) == 0 || errno == ENOTEMPTY || errno == EEXIST;
    return is_gone ? RELKVANU_STORE_OK : rks_file_fault(c->from, c->from_name, errno);
}

/* The files of the record leave the folder, and then its manifest: as long as it is there, the same call goes on. A manifest that can't be read may name any
 * file, so beside such a one all stay. */
static int leave_all(struct claim *c, uint64_t record) {
    char name[RKS_MANIFEST_NAME];
    bool is_there = false; /* a job that ran until it was fenced may have ended it */
    int status = RELKVANU_STORE_OK;
    for (size_t i = 0; i < c->all.len && status == RELKVANU_STORE_OK; i++) {
        const struct rks_manifest *it = &c->all.at[i];
        is_there = is_there || it->id == record;
        if (it->id != record) {
            status =
                it->status == RELKVANU_STORE_OK ? rks_manifest_parts(&c->all, c->from->storage.folder, it->id, note_other, c) : it->status;
        }
    }
    if (status != RELKVANU_STORE_OK) {
        return status == RELKVANU_STORE_NO_MEMORY ? status
                                                  : rks_say(c->from, RELKVANU_STORE_DAMAGED, c->from_name,
                                                        "another manifest can't be read: the files of the record stay there too");
    }
    status = is_there ? rks_manifest_parts(&c->all, c->from->storage.folder, record, leave, c) : status;
    rks_manifest_name(record, "", name);
    if (status == RELKVANU_STORE_OK &&
        (fsync(c->from->storage.folder) != 0 || (unlinkat(c->from->storage.folder, name, 0) != 0 && errno != ENOENT))) {
        status = rks_file_fault(c->from, name, errno);
    }
    return status == RELKVANU_STORE_OK && !c->has_marker ? leave_folder(c) : status;
}

/* Gives the job of an exported folder an identity, and the folder its marker. */
static int own(struct claim *c, uint64_t record) {
    struct rks_text text = {0};
    char job[RKS_IDENTITY + 1];
    const struct rks_manifest *it = chosen(c, record);
    if (!rks_new_identity(job)) {
        return rks_file_fault(c->from, "random numbers", errno);
    }
    int status = rks_manifest_text(&c->all, c->from->storage.folder, it->id, job, &text);
    int error = status == RELKVANU_STORE_OK ? rks_put_manifest(c->from->storage.folder, it->id, "", &text) : 0;
    status = error != 0 ? rks_file_fault(c->from, c->from_name, error) : status;
    free(text.at);
    memcpy(c->from->job.identity, job, sizeof job);
    return status == RELKVANU_STORE_OK ? rks_write_marker(c->from, c->from_name, 1) : status;
}

/* The recovery lists and chooses again, once the old job is fenced. */
static int claim_in_place(struct claim *c, uint64_t record, const char *path) {
    int status = c->has_marker ? fence(c) : own(c, record);
    return status == RELKVANU_STORE_OK ? rks_recover_locked(path, c->from_name, record, c->told) : status;
}

/* A claim whose job is there already, as the same call has left it before it ended. An import may have left it too: then the old job runs, and is fenced
 * before anything leaves. */
static int go_on(struct claim *c, const char *path, const char *folder) {
    struct rks_manifests there = {0};
    const struct rks_manifest *one = imported(c, &there, folder);
    if (one == NULL && !c->has_marker && c->all.len == 0 && c->all.marks_len != 0) {
        leave_folder(c); /* it ended behind the last file */
    }
    int status = one == NULL ? rks_say(c->from, RELKVANU_STORE_PRESENT, path, "there is a job") : check_mark(c, one->id);
    status = status == RELKVANU_STORE_OK ? fence(c) : status;
    status = status == RELKVANU_STORE_OK ? mark(c, one->id) : status;
    status = status == RELKVANU_STORE_OK ? list(c) : status;
    status = status == RELKVANU_STORE_OK ? leave_all(c, one->id) : status;
    if (status == RELKVANU_STORE_OK) {
        rks_tell_taken(one, one->below.number, c->told);
    }
    rks_free_manifests(&there);
    return status;
}

/* The folder of the other job has the record: it is marked before that job is there. */
static int mark_carried(struct claim *c, const char *folder) {
    struct rks_manifests there = {0};
    int status = list(c);
    const struct rks_manifest *one = status == RELKVANU_STORE_OK ? imported(c, &there, folder) : NULL;
    status = one == NULL ? status : mark(c, one->id);
    rks_free_manifests(&there);
    return status;
}

/* Makes the other job. */
static int begin(struct claim *c, uint64_t record, const char *path, const char *folder) {
    relkvanu_store_carried carried;
    uint64_t passed;
    int status = rks_carry(c->from_name, record, folder, &carried, &passed);
    memcpy(c->from->fault, carried.message, sizeof carried.message);
    status = status == RELKVANU_STORE_OK ? mark_carried(c, folder) : status;
    if (status == RELKVANU_STORE_OK) {
        status = relkvanu_store_recover(path, folder, 0, c->told);
        memcpy(c->from->fault, c->told->message, sizeof c->told->message);
        c->told->passed = status == RELKVANU_STORE_OK ? passed : 0; /* the folder has one manifest */
    }
    return status;
}

/* The old job is fenced before the record is chosen, so none that it completes later is lost. */
static int claim_elsewhere(struct claim *c, uint64_t record, const char *path, const char *folder) {
    struct rks_manifests there = {0};
    const struct rks_manifest *begun = imported(c, &there, folder);
    bool is_earlier = begun != NULL && begun->id != chosen(c, record)->id;
    rks_free_manifests(&there);
    if (is_earlier || (begun == NULL && !is_free(folder))) {
        return rks_say(c->from, RELKVANU_STORE_PRESENT, folder,
            is_earlier ? "an import that did not end has left another record there: remove it" : "it is there, and is no empty folder");
    }
    int status = fence(c);
    status = status == RELKVANU_STORE_OK ? begin(c, record, path, folder) : status;
    status = status == RELKVANU_STORE_OK ? list(c) : status;
    return status == RELKVANU_STORE_OK ? leave_all(c, c->told->record) : status;
}

/* Whether there is a record to take, and none may be later, before anything is fenced. */
static int check_chosen(struct claim *c, uint64_t record) {
    const struct rks_manifest *it = chosen(c, record);
    int status = rks_check_choice(c->from, c->from_name, &c->all, owner(c), record, it);
    return status == RELKVANU_STORE_OK ? check_mark(c, it->id) : status;
}

static int claim(struct claim *c, uint64_t record, const char *path, const char *folder) {
    int status = rks_open_folder(c->from, c->from_name);
    status = status == RELKVANU_STORE_OK ? rks_lock_folder(c->from, c->from_name) : status; /* until the folder is closed */
    status = status == RELKVANU_STORE_OK ? rks_find_owner(c->from, c->from_name, &c->epoch, &c->has_marker) : status;
    status = status == RELKVANU_STORE_OK ? rks_whole_path(c->from, folder, &c->target) : status;
    status = status == RELKVANU_STORE_OK ? list_all(c, record) : status;
    if (status != RELKVANU_STORE_OK) {
        return status;
    }
    record = record == 0 ? begun_record(c) : record;
    if (is_file(path)) {
        return is_same_folder(c, folder) ? rks_say(c->from, RELKVANU_STORE_PRESENT, path, "there is a job") : go_on(c, path, folder);
    }
    status = check_chosen(c, record);
    status = status == RELKVANU_STORE_OK ? rks_check_free(path, c->from->fault) : status;
    if (status != RELKVANU_STORE_OK) {
        return status;
    }
    return is_same_folder(c, folder) ? claim_in_place(c, record, path) : claim_elsewhere(c, record, path, folder);
}

int relkvanu_store_claim(const char *from, uint64_t record, const char *path, const char *folder, relkvanu_store_recovered *recovered) {
    struct claim c = {.from_name = from, .told = recovered};
    *recovered = (relkvanu_store_recovered){0};
    int status = rks_new_store(&c.from, recovered->message);
    if (status != RELKVANU_STORE_OK) {
        return status;
    }
    status = claim(&c, record, path, folder);
    if (status != RELKVANU_STORE_OK) {
        char message[RELKVANU_STORE_MESSAGE];
        memcpy(message, c.from->fault[0] != 0 ? c.from->fault : recovered->message, sizeof message);
        *recovered = (relkvanu_store_recovered){0};
        memcpy(recovered->message, message, sizeof message);
    }
    rks_free_manifests(&c.all);
    rks_free_set(c.others);
    free(c.target);
    rks_release_store(c.from);
    return status;
}
