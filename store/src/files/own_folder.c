/* The storage folder of a job at an opening: whether it is the job's, and why it is refused otherwise. */
#include "../store.h"
#include "files.h"
#include "folder.h"

#include <errno.h>
#include <fcntl.h>
#include <inttypes.h>
#include <limits.h>
#include <stdio.h>
#include <string.h>
#include <sys/file.h>

static int storage_fault(relkvanu_store *s, const char *folder, const char *words, const char *more) {
    return rks_refuse(s, RELKVANU_STORE_STORAGE, "%.300s: %s%.80s", folder, words, more);
}

/* What the system says of the folder or its marker: that it is not there, or anything else, such as no free descriptor. */
static int system_fault(relkvanu_store *s, const char *folder, int error) {
    bool is_gone = error == ENOENT || error == ENOTDIR || error == ELOOP || error == ENAMETOOLONG;
    int status = is_gone ? storage_fault(s, folder, strerror(error), "") : rks_file_fault(s, folder, error);
    errno = error;
    return status;
}

int rks_open_folder(relkvanu_store *s, const char *folder) {
    s->storage.folder = open(folder, O_RDONLY | O_DIRECTORY | O_CLOEXEC);
    if (s->storage.folder < 0) {
        return system_fault(s, folder, errno);
    }
    rks_begin_own(s);
    return RELKVANU_STORE_OK;
}

int rks_lock_folder(relkvanu_store *s, const char *folder) {
    int error = 0;
    do {
        error = flock(s->storage.folder, LOCK_EX) == 0 ? 0 : errno;
    } while (error == EINTR);
    bool has_locks = error != EBADF && error != EINVAL && error != ENOLCK && error != ENOTSUP && error != ENOSYS;
    return error == 0 || !has_locks ? RELKVANU_STORE_OK : rks_file_fault(s, folder, error);
}

void rks_unlock_folder(relkvanu_store *s) {
    int error = errno;
    flock(s->storage.folder, LOCK_UN);
    errno = error;
}

static int link_fault(relkvanu_store *s, const char *folder, const char *name) {
    return storage_fault(s, folder, "a symbolic link is in the place of its marker: ", name);
}

static bool is_there(const relkvanu_store *s, const char *name, struct stat *found) {
    return fstatat(s->storage.folder, name, found, AT_SYMLINK_NOFOLLOW) == 0;
}

bool rks_has_marker(const relkvanu_store *s) {
    struct stat found;
    return s->storage.folder < 0 || (is_there(s, RKS_MARKER, &found) && S_ISREG(found.st_mode));
}

bool rks_is_own(const relkvanu_store *s, const char *name) {
    static const char *const ends[] = {"", "-wal", "-shm", ".lock", "-journal"};
    const char *own = strrchr(s->file.path, '/') + 1;
    size_t len = strlen(own);
    bool is_found = false;
    for (size_t i = 0; i < sizeof ends / sizeof *ends; i++) {
        is_found = is_found || (strncmp(name, own, len) == 0 && strcmp(name + len, ends[i]) == 0);
    }
    return is_found;
}

bool rks_has_own(const relkvanu_store *s) {
    char name[PATH_MAX];
    struct stat storage, other;
    snprintf(name, sizeof name, "%.*s/.", (int)(strrchr(s->file.path, '/') - s->file.path), s->file.path);
    return fstat(s->storage.folder, &storage) == 0 && stat(name, &other) == 0 && rks_is_same(&storage, &other);
}

/* The name of a file of the folder that is no file of a new job; "" if there is none. */
struct search {
    const relkvanu_store *s;
    bool has_own;
    char name[256];
};

static int find_other(void *with, const struct dirent *entry) {
    struct search *search = with;
    const char *name = entry->d_name;
    bool is_ignored =
        strcmp(name, "lost+found") == 0 || strcmp(name, RKS_NEW_MARKER) == 0 || (search->has_own && rks_is_own(search->s, name));
    snprintf(search->name, sizeof search->name, "%s", is_ignored ? "" : name);
    return !is_ignored;
}

int rks_check_new_folder(relkvanu_store *s, const char *folder) {
    struct search search = {.s = s};
    struct stat found;
    if (folder == NULL) {
        return RELKVANU_STORE_OK;
    }
    if (is_there(s, RKS_MARKER, &found)) {
        return storage_fault(s, folder, "it has the marker of another job, and this one is new", "");
    }
    if ((s->options.flags & RELKVANU_STORE_ADOPT) != 0) {
        return RELKVANU_STORE_OK;
    }
    search.has_own = rks_has_own(s);
    int result = rks_each_entry(s->storage.folder, find_other, &search);
    return result < 0    ? system_fault(s, folder, errno)
           : result == 0 ? RELKVANU_STORE_OK
                         : storage_fault(s, folder, "the job is new, and there are files, such as ", search.name);
}

int rks_write_marker(relkvanu_store *s, const char *folder, uint64_t epoch) {
    int error = rks_marker_write(s->storage.folder, s->job.identity, epoch);
    return error == 0 ? RELKVANU_STORE_OK : error == ELOOP ? link_fault(s, folder, RKS_NEW_MARKER) : rks_file_fault(s, folder, error);
}

int rks_owner(const relkvanu_store *s) {
    return s->storage.folder < 0 ? RELKVANU_STORAGE_OK : rks_owner_of(s->storage.folder, s->job.identity, s->job.epoch);
}

/* Reads the marker, whichever job it names. */
static int read_marker(relkvanu_store *s, const char *folder, struct rks_marker *found) {
    int status = rks_marker_read(s->storage.folder, found);
    if (status == RELKVANU_STORAGE_FAILED) {
        return system_fault(s, folder, errno);
    } else if (status == RELKVANU_STORAGE_OK) {
        return RELKVANU_STORE_OK;
    }
    return errno == ELOOP ? link_fault(s, folder, RKS_MARKER) : storage_fault(s, folder, "it has no marker: is the storage mounted?", "");
}

int rks_read_marker(relkvanu_store *s, const char *folder, uint64_t *marked) {
    struct rks_marker found;
    int status = read_marker(s, folder, &found);
    *marked = status == RELKVANU_STORE_OK ? found.epoch : *marked;
    bool is_others = status == RELKVANU_STORE_OK && strcmp(s->job.identity, found.job) != 0;
    return is_others ? storage_fault(s, folder, "it has the marker of another job than ", s->job.identity) : status;
}

int rks_read_owner(relkvanu_store *s, const char *folder, uint64_t *marked) {
    struct rks_marker found;
    int status = read_marker(s, folder, &found);
    if (status != RELKVANU_STORE_OK) {
        return status;
    }
    *marked = found.epoch;
    memcpy(s->job.identity, found.job, sizeof s->job.identity);
    return strlen(found.job) == RKS_IDENTITY ? RELKVANU_STORE_OK : storage_fault(s, folder, "its marker names no job", "");
}

int rks_find_owner(relkvanu_store *s, const char *folder, uint64_t *marked, bool *has_marker) {
    struct stat found;
    *has_marker = is_there(s, RKS_MARKER, &found) || errno != ENOENT;
    if (!*has_marker) {
        s->job.identity[0] = 0;
        return RELKVANU_STORE_OK;
    }
    return rks_read_owner(s, folder, marked);
}

int rks_check_marker(relkvanu_store *s, const char *folder, uint64_t epoch) {
    uint64_t marked = 0;
    int status = rks_read_marker(s, folder, &marked);
    if (status != RELKVANU_STORE_OK || marked <= epoch) {
        return status;
    }
    return rks_refuse(s, RELKVANU_STORE_STORAGE,
        "%.150s: a later opening of the job has used it (%" PRIu64 "), and the job's file is an older copy, of opening %" PRIu64 ": %.150s",
        folder, marked, epoch, s->file.path);
}
