/* State files in an open folder, by their numbers: made whole and durable, read, deleted for good, and listed. */
#include "../manifests/manifests.h"
#include "files.h"
#include "folder.h"

#include <errno.h>
#include <fcntl.h>
#include <inttypes.h>
#include <limits.h>
#include <stdio.h>
#include <stdlib.h>
#include <string.h>
#include <unistd.h>

static const char PART[] = ".part"; /* of a file that is not whole yet */
enum { NAME = NAME_MAX + 1, DIGITS = 20 };

static void name_of(const struct rks_folder *f, uint64_t file, const char *end, char name[NAME]) {
    snprintf(name, NAME, "%s%" PRIu64 "%s%s", f->prefix, file, f->suffix, end);
}

static int failed(int error) {
    errno = error;
    return error == ENOMEM ? RELKVANU_STORAGE_NO_MEMORY : RELKVANU_STORAGE_FAILED;
}

static int sync_folder(const struct rks_folder *f) {
    return fsync(f->fd) == 0 || (errno == EINVAL && !f->needs_sync) ? 0 : errno;
}

static int open_part(const struct rks_folder *f, const char *part) {
    return openat(f->fd, part, O_WRONLY | O_CREAT | O_EXCL | O_NOFOLLOW | O_CLOEXEC, f->mode);
}

/* Removes a part that is not whole. Returns what is wrong. */
static int keep_whole(const struct rks_folder *f, const char *part, int error) {
    if (error != 0) {
        unlinkat(f->fd, part, 0);
    }
    return error;
}

/* Returns 0, or what is wrong as errno. Who has made the part has the name too: nobody else makes either. */
static int write_part(const struct rks_folder *f, const char *part, const void *contents, size_t len) {
    int file = open_part(f, part);
    return file < 0 ? errno : keep_whole(f, part, rks_write_new(file, contents, len));
}

/* Writes what a source gives, part by part. Returns 0, or what is wrong as errno. */
static int write_source(int file, relkvanu_store_source source, void *with) {
    static const size_t LEN = 1 << 18;
    char *some = malloc(LEN);
    off_t at = 0;
    int64_t len = 1;
    int error = some == NULL ? ENOMEM : 0;
    while (error == 0 && len != 0) {
        errno = 0;
        len = source(with, some, LEN);
        if (len < 0 || (uint64_t)len > LEN) {
            error = errno != 0 ? errno : EIO;
        } else if (!rks_write_whole(file, some, (size_t)len, at)) {
            error = errno;
        }
        at += error == 0 ? (off_t)len : 0;
    }
    free(some);
    return error;
}

/* As write_part, of a source. */
static int write_part_from(const struct rks_folder *f, const char *part, relkvanu_store_source source, void *with) {
    int file = open_part(f, part);
    if (file < 0) {
        return errno;
    }
    int error = write_source(file, source, with);
    error = error == 0 && fsync(file) != 0 ? errno : error;
    error = close(file) != 0 && error == 0 ? errno : error;
    return keep_whole(f, part, error);
}

/* Makes the part a second name of a file that exists, and syncs that. */
static int link_part(const struct rks_folder *f, const char *part, int from, const char *name) {
    struct stat opened, linked;
    int file = openat(from, name, O_RDONLY | O_NOFOLLOW | O_NONBLOCK | O_CLOEXEC);
    if (file < 0) {
        return errno;
    }
    int error = fstat(file, &opened) != 0 ? errno : S_ISREG(opened.st_mode) ? 0 : EINVAL;
    error = error == 0 && fsync(file) != 0 ? errno : error;
    close(file);
    if (error != 0 || linkat(from, name, f->fd, part, 0) != 0) {
        return error != 0 ? error : errno;
    }
    /* The name may be another file's by now. */
    bool is_same = fstatat(f->fd, part, &linked, AT_SYMLINK_NOFOLLOW) == 0 && rks_is_same(&linked, &opened);
    return keep_whole(f, part, is_same ? 0 : ESTALE);
}

/* Gives the part its name, unless there is such a file. */
static int name_part(const struct rks_folder *f, const char *part, const char *name) {
    struct stat found;
    int error = fstatat(f->fd, name, &found, AT_SYMLINK_NOFOLLOW) == 0 ? EEXIST : errno;
    if (error != ENOENT || renameat(f->fd, part, f->fd, name) != 0) {
        return keep_whole(f, part, error == ENOENT ? errno : error);
    }
    return keep_whole(f, name, sync_folder(f));
}

/* Names the part, unless it could not be made. */
static int finish(const struct rks_folder *f, const char *part, const char *name, int error) {
    if (error == 0) {
        error = name_part(f, part, name);
    }
    if (error == EEXIST) {
        errno = error;
        return RELKVANU_STORAGE_PRESENT;
    }
    return error == 0 ? RELKVANU_STORAGE_OK : failed(error);
}

int rks_folder_make(const struct rks_folder *f, const char *part, const char *name, const void *contents, size_t len) {
    return finish(f, part, name, write_part(f, part, contents, len));
}

/* In a forked child a store's folder is not there. */
static bool is_others(const struct rks_folder *f) {
    return f->process != 0 && f->process != getpid();
}

static int look(const struct rks_folder *f) {
    return is_others(f) ? RELKVANU_STORAGE_NOT_THERE : f->check(f->with);
}

/* The names of a file that is put, if the folder is there. */
static int begin_put(const struct rks_folder *f, uint64_t file, char part[NAME], char name[NAME]) {
    name_of(f, file, PART, part);
    name_of(f, file, "", name);
    return look(f);
}

int rks_folder_put(const struct rks_folder *f, uint64_t file, const void *contents, size_t len) {
    char part[NAME], name[NAME];
    int status = begin_put(f, file, part, name);
    return status == RELKVANU_STORAGE_OK ? rks_folder_make(f, part, name, contents, len) : status;
}

int rks_folder_put_from(const struct rks_folder *f, uint64_t file, relkvanu_store_source source, void *with) {
    char part[NAME], name[NAME];
    int status = begin_put(f, file, part, name);
    return status == RELKVANU_STORAGE_OK ? finish(f, part, name, write_part_from(f, part, source, with)) : status;
}

int rks_folder_link(const struct rks_folder *f, uint64_t file, int from, const char *other) {
    char part[NAME], name[NAME];
    int status = begin_put(f, file, part, name);
    return status == RELKVANU_STORAGE_OK ? finish(f, part, name, link_part(f, part, from, other)) : status;
}

/* Reads at most so many bytes from the beginning. Returns how many, or -1. */
static ssize_t read_whole(int file, char *to, size_t room) {
    size_t len = 0;
    ssize_t more = 1;
    while (len < room && more != 0) {
        more = pread(file, to + len, room - len, (off_t)len);
        if (more < 0 && errno != EINTR) {
            return -1;
        }
        len += more > 0 ? (size_t)more : 0;
    }
    return (ssize_t)len;
}

static int get(void *with, uint64_t file, void *contents, size_t room, uint64_t *len) {
    const struct rks_folder *f = with;
    char name[NAME];
    struct stat found;
    if (is_others(f)) {
        return RELKVANU_STORAGE_NOT_THERE;
    }
    name_of(f, file, "", name);
    int from = openat(f->fd, name, O_RDONLY | O_NOFOLLOW | O_NONBLOCK | O_CLOEXEC);
    if (from < 0) {
        return errno == ENOENT ? RELKVANU_STORAGE_ABSENT : failed(errno);
    }
    int error = fstat(from, &found) != 0 ? errno : S_ISREG(found.st_mode) ? 0 : EINVAL;
    if (error == 0 && read_whole(from, contents, room) < 0) {
        error = errno;
    }
    close(from);
    if (error != 0) {
        return failed(error);
    }
    *len = (uint64_t)found.st_size;
    return RELKVANU_STORAGE_OK;
}

/* Returns what became of a name: 0, ENOENT, or why it may be there still. */
static int unlink_name(const struct rks_folder *f, uint64_t file, const char *end) {
    char name[NAME];
    name_of(f, file, end, name);
    return unlinkat(f->fd, name, 0) == 0 ? 0 : errno;
}

uint8_t rks_folder_unlink(const struct rks_folder *f, uint64_t file) {
    int whole = unlink_name(f, file, "");
    int part = whole == 0 || whole == ENOENT ? unlink_name(f, file, PART) : 0;
    if ((whole != 0 && whole != ENOENT) || (part != 0 && part != ENOENT)) {
        errno = whole != 0 && whole != ENOENT ? whole : part;
        return RELKVANU_STORAGE_UNDELETED;
    }
    return whole == 0 || part == 0 ? RELKVANU_STORAGE_DELETED : RELKVANU_STORAGE_MISSING;
}

static void tell_none(uint8_t *outcomes, size_t len) {
    for (size_t place = 0; place < len; place++) {
        outcomes[place] = RELKVANU_STORAGE_UNDELETED;
    }
}

static int delete_files(void *with, const uint64_t *files, size_t files_len, uint8_t *outcomes) {
    const struct rks_folder *f = with;
    tell_none(outcomes, files_len);
    int status = look(f);
    for (size_t place = 0; status == RELKVANU_STORAGE_OK && place < files_len; place++) {
        outcomes[place] = rks_folder_unlink(f, files[place]);
    }
    if (status == RELKVANU_STORAGE_OK && (status = look(f)) == RELKVANU_STORAGE_OK) {
        int error = sync_folder(f);
        status = error == 0 ? RELKVANU_STORAGE_OK : failed(error);
    }
    if (status != RELKVANU_STORAGE_OK) {
        tell_none(outcomes, files_len);
    }
    return status;
}

/* Whether the bytes are the digits of a number as it is written. */
static bool is_number(const char *text, size_t len, uint64_t *file) {
    char digits[DIGITS + 1], written[NAME];
    if (len == 0 || len > DIGITS) {
        return false;
    }
    memcpy(digits, text, len);
    digits[len] = 0;
    errno = 0;
    *file = strtoull(digits, NULL, 10);
    snprintf(written, sizeof written, "%" PRIu64, *file);
    return errno == 0 && strcmp(digits, written) == 0;
}

static bool has_end(const char *name, size_t len, const char *end) {
    size_t end_len = strlen(end);
    return len >= end_len && memcmp(name + len - end_len, end, end_len) == 0;
}

bool rks_folder_names(const struct rks_folder *f, const char *name, uint64_t *file) {
    size_t len = strlen(name), before = strlen(f->prefix), after = strlen(f->suffix), part = sizeof PART - 1;
    if (len < before + after || memcmp(name, f->prefix, before) != 0) {
        return false;
    }
    if (has_end(name, len, f->suffix) && is_number(name + before, len - before - after, file)) {
        return true;
    }
    return len >= before + after + part && has_end(name, len, PART) && has_end(name, len - part, f->suffix) &&
           is_number(name + before, len - before - after - part, file);
}

/* A listing that is under way. */
struct listing {
    const struct rks_folder *f;
    size_t most, len;
    relkvanu_storage_page page;
    void *with_page;
    relkvanu_storage_file files[RELKVANU_STORAGE_PAGE];
};

/* Gives the page to the caller. */
static int turn(struct listing *listing) {
    size_t len = listing->len;
    listing->len = 0;
    return len == 0 || listing->page(listing->with_page, listing->files, len) ? RELKVANU_STORAGE_OK : RELKVANU_STORAGE_ENDED;
}

/* Adds an entry of the folder, if it is a file. It may have been deleted since it was read. */
static int add(void *with, const struct dirent *entry) {
    struct listing *listing = with;
    const struct rks_folder *f = listing->f;
    relkvanu_storage_file *next = &listing->files[listing->len];
    struct stat found;
    if (!rks_folder_names(f, entry->d_name, &next->file) || !f->is_listed(f->with, entry)) {
        return RELKVANU_STORAGE_OK;
    }
    bool is_found = fstatat(f->fd, entry->d_name, &found, AT_SYMLINK_NOFOLLOW) == 0;
    if (!is_found && errno != ENOENT) {
        return failed(errno);
    }
    next->bytes = is_found ? (uint64_t)found.st_size : 0;
    return ++listing->len < listing->most ? RELKVANU_STORAGE_OK : turn(listing);
}

int rks_folder_list(const struct rks_folder *f, size_t most, relkvanu_storage_page page, void *with_page) {
    struct listing listing = {
        .f = f, .most = most == 0 || most > RELKVANU_STORAGE_PAGE ? RELKVANU_STORAGE_PAGE : most, .page = page, .with_page = with_page};
    int status = rks_each_entry(f->fd, add, &listing);
    if (status == RELKVANU_STORAGE_OK) {
        return turn(&listing);
    }
    return status > 0 ? status : errno == ENOENT ? RELKVANU_STORAGE_NOT_THERE : failed(errno); /* the folder was removed */
}

static int check(void *with) {
    return look(with);
}

static int put(void *with, uint64_t file, const void *contents, size_t len) {
    return rks_folder_put(with, file, contents, len);
}

static int list(void *with, size_t most, relkvanu_storage_page page, void *with_page) {
    return is_others(with) ? RELKVANU_STORAGE_NOT_THERE : rks_folder_list(with, most, page, with_page);
}

relkvanu_storage rks_folder_storage(struct rks_folder *f) {
    return (relkvanu_storage){.with = f, .check = check, .put = put, .get = get, .delete_files = delete_files, .list = list};
}
