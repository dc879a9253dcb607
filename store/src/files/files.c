/* Files of the store: the words for what the system says of them, and what SQLite does not sync by itself. */
#include "../store.h"
#include "files.h"

#include <errno.h>
#include <fcntl.h>
#include <inttypes.h>
#include <search.h>
#include <stdarg.h>
#include <stdio.h>
#include <stdlib.h>
#include <string.h>
#include <unistd.h>

bool rks_room(struct rks_text *text, size_t more) {
    if (text->room - text->len >= more) {
        return true;
    }
    if (more > SIZE_MAX / 4 || text->len > SIZE_MAX / 4) {
        return false;
    }
    size_t room = text->room * 2 > text->len + more ? text->room * 2 : text->len + more + 128;
    uint8_t *at = realloc(text->at, room);
    if (at == NULL) {
        return false;
    }
    text->at = at;
    text->room = room;
    return true;
}

bool rks_grow(void *list, size_t *room, size_t len, size_t size) {
    void *at;
    if (len <= *room) {
        return true;
    }
    memcpy(&at, list, sizeof at);
    size_t wanted = len + len / 2 + 16;
    at = realloc(at, wanted * size);
    if (at == NULL) {
        return false;
    }
    memcpy(list, &at, sizeof at);
    *room = wanted;
    return true;
}

size_t rks_place_of(const void *list, size_t len, size_t size, uint64_t number) {
    size_t low = 0, high = len;
    while (low < high) {
        size_t middle = low + (high - low) / 2;
        bool is_less = *(const uint64_t *)(const void *)((const char *)list + middle * size) < number;
        low = is_less ? middle + 1 : low;
        high = is_less ? high : middle;
    }
    return low;
}

static int by_value(const void *one, const void *other) {
    uintptr_t a = (uintptr_t)one, b = (uintptr_t)other;
    return (a > b) - (a < b);
}

bool rks_has(void *const *set, uint64_t number) {
    return tfind((void *)(uintptr_t)(number + 1), set, by_value) != NULL;
}

bool rks_add(void **set, uint64_t number) {
    return tsearch((void *)(uintptr_t)(number + 1), set, by_value) != NULL;
}

static void keep_key(void *key) {
    (void)key;
}

void rks_free_set(void *set) {
    tdestroy(set, keep_key);
}

int rks_status_of_errno(int error) {
    switch (error) {
    case ENOSPC:
    case EDQUOT: return RELKVANU_STORE_FULL;
    case EROFS:
    case EACCES:
    case EPERM: return RELKVANU_STORE_READ_ONLY;
    case ENOMEM: return RELKVANU_STORE_NO_MEMORY;
    default: return RELKVANU_STORE_FAILED;
    }
}

int rks_file_fault(relkvanu_store *s, const char *what, int error) {
    snprintf(s->fault, sizeof s->fault, "%.400s: %s", what, strerror(error));
    errno = error;
    return rks_status_of_errno(error);
}

int rks_refuse(relkvanu_store *s, int status, const char *format, ...) {
    va_list words;
    va_start(words, format);
    vsnprintf(s->fault, sizeof s->fault, format, words);
    va_end(words);
    return status;
}

int rks_say(relkvanu_store *s, int status, const char *name, const char *words) {
    return rks_refuse(s, status, "%.300s: %.200s", name, words);
}

void rks_close(int file) {
    int error = errno;
    if (file >= 0) {
        close(file);
    }
    errno = error;
}

bool rks_find_file(int folder, uint64_t file, struct stat *found) {
    char name[32];
    snprintf(name, sizeof name, "%" PRIu64, file);
    return fstatat(folder, name, found, AT_SYMLINK_NOFOLLOW) == 0;
}

bool rks_is_same(const struct stat *one, const struct stat *other) {
    return one->st_ino == other->st_ino && one->st_dev == other->st_dev;
}

bool rks_is_named(int file, const char *name) {
    struct stat held, named;
    return fstat(file, &held) == 0 && lstat(name, &named) == 0 && rks_is_same(&held, &named);
}

int rks_each_entry(int folder, int (*each)(void *with, const struct dirent *entry), void *with) {
    /* opened once more: descriptors of one opening share their place, and two threads would each see a part */
    int copy = openat(folder, ".", O_RDONLY | O_DIRECTORY | O_CLOEXEC), result = 0;
    DIR *entries = copy < 0 ? NULL : fdopendir(copy);
    struct dirent *entry;
    if (entries == NULL) {
        rks_close(copy);
        return -1;
    }
    while (result == 0 && (errno = 0, entry = readdir(entries)) != NULL) {
        bool is_own = strcmp(entry->d_name, ".") == 0 || strcmp(entry->d_name, "..") == 0;
        result = is_own ? 0 : each(with, entry);
    }
    int error = errno;
    closedir(entries);
    errno = error;
    return result == 0 && error != 0 ? -1 : result;
}

bool rks_write_whole(int file, const void *bytes, size_t len, off_t at) {
    const char *from = bytes;
    while (len != 0) {
        ssize_t written = pwrite(file, from, len, at);
        if (written < 0 && errno == EINTR) {
            continue;
        }
        if (written <= 0) {
            errno = written == 0 ? EIO : errno;
            return false;
        }
        from += written;
        len -= (size_t)written;
        at += written;
    }
    return true;
}

int rks_write_new(int file, const void *bytes, size_t len) {
    int error = rks_write_whole(file, bytes, len, 0) && fsync(file) == 0 ? 0 : errno;
    return close(file) != 0 && error == 0 ? errno : error;
}

int rks_remove(relkvanu_store *s, const char *path, const char *end) {
    char *name;
    if (asprintf(&name, "%s%s", path, end) < 0) {
        return RELKVANU_STORE_NO_MEMORY;
    }
    int status = unlink(name) == 0 || errno == ENOENT || errno == ENOTDIR ? RELKVANU_STORE_OK : rks_file_fault(s, name, errno);
    free(name);
    return status;
}

int rks_remove_job(relkvanu_store *s, const char *path, bool with_file) {
    static const char *const ends[] = {"", "-wal", "-shm", "-journal", ".lock"};
    int status = RELKVANU_STORE_OK;
    for (size_t i = with_file ? 0 : 1; i < sizeof ends / sizeof *ends && status == RELKVANU_STORE_OK; i++) {
        status = rks_remove(s, path, ends[i]);
    }
    return status;
}

/* The folder of a path, as a text to be freed; NULL: no memory. */
char *rks_folder_of(const char *path) {
    const char *slash = strrchr(path, '/');
    return slash == NULL ? strdup(".") : strndup(path, slash == path ? 1 : (size_t)(slash - path));
}

int rks_whole_path(relkvanu_store *s, const char *folder, char **path) {
    char *name = rks_without_slashes(folder), *above = name == NULL ? NULL : rks_folder_of(name);
    char *whole = above == NULL ? NULL : realpath(above, NULL);
    const char *slash = name == NULL ? NULL : strrchr(name, '/');
    int status = above == NULL ? RELKVANU_STORE_NO_MEMORY : whole == NULL ? rks_file_fault(s, folder, errno) : RELKVANU_STORE_OK;
    if (status == RELKVANU_STORE_OK && asprintf(path, "%s/%s", whole, slash == NULL ? name : slash + 1) < 0) {
        *path = NULL;
        status = RELKVANU_STORE_NO_MEMORY;
    }
    free(whole);
    free(above);
    free(name);
    return status;
}

char *rks_without_slashes(const char *path) {
    size_t len = strlen(path);
    while (len > 1 && path[len - 1] == '/') {
        len--;
    }
    return strndup(path, len);
}

char *rks_scratch_name(const char *path, const char *end) {
    const char *slash = strrchr(path, '/');
    size_t len = slash == NULL ? 0 : (size_t)(slash - path) + 1;
    char *name;
    return asprintf(&name, "%.*s.%s.relkvanu-new%s", (int)len, path, path + len, end) < 0 ? NULL : name;
}

int rks_sync_folder_of(relkvanu_store *s, const char *path) {
    char *name = rks_folder_of(path);
    if (name == NULL) {
        return RELKVANU_STORE_NO_MEMORY;
    }
    int folder = open(name, O_RDONLY | O_DIRECTORY | O_CLOEXEC);
    int status = folder >= 0 && fsync(folder) == 0 ? RELKVANU_STORE_OK : rks_file_fault(s, name, errno);
    rks_close(folder);
    free(name);
    return status;
}

int rks_name_job(relkvanu_store *s, const char *from) {
    int status = rks_sync_folder_of(s, s->file.path);
    status = status == RELKVANU_STORE_OK && rename(from, s->file.path) != 0 ? rks_file_fault(s, s->file.path, errno) : status;
    return status == RELKVANU_STORE_OK ? rks_sync_folder_of(s, s->file.path) : status;
}

int rks_check_closed(relkvanu_store *s, const char *path) {
    struct stat wal;
    char *name = NULL;
    if (asprintf(&name, "%s-wal", path) < 0) {
        return RELKVANU_STORE_NO_MEMORY;
    }
    int error = stat(name, &wal) == 0 ? 0 : errno;
    bool is_whole = error == ENOENT || (error == 0 && wal.st_size == 0);
    int status = is_whole ? RELKVANU_STORE_OK : rks_file_fault(s, name, error != 0 ? error : EIO);
    free(name);
    return status;
}

/* SQLite would make the file with the mode 0644. It gives the -wal the mode of the file. */
int rks_make_file(relkvanu_store *s) {
    int file = rks_open_beside(s->file.path);
    if (file < 0) {
        return rks_file_fault(s, s->file.path, errno);
    }
    close(file);
    return RELKVANU_STORE_OK;
}

/* Writes the bytes of a file again, and syncs them. Sets errno if it fails. */
static bool is_written_again(int file) {
    char part[65536];
    off_t at = 0;
    ssize_t len;
    while ((len = pread(file, part, sizeof part, at)) > 0) {
        if (!rks_write_whole(file, part, (size_t)len, at)) {
            return false;
        }
        at += len;
    }
    return len == 0 && fsync(file) == 0;
}

/* A commit whose sync failed, or whose process ended before its sync, may be in the page cache alone: after a failed sync Linux takes its
 * pages as written. Later commits are chained to it, so a loss of power would take them all. */
int rks_write_again(relkvanu_store *s) {
    int file = open(s->file.wal, O_RDWR | O_CLOEXEC);
    if (file < 0) {
        return errno == ENOENT ? RELKVANU_STORE_OK : rks_file_fault(s, s->file.wal, errno);
    }
    int status = is_written_again(file) ? RELKVANU_STORE_OK : rks_file_fault(s, s->file.wal, errno);
    close(file);
    return status;
}
