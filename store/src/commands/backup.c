/* A backup of an open job: a copy of its file, made page by page beside the calls of other threads. It gets its name once it is whole and
 * durable. Its format number says that it is one, so that no opening takes it for the job. */
#include "../files/files.h"
#include "../job/job.h"
#include "../store.h"

#include <errno.h>
#include <fcntl.h>
#include <stdio.h>
#include <stdlib.h>
#include <string.h>
#include <sys/file.h>
#include <unistd.h>

/* The pages that a thread copies at a time, while it leads: 1 MiB. */
enum { PAGES = 256 };

/* A backup that is not whole yet. */
struct backup {
    const char *path;
    char *part, *part_wal, *part_journal; /* what SQLite may make beside the part is named after it */
    char *part_lock;                      /* is there if the part's name is that of a job */
    int file;                             /* of the part; its lock keeps other backups out */
    bool is_own;                          /* whether this one has the lock */
    sqlite3 *db;
    char *message;
    size_t message_len;
};

static int set_message(struct backup *b, int status, const char *name, const char *words) {
    snprintf(b->message, b->message_len, "%.400s: %s", name, words);
    return status;
}

/* What the system says. */
static int failed(struct backup *b, const char *name, int error) {
    int status = error == ENOMEM ? RELKVANU_STORE_NO_MEMORY : error == EEXIST ? RELKVANU_STORE_PRESENT : RELKVANU_STORE_NOT_PUT;
    set_message(b, status, name, strerror(error));
    errno = error;
    return status;
}

/* What SQLite says of the copy. It does not note the error of the system each time. So errno is 0 before each call of it. */
static int lite_failed(struct backup *b, int code) {
    int left = errno, error = b->db != NULL ? sqlite3_system_errno(b->db) : 0, primary = code & 255;
    if (primary == SQLITE_NOMEM || code == SQLITE_IOERR_NOMEM) {
        return RELKVANU_STORE_NO_MEMORY;
    }
    error = primary == SQLITE_FULL ? ENOSPC : error != 0 ? error : left != 0 ? left : EIO;
    snprintf(b->message, b->message_len, "%.300s: %s: %s (SQLite %d)", b->part, sqlite3_errstr(code), strerror(error), code);
    errno = error;
    return RELKVANU_STORE_NOT_PUT;
}

static bool name_parts(struct backup *b) {
    bool is_made = asprintf(&b->part, "%s.part", b->path) >= 0;
    is_made = is_made && asprintf(&b->part_lock, "%s.lock", b->part) >= 0;
    is_made = is_made && asprintf(&b->part_wal, "%s-wal", b->part) >= 0;
    return is_made && asprintf(&b->part_journal, "%s-journal", b->part) >= 0;
}

/* Removes the part, and what is beside it, unless another backup writes it. */
static void remove_part(const struct backup *b) {
    int error = errno;
    if (!b->is_own) {
        return;
    }
    unlink(b->part_wal);
    unlink(b->part_journal);
    unlink(b->part);
    errno = error;
}

/* Whether this backup has the lock of the part, and the part is still there by its name: another one may have finished it meanwhile. */
static bool has_part(const struct backup *b) {
    return flock(b->file, LOCK_EX | LOCK_NB) == 0 && rks_is_named(b->file, b->part);
}

static bool is_removed(const char *name) {
    return unlink(name) == 0 || errno == ENOENT;
}

/* Begins the part. One that was left by a process that was killed is begun anew. If a lock file is beside it, it is a job's file, and is refused. */
static int begin_part(struct backup *b) {
    struct stat target;
    if (lstat(b->path, &target) == 0) {
        return failed(b, b->path, EEXIST);
    }
    if (lstat(b->part_lock, &target) == 0) {
        return set_message(b, RELKVANU_STORE_PRESENT, b->part, "it is the file of a job, and a backup would be written there first");
    }
    int file = open(b->part, O_RDWR | O_CREAT | O_CLOEXEC | O_NOFOLLOW, 0600);
    if (file < 0) {
        return failed(b, b->part, errno);
    }
    b->file = file;
    if (!has_part(b)) {
        return set_message(b, RELKVANU_STORE_NOT_NOW, b->part, "another backup writes it");
    }
    b->is_own = true;
    bool is_begun = is_removed(b->part_wal) && is_removed(b->part_journal) && fchmod(file, 0600) == 0 && ftruncate(file, 0) == 0;
    return is_begun ? RELKVANU_STORE_OK : failed(b, b->part, errno);
}

/* Nothing of the part has to be durable, or to be rolled back, before it is whole. */
static int open_part(struct backup *b) {
    errno = 0;
    int code = sqlite3_open_v2(b->part, &b->db, SQLITE_OPEN_READWRITE | SQLITE_OPEN_NOMUTEX, NULL);
    if (code == SQLITE_OK) {
        sqlite3_extended_result_codes(b->db, 1);
        code = sqlite3_exec(b->db, "PRAGMA locking_mode=EXCLUSIVE; PRAGMA journal_mode=OFF; PRAGMA synchronous=OFF", NULL, NULL, NULL);
    }
    return code == SQLITE_OK ? RELKVANU_STORE_OK : lite_failed(b, code);
}

/* Copies pages while this thread leads. SQLite itself copies a page again that a commit changes meanwhile, because both use one connection.
 * The copy has what is committed when its last page is copied. */
static int copy_pages(relkvanu_store *s, struct backup *b) {
    sqlite3_backup *copy = NULL;
    int code = SQLITE_OK, status = RELKVANU_STORE_OK;
    while (code == SQLITE_OK && status == RELKVANU_STORE_OK) {
        relkvanu *handle;
        status = relkvanu_store_read(s, &handle);
        if (status != RELKVANU_STORE_OK) {
            continue;
        }
        errno = 0;
        copy = copy != NULL ? copy : sqlite3_backup_init(b->db, "main", s->log.db, "main");
        code = copy != NULL ? sqlite3_backup_step(copy, PAGES) : sqlite3_extended_errcode(b->db);
        int error = errno;
        if (code != SQLITE_OK) {
            sqlite3_backup_finish(copy);
            copy = NULL;
        }
        relkvanu_store_read_end(s);
        errno = error;
    }
    if (copy != NULL) { /* the store was closed meanwhile: nobody leads any more */
        pthread_mutex_lock(&s->mutex);
        sqlite3_backup_finish(copy);
        pthread_mutex_unlock(&s->mutex);
    }
    return status != RELKVANU_STORE_OK || code == SQLITE_DONE ? status : lite_failed(b, code);
}

static int first_text(void *words, int columns, char **values, char **names) {
    (void)names;
    snprintf(words, 64, "%s", columns == 1 && values[0] != NULL ? values[0] : "");
    return 0;
}

/* Reads all of the copy once more. */
static int check_part(struct backup *b) {
    char found[64] = "";
    errno = 0;
    int code = sqlite3_exec(b->db, "PRAGMA quick_check(1)", first_text, found, NULL);
    if (code != SQLITE_OK) {
        return lite_failed(b, code);
    }
    if (strcmp(found, "ok") != 0) {
        errno = EIO;
        return set_message(b, RELKVANU_STORE_NOT_PUT, b->part, found);
    }
    return RELKVANU_STORE_OK;
}

/* Says in the copy that it is a backup, and makes one file of it: the job is in the mode WAL. */
static int mark_part(struct backup *b) {
    char format[64] = "", sql[120];
    errno = 0;
    int code = sqlite3_exec(b->db, "PRAGMA user_version", first_text, format, NULL);
    if (code == SQLITE_OK) {
        snprintf(sql, sizeof sql, "PRAGMA user_version=%d; PRAGMA journal_mode=DELETE", atoi(format) + RKS_BACKUP);
        code = sqlite3_exec(b->db, sql, NULL, NULL, NULL);
    }
    return code == SQLITE_OK ? RELKVANU_STORE_OK : lite_failed(b, code);
}

static int fill_part(relkvanu_store *s, struct backup *b) {
    int status = open_part(b);
    status = status == RELKVANU_STORE_OK ? copy_pages(s, b) : status;
    status = status == RELKVANU_STORE_OK ? mark_part(b) : status;
    status = status == RELKVANU_STORE_OK ? check_part(b) : status;
    int code = sqlite3_close(b->db);
    b->db = NULL;
    return status != RELKVANU_STORE_OK || code == SQLITE_OK ? status : lite_failed(b, code);
}

/* Gives the part its name, unless there is such a file. Not each file system can do both at once. */
static int rename_part(const struct backup *b) {
    if (renameat2(AT_FDCWD, b->part, AT_FDCWD, b->path, RENAME_NOREPLACE) == 0) {
        return 0;
    }
    if (errno != EINVAL && errno != ENOSYS) {
        return errno;
    }
    if (access(b->path, F_OK) == 0) {
        return EEXIST;
    }
    return rename(b->part, b->path) == 0 ? 0 : errno;
}

/* Returns 0, or what is wrong as errno. The folder is open before, so that a fault of it leaves no backup. */
static int finish_part(const struct backup *b, int folder) {
    if (fsync(b->file) != 0) {
        return errno;
    }
    int error = rename_part(b);
    if (error == 0 && fsync(folder) != 0) {
        error = errno;
        unlink(b->path);
    }
    return error;
}

static int finish(struct backup *b) {
    char *name = rks_folder_of(b->path);
    int folder = name == NULL ? -1 : open(name, O_RDONLY | O_DIRECTORY | O_CLOEXEC);
    int error = name == NULL ? ENOMEM : folder < 0 ? errno : finish_part(b, folder);
    free(name);
    rks_close(folder);
    return error == 0 ? RELKVANU_STORE_OK : failed(b, b->path, error);
}

static int make(relkvanu_store *s, struct backup *b) {
    int status = name_parts(b) ? begin_part(b) : RELKVANU_STORE_NO_MEMORY;
    status = status == RELKVANU_STORE_OK ? fill_part(s, b) : status;
    status = status == RELKVANU_STORE_OK ? finish(b) : status;
    if (status != RELKVANU_STORE_OK) {
        remove_part(b);
    }
    return status;
}

int relkvanu_store_backup(relkvanu_store *s, const char *path, char *message, size_t message_len) {
    char words[RKS_MESSAGE] = "";
    struct backup b = {.path = path, .file = -1, .message = words, .message_len = sizeof words};
    int status = rks_is_forked(s) ? RELKVANU_STORE_FORKED : make(s, &b), error = errno;
    if (status == RELKVANU_STORE_CLOSED || status == RELKVANU_STORE_FORKED) {
        relkvanu_store_message(s, words, sizeof words);
    }
    rks_close(b.file);
    free(b.part);
    free(b.part_lock);
    free(b.part_wal);
    free(b.part_journal);
    snprintf(message, message_len, "%s", status == RELKVANU_STORE_OK ? "" : words);
    errno = error;
    return status;
}
