/* One process at a time: locks that stay although this process opens and closes the job's file elsewhere. */
#include "../files/files.h"
#include "../store.h"
#include "job.h"

#include <errno.h>
#include <fcntl.h>
#include <stdio.h>
#include <stdlib.h>
#include <string.h>
#include <sys/file.h>
#include <sys/mman.h>
#include <unistd.h>

static pthread_mutex_t all_mutex = PTHREAD_MUTEX_INITIALIZER;
static relkvanu_store *all;
static pthread_once_t once = PTHREAD_ONCE_INIT;
static unsigned forks; /* so far */

/* The process that stores are of, in a page that is empty in a forked child, however it was forked: so to look takes no system call, and each call of a store
 * looks. NULL: the system has no such page. */
static _Atomic(pid_t) *process;

static void before_fork(void) {
    pthread_mutex_lock(&all_mutex);
    forks++;
}

static void after_fork(void) {
    pthread_mutex_unlock(&all_mutex);
}

/* Without this a child that goes on would keep the locks after the end of its parent. */
static void in_child(void) {
    for (relkvanu_store *s = all; s != NULL; s = s->older) {
        close(s->file.lock);
        close(s->file.shm);
        s->file.lock = s->file.shm = -1;
    }
    pthread_mutex_unlock(&all_mutex);
}

static void watch_forks(void) {
    size_t len = (size_t)sysconf(_SC_PAGESIZE);
    void *page = mmap(NULL, len, PROT_READ | PROT_WRITE, MAP_PRIVATE | MAP_ANONYMOUS, -1, 0);
    bool is_emptied = page != MAP_FAILED && madvise(page, len, MADV_WIPEONFORK) == 0;
    process = is_emptied ? page : NULL;
    pthread_atfork(before_fork, after_fork, in_child);
}

void rks_list(relkvanu_store *s) {
    pthread_once(&once, watch_forks);
    pthread_mutex_lock(&all_mutex);
    if (process != NULL) {
        *process = s->process;
    }
    s->older = all;
    all = s;
    pthread_mutex_unlock(&all_mutex);
}

void rks_unlist(relkvanu_store *s) {
    pthread_mutex_lock(&all_mutex);
    relkvanu_store **at = &all;
    while (*at != s) {
        at = &(*at)->older;
    }
    *at = s->older;
    pthread_mutex_unlock(&all_mutex);
}

bool rks_is_forked(const relkvanu_store *s) {
    return (process != NULL ? *process : getpid()) != s->process;
}

/* The same name in the folder, which has no symbolic links then. Sets errno if it returns NULL. */
static char *in_real_folder(const char *path) {
    const char *slash = strrchr(path, '/'), *name = slash == NULL ? path : slash + 1;
    char *real = NULL, *folder = rks_folder_of(path), *within;
    if (folder == NULL) {
        errno = ENOMEM;
        return NULL;
    }
    within = realpath(folder, NULL);
    int error = errno;
    free(folder);
    if (within != NULL && asprintf(&real, "%s/%s", strcmp(within, "/") == 0 ? "" : within, name) < 0) {
        real = NULL;
        error = ENOMEM;
    }
    free(within);
    errno = error;
    return real;
}

/* Whether another user than root has put a link where root would go on. */
static bool is_others_link(const char *path) {
    struct stat found;
    return rks_is_guest(path) && lstat(path, &found) == 0 && S_ISLNK(found.st_mode) && found.st_uid != 0;
}

/* The path without symbolic links, each of which would have a lock of its own. The file itself need not be there. */
static int set_paths(relkvanu_store *s, const char *path) {
    if (is_others_link(path)) {
        return rks_file_fault(s, path, ELOOP);
    }
    s->file.path = realpath(path, NULL);
    if (s->file.path == NULL && errno == ENOENT) {
        s->file.path = in_real_folder(path);
    }
    if (s->file.path == NULL) {
        return rks_file_fault(s, path, errno);
    }
    if (asprintf(&s->file.wal, "%s-wal", s->file.path) < 0) {
        s->file.wal = NULL;
        return RELKVANU_STORE_NO_MEMORY;
    }
    return RELKVANU_STORE_OK;
}

static unsigned count_forks(void) {
    pthread_mutex_lock(&all_mutex);
    unsigned count = forks;
    pthread_mutex_unlock(&all_mutex);
    return count;
}

/* Opens the file, which a child that is forked later knows of and closes. Returns false if one was forked meanwhile: it has this opening of the
 * file and does not know of it, so it is not locked, and another one is made. No fork waits for a disk here. */
static bool is_opened(const char *name, int *file) {
    unsigned before = count_forks();
    int opened = rks_open_beside(name), error = errno;
    pthread_mutex_lock(&all_mutex);
    bool is_known = forks == before || opened < 0;
    *file = is_known ? opened : -1;
    pthread_mutex_unlock(&all_mutex);
    if (!is_known) {
        close(opened);
    }
    errno = error;
    return is_known;
}

static int opened_beside(relkvanu_store *s, const char *end, int *file) {
    char *name = NULL;
    if (asprintf(&name, "%s%s", s->file.path, end) < 0) {
        return RELKVANU_STORE_NO_MEMORY;
    }
    while (!is_opened(name, file)) {}
    int status = *file >= 0 ? RELKVANU_STORE_OK : rks_file_fault(s, name, errno);
    free(name);
    return status;
}

static int set_in_use(relkvanu_store *s) {
    char holder[32];
    ssize_t len = pread(s->file.lock, holder, sizeof holder - 1, 0);
    holder[len > 0 ? len : 0] = 0;
    holder[strcspn(holder, "\n")] = 0;
    return rks_refuse(s, RELKVANU_STORE_IN_USE, "%.400s: in use by process %s", s->file.path, holder[0] != 0 ? holder : "?");
}

/* Whether the name PATH.lock still stands for the file that is locked. */
static int check_named(relkvanu_store *s) {
    char *name = NULL;
    struct stat held, named;
    if (asprintf(&name, "%s.lock", s->file.path) < 0) {
        return RELKVANU_STORE_NO_MEMORY;
    }
    bool is_same = fstat(s->file.lock, &held) == 0 && stat(name, &named) == 0 && rks_is_same(&held, &named);
    free(name);
    return is_same ? RELKVANU_STORE_OK : set_in_use(s);
}

/* SQLite's own lock of PATH is a POSIX lock: it ends once anything in this process opens and closes PATH. So there are two others. The lock
 * of PATH.lock keeps other stores out. That of PATH-shm keeps other connections of SQLite out, of any process: in the mode WAL they
 * need it, and this store does not. */
int rks_lock(relkvanu_store *s, const char *path) {
    struct flock whole = {.l_type = F_WRLCK, .l_whence = SEEK_SET};
    char pid[32] = ""; /* the tail is behind it (last_commit.c) */
    int status = set_paths(s, path);
    if (status != RELKVANU_STORE_OK || (status = opened_beside(s, ".lock", &s->file.lock)) != RELKVANU_STORE_OK) {
        return status;
    }
    if (flock(s->file.lock, LOCK_EX | LOCK_NB) != 0) {
        return errno == EWOULDBLOCK ? set_in_use(s) : rks_file_fault(s, s->file.path, errno);
    }
    if ((status = check_named(s)) != RELKVANU_STORE_OK) {
        return status;
    }
    snprintf(pid, sizeof pid, "%ld\n", (long)getpid());
    if (pwrite(s->file.lock, pid, sizeof pid, 0) != sizeof pid) {
        pid[0] = 0; /* it is for a message alone, so a full disk does not matter */
    }
    if ((status = opened_beside(s, "-shm", &s->file.shm)) != RELKVANU_STORE_OK) {
        return status;
    }
    bool is_locked = fcntl(s->file.shm, F_OFD_SETLK, &whole) == 0;
    return is_locked ? RELKVANU_STORE_OK : rks_refuse(s, RELKVANU_STORE_IN_USE, "%.400s-shm: in use by another program", s->file.path);
}

/* A program that another thread is starting has these files until its exec, so a close alone would leave them locked so long. */
void rks_unlock(relkvanu_store *s) {
    struct flock none = {.l_type = F_UNLCK, .l_whence = SEEK_SET};
    if (s->file.shm >= 0) {
        fcntl(s->file.shm, F_OFD_SETLK, &none);
        close(s->file.shm);
    }
    if (s->file.lock >= 0) {
        flock(s->file.lock, LOCK_UN); /* the last one */
        close(s->file.lock);
    }
    free(s->file.path);
    free(s->file.wal);
}

/* Whether the names still stand for the files that SQLite writes. The first time it notes them. */
bool rks_in_place(relkvanu_store *s) {
    struct stat path, wal;
    bool is_there = stat(s->file.path, &path) == 0 && stat(s->file.wal, &wal) == 0;
    if (is_there && s->file.path_is.st_ino == 0) {
        s->file.path_is = path;
        s->file.wal_is = wal;
    }
    if (is_there && rks_is_same(&path, &s->file.path_is) && rks_is_same(&wal, &s->file.wal_is)) {
        s->file.wal_is = wal; /* and its size */
        return true;
    }
    snprintf(s->fault, sizeof s->fault, "%.400s: this file or its -wal is not there, or another program has replaced it", s->file.path);
    return false;
}
