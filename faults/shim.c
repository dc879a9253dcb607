/* shim.c: for LD_PRELOAD. What happens to the files below STORE_IN when a process ends, power is lost or a device fails. STORE_IN has the
 * beginnings of paths, with a colon between two.
 *
 * STORE_DIE=n: the process ends at the n-th call that writes, before it, or after it with STORE_DIE_AFTER=1.
 * STORE_FAULT=sync|write|short|full|quota|change|any|read|grow, STORE_AT=n: the n-th such call fails; STORE_FOR=k: so many fail, 0 all
 * later ones; STORE_RANDOM=p: each fails with 1/p; STORE_ON: only paths with this text, or that end with it if it ends with $. "change" is a
 * file that is made, cut, renamed or removed.
 * "grow" lets files grow by STORE_GROWS bytes from one sync to the next: writes behind these fail with the error number STORE_ERROR.
 * STORE_COUNT=FILE: at the end of the process gets how many calls were counted for STORE_DIE or STORE_AT.
 * STORE_JOURNAL=FILE: appends what the process does to the files, and faults/power.py makes of it what a loss of power leaves. Processes may
 * share it. What one writes to the file STORE_TOLD is in it too: others have learned that then.
 * STORE_RAW=1: sees the names that the program makes, changes and removes by system calls of its own, as Rust's crate rustix does.
 *
 * No preloaded library sees what the C library writes by itself, for fwrite or fprintf. So at the sync of a file that has more than was seen
 * the journal gets all of it. */
#define _GNU_SOURCE
#include <dlfcn.h>
#include <errno.h>
#include <fcntl.h>
#include <limits.h>
#include <link.h>
#include <linux/filter.h>
#include <linux/seccomp.h>
#include <pthread.h>
#include <signal.h>
#include <stdarg.h>
#include <stdbool.h>
#include <stddef.h>
#include <stdint.h>
#include <stdio.h>
#include <stdlib.h>
#include <string.h>
#include <sys/prctl.h>
#include <sys/stat.h>
#include <sys/syscall.h>
#include <sys/uio.h>
#include <ucontext.h>
#include <unistd.h>

enum { PATH = 700, DESCRIPTORS = 4096 };

/* A record of the journal, as faults/power.py reads it. The path is behind it, and then `len` bytes. */
enum kind { MAKES = 1, CUTS, WRITES, CONTAINS, SYNCS, FAILS_TO_SYNC, SYNCS_FOLDER, REMOVES, RENAMES, MAKES_FOLDER, TELLS, LINKS };
struct record {
    uint32_t kind, path_len;
    uint64_t at, len; /* at: a place in the file, its size, or how long the journal was when a sync began */
};

/* How far a file was written by calls that are seen here, by its descriptor. */
struct seen {
    ino_t inode;
    off_t end;
};

static struct seen seen[DESCRIPTORS];
static off_t written_to, synced_to; /* of the file that STORE_FAULT=grow is for */
static long calls, faulty;
static __thread unsigned seed;

/* Held from a change of a name until the journal has it: threads change the same names. */
static pthread_mutex_t names = PTHREAD_MUTEX_INITIALIZER;

static void lock_names(void) {
    pthread_mutex_lock(&names);
}

static void unlock_names(void) {
    pthread_mutex_unlock(&names);
}

/* A fork waits for the name that another thread changes. */
__attribute__((constructor)) static void fork_between_changes(void) {
    pthread_atfork(lock_names, unlock_names, unlock_names);
}

/* Ends the process: the journal would say too little. */
static void end_because(const char *why) {
    char told[200];
    int len = snprintf(told, sizeof told, "shim.c: %s: %s\n", why, strerror(errno));
    syscall(SYS_write, STDERR_FILENO, told, len);
    abort();
}

static long number(const char *name, long other) {
    return getenv(name) != NULL ? atol(getenv(name)) : other;
}

static bool is_in(const char *path) {
    const char *in = getenv("STORE_IN");
    while (in != NULL && *in != 0) {
        size_t len = strcspn(in, ":");
        if (strncmp(path, in, len) == 0) {
            return true;
        }
        in += len + (in[len] == ':');
    }
    return false;
}

static bool path_of(int fd, char *path) {
    char name[64];
    int before = errno;
    snprintf(name, sizeof name, "/proc/self/fd/%d", fd);
    ssize_t len = readlink(name, path, PATH - 100);
    errno = before;
    path[len > 0 ? len : 0] = 0;
    return len > 0 && is_in(path);
}

static void full_path(int at, const char *name, char *path) {
    char folder[PATH] = "";
    int fd, len = 0;
    if (sscanf(name, "/proc/self/fd/%d/%n", &fd, &len) == 1 && len > 0) { /* a folder that is held open */
        at = fd;
        name += len;
    }
    if (name[0] == '/') {
        snprintf(path, PATH, "%.599s", name);
        return;
    }
    if (at != AT_FDCWD) {
        path_of(at, folder);
    } else if (getcwd(folder, sizeof folder) == NULL) {
        folder[0] = 0;
    }
    snprintf(path, PATH, "%.400s/%.200s", folder, name);
}

/* Ends the process at its call. */
static void may_die(bool is_after) {
    if (getenv("STORE_DIE") == NULL || is_after != (getenv("STORE_DIE_AFTER") != NULL)) {
        return;
    }
    if (__atomic_add_fetch(&calls, 1, __ATOMIC_SEQ_CST) == number("STORE_DIE", 0)) {
        kill(getpid(), SIGKILL);
        for (;;) {
            pause();
        }
    }
}

static bool is_on(const char *path) {
    const char *on = getenv("STORE_ON");
    size_t len = on == NULL ? 0 : strlen(on), path_len = strlen(path);
    if (len > 0 && on[len - 1] == '$') {
        return path_len >= len - 1 && strncmp(path + path_len - (len - 1), on, len - 1) == 0;
    }
    return on == NULL || strstr(path, on) != NULL;
}

static bool fails(const char *kind, const char *path) {
    const char *fault = getenv("STORE_FAULT");
    bool is_kind = fault != NULL && (strcmp(fault, kind) == 0 || (strcmp(fault, "any") == 0 && strcmp(kind, "read") != 0) ||
                                        (strcmp(kind, "write") == 0 && strstr("short full quota", fault) != NULL));
    if (!is_kind || !is_on(path)) {
        return false;
    }
    if (getenv("STORE_RANDOM") != NULL) {
        seed = seed != 0 ? seed : (unsigned)(size_t)&seed ^ (unsigned)getpid();
        return rand_r(&seed) % number("STORE_RANDOM", 1) == 0;
    }
    long nth = __atomic_add_fetch(&faulty, 1, __ATOMIC_SEQ_CST), from = number("STORE_AT", 1), len = number("STORE_FOR", 1);
    return nth >= from && (len == 0 || nth < from + len);
}

__attribute__((destructor)) static void tell_count(void) {
    FILE *to = getenv("STORE_COUNT") != NULL ? fopen(getenv("STORE_COUNT"), "w") : NULL;
    if (to != NULL) {
        fprintf(to, "%ld\n", calls + faulty);
        fclose(to);
    }
}

/* Appends a record, in one write. */
static void tell(enum kind kind, const char *path, uint64_t at, const void *bytes, size_t len) {
    const char *journal = getenv("STORE_JOURNAL");
    if (journal == NULL) {
        return;
    }
    int before = errno, to = (int)syscall(SYS_openat, AT_FDCWD, journal, O_WRONLY | O_APPEND | O_CREAT | O_CLOEXEC, 0600);
    struct record record = {kind, (uint32_t)strlen(path), at, len};
    struct iovec parts[] = {{&record, sizeof record}, {(void *)path, record.path_len}, {(void *)bytes, len}};
    if (to < 0 || syscall(SYS_writev, to, parts, 3) != (long)(sizeof record + record.path_len + len)) {
        end_because("the journal can't be written");
    }
    syscall(SYS_close, to);
    errno = before;
}

static uint64_t journal_len(void) {
    struct stat is;
    const char *journal = getenv("STORE_JOURNAL");
    return journal != NULL && stat(journal, &is) == 0 ? (uint64_t)is.st_size : 0;
}

/* The file of a descriptor has at least these bytes, of calls that were seen. */
static void note(int fd, off_t end, bool is_cut) {
    struct stat is;
    if (fd >= 0 && fd < DESCRIPTORS && fstat(fd, &is) == 0) {
        bool is_longer = !is_cut && seen[fd].inode == is.st_ino && seen[fd].end > end;
        seen[fd] = (struct seen){is.st_ino, is_longer ? seen[fd].end : end};
    }
}

static void wrote(int fd, const char *path, const void *bytes, ssize_t len, off_t at) {
    if (len > 0) {
        written_to = is_on(path) ? at + len : written_to;
        tell(WRITES, path, (uint64_t)at, bytes, (size_t)len);
        note(fd, at + len, false);
    }
}

/* Whether the file has a name, and more bytes than were seen. */
static bool has_unseen(int fd, struct stat *is) {
    return fstat(fd, is) == 0 && S_ISREG(is->st_mode) && is->st_nlink > 0 &&
           !(fd < DESCRIPTORS && seen[fd].inode == is->st_ino && seen[fd].end >= is->st_size);
}

/* All bytes of a file that has more of them than were seen. It may be open for writing alone, so it is opened again, by its descriptor:
 * another thread may take its name away at any time. */
static void tell_unseen(int fd, const char *path) {
    char name[64];
    struct stat is;
    if (getenv("STORE_JOURNAL") == NULL) {
        return;
    }
    lock_names();
    if (has_unseen(fd, &is)) {
        snprintf(name, sizeof name, "/proc/self/fd/%d", fd);
        char *bytes = malloc((size_t)is.st_size + 1);
        int from = (int)syscall(SYS_openat, AT_FDCWD, name, O_RDONLY | O_CLOEXEC);
        ssize_t len = bytes == NULL || from < 0 ? -1 : syscall(SYS_pread64, from, bytes, is.st_size, 0);
        if (len < 0) {
            end_because("a file that is synced can't be read");
        }
        tell(CONTAINS, path, 0, bytes, (size_t)len);
        syscall(SYS_close, from);
        free(bytes);
        note(fd, len, true);
    }
    unlock_names();
}

static bool is_folder(int fd) {
    struct stat is;
    return fstat(fd, &is) == 0 && S_ISDIR(is.st_mode);
}

static int sync_of(int fd, long call) {
    char path[PATH];
    bool is_ours = path_of(fd, path), is_dir = is_folder(fd);
    if (is_ours) {
        may_die(false);
        tell_unseen(fd, path);
    }
    uint64_t began = journal_len();
    if (is_ours && fails("sync", path)) {
        if (!is_dir) {
            tell(FAILS_TO_SYNC, path, began, NULL, 0);
        }
        errno = EIO;
        return -1;
    }
    int result = (int)syscall(call, fd);
    if (result == 0 && (is_ours || is_dir)) { /* a folder may have the name of one of the files */
        tell(is_dir ? SYNCS_FOLDER : SYNCS, path, began, NULL, 0);
    }
    if (is_ours) {
        synced_to = is_dir || !is_on(path) ? synced_to : written_to;
        may_die(true);
    }
    return result;
}

int fdatasync(int fd) {
    return sync_of(fd, SYS_fdatasync);
}

int fsync(int fd) {
    return sync_of(fd, SYS_fsync);
}

/* Whether a write lets its file grow beyond what STORE_GROWS allows from one sync to the next. */
static bool is_beyond(int fd, const char *path, off_t at, size_t len) {
    const char *fault = getenv("STORE_FAULT");
    struct stat is;
    if (fault == NULL || strcmp(fault, "grow") != 0 || !is_on(path)) {
        return false;
    }
    synced_to = at < synced_to ? at : synced_to; /* a log that begins again */
    off_t end = at + (off_t)len;
    return end > synced_to + number("STORE_GROWS", 0) && fstat(fd, &is) == 0 && end > is.st_size;
}

/* Why a write fails, or 0. One that is short has written half. */
static int write_fault(int fd, const char *path, const void *bytes, size_t len, off_t at) {
    if (is_beyond(fd, path, at, len)) {
        return (int)number("STORE_ERROR", ENOSPC);
    }
    if (!fails("write", path)) {
        return 0;
    }
    const char *fault = getenv("STORE_FAULT");
    if (strcmp(fault, "short") == 0) {
        wrote(fd, path, bytes, syscall(SYS_pwrite64, fd, bytes, len / 2, at), at);
    }
    return strcmp(fault, "full") == 0 ? ENOSPC : strcmp(fault, "quota") == 0 ? EDQUOT : EIO;
}

ssize_t pwrite64(int fd, const void *bytes, size_t len, off_t at) {
    char path[PATH];
    if (!path_of(fd, path)) {
        return syscall(SYS_pwrite64, fd, bytes, len, at);
    }
    may_die(false);
    int fault = write_fault(fd, path, bytes, len, at);
    if (fault != 0) {
        errno = fault;
        return -1;
    }
    ssize_t written = syscall(SYS_pwrite64, fd, bytes, len, at);
    wrote(fd, path, bytes, written, at);
    may_die(true);
    return written;
}

ssize_t pwrite(int fd, const void *bytes, size_t len, off_t at) __attribute__((alias("pwrite64")));

/* At the descriptor's place, or at the end of a file that is appended to. */
ssize_t write(int fd, const void *bytes, size_t len) {
    char path[PATH] = "";
    if (getenv("STORE_IN") == NULL || !path_of(fd, path)) {
        ssize_t written = syscall(SYS_write, fd, bytes, len);
        const char *told = getenv("STORE_TOLD");
        if (written > 0 && told != NULL && strcmp(told, path) == 0) {
            tell(TELLS, "", 0, bytes, (size_t)written);
        }
        return written;
    }
    may_die(false);
    struct stat is;
    bool appends = (fcntl(fd, F_GETFL) & O_APPEND) != 0 && fstat(fd, &is) == 0;
    int fault = write_fault(fd, path, bytes, len, appends ? is.st_size : lseek(fd, 0, SEEK_CUR));
    if (fault != 0) {
        errno = fault;
        return -1;
    }
    ssize_t written = syscall(SYS_write, fd, bytes, len);
    wrote(fd, path, bytes, written, lseek(fd, 0, SEEK_CUR) - written);
    may_die(true);
    return written;
}

ssize_t writev(int fd, const struct iovec *parts, int parts_len) {
    char path[PATH];
    if (getenv("STORE_IN") == NULL || !path_of(fd, path)) {
        return syscall(SYS_writev, fd, parts, parts_len);
    }
    return write(fd, parts->iov_base, parts->iov_len); /* a caller goes on behind what was written */
}

ssize_t pread64(int fd, void *bytes, size_t len, off_t at) {
    char path[PATH];
    if (getenv("STORE_FAULT") != NULL && strcmp(getenv("STORE_FAULT"), "read") == 0 && path_of(fd, path) && fails("read", path)) {
        errno = EIO;
        return -1;
    }
    return syscall(SYS_pread64, fd, bytes, len, at);
}

ssize_t pread(int fd, void *bytes, size_t len, off_t at) __attribute__((alias("pread64")));

static bool changes(const char *path) {
    may_die(false);
    if (fails("change", path)) {
        errno = EIO;
        return false;
    }
    return true;
}

int ftruncate64(int fd, off_t len) {
    char path[PATH];
    bool is_ours = path_of(fd, path);
    if (is_ours && !changes(path)) {
        return -1;
    }
    int result = (int)syscall(SYS_ftruncate, fd, len);
    if (is_ours && result == 0) {
        tell(CUTS, path, (uint64_t)len, NULL, 0);
        note(fd, len, true);
    }
    if (is_ours) {
        may_die(true);
    }
    return result;
}

int ftruncate(int fd, off_t len) __attribute__((alias("ftruncate64")));

/* A change of the names of a file, which is told by the path that has to be ours, unless the call fails. */
static int change_names(enum kind kind, const char *path, const char *target, const char *ours, long call, const long words[5]) {
    if (is_in(ours) && !changes(ours)) {
        return -1;
    }
    lock_names();
    int result = (int)syscall(call, words[0], words[1], words[2], words[3], words[4]);
    if (is_in(ours) && result == 0) {
        tell(kind, path, 0, target, strlen(target));
    }
    unlock_names();
    if (is_in(ours)) {
        may_die(true);
    }
    return result;
}

int unlinkat(int at, const char *name, int flags) {
    char path[PATH];
    full_path(at, name, path);
    return change_names(REMOVES, path, "", path, SYS_unlinkat, (long[5]){at, (long)name, flags});
}

int unlink(const char *name) {
    return unlinkat(AT_FDCWD, name, 0);
}

int renameat2(int from, const char *name, int to, const char *other, unsigned flags) {
    char path[PATH], target[PATH];
    full_path(from, name, path);
    full_path(to, other, target);
    return change_names(RENAMES, path, target, path, SYS_renameat2, (long[5]){from, (long)name, to, (long)other, flags});
}

int renameat(int from, const char *name, int to, const char *other) {
    return renameat2(from, name, to, other, 0);
}

int rename(const char *name, const char *other) {
    return renameat(AT_FDCWD, name, AT_FDCWD, other);
}

int linkat(int from, const char *name, int to, const char *other, int flags) {
    char path[PATH], target[PATH];
    full_path(from, name, path);
    full_path(to, other, target);
    return change_names(LINKS, path, target, target, SYS_linkat, (long[5]){from, (long)name, to, (long)other, flags});
}

int link(const char *name, const char *other) {
    return linkat(AT_FDCWD, name, AT_FDCWD, other, 0);
}

int rmdir(const char *name) {
    return unlinkat(AT_FDCWD, name, AT_REMOVEDIR);
}

int mkdirat(int at, const char *name, mode_t mode) {
    char path[PATH];
    full_path(at, name, path);
    int result = (int)syscall(SYS_mkdirat, at, name, mode);
    if (result == 0 && is_in(path)) {
        tell(MAKES_FOLDER, path, 0, NULL, 0);
    }
    return result;
}

int mkdir(const char *name, mode_t mode) {
    return mkdirat(AT_FDCWD, name, mode);
}

/* What the journal gets of a file that was opened: it was made, or cut. */
static void opened(int fd, const char *path, bool is_made, bool is_cut) {
    struct stat is;
    if (is_made) {
        tell(MAKES, path, 0, NULL, 0);
    } else if (is_cut) {
        tell(CUTS, path, 0, NULL, 0);
    }
    if (fstat(fd, &is) == 0) {
        note(fd, is.st_size, true);
    }
}

/* Opens a file, and makes it if it is not there, and asks for that. `is_made` gets whether it was. */
static int open_or_make(int at, const char *name, int flags, int mode, bool *is_made) {
    *is_made = false;
    if ((flags & (O_CREAT | O_EXCL)) != O_CREAT) {
        int result = (int)syscall(SYS_openat, at, name, flags, mode);
        *is_made = result >= 0 && (flags & O_CREAT) != 0;
        return result;
    }
    for (;;) {
        int result = (int)syscall(SYS_openat, at, name, flags & ~O_CREAT, mode);
        if (result >= 0 || errno != ENOENT) {
            return result;
        }
        result = (int)syscall(SYS_openat, at, name, flags | O_EXCL, mode);
        if (result >= 0 || errno != EEXIST) {
            *is_made = result >= 0;
            return result;
        }
    }
}

static int open_of(int at, const char *name, int flags, int mode) {
    char path[PATH];
    struct stat is;
    full_path(at, name, path);
    bool is_ours = is_in(path), makes = (flags & O_CREAT) != 0 && is_ours && stat(path, &is) != 0, is_made;
    if (!is_ours) {
        return (int)syscall(SYS_openat, at, name, flags, mode);
    }
    if (makes && !changes(path)) {
        return -1;
    }
    lock_names();
    int before = errno, result = open_or_make(at, name, flags, mode, &is_made);
    errno = result >= 0 ? before : errno;
    if (result >= 0 && (flags & O_ACCMODE) != O_RDONLY) {
        opened(result, path, is_made, (flags & O_TRUNC) != 0);
    }
    unlock_names();
    if (makes && result >= 0) {
        may_die(true);
    }
    return result;
}

/* The mode of a new file, which is there only for one. */
#define MODE(mode)                              \
    int mode = 0;                               \
    if ((flags & (O_CREAT | O_TMPFILE)) != 0) { \
        va_list more;                           \
        va_start(more, flags);                  \
        mode = va_arg(more, int);               \
        va_end(more);                           \
    }

int open(const char *name, int flags, ...) {
    MODE(mode)
    return open_of(AT_FDCWD, name, flags, mode);
}

int openat(int at, const char *name, int flags, ...) {
    MODE(mode)
    return open_of(at, name, flags, mode);
}

int open64(const char *name, int flags, ...) __attribute__((alias("open")));
int openat64(int at, const char *name, int flags, ...) __attribute__((alias("openat")));

FILE *fopen(const char *name, const char *mode) {
    FILE *(*real)(const char *, const char *) = (FILE * (*)(const char *, const char *)) dlsym(RTLD_NEXT, "fopen");
    char path[PATH];
    struct stat is;
    full_path(AT_FDCWD, name, path);
    bool is_ours = is_in(path) && *mode != 'r', makes = is_ours && stat(path, &is) != 0;
    if (makes && !changes(path)) {
        return NULL;
    }
    if (!is_ours) {
        return real(name, mode);
    }
    lock_names();
    bool is_made = stat(path, &is) != 0;
    FILE *stream = real(name, mode);
    if (stream != NULL) {
        opened(fileno(stream), path, is_made, *mode == 'w');
    }
    unlock_names();
    return stream;
}

FILE *fopen64(const char *name, const char *mode) __attribute__((alias("fopen")));

/* In place of a system call that the program makes itself. */
static void make_call(int signal, siginfo_t *info, void *context) {
    greg_t *words = ((ucontext_t *)context)->uc_mcontext.gregs;
    int before = errno, at = (int)words[REG_RDI];
    const char *name = (const char *)words[REG_RSI];
    long result = -1;
    errno = ENOSYS;
    switch (info->si_syscall) {
    case SYS_openat: result = open_of(at, name, (int)words[REG_RDX], (int)words[REG_R10]); break;
    case SYS_unlinkat: result = unlinkat(at, name, (int)words[REG_RDX]); break;
    case SYS_renameat: result = renameat(at, name, (int)words[REG_RDX], (const char *)words[REG_R10]); break;
    case SYS_renameat2: result = words[REG_R8] == 0 ? renameat(at, name, (int)words[REG_RDX], (const char *)words[REG_R10]) : -1; break;
    default: (void)signal;
    }
    words[REG_RAX] = result < 0 ? -errno : result;
    errno = before;
}

/* Where the code of the C library is: its own calls are let through, with those of this library, which makes them by it. */
static int find_code(struct dl_phdr_info *info, size_t size, void *found) {
    uint64_t *code = found, at = (uint64_t)(uintptr_t)dlsym(RTLD_DEFAULT, "syscall");
    (void)size;
    for (int i = 0; i < info->dlpi_phnum; i++) {
        uint64_t begin = info->dlpi_addr + info->dlpi_phdr[i].p_vaddr, end = begin + info->dlpi_phdr[i].p_memsz;
        if (info->dlpi_phdr[i].p_type == PT_LOAD && begin <= at && at < end) {
            code[0] = begin;
            code[1] = end;
        }
    }
    return 0;
}

#define LOAD(field) BPF_STMT(BPF_LD | BPF_W | BPF_ABS, offsetof(struct seccomp_data, field))
#define IS(value, then, otherwise) BPF_JUMP(BPF_JMP | BPF_JEQ | BPF_K, (uint32_t)(value), then, otherwise)
#define REACHES(value, then, otherwise) BPF_JUMP(BPF_JMP | BPF_JGE | BPF_K, (uint32_t)(value), then, otherwise)
#define RETURN(value) BPF_STMT(BPF_RET | BPF_K, value)

__attribute__((constructor)) static void see_raw_calls(void) {
    uint64_t code[2] = {0, 0};
    struct sigaction action = {.sa_sigaction = make_call, .sa_flags = SA_SIGINFO | SA_NODEFER};
    if (getenv("STORE_RAW") == NULL) {
        return;
    }
    dl_iterate_phdr(find_code, code);
    struct sock_filter filter[] = {
        LOAD(nr),
        IS(SYS_openat, 4, 0),
        IS(SYS_unlinkat, 3, 0),
        IS(SYS_renameat, 2, 0),
        IS(SYS_renameat2, 1, 0),
        RETURN(SECCOMP_RET_ALLOW),
        BPF_STMT(BPF_LD | BPF_W | BPF_ABS, offsetof(struct seccomp_data, instruction_pointer) + 4),
        IS(code[0] >> 32, 1, 0),
        IS(code[1] >> 32, 0, 4),
        LOAD(instruction_pointer),
        BPF_STMT(BPF_ALU | BPF_SUB | BPF_K, (uint32_t)code[0]),
        REACHES(code[1] - code[0], 1, 0),
        RETURN(SECCOMP_RET_ALLOW),
        RETURN(SECCOMP_RET_TRAP),
    };
    struct sock_fprog program = {sizeof filter / sizeof filter[0], filter};
    if (code[0] == 0 || sigaction(SIGSYS, &action, NULL) != 0 || prctl(PR_SET_NO_NEW_PRIVS, 1, 0, 0, 0) != 0 ||
        prctl(PR_SET_SECCOMP, SECCOMP_MODE_FILTER, &program) != 0) {
        end_because("system calls can't be seen");
    }
}
