/* Files: that of the job and its locks, the storage folder with its marker, discarders and sweeps. */
#ifndef RELKVANU_STORE_FILES_H
#define RELKVANU_STORE_FILES_H
#include "../common.h"

/* An open folder with state files, which have their numbers in their names (folder.c). */
struct rks_folder {
    int fd;
    const char *prefix, *suffix;    /* of the names */
    mode_t mode;                    /* of a file that is made */
    bool needs_sync;                /* a file system that can't sync a folder is refused */
    pid_t process;                  /* the one that may use it; 0: any */
    int (*check)(const void *with); /* a status of relkvanu_storage.h: whether the folder is there, and the job's */
    bool (*is_listed)(const void *with, const struct dirent *entry); /* whether an entry with a number is a state file */
    const void *with;
};

/* The job's file, and what locks it. It has this name, and no other, as long as the store is open. */
struct rks_job_file {
    char *path, *wal;
    int lock, shm;
    struct stat path_is, wal_is;
};

/* The folder options.storage. It is the job's and this opening's as long as its marker says so: who deletes or writes a manifest looks. */
struct rks_own_storage {
    int folder;
    bool is_stand_in;        /* it has the marker of the storage alone (put_back.c) */
    struct rks_folder files; /* as one of state files, */
    relkvanu_storage own;    /* and as a storage; without one it has no functions */
};

/* Discarders and sweeps. The first three fields are of the thread that discards, the others are guarded by the mutex. */
struct rks_discards {
    uint64_t tries_at, try_wait; /* after a batch of which none was gone: when it tries again, by rks_clock_ns; ms until then */
    bool is_settled;             /* no file was taken and not reported */
    bool is_discarding;
    uint64_t swept, unissued;  /* files: that sweeps have deleted; that the last one left, since their names were not given out */
    uint64_t failed_deletions; /* of discarders and sweeps */
};

/* owner.c: whether root is in the folder of another user, by the name of a file there. Gives what was made to the user of the folder, or of the folder of the path:
 * 0, or what is wrong as errno. */
bool rks_is_guest(const char *path);
int rks_give(int made, int folder);
int rks_give_beside(int made, const char *path);

/* Opens a file to be written anew, and one that stays, each of which is that user's if it is made. Returns -1 with errno, or a descriptor. */
int rks_open_new(int folder, const char *name);
int rks_open_beside(const char *path);

/* files.c */
int rks_status_of_errno(int error);
int rks_file_fault(relkvanu_store *s, const char *what, int error);

/* Notes the words of a failure. Returns its status. */
__attribute__((format(printf, 3, 4))) int rks_refuse(relkvanu_store *s, int status, const char *format, ...);
int rks_say(relkvanu_store *s, int status, const char *name, const char *words);
char *rks_folder_of(const char *path);

/* Closes what is open, if it is, and keeps errno. */
void rks_close(int file);

/* Looks at a state file by its number, and not behind a link; at two files; whether a name still stands for a file that is open. */
bool rks_find_file(int folder, uint64_t file, struct stat *found);
bool rks_is_same(const struct stat *one, const struct stat *other);
bool rks_is_named(int file, const char *name);

/* Calls `each` for each entry of an open folder but itself and the one above, until it returns something else than 0, and returns that. -1: errno says why the
 * folder can't be read. */
int rks_each_entry(int folder, int (*each)(void *with, const struct dirent *entry), void *with);

/* The text of a path without slashes at its end, so that a name beside it can be made. NULL: no memory. */
char *rks_without_slashes(const char *path);

/* The whole path of a folder that may not be there yet. To be freed. */
int rks_whole_path(relkvanu_store *s, const char *folder, char **path);

/* The name beside a job's file under which a recovery, or a backup that is put back, makes another one: PATH.new may be a job. NULL: no memory. */
char *rks_scratch_name(const char *path, const char *end);
int rks_sync_folder_of(relkvanu_store *s, const char *path);
int rks_write_again(relkvanu_store *s);

/* Whether a store that was closed has brought all into its file: its close does not say so. */
int rks_check_closed(relkvanu_store *s, const char *path);
int rks_make_file(relkvanu_store *s);
bool rks_write_whole(int file, const void *bytes, size_t len, off_t at);

/* Writes all of a new file, syncs it and closes it. 0, or what is wrong as errno. */
int rks_write_new(int file, const void *bytes, size_t len);

/* Removes a job's file and what is beside it, or only that. Returns a status. */
int rks_remove_job(relkvanu_store *s, const char *path, bool with_file);
int rks_remove(relkvanu_store *s, const char *path, const char *end);

/* Gives the file at `from` the name of the job's file, which is durable then, and so is what was removed there before. */
int rks_name_job(relkvanu_store *s, const char *from);

/* marker.c: the identity of two random numbers; a new one: false if there are no random numbers. */
void rks_identity(const uint64_t words[2], char job[RKS_IDENTITY + 1]);
bool rks_new_identity(char job[RKS_IDENTITY + 1]);

/* own_folder.c: the storage folder at an opening */
int rks_open_folder(relkvanu_store *s, const char *folder);

/* The lock of the folder. Who writes its marker looks at the marker once more under it: otherwise an opening under way takes a fence away that came behind its
 * first look. A claim holds it to its end. Waits. A file system that can't lock a folder (NFS) has none: each process has to be ended before. */
int rks_lock_folder(relkvanu_store *s, const char *folder);
void rks_unlock_folder(relkvanu_store *s);
int rks_check_new_folder(relkvanu_store *s, const char *folder);
int rks_write_marker(relkvanu_store *s, const char *folder, uint64_t epoch);
int rks_check_marker(relkvanu_store *s, const char *folder, uint64_t epoch);

/* The opening that the marker names, which has to be one of this job. */
int rks_read_marker(relkvanu_store *s, const char *folder, uint64_t *marked);

/* The same of any job, whose identity the store gets. */
int rks_read_owner(relkvanu_store *s, const char *folder, uint64_t *marked);

/* The same where a marker may be absent: then *has_marker is false, and the store has no identity. A marker that can't be read is a fault. */
int rks_find_owner(relkvanu_store *s, const char *folder, uint64_t *marked, bool *has_marker);
bool rks_has_marker(const relkvanu_store *s);

/* Whether the folder of the storage is also that of PATH; whether the name is that of one of the job's own files there. */
bool rks_has_own(const relkvanu_store *s);
bool rks_is_own(const relkvanu_store *s, const char *name);

/* Whose folder it is, as rks_owner_of says it. RELKVANU_STORAGE_OK: this opening's, or there is none. */
int rks_owner(const relkvanu_store *s);

/* storage.c: the folder that was opened becomes the store's own storage. */
void rks_begin_own(relkvanu_store *s);

/* The greatest number of a file in the folder, or of a part; 0 if there is none. RELKVANU_STORE_STORAGE: the folder is gone;
 * RELKVANU_STORE_NOT_DONE: errno says why it can't be read. */
int rks_greatest_file(relkvanu_store *s, uint64_t *greatest);

#endif
