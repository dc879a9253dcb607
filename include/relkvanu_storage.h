/* Where a job's state files are: a storage, as functions that an engine fills in for its own (an object store, say), and one that is
 * ready, a folder. A file is known by its number. It is whole or not there, and durable before a task acknowledges it. A file counts as
 * deleted only in a storage that is there, and that is the job's.
 *
 * relkvanu_store_discard_storage and relkvanu_store_sweep_storage (relkvanu_store.h) delete in a storage. The folder alone needs neither
 * a store nor SQLite. Link librelkvanu-store.a, or use `pkg-config relkvanu-store`. For Linux.
 *
 * Conditions for the caller:
 * - Several threads, processes and hosts may call the functions of a storage at once, and any of them may end at any moment.
 * - No number is given to two files. In a job with names a task has reserved the number.
 * - A path, a list or a buffer that is passed stays as it is until the function returns.
 */
#ifndef RELKVANU_STORAGE_H
#define RELKVANU_STORAGE_H
#include <stdbool.h>
#include <stddef.h>
#include <stdint.h>

#ifdef __cplusplus
extern "C" {
#endif

/* clang-format off */

/* Status. */
#define RELKVANU_STORAGE_OK 0            /* it was done */
#define RELKVANU_STORAGE_BAD_ARGUMENT 1  /* an option or a reserved field: nothing was done */
#define RELKVANU_STORAGE_NO_MEMORY 2     /* make the same call again later; after a put forfeit the name, since a part may be there */
#define RELKVANU_STORAGE_NOT_THERE 3     /* no storage or no marker: a wrong path, or not mounted. No file of it counts as deleted */
#define RELKVANU_STORAGE_OTHER_JOB 4     /* its marker is that of another job */
#define RELKVANU_STORAGE_PRESENT 5       /* put: there is a file of this number, or a part of one */
#define RELKVANU_STORAGE_ABSENT 6        /* get: there is no file of this number */
#define RELKVANU_STORAGE_NOT_EMPTY 7     /* open: a new job needs a storage without state files: beside files a log is missing */
#define RELKVANU_STORAGE_ENDED 8         /* list: the function of the pages has ended the listing */
#define RELKVANU_STORAGE_FAILED 9        /* a read, write, sync or request. errno says why, or is 0 */

/* What became of a file of a deletion. */
#define RELKVANU_STORAGE_UNDELETED 0u /* it may be there still */
#define RELKVANU_STORAGE_DELETED 1u   /* it was there, and is gone for good */
#define RELKVANU_STORAGE_MISSING 2u   /* it was not there, and the storage is */

#define RELKVANU_STORAGE_PAGE 1000 /* no page has more files */

/* A file of a listing, with its length in bytes. */
typedef struct {
    uint64_t file, bytes;
} relkvanu_storage_file;

/* Takes a page of 1 to RELKVANU_STORAGE_PAGE files. Returns whether the listing shall go on. It may delete these files. */
typedef bool (*relkvanu_storage_page)(void *with, const relkvanu_storage_file *files, size_t files_len);

/* A storage. Each function has the pointer `with` as its first argument, and may be called by several threads at once.
 *
 * check: is it there, and the job's? An object or a file, the marker, names the job. RELKVANU_STORAGE_NOT_THERE,
 * RELKVANU_STORAGE_OTHER_JOB.
 *
 * put: makes a file. When it returns RELKVANU_STORAGE_OK, a loss of power does not take the file, and a task may acknowledge it (but see
 * relkvanu_storage_open_folder on file systems that can't sync a folder: keep no state there). After
 * any other status the file may be there, whole or in part: the task forfeits the name and declines, and a sweep deletes what is left.
 * RELKVANU_STORAGE_PRESENT: the number is taken, and the file that has it stays as it is.
 *
 * get: reads a file. *len is how many bytes the file has, and the first of them, at most `room`, are in contents.
 * RELKVANU_STORAGE_ABSENT.
 *
 * delete_files: deletes files for good, also what is there in part, and writes what became of each: RELKVANU_STORAGE_DELETED,
 * RELKVANU_STORAGE_MISSING or RELKVANU_STORAGE_UNDELETED. With another status than RELKVANU_STORAGE_OK all are UNDELETED, though some
 * may be gone: it may be called again. It returns RELKVANU_STORAGE_OK also if a file could not be deleted.
 *
 * list: calls page with all files, also with those that were put in part, at most `most` of them each time (0: as many as it likes). A
 * number may come twice: of a file, and of a part. Files that are made or deleted meanwhile may be among them or not. With
 * RELKVANU_STORAGE_OK the list is whole. */
typedef struct {
    void *with;
    int (*check)(void *with);
    int (*put)(void *with, uint64_t file, const void *contents, size_t len);
    int (*get)(void *with, uint64_t file, void *contents, size_t room, uint64_t *len);
    int (*delete_files)(void *with, const uint64_t *files, size_t files_len, uint8_t *outcomes);
    int (*list)(void *with, size_t most, relkvanu_storage_page page, void *with_page);
    uint64_t reserved[4]; /* 0 */
} relkvanu_storage;

/* Flags of a folder. */
#define RELKVANU_STORAGE_RECOVER 0u /* the folder has to have the marker */
#define RELKVANU_STORAGE_NEW 1u     /* makes the marker,
    in a folder that has no state file. An opening that was killed midway may be made again */

/* No prefix and suffix are longer, together. */
#define RELKVANU_STORAGE_MOST_AFFIX 200

/* A folder. NULL means the default that is named beside the text. All texts are bytes that end with a zero, in any encoding. */
typedef struct {
    uint32_t flags;
    const char *path;        /* of the folder, which has to exist */
    const char *job;         /* the name of the job, in one line */
    const char *prefix;      /* of a file's name, before its number; without '/'. NULL: none */
    const char *suffix;      /* after its number */
    const char *marker_name; /* without '/'; no name of a state file. NULL: prefix and .relkvanu-storage */
    const char *marker_text; /* NULL: "relkvanu: state files of the job JOB", and a new line */
    uint64_t reserved[4];    /* 0 */
} relkvanu_storage_options;

/* Opens a folder as a storage. File 7 has the name 7 between the prefix and the suffix, and .part behind it while it is not whole. The
 * folder stays open, so no call reaches a folder that is mounted or renamed to its path later. No symbolic link in it is followed, and
 * what is no regular file is no file of a listing. A put writes beside the name, syncs, gives the file its name and syncs the folder. A
 * file system that can't sync a folder (EINVAL of that sync) is taken: there a loss of power may take files that were put. Each other error
 * of a sync is reported, and so is EINVAL of a file's: the file was not put, and no file counts as deleted. The name of the job has to be
 * one that no other job has, in any environment: a second job of the same name would sweep the files of the first. Several jobs may share a
 * folder if their prefixes or suffixes differ.
 *
 * RELKVANU_STORAGE_BAD_ARGUMENT, RELKVANU_STORAGE_NO_MEMORY, RELKVANU_STORAGE_NOT_THERE (also: there is no folder; errno says more),
 * RELKVANU_STORAGE_OTHER_JOB, RELKVANU_STORAGE_NOT_EMPTY or RELKVANU_STORAGE_FAILED: then nothing is open, and storage->with is NULL. */
int relkvanu_storage_open_folder(relkvanu_storage *storage, const relkvanu_storage_options *options);

/* Closes a folder that relkvanu_storage_open_folder opened, after the last call of each thread. One that was not opened, or is closed,
 * is passed over. */
void relkvanu_storage_close_folder(relkvanu_storage *storage);

/* Opens the folder of a store (options.storage of relkvanu_store.h) for a task in another process, which was told job and epoch when it was
 * started: the store's report.job and report.epoch. put and get are those of the store, check and each put look at the store's marker, and
 * delete_files and list are NULL: a task deletes nothing. The folder stays open, so no file goes into one that is mounted over it. Its
 * file system has to be able to sync a folder: a put fails otherwise.
 *
 * RELKVANU_STORAGE_NO_MEMORY; RELKVANU_STORAGE_NOT_THERE: there is no folder, or no marker of a store in it; RELKVANU_STORAGE_OTHER_JOB:
 * the folder is another job's, or a later opening has it, so the task ends; RELKVANU_STORAGE_FAILED: errno says why. After each of them
 * nothing is open, and storage->with is NULL. check and put return the same later. */
int relkvanu_storage_open_task(relkvanu_storage *storage, const char *path, const uint64_t job[2], uint64_t epoch);

/* Closes what relkvanu_storage_open_task opened, after the last call of each thread. One that was not opened, or is closed, is passed
 * over. */
void relkvanu_storage_close_task(relkvanu_storage *storage);

/* clang-format on */

#ifdef __cplusplus
}
#endif
#endif
