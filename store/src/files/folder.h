/* State files in an open folder, by their numbers: what the store's own folder and those of relkvanu_storage_open_folder share. */
#ifndef RELKVANU_STORE_FOLDER_H
#define RELKVANU_STORE_FOLDER_H
#include "files.h"

/* A folder as a storage, for as long as the folder stays where it is. */
relkvanu_storage rks_folder_storage(struct rks_folder *f);

/* Functions of a storage, over such a folder. Each returns a status of relkvanu_storage.h. */
int rks_folder_put(const struct rks_folder *f, uint64_t file, const void *contents, size_t len);
int rks_folder_put_from(const struct rks_folder *f, uint64_t file, relkvanu_store_source source, void *with);
int rks_folder_link(const struct rks_folder *f, uint64_t file, int from, const char *name);
int rks_folder_list(const struct rks_folder *f, size_t most, relkvanu_storage_page page, void *with_page);

/* Deletes a file, whole or in part, without a sync. Returns what became of it. */
uint8_t rks_folder_unlink(const struct rks_folder *f, uint64_t file);

/* Makes a file of any name whole and durable: writes beside it, in `part`, which must not exist. */
int rks_folder_make(const struct rks_folder *f, const char *part, const char *name, const void *contents, size_t len);

/* Whether a storage has what a discarder and a sweeper need (storage.c). */
bool rks_is_storage(const relkvanu_storage *storage);

/* Whether a name is that of a file, whole or in part. */
bool rks_folder_names(const struct rks_folder *f, const char *name, uint64_t *file);

/* marker.c. That of a store's folder, and the file that becomes it. */
#define RKS_MARKER ".relkvanu-job"
#define RKS_NEW_MARKER ".relkvanu-job.new"

struct rks_marker {
    char job[RKS_IDENTITY + 1]; /* empty: it names none */
    uint64_t epoch;             /* 0: an earlier version of the library wrote it */
};

/* Reads it, and says whose the folder is. RELKVANU_STORAGE_NOT_THERE: there is none, or errno is ELOOP; RELKVANU_STORAGE_OTHER_JOB: it names another
 * job or a later opening; RELKVANU_STORAGE_FAILED: errno says why it can't be read. */
int rks_marker_read(int folder, struct rks_marker *found);
int rks_owner_of(int folder, const char *job, uint64_t epoch);

/* Writes it, durably. Returns 0, or what is wrong as errno. */
int rks_marker_write(int folder, const char *job, uint64_t epoch);

/* Compares what a marker of any name says, as a storage says whose it is. */
int rks_marker_says(int folder, const char *name, const char *text);

#endif
