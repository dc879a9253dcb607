/* The store's own folder as a storage, and a sweep of any storage: what it may delete, the store knows. */
#include "../job/job.h"
#include "../manifests/manifests.h"
#include "../store.h"
#include "files.h"
#include "folder.h"

#include <string.h>

static int check_owner(const void *store) {
    return rks_owner(store);
}

/* What a storage that could not do its part is to a caller of the store: STORAGE means that it is gone or another's, and nothing else. */
static int status_of(int storage_status, int otherwise) {
    switch (storage_status) {
    case RELKVANU_STORAGE_OK: return RELKVANU_STORE_OK;
    case RELKVANU_STORAGE_NOT_THERE:
    case RELKVANU_STORAGE_OTHER_JOB: return RELKVANU_STORE_STORAGE;
    case RELKVANU_STORAGE_PRESENT: return RELKVANU_STORE_PRESENT;
    default: return otherwise;
    }
}

/* The files of the job itself may have numbers as names, if PATH is in the folder too. */
static bool is_state(const void *store, const struct dirent *entry) {
    return !rks_is_own(store, entry->d_name) || !rks_has_own(store);
}

void rks_begin_own(relkvanu_store *s) {
    s->storage.files = (struct rks_folder){.fd = s->storage.folder,
        .prefix = "",
        .suffix = "",
        .mode = 0600,
        .needs_sync = true,
        .process = s->process,
        .check = check_owner,
        .is_listed = is_state,
        .with = s};
    s->storage.own = rks_folder_storage(&s->storage.files);
}

/* Whether there is a folder to put into. */
static int has_folder(const relkvanu_store *s) {
    rks_forget_why();
    return rks_is_forked(s) ? RELKVANU_STORE_FORKED : s->storage.folder < 0 ? RELKVANU_STORE_BAD_ARGUMENT : RELKVANU_STORE_OK;
}

int relkvanu_store_storage(relkvanu_store *s, relkvanu_storage *storage) {
    int status = has_folder(s);
    *storage = status == RELKVANU_STORE_OK ? s->storage.own : (relkvanu_storage){.with = NULL};
    return status;
}

static int put_status(uint64_t file, int storage_status) {
    rks_why_file(file, storage_status);
    return status_of(storage_status, RELKVANU_STORE_NOT_PUT);
}

int relkvanu_store_put(relkvanu_store *s, uint64_t file, const void *contents, size_t len) {
    int status = has_folder(s);
    return status != RELKVANU_STORE_OK ? status : put_status(file, rks_folder_put(&s->storage.files, file, contents, len));
}

int relkvanu_store_put_from(relkvanu_store *s, uint64_t file, relkvanu_store_source source, void *with) {
    int status = has_folder(s);
    return status != RELKVANU_STORE_OK ? status : put_status(file, rks_folder_put_from(&s->storage.files, file, source, with));
}

int relkvanu_store_put_link(relkvanu_store *s, uint64_t file, int from, const char *name) {
    int status = has_folder(s);
    return status != RELKVANU_STORE_OK ? status : put_status(file, rks_folder_link(&s->storage.files, file, from, name));
}

void relkvanu_store_delete_files(void *store, const uint64_t *files, size_t files_len, uint8_t *is_gone) {
    const relkvanu_store *s = store;
    for (size_t place = 0; place < files_len; place++) {
        is_gone[place] = s->storage.folder >= 0 && rks_folder_unlink(&s->storage.files, files[place]) != RELKVANU_STORAGE_UNDELETED;
    }
}

static bool note_greatest(void *with, const relkvanu_storage_file *files, size_t files_len) {
    uint64_t *greatest = with;
    for (size_t place = 0; place < files_len; place++) {
        *greatest = files[place].file > *greatest ? files[place].file : *greatest;
    }
    return true;
}

int rks_greatest_file(relkvanu_store *s, uint64_t *greatest) {
    *greatest = 0;
    return status_of(rks_folder_list(&s->storage.files, 0, note_greatest, greatest), RELKVANU_STORE_NOT_DONE);
}

/* A sweep that is under way. */
struct sweep {
    relkvanu_store *s;
    const relkvanu_storage *storage;
    size_t left, swept, unissued;
    int status;
};

static int status_of_sweep(int storage_status) {
    return status_of(storage_status, storage_status == RELKVANU_STORAGE_NO_MEMORY ? RELKVANU_STORE_NO_MEMORY : RELKVANU_STORE_NOT_DONE);
}

static void delete_found(struct sweep *sweep, const uint64_t *files, size_t len) {
    uint8_t outcomes[RELKVANU_STORAGE_PAGE] = {0};
    int status = sweep->storage->delete_files(sweep->storage->with, files, len, outcomes);
    if (status != RELKVANU_STORAGE_OK) {
        rks_why("a deletion of the sweep", status);
        sweep->status = status_of_sweep(status);
        memset(outcomes, 0, sizeof outcomes);
    }
    for (size_t place = 0; place < len; place++) {
        sweep->swept += outcomes[place] == RELKVANU_STORAGE_DELETED;
        sweep->left += outcomes[place] == RELKVANU_STORAGE_UNDELETED;
    }
}

/* Deletes those of the files that may be deleted. */
static bool sweep_page(void *with, const relkvanu_storage_file *found, size_t found_len) {
    struct sweep *sweep = with;
    uint64_t files[RELKVANU_STORAGE_PAGE];
    size_t len = found_len <= RELKVANU_STORAGE_PAGE ? found_len : 0;
    for (size_t place = 0; place < len; place++) {
        files[place] = found[place].file;
    }
    sweep->status = len == found_len ? rks_deletable(sweep->s, files, &len, &sweep->unissued) : RELKVANU_STORE_NOT_DONE;
    if (sweep->status == RELKVANU_STORE_OK && len != 0) {
        delete_found(sweep, files, len);
    }
    return sweep->status == RELKVANU_STORE_OK;
}

/* Whether an engine has filled in what a discarder and a sweeper need. */
bool rks_is_storage(const relkvanu_storage *storage) {
    const uint64_t *reserved = storage->reserved;
    return storage->check != NULL && storage->delete_files != NULL && storage->list != NULL &&
           (reserved[0] | reserved[1] | reserved[2] | reserved[3]) == 0;
}

/* Sweeps page by page. */
static int list_all(struct sweep *sweep) {
    int listed = sweep->storage->list(sweep->storage->with, 0, sweep_page, sweep);
    if (listed == RELKVANU_STORAGE_ENDED) {
        return sweep->status;
    }
    if (listed != RELKVANU_STORAGE_OK) {
        rks_why("the listing of the sweep", listed);
    }
    return status_of_sweep(listed);
}

int relkvanu_store_sweep_storage(relkvanu_store *s, const relkvanu_storage *storage, size_t *left) {
    if (storage == NULL) {
        return relkvanu_store_sweep(s, left);
    }
    struct sweep sweep = {.s = s, .storage = storage, .status = RELKVANU_STORE_OK};
    *left = 0;
    if (rks_is_forked(s)) {
        return RELKVANU_STORE_FORKED;
    }
    int status = rks_check_reader(s);
    if (status != RELKVANU_STORE_OK || !rks_is_storage(storage)) {
        return RELKVANU_STORE_BAD_ARGUMENT;
    }
    int checked = storage->check(storage->with);
    rks_why("the storage", checked);
    if (checked != RELKVANU_STORAGE_OK) {
        return status_of_sweep(checked);
    }
    status = list_all(&sweep);
    *left = sweep.left;
    pthread_mutex_lock(&s->mutex);
    s->discards.failed_deletions += sweep.left;
    s->discards.swept += sweep.swept;
    s->discards.unissued = status == RELKVANU_STORE_OK ? sweep.unissued : s->discards.unissued;
    pthread_mutex_unlock(&s->mutex);
    return status;
}

int relkvanu_store_sweep(relkvanu_store *s, size_t *left) {
    *left = 0;
    int status = has_folder(s);
    status = status == RELKVANU_STORE_OK ? relkvanu_store_sweep_storage(s, &s->storage.own, left) : status;
    return status == RELKVANU_STORE_OK ? rks_sweep_manifests(s, left) : status;
}
