/* The folder of a store, for a task in another process: files are put as the store itself puts them, while its opening has the folder. */
#include "files.h"
#include "folder.h"

#include <errno.h>
#include <fcntl.h>
#include <stdlib.h>
#include <unistd.h>

struct task {
    struct rks_folder folder;
    char identity[RKS_IDENTITY + 1]; /* of the job */
    uint64_t epoch;                  /* of the opening that started the task */
};

static int check_owner(const void *with) {
    const struct task *it = with;
    return rks_owner_of(it->folder.fd, it->identity, it->epoch);
}

int relkvanu_storage_open_task(relkvanu_storage *storage, const char *path, const uint64_t job[2], uint64_t epoch) {
    *storage = (relkvanu_storage){.with = NULL};
    struct task *it = calloc(1, sizeof *it);
    if (it == NULL) {
        return RELKVANU_STORAGE_NO_MEMORY;
    }
    rks_identity(job, it->identity);
    it->epoch = epoch;
    it->folder = (struct rks_folder){.prefix = "", .suffix = "", .mode = 0600, .needs_sync = true, .check = check_owner, .with = it};
    it->folder.fd = open(path, O_RDONLY | O_DIRECTORY | O_CLOEXEC);
    int status = it->folder.fd < 0 ? RELKVANU_STORAGE_NOT_THERE : check_owner(it), error = errno;
    *storage = rks_folder_storage(&it->folder);
    storage->delete_files = NULL;
    storage->list = NULL;
    if (status != RELKVANU_STORAGE_OK) {
        relkvanu_storage_close_task(storage);
        errno = error;
    }
    return status;
}

void relkvanu_storage_close_task(relkvanu_storage *storage) {
    struct task *it = storage->with;
    if (it != NULL && it->folder.fd >= 0) {
        close(it->folder.fd);
    }
    free(it);
    *storage = (relkvanu_storage){.with = NULL};
}
