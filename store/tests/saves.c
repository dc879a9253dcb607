/* saves FOLDER TOLD LATER BACKUP: opens the job FOLDER/x.db over FOLDER/storage, makes calls, a backup in the file BACKUP, and calls again. Each
 * answered call is a line of the file TOLD if it was answered before the backup began, and of LATER otherwise. Prints the status of the backup, that of
 * the last calls, and the errno of the backup, and ends with 0. */
#include "common.h"

#include <errno.h>
#include <unistd.h>

enum { LIST = 5 };

/* Makes so many calls of this kind, each of which is accepted. */
static int make(relkvanu_store *store, uint32_t kind, size_t len, const char *told) {
    relkvanu_store_call calls[LIST] = {0};
    int to = told_file(told);
    for (size_t i = 0; i < len; i++) {
        calls[i].call.kind = kind;
    }
    int status = relkvanu_store_calls(store, calls, len);
    for (size_t i = 0; i < len && status == RELKVANU_STORE_OK; i++) {
        tell(to, &calls[i]);
    }
    close(to);
    return status;
}

int main(int argc, char **argv) {
    char path[PATHS], message[RELKVANU_STORE_MESSAGE] = "";
    relkvanu_store *store;
    relkvanu_store_report report;
    CHECK(argc == 5, "saves FOLDER TOLD LATER BACKUP");
    relkvanu_store_options options = options_in(argv[1], RELKVANU_STORE_RECOVER, RELKVANU_STORE_NO_IMAGES);
    snprintf(path, sizeof path, "%s/x.db", argv[1]);
    int status = relkvanu_store_open(&store, path, &options, &report);
    status = status == RELKVANU_STORE_OK ? make(store, RELKVANU_CALL_RESTORE, 1, argv[2]) : status;
    status = status == RELKVANU_STORE_OK ? make(store, RELKVANU_CALL_SAVEPOINT, LIST, argv[2]) : status;
    int later = status, error = 0;
    if (status == RELKVANU_STORE_OK) {
        status = relkvanu_store_backup(store, argv[4], message, sizeof message);
        error = errno;
        CHECK((status == RELKVANU_STORE_OK) == (message[0] == 0), "status %d: %s", status, message);
        later = make(store, RELKVANU_CALL_SAVEPOINT, LIST, argv[3]);
    }
    relkvanu_store_close(store);
    printf("%d %d %d %s\n", status, later, error, message);
    return 0;
}
