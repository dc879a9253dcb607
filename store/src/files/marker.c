/* The marker of a folder with state files: which job they are of, and that the folder is mounted. That of a store's folder also says which opening
 * of the job has it. */
#include "files.h"
#include "folder.h"

#include <errno.h>
#include <fcntl.h>
#include <inttypes.h>
#include <stdio.h>
#include <string.h>
#include <sys/random.h>
#include <unistd.h>

enum { MARKER_LEN = 96 };

/* A symbolic link may lead to the marker of another folder, so none is followed. Returns -1 with errno, or a descriptor. */
static int open_marker(int folder, const char *name) {
    return openat(folder, name, O_RDONLY | O_NOFOLLOW | O_NONBLOCK | O_CLOEXEC);
}

/* Compares what a marker says. */
static int compare(int marker, const char *text) {
    char found[256];
    size_t at = 0, len = strlen(text);
    ssize_t more;
    while ((more = read(marker, found, sizeof found)) > 0 || (more < 0 && errno == EINTR)) {
        size_t some = more > 0 ? (size_t)more : 0;
        if (some > len - at || memcmp(found, text + at, some) != 0) {
            return RELKVANU_STORAGE_OTHER_JOB;
        }
        at += some;
    }
    return more < 0 ? RELKVANU_STORAGE_FAILED : at == len ? RELKVANU_STORAGE_OK : RELKVANU_STORAGE_OTHER_JOB;
}

int rks_marker_says(int folder, const char *name, const char *text) {
    int marker = open_marker(folder, name);
    if (marker < 0) {
        return errno == ENOENT ? RELKVANU_STORAGE_NOT_THERE : RELKVANU_STORAGE_FAILED;
    }
    int status = compare(marker, text);
    rks_close(marker);
    return status;
}

int rks_marker_read(int folder, struct rks_marker *found) {
    char text[MARKER_LEN] = "";
    *found = (struct rks_marker){.epoch = 0};
    int marker = open_marker(folder, RKS_MARKER);
    if (marker < 0) {
        return errno == ENOENT || errno == ELOOP ? RELKVANU_STORAGE_NOT_THERE : RELKVANU_STORAGE_FAILED;
    }
    bool is_read = read(marker, text, sizeof text - 1) >= 0;
    rks_close(marker);
    if (is_read) {
        sscanf(text, "relkvanu job %32s epoch %" SCNu64, found->job, &found->epoch);
    }
    return is_read ? RELKVANU_STORAGE_OK : RELKVANU_STORAGE_FAILED;
}

int rks_owner_of(int folder, const char *job, uint64_t epoch) {
    struct rks_marker found;
    int status = rks_marker_read(folder, &found);
    if (status != RELKVANU_STORAGE_OK || found.job[0] == 0) {
        return status == RELKVANU_STORAGE_FAILED ? status : RELKVANU_STORAGE_NOT_THERE;
    }
    return strcmp(job, found.job) == 0 && found.epoch <= epoch ? RELKVANU_STORAGE_OK : RELKVANU_STORAGE_OTHER_JOB;
}

void rks_identity(const uint64_t words[2], char job[RKS_IDENTITY + 1]) {
    snprintf(job, RKS_IDENTITY + 1, "%016" PRIx64 "%016" PRIx64, words[0], words[1]);
}

bool rks_new_identity(char job[RKS_IDENTITY + 1]) {
    uint64_t words[2];
    bool has_words = getentropy(words, sizeof words) == 0;
    if (has_words) {
        rks_identity(words, job);
    }
    return has_words;
}

int rks_marker_write(int folder, const char *job, uint64_t epoch) {
    char text[MARKER_LEN];
    snprintf(text, sizeof text, "relkvanu job %s\nepoch %" PRIu64 "\n", job, epoch);
    int file = rks_open_new(folder, RKS_NEW_MARKER);
    if (file < 0) {
        return errno;
    }
    int error = rks_write_new(file, text, strlen(text));
    if (error == 0 && (renameat(folder, RKS_NEW_MARKER, folder, RKS_MARKER) != 0 || fsync(folder) != 0)) {
        error = errno;
    }
    return error;
}
