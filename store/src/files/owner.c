/* What root makes beside somebody's files is that user's, who runs the engine; and it follows no link that this user has put there. Where root may not give to
 * each user, as in some containers, it stays root's. */
#include "files.h"

#include <errno.h>
#include <fcntl.h>
#include <stdlib.h>
#include <unistd.h>

static bool is_somebodys(const struct stat *folder) {
    return geteuid() == 0 && folder->st_uid != 0;
}

bool rks_is_guest(const char *path) {
    struct stat folder;
    char *name = rks_folder_of(path);
    bool is_guest = name != NULL && stat(name, &folder) == 0 && is_somebodys(&folder);
    free(name);
    return is_guest;
}

static int give(int made, const struct stat *folder) {
    if (!is_somebodys(folder) || fchown(made, folder->st_uid, folder->st_gid) == 0 || errno == EPERM || errno == EINVAL) {
        return 0;
    }
    return errno;
}

int rks_give(int made, int folder) {
    struct stat found;
    return fstat(folder, &found) == 0 ? give(made, &found) : errno;
}

int rks_give_beside(int made, const char *path) {
    struct stat found;
    char *name = rks_folder_of(path);
    int error = name == NULL ? ENOMEM : stat(name, &found) == 0 ? give(made, &found) : errno;
    free(name);
    return error;
}

/* A descriptor that is closed if it could not be given. Sets errno then. */
static int given(int file, int error) {
    if (file >= 0 && error != 0) {
        close(file);
        errno = error;
        return -1;
    }
    return file;
}

int rks_open_new(int folder, const char *name) {
    static const int FLAGS = O_WRONLY | O_CREAT | O_NOFOLLOW | O_NONBLOCK | O_CLOEXEC;
    struct stat found;
    if (fstat(folder, &found) != 0 || !is_somebodys(&found)) {
        return openat(folder, name, FLAGS | O_TRUNC, 0600);
    }
    if (unlinkat(folder, name, 0) != 0 && errno != ENOENT) {
        return -1;
    }
    int file = openat(folder, name, FLAGS | O_EXCL, 0600);
    return given(file, file < 0 ? 0 : give(file, &found));
}

/* A file of root that is empty was made just now, by who ended before it was given. One that has another name too may be anybody's. */
static int check_there(int file, const char *path) {
    struct stat found;
    if (fstat(file, &found) != 0) {
        return errno;
    }
    if (!S_ISREG(found.st_mode) || found.st_nlink != 1) {
        return EMLINK;
    }
    return found.st_uid == 0 && found.st_size == 0 ? rks_give_beside(file, path) : 0;
}

int rks_open_beside(const char *path) {
    if (!rks_is_guest(path)) {
        return open(path, O_RDWR | O_CREAT | O_CLOEXEC, 0600);
    }
    int file = open(path, O_RDWR | O_CREAT | O_EXCL | O_NOFOLLOW | O_CLOEXEC, 0600);
    if (file >= 0 || errno != EEXIST) {
        return given(file, file < 0 ? 0 : rks_give_beside(file, path));
    }
    file = open(path, O_RDWR | O_NOFOLLOW | O_NONBLOCK | O_CLOEXEC);
    return given(file, file < 0 ? 0 : check_there(file, path));
}
