/* LD_PRELOAD for a PostgreSQL of the tests, which waits for no disk: a slow one would cost a service its lease. Processes are killed here, and
   no power is lost, so what was written is there without a sync. */
#define _GNU_SOURCE
#include <fcntl.h>

static int is_open(int fd) {
    return fcntl(fd, F_GETFD) < 0 ? -1 : 0;
}

int fsync(int fd) {
    return is_open(fd);
}

int fdatasync(int fd) {
    return is_open(fd);
}

int sync_file_range(int fd, off64_t offset, off64_t bytes, unsigned flags) {
    (void)offset, (void)bytes, (void)flags;
    return is_open(fd);
}
