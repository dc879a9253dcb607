/* The tail: which call was the last one that was answered, in PATH.lock, so that a log which lacks its end is noticed. It is written after the
 * sync of each commit, and is not synced itself. So it never names a call that the disk lacks, and after a loss of power it may name an
 * earlier one. It is of one file: a file that is put in the place of PATH has another inode. */
#include "../files/files.h"
#include "../manifests/manifests.h"
#include "../store.h"
#include "log.h"

#include <errno.h>
#include <inttypes.h>
#include <stdio.h>
#include <string.h>
#include <unistd.h>
#include <zlib.h>

/* The process is before it (lock.c). */
enum { AT = 64, LEN = 128 };

/* The text, without its sum, and with it. */
static size_t write_text(const struct rks_tail *tail, char text[LEN]) {
    size_t len =
        (size_t)snprintf(text, LEN, "tail %s %" PRIu64 " %" PRIu64 " %" PRIu32, tail->identity, tail->inode, tail->place, tail->chain);
    return len + (size_t)snprintf(text + len, LEN - len, " %08" PRIx32 "\n", (uint32_t)crc32(0, (const Bytef *)text, (uInt)len));
}

void rks_write_tail(relkvanu_store *s) {
    struct rks_tail tail = {.inode = s->file.path_is.st_ino, .place = s->log.place, .chain = s->log.chain};
    char text[LEN] = "";
    memcpy(tail.identity, s->job.identity, sizeof tail.identity);
    write_text(&tail, text);
    /* If it fails, the one that is there names an earlier call, or has another sum: both are no fault. */
    rks_write_whole(s->file.lock, text, LEN, AT);
}

/* Returns false if there is none. */
static bool read_tail(const relkvanu_store *s, struct rks_tail *tail) {
    char found[LEN + 1] = "", text[LEN] = "";
    if (pread(s->file.lock, found, LEN, AT) < 1) {
        return false;
    }
    int read = sscanf(found, "tail %32s %" SCNu64 " %" SCNu64 " %" SCNu32, tail->identity, &tail->inode, &tail->place, &tail->chain);
    write_text(tail, text);
    return read == 4 && strcmp(found, text) == 0;
}

int rks_check_tail(relkvanu_store *s) {
    struct rks_tail tail = {.place = 0};
    struct stat is;
    if (!read_tail(s, &tail) || strcmp(tail.identity, s->job.identity) != 0 || stat(s->file.path, &is) != 0 || is.st_ino != tail.inode) {
        return RELKVANU_STORE_OK;
    }
    if (tail.place > s->log.place) {
        return rks_refuse(s, RELKVANU_STORE_DAMAGED,
            "%.300s: its log ends with call %" PRIu64 ", and call %" PRIu64 " was answered: it or its -wal is damaged, or an older copy",
            s->file.path, s->log.place, tail.place);
    }
    if (tail.place == s->log.place && tail.chain != s->log.chain) {
        return rks_refuse(s, RELKVANU_STORE_DAMAGED, "%.300s: the calls up to call %" PRIu64 " are others than those that were answered",
            s->file.path, s->log.place);
    }
    return RELKVANU_STORE_OK;
}

int rks_drop_tail(relkvanu_store *s) {
    bool is_dropped = ftruncate(s->file.lock, AT) == 0 && fsync(s->file.lock) == 0;
    return is_dropped ? RELKVANU_STORE_OK : rks_file_fault(s, s->file.path, errno);
}
