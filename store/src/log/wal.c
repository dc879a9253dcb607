/* Damage of the -wal that SQLite passes over: from the first frame that is not whole on, it ignores all. Each commit waits for its sync, so a
 * loss of power leaves one commit at most behind that frame. Two say that calls would be lost which were answered. */
#include "../files/files.h"
#include "../store.h"
#include "log.h"

#include <arpa/inet.h>
#include <endian.h>
#include <errno.h>
#include <fcntl.h>
#include <stdlib.h>
#include <string.h>
#include <unistd.h>

/* Of the header of the file, and of a frame: https://www.sqlite.org/fileformat2.html#walformat */
enum { HEADER = 32, PAGE_SIZE = 8, SALTS = 16, SALTS_LEN = 8, HEADER_SUM = 24 };
enum { FRAME = 24, FRAME_COMMIT = 4, FRAME_SALTS = 8, FRAME_SUM = 16, MOST_PAGE = 65536 };

struct wal {
    int file;
    bool is_big; /* the order of the bytes of a word in the sums */
    uint8_t header[HEADER];
    uint8_t *frame;
    size_t frame_len;
};

static uint32_t word(const uint8_t *at) {
    uint32_t found;
    memcpy(&found, at, sizeof found);
    return ntohl(found);
}

/* Adds bytes, whose length is a multiple of 8, to a sum. */
static void add(const uint8_t *at, size_t len, bool is_big, uint32_t sum[2]) {
    for (size_t i = 0; i < len; i += 8) {
        uint32_t words[2];
        memcpy(words, at + i, sizeof words);
        sum[0] += (is_big ? be32toh(words[0]) : le32toh(words[0])) + sum[1];
        sum[1] += (is_big ? be32toh(words[1]) : le32toh(words[1])) + sum[0];
    }
}

static bool has_sum(const uint8_t *at, const uint32_t sum[2]) {
    return word(at) == sum[0] && word(at + 4) == sum[1];
}

/* Whether the header is whole. Otherwise it was being written, and there are no frames. */
static bool has_header(struct wal *wal) {
    uint32_t sum[2] = {0};
    if (pread(wal->file, wal->header, HEADER, 0) != HEADER) {
        return false;
    }
    wal->is_big = (word(wal->header) & 1) != 0;
    wal->frame_len = FRAME + word(wal->header + PAGE_SIZE);
    add(wal->header, HEADER_SUM, wal->is_big, sum);
    return has_sum(wal->header + HEADER_SUM, sum) && wal->frame_len <= FRAME + MOST_PAGE && wal->frame_len % 8 == 0;
}

/* Whether the frame is one of this log and fits the sum that the frame before it has, which becomes its own. */
static bool is_whole(const struct wal *wal, uint32_t before[2]) {
    uint32_t sum[2] = {before[0], before[1]};
    add(wal->frame, FRAME_SALTS, wal->is_big, sum);
    add(wal->frame + FRAME, wal->frame_len - FRAME, wal->is_big, sum);
    before[0] = word(wal->frame + FRAME_SUM);
    before[1] = word(wal->frame + FRAME_SUM + 4);
    return memcmp(wal->frame + FRAME_SALTS, wal->header + SALTS, SALTS_LEN) == 0 && has_sum(wal->frame + FRAME_SUM, sum);
}

/* How many whole commits are behind the first frame that is not whole, which is at *broken. */
static unsigned lost_commits(const struct wal *wal, off_t *broken) {
    uint32_t before[2] = {word(wal->header + HEADER_SUM), word(wal->header + HEADER_SUM + 4)};
    unsigned commits = 0;
    off_t at = HEADER;
    for (*broken = 0; pread(wal->file, wal->frame, wal->frame_len, at) == (ssize_t)wal->frame_len; at += (off_t)wal->frame_len) {
        bool is_good = is_whole(wal, before);
        *broken = *broken == 0 && !is_good ? at : *broken;
        commits += *broken != 0 && is_good && word(wal->frame + FRAME_COMMIT) != 0;
    }
    return commits;
}

static int check(relkvanu_store *s, struct wal *wal) {
    off_t broken;
    if (!has_header(wal)) {
        return RELKVANU_STORE_OK;
    }
    wal->frame = malloc(wal->frame_len);
    if (wal->frame == NULL) {
        return RELKVANU_STORE_NO_MEMORY;
    }
    unsigned lost = lost_commits(wal, &broken);
    free(wal->frame);
    return lost < 2 ? RELKVANU_STORE_OK
                    : rks_refuse(s, RELKVANU_STORE_DAMAGED, "%.300s: the frame at byte %lld is damaged, and %u later commits would be lost",
                          s->file.wal, (long long)broken, lost);
}

int rks_check_wal(relkvanu_store *s) {
    struct wal wal = {.file = open(s->file.wal, O_RDONLY | O_CLOEXEC)};
    if (wal.file < 0) {
        return errno == ENOENT ? RELKVANU_STORE_OK : rks_file_fault(s, s->file.wal, errno);
    }
    int status = check(s, &wal);
    close(wal.file);
    return status;
}
