/* Lengths of state files, and their checksums: CRC-32 by zlib, as that of a manifest. Each file is looked at once, and read once. */
#include "../files/files.h"
#include "known_files.h"

#include <errno.h>
#include <fcntl.h>
#include <inttypes.h>
#include <stdio.h>
#include <stdlib.h>
#include <unistd.h>
#include <zlib.h>

enum { PIECE = 1 << 16, FEWEST = 1024 }; /* bytes that are read at once; places of a table */
static const uint64_t GONE = UINT64_MAX; /* the key of a file that is gone: no file has this number */

/* The place of a file, or the free one that it would get. */
static size_t place_of(const struct rks_sums *sums, uint64_t key) {
    size_t at = (size_t)(key * UINT64_C(0x9E3779B97F4A7C15) >> 20) & (sums->room - 1);
    while (sums->at[at].key != 0 && sums->at[at].key != key) {
        at = (at + 1) & (sums->room - 1);
    }
    return at;
}

static const struct rks_sum *found_of(const struct rks_sums *sums, uint64_t file) {
    const struct rks_sum *found = sums->room == 0 ? NULL : &sums->at[place_of(sums, file + 1)];
    return found != NULL && found->key != 0 ? found : NULL;
}

bool rks_find_sum(const struct rks_sums *sums, uint64_t file, uint32_t *sum) {
    const struct rks_sum *found = found_of(sums, file);
    *sum = found == NULL ? 0 : found->sum;
    return found != NULL && found->has_sum;
}

bool rks_find_length(const struct rks_sums *sums, uint64_t file, uint64_t *bytes) {
    const struct rks_sum *found = found_of(sums, file);
    *bytes = found == NULL ? 0 : found->bytes;
    return found != NULL && found->has_bytes;
}

static bool is_there(int folder, uint64_t file) {
    struct stat found;
    return rks_find_file(folder, file, &found) || errno != ENOENT;
}

/* Marks those of files that are gone. Returns how many are left. */
static size_t drop_gone(struct rks_sums *sums, int folder) {
    size_t left = 0;
    for (size_t i = 0; i < sums->room; i++) {
        struct rks_sum *it = &sums->at[i];
        bool is_left = it->key != 0 && it->key != GONE && is_there(folder, it->key - 1);
        it->key = it->key == 0 || is_left ? it->key : GONE;
        left += is_left;
    }
    return left;
}

/* At most half of the places are taken. */
static bool has_room(struct rks_sums *sums, int folder) {
    if (2 * (sums->len + 1) <= sums->room) {
        return true;
    }
    size_t left = drop_gone(sums, folder);
    struct rks_sums made = {.len = left, .room = FEWEST};
    while (made.room < 4 * (left + 1)) {
        made.room *= 2;
    }
    made.at = calloc(made.room, sizeof *made.at);
    for (size_t i = 0; i < sums->room && made.at != NULL; i++) {
        const struct rks_sum *it = &sums->at[i];
        if (it->key != 0 && it->key != GONE) {
            made.at[place_of(&made, it->key)] = *it;
        }
    }
    if (made.at != NULL) {
        free(sums->at);
        *sums = made;
    }
    return made.at != NULL;
}

/* The place of a file, which is taken. NULL: no memory. */
static struct rks_sum *taken(struct rks_sums *sums, int folder, uint64_t file) {
    if (!has_room(sums, folder)) {
        return NULL;
    }
    struct rks_sum *it = &sums->at[place_of(sums, file + 1)];
    sums->len += it->key == 0;
    it->key = file + 1;
    return it;
}

bool rks_note_sum(struct rks_sums *sums, int folder, uint64_t file, uint32_t sum) {
    struct rks_sum *it = taken(sums, folder, file);
    if (it != NULL) {
        it->sum = sum;
        it->has_sum = true;
    }
    return it != NULL;
}

bool rks_note_length(struct rks_sums *sums, int folder, uint64_t file, uint64_t bytes) {
    struct rks_sum *it = taken(sums, folder, file);
    if (it != NULL) {
        it->bytes = bytes;
        it->has_bytes = true;
    }
    return it != NULL;
}

int rks_length_of(struct rks_sums *sums, int folder, uint64_t file, uint64_t *bytes) {
    struct stat found;
    if (rks_find_length(sums, file, bytes)) {
        return RELKVANU_STORE_OK;
    }
    if (!rks_find_file(folder, file, &found)) {
        return RELKVANU_STORE_ABSENT;
    }
    *bytes = (uint64_t)found.st_size;
    return rks_note_length(sums, folder, file, *bytes) ? RELKVANU_STORE_OK : RELKVANU_STORE_NO_MEMORY;
}

/* Reads an open file to its end. Returns how many bytes it has, or less than 0: errno says why. */
static off_t read_whole(int file, uint8_t *piece, uint32_t *sum) {
    off_t len = 0;
    ssize_t more = 1;
    *sum = 0;
    while (more > 0) {
        do {
            more = read(file, piece, PIECE);
        } while (more < 0 && errno == EINTR);
        *sum = more > 0 ? (uint32_t)crc32_z(*sum, piece, (size_t)more) : *sum;
        len += more > 0 ? more : 0;
    }
    return more < 0 ? -1 : len;
}

static int read_file(int folder, const char *name, uint32_t *sum) {
    struct stat found;
    int file = openat(folder, name, O_RDONLY | O_NOFOLLOW | O_NONBLOCK | O_CLOEXEC);
    uint8_t *piece = file < 0 ? NULL : malloc(PIECE);
    int status = piece == NULL && file >= 0 ? RELKVANU_STORE_NO_MEMORY : RELKVANU_STORE_FAILED;
    if (piece != NULL) {
        off_t len = read_whole(file, piece, sum);
        bool is_whole = len >= 0 && fstat(file, &found) == 0 && S_ISREG(found.st_mode) && found.st_size == len;
        status = is_whole ? RELKVANU_STORE_OK : status;
    }
    rks_close(file);
    free(piece);
    return status;
}

int rks_sum_of(struct rks_sums *sums, int folder, uint64_t file, uint32_t *sum) {
    char name[32];
    if (rks_find_sum(sums, file, sum)) {
        return RELKVANU_STORE_OK;
    }
    snprintf(name, sizeof name, "%" PRIu64, file);
    int status = read_file(folder, name, sum);
    return status != RELKVANU_STORE_OK || rks_note_sum(sums, folder, file, *sum) ? status : RELKVANU_STORE_NO_MEMORY;
}

void rks_free_sums(struct rks_sums *sums) {
    free(sums->at);
    *sums = (struct rks_sums){0};
}

int rks_copy_contents(int from, int to, uint32_t *sum) {
    enum { MOST = 1 << 20 }; /* bytes at once */
    char *piece = malloc(MOST);
    off_t at = 0;
    ssize_t len = 1;
    int error = piece == NULL ? ENOMEM : 0;
    *sum = 0;
    while (error == 0 && len != 0) {
        len = pread(from, piece, MOST, at);
        if (len < 0) {
            error = errno == EINTR ? 0 : errno;
        } else if (!rks_write_whole(to, piece, (size_t)len, at)) {
            error = errno;
        }
        *sum = len > 0 ? (uint32_t)crc32_z(*sum, (const uint8_t *)piece, (size_t)len) : *sum;
        at += len > 0 ? len : 0;
    }
    free(piece);
    return error == 0 && fsync(to) != 0 ? errno : error;
}
