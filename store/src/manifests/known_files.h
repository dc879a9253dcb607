/* Lengths and checksums of state files by their numbers: those that manifests say, and those of files that were looked at. */
#ifndef RELKVANU_STORE_KNOWN_FILES_H
#define RELKVANU_STORE_KNOWN_FILES_H
#include "../common.h"

/* A hash table with free places. No name is given out twice, so what is known of a file stays right: a file that is another one now is damaged. */
struct rks_sums {
    struct rks_sum {
        uint64_t key, bytes; /* key: one more than the file's number; 0: a free place */
        uint32_t sum;
        bool has_bytes, has_sum;
    } * at;
    size_t len, room; /* room: a power of two, or 0 */
};

bool rks_find_sum(const struct rks_sums *sums, uint64_t file, uint32_t *sum);

bool rks_find_length(const struct rks_sums *sums, uint64_t file, uint64_t *bytes);

/* Notes one. Without room it drops those of files that are not in the folder any more. Returns false without memory. */
bool rks_note_sum(struct rks_sums *sums, int folder, uint64_t file, uint32_t sum);
bool rks_note_length(struct rks_sums *sums, int folder, uint64_t file, uint64_t bytes);

/* The length of a file of the folder: as it is known, or else that of now. A status: RELKVANU_STORE_ABSENT: it is not known, and not there. */
int rks_length_of(struct rks_sums *sums, int folder, uint64_t file, uint64_t *bytes);

/* The checksum of a file of the folder: as it is known, or else read. A status: RELKVANU_STORE_FAILED, with errno: it can't be read, or has changed meanwhile. */
int rks_sum_of(struct rks_sums *sums, int folder, uint64_t file, uint32_t *sum);

void rks_free_sums(struct rks_sums *sums);

/* Copies what is in a file, whose checksum is *sum then, and syncs the copy. 0, or what is wrong as errno. */
int rks_copy_contents(int from, int to, uint32_t *sum);

#endif
