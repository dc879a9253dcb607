/* Manifests: what a storage folder itself says of each complete record, so that a job can be made of it without its log. */
#ifndef RELKVANU_STORE_MANIFEST_H
#define RELKVANU_STORE_MANIFEST_H
#include "../common.h"
#include "known_files.h"

enum { RKS_VERTICES = 256, RKS_MANIFEST_NAME = 48, RKS_MOST_FILES = 4096 }; /* of a shape; of a name; of a subtask */
enum { RKS_UNMARKED = 1024 };                                               /* openings that a full folder has no mark of */

/* What a manifest says beside its files. A number, a term or a name that somebody was told is below `below`; the term and the name are 0 if the job
 * has no names. */
struct rks_manifest {
    char job[RKS_IDENTITY + 1], origin[RKS_IDENTITY + 1]; /* origin: the job from which the record was carried; "" if none */
    uint64_t id, epoch, place, term, written, files, bytes;
    bool is_savepoint, is_chosen; /* is_chosen: it was the choice when the manifest was written */
    struct rks_below {
        uint64_t number, term, name;
    } below;
    relkvanu_settings settings;
    uint64_t shape[RKS_VERTICES];
    size_t shape_len;
    uint64_t missing; /* files that are not in the folder, or have another length */
    uint64_t unknown; /* files without a checksum */
    uint64_t changed; /* files that were read, and have another checksum or can't be read */
    bool has_ended;   /* while its files were read */
    int status;       /* RELKVANU_STORE_OK; RELKVANU_STORE_DAMAGED: its text is; RELKVANU_STORE_NOT_A_STORE: a later version wrote it */
    char *target;     /* of a mark: the folder that the record was claimed for; NULL if its text is damaged */
};

/* The manifests of a folder, in the order of the numbers of their records; and the marks of records that were claimed, which have no files. */
struct rks_manifests {
    struct rks_manifest *at, *marks;
    size_t len, room, marks_len, marks_room;
    sqlite3 *db; /* which reads JSON; it has no file */
};

/* A file of a subtask; has_bytes, has_sum: whether its length and its checksum are known. A subtask without files is one call, whose is_file is false. The payload is the same in each call
 * of a subtask: hexadecimal digits, or NULL; and so is what its task told of its snapshot, or 0. Returns a status. */
struct rks_part {
    uint16_t vertex, index;
    uint64_t file, bytes;
    uint32_t sum;
    bool is_file, has_bytes, has_sum;
    const char *payload;
    uint64_t told_bytes, told_millis;
};
typedef int (*rks_each_part)(void *with, const struct rks_part *part);

/* To whom records are told, and what is wrong with their files. */
struct rks_telling {
    relkvanu_store_each_record each;
    relkvanu_store_each_fault each_fault; /* NULL: the files are not read */
    void *with;
    const char *job; /* that of the folder, or NULL */
    const struct rks_manifest *next;
};

/* What a command tells of the record that it has taken. */
void rks_tell_taken(const struct rks_manifest *it, uint64_t below, relkvanu_store_recovered *told);

/* Tells what is known of a record. Returns whether it goes on. */
bool rks_tell_record(const struct rks_manifest *it, const struct rks_telling *telling);

/* Tells each record; before that, if this is wanted, reads its files, and tells what is wrong with them. RELKVANU_STORE_NO_MEMORY. */
int rks_check_manifests(struct rks_manifests *all, int folder, const struct rks_telling *telling);

/* What comes behind the name of a manifest that is written, and of the mark that stays where a claim has taken the record. */
#define RKS_PART ".part"
#define RKS_CLAIMED ".claimed"

/* The number of the record whose manifest has this name, and what is behind it, or "". NULL: it is the name of none. */
const char *rks_manifest_names(const char *name, uint64_t *id);
void rks_manifest_name(uint64_t id, const char *end, char name[RKS_MANIFEST_NAME]);

/* Reads all manifests and marks of an open folder, and looks for the files of each. RELKVANU_STORE_NO_MEMORY; RELKVANU_STORE_FAILED: errno says why. */
int rks_list_manifests(int folder, struct rks_manifests *found);
void rks_free_manifests(struct rks_manifests *found);

/* Whether an entry of this name is a file as the part says it, but for its checksum, which is not looked at. 0, or RELKVANU_STORE_FILE_MISSING or _LENGTH. */
uint32_t rks_fault_of(int folder, const struct rks_part *part);

/* Notes what the manifests of the job say of the lengths and the checksums of files. RELKVANU_STORE_NO_MEMORY. */
int rks_note_files(struct rks_manifests *all, int folder, const char *job, struct rks_sums *sums);

/* Calls `each` for each file of the record, in the order of the subtasks. */
int rks_manifest_parts(struct rks_manifests *all, int folder, uint64_t id, rks_each_part each, void *with);

/* The text of a manifest as it is, or if there is a job, as that of a record of this job which was carried; and that of its mark, once it is claimed for the
 * target. To be freed. */
int rks_manifest_text(struct rks_manifests *all, int folder, uint64_t id, const char *job, struct rks_text *text);
int rks_mark_text(struct rks_manifests *all, int folder, uint64_t id, const char *target, struct rks_text *text);

/* Writes a manifest, or the mark of one, into an open folder, beside its name, syncs it and renames it. The folder is not synced yet. Returns 0, or what is wrong
 * as errno. */
int rks_put_manifest(int folder, uint64_t id, const char *end, const struct rks_text *text);

/* The last record of this job (NULL: any) that was the choice and has all its files, else the last such savepoint. NULL: none. */
struct rks_manifest *rks_latest_manifest(struct rks_manifests *all, const char *job);

/* Which of them a recovery of this job begins from: that one, unless it or a later one was claimed; or the record with the number that is wanted. NULL: none. */
struct rks_manifest *rks_choose_manifest(struct rks_manifests *all, const char *job, uint64_t wanted);

/* The mark of a record. NULL: it was not claimed. */
const struct rks_manifest *rks_mark_of(const struct rks_manifests *all, uint64_t id);
void rks_say_claimed(const struct rks_manifest *mark, char *words, size_t len);

/* Lists the manifests of a folder with the marker of a job, and chooses one of that job. NULL: there is none, or it can't be read. To be freed in each case. */
const struct rks_manifest *rks_list_owned(const char *folder, uint64_t wanted, struct rks_manifests *all);

/* Whether there is a chosen record, and none may be later unless its number was given. Otherwise notes in the store what is wrong. */
int rks_check_choice(
    relkvanu_store *s, const char *folder, struct rks_manifests *all, const char *job, uint64_t wanted, const struct rks_manifest *chosen);

/* Why there is none: a record was claimed, no manifest has all its files, or whole records are of another job than the one that the marker (job) names. */
void rks_say_none(struct rks_manifests *all, const char *job, uint64_t wanted, char *words, size_t len);

/* Whether a record that is later than the chosen one, and not whole, has ended since the folder was listed: then the list may lack one that is later still. */
bool rks_has_missed(const struct rks_manifests *all, int folder, const struct rks_manifest *chosen);

/* The last opening of the job of which a manifest says something. */
uint64_t rks_last_opening(const struct rks_manifests *all, const char *job);

/* Raises *last to it, for the job and the folder of the store: a marker that could not be written names an earlier one. Notes what the manifests say of files. */
int rks_pass_manifests(relkvanu_store *s, const char *folder, uint64_t *last);

/* Whether a recovery may make a job at the path: RELKVANU_STORE_OK, or what it would be refused for. A claim looks before it fences the old job. */
int rks_check_free(const char *path, char message[RKS_MESSAGE]);

#endif
