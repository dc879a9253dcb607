/* Reads the files of records, and compares them with the checksums of their manifests. */
#include "known_files.h"
#include "manifest.h"

#include <errno.h>
#include <fcntl.h>
#include <unistd.h>

struct check {
    relkvanu_store_each_fault each;
    void *with;
    int folder;
    struct rks_sums sums; /* of the files that were read: records share them */
    uint64_t id, changed;
    bool has_ended, goes_on;
};

/* Files go only after the manifest: so a file that is missing without one is no fault, but the record has ended. */
static bool has_ended(const struct check *c) {
    char name[RKS_MANIFEST_NAME];
    rks_manifest_name(c->id, "", name);
    return faccessat(c->folder, name, F_OK, AT_SYMLINK_NOFOLLOW) != 0 && errno == ENOENT;
}

/* Reads a file that is there. RELKVANU_STORE_NO_MEMORY; otherwise *fault says what is wrong with it. */
static int read_file(struct check *c, const struct rks_part *part, uint32_t *fault) {
    uint32_t sum = 0;
    int status = rks_sum_of(&c->sums, c->folder, part->file, &sum);
    if (status == RELKVANU_STORE_OK) {
        *fault = sum == part->sum ? 0 : RELKVANU_STORE_FILE_CHANGED;
    } else if (status == RELKVANU_STORE_FAILED) {
        *fault = errno == ENOENT ? RELKVANU_STORE_FILE_MISSING : RELKVANU_STORE_FILE_UNREADABLE;
    }
    return status == RELKVANU_STORE_NO_MEMORY ? status : RELKVANU_STORE_OK;
}

static int check_part(void *with, const struct rks_part *part) {
    struct check *c = with;
    int status = RELKVANU_STORE_OK;
    if (!part->is_file || c->has_ended || !c->goes_on) {
        return status;
    }
    uint32_t fault = rks_fault_of(c->folder, part);
    if (fault == 0 && part->has_sum) {
        status = read_file(c, part, &fault);
    }
    if (status != RELKVANU_STORE_OK || fault == 0) {
        return status;
    }
    c->has_ended = fault == RELKVANU_STORE_FILE_MISSING && has_ended(c);
    c->changed += fault == RELKVANU_STORE_FILE_CHANGED || fault == RELKVANU_STORE_FILE_UNREADABLE;
    c->goes_on = c->has_ended || c->each(c->with, c->id, part->file, fault);
    return status;
}

/* Reads the files of one record. RELKVANU_STORE_NO_MEMORY; what else is wrong with the manifest was noted when it was listed. */
static int check_one(struct check *c, struct rks_manifests *all, struct rks_manifest *m) {
    c->id = m->id;
    c->changed = 0;
    c->has_ended = false;
    int status = m->status == RELKVANU_STORE_OK ? rks_manifest_parts(all, c->folder, m->id, check_part, c) : RELKVANU_STORE_OK;
    c->has_ended = c->has_ended || has_ended(c);
    m->changed = c->changed;
    m->has_ended = c->has_ended;
    return status == RELKVANU_STORE_NO_MEMORY ? status : RELKVANU_STORE_OK;
}

int rks_check_manifests(struct rks_manifests *all, int folder, const struct rks_telling *telling) {
    struct check c = {.each = telling->each_fault, .with = telling->with, .folder = folder, .goes_on = true};
    int status = RELKVANU_STORE_OK;
    for (size_t i = 0; i < all->len && status == RELKVANU_STORE_OK && c.goes_on; i++) {
        status = c.each != NULL ? check_one(&c, all, &all->at[i]) : status;
        c.goes_on = c.goes_on && status == RELKVANU_STORE_OK && rks_tell_record(&all->at[i], telling);
    }
    rks_free_sums(&c.sums);
    return status;
}
