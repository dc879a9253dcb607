/* The origin of the record that a job was made of, where it was carried from another job: an import and a claim note it in the new job's file, since a manifest
 * that is written anew, or that is gone, does not say so. It is read at each opening, and stays as it is. */
#include "../job/job.h"
#include "../log/log.h"
#include "../store.h"
#include "manifests.h"

#include <inttypes.h>
#include <stdio.h>

static const char TABLE[] = "CREATE TABLE origin(record INTEGER PRIMARY KEY, job TEXT NOT NULL) STRICT;";

int rks_write_origin(relkvanu_store *s, uint64_t record, const char *job) {
    char sql[sizeof TABLE + 120 + RKS_IDENTITY];
    if (job[0] == 0) {
        return RELKVANU_STORE_OK;
    }
    sqlite3_snprintf(sizeof sql, sql, "BEGIN IMMEDIATE; %s INSERT INTO origin VALUES(%lld, %Q); COMMIT", TABLE, (sqlite3_int64)record, job);
    return rks_run(s, sql);
}

int rks_begin_origin(relkvanu_store *s) {
    bool is_there;
    int64_t record = 0;
    int status = rks_has_table(s, "origin", &is_there);
    if (status != RELKVANU_STORE_OK || !is_there) {
        return status;
    }
    status = rks_ask(s, "SELECT record FROM origin", &record, NULL, 0);
    status = status == RELKVANU_STORE_OK ? rks_ask(s, "SELECT job FROM origin", NULL, s->job.origin.job, sizeof s->job.origin.job) : status;
    s->job.origin.record = (uint64_t)record;
    return status;
}

const char *rks_origin_of(const relkvanu_store *s, uint64_t record) {
    return record != 0 && record == s->job.origin.record ? s->job.origin.job : "";
}

bool relkvanu_store_origin(const relkvanu_store *s, uint64_t id, uint64_t *job) {
    return sscanf(rks_origin_of(s, id), "%16" SCNx64 "%16" SCNx64, &job[0], &job[1]) == 2;
}
