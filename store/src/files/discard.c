/* The discarder: takes files, has them deleted, and reports them with the next take in one list. It never gives up. */
#include "../job/job.h"
#include "../store.h"
#include "files.h"
#include "folder.h"

#include <stdlib.h>
#include <string.h>
#include <unistd.h>

enum { BATCH = 256, LEAST_WAIT = 100, MOST_WAIT = 60000, NO_MEMORY_WAIT = 1000 }; /* ms */

struct discarder {
    relkvanu_store *s;
    const relkvanu_storage *storage;
    uint64_t end;  /* until when, by rks_clock_ns */
    bool is_ended; /* the engine's function has ended it */
    size_t batch, files_len;
    uint64_t *files, *next;     /* that are deleted now; that a take fetches */
    uint8_t *outcomes;          /* of the deletions */
    relkvanu_store_call *calls; /* a report for each file, and a take */
};

/* A function of the engine, in place of a storage. */
struct function {
    struct discarder *d;
    relkvanu_store_delete delete_files;
    relkvanu_store_delete_some delete_some; /* instead of it; NULL: it */
    void *with;
};

static bool is_stopped(relkvanu_store *s) {
    pthread_mutex_lock(&s->mutex);
    bool is_stopped = s->timers.is_stopped;
    pthread_mutex_unlock(&s->mutex);
    return is_stopped;
}

/* Waits until a moment of rks_clock_ns, whatever is committed meanwhile. */
static int pause_until(relkvanu_store *s, uint64_t until) {
    int status = RELKVANU_STORE_OK;
    while (status == RELKVANU_STORE_OK && rks_clock_ns() < until) {
        pthread_mutex_lock(&s->mutex);
        uint64_t seen = s->timers.version;
        pthread_mutex_unlock(&s->mutex);
        status = rks_await(s, seen, until);
    }
    return status;
}

static int pause_for(relkvanu_store *s, uint64_t ms) {
    return pause_until(s, rks_clock_ns() + ms * 1000000);
}

/* Whether files wait, and in which version of the view. */
static bool has_files(relkvanu_store *s, uint64_t *seen) {
    pthread_mutex_lock(&s->mutex);
    bool has_files = s->timers.view.has_files;
    *seen = s->timers.version;
    pthread_mutex_unlock(&s->mutex);
    return has_files;
}

static bool is_over(const struct discarder *d) {
    return rks_clock_ns() >= d->end;
}

/* Waits until a batch may be taken. RELKVANU_STORE_TIMED_OUT: the time is up. */
static int await_files(struct discarder *d) {
    relkvanu_store *s = d->s;
    uint64_t seen;
    int status = pause_until(s, s->discards.tries_at < d->end ? s->discards.tries_at : d->end);
    while (status == RELKVANU_STORE_OK && !has_files(s, &seen) && !is_over(d)) {
        status = rks_await(s, seen, d->end);
    }
    return status == RELKVANU_STORE_OK && is_over(d) ? RELKVANU_STORE_TIMED_OUT : status;
}

/* Deletes by the engine's function, which says of each file whether it is gone. */
static int delete_by_function(void *with, const uint64_t *files, size_t len, uint8_t *outcomes) {
    struct function *f = with;
    if (f->delete_some != NULL) {
        f->d->is_ended = !f->delete_some(f->with, files, len, outcomes);
    } else {
        f->delete_files(f->with, files, len, outcomes);
    }
    for (size_t i = 0; i < len; i++) {
        outcomes[i] = outcomes[i] != 0 ? RELKVANU_STORAGE_DELETED : RELKVANU_STORAGE_UNDELETED;
    }
    return RELKVANU_STORAGE_OK;
}

/* Deletes the batch elsewhere than in the store's own storage, whose folder has to be the job's all the same, and is synced: an engine's function may
 * delete in it. Returns the status of a storage. */
static int delete_elsewhere(struct discarder *d) {
    int status = rks_owner(d->s);
    status = status == RELKVANU_STORAGE_OK ? d->storage->delete_files(d->storage->with, d->files, d->files_len, d->outcomes) : status;
    status = status == RELKVANU_STORAGE_OK ? rks_owner(d->s) : status;
    return status == RELKVANU_STORAGE_OK && d->s->storage.folder >= 0 && fsync(d->s->storage.folder) != 0 ? RELKVANU_STORAGE_FAILED
                                                                                                          : status;
}

/* Has the files deleted. Without its marker the folder may be another one: nothing is deleted, and no missing file counts as gone; after a
 * sync that failed none does either. If another opening has taken the folder, its files are no longer this one's to delete. */
static int delete_batch(struct discarder *d) {
    memset(d->outcomes, RELKVANU_STORAGE_UNDELETED, d->batch);
    const relkvanu_storage *it = d->storage, *own = &d->s->storage.own;
    bool is_own = it->with == own->with && it->delete_files == own->delete_files;
    int status = is_own ? it->delete_files(it->with, d->files, d->files_len, d->outcomes) : delete_elsewhere(d);
    if (status != RELKVANU_STORAGE_OK) {
        memset(d->outcomes, RELKVANU_STORAGE_UNDELETED, d->batch);
    }
    if (status != RELKVANU_STORAGE_OTHER_JOB) {
        return RELKVANU_STORE_OK;
    }
    rks_why("the discarder", status);
    return RELKVANU_STORE_STORAGE;
}

static bool is_gone(const struct discarder *d, size_t i) {
    return d->outcomes[i] == RELKVANU_STORAGE_DELETED || d->outcomes[i] == RELKVANU_STORAGE_MISSING;
}

/* Whether any file of the batch is gone. Counts those that are not. */
static bool count_gone(struct discarder *d) {
    uint64_t gone = 0;
    for (size_t i = 0; i < d->files_len; i++) {
        gone += is_gone(d, i);
    }
    pthread_mutex_lock(&d->s->mutex);
    d->s->discards.failed_deletions += d->files_len - gone;
    pthread_mutex_unlock(&d->s->mutex);
    return gone != 0;
}

/* Makes the calls of the list. Those for which there is no memory are made later. After a stop they are not, and the next discarder begins with
 * what is taken. */
static int make_all(struct discarder *d, size_t len) {
    int status = RELKVANU_STORE_OK;
    for (size_t made = 0; made < len && status == RELKVANU_STORE_OK;) {
        status = relkvanu_store_calls(d->s, d->calls + made, len - made);
        while (made < len && d->calls[made].answer.code != RELKVANU_NO_MEMORY && d->calls[made].answer.code != RELKVANU_STORE_NOT_MADE) {
            made++;
        }
        if (made < len && (status == RELKVANU_STORE_OK || status == RELKVANU_STORE_NO_MEMORY)) {
            status = pause_for(d->s, LEAST_WAIT);
        }
    }
    return status;
}

/* Reports the batch, and takes the next one in the same list, unless the discarder is to end or to wait. */
static int report(struct discarder *d, bool takes) {
    size_t len = d->files_len;
    for (size_t i = 0; i < len; i++) {
        uint32_t kind = is_gone(d, i) ? RELKVANU_CALL_DELETED : RELKVANU_CALL_UNDELETED;
        d->calls[i] = (relkvanu_store_call){.call = {.kind = kind, .number = d->files[i]}};
    }
    d->calls[len] =
        (relkvanu_store_call){.call = {.kind = RELKVANU_CALL_TAKE, .number = d->batch}, .files = d->next, .files_len = d->batch};
    int status = make_all(d, len + takes);
    if (status != RELKVANU_STORE_OK) {
        return status;
    }
    uint64_t *taken = d->next;
    d->next = d->files;
    d->files = taken;
    d->files_len = takes && d->calls[len].answer.code == RELKVANU_DONE ? d->calls[len].answer.a : 0;
    return RELKVANU_STORE_OK;
}

/* Deletes the batch, reports it, and has the next one, or none. */
static int discard_batch(struct discarder *d) {
    relkvanu_store *s = d->s;
    int status = delete_batch(d);
    if (status != RELKVANU_STORE_OK) {
        return status; /* the batch stays taken: whoever has the job settles it */
    }
    bool any = count_gone(d), goes_on = any && !d->is_ended && !is_stopped(s) && !is_over(d);
    s->discards.try_wait = any || s->discards.try_wait == 0       ? LEAST_WAIT
                           : s->discards.try_wait * 2 < MOST_WAIT ? s->discards.try_wait * 2
                                                                  : MOST_WAIT;
    s->discards.tries_at = any ? 0 : rks_clock_ns() + s->discards.try_wait * 1000000;
    return report(d, goes_on);
}

static int take(struct discarder *d) {
    int status = await_files(d);
    status = status == RELKVANU_STORE_OK ? report(d, true) : status;
    if (status == RELKVANU_STORE_OK && d->files_len == 0) {
        status = pause_for(d->s, LEAST_WAIT); /* no memory */
    }
    return status;
}

/* Until it is stopped, the time is up, or the engine's function has ended it. Then each file that it took is reported. */
static int discard_all(struct discarder *d) {
    int status = RELKVANU_STORE_OK;
    while (status == RELKVANU_STORE_OK && (d->files_len != 0 || !d->is_ended)) {
        status = is_stopped(d->s) && d->files_len == 0 ? RELKVANU_STORE_STOPPED : d->files_len != 0 ? discard_batch(d) : take(d);
    }
    return status;
}

/* The files that were taken before and not reported; *len of them are in the list. */
static int taken_before(relkvanu_store *s, uint64_t **files, size_t *len) {
    relkvanu *handle;
    int status = relkvanu_store_read(s, &handle);
    if (status != RELKVANU_STORE_OK) {
        return status;
    }
    size_t taken = relkvanu_file_counts(handle).taken;
    *files = malloc((taken + 1) * sizeof **files);
    relkvanu_answer answer = {.code = RELKVANU_NO_MEMORY};
    if (*files != NULL) {
        answer = relkvanu_taken_files(handle, *files, taken);
    }
    relkvanu_store_read_end(s);
    *len = answer.code == RELKVANU_DONE ? answer.a : 0;
    return answer.code == RELKVANU_DONE ? RELKVANU_STORE_OK : RELKVANU_STORE_NO_MEMORY;
}

/* A process may have ended between a take and its reports. */
static int settle(struct discarder *d) {
    uint64_t *files = NULL;
    size_t len = 0;
    int status = taken_before(d->s, &files, &len);
    for (size_t at = 0; status == RELKVANU_STORE_OK && at < len; at += d->batch) {
        d->files_len = len - at < d->batch ? len - at : d->batch;
        memcpy(d->files, files + at, d->files_len * sizeof *files);
        status = delete_batch(d);
        if (status == RELKVANU_STORE_OK) {
            count_gone(d);
            status = report(d, false);
        }
        status = status == RELKVANU_STORE_OK && is_stopped(d->s) ? RELKVANU_STORE_STOPPED : status;
        status = status == RELKVANU_STORE_OK && (d->is_ended || is_over(d)) ? RELKVANU_STORE_TIMED_OUT : status;
    }
    free(files);
    return status;
}

static int settle_once(struct discarder *d) {
    int status = d->s->discards.is_settled ? RELKVANU_STORE_OK : settle(d);
    d->s->discards.is_settled = status == RELKVANU_STORE_OK;
    d->files_len = 0;
    return status == RELKVANU_STORE_TIMED_OUT && d->is_ended ? RELKVANU_STORE_OK : status;
}

static int run(struct discarder *d) {
    d->files = malloc(d->batch * sizeof *d->files);
    d->next = malloc(d->batch * sizeof *d->next);
    d->outcomes = malloc(d->batch);
    d->calls = malloc((d->batch + 1) * sizeof *d->calls);
    int status = RELKVANU_STORE_NO_MEMORY;
    if (d->files != NULL && d->next != NULL && d->outcomes != NULL && d->calls != NULL) {
        status = settle_once(d);
    }
    if (status == RELKVANU_STORE_OK) {
        status = discard_all(d);
        d->s->discards.is_settled = d->files_len == 0;
    }
    free(d->files);
    free(d->next);
    free(d->outcomes);
    free(d->calls);
    return status;
}

static int discard(struct discarder *d) {
    relkvanu_store *s = d->s;
    if (rks_is_forked(s)) {
        return RELKVANU_STORE_FORKED;
    }
    int status = rks_check_reader(s);
    if (status != RELKVANU_STORE_OK) {
        return status; /* no file could begin to wait while it reads */
    }
    d->batch = d->batch == 0 ? BATCH : d->batch;
    if (d->batch >= RELKVANU_STORE_MOST_CALLS || d->storage == NULL) {
        return RELKVANU_STORE_BAD_ARGUMENT;
    }
    pthread_mutex_lock(&s->mutex);
    bool is_second = s->discards.is_discarding;
    s->discards.is_discarding = true;
    pthread_mutex_unlock(&s->mutex);
    if (is_second) {
        return RELKVANU_STORE_NOT_NOW;
    }
    while (status == RELKVANU_STORE_OK && (status = run(d)) == RELKVANU_STORE_NO_MEMORY && !is_over(d)) {
        status = pause_for(s, NO_MEMORY_WAIT); /* it settles again what is taken */
    }
    pthread_mutex_lock(&s->mutex);
    s->discards.is_discarding = false;
    pthread_mutex_unlock(&s->mutex);
    return status;
}

/* The store's own storage, if it has a folder. */
static const relkvanu_storage *own_of(const relkvanu_store *s) {
    return s->storage.folder >= 0 ? &s->storage.own : NULL;
}

int relkvanu_store_discard_storage(relkvanu_store *s, size_t batch, const relkvanu_storage *storage) {
    const relkvanu_storage *it = storage == NULL ? own_of(s) : rks_is_storage(storage) ? storage : NULL;
    return discard(&(struct discarder){.s = s, .storage = it, .batch = batch, .end = UINT64_MAX});
}

/* A discarder by a function of the engine. */
static int discard_by(struct function f, relkvanu_store *s, size_t batch, uint64_t end) {
    const relkvanu_storage storage = {.with = &f, .delete_files = delete_by_function};
    struct discarder d = {.s = s, .storage = &storage, .batch = batch, .end = end};
    f.d = &d;
    return discard(&d);
}

int relkvanu_store_discard(relkvanu_store *s, size_t batch, relkvanu_store_delete delete_files, void *with) {
    return discard_by((struct function){.delete_files = delete_files, .with = with}, s, batch, UINT64_MAX);
}

int relkvanu_store_discard_for(relkvanu_store *s, size_t batch, uint64_t longest, relkvanu_store_delete_some delete_some, void *with) {
    if (delete_some == NULL) {
        return discard(&(struct discarder){.s = s, .storage = own_of(s), .batch = batch, .end = rks_after(longest)});
    }
    return discard_by((struct function){.delete_some = delete_some, .with = with}, s, batch, rks_after(longest));
}
