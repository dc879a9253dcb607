/* Reads: they wait in the queue too, so they see what is committed and nothing else. */
#include "../files/files.h"
#include "../log/log.h"
#include "../store.h"
#include "job.h"

#include <stdio.h>
#include <stdlib.h>
#include <string.h>

enum { PAGE = 256 };

/* What each call that changes something with files, names or moments changes of the coordinator. */
static void see(relkvanu *handle, uint64_t seen[RKS_SEEN]) {
    relkvanu_counts counts = relkvanu_file_counts(handle);
    relkvanu_answer expiry = relkvanu_oldest_expiry(handle), choice = relkvanu_choice(handle), term = relkvanu_term(handle);
    const uint64_t found[RKS_SEEN] = {relkvanu_moment(handle).a, relkvanu_due(handle).a, relkvanu_mode(handle).what, expiry.what, expiry.a,
        choice.what, choice.a, term.what, term.a, term.b, counts.in_use, counts.waiting, counts.taken};
    memcpy(seen, found, sizeof found);
}

/* A thread is told from others by the place of this. */
static _Thread_local char own;

bool rks_is_reading(const relkvanu_store *s) {
    return s->job.reader == &own;
}

int rks_check_reader(const relkvanu_store *s) {
    if (!rks_is_reading(s)) {
        return RELKVANU_STORE_OK;
    }
    rks_why_words("this thread reads, so that the call would wait for itself: make it after the read");
    return RELKVANU_STORE_BAD_ARGUMENT;
}

int relkvanu_store_read(relkvanu_store *s, relkvanu **handle) {
    struct rks_waiter w = {0};
    int status = rks_enter(s, &w);
    status = status == RELKVANU_STORE_OK && w.is_answered ? w.status : status;
    if (status == RELKVANU_STORE_OK) {
        rks_take_alone(s);
        see(s->handle, s->job.seen);
        s->job.reader = &own;
        *handle = s->handle;
    }
    return status;
}

int relkvanu_store_look(relkvanu_store *s, relkvanu_reads **reads) {
    relkvanu *handle;
    int status = relkvanu_store_read(s, &handle);
    if (status == RELKVANU_STORE_OK) {
        *reads = (relkvanu_reads *)handle;
    }
    return status;
}

/* A call through the handle of a read is in no log: no later opening could make the calls after it. */
void relkvanu_store_read_end(relkvanu_store *s) {
    uint64_t seen[RKS_SEEN];
    see(s->handle, seen);
    bool is_same = memcmp(seen, s->job.seen, sizeof seen) == 0;
    s->job.reader = NULL;
    rks_hand_on(s, is_same ? 0
                           : rks_refuse(s, RELKVANU_STORE_FAILED,
                                 "%.300s: a call was made through the handle of a read, which the log does not have", s->file.path));
}

int relkvanu_store_job(relkvanu_store *s, relkvanu_settings *settings, uint64_t *shape, size_t *shape_len) {
    relkvanu *handle;
    size_t room = *shape_len;
    *shape_len = 0;
    int status = relkvanu_store_read(s, &handle);
    if (status != RELKVANU_STORE_OK) {
        return status;
    }
    char *image = rks_text_of(handle, NULL);
    *settings = s->job.settings;
    relkvanu_store_read_end(s);
    if (image == NULL) {
        return RELKVANU_STORE_NO_MEMORY;
    }
    *shape_len = rks_shape_of(image, shape, room);
    free(image);
    return *shape_len <= room ? RELKVANU_STORE_OK : RELKVANU_STORE_BAD_ARGUMENT;
}

void relkvanu_store_count(relkvanu_store *s, relkvanu_store_counts *counts) {
    *counts = (relkvanu_store_counts){0};
    if (!rks_is_forked(s)) {
        pthread_mutex_lock(&s->mutex);
        *counts = s->counted.counts;
        counts->swept = s->discards.swept;
        counts->unissued = s->discards.unissued;
        pthread_mutex_unlock(&s->mutex);
    }
}

void relkvanu_store_measure(relkvanu_store *s, relkvanu_store_measures *measures, size_t measures_len) {
    relkvanu_store_measures found = {0};
    if (!rks_is_forked(s)) {
        pthread_mutex_lock(&s->mutex);
        found = s->counted.measures;
        found.failed_deletions = s->discards.failed_deletions;
        pthread_mutex_unlock(&s->mutex);
    }
    memset(measures, 0, measures_len);
    memcpy(measures, &found, measures_len < sizeof found ? measures_len : sizeof found);
}

size_t relkvanu_store_message(relkvanu_store *s, char *text, size_t text_len) {
    if (rks_is_forked(s)) {
        return (size_t)snprintf(text, text_len, "this process is a forked child");
    }
    pthread_mutex_lock(&s->mutex);
    int len = snprintf(text, text_len, "%s", s->message);
    pthread_mutex_unlock(&s->mutex);
    return (size_t)len;
}

int relkvanu_store_folder(const relkvanu_store *s) {
    return s->storage.folder;
}

int relkvanu_store_term(relkvanu_store *s, relkvanu_answer *answer) {
    relkvanu *handle;
    int status = relkvanu_store_read(s, &handle);
    *answer = (relkvanu_answer){.code = RELKVANU_STORE_NOT_MADE};
    if (status == RELKVANU_STORE_OK) {
        *answer = relkvanu_term(handle);
        relkvanu_store_read_end(s);
    }
    return status;
}

int relkvanu_store_garbage(
    relkvanu_store *s, const uint64_t *files, size_t files_len, uint64_t *garbage, uint64_t *unissued, relkvanu_answer *answer) {
    relkvanu *handle;
    int status = relkvanu_store_read(s, &handle);
    *answer = (relkvanu_answer){.code = RELKVANU_STORE_NOT_MADE};
    if (status == RELKVANU_STORE_OK) {
        *answer = relkvanu_garbage(handle, files, files_len, garbage, files_len, unissued, files_len);
        relkvanu_store_read_end(s);
    }
    return status;
}

/* Moves the files that are garbage to the front, and counts those whose names were not given out. Takes no memory. */
static size_t garbage_of(relkvanu_store *s, uint64_t *files, size_t len, size_t *unissued) {
    uint64_t garbage[PAGE], others[PAGE];
    size_t found = 0;
    for (size_t begin = 0; begin < len; begin += PAGE) {
        size_t page = len - begin < PAGE ? len - begin : PAGE;
        relkvanu_answer answer = relkvanu_garbage(s->handle, files + begin, page, garbage, PAGE, others, PAGE);
        memcpy(files + found, garbage, answer.a * sizeof *files);
        found += answer.a;
        *unissued += answer.b;
    }
    return found;
}

int rks_deletable(relkvanu_store *s, uint64_t *files, size_t *files_len, size_t *unissued) {
    relkvanu *handle;
    int status = relkvanu_store_read(s, &handle);
    if (status == RELKVANU_STORE_OK) {
        *files_len = garbage_of(s, files, *files_len, unissued);
        relkvanu_store_read_end(s);
    }
    return status;
}
