/* Writes the manifests of complete records into the storage folder, or by the functions of an engine into a bucket, say: after the commit that completes
 * them and before anybody is told. */
#include "../files/files.h"
#include "../job/job.h"
#include "../store.h"
#include "known_files.h"
#include "manifest.h"
#include "manifests.h"

#include <errno.h>
#include <inttypes.h>
#include <stdarg.h>
#include <stdio.h>
#include <stdlib.h>
#include <string.h>
#include <unistd.h>
#include <zlib.h>

/* Numbers and terms that may be told before a manifest says so again; names: sixteen rounds in which each of 4096 tasks reserves the most. */
enum { SOME_NUMBERS = 1024, SOME_TERMS = 1024 };
static const uint64_t SOME_NAMES = UINT64_C(1) << 32, RETRY = UINT64_C(1000000000); /* ns */

void rks_manifest_name(uint64_t id, const char *end, char name[RKS_MANIFEST_NAME]) {
    snprintf(name, RKS_MANIFEST_NAME, "record-%" PRIu64 ".manifest%s", id, end);
}

const char *rks_manifest_names(const char *name, uint64_t *id) {
    static const char *const ends[] = {"", RKS_PART, RKS_CLAIMED};
    char whole[RKS_MANIFEST_NAME];
    const char *found = NULL;
    bool has_number = sscanf(name, "record-%20" SCNu64, id) == 1;
    for (size_t i = 0; has_number && found == NULL && i < sizeof ends / sizeof *ends; i++) {
        rks_manifest_name(*id, ends[i], whole);
        found = strcmp(name, whole) == 0 ? ends[i] : NULL;
    }
    return found;
}

/* Appends a text. Returns false without memory. */
__attribute__((format(printf, 2, 3))) static bool add(struct rks_text *text, const char *format, ...) {
    enum { LONGEST = 600 };
    va_list words;
    if (!rks_room(text, LONGEST)) {
        return false;
    }
    va_start(words, format);
    int len = vsnprintf((char *)text->at + text->len, LONGEST, format, words);
    va_end(words);
    text->len += (size_t)len;
    return len < LONGEST;
}

/* What is written of a record, and what of it is counted. It is taken by the thread that leads; then any thread can write it. */
struct rks_writing {
    relkvanu_store *s;
    struct rks_text text;
    uint64_t id, term, place, files, bytes;
    bool is_savepoint, is_chosen, is_whole, is_fenced;
    struct {
        uint64_t number, term, name;
    } below;
    relkvanu_settings settings;
    uint64_t *names; /* of the files of all subtasks, one behind the other */
    size_t names_len, names_room;
    uint16_t *lens; /* how many each subtask has */
    size_t lens_len, lens_room;
    uint32_t shape[RKS_VERTICES];
    uint16_t shape_len;
    struct rks_parts parts;
    uint64_t *ended; /* the records whose manifests go then */
    size_t ended_len;
};

static void free_writing(struct rks_writing *w) {
    rks_free_parts(&w->parts);
    free(w->text.at);
    free(w->names);
    free(w->lens);
    free(w->ended);
    free(w);
}

/* Takes the names of the files of a subtask. */
static int take_subtask(void *with, uint16_t vertex, uint16_t index, const uint64_t *files, size_t len) {
    struct rks_writing *w = with;
    if (!rks_grow(&w->names, &w->names_room, w->names_len + len, sizeof *w->names) ||
        !rks_grow(&w->lens, &w->lens_room, w->lens_len + 1, sizeof *w->lens)) {
        return RELKVANU_STORE_NO_MEMORY;
    }
    if (len != 0) {
        memcpy(w->names + w->names_len, files, len * sizeof *files);
    }
    w->names_len += len;
    w->lens[w->lens_len++] = (uint16_t)len;
    w->shape[vertex] = index + UINT32_C(1);
    w->shape_len = (uint16_t)(vertex + 1);
    return RELKVANU_STORE_OK;
}

/* Takes all that a manifest says of the record but the lengths of its files. Returns false without memory, or if the job's file can't be read. */
static bool take(struct rks_writing *w, bool is_savepoint) {
    relkvanu_store *s = w->s;
    relkvanu_answer choice = relkvanu_choice(s->handle);
    w->is_savepoint = is_savepoint;
    w->is_chosen = choice.what != RELKVANU_CHOICE_FRESH && choice.a == w->id;
    w->term = relkvanu_term(s->handle).a;
    w->place = s->log.place;
    w->below.number = s->kept.number;
    w->below.term = s->kept.term;
    w->below.name = s->kept.name;
    w->settings = s->job.settings;
    return rks_read_parts(s, w->id, &w->parts) == RELKVANU_STORE_OK &&
           rks_subtasks_of(s->handle, w->id, take_subtask, w) == RELKVANU_STORE_OK;
}

static struct rks_writing *new_writing(relkvanu_store *s, relkvanu_answer live) {
    struct rks_writing *w = calloc(1, sizeof *w);
    if (w == NULL) {
        return NULL;
    }
    w->s = s;
    w->id = live.a;
    if (!take(w, live.what == RELKVANU_LIVE_SAVEPOINT)) {
        free_writing(w);
        return NULL;
    }
    return w;
}

/* The payload of a subtask, as hexadecimal digits. */
static bool add_payload(struct rks_writing *w, const struct rks_subtask *part) {
    static const char digits[] = "0123456789abcdef";
    if (part == NULL || part->payload_len == 0) {
        return true;
    }
    if (!add(&w->text, ",\"payload\":\"") || !rks_room(&w->text, 2 * part->payload_len)) {
        return false;
    }
    for (size_t i = 0; i < part->payload_len; i++) {
        w->text.at[w->text.len++] = (uint8_t)digits[part->payload[i] >> 4];
        w->text.at[w->text.len++] = (uint8_t)digits[part->payload[i] & 15];
    }
    return add(&w->text, "\"");
}

/* What the task told of its snapshot. */
static bool add_figures(struct rks_writing *w, const struct rks_subtask *part) {
    return part == NULL || ((part->bytes == 0 || add(&w->text, ",\"bytes\":%" PRIu64, part->bytes)) &&
                               (part->millis == 0 || add(&w->text, ",\"millis\":%" PRIu64, part->millis)));
}

/* A file with the length that it had when its first record was complete: one that is shorter now is damaged. null: it was never there. */
static bool add_file(struct rks_writing *w, uint64_t file, bool is_first) {
    uint64_t bytes = 0;
    const char *comma = is_first ? "" : ",";
    w->files++;
    switch (rks_length_of(&w->s->kept.sums, w->s->storage.folder, file, &bytes)) {
    case RELKVANU_STORE_OK: w->bytes += bytes; return add(&w->text, "%s\"%" PRIu64 "\":%" PRIu64, comma, file, bytes);
    case RELKVANU_STORE_NO_MEMORY: return false;
    default: return add(&w->text, "%s\"%" PRIu64 "\":null", comma, file);
    }
}

/* The checksum of a file, which is null if it can't be read. */
static bool add_sum(struct rks_writing *w, uint64_t file, bool is_first) {
    uint32_t sum;
    const char *comma = is_first ? "" : ",";
    switch (rks_sum_of(&w->s->kept.sums, w->s->storage.folder, file, &sum)) {
    case RELKVANU_STORE_OK: return add(&w->text, "%s\"%08" PRIx32 "\"", comma, sum);
    case RELKVANU_STORE_NO_MEMORY: return false;
    default: return add(&w->text, "%snull", comma);
    }
}

static bool add_sums(struct rks_writing *w, const uint64_t *names, size_t len) {
    if (!w->s->kept.has_sums || len == 0) {
        return true;
    }
    bool is_added = add(&w->text, ",\"sums\":[");
    for (size_t i = 0; i < len && is_added; i++) {
        is_added = add_sum(w, names[i], i == 0);
    }
    return is_added && add(&w->text, "]");
}

/* A subtask with its files, whose names were taken. */
static bool add_subtask(struct rks_writing *w, uint16_t vertex, uint16_t index, const uint64_t *names, size_t len) {
    bool is_first = vertex == 0 && index == 0;
    const struct rks_subtask *part = rks_part_of(&w->parts, vertex, index);
    const uint64_t *ordered = part != NULL && part->files_len == len ? part->files : names;
    bool is_added = add(&w->text, "%s\n{\"vertex\":%d,\"index\":%d,\"files\":{", is_first ? "" : ",", vertex, index);
    for (size_t i = 0; i < len && is_added; i++) {
        is_added = add_file(w, ordered[i], i == 0);
    }
    return is_added && add(&w->text, "}") && add_sums(w, ordered, len) && add_payload(w, part) && add_figures(w, part) &&
           add(&w->text, "}");
}

static bool add_subtasks(struct rks_writing *w) {
    const uint64_t *names = w->names;
    uint32_t vertex = 0, index = 0;
    bool is_added = add(&w->text, "\"subtasks\":[");
    for (size_t i = 0; i < w->lens_len && is_added; i++) {
        is_added = add_subtask(w, (uint16_t)vertex, (uint16_t)index, names, w->lens[i]);
        names += w->lens[i];
        bool is_last = ++index == w->shape[vertex];
        vertex += is_last;
        index = is_last ? 0 : index;
    }
    return is_added && add(&w->text, "\n],\"files\":%" PRIu64 ",\"bytes\":%" PRIu64, w->files, w->bytes);
}

static bool add_shape(struct rks_writing *w) {
    bool is_added = add(&w->text, ",\"shape\":[");
    for (uint16_t i = 0; i < w->shape_len && is_added; i++) {
        is_added = add(&w->text, "%s%" PRIu32, i == 0 ? "" : ",", w->shape[i]);
    }
    return is_added && add(&w->text, "]");
}

static bool add_settings(struct rks_writing *w) {
    const relkvanu_settings *it = &w->settings;
    return add(&w->text,
        "\"settings\":{\"interval\":%" PRIu64 ",\"pause\":%" PRIu64 ",\"at_once\":%" PRIu64 ",\"timeout\":%" PRIu64
        ",\"tolerable\":%" PRIu64 ",\"retained\":%" PRIu64 ",\"keep_on_cancel\":%s},\n",
        it->interval, it->pause, it->at_once, it->timeout, it->tolerable, it->retained, it->keep_on_cancel ? "true" : "false");
}

/* The text of a manifest: numbers and words of this file alone, so nothing has to be escaped. Its last member is the checksum of all before it. */
static bool has_text(struct rks_writing *w) {
    bool is_added = add(&w->text, "{\"relkvanu\":\"manifest\",\"version\":1,\"library\":\"%s\",\"written\":%" PRIu64 ",\n",
        relkvanu_version(), rks_wall_clock_ms());
    is_added = is_added && add(&w->text, "\"job\":\"%s\",\"epoch\":%" PRIu64 ",\"term\":%" PRIu64 ",\"place\":%" PRIu64 ",\n",
                               w->s->job.identity, w->s->job.epoch, w->term, w->place);
    is_added = is_added && add(&w->text, "\"record\":%" PRIu64 ",\"kind\":\"%s\",\"chosen\":%s,\n", w->id,
                               w->is_savepoint ? "savepoint" : "checkpoint", w->is_chosen ? "true" : "false");
    const char *origin = rks_origin_of(w->s, w->id);
    is_added = is_added && (origin[0] == 0 || add(&w->text, "\"origin\":\"%s\",\n", origin));
    is_added = is_added && add(&w->text, "\"below\":{\"number\":%" PRIu64 ",\"term\":%" PRIu64 ",\"name\":%" PRIu64 "},\n", w->below.number,
                               w->below.term, w->below.name);
    is_added = is_added && add_settings(w) && add_subtasks(w) && add_shape(w);
    uint32_t sum = (uint32_t)crc32_z(0, w->text.at, is_added ? w->text.len : 0);
    return is_added && add(&w->text, ",\"sum\":\"%08" PRIx32 "\"}\n", sum);
}

/* Whose the place of the manifests is, as rks_owner says it of the folder. */
static int owner_of(const relkvanu_store *s) {
    const struct rks_place *place = &s->kept.place;
    return place->put != NULL ? place->check(place->with) : rks_owner(s);
}

void rks_say_fenced(char message[RKS_MESSAGE]) {
    snprintf(message, RKS_MESSAGE, "the marker of the storage names another job or a later opening: another process has the records");
}

/* A manifest elsewhere is whole and durable once its put has returned. A later opening may have taken the place since the last one. */
static bool is_put(const relkvanu_store *s, uint64_t id, const struct rks_text *text) {
    const struct rks_place *place = &s->kept.place;
    char name[RKS_MANIFEST_NAME];
    rks_manifest_name(id, "", name);
    return place->check(place->with) == RELKVANU_STORAGE_OK && place->put(place->with, name, text->at, text->len) == RELKVANU_STORAGE_OK;
}

int rks_put_manifest(int folder, uint64_t id, const char *end, const struct rks_text *text) {
    char name[RKS_MANIFEST_NAME], part[RKS_MANIFEST_NAME];
    rks_manifest_name(id, end, name);
    rks_manifest_name(id, RKS_PART, part);
    int file = rks_open_new(folder, part);
    if (file < 0) {
        return errno;
    }
    int error = rks_write_new(file, text->at, text->len);
    error = error == 0 && renameat(folder, part, folder, name) != 0 ? errno : error;
    if (error != 0) {
        unlinkat(folder, part, 0);
    }
    return error;
}

static bool is_written(struct rks_writing *w) {
    const relkvanu_store *s = w->s;
    return has_text(w) &&
           (s->kept.place.put != NULL ? is_put(s, w->id, &w->text) : rks_put_manifest(s->storage.folder, w->id, "", &w->text) == 0);
}

static bool has_manifest(const struct rks_kept *kept, uint64_t id) {
    size_t at = rks_place_of(kept->ids, kept->len, sizeof *kept->ids, id);
    return at < kept->len && kept->ids[at] == id;
}

/* Notes that the record has a manifest. Returns false without memory. */
static bool is_noted(struct rks_kept *kept, uint64_t id) {
    if (has_manifest(kept, id)) {
        return true;
    }
    if (!rks_grow(&kept->ids, &kept->room, kept->len + 1, sizeof *kept->ids)) {
        return false;
    }
    size_t at = rks_place_of(kept->ids, kept->len, sizeof *kept->ids, id);
    memmove(kept->ids + at + 1, kept->ids + at, (kept->len - at) * sizeof *kept->ids);
    kept->ids[at] = id;
    kept->len++;
    return true;
}

/* The number that the next record gets, which is above those of all live ones. */
static uint64_t next_number(relkvanu_store *s) {
    uint64_t low = 0, high = UINT64_C(1) << 63;
    while (low < high) {
        uint64_t middle = low + (high - low) / 2;
        uint32_t stands = relkvanu_standing(s->handle, middle).what;
        if (stands == RELKVANU_STANDS_NOT_YET) {
            high = middle;
        } else {
            low = middle + 1;
        }
    }
    return low;
}

/* Whether a number is above its bound, which is raised above it then. */
static bool raise_bound(uint64_t next, uint64_t *below, uint64_t some) {
    bool is_above = next > *below;
    *below = is_above ? next + some : *below;
    return is_above;
}

/* Whether something was told that no manifest is above. Then all are above it that are written from now on. */
static bool is_raised(relkvanu_store *s) {
    struct rks_kept *kept = &s->kept;
    relkvanu_answer term = relkvanu_term(s->handle);
    bool is_raised = raise_bound(next_number(s), &kept->number, SOME_NUMBERS);
    is_raised = raise_bound(term.a + 1, &kept->term, SOME_TERMS) || is_raised;
    return raise_bound(term.b, &kept->name, SOME_NAMES) || is_raised;
}

static bool is_done(relkvanu_store *s, uint64_t id) {
    return relkvanu_standing(s->handle, id).what == RELKVANU_STANDS_DONE;
}

/* The record that has to be written even if it has a manifest: the choice if it is another one, or the one that is to say what was told. */
static uint64_t to_write_again(relkvanu_store *s, bool is_raised) {
    struct rks_kept *kept = &s->kept;
    relkvanu_answer choice = relkvanu_choice(s->handle);
    uint64_t chosen = choice.what == RELKVANU_CHOICE_FRESH ? 0 : choice.a;
    bool has_carrier = kept->carrier != 0 && is_done(s, kept->carrier);
    if (chosen != 0) {
        return chosen != kept->chosen || is_raised || !has_carrier ? chosen : 0;
    }
    size_t at = 0;
    while (at < kept->len && !is_done(s, kept->ids[at])) {
        at++;
    }
    return at < kept->len && (is_raised || !has_carrier) ? kept->ids[at] : 0;
}

/* Notes that the record has what was taken of it. Returns false without memory. */
static bool is_kept(struct rks_kept *kept, const struct rks_writing *w) {
    if (!is_noted(kept, w->id)) {
        return false;
    }
    kept->chosen = w->is_chosen ? w->id : kept->chosen;
    kept->carrier = w->id;
    return true;
}

/* Writes a record's manifest, and notes it. */
static bool write_one(relkvanu_store *s, relkvanu_answer live) {
    struct rks_writing *w = new_writing(s, live);
    if (w == NULL) {
        return false;
    }
    bool is_whole = is_written(w) && is_kept(&s->kept, w);
    free_writing(w);
    return is_whole;
}

static bool has_to_be_written(const struct rks_kept *kept, relkvanu_answer live, uint64_t again) {
    return live.b != 0 && (kept->has_failed || live.a == again || !has_manifest(kept, live.a));
}

/* Writes what is missing. Writes how many. */
static bool are_written(relkvanu_store *s, uint64_t again, uint64_t *written) {
    bool is_whole = true;
    for (relkvanu_answer it = relkvanu_live_from(s->handle, 0); it.what != RELKVANU_LIVE_NONE && is_whole;
         it = relkvanu_live_from(s->handle, it.a + 1)) {
        if (has_to_be_written(&s->kept, it, again)) {
            is_whole = write_one(s, it);
            *written += is_whole;
        }
    }
    return is_whole && (*written == 0 || s->kept.place.put != NULL || fsync(s->storage.folder) == 0);
}

/* Moves the records that have ended behind the others that have a manifest, and does not keep them. Returns how many. */
static size_t take_ended(relkvanu_store *s) {
    struct rks_kept *kept = &s->kept;
    size_t len = kept->len;
    kept->len = 0;
    for (size_t at = 0; at < len; at++) {
        uint64_t id = kept->ids[at];
        if (is_done(s, id)) {
            kept->ids[at] = kept->ids[kept->len];
            kept->ids[kept->len++] = id;
        }
    }
    return len - kept->len;
}

/* Removes a manifest. One that could not be removed is left to a sweep, or to the next opening. */
static void drop_one(const relkvanu_store *s, uint64_t id, const char *end) {
    const struct rks_place *place = &s->kept.place;
    char name[RKS_MANIFEST_NAME];
    rks_manifest_name(id, end, name);
    if (place->put != NULL) {
        (void)(place->check(place->with) == RELKVANU_STORAGE_OK && place->remove(place->with, name) == RELKVANU_STORAGE_OK);
    } else {
        unlinkat(s->storage.folder, name, 0);
    }
}

/* Removes the manifests of records that have ended, once those of the others are on the disk. */
static void drop_all(const relkvanu_store *s, const uint64_t *ended, size_t len) {
    for (size_t at = 0; at < len; at++) {
        drop_one(s, ended[at], "");
    }
}

static void count(relkvanu_store *s, uint64_t written, bool is_whole) {
    pthread_mutex_lock(&s->mutex);
    s->counted.measures.manifests += written;
    s->counted.measures.failed_manifests += !is_whole;
    pthread_mutex_unlock(&s->mutex);
}

/* What was written may not be on the disk, so all are written again. */
static void note_failed(struct rks_kept *kept, uint64_t tries) {
    kept->is_due = kept->has_failed = true;
    kept->tries = tries;
}

/* Of the thread that keeps manifests: the same as rks_keep_manifests does with one record. */
int rks_write_beside(struct rks_writing *w) {
    relkvanu_store *s = w->s;
    w->is_whole = rks_owner(s) == RELKVANU_STORAGE_OK && is_written(w) && fsync(s->storage.folder) == 0;
    w->is_fenced = rks_owner(s) == RELKVANU_STORAGE_OTHER_JOB;
    drop_all(s, w->ended, w->is_whole && !w->is_fenced ? w->ended_len : 0);
    count(s, w->is_whole, w->is_whole);
    return w->is_fenced ? RELKVANU_STORE_STORAGE : RELKVANU_STORE_OK;
}

/* Takes back what was given to the thread that keeps manifests, if that has ended it. Returns whether it found the place to be another's. */
static bool take_back(relkvanu_store *s) {
    struct rks_kept *kept = &s->kept;
    struct rks_writing *w = kept->beside;
    if (w == NULL || rks_is_keeping(s)) {
        return false;
    }
    bool is_fenced = w->is_fenced;
    kept->beside = NULL;
    if (!w->is_whole) {
        note_failed(kept, kept->is_due ? kept->tries : rks_clock_ns() + RETRY);
    }
    for (size_t at = 0; at < w->ended_len && !w->is_whole; at++) {
        (void)is_noted(kept, w->ended[at]); /* so that it is removed later. Without memory a sweep does it */
    }
    free_writing(w);
    return is_fenced;
}

/* The one record that has to be written; what is RELKVANU_LIVE_NONE if there is another number of them. */
static relkvanu_answer only_one(const relkvanu_store *s, uint64_t again) {
    relkvanu_answer one = {.what = RELKVANU_LIVE_NONE};
    size_t len = 0;
    for (relkvanu_answer it = relkvanu_live_from(s->handle, 0); it.what != RELKVANU_LIVE_NONE;
         it = relkvanu_live_from(s->handle, it.a + 1)) {
        bool is_one = has_to_be_written(&s->kept, it, again);
        one = is_one ? it : one;
        len += is_one;
    }
    return len == 1 ? one : (relkvanu_answer){.what = RELKVANU_LIVE_NONE};
}

/* Gives the record that was completed to the thread that keeps manifests. Otherwise nothing has changed, and the caller writes it. */
static bool goes_beside(relkvanu_store *s, uint64_t again) {
    struct rks_kept *kept = &s->kept;
    relkvanu_answer one = only_one(s, again);
    struct rks_writing *w = one.what == RELKVANU_LIVE_NONE ? NULL : new_writing(s, one);
    if (w == NULL) {
        return false;
    }
    w->ended = malloc((kept->len + 1) * sizeof *w->ended);
    if (w->ended == NULL || !rks_has_keeper(s) || !is_kept(kept, w)) {
        free_writing(w);
        return false;
    }
    w->ended_len = take_ended(s);
    memcpy(w->ended, kept->ids + kept->len, w->ended_len * sizeof *w->ended);
    kept->beside = w;
    rks_keep_beside(s, w);
    return true;
}

/* Writes what is due. The place is looked at once more afterwards: a fence that came meanwhile may have listed the manifests before. */
static int write_due(relkvanu_store *s, uint64_t again) {
    struct rks_kept *kept = &s->kept;
    uint64_t written = 0;
    bool is_whole = owner_of(s) == RELKVANU_STORAGE_OK && are_written(s, again, &written);
    bool is_fenced = owner_of(s) == RELKVANU_STORAGE_OTHER_JOB;
    kept->is_due = kept->has_failed = false;
    kept->tries = 0;
    if (is_whole && !is_fenced) {
        size_t ended = take_ended(s);
        drop_all(s, kept->ids + kept->len, ended);
    } else {
        note_failed(kept, rks_clock_ns() + RETRY);
    }
    count(s, written, is_whole);
    return is_fenced ? RELKVANU_STORE_STORAGE : RELKVANU_STORE_OK;
}

int rks_keep_manifests(relkvanu_store *s, bool others_go_on) {
    struct rks_kept *kept = &s->kept;
    int status = take_back(s) ? RELKVANU_STORE_STORAGE : RELKVANU_STORE_OK;
    bool is_now = kept->is_on && kept->is_due && (kept->tries == 0 || rks_clock_ns() >= kept->tries);
    if (status == RELKVANU_STORE_OK && is_now) {
        bool raised = is_raised(s), is_beside = others_go_on && !raised && !kept->is_more && !kept->has_failed && kept->place.put == NULL;
        uint64_t again = to_write_again(s, raised);
        kept->is_more = false;
        if (is_beside && goes_beside(s, again)) {
            kept->is_due = false;
        } else {
            status = write_due(s, again);
        }
    }
    if (status != RELKVANU_STORE_OK) {
        rks_say_fenced(s->fault);
    }
    return status;
}

void rks_end_manifests(relkvanu_store *s) {
    rks_end_keeper(s);
    take_back(s);
    free(s->kept.ids);
    rks_free_sums(&s->kept.sums);
}

void rks_note_manifest(relkvanu_store *s, relkvanu_answer answer) {
    struct rks_kept *kept = &s->kept;
    switch (answer.what) {
    case RELKVANU_TICK_TRIGGERED: kept->is_due = kept->is_due || answer.b >= kept->number; break;
    case RELKVANU_SAVEPOINT_TRIGGERED: kept->is_due = kept->is_due || answer.a >= kept->number; break;
    case RELKVANU_RESERVED: kept->is_due = kept->is_due || answer.a + answer.b > kept->name; break;
    case RELKVANU_ACK_COMPLETED:
        kept->is_due = true;
        kept->tries = 0;
        break;
    case RELKVANU_DISPOSED:
    case RELKVANU_RESTORED_CHECKPOINT:
    case RELKVANU_RESTORED_SAVEPOINT:
    case RELKVANU_RESTORED_FRESH:
    case RELKVANU_CANCELLED:
    case RELKVANU_NAMED:
    case RELKVANU_CONFIGURED:
        kept->is_due = kept->is_more = true;
        kept->tries = 0;
        kept->carrier = answer.what == RELKVANU_CONFIGURED ? 0 : kept->carrier; /* the choice says which settings the job has */
        break;
    default: break;
    }
}

/* Whether a record has a manifest from before. One that lacks checksums which it is to have is written anew. */
static bool is_found(const relkvanu_store *s, const struct rks_manifests *all, uint64_t id) {
    bool is_found = false;
    for (size_t i = 0; i < all->len && !is_found; i++) {
        const struct rks_manifest *it = &all->at[i];
        is_found = it->id == id && it->status == RELKVANU_STORE_OK && strcmp(it->job, s->job.identity) == 0 &&
                   (it->unknown == 0 || !s->kept.has_sums);
    }
    return is_found;
}

/* Notes which complete records have a manifest from before. */
static void note_found(relkvanu_store *s, const struct rks_manifests *all) {
    relkvanu_answer choice = relkvanu_choice(s->handle);
    for (relkvanu_answer it = relkvanu_live_from(s->handle, 0); it.what != RELKVANU_LIVE_NONE;
         it = relkvanu_live_from(s->handle, it.a + 1)) {
        bool is_choice = choice.what != RELKVANU_CHOICE_FRESH && choice.a == it.a;
        if (it.b != 0 && !is_choice && is_found(s, all, it.a)) {
            is_noted(&s->kept, it.a);
        }
    }
}

/* What is in the folder from before. Without it the files would get the lengths that they have now, so the opening fails. */
static int note_before(relkvanu_store *s) {
    struct rks_manifests all;
    int status = rks_list_manifests(s->storage.folder, &all);
    if (status == RELKVANU_STORE_OK) {
        status = rks_note_files(&all, s->storage.folder, s->job.identity, &s->kept.sums);
        note_found(s, &all);
    } else if (status != RELKVANU_STORE_NO_MEMORY) {
        status = rks_file_fault(s, "the manifests of the storage folder", errno);
    }
    rks_free_manifests(&all);
    return status;
}

/* The manifest of the choice is written again, with the number of this opening, and those that are missing. */
int rks_begin_manifests(relkvanu_store *s) {
    struct rks_kept *kept = &s->kept;
    kept->is_on = (s->options.flags & RELKVANU_STORE_MANIFESTS) != 0 && s->storage.folder >= 0;
    kept->has_sums = kept->is_on && (s->options.flags & RELKVANU_STORE_CHECKSUMS) != 0;
    kept->is_due = true;
    int status = kept->is_on ? note_before(s) : RELKVANU_STORE_OK;
    return status == RELKVANU_STORE_OK ? rks_keep_manifests(s, false) : status;
}

/* The manifests that a folder has, or another place. */
struct listed {
    uint64_t *ids;
    size_t len, room;
    bool lacks_memory;
};

/* Notes a name, if it is that of a manifest, also in part, or of a mark. Returns false without memory. */
static bool note_name(void *with, const char *name) {
    struct listed *listed = with;
    uint64_t id;
    bool is_manifest = rks_manifest_names(name, &id) != NULL;
    listed->lacks_memory = is_manifest && !rks_grow(&listed->ids, &listed->room, listed->len + 1, sizeof *listed->ids);
    if (is_manifest && !listed->lacks_memory) {
        listed->ids[listed->len++] = id;
    }
    return !listed->lacks_memory;
}

static int note_entry(void *with, const struct dirent *entry) {
    return note_name(with, entry->d_name) ? RELKVANU_STORE_OK : RELKVANU_STORE_NO_MEMORY;
}

static bool is_gone(const relkvanu_store *s, uint64_t id, const char *end) {
    char name[RKS_MANIFEST_NAME];
    rks_manifest_name(id, end, name);
    return unlinkat(s->storage.folder, name, 0) == 0 || errno == ENOENT;
}

/* Deletes the manifest of a record unless it is complete, and what is there of it in part: while this thread leads nobody writes one. A mark goes too: this job
 * was made of another record since. */
static void sweep_one(relkvanu_store *s, uint64_t id, size_t *left) {
    bool is_swept = is_gone(s, id, RKS_PART) && is_gone(s, id, RKS_CLAIMED);
    if (!s->kept.is_on || !is_done(s, id)) {
        is_swept = is_gone(s, id, "") && is_swept;
    }
    *left += !is_swept;
}

int rks_sweep_manifests(relkvanu_store *s, size_t *left) {
    struct listed listed = {0};
    relkvanu *handle;
    int status = rks_each_entry(s->storage.folder, note_entry, &listed);
    status = status < 0 ? RELKVANU_STORE_NOT_DONE : status;
    if (status == RELKVANU_STORE_OK && listed.len != 0 && (status = relkvanu_store_read(s, &handle)) == RELKVANU_STORE_OK) {
        bool is_owner = rks_owner(s) == RELKVANU_STORAGE_OK;
        for (size_t at = 0; at < listed.len && is_owner; at++) {
            sweep_one(s, listed.ids[at], left);
        }
        relkvanu_store_read_end(s);
        status = is_owner ? RELKVANU_STORE_OK : RELKVANU_STORE_STORAGE;
    }
    free(listed.ids);
    return status;
}

/* Writes those of all complete records anew, and removes what records that ended or were claimed have left there. */
static int begin_elsewhere(relkvanu_store *s) {
    struct rks_kept *kept = &s->kept;
    struct listed listed = {0};
    int told = kept->place.list(kept->place.with, note_name, &listed);
    int status = listed.lacks_memory ? RELKVANU_STORE_NO_MEMORY : told == RELKVANU_STORAGE_OK ? RELKVANU_STORE_OK : RELKVANU_STORE_STORAGE;
    if (status == RELKVANU_STORE_OK) {
        kept->is_on = kept->is_due = true;
        (void)rks_keep_manifests(s, false);
        status = kept->is_due ? RELKVANU_STORE_STORAGE : status;
    }
    for (size_t at = 0; status == RELKVANU_STORE_OK && at < listed.len; at++) {
        drop_one(s, listed.ids[at], RKS_CLAIMED);
        if (!is_done(s, listed.ids[at])) {
            drop_one(s, listed.ids[at], "");
        }
    }
    free(listed.ids);
    return status;
}

int relkvanu_store_keep_manifests(relkvanu_store *s, relkvanu_store_check_place check, relkvanu_store_put_named put,
    relkvanu_store_remove_named remove, relkvanu_store_list_named names, void *with) {
    relkvanu *handle;
    if (check == NULL || put == NULL || remove == NULL || names == NULL) {
        return RELKVANU_STORE_BAD_ARGUMENT;
    }
    int status = relkvanu_store_read(s, &handle);
    if (status != RELKVANU_STORE_OK) {
        return status;
    }
    if (s->storage.folder >= 0 || s->kept.is_on) {
        status = RELKVANU_STORE_BAD_ARGUMENT;
    } else {
        s->kept.place = (struct rks_place){.check = check, .put = put, .remove = remove, .list = names, .with = with};
        status = check(with) == RELKVANU_STORAGE_OK ? begin_elsewhere(s) : RELKVANU_STORE_STORAGE;
        s->kept.is_on = status == RELKVANU_STORE_OK;
        s->kept.place.put = s->kept.is_on ? put : NULL;
    }
    relkvanu_store_read_end(s);
    return status;
}
