/* A complete record as a whole: its shape, and for each subtask its files, in their order, and what its acknowledgement had beside them. */
#include "../files/files.h"
#include "../log/log.h"
#include "../manifests/known_files.h"
#include "../manifests/manifest.h"
#include "../manifests/manifests.h"
#include "../store.h"
#include "job.h"

#include <errno.h>
#include <inttypes.h>
#include <stdio.h>
#include <stdlib.h>
#include <string.h>

static const uint64_t UNKNOWN = UINT64_MAX;

/* The files of a subtask: places in a list. */
struct place {
    uint16_t vertex, index;
    size_t begins, len;
};

struct loading {
    relkvanu_store *s;
    relkvanu_store_loaded *loaded;
    struct rks_lost lost;
    struct rks_parts parts;
    uint64_t *files, *lengths; /* lengths: that the manifests say, or UNKNOWN */
    size_t files_len, files_room, lengths_room;
    struct place *places;
    size_t places_len, places_room;
};

int rks_subtasks_of(relkvanu *handle, uint64_t id, rks_each_subtask each, void *with) {
    uint64_t files[RKS_MOST_FILES];
    uint16_t vertex = 0, index = 0;
    int status = RELKVANU_STORE_OK;
    while (status == RELKVANU_STORE_OK && vertex < RKS_VERTICES) {
        relkvanu_answer found = relkvanu_files_of(handle, id, vertex, index, files, RKS_MOST_FILES);
        bool is_there = found.code == RELKVANU_DONE && found.what == RELKVANU_FILES;
        if (!is_there && index == 0) {
            break; /* the vertex before was the last one */
        }
        status = is_there ? each(with, vertex, index, files, found.a) : status;
        vertex = (uint16_t)(vertex + !is_there);
        index = is_there ? (uint16_t)(index + 1) : 0;
    }
    return status;
}

/* Notes the files of a subtask. */
static int read_subtask(void *with, uint16_t vertex, uint16_t index, const uint64_t *names, size_t len) {
    struct loading *l = with;
    if (!rks_grow(&l->files, &l->files_room, l->files_len + len, sizeof *l->files) ||
        !rks_grow(&l->lengths, &l->lengths_room, l->files_len + len, sizeof *l->lengths) ||
        !rks_grow(&l->places, &l->places_room, l->places_len + 1, sizeof *l->places)) {
        return RELKVANU_STORE_NO_MEMORY;
    }
    const struct rks_subtask *part = rks_part_of(&l->parts, vertex, index);
    bool has_order = part != NULL && part->files_len == len && len != 0;
    l->places[l->places_len++] = (struct place){vertex, index, l->files_len, len};
    for (size_t i = 0; i < len; i++, l->files_len++) {
        uint64_t file = has_order ? part->files[i] : names[i], *length = &l->lengths[l->files_len];
        l->files[l->files_len] = file;
        *length = rks_find_length(&l->s->kept.sums, file, length) ? *length : UNKNOWN;
    }
    l->loaded->shape[vertex] = index + UINT64_C(1);
    l->loaded->shape_len = vertex + (size_t)1;
    return RELKVANU_STORE_OK;
}

/* Of the thread that leads. */
static int read_record(struct loading *l, uint64_t id) {
    relkvanu_store *s = l->s;
    relkvanu_answer choice = relkvanu_choice(s->handle), term = relkvanu_term(s->handle);
    l->loaded->term = term.code == RELKVANU_DONE ? term.a : 0;
    if (id == 0 && choice.what == RELKVANU_CHOICE_FRESH) {
        return RELKVANU_STORE_OK;
    }
    const struct rks_live *live = rks_live_of(s, id == 0 ? choice.a : id);
    if (live == NULL || !live->is_done) {
        return RELKVANU_STORE_ABSENT;
    }
    l->loaded->id = live->id;
    l->loaded->kind = live->kind;
    int status = rks_read_parts(s, live->id, &l->parts);
    return status == RELKVANU_STORE_OK ? rks_subtasks_of(s->handle, live->id, read_subtask, l) : status;
}

static int read_whole(struct loading *l, uint64_t id) {
    relkvanu *handle;
    int status = relkvanu_store_read(l->s, &handle);
    if (status == RELKVANU_STORE_OK) {
        status = read_record(l, id);
        relkvanu_store_read_end(l->s);
    }
    return status;
}

/* Whether the record is still there: otherwise its files may go. */
static int check_live(struct loading *l, int status) {
    relkvanu *handle;
    int read = relkvanu_store_read(l->s, &handle);
    if (read == RELKVANU_STORE_OK) {
        status = rks_live_of(l->s, l->loaded->id) == NULL ? RELKVANU_STORE_ABSENT : status;
        relkvanu_store_read_end(l->s);
    }
    return read == RELKVANU_STORE_OK ? status : read;
}

/* Looks for all files, and whether each is as long as the manifests say. */
static int look(struct loading *l) {
    l->lost = (struct rks_lost){.record = l->loaded->id};
    for (size_t i = 0; i < l->files_len && l->s->storage.folder >= 0; i++) {
        struct stat found = {0};
        bool is_found = rks_find_file(l->s->storage.folder, l->files[i], &found);
        if (!is_found && errno != ENOENT) {
            l->lost.error = errno;
            return RELKVANU_STORE_NOT_DONE;
        }
        bool is_file = is_found && S_ISREG(found.st_mode);
        if (!is_file || (l->lengths[i] != UNKNOWN && (uint64_t)found.st_size != l->lengths[i])) {
            l->lost.file = l->files[i];
            l->lost.is_there = is_file;
            l->lost.bytes = (uint64_t)found.st_size;
            l->lost.wanted = l->lengths[i];
            return RELKVANU_STORE_FILE_LOST;
        }
    }
    return RELKVANU_STORE_OK;
}

static void tell(const struct loading *l, relkvanu_store_each_part each, void *with) {
    bool goes_on = each != NULL;
    for (size_t i = 0; i < l->places_len && goes_on; i++) {
        const struct place *at = &l->places[i];
        const struct rks_subtask *part = rks_part_of(&l->parts, at->vertex, at->index);
        relkvanu_store_part told = {.vertex = at->vertex, .index = at->index, .files = l->files + at->begins, .files_len = at->len};
        if (part != NULL) {
            told.payload = part->payload;
            told.payload_len = part->payload_len;
            told.bytes = part->bytes;
            told.millis = part->millis;
        }
        goes_on = each(with, &told);
    }
}

void rks_say_lost(int status, const struct rks_lost *lost) {
    char words[RKS_MESSAGE] = "";
    if (status == RELKVANU_STORE_FILE_LOST && lost->is_there) {
        snprintf(words, sizeof words, "file %" PRIu64 " of record %" PRIu64 " has %" PRIu64 " bytes, and its manifest says %" PRIu64,
            lost->file, lost->record, lost->bytes, lost->wanted);
    } else if (status == RELKVANU_STORE_FILE_LOST) {
        snprintf(words, sizeof words, "file %" PRIu64 " of record %" PRIu64 " is missing", lost->file, lost->record);
    } else if (status == RELKVANU_STORE_DAMAGED) {
        snprintf(words, sizeof words, "what record %" PRIu64 " has beside its files is damaged: its checksum is another one", lost->record);
    } else if (status == RELKVANU_STORE_NOT_DONE) {
        snprintf(words, sizeof words, "the files of record %" PRIu64 ": %s", lost->record, strerror(lost->error));
    }
    rks_why_words(words);
    errno = status == RELKVANU_STORE_NOT_DONE ? lost->error : errno;
}

static void release(struct loading *l) {
    rks_free_parts(&l->parts);
    free(l->files);
    free(l->lengths);
    free(l->places);
}

int rks_look_for(relkvanu_store *s, uint64_t id, struct rks_lost *lost) {
    relkvanu_store_loaded loaded = {0};
    struct loading l = {.s = s, .loaded = &loaded};
    rks_await_keeper(s); /* it notes lengths */
    rks_await_rows(s);
    int status = read_record(&l, id);
    l.lost.record = id;
    status = status == RELKVANU_STORE_OK && !s->storage.is_stand_in ? look(&l) : status;
    *lost = l.lost;
    release(&l);
    return status;
}

int relkvanu_store_load(relkvanu_store *s, uint64_t id, relkvanu_store_loaded *loaded, relkvanu_store_each_part each, void *with) {
    struct loading l = {.s = s, .loaded = loaded};
    *loaded = (relkvanu_store_loaded){0};
    int status = read_whole(&l, id);
    l.lost.record = loaded->id;
    if (status == RELKVANU_STORE_OK && (status = look(&l)) != RELKVANU_STORE_OK) { /* without the lead */
        loaded->lost = l.lost.file;
        status = check_live(&l, status);
    }
    if (status == RELKVANU_STORE_OK) {
        tell(&l, each, with);
    }
    release(&l);
    rks_say_lost(status, &l.lost);
    return status;
}
