/* Makes a job whose file was lost from the manifests in its storage folder: a log of ordinary calls in a new file, which then gets the job's name.
 *
 * The file is made without names, so that its first acknowledgements may name the files that are there by the numbers that they have. Then it gets
 * names, and an advance passes over all that the old job told anybody (docs/DECISIONS.md). */
#include "../files/files.h"
#include "../job/job.h"
#include "../log/log.h"
#include "../manifests/manifest.h"
#include "../manifests/manifests.h"
#include "../store.h"
#include "commands.h"

#include <errno.h>
#include <fcntl.h>
#include <inttypes.h>
#include <stdio.h>
#include <stdlib.h>
#include <string.h>
#include <unistd.h>

enum { LIST = 4096, LIST_FILES = 65536 }; /* calls, and files, of a list */

/* Numbers that may be told before a manifest says so again; numbers that a recovery passes at most for a manifest that can't be read. */
enum { SOME_NUMBERS = 1024, MOST_PASSED = 1 << 20 };

/* The acknowledgement of a subtask: its files that no record has had, and the others; all of them in their order; its payload; and what its task told of
 * its snapshot. */
struct ack {
    uint16_t vertex, index;
    size_t first, first_len, second, second_len, all, all_len, payload, payload_len;
    uint64_t bytes, millis;
};

struct numbers {
    uint64_t *at;
    size_t len, room;
};

struct recovery {
    relkvanu_store *old; /* holds the lock, the folder and what went wrong; it is not opened */
    relkvanu_store *job; /* the new one */
    char *path;          /* its file */
    struct rks_manifests all;
    struct rks_below below;
    uint64_t epoch;
    uint64_t unread;   /* the greatest number of a manifest that can't be read; 0: none */
    bool is_elsewhere; /* the storage: the folder only says what is in it */
    bool is_locked;    /* the folder, by the caller */
    void *known;       /* the files that its records have: a tree of search.h */
    struct numbers fresh, reused, ordered;
    struct rks_text payloads;
    struct ack *acks;
    size_t acks_len, acks_room;
    relkvanu_store_recovered *told;
};

static int append(struct numbers *to, uint64_t number) {
    if (!rks_grow(&to->at, &to->room, to->len + 1, sizeof *to->at)) {
        return RELKVANU_STORE_NO_MEMORY;
    }
    to->at[to->len++] = number;
    return RELKVANU_STORE_OK;
}

/* The acknowledgement that the part belongs to. NULL: no memory. */
static struct ack *ack_of(struct recovery *r, const struct rks_part *part) {
    struct ack *last = r->acks_len == 0 ? NULL : &r->acks[r->acks_len - 1];
    if (last != NULL && last->vertex == part->vertex && last->index == part->index) {
        return last;
    }
    if (!rks_grow(&r->acks, &r->acks_room, r->acks_len + 1, sizeof *r->acks)) {
        return NULL;
    }
    last = &r->acks[r->acks_len++];
    *last = (struct ack){.vertex = part->vertex,
        .index = part->index,
        .first = r->fresh.len,
        .second = r->reused.len,
        .all = r->ordered.len,
        .payload = r->payloads.len,
        .bytes = part->told_bytes,
        .millis = part->told_millis};
    return last;
}

static int digit(char of) {
    return of >= '0' && of <= '9' ? of - '0' : of >= 'a' && of <= 'f' ? of - 'a' + 10 : -1;
}

/* The payload of a subtask, at its first part. */
static int note_payload(struct recovery *r, struct ack *ack, const char *text) {
    size_t len = text == NULL || ack->payload_len != 0 ? 0 : strlen(text);
    if (len % 2 != 0 || len > 2 * RELKVANU_STORE_MOST_PAYLOAD) {
        return RELKVANU_STORE_DAMAGED;
    }
    if (!rks_room(&r->payloads, len / 2 + 1)) {
        return RELKVANU_STORE_NO_MEMORY;
    }
    for (size_t i = 0; i < len; i += 2) {
        int high = digit(text[i]), low = digit(text[i + 1]);
        if (high < 0 || low < 0) {
            return RELKVANU_STORE_DAMAGED;
        }
        r->payloads.at[r->payloads.len++] = (uint8_t)(high << 4 | low);
    }
    ack->payload_len += len / 2;
    return RELKVANU_STORE_OK;
}

static int note_part(void *with, const struct rks_part *part) {
    struct recovery *r = with;
    struct ack *ack = ack_of(r, part);
    int status = ack == NULL ? RELKVANU_STORE_NO_MEMORY : note_payload(r, ack, part->payload);
    if (status != RELKVANU_STORE_OK || !part->is_file) {
        return status;
    }
    bool is_new = !rks_has(&r->known, part->file);
    status = is_new && !rks_add(&r->known, part->file) ? RELKVANU_STORE_NO_MEMORY : status;
    status = status == RELKVANU_STORE_OK ? append(is_new ? &r->fresh : &r->reused, part->file) : status;
    status = status == RELKVANU_STORE_OK ? append(&r->ordered, part->file) : status;
    ack->all_len += status == RELKVANU_STORE_OK;
    ack->first_len += status == RELKVANU_STORE_OK && is_new;
    ack->second_len += status == RELKVANU_STORE_OK && !is_new;
    return status;
}

/* Makes calls of which none may be refused. The last answer is in the last one. */
static int make(struct recovery *r, relkvanu_store_call *calls, size_t len) {
    int status = len == 0 ? RELKVANU_STORE_OK : relkvanu_store_calls(r->job, calls, len);
    for (size_t i = 0; i < len && status == RELKVANU_STORE_OK; i++) {
        uint32_t code = calls[i].answer.code;
        char text[RELKVANU_ANSWER_TEXT + 1] = "", words[RELKVANU_ANSWER_TEXT + 100];
        if (code != RELKVANU_DONE) {
            relkvanu_answer_text(&calls[i].answer, (uint8_t *)text, RELKVANU_ANSWER_TEXT);
            snprintf(words, sizeof words, "a manifest is not that of a record: %s", text);
            status =
                code == RELKVANU_NO_MEMORY ? RELKVANU_STORE_NO_MEMORY : rks_say(r->old, RELKVANU_STORE_DAMAGED, r->old->file.path, words);
        }
    }
    if (status >= RELKVANU_STORE_FAILED && status <= RELKVANU_STORE_OUT_OF_MEMORY) {
        relkvanu_store_message(r->job, r->old->fault, sizeof r->old->fault);
    }
    return status;
}

static int make_one(struct recovery *r, relkvanu_call call, const struct rks_manifest *shape, relkvanu_answer *answer) {
    relkvanu_store_call made = {.call = call};
    if (shape != NULL) {
        made.first = shape->shape;
        made.first_len = shape->shape_len;
    }
    int status = make(r, &made, 1);
    *answer = made.answer;
    return status;
}

/* The acknowledgements that were noted, some at a time. */
static int acknowledge(struct recovery *r, uint64_t id) {
    int status = RELKVANU_STORE_OK;
    relkvanu_store_call *calls = calloc(LIST, sizeof *calls);
    for (size_t at = 0; at < r->acks_len && calls != NULL && status == RELKVANU_STORE_OK;) {
        size_t len = 0, files = 0;
        while (at < r->acks_len && len < LIST && files < LIST_FILES) {
            const struct ack *it = &r->acks[at++];
            relkvanu_call call = {.kind = RELKVANU_CALL_ACK, .vertex = it->vertex, .index = it->index, .number = id};
            calls[len++] = (relkvanu_store_call){.call = call,
                .first = r->fresh.at + it->first,
                .first_len = it->first_len,
                .second = r->reused.at + it->second,
                .second_len = it->second_len};
            files += it->first_len + it->second_len;
        }
        status = make(r, calls, len);
    }
    free(calls);
    return calls == NULL ? RELKVANU_STORE_NO_MEMORY : status;
}

/* What the acknowledgements have beside their files. */
static int carry_parts(struct recovery *r, uint64_t id) {
    struct rks_text text = {0};
    bool has_all = true;
    for (size_t at = 0; at < r->acks_len && has_all; at++) {
        const struct ack *it = &r->acks[at];
        const uint64_t *files = r->ordered.at + it->all;
        const struct rks_subtask part = {
            it->vertex, it->index, files, it->all_len, r->payloads.at + it->payload, it->payload_len, it->bytes, it->millis};
        has_all = rks_add_part(&text, &part);
    }
    int status = has_all ? rks_carry_parts(r->job, id, &text) : RELKVANU_STORE_NO_MEMORY;
    free(text.at);
    return status;
}

/* The subtasks of a record acknowledge one that was triggered. */
static int complete(struct recovery *r, const struct rks_manifest *m, uint64_t id) {
    r->fresh.len = r->reused.len = r->ordered.len = r->payloads.len = r->acks_len = 0;
    int status = rks_manifest_parts(&r->all, r->old->storage.folder, m->id, note_part, r);
    status = status == RELKVANU_STORE_DAMAGED ? rks_say(r->old, status, r->old->file.path, "a manifest has changed meanwhile") : status;
    status = status == RELKVANU_STORE_OK ? acknowledge(r, id) : status;
    if (status == RELKVANU_STORE_OK && relkvanu_standing(r->job->handle, id).what != RELKVANU_STANDS_DONE) {
        status = rks_say(r->old, RELKVANU_STORE_DAMAGED, r->old->file.path, "a manifest lacks a subtask of its shape");
    }
    return status == RELKVANU_STORE_OK ? carry_parts(r, id) : status;
}

/* Uses up the numbers that somebody was told. While the choice is pending there is nothing that a savepoint could pin. */
static int pass_numbers(struct recovery *r, uint64_t next) {
    int status = RELKVANU_STORE_OK;
    relkvanu_store_call *calls = calloc(LIST, sizeof *calls);
    while (next < r->below.number && calls != NULL && status == RELKVANU_STORE_OK) {
        size_t len = 0;
        for (; len + 1 < LIST && next < r->below.number; next++) {
            calls[len++] = (relkvanu_store_call){.call = {.kind = RELKVANU_CALL_SAVEPOINT}};
            calls[len++] = (relkvanu_store_call){.call = {.kind = RELKVANU_CALL_DECLINE, .number = next}};
        }
        status = make(r, calls, len);
    }
    free(calls);
    return calls == NULL ? RELKVANU_STORE_NO_MEMORY : status;
}

/* The choice, under its own number, which is the first one of the new job. */
static int make_choice(struct recovery *r, const struct rks_manifest *m) {
    relkvanu_answer answer;
    uint32_t kind = m->is_savepoint ? RELKVANU_CALL_SAVEPOINT : RELKVANU_CALL_TRIGGER;
    int status = make_one(r, (relkvanu_call){.kind = kind}, NULL, &answer);
    status = status == RELKVANU_STORE_OK ? pass_numbers(r, m->id + 1) : status;
    status = status == RELKVANU_STORE_OK ? complete(r, m, m->id) : status;
    if (status == RELKVANU_STORE_OK && m->is_savepoint) {
        status = make_one(r, (relkvanu_call){.kind = RELKVANU_CALL_RESTORE, .number = m->id}, NULL, &answer);
    }
    return status;
}

/* Another savepoint lives on. It gets its own shape, and the job then that of the choice again. */
static int keep_savepoint(struct recovery *r, const struct rks_manifest *m) {
    relkvanu_answer answer;
    int status = make_one(r, (relkvanu_call){.kind = RELKVANU_CALL_RESTORE}, m, &answer);
    status = status == RELKVANU_STORE_OK ? make_one(r, (relkvanu_call){.kind = RELKVANU_CALL_SAVEPOINT}, NULL, &answer) : status;
    status = status == RELKVANU_STORE_OK ? complete(r, m, answer.a) : status;
    r->told->savepoints += status == RELKVANU_STORE_OK;
    return status;
}

static int keep_savepoints(struct recovery *r, const struct rks_manifest *choice) {
    relkvanu_answer answer;
    int status = RELKVANU_STORE_OK;
    for (size_t i = 0; i < r->all.len && status == RELKVANU_STORE_OK; i++) {
        const struct rks_manifest *it = &r->all.at[i];
        bool is_whole = it->status == RELKVANU_STORE_OK && it->missing == 0 && strcmp(it->job, choice->job) == 0;
        if (it != choice && it->is_savepoint && is_whole) {
            status = keep_savepoint(r, it);
        }
    }
    if (status == RELKVANU_STORE_OK && r->told->savepoints != 0) {
        status = make_one(r, (relkvanu_call){.kind = RELKVANU_CALL_RESTORE}, choice, &answer);
    }
    return status;
}

/* Names, in a term above each that a task was told, and above each name that was given out. A file with a greater number is none of the job's, so
 * it is not looked at: no sweep deletes it. */
static int pass_names(struct recovery *r) {
    relkvanu_answer answer;
    if (r->below.name > RKS_MOST_NAME) {
        return rks_say(r->old, RELKVANU_STORE_STORAGE, r->old->file.path, "its names are used up");
    }
    relkvanu_call advance = {.kind = RELKVANU_CALL_ADVANCE, .term = r->below.term, .number = r->below.name};
    int status = make_one(r, (relkvanu_call){.kind = RELKVANU_CALL_FENCE, .number = r->below.name}, NULL, &answer);
    return status == RELKVANU_STORE_OK ? make_one(r, advance, NULL, &answer) : status;
}

/* Closes the new job, and looks whether its file has all. */
static int close_job(struct recovery *r) {
    relkvanu_answer term = relkvanu_term(r->job->handle);
    r->told->term = term.a;
    r->told->next_name = term.b;
    relkvanu_store_close(r->job);
    r->job = NULL;
    return rks_check_closed(r->old, r->path);
}

/* Writes the calls of the new job into its file. */
static int write_job(struct recovery *r, const struct rks_manifest *choice) {
    struct rks_birth birth = {.first = choice->id, .epoch = r->epoch, .is_elsewhere = r->is_elsewhere};
    relkvanu_store_report report;
    relkvanu_store_options options = {
        .flags = RELKVANU_STORE_CREATE_ONLY, .settings = choice->settings, .shape = choice->shape, .shape_len = choice->shape_len};
    memcpy(birth.identity, choice->job, sizeof birth.identity);
    int status = rks_open(&r->job, r->path, &options, &report, &birth);
    if (status != RELKVANU_STORE_OK) {
        memcpy(r->old->fault, report.message, sizeof r->old->fault);
        return status;
    }
    status = make_choice(r, choice);
    status = status == RELKVANU_STORE_OK ? rks_write_origin(r->job, choice->id, choice->origin) : status;
    status = status == RELKVANU_STORE_OK ? keep_savepoints(r, choice) : status;
    status = status == RELKVANU_STORE_OK ? pass_names(r) : status;
    if (status == RELKVANU_STORE_OK) {
        return close_job(r);
    }
    relkvanu_store_close(r->job);
    return status;
}

static int sync_file(struct recovery *r) {
    int file = open(r->path, O_RDWR | O_CLOEXEC);
    int status = file >= 0 && fsync(file) == 0 ? RELKVANU_STORE_OK : rks_file_fault(r->old, r->path, errno);
    rks_close(file);
    return status;
}

static const char FOLDER[] = "the storage folder";

/* Locks the folder, and reads which opening its marker names now. */
static int lock_marker(struct recovery *r, uint64_t *marked) {
    int status = r->is_locked ? RELKVANU_STORE_OK : rks_lock_folder(r->old, FOLDER);
    return status == RELKVANU_STORE_OK ? rks_read_marker(r->old, FOLDER, marked) : status;
}

static void unlock_marker(struct recovery *r) {
    if (!r->is_locked) {
        rks_unlock_folder(r->old);
    }
}

/* A folder that is full is marked by the next opening. */
static int mark(struct recovery *r) {
    int status = rks_write_marker(r->old, FOLDER, r->epoch);
    return status == RELKVANU_STORE_FULL ? RELKVANU_STORE_OK : status;
}

/* Gives the new file its name, which is when the job is there, and marks the folder: an old file is refused from now on. */
static int name_job(struct recovery *r) {
    int status = sync_file(r);
    status = status == RELKVANU_STORE_OK ? rks_remove_job(r->old, r->path, false) : status;
    status = status == RELKVANU_STORE_OK ? rks_drop_tail(r->old) : status;
    /* no file beside the new one comes back where a loss of power keeps its new name: nobody would look for it */
    status = status == RELKVANU_STORE_OK ? rks_name_job(r->old, r->path) : status;
    return status == RELKVANU_STORE_OK ? mark(r) : status;
}

/* The same, unless another recovery or a claim has fenced the folder since this one did: then the records are that one's. */
static int name_job_if_last(struct recovery *r) {
    uint64_t marked = 0;
    int status = lock_marker(r, &marked);
    if (status == RELKVANU_STORE_OK && marked > r->epoch) {
        status = rks_say(
            r->old, RELKVANU_STORE_STORAGE, r->old->file.path, "another recovery or a claim has taken the storage folder meanwhile");
    }
    status = status == RELKVANU_STORE_OK ? name_job(r) : status;
    unlock_marker(r);
    return status;
}

static uint64_t greater(uint64_t a, uint64_t b) {
    return a > b ? a : b;
}

/* Whether a manifest or a mark is of the job. Then it says what somebody was told. */
static bool is_gathered(struct recovery *r, const struct rks_manifest *it) {
    bool is_of_job = it->status == RELKVANU_STORE_OK && strcmp(it->job, r->old->job.identity) == 0;
    if (is_of_job) {
        r->below.number = greater(r->below.number, it->below.number);
        r->below.term = greater(r->below.term, it->below.term);
        r->below.name = greater(r->below.name, it->below.name);
        r->epoch = greater(r->epoch, it->epoch);
    }
    return is_of_job;
}

/* What the manifests and the marks of the job say that somebody was told. A manifest that can't be read may be the job's, and then its number was told. */
static void gather(struct recovery *r) {
    r->told->passed = r->unread = 0;
    for (size_t i = 0; i < r->all.len; i++) {
        const struct rks_manifest *it = &r->all.at[i];
        if (is_gathered(r, it)) {
            r->told->passed += it->missing != 0;
        } else if (it->status != RELKVANU_STORE_OK) {
            r->unread = greater(r->unread, it->id);
            r->told->passed++;
        }
    }
    for (size_t i = 0; i < r->all.marks_len; i++) {
        is_gathered(r, &r->all.marks[i]);
    }
}

/* A manifest that can't be read says neither which record was the choice, nor which terms and names were told after that. So nobody but who gives the
 * number of a record passes over one that is later than the choice. */
static int check_unread(struct recovery *r, const struct rks_manifest *choice, uint64_t record) {
    char words[200];
    if (r->unread <= choice->id) {
        return RELKVANU_STORE_OK;
    }
    bool is_far = r->unread > greater(r->below.number, choice->id) + MOST_PASSED;
    snprintf(words, sizeof words, "record-%" PRIu64 ".manifest is damaged or of another version: %s", r->unread,
        is_far ? "its number is far above the others, so move it away if it is none of the job's"
               : "give the number of a record to go on from an earlier one");
    if (is_far || record == 0) {
        return rks_say(r->old, RELKVANU_STORE_DAMAGED, r->old->file.path, words);
    }
    r->below.number = greater(r->below.number, r->unread + 1 + SOME_NUMBERS);
    return RELKVANU_STORE_OK;
}

/* Lists the manifests, and chooses the record. */
static int choose(struct recovery *r, uint64_t record, struct rks_manifest **choice) {
    rks_free_manifests(&r->all);
    int status = rks_list_manifests(r->old->storage.folder, &r->all);
    if (status != RELKVANU_STORE_OK) {
        return status == RELKVANU_STORE_NO_MEMORY ? status : rks_file_fault(r->old, "the storage folder", errno);
    }
    gather(r);
    *choice = rks_choose_manifest(&r->all, r->old->job.identity, record);
    if (*choice == NULL) {
        char words[200];
        rks_say_none(&r->all, r->old->job.identity, record, words, sizeof words);
        return rks_say(r->old, RELKVANU_STORE_ABSENT, r->old->file.path, words);
    }
    return check_unread(r, *choice, record);
}

/* A process that was told to end may not have ended: it puts and deletes nothing more before the record is chosen for good. */
static int fence(struct recovery *r) {
    uint64_t marked = 0;
    int status = lock_marker(r, &marked);
    r->epoch = greater(r->epoch, marked) + RKS_UNMARKED;
    status = status == RELKVANU_STORE_OK ? mark(r) : status;
    unlock_marker(r);
    return status;
}

static int recover(struct recovery *r, uint64_t record) {
    struct rks_manifest *choice = NULL;
    int status = choose(r, record, &choice);
    status = status == RELKVANU_STORE_OK ? fence(r) : status;
    status = status == RELKVANU_STORE_OK ? choose(r, record, &choice) : status;
    if (status != RELKVANU_STORE_OK) {
        return status;
    }
    rks_tell_taken(choice, r->below.number, r->told);
    status = rks_remove_job(r->old, r->path, true); /* what an earlier recovery has left */
    status = status == RELKVANU_STORE_OK ? write_job(r, choice) : status;
    return status == RELKVANU_STORE_OK ? name_job_if_last(r) : status;
}

/* The job's identity and its last opening, as the marker says them. */
static int read_owner(struct recovery *r, const char *folder) {
    relkvanu_store *old = r->old;
    int status = rks_open_folder(old, folder);
    return status == RELKVANU_STORE_OK ? rks_read_owner(old, folder, &r->epoch) : status;
}

/* Whether there is no job at the path, nor what one has left. */
static int check_absent(struct recovery *r) {
    struct stat found;
    if (stat(r->old->file.path, &found) == 0 && found.st_size != 0) {
        return rks_say(r->old, RELKVANU_STORE_PRESENT, r->old->file.path, "there is a job");
    }
    if (stat(r->old->file.wal, &found) == 0 && found.st_size != 0) {
        return rks_say(r->old, RELKVANU_STORE_PRESENT, r->old->file.path,
            "its -wal is there, which has calls that this file would lack. Move it away if the file is lost");
    }
    return RELKVANU_STORE_OK;
}

int rks_check_free(const char *path, char message[RKS_MESSAGE]) {
    struct recovery r = {0};
    int status = rks_new_store(&r.old, message);
    if (status != RELKVANU_STORE_OK) {
        return status;
    }
    status = rks_lock(r.old, path);
    status = status == RELKVANU_STORE_OK ? check_absent(&r) : status;
    memcpy(message, r.old->fault, sizeof r.old->fault);
    rks_release_store(r.old);
    return status;
}

static int recover_at(struct recovery *r, const char *path, const char *folder, uint64_t record) {
    int status = rks_lock(r->old, path);
    status = status == RELKVANU_STORE_OK ? check_absent(r) : status;
    status = status == RELKVANU_STORE_OK ? read_owner(r, folder) : status;
    if (status == RELKVANU_STORE_OK && (r->path = rks_scratch_name(r->old->file.path, "")) == NULL) {
        status = RELKVANU_STORE_NO_MEMORY;
    }
    status = status == RELKVANU_STORE_OK ? recover(r, record) : status;
    if (r->path != NULL) {
        char fault[RKS_MESSAGE];
        int error = errno;
        memcpy(fault, r->old->fault, sizeof fault);
        rks_remove_job(r->old, r->path, true);
        memcpy(r->old->fault, fault, sizeof fault);
        errno = error;
    }
    return status;
}

static int recover_job(struct recovery r, const char *path, const char *folder, uint64_t record) {
    *r.told = (relkvanu_store_recovered){0};
    int status = rks_new_store(&r.old, r.told->message);
    if (status != RELKVANU_STORE_OK) {
        return status;
    }
    status = recover_at(&r, path, folder, record);
    if (status != RELKVANU_STORE_OK) {
        *r.told = (relkvanu_store_recovered){0};
        memcpy(r.told->message, r.old->fault, sizeof r.told->message);
    }
    rks_free_manifests(&r.all);
    rks_free_set(r.known);
    free(r.fresh.at);
    free(r.reused.at);
    free(r.ordered.at);
    free(r.payloads.at);
    free(r.acks);
    free(r.path);
    rks_release_store(r.old);
    return status;
}

int relkvanu_store_recover(const char *path, const char *folder, uint64_t record, relkvanu_store_recovered *recovered) {
    return recover_job((struct recovery){.told = recovered}, path, folder, record);
}

int rks_recover_locked(const char *path, const char *folder, uint64_t record, relkvanu_store_recovered *recovered) {
    return recover_job((struct recovery){.is_locked = true, .told = recovered}, path, folder, record);
}

int relkvanu_store_recover_listed(const char *path, const char *listing, uint64_t record, relkvanu_store_recovered *recovered) {
    return recover_job((struct recovery){.is_elsewhere = true, .told = recovered}, path, listing, record);
}
