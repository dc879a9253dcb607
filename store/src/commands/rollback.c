/* The way back to an older checkpoint that is retained: a savepoint of its own files, and the restore to that savepoint, as one group with a commit
 * of its own. If one of its calls can't be made, none is: a copy from before the first one goes on, as after a crash of a group that was not synced. */
#include "../job/job.h"
#include "../log/log.h"
#include "../manifests/manifest.h"
#include "../manifests/manifests.h"
#include "../store.h"

#include <stdlib.h>
#include <string.h>

enum { BESIDE = 3 }; /* calls beside an acknowledgement of each subtask: a restore of a failed job, the savepoint, the restore */

struct way {
    relkvanu_store *s;
    relkvanu *before;    /* the copy */
    char *image, *shown; /* of the job; of the checkpoint */
    uint64_t shape[RKS_VERTICES];
    size_t shape_len;
    relkvanu_store_call *calls; /* that were made */
    struct rks_line *lines;     /* of each */
    size_t calls_len;
    uint64_t files[RKS_MOST_FILES]; /* of a subtask */
    relkvanu_answer refused;        /* the answer of the call that was not made; RELKVANU_DONE: each was */
    int looked;                     /* whether the files of the checkpoint are there */
    struct rks_lost *lost;
};

static bool refuse(struct way *w, uint32_t code, uint32_t what) {
    w->refused = (relkvanu_answer){.code = code, .what = what};
    return false;
}

/* Whether the job has the shape that the checkpoint had. */
static bool has_its_shape(struct way *w, uint64_t id) {
    uint64_t shape[RKS_VERTICES] = {0};
    w->image = rks_text_of(w->s->handle, NULL);
    w->shown = w->image == NULL ? NULL : rks_text_of(w->s->handle, &id);
    if (w->shown == NULL) {
        return refuse(w, RELKVANU_NO_MEMORY, 0);
    }
    w->shape_len = rks_shape_of(w->image, w->shape, RKS_VERTICES);
    size_t len = rks_shape_of(w->shown, shape, RKS_VERTICES);
    bool is_same = len == w->shape_len && memcmp(shape, w->shape, sizeof shape) == 0;
    return is_same || refuse(w, RELKVANU_BAD_ARGUMENT, RELKVANU_BAD_SHAPE);
}

static size_t subtasks_of(const struct way *w) {
    size_t sum = 0;
    for (size_t i = 0; i < w->shape_len; i++) {
        sum += w->shape[i];
    }
    return sum;
}

/* Opens the copy, makes room for all calls, and looks for the files. */
static bool begin(struct way *w, uint64_t id) {
    size_t most = subtasks_of(w) + BESIDE;
    w->calls = calloc(most, sizeof *w->calls);
    w->lines = calloc(most, sizeof *w->lines);
    bool has_room = w->calls != NULL && w->lines != NULL && rks_has_rows(w->s, most);
    relkvanu *copy = &w->s->handles[w->s->handle == w->s->handles];
    if (!has_room || rks_open_image(copy, w->image, strlen(w->image)).code != RELKVANU_DONE) {
        return refuse(w, RELKVANU_NO_MEMORY, 0);
    }
    w->before = copy;
    w->looked = rks_look_for(w->s, id, w->lost); /* a refusal comes before what it says */
    return true;
}

/* Makes a call. Returns whether it was made. */
static bool step(struct way *w, relkvanu_call made, size_t reused_len) {
    relkvanu_store_call *call = &w->calls[w->calls_len];
    made.now = relkvanu_store_now(w->s);
    *call = (relkvanu_store_call){.call = made, .second = w->files, .second_len = reused_len};
    rks_make_line(w->s, call, made.now, &w->lines[w->calls_len]);
    call->second = NULL;
    call->second_len = 0;
    if (call->answer.code != RELKVANU_DONE) {
        w->refused = call->answer;
        return false;
    }
    w->calls_len++;
    return true;
}

/* The acknowledgements of a vertex. */
static bool acknowledge(struct way *w, uint64_t id, uint64_t savepoint, uint16_t vertex) {
    uint64_t term = relkvanu_term(w->s->handle).a;
    bool is_made = true;
    for (uint64_t i = 0; i < w->shape[vertex] && is_made; i++) {
        relkvanu_call ack = {.kind = RELKVANU_CALL_ACK, .vertex = vertex, .index = (uint16_t)i, .number = savepoint, .term = term};
        relkvanu_answer read = relkvanu_files_of(w->before, id, vertex, ack.index, w->files, RKS_MOST_FILES);
        is_made = read.code == RELKVANU_DONE ? step(w, ack, read.a) : refuse(w, read.code, read.what);
    }
    return is_made;
}

/* The savepoint of the checkpoint's own files, and the restore to it. */
static bool restore(struct way *w, uint64_t id) {
    if (!step(w, (relkvanu_call){.kind = RELKVANU_CALL_SAVEPOINT}, 0)) {
        return false;
    }
    uint64_t savepoint = w->calls[w->calls_len - 1].answer.a;
    bool is_made = true;
    for (size_t vertex = 0; vertex < w->shape_len && is_made; vertex++) {
        is_made = acknowledge(w, id, savepoint, (uint16_t)vertex);
    }
    return is_made && step(w, (relkvanu_call){.kind = RELKVANU_CALL_RESTORE, .number = savepoint}, 0);
}

/* Makes all calls. The latest checkpoint needs no savepoint. A failed job is restored first, since it can have none. */
static bool walk(struct way *w, uint64_t id) {
    relkvanu_answer live = relkvanu_live_from(w->s->handle, id), choice = relkvanu_choice(w->s->handle);
    const relkvanu_call latest = {.kind = RELKVANU_CALL_RESTORE};
    if (live.what != RELKVANU_LIVE_CHECKPOINT || live.a != id || live.b != 1) {
        return refuse(w, RELKVANU_REFUSED, RELKVANU_NO_SUCH_RECORD);
    }
    if (!has_its_shape(w, id) || !begin(w, id)) {
        return false;
    }
    if (choice.what == RELKVANU_CHOICE_CHECKPOINT && choice.a == id) {
        return step(w, latest, 0);
    }
    bool has_failed = relkvanu_mode(w->s->handle).what == RELKVANU_MODE_FAILED;
    return (!has_failed || step(w, latest, 0)) && restore(w, id);
}

/* The savepoint gets what the acknowledgements of the checkpoint had beside their files. */
static void carry_parts(relkvanu_store *s, const struct rks_rows *from, uint64_t first) {
    struct rks_live *savepoint = rks_live_of(s, relkvanu_choice(s->handle).a);
    if (from->first != 0 && savepoint != NULL && savepoint->id != from->record) {
        s->job.extras.from = *from;
        s->job.extras.to = savepoint->id;
        s->job.extras.to_first = savepoint->first_part = first;
        savepoint->last_part = s->log.place;
    }
}

/* All calls are made: what follows from them. */
static void accept(struct way *w, uint64_t checkpoint) {
    relkvanu_store *s = w->s;
    const struct rks_live *live = rks_live_of(s, checkpoint);
    const struct rks_rows from = {checkpoint, live->first_part, live->last_part};
    uint64_t first = s->log.place + BESIDE; /* from here on there are as many places as acknowledgements, at least */
    s->job.extras.now = relkvanu_store_now(s);
    for (size_t i = 0; i < w->calls_len; i++) {
        rks_accept(s, RKS_CALLS, &w->calls[i], w->lines[i]);
    }
    carry_parts(s, &from, first);
    if (s->job.phase.phase == RELKVANU_STORE_PHASE_RUNNING) {
        rks_order(s, &w->calls[w->calls_len - 1]);
    }
}

/* No call is made: the copy is the coordinator from now on, if there is one. */
static void give_up(struct way *w) {
    if (w->before != NULL) {
        rks_drop_group(w->s);
        w->s->handle = w->before;
    }
}

/* Closes the other handle too, before the next thread leads. */
static void release(struct way *w) {
    relkvanu_close(&w->s->handles[w->s->handle == w->s->handles]);
    free(w->image);
    free(w->shown);
    free(w->calls);
    free(w->lines);
}

/* Of the thread that leads. */
static int go_back(relkvanu_store *s, uint64_t id, relkvanu_store_call *call, struct rks_lost *lost) {
    struct way w = {.s = s, .refused = {.code = RELKVANU_DONE}, .looked = RELKVANU_STORE_OK, .lost = lost};
    rks_begin_calls(s);
    bool is_made = rks_has_rows(s, 1) ? walk(&w, id) : refuse(&w, RELKVANU_NO_MEMORY, 0);
    int status = is_made ? w.looked : w.refused.code == RELKVANU_NO_MEMORY ? RELKVANU_STORE_NO_MEMORY : RELKVANU_STORE_OK;
    if (is_made && status == RELKVANU_STORE_OK) {
        accept(&w, id);
        *call = w.calls[w.calls_len - 1];
    } else {
        give_up(&w);
    }
    release(&w);
    if (status != RELKVANU_STORE_OK) {
        rks_hand_on(s, 0);
        return status;
    }
    if (!is_made) {
        rks_hold(s, w.refused);
    }
    return rks_commit_alone(s, &call->answer);
}

int relkvanu_store_go_back(relkvanu_store *s, uint64_t checkpoint, uint32_t flags, relkvanu_store_call *call) {
    struct rks_waiter w = {0};
    *call = (relkvanu_store_call){.call = {.kind = RELKVANU_CALL_RESTORE, .now = RELKVANU_STORE_NOW}};
    rks_drop_answers(call, 1);
    rks_why_words("");
    if (flags != RELKVANU_STORE_ACCEPT_PUBLISHED) {
        rks_why_words("what sinks have published for records after this checkpoint is not taken back: RELKVANU_STORE_ACCEPT_PUBLISHED says "
                      "that this is accepted");
        return RELKVANU_STORE_BAD_ARGUMENT;
    }
    int status = rks_enter(s, &w);
    status = status == RELKVANU_STORE_OK && w.is_answered ? w.status : status;
    if (status == RELKVANU_STORE_OK) {
        struct rks_lost lost = {0};
        rks_take_alone(s);
        status = go_back(s, checkpoint, call, &lost);
        rks_say_lost(status, &lost);
    }
    if (status != RELKVANU_STORE_OK) {
        rks_drop_answers(call, 1);
    }
    return status;
}
