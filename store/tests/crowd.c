/* crowd FOLDER TOLD IMAGE_CALLS: 24 threads make calls of FOLDER/x.db until the process is killed. Each answered call is a line of the file
 * TOLD. If a commit fails, the process opens the job again and goes on. A thread goes on with its term until it is told
 * that it has ended. */
#include "common.h"

#include <pthread.h>
#include <stdatomic.h>
#include <time.h>
#include <unistd.h>

enum { CALLERS = 24, LIST = 6 };

static relkvanu_store *store;
static pthread_rwlock_t use = PTHREAD_RWLOCK_INITIALIZER;
static relkvanu_store_options options;
static char path[PATHS];
static int told_to;
static atomic_uint_fast64_t term, next_name; /* the last that a thread was told */

static int open_again(void) {
    relkvanu_store_report report;
    int status = RELKVANU_STORE_FAILED;
    for (int i = 0; i < 50 && status >= RELKVANU_STORE_FAILED; i++) {
        status = relkvanu_store_open(&store, path, &options, &report);
    }
    CHECK(status == RELKVANU_STORE_OK, "status %d: %s", status, report.message);
    CHECK(report.term >= term && report.next_name >= next_name, "term %" PRIu64 ", next name %" PRIu64, report.term, report.next_name);
    term = report.term;
    return status;
}

/* Closes a store that a failed commit has closed, and opens it again, unless another thread has. */
static void reopen(void) {
    relkvanu_store_call call = {.call = {.kind = RELKVANU_CALL_TICK}};
    pthread_rwlock_wrlock(&use);
    int status = relkvanu_store_calls(store, &call, 1);
    if (status == RELKVANU_STORE_OK) {
        tell(told_to, &call);
    } else {
        relkvanu_store_close(store);
        open_again();
    }
    pthread_rwlock_unlock(&use);
}

static void raise_to(atomic_uint_fast64_t *last, uint64_t told) {
    uint_fast64_t before = *last;
    while (before < told && !atomic_compare_exchange_weak(last, &before, told)) {}
}

static int make(relkvanu_store_call *calls, size_t len) {
    pthread_rwlock_rdlock(&use);
    int status = relkvanu_store_calls(store, calls, len);
    for (size_t i = 0; i < len; i++) {
        CHECK(status == RELKVANU_STORE_OK || (calls[i].answer.code == RELKVANU_STORE_NOT_MADE && calls[i].place == 0),
            "an answer with the status %d", status);
        tell(told_to, &calls[i]);
        raise_to(&term, calls[i].term);
        raise_to(&next_name, names_of(&calls[i].answer).end);
    }
    pthread_rwlock_unlock(&use);
    if (status != RELKVANU_STORE_OK) {
        CHECK(status >= RELKVANU_STORE_FAILED || status == RELKVANU_STORE_CLOSED, "status %d", status);
        reopen();
    }
    return status;
}

/* The pending record, the moment from which a tick is due, and a file of the subtask in the last complete one; 0 if there is none. */
static void look(uint16_t index, uint64_t *pending, uint64_t *due, uint64_t *reused) {
    relkvanu *handle;
    uint64_t files[LIST];
    pthread_rwlock_rdlock(&use);
    *pending = *reused = *due = 0;
    if (relkvanu_store_read(store, &handle) == RELKVANU_STORE_OK) {
        for (relkvanu_answer it = relkvanu_live_from(handle, 0); it.what != RELKVANU_LIVE_NONE; it = relkvanu_live_from(handle, it.a + 1)) {
            relkvanu_answer has = relkvanu_files_of(handle, it.a, 0, index, files, LIST);
            *reused = it.b != 0 && has.what == RELKVANU_FILES && has.a != 0 ? files[0] : *reused;
            *pending = it.b == 0 ? it.a : *pending;
        }
        *due = relkvanu_due(handle).a;
        relkvanu_store_read_end(store);
    }
    pthread_rwlock_unlock(&use);
}

static void discard(unsigned *seed) {
    uint64_t files[LIST];
    relkvanu_store_call calls[LIST] = {{.call = {.kind = RELKVANU_CALL_TAKE, .number = LIST}, .files = files, .files_len = LIST}};
    size_t len = make(calls, 1) == RELKVANU_STORE_OK ? calls[0].answer.a : 0;
    memset(calls, 0, sizeof calls);
    for (size_t i = 0; i < len; i++) {
        calls[i].call =
            (relkvanu_call){.kind = rand_r(seed) % 8 != 0 ? RELKVANU_CALL_DELETED : RELKVANU_CALL_UNDELETED, .number = files[i]};
    }
    if (len != 0) {
        make(calls, len);
    }
}

/* A thread takes the part of a task. It learns a term when its calls are refused; a real task is started anew. */
struct task {
    uint64_t term;
    struct names held;
};

/* A call of the task. Once another term was told to anybody, nothing of it is made. */
static uint32_t make_in(struct task *t, relkvanu_store_call *call) {
    bool has_ended = term > t->term;
    call->call.term = t->term;
    if (make(call, 1) != RELKVANU_STORE_OK) {
        return RELKVANU_STORE_NOT_MADE;
    }
    bool is_old = call->answer.code == RELKVANU_FENCED && call->answer.what == RELKVANU_OLD_TERM;
    CHECK(!has_ended || (is_old && call->place == 0), "a call of the term %" PRIu64 ": code %" PRIu32, t->term, call->answer.code);
    if (is_old) {
        *t = (struct task){.term = term};
    }
    return call->answer.code;
}

static bool has_two(struct task *t) {
    relkvanu_store_call call = {.call = {.kind = RELKVANU_CALL_RESERVE, .number = 30}};
    if (t->held.end - t->held.next < 2 && make_in(t, &call) == RELKVANU_DONE) {
        t->held = names_of(&call.answer);
    }
    return t->held.end - t->held.next >= 2;
}

static void acknowledge(struct task *t, unsigned *seed, uint64_t id, uint16_t index, uint64_t reused) {
    if (!has_two(t)) {
        return;
    }
    const uint64_t fresh[2] = {t->held.next, t->held.next + 1};
    t->held.next += 2;
    relkvanu_store_call call = {.call = {.kind = RELKVANU_CALL_ACK, .number = id, .index = index},
        .first = fresh,
        .first_len = 2,
        .second = &reused,
        .second_len = reused != 0};
    relkvanu_store_call forfeit = {.call = {.kind = RELKVANU_CALL_FORFEIT}, .first = fresh, .first_len = 2};
    if (make_in(t, &call) == RELKVANU_REFUSED || rand_r(seed) % 20 == 0) {
        make_in(t, &forfeit);
    }
}

static void *calls(void *with) {
    uint16_t me = (uint16_t)(uintptr_t)with;
    unsigned seed = me * 7919u + (unsigned)getpid();
    struct task task = {.term = term};
    for (;;) {
        int pick = rand_r(&seed) % 100;
        uint64_t pending, due, reused;
        look(me % SUBTASKS, &pending, &due, &reused);
        relkvanu_store_call call = {.call = {.kind = RELKVANU_CALL_TICK, .now = due + (pick < 2 ? 3000 : 0)}}; /* some expire */
        if (me == 0 || pick < 10 || pending == 0) {
            make(&call, 1);
        } else if (pick < 25) {
            discard(&seed);
        } else if (pick < 27) {
            call.call = (relkvanu_call){.kind = pick < 26 ? RELKVANU_CALL_RESTORE : RELKVANU_CALL_DECLINE,
                .now = 1,
                .number = pick < 26 ? 0 : pending,
                .index = me % SUBTASKS,
                .term = pick < 26 ? 0 : task.term};
            make(&call, 1);
        } else {
            acknowledge(&task, &seed, pending, me % SUBTASKS, pick < 60 ? reused : 0);
        }
    }
    return NULL;
}

int main(int argc, char **argv) {
    pthread_t thread;
    CHECK(argc == 4, "crowd FOLDER TOLD IMAGE_CALLS");
    snprintf(path, sizeof path, "%s/x.db", argv[1]);
    options = options_in(argv[1], RELKVANU_STORE_CREATE, strtoull(argv[3], NULL, 10));
    options.settings.at_once = 3;
    options.settings.timeout = 3000;
    options.patience = 200;
    told_to = told_file(argv[2]);
    open_again();
    for (uintptr_t i = 0; i < CALLERS; i++) {
        CHECK(pthread_create(&thread, NULL, calls, (void *)i) == 0, "a thread");
    }
    for (;;) {
        pause();
    }
}
