/* Terms, reservations, what an old task may do, and sweeps at any time. */
#include "cases.h"

static void fenced(relkvanu_answer answer, uint32_t why, uint64_t file) {
    CHECK(answer.code == RELKVANU_FENCED && answer.what == why && answer.a == file, "code %" PRIu32 ", what %" PRIu32 " %" PRIu64,
        answer.code, answer.what, answer.a);
}

static void check_term(relkvanu_store *store, uint64_t term, uint64_t next) {
    relkvanu_answer answer;
    CHECK(relkvanu_store_term(store, &answer) == RELKVANU_STORE_OK && answer.code == RELKVANU_DONE && answer.what == RELKVANU_TERM,
        "code %" PRIu32, answer.code);
    CHECK(answer.a == term && answer.b == next, "term %" PRIu64 ", next name %" PRIu64, answer.a, answer.b);
}

static uint64_t trigger(relkvanu_store *store) {
    relkvanu_answer answer = done(store, RELKVANU_CALL_TICK, due_of(store), 0);
    CHECK(answer.what == RELKVANU_TICK_TRIGGERED, "what %" PRIu32, answer.what);
    return answer.b;
}

/* A checkpoint of all subtasks, with one file each from the name on. */
static uint64_t complete(relkvanu_store *store, uint64_t term, uint64_t name) {
    uint64_t id = trigger(store);
    for (uint16_t i = 0; i < SUBTASKS; i++) {
        CHECK(acked_at_0(store, term, id, i, name + i).code == RELKVANU_DONE, "subtask %u", i);
    }
    return id;
}

/* The worked example of docs/LOGS.md, as far as a store has it; then the recovery has all of it. */
CASE(terms_and_names) {
    relkvanu_store *store = new_job();
    CHECK(report.term == 1 && report.next_name == 1 && !report.is_recovered, "term %" PRIu64 ", next name %" PRIu64, report.term,
        report.next_name);
    check_term(store, 1, 1);
    CHECK(reserved(store, 1, 10) == 1, "the first names");
    uint64_t first = complete(store, 1, 1);
    check_term(store, 1, 11);
    fenced(acked_at_0(store, 1, first, 0, 1), RELKVANU_SPENT, 1);
    fenced(acked_at_0(store, 1, first, 0, 11), RELKVANU_NEVER_RESERVED, 11);
    fenced(acked_at_0(store, 0, first, 0, 9), RELKVANU_OLD_TERM, 0);
    fenced(acked_at_0(store, 2, first, 0, 9), RELKVANU_OLD_TERM, 0);
    fenced(made(store, (relkvanu_call){.kind = RELKVANU_CALL_DECLINE, .number = first}).answer, RELKVANU_OLD_TERM, 0);
    fenced(made(store, (relkvanu_call){.kind = RELKVANU_CALL_RESERVE, .number = 0, .term = 1}).answer, RELKVANU_BAD_COUNT, 0);
    fenced(made(store, (relkvanu_call){.kind = RELKVANU_CALL_RESERVE, .number = 65537, .term = 1}).answer, RELKVANU_BAD_COUNT, 0);
    relkvanu_answer late = acked_at_0(store, 1, first, 0, 9); /* the record is complete */
    CHECK(late.code == RELKVANU_DONE && late.what == RELKVANU_ACK_LATE && late.a == 1, "what %" PRIu32 " %" PRIu64, late.what, late.a);
    uint64_t second = trigger(store);
    relkvanu_store_call restore = made(store, (relkvanu_call){.kind = RELKVANU_CALL_RESTORE, .now = RELKVANU_STORE_NOW});
    CHECK(restore.answer.what == RELKVANU_RESTORED_CHECKPOINT && restore.answer.b == first && restore.term == 2, "term %" PRIu64,
        restore.term);
    fenced(acked_at_0(store, 1, second, 0, 9), RELKVANU_OLD_TERM, 0);
    CHECK(reserved(store, 2, 3) == 11, "names are given once");
    relkvanu_store_close(store);
    store = opens_with(storage_options(RELKVANU_STORE_RECOVER, 0));
    CHECK(report.term == 2 && report.next_name == 14 && report.is_recovered && !report.settings_differ,
        "term %" PRIu64 ", next name %" PRIu64, report.term, report.next_name);
    CHECK(reserved(store, 2, 1) == 14, "after a recovery");
    relkvanu_store_call cancel = made(store, (relkvanu_call){.kind = RELKVANU_CALL_CANCEL, .now = RELKVANU_STORE_NOW});
    CHECK(cancel.answer.what == RELKVANU_CANCELLED && cancel.term == 3, "term %" PRIu64, cancel.term);
    fenced(made(store, (relkvanu_call){.kind = RELKVANU_CALL_RESERVE, .number = 1, .term = 3}).answer, RELKVANU_ENDED, 0);
    relkvanu_store_call refused = made(store, (relkvanu_call){.kind = RELKVANU_CALL_RESTORE, .now = RELKVANU_STORE_NOW});
    CHECK(refused.answer.code == RELKVANU_REFUSED && refused.term == 0 && refused.place == 0, "a restore of a cancelled job");
    relkvanu_store_close(store);
}

CASE(forfeits) {
    relkvanu_store *store = new_job();
    relkvanu_answer answer;
    static uint64_t names[65537], garbage[65537], others[65537];
    CHECK(reserved(store, 1, 65536) == 1, "the names");
    for (size_t i = 0; i < 65537; i++) {
        names[i] = i + 1;
    }
    CHECK(relkvanu_store_forfeit(store, 1, names, 65537, &answer) == RELKVANU_STORE_BAD_ARGUMENT && answer.code == RELKVANU_STORE_NOT_MADE);
    CHECK(relkvanu_store_garbage(store, names, 65537, garbage, others, &answer) == RELKVANU_STORE_OK && answer.what == RELKVANU_GARBAGE);
    CHECK(answer.a == 0 && answer.b == 1 && others[0] == 65537, "%" PRIu64 " garbage, %" PRIu64 " others", answer.a, answer.b);
    CHECK(relkvanu_store_forfeit(store, 1, names, 65536, &answer) == RELKVANU_STORE_OK && answer.what == RELKVANU_FORFEITED, "all names");
    CHECK(relkvanu_store_garbage(store, names, 65537, garbage, others, &answer) == RELKVANU_STORE_OK && answer.a == 65536 && answer.b == 1);
    CHECK(garbage[0] == 1 && garbage[65535] == 65536, "in their order");
    CHECK(relkvanu_store_forfeit(store, 1, names, 0, &answer) == RELKVANU_STORE_OK && answer.what == RELKVANU_FORFEITED, "none");
    CHECK(relkvanu_store_forfeit(store, 9, names, 5000, &answer) == RELKVANU_STORE_OK, "another term");
    fenced(answer, RELKVANU_OLD_TERM, 0);
    relkvanu_store_close(store);
}

/* A sweep while a task has names that it has not used yet, after its term, of files that are in use, and of some that were not given out. */
CASE(sweeps_at_any_time) {
    relkvanu_store *store = new_job();
    CHECK(reserved(store, 1, 30) == 1, "the names");
    for (uint64_t name = 1; name <= 33; name++) {
        make_empty(stored(name));
    }
    complete(store, 1, 1); /* 1 to 8 are in use */
    complete(store, 1, 9); /* 1 to 8 wait */
    relkvanu_answer answer;
    uint64_t given_up[] = {17, 18};
    CHECK(relkvanu_store_forfeit(store, 1, given_up, 2, &answer) == RELKVANU_STORE_OK && answer.code == RELKVANU_DONE, "forfeit");
    is_swept(store, RELKVANU_STORE_OK, 0);
    relkvanu_store_counts counts = totals_of(store);
    CHECK(counts.swept == 2 && counts.unissued == 3, "%" PRIu64 " swept, %" PRIu64 " not given out", counts.swept, counts.unissued);
    for (uint64_t name = 1; name <= 33; name++) {
        CHECK(exists(stored(name)) == (name != 17 && name != 18), "file %" PRIu64, name);
    }
    made(store, (relkvanu_call){.kind = RELKVANU_CALL_RESTORE, .now = RELKVANU_STORE_NOW});
    CHECK(unlink(in("storage/19")) == 0 && mkdir(in("storage/19.part"), 0700) == 0, "a folder");
    is_swept(store, RELKVANU_STORE_OK, 1);
    for (uint64_t name = 1; name <= 33; name++) { /* in use and waiting; those of the ended term are garbage; not given out */
        CHECK(exists(stored(name)) == (name <= 16 || name > 30), "file %" PRIu64, name);
    }
    CHECK(rmdir(in("storage/19.part")) == 0, "the folder");
    make_empty(stored(20)); /* a task of the ended term writes on */
    CHECK(relkvanu_store_put(store, 21, "state", 5) == RELKVANU_STORE_OK && exists(stored(21)), "so does its put");
    is_swept(store, RELKVANU_STORE_OK, 0);
    CHECK(!exists(stored(20)) && !exists(stored(21)) && exists(stored(31)));
    relkvanu_store_close(store);
}

/* The job's own file is in the folder, and its name is a number: no sweep deletes it. */
CASE(its_own_file) {
    relkvanu_store_options options = storage_options(RELKVANU_STORE_CREATE, 0);
    relkvanu_store *store = opens_at("storage/7", &options, RELKVANU_STORE_OK);
    CHECK(reserved(store, 1, 10) == 1, "the names");
    CHECK(relkvanu_store_put(store, 7, "state", 5) == RELKVANU_STORE_PRESENT &&
          relkvanu_store_put(store, 8, "state", 5) == RELKVANU_STORE_OK);
    made(store, (relkvanu_call){.kind = RELKVANU_CALL_RESTORE, .now = RELKVANU_STORE_NOW});
    is_swept(store, RELKVANU_STORE_OK, 0);
    CHECK(exists(stored(7)) && !exists(stored(8)), "a sweep");
    relkvanu_store_close(store);
}

/* Adopted files are below the first name, and are garbage; one that leaves no name is refused. */
CASE(adopts) {
    relkvanu_store_options options = storage_options(RELKVANU_STORE_CREATE, 0);
    make_empty(stored(UINT64_C(1) << 62));
    opens_not(&options, RELKVANU_STORE_STORAGE, "4611686018427387904");
    CHECK(!exists("x.db"), "a job");
    options.flags |= RELKVANU_STORE_ADOPT;
    opens_not(&options, RELKVANU_STORE_STORAGE, "2^62");
    CHECK(!exists("storage/.relkvanu-job"), "a marker");
    unlink(in("storage/4611686018427387904"));
    make_empty(stored(700));
    make_empty(stored(3));
    relkvanu_store *store = opens(&options, RELKVANU_STORE_OK);
    CHECK(report.next_name == 701, "next name %" PRIu64, report.next_name);
    CHECK(reserved(store, 1, 1) == 701 && relkvanu_store_put(store, 701, "state", 5) == RELKVANU_STORE_OK, "a name");
    is_swept(store, RELKVANU_STORE_OK, 0);
    CHECK(!exists(stored(700)) && !exists(stored(3)) && exists(stored(701)));
    relkvanu_store_close(store);
}

/* Tasks that put files, old ones that go on, a sweeper and a discarder, all at once. */
enum { ROUNDS = 12, MOST_ROUNDS = 120, CHECKPOINTS = 6 };

static struct {
    relkvanu_store *store;
    atomic_uint_fast64_t term, barrier; /* of the tasks that run; the record that they take part in */
    atomic_uint tasks, late;            /* that run; calls of ended terms that were refused */
    atomic_bool is_over;
} fleet;

/* A task is of a term, and does not run any more once it hears that this has ended. */
struct task {
    uint64_t term;
    uint16_t index;
};

/* Whether a call of the task was refused. It has to be if a restore was answered before the call. */
static bool is_refused(const struct task *t, bool was_over, relkvanu_answer answer) {
    bool is_old = answer.code == RELKVANU_FENCED;
    CHECK(is_old ? answer.what == RELKVANU_OLD_TERM : !was_over, "a call of term %" PRIu64 ": what %" PRIu32, t->term, answer.what);
    return is_old;
}

/* Takes part in a record: reserves, puts, acknowledges or forfeits. Returns false if the term of the task has ended. */
static bool takes_its_part(const struct task *t, uint64_t id, unsigned *seed) {
    relkvanu_answer answer;
    bool was_over = fleet.term > t->term;
    CHECK(relkvanu_store_reserve(fleet.store, t->term, 3, &answer) == RELKVANU_STORE_OK, "reserve");
    if (is_refused(t, was_over, answer)) {
        return false;
    }
    uint64_t names[] = {answer.a, answer.a + 1, answer.a + 2};
    for (int i = 0; i < 3; i++) {
        int status = relkvanu_store_put(fleet.store, names[i], "state", 5);
        bool is_late = status == RELKVANU_STORE_NOT_PUT && term_of(fleet.store) > t->term; /* a sweep has taken its part */
        CHECK(status == RELKVANU_STORE_OK || is_late, "put: status %d", status);
    }
    if (rand_r(seed) % 3 == 0) {
        usleep(2000); /* a restore may come */
    }
    was_over = fleet.term > t->term;
    CHECK(relkvanu_store_ack_in(fleet.store, t->term, 0, id, 0, t->index, names, 2, NULL, 0, &answer) == RELKVANU_STORE_OK, "ack");
    bool is_late = is_refused(t, was_over, answer);
    fleet.late += is_late;
    CHECK(relkvanu_store_forfeit(fleet.store, t->term, names, 3, &answer) ==
          RELKVANU_STORE_OK); /* what was acknowledged is not held any more */
    return !is_late;
}

static void *runs(void *with) {
    struct task t = {.term = (uintptr_t)with / SUBTASKS, .index = (uintptr_t)with % SUBTASKS};
    uint64_t seen = 0;
    unsigned seed = (unsigned)(t.term * 100 + t.index);
    for (bool goes_on = true; goes_on && !fleet.is_over; usleep(100)) {
        uint64_t id = fleet.barrier;
        goes_on = id == seen || takes_its_part(&t, id, &seed);
        seen = id;
    }
    fleet.tasks--;
    return NULL;
}

static void start_tasks(uint64_t term) {
    fleet.term = term;
    for (uintptr_t i = 0; i < SUBTASKS; i++) {
        fleet.tasks++;
        pthread_detach(starts(runs, (void *)(term * SUBTASKS + i)));
    }
}

/* Each file in use is there, at any time. */
static void check_live(relkvanu_store *store) {
    relkvanu *handle = begins_read(store);
    for (relkvanu_answer it = relkvanu_live_from(handle, 0); it.what != RELKVANU_LIVE_NONE; it = relkvanu_live_from(handle, it.a + 1)) {
        for (uint16_t i = 0; i < SUBTASKS; i++) {
            uint64_t files[8];
            relkvanu_answer found = relkvanu_files_of(handle, it.a, 0, i, files, 8);
            for (uint64_t at = 0; found.what == RELKVANU_FILES && at < found.a; at++) {
                CHECK(exists(stored(files[at])), "file %" PRIu64 " of record %" PRIu64 " is not there", files[at], it.a);
            }
        }
    }
    relkvanu_store_read_end(store);
}

static void *sweeps(void *with) {
    size_t times = 0;
    for (; !fleet.is_over; times++) {
        is_swept(fleet.store, RELKVANU_STORE_OK, 0);
    }
    CHECK(times > 3, "%zu sweeps", times);
    return with;
}

static uint64_t missing(relkvanu_store *store, uint64_t id) {
    relkvanu *handle = begins_read(store);
    relkvanu_answer answer = relkvanu_missing(handle, id);
    relkvanu_store_read_end(store);
    return answer.what == RELKVANU_MISSING ? answer.a : 0;
}

/* Some checkpoints of the tasks that run, and then a restore in the middle of one. The tasks before it go on, and learn of it by a refusal. */
static void round_of(void) {
    for (int i = 0; i < CHECKPOINTS; i++) {
        uint64_t id = trigger(fleet.store);
        fleet.barrier = id;
        for (int waits = 0; i + 1 < CHECKPOINTS && missing(fleet.store, id) != 0; waits++) {
            CHECK(waits < 600000, "record %" PRIu64 " waits for %" PRIu64, id, missing(fleet.store, id));
            usleep(500);
            check_live(fleet.store);
        }
    }
    usleep((useconds_t)rand() % 2000); /* some tasks are in the middle of their part */
    relkvanu_store_call restore = made(fleet.store, (relkvanu_call){.kind = RELKVANU_CALL_RESTORE, .now = RELKVANU_STORE_NOW});
    CHECK(restore.answer.what == RELKVANU_RESTORED_CHECKPOINT && restore.term == fleet.term + 1, "term %" PRIu64, restore.term);
    start_tasks(restore.term);
    check_live(fleet.store);
}

CASE(a_sweeper_beside_tasks) {
    fleet.store = new_job();
    pthread_t sweeper = starts(sweeps, NULL);
    struct discarder discarder = {.store = fleet.store, .batch = 16, .deletes = relkvanu_store_delete_files, .with = fleet.store};
    start_discarder(&discarder);
    start_tasks(report.term);
    for (int i = 0; i < ROUNDS || (fleet.late < 3 && i < MOST_ROUNDS); i++) { /* on a busy machine few restores find a task in its part */
        round_of();
    }
    fleet.is_over = true;
    AWAIT(fleet.tasks == 0);
    pthread_join(sweeper, NULL);
    AWAIT(unreported(fleet.store) == 0);
    stop_discarder(&discarder);
    is_swept(fleet.store, RELKVANU_STORE_OK, 0);
    check_live(fleet.store);
    uint64_t used = counts_of(fleet.store).in_use;
    CHECK(used == files_in("storage") && used == 2 * SUBTASKS, "%" PRIu64 " files in use", used);
    relkvanu_store_counts counts = totals_of(fleet.store);
    CHECK(fleet.late >= 3 && counts.swept > ROUNDS * SUBTASKS && counts.unissued == 0, "%u calls came late, %" PRIu64 " files were swept",
        (unsigned)fleet.late, counts.swept);
    relkvanu_store_close(fleet.store);
}
