/* durable.c FOLDER [LAST] [new]: a job that goes on where it was, however its process ended, up to the checkpoint LAST. */
#include "relkvanu_store.h"

#include <fcntl.h>
#include <inttypes.h>
#include <pthread.h>
#include <stdio.h>
#include <stdlib.h>
#include <string.h>
#include <unistd.h>

enum { TASKS = 3, NAMES = 100 };
static relkvanu_store *store;
static uint64_t counts[TASKS], terms[TASKS]; /* of each task its state, and the term that it was started with: it asks for no other */
static int barriers[TASKS][2];               /* of each task a pipe with the records that it takes part in. It ends when the pipe does */
static pthread_t threads[TASKS + 1];         /* and the discarder */

/* With another status nobody may act on an answer. The next process goes on with what is committed. */
static void check(const char *what, int status) {
    if (status != RELKVANU_STORE_OK && status != RELKVANU_STORE_TIMED_OUT && status != RELKVANU_STORE_NOT_RUNNING &&
        status != RELKVANU_STORE_NOT_DONE && status != RELKVANU_STORE_STOPPED) { /* what a sweep has not done is for the next one */
        char why[512] = "";
        relkvanu_store_message(store, why, sizeof why);
        fprintf(stderr, "%s: status %d %s\n", what, status, why);
        exit(1);
    }
}

/* Whether the first call was made. Without memory nothing has changed: the same calls again, after a second. Only the first takes some. */
static bool make(const char *what, relkvanu_store_call *calls, size_t len) {
    int status;
    while ((status = relkvanu_store_calls(store, calls, len)) == RELKVANU_STORE_NO_MEMORY || calls->answer.code == RELKVANU_NO_MEMORY) {
        sleep(1);
    }
    check(what, status);
    return calls->answer.code == RELKVANU_DONE;
}

/* Puts files by names that it has reserved, and acknowledges them. It deletes nothing. Once its term has ended, none of its calls is made. */
static void *task(void *with) {
    uint16_t index = (uint16_t)(uintptr_t)with;
    uint64_t term = terms[index], id = 0;
    relkvanu_store_call reserve = {.call = {.kind = RELKVANU_CALL_RESERVE, .number = NAMES, .term = term}};
    for (uint64_t used = 0; read(barriers[index][0], &id, sizeof id) == sizeof id; used = (used + 1) % NAMES) {
        if (used == 0) { /* the names are durable before the first is used */
            make("reserve", &reserve, 1);
        }
        uint64_t name = reserve.answer.a + used, count = ++counts[index];
        relkvanu_store_call calls[] = {
            {.call = {RELKVANU_CALL_ACK, 0, index, RELKVANU_STORE_NOW, id, term}, .first = &name, .first_len = 1},
            {.call = {.kind = RELKVANU_CALL_FORFEIT, .term = term}, .first = &name, .first_len = 1},
            {.call = {RELKVANU_CALL_DECLINE, 0, index, RELKVANU_STORE_NOW, id, term}}};
        bool is_put = reserve.answer.code == RELKVANU_DONE && relkvanu_store_put(store, name, &count, sizeof count) == RELKVANU_STORE_OK;
        if (!is_put || !make("acknowledge", calls, 1)) {
            make("give up", calls + 1, 2); /* the file is garbage, and is swept */
        } else if (calls->answer.what == RELKVANU_ACK_COMPLETED) {
            fprintf(stderr, "record %" PRIu64 " is complete\n", id); /* sinks get this message: they may publish */
        }
    }
    return NULL;
}

static void *discarder(void *unused) {
    check("discard", relkvanu_store_discard_storage(store, 0, NULL));
    return unused;
}

static void end_tasks(void) {
    for (size_t i = 0; i < TASKS; i++) {
        close(barriers[i][1]);
        pthread_join(threads[i], NULL); /* this waits for a put that hangs, which stored.py does not */
        close(barriers[i][0]);
        counts[i] = 0;
    }
}

static void start_tasks(uint64_t term) {
    for (size_t i = 0; i < TASKS; i++) {
        terms[i] = term;
        check("a task",
            pipe(barriers[i]) == 0 && pthread_create(&threads[i], NULL, task, (void *)i) == 0 ? RELKVANU_STORE_OK : RELKVANU_STORE_FAILED);
    }
}

/* The tasks go on from the record that the restore returns, in the term that it begins, which is returned; 0: the job is cancelled. */
static uint64_t restore(void) {
    relkvanu_store_call call = {.call = {.kind = RELKVANU_CALL_RESTORE, .now = RELKVANU_STORE_NOW}};
    relkvanu *job;
    if (!make("restore", &call, 1)) {
        return 0;
    }
    check("read", relkvanu_store_read(store, &job));
    for (uint16_t i = 0; i < TASKS && call.answer.what != RELKVANU_RESTORED_FRESH; i++) {
        uint64_t file = 0;
        char name[24];
        bool has_file = relkvanu_files_of(job, call.answer.b, 0, i, &file, 1).a == 1;
        snprintf(name, sizeof name, "%" PRIu64, file);
        FILE *from = has_file ? fdopen(openat(relkvanu_store_folder(store), name, O_RDONLY | O_CLOEXEC), "r") : NULL;
        check("a state file", from != NULL && fread(&counts[i], sizeof *counts, 1, from) == 1 ? RELKVANU_STORE_OK : RELKVANU_STORE_FAILED);
        fclose(from);
    }
    relkvanu_answer choice = relkvanu_choice(job);
    relkvanu_store_read_end(store);
    if (choice.what != RELKVANU_CHOICE_FRESH) { /* perhaps told before: a sink publishes what its state lists, and gives up all else */
        fprintf(stderr, "record %" PRIu64 " is complete\n", choice.a);
    }
    return call.term;
}

int main(int argc, char **argv) {
    int is_new = strcmp(argv[argc - 1], "new") == 0; /* without the word a wrong path makes no job */
    uint64_t shape[] = {TASKS}, last = argc - is_new > 2 ? strtoull(argv[2], NULL, 10) : UINT64_MAX, times = 0;
    size_t left;
    relkvanu_store_report report = {0};
    relkvanu_store_options options = {.flags = (is_new ? RELKVANU_STORE_CREATE : RELKVANU_STORE_RECOVER) | RELKVANU_STORE_MANIFESTS,
        .patience = 5000,
        .storage = "state",
        .settings = {.interval = 10, .at_once = 1, .timeout = 600000, .retained = 1},
        .shape = shape,
        .shape_len = 1};
    if (argc < 2 || chdir(argv[1]) != 0 || relkvanu_store_open(&store, "job.db", &options, &report) != RELKVANU_STORE_OK) {
        return fprintf(stderr, "%s\n", report.message), 1;
    }
    uint64_t term = report.is_recovered ? restore() : report.term; /* report.steps */
    check("a thread", pthread_create(&threads[TASKS], NULL, discarder, NULL) == 0 ? RELKVANU_STORE_OK : RELKVANU_STORE_FAILED);
    start_tasks(term);
    for (uint64_t id = 0; id <= last && term != 0; times++) {
        relkvanu_store_call tick;
        int status = relkvanu_store_await_tick(store, 60000, &tick);
        check("tick", status == RELKVANU_STORE_NO_MEMORY && sleep(1) == 0 ? RELKVANU_STORE_OK : status);
        if (tick.answer.code == RELKVANU_REFUSED) { /* it has failed: a file could not be written, say */
            end_tasks();
            start_tasks(term = restore());
        }
        if (status == RELKVANU_STORE_TIMED_OUT || status == RELKVANU_STORE_NOT_RUNNING || tick.answer.code == RELKVANU_REFUSED ||
            times % 1000 == 0) {
            check("sweep", relkvanu_store_sweep(store, &left)); /* also while tasks run; what is left is for the next one */
        }
        bool triggers = tick.answer.code == RELKVANU_DONE && tick.answer.what == RELKVANU_TICK_TRIGGERED;
        id = triggers ? tick.answer.b : id;
        for (size_t i = 0; i < TASKS && triggers && id <= last; i++) {
            check("a barrier", write(barriers[i][1], &id, sizeof id) == sizeof id ? RELKVANU_STORE_OK : RELKVANU_STORE_FAILED);
        }
    }
    end_tasks(); /* the checkpoint before the last one has ended, so each task waits */
    /* after a cancel: until only savepoints and kept records have files */
    for (uint64_t waiting = term == 0; waiting != 0; sleep(waiting != 0)) {
        relkvanu *job;
        check("sweep", relkvanu_store_sweep(store, &left));
        check("read", relkvanu_store_read(store, &job));
        waiting = left + relkvanu_file_counts(job).waiting + relkvanu_file_counts(job).taken;
        relkvanu_store_read_end(store);
    }
    relkvanu_store_stop(store);
    pthread_join(threads[TASKS], NULL);
    relkvanu_store_close(store);
    return 0;
}
