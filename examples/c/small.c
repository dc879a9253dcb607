/* small.c FOLDER [new]: a job of one task, which counts. The word `new` makes the job. */
#include "relkvanu_store.h"

#include <inttypes.h>
#include <stdio.h>
#include <stdlib.h>
#include <string.h>

/* Ends the process where the engine can't go on. The next one goes on with what is on the disk. */
static void need(bool holds, const char *what) {
    if (!holds) {
        char why[RELKVANU_STORE_MESSAGE] = "";
        relkvanu_store_why(why, sizeof why);
        fprintf(stderr, "%s: %s\n", what, why);
        exit(1);
    }
}

/* The part of a subtask in the record that the job begins from. There is one subtask. */
static bool load(void *count, const relkvanu_store_part *part) {
    need(part->payload_len == sizeof(uint64_t), "load");
    memcpy(count, part->payload, part->payload_len);
    return true;
}

/* A restore ends the term of earlier tasks, and says where to begin. Returns the term of the tasks that start now. */
static uint64_t restore(relkvanu_store *job, uint64_t *count) {
    relkvanu_store_call call = {.call = {.kind = RELKVANU_CALL_RESTORE, .now = RELKVANU_STORE_NOW}};
    need(relkvanu_store_calls(job, &call, 1) == RELKVANU_STORE_OK && call.answer.code == RELKVANU_DONE, "restore");
    if (call.answer.what != RELKVANU_RESTORED_FRESH) { /* a checkpoint is complete: b is its number */
        relkvanu_store_loaded record;
        need(relkvanu_store_load(job, call.answer.b, &record, load, count) == RELKVANU_STORE_OK, "load");
        printf("begins from checkpoint %" PRIu64 " with %" PRIu64 "\n", record.id, *count);
    }
    return call.term;
}

int main(int argc, char **argv) {
    const uint64_t shape[] = {1}; /* one vertex, with one subtask */
    relkvanu_store_options options = {
        .settings = {.interval = 100, .at_once = 1, .timeout = 60000, .retained = 1}, .shape = shape, .shape_len = 1};
    options.flags = argc > 2 && strcmp(argv[2], "new") == 0 ? RELKVANU_STORE_CREATE : RELKVANU_STORE_RECOVER;
    relkvanu_store_report report = {0};
    relkvanu_store *job;
    char path[4096];
    if (argc < 2 || snprintf(path, sizeof path, "%s/job.db", argv[1]) >= (int)sizeof path ||
        relkvanu_store_open(&job, path, &options, &report) != RELKVANU_STORE_OK) {
        fprintf(stderr, "%s\n", argc < 2 ? "small-c FOLDER [new]" : report.message);
        return 1;
    }
    uint64_t count = 0, term = report.is_recovered ? restore(job, &count) : report.term;
    for (int i = 0; i < 3; i++) {
        relkvanu_store_call tick;
        relkvanu_answer answer;
        int status = relkvanu_store_await_tick(job, 60000, &tick); /* sleeps until a checkpoint is due, at most 60 s */
        need(status == RELKVANU_STORE_OK && tick.answer.code == RELKVANU_DONE && tick.answer.what == RELKVANU_TICK_TRIGGERED,
            "no checkpoint was due");
        count++; /* what the task does */
        relkvanu_store_more more = {.payload = &count, .payload_len = sizeof count};
        status = relkvanu_store_ack_with(job, term, RELKVANU_STORE_NOW, tick.answer.b, 0, 0, NULL, 0, NULL, 0, &more, &answer);
        need(status == RELKVANU_STORE_OK && answer.code == RELKVANU_DONE, "acknowledge");
        if (answer.what == RELKVANU_ACK_COMPLETED) { /* it is on the disk: a sink may publish */
            printf("complete: %" PRIu64 "\n", tick.answer.b);
        }
    }
    relkvanu_store_close(job);
    return 0;
}
