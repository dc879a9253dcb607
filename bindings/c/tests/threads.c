/* threads ROUNDS: two coordinators in two threads, each with a thread of its own, and a third that two threads share under a
 * mutex. Each takes checkpoints with new and reused files, drops them, takes files and reports them. So memory is allocated,
 * grown and freed in all threads at once. For ThreadSanitizer: the library has no lock, and needs none between two handles. */
#define _GNU_SOURCE
#include "../../../include/relkvanu.h"

#include <inttypes.h>
#include <pthread.h>
#include <stdio.h>
#include <stdlib.h>

enum { SUBTASKS = 8, FILES = 16 };

struct job {
    relkvanu handle;
    pthread_mutex_t lock;
    uint64_t rounds, now, last_file;
};

static void check(relkvanu_answer answer, const char *call) {
    if (answer.code != RELKVANU_DONE) {
        fprintf(stderr, "%s: code %" PRIu32 ", what %" PRIu32 "\n", call, answer.code, answer.what);
        exit(1);
    }
}

static void open_job(struct job *job, uint64_t rounds) {
    relkvanu_settings settings = {10, 0, 64, 600000, 1000, 2, false};
    uint64_t shape[] = {SUBTASKS};
    *job = (struct job){.rounds = rounds, .lock = PTHREAD_MUTEX_INITIALIZER};
    check(relkvanu_open(&job->handle, &settings, shape, 1, 0, 1, (uintptr_t)job, rounds), "open");
}

/* A checkpoint with new files. Each subtask also reuses a file of its neighbour. */
static void complete(struct job *job) {
    uint64_t fresh[FILES], reused[1] = {job->last_file};
    job->now += 10;
    relkvanu_answer answer = relkvanu_tick(&job->handle, job->now);
    check(answer, "tick");
    for (uint16_t index = 0; index < SUBTASKS; index++) {
        for (size_t place = 0; place < FILES; place++) {
            fresh[place] = ++job->last_file;
        }
        check(relkvanu_ack(&job->handle, job->now, answer.b, 0, index, fresh, FILES, reused, index != 0), "ack");
        reused[0] = fresh[0];
    }
}

static void discard(struct job *job) {
    uint64_t files[FILES];
    relkvanu_answer answer = relkvanu_take(&job->handle, files, FILES);
    check(answer, "take");
    for (uint64_t place = 0; place < answer.a; place++) {
        check(relkvanu_deleted(&job->handle, files[place]), "deleted");
    }
}

static void *work(void *with) {
    struct job *job = with;
    for (uint64_t round = 0; round < job->rounds; round++) {
        pthread_mutex_lock(&job->lock);
        complete(job);
        discard(job);
        pthread_mutex_unlock(&job->lock);
    }
    return NULL;
}

int main(int argc, char **argv) {
    static struct job jobs[3];
    pthread_t threads[4];
    uint64_t rounds = argc > 1 ? strtoull(argv[1], NULL, 10) : 200, records = 0;
    for (int place = 0; place < 3; place++) {
        open_job(&jobs[place], rounds);
    }
    for (int place = 0; place < 4; place++) {
        if (pthread_create(&threads[place], NULL, work, &jobs[place < 3 ? place : 2]) != 0) {
            perror("pthread_create");
            return 2;
        }
    }
    for (int place = 0; place < 4; place++) {
        pthread_join(threads[place], NULL);
    }
    for (int place = 0; place < 3; place++) {
        records += relkvanu_choice(&jobs[place].handle).a;
        relkvanu_close(&jobs[place].handle); /* this thread frees what others allocated */
    }
    return records == 4 * rounds ? 0 : 1;
}
