/* planted race|beyond|unset: gives the library what valgrind has to tell: one handle to two threads without a lock, a list of files that
 * is shorter than its length, or files that nobody has written. The sanitizers tell none of these: the library is not compiled with
 * them. */
#define _GNU_SOURCE
#define RELKVANU_NODISCARD /* what is planted counts here, and no answer */
#include "../../../include/relkvanu.h"

#include <pthread.h>
#include <stdio.h>
#include <stdlib.h>
#include <string.h>
#include <unistd.h>

enum { FILES = 4 };

static relkvanu job;

static void open_job(void) {
    relkvanu_settings settings = {.interval = 10, .at_once = 1, .timeout = 600000, .retained = 1};
    uint64_t shape[] = {1};
    if (relkvanu_open(&job, &settings, shape, 1, 0, 1, 1, 2).code != RELKVANU_DONE ||
        relkvanu_tick(&job, 10).what != RELKVANU_TICK_TRIGGERED) {
        fprintf(stderr, "planted: the job can't be opened\n");
        exit(2);
    }
}

/* The second thread waits so long that the first one has ended, so nothing happens at the same time. But nothing orders the two. */
static void *ticks(void *after_ms) {
    usleep(*(const useconds_t *)after_ms * 1000);
    relkvanu_tick(&job, 20);
    return NULL;
}

static void race(void) {
    static useconds_t at_once = 0, later = 3000;
    pthread_t threads[2];
    pthread_create(&threads[0], NULL, ticks, &at_once);
    pthread_create(&threads[1], NULL, ticks, &later);
    pthread_join(threads[0], NULL);
    pthread_join(threads[1], NULL);
}

static void acknowledge(size_t written, size_t len) {
    uint64_t *files = malloc(FILES * sizeof *files);
    for (uint64_t file = 0; files != NULL && file < written; file++) {
        files[file] = 1 + file;
    }
    relkvanu_ack(&job, 10, 1, 0, 0, files, len, NULL, 0);
    free(files);
}

int main(int argc, char **argv) {
    const char *what = argc == 2 ? argv[1] : "";
    open_job();
    if (strcmp(what, "race") == 0) {
        race();
    } else if (strcmp(what, "beyond") == 0) {
        acknowledge(FILES, FILES + 1);
    } else {
        acknowledge(0, FILES);
    }
    relkvanu_close(&job);
    return 0;
}
