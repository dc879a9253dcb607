/* LD_PRELOAD for a service: a thread that asks for much memory at once waits while the file HELD is there. So does the one that makes a
   long image. The file HELD.waits shows that one does. */
#define _GNU_SOURCE
#include <fcntl.h>
#include <stdio.h>
#include <stdlib.h>
#include <unistd.h>

extern void *__libc_malloc(size_t);
extern void *__libc_calloc(size_t, size_t);
extern void *__libc_realloc(void *, size_t);

enum { MUCH = 1 << 20, EACH = 10000 };

static void hold(size_t size) {
    const char *held = size < MUCH ? NULL : getenv("HELD");
    if (held == NULL || access(held, F_OK)) {
        return;
    }
    char waits[512];
    snprintf(waits, sizeof waits, "%s.waits", held);
    close(open(waits, O_CREAT | O_WRONLY, 0600));
    while (!access(held, F_OK)) {
        usleep(EACH);
    }
}

void *malloc(size_t size) {
    hold(size);
    return __libc_malloc(size);
}

void *calloc(size_t count, size_t size) {
    hold(count * size);
    return __libc_calloc(count, size);
}

void *realloc(void *at, size_t size) {
    hold(size);
    return __libc_realloc(at, size);
}
