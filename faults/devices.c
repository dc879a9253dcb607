/* Makes memory, streams, threads and random numbers fail, as the environment says. It is loaded between a program and the C library
   with LD_PRELOAD, by the tests in this folder.

   REFUSE_AT=N      the Nth allocation is refused; with REFUSE_REST=1 all after it too
   READ_MOST=N      a read of standard input gives N bytes at most
   READ_FAILS=N     the Nth read of standard input fails, with the error READ_ERROR (a number); the next would succeed
   WRITE_MOST=N     a write to standard output takes N bytes at most
   WRITE_FAILS=N    the Nth write to standard output fails, with the error WRITE_ERROR; if that is 0 it takes nothing
   THREAD_FAILS=N   the Nth start of a thread fails, as if the system had no more; with THREADS_REST=1 all after it too
   RANDOM_ZEROS=1   the system's random bytes are all 0; with RANDOM_FAILS=1 it gives none
   COUNTS=FILE      at the end, the file gets the number of allocations, the number of reads and writes, how many of
                    these came after the one that failed or that found the end of the input, the number of starts of
                    threads, and the number of allocations that were refused */
#define _GNU_SOURCE
#include <dlfcn.h>
#include <errno.h>
#include <fcntl.h>
#include <pthread.h>
#include <stdatomic.h>
#include <stdio.h>
#include <stdlib.h>
#include <string.h>
#include <sys/syscall.h>
#include <unistd.h>

struct stream {
    int number;              /* its descriptor */
    long most, fails, error; /* as the environment says */
    long calls, late;
    int is_over;
};

static struct stream input = {.number = STDIN_FILENO}, output = {.number = STDOUT_FILENO};
static long refuse_at, refuse_rest, thread_fails, threads_rest, random_zeros, random_fails;
static atomic_long allocations, refusals, threads; /* threads allocate, and start others, side by side */
static int is_ready;

extern void *__libc_malloc(size_t);
extern void *__libc_calloc(size_t, size_t);
extern void *__libc_realloc(void *, size_t);
extern void *__libc_memalign(size_t, size_t);

static long number(const char *name) {
    const char *text = getenv(name);
    return text ? atol(text) : 0;
}

__attribute__((constructor)) static void begin(void) {
    refuse_at = number("REFUSE_AT");
    refuse_rest = number("REFUSE_REST");
    thread_fails = number("THREAD_FAILS");
    threads_rest = number("THREADS_REST");
    random_zeros = number("RANDOM_ZEROS");
    random_fails = number("RANDOM_FAILS");
    input.most = number("READ_MOST");
    input.fails = number("READ_FAILS");
    input.error = number("READ_ERROR");
    output.most = number("WRITE_MOST");
    output.fails = number("WRITE_FAILS");
    output.error = number("WRITE_ERROR");
    is_ready = 1;
}

__attribute__((destructor)) static void end(void) {
    const char *file = getenv("COUNTS");
    char text[200];
    is_ready = 0;
    if (file) {
        int at = open(file, O_WRONLY | O_CREAT | O_TRUNC, 0600);
        int size = snprintf(text, sizeof text, "%ld %ld %ld %ld %ld %ld %ld\n", (long)allocations, input.calls, output.calls, input.late,
            output.late, (long)threads, (long)refusals);
        if (at >= 0 && syscall(SYS_write, at, text, size) != size) {
            abort();
        }
    }
}

/* A program with threads ends so, past its destructors. */
void _exit(int status) {
    if (is_ready) {
        end();
    }
    for (;;) {
        syscall(SYS_exit_group, status);
    }
}

/* Whether the call at this place has to fail: the chosen one, and with `rest` all after it. */
static int is_met(long place, long fails, long rest) {
    return fails > 0 && (place == fails || (rest && place > fails));
}

static int is_refused(void) {
    if (!is_ready) {
        return 0;
    }
    long place = atomic_fetch_add(&allocations, 1) + 1;
    if (is_met(place, refuse_at, refuse_rest)) {
        atomic_fetch_add(&refusals, 1);
        errno = ENOMEM;
        return 1;
    }
    return 0;
}

void *malloc(size_t size) {
    return is_refused() ? NULL : __libc_malloc(size);
}
void *calloc(size_t count, size_t size) {
    return is_refused() ? NULL : __libc_calloc(count, size);
}
void *realloc(void *old, size_t size) {
    return is_refused() ? NULL : __libc_realloc(old, size);
}
void *memalign(size_t by, size_t size) {
    return is_refused() ? NULL : __libc_memalign(by, size);
}
void *aligned_alloc(size_t by, size_t size) __attribute__((alias("memalign")));

int posix_memalign(void **made, size_t by, size_t size) {
    if (is_refused()) {
        return ENOMEM;
    }
    *made = __libc_memalign(by, size);
    return *made ? 0 : ENOMEM;
}

int pthread_create(pthread_t *made, const pthread_attr_t *kind, void *(*run)(void *), void *given) {
    int (*next)(pthread_t *, const pthread_attr_t *, void *(*)(void *), void *) = dlsym(RTLD_NEXT, "pthread_create");
    long place = atomic_fetch_add(&threads, 1) + 1;
    return is_met(place, thread_fails, threads_rest) ? EAGAIN : next(made, kind, run, given);
}

/* Counts a call, and returns whether it is the one that fails. */
static int is_failing(struct stream *stream) {
    stream->calls += 1;
    stream->late += stream->is_over;
    if (stream->calls != stream->fails) {
        return 0;
    }
    stream->is_over = 1;
    errno = (int)stream->error;
    return 1;
}

static size_t piece(const struct stream *stream, size_t size) {
    return stream->most > 0 && size > (size_t)stream->most ? (size_t)stream->most : size;
}

ssize_t read(int from, void *bytes, size_t size) {
    if (from != input.number) {
        return syscall(SYS_read, from, bytes, size);
    }
    if (is_failing(&input)) {
        return -1;
    }
    ssize_t count = syscall(SYS_read, from, bytes, piece(&input, size));
    input.is_over |= count <= 0;
    return count;
}

ssize_t write(int to, const void *bytes, size_t size) {
    if (to != output.number) {
        return syscall(SYS_write, to, bytes, size);
    }
    if (is_failing(&output)) {
        return output.error ? -1 : 0;
    }
    return syscall(SYS_write, to, bytes, piece(&output, size));
}

int getentropy(void *bytes, size_t size) {
    if (random_fails) {
        errno = EIO;
        return -1;
    }
    if (random_zeros) {
        memset(bytes, 0, size);
        return 0;
    }
    return syscall(SYS_getrandom, bytes, size, 0) == (long)size ? 0 : -1;
}
