/* Memory that runs out for the proved library alone. From one SIGUSR2 to the next, one in N requests from rattle_alloc and
 * rattle_realloc is refused. HUNGRY has the offsets of both in the program, and N. */
#define _GNU_SOURCE
#include <link.h>
#include <signal.h>
#include <stdint.h>
#include <stdio.h>
#include <stdlib.h>

extern void *__libc_malloc(size_t);
extern void *__libc_realloc(void *, size_t);

enum { LONGEST = 48 }; /* bytes of either function */
static uintptr_t alloc_at, realloc_at;
static unsigned each, seed = 1;
static volatile sig_atomic_t hungry;

static void turn(int signal) {
    (void)signal;
    hungry = !hungry;
}

static int program(struct dl_phdr_info *info, size_t size, void *at) {
    (void)size;
    *(uintptr_t *)at = info->dlpi_addr;
    return 1; /* the program is the first */
}

__attribute__((constructor)) static void begin(void) {
    const char *text = getenv("HUNGRY");
    uintptr_t base = 0;
    unsigned long first, second;
    if (text == NULL || sscanf(text, "%lx %lx %u", &first, &second, &each) != 3) {
        return;
    }
    dl_iterate_phdr(program, &base);
    alloc_at = base + first;
    realloc_at = base + second;
    signal(SIGUSR2, turn);
}

static int refused(void *from, uintptr_t at) {
    if (!hungry || (uintptr_t)from - at >= LONGEST) {
        return 0;
    }
    seed = seed * 1103515245u + 12345u;
    return (seed >> 16) % each == 0;
}

void *malloc(size_t size) {
    return refused(__builtin_return_address(0), alloc_at) ? NULL : __libc_malloc(size);
}

void *realloc(void *at, size_t size) {
    return refused(__builtin_return_address(0), realloc_at) ? NULL : __libc_realloc(at, size);
}
