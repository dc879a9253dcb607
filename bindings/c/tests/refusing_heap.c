/* A heap that refuses requests: see refusing_heap.h. */
#include "refusing_heap.h"

#include "../../../include/relkvanu_alloc.h"

#include <stdbool.h>
#include <stdio.h>
#include <stdlib.h>
#include <string.h>

/* The header of each block: its size and alignment, and that it is not freed. It has a multiple of 16 bytes, so the block is
 * aligned as malloc aligns. */
struct note {
    size_t size, align;
    uint64_t mark, other;
};

static const uint64_t MARK = 0x72656c6b76616e75;
static uint64_t requests;
/* the first and the last request that are refused; the first is 0 if none is */
static uint64_t refused, last_refused;

void heap_refuse(uint64_t nth) {
    requests = 0;
    refused = last_refused = nth;
}

void heap_refuse_from(uint64_t nth) {
    heap_refuse(nth);
    last_refused = UINT64_MAX;
}

uint64_t heap_requests(void) {
    return requests;
}

static void check(int is_kept, const char *what) {
    if (!is_kept) {
        fprintf(stderr, "the library does not keep to relkvanu_alloc.h: %s\n", what);
        abort();
    }
}

static struct note *note_of(void *at) {
    struct note *note = (struct note *)at - 1;
    check(note->mark == MARK, "an address that is no block");
    return note;
}

/* The address for no block faults if it is read. A new block is filled, so nothing can depend on its bytes. */
relkvanu_block rattle_alloc(size_t size, size_t align) {
    relkvanu_block none = {0, (void *)16};
    check(align != 0 && align <= 16 && (align & (align - 1)) == 0, "an align that is no power of two up to 16");
    check(size <= SIZE_MAX / 2, "a size above 2^63 - 1");
    requests++;
    bool is_refused = refused != 0 && refused <= requests && requests <= last_refused;
    struct note *note = is_refused ? NULL : malloc(sizeof *note + size);
    if (note == NULL) {
        return none;
    }
    *note = (struct note){size, align, MARK, 0};
    memset(note + 1, 0xa5, size);
    return (relkvanu_block){1, note + 1};
}

/* Always returns another block, with the bytes that have to be kept and no others. */
relkvanu_block rattle_realloc(void *at, size_t kept, size_t size, size_t align) {
    struct note *note = note_of(at);
    check(note->align == align, "another align");
    check(kept <= note->size && kept <= size, "more bytes to keep than there are");
    relkvanu_block block = rattle_alloc(size, align);
    if (block.is) {
        memcpy(block.at, at, kept);
        rattle_dealloc(at);
    }
    return block;
}

void rattle_dealloc(void *at) {
    struct note *note = note_of(at);
    note->mark = 0;
    free(note);
}
