/* The allocator of librelkvanu.a: three functions that a program may define itself.
 *
 * The installed archive has them over malloc, realloc and free, in a member of their own (bindings/c/heap.c). The linker leaves that
 * member out if the program defines all three. The archive that `rt lib` builds has none of them. librelkvanu.so has its own, over
 * malloc.
 *
 * What the library passes:
 * - align is 1, 2, 4, 8 or 16. size is a number of bytes, at most 2^63 - 1. A size of 0 still gets a block, which is freed like
 *   any other.
 * - rattle_realloc and rattle_dealloc get a block that rattle_alloc or rattle_realloc returned and that was not freed since.
 *   rattle_realloc gets the align of the block, and kept is at most the old size and at most the new one.
 *
 * Conditions for the program:
 * - A block has at least size bytes, and its address is a multiple of align. Nobody else writes to it until it is freed.
 * - The block that rattle_realloc returns has the first kept bytes of the old block. Its other bytes may have any value. The old
 *   block is then freed. If there is no memory, the old block stays as it is.
 * - Running out of memory is an ordinary answer: the call of the library returns RELKVANU_NO_MEMORY and changes nothing.
 *   rattle_dealloc always succeeds.
 * - The three belong to one allocator. Several threads may call them at once, one for each handle that is in a call.
 *   One thread may free a block that another one allocated.
 * - They return to their caller, and do not call the library.
 */
#ifndef RELKVANU_ALLOC_H
#define RELKVANU_ALLOC_H

#include <stddef.h>
#include <stdint.h>

#ifdef __cplusplus
extern "C" {
#endif

typedef struct {
    uint64_t is; /* 1: there is a block; 0: there was no memory */
    void *at;    /* never NULL; not read if there was no memory */
} relkvanu_block;

relkvanu_block rattle_alloc(size_t size, size_t align);

relkvanu_block rattle_realloc(void *at, size_t kept, size_t size, size_t align);

void rattle_dealloc(void *at);

#ifdef __cplusplus
}
#endif

#endif
