/* The library's memory, over malloc, realloc and free: what include/relkvanu_alloc.h asks for. It writes nothing of its own, so it
 * is as safe in threads as these three. malloc aligns a block to 16, or to the greatest power of two that fits into it. */
#include "../../include/relkvanu_alloc.h"

#include <stdlib.h>

static uint64_t nowhere;

static relkvanu_block block_at(void *at) {
    relkvanu_block block = {at != NULL, at != NULL ? at : &nowhere};
    return block;
}

/* malloc may return NULL for no bytes, so an empty block has some bytes too. */
relkvanu_block rattle_alloc(size_t size, size_t align) {
    return block_at(malloc(size != 0 ? size : align));
}

/* realloc keeps all that fits. */
relkvanu_block rattle_realloc(void *at, size_t kept, size_t size, size_t align) {
    (void)kept;
    return block_at(realloc(at, size != 0 ? size : align));
}

void rattle_dealloc(void *at) {
    free(at);
}
