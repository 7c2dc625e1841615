/* The memory of the library's engines (include/elfmap.h, "The memory of the engines"), over the C library's. */
#include "elfmap.h"
#include <stdlib.h>

/* Where no memory is said to stand: `start` is never null. */
static char nowhere[16];

static struct elfmap_block block_at(void *start) {
    struct elfmap_block block = {start != NULL, start != NULL ? start : nowhere};
    return block;
}

/* malloc gives a multiple of 16, as each `align` divides it; and may give null for no bytes. */
struct elfmap_block elfmap_alloc(size_t size, size_t align) {
    return block_at(malloc(size != 0 ? size : align));
}

struct elfmap_block elfmap_realloc(void *start, size_t kept, size_t size, size_t align) {
    (void) kept;
    return block_at(realloc(start, size != 0 ? size : align));
}

void elfmap_dealloc(void *start) {
    free(start);
}
