/* The heap of the library: the three functions of the toolchain that its code calls for memory, over malloc, realloc and free.
 *
 * Their signatures are those that the toolchain's library `libc` declares. Blocks are aligned to 16 at most, as those of malloc are. */
#include <stdbool.h>
#include <stddef.h>
#include <stdlib.h>

#define HIDDEN __attribute__((visibility("hidden")))

/* Whether there is a block, and where. */
struct tried {
    bool ok;
    void *block;
};

/* The address that is returned without a block. Nothing reads or writes there. */
static _Alignas(16) unsigned char no_block[16];

static struct tried tried(void *block) {
    struct tried result = {block != NULL, block != NULL ? block : no_block};
    return result;
}

HIDDEN struct tried rattle_alloc(size_t size, size_t align);
HIDDEN struct tried rattle_realloc(void *block, size_t kept, size_t size, size_t align);
HIDDEN void rattle_dealloc(void *block);

struct tried rattle_alloc(size_t size, size_t align) {
    return tried(malloc(size != 0 ? size : align));
}

struct tried rattle_realloc(void *block, size_t kept, size_t size, size_t align) {
    (void)kept;
    return tried(realloc(block, size != 0 ? size : align));
}

void rattle_dealloc(void *block) {
    free(block);
}
