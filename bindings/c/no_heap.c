/* A heap that has nothing, for tests: each allocation fails. It takes the place of heap.c. */
#include <stdbool.h>
#include <stddef.h>

#define HIDDEN __attribute__((visibility("hidden")))

struct tried {
    bool ok;
    void *block;
};

static _Alignas(16) unsigned char no_block[16];

HIDDEN struct tried rattle_alloc(size_t size, size_t align);
HIDDEN struct tried rattle_realloc(void *block, size_t kept, size_t size, size_t align);
HIDDEN void rattle_dealloc(void *block);

struct tried rattle_alloc(size_t size, size_t align) {
    (void)size, (void)align;
    return (struct tried){false, no_block};
}

struct tried rattle_realloc(void *block, size_t kept, size_t size, size_t align) {
    (void)block, (void)kept, (void)size, (void)align;
    return (struct tried){false, no_block};
}

void rattle_dealloc(void *block) {
    (void)block;
}
