// A `malloc` before the C library's in which one allocation fails. REFUSE is its number, counted from the start of the program. If
// LARGEST is given, each allocation of more bytes than that also fails. tools/refuse-growths builds it.
#include <errno.h>
#include <stdlib.h>

void *__libc_malloc(size_t size);
void *__libc_calloc(size_t count, size_t size);
void *__libc_realloc(void *block, size_t size);
void *__libc_memalign(size_t alignment, size_t size);

static long requests, refused;
static size_t largest;

__attribute__((constructor)) static void begin(void) {
    const char *number = getenv("REFUSE");
    const char *bytes = getenv("LARGEST");
    refused = number ? atol(number) : 0;
    largest = bytes ? strtoul(bytes, NULL, 10) : (size_t)-1;
    requests = 0;
}

static int is_refused(size_t size) { return ++requests == refused || size > largest; }

void *malloc(size_t size) { return is_refused(size) ? NULL : __libc_malloc(size); }

void *calloc(size_t count, size_t size) { return is_refused(count * size) ? NULL : __libc_calloc(count, size); }

void *realloc(void *block, size_t size) { return is_refused(size) ? NULL : __libc_realloc(block, size); }

void *aligned_alloc(size_t alignment, size_t size) { return is_refused(size) ? NULL : __libc_memalign(alignment, size); }

int posix_memalign(void **block, size_t alignment, size_t size) {
    *block = aligned_alloc(alignment, size);
    return *block ? 0 : ENOMEM;
}
