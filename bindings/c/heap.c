/* The allocator of a library for a machine on which the kit has none: the functions that its code calls (bindings/build.py). */
#include <stdint.h>
#include <stdlib.h>

/* Whether memory was allocated, and where. */
typedef struct {
    uint64_t is_there;
    void *at;
} allocated;

static char nothing[1];

static allocated found(void *at) {
    return at ? (allocated){1, at} : (allocated){0, nothing};
}

allocated rattle_alloc(uint64_t size, uint64_t align) {
    return found(malloc(size ? size : align));
}

allocated rattle_realloc(void *at, uint64_t old, uint64_t size, uint64_t align) {
    (void)old;
    return found(realloc(at, size ? size : align));
}

void rattle_dealloc(void *at) {
    free(at);
}
