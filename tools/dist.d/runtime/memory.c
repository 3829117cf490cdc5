/* The memory of the library, for a processor that the toolchain has no C for: what its crate `libc` declares, over malloc, realloc and free.
 *
 * A size of 0 asks for a block of the alignment. The alignment is 16 at most, which malloc keeps. */
#include <stdbool.h>
#include <stddef.h>
#include <stdlib.h>

/* Whether there is memory, and where; `at` is never null. */
struct tried {
    bool ok;
    void *at;
};

struct tried rattle_alloc(size_t size, size_t aligned);
struct tried rattle_realloc(void *at, size_t kept, size_t size, size_t aligned);
void rattle_dealloc(void *at);

static char nothing;

static struct tried tried(void *at) {
    return (struct tried){at != NULL, at != NULL ? at : &nothing};
}

struct tried rattle_alloc(size_t size, size_t aligned) {
    return tried(malloc(size != 0 ? size : aligned));
}

/* A block that is refused stays as it was. */
struct tried rattle_realloc(void *at, size_t kept, size_t size, size_t aligned) {
    (void)kept;
    return tried(realloc(at, size != 0 ? size : aligned));
}

void rattle_dealloc(void *at) {
    free(at);
}
