/* The memory of the library: what it calls for a block, over malloc, realloc and free. A program that links the library
 * links this file too, or one of its own that does the same. A refused block is told by `ok`. */
#include <stdbool.h>
#include <stddef.h>
#include <stdlib.h>

struct tried {
    bool ok;
    void *at;
};

struct tried rattle_alloc(size_t size, size_t align);
struct tried rattle_realloc(void *at, size_t kept, size_t size, size_t align);
void rattle_dealloc(void *at);

static char nowhere;

static struct tried tried_at(void *at) {
    return at ? (struct tried){true, at} : (struct tried){false, &nowhere};
}

/* The alignment is at most 16, which malloc gives. */
struct tried rattle_alloc(size_t size, size_t align) {
    return tried_at(malloc(size ? size : align));
}

struct tried rattle_realloc(void *at, size_t kept, size_t size, size_t align) {
    (void)kept;
    return tried_at(realloc(at, size ? size : align));
}

void rattle_dealloc(void *at) {
    free(at);
}
