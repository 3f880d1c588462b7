/*
 * The heap of the library: the three functions that its proofs trust, over the program's malloc, realloc and free. A host with an
 * allocator of its own links a file like this one in its place.
 */
#include <stdbool.h>
#include <stddef.h>
#include <stdlib.h>

/* Whether memory was had, and where. */
struct had {
    bool some;
    void *at;
};

struct had rattle_alloc(size_t size, size_t align);
struct had rattle_realloc(void *at, size_t kept, size_t size, size_t align);
void rattle_dealloc(void *at);

/* The address of no block: what is not had points there, so that no pointer is NULL. */
static char nowhere;

static struct had given(void *at) {
    struct had had = {at != NULL, at != NULL ? at : &nowhere};
    return had;
}

/* No block is larger than its size but one of no bytes, which is as large as its alignment. */
struct had rattle_alloc(size_t size, size_t align) { return given(malloc(size > 0 ? size : align)); }

struct had rattle_realloc(void *at, size_t kept, size_t size, size_t align) {
    (void)kept;
    return given(realloc(at, size > 0 ? size : align));
}

void rattle_dealloc(void *at) { free(at); }
