/* The memory functions of the library, over malloc. */
#include "apc.h"

#include <stdlib.h>

/* What `at` is where memory was refused: an address that nobody writes to. */
static char nothing;

static struct apc_tried tried(void *at) {
    return (struct apc_tried){at != NULL, at != NULL ? at : &nothing};
}

struct apc_tried rattle_alloc(size_t size, size_t alignment) {
    return tried(malloc(size != 0 ? size : alignment));
}

struct apc_tried rattle_realloc(void *at, size_t kept, size_t size, size_t alignment) {
    (void)kept;
    return tried(realloc(at, size != 0 ? size : alignment));
}

void rattle_dealloc(void *at) {
    free(at);
}
