/* The memory of the ends (ivshm_c.h), over a malloc and free whose blocks are aligned to 16 bytes.
 * Without a malloc write these two functions over memory of your own, as bare.c does. */
#include <stdlib.h>

#include "ivshm_c.h"

struct rattle_block rattle_alloc(size_t size, size_t align) {
    static _Alignas(16) char nothing[16];
    void *at = malloc(size > 0 ? size : align);
    return (struct rattle_block){at != NULL, at != NULL ? at : nothing};
}

void rattle_dealloc(void *at) { free(at); }
