/* heap.c - the three functions by which the compiled code takes memory, over malloc, realloc and free.
 *
 * A request for no bytes takes as many as its alignment, so that its place is its own. Where memory is refused the place is still not
 * null: it is that of some bytes of this file, which nobody writes to. The old block of a realloc that is refused stays as it is. */
#include "memory.h"

#include <stdlib.h>

static taken answer(void *at) {
    static _Alignas(max_align_t) unsigned char nothing[16];
    return (taken){at != NULL, at ? at : nothing};
}

taken rattle_alloc(size_t bytes, size_t align) { return answer(malloc(bytes ? bytes : align)); }

taken rattle_realloc(void *old, size_t kept, size_t bytes, size_t align) {
    (void)kept;
    return answer(realloc(old, bytes ? bytes : align));
}

void rattle_dealloc(void *at) { free(at); }
