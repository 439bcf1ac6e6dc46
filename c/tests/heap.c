/* heap.c - the three functions by which the library takes memory, over malloc, for a test that refuses memory. It is linked with the
 * archive that `rt lib` leaves, in place of the toolchain's functions of these names.
 *
 * heap_refuse_at: which taking from now on is refused (1: the next; 0: none). heap_live: how many blocks are held. */
#include <stdbool.h>
#include <stddef.h>
#include <stdlib.h>

typedef struct taken {
    bool is_taken;
    void *at; /* not null, where nothing was taken either */
} taken;

taken rattle_alloc(size_t size, size_t align);
taken rattle_realloc(void *old, size_t kept, size_t size, size_t align);
void rattle_dealloc(void *at);

long heap_refuse_at, heap_live;

static taken answer(void *at) {
    static char nowhere;
    return (taken){at != NULL, at ? at : &nowhere};
}

static bool is_refused(void) { return heap_refuse_at > 0 && --heap_refuse_at == 0; }

taken rattle_alloc(size_t size, size_t align) {
    void *at = is_refused() ? NULL : malloc(size ? size : align);
    if (at) heap_live++;
    return answer(at);
}

taken rattle_realloc(void *old, size_t kept, size_t size, size_t align) {
    (void)kept;
    return answer(is_refused() ? NULL : realloc(old, size ? size : align));
}

void rattle_dealloc(void *at) {
    heap_live--;
    free(at);
}
