/* heap_test.c - heap.c tried: what is taken, kept and given back, and what a refusal leaves. Linked with --wrap=malloc, --wrap=realloc and
 * --wrap=free, by which the test refuses memory and counts. Prints what differs; status 1 where something does. */
#include <stdalign.h>
#include <stdio.h>
#include <string.h>

#include "../memory.h"

static int wrong;

#define CHECK(holds) ((holds) ? (void)0 : (void)(wrong++, printf("heap_test.c:%d: %s\n", __LINE__, #holds)))

void *__real_malloc(size_t bytes);
void *__real_realloc(void *old, size_t bytes);
void __real_free(void *at);
void *__wrap_malloc(size_t bytes);
void *__wrap_realloc(void *old, size_t bytes);
void __wrap_free(void *at);

static int is_refused;
static size_t asked; /* how many bytes were asked for last */
static void *freed;  /* what was given back last */

void *__wrap_malloc(size_t bytes) {
    asked = bytes;
    return is_refused ? NULL : __real_malloc(bytes);
}

void *__wrap_realloc(void *old, size_t bytes) {
    asked = bytes;
    return is_refused ? NULL : __real_realloc(old, bytes);
}

void __wrap_free(void *at) {
    freed = at;
    __real_free(at);
}

static void check_taking(void) {
    taken block = rattle_alloc(100, 8);
    CHECK(block.is_taken == 1 && block.at != NULL && asked == 100);
    memset(block.at, 0x5A, 100);
    rattle_dealloc(block.at);
    CHECK(freed == block.at);
}

/* Two requests for no bytes have a place each. */
static void check_nothing_asked(void) {
    taken one = rattle_alloc(0, 16);
    CHECK(one.is_taken == 1 && one.at != NULL && asked == 16);
    taken other = rattle_alloc(0, 1);
    CHECK(other.is_taken == 1 && other.at != NULL && other.at != one.at && asked == 1);
    rattle_dealloc(other.at);
    taken grown = rattle_realloc(one.at, 16, 0, 4);
    CHECK(grown.is_taken == 1 && grown.at != NULL && asked == 4);
    rattle_dealloc(grown.at);
}

static void check_growing(void) {
    taken block = rattle_alloc(8, 1);
    memcpy(block.at, "VOLSER01", 8);
    taken grown = rattle_realloc(block.at, 8, 100000, 1);
    CHECK(grown.is_taken == 1 && asked == 100000 && memcmp(grown.at, "VOLSER01", 8) == 0);
    memset(grown.at, 0, 100000);
    memcpy(grown.at, "CKD_P370", 8);
    taken cut = rattle_realloc(grown.at, 100000, 4, 1);
    CHECK(cut.is_taken == 1 && asked == 4 && memcmp(cut.at, "CKD_", 4) == 0);
    rattle_dealloc(cut.at);
}

/* A refusal has a place that is not null, has bytes, is aligned for anything, and is no block; the old block stays. */
static void check_refusals(void) {
    taken block = rattle_alloc(8, 1);
    memcpy(block.at, "VOLSER02", 8);
    is_refused = 1;
    taken none = rattle_alloc(64, 8);
    taken nor_grown = rattle_realloc(block.at, 8, 64, 8);
    is_refused = 0;
    CHECK(none.is_taken == 0 && none.at != NULL && none.at != block.at);
    CHECK((uintptr_t)none.at % alignof(max_align_t) == 0);
    CHECK(none.at != NULL && ((unsigned char *)none.at)[0] == 0 && ((unsigned char *)none.at)[15] == 0);
    CHECK(nor_grown.is_taken == 0 && nor_grown.at == none.at);
    CHECK(memcmp(block.at, "VOLSER02", 8) == 0);
    rattle_dealloc(block.at);
    CHECK(freed == block.at);
}

int main(void) {
    check_taking();
    check_nothing_asked();
    check_growing();
    check_refusals();
    printf("heap_test: %d wrong\n", wrong);
    return wrong != 0;
}
