/* guarded.c - the three functions by which the library takes memory, for fuzzing: each block ends before a page that nobody may touch, and is
 * gone when it is freed. So code that no sanitizer was compiled into can't read or write past a block, or one that was freed, unseen. */
#include "fuzz.h"

#include <stdbool.h>
#include <string.h>
#include <sys/mman.h>

#define PAGE ((size_t)4096)

/* Before each block a page of its own says how long it is, and how long the mapping. */
typedef struct head {
    size_t size, mapped;
} head;

typedef struct taken {
    bool is_taken;
    void *at; /* not null, where nothing was taken either */
} taken;

taken rattle_alloc(size_t size, size_t align);
taken rattle_realloc(void *old, size_t kept, size_t size, size_t align);
void rattle_dealloc(void *at);

long heap_refuse_at, heap_live;

static head *head_of(uint8_t *at) { return (head *)(void *)(at - (uintptr_t)at % PAGE - PAGE); }

void *guarded_take(size_t size, size_t align) {
    if (heap_refuse_at > 0 && --heap_refuse_at == 0) return NULL;
    size_t room = ((size ? size : align) + align - 1) / align * align;
    size_t pages = (room + PAGE - 1) / PAGE * PAGE;
    if (size > SIZE_MAX / 2) return NULL;
    uint8_t *base = mmap(NULL, pages + 2 * PAGE, PROT_READ | PROT_WRITE, MAP_PRIVATE | MAP_ANONYMOUS, -1, 0);
    if (base == MAP_FAILED) return NULL;
    must(mprotect(base + PAGE + pages, PAGE, PROT_NONE) == 0, "a page is guarded");
    *(head *)base = (head){size, pages + 2 * PAGE};
    heap_live++;
    return base + PAGE + pages - room;
}

void guarded_free(void *at) {
    head *of = head_of(at);
    heap_live--;
    must(munmap(of, of->mapped) == 0, "a block is freed that was taken");
}

static taken answer(void *at) {
    static char nowhere;
    return (taken){at != NULL, at ? at : &nowhere};
}

taken rattle_alloc(size_t size, size_t align) { return answer(guarded_take(size, align)); }

taken rattle_realloc(void *old, size_t kept, size_t size, size_t align) {
    (void)kept;
    void *at = guarded_take(size, align);
    if (at == NULL) return answer(NULL);
    size_t had = head_of(old)->size;
    memcpy(at, old, had < size ? had : size);
    guarded_free(old);
    return answer(at);
}

void rattle_dealloc(void *at) { guarded_free(at); }
