/* Memory for a module of WebAssembly: malloc, realloc and free; the three functions by which the toolchain takes memory, over them; and
 * the functions on bytes that a compiler calls. One thread.
 *
 * The heap is one list of free blocks in the order of their addresses. It begins behind the module's own data, and grows at the end of
 * the module's memory. tests/memory.c stands in for the module's memory natively. */
#include "memory.h"

#define NOTHING ((void *)0)
#define PAGE 65536u

/* No request is greater: so no sum below overflows. */
#define MOST ((size_t)1 << 46)

#ifdef __wasm__
extern unsigned char __heap_base;

uintptr_t memory_begin(void) { return (uintptr_t)&__heap_base; }

uintptr_t memory_end(void) { return (uintptr_t)__builtin_wasm_memory_size(0) * PAGE; }

/* A refusal is -1. Where binaryen lowers memory of 64 bits to 32, it extends that without its sign: so 32 bits are compared. */
int memory_grow(size_t pages) { return (__builtin_wasm_memory_grow(0, pages) & 0xFFFFFFFFu) != 0xFFFFFFFFu; }
#endif

/* A block: how many bytes it has, this head included, a multiple of 16; and, while it is free, the next free one. */
typedef struct block {
    size_t bytes;
    struct block *next;
} block;

static block *first_free;
static uintptr_t heap_end;

static size_t rounded(size_t bytes) { return (bytes + sizeof(block) + 15) & ~(size_t)15; }

static block *behind(block *it) { return (block *)((unsigned char *)it + it->bytes); }

/* Puts a block among the free ones, and joins it with those that it touches. */
static void add_free(block *it) {
    block *before = NOTHING, *after = first_free;
    while (after && after < it) {
        before = after;
        after = after->next;
    }
    it->next = after;
    if (before) before->next = it;
    else first_free = it;
    if (after && behind(it) == after) {
        it->bytes += after->bytes;
        it->next = after->next;
    }
    if (before && behind(before) == it) {
        before->bytes += it->bytes;
        before->next = it->next;
    }
}

/* Makes the heap longer by so many bytes at least; whether it could. */
static int grow(size_t bytes) {
    uintptr_t end = memory_end();
    block *it;
    if (!heap_end) heap_end = (memory_begin() + 15) & ~(uintptr_t)15;
    if (end - heap_end < bytes) {
        if (!memory_grow((bytes - (end - heap_end) + PAGE - 1) / PAGE)) return 0;
        end = memory_end();
    }
    it = (block *)heap_end; /* NOLINT(performance-no-int-to-ptr): the memory begins where a number says */
    it->bytes = end - heap_end;
    heap_end = end;
    add_free(it);
    return 1;
}

/* Takes the first free block of so many bytes out of the list, and leaves there what is behind them. */
static block *take_free(size_t bytes) {
    block *before = NOTHING, *it = first_free, *rest;
    while (it && it->bytes < bytes) {
        before = it;
        it = it->next;
    }
    if (!it) return NOTHING;
    rest = it->next;
    if (it->bytes - bytes >= 2 * sizeof(block)) {
        rest = (block *)((unsigned char *)it + bytes);
        rest->bytes = it->bytes - bytes;
        rest->next = it->next;
        it->bytes = bytes;
    }
    if (before) before->next = rest;
    else first_free = rest;
    return it;
}

void *malloc(size_t bytes) {
    block *it;
    if (bytes > MOST) return NOTHING;
    it = take_free(rounded(bytes));
    if (!it && grow(rounded(bytes))) it = take_free(rounded(bytes));
    return it ? it + 1 : NOTHING;
}

void free(void *at) {
    if (at) add_free((block *)at - 1);
}

void *realloc(void *at, size_t bytes) {
    block *it = (block *)at - 1;
    void *to;
    if (!at) return malloc(bytes);
    if (bytes <= MOST && rounded(bytes) <= it->bytes) return at;
    to = malloc(bytes);
    if (!to) return NOTHING;
    memcpy(to, at, it->bytes - sizeof(block));
    free(at);
    return to;
}

/* --- The toolchain's three functions ---
 *
 * A size of zero takes `or_else` bytes. The answer is whether there was memory, and where; a refusal points to 16 bytes of its own. */

static unsigned char refused[16] __attribute__((aligned(16)));

static taken answered(void *at) {
    taken it = {at ? 1 : 0, at ? at : refused};
    return it;
}

taken rattle_alloc(size_t bytes, size_t or_else) { return answered(malloc(bytes ? bytes : or_else)); }

taken rattle_realloc(void *at, size_t kept, size_t bytes, size_t or_else) {
    (void)kept;
    return answered(realloc(at, bytes ? bytes : or_else));
}

void rattle_dealloc(void *at) { free(at); }

/* --- Bytes: the first three are single instructions of WebAssembly --- */

#ifdef __wasm__
void *memcpy(void *to, const void *from, size_t count) { return __builtin_memcpy(to, from, count); }

void *memmove(void *to, const void *from, size_t count) { return __builtin_memmove(to, from, count); }

void *memset(void *to, int byte, size_t count) { return __builtin_memset(to, byte, count); }
#endif

int memcmp(const void *one, const void *other, size_t count) {
    const unsigned char *a = one, *b = other;
    for (; count; count--, a++, b++)
        if (*a != *b) return *a < *b ? -1 : 1;
    return 0;
}

int bcmp(const void *one, const void *other, size_t count) { return memcmp(one, other, count); }

size_t strlen(const char *text) {
    size_t count = 0;
    while (text[count]) count++;
    return count;
}
