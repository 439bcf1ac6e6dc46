/* memory.h - what the compiled code asks of its memory: see heap.c. */
#ifndef MEMORY_H
#define MEMORY_H

#include <stddef.h>
#include <stdint.h>

/* Whether there was memory (1 or 0), and where. The pair comes back in two registers, as the compiled code expects it: so do the rules of
 * C for x86-64 and AArch64 Linux, but not those for Windows, whose three functions are compiled with the library. */
typedef struct taken {
    int64_t is_taken;
    void *at;
} taken;

taken rattle_alloc(size_t bytes, size_t align);
taken rattle_realloc(void *old, size_t kept, size_t bytes, size_t align);
void rattle_dealloc(void *at);

#endif
