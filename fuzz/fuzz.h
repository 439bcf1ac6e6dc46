/* fuzz.h - what the harnesses share: the bytes of an input, one after another, and the memory of `guarded.c`. */
#ifndef FUZZ_H
#define FUZZ_H

#include <stddef.h>
#include <stdint.h>
#include <stdio.h>
#include <stdlib.h>

/* What an input still has. */
typedef struct input {
    const uint8_t *at;
    size_t left;
} input;

/* Which taking of memory from now on is refused (1: the next; 0: none), and how many blocks are held. */
extern long heap_refuse_at, heap_live;

/* A block with a page behind it that nobody may touch; NULL where it is refused. */
void *guarded_take(size_t size, size_t align);
void guarded_free(void *at);

/* A harness runs one input; libFuzzer and `plain.c` call it. */
int LLVMFuzzerTestOneInput(const uint8_t *data, size_t size);

static inline uint8_t take8(input *in) {
    if (in->left == 0) return 0;
    in->left--;
    return *in->at++;
}

static inline uint16_t take16(input *in) {
    unsigned high = take8(in);
    return (uint16_t)(high << 8 | take8(in));
}

/* Ends the process where something does not hold that must. */
static inline void must(int holds, const char *what) {
    if (holds) return;
    fprintf(stderr, "does not hold: %s\n", what);
    abort();
}

#endif
