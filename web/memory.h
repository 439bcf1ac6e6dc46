/* What memory.c gives a module of WebAssembly, and the module's memory, as memory.c sees it. The toolchain has no headers of C, so the
 * few types stand here. */
#ifndef WEB_MEMORY_H
#define WEB_MEMORY_H

typedef __SIZE_TYPE__ size_t;
typedef __UINTPTR_TYPE__ uintptr_t;
typedef __INT64_TYPE__ int64_t;

/* The module's memory: where its heap begins, where it ends, and its growth by pages of 65,536 bytes: whether it could. */
uintptr_t memory_begin(void);
uintptr_t memory_end(void);
int memory_grow(size_t pages);

void *malloc(size_t bytes);
void free(void *at);
void *realloc(void *at, size_t bytes);

/* Whether there was memory, and where. */
typedef struct taken {
    int64_t found;
    void *at;
} taken;

taken rattle_alloc(size_t bytes, size_t or_else);
taken rattle_realloc(void *at, size_t kept, size_t bytes, size_t or_else);
void rattle_dealloc(void *at);

void *memcpy(void *to, const void *from, size_t count);
void *memmove(void *to, const void *from, size_t count);
void *memset(void *to, int byte, size_t count);
int memcmp(const void *one, const void *other, size_t count);
int bcmp(const void *one, const void *other, size_t count);
size_t strlen(const char *text);

#endif
