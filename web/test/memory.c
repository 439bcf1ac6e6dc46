/* memory.c natively, under sanitizers: the module's memory is an array here, whose growth is refused where a test says so.
 * Status 1 with the line of the first thing that is wrong. */
#define malloc web_malloc
#define free web_free
#define realloc web_realloc
#define memcmp web_memcmp
#define bcmp web_bcmp
#define strlen web_strlen
#include "../memory.c" /* NOLINT(bugprone-suspicious-include): under its own names for its calls */
#undef malloc
#undef free
#undef realloc
#undef memcmp
#undef bcmp
#undef strlen

#include <stdint.h>
#include <stdio.h>
#include <stdlib.h>

#define PAGES 64
#define BLOCKS 200
#define ROUNDS 60000

static _Alignas(65536) unsigned char arena[PAGES * PAGE];
static size_t pages = 1;
static int refuses;

uintptr_t memory_begin(void) { return (uintptr_t)arena + 8; }

uintptr_t memory_end(void) { return (uintptr_t)arena + pages * PAGE; }

int memory_grow(size_t more) {
    if (refuses || more > PAGES - pages) return 0;
    pages += more;
    return 1;
}

static void must(int holds, int line) {
    if (holds) return;
    fprintf(stderr, "test/memory.c:%d is wrong\n", line);
    exit(1);
}
#define MUST(holds) must((holds) != 0, __LINE__)

/* A block that is taken, filled with a pattern of its own. */
typedef struct kept {
    unsigned char *at;
    size_t bytes;
    unsigned char pattern;
} kept;

static kept blocks[BLOCKS];
static uint64_t seed = 20261126;

static uint32_t chance(uint32_t below) {
    seed = seed * 6364136223846793005u + 1442695040888963407u;
    return (uint32_t)(seed >> 33) % below;
}

static int is_whole(const kept *it) {
    for (size_t place = 0; place < it->bytes; place++)
        if (it->at[place] != it->pattern) return 0;
    return 1;
}

/* Whether a block lies in memory, at a multiple of 16, and over no other. */
static int is_apart(const kept *it) {
    uintptr_t from = (uintptr_t)it->at, to = from + it->bytes;
    if (from % 16 || from < memory_begin() || to > memory_end()) return 0;
    for (int other = 0; other < BLOCKS; other++) {
        const kept *that = &blocks[other];
        if (that != it && that->at && from < (uintptr_t)that->at + that->bytes && (uintptr_t)that->at < to) return 0;
    }
    return 1;
}

static void fill(kept *it, unsigned char pattern) {
    it->pattern = pattern;
    for (size_t place = 0; place < it->bytes; place++) it->at[place] = pattern;
}

static void take(kept *it) {
    it->bytes = chance(4) ? chance(300) : chance(20000);
    it->at = web_malloc(it->bytes);
    if (!it->at) return;
    MUST(is_apart(it));
    fill(it, (unsigned char)(1 + chance(255)));
}

static void change(kept *it) {
    size_t bytes = chance(4) ? chance(600) : chance(30000);
    unsigned char *to = web_realloc(it->at, bytes);
    if (!to) return;
    it->at = to;
    if (bytes < it->bytes) it->bytes = bytes;
    MUST(is_whole(it));
    it->bytes = bytes;
    MUST(is_apart(it));
    fill(it, it->pattern);
}

/* Blocks are taken, changed and freed by chance, and growth is refused now and then; behind it all is one free block again. */
static void by_chance(void) {
    for (int round = 0; round < ROUNDS; round++) {
        kept *it = &blocks[chance(BLOCKS)];
        refuses = chance(50) == 0;
        if (!it->at) take(it);
        else if (chance(3) == 0) change(it);
        else {
            MUST(is_whole(it));
            web_free(it->at);
            it->at = NOTHING;
        }
    }
    for (int place = 0; place < BLOCKS; place++) {
        if (blocks[place].at) MUST(is_whole(&blocks[place]));
        web_free(blocks[place].at);
        blocks[place].at = NOTHING;
    }
    refuses = 0;
    MUST(first_free && !first_free->next && (uintptr_t)behind(first_free) == memory_end());
}

/* What can't be is refused, and leaves all as it was. */
static void refusals(void) {
    unsigned char *at = web_malloc(100);
    size_t free_bytes = first_free->bytes;
    at[99] = 7;
    MUST(!web_malloc(SIZE_MAX) && !web_malloc(MOST + 1) && !web_malloc((size_t)PAGES * PAGE));
    MUST(!web_realloc(at, SIZE_MAX) && !web_realloc(at, (size_t)PAGES * PAGE) && at[99] == 7);
    MUST(first_free->bytes == free_bytes);
    web_free(NOTHING);
    MUST(web_realloc(at, 10) == at);
    web_free(at);
}

/* The toolchain's three: a size of zero, and a refusal. */
static void toolchain(void) {
    taken it = rattle_alloc(0, 48), other = rattle_alloc(SIZE_MAX, 8);
    MUST(it.found == 1 && ((block *)it.at - 1)->bytes >= 48 + sizeof(block));
    MUST(other.found == 0 && other.at == refused && (uintptr_t)other.at % 16 == 0);
    ((unsigned char *)it.at)[47] = 9;
    it = rattle_realloc(it.at, 48, 5000, 8);
    MUST(it.found == 1 && ((unsigned char *)it.at)[47] == 9);
    other = rattle_realloc(it.at, 5000, SIZE_MAX, 8);
    MUST(other.found == 0 && other.at == refused && ((unsigned char *)it.at)[47] == 9);
    rattle_dealloc(it.at);
}

static void bytes(void) {
    MUST(web_memcmp("abc", "abd", 3) < 0 && web_memcmp("\xff", "a", 1) > 0);
    MUST(web_memcmp("abc", "abd", 2) == 0 && web_memcmp("a", "b", 0) == 0);
    MUST(web_bcmp("abc", "abd", 3) != 0 && web_bcmp("abc", "abd", 2) == 0);
    MUST(web_strlen("") == 0 && web_strlen("four") == 4);
}

int main(void) {
    by_chance();
    refusals();
    toolchain();
    bytes();
    puts("memory: right");
    return 0;
}
