/* moved.c - see moved.h. The memory of a handle is taken by malloc or mapped in turn; what stood at the place before is spoilt. */
#define _DEFAULT_SOURCE /* NOLINT(bugprone-reserved-identifier): what glibc asks for where MAP_ANONYMOUS is wanted */
#define MOVING
#include "moved.h"

#include <stdlib.h>
#include <string.h>
#include <sys/mman.h>

enum { HANDLES = 8, BLOCK = 2048 };

/* Memory that is lent to the calls of a handle. */
typedef struct lent {
    dasd *d;
    dasd_memory memory;
    int is_mapped;
} lent;

static lent all[HANDLES];

static lent *memory_of(const dasd *d) {
    for (size_t i = 0; i < HANDLES; i++)
        if (all[i].d == d) return &all[i];
    return NULL;
}

/* Bytes with keys behind them, at a new place. */
static uint8_t *room(size_t len, int mapped) {
    uint8_t *at = mapped ? mmap(NULL, len, PROT_READ | PROT_WRITE, MAP_PRIVATE | MAP_ANONYMOUS, -1, 0) : malloc(len);
    if (!at || at == MAP_FAILED) abort();
    return at;
}

static void drop(lent *m) {
    size_t len = m->memory.size + m->memory.blocks;
    memset(m->memory.bytes, 0xA5, len);
    if (m->is_mapped) munmap(m->memory.bytes, len);
    else free(m->memory.bytes);
}

/* The memory of a handle, which has been moved. */
static dasd_memory *moved(dasd *d) {
    static dasd_memory none;
    lent *m = memory_of(d);
    if (!m) return &none;
    lent before = *m;
    size_t size = m->memory.size, blocks = m->memory.blocks;
    m->is_mapped = !before.is_mapped;
    m->memory.bytes = room(size + blocks, m->is_mapped);
    m->memory.keys = m->memory.bytes + size;
    memcpy(m->memory.bytes, before.memory.bytes, size + blocks);
    drop(&before);
    return &m->memory;
}

int32_t moved_new(dasd *d, uint32_t storage_bytes, uint8_t channels) {
    int32_t code = dasd_new_lent(d, storage_bytes, channels);
    if (code != DASD_DONE) return code;
    lent *m = memory_of(NULL);
    size_t blocks = storage_bytes / BLOCK;
    if (!m) abort();
    m->d = d;
    m->is_mapped = 0;
    m->memory.bytes = room(storage_bytes + blocks, 0);
    m->memory.size = storage_bytes;
    m->memory.keys = m->memory.bytes + storage_bytes;
    m->memory.blocks = blocks;
    memset(m->memory.bytes, 0, storage_bytes + blocks);
    return code;
}

int32_t moved_free(dasd *d) {
    lent *m = memory_of(d);
    if (m) {
        drop(m);
        memset(m, 0, sizeof *m);
    }
    return dasd_free(d);
}

int32_t moved_sio(dasd *d, uint16_t address) { return dasd_lent_sio(d, moved(d), address); }
int32_t moved_tio(dasd *d, uint16_t address) { return dasd_lent_tio(d, moved(d), address); }
int32_t moved_hio(dasd *d, uint16_t address) { return dasd_lent_hio(d, moved(d), address); }
int32_t moved_interrupt(dasd *d, uint8_t channels, uint16_t *address) { return dasd_lent_interrupt(d, moved(d), channels, address); }

int32_t moved_run_on(dasd *d, uint8_t channel, uint32_t units, dasd_run *ran) {
    dasd_run run = {units, 0, 0, 0, 0};
    int32_t code = dasd_lent_run_on(d, moved(d), channel, &run);
    if (code == DASD_DONE) *ran = run;
    return code;
}

int32_t moved_step(dasd *d, uint8_t channel, uint32_t units, uint32_t *done) {
    int32_t code = dasd_lent_step(d, moved(d), channel, &units);
    if (code == DASD_DONE) *done = units;
    return code;
}

int32_t moved_trace_look(dasd *d, dasd_trace *trace, const dasd_moment *moment) { return dasd_lent_trace_look(d, moved(d), trace, moment); }

static int is_inside(const dasd_memory *m, uint32_t at, size_t len) { return len <= m->size && at <= m->size - len; }

int32_t moved_peek(dasd *d, uint32_t at, uint8_t *into, size_t len) {
    lent *m = memory_of(d);
    if (!m) return DASD_NOTHING_HELD;
    if (!len) return DASD_DONE;
    if (!is_inside(&m->memory, at, len)) return DASD_OUTSIDE_STORAGE;
    memcpy(into, m->memory.bytes + at, len);
    return DASD_DONE;
}

int32_t moved_poke(dasd *d, uint32_t at, const uint8_t *bytes, size_t len) {
    lent *m = memory_of(d);
    if (!m) return DASD_NOTHING_HELD;
    if (!len) return DASD_DONE;
    if (!is_inside(&m->memory, at, len)) return DASD_OUTSIDE_STORAGE;
    memcpy(m->memory.bytes + at, bytes, len);
    return DASD_DONE;
}

int32_t moved_set_key(dasd *d, uint32_t at, uint8_t key) {
    lent *m = memory_of(d);
    if (!m) return DASD_NOTHING_HELD;
    if (key > 15) return DASD_BAD_KEY;
    if (at >= m->memory.size) return DASD_OUTSIDE_STORAGE;
    m->memory.bytes[m->memory.size + at / BLOCK] = key;
    return DASD_DONE;
}

int32_t moved_show_storage(dasd *d, dasd_storage *shown) {
    lent *m = memory_of(d);
    if (!m) return DASD_NOTHING_HELD;
    shown->at = m->memory.bytes;
    shown->len = m->memory.size;
    return DASD_DONE;
}
