/* runs.h - runs of the emulator of c/examples, by its copier, over four volumes: the machine is made, types on paper in memory, and comes to
 * its end, which is compared with that of another one. */
#ifndef RUNS_H
#define RUNS_H

#include <string.h>

#include "../examples/s360.h"
#include "tests.h"

static const uint64_t MOST_TICKS = 1000000000;

/* What a machine types. */
typedef struct paper {
    FILE *file;
    char *text;
    size_t len;
} paper;

static inline void feed(machine *m, paper *p) {
    p->file = open_memstream(&p->text, &p->len);
    if (!p->file) abort();
    m->console.paper = p->file;
}

/* The copier is loaded from the first of these volumes, with a unit of each channel a tick, and main storage in this file, or the library's. */
static inline void make(machine *m, char **volumes, const char *storage, paper *p) {
    static const uint16_t addresses[] = {0x190, 0x191, 0x290, 0};
    memset(m, 0, sizeof *m);
    if (open_storage(m, storage)) abort();
    memset(m->storage, 0, m->size);
    m->units_a_tick = 1;
    feed(m, p);
    for (int i = 0; i < 4; i++) {
        volume *v = read_volume(m, volumes[i], addresses[i] ? "" : "COPY02");
        if (!v || (addresses[i] && mount(m, v, addresses[i]))) abort();
    }
    CHECK(load(m, 0x190) == 0);
}

static inline void unmake(machine *m, paper *p) {
    fclose(p->file);
    free(p->text);
    free_volumes(m);
    CHECK(close_storage(m) == 0);
}

/* A volume's file, wherever it is. */
static inline dasd_bytes file_of(machine *m, int i) {
    const volume *v = &m->volumes[i];
    dasd_file shown = {v->bytes, v->len, 0};
    if (v->address) CHECK(dasd_show_file(&m->d, v->address, 0, &shown) == DASD_DONE);
    return (dasd_bytes){shown.at, shown.len};
}

/* Two machines have come to the same end. */
static inline void compare(machine *a, machine *b) {
    CHECK(a->clock == b->clock && a->at == b->at && a->at == 0 && !memcmp(a->r, b->r, sizeof a->r));
    CHECK(a->storage != b->storage && !memcmp(a->storage, b->storage, a->size));
    for (uint32_t at = 0; at < a->size; at += BLOCK) CHECK(storage_key_of(a, at) == storage_key_of(b, at));
    CHECK(a->volume_count == b->volume_count);
    for (int i = 0; i < a->volume_count; i++) {
        const dasd_bytes one = file_of(a, i), other = file_of(b, i);
        CHECK(a->volumes[i].address == b->volumes[i].address && !strcmp(a->volumes[i].path, b->volumes[i].path));
        CHECK(one.at != other.at && one.len == other.len && !memcmp(one.at, other.at, one.len));
    }
}

/* A machine that goes on where so many characters were typed runs to its end, and is there as the other one was, which typed all of this. */
static inline void follow(machine *m, machine *ended, const paper *whole, size_t typed) {
    paper rest;
    feed(m, &rest);
    CHECK(run(m, MOST_TICKS));
    fclose(rest.file);
    CHECK(rest.len == whole->len - typed && !memcmp(rest.text, whole->text + typed, rest.len));
    free(rest.text);
    compare(m, ended);
}

static uint32_t chance = 52;

static inline uint32_t below(uint32_t limit) {
    chance = chance * 1664525U + 1013904223U;
    return (uint32_t)((uint64_t)chance * limit >> 32);
}

#endif
