/* lent.c - main storage that is lent: taken by malloc, mapped, a part of a larger memory; moved between two units of a program; and
 * memories that are refused by name. */
#define _DEFAULT_SOURCE /* NOLINT(bugprone-reserved-identifier): what glibc asks for where MAP_ANONYMOUS is wanted */
#include <stdint.h>
#include <stdlib.h>
#include <string.h>
#include <sys/mman.h>

#include "../dasd.h"
#include "digits.h"
#include "tests.h"

enum { SIZE = 65536, BLOCKS = SIZE / 2048, MOST = 16777216 };

static void store(dasd_memory *m, uint32_t at, const char *hexadecimal) { bytes_of(hexadecimal, m->bytes + at, m->size - at); }

static int shows(const dasd_memory *m, uint32_t at, const char *hexadecimal) {
    uint8_t want[128];
    return !memcmp(m->bytes + at, want, bytes_of(hexadecimal, want, sizeof want));
}

/* Main storage in this memory, all zero, with keys of zero. */
static dasd_memory over(uint8_t *bytes, uint8_t *keys) {
    dasd_memory m = {bytes, SIZE, keys, BLOCKS};
    memset(bytes, 0, SIZE);
    memset(keys, 0, BLOCKS);
    return m;
}

/* A channel with a drive, and a program that reads the 16 bytes of record 0 to 300 with the key 1, which that block has. */
static void made(dasd *d, dasd_memory *m, uint8_t *keys) {
    keys[0] = 1;
    CHECK(dasd_new_lent(d, SIZE, DASD_CHANNEL(1)) == DASD_DONE && dasd_attach_new(d, 0x190, 2314, 1) == DASD_DONE);
    store(m, 0x48, "10000100");
    store(m, 0x100, "16000300 00000010");
}

static const char record_0[] = "0000000000 000008 0000000000000000";

/* Starts the program, lets it end, and takes its interruption. */
static void runs(dasd *d, dasd_memory *m) {
    dasd_run ran = {1000000, 0, 0, 0, 0};
    uint16_t from = 0;
    CHECK(dasd_lent_sio(d, m, 0x190) == 0 && dasd_is_pending(d, 0xFE) == 0);
    CHECK(dasd_lent_run_on(d, m, 1, &ran) == DASD_DONE && ran.units > 0 && ran.units < 1000000 && ran.subchannel == DASD_ENDED);
    CHECK(dasd_is_pending(d, 0xFE) == 1 && dasd_lent_interrupt(d, m, 0xFE, &from) == 1 && from == 0x190);
    CHECK(dasd_is_pending(d, 0xFE) == 0 && dasd_lent_interrupt(d, m, 0xFE, &from) == 0);
}

static void wherever_it_lies(void) {
    uint8_t keys[BLOCKS], *large = malloc((size_t)3 * SIZE),
                          *mapped = mmap(NULL, SIZE, PROT_READ | PROT_WRITE, MAP_SHARED | MAP_ANONYMOUS, -1, 0);
    uint8_t *places[] = {large, large + SIZE + 1, mapped};
    CHECK(large && mapped != MAP_FAILED);
    for (size_t i = 0; i < sizeof places / sizeof *places; i++) {
        dasd d = DASD_NOTHING;
        dasd_memory m = over(places[i], keys);
        made(&d, &m, keys);
        runs(&d, &m);
        CHECK(shows(&m, 0x300, record_0) && shows(&m, 0x40, "10000108 0C000000"));
        CHECK(dasd_lent_tio(&d, &m, 0x190) == 0 && dasd_lent_hio(&d, &m, 0x190) == 1 && dasd_tch(&d, 0x190) == 0);
        CHECK(dasd_free(&d) == DASD_DONE);
    }
    munmap(mapped, SIZE);
    free(large);
}

/* Between any two units it is at another place, and what was there before is gone. */
static void moves(void) {
    uint8_t keys[2][BLOCKS], *bytes[2] = {malloc(SIZE), malloc(SIZE)};
    dasd d = DASD_NOTHING;
    dasd_memory m = over(bytes[0], keys[0]);
    dasd_run ran = {0, DASD_WORKING, 0, 0, 0};
    made(&d, &m, keys[0]);
    CHECK(dasd_lent_sio(&d, &m, 0x190) == 0);
    for (int turn = 1; ran.subchannel == DASD_WORKING; turn ^= 1) {
        memcpy(bytes[turn], m.bytes, SIZE);
        memcpy(keys[turn], m.keys, BLOCKS);
        memset(m.bytes, 0xA5, SIZE);
        memset(keys[!turn], 0xA5, BLOCKS);
        m.bytes = bytes[turn];
        m.keys = keys[turn];
        ran.units = 1;
        CHECK(dasd_lent_run_on(&d, &m, 1, &ran) == DASD_DONE && ran.units <= 1);
    }
    CHECK(ran.subchannel == DASD_ENDED && shows(&m, 0x300, record_0));
    CHECK(dasd_free(&d) == DASD_DONE);
    free(bytes[0]);
    free(bytes[1]);
}

/* What the processor stores between two units the program finds: here the word behind a chain of commands. */
static void is_shared(void) {
    uint8_t keys[BLOCKS], *bytes = malloc(SIZE);
    dasd d = DASD_NOTHING;
    dasd_memory m = over(bytes, keys);
    dasd_run ran = {1, 0, 0, 0, 0};
    uint32_t units = 1;
    made(&d, &m, keys);
    CHECK(dasd_lent_step(&d, &m, 1, &units) == DASD_DONE && units == 0);
    units = 1;
    CHECK(dasd_lent_step(&d, &m, 2, &units) == DASD_NO_CHANNEL && units == 1);
    store(&m, 0x100, "16000300 40000010 03000000 20000001");
    CHECK(dasd_lent_sio(&d, &m, 0x190) == 0 && dasd_lent_step(&d, &m, 1, &units) == DASD_DONE && units == 1 && dasd_tch(&d, 0x190) == 2);
    store(&m, 0x108, "16000400 20000010");
    ran.units = 1000000;
    CHECK(dasd_lent_run_on(&d, &m, 1, &ran) == DASD_DONE && ran.subchannel == DASD_ENDED && shows(&m, 0x400, record_0));
    CHECK(dasd_free(&d) == DASD_DONE);
    free(bytes);
}

/* The keys that are lent are asked: the program has the key 1. One above 15 admits the key 0 alone. */
static void keys_are_asked(void) {
    static const struct {
        uint8_t storage, program;
        int stores;
    } each[] = {{0, 1, 0}, {1, 1, 1}, {2, 1, 0}, {2, 0, 1}, {0x11, 1, 0}, {0xF0, 15, 0}, {0xFF, 15, 0}, {0xFF, 0, 1}};
    uint8_t keys[BLOCKS], *bytes = malloc(SIZE);
    for (size_t i = 0; i < sizeof each / sizeof *each; i++) {
        dasd d = DASD_NOTHING;
        dasd_memory m = over(bytes, keys);
        made(&d, &m, keys);
        keys[0] = each[i].storage;
        bytes[0x48] = (uint8_t)(each[i].program << 4);
        runs(&d, &m);
        CHECK(shows(&m, 0x300, record_0) == each[i].stores && shows(&m, 0x45, each[i].stores ? "00" : "10"));
        CHECK(dasd_free(&d) == DASD_DONE);
    }
    free(bytes);
}

static int32_t calls(dasd *d, dasd_memory *m, int which) {
    dasd_run ran = {7, 7, 7, 7, 7};
    uint16_t from = 7;
    uint32_t units = 7;
    int32_t code = which == 0   ? dasd_lent_sio(d, m, 0x190)
                   : which == 1 ? dasd_lent_tio(d, m, 0x190)
                   : which == 2 ? dasd_lent_hio(d, m, 0x190)
                   : which == 3 ? dasd_lent_run_on(d, m, 1, &ran)
                   : which == 4 ? dasd_lent_step(d, m, 1, &units)
                                : dasd_lent_interrupt(d, m, 0xFE, &from);
    CHECK(ran.units == 7 && ran.subchannel == 7 && ran.device == 7 && ran.asked == 7 && ran.reserved == 7 && from == 7 && units == 7);
    return code;
}

static void is_refused(void) {
    static const struct {
        size_t size, blocks;
        int32_t code;
    } each[] = {{0, 0, DASD_BAD_SIZE},
                {2048, 1, DASD_BAD_SIZE},
                {SIZE - 1, BLOCKS, DASD_BAD_SIZE},
                {SIZE + 1, BLOCKS, DASD_BAD_SIZE},
                {SIZE + 2047, BLOCKS, DASD_BAD_SIZE},
                {MOST + 2048, MOST / 2048 + 1, DASD_BAD_SIZE},
                {SIZE, 0, DASD_BAD_BLOCKS},
                {SIZE, BLOCKS - 1, DASD_BAD_BLOCKS},
                {SIZE, BLOCKS + 1, DASD_BAD_BLOCKS},
                {SIZE, SIZE, DASD_BAD_BLOCKS},
                {4096, 2, DASD_OTHER_SIZE},
                {SIZE - 2048, BLOCKS - 1, DASD_OTHER_SIZE}};
    uint8_t *keys = malloc(MOST), *bytes = malloc(MOST + 2048), *before = malloc(SIZE);
    dasd d = DASD_NOTHING;
    dasd_memory m = over(bytes, keys);
    for (int which = 0; which < 6; which++) CHECK(calls(&d, &m, which) == DASD_NOTHING_HELD);
    made(&d, &m, keys);
    memcpy(before, bytes, SIZE);
    for (size_t i = 0; i < sizeof each / sizeof *each; i++)
        for (int which = 0; which < 6; which++) {
            dasd_memory bad = {bytes, each[i].size, keys, each[i].blocks};
            CHECK(calls(&d, &bad, which) == each[i].code && !memcmp(bytes, before, SIZE) && dasd_tch(&d, 0x190) == 0);
            CHECK(bad.bytes == bytes && bad.size == each[i].size && bad.keys == keys && bad.blocks == each[i].blocks);
        }
    runs(&d, &m);
    CHECK(dasd_new_lent(&d, SIZE, DASD_CHANNEL(1)) == DASD_IN_USE && dasd_free(&d) == DASD_DONE);
    CHECK(dasd_new_lent(&d, SIZE, 0) == DASD_BAD_CHANNELS && dasd_new_lent(&d, SIZE + 1, 0x40) == DASD_BAD_SIZE);
    free(keys);
    free(bytes);
    free(before);
}

/* Calls that need storage say that a handle has none; and one that has its own is lent another, and keeps it. */
static void has_its_own_or_none(void) {
    uint8_t keys[BLOCKS], *bytes = malloc(SIZE), one[1] = {7};
    dasd d = DASD_NOTHING;
    dasd_memory m = over(bytes, keys);
    dasd_run ran = {7, 7, 7, 7, 7};
    dasd_storage place = {one, 7};
    uint16_t from = 7;
    uint32_t done = 7;
    made(&d, &m, keys);
    CHECK(dasd_sio(&d, 0x190) == DASD_NO_STORAGE && dasd_tio(&d, 0x190) == DASD_NO_STORAGE && dasd_hio(&d, 0x190) == DASD_NO_STORAGE);
    CHECK(dasd_step(&d, 1, 5, &done) == DASD_NO_STORAGE && dasd_run_on(&d, 1, 5, &ran) == DASD_NO_STORAGE && done == 7 && ran.units == 7);
    CHECK(dasd_interrupt(&d, 0xFE, &from) == DASD_NO_STORAGE && from == 7 && dasd_show_storage(&d, &place) == DASD_NO_STORAGE &&
          place.at == one);
    CHECK(dasd_peek(&d, 0, one, 1) == DASD_NO_STORAGE && dasd_poke(&d, 0, one, 1) == DASD_NO_STORAGE && one[0] == 7);
    CHECK(dasd_key(&d, 0) == DASD_NO_STORAGE && dasd_set_key(&d, 0, 1) == DASD_NO_STORAGE && dasd_set_key(&d, 0, 16) == DASD_NO_STORAGE);
    CHECK(dasd_free(&d) == DASD_DONE);
    CHECK(dasd_new(&d, SIZE, DASD_CHANNEL(1)) == DASD_DONE && dasd_attach_new(&d, 0x190, 2314, 1) == DASD_DONE);
    runs(&d, &m);
    CHECK(shows(&m, 0x300, record_0) && dasd_peek(&d, 0x40, one, 1) == DASD_DONE && one[0] == 0);
    CHECK(dasd_show_storage(&d, &place) == DASD_DONE && place.len == SIZE && place.at != bytes);
    for (size_t i = 0; i < SIZE; i++) CHECK(!place.at[i]);
    CHECK(dasd_free(&d) == DASD_DONE);
    free(bytes);
}

int main(void) {
    wherever_it_lies();
    moves();
    is_shared();
    keys_are_asked();
    is_refused();
    has_its_own_or_none();
    if (!failures) printf("lent: all is as it must be\n");
    return failures != 0;
}
