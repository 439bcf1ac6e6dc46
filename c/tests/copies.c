/* copies.c - a handle is copied by dasd_copy at turns by chance: in the middle of programs of two channels, before endings and
 * interruptions that pend, while arms move. What each copy answers from then on, what main storage and the volumes have in the end, is
 * what a handle answers and has that is never copied; and so is what the copied one does itself. Main storage is the handle's, or is
 * lent. With HEAP each taking of memory of a copy is refused in turn, too. */
#include <stdint.h>
#include <string.h>

#include "../dasd.h"
#include "digits.h"
#include "tests.h"

enum { TURNS = 6000, SIZE = 8192, LINE = 64, FOLLOWED = 80 };

/* An emulator: its handle, the memory that it lends, if it does, and what it draws its turns from. */
typedef struct machine {
    dasd d;
    uint32_t chance;
    int is_lent;
    uint8_t bytes[SIZE], keys[SIZE / 2048];
} machine;

/* The programs, at their addresses. 200 has the identifiers of records 0 and 1, from 208 two records stand to be written, and from 2F8
 * cylinders and heads for seeks; 300 and behind it take what is read. */
static const struct {
    uint32_t at;
    const char *words;
} programs[] = {
    {0x100, "31000200 40000005 08000100 00000000 1D000208 60000094 1D0002A0 60000050 06000300 28000020"}, /* two records, PCI */
    {0x130, "31000206 40000005 08000130 00000000 05000318 80000010 00000320 20000030"},                   /* new data, data chaining */
    {0x150, "070002F8 40000006 1A000380 28000005 04000390 20000006"},                                     /* Seek and home address */
    {0x170, "1E000400 68000100 06000500 60000100 0E000600 20000100"},                                     /* Read CKD, data, key and data */
    {0x190, "070002F0 20000006"},                                                                         /* Seek alone */
    {0x1A0, "31000206 40000005 080001A0 00000000 0D0003FF 20000003"},                                     /* key and data cut short */
    {0x1D0, "04000390 20000006"},                                                                         /* Sense */
};
static const char identifiers[] = "0000000000 000000000001";
static const char one[] = "0000000001 040080", two[] = "0000000002 000048", seeks[] = "000000000002 0000000000000003";

static uint32_t next(uint32_t *chance, uint32_t below) {
    *chance = *chance * 1664525U + 1013904223U;
    return (*chance >> 8) % below;
}

static dasd_memory lent(machine *m) { return (dasd_memory){m->bytes, SIZE, m->keys, sizeof m->keys}; }

static void poke(machine *m, uint32_t at, const uint8_t *bytes, size_t len) {
    if (m->is_lent) memcpy(m->bytes + at, bytes, len);
    else CHECK(dasd_poke(&m->d, at, bytes, len) == DASD_DONE);
}

static void store(machine *m, uint32_t at, const char *hexadecimal) {
    uint8_t bytes[64];
    poke(m, at, bytes, bytes_of(hexadecimal, bytes, sizeof bytes));
}

static void peek(machine *m, uint32_t at, uint8_t *into, size_t len) {
    if (m->is_lent) memcpy(into, m->bytes + at, len);
    else CHECK(dasd_peek(&m->d, at, into, len) == DASD_DONE);
}

static void make(machine *m, int is_lent) {
    memset(m, 0, sizeof *m);
    m->chance = 20241127;
    m->is_lent = is_lent;
    const uint8_t channels = DASD_CHANNEL(1) | DASD_CHANNEL(2);
    CHECK((is_lent ? dasd_new_lent(&m->d, SIZE, channels) : dasd_new(&m->d, SIZE, channels)) == DASD_DONE);
    CHECK(dasd_attach_new(&m->d, 0x190, 2314, 1) == DASD_DONE && dasd_attach_new(&m->d, 0x191, 2311, 4) == DASD_DONE);
    CHECK(dasd_attach_new(&m->d, 0x290, 2311, 3) == DASD_DONE);
    for (size_t i = 0; i < sizeof programs / sizeof *programs; i++) store(m, programs[i].at, programs[i].words);
    store(m, 0x200, identifiers);
    store(m, 0x208, one);
    store(m, 0x2A0, two);
    store(m, 0x2F0, seeks);
}

static int32_t sio(machine *m, uint16_t address, uint32_t at, uint8_t key) {
    const uint8_t caw[4] = {(uint8_t)(key << 4), 0, (uint8_t)(at >> 8), (uint8_t)at};
    dasd_memory memory = lent(m);
    poke(m, 0x48, caw, sizeof caw);
    return m->is_lent ? dasd_lent_sio(&m->d, &memory, address) : dasd_sio(&m->d, address);
}

static int32_t run_on(machine *m, uint8_t channel, uint32_t units, dasd_run *ran) {
    dasd_memory memory = lent(m);
    ran->units = units;
    return m->is_lent ? dasd_lent_run_on(&m->d, &memory, channel, ran) : dasd_run_on(&m->d, channel, units, ran);
}

static int32_t interrupt(machine *m, uint8_t channels, uint16_t *address) {
    dasd_memory memory = lent(m);
    return m->is_lent ? dasd_lent_interrupt(&m->d, &memory, channels, address) : dasd_interrupt(&m->d, channels, address);
}

static int32_t test_or_halt(machine *m, uint16_t address, int halts) {
    dasd_memory memory = lent(m);
    if (halts) return m->is_lent ? dasd_lent_hio(&m->d, &memory, address) : dasd_hio(&m->d, address);
    return m->is_lent ? dasd_lent_tio(&m->d, &memory, address) : dasd_tio(&m->d, address);
}

static void set_key(machine *m, uint32_t block, uint8_t key) {
    if (m->is_lent) m->keys[block] = key;
    else CHECK(dasd_set_key(&m->d, block * 2048, key) == DASD_DONE);
}

/* One turn, and the line that it types: what was done, what came of it, the channel status word, and the sense of a drive. */
static void turn(machine *m, char line[LINE]) {
    static const uint16_t drives[] = {0x190, 0x191, 0x290};
    const uint16_t address = drives[next(&m->chance, 3)];
    const uint32_t what = next(&m->chance, 100);
    dasd_run ran = {0, 0, 0, 0, 0};
    dasd_drive drive;
    uint16_t from = 0;
    uint8_t csw[8];
    int32_t code;
    if (what < 55) code = run_on(m, (uint8_t)(1 + next(&m->chance, 2)), 1 + next(&m->chance, 12), &ran);
    else if (what < 72) code = sio(m, address, programs[next(&m->chance, sizeof programs / sizeof *programs)].at, (uint8_t)next(&m->chance, 2));
    else if (what < 84) code = interrupt(m, next(&m->chance, 4) ? 0xFE : (uint8_t)next(&m->chance, 256), &from);
    else if (what < 90) code = dasd_arrive(&m->d, address);
    else if (what < 95) code = test_or_halt(m, address, 0);
    else if (what < 97) code = test_or_halt(m, address, 1);
    else if (what < 98) code = dasd_tch(&m->d, address), set_key(m, next(&m->chance, 2), (uint8_t)next(&m->chance, 2));
    else code = dasd_is_pending(&m->d, 0xFE);
    peek(m, 0x40, csw, sizeof csw);
    CHECK(dasd_show_drive(&m->d, address, &drive) == DASD_DONE);
    int typed =
        snprintf(line, LINE, "%03X %u %d %u %u%02X%u %03X ", address, what, code, ran.units, ran.subchannel, ran.device, ran.asked, from);
    for (int i = 0; i < 8; i++) typed += snprintf(line + typed, LINE - (size_t)typed, "%02X", csw[i]);
    snprintf(line + typed, LINE - (size_t)typed, " %u%u%u %02X%02X", drive.cylinder, drive.head, drive.arm, drive.sense[0], drive.sense[1]);
}

/* A copy of a machine, with the memory that it lends. */
static void copy(machine *from, machine *to) {
    *to = *from;
    to->d = (dasd)DASD_NOTHING;
    CHECK(dasd_copy(&from->d, &to->d) == DASD_DONE);
}

/* Two machines have the same main storage and keys and, once their programs are cut, the same volumes. */
static void compare(machine *a, machine *b) {
    static const uint16_t drives[] = {0x190, 0x191, 0x290};
    static uint8_t left[SIZE], right[SIZE];
    dasd_track track;
    peek(a, 0, left, SIZE);
    peek(b, 0, right, SIZE);
    CHECK(!memcmp(left, right, SIZE) && !memcmp(a->keys, b->keys, sizeof a->keys));
    for (uint32_t at = 0; at < SIZE && !a->is_lent; at += 2048) CHECK(dasd_key(&a->d, at) == dasd_key(&b->d, at));
    for (uint8_t channel = 1; channel < 3; channel++) CHECK(!dasd_reset(&a->d, channel, &track) && !dasd_reset(&b->d, channel, &track));
    for (size_t i = 0; i < 3; i++) {
        dasd_file f = {0}, g = {0};
        CHECK(dasd_show_file(&a->d, drives[i], 0, &f) == DASD_DONE && dasd_show_file(&b->d, drives[i], 0, &g) == DASD_DONE);
        CHECK(f.at != g.at && f.len == g.len && f.changes == g.changes && f.changes > 1 && !memcmp(f.at, g.at, f.len));
    }
}

static char typed[TURNS][LINE];

/* From a turn on a machine types what the one that was never copied does. */
static void follow(machine *m, size_t turns, size_t until) {
    for (size_t i = turns; i < until && i < TURNS; i++) {
        char line[LINE];
        turn(m, line);
        if (strcmp(line, typed[i]) != 0) {
            printf("turn %zu of a copy of turn %zu: %s\nand not: %s\n", i, turns, line, typed[i]);
            failures++;
            return;
        }
    }
}

/* How many copies were made while a program ran. */
static unsigned runs_at(machine *m) {
    dasd_state first = {0}, second = {0};
    CHECK(dasd_show_channel(&m->d, 1, &first) == DASD_DONE && dasd_show_channel(&m->d, 2, &second) == DASD_DONE);
    return first.subchannel == DASD_WORKING || second.subchannel == DASD_WORKING;
}

static void by_chance(int is_lent) {
    static machine plain, now, other;
    uint32_t chance = 53;
    unsigned copies = 0, running = 0;
    make(&plain, is_lent);
    for (size_t i = 0; i < TURNS; i++) turn(&plain, typed[i]);
    make(&now, is_lent);
    for (size_t i = 0; i < TURNS && !failures; i++) {
        if (next(&chance, 12) == 0) {
            running += runs_at(&now);
            copy(&now, &other);
            follow(&other, i, copies % 64 == 0 ? TURNS : i + FOLLOWED);
            if (copies++ % 64 == 0) {
                machine last = plain;
                last.d = (dasd)DASD_NOTHING;
                CHECK(dasd_copy(&plain.d, &last.d) == DASD_DONE);
                compare(&other, &last);
                CHECK(dasd_free(&last.d) == DASD_DONE);
            }
            CHECK(dasd_free(&other.d) == DASD_DONE);
            if (copies % 3 == 0) { /* a copy goes on in the place of the first one */
                copy(&now, &other);
                CHECK(dasd_free(&now.d) == DASD_DONE);
                now = other;
            }
        }
        follow(&now, i, i + 1);
    }
    compare(&now, &plain);
    CHECK(copies > 300 && running > 200);
    printf("%u copies, %u of them while a program ran\n", copies, running);
    CHECK(dasd_free(&now.d) == DASD_DONE && dasd_free(&plain.d) == DASD_DONE);
}

/* A handle that holds nothing is not copied, nor is one over another; and what is refused changes neither. */
static void refused(void) {
    dasd empty = DASD_NOTHING, other = DASD_NOTHING;
    static machine m;
    make(&m, 0);
    CHECK(dasd_copy(&empty, &other) == DASD_NOTHING_HELD && dasd_copy(&empty, &m.d) == DASD_NOTHING_HELD && other.stamp == 0);
    CHECK(dasd_new(&other, 4096, DASD_CHANNEL(0)) == DASD_DONE && dasd_copy(&m.d, &other) == DASD_IN_USE);
    CHECK(dasd_tch(&other, 0x000) == 0 && dasd_tch(&other, 0x190) == 3 && dasd_tch(&m.d, 0x190) == 0);
    CHECK(dasd_free(&other) == DASD_DONE && dasd_free(&m.d) == DASD_DONE && dasd_copy(&m.d, &other) == DASD_NOTHING_HELD);
}

#ifdef HEAP
extern long heap_refuse_at, heap_live;

static void refused_memory(void) {
    static machine m;
    dasd other = DASD_NOTHING;
    char line[LINE];
    int32_t told = DASD_NO_MEMORY;
    long n = 0;
    make(&m, 0);
    for (int i = 0; i < 500; i++) turn(&m, line);
    const long held = heap_live;
    while (told == DASD_NO_MEMORY) {
        heap_refuse_at = ++n;
        told = dasd_copy(&m.d, &other);
        if (told == DASD_NO_MEMORY) CHECK(heap_live == held && dasd_tch(&other, 0x190) == DASD_NOTHING_HELD && runs_at(&m) < 2);
    }
    heap_refuse_at = 0;
    CHECK(told == DASD_DONE && n > 10 && heap_live > held);
    CHECK(dasd_free(&other) == DASD_DONE && heap_live == held && dasd_free(&m.d) == DASD_DONE && heap_live == 0);
    printf("memory was refused %ld times\n", n - 1);
}
#endif

int main(void) {
    by_chance(0);
    by_chance(1);
    refused();
#ifdef HEAP
    refused_memory();
#endif
    return failures ? EXIT_FAILURE : EXIT_SUCCESS;
}
