/* bench_turns.c - what an emulator's loop pays for, through the handle: programs of eight drives by turns, programs of two channels that run at
 * once, polls, and copies in the middle of a program.
 *
 *     bench_turns WORK PASSES      a pass is 1,000 of these, but of copies 10:
 *       drives     a program that finds and reads a record of 80 bytes, at each of eight drives of a channel in its turn
 *       channels   the same at two channels, a program on each at once, 20 units of each in turn
 *       idle       dasd_interrupt over seven channels with 56 drives, where nothing works or pends
 *       working    the same while a program runs on each of the seven
 *       copies     dasd_copy and dasd_free of a handle with eight drives in the middle of a program, each with a volume of one cylinder
 *       bytes      malloc, memcpy and free of the bytes that such a copy has of main storage and volumes
 *
 * Counted by callgrind, a pass is what a work with 1 takes beyond the same with 0. It prints how many were done, how many came out otherwise
 * than they must, and the processor time of the passes. A program must end with channel end and device end behind its last word, and have
 * read the record of its drive; a poll finds nothing; and a copy comes to the same end as what was copied. */
#include <inttypes.h>
#include <stdint.h>
#include <stdio.h>
#include <stdlib.h>
#include <string.h>
#include <time.h>

#include "../dasd.h"

enum { SIZE = 65536, EACH = 1000, COPIES = 10, DATA = 80, DRIVES = 8, SLICE = 20 };
enum { FIRST = 0x400, ROOM = 0x400, SEARCHED = 0x200, BUFFER = 0x4000, CAW = 72, CSW = 64 };

typedef struct machine {
    dasd d;
    dasd_storage storage;
    unsigned long done, otherwise;
} machine;

static void count(machine *m, int is_right) {
    m->done++;
    m->otherwise += !is_right;
}

static void word(machine *m, uint32_t *next, unsigned code, uint32_t address, unsigned flags, unsigned bytes) {
    const uint8_t spelled[8] = {(uint8_t)code,  0, (uint8_t)(address >> 8), (uint8_t)address,
                                (uint8_t)flags, 0, (uint8_t)(bytes >> 8),   (uint8_t)bytes};
    memcpy(m->storage.at + *next, spelled, sizeof spelled);
    *next += 8;
}

/* Each channel has a program of its own, and a buffer. */
static uint32_t program_of(unsigned channel) { return FIRST + ROOM * channel; }
static uint32_t buffer_of(unsigned channel) { return BUFFER + ROOM * channel; }

static int32_t start(machine *m, uint16_t address) {
    const uint32_t at = program_of(address >> 8);
    const uint8_t caw[4] = {0, 0, (uint8_t)(at >> 8), (uint8_t)at};
    memcpy(m->storage.at + CAW, caw, sizeof caw);
    return dasd_sio(&m->d, address);
}

/* The channel status word is stored, and tells the end of the program behind its last word, which stands there. */
static int ended(machine *m, uint16_t address, uint32_t behind) {
    const uint8_t want[8] = {0, 0, (uint8_t)(behind >> 8), (uint8_t)behind, 0x0C, 0, 0, 0};
    return dasd_tio(&m->d, address) == 1 && !memcmp(m->storage.at + CSW, want, sizeof want);
}

static int runs_on(machine *m, unsigned channel, uint32_t units) {
    dasd_run ran;
    if (dasd_run_on(&m->d, (uint8_t)channel, units, &ran) != DASD_DONE) abort();
    return ran.subchannel == DASD_WORKING;
}

/* Where the count area of a record of cylinder 0, head 0 stands, which begins with its identifier. */
static uint32_t area_of(machine *m, unsigned record) {
    const uint32_t at = SEARCHED + 16 * record;
    const uint8_t area[8] = {0, 0, 0, 0, (uint8_t)record, 0, 0, DATA};
    memcpy(m->storage.at + at, area, sizeof area);
    return at;
}

/* A search for a record, with the transfer back to it that a hit passes over; where the next word goes. */
static uint32_t find(machine *m, unsigned channel, unsigned record) {
    uint32_t next = program_of(channel);
    word(m, &next, 0x31, area_of(m, record), 0x40, 5);
    word(m, &next, 0x08, program_of(channel), 0, 0);
    return next;
}

static uint32_t build(machine *m, unsigned channel) {
    uint32_t next = find(m, channel, 1);
    word(m, &next, 0x06, buffer_of(channel), 0, DATA);
    return next;
}

static uint8_t body_of(uint16_t address) { return (uint8_t)(0xC0 + (address & 15) + 16 * (address >> 9)); }

static int has_read(const machine *m, uint16_t address) {
    const uint8_t *at = m->storage.at + buffer_of(address >> 8);
    for (int i = 0; i < DATA; i++)
        if (at[i] != body_of(address)) return 0;
    return 1;
}

/* Record 1 of a drive is written behind record 0. */
static void write_record(machine *m, uint16_t address) {
    const unsigned channel = address >> 8;
    uint32_t next = find(m, channel, 0);
    memset(m->storage.at + buffer_of(channel), body_of(address), DATA);
    word(m, &next, 0x1D, area_of(m, 1), 0x80, 8);
    word(m, &next, 0, buffer_of(channel), 0, DATA);
    if (start(m, address) || runs_on(m, channel, UINT32_MAX) || !ended(m, address, next)) abort();
}

static void make(machine *m, uint8_t channels, unsigned drives) {
    if (dasd_new(&m->d, SIZE, channels) < 0 || dasd_show_storage(&m->d, &m->storage) < 0) abort();
    for (unsigned channel = 0; channel < 7; channel++)
        for (unsigned i = 0; i < drives && (channels & DASD_CHANNEL(channel)); i++) {
            const uint16_t address = (uint16_t)(channel << 8 | 0x90 | i);
            if (dasd_attach_new(&m->d, address, 2314, 1) < 0) abort();
            write_record(m, address);
        }
    memset(m->storage.at + BUFFER, 0, SIZE - BUFFER);
}

static void drives(machine *m, long passes) {
    make(m, DASD_CHANNEL(1), DRIVES);
    const uint32_t behind = build(m, 1);
    for (long left = passes * EACH; left > 0; left--) {
        const uint16_t address = (uint16_t)(0x190 + left % DRIVES);
        const int is_done = start(m, address) == 0 && !runs_on(m, 1, UINT32_MAX);
        count(m, is_done && ended(m, address, behind) && has_read(m, address));
    }
}

static void channels(machine *m, long passes) {
    make(m, DASD_CHANNEL(1) | DASD_CHANNEL(2), 1);
    const uint32_t behind[2] = {build(m, 1), build(m, 2)};
    for (long left = passes * EACH; left > 0; left -= 2) {
        const int is_done = start(m, 0x190) == 0 && start(m, 0x290) == 0;
        for (int one = 1, other = 1; one || other;) one = runs_on(m, 1, SLICE), other = runs_on(m, 2, SLICE);
        count(m, is_done && ended(m, 0x190, behind[0]) && has_read(m, 0x190));
        count(m, is_done && ended(m, 0x290, behind[1]) && has_read(m, 0x290));
    }
}

static void polls(machine *m, long passes, int works) {
    uint16_t from;
    make(m, 0xFE, DRIVES);
    for (unsigned channel = 0; channel < 7 && works; channel++) {
        uint32_t next = program_of(channel);
        word(m, &next, 0x03, 0, 0x60, 1);
        word(m, &next, 0x08, program_of(channel), 0, 0);
        if (start(m, (uint16_t)(channel << 8 | 0x90))) abort();
    }
    for (long left = passes * EACH; left > 0; left--) count(m, dasd_interrupt(&m->d, 0xFE, &from) == 0);
    for (unsigned channel = 0; channel < 7; channel++) count(m, runs_on(m, channel, 100) == works);
}

/* In the middle of a read, at the last of eight drives. */
static void make_busy(machine *m) {
    make(m, DASD_CHANNEL(1), DRIVES);
    build(m, 1);
    if (start(m, 0x197) || !runs_on(m, 1, 20)) abort();
}

static int comes_to_its_end(dasd *copy) {
    dasd_run ran;
    uint16_t from;
    return dasd_run_on(copy, 1, 1000, &ran) == DASD_DONE && dasd_interrupt(copy, 0xFE, &from) == 1 && from == 0x197;
}

/* The last of the copies is run, the others are not. */
static void copies(machine *m, long passes) {
    dasd copy = DASD_NOTHING;
    make_busy(m);
    for (long left = passes * COPIES; left > 0; left--) {
        if (dasd_copy(&m->d, &copy) != DASD_DONE) abort();
        count(m, (left > 1 || comes_to_its_end(&copy)) && dasd_free(&copy) == DASD_DONE);
    }
    count(m, !runs_on(m, 1, 1000) && has_read(m, 0x197));
}

/* Main storage, and the files of the eight volumes. */
static void blocks_of(machine *m, dasd_bytes blocks[DRIVES + 1]) {
    blocks[0] = (dasd_bytes){m->storage.at, m->storage.len};
    for (unsigned i = 0; i < DRIVES; i++) {
        dasd_file shown;
        if (dasd_show_file(&m->d, (uint16_t)(0x190 + i), 0, &shown) != DASD_DONE) abort();
        blocks[i + 1] = (dasd_bytes){shown.at, shown.len};
    }
}

static void bytes(machine *m, long passes) {
    dasd_bytes blocks[DRIVES + 1];
    uint8_t *copied[DRIVES + 1];
    make_busy(m);
    if (runs_on(m, 1, 1000)) abort();
    blocks_of(m, blocks);
    for (long left = passes * COPIES; left > 0; left--) {
        int is_right = 1;
        for (int i = 0; i <= DRIVES; i++) {
            copied[i] = malloc(blocks[i].len);
            if (!copied[i]) abort();
            memcpy(copied[i], blocks[i].at, blocks[i].len);
        }
        for (int i = 0; i <= DRIVES; i++) {
            is_right = is_right && copied[i][blocks[i].len - 1] == blocks[i].at[blocks[i].len - 1];
            free(copied[i]);
        }
        count(m, is_right);
    }
}

static int work(machine *m, const char *name, long passes) {
    if (!strcmp(name, "drives")) drives(m, passes);
    else if (!strcmp(name, "channels")) channels(m, passes);
    else if (!strcmp(name, "idle")) polls(m, passes, 0);
    else if (!strcmp(name, "working")) polls(m, passes, 1);
    else if (!strcmp(name, "copies")) copies(m, passes);
    else if (!strcmp(name, "bytes")) bytes(m, passes);
    else return 0;
    return 1;
}

int main(int argc, char **argv) {
    machine m = {.d = DASD_NOTHING};
    const clock_t begins = clock();
    if (argc != 3 || !work(&m, argv[1], strtol(argv[2], NULL, 10))) {
        fprintf(stderr, "usage: bench_turns drives|channels|idle|working|copies|bytes PASSES\n");
        return 2;
    }
    const double microseconds = (double)(clock() - begins) * 1e6 / CLOCKS_PER_SEC;
    printf("%s: %lu done, %lu otherwise, %.0f microseconds\n", argv[1], m.done, m.otherwise, microseconds);
    return dasd_free(&m.d) == DASD_DONE && !m.otherwise ? EXIT_SUCCESS : EXIT_FAILURE;
}
