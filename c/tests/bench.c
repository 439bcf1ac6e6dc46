/* bench.c - the works of crates/bench by whole channel programs, through the handle: what an emulator pays for a call of the library.
 *
 *     bench LETTER PASSES      LETTER: A B C D S U W, over a full volume of a 2314, as `bench channel LETTER PASSES` does it there;
 *                              or over one cylinder, 1,000 times a pass and without a look at what was stored: 0, a Read R0, and
 *                              1, a Read Data of 80 bytes behind a search that fails once
 *
 * Counted by callgrind, a pass is what `bench A 1` takes beyond `bench A 0`. It prints how many programs ended as they must.
 * Compiled with LENT, main storage is this program's own, which each call is lent. */
#include <inttypes.h>
#include <stdint.h>
#include <stdio.h>
#include <stdlib.h>
#include <string.h>

#include "../dasd.h"

enum { SIZE = 65536, ADDRESS = 0x190, CYLINDERS = 203, HEADS = 20, RECORDS = 7, DATA = 900, LONG_DATA = 7294, ONE_DATA = 80 };
enum { FIRST = 0x400, OPERANDS = 0x200, SEARCHED = 0x202, COUNTS = 0x300, BUFFER = 0x2000, CAW = 72, CSW = 64 };
enum { CHAIN_DATA = 0x80, CHAIN = 0x40 };

/* The handle, and where the next word of its program goes. */
typedef struct machine {
    dasd d;
    dasd_storage storage;
#ifdef LENT
    dasd_memory memory;
#endif
    uint32_t next;
    unsigned long ended, otherwise;
} machine;

/* Stores as the processor of an emulator does, to which main storage was shown. */
static void store(machine *m, uint32_t at, const void *bytes, size_t n) { memcpy(m->storage.at + at, bytes, n); }

static void word(machine *m, unsigned code, unsigned address, unsigned flags, unsigned count) {
    const uint8_t bytes[8] = {(uint8_t)code,  0, (uint8_t)(address >> 8), (uint8_t)address,
                              (uint8_t)flags, 0, (uint8_t)(count >> 8),   (uint8_t)count};
    store(m, m->next, bytes, sizeof bytes);
    m->next += 8;
}

/* A search that passes over the transfer behind it once it is satisfied. */
static void search(machine *m, unsigned code, unsigned count) {
    const uint32_t at = m->next;
    word(m, code, SEARCHED, CHAIN, count);
    word(m, 0x08, at, 0, 0);
}

static void last(machine *m, unsigned times, unsigned code, unsigned count) {
    while (times--) word(m, code, BUFFER, times ? CHAIN : 0, count);
}

static void format(machine *m, unsigned records, unsigned data) {
    for (unsigned i = 0; i < records; i++) {
        word(m, 0x1D, COUNTS + 8 * i, CHAIN_DATA, 8);
        word(m, 0, BUFFER, i + 1 < records ? CHAIN : 0, data);
    }
}

/* Stores what a program names of a track: its address, the record that is searched for, and the count areas of new ones. */
static void operands(machine *m, unsigned cylinder, unsigned head, unsigned record, unsigned records, unsigned data) {
    const uint8_t cc[4] = {(uint8_t)(cylinder >> 8), (uint8_t)cylinder, (uint8_t)(head >> 8), (uint8_t)head};
    const uint8_t seek[7] = {0, 0, cc[0], cc[1], cc[2], cc[3], (uint8_t)record};
    store(m, OPERANDS, seek, sizeof seek);
    for (unsigned i = 0; i < records; i++) {
        const uint8_t count[8] = {cc[0], cc[1], cc[2], cc[3], (uint8_t)(i + 1), 0, (uint8_t)(data >> 8), (uint8_t)data};
        store(m, COUNTS + 8 * i, count, sizeof count);
    }
}

#ifdef LENT
static int32_t sio(machine *m) { return dasd_lent_sio(&m->d, &m->memory, ADDRESS); }
static int32_t tio(machine *m) { return dasd_lent_tio(&m->d, &m->memory, ADDRESS); }
static int32_t run_on(machine *m, dasd_run *ran) {
    ran->units = UINT32_MAX;
    return dasd_lent_run_on(&m->d, &m->memory, 1, ran);
}
static int32_t make(machine *m) {
    static uint8_t bytes[SIZE], keys[SIZE / 2048];
    m->memory = (dasd_memory){bytes, sizeof bytes, keys, sizeof keys};
    m->storage = (dasd_storage){bytes, sizeof bytes};
    return dasd_new_lent(&m->d, SIZE, DASD_CHANNEL(1));
}
#else
static int32_t sio(machine *m) { return dasd_sio(&m->d, ADDRESS); }
static int32_t tio(machine *m) { return dasd_tio(&m->d, ADDRESS); }
static int32_t run_on(machine *m, dasd_run *ran) { return dasd_run_on(&m->d, 1, UINT32_MAX, ran); }
static int32_t make(machine *m) {
    int32_t code = dasd_new(&m->d, SIZE, DASD_CHANNEL(1));
    return code < 0 ? code : dasd_show_storage(&m->d, &m->storage);
}
#endif

/* Start I/O, units to the end, Test I/O; whether all was done, and channel end and device end alone are told. */
static void run(machine *m) {
    static const uint8_t caw[4] = {0, 0, FIRST >> 8, FIRST & 255};
    const uint8_t want[8] = {0, 0, (uint8_t)(m->next >> 8), (uint8_t)m->next, 0x0C, 0, 0, 0};
    dasd_run ran = {0, DASD_AVAILABLE, 0, 0, 0};
    store(m, CAW, caw, sizeof caw);
    if (sio(m) == 0) do
            if (run_on(m, &ran) != DASD_DONE) abort();
        while (ran.subchannel == DASD_WORKING);
    if (tio(m) == 1 && !memcmp(m->storage.at + CSW, want, sizeof want)) m->ended++;
    else m->otherwise++;
}

/* The three calls alone. */
static void run_alone(machine *m) {
    dasd_run ran;
    if (sio(m) == 0 && run_on(m, &ran) == DASD_DONE && tio(m) == 1) m->ended++;
    else m->otherwise++;
}

static int is_small(char work) { return work == '0' || work == '1'; }

/* The records that a work reads are written by programs. */
static void prepare(machine *m, char work, unsigned cylinders) {
    const unsigned records = work == 'D' || is_small(work) ? 1 : RECORDS, data = work == 'D' ? LONG_DATA : is_small(work) ? ONE_DATA : DATA;
    static uint8_t body[LONG_DATA];
    memset(body, 0xC1, sizeof body);
    store(m, BUFFER, body, sizeof body);
    m->next = FIRST;
    if (work == 'W') return;
    word(m, 0x07, OPERANDS, CHAIN, 6);
    search(m, 0x31, 5);
    format(m, records, data);
    for (unsigned track = 0; track < cylinders * HEADS; track++) {
        operands(m, track / HEADS, track % HEADS, 0, records, data);
        run(m);
    }
    m->next = FIRST;
}

/* The work's program. */
static void build(machine *m, char work) {
    if (!is_small(work)) word(m, 0x07, OPERANDS, CHAIN, 6);
    switch (work) {
    case 'B': last(m, RECORDS, 0x1E, 8 + DATA); break;
    case 'C': last(m, HEADS * RECORDS, 0x86, DATA); break;
    case 'D': search(m, 0x31, 5), last(m, 1, 0x06, LONG_DATA); break;
    case 'S': search(m, 0x39, 4), word(m, 0x16, BUFFER, CHAIN, 16), last(m, RECORDS, 0x06, DATA); break;
    case 'U': search(m, 0x31, 5), last(m, 1, 0x05, DATA); break;
    case 'W': search(m, 0x31, 5), format(m, RECORDS, DATA); break;
    case '0': last(m, 1, 0x16, 16); break;
    case '1': search(m, 0x31, 5), last(m, 1, 0x06, ONE_DATA); break;
    default: search(m, 0x31, 5), last(m, RECORDS, 0x06, DATA);
    }
}

static void pass(machine *m, char work) {
    if (is_small(work)) {
        for (int i = 0; i < 1000; i++) run_alone(m);
        return;
    }
    for (unsigned cylinder = 0; cylinder < CYLINDERS; cylinder++)
        for (unsigned head = 0; head < (work == 'C' ? 1 : HEADS); head++) {
            operands(m, cylinder, head, work != 'W', work == 'W' ? RECORDS : 0, DATA);
            run(m);
        }
}

int main(int argc, char **argv) {
    machine m = {.d = DASD_NOTHING};
    if (argc != 3 || strlen(argv[1]) != 1 || !strchr("ABCDSUW01", *argv[1])) {
        fprintf(stderr, "usage: bench A|B|C|D|S|U|W|0|1 PASSES\n");
        return 2;
    }
    const unsigned cylinders = is_small(*argv[1]) ? 1 : CYLINDERS;
    if (make(&m) < 0 || dasd_attach_new(&m.d, ADDRESS, 2314, (uint16_t)cylinders) < 0) return 1;
    prepare(&m, *argv[1], cylinders);
    operands(&m, 0, HEADS - 1, 1, 0, 0); /* where the last program left the arm: small works have no seek */
    build(&m, *argv[1]);
    for (long left = atol(argv[2]); left > 0; left--) pass(&m, *argv[1]);
    printf("%s: %lu programs, %lu ended otherwise\n", argv[1], m.ended + m.otherwise, m.otherwise);
    return dasd_free(&m.d) == DASD_DONE && !m.otherwise ? EXIT_SUCCESS : EXIT_FAILURE;
}
