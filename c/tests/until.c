/* until.c - a channel program runs until something happens that is waited for, and what its units came to is counted. What is wanted was
 * worked out by hand: a unit is a word that is fetched, an index that passes, a byte that moves, or an end; Start I/O does the first one. The
 * channel behind it is the one that as many units of dasd_run_on leave. */
#include <stdint.h>
#include <string.h>

#include "../dasd.h"
#include "storage.h"
#include "tests.h"

enum { SIZE = 65536, ANY = DASD_UNTIL_ASKED | DASD_UNTIL_CYLINDER | DASD_UNTIL_TRACK };

/* At 100: Seek to cylinder 5, head 3; Seek to cylinder 2, head 3; Read Home Address to 400; Read R0, skipped, which asks; and, behind the
 * index, Search ID for a record that is not there, until the index passes again. At 200: Search Key, multi-track, on tracks without keys.
 * At 240: Sense to 600, and No Operation, of which both ask. At 280: Set File Mask, and Write Data of record 0, which store nothing. At 2C0:
 * Read R0, half of it to 400 and half to 500. */
static const struct {
    uint32_t at;
    const char *bytes;
} laid[] = {
    {0x100, "07000300 40000006 07000306 40000006 1A000400 40000005 16000500 78000010 31000315 40000005 08000120 00000000"},
    {0x200, "A9000300 40000001 08000200 00000000"},
    {0x240, "04000600 68000006 03000000 68000001 03000000 20000001"},
    {0x280, "1F000320 40000001 31000310 40000005 08000288 00000000 05000700 20000008"},
    {0x2C0, "16000400 80000004 00000500 20000004"},
    {0x300, "000000050003 000000020003 0000000000 0005000307"},
    {0x310, "0000000000 0005000307 000000000000 C0"},
};

/* What is wanted of a run: how many units and what they came to, and what the last brought. */
typedef struct row {
    uint32_t start, until, units, bytes, indexes, cylinders, stored, low, high;
    uint8_t subchannel, asked, stopped;
} row;

enum { GOES_ON = DASD_WORKING, ENDS = DASD_ENDED };

/* A row with a start begins a program there, with a new handle; one without goes on. */
static const row rows[] = {
    {0x100, 0, 51, 38, 2, 8, 5, 0x400, 0x404, ENDS, 0, 0},
    {0x100, DASD_UNTIL_ASKED, 23, 17, 0, 8, 5, 0x400, 0x404, GOES_ON, 1, DASD_UNTIL_ASKED},
    {0, DASD_UNTIL_ASKED, 28, 21, 2, 0, 0, 0, 0, ENDS, 0, 0},
    {0x100, DASD_UNTIL_CYLINDER, 7, 6, 0, 5, 0, 0, 0, GOES_ON, 0, DASD_UNTIL_CYLINDER},
    {0, DASD_UNTIL_CYLINDER | DASD_UNTIL_TRACK, 8, 6, 0, 3, 0, 0, 0, GOES_ON, 0, DASD_UNTIL_CYLINDER | DASD_UNTIL_TRACK},
    {0, ANY, 8, 5, 0, 0, 5, 0x400, 0x404, GOES_ON, 1, DASD_UNTIL_ASKED},
    {0, 0, 28, 21, 2, 0, 0, 0, 0, ENDS, 0, 0},
    {0x240, ANY, 9, 6, 0, 0, 6, 0x600, 0x605, ENDS, 0, 0}, /* Start I/O fetched the word that asks */
    {0x280, ANY, 19, 14, 0, 0, 0, 0, 0, ENDS, 0, 0},
    {0x2C0, 0, 10, 8, 0, 0, 8, 0x400, 0x503, ENDS, 0, 0},
};

/* The drive is the last of eight. */
static void attach(dasd *d) {
    for (uint16_t address = 0x197; address >= 0x190; address--) CHECK(dasd_attach_new(d, address, 2311, address == 0x190 ? 6 : 1) == DASD_DONE);
}

static void made(dasd *d) {
    CHECK(dasd_new(d, SIZE, DASD_CHANNEL(1) | DASD_CHANNEL(2)) == DASD_DONE);
    attach(d);
    for (size_t i = 0; i < sizeof laid / sizeof *laid; i++) store(d, laid[i].at, laid[i].bytes);
}

static void start(dasd *d, uint32_t at) {
    const uint8_t caw[4] = {0, 0, (uint8_t)(at >> 8), (uint8_t)at};
    dasd_track unsaved;
    CHECK(dasd_reset(d, 1, &unsaved) == 0 && dasd_poke(d, 0x48, caw, sizeof caw) == DASD_DONE && dasd_sio(d, 0x190) == 0);
}

static int are_same(const dasd_registers *r, const dasd_registers *s) {
    return r->passed == s->passed && r->credited == s->credited && r->cylinder == s->cylinder && r->head == s->head &&
           !memcmp(r->sense, s->sense, sizeof r->sense) && r->area == s->area && r->lap == s->lap && r->mask == s->mask &&
           r->mask_set == s->mask_set && r->credit == s->credit;
}

/* Two handles show the same, and have the same in main storage. */
static void are_alike(dasd *d, dasd *e) {
    dasd_program p, q;
    dasd_registers r, s;
    dasd_drive x, y;
    dasd_storage a, b;
    memset(&p, 0, sizeof p);
    memset(&q, 0, sizeof q);
    memset(&r, 0, sizeof r);
    memset(&s, 0, sizeof s);
    CHECK(dasd_show_program(d, 1, &p) == dasd_show_program(e, 1, &q) && memcmp(&p, &q, sizeof p) == 0);
    CHECK(dasd_show_registers(d, 1, &r) == dasd_show_registers(e, 1, &s) && are_same(&r, &s));
    CHECK(dasd_show_drive(d, 0x190, &x) == DASD_DONE && dasd_show_drive(e, 0x190, &y) == DASD_DONE && memcmp(&x, &y, sizeof x) == 0);
    CHECK(dasd_show_storage(d, &a) == DASD_DONE && dasd_show_storage(e, &b) == DASD_DONE && memcmp(a.at, b.at, SIZE) == 0);
}

/* A run, and as many units of a copy by dasd_run_on. */
static dasd_progress run(dasd *d, uint32_t units, uint8_t until) {
    dasd copy = DASD_NOTHING;
    dasd_progress ran;
    dasd_run same;
    memset(&ran, 0xFF, sizeof ran);
    CHECK(dasd_copy(d, &copy) == DASD_DONE && dasd_run_until(d, 1, units, until, &ran) == DASD_DONE && ran.units <= units);
    CHECK(dasd_run_on(&copy, 1, ran.units, &same) == DASD_DONE && same.units == ran.units);
    CHECK(same.subchannel == ran.subchannel && same.device == ran.device && same.asked == ran.asked);
    CHECK(memcmp(ran.reserved, "\0\0\0\0", sizeof ran.reserved) == 0);
    are_alike(d, &copy);
    CHECK(dasd_free(&copy) == DASD_DONE);
    return ran;
}

static int is_as_wanted(const dasd_progress *ran, const row *want) {
    return ran->units == want->units && ran->bytes == want->bytes && ran->indexes == want->indexes && ran->cylinders == want->cylinders &&
           ran->stored == want->stored && ran->low == want->low && ran->high == want->high && ran->subchannel == want->subchannel &&
           ran->device == 0x90 && ran->asked == want->asked && ran->stopped == want->stopped;
}

/* Where none pends, no interruption is taken. */
static void poll(dasd *d) {
    uint16_t from;
    if (!dasd_is_pending(d, 0xFE)) CHECK(dasd_interrupt(d, 0xFE, &from) == 0);
}

static void by_hand(void) {
    dasd d = DASD_NOTHING;
    for (size_t i = 0; i < sizeof rows / sizeof *rows; i++) {
        if (rows[i].start) {
            dasd_free(&d);
            made(&d);
            start(&d, rows[i].start);
        }
        poll(&d);
        const dasd_progress ran = run(&d, 1000, (uint8_t)rows[i].until);
        CHECK(dasd_is_pending(&d, 0xFE) == (ran.asked || ran.subchannel == DASD_ENDED));
        if (!is_as_wanted(&ran, &rows[i])) {
            printf("until.c: row %d: units %u bytes %u indexes %u cylinders %u stored %u %x %x subchannel %d asked %d stopped %d\n", (int)i,
                   ran.units, ran.bytes, ran.indexes, (unsigned)ran.cylinders, ran.stored, ran.low, ran.high, ran.subchannel, ran.asked,
                   ran.stopped);
            failures++;
        }
    }
    CHECK(dasd_free(&d) == DASD_DONE);
}

/* Each head is a track, and each index but the last goes to the next: ten heads of a 2311. Behind the last the command fails. */
static void by_heads(void) {
    dasd d = DASD_NOTHING;
    made(&d);
    start(&d, 0x200);
    for (int head = 0; head < 10; head++) {
        const dasd_progress ran = run(&d, 1000, DASD_UNTIL_TRACK);
        CHECK(ran.units == 1 && ran.indexes == 1 && ran.bytes == 0 && ran.cylinders == 0 && ran.stopped == (head < 9 ? DASD_UNTIL_TRACK : 0));
        CHECK(ran.subchannel == (head < 9 ? DASD_WORKING : DASD_ENDED));
    }
    CHECK(dasd_free(&d) == DASD_DONE);
}

/* However a run is cut into pieces, the sums are the same, and each piece ends where it may. */
static void in_pieces(void) {
    for (uint32_t most = 1; most < 12; most++) {
        dasd d = DASD_NOTHING;
        dasd_progress ran;
        uint32_t units = 0, bytes = 0, indexes = 0, stored = 0, stops = 0;
        made(&d);
        start(&d, 0x100);
        do {
            poll(&d);
            ran = run(&d, most, ANY);
            CHECK(dasd_is_pending(&d, 0xFE) == (ran.asked || ran.subchannel == DASD_ENDED));
            CHECK(ran.units == most || ran.stopped || ran.subchannel == DASD_ENDED);
            units += ran.units, bytes += ran.bytes, indexes += ran.indexes, stored += ran.stored, stops += ran.stopped != 0;
        } while (ran.subchannel == DASD_WORKING);
        CHECK(units == 51 && bytes == 38 && indexes == 2 && stored == 5 && stops == 3);
        ran = run(&d, most, ANY); /* its program is over */
        CHECK(ran.units == 0 && ran.subchannel == DASD_ENDED && ran.stopped == 0 && ran.low == 0 && ran.high == 0);
        CHECK(dasd_free(&d) == DASD_DONE);
    }
}

/* Unit by unit, with a poll before each: the ending pends after the last. */
static void with_polls(void) {
    dasd d = DASD_NOTHING;
    uint16_t from;
    made(&d);
    start(&d, 0x280);
    do CHECK(dasd_interrupt(&d, 0xFE, &from) == 0);
    while (run(&d, 1, 0).subchannel == DASD_WORKING);
    CHECK(dasd_is_pending(&d, 0xFE) == 1 && dasd_free(&d) == DASD_DONE);
}

/* Units of a channel leave the interruption that pends at another one. */
static void another_pends(void) {
    static const uint8_t caw[4] = {0, 0, 2, 0x40};
    dasd d = DASD_NOTHING;
    dasd_run ran;
    uint16_t from = 0;
    made(&d);
    CHECK(dasd_attach_new(&d, 0x290, 2311, 1) == DASD_DONE && dasd_poke(&d, 0x48, caw, 4) == DASD_DONE && dasd_sio(&d, 0x290) == 0);
    CHECK(dasd_run_on(&d, 2, 1000, &ran) == DASD_DONE && ran.subchannel == DASD_ENDED);
    start(&d, 0x100);
    for (int unit = 0; unit < 6; unit++) CHECK(run(&d, 1, 0).units == 1 && dasd_is_pending(&d, 0xFE) == 1);
    CHECK(dasd_is_pending(&d, DASD_CHANNEL(1)) == 0 && dasd_interrupt(&d, 0xFE, &from) == 1 && from == 0x290);
    CHECK(dasd_free(&d) == DASD_DONE);
}

/* The same over main storage that is lent. */
static void another_pends_lent(dasd *d, dasd_memory *memory) {
    dasd_progress ran = {0};
    dasd_run other = {1000, 0, 0, 0, 0};
    uint16_t from = 0;
    memory->bytes[0x4A] = 2;
    memory->bytes[0x4B] = 0x40;
    CHECK(dasd_lent_sio(d, memory, 0x490) == 0 && dasd_lent_run_on(d, memory, 4, &other) == DASD_DONE && other.subchannel == DASD_ENDED);
    ran.units = 1;
    for (int unit = 0; unit < 6; unit++)
        CHECK(dasd_lent_run_until(d, memory, 1, 0, &ran) == DASD_DONE && ran.units == 1 && dasd_is_pending(d, 0xFE) == 1);
    CHECK(dasd_lent_interrupt(d, memory, 0xFE, &from) == 1 && from == 0x490);
}

/* What is refused changes nothing; and a channel that is available does no units. */
static void refused(void) {
    dasd d = DASD_NOTHING;
    dasd_progress ran, before;
    dasd_run one;
    uint32_t units;
    memset(&ran, 0x5A, sizeof ran);
    before = ran;
    CHECK(dasd_run_until(&d, 1, 5, 0, &ran) == DASD_NOTHING_HELD);
    made(&d);
    start(&d, 0x100);
    CHECK(dasd_run_until(&d, 1, 5, 8, &ran) == DASD_BAD_UNTIL && dasd_run_until(&d, 1, 5, 0x81, &ran) == DASD_BAD_UNTIL);
    CHECK(dasd_run_until(&d, 3, 5, 0xFF, &ran) == DASD_BAD_UNTIL && dasd_run_until(&d, 3, 5, ANY, &ran) == DASD_NO_CHANNEL);
    CHECK(dasd_run_on(&d, 3, 5, &one) == DASD_NO_CHANNEL && dasd_step(&d, 3, 5, &units) == DASD_NO_CHANNEL);
    CHECK(dasd_run_until(&d, 7, 5, ANY, &ran) == DASD_NO_CHANNEL && dasd_run_until(&d, 255, 5, ANY, &ran) == DASD_NO_CHANNEL);
    CHECK(memcmp(&ran, &before, sizeof ran) == 0);
    CHECK(dasd_run_until(&d, 2, 5, ANY, &ran) == DASD_DONE && ran.units == 0 && ran.subchannel == DASD_AVAILABLE && ran.device == 0);
    ran = run(&d, 0, ANY);
    CHECK(ran.units == 0 && ran.subchannel == DASD_WORKING && ran.device == 0x90 && ran.stopped == 0);
    ran = run(&d, 1000, DASD_UNTIL_CYLINDER);
    CHECK(ran.units == 7 && ran.stopped == DASD_UNTIL_CYLINDER);
    CHECK(dasd_free(&d) == DASD_DONE);
}

/* Begins a program of the table over main storage that is lent. */
static void lend(dasd *d, dasd_memory *memory, uint32_t at) {
    memset(memory->bytes, 0, memory->size);
    CHECK(dasd_new_lent(d, SIZE, DASD_CHANNEL(1) | DASD_CHANNEL(4)) == DASD_DONE && dasd_attach_new(d, 0x490, 2311, 1) == DASD_DONE);
    attach(d);
    for (size_t i = 0; i < sizeof laid / sizeof *laid; i++) bytes_of(laid[i].bytes, memory->bytes + laid[i].at, MOST_BYTES);
    memory->bytes[0x4A] = (uint8_t)(at >> 8);
    memory->bytes[0x4B] = (uint8_t)at;
    CHECK(dasd_lent_sio(d, memory, 0x190) == 0);
}

/* The same over main storage that is lent: `units` says before how many are done at most. */
static void lent(void) {
    static uint8_t bytes[SIZE], keys[SIZE / 2048];
    dasd d = DASD_NOTHING;
    dasd_memory memory = {bytes, SIZE, keys, sizeof keys};
    dasd_progress ran = {0};
    lend(&d, &memory, 0x100);
    ran.units = 1000;
    CHECK(dasd_run_until(&d, 1, 5, ANY, &ran) == DASD_NO_STORAGE && dasd_lent_run_until(&d, &memory, 1, 16, &ran) == DASD_BAD_UNTIL);
    CHECK(dasd_lent_run_until(&d, &memory, 2, ANY, &ran) == DASD_NO_CHANNEL && ran.units == 1000);
    memory.blocks--;
    CHECK(dasd_lent_run_until(&d, &memory, 1, 16, &ran) == DASD_BAD_BLOCKS && ran.units == 1000);
    memory.blocks++;
    for (size_t i = 0; i < sizeof rows / sizeof *rows; i++) {
        if (rows[i].start) {
            CHECK(dasd_free(&d) == DASD_DONE);
            lend(&d, &memory, rows[i].start);
        }
        uint16_t from;
        if (!dasd_is_pending(&d, 0xFE)) CHECK(dasd_lent_interrupt(&d, &memory, 0xFE, &from) == 0);
        ran.units = 0;
        CHECK(dasd_lent_run_until(&d, &memory, 1, ANY, &ran) == DASD_DONE && ran.units == 0 && ran.subchannel == DASD_WORKING && !ran.stopped);
        CHECK(ran.asked == dasd_is_pending(&d, 0xFE));
        ran.units = 1000;
        CHECK(dasd_lent_run_until(&d, &memory, 1, (uint8_t)rows[i].until, &ran) == DASD_DONE && is_as_wanted(&ran, &rows[i]));
        CHECK(dasd_is_pending(&d, 0xFE) == (ran.asked || ran.subchannel == DASD_ENDED));
    }
    ran.units = 0;
    CHECK(dasd_lent_run_until(&d, &memory, 1, ANY, &ran) == DASD_DONE && ran.units == 0 && ran.subchannel == DASD_ENDED);
    CHECK(dasd_lent_run_until(&d, &memory, 7, ANY, &ran) == DASD_NO_CHANNEL);
    CHECK(dasd_free(&d) == DASD_DONE);
    lend(&d, &memory, 0x100);
    another_pends_lent(&d, &memory);
    CHECK(dasd_free(&d) == DASD_DONE);
    lend(&d, &memory, 0x280);
    do { /* unit by unit, with a poll before each */
        uint16_t from;
        CHECK(dasd_lent_interrupt(&d, &memory, 0xFE, &from) == 0);
        ran.units = 1;
        CHECK(dasd_lent_run_until(&d, &memory, 1, 0, &ran) == DASD_DONE && ran.units == 1);
    } while (ran.subchannel == DASD_WORKING);
    CHECK(dasd_is_pending(&d, 0xFE) == 1);
    CHECK(dasd_free(&d) == DASD_DONE);
}

int main(void) {
    by_hand();
    by_heads();
    in_pieces();
    with_polls();
    another_pends();
    refused();
    lent();
    if (failures == 0) puts("until.c: all checks passed");
    return failures != 0;
}
