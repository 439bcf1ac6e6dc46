/* several.c - channels over one main storage: what one stores another finds, interruptions come by number under a mask, and what is
 * done at one channel leaves the others. */
#include <stdint.h>
#include <string.h>

#include "../dasd.h"
#include "storage.h"
#include "tests.h"

/* Record 1 of the first track is written from 208, or its eight bytes are read to 210. 200 has the identifiers of record 0 and 1. */
#define WRITE_AT(program) "31000200 40000005 08000" program " 00000000 1D000208 20000010"
#define READ_AT(program) "31000208 40000005 08000" program " 00000000 06000210 20000008"
static const char identifiers[] = "0000000000 000000 0000000001 000008";
static const char text[] = "E3C5E2E3 40F14040", zeros[] = "00000000 00000000";

/* Two channels with a drive of the same low byte each. */
static void made(dasd *d) {
    CHECK(dasd_new(d, 65536, DASD_CHANNEL(1) | DASD_CHANNEL(2)) == DASD_DONE);
    CHECK(dasd_attach_new(d, 0x190, 2314, 2) == DASD_DONE && dasd_attach_new(d, 0x290, 2311, 1) == DASD_DONE);
    store(d, 0x200, identifiers);
}

/* Starts the program that stands at a place. */
static void start(dasd *d, uint16_t address, uint32_t at, const char *words) {
    const uint8_t caw[4] = {0, 0, (uint8_t)(at >> 8), (uint8_t)at};
    store(d, at, words);
    CHECK(dasd_poke(d, 0x48, caw, sizeof caw) == DASD_DONE && dasd_sio(d, address) == 0);
}

static void ends(dasd *d, uint8_t channel) {
    dasd_run ran;
    CHECK(dasd_run_on(d, channel, 1000000, &ran) == DASD_DONE && ran.units > 0 && ran.subchannel == DASD_ENDED);
}

static void interrupts(dasd *d, uint8_t channels, uint16_t address) {
    uint16_t from = 0xFFF;
    CHECK(dasd_is_pending(d, channels) == 1 && dasd_interrupt(d, channels, &from) == 1 && from == address);
}

static int no_interruption(dasd *d, uint8_t channels) {
    uint16_t from = 0xFFF;
    return dasd_is_pending(d, channels) == 0 && dasd_interrupt(d, channels, &from) == 0 && from == 0xFFF;
}

static uint8_t subchannel(dasd *d, uint8_t channel) {
    dasd_state s;
    CHECK(dasd_show_channel(d, channel, &s) == DASD_DONE);
    return s.subchannel;
}

/* What channel 1 reads while both run is what channel 2 writes. */
static void one_writes_what_the_other_reads(void) {
    dasd d = DASD_NOTHING;
    dasd_file first, second;
    made(&d);
    store(&d, 0x210, text);
    start(&d, 0x190, 0x100, WRITE_AT("100"));
    ends(&d, 1);
    interrupts(&d, 0xFE, 0x190);
    store(&d, 0x210, zeros);
    start(&d, 0x290, 0x140, WRITE_AT("140"));
    start(&d, 0x190, 0x100, READ_AT("100"));
    CHECK(dasd_sio(&d, 0x290) == 2 && dasd_tch(&d, 0x100) == 2 && dasd_tch(&d, 0x200) == 2 && dasd_tch(&d, 0x300) == 3);
    CHECK(shows(&d, 0x210, zeros));
    ends(&d, 1);
    CHECK(shows(&d, 0x210, text) && dasd_tch(&d, 0x100) == 1 && dasd_tch(&d, 0x200) == 2);
    CHECK(dasd_show_file(&d, 0x190, 0, &first) == DASD_DONE && dasd_show_file(&d, 0x290, 0, &second) == DASD_PROGRAM_RUNS);
    ends(&d, 2);
    CHECK(dasd_show_file(&d, 0x290, 0, &second) == DASD_DONE);
    CHECK(!memcmp(second.at + 512 + 5 + 16, "\0\0\0\0\1\0\0\10\xE3\xC5\xE2\xE3\x40\xF1\x40\x40", 16));
    CHECK(!memcmp(first.at + 512 + 5 + 16, second.at + 512 + 5 + 16, 16));
    CHECK(dasd_free(&d) == DASD_DONE);
}

/* The lowest number first, of those that the mask has. */
static void interruptions_come_by_number(void) {
    static const char read_r0[] = "16000300 20000010";
    dasd d = DASD_NOTHING;
    made(&d);
    for (int round = 0; round < 2; round++) {
        start(&d, 0x290, 0x140, read_r0);
        start(&d, 0x190, 0x100, read_r0);
        CHECK(no_interruption(&d, 0xFE));
        ends(&d, 2); /* the higher one first */
        CHECK(no_interruption(&d, DASD_CHANNEL(1)));
        ends(&d, 1);
        CHECK(no_interruption(&d, DASD_CHANNEL(0) | DASD_CHANNEL(3)) && no_interruption(&d, 0x01) && no_interruption(&d, 0));
        interrupts(&d, round ? DASD_CHANNEL(2) : 0xFE, round ? 0x290 : 0x190);
        CHECK(shows(&d, 0x40, round ? "00000148 0C000000" : "00000108 0C000000"));
        CHECK(no_interruption(&d, round ? DASD_CHANNEL(2) : DASD_CHANNEL(1)));
        interrupts(&d, 0xFE, round ? 0x190 : 0x290);
        CHECK(no_interruption(&d, 0xFF));
    }
    CHECK(dasd_free(&d) == DASD_DONE);
}

/* Units are a channel's own, and so are a reset, an arm, and the drives. */
static void one_leaves_the_other(void) {
    dasd d = DASD_NOTHING;
    dasd_track t;
    dasd_drive v;
    uint32_t done;
    made(&d);
    store(&d, 0x210, text);
    start(&d, 0x190, 0x100, WRITE_AT("100"));
    start(&d, 0x290, 0x140, WRITE_AT("140"));
    CHECK(dasd_step(&d, 1, 5, &done) == DASD_DONE && done == 5 && subchannel(&d, 2) == DASD_WORKING);
    CHECK(dasd_reset(&d, 1, &t) == 0 && subchannel(&d, 1) == DASD_AVAILABLE && subchannel(&d, 2) == DASD_WORKING);
    CHECK(dasd_step(&d, 1, 5, &done) == DASD_DONE && done == 0 && dasd_tio(&d, 0x190) == 0 && dasd_tio(&d, 0x290) == 2);
    CHECK(dasd_detach(&d, 0x190) == DASD_DONE && dasd_sio(&d, 0x190) == 3 && dasd_detach(&d, 0x290) == DASD_PROGRAM_RUNS);
    CHECK(dasd_hio(&d, 0x190) == 3 && dasd_hio(&d, 0x290) == 2 && dasd_detach(&d, 0x290) == DASD_ENDING_PENDS);
    interrupts(&d, DASD_CHANNEL(2), 0x290);
    store(&d, 0x220, "0000 0000 0003");
    start(&d, 0x290, 0x140, "07000220 20000006"); /* Seek */
    ends(&d, 2);
    interrupts(&d, 0xFE, 0x290);
    CHECK(dasd_attach_new(&d, 0x190, 2314, 3) == DASD_DONE && dasd_arrive(&d, 0x190) == 0 && dasd_arrive(&d, 0x390) == 0);
    CHECK(dasd_show_drive(&d, 0x190, &v) == DASD_DONE && v.model == 2314 && v.cylinders == 3 && v.head == 0 && v.arm == DASD_AT_REST);
    CHECK(dasd_show_drive(&d, 0x290, &v) == DASD_DONE && v.model == 2311 && v.cylinders == 1 && v.head == 3 && v.arm == DASD_IN_MOTION);
    CHECK(dasd_arrive(&d, 0x290) == 1 && no_interruption(&d, DASD_CHANNEL(1)));
    interrupts(&d, 0xFE, 0x290);
    CHECK(dasd_free(&d) == DASD_DONE);
}

/* All seven, each with eight drives. */
static void all_seven(void) {
    dasd d = DASD_NOTHING;
    dasd_storage s;
    dasd_state v;
    CHECK(dasd_new(&d, 2048, 0) == DASD_BAD_CHANNELS && dasd_new(&d, 4096, 0xFF) == DASD_BAD_CHANNELS);
    CHECK(dasd_new(&d, 2048, 0xFE) == DASD_BAD_SIZE && dasd_new(&d, 4096, 0xFE) == DASD_DONE);
    for (uint16_t channel = 0; channel < 7; channel++) {
        for (uint16_t unit = 0; unit < 8; unit++) CHECK(dasd_attach_new(&d, (uint16_t)(channel << 8 | unit), 2311, 1) == DASD_DONE);
        CHECK(dasd_attach_new(&d, (uint16_t)(channel << 8 | 9), 2311, 1) == DASD_FULL);
        CHECK(dasd_show_channel(&d, (uint8_t)channel, &v) == DASD_DONE && v.drives == 8 && v.units[7] == 7);
    }
    CHECK(dasd_attach_new(&d, 0x700, 2311, 1) == DASD_NO_CHANNEL && dasd_show_channel(&d, 7, &v) == DASD_NO_CHANNEL);
    CHECK(dasd_attach_new(&d, 0xFF00, 2311, 1) == DASD_NO_CHANNEL && dasd_sio(&d, 0x700) == 3 && dasd_tch(&d, 0xFF00) == 3);
    CHECK(dasd_show_storage(&d, &s) == DASD_DONE && s.len == 4096);
    for (uint16_t channel = 0; channel < 7; channel++) CHECK(dasd_tio(&d, (uint16_t)(channel << 8)) == 0);
    CHECK(dasd_free(&d) == DASD_DONE);
}

int main(void) {
    one_writes_what_the_other_reads();
    interruptions_come_by_number();
    one_leaves_the_other();
    all_seven();
    return failures ? EXIT_FAILURE : EXIT_SUCCESS;
}
