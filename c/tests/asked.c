/* asked.c - the calls that take a handle as `const` leave it as it is, to its bytes, also where they are refused and while a program runs;
 * and a handle that is moved goes on at its new place. */
#include <string.h>

#include "../dasd.h"
#include "digits.h"
#include "tests.h"

/* A program that runs: Read R0 to 200, of which five units are done. */
static void made(dasd *d) {
    uint8_t bytes[16];
    uint32_t done;
    CHECK(dasd_new(d, 65536, DASD_CHANNEL(1)) == DASD_DONE && dasd_attach_new(d, 0x190, 2314, 1) == DASD_DONE);
    CHECK(dasd_poke(d, 0x48, bytes, bytes_of("00000100", bytes, sizeof bytes)) == DASD_DONE);
    CHECK(dasd_poke(d, 0x100, bytes, bytes_of("1600020020000010", bytes, sizeof bytes)) == DASD_DONE);
    CHECK(dasd_sio(d, 0x190) == 0 && dasd_step(d, 1, 5, &done) == DASD_DONE && done == 5);
}

/* Each call that asks, once answered and once refused. */
static void ask(const dasd *d, int runs) {
    dasd copy = DASD_NOTHING;
    dasd_drive drive;
    dasd_state state;
    dasd_program program;
    dasd_registers registers;
    dasd_file file;
    uint8_t byte;
    CHECK(dasd_tch(d, 0x190) == (runs ? 2 : 0) && dasd_tch(d, 0x290) == 3 && dasd_is_pending(d, 0xFE) == 0);
    CHECK(dasd_show_drive(d, 0x190, &drive) == DASD_DONE && dasd_show_drive(d, 0x191, &drive) == DASD_NO_DRIVE);
    CHECK(dasd_show_channel(d, 1, &state) == DASD_DONE && dasd_show_channel(d, 2, &state) == DASD_NO_CHANNEL);
    CHECK(dasd_show_program(d, 1, &program) == (runs ? DASD_DONE : DASD_NO_PROGRAM));
    CHECK(dasd_show_registers(d, 1, &registers) == (runs ? DASD_DONE : DASD_NO_PROGRAM) && dasd_show_program(d, 2, &program) == DASD_NO_CHANNEL);
    CHECK(dasd_show_file(d, 0x190, 0, &file) == (runs ? DASD_PROGRAM_RUNS : DASD_DONE));
    CHECK(dasd_show_file(d, 0x290, 0, &file) == DASD_NO_CHANNEL);
    CHECK(dasd_peek(d, 0x48, &byte, 1) == DASD_DONE && dasd_peek(d, 65536, &byte, 1) == DASD_OUTSIDE_STORAGE);
    CHECK(dasd_key(d, 0) == 0 && dasd_key(d, 65536) == DASD_OUTSIDE_STORAGE);
    CHECK(dasd_copy(d, &copy) == DASD_DONE && dasd_copy(d, &copy) == DASD_IN_USE && dasd_free(&copy) == DASD_DONE);
}

static void ends(dasd *d) {
    uint16_t from = 0;
    dasd_run ran;
    CHECK(dasd_run_on(d, 1, 1000, &ran) == DASD_DONE && ran.subchannel == DASD_ENDED && dasd_interrupt(d, 0xFE, &from) == 1 && from == 0x190);
}

int main(void) {
    dasd d = DASD_NOTHING, moved;
    uint8_t before[sizeof d];
    made(&d);
    memcpy(before, &d, sizeof d);
    ask(&d, 1);
    CHECK(!memcmp(&d, before, sizeof d));
    moved = d; /* in the middle of its program */
    d = (dasd)DASD_NOTHING;
    CHECK(dasd_tch(&d, 0x190) == DASD_NOTHING_HELD);
    ends(&moved);
    ask(&moved, 0);
    CHECK(!memcmp(&moved, before, sizeof d) && dasd_free(&moved) == DASD_DONE && dasd_free(&d) == DASD_NOTHING_HELD);
    if (!failures) printf("asked: all is as it must be\n");
    return failures != 0;
}
