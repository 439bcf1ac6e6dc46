/* sized.c - the structs that may get fields go with their size: a caller with fewer fields is given those, one with more has zeros behind the
 * library's, and no byte behind a struct is written. The fields lie as the header says: numbers with the lowest byte first, and no byte
 * between them. What is wanted behind a unit of the program was worked out by hand, as in watched.c. */
#include <stddef.h>
#include <stdint.h>
#include <string.h>

#include "../dasd.h"
#include "storage.h"
#include "tests.h"

_Static_assert(sizeof(dasd_program) == 28 && offsetof(dasd_program, count) == 16 && offsetof(dasd_program, reserved) == 26, "a program");
_Static_assert(sizeof(dasd_registers) == 40 && offsetof(dasd_registers, sense) == 20 && offsetof(dasd_registers, reserved) == 31, "registers");
_Static_assert(sizeof(dasd_progress) == 40 && offsetof(dasd_progress, subchannel) == 32 && offsetof(dasd_progress, reserved) == 36, "progress");
_Static_assert(sizeof(dasd_wanted) == 8 && offsetof(dasd_wanted, until) == 5, "what is wanted");

enum { ROOM = 64, UNTOUCHED = 0xA5 };

/* Read R0 to 1234, whose word is fetched: it looks, with a count of 8 left. */
static const uint8_t program[28] = {0x00, 1, 0, 0, 0x08, 1, 0, 0, 0x34, 0x12, 0, 0, 0x34, 0x12, 0, 0, 8, 0, 8, 0, 0x90, 0, DASD_LOOKS, 0, 0x16};

/* Nothing has passed; the arm is at cylinder 2, head 3. */
static const uint8_t registers[40] = {0, 0, 0, 0, 0, 0, 0, 0, 0, 0, 0, 0, 0, 0, 0, 0, 2, 0, 3};

/* Of Read R0 each of the first four units moves a byte, the first of them behind its look: stored from 1234 on. */
static const uint8_t progress[40] = {
    0, 0, 0, 0, 0, 0, 0, 0, 4, 0, 0, 0, 4, 0, 0, 0, 0, 0, 0, 0, 4, 0, 0, 0, 0x34, 0x12, 0, 0, 0x37, 0x12, 0, 0, DASD_WORKING, 0x90};

/* A call into a struct of so many bytes. */
typedef int32_t call(dasd *d, uint8_t channel, uint8_t *into, size_t size);

static int32_t show_program(dasd *d, uint8_t channel, uint8_t *into, size_t size) { return dasd_show_program_sized(d, channel, into, size); }

static int32_t show_registers(dasd *d, uint8_t channel, uint8_t *into, size_t size) { return dasd_show_registers_sized(d, channel, into, size); }

static int32_t run_until(dasd *d, uint8_t channel, uint8_t *into, size_t size) {
    const dasd_wanted wanted = {4, channel, 0, {0x5A, 0x5A}};
    return dasd_run_until_sized(d, &wanted, into, size);
}

/* The same over main storage that is lent: the word is fetched, and its bytes are stored there. */
static int32_t lent_run_until(dasd *d, uint8_t channel, uint8_t *into, size_t size) {
    static uint8_t bytes[65536], keys[32];
    const dasd_wanted wanted = {4, channel, 0, {0x5A, 0x5A}};
    dasd_memory memory = {bytes, sizeof bytes, keys, sizeof keys};
    return dasd_lent_run_until_sized(d, &memory, &wanted, into, size);
}

/* Seek to cylinder 2, head 3: six bytes and an end; and behind it Read R0, whose word is fetched. */
static void started(dasd *d) {
    uint32_t done;
    CHECK(dasd_new(d, 65536, DASD_CHANNEL(1)) == DASD_DONE && dasd_attach_new(d, 0x190, 2311, 6) == DASD_DONE);
    store(d, 0x48, "000000F8");
    store(d, 0xF8, "07000200 40000006 16001234 00000008");
    store(d, 0x200, "000000020003");
    CHECK(dasd_sio(d, 0x190) == 0 && dasd_step(d, 1, 8, &done) == DASD_DONE && done == 8);
}

/* Into a struct of each size the first of these bytes, zeros behind them, and nothing behind the struct; nothing where it is refused. */
static void fits(call *make, const uint8_t *want, size_t len) {
    for (size_t size = 0; size < ROOM; size++) {
        dasd d = DASD_NOTHING;
        uint8_t told[ROOM], wanted[ROOM];
        memset(told, UNTOUCHED, sizeof told);
        memset(wanted, UNTOUCHED, sizeof wanted);
        CHECK(make(&d, 1, told, size) == DASD_NOTHING_HELD && memcmp(told, wanted, sizeof told) == 0);
        started(&d);
        CHECK(make(&d, 2, told, size) == DASD_NO_CHANNEL && memcmp(told, wanted, sizeof told) == 0);
        memset(wanted, 0, size);
        memcpy(wanted, want, size < len ? size : len);
        CHECK(make(&d, 1, told, size) == DASD_DONE && memcmp(told, wanted, sizeof told) == 0);
        CHECK(dasd_free(&d) == DASD_DONE);
    }
}

/* An unknown bit is refused, and nothing is told. */
static void unknown_bit(void) {
    dasd d = DASD_NOTHING;
    dasd_progress ran, before;
    memset(&ran, UNTOUCHED, sizeof ran);
    before = ran;
    started(&d);
    CHECK(dasd_run_until(&d, 1, 4, 8, &ran) == DASD_BAD_UNTIL && memcmp(&ran, &before, sizeof ran) == 0);
    CHECK(dasd_free(&d) == DASD_DONE);
}

int main(void) {
    fits(show_program, program, sizeof program);
    fits(show_registers, registers, sizeof registers);
    fits(run_until, progress, sizeof progress);
    fits(lent_run_until, progress, sizeof progress);
    unknown_bit();
    if (failures == 0) puts("sized.c: all checks passed");
    return failures != 0;
}
