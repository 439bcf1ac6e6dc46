/* states.c - a saved state of any bytes, with a right checksum, is restored whole or refused; what was restored is saved as it was, and goes on.
 */
#include "dasd.h"
#include "fuzz.h"

enum { SUMMED = DASD_SAVED - 4, UNITS = 2000 };

static uint32_t adler(const uint8_t *at, size_t count) {
    uint32_t low = 1, high = 0;
    while (count--) {
        low = (low + *at++) % 65521;
        high = (high + low) % 65521;
    }
    return high << 16 | low;
}

static void put_sum(uint8_t *state) {
    uint32_t sum = adler(state, SUMMED);
    for (int i = 0; i < 4; i++) state[SUMMED + i] = (uint8_t)(sum >> (24 - 8 * i));
}

static void saved(dasd *d, uint8_t *state) {
    size_t written = 0;
    must(dasd_save(d, state, DASD_SAVED, &written) == 0 && written == DASD_SAVED, "it is saved where no program runs");
}

/* Every call that a restored state answers; none may end the process. */
static void go_on(dasd *d) {
    uint16_t from;
    dasd_run ran;
    dasd_drive drive;
    for (uint16_t unit = 0x190; unit < 0x192; unit++) {
        dasd_arrive(d, unit);
        must(dasd_show_drive(d, unit, &drive) < 0 || drive.cylinder < drive.cylinders, "the arm is on the volume");
        dasd_tio(d, unit);
        dasd_interrupt(d, 0xFE, &from);
        if (dasd_sio(d, unit) == 0) dasd_run_on(d, 1, UNITS, &ran);
    }
}

int LLVMFuzzerTestOneInput(const uint8_t *data, size_t size) {
    static const uint8_t program[] = {0x07, 0, 2, 0, 0x40, 0, 0, 6, 0x16, 0, 3, 0, 0, 0, 0, 8};
    input in = {data, size};
    uint8_t state[DASD_SAVED], before[DASD_SAVED], after[DASD_SAVED];
    dasd d = DASD_NOTHING;
    must(dasd_new(&d, 4096, DASD_CHANNEL(1) | DASD_CHANNEL(2)) == 0, "a subsystem is made");
    must(dasd_attach_new(&d, 0x190, 2314, 3) == 0 && dasd_attach_new(&d, 0x191, 2311, 2) == 0, "drives are attached");
    dasd_poke(&d, 72, (const uint8_t *)"\0\0\1\0", 4);
    dasd_poke(&d, 0x100, program, sizeof program);
    saved(&d, before);
    for (size_t i = 0; i < DASD_SAVED; i++) state[i] = before[i];
    while (in.left >= 3) {
        size_t at = take16(&in) % SUMMED;
        state[at] = take8(&in);
    }
    put_sum(state);
    int32_t answer = dasd_restore(&d, state, DASD_SAVED);
    saved(&d, after);
    for (size_t i = 0; i < DASD_SAVED; i++) must(after[i] == (answer == 0 ? state : before)[i], "all is restored, or nothing");
    go_on(&d);
    dasd_free(&d);
    must(heap_live == 0, "all memory is free");
    return 0;
}
