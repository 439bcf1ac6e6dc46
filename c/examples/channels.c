/* channels.c - the processor's four instructions, the channels' side of the clock, interruptions, and the load function. */
#include <string.h>

#include "s360.h"

static uint8_t channel_of(uint16_t address) { return (uint8_t)(address >> 8); }

/* --- A drive whose pack was changed. The library has no word for that: the device end by which a drive tells that it is ready is the
 * emulator's own. It comes once the channel of the drive is available (PoO, 'Unit Status Conditions', device end) --- */

enum { DEVICE_END = 0x04, BUSY = 0x10 };

static int is_ready(machine *m, uint16_t address) { return address && address == m->ready && dasd_tch(&m->d, address) == 0; }

/* Tells it in a channel status word, of which Start I/O stores the status alone. */
static void tell_ready(machine *m, uint8_t status, int is_whole) {
    m->ready = 0;
    if (is_whole) memset(m->storage + CSW, 0, 8);
    m->storage[CSW + 4] = status;
    m->storage[CSW + 5] = 0;
}

/* --- Instructions (PoO, 'Input/Output Instructions') --- */

int start_io(machine *m, uint16_t address) {
    if (address == CONSOLE) return console_start(m);
    if (is_ready(m, address)) return tell_ready(m, DEVICE_END | BUSY, 0), 1;
    int code = logged_sio(m, address);
    if (code == 0) m->works |= (uint8_t)DASD_CHANNEL(channel_of(address));
    if (code == 1) look_at_arms(m); /* a Recalibrate, say, that ended at once */
    return code;
}

int test_io(machine *m, uint16_t address) {
    if (address == CONSOLE) return console_test(m);
    if (is_ready(m, address)) return tell_ready(m, DEVICE_END, 1), 1;
    return tell_log(m, DASD_BEHIND_TIO, address, lent_or_own_tio(m, address));
}

int halt_io(machine *m, uint16_t address) {
    if (address == CONSOLE) return 0;
    int code = tell_log(m, DASD_BEHIND_HIO, address, lent_or_own_hio(m, address));
    if (code == 2) { /* the program was cut */
        m->works &= (uint8_t)~DASD_CHANNEL(channel_of(address));
        look_at_arms(m);
    }
    return code;
}

int test_channel(machine *m, uint16_t address) {
    return channel_of(address) == channel_of(CONSOLE) ? 0 : tell_log(m, DASD_BEHIND_TCH, address, dasd_tch(&m->d, address));
}

/* --- The clock. A slice is short, so that an interruption that a program asks for is taken while the program runs --- */

static void run_channel(machine *m, uint8_t channel) {
    dasd_run ran;
    if (logged_run_on(m, channel, m->units_a_tick, &ran) != DASD_DONE || ran.subchannel == DASD_WORKING) return;
    m->works &= (uint8_t)~DASD_CHANNEL(channel);
    look_at_arms(m);
}

void channels_tick(machine *m) {
    for (uint8_t channel = 0; channel < 7 && m->works; channel++)
        if (m->works & DASD_CHANNEL(channel)) run_channel(m, channel);
}

/* --- Interruptions: channel 0 comes first, and a channel that the system mask closes keeps its own (PoO, 'Input/Output
 * Interruption') --- */

static int console_interrupts(machine *m, uint16_t *address) {
    if (!m->console.pends || !(m->mask & DASD_CHANNEL(0))) return 0;
    m->console.pends = 0;
    memcpy(m->storage + CSW, m->console.csw, 8);
    *address = CONSOLE;
    return 1;
}

static int ready_interrupts(machine *m, uint16_t *address) {
    if (!(m->mask & DASD_CHANNEL(channel_of(m->ready))) || !is_ready(m, m->ready)) return 0;
    *address = m->ready;
    tell_ready(m, DEVICE_END, 1);
    return 1;
}

static int drive_interrupts(machine *m, uint16_t *address) {
    return lent_or_own_interrupt(m, address) == 1 && tell_log(m, DASD_BEHIND_INTERRUPT, *address, 1);
}

int take_interruption(machine *m) {
    uint16_t address;
    if (!console_interrupts(m, &address) && !drive_interrupts(m, &address) && !ready_interrupts(m, &address)) return 0;
    m->length = 0;
    interrupt(m, address, IO_OLD, IO_NEW);
    return 1;
}

/* --- Initial program loading (PoO, 'Initial Program Loading'): 24 bytes of record 1 are read to location 0; the channel program goes on
 * with the words that they bring; behind its end the program status word at 0 is loaded --- */

enum { SLICE = 65536, MOST_SLICES = 256 };

void reset(machine *m) {
    dasd_track unsaved; /* no file in memory refuses to be written */
    for (uint8_t channel = 0; channel < 7; channel++)
        if (CHANNELS & DASD_CHANNEL(channel)) tell_log(m, DASD_BEHIND_RESET, (uint16_t)(channel << 8), dasd_reset(&m->d, channel, &unsaved));
    m->works = 0;
    m->ready = 0;
    m->console.is_busy = m->console.pends = 0;
    stop_arms(m);
}

int load(machine *m, uint16_t address) {
    static const uint8_t read_ipl[8] = {0x02, 0, 0, 0, 0x60, 0, 0, 24};
    dasd_run ran = {0, DASD_WORKING, 0, 0, 0};
    reset(m);
    /* the word lies where its own bytes will come to: it has been fetched by then */
    memcpy(m->storage, read_ipl, 8);
    put_word(m->storage + CAW, 0);
    if (logged_sio(m, address) != 0) return -1;
    for (int slice = 0; slice < MOST_SLICES && ran.subchannel == DASD_WORKING; slice++)
        if (logged_run_on(m, channel_of(address), SLICE, &ran) != DASD_DONE) return -1;
    if (tell_log(m, DASD_BEHIND_TIO, address, lent_or_own_tio(m, address)) != 1 || m->storage[CSW + 4] != 0x0C || m->storage[CSW + 5] != 0)
        return -1;
    look_at_arms(m);
    load_psw(m, 0);
    m->storage[2] = (uint8_t)(address >> 8);
    m->storage[3] = (uint8_t)address;
    return 0;
}
