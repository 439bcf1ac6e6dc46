/* drive.c - a 2311 or 2314 drive as a device of SIMH, over libdasd_drive: see docs/DRIVE.md. */
#include "drive.h"

#include "dasd_drive.h"

/* Times in SIMH's units: one instruction each. */
enum { BYTE_TIME = 2, RECORD_TIME = 100, TURN_TIME = 10000 };

static dasd_drive_alone *drive_of(UNIT *unit) { return unit->up7; }

void drive_begin_program(UNIT *unit) { dasd_drive_begin_program(drive_of(unit)); }

uint8 drive_start(UNIT *unit, uint8 code) {
    dasd_drive_alone *d = drive_of(unit);
    switch (dasd_drive_begin(d, code)) {
    case DASD_DRIVE_STARTED: sim_activate(unit, BYTE_TIME); return 0;
    case DASD_DRIVE_IMMEDIATE: return (uint8)dasd_drive_end(d);
    default: return SNS_CHNEND | SNS_DEVEND | SNS_UNITCHK; /* rejected; or below zero, a fault of the caller's */
    }
}

t_stat drive_service(UNIT *unit) {
    dasd_drive_alone *d = drive_of(unit);
    dasd_drive_next_bytes next;
    uint8 byte;
    int32 phase = dasd_drive_next(d, &next), goes_on = phase != DASD_DRIVE_OVER, delay = BYTE_TIME, status;

    if (phase == DASD_DRIVE_LOOKING || (phase == DASD_DRIVE_TAKES && next.left == 0)) {
        delay = dasd_drive_look(d) == DASD_DRIVE_PASSED ? TURN_TIME : RECORD_TIME;
        dasd_drive_next(d, &next);
        goes_on = phase == DASD_DRIVE_LOOKING || next.left > 0;
    } else if (phase == DASD_DRIVE_GIVES) {
        goes_on = next.left > 0 && dasd_drive_give(d, &byte, 1) == DASD_DONE && !chan_write_byte(unit, &byte);
    } else if (phase == DASD_DRIVE_TAKES) {
        goes_on = !chan_read_byte(unit, &byte) && dasd_drive_take(d, &byte, 1) == DASD_DONE;
    }
    if (goes_on) return sim_activate(unit, delay);
    status = dasd_drive_end(d);
    chan_end(unit, (uint8)status);
    if (!(status & SNS_DEVEND)) send_off_arm(unit);
    return SCPE_OK;
}

void drive_settle(UNIT *unit) {
    dasd_drive_alone *d = drive_of(unit);
    if (dasd_drive_settle(d) != DASD_BYTES_PASSED) return;
    dasd_drive_end(d);
    dasd_drive_settle(d);
}
