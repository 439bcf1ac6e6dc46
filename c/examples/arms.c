/* arms.c - when arms arrive. A program that ends with a Seek leaves its arm in motion, and the library says no more: how long it takes is
 * for the clock of the emulator to say. */
#include <stdlib.h>

#include "s360.h"

/* A 2314's arm takes 25 milliseconds to the next cylinder, and some 0.54 for each one more; to where it is, nothing. */
enum { SEEK_TICKS = 2500, TICKS_A_CYLINDER = 54 };

void arm_of_drive(machine *m, uint16_t address) {
    int i = 0;
    while (i < m->arm_count && m->arms[i].address != address) i++;
    if (i == MOST_DRIVES) return;
    if (i == m->arm_count) m->arm_count++;
    m->arms[i] = (arm){address, 0, 0, 0};
}

static void send_off(machine *m, arm *a, uint16_t cylinder) {
    unsigned distance = (unsigned)abs((int)cylinder - (int)a->cylinder);
    a->moves = 1;
    a->arrives = m->clock + (distance ? SEEK_TICKS + (uint64_t)TICKS_A_CYLINDER * (distance - 1) : 0);
}

void look_at_arms(machine *m) {
    dasd_drive drive;
    for (int i = 0; i < m->arm_count; i++) {
        arm *a = &m->arms[i];
        if (dasd_show_drive(&m->d, a->address, &drive) != DASD_DONE) continue;
        if (drive.arm == DASD_IN_MOTION && !a->moves) send_off(m, a, drive.cylinder);
        a->cylinder = drive.cylinder;
    }
}

void arms_tick(machine *m) {
    for (int i = 0; i < m->arm_count; i++) {
        arm *a = &m->arms[i];
        if (!a->moves || m->clock < a->arrives) continue;
        a->moves = 0;
        tell_log(m, DASD_BEHIND_ARRIVE, a->address, dasd_arrive(&m->d, a->address));
    }
}

/* A reset of the channels has put the library's arms at rest where they were going to. */
void stop_arms(machine *m) {
    for (int i = 0; i < m->arm_count; i++) m->arms[i].moves = 0;
    look_at_arms(m);
}

uint64_t next_arrival(const machine *m) {
    uint64_t next = NEVER;
    for (int i = 0; i < m->arm_count; i++)
        if (m->arms[i].moves && m->arms[i].arrives < next) next = m->arms[i].arrives;
    return next;
}
