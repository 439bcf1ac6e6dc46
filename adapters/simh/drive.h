/* drive.h - a 2311 or 2314 drive as a device of SIMH. */
#ifndef DRIVE_H
#define DRIVE_H

#include "stand_in.h"

/* The channel accepts a Start I/O for the unit. */
void drive_begin_program(UNIT *unit);

/* The channel has a command for the unit: the status, if it is over at once; or 0, and drive_service is due. */
uint8 drive_start(UNIT *unit, uint8 code);

/* The unit's service routine, each time that it is due. */
t_stat drive_service(UNIT *unit);

/* A program is over, or was halted or reset, whatever was open: its track is in the volume's file then. */
void drive_settle(UNIT *unit);

/* The unit's arm was sent off: device end is to come, by the distance to the cylinder that dasd_drive_show has. */
void send_off_arm(UNIT *unit);

#endif
