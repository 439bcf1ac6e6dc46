/* stand_in.h - what drive.c takes from SIMH's sim_defs.h and from a simulated machine's channel, so that it is compiled and tried without
 * them: types, names and numbers as there, for these calls alone. In SIMH include "sim_defs.h" and the machine's own header instead. */
#ifndef STAND_IN_H
#define STAND_IN_H

#include <stdint.h>

typedef uint8_t uint8;
typedef int32_t int32;
typedef int32_t t_stat;

#define SCPE_OK 0

/* A unit: SIMH's has many fields; `up7` is one that a device may use as it likes. */
typedef struct UNIT {
    void *up7;
} UNIT;

/* The status bytes of the simulated channel. */
enum { SNS_UNITCHK = 0x02, SNS_DEVEND = 0x04, SNS_CHNEND = 0x08 };

t_stat sim_activate(UNIT *unit, int32 interval);

/* The channel gives or takes a byte: nonzero, its count is exhausted. Then the end of a command. */
int chan_read_byte(UNIT *unit, uint8 *byte);
int chan_write_byte(UNIT *unit, const uint8 *byte);
void chan_end(UNIT *unit, uint8 status);

#endif
