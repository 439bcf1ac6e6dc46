/* moved.h - the calls of dasd.h that need main storage, over memory that is lent, and that stands at another place at each of them.
 * Included before a test (-include), it makes the test's calls these. */
#ifndef MOVED_H
#define MOVED_H

#include "../dasd.h"

int32_t moved_new(dasd *d, uint32_t storage_bytes, uint8_t channels);
int32_t moved_free(dasd *d);
int32_t moved_sio(dasd *d, uint16_t address);
int32_t moved_tio(dasd *d, uint16_t address);
int32_t moved_hio(dasd *d, uint16_t address);
int32_t moved_step(dasd *d, uint8_t channel, uint32_t units, uint32_t *done);
int32_t moved_run_on(dasd *d, uint8_t channel, uint32_t units, dasd_run *ran);
int32_t moved_interrupt(dasd *d, uint8_t channels, uint16_t *address);
int32_t moved_trace_look(dasd *d, dasd_trace *trace, const dasd_moment *moment);
int32_t moved_peek(dasd *d, uint32_t at, uint8_t *into, size_t len);
int32_t moved_poke(dasd *d, uint32_t at, const uint8_t *bytes, size_t len);
int32_t moved_set_key(dasd *d, uint32_t at, uint8_t key);
int32_t moved_show_storage(dasd *d, dasd_storage *shown);

#ifndef MOVING
#define dasd_new moved_new
#define dasd_free moved_free
#define dasd_sio moved_sio
#define dasd_tio moved_tio
#define dasd_hio moved_hio
#define dasd_step moved_step
#define dasd_run_on moved_run_on
#define dasd_interrupt moved_interrupt
#define dasd_trace_look moved_trace_look
#undef dasd_peek
#undef dasd_poke
#define dasd_peek moved_peek
#define dasd_poke moved_poke
#define dasd_set_key moved_set_key
#define dasd_show_storage moved_show_storage
#endif

#endif
