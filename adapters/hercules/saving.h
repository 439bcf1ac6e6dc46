/* saving.h - written tracks go to their file. */
#ifndef SAVING_H
#define SAVING_H

#include "herc.h"

#include "dasd.h"
#include "pack.h"

/* Shows the next track of a device's volume that was written since its number `changes` was `since`, as dasd_next_changed does. */
typedef int32_t next_changed(DEVBLK *dev, uint64_t since, dasd_changed *track);

/* Writes to a device's file the tracks of its volume, which is shown, that were written since it was saved last: whether all are; if not, the
 * console was told, and they are tried again the next time. `from` is the track at which to begin. */
bool save_tracks(DEVBLK *dev, pack *file, const dasd_file *shown, size_t from, next_changed *next);

#endif
