/* processors.h - how far the processors of Hercules are, by which channels and arms go. */
#ifndef PROCESSORS_H
#define PROCESSORS_H

#include "herc.h"

#include <stdbool.h>

/* The instructions that all processors have done. */
U64 processors_done(void);

/* Whether some processor goes on, or will: the host may not have given it time yet. */
bool processors_go_on(void);

/* Channels and processors run side by side: a processor that runs has its share between two slices of a program, however the host divides
 * its own time. Returns once it has; or where all wait, and none will take an interruption; or after some seconds. No lock is held. */
void processors_share(void);

#endif
