/* timer.h - one thread that makes calls when their time has come, in the order of their times. */
#ifndef TIMER_H
#define TIMER_H

#include <stdbool.h>
#include <stdint.h>

/* Has `call(of)` called after so many microseconds of the monotonic clock, while no lock of this file is held. False: there is no memory
 * or no thread for it. */
bool timer_after(uint32_t microseconds, void (*call)(void *of), void *of);

/* Takes back what waits of `call(of)`. A call that has begun goes on. */
void timer_cancel(void (*call)(void *of), const void *of);

#endif
