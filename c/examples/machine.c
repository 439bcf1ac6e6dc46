/* machine.c - the clock: instruction after instruction, with all that happens of itself between them. */
#include "s360.h"

static uint64_t earlier(uint64_t a, uint64_t b) { return a < b ? a : b; }

uint64_t next_event(const machine *m) {
    uint64_t next = next_arrival(m);
    if (m->console.is_busy) next = earlier(next, m->console.ready);
    if (m->wanted_at) next = earlier(next, m->done);
    return next;
}

/* A tick. Where the processor waited for it, with no interruption to take, and no channel works, nothing comes before the next event: so
 * the clock is set to that. */
static void tick(machine *m, int has_waited) {
    m->clock = has_waited && !m->works ? next_event(m) : m->clock + 1;
    channels_tick(m);
    arms_tick(m);
    console_tick(m);
    operator_tick(m);
}

int step(machine *m) {
    while (take_interruption(m)) continue;
    int waits = is_waiting(m);
    if (waits && m->mask == 0) return 0;
    if (!waits) instruction(m);
    tick(m, waits);
    return 1;
}

int run(machine *m, uint64_t until) {
    while (m->clock < until)
        if (!step(m)) return 1;
    return 0;
}
