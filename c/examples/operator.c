/* operator.c - the operator. He reads what the console types, and where a line asks for a pack, he takes down the one that is on the
 * drive and puts up the other. He needs half a minute for it. */
#include <string.h>

#include "s360.h"

enum { TICKS_OF_A_CHANGE = 3000000 };

void operator_reads(machine *m, const char *line) {
    char serial[7];
    unsigned address;
    if (sscanf(line, "MOUNT %6s ON %3x", serial, &address) != 2) return;
    memcpy(m->wanted, serial, sizeof serial);
    m->wanted_at = (uint16_t)address;
    m->done = m->clock + TICKS_OF_A_CHANGE;
}

/* A pack that is not on the shelf stays away, and the program waits for it. A drive that works, or whose ending pends, is not stopped:
 * the operator comes back later. */
void operator_tick(machine *m) {
    if (!m->wanted_at || m->clock < m->done) return;
    volume *pack = volume_called(m, m->wanted), *there = volume_at(m, m->wanted_at);
    int is_refused = pack && there && dismount(m, there);
    if (is_refused) {
        m->done = m->clock + TICKS_OF_A_CHANGE;
        return;
    }
    if (pack && mount(m, pack, m->wanted_at) == 0) m->ready = m->wanted_at;
    m->wanted_at = 0;
}
