/* log.c - what the channel programs did, and why one failed, for who looks for a mistake: the lines of `dasd run --trace`, each behind the
 * number of its channel. Where there is a log a channel does one unit a call, with a look behind each. */
#include <string.h>

#include "s360.h"

static char lines[DASD_TRACE_ROOM];

static void write_lines(FILE *log, uint8_t channel, size_t length) {
    for (const char *at = lines, *end; at < lines + length; at = end + 1) {
        end = memchr(at, '\n', (size_t)(lines + length - at));
        if (!end) return;
        fprintf(log, "%u %.*s\n", channel, (int)(end - at), at);
    }
}

int32_t tell_log(machine *m, enum dasd_when what, uint16_t address, int32_t answer) {
    uint8_t channel = (uint8_t)(address >> 8);
    if (!m->log || channel > 6) return answer;
    dasd_moment moment = {(uint8_t)what, channel, address, (uint32_t)answer, 0, 0};
    dasd_trace *trace = &m->traces[channel];
    trace->lines = lines;
    trace->size = sizeof lines;
    if (lent_or_own_trace_look(m, trace, &moment) == DASD_DONE) write_lines(m->log, channel, trace->length);
    return answer;
}

int32_t logged_sio(machine *m, uint16_t address) {
    tell_log(m, DASD_BEFORE_SIO, address, 0);
    return tell_log(m, DASD_BEHIND_SIO, address, lent_or_own_sio(m, address));
}

int32_t logged_run_on(machine *m, uint8_t channel, uint32_t units, dasd_run *ran) {
    if (!m->log) return lent_or_own_run_on(m, channel, units, ran);
    for (uint32_t unit = 0; unit < units; unit++) {
        int32_t code = lent_or_own_run_on(m, channel, 1, ran);
        if (code != DASD_DONE || !ran->units) return code;
        tell_log(m, DASD_BEHIND_UNIT, (uint16_t)(channel << 8), 0);
    }
    return DASD_DONE;
}
