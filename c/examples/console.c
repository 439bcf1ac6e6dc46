/* console.c - a console of the kind of the 1052, at 009 on the multiplexer channel: an example of a device that is the emulator's own,
 * and stands beside the library's channels. It knows Write, with and without a new line behind it, and No-Operation, and one channel
 * command word at a time. */
#include <stdio.h>
#include <string.h>

#include "s360.h"

enum { WRITE = 0x01, NO_OPERATION = 0x03, WRITE_NEW_LINE = 0x09 };
enum { DEVICE_AND_CHANNEL_END = 0x0C, UNIT_CHECK = 0x02, PROGRAM_CHECK = 0x20 };
enum { TICKS_A_CHARACTER = 6700 }; /* 14.8 characters a second */

/* EBCDIC's letters, digits and commonest signs; what is not printed is a dot. */
static int printed(uint8_t c) {
    static const char letters[] = "ABCDEFGHI.......JKLMNOPQR........STUVWXYZ";
    static const struct {
        uint8_t code;
        char sign;
    } signs[] = {{0x40, ' '}, {0x4B, '.'}, {0x4D, '('}, {0x4E, '+'}, {0x5C, '*'},  {0x5D, ')'},
                 {0x60, '-'}, {0x61, '/'}, {0x6B, ','}, {0x7A, ':'}, {0x7D, '\''}, {0x7E, '='}};
    if (c >= 0xF0 && c <= 0xF9) return '0' + c - 0xF0;
    if (c >= 0xC1 && c <= 0xE9) return letters[c - 0xC1];
    for (size_t i = 0; i < sizeof signs / sizeof *signs; i++)
        if (signs[i].code == c) return signs[i].sign;
    return '.';
}

/* The console types so many bytes, and says how many it did not find in storage. */
static uint32_t types(machine *m, uint32_t at, uint32_t count) {
    console *c = &m->console;
    size_t stands = strlen(c->line);
    uint32_t n = 0;
    for (; n < count && at + n < m->size; n++) {
        char sign = (char)printed(m->storage[at + n]);
        putc(sign, c->paper);
        if (stands < sizeof c->line - 1) c->line[stands++] = sign;
    }
    c->line[stands] = '\0';
    return count - n;
}

/* The line is over, and the operator reads it. */
static void new_line(machine *m) {
    putc('\n', m->console.paper);
    operator_reads(m, m->console.line);
    m->console.line[0] = '\0';
}

int console_start(machine *m) {
    console *c = &m->console;
    uint32_t caw = word_at(m->storage + CAW), at = caw & 0xFFFFFF, rest = 0;
    uint8_t unit = DEVICE_AND_CHANNEL_END, channel = 0;
    if (c->pends) return console_test(m);
    if (c->is_busy) return 2;
    if (at % 8 || at + 8 > m->size) {
        channel = PROGRAM_CHECK;
        unit = 0;
    } else {
        const uint8_t *ccw = m->storage + at;
        uint32_t bytes = word_at(ccw) & 0xFFFFFF, count = word_at(ccw + 4) & 0xFFFF;
        rest = count;
        if (ccw[0] == WRITE || ccw[0] == WRITE_NEW_LINE) rest = types(m, bytes, count);
        else if (ccw[0] != NO_OPERATION) unit |= UNIT_CHECK;
        if (ccw[0] == WRITE_NEW_LINE) new_line(m);
        if (rest && ccw[0] != NO_OPERATION && !(unit & UNIT_CHECK)) channel = PROGRAM_CHECK;
        c->ready = m->clock + (uint64_t)TICKS_A_CHARACTER * (count - rest);
    }
    put_word(c->csw, (caw & 0xF0000000) | (at + 8));
    put_word(c->csw + 4, (uint32_t)unit << 24 | (uint32_t)channel << 16 | rest);
    c->is_busy = 1;
    return 0;
}

int console_test(machine *m) {
    console *c = &m->console;
    if (c->is_busy) return 2;
    if (!c->pends) return 0;
    c->pends = 0;
    memcpy(m->storage + CSW, c->csw, 8);
    return 1;
}

void console_tick(machine *m) {
    console *c = &m->console;
    if (c->is_busy && m->clock >= c->ready) {
        c->is_busy = 0;
        c->pends = 1;
    }
}
