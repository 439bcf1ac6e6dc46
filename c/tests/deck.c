/* deck.c - the events of a deck: their grammar, what they call, and the lines of their answers. */
#include "deck.h"

#include <stdio.h>
#include <string.h>

/* --- The grammar: words between blanks; the first names the event --- */

enum { MOST_BYTES = 512, MOST_WORDS = MOST_BYTES / 2 };

typedef struct words {
    size_t count;
    char *word[MOST_WORDS];
    char text[MOST_BYTES + 1];
} words;

/* A zero byte would end a string: it becomes another byte that no word of a deck has. */
static char capital(uint8_t byte) { return (char)(byte >= 'a' && byte <= 'z' ? byte - 32 : byte ? byte : 1); }

static void split(const uint8_t *line, size_t len, words *w) {
    int in_word = 0;
    w->count = 0;
    for (size_t i = 0; i < len; i++) {
        int is_blank = line[i] == ' ' || line[i] == '\t';
        w->text[i] = (char)(is_blank ? '\0' : capital(line[i]));
        if (!is_blank && !in_word) w->word[w->count++] = w->text + i;
        in_word = !is_blank;
    }
    w->text[len] = '\0';
}

/* The value of a digit of this base, or -1. */
static int digit(char c, int base) {
    int value = c >= '0' && c <= '9' ? c - '0' : c >= 'A' && c <= 'F' ? c - 'A' + 10 : -1;
    return value < base ? value : -1;
}

/* The number that a word of `least` to `most` digits spells. */
static int number(const char *word, int base, size_t least, size_t most, uint32_t *n) {
    size_t len = strlen(word);
    uint64_t number = 0;
    if (len < least || len > most) return 0;
    for (; *word; word++) {
        int value = digit(*word, base);
        if (value < 0) return 0;
        number = number * (uint64_t)base + (uint64_t)value;
    }
    *n = (uint32_t)number;
    return number <= UINT32_MAX;
}

static int is_within(uint32_t least, uint32_t n, uint32_t most) { return n >= least && n <= most; }

/* STORE's bytes: pairs of digits, in one word or in several. */
static int stored(const words *w, event *e) {
    size_t digits = 0;
    int high = 0;
    for (size_t i = 2; i < w->count; i++)
        for (const char *c = w->word[i]; *c; c++, digits++) {
            int value = digit(*c, 16);
            if (value < 0 || digits == 2 * sizeof e->bytes) return 0;
            if (digits % 2) e->bytes[digits / 2] = (uint8_t)(high << 4 | value);
            high = value;
        }
    e->count = (uint32_t)(digits / 2);
    return digits >= 2 && digits % 2 == 0;
}

static int operands(const words *w, event *e) {
    switch (e->kind) {
    case SIO:
    case TIO:
    case HIO:
    case ARRIVE: return w->count == 2 && number(w->word[1], 16, 3, 3, &e->at);
    case TCH:
    case INTERRUPT:
    case RESET: return w->count == 1;
    case STEP: return w->count == 2 && number(w->word[1], 10, 1, 5, &e->at) && is_within(0, e->at, 65535);
    case RUN: e->at = 16777216; return w->count == 1 || (w->count == 2 && number(w->word[1], 10, 1, 10, &e->at) && e->at > 0);
    case STORE: return w->count > 1 && number(w->word[1], 16, 1, 6, &e->at) && stored(w, e);
    case KEY: return w->count == 3 && number(w->word[1], 16, 1, 6, &e->at) && number(w->word[2], 16, 1, 1, &e->count);
    case SHOW:
        return w->count == 3 && number(w->word[1], 16, 1, 6, &e->at) && number(w->word[2], 10, 1, 5, &e->count) && is_within(1, e->count, 32);
    }
    return 0;
}

line_kind read_line(const uint8_t *line, size_t len, event *e) {
    static const char *const names[] = {"SIO", "TIO", "HIO", "TCH", "STEP", "RUN", "ARRIVE", "INT", "RESET", "STORE", "KEY", "SHOW"};
    words w;
    if (len && line[len - 1] == '\r') len--;
    if (len > MOST_BYTES) return LINE_TOO_LONG;
    split(line, len, &w);
    if (!w.count || w.word[0][0] == '*') return NO_EVENT;
    for (size_t kind = 0; kind < sizeof names / sizeof *names; kind++)
        if (!strcmp(w.word[0], names[kind])) {
            e->kind = (event_kind)kind;
            return operands(&w, e) ? AN_EVENT : BAD_OPERAND;
        }
    return UNKNOWN_EVENT;
}

/* --- Answers --- */

static char *hexadecimal(char *to, const uint8_t *bytes, size_t n) {
    for (size_t i = 0; i < n; i++) to += sprintf(to, "%02X", bytes[i]);
    return to;
}

/* The channel status word, or its status bytes, that storage has now. */
static char *stored_csw(dasd *d, char *to, int is_whole) {
    uint8_t csw[8];
    if (dasd_peek(d, 64, csw, 8) != DASD_DONE) return to;
    if (!is_whole) return hexadecimal(to, csw + 4, 2);
    to = hexadecimal(to, csw, 4);
    *to++ = ' ';
    return hexadecimal(to, csw + 4, 4);
}

static char *condition(dasd *d, char *to, const char *name, uint32_t address, int32_t code) {
    to += sprintf(to, "%s %03X CC %d", name, (unsigned)address, (int)code);
    if (code != 1) return to;
    *to++ = ' ';
    return stored_csw(d, to, !strcmp(name, "TIO"));
}

static char *interrupted(dasd *d, char *to) {
    uint16_t from;
    if (dasd_interrupt(d, 0xFE, &from) != 1) return to + sprintf(to, "INT NONE");
    to += sprintf(to, "INT %03X ", from);
    return stored_csw(d, to, 1);
}

static char *was_reset(dasd *d, char *to, uint8_t channel) {
    dasd_track t;
    if (dasd_reset(d, channel, &t) != 1) return to + sprintf(to, "RESET CLEAN");
    return to + sprintf(to, "RESET UNSAVED %03X %04X %04X", t.address, t.cylinder, t.head);
}

static char *shown(dasd *d, char *to, const event *e) {
    uint8_t bytes[32];
    if (dasd_peek(d, e->at, bytes, e->count) != DASD_DONE) return to + sprintf(to, "SHOW OUTSIDE");
    to += sprintf(to, "SHOW %06X ", (unsigned)e->at);
    return hexadecimal(to, bytes, e->count);
}

static char *stepped(dasd *d, char *to, uint8_t channel, uint32_t units) {
    uint32_t done = 0;
    dasd_step(d, channel, units, &done);
    return to + sprintf(to, "STEP %u", (unsigned)done);
}

static char *ran_on(dasd *d, char *to, uint8_t channel, uint32_t units) {
    dasd_run ran = {0};
    dasd_run_on(d, channel, units, &ran);
    return to + sprintf(to, "RUN %u", (unsigned)ran.units);
}

static const char *kept(int32_t code) { return code == DASD_DONE ? "OK" : "OUTSIDE"; }

void play(dasd *d, uint8_t channel, const event *e, char answer[ANSWER_ROOM]) {
    char *to = answer;
    uint16_t address = (uint16_t)e->at;
    switch (e->kind) {
    case SIO: to = condition(d, to, "SIO", address, dasd_sio(d, address)); break;
    case TIO: to = condition(d, to, "TIO", address, dasd_tio(d, address)); break;
    case HIO: to = condition(d, to, "HIO", address, dasd_hio(d, address)); break;
    case TCH: to += sprintf(to, "TCH CC %d", (int)dasd_tch(d, (uint16_t)(channel << 8))); break;
    case STEP: to = stepped(d, to, channel, e->at); break;
    case RUN: to = ran_on(d, to, channel, e->at); break;
    case ARRIVE: to += sprintf(to, "ARRIVE %03X %s", address, dasd_arrive(d, address) == 1 ? "YES" : "NO"); break;
    case INTERRUPT: to = interrupted(d, to); break;
    case RESET: to = was_reset(d, to, channel); break;
    case STORE: to += sprintf(to, "STORE %s", kept(dasd_poke(d, e->at, e->bytes, e->count))); break;
    case KEY: to += sprintf(to, "KEY %s", kept(dasd_set_key(d, e->at, (uint8_t)e->count))); break;
    case SHOW: to = shown(d, to, e); break;
    }
    to[0] = '\n';
    to[1] = '\0';
}
