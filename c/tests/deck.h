/* deck.h - a deck of events, read from its text and played through dasd.h, as `dasd run` plays it. */
#ifndef DECK_H
#define DECK_H

#include <stddef.h>
#include <stdint.h>

#include "../dasd.h"

typedef enum event_kind { SIO, TIO, HIO, TCH, STEP, RUN, ARRIVE, INTERRUPT, RESET, STORE, KEY, SHOW } event_kind;

typedef struct event {
    event_kind kind;
    uint32_t at;    /* an input/output address, an address in storage, or a number of units */
    uint32_t count; /* bytes, or a key */
    uint8_t bytes[128];
} event;

/* The longest answer, with its line feed and a zero. */
enum { ANSWER_ROOM = 96 };

typedef enum line_kind { NO_EVENT, AN_EVENT, LINE_TOO_LONG, UNKNOWN_EVENT, BAD_OPERAND } line_kind;

/* Reads a line, without its line feed. */
line_kind read_line(const uint8_t *line, size_t len, event *read);

/* Plays an event at a channel, and writes the line of its answer. */
void play(dasd *d, uint8_t channel, const event *e, char answer[ANSWER_ROOM]);

#endif
