/* recording.h - reference and change recording: the bits in storage keys that say what channel programs fetched and stored. */
#ifndef RECORDING_H
#define RECORDING_H

#include <stdbool.h>
#include <stddef.h>
#include <stdint.h>

/* Where a channel program is: the word that it fetches next, and the word at work. `code` is that of the command that this word's data chain
 * belongs to; 0 where the next word begins a command. */
struct point {
    uint32_t next, address;
    uint16_t count;
    uint8_t code, flags, key;
};

/* What a program may do, by its words. */
struct recorded {
    bool asks;  /* one asks for an interruption */
    bool again; /* look again after it has gone on: it reads over its own words, or has more than are looked at in one go */
};

/* Sets the bits for all that a program may fetch and store from a point on, by its words as they are now: the reference bits of the words and
 * of the areas that they name, and the change bits of those areas into which a command reads, but for blocks that the program's key may not
 * store into. `size` is that of main storage. */
struct recorded record_program(const struct point *from, size_t size);

#endif
