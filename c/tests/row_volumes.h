/* row_volumes.h - what the rows of rows/data say of bytes and of volumes. */
#ifndef ROW_VOLUMES_H
#define ROW_VOLUMES_H

#include <stdint.h>
#include <stdlib.h>
#include <string.h>

#include "../dasd.h"
#include "digits.h"
#include "tests.h"

enum { MOST_OF_A_VOLUME = 1 << 20, HEADER_BYTES = 512, FIRST_DRIVE = 0x190 };

/* The file of a volume. */
typedef struct row_volume {
    uint8_t bytes[MOST_OF_A_VOLUME];
    size_t len, slot;
} row_volume;

/* Bytes, as `0000+C1*80`, into a place with so much room. The text is cut apart. */
static inline size_t put_spelled(char *text, uint8_t *at, size_t room) {
    size_t len = 0;
    for (char *part = strtok(text, " +"); part; part = strtok(NULL, "+")) {
        char *times = strchr(part, '*');
        size_t count = times ? strtoul(times + 1, NULL, 10) : 1;
        if (times) *times = '\0';
        while (count--) len += bytes_of(part, at + len, room - len);
    }
    return len;
}

/* A new volume of the model and the cylinders that a line names: `2311 2`. */
static inline void make_volume(row_volume *v, const char *line) {
    dasd d = DASD_NOTHING;
    dasd_file file;
    unsigned model, cylinders;
    if (sscanf(line, "%u %u", &model, &cylinders) != 2) abort();
    CHECK(dasd_new(&d, 4096, DASD_CHANNEL(1)) == DASD_DONE);
    CHECK(dasd_attach_new(&d, FIRST_DRIVE, (uint16_t)model, (uint16_t)cylinders) == DASD_DONE);
    CHECK(dasd_show_file(&d, FIRST_DRIVE, 0, &file) == DASD_DONE);
    if (file.len > sizeof v->bytes) abort();
    memcpy(v->bytes, file.at, v->len = file.len);
    v->slot = model == 2311 ? 4096 : 7680;
    CHECK(dasd_free(&d) == DASD_DONE);
}

/* Bytes of the slot of a track, from a place on: `0 21 FF*8`. */
static inline void put_track(row_volume *v, char *line) {
    char *words;
    size_t track = strtoul(line, &words, 10), at = HEADER_BYTES + track * v->slot + strtoul(words, &words, 10);
    put_spelled(words, v->bytes + at, v->len - at);
}

#endif
