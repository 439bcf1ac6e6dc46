/* storage.h - main storage that tests set and look at, a few bytes at a time, in hexadecimal digits. */
#ifndef STORAGE_H
#define STORAGE_H

#include <stdint.h>
#include <string.h>

#include "../dasd.h"
#include "digits.h"
#include "tests.h"

/* The most bytes of one `store` or `shows`. */
enum { MOST_BYTES = 128 };

/* Stores the bytes that these digits spell. That it is done is checked. */
static inline void store(dasd *d, uint32_t at, const char *hexadecimal) {
    uint8_t bytes[MOST_BYTES];
    size_t n = bytes_of(hexadecimal, bytes, sizeof bytes);
    CHECK(dasd_poke(d, at, bytes, n) == DASD_DONE);
}

/* Whether storage has the bytes that these digits spell. */
static inline int shows(dasd *d, uint32_t at, const char *hexadecimal) {
    uint8_t want[MOST_BYTES], got[MOST_BYTES];
    size_t n = bytes_of(hexadecimal, want, sizeof want);
    return dasd_peek(d, at, got, n) == DASD_DONE && !memcmp(got, want, n);
}

#endif
