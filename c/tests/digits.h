/* digits.h - bytes from hexadecimal digits. */
#ifndef DIGITS_H
#define DIGITS_H

#include <ctype.h>
#include <stdint.h>
#include <stdio.h>
#include <stdlib.h>

static inline int digit_of(char c) {
    if (isdigit((unsigned char)c)) return c - '0';
    c = (char)toupper((unsigned char)c);
    return c >= 'A' && c <= 'F' ? c - 'A' + 10 : -1;
}

/* The bytes that pairs of hexadecimal digits spell; spaces between them count for nothing. Anything else ends the program. */
static inline size_t bytes_of(const char *text, uint8_t *bytes, size_t room) {
    size_t n = 0;
    for (; *text; text++) {
        if (*text == ' ') continue;
        int high = digit_of(text[0]), low = high < 0 ? -1 : digit_of(text[1]);
        if (low < 0 || n == room) {
            fprintf(stderr, "no bytes: %s\n", text);
            exit(2);
        }
        bytes[n++] = (uint8_t)(high << 4 | low);
        text++;
    }
    return n;
}

#endif
