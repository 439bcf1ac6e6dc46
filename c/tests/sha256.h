/* sha256.h - the digest by which vectors name an image. */
#ifndef SHA256_H
#define SHA256_H

#include <stddef.h>
#include <stdint.h>

/* The SHA-256 of these bytes (FIPS 180-4). */
void sha256(const uint8_t *bytes, size_t len, uint8_t digest[32]);

#endif
