/* lent.h - the calls over main storage that is lent, flat: a struct of Go that leads to Go's memory may not be passed to C, so the struct is
 * made here. */
#ifndef DASD_LENT_H
#define DASD_LENT_H

#include <dasd.h>

static inline int32_t lent_sio(dasd *d, const uint8_t *keys, size_t blocks, uint8_t *bytes, size_t size, uint16_t address) {
    dasd_memory memory = {bytes, size, keys, blocks};
    return dasd_lent_sio(d, &memory, address);
}

static inline int32_t lent_tio(dasd *d, const uint8_t *keys, size_t blocks, uint8_t *bytes, size_t size, uint16_t address) {
    dasd_memory memory = {bytes, size, keys, blocks};
    return dasd_lent_tio(d, &memory, address);
}

static inline int32_t lent_hio(dasd *d, const uint8_t *keys, size_t blocks, uint8_t *bytes, size_t size, uint16_t address) {
    dasd_memory memory = {bytes, size, keys, blocks};
    return dasd_lent_hio(d, &memory, address);
}

static inline int32_t lent_step(dasd *d, const uint8_t *keys, size_t blocks, uint8_t *bytes, size_t size, uint8_t channel, uint32_t *units) {
    dasd_memory memory = {bytes, size, keys, blocks};
    return dasd_lent_step(d, &memory, channel, units);
}

static inline int32_t lent_run_on(dasd *d, const uint8_t *keys, size_t blocks, uint8_t *bytes, size_t size, uint8_t channel, dasd_run *ran) {
    dasd_memory memory = {bytes, size, keys, blocks};
    return dasd_lent_run_on(d, &memory, channel, ran);
}

static inline int32_t lent_run_until(dasd *d, const uint8_t *keys, size_t blocks, uint8_t *bytes, size_t size, const dasd_wanted *wanted,
                                     dasd_progress *ran) {
    dasd_memory memory = {bytes, size, keys, blocks};
    return dasd_lent_run_until_sized(d, &memory, wanted, (uint8_t *)ran, sizeof *ran);
}

static inline int32_t lent_interrupt(dasd *d, const uint8_t *keys, size_t blocks, uint8_t *bytes, size_t size, uint8_t channels,
                                     uint16_t *address) {
    dasd_memory memory = {bytes, size, keys, blocks};
    return dasd_lent_interrupt(d, &memory, channels, address);
}

#endif
