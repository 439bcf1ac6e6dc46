/* records.c - what the makers of volumes of this folder have in common: records are written by channel programs, as a utility would. */
#include "records.h"

#include <stdio.h>
#include <string.h>

void ebcdic(uint8_t *to, const char *text) {
    for (; *text; text++, to++) {
        unsigned c = (unsigned char)*text;
        if (c >= 'A' && c <= 'I') *to = (uint8_t)(0xC1 + c - 'A');
        else if (c >= 'J' && c <= 'R') *to = (uint8_t)(0xD1 + c - 'J');
        else if (c >= 'S' && c <= 'Z') *to = (uint8_t)(0xE2 + c - 'S');
        else if (c >= '0' && c <= '9') *to = (uint8_t)(0xF0 + c - '0');
        else *to = c == '.' ? 0x4B : c == ',' ? 0x6B : 0x40;
    }
}

int write_record(dasd *d, uint16_t address, uint8_t cylinder, uint8_t record, uint8_t key_len, const uint8_t *body, size_t len) {
    const uint8_t at[6] = {0, 0, 0, cylinder, 0, 0}, behind[5] = {0, cylinder, 0, 0, (uint8_t)(record - 1)};
    const size_t data = len - key_len;
    const uint8_t count[8] = {0, cylinder, 0, 0, record, key_len, (uint8_t)(data >> 8), (uint8_t)data};
    const uint8_t words[40] = {0x07,        0, 0x02, 0x00, 0x40, 0, 0,
                               6, /* Seek */
                               0x31,        0, 0x02, 0x08, 0x40, 0, 0,
                               5, /* Search Identifier Equal */
                               0x08,        0, 0x01, 0x08, 0x00, 0, 0,
                               0, /* Transfer in Channel to the search */
                               0x1D,        0, 0x02, 0x10, 0x80, 0, 0,
                               8, /* Write Count, Key and Data: the count area, */
                               0x00,        0, 0x03, 0x00, 0x00, 0, (uint8_t)(len >> 8),
                               (uint8_t)len}; /* and on with key and data */
    const uint8_t caw[4] = {0, 0, 0x01, 0x00};
    uint8_t csw[8];
    dasd_run ran;
    uint16_t from;
    dasd_poke(d, 72, caw, sizeof caw);
    dasd_poke(d, 0x100, words, sizeof words);
    dasd_poke(d, 0x200, at, sizeof at);
    dasd_poke(d, 0x208, behind, sizeof behind);
    dasd_poke(d, 0x210, count, sizeof count);
    dasd_poke(d, 0x300, body, len);
    if (dasd_sio(d, address) != 0 || dasd_run_on(d, 1, 1000000, &ran) < 0 || dasd_interrupt(d, DASD_CHANNEL(1), &from) != 1) return -1;
    dasd_peek(d, 64, csw, 8);
    return csw[4] == 0x0C && csw[5] == 0 ? 0 : -1;
}

int write_label(dasd *d, uint16_t address, const char *serial) {
    uint8_t body[84];
    memset(body, 0x40, sizeof body);
    ebcdic(body, "VOL1VOL1");
    ebcdic(body + 8, serial);
    return write_record(d, address, 0, 3, 4, body, sizeof body);
}

int write_resident(dasd *d, uint16_t address, const uint8_t *program, size_t len) {
    static const uint8_t first[24] = {0,    0, 0,    0, 0,    0, 0x10, 0,        /* the program begins at 1000 */
                                      0x06, 0, 0x08, 0, 0x60, 0, 0,    64,       /* Read Data of record 2 to 800 */
                                      0x08, 0, 0x08, 0, 0,    0, 0,    0};       /* Transfer in Channel to it */
    static const uint8_t second[64] = {0x07, 0, 0x08, 0x20, 0x40, 0, 0,    6,    /* Seek to cylinder 1 */
                                       0x31, 0, 0x08, 0x28, 0x40, 0, 0,    5,    /* Search Identifier Equal of record 1 */
                                       0x08, 0, 0x08, 0x08, 0x00, 0, 0,    0,    /* Transfer in Channel to the search */
                                       0x06, 0, 0x10, 0x00, 0x20, 0, 0x10, 0x00, /* Read Data to 1000: at most 4,096 bytes */
                                       0,    0, 0,    1,    0,    0, 0,    0,    0, 1, 0, 0, 1};
    return write_record(d, address, 0, 1, 0, first, sizeof first) || write_record(d, address, 0, 2, 0, second, sizeof second) ||
           write_label(d, address, "SYSRES") || write_record(d, address, 1, 1, 0, program, len);
}

int write_file(dasd *d, uint16_t address, const char *path) {
    dasd_file file;
    if (dasd_show_file(d, address, 0, &file) != DASD_DONE) return -1;
    FILE *f = fopen(path, "wb");
    if (!f) return -1;
    int bad = fwrite(file.at, 1, file.len, f) != file.len;
    return fclose(f) || bad ? -1 : 0;
}

size_t read_program(const char *path, uint8_t program[MOST_OF_PROGRAM]) {
    FILE *f = fopen(path, "rb");
    size_t len = f ? fread(program, 1, MOST_OF_PROGRAM, f) : 0;
    if (f) fclose(f);
    return len;
}
