/* records.h - what the makers of volumes of this folder have in common. */
#ifndef RECORDS_H
#define RECORDS_H

#include <stddef.h>
#include <stdint.h>

#include "dasd.h"

enum { MOST_OF_PROGRAM = 4096 };

/* Text in EBCDIC, as far as it is capitals, digits, blanks, points and commas. */
void ebcdic(uint8_t *to, const char *text);

/* Writes a record behind the one with the number before it, on head 0 of a cylinder of a drive of channel 1: key and data, as Write Count,
 * Key and Data has them one behind the other. 0 where it was written. */
int write_record(dasd *d, uint16_t address, uint8_t cylinder, uint8_t record, uint8_t key_len, const uint8_t *body, size_t len);

/* A volume's label, record 3 of its first track: key VOL1, and 80 bytes that begin with VOL1 and the serial number. */
int write_label(dasd *d, uint16_t address, const char *serial);

/* What initial program loading finds on a volume of two cylinders. Cylinder 0, head 0 has record 1, a program status word, a word that reads
 * record 2 to 800, and a Transfer in Channel to it; record 2, the words that find and read the program; record 3, the label SYSRES. Cylinder
 * 1, head 0, record 1 is the program, which is read to 1000. */
int write_resident(dasd *d, uint16_t address, const uint8_t *program, size_t len);

/* Writes the file of a drive's volume. */
int write_file(dasd *d, uint16_t address, const char *path);

/* The bytes of a program, and how many there are: 0, where there is none. */
size_t read_program(const char *path, uint8_t program[MOST_OF_PROGRAM]);

#endif
