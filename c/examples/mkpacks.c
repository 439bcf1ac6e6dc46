/* mkpacks COPIER RESIDENT SOURCE FIRST SECOND - makes four volumes for the copier of this folder: RESIDENT, a 2314 from which it is loaded;
 * SOURCE, a 2311 of 6 cylinders with six records of 400 bytes on cylinder 5, head 0; and FIRST and SECOND, the packs COPY01 and COPY02,
 * 2311s of 3 cylinders with a label alone.
 *
 * Record n has a text of 23 characters, and behind it bytes that count up by n. */
#include <stdio.h>
#include <stdlib.h>

#include "records.h"

enum { RESIDENT = 0x190, SOURCE = 0x191, FIRST = 0x192, SECOND = 0x193 };
enum { FILE_CYLINDER = 5, RECORDS = 6, LENGTH = 400 };

static int write_pack(dasd *d, uint16_t address, const char *serial) {
    const uint8_t blanks[24] = {0};
    return write_record(d, address, 0, 1, 0, blanks, sizeof blanks) || write_record(d, address, 0, 2, 0, blanks, sizeof blanks) ||
           write_label(d, address, serial);
}

static int write_source(dasd *d) {
    uint8_t body[LENGTH];
    char text[] = "RECORD 0 OF PACK SOURCE";
    if (write_pack(d, SOURCE, "SOURCE")) return -1;
    for (unsigned n = 1; n <= RECORDS; n++) {
        text[7] = (char)('0' + n);
        for (unsigned at = 0; at < LENGTH; at++) body[at] = (uint8_t)(at * n);
        ebcdic(body, text);
        if (write_record(d, SOURCE, FILE_CYLINDER, (uint8_t)n, 0, body, sizeof body)) return -1;
    }
    return 0;
}

int main(int argc, char **argv) {
    static uint8_t program[MOST_OF_PROGRAM];
    dasd d = DASD_NOTHING;
    size_t len = argc == 6 ? read_program(argv[1], program) : 0;
    if (!len) return fprintf(stderr, "usage: mkpacks COPIER RESIDENT SOURCE FIRST SECOND\n"), 2;
    int bad = dasd_new(&d, 65536, DASD_CHANNEL(1)) || dasd_attach_new(&d, RESIDENT, 2314, 2) || dasd_attach_new(&d, SOURCE, 2311, 6) ||
              dasd_attach_new(&d, FIRST, 2311, 3) || dasd_attach_new(&d, SECOND, 2311, 3) || write_resident(&d, RESIDENT, program, len) ||
              write_source(&d) || write_pack(&d, FIRST, "COPY01") || write_pack(&d, SECOND, "COPY02");
    for (int i = 0; i < 4 && !bad; i++) bad = write_file(&d, (uint16_t)(RESIDENT + i), argv[i + 2]);
    dasd_free(&d);
    if (bad) fprintf(stderr, "mkpacks: the volumes were not made\n");
    return bad ? EXIT_FAILURE : EXIT_SUCCESS;
}
