/* mkvolumes UTILITY RESIDENT WORK - makes two volumes for the utility of this folder: RESIDENT, a 2314 from which it is loaded, and WORK, a
 * 2311 of three cylinders with a label, and on cylinder 1, head 0 four records with keys of eight bytes. */
#include <stdio.h>
#include <stdlib.h>
#include <string.h>

#include "records.h"

enum { RESIDENT = 0x190, WORK = 0x191 };

static int write_work(dasd *d) {
    static const char *const keys[] = {"ADAMS", "BAKER", "CLARK", "DAVIS"};
    uint8_t body[32];
    memset(body, 0x40, sizeof body);
    if (write_record(d, WORK, 0, 1, 0, body, 24) || write_record(d, WORK, 0, 2, 0, body, 24) || write_label(d, WORK, "WORK01")) return -1;
    for (uint8_t i = 0; i < 4; i++) {
        memset(body, 0x40, sizeof body);
        ebcdic(body, keys[i]);
        ebcdic(body + 8, keys[i]);
        ebcdic(body + 8 + 14, "VISIT 0041");
        if (write_record(d, WORK, 1, (uint8_t)(i + 1), 8, body, sizeof body)) return -1;
    }
    return 0;
}

int main(int argc, char **argv) {
    static uint8_t program[MOST_OF_PROGRAM];
    dasd d = DASD_NOTHING;
    size_t len = argc == 4 ? read_program(argv[1], program) : 0;
    if (!len) return fprintf(stderr, "usage: mkvolumes UTILITY RESIDENT WORK\n"), 2;
    int bad = dasd_new(&d, 65536, DASD_CHANNEL(1)) || dasd_attach_new(&d, RESIDENT, 2314, 2) || dasd_attach_new(&d, WORK, 2311, 3) ||
              write_resident(&d, RESIDENT, program, len) || write_work(&d) || write_file(&d, RESIDENT, argv[2]) || write_file(&d, WORK, argv[3]);
    dasd_free(&d);
    if (bad) fprintf(stderr, "mkvolumes: the volumes were not made\n");
    return bad ? EXIT_FAILURE : EXIT_SUCCESS;
}
