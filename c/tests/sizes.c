/* sizes.c - each struct of dasd.h and of dasd_drive.h is as large as the compiled library takes it to be, where pointers have 64 bits. A
 * size that is another is reported with the struct's name. The sizes are worked out by hand of the fields as the library has them:
 * numbers at their alignment, and pointers of eight bytes. */
#include <stddef.h>
#include <stdio.h>

#include "../dasd.h"
#include "../dasd_drive.h"

static const struct {
    const char *name;
    size_t in_header, in_library;
} structs[] = {
    {"dasd", sizeof(dasd), 16},
    {"dasd_wanted", sizeof(dasd_wanted), 8},
    {"dasd_bytes", sizeof(dasd_bytes), 16},
    {"dasd_file", sizeof(dasd_file), 24},
    {"dasd_changed", sizeof(dasd_changed), 32},
    {"dasd_files", sizeof(dasd_files), 16},
    {"dasd_space", sizeof(dasd_space), 16},
    {"dasd_drive", sizeof(dasd_drive), 16},
    {"dasd_run", sizeof(dasd_run), 8},
    {"dasd_progress", sizeof(dasd_progress), 40},
    {"dasd_track", sizeof(dasd_track), 6},
    {"dasd_state", sizeof(dasd_state), 20},
    {"dasd_program", sizeof(dasd_program), 28},
    {"dasd_registers", sizeof(dasd_registers), 40},
    {"dasd_moment", sizeof(dasd_moment), 12},
    {"dasd_trace", sizeof(dasd_trace), 280},
    {"dasd_storage", sizeof(dasd_storage), 16},
    {"dasd_memory", sizeof(dasd_memory), 32},
    {"dasd_drive_alone", sizeof(dasd_drive_alone), 16},
    {"dasd_drive_next_bytes", sizeof(dasd_drive_next_bytes), 16},
    {"dasd_drive_seen", sizeof(dasd_drive_seen), 16},
    {"dasd_drive_word", sizeof(dasd_drive_word), 24},
};

int main(void) {
    int wrong = 0;
    for (size_t i = 0; i < sizeof structs / sizeof *structs; i++) {
        if (structs[i].in_header == structs[i].in_library) continue;
        printf("%s has %zu bytes in the header, ", structs[i].name, structs[i].in_header);
        printf("and the compiled library takes %zu\n", structs[i].in_library);
        wrong = 1;
    }
    return wrong;
}
