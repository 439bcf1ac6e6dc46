/* layout.c - where each field of each struct of the headers lies, on a machine whose pointers have 64 bits. It is compiled, and not run.
 * Made by tools/run make/interface of c/interface.toml. */
#include <stddef.h>

#include "../dasd_drive.h"

#define LIES(struct, field, at) _Static_assert(offsetof(struct, field) == (at), #struct " " #field)

_Static_assert(sizeof(dasd) == 16, "dasd");
LIES(dasd, stamp, 0);
LIES(dasd, place, 8);

_Static_assert(sizeof(dasd_wanted) == 8, "dasd_wanted");
LIES(dasd_wanted, units, 0);
LIES(dasd_wanted, channel, 4);
LIES(dasd_wanted, until, 5);
LIES(dasd_wanted, reserved, 6);

_Static_assert(sizeof(dasd_bytes) == 16, "dasd_bytes");
LIES(dasd_bytes, at, 0);
LIES(dasd_bytes, len, 8);

_Static_assert(sizeof(dasd_file) == 24, "dasd_file");
LIES(dasd_file, at, 0);
LIES(dasd_file, len, 8);
LIES(dasd_file, changes, 16);

_Static_assert(sizeof(dasd_changed) == 32, "dasd_changed");
LIES(dasd_changed, at, 0);
LIES(dasd_changed, len, 8);
LIES(dasd_changed, track, 16);
LIES(dasd_changed, next, 24);

_Static_assert(sizeof(dasd_files) == 16, "dasd_files");
LIES(dasd_files, stamp, 0);
LIES(dasd_files, place, 8);

_Static_assert(sizeof(dasd_space) == 16, "dasd_space");
LIES(dasd_space, at, 0);
LIES(dasd_space, len, 8);

_Static_assert(sizeof(dasd_drive) == 16, "dasd_drive");
LIES(dasd_drive, model, 0);
LIES(dasd_drive, cylinders, 2);
LIES(dasd_drive, cylinder, 4);
LIES(dasd_drive, head, 6);
LIES(dasd_drive, arm, 8);
LIES(dasd_drive, sense, 9);
LIES(dasd_drive, reserved, 15);

_Static_assert(sizeof(dasd_run) == 8, "dasd_run");
LIES(dasd_run, units, 0);
LIES(dasd_run, subchannel, 4);
LIES(dasd_run, device, 5);
LIES(dasd_run, asked, 6);
LIES(dasd_run, reserved, 7);

_Static_assert(sizeof(dasd_progress) == 40, "dasd_progress");
LIES(dasd_progress, cylinders, 0);
LIES(dasd_progress, units, 8);
LIES(dasd_progress, bytes, 12);
LIES(dasd_progress, indexes, 16);
LIES(dasd_progress, stored, 20);
LIES(dasd_progress, low, 24);
LIES(dasd_progress, high, 28);
LIES(dasd_progress, subchannel, 32);
LIES(dasd_progress, device, 33);
LIES(dasd_progress, asked, 34);
LIES(dasd_progress, stopped, 35);
LIES(dasd_progress, reserved, 36);

_Static_assert(sizeof(dasd_track) == 6, "dasd_track");
LIES(dasd_track, address, 0);
LIES(dasd_track, cylinder, 2);
LIES(dasd_track, head, 4);

_Static_assert(sizeof(dasd_state) == 20, "dasd_state");
LIES(dasd_state, subchannel, 0);
LIES(dasd_state, device, 1);
LIES(dasd_state, asked, 2);
LIES(dasd_state, drives, 3);
LIES(dasd_state, units, 4);
LIES(dasd_state, arms, 12);

_Static_assert(sizeof(dasd_program) == 28, "dasd_program");
LIES(dasd_program, last, 0);
LIES(dasd_program, next, 4);
LIES(dasd_program, address, 8);
LIES(dasd_program, place, 12);
LIES(dasd_program, count, 16);
LIES(dasd_program, left, 18);
LIES(dasd_program, device, 20);
LIES(dasd_program, key, 21);
LIES(dasd_program, phase, 22);
LIES(dasd_program, asked, 23);
LIES(dasd_program, code, 24);
LIES(dasd_program, flags, 25);
LIES(dasd_program, reserved, 26);

_Static_assert(sizeof(dasd_registers) == 40, "dasd_registers");
LIES(dasd_registers, passed, 0);
LIES(dasd_registers, credited, 8);
LIES(dasd_registers, cylinder, 16);
LIES(dasd_registers, head, 18);
LIES(dasd_registers, sense, 20);
LIES(dasd_registers, area, 26);
LIES(dasd_registers, lap, 27);
LIES(dasd_registers, mask, 28);
LIES(dasd_registers, mask_set, 29);
LIES(dasd_registers, credit, 30);
LIES(dasd_registers, reserved, 31);

_Static_assert(sizeof(dasd_moment) == 12, "dasd_moment");
LIES(dasd_moment, what, 0);
LIES(dasd_moment, channel, 1);
LIES(dasd_moment, address, 2);
LIES(dasd_moment, answer, 4);
LIES(dasd_moment, cylinder, 8);
LIES(dasd_moment, head, 10);

_Static_assert(sizeof(dasd_trace) == 280, "dasd_trace");
LIES(dasd_trace, lines, 0);
LIES(dasd_trace, size, 8);
LIES(dasd_trace, length, 16);
LIES(dasd_trace, kept, 24);

_Static_assert(sizeof(dasd_storage) == 16, "dasd_storage");
LIES(dasd_storage, at, 0);
LIES(dasd_storage, len, 8);

_Static_assert(sizeof(dasd_memory) == 32, "dasd_memory");
LIES(dasd_memory, bytes, 0);
LIES(dasd_memory, size, 8);
LIES(dasd_memory, keys, 16);
LIES(dasd_memory, blocks, 24);

_Static_assert(sizeof(dasd_drive_alone) == 16, "dasd_drive_alone");
LIES(dasd_drive_alone, stamp, 0);
LIES(dasd_drive_alone, place, 8);

_Static_assert(sizeof(dasd_drive_next_bytes) == 16, "dasd_drive_next_bytes");
LIES(dasd_drive_next_bytes, passed, 0);
LIES(dasd_drive_next_bytes, left, 8);

_Static_assert(sizeof(dasd_drive_word) == 24, "dasd_drive_word");
LIES(dasd_drive_word, moved, 0);
LIES(dasd_drive_word, left, 8);
LIES(dasd_drive_word, code, 16);
LIES(dasd_drive_word, begun, 17);
LIES(dasd_drive_word, chains, 18);
LIES(dasd_drive_word, reserved, 19);

_Static_assert(sizeof(dasd_drive_seen) == 16, "dasd_drive_seen");
LIES(dasd_drive_seen, model, 0);
LIES(dasd_drive_seen, cylinders, 2);
LIES(dasd_drive_seen, cylinder, 4);
LIES(dasd_drive_seen, head, 6);
LIES(dasd_drive_seen, written, 8);
LIES(dasd_drive_seen, sense, 9);
LIES(dasd_drive_seen, reserved, 15);
