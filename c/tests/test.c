/* test.c - each call of dasd.h tried from C: what a user meets first, and a table of bad uses. Built with -DHEAP and heap.c in place of
 * the library's own way to memory, it also refuses each taking of memory in turn. */
#include <inttypes.h>
#include <stddef.h>
#include <stdio.h>
#include <stdlib.h>
#include <string.h>

#include "../dasd.h"
#include "storage.h"
#include "tests.h"

/* --- The layout that dasd.h and the library agree on --- */

_Static_assert(sizeof(dasd) == 16 && offsetof(dasd, place) == 8, "the handle");
_Static_assert(sizeof(dasd_bytes) == 16 && offsetof(dasd_bytes, len) == 8, "the bytes of a file");
_Static_assert(sizeof(dasd_file) == 24 && offsetof(dasd_file, len) == 8 && offsetof(dasd_file, changes) == 16, "a file that is shown");
_Static_assert(sizeof(dasd_storage) == 16 && offsetof(dasd_storage, len) == 8, "storage");
_Static_assert(sizeof(dasd_drive) == 16 && offsetof(dasd_drive, cylinders) == 2 && offsetof(dasd_drive, cylinder) == 4 &&
                   offsetof(dasd_drive, head) == 6 && offsetof(dasd_drive, arm) == 8 && offsetof(dasd_drive, sense) == 9 &&
                   offsetof(dasd_drive, reserved) == 15,
               "a drive");
_Static_assert(sizeof(dasd_run) == 8 && offsetof(dasd_run, subchannel) == 4 && offsetof(dasd_run, device) == 5 &&
                   offsetof(dasd_run, asked) == 6 && offsetof(dasd_run, reserved) == 7,
               "what came of a run");
_Static_assert(sizeof(dasd_state) == 20 && offsetof(dasd_state, drives) == 3 && offsetof(dasd_state, units) == 4 &&
                   offsetof(dasd_state, arms) == 12,
               "a channel");
_Static_assert(sizeof(dasd_track) == 6 && offsetof(dasd_track, cylinder) == 2 && offsetof(dasd_track, head) == 4, "a track");

#ifdef HEAP
extern long heap_refuse_at, heap_live;
#endif

/* --- A channel program --- */

static void made(dasd *d) {
    CHECK(dasd_new(d, 65536, DASD_CHANNEL(1)) == DASD_DONE);
    CHECK(dasd_attach_new(d, 0x190, 2314, 2) == DASD_DONE);
}

/* Starts the program that the channel address word leads to, lets it end, and takes its interruption. */
static void program(dasd *d, uint16_t address) {
    dasd_run ran;
    uint16_t from = 0;
    CHECK(dasd_sio(d, address) == 0);
    CHECK(dasd_is_pending(d, 0xFE) == 0);
    CHECK(dasd_run_on(d, (uint8_t)(address >> 8), 1000000, &ran) == DASD_DONE);
    CHECK(ran.units > 0 && ran.units < 1000000 && ran.subchannel == DASD_ENDED && ran.device == (address & 255) && ran.asked == 0);
    CHECK(dasd_is_pending(d, 0xFE) == 1);
    CHECK(dasd_interrupt(d, 0xFE, &from) == 1 && from == address);
    CHECK(dasd_interrupt(d, 0xFE, &from) == 0 && from == address);
}

/* Record 1 of the first track is written: eight bytes, TEST and 01. */
static const char write_record[] = "31000200 40000005 08000100 00000000 1D000208 20000010";
static const char record_1[] = "0000000000 000000 0000000001 000008 E3C5E2E3 40F14040";

/* --- What a user meets first --- */

static void no_operation(void) {
    dasd d = DASD_NOTHING;
    uint16_t from;
    made(&d);
    store(&d, 0x48, "00000100");
    store(&d, 0x100, "03000000 20000001");
    CHECK(dasd_sio(&d, 0x190) == 1 && shows(&d, 0x40, "00000000 0C000000"));
    CHECK(dasd_interrupt(&d, 0xFE, &from) == 0);
    CHECK(dasd_sio(&d, 0x191) == 3 && dasd_sio(&d, 0x390) == 3 && dasd_sio(&d, 0xFF90) == 3 && dasd_sio(&d, 0x090) == 3);
    CHECK(dasd_tio(&d, 0x190) == 0 && dasd_tio(&d, 0x390) == 3);
    CHECK(dasd_hio(&d, 0x190) == 1 && dasd_hio(&d, 0x191) == 3 && dasd_hio(&d, 0x390) == 3);
    CHECK(dasd_tch(&d, 0x190) == 0 && dasd_tch(&d, 0x100) == 0 && dasd_tch(&d, 0x390) == 3);
    CHECK(dasd_free(&d) == DASD_DONE);
}

static void write_and_read(void) {
    dasd d = DASD_NOTHING, other = DASD_NOTHING;
    dasd_file before, after, same;
    made(&d);
    CHECK(dasd_show_file(&d, 0x190, 0, &before) == DASD_DONE && before.len == 512 + 2 * 20 * 7680);
    store(&d, 0x48, "00000100");
    store(&d, 0x100, write_record);
    store(&d, 0x200, record_1);
    program(&d, 0x190);
    CHECK(shows(&d, 0x44, "0C000000"));
    CHECK(dasd_show_file(&d, 0x190, 0, &after) == DASD_DONE && after.changes != before.changes);
    CHECK(!memcmp(after.at + 512 + 5 + 16, "\0\0\0\0\1\0\0\10\xE3\xC5\xE2\xE3", 12));
    program(&d, 0x190); /* writes the same once more */
    CHECK(dasd_show_file(&d, 0x190, 0, &same) == DASD_DONE && same.changes != after.changes);
    after = same;
    store(&d, 0x100, "31000208 40000005 08000100 00000000 06000300 20000008"); /* Read Data of record 1 */
    program(&d, 0x190);
    CHECK(shows(&d, 0x300, "E3C5E2E3 40F14040"));
    CHECK(dasd_show_file(&d, 0x190, 0, &same) == DASD_DONE && same.changes == after.changes);
    /* the volume of one handle, attached to another */
    dasd_bytes file = {same.at, same.len};
    CHECK(dasd_check(&file, 1) == DASD_DONE);
    CHECK(dasd_new(&other, 4096, DASD_CHANNEL(0)) == DASD_DONE && dasd_attach(&other, 0x001, &file, 1) == DASD_DONE);
    CHECK(dasd_free(&d) == DASD_DONE);
    store(&other, 0x48, "00000100");
    store(&other, 0x208, "0000000001");
    store(&other, 0x100, "31000208 40000005 08000100 00000000 06000300 20000008");
    program(&other, 0x001);
    CHECK(shows(&other, 0x300, "E3C5E2E3 40F14040"));
    CHECK(dasd_show_file(&other, 0x001, 0, &before) == DASD_DONE);
    store(&other, 0x100, write_record);
    store(&other, 0x200, record_1);
    program(&other, 0x001); /* writes what stands there already in the file that was attached */
    CHECK(dasd_show_file(&other, 0x001, 0, &after) == DASD_DONE && after.changes != before.changes);
    CHECK(after.len == before.len && shows(&other, 0x300, "E3C5E2E3 40F14040"));
    CHECK(dasd_free(&other) == DASD_DONE);
}

/* A volume in two files, of two cylinders and of one: each is shown, and the change is in the one that holds the track. */
static void two_files(void) {
    enum { HEADER = 512, CYLINDER = 10 * 4096, SEQUENCE = 17, HIGHEST_CYLINDER = 18 };
    static uint8_t one[HEADER + 2 * CYLINDER], two[HEADER + CYLINDER];
    dasd d = DASD_NOTHING;
    dasd_file whole, first, second, again;
    made(&d);
    CHECK(dasd_attach_new(&d, 0x192, 2311, 3) == DASD_DONE);
    CHECK(dasd_show_file(&d, 0x192, 0, &whole) == DASD_DONE);
    memcpy(one, whole.at, sizeof one);
    memcpy(two, whole.at, HEADER);
    memcpy(two + HEADER, whole.at + sizeof one, CYLINDER);
    one[SEQUENCE] = 1;
    one[HIGHEST_CYLINDER] = 1;
    two[SEQUENCE] = 2;
    const dasd_bytes files[2] = {{one, sizeof one}, {two, sizeof two}}, swapped[2] = {files[1], files[0]};
    CHECK(dasd_check(files, 2) == DASD_DONE && dasd_check(swapped, 2) == DASD_SPLIT && dasd_check(files, 1) == DASD_SPLIT);
    CHECK(dasd_attach(&d, 0x191, files, 2) == DASD_DONE);
    CHECK(dasd_show_file(&d, 0x191, 0, &first) == DASD_DONE);
    CHECK(dasd_show_file(&d, 0x191, 1, &second) == DASD_DONE);
    CHECK(first.len == sizeof one && second.len == sizeof two && dasd_show_file(&d, 0x191, 2, &again) == DASD_NO_FILE);
    store(&d, 0x48, "00000100"); /* Seek to cylinder 2, Search Identifier of record 0, Write Count, Key and Data */
    store(&d, 0x100, "07000200 40000006 31000208 40000005 08000108 00000000 1D000210 20000010");
    store(&d, 0x200, "000000020000 0000 0002000000 000000 0002000001000008 E3C5E2E340F14040");
    program(&d, 0x191);
    CHECK(shows(&d, 0x44, "0C000000"));
    CHECK(dasd_show_file(&d, 0x191, 0, &again) == DASD_DONE && again.changes == first.changes && again.at == first.at);
    CHECK(dasd_show_file(&d, 0x191, 1, &again) == DASD_DONE && again.changes != second.changes && again.at == second.at);
    CHECK(dasd_free(&d) == DASD_DONE);
}

static void halt(void) {
    dasd d = DASD_NOTHING;
    dasd_state v;
    dasd_file f;
    dasd_run ran;
    uint32_t done;
    uint16_t from;
    made(&d);
    store(&d, 0x48, "00000100");
    store(&d, 0x100, write_record);
    store(&d, 0x200, record_1);
    CHECK(dasd_sio(&d, 0x190) == 0 && dasd_sio(&d, 0x190) == 2 && dasd_tio(&d, 0x190) == 2 && dasd_tch(&d, 0x100) == 2);
    CHECK(dasd_show_file(&d, 0x190, 0, &f) == DASD_PROGRAM_RUNS && dasd_detach(&d, 0x190) == DASD_PROGRAM_RUNS);
    CHECK(dasd_step(&d, 1, 12, &done) == DASD_DONE && done == 12);
    CHECK(dasd_run_on(&d, 1, 0, &ran) == DASD_DONE && ran.units == 0 && ran.subchannel == DASD_WORKING && ran.device == 0x90);
    CHECK(dasd_show_channel(&d, 1, &v) == DASD_DONE && v.subchannel == DASD_WORKING && v.device == 0x90 && v.drives == 1 && v.units[0] == 0x90);
    CHECK(dasd_hio(&d, 0x190) == 2 && dasd_tch(&d, 0x100) == 1 && dasd_detach(&d, 0x190) == DASD_ENDING_PENDS);
    CHECK(dasd_show_channel(&d, 1, &v) == DASD_DONE && v.subchannel == DASD_ENDED && v.arms[0] == DASD_AT_REST);
    CHECK(dasd_interrupt(&d, DASD_CHANNEL(1), &from) == 1 && from == 0x190 && dasd_tch(&d, 0x100) == 0);
    CHECK(dasd_free(&d) == DASD_DONE);
}

static void arm_and_sense(void) {
    dasd d = DASD_NOTHING;
    dasd_drive v;
    dasd_track t;
    uint16_t from;
    made(&d);
    CHECK(dasd_show_drive(&d, 0x190, &v) == DASD_DONE && v.model == 2314 && v.cylinders == 2 && v.cylinder == 0 && v.head == 0);
    store(&d, 0x48, "00000100");
    store(&d, 0x100, "07000200 20000006"); /* Seek */
    store(&d, 0x200, "0000 0001 0003");
    program(&d, 0x190);
    CHECK(shows(&d, 0x44, "08000000") && dasd_is_pending(&d, 0xFE) == 0);
    CHECK(dasd_show_drive(&d, 0x190, &v) == DASD_DONE && v.arm == DASD_IN_MOTION && v.cylinder == 1 && v.head == 3);
    CHECK(dasd_detach(&d, 0x190) == DASD_DEVICE_END_OWED && dasd_sio(&d, 0x190) == 1 && shows(&d, 0x44, "1000"));
    CHECK(dasd_arrive(&d, 0x191) == 0 && dasd_arrive(&d, 0x192) == 0 && dasd_arrive(&d, 0x390) == 0);
    CHECK(dasd_arrive(&d, 0x190) == 1 && dasd_arrive(&d, 0x190) == 0);
    CHECK(dasd_show_drive(&d, 0x190, &v) == DASD_DONE && v.arm == DASD_ARRIVED);
    CHECK(dasd_is_pending(&d, DASD_CHANNEL(2)) == 0 && dasd_is_pending(&d, DASD_CHANNEL(1)) == 1);
    CHECK(dasd_is_pending(&d, 0) == 0 && dasd_is_pending(&d, 0xFF) == 1 && dasd_interrupt(&d, 0xBF, &from) == 0);
    CHECK(dasd_interrupt(&d, DASD_CHANNEL(1), &from) == 1 && from == 0x190 && shows(&d, 0x44, "0400"));
    store(&d, 0x100, "FF000000 20000001"); /* no command: unit check, and the sense bytes say why */
    CHECK(dasd_sio(&d, 0x190) == 1 && shows(&d, 0x44, "0200"));
    CHECK(dasd_show_drive(&d, 0x190, &v) == DASD_DONE && v.sense[0] == 0x80 && v.cylinder == 1);
    CHECK(dasd_reset(&d, 1, &t) == 0);
    CHECK(dasd_show_drive(&d, 0x190, &v) == DASD_DONE && !memcmp(v.sense, "\0\0\0\0\0\0", 6));
    CHECK(dasd_free(&d) == DASD_DONE);
}

/* Storage is the caller's between two calls, without a copy. */
static void storage_is_shared(void) {
    dasd d = DASD_NOTHING;
    dasd_storage s, t;
    uint8_t b;
    made(&d);
    CHECK(dasd_attach_new(&d, 0x191, 2311, 1) == DASD_DONE);
    CHECK(dasd_show_storage(&d, &s) == DASD_DONE && s.len == 65536);
    memcpy(s.at + 0x48, "\0\0\1\0", 4);
    memcpy(s.at + 0x100, "\x16\0\2\0\x20\0\0\x10", 8); /* Read R0 */
    program(&d, 0x190);
    CHECK(!memcmp(s.at + 0x200, "\0\0\0\0\0\0\0\10\0\0\0\0\0\0\0\0", 16));
    memset(s.at + 0x200, 0xFF, 16);
    program(&d, 0x191);
    CHECK(!memcmp(s.at + 0x200, "\0\0\0\0\0\0\0\10\0\0\0\0\0\0\0\0", 16));
    s.at[77] = 5;
    CHECK(dasd_peek(&d, 77, &b, 1) == DASD_DONE && b == 5);
    b = 9;
    CHECK(dasd_poke(&d, 78, &b, 1) == DASD_DONE && s.at[78] == 9);
    CHECK(dasd_peek(&d, 65536, &b, 0) == DASD_DONE && dasd_poke(&d, 0, &b, 0) == DASD_DONE);
    CHECK(dasd_set_key(&d, 2048, 7) == DASD_DONE && dasd_key(&d, 4095) == 7 && dasd_key(&d, 4096) == 0 && dasd_key(&d, 2047) == 0);
    CHECK(dasd_show_storage(&d, &t) == DASD_DONE && t.at == s.at && t.len == s.len);
    CHECK(dasd_free(&d) == DASD_DONE);
}

/* A null pointer counts as no bytes. */
static void no_bytes(void) {
    const uint8_t none = 0;
    const dasd_bytes nothing = {NULL, 0}, empty = {&none, 0};
    size_t written = 0;
    dasd d = DASD_NOTHING;
    made(&d);
    CHECK(dasd_peek(&d, 65536, NULL, 0) == DASD_DONE && dasd_poke(&d, 0, NULL, 0) == DASD_DONE);
    CHECK(dasd_save(&d, NULL, 0, &written) == DASD_NO_ROOM && written == 0);
    CHECK(dasd_restore(&d, NULL, 0) < 0 && dasd_restore(&d, NULL, 0) == dasd_restore(&d, &none, 0));
    CHECK(dasd_check(NULL, 0) == DASD_NO_FILES && dasd_attach(&d, 0x191, NULL, 0) == DASD_NO_FILES);
    CHECK(dasd_check(&nothing, 1) < 0 && dasd_check(&nothing, 1) == dasd_check(&empty, 1));
    CHECK(dasd_attach(&d, 0x191, &nothing, 1) == dasd_check(&nothing, 1));
    CHECK(dasd_free(&d) == DASD_DONE);
}

/* A pack is taken off, and another put on. */
static void packs(void) {
    dasd d = DASD_NOTHING;
    dasd_state v;
    made(&d);
    CHECK(dasd_attach_new(&d, 0x191, 2311, 1) == DASD_DONE && dasd_attach_new(&d, 0x192, 2311, 1) == DASD_DONE);
    CHECK(dasd_detach(&d, 0x191) == DASD_DONE && dasd_detach(&d, 0x191) == DASD_NO_DRIVE);
    CHECK(dasd_show_channel(&d, 1, &v) == DASD_DONE && v.drives == 2 && v.units[0] == 0x90 && v.units[1] == 0x92 && v.units[2] == 0);
    CHECK(dasd_attach_new(&d, 0x191, 2314, 3) == DASD_DONE && dasd_tio(&d, 0x191) == 0);
    CHECK(dasd_free(&d) == DASD_DONE);
}

/* --- Bad uses --- */

static uint8_t image[512 + 10 * 4096]; /* a new volume of a 2311 with one cylinder */

/* What a bad use may not change, as far as calls show it. */
typedef struct seen {
    int32_t codes[3];
    dasd_state channel;
    dasd_drive drive;
    dasd_file file;
    dasd_storage storage;
    uint8_t bytes[256];
} seen;

static void look(dasd *d, seen *s) {
    memset(s, 0, sizeof *s);
    s->codes[0] = dasd_show_channel(d, 1, &s->channel);
    s->codes[1] = dasd_show_drive(d, 0x190, &s->drive);
    s->codes[2] = dasd_show_file(d, 0x190, 0, &s->file);
    if (dasd_show_storage(d, &s->storage) == DASD_DONE) memcpy(s->bytes, s->storage.at, sizeof s->bytes);
}

typedef int32_t use(dasd *d, void *out);

#define USE(name, call)                       \
    static int32_t name(dasd *d, void *out) { \
        (void)d;                              \
        (void)out;                            \
        return call;                          \
    }

static const dasd_bytes good = {image, sizeof image}, cut = {image, sizeof image - 1}, four = {image, 4}, bare = {image, 0};
static const dasd_bytes nine[9] = {
    {image, sizeof image}, {image, 1}, {image, 1}, {image, 1}, {image, 1}, {image, 1}, {image, 1}, {image, 1}, {image, 1}};
static uint8_t other[512 + 10 * 4096]; /* the same with one byte of its header replaced */

static const dasd_bytes *with(size_t at, uint8_t byte) {
    static const dasd_bytes replaced = {other, sizeof other};
    memcpy(other, image, sizeof other);
    other[at] = byte;
    return &replaced;
}

USE(make_again, dasd_new(d, 65536, DASD_CHANNEL(1)))
USE(make_small, dasd_new(d, 2048, DASD_CHANNEL(1)))
USE(make_odd, dasd_new(d, 4097, DASD_CHANNEL(1)))
USE(make_large, dasd_new(d, 16779264, DASD_CHANNEL(1)))
USE(make_none, dasd_new(d, 65536, 0))
USE(make_eighth, dasd_new(d, 65536, 0x01))
USE(make_with_eighth, dasd_new(d, 65536, DASD_CHANNEL(1) | 0x01))
USE(use_free, dasd_free(d))
USE(attach_none, dasd_attach(d, 0x191, &good, 0))
USE(attach_nine, dasd_attach(d, 0x191, nine, 9))
USE(attach_nowhere, dasd_attach(d, 0x391, &good, 1))
USE(attach_above, dasd_attach(d, 0x791, &good, 1))
USE(attach_cut, dasd_attach(d, 0x191, &cut, 1))
USE(attach_four, dasd_attach(d, 0x191, &four, 1))
USE(attach_bare, dasd_attach(d, 0x191, &bare, 1))
USE(attach_other, dasd_attach(d, 0x191, with(0, 'c'), 1))
USE(attach_compressed, dasd_attach(d, 0x191, with(4, 'C'), 1))
USE(attach_type, dasd_attach(d, 0x191, with(16, 0x30), 1))
USE(attach_heads, dasd_attach(d, 0x191, with(8, 11), 1))
USE(attach_small, dasd_attach(d, 0x191, with(13, 0x0E), 1))
USE(attach_part, dasd_attach(d, 0x191, with(18, 5), 1))
USE(attach_taken, dasd_attach(d, 0x190, &good, 1))
USE(attach_full, dasd_attach(d, 0x199, &good, 1))
USE(new_model, dasd_attach_new(d, 0x191, 3330, 1))
USE(new_empty, dasd_attach_new(d, 0x191, 2314, 0))
USE(new_nowhere, dasd_attach_new(d, 0x091, 2314, 1))
USE(new_taken, dasd_attach_new(d, 0x190, 2314, 1))
USE(new_full, dasd_attach_new(d, 0x199, 2314, 1))
USE(detach_nowhere, dasd_detach(d, 0x390))
USE(detach_none, dasd_detach(d, 0x191))
USE(file_nowhere, dasd_show_file(d, 0x390, 0, out))
USE(file_of_none, dasd_show_file(d, 0x191, 0, out))
USE(file_second, dasd_show_file(d, 0x190, 1, out))
USE(file_last, dasd_show_file(d, 0x190, 255, out))
USE(drive_nowhere, dasd_show_drive(d, 0x390, out))
USE(drive_none, dasd_show_drive(d, 0x191, out))
USE(step_nowhere, dasd_step(d, 3, 1, out))
USE(run_nowhere, dasd_run_on(d, 255, 1, out))
USE(reset_nowhere, dasd_reset(d, 7, out))
USE(show_nowhere, dasd_show_channel(d, 0, out))
USE(peek_outside, dasd_peek(d, 65536, out, 1))
USE(peek_across, dasd_peek(d, 65535, out, 2))
USE(peek_far, dasd_peek(d, 0xFFFFFFFF, out, 1))
USE(poke_outside, dasd_poke(d, 65536, image, 1))
USE(poke_across, dasd_poke(d, 65500, image, 37))
USE(key_outside, dasd_key(d, 65536))
USE(set_key_outside, dasd_set_key(d, 65536, 1))
USE(set_key_high, dasd_set_key(d, 0, 16))
USE(check_none, dasd_check(nine, 0))
USE(check_nine, dasd_check(nine, 9))
USE(check_cut, dasd_check(&cut, 1))
USE(check_bare, dasd_check(&bare, 1))
USE(check_two, dasd_check(nine, 2))
USE(use_attach, dasd_attach(d, 0x190, &good, 1))
USE(use_new_volume, dasd_attach_new(d, 0x190, 2311, 1))
USE(use_detach, dasd_detach(d, 0x190))
USE(use_file, dasd_show_file(d, 0x190, 0, out))
USE(use_drive, dasd_show_drive(d, 0x190, out))
USE(use_sio, dasd_sio(d, 0x190))
USE(use_tio, dasd_tio(d, 0x190))
USE(use_hio, dasd_hio(d, 0x190))
USE(use_tch, dasd_tch(d, 0x190))
USE(use_step, dasd_step(d, 1, 1, out))
USE(use_run, dasd_run_on(d, 1, 1, out))
USE(use_arrive, dasd_arrive(d, 0x190))
USE(use_pending, dasd_is_pending(d, 0xFE))
USE(use_interrupt, dasd_interrupt(d, 0xFE, out))
USE(use_reset, dasd_reset(d, 1, out))
USE(use_channel, dasd_show_channel(d, 1, out))
USE(use_storage, dasd_show_storage(d, out))
USE(use_peek, dasd_peek(d, 0, out, 1))
USE(use_poke, dasd_poke(d, 0, image, 1))
USE(use_key, dasd_key(d, 0))
USE(use_set_key, dasd_set_key(d, 0, 1))

/* Each use at a handle that holds a channel with eight drives; and its code. */
static const struct {
    const char *what;
    use *call;
    int32_t code;
} bad_uses[] = {
    {"a second make", make_again, DASD_IN_USE},
    {"no file", attach_none, DASD_NO_FILES},
    {"nine files", attach_nine, DASD_TOO_MANY_FILES},
    {"a channel that is not there", attach_nowhere, DASD_NO_CHANNEL},
    {"a channel above 6", attach_above, DASD_NO_CHANNEL},
    {"an image less its last byte", attach_cut, DASD_LENGTH},
    {"four bytes of an image", attach_four, DASD_LENGTH},
    {"a file without bytes", attach_bare, DASD_LENGTH},
    {"another file", attach_other, DASD_NOT_CKD_P370},
    {"a compressed image", attach_compressed, DASD_COMPRESSED},
    {"another drive's type", attach_type, DASD_DEVICE_TYPE},
    {"eleven heads", attach_heads, DASD_HEADS},
    {"tracks too small", attach_small, DASD_TRACK_SIZE},
    {"a part of an image", attach_part, DASD_SPLIT},
    {"an address taken", attach_taken, DASD_ADDRESS_TAKEN},
    {"a ninth drive", attach_full, DASD_FULL},
    {"another model", new_model, DASD_BAD_MODEL},
    {"no cylinders", new_empty, DASD_NO_CYLINDERS},
    {"a new volume where no channel is", new_nowhere, DASD_NO_CHANNEL},
    {"a new volume at an address taken", new_taken, DASD_ADDRESS_TAKEN},
    {"a new volume for a ninth drive", new_full, DASD_FULL},
    {"a drive detached where no channel is", detach_nowhere, DASD_NO_CHANNEL},
    {"a drive detached that is not there", detach_none, DASD_NO_DRIVE},
    {"a file where no channel is", file_nowhere, DASD_NO_CHANNEL},
    {"a file of a drive that is not there", file_of_none, DASD_NO_DRIVE},
    {"a second file of one", file_second, DASD_NO_FILE},
    {"the 256th file", file_last, DASD_NO_FILE},
    {"a drive where no channel is", drive_nowhere, DASD_NO_CHANNEL},
    {"a drive that is not there", drive_none, DASD_NO_DRIVE},
    {"units of a channel that is not there", step_nowhere, DASD_NO_CHANNEL},
    {"a run of a channel that is not there", run_nowhere, DASD_NO_CHANNEL},
    {"a reset of a channel that is not there", reset_nowhere, DASD_NO_CHANNEL},
    {"a channel that is not there, shown", show_nowhere, DASD_NO_CHANNEL},
    {"a byte behind storage", peek_outside, DASD_OUTSIDE_STORAGE},
    {"bytes across its end", peek_across, DASD_OUTSIDE_STORAGE},
    {"the highest address", peek_far, DASD_OUTSIDE_STORAGE},
    {"a byte stored behind storage", poke_outside, DASD_OUTSIDE_STORAGE},
    {"bytes stored across its end", poke_across, DASD_OUTSIDE_STORAGE},
    {"a key behind storage", key_outside, DASD_OUTSIDE_STORAGE},
    {"a key set behind storage", set_key_outside, DASD_OUTSIDE_STORAGE},
    {"key 16", set_key_high, DASD_BAD_KEY},
    {"no file looked at", check_none, DASD_NO_FILES},
    {"nine files looked at", check_nine, DASD_TOO_MANY_FILES},
    {"an image less its last byte looked at", check_cut, DASD_LENGTH},
    {"a file without bytes looked at", check_bare, DASD_LENGTH},
    {"a file of one byte behind an image", check_two, DASD_LENGTH},
};

/* Each use of a handle that holds nothing. */
static use *const uses[] = {use_free,    use_attach,  use_new_volume, use_detach, use_file,   use_drive,   use_sio,       use_tio,
                            use_hio,     use_tch,     use_step,       use_run,    use_arrive, use_pending, use_interrupt, use_reset,
                            use_channel, use_storage, use_peek,       use_poke,   use_key,    use_set_key};

static const struct {
    use *call;
    int32_t code;
} bad_makes[] = {{make_small, DASD_BAD_SIZE},    {make_odd, DASD_BAD_SIZE},        {make_large, DASD_BAD_SIZE},
                 {make_none, DASD_BAD_CHANNELS}, {make_eighth, DASD_BAD_CHANNELS}, {make_with_eighth, DASD_BAD_CHANNELS}};

static int is_untouched(const uint8_t *out, size_t n) {
    for (size_t i = 0; i < n; i++)
        if (out[i] != 0xA5) return 0;
    return 1;
}

static void refuses(dasd *d, use *call, int32_t code, const char *what) {
    static uint64_t out[16];
    seen before, after;
    memset(out, 0xA5, sizeof out);
    look(d, &before);
    int32_t got = call(d, out);
    look(d, &after);
    if (got != code) printf("%s: %" PRId32 ", not %" PRId32 "\n", what, got, code);
    CHECK(got == code && is_untouched((const uint8_t *)out, sizeof out) && !memcmp(&before, &after, sizeof before));
}

static void bad_use(void) {
    dasd d = DASD_NOTHING, empty = DASD_NOTHING;
    dasd_file f;
    dasd_track t;
    CHECK(dasd_version() == DASD_VERSION_NUMBER && dasd_interface() == DASD_INTERFACE);
    CHECK(dasd_new(&d, 65536, DASD_CHANNEL(1)) == DASD_DONE && dasd_attach_new(&d, 0x190, 2311, 1) == DASD_DONE);
    CHECK(dasd_show_file(&d, 0x190, 0, &f) == DASD_DONE && f.len == sizeof image);
    memcpy(image, f.at, sizeof image);
    for (uint16_t unit = 0xA0; unit < 0xA7; unit++) CHECK(dasd_attach(&d, 0x100 | unit, &good, 1) == DASD_DONE);
    store(&d, 0x48, "00000100");
    store(&d, 0x100, "03000000 20000001");
    for (size_t i = 0; i < sizeof bad_uses / sizeof *bad_uses; i++) refuses(&d, bad_uses[i].call, bad_uses[i].code, bad_uses[i].what);
    CHECK(dasd_reset(&d, 1, &t) == 0 && dasd_free(&d) == DASD_DONE);
    for (int freed = 0; freed < 2; freed++) { /* a handle that was freed, and one that was never made */
        dasd *nothing = freed ? &d : &empty;
        for (size_t i = 0; i < sizeof uses / sizeof *uses; i++) refuses(nothing, uses[i], DASD_NOTHING_HELD, "a handle that holds nothing");
        for (size_t i = 0; i < sizeof bad_makes / sizeof *bad_makes; i++) refuses(nothing, bad_makes[i].call, bad_makes[i].code, "a make");
    }
}

/* --- Memory refused --- */

#ifdef HEAP
/* The call answers that memory was refused, or that it was done; where it was refused, it works when it is made again. */
#define AGAIN(call)                \
    do {                           \
        int32_t r = (call);        \
        if (r == DASD_NO_MEMORY) { \
            refused++;             \
            r = (call);            \
        }                          \
        CHECK(r == DASD_DONE);     \
    } while (0)

static void memory(void) {
    int refused = 0;
    const dasd_bytes file = {image, sizeof image};
    for (long n = 1; n <= 60; n++) {
        dasd d = DASD_NOTHING;
        uint8_t b;
        heap_refuse_at = n;
        AGAIN(dasd_new(&d, 4096, DASD_CHANNEL(1) | DASD_CHANNEL(6)));
        AGAIN(dasd_check(&file, 1));
        AGAIN(dasd_attach_new(&d, 0x191, 2311, 1));
        AGAIN(dasd_attach(&d, 0x192, &file, 1));
        AGAIN(dasd_attach(&d, 0x193, &file, 1));
        heap_refuse_at = 1; /* nothing below takes memory */
        store(&d, 0x48, "00000100");
        store(&d, 0x100, "16000200 20000010"); /* Read R0 */
        program(&d, 0x191);
        CHECK(dasd_tio(&d, 0x191) == 0 && dasd_peek(&d, 0, &b, 1) == DASD_DONE && heap_refuse_at == 1);
        heap_refuse_at = 0;
        CHECK(dasd_free(&d) == DASD_DONE && heap_live == 0);
    }
    CHECK(refused > 8);
    printf("memory was refused %d times\n", refused);
}
#endif

int main(void) {
    unsigned major, minor, patch;
    CHECK(sscanf(DASD_VERSION, "%u.%u.%u", &major, &minor, &patch) == 3 && (major << 16 | minor << 8 | patch) == DASD_VERSION_NUMBER);
    CHECK(!strcmp(dasd_fault_text(DASD_NO_TRACK), "a drive was saved at a track that its volume does not have"));
    CHECK(!strcmp(dasd_fault_text(DASD_DONE), "it was done") && !strcmp(dasd_fault_text(-99), "no fault of this library"));
    no_operation();
    write_and_read();
    two_files();
    halt();
    arm_and_sense();
    storage_is_shared();
    no_bytes();
    packs();
    bad_use();
#ifdef HEAP
    memory();
#endif
    return failures ? EXIT_FAILURE : EXIT_SUCCESS;
}
