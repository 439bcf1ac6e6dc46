/* volumes.c - volumes in as many files as there may be, drives in every place of a channel, and interruptions of all channels: what bounds
 * the loops of the library; and files that are taken over and given back. Built with -DHEAP and heap.c in place of the library's own way to
 * memory, it also refuses memory. */
#include <stdint.h>
#include <stdio.h>
#include <stdlib.h>
#include <string.h>

#include "../dasd.h"
#include "storage.h"
#include "tests.h"

#ifdef HEAP
extern long heap_refuse_at, heap_live;
#endif

enum { HEADER = 512, CYLINDER = 10 * 4096, SEQUENCE = 17, HIGHEST_CYLINDER = 18, FILES = 8, ALL = 0xFE };

static uint8_t bytes[FILES][HEADER + 2 * CYLINDER];
static dasd_bytes files[FILES + 1];

/* A new volume of a 2311 with nine cylinders, two of them in the first of eight files; and behind them the first once more. In a header
 * stand which file of the image it is, from 1, and the highest cylinder in it, which is 0 in the last. */
static void split(void) {
    dasd d = DASD_NOTHING;
    dasd_file whole;
    CHECK(dasd_new(&d, 4096, DASD_CHANNEL(0)) == DASD_DONE && dasd_attach_new(&d, 0, 2311, FILES + 1) == DASD_DONE);
    CHECK(dasd_show_file(&d, 0, 0, &whole) == DASD_DONE && whole.len == HEADER + (FILES + 1) * CYLINDER);
    for (size_t i = 0; i < FILES; i++) {
        size_t first = i ? i + 1 : 0, len = (size_t)(i ? 1 : 2) * CYLINDER;
        memcpy(bytes[i], whole.at, HEADER);
        memcpy(bytes[i] + HEADER, whole.at + HEADER + first * CYLINDER, len);
        bytes[i][SEQUENCE] = (uint8_t)(i + 1);
        bytes[i][HIGHEST_CYLINDER] = (uint8_t)(i + 1 < FILES ? i + 1 : 0);
        files[i] = (dasd_bytes){bytes[i], HEADER + len};
    }
    files[FILES] = files[0];
    CHECK(dasd_free(&d) == DASD_DONE);
}

/* Runs the program at 100 to its end, whose status is channel end and device end, and takes its interruption. */
static void runs(dasd *d, uint16_t address) {
    dasd_run ran;
    uint16_t from = 0;
    CHECK(dasd_sio(d, address) == 0 && dasd_run_on(d, (uint8_t)(address >> 8), 1000000, &ran) == DASD_DONE && ran.subchannel == DASD_ENDED);
    CHECK(dasd_interrupt(d, ALL, &from) == 1 && from == address && shows(d, 0x44, "0C000000"));
}

/* Seeks a cylinder, searches for the record of this number on its first track, and does `then`, the command word behind that. */
static void at_record(dasd *d, uint8_t cylinder, uint8_t record, const char *then) {
    const uint8_t place[6] = {0, 0, 0, cylinder, 0, 0}, identifier[5] = {0, cylinder, 0, 0, record};
    store(d, 0x100, "07000200 40000006 31000208 40000005 08000108 00000000");
    store(d, 0x118, then);
    CHECK(dasd_poke(d, 0x200, place, sizeof place) == DASD_DONE && dasd_poke(d, 0x208, identifier, sizeof identifier) == DASD_DONE);
    runs(d, 0x190);
}

/* Each file takes the write to its own cylinder, and no other changes; all that was written is read again. */
static void eight_files(void) {
    dasd d = DASD_NOTHING;
    dasd_file before[FILES], after;
    CHECK(dasd_new(&d, 4096, DASD_CHANNEL(1)) == DASD_DONE && dasd_attach(&d, 0x190, files, FILES) == DASD_DONE);
    store(&d, 0x48, "00000100");
    for (uint8_t c = 0; c <= (uint8_t)FILES; c++) {
        const uint8_t record_1[9] = {0, c, 0, 0, 1, 0, 0, 1, (uint8_t)(0xC1 + c)};
        for (uint8_t i = 0; i < (uint8_t)FILES; i++)
            CHECK(dasd_show_file(&d, 0x190, i, &before[i]) == DASD_DONE && before[i].len == files[i].len);
        CHECK(dasd_poke(&d, 0x210, record_1, sizeof record_1) == DASD_DONE);
        at_record(&d, c, 0, "1D000210 20000009"); /* Write Count, Key and Data */
        for (uint8_t i = 0; i < (uint8_t)FILES; i++)
            CHECK(dasd_show_file(&d, 0x190, i, &after) == DASD_DONE && (after.changes != before[i].changes) == (i == (c ? c - 1 : 0)));
    }
    for (uint8_t c = 0; c <= (uint8_t)FILES; c++) {
        uint8_t got = 0;
        at_record(&d, c, 1, "06000300 20000001"); /* Read Data */
        CHECK(dasd_peek(&d, 0x300, &got, 1) == DASD_DONE && got == 0xC1 + c);
    }
    CHECK(dasd_show_file(&d, 0x190, FILES, &after) == DASD_NO_FILE);
    CHECK(dasd_detach(&d, 0x190) == DASD_DONE && dasd_attach(&d, 0x190, files, FILES) == DASD_DONE);
    CHECK(dasd_free(&d) == DASD_DONE);
}

/* A new record of each file is halted amid its data, or lost by a reset: the track is saved in its own file, with zeros after what came. */
static void halted_in_each_file(void) {
    dasd d = DASD_NOTHING;
    dasd_file before = {0}, after = {0};
    dasd_track unsaved;
    uint16_t from;
    uint32_t done;
    CHECK(dasd_new(&d, 4096, DASD_CHANNEL(1)) == DASD_DONE && dasd_attach(&d, 0x190, files, FILES) == DASD_DONE);
    store(&d, 0x48, "00000100");
    /* Seek, Search Identifier Equal of record 0, and Write Count, Key and Data: 6 bytes and an end, 5 and an end, a word each, 8 and 4 bytes */
    store(&d, 0x100, "07000200 40000006 31000208 40000005 08000108 00000000 1D000210 20000010");
    for (int i = 0; i < 2 * FILES; i++) {
        const uint8_t c = (uint8_t)(i % FILES + 1), place[6] = {0, 0, 0, c, 0, 0}, identifier[5] = {0, c, 0, 0, 0};
        const uint8_t record[16] = {0, c, 0, 0, 1, 0, 0, 8, c, c, c, c, c, c, c, c}, left[24] = {0, c, 0, 0, 1, 0, 0, 8, c, c, c, c};
        CHECK(dasd_poke(&d, 0x200, place, 6) == DASD_DONE && dasd_poke(&d, 0x208, identifier, 5) == DASD_DONE);
        CHECK(dasd_poke(&d, 0x210, record, 16) == DASD_DONE && dasd_show_file(&d, 0x190, c - 1, &before) == DASD_DONE);
        CHECK(dasd_sio(&d, 0x190) == 0 && dasd_step(&d, 1, 27, &done) == DASD_DONE && done == 27);
        if (i < FILES) CHECK(dasd_hio(&d, 0x190) == 2 && dasd_interrupt(&d, ALL, &from) == 1 && shows(&d, 0x40, "00000120 0C000004"));
        else CHECK(dasd_reset(&d, 1, &unsaved) == 0);
        CHECK(dasd_show_file(&d, 0x190, c - 1, &after) == DASD_DONE && after.changes != before.changes);
        const uint8_t *slot = after.at + HEADER + (c == 1 ? CYLINDER : 0);
        CHECK(!memcmp(slot + 21, left, 16) && !memcmp(slot + 37, "\xFF\xFF\xFF\xFF\xFF\xFF\xFF\xFF", 8));
    }
    CHECK(dasd_free(&d) == DASD_DONE);
}

/* Files that are no image: some of its files, two of them changed for each other, one too many, and an empty file wherever it stands:
 * one that is shorter than a header has not the length of an image. */
static void no_image(void) {
    static const uint8_t empty[1];
    dasd d = DASD_NOTHING;
    CHECK(dasd_new(&d, 4096, DASD_CHANNEL(1)) == DASD_DONE);
    CHECK(dasd_check(files, FILES) == DASD_DONE && dasd_check(files, FILES + 1) == DASD_TOO_MANY_FILES);
    CHECK(dasd_attach(&d, 0x190, files, FILES + 1) == DASD_TOO_MANY_FILES);
    for (size_t i = 0; i < FILES; i++) {
        dasd_bytes some[FILES];
        memcpy(some, files, sizeof some);
        if (i > 0) CHECK(dasd_check(some, i) == DASD_SPLIT && dasd_attach(&d, 0x190, some, i) == DASD_SPLIT);
        some[i] = files[(i + 1) % FILES];
        CHECK(dasd_check(some, FILES) == DASD_SPLIT && dasd_attach(&d, 0x190, some, FILES) == DASD_SPLIT);
        some[i] = (dasd_bytes){empty, 0};
        CHECK(dasd_check(some, FILES) == DASD_LENGTH && dasd_attach(&d, 0x190, some, FILES) == DASD_LENGTH);
        CHECK(dasd_check(some + i, 1) == DASD_LENGTH);
        some[i] = (dasd_bytes){bytes[i], files[i].len - 1};
        CHECK(dasd_check(some, FILES) == DASD_LENGTH && dasd_attach(&d, 0x190, some, FILES) == DASD_LENGTH);
    }
    CHECK(dasd_tio(&d, 0x190) == 3 && dasd_free(&d) == DASD_DONE);
}

/* Files whose headers do not belong together, or are of no image: a byte of a header is replaced, and put back. */
static void other_headers(void) {
    enum { FORMAT = 4, TRACK_SIZE_HIGH = 13, TRACK_SIZE_THIRD = 14 };
    static const struct {
        size_t file, at;
        uint8_t byte;
        int32_t code;
        const char *what;
    } rows[] = {
        {0, FORMAT, 'S', DASD_COMPRESSED, "a shadow file, CKD_S370"},
        {0, FORMAT, 'X', DASD_NOT_CKD_P370, "CKD_X370"},
        {7, FORMAT, 'S', DASD_COMPRESSED, "a shadow file, as the last"},
        {0, TRACK_SIZE_THIRD, 1, DASD_TRACK_SIZE, "tracks of more than 65,536 bytes"},
        {1, TRACK_SIZE_HIGH, 0x12, DASD_SPLIT, "a second file with larger tracks"},
        {7, TRACK_SIZE_HIGH, 0x12, DASD_SPLIT, "a last file with larger tracks"},
        {1, HIGHEST_CYLINDER, 1, DASD_SPLIT, "a second file that ends where the first does"},
        {1, HIGHEST_CYLINDER, 0, DASD_SPLIT, "a second file that says it is the last"},
        {7, HIGHEST_CYLINDER, 8, DASD_SPLIT, "a last file that says another follows"},
        {1, SEQUENCE, 3, DASD_SPLIT, "a second file that says it is the third"},
    };
    dasd d = DASD_NOTHING;
    CHECK(dasd_new(&d, 4096, DASD_CHANNEL(1)) == DASD_DONE);
    for (size_t i = 0; i < sizeof rows / sizeof *rows; i++) {
        uint8_t *at = &bytes[rows[i].file][rows[i].at], before = *at;
        *at = rows[i].byte;
        if (dasd_check(files, FILES) != rows[i].code || dasd_attach(&d, 0x190, files, FILES) != rows[i].code) CHECK(!rows[i].what);
        *at = before;
    }
    CHECK(dasd_free(&d) == DASD_DONE);
    CHECK(dasd_check(files + 1, 1) == DASD_SPLIT && dasd_check(files, FILES) == DASD_DONE);
}

/* A second, and a last file of the other model. */
static void other_model(void) {
    static uint8_t other[HEADER + 20 * 7680];
    dasd d = DASD_NOTHING;
    dasd_file drive_2314;
    CHECK(dasd_new(&d, 4096, DASD_CHANNEL(1)) == DASD_DONE && dasd_attach_new(&d, 0x190, 2314, 1) == DASD_DONE);
    CHECK(dasd_show_file(&d, 0x190, 0, &drive_2314) == DASD_DONE && drive_2314.len == sizeof other);
    memcpy(other, drive_2314.at, sizeof other);
    for (size_t i = 1; i < FILES; i += 6) {
        dasd_bytes some[FILES];
        memcpy(some, files, sizeof some);
        some[i] = (dasd_bytes){other, sizeof other};
        other[SEQUENCE] = bytes[i][SEQUENCE];
        other[HIGHEST_CYLINDER] = bytes[i][HIGHEST_CYLINDER];
        CHECK(dasd_check(some, FILES) == DASD_SPLIT);
    }
    CHECK(dasd_free(&d) == DASD_DONE);
}

/* Eight drives on a channel: a program at each is cut by Halt I/O and by a reset, and what it wrote before is in the file. */
static void every_place(void) {
    dasd d = DASD_NOTHING;
    dasd_state v;
    dasd_track unsaved;
    dasd_file before, after;
    uint16_t from;
    uint32_t done;
    CHECK(dasd_new(&d, 4096, DASD_CHANNEL(1)) == DASD_DONE);
    for (uint16_t unit = 0; unit < 8; unit++) CHECK(dasd_attach_new(&d, (uint16_t)(0x190 + unit), unit % 2 ? 2311 : 2314, 1) == DASD_DONE);
    store(&d, 0x48, "00000100");
    /* Search Identifier Equal of record 0, Write Count, Key and Data, and No-Operation for ever */
    store(&d, 0x100, "31000202 40000005 08000100 00000000 1D000210 60000009 03000000 60000001 08000118 00000000");
    store(&d, 0x210, "00000000 01 00 0001 C1");
    for (uint16_t unit = 0; unit < 8; unit++) {
        uint16_t address = (uint16_t)(0x190 + unit);
        CHECK(dasd_show_file(&d, address, 0, &before) == DASD_DONE && dasd_sio(&d, address) == 0);
        CHECK(dasd_step(&d, 1, 200, &done) == DASD_DONE && done == 200 && dasd_tch(&d, 0x100) == 2);
        CHECK(dasd_show_channel(&d, 1, &v) == DASD_DONE && v.subchannel == DASD_WORKING && v.device == (address & 255) && v.drives == 8);
        CHECK(dasd_hio(&d, address) == 2 && dasd_interrupt(&d, ALL, &from) == 1 && from == address);
        CHECK(dasd_show_file(&d, address, 0, &after) == DASD_DONE && after.changes != before.changes);
        CHECK(dasd_sio(&d, address) == 0 && dasd_step(&d, 1, 200, &done) == DASD_DONE && dasd_reset(&d, 1, &unsaved) == 0);
        CHECK(dasd_tch(&d, 0x100) == 0 && dasd_interrupt(&d, ALL, &from) == 0);
    }
    for (uint16_t unit = 8; unit-- > 0;) CHECK(dasd_detach(&d, (uint16_t)(0x190 + unit)) == DASD_DONE);
    CHECK(dasd_show_channel(&d, 1, &v) == DASD_DONE && v.drives == 0 && dasd_tio(&d, 0x190) == 3 && dasd_free(&d) == DASD_DONE);
}

/* A drive is taken off while another's program runs, its ending pends, and its device end is owed; and drives in any order. */
static void taken_off(void) {
    dasd d = DASD_NOTHING;
    dasd_files f = DASD_NO_FILES_HELD;
    dasd_state v;
    dasd_run ran;
    uint32_t done;
    uint16_t from;
    CHECK(dasd_new(&d, 4096, DASD_CHANNEL(1) | DASD_CHANNEL(2)) == DASD_DONE && dasd_detach(&d, 0x290) == DASD_NO_DRIVE);
    for (uint16_t unit = 0; unit < 8; unit++) CHECK(dasd_attach_new(&d, (uint16_t)(0x190 + unit), 2311, 2) == DASD_DONE);
    store(&d, 0x48, "00000100");
    store(&d, 0x100, "03000000 60000001 08000100 00000000"); /* No-Operation for ever */
    CHECK(dasd_sio(&d, 0x192) == 0 && dasd_step(&d, 1, 5, &done) == DASD_DONE && done == 5);
    CHECK(dasd_detach(&d, 0x192) == DASD_PROGRAM_RUNS && dasd_detach(&d, 0x193) == DASD_DONE);
    CHECK(dasd_step(&d, 1, 5, &done) == DASD_DONE && done == 5 && dasd_tch(&d, 0x100) == 2 && dasd_hio(&d, 0x192) == 2);
    CHECK(dasd_detach(&d, 0x192) == DASD_ENDING_PENDS && dasd_detach_files(&d, 0x192, &f) == DASD_ENDING_PENDS);
    CHECK(dasd_detach_files(&d, 0x191, &f) == DASD_DONE && dasd_files_free(&f) == DASD_DONE);
    CHECK(dasd_interrupt(&d, ALL, &from) == 1 && from == 0x192);
    store(&d, 0x100, "07000200 20000006"); /* Seek to cylinder 1 */
    store(&d, 0x200, "0000 0001 0000");
    CHECK(dasd_sio(&d, 0x195) == 0 && dasd_run_on(&d, 1, 100, &ran) == DASD_DONE && ran.subchannel == DASD_ENDED);
    CHECK(dasd_interrupt(&d, ALL, &from) == 1 && from == 0x195 && shows(&d, 0x44, "08000000"));
    CHECK(dasd_detach(&d, 0x195) == DASD_DEVICE_END_OWED && dasd_detach(&d, 0x190) == DASD_DONE && dasd_detach(&d, 0x196) == DASD_DONE);
    CHECK(dasd_show_channel(&d, 1, &v) == DASD_DONE && v.drives == 4);
    CHECK(v.units[0] == 0x92 && v.units[1] == 0x94 && v.units[2] == 0x95 && v.units[3] == 0x97 && v.arms[2] == DASD_IN_MOTION);
    CHECK(dasd_arrive(&d, 0x195) == 1 && dasd_detach(&d, 0x195) == DASD_DEVICE_END_OWED);
    CHECK(dasd_interrupt(&d, ALL, &from) == 1 && from == 0x195 && shows(&d, 0x44, "04000000"));
    for (uint16_t unit = 2; unit < 8; unit++)
        CHECK(dasd_detach(&d, (uint16_t)(0x190 + unit)) == (unit == 3 || unit == 6 ? DASD_NO_DRIVE : DASD_DONE));
    CHECK(dasd_detach(&d, 0x192) == DASD_NO_DRIVE && dasd_free(&d) == DASD_DONE);
}

/* Channels above 6 are nowhere: each call for one says so, and nothing is done. */
static void above_the_channels(void) {
    static const uint16_t addresses[] = {0x700, 0x790, 0x800, 0xFF90};
    dasd d = DASD_NOTHING;
    dasd_file file;
    dasd_drive drive;
    dasd_state state;
    dasd_run ran;
    dasd_track track;
    uint32_t done;
    CHECK(dasd_new(&d, 4096, ALL) == DASD_DONE && dasd_attach_new(&d, 0x090, 2311, 1) == DASD_DONE);
    for (size_t i = 0; i < sizeof addresses / sizeof *addresses; i++) {
        const uint16_t at = addresses[i];
        const uint8_t channel = (uint8_t)(at >> 8);
        CHECK(dasd_sio(&d, at) == 3 && dasd_tio(&d, at) == 3 && dasd_hio(&d, at) == 3 && dasd_tch(&d, at) == 3 && dasd_arrive(&d, at) == 0);
        CHECK(dasd_attach(&d, at, files, FILES) == DASD_NO_CHANNEL && dasd_attach_new(&d, at, 2311, 1) == DASD_NO_CHANNEL);
        CHECK(dasd_detach(&d, at) == DASD_NO_CHANNEL && dasd_show_file(&d, at, 0, &file) == DASD_NO_CHANNEL);
        CHECK(dasd_show_drive(&d, at, &drive) == DASD_NO_CHANNEL && dasd_show_channel(&d, channel, &state) == DASD_NO_CHANNEL);
        CHECK(dasd_step(&d, channel, 1, &done) == DASD_NO_CHANNEL && dasd_run_on(&d, channel, 1, &ran) == DASD_NO_CHANNEL);
        CHECK(dasd_reset(&d, channel, &track) == DASD_NO_CHANNEL);
    }
    CHECK(dasd_tio(&d, 0x090) == 0 && dasd_free(&d) == DASD_DONE);
}

/* Starts the program at 100 under storage key 1, lets it end, and checks what its channel status word has behind the key and address. */
static void under_key_1(dasd *d, const char *csw) {
    dasd_run ran;
    uint16_t from;
    store(d, 0x48, "10000100");
    CHECK(dasd_sio(d, 0x190) == 0 && dasd_run_on(d, 1, 1000, &ran) == DASD_DONE && ran.subchannel == DASD_ENDED);
    CHECK(dasd_interrupt(d, ALL, &from) == 1 && from == 0x190 && shows(d, 0x40, csw));
}

/* A record of 80 bytes is read across the end of a block of 2,048, in one run: where the keys of both blocks are the program's, all of it;
 * where the second's is another, 40 bytes, and a protection check with 40 left; and behind the end of storage nothing, with a program
 * check (Principles of Operation, Storage protection; Definition of storage area). */
static void two_blocks(void) {
    static const char *const read = "31000240 40000005 08000100 00000000 06000FD8 20000050";
    dasd d = DASD_NOTHING;
    const uint8_t none[80] = {0};
    uint8_t record[88] = {0, 0, 0, 0, 1, 0, 0, 80}, got[80];
    CHECK(dasd_new(&d, 8192, DASD_CHANNEL(1)) == DASD_DONE && dasd_attach_new(&d, 0x190, 2311, 1) == DASD_DONE);
    for (size_t i = 0; i < 80; i++) record[8 + i] = (uint8_t)(0x41 + i);
    CHECK(dasd_poke(&d, 0x300, record, sizeof record) == DASD_DONE);
    /* Search Identifier Equal of record 0, Write Count, Key and Data */
    store(&d, 0x100, "31000200 40000005 08000100 00000000 1D000300 20000058");
    under_key_1(&d, "10000118 0C000000");
    store(&d, 0x240, "0000000001");
    store(&d, 0x100, read); /* Search Identifier Equal of record 1, Read Data to FD8 */
    CHECK(dasd_set_key(&d, 0x800, 1) == DASD_DONE && dasd_set_key(&d, 0x1000, 1) == DASD_DONE);
    under_key_1(&d, "10000118 0C000000");
    CHECK(dasd_peek(&d, 0xFD8, got, sizeof got) == DASD_DONE && !memcmp(got, record + 8, sizeof got));
    CHECK(dasd_poke(&d, 0xFD8, none, sizeof none) == DASD_DONE && dasd_set_key(&d, 0x1000, 2) == DASD_DONE);
    under_key_1(&d, "10000118 0C100028");
    CHECK(dasd_peek(&d, 0xFD8, got, sizeof got) == DASD_DONE && !memcmp(got, record + 8, 40) && !memcmp(got + 40, none, 40));
    store(&d, 0x110, "06002000");
    under_key_1(&d, "10000118 0C200050");
    CHECK(dasd_free(&d) == DASD_DONE);
}

/* Bytes that an image has behind a track's end mark mean nothing, and are zeros once something is written to the track: by a Write Data that
 * ends before its record, which zeros fill, and by one of the whole record. Another track keeps its own. */
static void behind_the_end_mark(void) {
    enum { SLOT = 4096, RECORD_1 = 21, DATA = RECORD_1 + 8, MARK = DATA + 8, BEHIND = MARK + 8 };
    static const uint8_t count[8] = {0, 0, 0, 0, 1, 0, 0, 8}, zeros[SLOT];
    static const char *const commands[2] = {"05000220 20000004", "05000220 00000008"};
    static const uint8_t left[2][16] = {{1, 2, 3, 4, 0, 0, 0, 0, 255, 255, 255, 255, 255, 255, 255, 255},
                                        {1, 2, 3, 4, 5, 6, 7, 8, 255, 255, 255, 255, 255, 255, 255, 255}};
    static uint8_t image[HEADER + CYLINDER];
    const dasd_bytes file = {image, sizeof image};
    memcpy(image, bytes[0], sizeof image);
    image[SEQUENCE] = image[HIGHEST_CYLINDER] = 0; /* the only file */
    for (size_t slot = HEADER; slot < HEADER + 2 * SLOT; slot += SLOT) {
        memcpy(image + slot + RECORD_1, count, sizeof count);
        memset(image + slot + DATA, 0xC1, 8);
        memset(image + slot + MARK, 0xFF, 8);
        memset(image + slot + BEHIND, 0xAA, SLOT - BEHIND);
    }
    for (int i = 0; i < 2; i++) {
        dasd d = DASD_NOTHING;
        dasd_file after = {image, sizeof image, 0};
        CHECK(dasd_new(&d, 4096, DASD_CHANNEL(1)) == DASD_DONE && dasd_attach(&d, 0x190, &file, 1) == DASD_DONE);
        store(&d, 0x48, "00000100");
        store(&d, 0x220, "01020304 05060708");
        at_record(&d, 0, 1, commands[i]); /* Write Data */
        CHECK(dasd_show_file(&d, 0x190, 0, &after) == DASD_DONE && after.len == sizeof image);
        CHECK(!memcmp(after.at, image, HEADER + DATA) && !memcmp(after.at + HEADER + DATA, left[i], sizeof left[i]));
        CHECK(!memcmp(after.at + HEADER + BEHIND, zeros, SLOT - BEHIND));
        CHECK(!memcmp(after.at + HEADER + SLOT, image + HEADER + SLOT, CYLINDER - SLOT));
        CHECK(dasd_free(&d) == DASD_DONE);
    }
}

/* How an interruption comes to pend: a program ends, a word of it asks for one, or an arm arrives. */
enum { ENDS, ASKS, ARRIVES };

/* An interruption of the drive pends. Its program of before has ended. */
static void pends(dasd *d, uint16_t address, int how) {
    static const char *const programs[] = {"16000200 20000010", "16000200 28000010", "07000300 20000006"}; /* Read R0, with PCI, Seek */
    dasd_run ran;
    dasd_drive drive;
    uint16_t from;
    CHECK(dasd_show_drive(d, address, &drive) == DASD_DONE);
    store(d, 0x100, programs[how]);
    store(d, 0x300, drive.cylinder ? "000000000000" : "000000010000");
    CHECK(dasd_sio(d, address) == 0);
    if (how == ASKS) return;
    CHECK(dasd_run_on(d, (uint8_t)(address >> 8), 1000, &ran) == DASD_DONE && ran.subchannel == DASD_ENDED);
    if (how == ENDS) return;
    CHECK(dasd_interrupt(d, (uint8_t)(0x80 >> (address >> 8)), &from) == 1 && shows(d, 0x44, "0800") && dasd_arrive(d, address) == 1);
}

/* The interruption of a channel is taken, and the program that asked for it ends, too. */
static void is_taken(dasd *d, uint16_t channel, int how) {
    const uint8_t own = (uint8_t)DASD_CHANNEL(channel);
    dasd_run ran;
    uint16_t from = 0;
    CHECK(dasd_interrupt(d, own, &from) == 1 && from == (channel << 8 | 0x90) && dasd_is_pending(d, own) == 0);
    if (how != ASKS) return;
    CHECK(dasd_run_on(d, (uint8_t)channel, 1000, &ran) == DASD_DONE && ran.subchannel == DASD_ENDED);
    CHECK(dasd_interrupt(d, own, &from) == 1 && shows(d, 0x44, "0C00"));
}

/* An interruption of each channel pends: under every mask the lowest channel that is in it gives its own. */
static void every_mask(int how) {
    static const char *const status[] = {"0C00", "0080", "0400"};
    dasd d = DASD_NOTHING;
    dasd_run ran;
    CHECK(dasd_new(&d, 4096, ALL) == DASD_DONE);
    store(&d, 0x48, "00000100");
    for (uint16_t channel = 0; channel < 7; channel++) CHECK(dasd_attach_new(&d, (uint16_t)(channel << 8 | 0x90), 2311, 2) == DASD_DONE);
    int is_pending[7] = {0};
    uint16_t from = 0;
    for (unsigned mask = 2; mask <= ALL; mask += 2) {
        uint16_t lowest = 0;
        for (uint16_t channel = 0; channel < 7; channel++) {
            if (!is_pending[channel]) pends(&d, (uint16_t)(channel << 8 | 0x90), how);
            is_pending[channel] = 1;
        }
        while (!(mask & (0x80u >> lowest))) lowest++;
        CHECK(dasd_is_pending(&d, (uint8_t)mask) == 1 && dasd_interrupt(&d, (uint8_t)mask, &from) == 1);
        CHECK(from == (lowest << 8 | 0x90) && shows(&d, 0x44, status[how]));
        is_pending[lowest] = 0;
        CHECK(dasd_is_pending(&d, (uint8_t)(0x80 >> lowest)) == 0);
        if (how != ASKS) continue;
        CHECK(dasd_run_on(&d, (uint8_t)lowest, 1000, &ran) == DASD_DONE && ran.subchannel == DASD_ENDED);
        CHECK(dasd_interrupt(&d, (uint8_t)(0x80 >> lowest), &from) == 1 && shows(&d, 0x44, "0C00"));
    }
    for (uint16_t channel = 0; channel < 7; channel++) {
        if (!is_pending[channel]) pends(&d, (uint16_t)(channel << 8 | 0x90), how);
        is_taken(&d, channel, how);
    }
    CHECK(dasd_is_pending(&d, ALL) == 0);
    for (uint16_t channel = 0; channel < 7; channel++) { /* it alone has one, also once the others were asked */
        pends(&d, (uint16_t)(channel << 8 | 0x90), how);
        CHECK(dasd_is_pending(&d, (uint8_t)(ALL & ~DASD_CHANNEL(channel))) == 0 && dasd_is_pending(&d, ALL) == 1);
        is_taken(&d, channel, how);
    }
    CHECK(dasd_free(&d) == DASD_DONE);
}

/* The image's files, filled where the library holds them. */
static void fill(dasd_files *f) {
    size_t lengths[FILES];
    dasd_space space;
    for (size_t i = 0; i < FILES; i++) lengths[i] = files[i].len;
    CHECK(dasd_files_new(f, lengths, FILES) == DASD_DONE);
    for (uint8_t i = 0; i < (uint8_t)FILES; i++) {
        CHECK(dasd_files_show(f, i, &space) == DASD_DONE && space.len == files[i].len && !space.at[0] && !space.at[space.len - 1]);
        memcpy(space.at, files[i].at, space.len);
    }
}

/* Whether they hold these bytes. */
static int hold(const dasd_files *f, const dasd_bytes *want) {
    dasd_space space;
    for (uint8_t i = 0; i < (uint8_t)FILES; i++)
        if (dasd_files_show(f, i, &space) != DASD_DONE || space.len != want[i].len || memcmp(space.at, want[i].at, space.len) != 0) return 0;
    return dasd_files_show(f, FILES, &space) == DASD_NO_FILE;
}

/* Files are taken over and given back, and lie where they lay: a drive with them does what one with copies of them does. Attached once more,
 * their changes begin anew. */
static void taken_over(void) {
    const uint8_t record_1[9] = {0, 3, 0, 0, 1, 0, 0, 1, 0xC1};
    dasd d = DASD_NOTHING, copied = DASD_NOTHING;
    dasd_files f = DASD_NO_FILES_HELD;
    dasd_space before;
    dasd_file shown = {bytes[0], 0, 0}, copy = shown;
    dasd_bytes all[FILES];
    dasd_changed it = {0, 0, 0, 0};
    uint8_t got = 0;
    fill(&f);
    CHECK(dasd_files_show(&f, 2, &before) == DASD_DONE && hold(&f, files));
    CHECK(dasd_new(&d, 4096, DASD_CHANNEL(1)) == DASD_DONE && dasd_new(&copied, 4096, DASD_CHANNEL(1)) == DASD_DONE);
    CHECK(dasd_attach_files(&d, 0x190, &f) == DASD_DONE && dasd_attach(&copied, 0x190, files, FILES) == DASD_DONE);
    CHECK(dasd_files_free(&f) == DASD_NOTHING_HELD);
    dasd *const both[2] = {&d, &copied};
    for (int i = 0; i < 2; i++) {
        store(both[i], 0x48, "00000100");
        CHECK(dasd_poke(both[i], 0x210, record_1, sizeof record_1) == DASD_DONE);
        at_record(both[i], 3, 0, "1D000210 20000009"); /* Write Count, Key and Data */
    }
    CHECK(dasd_show_file(&d, 0x190, 2, &shown) == DASD_DONE && shown.at == before.at && shown.changes == 1);
    for (uint8_t i = 0; i < (uint8_t)FILES; i++) {
        CHECK(dasd_show_file(&d, 0x190, i, &shown) == DASD_DONE && dasd_show_file(&copied, 0x190, i, &copy) == DASD_DONE);
        CHECK(shown.len == copy.len && shown.changes == copy.changes && !memcmp(shown.at, copy.at, copy.len));
        all[i] = (dasd_bytes){copy.at, copy.len};
    }
    CHECK(memcmp(all[2].at, files[2].at, files[2].len) != 0 && dasd_next_changed(&d, 0x190, 2, 0, &it) == 1 && it.track == 0);
    CHECK(dasd_detach_files(&d, 0x190, &f) == DASD_DONE && dasd_tio(&d, 0x190) == 3 && hold(&f, all));
    CHECK(dasd_files_show(&f, 2, &before) == DASD_DONE && dasd_attach_files(&d, 0x191, &f) == DASD_DONE);
    CHECK(dasd_show_file(&d, 0x191, 2, &shown) == DASD_DONE && shown.at == before.at && shown.changes == 0);
    it.next = 0;
    CHECK(dasd_next_changed(&d, 0x191, 2, 0, &it) == 0);
    CHECK(dasd_detach_files(&d, 0x191, &f) == DASD_DONE && dasd_attach_files(&d, 0x190, &f) == DASD_DONE);
    at_record(&d, 3, 1, "06000300 20000001"); /* Read Data */
    CHECK(dasd_peek(&d, 0x300, &got, 1) == DASD_DONE && got == 0xC1);
    CHECK(dasd_free(&d) == DASD_DONE && dasd_free(&copied) == DASD_DONE);
}

/* A number that no file can have as its length. */
static const size_t too_long[2] = {1, SIZE_MAX};

/* Each refusal, in its order, leaves both handles as they were; what is held is changed, and then is an image or none. */
static void kept_where_refused(void) {
    static const size_t nine[FILES + 1] = {1, 1, 1, 1, 1, 1, 1, 1, 1};
    dasd d = DASD_NOTHING;
    dasd_files f = DASD_NO_FILES_HELD, other = DASD_NO_FILES_HELD;
    dasd_space space = {bytes[0], 1};
    uint32_t done;
    CHECK(dasd_files_show(&f, 0, &space) == DASD_NOTHING_HELD && space.at == bytes[0] && space.len == 1);
    CHECK(dasd_files_new(&f, nine, 0) == DASD_NO_FILES && dasd_files_new(&f, NULL, 1) == DASD_NO_FILES);
    CHECK(dasd_files_new(&f, nine, FILES + 1) == DASD_TOO_MANY_FILES && dasd_files_new(&f, too_long, 2) == DASD_NO_MEMORY);
    CHECK(dasd_files_free(&f) == DASD_NOTHING_HELD);
    CHECK(dasd_attach_files(&d, 0x190, &f) == DASD_NOTHING_HELD && dasd_detach_files(&d, 0x190, &f) == DASD_NOTHING_HELD);
    fill(&f);
    CHECK(dasd_files_new(&f, nine, 0) == DASD_IN_USE && hold(&f, files) && dasd_files_show(&f, 255, &space) == DASD_NO_FILE);
    CHECK(dasd_attach_files(&d, 0x190, &f) == DASD_NOTHING_HELD && dasd_detach_files(&d, 0x190, &f) == DASD_NOTHING_HELD && hold(&f, files));
    CHECK(dasd_new(&d, 4096, DASD_CHANNEL(1)) == DASD_DONE && dasd_attach_new(&d, 0x191, 2311, 1) == DASD_DONE);
    CHECK(dasd_attach_files(&d, 0x190, &other) == DASD_NOTHING_HELD && dasd_attach_files(&d, 0x290, &f) == DASD_NO_CHANNEL);
    CHECK(hold(&f, files) && dasd_attach_files(&d, 0x191, &f) == DASD_ADDRESS_TAKEN && hold(&f, files));
    CHECK(dasd_files_show(&f, 1, &space) == DASD_DONE);
    space.at[SEQUENCE] = 3;
    CHECK(dasd_attach_files(&d, 0x191, &f) == DASD_SPLIT && dasd_files_show(&f, 1, &space) == DASD_DONE && space.at[SEQUENCE] == 3);
    space.at[SEQUENCE] = 2;
    for (uint16_t unit = 2; unit < 9; unit++) CHECK(dasd_attach_new(&d, (uint16_t)(0x190 + unit), 2311, 1) == DASD_DONE);
    CHECK(dasd_attach_files(&d, 0x190, &f) == DASD_FULL && hold(&f, files));
    CHECK(dasd_detach_files(&d, 0x290, &f) == DASD_IN_USE && hold(&f, files) && dasd_detach_files(&d, 0x290, &other) == DASD_NO_CHANNEL);
    CHECK(dasd_detach_files(&d, 0x190, &other) == DASD_NO_DRIVE && dasd_files_free(&other) == DASD_NOTHING_HELD);
    store(&d, 0x48, "00000100");
    store(&d, 0x100, "03000000 60000001 08000100 00000000"); /* No-Operation for ever */
    CHECK(dasd_sio(&d, 0x191) == 0 && dasd_step(&d, 1, 5, &done) == DASD_DONE && dasd_detach_files(&d, 0x191, &other) == DASD_PROGRAM_RUNS);
    CHECK(dasd_files_free(&other) == DASD_NOTHING_HELD && dasd_detach_files(&d, 0x192, &other) == DASD_DONE &&
          dasd_files_free(&other) == DASD_DONE);
    CHECK(dasd_free(&d) == DASD_DONE && hold(&f, files) && dasd_files_free(&f) == DASD_DONE && dasd_files_free(&f) == DASD_NOTHING_HELD);
}

#ifdef HEAP
/* Each taking of memory of a call is refused in turn: nothing was done, and no more is held than before but for `room` blocks, which a list
 * of drives keeps for the next time. In the end the call goes through. */
#define REFUSED_IN_TURN(call, room)                                                     \
    do {                                                                                \
        int32_t told = DASD_NO_MEMORY;                                                  \
        for (long n = 1, held = heap_live; told == DASD_NO_MEMORY; n++) {               \
            heap_refuse_at = n;                                                         \
            told = (call);                                                              \
            if (told == DASD_NO_MEMORY) CHECK(heap_live - held <= (room) && ++refused); \
        }                                                                               \
        heap_refuse_at = 0;                                                             \
        CHECK(told == DASD_DONE);                                                       \
    } while (0)

static void refused_memory(void) {
    dasd d = DASD_NOTHING;
    dasd_files f = DASD_NO_FILES_HELD, g = DASD_NO_FILES_HELD;
    size_t lengths[FILES] = {1, 2, 3, 4, 5, 6, 7, 8};
    int refused = 0;
    REFUSED_IN_TURN(dasd_check(files, FILES), 0);
    REFUSED_IN_TURN(dasd_new(&d, 4096, ALL), 0);
    for (uint16_t channel = 0; channel < 7; channel++) REFUSED_IN_TURN(dasd_attach(&d, (uint16_t)(channel << 8 | 0x90), files, FILES), 1);
    for (uint16_t unit = 0; unit < 7; unit++) REFUSED_IN_TURN(dasd_attach_new(&d, unit, 2314, 1), 1);
    REFUSED_IN_TURN(dasd_files_new(&f, lengths, FILES), 0);
    REFUSED_IN_TURN(dasd_detach_files(&d, 0x190, &g), 0);
    CHECK(hold(&g, files));
    REFUSED_IN_TURN(dasd_attach_files(&d, 0x190, &g), FILES + 1);
    CHECK(dasd_detach_files(&d, 0x190, &g) == DASD_DONE && hold(&g, files));
    CHECK(dasd_files_free(&f) == DASD_DONE && dasd_files_free(&g) == DASD_DONE);
    CHECK(dasd_detach(&d, 0x690) == DASD_DONE && dasd_free(&d) == DASD_DONE && heap_live == 0);
    printf("memory was refused %d times\n", refused);
}

/* A handle with these channels, each with so many drives of eight files, is copied: each taking of memory is refused in turn, and what was
 * taken before is given back. */
static void copies_of_files(uint8_t channels, uint16_t drives) {
    dasd d = DASD_NOTHING, other = DASD_NOTHING;
    int32_t told = DASD_NO_MEMORY;
    long n = 0;
    CHECK(dasd_new(&d, 4096, channels) == DASD_DONE);
    for (uint16_t address = 0; address < 0x700; address = (uint16_t)((address & 0xFF) + 1 < drives ? address + 1 : (address | 0xFF) + 1))
        if (channels & DASD_CHANNEL(address >> 8)) CHECK(dasd_attach(&d, address, files, FILES) == DASD_DONE);
    const long held = heap_live;
    while (told == DASD_NO_MEMORY) {
        heap_refuse_at = ++n;
        told = dasd_copy(&d, &other);
        CHECK(told == DASD_DONE || (heap_live == held && dasd_tch(&other, 0x190) == DASD_NOTHING_HELD));
    }
    heap_refuse_at = 0;
    CHECK(told == DASD_DONE && n > (long)drives * FILES && heap_live > held);
    CHECK(dasd_free(&other) == DASD_DONE && heap_live == held && dasd_free(&d) == DASD_DONE && heap_live == 0);
    printf("memory was refused %ld times to a copy\n", n - 1);
}
#endif

int main(void) {
    split();
    eight_files();
    halted_in_each_file();
    no_image();
    other_headers();
    other_model();
    every_place();
    taken_off();
    above_the_channels();
    two_blocks();
    behind_the_end_mark();
    for (int how = ENDS; how <= ARRIVES; how++) every_mask(how);
    taken_over();
    kept_where_refused();
#ifdef HEAP
    copies_of_files(ALL, 1);
    copies_of_files(DASD_CHANNEL(1), 8);
    for (int lower = 0; lower < 7; lower++)
        for (int higher = lower + 1; higher < 7; higher++) copies_of_files((uint8_t)(DASD_CHANNEL(lower) | DASD_CHANNEL(higher)), 1);
    refused_memory();
#endif
    return failures ? EXIT_FAILURE : EXIT_SUCCESS;
}
