/* changed.c - a copy of a volume's file is kept by the tracks alone that dasd_next_changed shows. */
#include <stddef.h>
#include <stdint.h>
#include <stdio.h>
#include <stdlib.h>
#include <string.h>

#include "../dasd.h"
#include "storage.h"
#include "tests.h"

_Static_assert(sizeof(dasd_changed) == 32 && offsetof(dasd_changed, len) == 8 && offsetof(dasd_changed, track) == 16 &&
                   offsetof(dasd_changed, next) == 24,
               "a changed track");

enum {
    HEADER = 512,
    SLOT = 4096,
    HEADS = 10,
    CYLINDER = HEADS * SLOT,
    CYLINDERS = 3,
    TRACKS = CYLINDERS * HEADS,
    WHOLE = HEADER + CYLINDERS * CYLINDER
};
enum { SEQUENCE = 17, HIGHEST_CYLINDER = 18 };

/* A copy of a file that a caller keeps, and the number of changes that it is as of. */
typedef struct kept {
    uint16_t address;
    uint8_t file;
    uint8_t *bytes;
    uint64_t as_of;
} kept;

/* Copies what is shown; how many tracks that was. Behind it the copy is the file. */
static int save(dasd *d, kept *k) {
    dasd_changed it = {0, 0, 0, 0}, stays;
    dasd_file file;
    int32_t code;
    int tracks = 0;
    CHECK(dasd_show_file(d, k->address, k->file, &file) == DASD_DONE);
    for (;; tracks++) {
        size_t looks_at = it.next;
        stays = it;
        code = dasd_next_changed(d, k->address, k->file, k->as_of, &it);
        if (code != 1) break;
        CHECK(it.track >= looks_at && it.next == it.track + 1 && it.len == SLOT && it.at == HEADER + it.track * SLOT);
        CHECK(it.at + it.len <= file.len);
        memcpy(k->bytes + it.at, file.at + it.at, it.len);
    }
    CHECK(code == 0 && !memcmp(&it, &stays, sizeof it) && !memcmp(k->bytes, file.at, file.len));
    k->as_of = file.changes;
    return tracks;
}

/* Whether the only track that is shown is this one, or none where it is negative. */
static int only(dasd *d, const kept *k, int track) {
    dasd_changed it = {0, 0, 0, 0};
    if (track < 0) return dasd_next_changed(d, k->address, k->file, k->as_of, &it) == 0;
    return dasd_next_changed(d, k->address, k->file, k->as_of, &it) == 1 && it.track == (size_t)track &&
           dasd_next_changed(d, k->address, k->file, k->as_of, &it) == 0 && it.track == (size_t)track;
}

/* A program that writes record 1, a byte, at a track: Seek, Search Identifier of record 0, Write Count, Key and Data; `then` is behind it. */
static void starts(dasd *d, uint16_t address, uint8_t cylinder, uint8_t head, uint8_t data, const char *then) {
    const uint8_t seek[6] = {0, 0, 0, cylinder, 0, head}, record_0[5] = {0, cylinder, 0, head, 0};
    const uint8_t record_1[9] = {0, cylinder, 0, head, 1, 0, 0, 1, data};
    store(d, 0x48, "00000100");
    store(d, 0x100, "07000200 40000006 31000208 40000005 08000108 00000000 1D000210 60000009");
    store(d, 0x120, then);
    CHECK(dasd_poke(d, 0x200, seek, sizeof seek) == DASD_DONE && dasd_poke(d, 0x208, record_0, sizeof record_0) == DASD_DONE);
    CHECK(dasd_poke(d, 0x210, record_1, sizeof record_1) == DASD_DONE && dasd_sio(d, address) == 0);
}

static void writes(dasd *d, uint16_t address, uint8_t cylinder, uint8_t head, uint8_t data) {
    dasd_run ran;
    uint16_t from = 0;
    starts(d, address, cylinder, head, data, "03000000 20000001");
    CHECK(dasd_run_on(d, 1, 1000000, &ran) == DASD_DONE && ran.subchannel == DASD_ENDED);
    CHECK(dasd_interrupt(d, 0xFE, &from) == 1 && from == address && shows(d, 0x44, "0C00"));
}

static uint8_t volume[WHOLE];

/* A new volume was written track by track; once its file was copied whole, nothing is left of that. */
static void new_volume(dasd *d) {
    dasd_changed it = {0, 0, 0, 0};
    dasd_file file;
    int tracks = 0;
    CHECK(dasd_attach_new(d, 0x190, 2311, CYLINDERS) == DASD_DONE);
    CHECK(dasd_show_file(d, 0x190, 0, &file) == DASD_DONE && file.len == WHOLE);
    while (dasd_next_changed(d, 0x190, 0, 0, &it) == 1) CHECK(it.track == (size_t)tracks++);
    CHECK(tracks == TRACKS);
    memcpy(volume, file.at, WHOLE);
    const kept k = {0x190, 0, volume, file.changes};
    CHECK(only(d, &k, -1));
}

/* Every track is written once, each alone and in an order of its own: it is shown, and its neighbours are not. */
static void each_track(dasd *d) {
    static uint8_t bytes[WHOLE];
    const dasd_bytes file = {volume, WHOLE};
    kept k = {0x191, 0, bytes, 0};
    memcpy(bytes, volume, WHOLE);
    CHECK(dasd_attach(d, 0x191, &file, 1) == DASD_DONE && only(d, &k, -1));
    for (int i = 0; i < TRACKS; i++) {
        int track = i * 7 % TRACKS;
        writes(d, 0x191, (uint8_t)(track / HEADS), (uint8_t)(track % HEADS), (uint8_t)i);
        CHECK(only(d, &k, track) && save(d, &k) == 1 && only(d, &k, -1));
    }
    CHECK(memcmp(bytes, volume, WHOLE));
}

/* What was not copied is shown again, with what was written since; several keep copies, each by its own number. */
static void late(dasd *d) {
    static uint8_t mine[WHOLE], yours[WHOLE];
    dasd_file file;
    CHECK(dasd_show_file(d, 0x191, 0, &file) == DASD_DONE);
    kept k = {0x191, 0, mine, file.changes}, other = {0x191, 0, yours, file.changes};
    memcpy(mine, file.at, WHOLE);
    memcpy(yours, file.at, WHOLE);
    writes(d, 0x191, 0, 3, 0xC1);
    writes(d, 0x191, 2, 9, 0xC2);
    CHECK(save(d, &other) == 2);
    writes(d, 0x191, 2, 9, 0xC3);
    writes(d, 0x191, 0, 0, 0xC4);
    CHECK(save(d, &k) == 3 && save(d, &other) == 2 && save(d, &k) == 0 && save(d, &other) == 0);
    writes(d, 0x191, 1, 1, 0xC5);
    writes(d, 0x191, 1, 1, 0xC5); /* the same once more */
    CHECK(only(d, &k, 11) && save(d, &k) == 1);
    other.as_of = k.as_of + 1; /* a number that the file has not had */
    CHECK(save(d, &other) == TRACKS);
}

/* A program runs on another drive of the channel: this one's file is shown and copied, and the other's is not. */
static void beside_a_program(dasd *d) {
    static uint8_t bytes[WHOLE];
    const char *loops = "03000000 60000001 08000120 00000000"; /* No-Operation for ever */
    dasd_changed it = {1, 2, 3, 4}, stays = it;
    dasd_file file;
    uint32_t done;
    uint16_t from;
    CHECK(dasd_show_file(d, 0x191, 0, &file) == DASD_DONE);
    kept k = {0x191, 0, bytes, file.changes}, other = {0x190, 0, volume, 0};
    memcpy(bytes, file.at, WHOLE);
    writes(d, 0x191, 1, 2, 0xD1);
    CHECK(dasd_show_file(d, 0x190, 0, &file) == DASD_DONE);
    other.as_of = file.changes;
    starts(d, 0x190, 2, 2, 0xD2, loops);
    CHECK(dasd_step(d, 1, 500, &done) == DASD_DONE && done == 500 && dasd_tch(d, 0x100) == 2);
    CHECK(only(d, &k, 12) && save(d, &k) == 1 && save(d, &k) == 0);
    CHECK(dasd_show_file(d, 0x190, 0, &file) == DASD_PROGRAM_RUNS && dasd_next_changed(d, 0x190, 0, 0, &it) == DASD_PROGRAM_RUNS);
    CHECK(dasd_next_changed(d, 0x190, 7, 0, &it) == DASD_PROGRAM_RUNS && !memcmp(&it, &stays, sizeof it));
    CHECK(dasd_hio(d, 0x190) == 2 && only(d, &other, 22) && save(d, &other) == 1); /* its ending pends */
    CHECK(dasd_interrupt(d, 0xFE, &from) == 1 && from == 0x190);
}

/* A copy of the handle goes on with the numbers of the first. */
static void copied(dasd *d) {
    dasd second = DASD_NOTHING;
    dasd_file file;
    CHECK(dasd_show_file(d, 0x191, 0, &file) == DASD_DONE);
    const kept k = {0x191, 0, NULL, file.changes};
    writes(d, 0x191, 0, 1, 0xE1);
    CHECK(dasd_copy(d, &second) == DASD_DONE && only(&second, &k, 1));
    writes(&second, 0x191, 0, 1, 0xE2);
    CHECK(only(&second, &k, 1) && only(d, &k, 1));
    writes(&second, 0x191, 0, 2, 0xE3);
    CHECK(!only(&second, &k, 1) && only(d, &k, 1) && dasd_free(&second) == DASD_DONE);
}

/* A volume in two files: a track is shown in the one that holds it, by its number there. */
static void two_files(dasd *d) {
    static uint8_t one[HEADER + 2 * CYLINDER], two[HEADER + CYLINDER];
    memcpy(one, volume, sizeof one);
    memcpy(two, volume, HEADER);
    memcpy(two + HEADER, volume + sizeof one, CYLINDER);
    one[SEQUENCE] = 1;
    one[HIGHEST_CYLINDER] = 1;
    two[SEQUENCE] = 2;
    const dasd_bytes files[2] = {{one, sizeof one}, {two, sizeof two}};
    kept first = {0x192, 0, one, 0}, second = {0x192, 1, two, 0};
    dasd_changed it = {0, 0, 0, 0};
    CHECK(dasd_attach(d, 0x192, files, 2) == DASD_DONE);
    writes(d, 0x192, 2, 4, 0xF1);
    CHECK(only(d, &first, -1) && only(d, &second, 4));
    writes(d, 0x192, 1, 9, 0xF2);
    CHECK(only(d, &first, 19) && only(d, &second, 4) && save(d, &first) == 1 && save(d, &second) == 1);
    CHECK(dasd_next_changed(d, 0x192, 2, 0, &it) == DASD_NO_FILE);
}

/* What is refused, before anything else is looked at; and looks that begin at the end of a file and behind it. */
static void refused(dasd *d) {
    dasd empty = DASD_NOTHING;
    dasd_changed it = {1, 2, 3, 4}, stays = it;
    CHECK(dasd_next_changed(&empty, 0x190, 0, 0, &it) == DASD_NOTHING_HELD);
    CHECK(dasd_next_changed(d, 0x390, 0, 0, &it) == DASD_NO_CHANNEL && dasd_next_changed(d, 0xFF90, 9, 0, &it) == DASD_NO_CHANNEL);
    CHECK(dasd_next_changed(d, 0x19F, 9, 0, &it) == DASD_NO_DRIVE && dasd_next_changed(d, 0x190, 1, 0, &it) == DASD_NO_FILE);
    CHECK(dasd_next_changed(d, 0x190, 255, 0, &it) == DASD_NO_FILE && !memcmp(&it, &stays, sizeof it));
    it.next = TRACKS - 1;
    CHECK(dasd_next_changed(d, 0x190, 0, 0, &it) == 1 && it.track == TRACKS - 1 && it.next == TRACKS);
    CHECK(dasd_next_changed(d, 0x190, 0, 0, &it) == 0 && it.next == TRACKS);
    it.next = SIZE_MAX;
    CHECK(dasd_next_changed(d, 0x190, 0, 0, &it) == 0 && it.next == SIZE_MAX);
}

int main(void) {
    dasd d = DASD_NOTHING;
    CHECK(dasd_new(&d, 65536, DASD_CHANNEL(1)) == DASD_DONE);
    new_volume(&d);
    each_track(&d);
    late(&d);
    beside_a_program(&d);
    copied(&d);
    two_files(&d);
    refused(&d);
    CHECK(dasd_free(&d) == DASD_DONE);
    if (!failures) printf("changed: all is as it must be\n");
    return failures != 0;
}
