/* drive_words.c - words by chance, through dasd_drive_do at one drive and through the single calls at another: the same answers, bytes, arms,
 * sense and volumes, also where one is made anew of a saved state; and, between programs, the tracks that were written. */
#include <stdint.h>
#include <stdio.h>
#include <stdlib.h>
#include <string.h>

#include "../dasd_drive.h"
#include "tests.h"

enum { PROGRAMS = 4000, WORDS = 12, ROOM = 4200, CYLINDERS = 3, SLOT = 4096, TRACKS = CYLINDERS * 10, FILE_LEN = 512 + TRACKS * SLOT };

static uint32_t state = 2463534242u;

static uint32_t chance(uint32_t below) {
    state ^= state << 13;
    state ^= state >> 17;
    state ^= state << 5;
    return state % below;
}

/* --- A word by single calls --- */

static int32_t phase_of(dasd_drive_alone *d, dasd_drive_next_bytes *next) { return dasd_drive_next(d, next); }

/* Moves as many bytes as may pass from `*moved` on. */
static void pass(dasd_drive_alone *d, uint8_t *bytes, size_t len, size_t *moved) {
    dasd_drive_next_bytes next;
    int32_t phase = phase_of(d, &next);
    size_t n = next.left < len - *moved ? next.left : len - *moved;
    if (phase == DASD_DRIVE_GIVES) CHECK(dasd_drive_give(d, bytes + *moved, n) == DASD_DONE);
    else if (phase == DASD_DRIVE_TAKES) CHECK(dasd_drive_take(d, bytes + *moved, n) == DASD_DONE);
    *moved += n;
}

/* What dasd_drive_do is to do and to answer. */
static int32_t by_single_calls(dasd_drive_alone *d, dasd_drive_word *w, uint8_t *bytes, size_t len) {
    dasd_drive_next_bytes next;
    size_t moved = 0;
    int32_t phase;
    if (w->begun) {
        if (phase_of(d, &next) == DASD_DRIVE_IDLE) return DASD_NO_COMMAND;
    } else {
        int32_t begun = dasd_drive_begin(d, w->code);
        if (begun < 0) return begun;
        w->begun = (uint8_t)begun;
        while (phase_of(d, &next) == DASD_DRIVE_LOOKING) dasd_drive_look(d);
    }
    pass(d, bytes, len, &moved);
    if (phase_of(d, &next) == DASD_DRIVE_TAKES && next.left == 0) {
        CHECK(dasd_drive_look(d) == DASD_DRIVE_READY);
        pass(d, bytes, len, &moved);
    }
    phase = phase_of(d, &next);
    w->moved = moved;
    w->left = next.left;
    if (phase == DASD_DRIVE_IDLE) return 0x0E;
    return w->chains && next.left > 0 ? DASD_DRIVE_STAYS_OPEN : dasd_drive_end(d);
}

/* --- Words by chance --- */

static size_t put(uint8_t *bytes, const uint8_t *from, size_t len) {
    memcpy(bytes, from, len);
    return len;
}

/* A word whose bytes are mostly what its command wants; how many they are. */
static size_t some_word(dasd_drive_word *w, uint8_t *bytes) {
    static const uint8_t codes[] = {0x1F, 0x07, 0x1B, 0x31, 0xB1, 0x39, 0x29, 0x06, 0x86, 0x1E, 0x9E, 0x16, 0x1A, 0x12,
                                    0x0E, 0x05, 0x0D, 0x15, 0x19, 0x1D, 0x1D, 0x1D, 0x04, 0x03, 0x13, 0x02, 0x11, 0x51};
    const uint8_t cylinder = (uint8_t)chance(CYLINDERS), head = (uint8_t)chance(3), record = (uint8_t)chance(4);
    const uint8_t seek[6] = {0, 0, 0, cylinder, 0, head}, id[5] = {0, cylinder, 0, head, record}, mask[1] = {0xC0};
    const uint8_t count[8] = {0, cylinder, 0, head, record, (uint8_t)(chance(2) * 3), 0, (uint8_t)chance(60)},
                  home[5] = {0, 0, cylinder, 0, head};
    size_t len = chance(90);
    memset(w, 0, sizeof *w);
    w->code = chance(40) ? codes[chance(sizeof codes)] : (uint8_t)chance(256);
    w->chains = (uint8_t)chance(2);
    for (size_t i = 0; i < ROOM; i++) bytes[i] = (uint8_t)(state >> (i % 24));
    switch (w->code) {
    case 0x1F: return put(bytes, mask, 1);
    case 0x07:
    case 0x1B: return put(bytes, seek, 6);
    case 0x31:
    case 0xB1:
    case 0x51: return put(bytes, id, 5);
    case 0x39: return put(bytes, home + 1, 4);
    case 0x19: return put(bytes, home, 5);
    case 0x15:
    case 0x1D:
    case 0x11: put(bytes, count, 8); return chance(4) ? 8 + len : chance(9);
    default: return chance(8) ? len : ROOM;
    }
}

/* Both drives are the same to who asks. */
static void are_alike(dasd_drive_alone *d, dasd_drive_alone *e) {
    dasd_drive_next_bytes one, other;
    dasd_drive_seen seen, too;
    CHECK(phase_of(d, &one) == phase_of(e, &other) && one.passed == other.passed && one.left == other.left);
    CHECK(dasd_drive_show(d, &seen) == DASD_DONE && dasd_drive_show(e, &too) == DASD_DONE && !memcmp(&seen, &too, sizeof seen));
}

static int32_t ended;

/* A word of the same kind at both: what it was answered. */
static void does_alike(dasd_drive_alone *d, dasd_drive_alone *e, dasd_drive_word *w, uint8_t *bytes, size_t len) {
    static uint8_t too[ROOM];
    dasd_drive_word v = *w;
    int32_t code, single;
    memcpy(too, bytes, ROOM);
    code = dasd_drive_do(d, w, bytes, len);
    single = by_single_calls(e, &v, too, len);
    CHECK(code == single && !memcmp(w, &v, sizeof v) && !memcmp(bytes, too, ROOM));
    if (code == 0x0C) ended++;
    are_alike(d, e);
}

static int32_t restored;

/* Where a save of one is allowed, the other is made anew: over a copy of the file, and restored. */
static void comes_back(dasd_drive_alone *d, dasd_drive_alone *e) {
    uint8_t saved[DASD_DRIVE_SAVED];
    size_t written = 77;
    dasd_file file = {NULL, 0, 0};
    int32_t code = dasd_drive_save(d, saved, sizeof saved, &written);
    if (code != DASD_DONE) {
        CHECK((code == DASD_NOT_SAVED || code == DASD_PROGRAM_RUNS) && written == 77);
        return;
    }
    CHECK(written == DASD_DRIVE_SAVED && dasd_drive_show_file(d, &file) == DASD_DONE && dasd_drive_free(e) == DASD_DONE);
    CHECK(dasd_drive_attach(e, file.at, file.len) == DASD_DONE && dasd_drive_restore(e, saved, written) == DASD_DONE);
    are_alike(d, e);
    restored++;
}

static void program(dasd_drive_alone *d, dasd_drive_alone *e) {
    static uint8_t bytes[ROOM];
    CHECK(dasd_drive_begin_program(d) == dasd_drive_begin_program(e));
    for (uint32_t n = chance(WORDS); n < WORDS; n++) {
        dasd_drive_word w;
        size_t len = some_word(&w, bytes);
        if (chance(6) == 0) comes_back(d, e);
        does_alike(d, e, &w, bytes, len);
        while (chance(8) &&
               phase_of(d, &(dasd_drive_next_bytes){0, 0}) != DASD_DRIVE_IDLE) { /* chained data, of which the last may be refused */
            w.chains = (uint8_t)chance(2);
            if (chance(20) == 0) w.begun = 0;
            does_alike(d, e, &w, bytes, chance(40));
            if (w.begun == 0) w.begun = 2;
        }
        if (phase_of(d, &(dasd_drive_next_bytes){0, 0}) != DASD_DRIVE_IDLE) CHECK(dasd_drive_end(d) == dasd_drive_end(e));
        if (chance(30) == 0) {
            w.begun = 2;
            does_alike(d, e, &w, bytes, 3);
        }
    }
    CHECK(dasd_drive_settle(d) == 0 && dasd_drive_settle(e) == 0);
}

/* --- Between programs --- */

static uint8_t kept[FILE_LEN];

/* The file as it was with the tracks that are shown is the file; no track is shown that was not written since. */
static void written_tracks(dasd_drive_alone *d, uint64_t *since) {
    dasd_changed track = {0, 0, 0, 0};
    dasd_file file;
    CHECK(dasd_drive_show_file(d, &file) == DASD_DONE && file.len == FILE_LEN);
    while (dasd_drive_next_changed(d, *since, &track) == 1) {
        CHECK(track.len == SLOT && track.at == 512 + track.track * SLOT && track.next == track.track + 1);
        memcpy(kept + track.at, file.at + track.at, track.len);
    }
    CHECK(!memcmp(kept, file.at, FILE_LEN));
    *since = file.changes;
    track.next = 0;
    CHECK(dasd_drive_next_changed(d, *since, &track) == 0 && track.next == 0);
}

int main(void) {
    dasd_drive_alone d = DASD_DRIVE_NOTHING, e = DASD_DRIVE_NOTHING;
    dasd_file file;
    uint64_t since;
    CHECK(dasd_drive_attach_new(&d, 2311, CYLINDERS) == DASD_DONE && dasd_drive_attach_new(&e, 2311, CYLINDERS) == DASD_DONE);
    CHECK(dasd_drive_show_file(&d, &file) == DASD_DONE);
    memcpy(kept, file.at, sizeof kept);
    since = file.changes;
    for (int n = 0; n < PROGRAMS && failures == 0; n++) {
        program(&d, &e);
        if (chance(3) == 0) written_tracks(&d, &since);
    }
    written_tracks(&d, &since);
    CHECK(dasd_drive_show_file(&e, &file) == DASD_DONE && !memcmp(kept, file.at, sizeof kept));
    CHECK(ended > PROGRAMS && restored > PROGRAMS / 10 && dasd_drive_free(&d) == DASD_DONE && dasd_drive_free(&e) == DASD_DONE);
    if (failures == 0) printf("drive_words: %d programs, all facts hold\n", PROGRAMS);
    return failures != 0;
}
