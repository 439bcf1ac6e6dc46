/* drive.c - a drive alone: each call in each phase, what is refused by its name and changes nothing, volumes that are attached and given
 * back, drives that are saved and restored, and, with HEAP, memory that is refused. The rows of a drive are played by drive_stage.c. */
#include <stdint.h>
#include <stdio.h>
#include <string.h>

#include "../dasd_drive.h"
#include "tests.h"

enum {
    SENSE = 0x04,
    READ_DATA = 0x06,
    WRITE_DATA = 0x05,
    SEEK = 0x07,
    SET_FILE_MASK = 0x1F,
    SEARCH_ID = 0x31,
    NO_OPERATION = 0x03,
    WRITE_R0 = 0x15
};
enum { SEARCH_HOME_ADDRESS = 0x39, PHASES = DASD_DRIVE_TAKES + 1 };
/* where record 0 of the first track stands in a file, behind the header and a home address, and its data behind its count */
enum { HEADER = 512, COUNT = HEADER + 5, DATA = COUNT + 8 };

/* --- Phases --- */

static int32_t phase(dasd_drive_alone *d) {
    dasd_drive_next_bytes next;
    return dasd_drive_next(d, &next);
}

/* A new drive in a phase. */
static void made(dasd_drive_alone *d, int32_t wanted) {
    static const uint8_t codes[PHASES] = {0, NO_OPERATION, READ_DATA, SENSE, SET_FILE_MASK};
    CHECK(dasd_drive_attach_new(d, 2311, 1) == DASD_DONE);
    CHECK(dasd_drive_begin_program(d) == DASD_DONE);
    if (wanted != DASD_DRIVE_IDLE) CHECK(dasd_drive_begin(d, codes[wanted]) >= DASD_DRIVE_IMMEDIATE);
    if (wanted >= DASD_DRIVE_GIVES) CHECK(dasd_drive_look(d) == DASD_DRIVE_READY);
    CHECK(phase(d) == wanted);
}

/* The calls that a phase may refuse, by a number. */
enum { PROGRAM, BEGIN, LOOK, GIVE, TAKE, END, SETTLE, CLEAR, FILE_SHOWN, BACK, DO, GO_ON, CHANGED, SAVE, RESTORE, CALLS };

static uint8_t bytes[HEADER + 10 * 4096];

/* a drive that was saved at cylinder 0 and head 0, with sense bytes that are zero */
static const uint8_t at_rest[DASD_DRIVE_SAVED] = {'D', 'A', 'S', 'D', 'D', 'R', 'I', 'V', 1};

/* Does a word, and what it is refused by leaves it as it is. */
static int32_t word(dasd_drive_alone *d, uint8_t code, uint8_t begun) {
    dasd_drive_word w = {77, 77, code, begun, 0, {0}}, before = w;
    int32_t status = dasd_drive_do(d, &w, bytes, 1);
    CHECK(status >= 0 || !memcmp(&w, &before, sizeof w));
    return status;
}

static int32_t call(dasd_drive_alone *d, int number) {
    dasd_file shown = {NULL, 77, 77};
    dasd_changed track = {0, 0, 0, 0};
    size_t written = 77;
    int32_t code;
    switch (number) {
    case PROGRAM: return dasd_drive_begin_program(d);
    case BEGIN: return dasd_drive_begin(d, NO_OPERATION);
    case LOOK: return dasd_drive_look(d);
    case GIVE: return dasd_drive_give(d, bytes, 1);
    case TAKE: return dasd_drive_take(d, bytes, 1);
    case END: return dasd_drive_end(d);
    case SETTLE: return dasd_drive_settle(d);
    case CLEAR: return dasd_drive_clear_sense(d);
    case BACK: return dasd_drive_give_back(d, bytes, sizeof bytes);
    case DO: return word(d, NO_OPERATION, 0);
    case GO_ON: return word(d, NO_OPERATION, DASD_DRIVE_STARTED);
    case CHANGED:
        code = dasd_drive_next_changed(d, 0, &track);
        CHECK(code == 1 || track.next == 0);
        return code;
    case SAVE:
        code = dasd_drive_save(d, bytes, sizeof bytes, &written);
        CHECK(code == DASD_DONE ? written == sizeof at_rest && !memcmp(bytes, at_rest, sizeof at_rest) && bytes[written] == 0xEE
                                : written == 77);
        return code;
    case RESTORE: return dasd_drive_restore(d, at_rest, sizeof at_rest);
    default:
        code = dasd_drive_show_file(d, &shown);
        CHECK(code == DASD_DONE ? shown.len == sizeof bytes : shown.len == 77 && shown.changes == 77 && shown.at == NULL);
        return code;
    }
}

/* What a phase refuses each call by; 0 where it allows it. */
static const int refused[PHASES][CALLS] = {
    [DASD_DRIVE_IDLE] =
        {[LOOK] = DASD_NO_COMMAND, [GIVE] = DASD_GIVES_NONE, [TAKE] = DASD_TAKES_NONE, [END] = DASD_NO_END, [GO_ON] = DASD_NO_COMMAND},
    [DASD_DRIVE_OVER] = {DASD_COMMAND_OPEN, DASD_COMMAND_OPEN, DASD_NO_COMMAND, DASD_GIVES_NONE, DASD_TAKES_NONE, 0, 0, DASD_COMMAND_OPEN,
                         DASD_COMMAND_OPEN, DASD_COMMAND_OPEN, DASD_COMMAND_OPEN, 0, DASD_COMMAND_OPEN, DASD_COMMAND_OPEN, DASD_COMMAND_OPEN},
    [DASD_DRIVE_LOOKING] = {DASD_COMMAND_OPEN, DASD_COMMAND_OPEN, 0, DASD_GIVES_NONE, DASD_TAKES_NONE, DASD_NO_END, 0, DASD_COMMAND_OPEN,
                            DASD_COMMAND_OPEN, DASD_COMMAND_OPEN, DASD_COMMAND_OPEN, 0, DASD_COMMAND_OPEN, DASD_COMMAND_OPEN, DASD_COMMAND_OPEN},
    [DASD_DRIVE_GIVES] = {DASD_COMMAND_OPEN, DASD_COMMAND_OPEN, 0, 0, DASD_TAKES_NONE, 0, 0, DASD_COMMAND_OPEN, DASD_COMMAND_OPEN,
                          DASD_COMMAND_OPEN, DASD_COMMAND_OPEN, 0, DASD_COMMAND_OPEN, DASD_COMMAND_OPEN, DASD_COMMAND_OPEN},
    [DASD_DRIVE_TAKES] = {DASD_COMMAND_OPEN, DASD_COMMAND_OPEN, 0, DASD_GIVES_NONE, 0, 0, 0, DASD_COMMAND_OPEN, DASD_COMMAND_OPEN,
                          DASD_COMMAND_OPEN, DASD_COMMAND_OPEN, 0, DASD_COMMAND_OPEN, DASD_COMMAND_OPEN, DASD_COMMAND_OPEN},
};

/* Each call in each phase: it is allowed, or refused by its name, and then phase, bytes and arm are as before. */
static void calls_go_by_phase(void) {
    for (int32_t at = 0; at < PHASES; at++)
        for (int number = 0; number < CALLS; number++) {
            dasd_drive_alone d = DASD_DRIVE_NOTHING;
            dasd_drive_next_bytes before, behind;
            dasd_drive_seen seen, still;
            made(&d, at);
            CHECK(dasd_drive_next(&d, &before) == at && dasd_drive_show(&d, &seen) == DASD_DONE);
            memset(bytes, 0xEE, sizeof bytes);
            int32_t code = call(&d, number);
            if (refused[at][number] == 0) {
                CHECK(code >= 0);
            } else {
                CHECK(code == refused[at][number] && bytes[0] == 0xEE);
                CHECK(dasd_drive_next(&d, &behind) == at && before.passed == behind.passed && before.left == behind.left);
                CHECK(dasd_drive_show(&d, &still) == DASD_DONE && !memcmp(&seen, &still, sizeof seen));
            }
            CHECK(dasd_drive_free(&d) == (number == BACK && code == 0 ? DASD_NOTHING_HELD : DASD_DONE));
        }
}

/* On a handle that holds nothing every call says so, and what is told stays. */
static void empty_handle(void) {
    dasd_drive_alone d = DASD_DRIVE_NOTHING;
    dasd_drive_next_bytes next = {77, 77};
    dasd_drive_seen seen;
    memset(&seen, 0x77, sizeof seen);
    memset(bytes, 0xEE, sizeof bytes);
    for (int number = 0; number < CALLS; number++) CHECK(call(&d, number) == DASD_NOTHING_HELD);
    CHECK(bytes[0] == 0xEE && dasd_drive_next(&d, &next) == DASD_NOTHING_HELD && next.passed == 77 && next.left == 77);
    CHECK(dasd_drive_show(&d, &seen) == DASD_NOTHING_HELD && seen.model == 0x7777);
    CHECK(dasd_drive_free(&d) == DASD_NOTHING_HELD);
}

/* --- Bytes --- */

static void no_more_than_are_left(void) {
    dasd_drive_alone d = DASD_DRIVE_NOTHING;
    dasd_drive_next_bytes next;
    uint8_t sense[7];
    memset(sense, 0xEE, sizeof sense);
    made(&d, DASD_DRIVE_GIVES);
    CHECK(dasd_drive_give(&d, sense, 7) == DASD_TOO_MANY && sense[0] == 0xEE && dasd_drive_give(&d, sense, 0) == DASD_DONE);
    CHECK(dasd_drive_give(&d, sense, 4) == DASD_DONE && sense[3] == 0 && sense[4] == 0xEE);
    CHECK(dasd_drive_settle(&d) == DASD_BYTES_PASSED && dasd_drive_give(&d, sense, 3) == DASD_TOO_MANY);
    CHECK(dasd_drive_next(&d, &next) == DASD_DRIVE_GIVES && next.passed == 4 && next.left == 2);
    CHECK(dasd_drive_end(&d) == 0x0C && dasd_drive_free(&d) == DASD_DONE);
    made(&d, DASD_DRIVE_TAKES);
    CHECK(dasd_drive_take(&d, bytes, 2) == DASD_TOO_MANY && dasd_drive_take(&d, bytes, 0) == DASD_DONE);
    CHECK(dasd_drive_next(&d, &next) == DASD_DRIVE_TAKES && next.passed == 0 && next.left == 1);
    CHECK(dasd_drive_free(&d) == DASD_DONE);
}

/* A command with its bytes, from its beginning to its end. */
static int32_t does(dasd_drive_alone *d, uint8_t code, const uint8_t *given, size_t len) {
    CHECK(dasd_drive_begin(d, code) == DASD_DRIVE_STARTED);
    while (phase(d) == DASD_DRIVE_LOOKING) dasd_drive_look(d);
    CHECK(dasd_drive_take(d, given, len) == DASD_DONE);
    return dasd_drive_end(d);
}

/* --- Volumes --- */

static void is_no_image(size_t at, uint8_t byte, int32_t why) {
    dasd_drive_alone d = DASD_DRIVE_NOTHING;
    uint8_t kept = bytes[at];
    bytes[at] = byte;
    CHECK(dasd_drive_attach(&d, bytes, sizeof bytes) == why && dasd_drive_free(&d) == DASD_NOTHING_HELD);
    bytes[at] = kept;
}

static void why_files_are_none(void) {
    dasd_drive_alone d = DASD_DRIVE_NOTHING;
    CHECK(dasd_drive_attach_new(&d, 2305, 1) == DASD_BAD_MODEL && dasd_drive_attach_new(&d, 2305, 0) == DASD_BAD_MODEL);
    CHECK(dasd_drive_attach_new(&d, 2314, 0) == DASD_NO_CYLINDERS && dasd_drive_free(&d) == DASD_NOTHING_HELD);
    made(&d, DASD_DRIVE_IDLE);
    CHECK(dasd_drive_attach_new(&d, 2305, 0) == DASD_IN_USE && dasd_drive_attach(&d, bytes, 0) == DASD_IN_USE);
    CHECK(dasd_drive_give_back(&d, bytes, sizeof bytes - 1) == DASD_OTHER_LENGTH && phase(&d) == DASD_DRIVE_IDLE);
    CHECK(dasd_drive_give_back(&d, bytes, sizeof bytes) == DASD_DONE && dasd_drive_free(&d) == DASD_NOTHING_HELD);
    CHECK(dasd_drive_attach(&d, bytes, 0) == DASD_LENGTH && dasd_drive_attach(&d, bytes, sizeof bytes - 1) == DASD_LENGTH);
    is_no_image(0, 'X', DASD_NOT_CKD_P370);
    is_no_image(4, 'C', DASD_COMPRESSED);
    is_no_image(16, 0x90, DASD_DEVICE_TYPE);
    is_no_image(8, 11, DASD_HEADS);
    is_no_image(13, 1, DASD_TRACK_SIZE);
    is_no_image(17, 2, DASD_SPLIT);
}

/* What is written is in the file once it was settled, and not before; and comes back with the next drive. */
static void written_track_is_not_lost(void) {
    static const uint8_t mask = 0xC0, home[4] = {0, 0, 0, 0}, record[8 + 4] = {0, 0, 0, 0, 0, 0, 0, 4, 0xD9, 0xF0, 0xE7, 0xE7};
    dasd_drive_alone d = DASD_DRIVE_NOTHING;
    dasd_drive_seen seen;
    dasd_file first, second;
    uint8_t back[4];
    made(&d, DASD_DRIVE_IDLE);
    CHECK(dasd_drive_show_file(&d, &first) == DASD_DONE);
    CHECK(does(&d, SET_FILE_MASK, &mask, 1) == 0x0C && does(&d, SEARCH_HOME_ADDRESS, home, 4) == 0x4C);
    CHECK(dasd_drive_begin(&d, WRITE_R0) == DASD_DRIVE_STARTED && dasd_drive_look(&d) == DASD_DRIVE_READY);
    CHECK(dasd_drive_take(&d, record, 8) == DASD_DONE && dasd_drive_look(&d) == DASD_DRIVE_READY);
    CHECK(dasd_drive_take(&d, record + 8, 4) == DASD_DONE && dasd_drive_end(&d) == 0x0C);
    CHECK(dasd_drive_show(&d, &seen) == DASD_DONE && seen.written == 1 && seen.model == 2311 && seen.cylinders == 1);
    CHECK(dasd_drive_show_file(&d, &second) == DASD_NOT_SAVED && dasd_drive_give_back(&d, bytes, sizeof bytes) == DASD_NOT_SAVED);
    CHECK(dasd_drive_settle(&d) == 0 && dasd_drive_show(&d, &seen) == DASD_DONE && seen.written == 0);
    CHECK(dasd_drive_show_file(&d, &second) == DASD_DONE && second.changes != first.changes);
    CHECK(dasd_drive_give_back(&d, bytes, sizeof bytes) == DASD_DONE && !memcmp(bytes + COUNT, record, sizeof record));
    CHECK(dasd_drive_attach(&d, bytes, sizeof bytes) == DASD_DONE);
    memset(bytes, 0, sizeof bytes);
    CHECK(does(&d, SEARCH_ID, home, 4) == 0x4C && dasd_drive_begin(&d, READ_DATA) == DASD_DRIVE_STARTED);
    CHECK(dasd_drive_look(&d) == DASD_DRIVE_READY && dasd_drive_give(&d, back, 4) == DASD_DONE && !memcmp(back, record + 8, 4));
    CHECK(dasd_drive_end(&d) == 0x0C && dasd_drive_free(&d) == DASD_DONE);
}

/* A drive that is written to, and one that is not, have nothing in common; and a subsystem in the same program. */
static void arm_and_sense(void) {
    static const uint8_t far[6] = {0, 0, 0, 1, 0, 3}, none[6] = {0, 0, 0, 2, 0, 0};
    dasd_drive_alone d = DASD_DRIVE_NOTHING, e = DASD_DRIVE_NOTHING;
    dasd_drive_seen seen;
    CHECK(dasd_drive_attach_new(&d, 2314, 2) == DASD_DONE && dasd_drive_attach_new(&e, 2311, 3) == DASD_DONE);
    CHECK(does(&d, SEEK, far, 6) == 0x08 && dasd_drive_show(&d, &seen) == DASD_DONE && seen.cylinder == 1 && seen.head == 3);
    CHECK(dasd_drive_begin_program(&d) == DASD_DONE && dasd_drive_begin(&d, WRITE_DATA) == DASD_DRIVE_REJECTED);
    CHECK(dasd_drive_show(&d, &seen) == DASD_DONE && seen.sense[0] == 0x80 && seen.cylinder == 1 && seen.head == 3);
    CHECK(dasd_drive_clear_sense(&d) == DASD_DONE && dasd_drive_show(&d, &seen) == DASD_DONE && seen.sense[0] == 0);
    CHECK(does(&d, SEEK, none, 6) == 0x0E && dasd_drive_show(&d, &seen) == DASD_DONE && seen.cylinder == 1 && seen.sense[0] == 0x81);
    CHECK(dasd_drive_show(&e, &seen) == DASD_DONE && seen.cylinder == 0 && seen.cylinders == 3 && seen.sense[0] == 0);
    CHECK(dasd_drive_free(&d) == DASD_DONE && dasd_drive_free(&e) == DASD_DONE);
}

/* A copy in the middle of a write goes on by itself; the first is as it was. */
static void copied_in_the_middle(void) {
    static const uint8_t count[8] = {0, 0, 0, 0, 1, 0, 0, 2}, first[5] = {0, 0, 0, 0, 0}, data[2] = {0xAA, 0xBB};
    dasd_drive_alone d = DASD_DRIVE_NOTHING, e = DASD_DRIVE_NOTHING;
    dasd_drive_next_bytes one, other;
    dasd_file shown;
    CHECK(dasd_drive_copy(&d, &e) == DASD_NOTHING_HELD && phase(&e) == DASD_NOTHING_HELD);
    made(&d, DASD_DRIVE_IDLE);
    CHECK(does(&d, SEARCH_ID, first, 5) == 0x4C && dasd_drive_begin(&d, 0x1D) == DASD_DRIVE_STARTED);
    CHECK(dasd_drive_look(&d) == DASD_DRIVE_READY && dasd_drive_take(&d, count, 8) == DASD_DONE && dasd_drive_look(&d) == DASD_DRIVE_READY);
    CHECK(dasd_drive_copy(&d, &e) == DASD_DONE && dasd_drive_copy(&d, &e) == DASD_IN_USE);
    CHECK(dasd_drive_take(&e, data, 2) == DASD_DONE && dasd_drive_end(&e) == 0x0C && phase(&e) == DASD_DRIVE_IDLE);
    CHECK(dasd_drive_next(&d, &one) == DASD_DRIVE_TAKES && one.passed == 8 && one.left == 2);
    CHECK(dasd_drive_settle(&e) == 0 && dasd_drive_show_file(&e, &shown) == DASD_DONE && !memcmp(shown.at + DATA + 8 + 8, data, 2));
    CHECK(dasd_drive_end(&d) == 0x0C && dasd_drive_settle(&d) == 0 && dasd_drive_next(&e, &other) == DASD_DRIVE_IDLE);
    CHECK(dasd_drive_show_file(&d, &shown) == DASD_DONE && !memcmp(shown.at + DATA + 8 + 8, "\0\0", 2));
    CHECK(dasd_drive_free(&d) == DASD_DONE && phase(&e) == DASD_DRIVE_IDLE && dasd_drive_free(&e) == DASD_DONE);
}

/* --- Saved and restored --- */

enum { SAVED = DASD_DRIVE_SAVED };

/* A save is refused so, and writes nothing. */
static void is_not_saved(dasd_drive_alone *d, size_t len, int32_t why) {
    uint8_t into[SAVED];
    size_t written = 77;
    memset(into, 0xEE, SAVED);
    CHECK(dasd_drive_save(d, into, len, &written) == why && written == 77);
    for (int i = 0; i < SAVED; i++) CHECK(into[i] == 0xEE);
}

/* A restore is refused so, and the drive stays. */
static void is_not_restored(dasd_drive_alone *d, const uint8_t *from, size_t len, int32_t why) {
    dasd_drive_seen seen, still;
    CHECK(dasd_drive_show(d, &seen) == DASD_DONE && dasd_drive_restore(d, from, len) == why);
    CHECK(dasd_drive_show(d, &still) == DASD_DONE && !memcmp(&seen, &still, sizeof seen));
}

/* What is remembered of a program is not saved until the next one begins; nor is a written track that waits. */
static void only_between_programs(void) {
    static const uint8_t mask = 0x18, home[4] = {0, 0, 0, 0}, id[5] = {0, 0, 0, 0, 0}, data[1] = {0xC1};
    dasd_drive_alone d = DASD_DRIVE_NOTHING;
    made(&d, DASD_DRIVE_IDLE);
    is_not_saved(&d, SAVED - 1, DASD_NO_ROOM);
    is_not_saved(&d, 0, DASD_NO_ROOM);
    CHECK(does(&d, SET_FILE_MASK, &mask, 1) == 0x0C);
    is_not_saved(&d, SAVED, DASD_PROGRAM_RUNS);
    CHECK(dasd_drive_begin_program(&d) == DASD_DONE && does(&d, SEARCH_HOME_ADDRESS, home, 4) == 0x4C);
    is_not_saved(&d, SAVED, DASD_PROGRAM_RUNS);
    CHECK(dasd_drive_settle(&d) == 0);
    is_not_saved(&d, 0, DASD_PROGRAM_RUNS);
    CHECK(dasd_drive_begin_program(&d) == DASD_DONE && does(&d, SEARCH_ID, id, 5) == 0x4C);
    CHECK(does(&d, WRITE_DATA, data, 1) == 0x0C && dasd_drive_begin_program(&d) == DASD_DONE);
    is_not_saved(&d, SAVED, DASD_NOT_SAVED);
    is_not_restored(&d, at_rest, SAVED, DASD_NOT_SAVED);
    memset(bytes, 0xEE, sizeof bytes);
    CHECK(dasd_drive_settle(&d) == 0 && call(&d, SAVE) == DASD_DONE && call(&d, RESTORE) == DASD_DONE);
    CHECK(dasd_drive_free(&d) == DASD_DONE);
}

/* Cylinder, head and sense bytes come back, in another drive whose volume has the track; what that drive remembered of a program is lost. */
static void arm_and_sense_come_back(void) {
    static const uint8_t far[6] = {0, 0, 0, 202, 0, 19}, none[6] = {0, 0, 1, 2, 0, 0};
    static const uint8_t wanted[SAVED] = {'D', 'A', 'S', 'D', 'D', 'R', 'I', 'V', 1, 0, 202, 0, 19, 0x81, 0};
    dasd_drive_alone d = DASD_DRIVE_NOTHING, e = DASD_DRIVE_NOTHING;
    dasd_drive_seen seen;
    dasd_file before = {NULL, 0, 0}, after = {NULL, 0, 1};
    uint8_t into[SAVED + 1], other[SAVED];
    size_t written = 0;
    CHECK(dasd_drive_attach_new(&d, 2314, 203) == DASD_DONE && does(&d, SEEK, far, 6) == 0x08 && does(&d, SEEK, none, 6) == 0x0E);
    CHECK(dasd_drive_begin_program(&d) == DASD_DONE);
    into[SAVED] = 0xEE;
    CHECK(dasd_drive_save(&d, into, sizeof into, &written) == DASD_DONE && written == SAVED && into[SAVED] == 0xEE);
    CHECK(!memcmp(into, wanted, SAVED) && dasd_drive_attach_new(&e, 2311, 203) == DASD_DONE);
    is_not_restored(&e, wanted, SAVED, DASD_NO_TRACK); /* it has ten heads */
    CHECK(dasd_drive_free(&e) == DASD_DONE && dasd_drive_attach_new(&e, 2314, 202) == DASD_DONE);
    is_not_restored(&e, wanted, SAVED, DASD_NO_TRACK);
    CHECK(dasd_drive_free(&e) == DASD_DONE && dasd_drive_attach_new(&e, 2314, 203) == DASD_DONE);
    CHECK(does(&e, SET_FILE_MASK, none, 1) == 0x0C && dasd_drive_show_file(&e, &before) == DASD_DONE);
    CHECK(dasd_drive_restore(&e, wanted, SAVED) == DASD_DONE && dasd_drive_show_file(&e, &after) == DASD_DONE);
    CHECK(before.at == after.at && before.changes == after.changes);
    CHECK(dasd_drive_show(&e, &seen) == DASD_DONE && seen.cylinder == 202 && seen.head == 19 && seen.sense[0] == 0x81 && seen.sense[1] == 0);
    CHECK(does(&e, SET_FILE_MASK, none, 1) == 0x0C && dasd_drive_save(&d, other, SAVED, &written) == DASD_DONE && !memcmp(other, wanted, SAVED));
    CHECK(dasd_drive_free(&d) == DASD_DONE && dasd_drive_free(&e) == DASD_DONE);
}

/* Each prefix, one byte more, and each byte replaced by each other one: refused by its name; or, past the version, a place and sense bytes. */
static void other_bytes(void) {
    dasd_drive_alone d = DASD_DRIVE_NOTHING;
    dasd_drive_seen seen;
    uint8_t from[SAVED + 1] = {0};
    made(&d, DASD_DRIVE_IDLE);
    memcpy(from, at_rest, SAVED);
    for (size_t len = 0; len <= SAVED + 1; len++)
        if (len != SAVED) is_not_restored(&d, from, len, len < 9 ? DASD_NO_SAVED_STATE : DASD_SAVED_LENGTH);
    for (int at = 0; at < SAVED; at++)
        for (int byte = 0; byte < 256; byte++) {
            from[at] = (uint8_t)byte;
            if (byte == at_rest[at]) CHECK(dasd_drive_restore(&d, from, SAVED) == DASD_DONE);
            else if (at < 9) is_not_restored(&d, from, SAVED, at < 8 ? DASD_NO_SAVED_STATE : DASD_OTHER_VERSION);
            else if (at < 12 || (at == 12 && byte > 9)) is_not_restored(&d, from, SAVED, DASD_NO_TRACK); /* one cylinder, ten heads */
            else {
                CHECK(dasd_drive_restore(&d, from, SAVED) == DASD_DONE && dasd_drive_show(&d, &seen) == DASD_DONE);
                CHECK(seen.cylinder == 0 && seen.head == from[12] && seen.sense[0] == from[13] && seen.sense[1] == from[14] &&
                      seen.sense[2] == 0);
            }
            from[at] = at_rest[at];
        }
    CHECK(dasd_drive_free(&d) == DASD_DONE);
}

#ifdef HEAP
extern long heap_refuse_at, heap_live;

/* Each taking of memory of an attach refused in turn: it is told, and nothing is held. */
static void memory_is_refused(int is_new) {
    dasd_drive_alone d = DASD_DRIVE_NOTHING;
    long refusals = 0, copies = 0;
    for (int32_t code = DASD_NO_MEMORY; code != DASD_DONE; refusals++) {
        heap_refuse_at = refusals + 1;
        code = is_new ? dasd_drive_attach_new(&d, 2311, 1) : dasd_drive_attach(&d, bytes, sizeof bytes);
        heap_refuse_at = 0;
        CHECK(code == DASD_DONE || code == DASD_NO_MEMORY);
        if (code != DASD_DONE && code != DASD_NO_MEMORY) break;
        if (code == DASD_NO_MEMORY) CHECK(heap_live == 0 && phase(&d) == DASD_NOTHING_HELD);
    }
    for (int32_t code = DASD_NO_MEMORY; code == DASD_NO_MEMORY; copies++) {
        dasd_drive_alone copy = DASD_DRIVE_NOTHING;
        long before = heap_live;
        heap_refuse_at = copies + 1;
        code = dasd_drive_copy(&d, &copy);
        heap_refuse_at = 0;
        CHECK(code == DASD_NO_MEMORY ? heap_live == before && phase(&copy) == DASD_NOTHING_HELD : dasd_drive_free(&copy) == DASD_DONE);
    }
    CHECK(copies > 3 && refusals > 3 && dasd_drive_give_back(&d, bytes, sizeof bytes) == DASD_DONE && heap_live == 0);
}
#else
/* The library of a subsystem goes into the same program. */
static void beside_a_subsystem(void) {
    dasd d = DASD_NOTHING;
    dasd_drive_alone e = DASD_DRIVE_NOTHING;
    CHECK(dasd_new(&d, 4096, DASD_CHANNEL(1)) == DASD_DONE && dasd_drive_attach_new(&e, 2311, 1) == DASD_DONE);
    CHECK(dasd_attach_new(&d, 0x190, 2311, 1) == DASD_DONE && dasd_drive_begin(&e, SENSE) == DASD_DRIVE_STARTED);
    CHECK(dasd_free(&d) == DASD_DONE && phase(&e) == DASD_DRIVE_LOOKING && dasd_drive_free(&e) == DASD_DONE);
}
#endif

int main(void) {
    CHECK(sizeof(dasd_drive_alone) == 16 && sizeof(dasd_drive_seen) == 16 && offsetof(dasd_drive_seen, sense) == 9);
    empty_handle();
    calls_go_by_phase();
    no_more_than_are_left();
    why_files_are_none();
    written_track_is_not_lost();
    arm_and_sense();
    copied_in_the_middle();
    only_between_programs();
    arm_and_sense_come_back();
    other_bytes();
#ifdef HEAP
    memory_is_refused(1);
    memory_is_refused(0);
#else
    beside_a_subsystem();
#endif
    if (failures == 0) puts("drive: all facts hold");
    return failures != 0;
}
