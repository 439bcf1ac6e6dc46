/* states.c - what channels are between two programs is saved by dasd_save, and restored by dasd_restore into another handle, whose drives
 * were attached in another order: whatever is called of both from then on is answered alike, and main storage and volumes are the same in
 * the end. Bytes that are no saved state, are of another one, or were changed are refused by their names, and nothing changes: each
 * prefix, each byte replaced by each other one, and each once more with the checksum that fits. */
#include <stdint.h>
#include <string.h>

#include "../dasd.h"
#include "digits.h"
#include "tests.h"

enum { TURNS = 4000, SIZE = 8192, LINE = 64, FOLLOWED = 60, DRIVES = 3 };

static const uint16_t drives[DRIVES] = {0x190, 0x191, 0x290};
static const uint8_t both = DASD_CHANNEL(1) | DASD_CHANNEL(2);

/* The programs, at their addresses; 2F0 has cylinders and heads for seeks. */
static const struct {
    uint32_t at;
    const char *words;
} programs[] = {
    {0x100, "16000300 20000010"},                                     /* Read R0 */
    {0x110, "070002F0 20000006"},                                     /* Seek alone */
    {0x120, "070002F8 60000006 FF000000 20000001"},                   /* Seek, and a code that no command has: command reject */
    {0x130, "070002F8 60000006 1A000380 28000005 00000000 00000000"}, /* Seek, and the home address */
    {0x150, "31000200 40000005 08000150 00000000 06000300 20000010"}, /* Search, which finds nothing */
    {0x170, "04000390 20000006"},                                     /* Sense */
};

static uint32_t next(uint32_t *chance, uint32_t below) {
    *chance = *chance * 1664525U + 1013904223U;
    return (*chance >> 8) % below;
}

static void store(dasd *d, uint32_t at, const char *hexadecimal) {
    uint8_t bytes[64];
    CHECK(dasd_poke(d, at, bytes, bytes_of(hexadecimal, bytes, sizeof bytes)) == DASD_DONE);
}

static void make(dasd *d) {
    *d = (dasd)DASD_NOTHING;
    CHECK(dasd_new(d, SIZE, both) == DASD_DONE);
    CHECK(dasd_attach_new(d, 0x190, 2314, 5) == DASD_DONE && dasd_attach_new(d, 0x191, 2311, 4) == DASD_DONE);
    CHECK(dasd_attach_new(d, 0x290, 2311, 3) == DASD_DONE);
    for (size_t i = 0; i < sizeof programs / sizeof *programs; i++) store(d, programs[i].at, programs[i].words);
    store(d, 0x200, "0001000109");
    store(d, 0x2F0, "0000000200040000 0000000100020000");
}

/* One turn, and the line that it types: what was done, what came of it, the channel status word, and a drive. */
static void turn(dasd *d, uint32_t *chance, char line[LINE]) {
    const uint16_t address = drives[next(chance, DRIVES)];
    const uint32_t what = next(chance, 100);
    dasd_run ran = {0, 0, 0, 0, 0};
    dasd_drive drive;
    uint16_t from = 0;
    uint8_t csw[8];
    int32_t code;
    if (what < 45) code = dasd_run_on(d, (uint8_t)(1 + next(chance, 2)), 1 + next(chance, 40), &ran);
    else if (what < 68) {
        const uint8_t caw[4] = {0, 0, 1, (uint8_t)programs[next(chance, sizeof programs / sizeof *programs)].at};
        CHECK(dasd_poke(d, 0x48, caw, sizeof caw) == DASD_DONE);
        code = dasd_sio(d, address);
    } else if (what < 76) code = dasd_interrupt(d, next(chance, 4) ? 0xFE : (uint8_t)next(chance, 256), &from);
    else if (what < 86) code = dasd_arrive(d, address);
    else if (what < 92) code = dasd_tio(d, address);
    else if (what < 95) code = dasd_hio(d, address);
    else if (what < 98) code = dasd_tch(d, address);
    else code = dasd_is_pending(d, 0xFE);
    CHECK(dasd_peek(d, 0x40, csw, sizeof csw) == DASD_DONE && dasd_show_drive(d, address, &drive) == DASD_DONE);
    int typed = snprintf(line, LINE, "%03X %u %d %u %u%02X %03X ", address, what, code, ran.units, ran.subchannel, ran.device, from);
    for (int i = 0; i < 8; i++) typed += snprintf(line + typed, LINE - (size_t)typed, "%02X", csw[i]);
    snprintf(line + typed, LINE - (size_t)typed, " %u %u %u %02X%02X", drive.cylinder, drive.head, drive.arm, drive.sense[0], drive.sense[1]);
}

/* Another handle as an emulator makes it anew: main storage and volumes from where it kept them, and then the saved state. */
static void make_anew(const dasd *from, dasd *to, const uint8_t *saved) {
    uint8_t bytes[SIZE];
    *to = (dasd)DASD_NOTHING;
    CHECK(dasd_new(to, SIZE, both) == DASD_DONE);
    for (int i = DRIVES - 1; i >= 0; i--) {
        dasd_file file;
        CHECK(dasd_show_file(from, drives[i], 0, &file) == DASD_DONE);
        const dasd_bytes volume = {file.at, file.len};
        CHECK(dasd_attach(to, drives[i], &volume, 1) == DASD_DONE);
    }
    CHECK(dasd_peek(from, 0, bytes, SIZE) == DASD_DONE && dasd_poke(to, 0, bytes, SIZE) == DASD_DONE);
    CHECK(dasd_restore(to, saved, DASD_SAVED) == DASD_DONE);
}

/* Two handles have the same main storage and, once their programs are cut, the same volumes. */
static void compare(dasd *a, dasd *b) {
    uint8_t left[SIZE], right[SIZE];
    CHECK(dasd_peek(a, 0, left, SIZE) == DASD_DONE && dasd_peek(b, 0, right, SIZE) == DASD_DONE && !memcmp(left, right, SIZE));
    for (uint8_t channel = 1; channel <= 2; channel++) {
        dasd_track unsaved;
        CHECK(dasd_reset(a, channel, &unsaved) == 0 && dasd_reset(b, channel, &unsaved) == 0);
    }
    for (int i = 0; i < DRIVES; i++) {
        dasd_file one = {NULL, 0, 0}, other = {NULL, 0, 0};
        CHECK(dasd_show_file(a, drives[i], 0, &one) == DASD_DONE && dasd_show_file(b, drives[i], 0, &other) == DASD_DONE);
        CHECK(one.at && other.at && one.len == other.len && !memcmp(one.at, other.at, one.len));
    }
}

/* What was saved of a handle between its programs goes on in another as it does there. */
static void goes_on(void) {
    static uint8_t last[DASD_SAVED];
    dasd d;
    uint32_t chance = 20261128;
    int saved_ones = 0, others = 0, pending = 0, moving = 0;
    make(&d);
    for (int i = 0; i < TURNS; i++) {
        uint8_t saved[DASD_SAVED + 1], again[DASD_SAVED];
        size_t written = 7;
        char line[LINE], same[LINE];
        dasd_state first = {0}, second = {0};
        turn(&d, &chance, line);
        CHECK(dasd_show_channel(&d, 1, &first) == DASD_DONE && dasd_show_channel(&d, 2, &second) == DASD_DONE);
        saved[DASD_SAVED] = 0xA5;
        const int32_t code = dasd_save(&d, saved, sizeof saved, &written);
        if (first.subchannel == DASD_WORKING || second.subchannel == DASD_WORKING) {
            CHECK(code == DASD_PROGRAM_RUNS && written == 7);
            continue;
        }
        CHECK(code == DASD_DONE && written == DASD_SAVED && saved[DASD_SAVED] == 0xA5);
        CHECK(dasd_save(&d, again, sizeof again, &written) == DASD_DONE && !memcmp(saved, again, DASD_SAVED));
        saved_ones++;
        pending += first.subchannel == DASD_ENDED || second.subchannel == DASD_ENDED;
        moving += first.arms[0] != DASD_AT_REST || first.arms[1] != DASD_AT_REST || second.arms[0] != DASD_AT_REST;
        if (!memcmp(last, saved, DASD_SAVED) || next(&chance, 4)) continue;
        memcpy(last, saved, DASD_SAVED);
        others++;
        dasd twin, copy = DASD_NOTHING;
        make_anew(&d, &twin, saved);
        CHECK(dasd_copy(&d, &copy) == DASD_DONE);
        uint32_t one = chance, other = chance;
        for (int j = 0; j < FOLLOWED; j++) {
            turn(&copy, &one, line);
            turn(&twin, &other, same);
            CHECK(!strcmp(line, same));
        }
        compare(&copy, &twin);
        CHECK(dasd_free(&copy) == DASD_DONE && dasd_free(&twin) == DASD_DONE);
    }
    CHECK(saved_ones > 100 && others > 50 && pending > 20 && moving > 50);
    CHECK(dasd_free(&d) == DASD_DONE);
}

/* A handle whose channel 1 has an ending that pends beside an arm that moves, and whose channel 2 an arm that has arrived. */
static void make_busy(dasd *d) {
    dasd_run ran;
    uint16_t from;
    make(d);
    store(d, 0x48, "00000120");
    CHECK(dasd_sio(d, 0x190) == 0 && dasd_run_on(d, 1, 1000, &ran) == 0 && dasd_interrupt(d, 0xFE, &from) == 1);
    store(d, 0x48, "00000110");
    CHECK(dasd_sio(d, 0x290) == 0 && dasd_run_on(d, 2, 1000, &ran) == 0 && dasd_interrupt(d, 0xFE, &from) == 1);
    CHECK(dasd_arrive(d, 0x290) == 1);
    CHECK(dasd_sio(d, 0x191) == 0 && dasd_run_on(d, 1, 1000, &ran) == 0);
}

static void save(const dasd *d, uint8_t *saved) {
    size_t written;
    CHECK(dasd_save(d, saved, DASD_SAVED, &written) == DASD_DONE && written == DASD_SAVED);
}

/* The checksum that fits: that of RFC 1950. */
static void seal(uint8_t *saved) {
    uint32_t low = 1, high = 0;
    for (size_t i = 0; i < DASD_SAVED - 4; i++) low = (low + saved[i]) % 65521, high = (high + low) % 65521;
    saved[DASD_SAVED - 4] = (uint8_t)(high >> 8), saved[DASD_SAVED - 3] = (uint8_t)high;
    saved[DASD_SAVED - 2] = (uint8_t)(low >> 8), saved[DASD_SAVED - 1] = (uint8_t)low;
}

/* A restore is refused for this reason, and nothing has changed. */
static void is_refused(dasd *d, const uint8_t *from, size_t len, int32_t why) {
    uint8_t before[DASD_SAVED], behind[DASD_SAVED];
    save(d, before);
    CHECK(dasd_restore(d, from, len) == why);
    save(d, behind);
    CHECK(!memcmp(before, behind, DASD_SAVED));
}

static void changed_bytes(void) {
    dasd d, e;
    uint8_t saved[DASD_SAVED], changed[DASD_SAVED + 1], again[DASD_SAVED];
    int taken = 0, refused[64] = {0};
    make_busy(&d);
    make(&e);
    save(&d, saved);
    memcpy(changed, saved, DASD_SAVED);
    changed[DASD_SAVED] = 0;
    seal(changed);
    CHECK(!memcmp(changed, saved, DASD_SAVED));
    for (size_t len = 0; len < DASD_SAVED; len++) is_refused(&e, saved, len, len < 9 ? DASD_NO_SAVED_STATE : DASD_SAVED_LENGTH);
    is_refused(&e, changed, sizeof changed, DASD_SAVED_LENGTH);
    for (size_t at = 0; at < DASD_SAVED; at++) {
        for (unsigned byte = 0; byte < 256; byte++) {
            if (byte == saved[at]) continue;
            memcpy(changed, saved, DASD_SAVED);
            changed[at] = (uint8_t)byte;
            is_refused(&e, changed, DASD_SAVED, at < 8 ? DASD_NO_SAVED_STATE : at == 8 ? DASD_OTHER_VERSION : DASD_SAVED_SUM);
            if (at < 9 || at >= DASD_SAVED - 4) continue;
            seal(changed);
            const int32_t code = dasd_restore(&e, changed, DASD_SAVED);
            save(&e, again);
            CHECK(code == DASD_DONE || code == DASD_NOT_OWED || (code <= DASD_NOT_SOUND && code >= DASD_NO_TRACK));
            if (code == DASD_DONE) {
                taken++;
                CHECK(!memcmp(again, changed, DASD_SAVED));
                CHECK(dasd_restore(&e, saved, DASD_SAVED) == DASD_DONE);
            } else refused[-code]++;
        }
    }
    CHECK(taken > 1000);
    for (int why = -DASD_NOT_SOUND; why <= -DASD_NO_TRACK; why++) CHECK(refused[why] > 0);
    CHECK(refused[-DASD_NOT_OWED] > 0);
    CHECK(dasd_free(&d) == DASD_DONE && dasd_free(&e) == DASD_DONE);
}

static void other_handles(void) {
    dasd d, e = DASD_NOTHING;
    uint8_t saved[DASD_SAVED], bytes[DASD_SAVED + 4];
    size_t written = 7;
    dasd_run ran;
    make_busy(&d);
    save(&d, saved);
    memset(bytes, 0xA5, sizeof bytes);
    CHECK(dasd_save(&d, bytes, DASD_SAVED - 1, &written) == DASD_NO_ROOM && written == 7 && bytes[0] == 0xA5);
    CHECK(dasd_save(&e, bytes, sizeof bytes, &written) == DASD_NOTHING_HELD && dasd_restore(&e, saved, DASD_SAVED) == DASD_NOTHING_HELD);
    CHECK(written == 7 && bytes[0] == 0xA5);
    CHECK(dasd_new(&e, SIZE, DASD_CHANNEL(1)) == DASD_DONE); /* no channel 2 */
    CHECK(dasd_attach_new(&e, 0x190, 2314, 5) == DASD_DONE && dasd_attach_new(&e, 0x191, 2311, 4) == DASD_DONE);
    is_refused(&e, saved, DASD_SAVED, DASD_OTHER_CHANNELS);
    CHECK(dasd_free(&e) == DASD_DONE && dasd_new(&e, SIZE, both | DASD_CHANNEL(3)) == DASD_DONE); /* no drives, and another channel */
    is_refused(&e, saved, DASD_SAVED, DASD_OTHER_DRIVES);
    CHECK(dasd_attach_new(&e, 0x190, 2314, 1) == DASD_DONE && dasd_attach_new(&e, 0x191, 2311, 4) == DASD_DONE);
    is_refused(&e, saved, DASD_SAVED, DASD_NO_TRACK); /* the arm was at cylinder 1 */
    CHECK(dasd_detach(&e, 0x190) == DASD_DONE && dasd_attach_new(&e, 0x190, 2314, 2) == DASD_DONE);
    is_refused(&e, saved, DASD_SAVED, DASD_OTHER_DRIVES); /* at channel 2, and channel 1 stays too */
    CHECK(dasd_attach_new(&e, 0x291, 2311, 3) == DASD_DONE);
    is_refused(&e, saved, DASD_SAVED, DASD_OTHER_DRIVES); /* one of another address */
    CHECK(dasd_attach_new(&e, 0x290, 2311, 3) == DASD_DONE);
    is_refused(&e, saved, DASD_SAVED, DASD_OTHER_DRIVES); /* one too many */
    CHECK(dasd_detach(&e, 0x291) == DASD_DONE);
    is_refused(&e, saved, DASD_SAVED, DASD_OTHER_CHANNELS); /* channel 3 */
    CHECK(dasd_free(&e) == DASD_DONE);
    make(&e);
    store(&e, 0x48, "00000100");
    CHECK(dasd_sio(&e, 0x190) == 0 && dasd_restore(&e, saved, DASD_SAVED) == DASD_PROGRAM_RUNS);
    CHECK(dasd_save(&e, bytes, sizeof bytes, &written) == DASD_PROGRAM_RUNS);
    CHECK(dasd_run_on(&e, 1, 1000, &ran) == 0 && ran.subchannel == DASD_ENDED);
    CHECK(dasd_restore(&e, saved, DASD_SAVED) == DASD_DONE); /* also over an ending that pends */
    save(&e, bytes);
    CHECK(!memcmp(bytes, saved, DASD_SAVED));
    CHECK(dasd_free(&d) == DASD_DONE && dasd_free(&e) == DASD_DONE);
}

/* A channel with so many drives, each at another cylinder, every second one still on its way, is saved and restored. */
static void drives_at_cylinders(uint16_t count) {
    uint8_t saved[DASD_SAVED], again[DASD_SAVED];
    dasd d = DASD_NOTHING, e = DASD_NOTHING;
    CHECK(dasd_new(&d, SIZE, DASD_CHANNEL(1)) == DASD_DONE && dasd_new(&e, SIZE, DASD_CHANNEL(1)) == DASD_DONE);
    store(&d, 0x48, "00000100");
    store(&d, 0x100, "07000200 20000006");
    for (uint16_t address = 0x190; address < 0x190 + count; address++) {
        const uint8_t seek[6] = {0, 0, 0, (uint8_t)(address - 0x18F), 0, (uint8_t)(address & 7)};
        dasd_run ran;
        uint16_t from = 0;
        CHECK(dasd_attach_new(&d, address, 2311, 9) == DASD_DONE &&
              dasd_attach_new(&e, (uint16_t)(0x31F + count - address), 2311, 9) == DASD_DONE);
        CHECK(dasd_poke(&d, 0x200, seek, sizeof seek) == DASD_DONE && dasd_sio(&d, address) == 0);
        CHECK(dasd_run_on(&d, 1, 1000, &ran) == DASD_DONE && dasd_interrupt(&d, 0xFE, &from) == 1 && from == address);
        if (address & 1) CHECK(dasd_arrive(&d, address) == 1 && dasd_interrupt(&d, 0xFE, &from) == 1);
    }
    dasd_state shown = {0};
    CHECK(dasd_show_channel(&d, 1, &shown) == DASD_DONE && shown.drives == count);
    for (int i = 0; i < count; i++) CHECK(shown.units[i] == 0x90 + i && shown.arms[i] == !(i & 1));
    save(&d, saved);
    CHECK(dasd_restore(&e, saved, DASD_SAVED) == DASD_DONE);
    save(&e, again);
    for (uint16_t address = 0x190; address < 0x190 + count; address++) {
        dasd_drive one = {0}, other = {0};
        CHECK(dasd_show_drive(&d, address, &one) == DASD_DONE && dasd_show_drive(&e, address, &other) == DASD_DONE);
        CHECK(one.cylinder == address - 0x18F && one.arm == !(address & 1) && !memcmp(&one, &other, sizeof one));
    }
    CHECK(dasd_restore(&d, again, DASD_SAVED) == DASD_DONE);
    save(&d, again);
    CHECK(!memcmp(saved, again, DASD_SAVED));
    CHECK(dasd_free(&d) == DASD_DONE && dasd_free(&e) == DASD_DONE);
}

/* A channel without drives is saved and restored, and not where it has a drive. */
static void no_drives(void) {
    uint8_t saved[DASD_SAVED];
    dasd d = DASD_NOTHING, e = DASD_NOTHING;
    CHECK(dasd_new(&d, SIZE, both) == DASD_DONE && dasd_new(&e, SIZE, both) == DASD_DONE);
    CHECK(dasd_attach_new(&d, 0x190, 2311, 1) == DASD_DONE && dasd_attach_new(&e, 0x190, 2311, 1) == DASD_DONE);
    save(&d, saved);
    CHECK(dasd_restore(&e, saved, DASD_SAVED) == DASD_DONE && dasd_attach_new(&e, 0x290, 2311, 1) == DASD_DONE);
    is_refused(&e, saved, DASD_SAVED, DASD_OTHER_DRIVES);
    CHECK(dasd_free(&d) == DASD_DONE && dasd_free(&e) == DASD_DONE);
}

int main(void) {
    goes_on();
    changed_bytes();
    other_handles();
    for (uint16_t count = 1; count <= 8; count++) drives_at_cylinders(count);
    no_drives();
    if (failures) return 1;
    puts("states: all as they were saved");
    return 0;
}
