/* searches.c - searches for keys of one to nine bytes and for identifiers, past records that differ from what is searched for in one
 * byte, in each place of it: lower in the first two records, equal in the third, higher from the fourth on. So the component
 * descriptions have it ('Search Key Equal' and its like): equal is found at the third, high at the fourth, equal or high at the third. */
#include <stdint.h>
#include <string.h>

#include "../dasd.h"
#include "tests.h"

enum { RECORDS = 6, EQUAL_AT = 3, LONGEST = 9, IDENTIFIER = 5 };
enum { WRITING = 0x100, SEARCHING = 0x180, ARGUMENT = 0x1C0, FOUND = 0x1E0, FIRST = 0x200, ROOM = 0x20 };

static void word(dasd *d, uint32_t at, uint8_t code, uint32_t address, uint8_t flags, size_t count) {
    const uint8_t made[8] = {code, 0, (uint8_t)(address >> 8), (uint8_t)address, flags, 0, (uint8_t)(count >> 8), (uint8_t)count};
    CHECK(dasd_poke(d, at, made, sizeof made) == DASD_DONE);
}

/* Runs a program in runs of so many units. It has to end by itself, with no other status than channel end and device end. */
static void runs(dasd *d, uint16_t program, uint32_t units) {
    const uint8_t caw[4] = {0, 0, (uint8_t)(program >> 8), (uint8_t)program};
    dasd_run ran = {0};
    uint16_t from = 0;
    uint8_t status[2] = {0};
    CHECK(dasd_poke(d, 0x48, caw, sizeof caw) == DASD_DONE && dasd_sio(d, 0x190) == 0);
    for (int i = 0; i < 1000 && ran.subchannel != DASD_ENDED; i++) CHECK(dasd_run_on(d, 1, units, &ran) == DASD_DONE);
    CHECK(dasd_interrupt(d, 0xFE, &from) == 1 && dasd_peek(d, 0x44, status, sizeof status) == DASD_DONE);
    CHECK(status[0] == 0x0C && status[1] == 0);
}

/* What is searched for, with one byte so much higher. */
static void near_by(uint8_t *made, size_t len, size_t place, int by) {
    for (size_t i = 0; i < len; i++) made[i] = (uint8_t)(0x40 + 16 * i);
    made[place] = (uint8_t)(made[place] + by);
}

/* Writes the records, each with its number as data. With keys their identifiers are as they should be. */
static void write_records(dasd *d, size_t key, size_t place) {
    word(d, WRITING, 0x31, ARGUMENT, 0x40, IDENTIFIER);
    word(d, WRITING + 8, 0x08, WRITING, 0, 1);
    for (uint8_t i = 1; i <= (uint8_t)RECORDS; i++) {
        uint8_t record[8 + LONGEST + 1] = {0, 0, 0, 0, i, (uint8_t)key, 0, 1};
        near_by(key ? record + 8 : record, key ? key : IDENTIFIER, place, i - EQUAL_AT);
        record[8 + key] = i;
        CHECK(dasd_poke(d, (uint32_t)(FIRST + i * ROOM), record, sizeof record) == DASD_DONE);
        word(d, WRITING + 8 + i * 8u, 0x1D, (uint32_t)(FIRST + i * ROOM), i < RECORDS ? 0x40 : 0, 8 + key + 1);
    }
    const uint8_t record_0[IDENTIFIER] = {0};
    CHECK(dasd_poke(d, ARGUMENT, record_0, sizeof record_0) == DASD_DONE);
    runs(d, WRITING, 1000);
}

/* Searches by each command, equal, high, equal or high, from the track's beginning, in runs of one unit and of many. */
static void search(dasd *d, size_t key, size_t place) {
    static const uint8_t codes[2][3] = {{0x31, 0x51, 0x71}, {0x29, 0x49, 0x69}}, found[3] = {EQUAL_AT, EQUAL_AT + 1, EQUAL_AT};
    const size_t len = key ? key : IDENTIFIER;
    uint8_t argument[LONGEST], number = 0;
    near_by(argument, len, place, 0);
    CHECK(dasd_poke(d, ARGUMENT, argument, len) == DASD_DONE);
    for (size_t how = 0; how < 6; how++) {
        word(d, SEARCHING, codes[key > 0][how / 2], ARGUMENT, 0x40, len);
        word(d, SEARCHING + 8, 0x08, SEARCHING, 0, 1);
        word(d, SEARCHING + 16, 0x06, FOUND, 0, 1);
        runs(d, SEARCHING, how % 2 ? 1 : 1000);
        CHECK(dasd_peek(d, FOUND, &number, 1) == DASD_DONE && number == found[how / 2]);
    }
}

int main(void) {
    dasd d = DASD_NOTHING;
    CHECK(dasd_new(&d, 4096, DASD_CHANNEL(1)) == DASD_DONE && dasd_attach_new(&d, 0x190, 2311, 1) == DASD_DONE);
    for (size_t key = 0; key <= LONGEST; key++)
        for (size_t place = 0; place < (key ? key : IDENTIFIER); place++) {
            write_records(&d, key, place);
            search(&d, key, place);
        }
    CHECK(dasd_free(&d) == DASD_DONE);
    if (!failures) printf("searches: each key and identifier is found\n");
    return failures ? EXIT_FAILURE : EXIT_SUCCESS;
}
