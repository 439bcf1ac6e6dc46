/* watched.c - a channel program is shown while it runs, between any two of its units, with what its drive remembers. What is wanted was
 * worked out by hand: a unit is a word that is fetched, an index that passes, a byte that moves, or an end; Start I/O does the first one;
 * and an area has passed when the command that found it ends. */
#include <stdint.h>
#include <string.h>

#include "../dasd.h"
#include "storage.h"
#include "tests.h"

/* Search ID Equal for record 0, Transfer In Channel back to it, and Read Data of three of the eight bytes of record 0. */
static const char words[] = "31000200 40000005 08000100 00000000 06000210 20000003";

enum { SEARCH = 0x100, READ = 0x110 };

/* What is wanted behind so many units, beside the first. */
typedef struct row {
    uint32_t units;
    uint8_t phase;
    uint32_t last, next, place;
    uint16_t left;
    uint8_t area, credit;
} row;

static const row rows[] = {
    {0, DASD_LOOKS, SEARCH, 0x108, 0x200, 5, DASD_INDEX, DASD_NO_CREDIT},
    {1, DASD_MOVES, SEARCH, 0x108, 0x201, 4, DASD_INDEX, DASD_NO_CREDIT},
    {5, DASD_MOVES, SEARCH, 0x108, 0x205, 0, DASD_INDEX, DASD_NO_CREDIT},
    {6, DASD_FETCHES, SEARCH, READ, 0, 0, DASD_COUNT, DASD_EQUAL_ID}, /* the word behind the transfer is next: the record was equal */
    {7, DASD_LOOKS, READ, 0x118, 0x210, 3, DASD_COUNT, DASD_NO_CREDIT},
    {8, DASD_MOVES, READ, 0x118, 0x211, 2, DASD_COUNT, DASD_NO_CREDIT},
    {10, DASD_MOVES, READ, 0x118, 0x213, 0, DASD_COUNT, DASD_NO_CREDIT},
};

/* Where a word is to be fetched its fields are zeros; else they are those of the word at work. */
static int shows_word(const dasd_program *p) {
    if (p->phase == DASD_FETCHES) return p->code == 0 && p->flags == 0 && p->address == 0 && p->count == 0;
    if (p->last == SEARCH) return p->code == 0x31 && p->flags == 0x40 && p->address == 0x200 && p->count == 5;
    return p->code == 0x06 && p->flags == 0x20 && p->address == 0x210 && p->count == 3;
}

static void is_as_wanted(dasd *d, const row *want) {
    dasd_program p;
    dasd_registers r;
    memset(&p, 0xFF, sizeof p);
    memset(&r, 0xFF, sizeof r);
    CHECK(dasd_show_program(d, 1, &p) == DASD_DONE && dasd_show_registers(d, 1, &r) == DASD_DONE);
    CHECK(p.device == 0x90 && p.key == 0 && p.asked == 0 && p.phase == want->phase);
    CHECK(p.last == want->last && p.next == want->next && p.place == want->place && p.left == want->left);
    CHECK(shows_word(&p) && p.reserved[0] == 0 && p.reserved[1] == 0);
    CHECK(r.area == want->area && r.passed == 0 && r.credit == want->credit && r.credited == 0);
    CHECK(r.cylinder == 0 && r.head == 0 && r.lap == 0 && r.mask == 0 && r.mask_set == 0);
    CHECK(memcmp(r.sense, "\0\0\0\0\0\0", sizeof r.sense) == 0 && r.reserved[0] == 0 && r.reserved[1] == 0 && r.reserved[2] == 0);
}

/* Nothing is shown of a channel that runs no program, or of none, and what stood there stays. */
static void nothing_is_shown(dasd *d, uint8_t channel, int32_t fault) {
    dasd_program p, before_p;
    dasd_registers r, before_r;
    memset(&p, 0x5A, sizeof p);
    memset(&r, 0x5A, sizeof r);
    before_p = p;
    before_r = r;
    CHECK(dasd_show_program(d, channel, &p) == fault && memcmp(&p, &before_p, sizeof p) == 0);
    CHECK(dasd_show_registers(d, channel, &r) == fault && r.passed == before_r.passed && r.credited == before_r.credited);
    CHECK(r.cylinder == before_r.cylinder && r.head == before_r.head && memcmp(r.sense, before_r.sense, sizeof r.sense) == 0);
    CHECK(r.area == before_r.area && r.lap == before_r.lap && r.mask == before_r.mask && r.credit == before_r.credit);
}

static void started(dasd *d) {
    CHECK(dasd_new(d, 65536, DASD_CHANNEL(1) | DASD_CHANNEL(2)) == DASD_DONE && dasd_attach_new(d, 0x190, 2311, 1) == DASD_DONE);
    store(d, 0x48, "00000100");
    store(d, 0x100, words);
    store(d, 0x200, "0000000000");
    nothing_is_shown(d, 1, DASD_NO_PROGRAM);
    CHECK(dasd_sio(d, 0x190) == 0);
}

int main(void) {
    dasd d = DASD_NOTHING;
    uint32_t units = 0, done;
    nothing_is_shown(&d, 1, DASD_NOTHING_HELD);
    started(&d);
    for (size_t i = 0; i < sizeof rows / sizeof *rows; i++) {
        CHECK(dasd_step(&d, 1, rows[i].units - units, &done) == DASD_DONE && done == rows[i].units - units);
        units = rows[i].units;
        is_as_wanted(&d, &rows[i]);
        nothing_is_shown(&d, 2, DASD_NO_PROGRAM); /* the other channel runs none */
        nothing_is_shown(&d, 3, DASD_NO_CHANNEL);
    }
    CHECK(dasd_step(&d, 1, 5, &done) == DASD_DONE && done == 1);
    nothing_is_shown(&d, 1, DASD_NO_PROGRAM);
    CHECK(dasd_free(&d) == DASD_DONE);
    if (failures == 0) puts("watched.c: all checks passed");
    return failures != 0;
}
