/* little_channel.c - a channel of one's own over a drive alone: it fetches command words from a table, plays them at the drive, and tells
 * how the program ended. It has command chaining and data chaining, Transfer in Channel, the flags SLI and Skip, incorrect length, and the
 * skip of a word where a search is satisfied (IBM System/360 Principles of Operation, A22-6821, 'Channel Command Word'). An emulator's own
 * channel fetches its words from main storage, checks addresses and keys, and takes its time over each byte; what it asks of the drive is
 * the same. */
#include <stdio.h>

#include "dasd_drive.h"

enum { CHAIN_DATA = 0x80, CHAIN_COMMAND = 0x40, SUPPRESS_LENGTH = 0x20, SKIP = 0x10 };
enum { STATUS_MODIFIER = 0x40, CHANNEL_END = 0x08, DEVICE_END = 0x04, UNIT_CHECK = 0x02, UNIT_EXCEPTION = 0x01 };
enum { INCORRECT_LENGTH = 0x40, PROGRAM_CHECK = 0x20 };
enum { TRANSFER_IN_CHANNEL = 0x08 };

/* A channel command word. `data` is what its address leads to; a Transfer in Channel goes to the word with the number `count`. */
typedef struct word {
    uint8_t code, flags;
    uint8_t *data;
    size_t count;
} word;

/* A table of words. Behind its end stand words of no bytes, which no channel takes. */
typedef struct program {
    const word *words;
    size_t count;
} program;

static word word_at(const program *p, size_t at) { return at < p->count ? p->words[at] : (word){0, 0, NULL, 0}; }

/* What a channel status word tells: both status bytes, the number of the last word, and the count that is left of it. */
typedef struct ending {
    uint8_t unit, channel;
    size_t at, left;
} ending;

/* Moves bytes between the drive and the data of a word: no more than it has room for, and than the drive allows. */
static void move(dasd_drive_alone *d, int32_t phase, word *w, size_t allowed) {
    uint8_t skipped[256];
    size_t len = allowed < w->count ? allowed : w->count;
    w->count -= len;
    if (phase == DASD_DRIVE_GIVES && w->flags & SKIP) {
        for (size_t part; len > 0; len -= part) dasd_drive_give(d, skipped, part = len < sizeof skipped ? len : sizeof skipped);
        return;
    }
    if (phase == DASD_DRIVE_GIVES) dasd_drive_give(d, w->data, len);
    else dasd_drive_take(d, w->data, len);
    w->data += len;
}

/* Does what the drive wants next, until the command may end: it is over, no byte is left of its area, or none of its words. Answers how many
 * bytes were left on either side: where some are, the lengths differ. */
static size_t pass(dasd_drive_alone *d, const program *p, size_t *at, word *w) {
    dasd_drive_next_bytes next;
    for (;;) {
        int32_t phase = dasd_drive_next(d, &next);
        if (phase == DASD_DRIVE_OVER) return w->count;
        if (phase == DASD_DRIVE_LOOKING) { /* in time: what is left of a turn */
            dasd_drive_look(d);
            continue;
        }
        if (next.left == 0) { /* once more: key and data may come behind a count */
            dasd_drive_look(d);
            dasd_drive_next(d, &next);
        }
        if (next.left > 0 && w->count == 0 && w->flags & CHAIN_DATA) *w = word_at(p, ++*at);
        if (next.left == 0 || w->count == 0) return next.left + w->count;
        move(d, phase, w, next.left);
    }
}

/* Plays one command, and tells how it ended. */
static ending command(dasd_drive_alone *d, const program *p, size_t at) {
    word w = word_at(p, at);
    size_t unmoved = 0;
    int32_t begun = dasd_drive_begin(d, w.code);
    if (begun == DASD_DRIVE_STARTED) unmoved = pass(d, p, &at, &w);
    ending e = {UNIT_CHECK, 0, at, w.count};
    if (begun != DASD_DRIVE_REJECTED) e.unit = (uint8_t)dasd_drive_end(d);
    if (unmoved > 0 && !(w.flags & SUPPRESS_LENGTH) && !(e.unit & UNIT_CHECK)) e.channel = INCORRECT_LENGTH;
    return e;
}

/* Plays a program from its first word on. A word of no bytes is a program check; so is one more than a thousand words. */
static ending play(dasd_drive_alone *d, const program *p) {
    size_t at = 0;
    dasd_drive_begin_program(d);
    for (int fetched = 0; fetched < 1000; fetched++) {
        word w = word_at(p, at);
        if (w.code == TRANSFER_IN_CHANNEL) {
            at = w.count;
            continue;
        }
        if (w.count == 0) break;
        ending e = command(d, p, at);
        if (!(word_at(p, e.at).flags & CHAIN_COMMAND) || e.channel || e.unit & (UNIT_CHECK | UNIT_EXCEPTION)) return e;
        /* where the arm moves, the next command waits for device end; here no time passes */
        at = e.at + (e.unit & STATUS_MODIFIER ? 2 : 1);
    }
    return (ending){CHANNEL_END | DEVICE_END, PROGRAM_CHECK, at, 0};
}

#define PROGRAM(table) (&(program){table, sizeof(table) / sizeof *(table)})

static void tell(const char *what, ending e) { printf("%s: unit %02X channel %02X word %zu left %zu\n", what, e.unit, e.channel, e.at, e.left); }

int main(void) {
    uint8_t seek[] = {0, 0, 0, 1, 0, 2}, mask = 0xC0, identifiers[] = {0, 1, 0, 2, 0, 0, 1, 0, 2, 1, 0, 1, 0, 2, 9};
    uint8_t count[] = {0, 1, 0, 2, 1, 0, 0, 4}, data[] = {0xC4, 0xC1, 0xE2, 0xC4}, read[4] = {0}, sense[2] = {0};
    const word write[] = {{0x07, CHAIN_COMMAND, seek, 6}, {0x1F, CHAIN_COMMAND, &mask, 1},         {0x31, CHAIN_COMMAND, identifiers, 5},
                          {TRANSFER_IN_CHANNEL, 0, 0, 2}, {0x1D, CHAIN_DATA, count, sizeof count}, {0, 0, data, sizeof data}};
    const word find[] = {{0x31, CHAIN_COMMAND, identifiers + 5, 5}, {TRANSFER_IN_CHANNEL, 0, 0, 0}, {0x06, 0, read, sizeof read}};
    const word miss[] = {{0x31, CHAIN_COMMAND, identifiers + 10, 5}, {TRANSFER_IN_CHANNEL, 0, 0, 0}, {0x06, 0, read, sizeof read}};
    const word ask[] = {{0x04, SUPPRESS_LENGTH, sense, sizeof sense}};
    dasd_drive_alone d = DASD_DRIVE_NOTHING;
    dasd_file file;

    if (dasd_drive_attach_new(&d, 2311, 2) < 0) return 1;
    tell("write", play(&d, PROGRAM(write)));
    tell("find", play(&d, PROGRAM(find)));
    printf("read %02X%02X%02X%02X\n", read[0], read[1], read[2], read[3]);
    tell("miss", play(&d, PROGRAM(miss)));
    tell("ask", play(&d, PROGRAM(ask)));
    printf("sense %02X%02X\n", sense[0], sense[1]);
    if (dasd_drive_settle(&d) == 0 && dasd_drive_show_file(&d, &file) == 0) printf("saved: %zu bytes\n", file.len);
    dasd_drive_free(&d);
    return 0;
}
