/* recording.c - reference and change recording: see recording.h.
 *
 * The library does not say which bytes a unit stored, and the words of a program do: each is visited once, along chains, transfers, and past
 * the words that a satisfied search skips. */
#include "recording.h"

#include "herc.h"

enum { WORD = 8, RUNS = 256, TRANSFER = 8, SENSE = 4, INVALID = 7, FIRST_SEARCH = 0x20 };

/* Words that follow each other: from `from`, up to `to`, which is none of them. */
struct run {
    uint32_t from, to;
    uint8_t code; /* of the command whose data chain the first word belongs to; 0: it begins a command */
};

struct walk {
    struct run runs[RUNS];
    unsigned known;
    size_t size;
    uint32_t low, high; /* what is stored into lies between them */
    uint8_t key;
    struct recorded found;
};

/* Sets bits in the keys of the blocks that some bytes are in: change bits where the program may store. */
static void record(const struct walk *w, uint32_t at, uint32_t len, uint8_t bits) {
    if (at >= w->size || !len) return;
    if (len > w->size - at) len = (uint32_t)w->size - at;
    for (uint32_t block = at >> 11; block <= (at + len - 1) >> 11; block++) {
        uint8_t *key = &sysblk.storkeys[block];
        if (bits == STORKEY_REF || !w->key || *key >> 4 == w->key) *key |= bits;
    }
}

/* The area of a word: a command that reads, or senses, stores there; every other one fetches. */
static void record_area(struct walk *w, uint8_t code, uint8_t flags, uint32_t at, uint16_t count) {
    if (flags & CCW_FLAGS_SKIP) return;
    if ((code & 3) != 2 && (code & 15) != SENSE) {
        record(w, at, count, STORKEY_REF);
        return;
    }
    record(w, at, count, STORKEY_REF | STORKEY_CHANGE);
    if (at < w->low) w->low = at;
    if (at + count > w->high) w->high = at + count;
}

static bool is_known(const struct walk *w, uint32_t at) {
    for (unsigned i = 0; i < w->known; i++)
        if (at >= w->runs[i].from && at < w->runs[i].to) return true;
    return false;
}

/* Another run begins at a word. */
static void begin(struct walk *w, uint32_t at, uint8_t code) {
    if (at % WORD || at >= w->size || is_known(w, at)) return;
    if (w->known < RUNS) w->runs[w->known++] = (struct run){at, at, code};
    else w->found.again = true;
}

/* Visits the words of a run, until its chain ends, they are known, or one is invalid. */
static void visit(struct walk *w, struct run *run) {
    uint8_t code = run->code;
    uint32_t at = run->from;
    while (at + WORD <= w->size && !is_known(w, at)) {
        uint8_t *word = sysblk.mainstor + at;
        uint32_t address = fetch_fw(word) & 0xFFFFFF;
        uint16_t count = fetch_hw(word + 6);
        record(w, at, WORD, STORKEY_REF);
        run->to = at += WORD;
        if ((word[0] & 15) == TRANSFER) {
            begin(w, address, code);
            return;
        }
        if (!code) code = word[0];
        if (word[4] & INVALID || !count || !(code & 15)) return;
        record_area(w, code, word[4], address, count);
        w->found.asks = w->found.asks || word[4] & CCW_FLAGS_PCI;
        if (word[4] & CCW_FLAGS_CD) continue;
        if (!(word[4] & CCW_FLAGS_CC)) return;
        if ((code & 3) == 1 && code >= FIRST_SEARCH) begin(w, at + WORD, 0);
        code = 0;
    }
}

struct recorded record_program(const struct point *from, size_t size) {
    struct walk w;
    w.known = 0;
    w.size = size;
    w.low = UINT32_MAX;
    w.high = 0;
    w.key = from->key;
    w.found = (struct recorded){from->flags & CCW_FLAGS_PCI, false};
    record_area(&w, from->code, from->flags, from->address, from->count);
    begin(&w, from->next, from->flags & CCW_FLAGS_CD ? from->code : 0);
    for (unsigned i = 0; i < w.known; i++) visit(&w, &w.runs[i]);
    for (unsigned i = 0; i < w.known; i++)
        if (w.runs[i].from < w.high && w.runs[i].to + WORD > w.low) w.found.again = true;
    return w.found;
}
