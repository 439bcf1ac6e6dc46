/* suspend.c - the whole machine is saved in a file, and made anew from that in another process, on another day.
 *
 * The library saves what its channels are between two programs (dasd_save). All else is the emulator's to keep beside that: main storage with
 * its keys, registers, the clock and what it waits for, the console, the operator, and which packs there are. So the machine goes on until no
 * channel program runs, instruction by instruction: one that a guest extends as it runs, or halts, comes to the end that it would have come
 * to. Packs stay files of their own, which are brought up to date first. The file has the name of each, and a checksum: a pack that was changed
 * since is not taken for what it was.
 *
 * Its form, all numbers big-endian; each field stands below, in the functions from `processor` to `packs`:
 *
 *     0 to 7           S360SAVE, in ASCII
 *     8 to 15          the version, 1, and how many bytes the file has
 *     16 to 553        what dasd_save wrote
 *     554 to 66089     main storage
 *     from 66090 on    keys and processor, console, operator, arms, packs
 *     the last four    a checksum of all before: Adler-32 (RFC 1950), which no change of one byte leaves as it was */
#include <errno.h>
#include <stdlib.h>
#include <string.h>

#include "s360.h"

static const uint8_t MARK[8] = {'S', '3', '6', '0', 'S', 'A', 'V', 'E'};
enum { VERSION = 1, HEAD = 16, SUM = 4, STORAGE_AT = HEAD + DASD_SAVED, FIELDS_AT = STORAGE_AT + STORAGE };
enum { MOST_FIELDS = 1024 + MOST_VOLUMES * (MOST_PATH + 32), MOST_BYTES = FIELDS_AT + MOST_FIELDS + SUM };

/* For how long the machine goes on until no channel program runs: ten seconds of its clock. */
enum { MOST_TICKS_TO_REST = 1000000 };

/* Adler-32. So many bytes come between two divisions as leave both sums below 2^32. */
static uint32_t checksum(const uint8_t *bytes, size_t len) {
    uint32_t low = 1, high = 0;
    while (len) {
        const size_t n = len < 5552 ? len : 5552;
        for (size_t i = 0; i < n; i++) high += low += bytes[i];
        bytes += n;
        len -= n;
        low %= 65521;
        high %= 65521;
    }
    return high << 16 | low;
}

/* --- The fields. They stand here once: a cursor goes over them to write them or to read them --- */

typedef struct cursor {
    uint8_t *at;
    const uint8_t *end;
    int writes;
    int is_bad; /* a field is not there, or can't be so */
} cursor;

static void bytes(cursor *c, void *held, size_t n) {
    if ((size_t)(c->end - c->at) < n) c->is_bad = 1;
    if (c->is_bad) return;
    if (c->writes) memcpy(c->at, held, n);
    else memcpy(held, c->at, n);
    c->at += n;
}

/* A number of so many bytes: what it was, or what is read for it. */
static uint64_t number(cursor *c, uint64_t value, size_t n) {
    uint8_t digits[8];
    for (size_t i = 0; i < n; i++) digits[i] = (uint8_t)(value >> 8 * (n - 1 - i));
    bytes(c, digits, n);
    value = 0;
    for (size_t i = 0; i < n; i++) value = value << 8 | digits[i];
    return value;
}

static uint8_t byte(cursor *c, uint8_t value) { return (uint8_t)number(c, value, 1); }
static uint16_t half(cursor *c, uint16_t value) { return (uint16_t)number(c, value, 2); }
static uint32_t word(cursor *c, uint32_t value) { return (uint32_t)number(c, value, 4); }

static void processor(cursor *c, machine *m) {
    bytes(c, m->keys, sizeof m->keys);
    for (int i = 0; i < 16; i++) m->r[i] = word(c, m->r[i]);
    m->mask = byte(c, m->mask);
    m->key = byte(c, m->key);
    m->amwp = byte(c, m->amwp);
    m->code = half(c, m->code);
    m->length = byte(c, m->length);
    m->cc = byte(c, m->cc);
    m->program_mask = byte(c, m->program_mask);
    m->at = word(c, m->at);
    m->clock = number(c, m->clock, 8);
    m->units_a_tick = byte(c, m->units_a_tick);
    m->ready = half(c, m->ready);
}

static void typewriter(cursor *c, console *it) {
    bytes(c, it->line, sizeof it->line);
    it->is_busy = byte(c, (uint8_t)it->is_busy);
    it->pends = byte(c, (uint8_t)it->pends);
    it->ready = number(c, it->ready, 8);
    bytes(c, it->csw, sizeof it->csw);
}

static void operator_at_work(cursor *c, machine *m) {
    m->wanted_at = half(c, m->wanted_at);
    bytes(c, m->wanted, sizeof m->wanted);
    m->done = number(c, m->done, 8);
}

static void arms(cursor *c, machine *m) {
    m->arm_count = byte(c, (uint8_t)m->arm_count);
    if (m->arm_count > MOST_DRIVES) c->is_bad = 1;
    for (int i = 0; i < m->arm_count && !c->is_bad; i++) {
        arm *a = &m->arms[i];
        a->address = half(c, a->address);
        a->cylinder = half(c, a->cylinder);
        a->moves = byte(c, (uint8_t)a->moves);
        a->arrives = number(c, a->arrives, 8);
    }
}

static void packs(cursor *c, machine *m) {
    m->volume_count = byte(c, (uint8_t)m->volume_count);
    if (m->volume_count > MOST_VOLUMES) c->is_bad = 1;
    for (int i = 0; i < m->volume_count && !c->is_bad; i++) {
        volume *v = &m->volumes[i];
        v->address = half(c, v->address);
        bytes(c, v->serial, sizeof v->serial);
        size_t len = half(c, (uint16_t)strlen(v->path));
        if (len >= sizeof v->path) c->is_bad = 1;
        else {
            bytes(c, v->path, len);
            v->path[len] = '\0';
        }
        v->len = number(c, v->len, 8);
        v->sum = word(c, v->sum);
    }
}

static void fields(cursor *c, machine *m) {
    processor(c, m);
    typewriter(c, &m->console);
    operator_at_work(c, m);
    arms(c, m);
    packs(c, m);
}

/* --- Saving --- */

static const char *come_to_rest(machine *m) {
    const uint64_t latest = m->clock + MOST_TICKS_TO_REST;
    while (m->works) {
        if (m->clock >= latest) return "a channel program runs on and on";
        if (!step(m)) return "the program has ended";
    }
    return NULL;
}

/* What is kept elsewhere than in the fields: keys in the library, checksums of files. */
static int look_at_keys_and_packs(machine *m) {
    for (uint32_t i = 0; i < BLOCKS; i++) m->keys[i] = (uint8_t)storage_key_of(m, i * BLOCK);
    for (int i = 0; i < m->volume_count; i++) {
        volume *v = &m->volumes[i];
        dasd_file shown = {v->bytes, v->len, 0};
        if (v->address && dasd_show_file(&m->d, v->address, 0, &shown) != DASD_DONE) return -1;
        v->sum = checksum(shown.at, shown.len);
    }
    return 0;
}

/* All of the file in this room; how many bytes it has, or 0. */
static size_t put_all(machine *m, uint8_t *room) {
    size_t saved;
    cursor c = {room + FIELDS_AT, room + MOST_BYTES - SUM, 1, 0};
    if (look_at_keys_and_packs(m) || dasd_save(&m->d, room + HEAD, DASD_SAVED, &saved) != DASD_DONE) return 0;
    memcpy(room + STORAGE_AT, m->storage, STORAGE);
    fields(&c, m);
    if (c.is_bad) return 0;
    const size_t len = (size_t)(c.at - room) + SUM;
    memcpy(room, MARK, sizeof MARK);
    put_word(room + 8, VERSION);
    put_word(room + 12, (uint32_t)len);
    put_word(c.at, checksum(room, len - SUM));
    return len;
}

const char *suspend(machine *m, const char *path) {
    const char *why = come_to_rest(m);
    if (!why && save_volumes(m)) why = "not every volume was saved";
    if (why) return why;
    uint8_t *room = malloc(MOST_BYTES);
    const size_t len = room ? put_all(m, room) : 0;
    if (!room) why = strerror(ENOMEM);
    else if (!len) why = "a channel program runs";
    else if (save_file(path, room, len)) why = strerror(errno);
    free(room);
    return why;
}

/* --- Making a machine of what was saved. The bytes may come from a stranger: each field is looked at before it is used --- */

static const char *why_not(const uint8_t *saved, size_t len) {
    if (len < HEAD || memcmp(saved, MARK, sizeof MARK) != 0) return "not a saved machine";
    if (word_at(saved + 8) != VERSION) return "a machine that was saved by another version";
    if (word_at(saved + 12) != len || len < FIELDS_AT + SUM) return "a saved machine that is cut short, or too long";
    return word_at(saved + len - SUM) == checksum(saved, len - SUM) ? NULL : "a saved machine that was changed: its checksum does not fit";
}

static int is_sound(const machine *m) {
    int ends = memchr(m->console.line, '\0', sizeof m->console.line) && memchr(m->wanted, '\0', sizeof m->wanted);
    for (int i = 0; i < m->volume_count; i++) ends = ends && memchr(m->volumes[i].serial, '\0', sizeof m->volumes[i].serial);
    for (int i = 0; i < m->arm_count; i++) ends = ends && m->arms[i].moves <= 1;
    for (int i = 0; i < BLOCKS; i++) ends = ends && m->keys[i] <= 15;
    return ends && m->console.is_busy <= 1 && m->console.pends <= 1 && m->key <= 15 && m->amwp <= 15 && m->cc <= 3 && m->program_mask <= 15 &&
           m->length <= 6 && m->at <= 0xFFFFFF && m->units_a_tick && m->ready <= 0x6FF && m->wanted_at <= 0xFFF;
}

static int get_fields(machine *m, uint8_t *saved, size_t len) {
    cursor c = {saved + FIELDS_AT, saved + len - SUM, 0, 0};
    fields(&c, m);
    return !c.is_bad && c.at == c.end && is_sound(m) ? 0 : -1;
}

/* The packs come from their files, all to the shelf. */
static const char *get_packs(machine *m, const machine *saved) {
    for (int i = 0; i < saved->volume_count; i++) {
        const volume *was = &saved->volumes[i], *v = read_volume(m, was->path, was->serial);
        if (!v) return "one of its volumes was not read";
        if (v->len == was->len && checksum(v->bytes, v->len) == was->sum) continue;
        if (m->told) fprintf(m->told, "s360: %s: not what it was as the machine was saved\n", v->path);
        return "one of its volumes was changed";
    }
    return NULL;
}

static const char *mount_packs(machine *m, const machine *saved) {
    for (int i = 0; i < saved->volume_count; i++)
        if (saved->volumes[i].address && mount(m, &m->volumes[i], saved->volumes[i].address)) return "one of its volumes was not mounted";
    return NULL;
}

static const char *make_anew(machine *m, uint8_t *saved, size_t len, const char *lent) {
    machine it = {.clock = 0};
    const char *why = why_not(saved, len);
    if (why) return why;
    if (get_fields(&it, saved, len)) return "a saved machine with a field that none has";
    if ((why = get_packs(m, &it))) return why;
    if (open_storage(m, lent)) return strerror(errno);
    if ((why = mount_packs(m, &it))) return why;
    const int32_t code = dasd_restore(&m->d, saved + HEAD, DASD_SAVED);
    if (code != DASD_DONE) return dasd_fault_text(code);
    memcpy(m->storage, saved + STORAGE_AT, STORAGE);
    get_fields(m, saved, len);
    for (uint32_t i = 0; i < BLOCKS; i++) set_storage_key(m, i * BLOCK, m->keys[i]);
    return NULL;
}

const char *resume(machine *m, const char *path, const char *lent) {
    const machine before = *m;
    size_t len = 0;
    uint8_t *saved = read_file(path, &len);
    const char *why = saved ? make_anew(m, saved, len, lent) : strerror(errno);
    free(saved);
    if (!why) return NULL;
    free_volumes(m);
    close_storage(m);
    *m = before;
    return why;
}
