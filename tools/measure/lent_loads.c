/* lent_loads WAY - plays events over main storage that is lent, at an address that a trace of loads is searched for: see lent_loads.py.
 *
 * The events come as lines, each a letter and what it names: N SIZE CHANNEL makes a handle, A UNIT FILE attaches, S ADDRESS DIGITS stores,
 * K ADDRESS KEY sets a key, I, T and H UNIT are Start, Test and Halt I/O, P NUMBER does units, R UNIT arrives, W takes an interruption, and Z
 * resets. WAY is `units`, each by a call of its own, or `whole`. A store into a mark says what begins, or that a call has ended. */
#define _DEFAULT_SOURCE /* NOLINT(bugprone-reserved-identifier): what glibc asks for where MAP_ANONYMOUS is wanted */
#include <stdio.h>
#include <stdlib.h>
#include <string.h>
#include <sys/mman.h>

#include "dasd.h"

enum mark { CALL, UNIT, RUN, END, VECTOR };
enum { MOST = 1 << 24, BLOCK = 2048, LINE = 8192 };
/* NOLINTNEXTLINE(performance-no-int-to-ptr): the trace names addresses, so storage has one that is known */
static uint8_t *const base = (uint8_t *)0x20000000000;
static volatile uint8_t *marks;
static dasd d = DASD_NOTHING;
static dasd_memory memory;
static unsigned channel;
static int by_units;

static void mark(enum mark it) { marks[(size_t)it * 16] = 1; }

/* What the library copies by, a byte at a time: that of the C library loads and stores some bytes of a copy twice, by vectors that overlap. */
void *memcpy(void *restrict to, const void *restrict from, size_t count) {
    volatile uint8_t *into = to;
    const volatile uint8_t *bytes = from;
    for (size_t i = 0; i < count; i++) into[i] = bytes[i];
    return to;
}

void *memmove(void *to, const void *from, size_t count) {
    volatile uint8_t *into = to;
    const volatile uint8_t *bytes = from;
    if (into <= bytes) return memcpy(to, from, count);
    for (size_t i = count; i-- > 0;) into[i] = bytes[i];
    return to;
}

static void make(const char *words) {
    mark(VECTOR);
    unsigned long size = strtoul(words, (char **)&words, 10);
    channel = (unsigned)strtoul(words, NULL, 10);
    dasd_free(&d);
    memory = (dasd_memory){base, size, base + ((size_t)2 << 24), size / BLOCK};
    memset(base, 0, size);
    memset(base + ((size_t)2 << 24), 0, size / BLOCK);
    if (dasd_new_lent(&d, (uint32_t)size, (uint8_t)DASD_CHANNEL(channel)) < 0) exit(2);
}

static void attach(unsigned unit, const char *name) {
    static uint8_t bytes[1 << 24];
    dasd_bytes file = {bytes, 0};
    FILE *f = fopen(name, "rb");
    if (!f) exit(2);
    file.len = fread(bytes, 1, sizeof bytes, f);
    fclose(f);
    if (dasd_attach(&d, (uint16_t)(channel << 8 | unit), &file, 1) < 0) exit(2);
}

static void store(uint32_t at, const char *digits) {
    for (unsigned byte; *digits && sscanf(digits, "%2x", &byte) == 1; digits += 2) base[at++] = (uint8_t)byte;
}

static void step(uint32_t units) {
    mark(RUN);
    while (units) {
        dasd_run ran = {by_units ? 1 : units, 0, 0, 0, 0};
        mark(UNIT);
        dasd_lent_run_on(&d, &memory, (uint8_t)channel, &ran);
        mark(END);
        if (!ran.units) break;
        units -= ran.units;
    }
}

static void instruction(char name, uint16_t address) {
    mark(CALL);
    if (name == 'I') dasd_lent_sio(&d, &memory, address);
    if (name == 'T') dasd_lent_tio(&d, &memory, address);
    if (name == 'H') dasd_lent_hio(&d, &memory, address);
    if (name == 'W') dasd_lent_interrupt(&d, &memory, 0xFE, &address);
    mark(END);
}

static void play(char name, char *words) {
    char *rest = words;
    unsigned long first = strtoul(words, &rest, name == 'P' ? 10 : 16);
    dasd_track lost;
    while (*rest == ' ') rest++;
    switch (name) {
    case 'N': make(words); break;
    case 'A': attach((unsigned)first, rest); break;
    case 'S': store((uint32_t)first, rest); break;
    case 'K': base[((size_t)2 << 24) + first / BLOCK] = (uint8_t)strtoul(rest, NULL, 16); break;
    case 'P': step((uint32_t)first); break;
    case 'R': dasd_arrive(&d, (uint16_t)first); break;
    case 'Z': dasd_reset(&d, (uint8_t)channel, &lost); break;
    default: instruction(name, (uint16_t)first);
    }
}

int main(int argc, char **argv) {
    static char line[LINE];
    size_t room = (size_t)4 << 24;
    by_units = argc > 1 && !strcmp(argv[1], "units");
    if (mmap(base, room, PROT_READ | PROT_WRITE, MAP_PRIVATE | MAP_ANONYMOUS | MAP_FIXED | MAP_NORESERVE, -1, 0) != base) return 2;
    marks = base + ((size_t)3 << 24);
    while (fgets(line, sizeof line, stdin)) {
        line[strcspn(line, "\n")] = 0;
        play(line[0], line + 1);
    }
    dasd_free(&d);
    return 0;
}
