/* calls.c - any calls of a subsystem, with main storage of its own or lent, over volumes and programs of any bytes, with memory refused: none
 * ends the process or reaches beside a block, a copy answers as its original, lines of a trace are printable, and in the end all memory is free.
 */
#include "dasd.h"
#include "fuzz.h"

#include <string.h>

enum { MOST_CALLS = 1500, SIZE = 4096, KEYS = SIZE / 2048, MOST_UNITS = 4096, ALL = 0xFE };

static const uint16_t ADDRESSES[] = {0x190, 0x191, 0x192, 0x290, 0x0C0, 0x1FF, 0x700, 0xF190};

/* A subsystem, a copy of it, files that no drive has, and what main storage is lent. */
typedef struct world {
    dasd one, other;
    dasd_files files;
    int is_lent;
    uint8_t *storage, *keys;
    dasd_trace trace;
} world;

static dasd_memory lent_of(const world *w) { return (dasd_memory){w->storage, SIZE, w->keys, KEYS}; }

static uint8_t *storage_of(world *w) {
    dasd_storage shown;
    if (w->is_lent) return w->storage;
    must(dasd_show_storage(&w->one, &shown) == 0 && shown.len == SIZE, "main storage is shown");
    return shown.at;
}

/* A channel program of a few words, most of them sensible, at 100; and the channel address word. */
static void put_program(world *w, input *in) {
    static const uint8_t codes[] = {0x07, 0x0B, 0x1B, 0x1F, 0x31, 0x51, 0x71, 0x29, 0x49, 0x69, 0x39, 0xB1, 0x1A,
                                    0x16, 0x12, 0x0E, 0x06, 0x1E, 0x02, 0x9A, 0x92, 0x8E, 0x86, 0x9E, 0x19, 0x15,
                                    0x1D, 0x0D, 0x05, 0x01, 0x11, 0x08, 0x04, 0x03, 0x13, 0x17, 0x0F};
    uint8_t *at = storage_of(w) + 0x100;
    for (unsigned words = (take8(in) & 7) + 1; words > 0; words--, at += 8) {
        unsigned code = take8(in), flags = take8(in), address = take16(in), count = take8(in);
        at[0] = code < 0xC0 ? codes[code % sizeof codes] : (uint8_t)code;
        at[1] = 0;
        at[2] = at[0] == 0x08 ? 1 : address >> 8 & 15;
        at[3] = (uint8_t)(at[0] == 0x08 ? address & 0xF8 : address);
        at[4] = flags & 0xF8;
        at[5] = 0;
        at[6] = flags & 1 ? (uint8_t)count : 0;
        at[7] = (uint8_t)count;
    }
    memcpy(storage_of(w) + 72, "\0\0\1", 4);
}

static int32_t run(dasd *d, world *w, uint8_t *storage, uint32_t units, dasd_run *ran) {
    dasd_memory lent = lent_of(w);
    lent.bytes = storage;
    memset(ran, 0, sizeof *ran);
    ran->units = units;
    int32_t answer = w->is_lent ? dasd_lent_run_on(d, &lent, 1, ran) : dasd_run_on(d, 1, units, ran);
    must(answer < 0 || ran->units <= units, "no more units are done than were asked for");
    return answer;
}

/* A copy that runs on does what its original does. */
static void copy(world *w) {
    dasd_run ours, theirs;
    dasd_storage shown;
    dasd_free(&w->other);
    if (dasd_copy(&w->one, &w->other) < 0) return;
    heap_refuse_at = 0;
    uint8_t *beside = guarded_take(SIZE, 1);
    memcpy(beside, storage_of(w), SIZE);
    int32_t answer = run(&w->one, w, w->storage, 77, &ours);
    must(run(&w->other, w, beside, 77, &theirs) == answer && memcmp(&ours, &theirs, sizeof ours) == 0, "a copy answers alike");
    if (!w->is_lent && dasd_show_storage(&w->other, &shown) == 0) memcpy(beside, shown.at, SIZE);
    must(memcmp(beside, storage_of(w), SIZE) == 0, "a copy stores alike");
    guarded_free(beside);
}

static void start(world *w, uint16_t address, unsigned op) {
    dasd_memory lent = lent_of(w);
    switch (op & 3) {
    case 0: w->is_lent ? dasd_lent_tio(&w->one, &lent, address) : dasd_tio(&w->one, address); break;
    case 1: w->is_lent ? dasd_lent_hio(&w->one, &lent, address) : dasd_hio(&w->one, address); break;
    default: must((w->is_lent ? dasd_lent_sio(&w->one, &lent, address) : dasd_sio(&w->one, address)) <= 3, "a condition code is from 0 to 3");
    }
}

static void interrupt(world *w) {
    uint16_t from;
    dasd_memory lent = lent_of(w);
    int32_t pends = dasd_is_pending(&w->one, ALL);
    must((w->is_lent ? dasd_lent_interrupt(&w->one, &lent, ALL, &from) : dasd_interrupt(&w->one, ALL, &from)) == pends, "what pends is taken");
}

static void show(world *w, uint16_t address, input *in) {
    dasd_file shown;
    dasd_drive drive;
    dasd_changed track = {0, 0, 0, 0};
    must(dasd_show_drive(&w->one, address, &drive) < 0 || drive.cylinder < drive.cylinders, "the arm is on the volume");
    if (dasd_show_file(&w->one, address, 0, &shown) < 0) return;
    for (uint64_t since = take8(in); dasd_next_changed(&w->one, address, 0, since, &track) == 1;)
        must(track.at + track.len <= shown.len, "a track that changed is within its file");
}

static void trace(world *w, uint16_t address, input *in) {
    dasd_memory lent = lent_of(w);
    dasd_moment moment = {take8(in) % 14, 1, address, take8(in), 0, 0};
    int32_t answer = w->is_lent ? dasd_lent_trace_look(&w->one, &lent, &w->trace, &moment) : dasd_trace_look(&w->one, &w->trace, &moment);
    for (size_t i = 0; answer == 0 && i < w->trace.length; i++)
        must(w->trace.lines[i] == '\n' || (w->trace.lines[i] >= ' ' && w->trace.lines[i] <= '~'), "a trace is printable");
}

/* Files that are filled, and go to a drive and back. */
static void hold(world *w, uint16_t address, input *in) {
    size_t lengths[] = {512 + 10 * 4096, take8(in)};
    dasd_space shown;
    if (w->files.place == NULL && (take8(in) & 1)) {
        dasd_detach_files(&w->one, address, &w->files);
    } else if (w->files.place == NULL) {
        if (dasd_files_new(&w->files, lengths, 1 + (lengths[1] & 1)) < 0 || dasd_files_show(&w->files, 0, &shown) < 0) return;
        for (unsigned i = take8(in); i > 0; i--) {
            size_t at = take16(in) % shown.len;
            shown.at[at] = take8(in);
        }
    } else if (dasd_attach_files(&w->one, address, &w->files) < 0) {
        dasd_files_free(&w->files);
    }
}

static void call(world *w, input *in) {
    dasd_track track;
    dasd_run ran;
    unsigned op = take8(in);
    uint16_t address = ADDRESSES[op >> 5];
    switch (op & 15) {
    case 0: put_program(w, in); break;
    case 1:
    case 2: start(w, address, take8(in)); break;
    case 3:
    case 4: run(&w->one, w, w->storage, take16(in) % MOST_UNITS, &ran); break;
    case 5: dasd_arrive(&w->one, address); break;
    case 6: interrupt(w); break;
    case 7: must(dasd_reset(&w->one, 1, &track) != 1, "no track is left unsaved in memory"); break;
    case 8: show(w, address, in); break;
    case 9: copy(w); break;
    case 10: dasd_attach_new(&w->one, address, op & 16 ? 2314 : 2311, take8(in) & 3); break;
    case 11: dasd_detach(&w->one, address); break;
    case 12: hold(w, address, in); break;
    case 13: heap_refuse_at = op & 16 ? 1 + (op >> 5) : 0; break;
    case 14: trace(w, address, in); break;
    default: storage_of(w)[take16(in) % SIZE] = take8(in);
    }
}

int LLVMFuzzerTestOneInput(const uint8_t *data, size_t size) {
    input in = {data, size};
    world w = {DASD_NOTHING, DASD_NOTHING, DASD_NO_FILES_HELD, take8(&in) & 1, guarded_take(SIZE, 1), guarded_take(KEYS, 1), {0}};
    w.trace.lines = guarded_take(DASD_TRACE_ROOM, 1);
    w.trace.size = DASD_TRACE_ROOM;
    must((w.is_lent ? dasd_new_lent(&w.one, SIZE, DASD_CHANNEL(1)) : dasd_new(&w.one, SIZE, DASD_CHANNEL(1))) == 0, "a subsystem is made");
    dasd_attach_new(&w.one, 0x190, 2311, 1);
    for (int calls = 0; in.left && calls < MOST_CALLS; calls++) call(&w, &in);
    heap_refuse_at = 0;
    dasd_free(&w.one);
    dasd_free(&w.other);
    dasd_files_free(&w.files);
    guarded_free(w.storage);
    guarded_free(w.keys);
    guarded_free(w.trace.lines);
    must(heap_live == 0, "all memory is free");
    return 0;
}
