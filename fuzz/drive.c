/* drive.c - any calls of a drive alone, over a volume of any bytes: none ends the process or reaches beside a block, what is refused changes
 * nothing, and in the end all memory is free. */
#include "dasd_drive.h"
#include "fuzz.h"

#include <string.h>

enum { MOST_CALLS = 3000, MOST_LOOKS = 100000 };

typedef struct drives {
    dasd_drive_alone one, other;
} drives;

/* A volume with some of its bytes changed, attached; or a new one. */
static void attach(drives *of, input *in) {
    dasd_file shown;
    unsigned how = take8(in);
    if (dasd_drive_attach_new(&of->one, 2311, 1) < 0 || (how & 2)) return;
    must(dasd_drive_show_file(&of->one, &shown) == 0, "a volume is shown");
    size_t size = shown.len;
    uint8_t *file = guarded_take(size, 1);
    memcpy(file, shown.at, size);
    for (unsigned i = take8(in) & 31; i > 0; i--) {
        size_t at = take16(in);
        file[(at & 0x8000 ? 512 + (at & 0xFFF) : at) % size] = take8(in);
    }
    dasd_drive_free(&of->one);
    if (dasd_drive_attach(&of->one, file, how & 1 ? size - take8(in) : size) < 0) dasd_drive_attach_new(&of->one, 2311, 2);
    guarded_free(file);
}

/* Bytes of a record go from the drive or to it, so many as the call says. */
static void move(drives *of, input *in, unsigned op, int is_given) {
    size_t size = op & 0x80 ? take16(in) : op >> 4;
    uint8_t *bytes = guarded_take(size, 1);
    memset(bytes, 0xA5, size);
    for (size_t i = 0; i < size && i < 12 && !is_given; i++) bytes[i] = take8(in);
    int32_t answer = is_given ? dasd_drive_give(&of->one, bytes, size) : dasd_drive_take(&of->one, bytes, size);
    for (size_t i = 0; i < size && answer < 0 && is_given; i++) must(bytes[i] == 0xA5, "a refused call gives nothing");
    guarded_free(bytes);
}

/* The command goes on as its phase asks. */
static void go_on(drives *of, input *in) {
    dasd_drive_next_bytes next;
    int32_t phase;
    for (int looks = 0; (phase = dasd_drive_next(&of->one, &next)) == DASD_DRIVE_LOOKING; looks++) {
        must(looks < MOST_LOOKS, "a command looks no longer");
        dasd_drive_look(&of->one);
    }
    if (phase < DASD_DRIVE_GIVES || next.left == 0) return;
    uint8_t *bytes = guarded_take(next.left, 1);
    for (size_t i = 0; i < next.left; i++) bytes[i] = i < 8 ? take8(in) : (uint8_t)i;
    must((phase == DASD_DRIVE_GIVES ? dasd_drive_give(&of->one, bytes, next.left) : dasd_drive_take(&of->one, bytes, next.left)) >= 0,
         "what is asked for is taken");
    guarded_free(bytes);
}

static void copy(drives *of, unsigned op) {
    dasd_drive_free(&of->other);
    if (dasd_drive_copy(&of->one, &of->other) < 0 || !(op & 16)) return;
    dasd_drive_alone kept = of->one;
    of->one = of->other;
    of->other = kept;
}

static void give_back(drives *of, unsigned op) {
    dasd_file shown = {0};
    size_t size = dasd_drive_show_file(&of->one, &shown) == 0 ? shown.len - (op >> 4) : 0;
    uint8_t *file = guarded_take(size, 1);
    if (file == NULL) return;
    if (dasd_drive_give_back(&of->one, file, size) == 0) dasd_drive_attach(&of->one, file, size);
    guarded_free(file);
}

static void call(drives *of, input *in) {
    dasd_drive_seen seen;
    unsigned op = take8(in);
    switch (op & 15) {
    case 0: dasd_drive_begin_program(&of->one); break;
    case 1:
    case 2: dasd_drive_begin(&of->one, take8(in)); break;
    case 3: dasd_drive_look(&of->one); break;
    case 4: move(of, in, op, 1); break;
    case 5: move(of, in, op, 0); break;
    case 6: must(dasd_drive_end(&of->one) <= 255, "the status is a byte"); break;
    case 7: dasd_drive_settle(&of->one); break;
    case 8: must(dasd_drive_show(&of->one, &seen) < 0 || seen.cylinder < seen.cylinders, "the arm is on the volume"); break;
    case 9: dasd_drive_clear_sense(&of->one); break;
    case 10: copy(of, op); break;
    case 11: give_back(of, op); break;
    default: go_on(of, in);
    }
}

int LLVMFuzzerTestOneInput(const uint8_t *data, size_t size) {
    input in = {data, size};
    drives of = {DASD_DRIVE_NOTHING, DASD_DRIVE_NOTHING};
    attach(&of, &in);
    for (int calls = 0; in.left && calls < MOST_CALLS; calls++) call(&of, &in);
    dasd_drive_free(&of.one);
    dasd_drive_free(&of.other);
    must(heap_live == 0, "all memory is free");
    return 0;
}
