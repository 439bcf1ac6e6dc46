/* emulator.c - parts of the emulator of c/examples that its guests do not come by: an arm that moves as a program is loaded, a drive that
 * became ready and is tested or started, and what is said of a file that is none. */
#include <errno.h>
#include <string.h>

#include "../examples/s360.h"
#include "tests.h"

enum { DRIVE = 0x190 };

/* Two channels, and a drive with 30 cylinders. */
static void make(machine *m) {
    memset(m, 0, sizeof *m);
    if (open_storage(m, NULL) || dasd_attach_new(&m->d, DRIVE, 2314, 30) != DASD_DONE) abort();
    m->units_a_tick = 3;
    m->console.paper = stdout;
    m->amwp = 2; /* the processor waits, open for channel 1 */
    m->mask = DASD_CHANNEL(1);
    arm_of_drive(m, DRIVE);
}

/* Sends the arm to a cylinder: the tick at which it has started. */
static uint64_t seek(machine *m, uint8_t cylinder) {
    const uint8_t seek[8] = {7, 0, 2, 0, 0x20, 0, 0, 6}, where[6] = {0, 0, 0, cylinder, 0, 0};
    memcpy(m->storage + 0x100, seek, sizeof seek);
    memcpy(m->storage + 0x200, where, sizeof where);
    put_word(m->storage + CAW, 0x100);
    CHECK(start_io(m, DRIVE) == 0);
    while (m->works) CHECK(step(m));
    return m->clock;
}

/* How many ticks a seek takes, which is waited for. */
static uint64_t ticks_of_seek(machine *m, uint8_t cylinder) {
    uint64_t begins = seek(m, cylinder), ticks = next_event(m) - begins;
    put_word(m->storage + IO_NEW, 0x40020000); /* goes on waiting */
    while (m->arms[0].moves) CHECK(step(m));
    CHECK(take_interruption(m) && m->storage[CSW + 4] == 0x04 && m->clock == begins + ticks);
    return ticks;
}

static void arms_move_by_distance(void) {
    static machine m;
    make(&m);
    CHECK(ticks_of_seek(&m, 1) == 2500 && ticks_of_seek(&m, 21) == 2500 + 54 * 19);
    CHECK(ticks_of_seek(&m, 20) == 2500);
    seek(&m, 20); /* where it is: it arrives at once */
    CHECK(!m.arms[0].moves && dasd_is_pending(&m.d, 0xFE) == 1);
    CHECK(close_storage(&m) == 0);
}

/* A load that comes while an arm moves puts it at rest: the next seek takes its own time, and not what was left of the other's. */
static void an_arm_stops_at_a_load(void) {
    static machine m;
    make(&m);
    seek(&m, 10);
    CHECK(m.arms[0].moves);
    CHECK(load(&m, DRIVE) != 0 && !m.arms[0].moves && next_event(&m) == NEVER); /* no program is there, but the arm is at cylinder 0 */
    reset(&m);
    m.amwp = 2;
    m.mask = DASD_CHANNEL(1);
    CHECK(m.arms[0].cylinder == 0 && ticks_of_seek(&m, 29) == 2500 + 54 * 28);
    CHECK(close_storage(&m) == 0);
}

/* A drive that became ready tells it once: to an interruption, to Test I/O, or to Start I/O, which it is busy for. */
static void ready_is_told_once(void) {
    static machine m;
    make(&m);
    put_word(m.storage + CAW, 0x100);
    memset(m.storage + CSW, 0xFF, 8);
    m.ready = DRIVE;
    CHECK(start_io(&m, DRIVE) == 1 && !m.ready && word_at(m.storage + CSW) == 0xFFFFFFFF && word_at(m.storage + CSW + 4) == 0x1400FFFF);
    m.ready = DRIVE;
    CHECK(test_io(&m, 0x191) == 3 && m.ready && test_io(&m, DRIVE) == 1 && !m.ready && test_io(&m, DRIVE) == 0);
    CHECK(word_at(m.storage + CSW) == 0 && word_at(m.storage + CSW + 4) == 0x04000000);
    m.ready = DRIVE;
    m.mask = DASD_CHANNEL(2); /* closed for channel 1: it stays */
    take_interruption(&m);
    CHECK(m.ready == DRIVE && m.code == 0);
    m.mask = DASD_CHANNEL(1);
    take_interruption(&m);
    CHECK(!m.ready && m.storage[IO_OLD + 2] == 1 && m.storage[IO_OLD + 3] == 0x90);
    CHECK(close_storage(&m) == 0);
}

/* The system has a text for each reason for which a file is not read. */
static void a_reason_is_given(void) {
    size_t len;
    errno = 0;
    CHECK(!read_file("/", &len) && errno == EISDIR);
    errno = 0;
    CHECK(!read_file("/dev/null", &len) && errno == EINVAL);
    errno = 0;
    CHECK(!read_file("/nothing/there", &len) && errno == ENOENT);
}

int main(void) {
    arms_move_by_distance();
    an_arm_stops_at_a_load();
    ready_is_told_once();
    a_reason_is_given();
    if (!failures) printf("emulator: all is as it must be\n");
    return failures != 0;
}
