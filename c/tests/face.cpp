// face.cpp - each call of dasd.hpp, who owns what, and what is refused. With `texts` it prints each fault as dasd.h has it. It is linked so
// that calls that take bytes come by here (`--wrap`), where no pointer may be null, even where there are no bytes.
#include "../dasd.hpp"

#include <algorithm>
#include <cstring>
#include <stdexcept>
#include <string>
#include <vector>

#include "tests.h"

using libdasd::Bytes;
using libdasd::Fault;
using libdasd::Files;
using libdasd::HeldFiles;
using libdasd::LentSubsystem;
using libdasd::Memory;
using libdasd::Subsystem;

namespace {

using Octets = std::vector<std::uint8_t>;

static_assert(!std::is_copy_constructible_v<Subsystem> && !std::is_copy_assignable_v<Subsystem>, "no copy");
static_assert(std::is_nothrow_move_constructible_v<Subsystem> && std::is_nothrow_move_assignable_v<Subsystem>, "moves");
static_assert(!std::is_copy_constructible_v<LentSubsystem> && std::is_nothrow_move_constructible_v<LentSubsystem>, "and so is the other");
static_assert(!std::is_constructible_v<Subsystem, LentSubsystem> && !std::is_default_constructible_v<libdasd::Channels>, "each is its own");
static_assert(libdasd::channel_set({}) == 0 && libdasd::channel_set({0, 6, 6}) == 0x82, "sets");
static_assert(libdasd::channel_set({0, 1, 2, 3, 4, 5, 6}) == libdasd::all_channels, "all of them");

constexpr std::uint16_t drive = 0x190;
const Octets read_r0 = {0x16, 0, 2, 0, 0x20, 0, 0, 16};
const Octets seek = {7, 0, 2, 0, 0x20, 0, 0, 6};

// The number with which a call is refused; 0 where it is done.
template <class Call> std::int32_t refused(Call call) {
    try {
        call();
    } catch (const Fault &fault) {
        return fault.code();
    }
    return DASD_DONE;
}

// Channel 1 with a new 2314 at 190, and this program at 100, to which the channel address word leads.
Subsystem made(const Octets &program) {
    Subsystem disks(65536, libdasd::channel_set({1}));
    disks.attach_new(drive, 2314, 2);
    disks.poke(0x48, Octets{0, 0, 1, 0});
    disks.poke(0x100, program);
    return disks;
}

// A copy of the first file of the drive at 190.
Octets image_of(Subsystem &disks) {
    const auto shown = disks.file(drive);
    return Octets(shown.bytes.begin(), shown.bytes.end());
}

void a_record_is_read() {
    Subsystem disks = made(read_r0);
    CHECK(disks.sio(drive) == 0 && disks.sio(drive) == 2 && disks.tio(drive) == 2 && disks.tch(0x100) == 2);
    CHECK(refused([&] { (void)disks.file(drive); }) == DASD_PROGRAM_RUNS && refused([&] { disks.detach(drive); }) == DASD_PROGRAM_RUNS);
    CHECK(disks.step(1, 3) == 3);
    const dasd_run ran = disks.run_on(1, 1000);
    CHECK(ran.units > 0 && ran.units < 1000 && ran.subchannel == DASD_ENDED && ran.device == 0x90 && ran.asked == 0);
    CHECK(disks.is_pending() && !disks.is_pending(libdasd::channel_set({2})) && !disks.interrupt(libdasd::channel_set({2})));
    CHECK(refused([&] { disks.detach(drive); }) == DASD_ENDING_PENDS);
    CHECK(disks.interrupt() == drive && !disks.interrupt());
    Octets found(16);
    disks.peek(0x200, found);
    CHECK((found == Octets{0, 0, 0, 0, 0, 0, 0, 8, 0, 0, 0, 0, 0, 0, 0, 0}) && disks.storage()[68] == 0x0C);
    CHECK(disks.hio(drive) == 1 && disks.sio(0x390) == 3 && disks.step(1, 9) == 0 && !disks.reset(1));
}

void a_program_is_shown_while_it_runs() {
    Subsystem disks = made(read_r0);
    CHECK(!disks.program(1) && !disks.registers(1) && disks.sio(drive) == 0 && disks.step(1, 3) == 3); // three bytes
    const auto program = disks.program(1);
    CHECK(program && program->phase == DASD_MOVES && program->last == 0x100 && program->place == 0x203 && program->left == 13);
    const auto registers = disks.registers(1);
    CHECK(registers && registers->area == DASD_INDEX && registers->passed == 0 && registers->credit == DASD_NO_CREDIT);
    CHECK(refused([&] { (void)disks.program(2); }) == DASD_NO_CHANNEL && refused([&] { (void)disks.registers(2); }) == DASD_NO_CHANNEL);
    (void)disks.run_on(1, 1000);
    CHECK(!disks.program(1) && !disks.registers(1));
}

// A search of record 0 and a read behind it, as they are told; and a copy of a trace and of what it looks at, which go on as they would have.
void a_program_is_traced() {
    const std::string told = R"(SIO 190 CC 0, started
 000100 31 Search ID Equal            5 <000200 0000000000   R0 0000000000 KL 0 DL 8 equal        SM CE DE skips one
        leaves a credit: R0, whose ID was found equal
        takes the credit away: R0, whose ID was found equal
 000110 06 Read Data                  8 >000300 000000000000 R0 0000000000 KL 0 DL 8              CE DE    left 0
)";
    Subsystem disks = made({0x31, 0, 2, 0, 0x40, 0, 0, 5, 8, 0, 1, 0, 0, 0, 0, 0, 6, 0, 3, 0, 0, 0, 0, 8});
    libdasd::Trace trace(1);
    std::string lines(trace.look(disks, DASD_BEFORE_SIO, drive));
    const int started = disks.sio(drive);
    lines += trace.look(disks, DASD_BEHIND_SIO, drive, static_cast<std::uint32_t>(started));
    for (int i = 0; i < 3 && disks.step(1, 1) == 1; i++) lines += trace.look(disks, DASD_BEHIND_UNIT);
    Subsystem copy = disks.copy();
    libdasd::Trace again = trace;
    std::string others = lines;
    while (disks.step(1, 1) == 1) lines += trace.look(disks, DASD_BEHIND_UNIT);
    while (copy.step(1, 1) == 1) others += again.look(copy, DASD_BEHIND_UNIT);
    CHECK(lines == told && others == told);
    CHECK(refused([&] { (void)trace.look(disks, DASD_BEHIND_STEP, 0, 65536); }) == DASD_BAD_MOMENT);
    CHECK(refused([&] { (void)libdasd::Trace(2).look(disks, DASD_AT_END); }) == DASD_NO_CHANNEL);
    disks.free();
    CHECK(refused([&] { (void)trace.look(disks, DASD_AT_END); }) == DASD_NOTHING_HELD);
    Octets bytes(65536), keys(32);
    LentSubsystem lent(65536, libdasd::channel_set({1}));
    CHECK(again.look(lent, Memory{bytes, keys}, DASD_BEHIND_INTERRUPT) == "INT none\n");
    CHECK(refused([&] { (void)again.look(lent, Memory{bytes, Bytes(keys.data(), 31)}, DASD_AT_END); }) == DASD_BAD_BLOCKS);
}

// Seek to cylinder 1, and Read R0 to 200, which asks.
const Octets moves = {7, 0, 3, 0, 0x40, 0, 0, 6, 0x16, 0, 2, 0, 0x28, 0, 0, 16};

void a_program_runs_until() {
    Subsystem disks = made(moves);
    disks.poke(0x300, Octets{0, 0, 0, 1, 0, 0});
    CHECK(disks.sio(drive) == 0 && refused([&] { (void)disks.run_until(1, 1000, 8); }) == DASD_BAD_UNTIL);
    auto ran = disks.run_until(1, 1000, DASD_UNTIL_CYLINDER);
    CHECK(ran.units == 7 && ran.bytes == 6 && ran.cylinders == 1 && ran.stored == 0 && ran.stopped == DASD_UNTIL_CYLINDER);
    ran = disks.run_until(1, 1000, DASD_UNTIL_ASKED | DASD_UNTIL_TRACK);
    CHECK(ran.units == 1 && ran.stopped == DASD_UNTIL_ASKED && ran.asked == 1 && disks.interrupt() == drive);
    ran = disks.run_until(1, 1000, 0);
    CHECK(ran.subchannel == DASD_ENDED && ran.device == 0x90 && ran.bytes == 16 && ran.stored == 16 && ran.low == 0x200 && ran.high == 0x20F);
    CHECK(refused([&] { (void)disks.run_until(3, 1, 0); }) == DASD_NO_CHANNEL);
}

void a_volume_goes_from_one_to_another() {
    Subsystem disks = made(read_r0), others(4096, DASD_CHANNEL(0));
    Octets image = image_of(disks);
    libdasd::check(image);
    others.attach(0x001, image);
    others.attach(0x002, disks.file(drive).bytes);
    const auto copy = others.file(0x001);
    CHECK(copy.changes == 0 && std::equal(copy.bytes.begin(), copy.bytes.end(), image.begin(), image.end()));
    CHECK(refused([&] { others.attach(0x001, image); }) == DASD_ADDRESS_TAKEN && refused([&] { (void)others.file(0x001, 1); }) == DASD_NO_FILE);
    others.detach(0x001);
    CHECK(refused([&] { others.detach(0x001); }) == DASD_NO_DRIVE);
    image.pop_back();
    CHECK(refused([&] { libdasd::check(image); }) == DASD_LENGTH && refused([&] { others.attach(0x001, image); }) == DASD_LENGTH);
}

void files_are_taken_over_and_given_back() {
    Subsystem disks = made(read_r0), others(4096, DASD_CHANNEL(0));
    const Octets image = image_of(disks);
    HeldFiles files({image.size()}), none;
    std::copy(image.begin(), image.end(), files.file().begin());
    const auto *const place = files.file().data();
    CHECK(refused([&] { disks.attach(drive, files); }) == DASD_ADDRESS_TAKEN && files && files.file().data() == place);
    others.attach(0x001, files);
    CHECK(!files && refused([&] { (void)files.file(); }) == DASD_NOTHING_HELD && others.file(0x001).bytes.data() == place);
    CHECK(refused([&] { others.attach(0x002, none); }) == DASD_NOTHING_HELD &&
          refused([&] { others.attach(0x002, files); }) == DASD_NOTHING_HELD);
    CHECK(refused([&] { (void)others.detach_files(0x002); }) == DASD_NO_DRIVE);
    files = others.detach_files(0x001);
    CHECK(files && files.file().data() == place && std::equal(image.begin(), image.end(), files.file().begin(), files.file().end()));
    CHECK(refused([&] { (void)files.file(1); }) == DASD_NO_FILE && refused([] { const HeldFiles no({}); }) == DASD_NO_FILES);
    others.attach(0x001, std::move(files));
    CHECK(others.file(0x001).changes == 0);
}

void a_file_is_kept_by_its_changed_tracks() {
    const Octets write = {0x31, 0, 2, 0, 0x40, 0, 0, 5, 8, 0, 1, 0, 0, 0, 0, 0, 0x1D, 0, 2, 8, 0x20, 0, 0, 9};
    Subsystem disks = made(write);
    Octets image = image_of(disks);
    const auto before = disks.file(drive).changes;
    CHECK(disks.changed(drive, before).empty() && disks.changed(drive, 0).size() == 40);
    disks.poke(0x208, Octets{0, 0, 0, 0, 1, 0, 0, 1, 0xC1});
    CHECK(disks.sio(drive) == 0 && refused([&] { (void)disks.changed(drive, before); }) == DASD_PROGRAM_RUNS);
    (void)disks.run_on(1, 1000);
    const auto tracks = disks.changed(drive, before);
    CHECK(tracks.size() == 1 && tracks[0].track == 0 && tracks[0].at == 512 && tracks[0].len == 7680 && tracks[0].next == 1);
    const auto shown = disks.file(drive);
    CHECK(!std::equal(image.begin(), image.end(), shown.bytes.begin(), shown.bytes.end()));
    for (const auto &it : tracks)
        std::copy_n(shown.bytes.begin() + static_cast<std::ptrdiff_t>(it.at), it.len, image.begin() + static_cast<std::ptrdiff_t>(it.at));
    CHECK(std::equal(image.begin(), image.end(), shown.bytes.begin(), shown.bytes.end()) && disks.changed(drive, shown.changes).empty());
    CHECK(refused([&] { (void)disks.changed(0x390, 0); }) == DASD_NO_CHANNEL &&
          refused([&] { (void)disks.changed(drive, 0, 1); }) == DASD_NO_FILE);
}

void a_volume_in_several_files() {
    enum { HEADER = 512, TWO_CYLINDERS = 2 * 10 * 4096, SEQUENCE = 17, HIGHEST_CYLINDER = 18 };
    Subsystem disks = made(read_r0);
    disks.attach_new(0x191, 2311, 3);
    const auto whole = disks.file(0x191).bytes;
    Octets one(whole.begin(), whole.begin() + HEADER + TWO_CYLINDERS), two(whole.begin(), whole.begin() + HEADER);
    two.insert(two.end(), whole.begin() + HEADER + TWO_CYLINDERS, whole.end());
    one[SEQUENCE] = 1;
    one[HIGHEST_CYLINDER] = 1;
    two[SEQUENCE] = 2;
    libdasd::check({one, two});
    disks.attach(0x192, {one, two});
    const std::vector<Bytes> both = {one, two}, nine(9, Bytes(one)), many(100, Bytes(one));
    disks.attach(0x193, both);
    CHECK(disks.file(0x193, 1).bytes.size() == two.size() && disks.drive(0x192).cylinders == 3);
    CHECK(refused([&] { libdasd::check({two, one}); }) == DASD_SPLIT && refused([&] { libdasd::check(Files(both)); }) == DASD_DONE);
    CHECK(refused([&] { disks.attach(0x194, nine); }) == DASD_TOO_MANY_FILES && refused([&] { libdasd::check(many); }) == DASD_TOO_MANY_FILES);
    CHECK(refused([&] { disks.attach(0x194, {}); }) == DASD_NO_FILES && refused([&] { libdasd::check(Files()); }) == DASD_NO_FILES);
}

void an_arm_moves() {
    Subsystem disks = made(seek);
    disks.poke(0x200, Octets{0, 0, 0, 1, 0, 3});
    CHECK(disks.sio(drive) == 0 && disks.run_on(1, 1000).subchannel == DASD_ENDED && disks.interrupt() == drive);
    const dasd_drive seen = disks.drive(drive);
    CHECK(seen.model == 2314 && seen.cylinders == 2 && seen.cylinder == 1 && seen.head == 3 && seen.arm == DASD_IN_MOTION);
    CHECK(refused([&] { disks.detach(drive); }) == DASD_DEVICE_END_OWED);
    CHECK(disks.arrive(drive) && !disks.arrive(drive) && !disks.arrive(0x191));
    const dasd_state channel = disks.channel(1);
    CHECK(channel.subchannel == DASD_AVAILABLE && channel.drives == 1 && channel.units[0] == 0x90 && channel.arms[0] == DASD_ARRIVED);
}

void several_channels() {
    Subsystem disks(65536, libdasd::channel_set({1, 2}));
    disks.attach_new(0x190, 2314, 2);
    disks.attach_new(0x290, 2311, 1);
    disks.poke(0x48, Octets{0, 0, 1, 0});
    disks.poke(0x100, read_r0);
    CHECK(disks.sio(0x290) == 0 && disks.sio(0x190) == 0 && disks.tch(0x300) == 3);
    (void)disks.run_on(2, 1000);
    CHECK(disks.tch(0x100) == 2 && disks.tch(0x200) == 1 && !disks.is_pending(libdasd::channel_set({1})));
    (void)disks.run_on(1, 1000);
    CHECK(disks.interrupt() == 0x190 && disks.interrupt() == 0x290 && !disks.interrupt());
}

void storage_is_the_callers() {
    Subsystem disks = made(read_r0);
    const auto storage = disks.storage();
    storage[77] = 5;
    std::uint8_t byte = 0;
    disks.peek(77, {&byte, 1});
    CHECK(storage.size() == 65536 && byte == 5);
    disks.set_key(2048, 7);
    CHECK(disks.key(4095) == 7 && disks.key(0) == 0);
    CHECK(refused([&] { disks.set_key(0, 16); }) == DASD_BAD_KEY && refused([&] { (void)disks.key(65536); }) == DASD_OUTSIDE_STORAGE);
    CHECK(refused([&] { disks.poke(65535, Octets{1, 2}); }) == DASD_OUTSIDE_STORAGE && storage[65535] == 0);
}

// An empty span is null.
void no_bytes() {
    Subsystem disks = made(read_r0);
    Octets none;
    CHECK(none.data() == nullptr && Bytes().data() == nullptr);
    disks.peek(0, none);
    disks.poke(65536, none);
    disks.poke(0, Bytes());
    CHECK(refused([&] { disks.attach(0x191, none); }) == DASD_LENGTH && refused([&] { libdasd::check(Bytes()); }) == DASD_LENGTH);
}

// A subsystem that holds nothing refuses each call, and may be freed.
void refuses_all(Subsystem &none) {
    Octets image;
    CHECK(!none && none.get() == nullptr);
    CHECK(refused([&] { none.attach(drive, image); }) == DASD_NOTHING_HELD &&
          refused([&] { none.attach_new(drive, 2314, 1); }) == DASD_NOTHING_HELD);
    CHECK(refused([&] { none.detach(drive); }) == DASD_NOTHING_HELD && refused([&] { (void)none.file(drive); }) == DASD_NOTHING_HELD);
    CHECK(refused([&] { (void)none.drive(drive); }) == DASD_NOTHING_HELD && refused([&] { none.sio(drive); }) == DASD_NOTHING_HELD);
    CHECK(refused([&] { none.tio(drive); }) == DASD_NOTHING_HELD && refused([&] { none.hio(drive); }) == DASD_NOTHING_HELD);
    CHECK(refused([&] { none.tch(drive); }) == DASD_NOTHING_HELD && refused([&] { (void)none.step(1, 1); }) == DASD_NOTHING_HELD);
    CHECK(refused([&] { (void)none.run_on(1, 1); }) == DASD_NOTHING_HELD && refused([&] { (void)none.arrive(drive); }) == DASD_NOTHING_HELD);
    CHECK(refused([&] { (void)none.run_until(1, 1, 0); }) == DASD_NOTHING_HELD);
    CHECK(refused([&] { (void)none.is_pending(); }) == DASD_NOTHING_HELD && refused([&] { (void)none.interrupt(); }) == DASD_NOTHING_HELD);
    CHECK(refused([&] { (void)none.reset(1); }) == DASD_NOTHING_HELD && refused([&] { (void)none.channel(1); }) == DASD_NOTHING_HELD);
    CHECK(refused([&] { (void)none.storage(); }) == DASD_NOTHING_HELD && refused([&] { none.peek(0, image); }) == DASD_NOTHING_HELD);
    CHECK(refused([&] { none.poke(0, image); }) == DASD_NOTHING_HELD && refused([&] { (void)none.key(0); }) == DASD_NOTHING_HELD);
    CHECK(refused([&] { none.set_key(0, 0); }) == DASD_NOTHING_HELD);
    none.free();
}

// In the middle of a program, which each then ends by itself.
void a_copy_goes_its_own_way() {
    Subsystem disks = made(read_r0);
    CHECK(disks.sio(drive) == 0 && disks.step(1, 5) == 5);
    Subsystem second = disks.copy();
    CHECK(second.run_on(1, 1000).subchannel == DASD_ENDED && second.interrupt() == drive);
    CHECK(disks.channel(1).subchannel == DASD_WORKING && second.channel(1).subchannel == DASD_AVAILABLE && disks.key(0) == 0);
    const Octets whole(second.storage().begin() + 0x200, second.storage().begin() + 0x210);
    CHECK(!std::equal(whole.begin(), whole.end(), disks.storage().begin() + 0x200));
    CHECK(disks.run_on(1, 1000).subchannel == DASD_ENDED && disks.interrupt() == drive);
    CHECK(std::equal(second.storage().begin(), second.storage().end(), disks.storage().begin()) && image_of(disks) == image_of(second));
    second = disks.copy();
    CHECK(second.tio(drive) == 0 && refused([] { Subsystem().copy(); }) == DASD_NOTHING_HELD);
    const LentSubsystem lent(4096, libdasd::channel_set({1}));
    CHECK(lent.copy().tch(drive) == 0 && refused([] { LentSubsystem().copy(); }) == DASD_NOTHING_HELD);
}

// Between two programs, by bytes.
void a_state_is_saved_and_restored() {
    Subsystem disks = made(seek), others = made(seek);
    CHECK(disks.sio(drive) == 0 && refused([&] { disks.save(); }) == DASD_PROGRAM_RUNS);
    while (disks.run_on(1, 1000).subchannel == DASD_WORKING) {
    }
    const Octets saved = disks.save();
    CHECK(saved.size() == DASD_SAVED);
    others.restore(saved);
    CHECK(others.save() == saved && others.drive(drive).arm == DASD_IN_MOTION && others.interrupt() == drive);
    CHECK(refused([&] { others.restore({}); }) == DASD_NO_SAVED_STATE);
}

void owners() {
    Subsystem none, first = made(read_r0);
    refuses_all(none);
    const auto storage = first.storage();
    Subsystem second = std::move(first);
    refuses_all(first); // NOLINT(bugprone-use-after-move): what is left is documented
    CHECK(second && second.storage().data() == storage.data() && second.sio(drive) == 0);
    Subsystem third = made(seek);
    third = std::move(second); // what it held is freed
    CHECK(third.tio(drive) == 2 && third.storage().data() == storage.data());
    std::swap(none, third);
    CHECK(!third && none.tch(0x100) == 2);
    std::vector<Subsystem> several;
    several.reserve(2); // there is not room for all, so they are moved
    for (int i = 0; i < 9; i++) several.push_back(made(read_r0));
    several.erase(several.begin());
    CHECK(several.size() == 8 && several[7].sio(drive) == 0);
    several[0].free();
    refuses_all(several[0]);
    CHECK(dasd_tch(several[1].get(), 0x100) == 0);
}

// Main storage that a program keeps, and channel 1 with a new 2314 at 190.
struct Kept {
    Octets bytes = Octets(65536), keys = Octets(32);
    LentSubsystem disks = LentSubsystem(65536, libdasd::channel_set({1}));
};

// The same with a program at 100 that reads record 0 to 200 with the key 1.
Kept kept_with_program() {
    Kept kept;
    kept.disks.attach_new(drive, 2314, 2);
    kept.keys[0] = 1;
    kept.bytes[0x48] = 0x10;
    kept.bytes[0x4A] = 1;
    std::copy(read_r0.begin(), read_r0.end(), kept.bytes.begin() + 0x100);
    return kept;
}

Memory memory_of(Kept &kept) { return {kept.bytes, kept.keys}; }

// It is at another place from now on, and what was there before is gone.
void move(Kept &kept) {
    for (Octets *it : {&kept.bytes, &kept.keys}) {
        Octets other = *it;
        std::swap(*it, other);
        std::fill(other.begin(), other.end(), std::uint8_t{0xA5});
    }
}

// Lets the program run, a unit at a time, from place to place; and takes its interruption.
void run(Kept &kept) {
    LentSubsystem &disks = kept.disks;
    CHECK(disks.sio(memory_of(kept), drive) == 0 && disks.tio(memory_of(kept), drive) == 2 && disks.step(memory_of(kept), 1, 2) == 2);
    dasd_run ran{};
    do {
        move(kept);
        ran = disks.run_on(memory_of(kept), 1, 1);
        CHECK(ran.units == 1);
    } while (ran.subchannel == DASD_WORKING);
    move(kept);
    CHECK(ran.subchannel == DASD_ENDED && ran.device == 0x90 && disks.is_pending());
    CHECK(!disks.interrupt(memory_of(kept), libdasd::channel_set({2})) && disks.interrupt(memory_of(kept)) == drive);
    CHECK(!disks.interrupt(memory_of(kept)) && disks.tch(0x100) == 0);
}

const Octets record_0 = {0, 0, 0, 0, 0, 0, 0, 8, 0, 0, 0, 0, 0, 0, 0, 0};

bool is_read(const Kept &kept) { return std::equal(record_0.begin(), record_0.end(), kept.bytes.begin() + 0x200); }

void storage_is_lent() {
    Kept kept = kept_with_program();
    run(kept);
    CHECK(is_read(kept) && kept.bytes[68] == 0x0C && kept.bytes[69] == 0);
    CHECK(kept.disks.hio(memory_of(kept), drive) == 1 && kept.disks.step(memory_of(kept), 1, 9) == 0 && !kept.disks.reset(1));
    CHECK(kept.disks.file(drive).bytes.size() == 512 + 2 * 20 * 7680 && kept.disks.channel(1).drives == 1);
    // a part of a larger memory, and a key that admits the key 0 alone
    Octets large(196608);
    kept.keys[0] = 0xF1;
    std::copy(kept.bytes.begin(), kept.bytes.end(), large.begin() + 65537);
    const Memory part = {{large.data() + 65537, 65536}, kept.keys};
    CHECK(kept.disks.sio(part, drive) == 0 && kept.disks.run_on(part, 1, 1000).subchannel == DASD_ENDED && kept.disks.interrupt(part) == drive);
    CHECK(large[65537 + 0x45] == 0x10 && large[65536] == 0 && large[2 * 65536 + 1] == 0); // protection check
    kept.keys[0] = 1;
    CHECK(kept.disks.sio(part, drive) == 0 && kept.disks.run_until(part, 1, 5, DASD_UNTIL_ASKED).high == 0x204);
    CHECK(kept.disks.run_until(part, 1, 1000, 0).low == 0x205 && kept.disks.interrupt(part) == drive);
    CHECK(dasd_sio(kept.disks.get(), drive) == DASD_NO_STORAGE);
}

// The number with which each call that is lent this memory is refused; 0 where they differ.
std::int32_t all_refused(LentSubsystem &disks, const Memory &memory) {
    const std::int32_t code = refused([&] { disks.sio(memory, drive); });
    const bool same = code == refused([&] { disks.tio(memory, drive); }) && code == refused([&] { disks.hio(memory, drive); }) &&
                      code == refused([&] { (void)disks.step(memory, 1, 1); }) && code == refused([&] { (void)disks.run_on(memory, 1, 1); }) &&
                      code == refused([&] { (void)disks.run_until(memory, 1, 1, 0); }) &&
                      code == refused([&] { (void)disks.interrupt(memory); });
    return same ? code : DASD_DONE;
}

void what_is_not_lent() {
    Kept kept = kept_with_program();
    Octets large(65536 + 2048), keys(65536);
    const auto memory = [&](std::size_t size, std::size_t blocks) { return Memory{{large.data(), size}, {keys.data(), blocks}}; };
    CHECK(all_refused(kept.disks, Memory{}) == DASD_BAD_SIZE && all_refused(kept.disks, memory(2048, 1)) == DASD_BAD_SIZE);
    CHECK(all_refused(kept.disks, memory(65535, 32)) == DASD_BAD_SIZE && all_refused(kept.disks, memory(65536, 0)) == DASD_BAD_BLOCKS);
    CHECK(all_refused(kept.disks, memory(65536, 31)) == DASD_BAD_BLOCKS && all_refused(kept.disks, memory(65536, 65536)) == DASD_BAD_BLOCKS);
    CHECK(all_refused(kept.disks, memory(65536 + 2048, 33)) == DASD_OTHER_SIZE && all_refused(kept.disks, memory(4096, 2)) == DASD_OTHER_SIZE);
    CHECK(std::count(large.begin(), large.end(), 0) == 65536 + 2048 && kept.disks.tch(0x100) == 0);
    CHECK(refused([&] { (void)kept.disks.run_on(memory_of(kept), 3, 1); }) == DASD_NO_CHANNEL);
    CHECK(refused([] { LentSubsystem(1000, DASD_CHANNEL(1)); }) == DASD_BAD_SIZE &&
          refused([] { LentSubsystem(4096, 0); }) == DASD_BAD_CHANNELS);
    LentSubsystem none, other = std::move(kept.disks);
    CHECK(!none && all_refused(none, memory(65536, 32)) == DASD_NOTHING_HELD && refused([&] { none.tch(drive); }) == DASD_NOTHING_HELD);
    CHECK(all_refused(kept.disks, memory_of(kept)) == DASD_NOTHING_HELD); // NOLINT(bugprone-use-after-move): what is left is documented
    CHECK(other.sio(memory_of(kept), drive) == 0);
}

void what_is_not_made() {
    CHECK(refused([] { Subsystem(1000, DASD_CHANNEL(1)); }) == DASD_BAD_SIZE && refused([] { Subsystem(4096, 0); }) == DASD_BAD_CHANNELS);
    CHECK(refused([] { (void)libdasd::channel_set({7}); }) == DASD_BAD_CHANNELS);
    CHECK(refused([] { (void)libdasd::channel_set({-1}); }) == DASD_BAD_CHANNELS);
    Subsystem disks = made(read_r0);
    CHECK(refused([&] { disks.attach_new(0x191, 3330, 1); }) == DASD_BAD_MODEL &&
          refused([&] { disks.attach_new(0x191, 2311, 0); }) == DASD_NO_CYLINDERS);
    CHECK(refused([&] { (void)disks.run_on(3, 1); }) == DASD_NO_CHANNEL && refused([&] { (void)disks.step(3, 1); }) == DASD_NO_CHANNEL);
    CHECK(refused([&] { (void)disks.reset(3); }) == DASD_NO_CHANNEL && refused([&] { (void)disks.channel(3); }) == DASD_NO_CHANNEL);
    CHECK(refused([&] { (void)disks.drive(0x191); }) == DASD_NO_DRIVE);
    for (std::uint16_t at = 0x191; at < 0x198; at++) disks.attach_new(at, 2311, 1);
    CHECK(refused([&] { disks.attach_new(0x198, 2311, 1); }) == DASD_FULL);
}

void faults() {
    try {
        const Subsystem none(1000, DASD_CHANNEL(1));
        CHECK(false);
    } catch (const std::exception &fault) {
        CHECK(!std::strcmp(fault.what(), "storage has a multiple of 2,048 bytes, from 4,096 to 16,777,216"));
    }
    CHECK(std::string(Fault(DASD_FULL).name()) == "DASD_FULL" && std::string(libdasd::fault_name(-99)) == "?");
    CHECK(std::string(libdasd::fault_text(0)) == "it was done" && std::string(libdasd::fault_text(-99)) == "no fault of this library");
    for (std::int32_t code = -99; code <= 0; code++) CHECK(!std::strcmp(libdasd::fault_text(code), dasd_fault_text(code)));
    CHECK(libdasd::version() == DASD_VERSION_NUMBER && libdasd::interface_number() == DASD_INTERFACE);
}

// Each fault, in the order of dasd.h.
int texts() {
    for (std::int32_t code = -1; code > -64; code--)
        if (*libdasd::fault_name(code) != '?') std::printf("%s %d %s\n", libdasd::fault_name(code), code, libdasd::fault_text(code));
    return EXIT_SUCCESS;
}

} // namespace

// NOLINTBEGIN(bugprone-reserved-identifier): the linker's names
extern "C" {
std::int32_t __real_dasd_lent_sio(dasd *d, dasd_memory *memory, std::uint16_t address);
std::int32_t __real_dasd_check(const dasd_bytes *files, std::size_t count);
std::int32_t __real_dasd_attach(dasd *d, std::uint16_t address, const dasd_bytes *files, std::size_t count);
std::int32_t __real_dasd_peek(dasd *d, std::uint32_t at, std::uint8_t *into, std::size_t len);
std::int32_t __real_dasd_poke(dasd *d, std::uint32_t at, const std::uint8_t *bytes, std::size_t len);

std::int32_t __wrap_dasd_lent_sio(dasd *d, dasd_memory *memory, std::uint16_t address) {
    CHECK(memory != nullptr && memory->bytes != nullptr && memory->keys != nullptr);
    return __real_dasd_lent_sio(d, memory, address);
}

std::int32_t __wrap_dasd_check(const dasd_bytes *files, std::size_t count) {
    CHECK(files != nullptr && std::all_of(files, files + count, [](const dasd_bytes &it) { return it.at != nullptr; }));
    return __real_dasd_check(files, count);
}

std::int32_t __wrap_dasd_attach(dasd *d, std::uint16_t address, const dasd_bytes *files, std::size_t count) {
    CHECK(files != nullptr && std::all_of(files, files + count, [](const dasd_bytes &it) { return it.at != nullptr; }));
    return __real_dasd_attach(d, address, files, count);
}

std::int32_t __wrap_dasd_peek(dasd *d, std::uint32_t at, std::uint8_t *into, std::size_t len) {
    CHECK(into != nullptr);
    return __real_dasd_peek(d, at, into, len);
}

std::int32_t __wrap_dasd_poke(dasd *d, std::uint32_t at, const std::uint8_t *bytes, std::size_t len) {
    CHECK(bytes != nullptr);
    return __real_dasd_poke(d, at, bytes, len);
}
}
// NOLINTEND(bugprone-reserved-identifier)

// An exception that nothing here expects ends the program, which is then told as a failure.
int main(int count, char **words) { // NOLINT(bugprone-exception-escape)
    if (count == 2 && !std::strcmp(words[1], "texts")) return texts();
    a_record_is_read();
    a_program_is_shown_while_it_runs();
    a_program_is_traced();
    a_program_runs_until();
    a_volume_goes_from_one_to_another();
    files_are_taken_over_and_given_back();
    a_file_is_kept_by_its_changed_tracks();
    a_volume_in_several_files();
    an_arm_moves();
    several_channels();
    storage_is_the_callers();
    no_bytes();
    a_copy_goes_its_own_way();
    a_state_is_saved_and_restored();
    owners();
    storage_is_lent();
    what_is_not_lent();
    what_is_not_made();
    faults();
    return failures ? EXIT_FAILURE : EXIT_SUCCESS;
}
