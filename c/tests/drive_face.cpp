// drive_face.cpp - the face of a drive alone for C++: records are written, found and read, the volume goes out and in again, what the drive is
// too, a copy goes its own way, and each refusal is thrown with its name and its sentence.
#include <cstring>
#include <string>

#include "../dasd_drive.hpp"
#include "tests.h"

namespace {

using libdasd::Bytes;
using libdasd::Drive;
using libdasd::DriveFault;

constexpr std::uint8_t write_count_key_data = 0x1D, read_data = 0x06, seek = 0x07, sense = 0x04, search_id = 0x31, search_home_address = 0x39;
constexpr std::uint8_t search_id_0[] = {0, 1, 0, 2, 0}, search_id_1[] = {0, 1, 0, 2, 1}, where[] = {0, 0, 0, 1, 0, 2};
constexpr std::uint8_t record[] = {0, 1, 0, 2, 1, 0, 0, 4, 0xC4, 0xC1, 0xE2, 0xC4};

// The number of the fault that a call throws; 0, it throws none.
template <class Call> std::int32_t refused(Call call) {
    try {
        call();
    } catch (const libdasd::Fault &fault) {
        CHECK(dynamic_cast<const DriveFault *>(&fault) != nullptr);
        return fault.code();
    }
    return 0;
}

// A command that takes bytes, from its beginning to its end: its unit status.
std::int32_t takes(Drive &drive, std::uint8_t code, Bytes bytes) {
    std::vector<std::uint8_t> given(bytes.begin(), bytes.end());
    dasd_drive_word word{};
    word.code = code;
    return drive.do_word(word, given);
}

// Seeks to cylinder 1, head 2, and finds the record of this identifier.
void found(Drive &drive, Bytes identifier) {
    drive.begin_program();
    CHECK(takes(drive, seek, where) == 0x0C || drive.show().cylinder == 1);
    for (int turns = 0; turns < 20; turns++)
        if (takes(drive, search_id, identifier) == 0x4C) return;
    CHECK(false);
}

Drive written() {
    Drive drive(2311, 2);
    found(drive, search_id_0);
    CHECK(takes(drive, write_count_key_data, record) == 0x0C);
    return drive;
}

void reads(Drive &drive) {
    std::array<std::uint8_t, 4> data{};
    found(drive, search_id_1);
    CHECK(drive.begin(read_data) == DASD_DRIVE_STARTED && drive.look() == DASD_DRIVE_READY);
    const libdasd::Next next = drive.next();
    CHECK(next.phase == DASD_DRIVE_GIVES && next.passed == 0 && next.left == data.size());
    drive.give(data);
    CHECK(drive.end() == 0x0C && !std::memcmp(data.data(), record + 8, data.size()));
}

// What this drive is after a read comes back in another one over the same file.
void saves(Drive &drive, Bytes file) {
    CHECK(refused([&] { (void)drive.save(); }) == DASD_PROGRAM_RUNS);
    drive.begin_program();
    const std::vector<std::uint8_t> saved = drive.save();
    Drive other(file);
    other.restore(saved);
    CHECK(saved.size() == DASD_DRIVE_SAVED && other.show().cylinder == 1 && other.show().head == 2 && other.save() == saved);
    CHECK(refused([&] { other.restore(Bytes(saved.data(), 14)); }) == DASD_SAVED_LENGTH);
    CHECK(refused([&] { other.restore(Bytes()); }) == DASD_NO_SAVED_STATE);
}

void volumes() {
    Drive drive = written();
    CHECK(refused([&] { (void)drive.file(); }) == DASD_NOT_SAVED && !drive.settle());
    const libdasd::File file = drive.file();
    CHECK(file.changes > 0 && file.bytes.size() == drive.file().bytes.size());
    const std::vector<dasd_changed> tracks = drive.changed(0);
    CHECK(!tracks.empty() && drive.changed(file.changes).empty());
    Drive other(file.bytes);
    reads(other);
    saves(other, file.bytes);
    const std::vector<std::uint8_t> whole = drive.give_back();
    CHECK(!drive && drive.get() == nullptr && whole.size() == other.file().bytes.size());
    CHECK(!std::memcmp(whole.data(), other.file().bytes.data(), whole.size()));
    CHECK(refused([&] { Drive none(Bytes(whole.data(), 100)); }) == DASD_LENGTH && refused([] { Drive none{Bytes()}; }) == DASD_LENGTH);
}

void copies() {
    Drive drive = written();
    CHECK(drive.begin(search_home_address) == DASD_DRIVE_STARTED);
    Drive second = drive.copy();
    CHECK(second.next().phase == DASD_DRIVE_LOOKING);
    enum dasd_drive_look led = DASD_DRIVE_PASSED;
    while (led == DASD_DRIVE_PASSED) {
        led = drive.look();
        CHECK(second.look() == led);
    }
    second.free();
    CHECK(!second && drive && drive.next().phase == DASD_DRIVE_TAKES);
    drive.take(Bytes());
    CHECK(drive.next().passed == 0);
    const Drive moved = std::move(drive);
    CHECK(moved && !drive); // NOLINT(bugprone-use-after-move): it holds nothing then
}

void senses() {
    Drive drive(2314, 1);
    drive.begin_program();
    CHECK(drive.begin(0xFF) == DASD_DRIVE_REJECTED && drive.show().sense[0] == 0x80 && drive.show().model == 2314);
    std::uint8_t bytes[6] = {};
    CHECK(drive.begin(sense) == DASD_DRIVE_STARTED && drive.look() == DASD_DRIVE_READY);
    drive.give(libdasd::Span<std::uint8_t>(bytes, 2));
    drive.give(libdasd::Span<std::uint8_t>());
    CHECK(bytes[0] == 0x80 && drive.end() == 0x0C);
    drive.clear_sense();
    CHECK(drive.show().sense[0] == 0);
}

void refusals() {
    Drive none, drive(2311, 1);
    CHECK(refused([&] { none.begin_program(); }) == DASD_NOTHING_HELD && refused([&] { (void)none.copy(); }) == DASD_NOTHING_HELD);
    CHECK(refused([] { Drive(3330, 1); }) == DASD_BAD_MODEL && refused([] { Drive(2311, 0); }) == DASD_NO_CYLINDERS);
    CHECK(refused([&] { (void)drive.look(); }) == DASD_NO_COMMAND && refused([&] { (void)drive.end(); }) == DASD_NO_END);
    CHECK(refused([&] { drive.take(where); }) == DASD_TAKES_NONE && refused([&] { drive.give({}); }) == DASD_GIVES_NONE);
    CHECK(drive.begin(seek) == DASD_DRIVE_STARTED && refused([&] { drive.begin_program(); }) == DASD_COMMAND_OPEN);
    CHECK(refused([&] { (void)drive.begin(seek); }) == DASD_COMMAND_OPEN && refused([&] { drive.clear_sense(); }) == DASD_COMMAND_OPEN);
    CHECK(drive.look() == DASD_DRIVE_READY && refused([&] { drive.take(record); }) == DASD_TOO_MANY);
    drive.take(Bytes(where, 1));
    CHECK(refused([&] { (void)drive.settle(); }) == DASD_BYTES_PASSED && refused([&] { (void)drive.give_back(); }) == DASD_COMMAND_OPEN);
}

void names() {
    const DriveFault fault(DASD_TOO_MANY);
    const libdasd::Fault &as_any = fault;
    CHECK(std::string(as_any.name()) == "DASD_TOO_MANY" && std::string(as_any.what()).find("so many bytes") == 0);
    CHECK(std::string(DriveFault(DASD_NO_MEMORY).name()) == "DASD_NO_MEMORY" && std::string(DriveFault(-99).name()) == "?");
    CHECK(std::string(DriveFault(-99).what()) == "no fault of this library");
}

// Each fault, in the order of dasd_drive.h.
int texts() {
    for (const libdasd::detail::Told &it : libdasd::detail::drive_faults) std::printf("%s %d %s\n", it.name, it.code, it.text);
    return EXIT_SUCCESS;
}

} // namespace

// An exception that nothing here expects ends the program, which is then told as a failure.
int main(int count, char **words) { // NOLINT(bugprone-exception-escape)
    if (count == 2 && !std::strcmp(words[1], "texts")) return texts();
    Drive drive = written();
    reads(drive);
    volumes();
    copies();
    senses();
    refusals();
    names();
    return failures ? EXIT_FAILURE : EXIT_SUCCESS;
}
