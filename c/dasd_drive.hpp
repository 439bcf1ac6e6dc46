/* dasd_drive.hpp - the calls of dasd_drive.h for C++17 and later: a drive that frees itself, spans, and exceptions.
 *
 *     libdasd::Drive drive(2314, 203);
 *     drive.begin_program();
 *     if (drive.begin(0x06) == DASD_DRIVE_STARTED)            Read Data
 *         while (drive.next().phase == DASD_DRIVE_LOOKING) drive.look();
 *
 * What a call does, and in which order a command goes, dasd_drive.h says. Spans, files and what the caller owes are as in dasd.hpp. All of this
 * header is inline: libdasd_drive.a is linked as for C, and libdasd.a where a program has a subsystem too.
 *
 * A refusal is a libdasd::DriveFault, which is a libdasd::Fault. A call that throws has changed nothing. */
#ifndef DASD_DRIVE_HPP
#define DASD_DRIVE_HPP

#include "dasd.hpp"
#include "dasd_drive.h"

namespace libdasd {

#ifdef __cpp_lib_span
inline namespace with_std_span {
#else
inline namespace with_own_span {
#endif

namespace detail {

/* c/interface.toml: begin */
inline constexpr Told drive_faults[] = {
    {DASD_COMMAND_OPEN, "DASD_COMMAND_OPEN", "a command is open: it wants its end, or to be cut by dasd_drive_settle"},
    {DASD_NO_COMMAND, "DASD_NO_COMMAND", "no command works: there is nothing to look for"},
    {DASD_NO_END, "DASD_NO_END", "no command is open, or it still looks for its area"},
    {DASD_GIVES_NONE, "DASD_GIVES_NONE", "the drive gives no bytes now"},
    {DASD_TAKES_NONE, "DASD_TAKES_NONE", "the drive takes no bytes now"},
    {DASD_TOO_MANY, "DASD_TOO_MANY", "so many bytes may not pass now: dasd_drive_next says how many may"},
    {DASD_BYTES_PASSED, "DASD_BYTES_PASSED", "bytes of the command have passed: it wants its end"},
    {DASD_NOT_SAVED, "DASD_NOT_SAVED", "the track under the arm was written, and is not in the volume's file yet: dasd_drive_settle"},
    {DASD_OTHER_LENGTH, "DASD_OTHER_LENGTH", "the volume's file has another length: dasd_drive_show_file says which"},
};
/* c/interface.toml: end */

constexpr const Told *told_of_drive(std::int32_t code) noexcept {
    for (const Told &it : drive_faults)
        if (it.code == code) return &it;
    return nullptr;
}

} // namespace detail

/* As fault_name and fault_text, of a number of enum dasd_drive_fault too. */
constexpr const char *drive_fault_name(std::int32_t code) noexcept {
    const detail::Told *told = detail::told_of_drive(code);
    return told ? told->name : fault_name(code);
}
constexpr const char *drive_fault_text(std::int32_t code) noexcept {
    const detail::Told *told = detail::told_of_drive(code);
    return told ? told->text : fault_text(code);
}

/* Why a call of a drive was refused, by a number of enum dasd_fault or of enum dasd_drive_fault. Nothing has changed. */
class DriveFault : public Fault {
  public:
    using Fault::Fault;
    const char *name() const noexcept override { return drive_fault_name(code()); }
    const char *what() const noexcept override { return drive_fault_text(code()); }
};

/* What the drive wants next, and where bytes pass how many have, and how many more may by what the last look allowed. */
struct Next {
    dasd_drive_phase phase;
    std::size_t passed, left;
};

/* A drive without a channel, and its volume. It is moved, and not copied but by copy. One that was made without words, was moved from, freed or
 * given back holds nothing: each call but free and get then throws DASD_NOTHING_HELD. Of each call the faults are named that it may throw
 * beside this one. */
class Drive {
  public:
    /* Nothing. */
    Drive() noexcept = default;

    /* A drive over the volume of this file, a whole image. The bytes are copied. DASD_NOT_CKD_P370 to DASD_LENGTH, DASD_NO_MEMORY;
     * std::bad_alloc. */
    explicit Drive(Bytes file) { done(dasd_drive_attach(made(), detail::place_of(file), file.size())); }

    /* A drive with a new volume: so many cylinders of this model, 2311 or 2314. DASD_BAD_MODEL, DASD_NO_CYLINDERS, DASD_NO_MEMORY;
     * std::bad_alloc. */
    Drive(std::uint16_t model, std::uint16_t cylinders) { done(dasd_drive_attach_new(made(), model, cylinders)); }

    /* A second drive that is as this one is, also in the middle of a command, with its volume. DASD_NO_MEMORY; std::bad_alloc. */
    Drive copy() {
        Drive second;
        done(dasd_drive_copy(held(), second.made()));
        return second;
    }

    /* What the drive is between two programs, as bytes for a file: the volume's is saved beside it. DASD_COMMAND_OPEN, DASD_NOT_SAVED,
     * DASD_PROGRAM_RUNS, where begin_program was not called since; std::bad_alloc. */
    std::vector<std::uint8_t> save() {
        std::vector<std::uint8_t> saved(DASD_DRIVE_SAVED);
        std::size_t written = 0;
        done(dasd_drive_save(held(), saved.data(), saved.size(), &written));
        return saved;
    }

    /* Makes the drive what was saved. Its volume stays. DASD_COMMAND_OPEN, DASD_NOT_SAVED, DASD_NO_SAVED_STATE, DASD_OTHER_VERSION,
     * DASD_SAVED_LENGTH, DASD_NO_TRACK. */
    void restore(Bytes saved) { done(dasd_drive_restore(held(), detail::place_of(saved), saved.size())); }

    /* Frees the drive and its volume, whether it was saved or not. It holds nothing then. */
    void free() noexcept { handle.reset(); }

    /* Whether it holds a drive. */
    explicit operator bool() const noexcept { return handle != nullptr; }

    /* The handle, for calls of dasd_drive.h that do not free it; null where it holds nothing. */
    dasd_drive_alone *get() noexcept { return handle.get(); }

    /* The file of the volume, to be saved, until the next call that is none of file, changed, next and show. DASD_COMMAND_OPEN; DASD_NOT_SAVED,
     * where a written track waits: call settle before. */
    File file() {
        dasd_file shown{};
        done(dasd_drive_show_file(held(), &shown));
        return {{shown.at, shown.len}, shown.changes};
    }

    /* The tracks of the file that were written since its `changes` was this number, as Channels::changed. DASD_COMMAND_OPEN, DASD_NOT_SAVED;
     * std::bad_alloc. */
    std::vector<dasd_changed> changed(std::uint64_t since) {
        std::vector<dasd_changed> tracks;
        dasd_changed next{};
        while (done(dasd_drive_next_changed(held(), since, &next)) == 1) tracks.push_back(next);
        return tracks;
    }

    /* Gives the volume's file back, with all that was written. It holds nothing then. DASD_COMMAND_OPEN, DASD_NOT_SAVED; std::bad_alloc. */
    std::vector<std::uint8_t> give_back() {
        std::vector<std::uint8_t> whole(file().bytes.size());
        done(dasd_drive_give_back(held(), whole.data(), whole.size()));
        handle.reset();
        return whole;
    }

    /* --- A command --- */

    /* A channel program begins. DASD_COMMAND_OPEN. */
    void begin_program() { done(dasd_drive_begin_program(held())); }

    /* Begins the command of this code. DASD_COMMAND_OPEN. */
    dasd_drive_begun begin(std::uint8_t code) { return static_cast<dasd_drive_begun>(done(dasd_drive_begin(held(), code))); }

    /* What the drive wants next. */
    Next next() {
        dasd_drive_next_bytes bytes{};
        const auto phase = static_cast<dasd_drive_phase>(done(dasd_drive_next(held(), &bytes)));
        return {phase, bytes.passed, bytes.left};
    }

    /* Looks at the track under the arm for the area of the command. DASD_NO_COMMAND. */
    enum dasd_drive_look look() { return static_cast<enum dasd_drive_look>(done(dasd_drive_look(held()))); }

    /* Gives as many bytes of a read or of Sense as there is room for. DASD_GIVES_NONE, DASD_TOO_MANY. */
    void give(Span<std::uint8_t> into) {
        std::uint8_t none = 0;
        done(dasd_drive_give(held(), into.empty() ? &none : into.data(), into.size()));
    }

    /* Takes the next bytes of any other command. DASD_TAKES_NONE, DASD_TOO_MANY. */
    void take(Bytes bytes) { done(dasd_drive_take(held(), detail::place_of(bytes), bytes.size())); }

    /* Ends the command by the bytes that have passed: its unit status. DASD_NO_END. */
    std::uint8_t end() { return static_cast<std::uint8_t>(done(dasd_drive_end(held()))); }

    /* Does a whole word, with these bytes: its unit status, or DASD_DRIVE_STAYS_OPEN. DASD_COMMAND_OPEN, DASD_NO_COMMAND. */
    std::int32_t do_word(dasd_drive_word &word, Span<std::uint8_t> bytes) {
        std::uint8_t none = 0;
        return done(dasd_drive_do(held(), &word, bytes.empty() ? &none : bytes.data(), bytes.size()));
    }

    /* Saves the track under the arm, if it was written: whether it could not be saved, which no file in memory does. DASD_BYTES_PASSED. */
    bool settle() { return done(dasd_drive_settle(held())) == 1; }

    /* --- Sense, and the arm --- */

    /* What is known of the drive beside the command at hand. */
    dasd_drive_seen show() {
        dasd_drive_seen shown{};
        done(dasd_drive_show(held(), &shown));
        return shown;
    }

    /* Makes the sense bytes zero. DASD_COMMAND_OPEN. */
    void clear_sense() { done(dasd_drive_clear_sense(held())); }

  private:
    struct Freer {
        void operator()(dasd_drive_alone *held) const noexcept {
            dasd_drive_free(held);
            delete held;
        }
    };

    static std::int32_t done(std::int32_t code) {
        if (code < 0) throw DriveFault(code);
        return code;
    }

    /* A handle that holds nothing yet. */
    dasd_drive_alone *made() {
        handle.reset(new dasd_drive_alone DASD_DRIVE_NOTHING);
        return handle.get();
    }

    dasd_drive_alone *held() {
        if (!handle) throw DriveFault(DASD_NOTHING_HELD);
        return handle.get();
    }

    /* Of its own place, so that a move leaves it where it is. */
    std::unique_ptr<dasd_drive_alone, Freer> handle;
};

} // namespace with_std_span or with_own_span

} // namespace libdasd

#endif
