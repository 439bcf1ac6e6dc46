/* dasd.hpp - the calls of dasd.h for C++17 and later: a handle that frees itself, spans, and exceptions.
 *
 *     libdasd::Subsystem disks(65536, libdasd::channel_set({1}));
 *     disks.attach_new(0x190, 2314, 203);
 *     disks.storage()[0x48] = ...
 *     if (disks.sio(0x190) == 0) ...
 *
 * A program that keeps main storage itself makes a libdasd::LentSubsystem, and lends its own to each call that needs it.
 *
 * What a call does, dasd.h says, and its words are used here. All of this header is inline: the library is linked as for C.
 *
 * REFUSALS ARE EXCEPTIONS, libdasd::Fault, and not values that carry an answer or a fault, for three reasons. A constructor has no other
 * way to say that there is no memory. An answer is then a plain number or truth value, and no refusal can be taken for one: a negative
 * number is true, and has condition code 3 in its last bits. And while an emulator runs, no call is refused: those that may be are made
 * where volumes are attached, shown and detached, one try block for all of them. A program without exceptions uses dasd.h.
 * A call that throws has changed nothing.
 *
 * A SPAN is std::span where the standard library has it (C++20), and else libdasd::Span, which has as much of it as is needed here. An
 * empty span may be null, as that of an empty vector is.
 *
 * WHAT THE CALLER OWES is what dasd.h asks, except for what this header does: a Subsystem is made, moved and freed by the rules of C++, and
 * a null pointer with no bytes is allowed. It remains that no bytes that are given to a call lie in main storage or in a file that is
 * shown; that a Subsystem is in one call at a time, asking calls too, none of which is const therefore; that a span of what a call
 * shows is used no longer than that call's text says; and what is said at LentSubsystem. */
#ifndef DASD_HPP
#define DASD_HPP

#include "dasd.h"

#include <array>
#include <cstddef>
#include <cstdint>
#include <exception>
#include <initializer_list>
#include <memory>
#include <optional>
#include <string_view>
#include <type_traits>
#include <utility>
#include <vector>

#if __cplusplus >= 202002L && defined(__has_include)
#if __has_include(<span>)
#include <span>
#endif
#endif

namespace libdasd {

/* Parts of a program that are compiled for different standards may have both kinds of span: so each has a name of its own. */
#ifdef __cpp_lib_span
inline namespace with_std_span {

template <class T> using Span = std::span<T>;
#else
inline namespace with_own_span {

namespace detail {
template <class Container, class T>
using IfItHas = std::enable_if_t<std::is_convertible_v<std::remove_pointer_t<decltype(std::declval<Container &>().data())> (*)[], T (*)[]> &&
                                 std::is_convertible_v<decltype(std::declval<Container &>().size()), std::size_t>>;
}

/* Items that lie in a row, and that another owns. */
template <class T> class Span {
  public:
    constexpr Span() noexcept = default;
    constexpr Span(T *at, std::size_t count) noexcept : first(at), items(count) {}
    template <std::size_t N> constexpr Span(T (&array)[N]) noexcept : first(array), items(N) {}
    template <class Container, class = detail::IfItHas<Container, T>> constexpr Span(Container &held) : first(held.data()), items(held.size()) {}
    template <class Container, class = detail::IfItHas<const Container, T>>
    constexpr Span(const Container &held) : first(held.data()), items(held.size()) {}

    constexpr T *data() const noexcept { return first; }
    constexpr std::size_t size() const noexcept { return items; }
    constexpr bool empty() const noexcept { return items == 0; }
    constexpr T *begin() const noexcept { return first; }
    constexpr T *end() const noexcept { return first + items; }
    /* The item at a place below size(). */
    constexpr T &operator[](std::size_t place) const { return first[place]; }
    /* So many items from a place on, which are all within it. */
    constexpr Span subspan(std::size_t place, std::size_t count) const { return Span(first + place, count); }

  private:
    T *first = nullptr;
    std::size_t items = 0;
};
#endif

/* Bytes that are read; and files, whose bytes are. */
using Bytes = Span<const std::uint8_t>;
using Files = Span<const Bytes>;

/* --- Faults --- */

namespace detail {

struct Told {
    std::int32_t code;
    const char *name;
    const char *text;
};

/* c/interface.toml: begin */
inline constexpr Told faults[] = {
    {DASD_NOTHING_HELD, "DASD_NOTHING_HELD", "the handle holds nothing: it was not made, or was freed"},
    {DASD_IN_USE, "DASD_IN_USE", "the handle holds something already"},
    {DASD_NO_MEMORY, "DASD_NO_MEMORY", "memory was refused"},
    {DASD_OUTSIDE_STORAGE, "DASD_OUTSIDE_STORAGE", "a byte lies outside main storage"},
    {DASD_BAD_SIZE, "DASD_BAD_SIZE", "storage has a multiple of 2,048 bytes, from 4,096 to 16,777,216"},
    {DASD_BAD_CHANNELS, "DASD_BAD_CHANNELS", "the set is not one of the channels 0 to 6"},
    {DASD_BAD_KEY, "DASD_BAD_KEY", "a storage key is 0 to 15"},
    {DASD_BAD_MODEL, "DASD_BAD_MODEL", "a drive's model is 2311 or 2314"},
    {DASD_NO_CYLINDERS, "DASD_NO_CYLINDERS", "a volume has 1 to 65,535 cylinders"},
    {DASD_NO_CHANNEL, "DASD_NO_CHANNEL", "there is no channel of this number"},
    {DASD_NO_DRIVE, "DASD_NO_DRIVE", "no drive with this address is attached"},
    {DASD_ADDRESS_TAKEN, "DASD_ADDRESS_TAKEN", "a drive with this address is attached"},
    {DASD_FULL, "DASD_FULL", "eight drives are attached to this channel"},
    {DASD_NO_FILES, "DASD_NO_FILES", "an image has at least one file"},
    {DASD_TOO_MANY_FILES, "DASD_TOO_MANY_FILES", "an image has at most eight files"},
    {DASD_NO_FILE, "DASD_NO_FILE", "the drive's image has no such file"},
    {DASD_PROGRAM_RUNS, "DASD_PROGRAM_RUNS", "a channel program runs"},
    {DASD_ENDING_PENDS, "DASD_ENDING_PENDS", "the channel status word of this drive's program is not yet stored"},
    {DASD_DEVICE_END_OWED, "DASD_DEVICE_END_OWED", "this drive's arm moves, or has arrived and has not interrupted"},
    {DASD_NO_STORAGE, "DASD_NO_STORAGE", "the handle owns no main storage: each call is lent it"},
    {DASD_BAD_BLOCKS, "DASD_BAD_BLOCKS", "main storage has one key for each block of 2,048 bytes"},
    {DASD_OTHER_SIZE, "DASD_OTHER_SIZE", "the channels are for main storage of another size"},
    {DASD_NO_PROGRAM, "DASD_NO_PROGRAM", "no channel program runs on this channel"},
    {DASD_NO_ROOM, "DASD_NO_ROOM", "what is to be written may have more bytes than there is room for"},
    {DASD_BAD_MOMENT, "DASD_BAD_MOMENT", "there is no such moment, or its call answers no such thing"},
    {DASD_BAD_UNTIL, "DASD_BAD_UNTIL", "nothing is waited for by such a bit"},
    {DASD_NOT_OWED, "DASD_NOT_OWED", "a saved channel status word is no ending that its channel owes"},
    {DASD_NOT_CKD_P370, "DASD_NOT_CKD_P370", "not a CKD_P370 image"},
    {DASD_COMPRESSED, "DASD_COMPRESSED", "a compressed image, or a shadow file"},
    {DASD_DEVICE_TYPE, "DASD_DEVICE_TYPE", "neither a 2311 nor a 2314"},
    {DASD_HEADS, "DASD_HEADS", "the number of heads is not the drive's"},
    {DASD_TRACK_SIZE, "DASD_TRACK_SIZE", "a track of the drive may not fit the track size"},
    {DASD_SPLIT, "DASD_SPLIT", "the files are not those of one image, in order"},
    {DASD_LENGTH, "DASD_LENGTH", "a file's length is not that of an image"},
    {DASD_STORE, "DASD_STORE", "a file could not be read or written; no file in memory does so"},
    {DASD_NO_SAVED_STATE, "DASD_NO_SAVED_STATE", "not a saved state"},
    {DASD_OTHER_VERSION, "DASD_OTHER_VERSION", "a saved state of another version"},
    {DASD_SAVED_LENGTH, "DASD_SAVED_LENGTH", "a saved state that is cut short, or too long"},
    {DASD_SAVED_SUM, "DASD_SAVED_SUM", "a saved state that was changed: its checksum does not fit"},
    {DASD_NOT_SOUND, "DASD_NOT_SOUND", "a field of a saved state has a value that none has"},
    {DASD_OTHER_CHANNELS, "DASD_OTHER_CHANNELS", "a saved state of other channels"},
    {DASD_OTHER_DRIVES, "DASD_OTHER_DRIVES", "a saved state of a channel with other drives"},
    {DASD_NO_TRACK, "DASD_NO_TRACK", "a drive was saved at a track that its volume does not have"},
};
/* c/interface.toml: end */

constexpr const Told *told_of(std::int32_t code) noexcept {
    for (const Told &it : faults)
        if (it.code == code) return &it;
    return nullptr;
}

} // namespace detail

/* The name of a number of enum dasd_fault, and the sentence that says what it means; of DASD_DONE, and of a number that is none of them,
 * that it is no fault. The texts stay. */
constexpr const char *fault_name(std::int32_t code) noexcept {
    const detail::Told *told = detail::told_of(code);
    return told ? told->name : code == DASD_DONE ? "DASD_DONE" : "?";
}
constexpr const char *fault_text(std::int32_t code) noexcept {
    const detail::Told *told = detail::told_of(code);
    return told ? told->text : code == DASD_DONE ? "it was done" : "no fault of this library";
}

/* Why a call was refused. Nothing has changed. */
class Fault : public std::exception {
  public:
    explicit Fault(std::int32_t number) noexcept : refused(number) {}
    /* The number, of enum dasd_fault. */
    std::int32_t code() const noexcept { return refused; }
    /* Its name in dasd.h. */
    virtual const char *name() const noexcept { return fault_name(refused); }
    /* The sentence that says what it means. */
    const char *what() const noexcept override { return fault_text(refused); }

  private:
    std::int32_t refused;
};

namespace detail {

/* What a call answers, where it was done. */
inline std::int32_t done(std::int32_t code) {
    if (code < 0) throw Fault(code);
    return code;
}

inline constexpr std::uint8_t nothing = 0;

/* Where bytes lie, for C, whose pointers are not null. */
constexpr const std::uint8_t *place_of(Bytes bytes) noexcept { return bytes.empty() ? &nothing : bytes.data(); }

/* The pairs of files for C: nine of more than nine, which are refused as nine are. */
class Pairs {
  public:
    explicit Pairs(Files files) noexcept {
        for (const Bytes &it : files) {
            if (count == at.size()) break;
            at[count++] = {place_of(it), it.size()};
        }
    }
    const dasd_bytes *data() const noexcept { return at.data(); }
    std::size_t size() const noexcept { return count; }

  private:
    std::array<dasd_bytes, 9> at{};
    std::size_t count = 0;
};

} // namespace detail

/* --- What needs no handle --- */

/* The version of the library, as DASD_VERSION_NUMBER; and the number of its binary interface, DASD_INTERFACE where it fits dasd.h. */
inline std::uint32_t version() noexcept { return dasd_version(); }
inline std::uint32_t interface_number() noexcept { return dasd_interface(); }

/* The set of the channels 0 to 6, and the set of these. Throws DASD_BAD_CHANNELS where a number is none of them. */
inline constexpr std::uint8_t all_channels = 0xFE;
constexpr std::uint8_t channel_set(std::initializer_list<int> numbers) {
    unsigned set = 0;
    for (int it : numbers) {
        if (it < 0 || it > 6) throw Fault(DASD_BAD_CHANNELS);
        set |= 0x80U >> it;
    }
    return static_cast<std::uint8_t>(set);
}

/* Whether these files, one to eight in their order, are an image: nothing where they are, and else it throws what Subsystem::attach would.
 * DASD_NO_FILES, DASD_TOO_MANY_FILES, DASD_NO_MEMORY, DASD_NOT_CKD_P370 to DASD_LENGTH. */
inline void check(Files files) {
    const detail::Pairs pairs(files);
    detail::done(dasd_check(pairs.data(), pairs.size()));
}
inline void check(std::initializer_list<Bytes> files) { check(Files(files.begin(), files.size())); }
inline void check(Bytes file) { check({file}); }

/* A file of a volume, to be saved: `changes` is another number after each write to it, also of bytes that stood there already. */
struct File {
    Bytes bytes;
    std::uint64_t changes;
};

/* Files of a volume that no drive has. The library takes the memory for their bytes; the program fills them where they lie, a drive takes
 * them over and gives them back, and none is copied. They are moved, and not copied. One that was made without words, was moved from or freed,
 * or whose files a drive took over holds nothing: each call but free then throws DASD_NOTHING_HELD. */
class HeldFiles {
  public:
    /* None. */
    HeldFiles() noexcept = default;

    /* Files of so many bytes each, one to eight, which are zero. DASD_NO_FILES, DASD_TOO_MANY_FILES, DASD_NO_MEMORY; std::bad_alloc. */
    explicit HeldFiles(std::initializer_list<std::size_t> lengths) : HeldFiles(Span<const std::size_t>(lengths.begin(), lengths.size())) {}
    explicit HeldFiles(Span<const std::size_t> lengths) { detail::done(dasd_files_new(made(), lengths.data(), lengths.size())); }

    /* A file, 0 for the first. Its bytes are the caller's to read and to write until a drive takes them over, or they are freed.
     * DASD_NO_FILE. */
    Span<std::uint8_t> file(std::uint8_t place = 0) {
        dasd_space shown{};
        detail::done(dasd_files_show(held(), place, &shown));
        return {shown.at, shown.len};
    }

    /* Frees them. It holds nothing then. */
    void free() noexcept { handle.reset(); }

    /* Whether it holds files. */
    explicit operator bool() const noexcept { return handle && handle->stamp != 0; }

  private:
    friend class Channels;

    struct Freer {
        void operator()(dasd_files *held) const noexcept {
            dasd_files_free(held);
            delete held;
        }
    };

    /* A handle that holds nothing yet. */
    dasd_files *made() {
        handle.reset(new dasd_files DASD_NO_FILES_HELD);
        return handle.get();
    }

    dasd_files *held() const {
        if (!handle) throw Fault(DASD_NOTHING_HELD);
        return handle.get();
    }

    /* Of its own place, so that a move leaves it where it is: dasd.h forbids copies of it. */
    std::unique_ptr<dasd_files, Freer> handle;
};

/* --- The subsystem --- */

/* One to seven channels, with their drives and the volumes of these, whoever keeps main storage: what a Subsystem and a LentSubsystem have in
 * common. It is moved, and not copied; what a call has shown stays where it is when it is moved. One that was made without words, was moved
 * from or was freed holds nothing: each call but free and get then throws DASD_NOTHING_HELD. Of each call the faults are named that it may
 * throw beside this one. */
class Channels {
  public:
    Channels(const Channels &) = delete;
    Channels &operator=(const Channels &) = delete;

    /* Frees all that it holds. It holds nothing then. */
    void free() noexcept { handle.reset(); }

    /* Whether it holds something. */
    explicit operator bool() const noexcept { return handle != nullptr; }

    /* The handle, for calls of dasd.h that do not free it; null where it holds nothing. */
    dasd *get() noexcept { return handle.get(); }

    /* --- Volumes and drives --- */

    /* Attaches a drive under an address, with the volume that these files, one to eight in their order, hold. They are copied. The arm is at
     * rest at cylinder 0 and head 0, and the sense bytes are zero. Also while a program runs. DASD_NO_CHANNEL, DASD_NO_FILES,
     * DASD_TOO_MANY_FILES, DASD_NO_MEMORY, DASD_NOT_CKD_P370 to DASD_LENGTH, DASD_ADDRESS_TAKEN, DASD_FULL. */
    void attach(std::uint16_t address, Files files) {
        const detail::Pairs pairs(files);
        detail::done(dasd_attach(held(), address, pairs.data(), pairs.size()));
    }
    void attach(std::uint16_t address, std::initializer_list<Bytes> files) { attach(address, Files(files.begin(), files.size())); }
    void attach(std::uint16_t address, Bytes file) { attach(address, {file}); }

    /* The same with files that are taken over, as their bytes are now: none is copied, and they hold nothing then. Their changes are counted
     * again. Where it is refused they stay. */
    void attach(std::uint16_t address, HeldFiles &files) {
        dasd *const disks = held();
        detail::done(dasd_attach_files(disks, address, files.held()));
    }
    void attach(std::uint16_t address, HeldFiles &&files) { attach(address, files); }

    /* The same with a new volume in one file: so many cylinders of this model, 2311 or 2314, whose tracks have a home address and record 0.
     * DASD_BAD_MODEL, DASD_NO_CHANNEL, DASD_NO_CYLINDERS, DASD_NO_MEMORY, DASD_ADDRESS_TAKEN, DASD_FULL. */
    void attach_new(std::uint16_t address, std::uint16_t model, std::uint16_t cylinders) {
        detail::done(dasd_attach_new(held(), address, model, cylinders));
    }

    /* c/interface.toml: begin */
    /* Takes a drive off its channel. Its volume is freed, so save it first, or keep it by detach_files. The other drives and the
     * channel stay. DASD_NO_CHANNEL, DASD_NO_DRIVE, DASD_PROGRAM_RUNS, DASD_ENDING_PENDS, DASD_DEVICE_END_OWED. */
    void detach(std::uint16_t address) { detail::done(dasd_detach(held(), address)); }
    /* c/interface.toml: end */

    /* Takes a drive off its channel, and gives the volume's files back, with all that was written, where they lie: none is copied.
     * DASD_NO_MEMORY, and the faults of detach; std::bad_alloc. */
    HeldFiles detach_files(std::uint16_t address) {
        HeldFiles files;
        detail::done(dasd_detach_files(held(), address, files.made()));
        return files;
    }

    /* A file of a drive's volume, 0 for its first, where the drive's program does not run: that of another drive may. Its bytes are there
     * until the next step, run_on, run_until, hio or reset of that channel, detach or free. DASD_NO_CHANNEL, DASD_PROGRAM_RUNS,
     * DASD_NO_DRIVE, DASD_NO_FILE. */
    File file(std::uint16_t address, std::uint8_t place = 0) {
        dasd_file shown{};
        detail::done(dasd_show_file(held(), address, place, &shown));
        return {Bytes(shown.at, shown.len), shown.changes};
    }

    /* The tracks of such a file that were written since its `changes` was this number, with the places of their slots in it: each other
     * byte is what it was then. A new volume's file is copied whole first. DASD_NO_CHANNEL, DASD_PROGRAM_RUNS, DASD_NO_DRIVE,
     * DASD_NO_FILE; std::bad_alloc. */
    std::vector<dasd_changed> changed(std::uint16_t address, std::uint64_t since, std::uint8_t place = 0) {
        std::vector<dasd_changed> tracks;
        dasd_changed next{};
        while (detail::done(dasd_next_changed(held(), address, place, since, &next)) == 1) tracks.push_back(next);
        return tracks;
    }

    /* What the channels are between two programs, as bytes for a file: main storage, keys and volumes are saved beside it. DASD_PROGRAM_RUNS;
     * std::bad_alloc. */
    std::vector<std::uint8_t> save() {
        std::vector<std::uint8_t> saved(DASD_SAVED);
        std::size_t written = 0;
        detail::done(dasd_save(held(), saved.data(), saved.size(), &written));
        saved.resize(written);
        return saved;
    }

    /* Restores what was saved, all or nothing, over the same channels and drives, where no program runs. DASD_NO_SAVED_STATE,
     * DASD_OTHER_VERSION, DASD_SAVED_LENGTH, DASD_SAVED_SUM, DASD_NOT_SOUND, DASD_OTHER_CHANNELS, DASD_PROGRAM_RUNS, DASD_OTHER_DRIVES,
     * DASD_NO_TRACK, DASD_NOT_OWED. */
    void restore(Bytes saved) {
        const std::uint8_t none = 0;
        detail::done(dasd_restore(held(), saved.empty() ? &none : saved.data(), saved.size()));
    }

    /* What is known of a drive without a channel program. DASD_NO_CHANNEL, DASD_NO_DRIVE. */
    dasd_drive drive(std::uint16_t address) {
        dasd_drive shown{};
        detail::done(dasd_show_drive(held(), address, &shown));
        return shown;
    }

    /* --- Channels --- */

    /* Test Channel, of the channel of an address: 0, it is available; 1, a channel status word pends; 2, a program runs; 3, no channel. */
    int tch(std::uint16_t address) { return detail::done(dasd_tch(held(), address)); }

    /* The arm of the drive at an address has arrived: whether it moved, so that its device end is to be stored. The caller's clock says
     * when. False too, where there is no such drive. */
    bool arrive(std::uint16_t address) { return detail::done(dasd_arrive(held(), address)) == 1; }

    /* Whether interrupt would take an interruption from one of these channels now. */
    bool is_pending(std::uint8_t channels = all_channels) { return detail::done(dasd_is_pending(held(), channels)) == 1; }

    /* Resets a channel and its drives, and no other channel: a program that runs is cut, what pends is lost, arms are at rest, sense bytes
     * are zero. A track that the program had written and that could not be saved; no file in memory refuses to be written.
     * DASD_NO_CHANNEL. */
    std::optional<dasd_track> reset(std::uint8_t channel) {
        dasd_track unsaved{};
        if (detail::done(dasd_reset(held(), channel, &unsaved)) == 0) return std::nullopt;
        return unsaved;
    }

    /* What a channel does, and its drives. DASD_NO_CHANNEL. */
    dasd_state channel(std::uint8_t number) {
        dasd_state shown{};
        detail::done(dasd_show_channel(held(), number, &shown));
        return shown;
    }

    /* The program that runs on a channel, as it is between two units; none where none runs. DASD_NO_CHANNEL. */
    std::optional<dasd_program> program(std::uint8_t number) {
        dasd_program shown{};
        const auto code = dasd_show_program(held(), number, &shown);
        return code == DASD_NO_PROGRAM ? std::nullopt : (detail::done(code), std::optional(shown));
    }

    /* What its drive remembers beside its volume; none where none runs. DASD_NO_CHANNEL. */
    std::optional<dasd_registers> registers(std::uint8_t number) {
        dasd_registers shown{};
        const auto code = dasd_show_registers(held(), number, &shown);
        return code == DASD_NO_PROGRAM ? std::nullopt : (detail::done(code), std::optional(shown));
    }

  protected:
    Channels() noexcept = default;
    Channels(Channels &&) noexcept = default;
    /* Frees what it held before. */
    Channels &operator=(Channels &&) noexcept = default;
    /* Frees all that it holds, its volumes too, whether they were saved or not. */
    ~Channels() = default;

    /* A handle that holds nothing yet. */
    dasd *made() {
        handle.reset(new dasd DASD_NOTHING);
        return handle.get();
    }

    /* Holds a second of what that one holds. DASD_NO_MEMORY; std::bad_alloc. */
    void copy_from(const Channels &from) { detail::done(dasd_copy(from.held(), made())); }

    dasd *held() const {
        if (!handle) throw Fault(DASD_NOTHING_HELD);
        return handle.get();
    }

  private:
    struct Freer {
        void operator()(dasd *held) const noexcept {
            dasd_free(held);
            delete held;
        }
    };

    /* Of its own place, so that a move leaves the handle where it is: dasd.h forbids copies of it. */
    std::unique_ptr<dasd, Freer> handle;
};

/* Main storage, and channels over it. */
class Subsystem : public Channels {
  public:
    /* Nothing. */
    Subsystem() noexcept = default;

    /* Main storage of so many bytes, all zero and with keys 0, and the channels of this set over it, without drives.
     * DASD_BAD_CHANNELS, DASD_BAD_SIZE, DASD_NO_MEMORY; std::bad_alloc. */
    Subsystem(std::uint32_t storage_bytes, std::uint8_t channels) { detail::done(dasd_new(made(), storage_bytes, channels)); }

    /* A second one that is as this one is between two calls, also in the middle of channel programs, with its volumes and its main storage:
     * whatever is called of both from then on is answered alike, and no call of one changes the other. DASD_NO_MEMORY; std::bad_alloc. */
    Subsystem copy() const {
        Subsystem second;
        second.copy_from(*this);
        return second;
    }

    /* --- The processor's instructions: the condition code, 0 to 3, which is 3 where there is no channel of that number --- */

    /* Start I/O: 0, the program that the channel address word at 72 leads to was accepted, and runs by step or run_on; 1, status was stored
     * at 68; 2, the channel is busy; 3, no drive has this address. */
    int sio(std::uint16_t address) { return detail::done(dasd_sio(held(), address)); }

    /* Test I/O: 0, the drive is available; 1, a channel status word was stored at 64; 2, the channel is busy; 3, no drive. */
    int tio(std::uint16_t address) { return detail::done(dasd_tio(held(), address)); }

    /* Halt I/O: 0, a channel status word pends, and stays; 1, nothing ran, and a status of zeros was stored at 68; 2, the program that ran is
     * cut, and its channel status word pends; 3, no drive. */
    int hio(std::uint16_t address) { return detail::done(dasd_hio(held(), address)); }

    /* --- What happens beside the processor --- */

    /* Lets the program that runs on a channel do units until it ends, but so many at most: how many it did, fewer where it ended, and none
     * where none runs. DASD_NO_CHANNEL. */
    std::uint32_t step(std::uint8_t channel, std::uint32_t units) {
        std::uint32_t did = 0;
        detail::done(dasd_step(held(), channel, units, &did));
        return did;
    }

    /* The same, with what the channel does after it. DASD_NO_CHANNEL. */
    dasd_run run_on(std::uint8_t channel, std::uint32_t units) {
        dasd_run ran{};
        detail::done(dasd_run_on(held(), channel, units, &ran));
        return ran;
    }

    /* The same, and it ends also after the first unit that brings what is waited for, bits of enum dasd_until; with counts of what the units
     * came to. DASD_BAD_UNTIL, DASD_NO_CHANNEL. */
    dasd_progress run_until(std::uint8_t channel, std::uint32_t units, std::uint8_t until) {
        dasd_progress ran{};
        detail::done(dasd_run_until(held(), channel, units, until, &ran));
        return ran;
    }

    /* The processor takes an interruption from the channel with the lowest number, of this set, that has one: its address, and its channel
     * status word is stored at 64; nothing, where there is none. For the set, give the system mask of the program status word. */
    std::optional<std::uint16_t> interrupt(std::uint8_t channels = all_channels) {
        std::uint16_t address = 0;
        if (detail::done(dasd_interrupt(held(), channels, &address)) == 0) return std::nullopt;
        return address;
    }

    /* --- Main storage --- */

    /* Main storage itself. Between two calls its bytes are the caller's to read and to write, also while programs run: each change is one
     * that the processor makes. They stay where they are until it is freed. */
    Span<std::uint8_t> storage() {
        dasd_storage shown{};
        detail::done(dasd_show_storage(held(), &shown));
        return {shown.at, shown.len};
    }

    /* Copies as many bytes of storage as there is room for, from an address on, or stores these, all or none. DASD_OUTSIDE_STORAGE. */
    void peek(std::uint32_t at, Span<std::uint8_t> into) {
        std::uint8_t none = 0;
        detail::done(dasd_peek(held(), at, into.empty() ? &none : into.data(), into.size()));
    }
    void poke(std::uint32_t at, Bytes bytes) { detail::done(dasd_poke(held(), at, detail::place_of(bytes), bytes.size())); }

    /* The storage key, 0 to 15, of the block of 2,048 bytes that has this address; and sets it. DASD_OUTSIDE_STORAGE; DASD_BAD_KEY. */
    std::uint8_t key(std::uint32_t at) { return static_cast<std::uint8_t>(detail::done(dasd_key(held(), at))); }
    void set_key(std::uint32_t at, std::uint8_t key) { detail::done(dasd_set_key(held(), at, key)); }
};

/* --- Main storage that is lent --- */

/* Main storage that a program keeps, for the time of a call: its bytes, and the storage key of each block of 2,048 of them, a byte each. A
 * key is the number 0 to 15; a block with a key above 15 admits the key 0 alone. The two do not overlap. */
struct Memory {
    Span<std::uint8_t> bytes;
    Bytes keys;
};

namespace detail {

/* Memory for C, whose pointers are not null. */
class Lent {
  public:
    explicit Lent(const Memory &memory) noexcept
        : at{memory.bytes.empty() ? &none : memory.bytes.data(), memory.bytes.size(), place_of(memory.keys), memory.keys.size()} {}
    Lent(const Lent &) = delete;
    Lent &operator=(const Lent &) = delete;

    dasd_memory *get() noexcept { return &at; }

  private:
    std::uint8_t none = 0;
    dasd_memory at;
};

} // namespace detail

/* Channels for main storage of one size, which each call that needs it is lent. Nothing of it is copied, and no address is kept: between two
 * calls the bytes and the keys are the program's, and may be somewhere else at the next. While a call runs, nobody else reads or writes the
 * bytes, or writes the keys. What these calls do and answer is said at those of a Subsystem. Each of them throws, after
 * DASD_NOTHING_HELD and before all others: DASD_BAD_SIZE, no main storage has so many bytes; DASD_BAD_BLOCKS; DASD_OTHER_SIZE. */
class LentSubsystem : public Channels {
  public:
    /* Nothing. */
    LentSubsystem() noexcept = default;

    /* The channels of this set for main storage of so many bytes, without drives.
     * DASD_BAD_CHANNELS, DASD_BAD_SIZE, DASD_NO_MEMORY; std::bad_alloc. */
    LentSubsystem(std::uint32_t storage_bytes, std::uint8_t channels) { detail::done(dasd_new_lent(made(), storage_bytes, channels)); }

    /* As that of a Subsystem; over memory with the same bytes and keys both answer alike. */
    LentSubsystem copy() const {
        LentSubsystem second;
        second.copy_from(*this);
        return second;
    }

    int sio(const Memory &memory, std::uint16_t address) { return detail::done(dasd_lent_sio(held(), detail::Lent(memory).get(), address)); }
    int tio(const Memory &memory, std::uint16_t address) { return detail::done(dasd_lent_tio(held(), detail::Lent(memory).get(), address)); }
    int hio(const Memory &memory, std::uint16_t address) { return detail::done(dasd_lent_hio(held(), detail::Lent(memory).get(), address)); }

    /* DASD_NO_CHANNEL. */
    std::uint32_t step(const Memory &memory, std::uint8_t channel, std::uint32_t units) {
        detail::done(dasd_lent_step(held(), detail::Lent(memory).get(), channel, &units));
        return units;
    }
    dasd_run run_on(const Memory &memory, std::uint8_t channel, std::uint32_t units) {
        dasd_run ran{units, 0, 0, 0, 0};
        detail::done(dasd_lent_run_on(held(), detail::Lent(memory).get(), channel, &ran));
        return ran;
    }
    dasd_progress run_until(const Memory &memory, std::uint8_t channel, std::uint32_t units, std::uint8_t until) {
        dasd_progress ran{};
        ran.units = units;
        detail::done(dasd_lent_run_until(held(), detail::Lent(memory).get(), channel, until, &ran));
        return ran;
    }

    std::optional<std::uint16_t> interrupt(const Memory &memory, std::uint8_t channels = all_channels) {
        std::uint16_t address = 0;
        if (detail::done(dasd_lent_interrupt(held(), detail::Lent(memory).get(), channels, &address)) == 0) return std::nullopt;
        return address;
    }
};

/* --- A trace --- */

/* A trace of one channel, by looks: the lines of `dasd run --trace` for a log of the program's own. It looks before each start, after each
 * unit, and after each call whose line is wanted:
 *
 *     libdasd::Trace trace(1);
 *     log << trace.look(disks, DASD_BEFORE_SIO, drive);
 *     log << trace.look(disks, DASD_BEHIND_SIO, drive, disks.sio(drive));
 *     while (disks.step(1, 1) == 1) log << trace.look(disks, DASD_BEHIND_UNIT);
 *
 * What it has seen is in it, and nowhere else: it is copied as any value, as where a subsystem is, and a new one has seen nothing. */
class Trace {
  public:
    explicit Trace(std::uint8_t channel) noexcept : number(channel) {}

    /* Looks at its channel, which it never changes: the lines that tell of the moment, often none, which stay until the next look. After a
     * call `address` and `answer` are the call's: 1 and the address for an interruption that was taken. DASD_NO_CHANNEL, DASD_BAD_MOMENT. */
    std::string_view look(Subsystem &disks, dasd_when what, std::uint16_t address = 0, std::uint32_t answer = 0) {
        const dasd_moment moment = at(what, address, answer);
        return lines([&](dasd_trace *trace) { return dasd_trace_look(checked(disks), trace, &moment); });
    }

    /* The same where main storage is lent, which stays as it is. What is said at a LentSubsystem is thrown too. */
    std::string_view look(LentSubsystem &disks, const Memory &memory, dasd_when what, std::uint16_t address = 0, std::uint32_t answer = 0) {
        const dasd_moment moment = at(what, address, answer);
        detail::Lent lent(memory);
        return lines([&](dasd_trace *trace) { return dasd_lent_trace_look(checked(disks), lent.get(), trace, &moment); });
    }

  private:
    dasd_moment at(dasd_when what, std::uint16_t address, std::uint32_t answer) const noexcept {
        return {static_cast<std::uint8_t>(what), number, address, answer, 0, 0};
    }

    static dasd *checked(Channels &disks) {
        if (!disks) throw Fault(DASD_NOTHING_HELD);
        return disks.get();
    }

    template <class Call> std::string_view lines(Call call) {
        seen.lines = room.data();
        seen.size = room.size();
        detail::done(call(&seen));
        return {room.data(), seen.length};
    }

    std::uint8_t number;
    dasd_trace seen{};
    std::array<char, DASD_TRACE_ROOM> room{};
};

} // namespace with_std_span or with_own_span

} // namespace libdasd

#endif
