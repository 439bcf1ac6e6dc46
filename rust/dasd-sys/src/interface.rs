//! The numbers, the structs and the calls of `dasd.h`. Made by tools/run make/interface of c/interface.toml.

use core::ffi::c_void;

/// The number of the binary interface that these declarations are.
pub const DASD_INTERFACE: u32 = 1;

/// The handle. Its fields are the library's.
#[repr(C)]
#[derive(Debug)]
pub struct dasd {
    /// The library's.
    pub stamp: u64,
    /// The library's.
    pub place: *mut c_void,
}

/// Of `enum dasd_fault`.
pub const DASD_DONE: i32 = 0;
/// Of `enum dasd_fault`: the handle holds nothing: it was not made, or was freed.
pub const DASD_NOTHING_HELD: i32 = -1;
/// Of `enum dasd_fault`: the handle holds something already.
pub const DASD_IN_USE: i32 = -2;
/// Of `enum dasd_fault`: memory was refused.
pub const DASD_NO_MEMORY: i32 = -3;
/// Of `enum dasd_fault`: a byte lies outside main storage.
pub const DASD_OUTSIDE_STORAGE: i32 = -4;
/// Of `enum dasd_fault`: storage has a multiple of 2,048 bytes, from 4,096 to 16,777,216.
pub const DASD_BAD_SIZE: i32 = -5;
/// Of `enum dasd_fault`: the set is not one of the channels 0 to 6.
pub const DASD_BAD_CHANNELS: i32 = -6;
/// Of `enum dasd_fault`: a storage key is 0 to 15.
pub const DASD_BAD_KEY: i32 = -7;
/// Of `enum dasd_fault`: a drive's model is 2311 or 2314.
pub const DASD_BAD_MODEL: i32 = -8;
/// Of `enum dasd_fault`: a volume has 1 to 65,535 cylinders.
pub const DASD_NO_CYLINDERS: i32 = -9;
/// Of `enum dasd_fault`: there is no channel of this number.
pub const DASD_NO_CHANNEL: i32 = -10;
/// Of `enum dasd_fault`: no drive with this address is attached.
pub const DASD_NO_DRIVE: i32 = -11;
/// Of `enum dasd_fault`: a drive with this address is attached.
pub const DASD_ADDRESS_TAKEN: i32 = -12;
/// Of `enum dasd_fault`: eight drives are attached to this channel.
pub const DASD_FULL: i32 = -13;
/// Of `enum dasd_fault`: an image has at least one file.
pub const DASD_NO_FILES: i32 = -14;
/// Of `enum dasd_fault`: an image has at most eight files.
pub const DASD_TOO_MANY_FILES: i32 = -15;
/// Of `enum dasd_fault`: the drive's image has no such file.
pub const DASD_NO_FILE: i32 = -16;
/// Of `enum dasd_fault`: a channel program runs.
pub const DASD_PROGRAM_RUNS: i32 = -17;
/// Of `enum dasd_fault`: the channel status word of this drive's program is not yet stored.
pub const DASD_ENDING_PENDS: i32 = -18;
/// Of `enum dasd_fault`: this drive's arm moves, or has arrived and has not interrupted.
pub const DASD_DEVICE_END_OWED: i32 = -19;
/// Of `enum dasd_fault`: the handle owns no main storage: each call is lent it.
pub const DASD_NO_STORAGE: i32 = -20;
/// Of `enum dasd_fault`: main storage has one key for each block of 2,048 bytes.
pub const DASD_BAD_BLOCKS: i32 = -21;
/// Of `enum dasd_fault`: the channels are for main storage of another size.
pub const DASD_OTHER_SIZE: i32 = -22;
/// Of `enum dasd_fault`: no channel program runs on this channel.
pub const DASD_NO_PROGRAM: i32 = -23;
/// Of `enum dasd_fault`: what is to be written may have more bytes than there is room for.
pub const DASD_NO_ROOM: i32 = -24;
/// Of `enum dasd_fault`: there is no such moment, or its call answers no such thing.
pub const DASD_BAD_MOMENT: i32 = -25;
/// Of `enum dasd_fault`: nothing is waited for by such a bit.
pub const DASD_BAD_UNTIL: i32 = -26;
/// Of `enum dasd_fault`: a saved channel status word is no ending that its channel owes.
pub const DASD_NOT_OWED: i32 = -27;
/// Of `enum dasd_fault`: not a CKD_P370 image.
pub const DASD_NOT_CKD_P370: i32 = -32;
/// Of `enum dasd_fault`: a compressed image, or a shadow file.
pub const DASD_COMPRESSED: i32 = -33;
/// Of `enum dasd_fault`: neither a 2311 nor a 2314.
pub const DASD_DEVICE_TYPE: i32 = -34;
/// Of `enum dasd_fault`: the number of heads is not the drive's.
pub const DASD_HEADS: i32 = -35;
/// Of `enum dasd_fault`: a track of the drive may not fit the track size.
pub const DASD_TRACK_SIZE: i32 = -36;
/// Of `enum dasd_fault`: the files are not those of one image, in order.
pub const DASD_SPLIT: i32 = -37;
/// Of `enum dasd_fault`: a file's length is not that of an image.
pub const DASD_LENGTH: i32 = -38;
/// Of `enum dasd_fault`: a file could not be read or written; no file in memory does so.
pub const DASD_STORE: i32 = -39;
/// Of `enum dasd_fault`: not a saved state.
pub const DASD_NO_SAVED_STATE: i32 = -40;
/// Of `enum dasd_fault`: a saved state of another version.
pub const DASD_OTHER_VERSION: i32 = -41;
/// Of `enum dasd_fault`: a saved state that is cut short, or too long.
pub const DASD_SAVED_LENGTH: i32 = -42;
/// Of `enum dasd_fault`: a saved state that was changed: its checksum does not fit.
pub const DASD_SAVED_SUM: i32 = -43;
/// Of `enum dasd_fault`: a field of a saved state has a value that none has.
pub const DASD_NOT_SOUND: i32 = -44;
/// Of `enum dasd_fault`: a saved state of other channels.
pub const DASD_OTHER_CHANNELS: i32 = -45;
/// Of `enum dasd_fault`: a saved state of a channel with other drives.
pub const DASD_OTHER_DRIVES: i32 = -46;
/// Of `enum dasd_fault`: a drive was saved at a track that its volume does not have.
pub const DASD_NO_TRACK: i32 = -47;

/// What `dasd_run_until` is asked for.
#[repr(C)]
#[derive(Clone, Copy, Debug, Default)]
pub struct dasd_wanted {
    /// How many at most.
    pub units: u32,
    /// The channel's number.
    pub channel: u8,
    /// Bits of `enum dasd_until`.
    pub until: u8,
    /// Not looked at.
    pub reserved: [u8; 2],
}

/// How many bytes a saved state has.
pub const DASD_SAVED: usize = 538;

/// The bytes of a file, to be read.
#[repr(C)]
#[derive(Clone, Copy, Debug)]
pub struct dasd_bytes {
    /// Where they begin; not null, even where there are none.
    pub at: *const u8,
    /// How many they are.
    pub len: usize,
}

/// A file of a volume, to be saved: `len` bytes at `at`. `changes` is another number after each write to it, also of bytes that stood
/// there already.
#[repr(C)]
#[derive(Clone, Copy, Debug)]
pub struct dasd_file {
    /// Where its bytes begin.
    pub at: *const u8,
    /// How many they are.
    pub len: usize,
    /// Another number after each write to the file, also of bytes that stood there already.
    pub changes: u64,
}

/// A track of a file that was written, and where its slot lies there.
#[repr(C)]
#[derive(Clone, Copy, Debug, Default)]
pub struct dasd_changed {
    /// Where the slot begins in the file.
    pub at: usize,
    /// How many bytes it has.
    pub len: usize,
    /// The track's number among those of the file, from 0 on: cylinder by cylinder, and head by head.
    pub track: usize,
    /// The number of the track at which the next look begins: 0 before the first call.
    pub next: usize,
}

/// Files of a volume that no drive has: a handle too, of 16 bytes, for which all that is said of a [`dasd`] holds. The library takes the
/// memory for their bytes, the caller fills them where they lie, and a drive takes them over and gives them back: a volume is never there
/// twice, as it is for a while where [`dasd_attach`] copies it.
///
/// ```c
/// dasd_files f = DASD_NO_FILES_HELD;
/// dasd_space space;
/// size_t len = the file's length;
/// if (dasd_files_new(&f, &len, 1) < 0 || dasd_files_show(&f, 0, &space) < 0) ...
/// if (fread(space.at, 1, space.len, file) != space.len) ...
/// if (dasd_attach_files(&d, 0x190, &f) < 0) dasd_files_free(&f);
/// ```
#[repr(C)]
#[derive(Debug)]
pub struct dasd_files {
    /// The library's.
    pub stamp: u64,
    /// The library's.
    pub place: *mut c_void,
}

/// The bytes of a file that no drive has: `len` bytes at `at`.
#[repr(C)]
#[derive(Clone, Copy, Debug)]
pub struct dasd_space {
    /// Where they lie.
    pub at: *mut u8,
    /// How many there are.
    pub len: usize,
}

/// Of `enum dasd_arm`.
pub const DASD_AT_REST: u8 = 0;
/// Of `enum dasd_arm`.
pub const DASD_IN_MOTION: u8 = 1;
/// Of `enum dasd_arm`.
pub const DASD_ARRIVED: u8 = 2;

/// What is known of a drive without a channel program.
#[repr(C)]
#[derive(Clone, Copy, Debug, Default)]
pub struct dasd_drive {
    /// 2311 or 2314.
    pub model: u16,
    /// How many its volume has.
    pub cylinders: u16,
    /// Where its arm is or, in motion, goes.
    pub cylinder: u16,
    /// The head that is selected.
    pub head: u16,
    /// A value of `enum dasd_arm`.
    pub arm: u8,
    /// The sense bytes; they stay.
    pub sense: [u8; 6],
    /// 0.
    pub reserved: u8,
}

/// Of `enum dasd_subchannel`.
pub const DASD_AVAILABLE: u8 = 0;
/// Of `enum dasd_subchannel`.
pub const DASD_WORKING: u8 = 1;
/// Of `enum dasd_subchannel`.
pub const DASD_ENDED: u8 = 2;

/// What came of [`dasd_run_on`].
#[repr(C)]
#[derive(Clone, Copy, Debug, Default)]
pub struct dasd_run {
    /// How many were done.
    pub units: u32,
    /// A value of `enum dasd_subchannel` after them: [`DASD_WORKING`], the program goes on; [`DASD_ENDED`], it has ended.
    pub subchannel: u8,
    /// The low byte of the address whose program that is; 0 for [`DASD_AVAILABLE`].
    pub device: u8,
    /// 1: a word of the program asked for an interruption that is not yet taken.
    pub asked: u8,
    /// 0.
    pub reserved: u8,
}

/// Of `enum dasd_until`: a word asks for an interruption (PCI), where none was asked for that is not yet taken.
pub const DASD_UNTIL_ASKED: u8 = 1;
/// Of `enum dasd_until`: the arm is at another cylinder.
pub const DASD_UNTIL_CYLINDER: u8 = 2;
/// Of `enum dasd_until`: the arm is at another cylinder, or another head is selected.
pub const DASD_UNTIL_TRACK: u8 = 4;

/// What came of `dasd_run_until`.
#[repr(C)]
#[derive(Clone, Copy, Debug, Default)]
pub struct dasd_progress {
    /// How many cylinders the arm crossed, in all its moves.
    pub cylinders: u64,
    /// How many units were done.
    pub units: u32,
    /// How many bytes moved between drive and channel; a byte that is read and skipped is one.
    pub bytes: u32,
    /// How often the index passed a command that looked for its area, also one that found none.
    pub indexes: u32,
    /// How many bytes were stored into main storage.
    pub stored: u32,
    /// The lowest address that was stored into; where none was, 0.
    pub low: u32,
    /// The highest.
    pub high: u32,
    /// A value of `enum dasd_subchannel` after them, as [`dasd_run_on`] tells it.
    pub subchannel: u8,
    /// The low byte of the address whose program that is; 0 for [`DASD_AVAILABLE`].
    pub device: u8,
    /// 1: a word of the program asked for an interruption that is not yet taken.
    pub asked: u8,
    /// What happened in the last unit of what was waited for: bits of `enum dasd_until`; 0, nothing did.
    pub stopped: u8,
    /// 0.
    pub reserved: [u8; 4],
}

/// A track that was written and could not be saved.
#[repr(C)]
#[derive(Clone, Copy, Debug, Default)]
pub struct dasd_track {
    /// The address of its drive.
    pub address: u16,
    /// Its cylinder.
    pub cylinder: u16,
    /// Its head.
    pub head: u16,
}

/// A channel, as it is shown.
#[repr(C)]
#[derive(Clone, Copy, Debug, Default)]
pub struct dasd_state {
    /// A value of `enum dasd_subchannel`: available; a program runs; it ended, and its channel status word pends.
    pub subchannel: u8,
    /// The low byte of the address whose program runs or ended; else 0.
    pub device: u8,
    /// 1: a word of the program asked for an interruption that is not yet taken.
    pub asked: u8,
    /// How many drives are attached.
    pub drives: u8,
    /// The low bytes of their addresses, in the order of attachment; after them 0.
    pub units: [u8; 8],
    /// A value of `enum dasd_arm` of each.
    pub arms: [u8; 8],
}

/// Of `enum dasd_phase`: it fetches a word that begins a command.
pub const DASD_FETCHES: u8 = 0;
/// Of `enum dasd_phase`: it looks for the area of the command at work.
pub const DASD_LOOKS: u8 = 1;
/// Of `enum dasd_phase`: it moves bytes.
pub const DASD_MOVES: u8 = 2;

/// A channel program that runs, as it is between two units. The word at work is the channel command word whose command has begun and has
/// not ended, or that its data are chained to; where a word is to be fetched that begins a command, its four fields are 0.
#[repr(C)]
#[derive(Clone, Copy, Debug, Default)]
pub struct dasd_program {
    /// Where the last word was whose fetch was tried.
    pub last: u32,
    /// Where the next word is.
    pub next: u32,
    /// The data address of the word at work.
    pub address: u32,
    /// Where its next byte goes or comes from; before the first that is its data address.
    pub place: u32,
    /// Its count.
    pub count: u16,
    /// The count left in the last good word: the residual count of a channel status word.
    pub left: u16,
    /// The low byte of the drive's address.
    pub device: u8,
    /// The protection key of its stores, 0 to 15.
    pub key: u8,
    /// A value of `enum dasd_phase`.
    pub phase: u8,
    /// 1: a word asked for an interruption that is not yet taken.
    pub asked: u8,
    /// The command code of the word at work.
    pub code: u8,
    /// Its flags, the high five bits.
    pub flags: u8,
    /// 0.
    pub reserved: [u8; 2],
}

/// Of `enum dasd_area`: none: none has passed since the index.
pub const DASD_INDEX: u8 = 0;
/// Of `enum dasd_area`.
pub const DASD_HOME_ADDRESS: u8 = 1;
/// Of `enum dasd_area`.
pub const DASD_COUNT: u8 = 2;
/// Of `enum dasd_area`.
pub const DASD_KEY: u8 = 3;
/// Of `enum dasd_area`.
pub const DASD_DATA: u8 = 4;

/// Of `enum dasd_credit`.
pub const DASD_NO_CREDIT: u8 = 0;
/// Of `enum dasd_credit`: a search found the whole of it equal.
pub const DASD_EQUAL_HOME_ADDRESS: u8 = 1;
/// Of `enum dasd_credit`.
pub const DASD_EQUAL_ID: u8 = 2;
/// Of `enum dasd_credit`.
pub const DASD_EQUAL_KEY: u8 = 3;
/// Of `enum dasd_credit`: it was written.
pub const DASD_WROTE_HOME_ADDRESS: u8 = 4;
/// Of `enum dasd_credit`.
pub const DASD_WROTE_RECORD: u8 = 5;

/// What a drive remembers in a program, beside its volume. A record is named by its place on the track, where record 0 is 0.
#[repr(C)]
#[derive(Clone, Copy, Debug, Default)]
pub struct dasd_registers {
    /// The record whose area passed last.
    pub passed: u64,
    /// The record that the credit is for.
    pub credited: u64,
    /// Where its arm is.
    pub cylinder: u16,
    /// The head that is selected.
    pub head: u16,
    /// The sense bytes, of this program so far.
    pub sense: [u8; 6],
    /// A value of `enum dasd_area`: what passed last on this turn of the track; an area passes as the command ends that found it.
    pub area: u8,
    /// 1: the index has passed once since the commands began to look on this track.
    pub lap: u8,
    /// The file mask, in the bits C0 and 18 of the byte that Set File Mask takes.
    pub mask: u8,
    /// 1: a Set File Mask of this program has set it.
    pub mask_set: u8,
    /// A value of `enum dasd_credit`.
    pub credit: u8,
    /// 0.
    pub reserved: [u8; 9],
}

/// Of `enum dasd_when`: [`dasd_sio`] is about to be called for this address.
pub const DASD_BEFORE_SIO: u8 = 0;
/// Of `enum dasd_when`: the channel's program has done a unit.
pub const DASD_BEHIND_UNIT: u8 = 1;
/// Of `enum dasd_when`: after [`dasd_sio`], [`dasd_tio`], [`dasd_hio`], [`dasd_tch`]: the condition code.
pub const DASD_BEHIND_SIO: u8 = 2;
/// Of `enum dasd_when`.
pub const DASD_BEHIND_TIO: u8 = 3;
/// Of `enum dasd_when`.
pub const DASD_BEHIND_HIO: u8 = 4;
/// Of `enum dasd_when`.
pub const DASD_BEHIND_TCH: u8 = 5;
/// Of `enum dasd_when`: so many units were done, 65,535 at most, after the last of which it has looked.
pub const DASD_BEHIND_STEP: u8 = 6;
/// Of `enum dasd_when`: the same, with another word and any number.
pub const DASD_BEHIND_RUN: u8 = 7;
/// Of `enum dasd_when`: after [`dasd_arrive`]: 1 or 0.
pub const DASD_BEHIND_ARRIVE: u8 = 8;
/// Of `enum dasd_when`: after [`dasd_interrupt`]: 1, from this address, or 0.
pub const DASD_BEHIND_INTERRUPT: u8 = 9;
/// Of `enum dasd_when`: after [`dasd_reset`]: 0; or 1, with the track that is lost.
pub const DASD_BEHIND_RESET: u8 = 10;
/// Of `enum dasd_when`: the trace ends: a word that is still at work is reported.
pub const DASD_AT_END: u8 = 11;

/// A moment.
#[repr(C)]
#[derive(Clone, Copy, Debug, Default)]
pub struct dasd_moment {
    /// A value of `enum dasd_when`.
    pub what: u8,
    /// The number of the channel that is looked at.
    pub channel: u8,
    /// Of a call that has one; of a track that a reset has lost.
    pub address: u16,
    /// Of a call.
    pub answer: u32,
    /// Of a track that a reset has lost.
    pub cylinder: u16,
    /// Of a track that a reset has lost.
    pub head: u16,
}

/// Room for the lines of any look.
pub const DASD_TRACE_ROOM: usize = 2048;

/// A trace of one channel. It is copied by `=`, with lines of its own, as a handle is by [`dasd_copy`]; and begins again with zeros in `kept`.
#[repr(C)]
#[derive(Clone, Copy, Debug)]
pub struct dasd_trace {
    /// Where the lines of a look go.
    pub lines: *mut u8,
    /// How many bytes there may be, [`DASD_TRACE_ROOM`] or more.
    pub size: usize,
    /// How many the lines of the last look have; each ends in a line feed, and no zero comes after them.
    pub length: usize,
    /// What it has seen: the library's. All zero it is nothing.
    pub kept: [u64; 32],
}

/// Main storage: `len` bytes at `at`.
#[repr(C)]
#[derive(Clone, Copy, Debug)]
pub struct dasd_storage {
    /// Where its bytes begin.
    pub at: *mut u8,
    /// How many they are.
    pub len: usize,
}

/// Main storage: `size` bytes, and the storage key of each of its `blocks` blocks of 2,048 bytes. A key is the number 0 to 15. A key above
/// 15 is not refused: its block admits the key 0 alone, and no channel program with another key stores there. So an emulator that keeps a
/// key in the high four bits of a byte, beside reference and change, gives a list of the keys alone.
#[repr(C)]
#[derive(Clone, Copy, Debug)]
pub struct dasd_memory {
    /// Where its bytes begin.
    pub bytes: *mut u8,
    /// How many they are.
    pub size: usize,
    /// Where the storage keys begin, one for each block of 2,048 bytes.
    pub keys: *const u8,
    /// How many they are.
    pub blocks: usize,
}

extern "C" {
    /// As `dasd_show_program`, into a struct of so many bytes.
    pub fn dasd_show_program_sized(d: *mut dasd, channel: u8, shown: *mut u8, size: usize) -> i32;
    /// As `dasd_show_registers`, into a struct of so many bytes.
    pub fn dasd_show_registers_sized(d: *mut dasd, channel: u8, shown: *mut u8, size: usize) -> i32;
    /// As `dasd_run_until`, into a struct of so many bytes.
    pub fn dasd_run_until_sized(d: *mut dasd, wanted: *const dasd_wanted, ran: *mut u8, size: usize) -> i32;
    /// The version of the library: major, minor and patch, in 16 bits, 8 and 8.
    pub fn dasd_version() -> u32;
    /// The number of the library's binary interface.
    pub fn dasd_interface() -> u32;
    /// Makes main storage of so many bytes, all zero and with keys 0, and the channels of this set over it, without drives. The set has one
    /// to seven of the channels 0 to 6, and not bit 7, which is no channel's. Main storage is there once, for all of them.
    /// [`DASD_IN_USE`], [`DASD_BAD_CHANNELS`], [`DASD_BAD_SIZE`], [`DASD_NO_MEMORY`]. It does not answer [`DASD_NOTHING_HELD`].
    pub fn dasd_new(d: *mut dasd, storage_bytes: u32, channels: u8) -> i32;
    /// Makes `copy`, a handle that holds nothing, hold a second of all that this one holds, as it is between two calls, also in the middle of
    /// channel programs: main storage and its keys, where they are the handle's; what each channel runs, what pends, and what arms do; the
    /// drives with their sense bytes; and their volumes. Whatever is called of both from then on is answered alike, over memory with the same
    /// bytes and keys where it is lent, and no call of one changes the other. So a program is stepped backwards, or tried and gone back to. It
    /// costs what copying all volumes does. [`DASD_IN_USE`], `copy` holds something; [`DASD_NO_MEMORY`]. Where it is refused both are as they were.
    pub fn dasd_copy(d: *mut dasd, copy: *mut dasd) -> i32;
    /// Saves what the channels are between two programs, for a file: of each channel the channel status word that pends, if one does, and of
    /// each drive what its arm does, the cylinder, the head and the sense bytes. Main storage, keys and the volumes' files are not in it: save
    /// them beside it. The first [`DASD_SAVED`] of `len` bytes are written, and `written` is [`DASD_SAVED`]. [`DASD_PROGRAM_RUNS`], a channel's program
    /// runs: run it on to its end, or halt it, and then save; [`DASD_NO_ROOM`], `len` is less than [`DASD_SAVED`]. docs/EMBEDDING.md has the format.
    pub fn dasd_save(d: *mut dasd, into: *mut u8, len: usize, written: *mut usize) -> i32;
    /// Restores what was saved, where no program runs: the handle has channels of the same numbers, each with drives of the same addresses, in
    /// any order, whose volumes have the tracks where the arms were. What pends and what arms do now is lost. All is restored or nothing, and the
    /// bytes may come from a stranger: whatever they are, the channels are sound afterwards. [`DASD_NO_SAVED_STATE`], [`DASD_OTHER_VERSION`],
    /// [`DASD_SAVED_LENGTH`], [`DASD_SAVED_SUM`], [`DASD_NOT_SOUND`]; then, channel by channel, [`DASD_OTHER_CHANNELS`], [`DASD_PROGRAM_RUNS`], [`DASD_OTHER_DRIVES`],
    /// [`DASD_NO_TRACK`], [`DASD_NOT_OWED`].
    pub fn dasd_restore(d: *mut dasd, from: *const u8, len: usize) -> i32;
    /// Frees all that the handle holds, its volumes too, whether they were saved or not. The handle holds nothing then.
    pub fn dasd_free(d: *mut dasd) -> i32;
    /// Whether these files, one to eight in their order, are an image: what [`dasd_attach`] would find. It needs no handle, and memory for a
    /// copy while it looks. [`DASD_NO_FILES`], [`DASD_TOO_MANY_FILES`], [`DASD_NO_MEMORY`], and why they are none, [`DASD_NOT_CKD_P370`] to [`DASD_LENGTH`].
    pub fn dasd_check(files: *const dasd_bytes, count: usize) -> i32;
    /// Attaches a drive under an address, with the volume that these files, one to eight in their order, hold. They are copied: the
    /// caller's bytes are free afterwards ([`dasd_attach_files`] copies none). The arm is at rest at cylinder 0 and head 0, and the sense bytes are zero.
    /// Also while a program runs. [`DASD_NO_CHANNEL`], [`DASD_NO_FILES`], [`DASD_TOO_MANY_FILES`], [`DASD_NO_MEMORY`], [`DASD_NOT_CKD_P370`] to [`DASD_LENGTH`],
    /// [`DASD_ADDRESS_TAKEN`], [`DASD_FULL`].
    pub fn dasd_attach(d: *mut dasd, address: u16, files: *const dasd_bytes, count: usize) -> i32;
    /// The same with a new volume in one file: so many cylinders of this model, 2311 or 2314, whose tracks have a home address and record 0.
    /// [`DASD_BAD_MODEL`], [`DASD_NO_CHANNEL`], [`DASD_NO_CYLINDERS`], [`DASD_NO_MEMORY`], [`DASD_ADDRESS_TAKEN`], [`DASD_FULL`].
    pub fn dasd_attach_new(d: *mut dasd, address: u16, model: u16, cylinders: u16) -> i32;
    /// Takes a drive off its channel. Its volume is freed, so save it first, or keep it by [`dasd_detach_files`]. The other drives and the channel
    /// stay.
    /// [`DASD_NO_CHANNEL`], [`DASD_NO_DRIVE`], [`DASD_PROGRAM_RUNS`], [`DASD_ENDING_PENDS`], [`DASD_DEVICE_END_OWED`].
    pub fn dasd_detach(d: *mut dasd, address: u16) -> i32;
    /// Shows a file of a drive's volume, 0 for its first, where the drive's program does not run: that of another drive may. All that the
    /// drive's programs wrote is in it. The bytes are there, and are the volume's, until the next [`dasd_step`], [`dasd_run_on`], `dasd_run_until`,
    /// [`dasd_hio`] or [`dasd_reset`] of that channel, [`dasd_detach`], [`dasd_detach_files`] or [`dasd_free`]. [`DASD_NO_CHANNEL`], [`DASD_PROGRAM_RUNS`], [`DASD_NO_DRIVE`],
    /// [`DASD_NO_FILE`].
    pub fn dasd_show_file(d: *mut dasd, address: u16, file: u8, shown: *mut dasd_file) -> i32;
    /// Shows the first track of a file, from number `next` of it on, that was written since the file's `changes` was `since`: 1, and `track`
    /// names it, with `next` after it; or 0, there is none, and `track` stays. Each byte of a track that is passed over is what it was when
    /// the number was `since`, and so is the header, which no drive writes. So a copy of the file, made when the number was `since`, is the
    /// file once each track that is shown was copied:
    ///
    /// ```c
    /// dasd_changed it = {0, 0, 0, 0};
    /// dasd_show_file(&d, 0x190, 0, &file);
    /// while (dasd_next_changed(&d, 0x190, 0, since, &it) == 1) pwrite(fd, file.at + it.at, it.len, (off_t)it.at);
    /// if (fsync(fd) == 0) since = file.changes;
    ///
    /// ```
    /// The number is the caller's to keep, and no call forgets what was written: where a write fails it stays, and the next time the same
    /// tracks are shown, and those since. `since` is a number that [`dasd_show_file`] has shown of this file. A number above the file's own shows
    /// all tracks. A new volume's file is copied whole before all that: [`dasd_attach_new`] wrote it. Where [`dasd_show_file`] would be refused:
    /// [`DASD_NO_CHANNEL`], [`DASD_PROGRAM_RUNS`], [`DASD_NO_DRIVE`], [`DASD_NO_FILE`].
    pub fn dasd_next_changed(d: *mut dasd, address: u16, file: u8, since: u64, track: *mut dasd_changed) -> i32;
    /// Takes the memory for files of so many bytes each, one to eight of them, and fills it with zeros. `f` holds them then.
    /// [`DASD_IN_USE`], `f` holds files; [`DASD_NO_FILES`], [`DASD_TOO_MANY_FILES`], [`DASD_NO_MEMORY`]. It does not answer [`DASD_NOTHING_HELD`].
    pub fn dasd_files_new(f: *mut dasd_files, lengths: *const usize, count: usize) -> i32;
    /// Shows where a file lies, 0 for the first. Its bytes are the caller's to read and to write until [`dasd_attach_files`] takes them over,
    /// or [`dasd_files_free`]. [`DASD_NO_FILE`].
    pub fn dasd_files_show(f: *mut dasd_files, file: u8, shown: *mut dasd_space) -> i32;
    /// Attaches a drive under an address, as [`dasd_attach`] does, with the volume that these files hold as their bytes are now. They are the
    /// drive's from then on, and `f` holds nothing: none is copied, and memory is taken for the drive, and to keep which tracks are written,
    /// alone. `changes` is counted from 0 again, also where the files were a drive's before: a number that was shown then says nothing now.
    /// [`DASD_NOTHING_HELD`], `d` or `f` does; then as [`dasd_attach`]: [`DASD_NO_CHANNEL`], [`DASD_NO_MEMORY`], [`DASD_NOT_CKD_P370`] to [`DASD_LENGTH`],
    /// [`DASD_ADDRESS_TAKEN`], [`DASD_FULL`]. Where it is refused `f` holds the files as they were.
    pub fn dasd_attach_files(d: *mut dasd, address: u16, f: *mut dasd_files) -> i32;
    /// Takes a drive off its channel, as [`dasd_detach`] does, and gives the files of its volume, with all that was written, to `f`, which held
    /// nothing. They lie where they lay, and none is copied. [`DASD_IN_USE`], `f` holds files; [`DASD_NO_MEMORY`], a little is taken for `f`, before
    /// the drive is looked for; [`DASD_NO_CHANNEL`], [`DASD_NO_DRIVE`], [`DASD_PROGRAM_RUNS`], [`DASD_ENDING_PENDS`], [`DASD_DEVICE_END_OWED`].
    pub fn dasd_detach_files(d: *mut dasd, address: u16, f: *mut dasd_files) -> i32;
    /// Frees the files. The handle holds none then.
    pub fn dasd_files_free(f: *mut dasd_files) -> i32;
    /// Shows a drive. [`DASD_NO_CHANNEL`], [`DASD_NO_DRIVE`].
    pub fn dasd_show_drive(d: *mut dasd, address: u16, shown: *mut dasd_drive) -> i32;
    /// Start I/O: 0, the program that the channel address word at 72 leads to was accepted, and runs by [`dasd_step`]; 1, status was stored;
    /// 2, the channel is busy; 3, no drive has this address.
    pub fn dasd_sio(d: *mut dasd, address: u16) -> i32;
    /// Test I/O: 0, the drive is available; 1, a channel status word was stored; 2, the channel is busy; 3, no drive.
    pub fn dasd_tio(d: *mut dasd, address: u16) -> i32;
    /// Halt I/O: 0, a channel status word pends, and stays; 1, nothing ran, and a status of zeros was stored; 2, the program that ran is
    /// cut, and its channel status word pends; 3, no drive.
    pub fn dasd_hio(d: *mut dasd, address: u16) -> i32;
    /// Test Channel, of the channel of an address: 0, it is available; 1, a channel status word pends; 2, a program runs; 3, no channel.
    pub fn dasd_tch(d: *mut dasd, address: u16) -> i32;
    /// Lets the program that runs on a channel do units until it ends, but so many at most, and says how many it did: fewer where it ended,
    /// and none where none runs. [`DASD_NO_CHANNEL`].
    pub fn dasd_step(d: *mut dasd, channel: u8, units: u32, done: *mut u32) -> i32;
    /// The same, with what the channel does after it. [`DASD_NO_CHANNEL`].
    pub fn dasd_run_on(d: *mut dasd, channel: u8, units: u32, ran: *mut dasd_run) -> i32;
    /// The arm of the drive at an address has arrived: 1, if it moved, and its device end is to be stored; 0, if it did not, or there is no
    /// such drive. The caller's clock says when.
    pub fn dasd_arrive(d: *mut dasd, address: u16) -> i32;
    /// Whether [`dasd_interrupt`] would take an interruption from one of these channels now: 1 or 0.
    pub fn dasd_is_pending(d: *mut dasd, channels: u8) -> i32;
    /// The processor takes an interruption from a channel of this set: 1, its address is answered, and its channel status word is stored; 0,
    /// there is none, and `address` stays. Of several channels that have one it is the channel with the lowest number; the others keep
    /// theirs. For the set, give the system mask of the program status word (PoO, 'Input/Output Interruption').
    pub fn dasd_interrupt(d: *mut dasd, channels: u8, address: *mut u16) -> i32;
    /// Resets a channel and its drives, and no other channel: a program that runs is cut, what pends is lost, arms are at rest, sense bytes
    /// are zero. 1, where a track that the program had written could not be saved, which `unsaved` names; else 0, and `unsaved` stays. No
    /// file in memory refuses to be written. [`DASD_NO_CHANNEL`].
    pub fn dasd_reset(d: *mut dasd, channel: u8, unsaved: *mut dasd_track) -> i32;
    /// Shows a channel. [`DASD_NO_CHANNEL`].
    pub fn dasd_show_channel(d: *mut dasd, channel: u8, shown: *mut dasd_state) -> i32;
    /// Looks at a channel at a moment, and puts the lines that tell of it at `lines`; often there are none. The bytes after
    /// them stay. What does not fit is not cut: [`DASD_NO_ROOM`] comes for a size below [`DASD_TRACE_ROOM`], whatever the lines are.
    /// [`DASD_NO_CHANNEL`], [`DASD_BAD_MOMENT`], [`DASD_NO_ROOM`], in this order.
    pub fn dasd_trace_look(d: *mut dasd, trace: *mut dasd_trace, moment: *const dasd_moment) -> i32;
    /// Shows where main storage lies. Between two calls its bytes are the caller's to read and to write, also while programs run: each
    /// change is one that the processor makes. They stay where they are until [`dasd_free`].
    pub fn dasd_show_storage(d: *mut dasd, shown: *mut dasd_storage) -> i32;
    /// Copies bytes of storage from an address on. [`DASD_OUTSIDE_STORAGE`].
    pub fn dasd_peek(d: *mut dasd, at: u32, into: *mut u8, len: usize) -> i32;
    /// Stores bytes from an address on. [`DASD_OUTSIDE_STORAGE`].
    pub fn dasd_poke(d: *mut dasd, at: u32, bytes: *const u8, len: usize) -> i32;
    /// The storage key, 0 to 15, of the block of 2,048 bytes that has this address (PoO, 'Storage Protection'). [`DASD_OUTSIDE_STORAGE`].
    pub fn dasd_key(d: *mut dasd, at: u32) -> i32;
    /// Sets it. [`DASD_BAD_KEY`], [`DASD_OUTSIDE_STORAGE`].
    pub fn dasd_set_key(d: *mut dasd, at: u32, key: u8) -> i32;
    /// Makes the channels of a set, as [`dasd_new`], for main storage of so many bytes, which each call is lent.
    /// [`DASD_IN_USE`], [`DASD_BAD_CHANNELS`], [`DASD_BAD_SIZE`], [`DASD_NO_MEMORY`]. It does not answer [`DASD_NOTHING_HELD`].
    pub fn dasd_new_lent(d: *mut dasd, storage_bytes: u32, channels: u8) -> i32;
    /// Start I/O, over main storage that is lent.
    pub fn dasd_lent_sio(d: *mut dasd, memory: *mut dasd_memory, address: u16) -> i32;
    /// Test I/O, over main storage that is lent.
    pub fn dasd_lent_tio(d: *mut dasd, memory: *mut dasd_memory, address: u16) -> i32;
    /// Halt I/O, over main storage that is lent.
    pub fn dasd_lent_hio(d: *mut dasd, memory: *mut dasd_memory, address: u16) -> i32;
    /// As [`dasd_step`], over main storage that is lent: `units` is how many units are done at most, and then how many were.
    pub fn dasd_lent_step(d: *mut dasd, memory: *mut dasd_memory, channel: u8, units: *mut u32) -> i32;
    /// As [`dasd_run_on`], over main storage that is lent: `units` of `ran` is how many units are done at most, and then how many were.
    pub fn dasd_lent_run_on(d: *mut dasd, memory: *mut dasd_memory, channel: u8, ran: *mut dasd_run) -> i32;
    /// As [`dasd_interrupt`], over main storage that is lent.
    pub fn dasd_lent_interrupt(d: *mut dasd, memory: *mut dasd_memory, channels: u8, address: *mut u16) -> i32;
    /// As [`dasd_trace_look`], over main storage that is lent, and that stays as it is.
    pub fn dasd_lent_trace_look(d: *mut dasd, memory: *mut dasd_memory, trace: *mut dasd_trace, moment: *const dasd_moment) -> i32;
    /// As `dasd_lent_run_until`, into a struct of so many bytes.
    pub fn dasd_lent_run_until_sized(d: *mut dasd, memory: *mut dasd_memory, wanted: *const dasd_wanted, ran: *mut u8, size: usize) -> i32;
}

// Where each field lies, on a machine whose pointers have 64 bits: a compiler that lays a struct out in another way is refused.
#[cfg(target_pointer_width = "64")]
const _: () = {
    use core::mem::{size_of, MaybeUninit};
    use core::ptr::addr_of;
    macro_rules! lies {
        ($of:ident, $size:literal, $($field:ident $at:literal),*) => {
            assert!(size_of::<$of>() == $size);
            let it = MaybeUninit::<$of>::uninit();
            let first = it.as_ptr();
            $(assert!(unsafe { addr_of!((*first).$field).cast::<u8>().offset_from(first.cast::<u8>()) } == $at);)*
        };
    }
    lies!(dasd, 16, stamp 0, place 8);
    lies!(dasd_wanted, 8, units 0, channel 4, until 5, reserved 6);
    lies!(dasd_bytes, 16, at 0, len 8);
    lies!(dasd_file, 24, at 0, len 8, changes 16);
    lies!(dasd_changed, 32, at 0, len 8, track 16, next 24);
    lies!(dasd_files, 16, stamp 0, place 8);
    lies!(dasd_space, 16, at 0, len 8);
    lies!(dasd_drive, 16, model 0, cylinders 2, cylinder 4, head 6, arm 8, sense 9, reserved 15);
    lies!(dasd_run, 8, units 0, subchannel 4, device 5, asked 6, reserved 7);
    lies!(dasd_progress, 40, cylinders 0, units 8, bytes 12, indexes 16, stored 20, low 24, high 28, subchannel 32, device 33, asked 34, stopped 35, reserved 36);
    lies!(dasd_track, 6, address 0, cylinder 2, head 4);
    lies!(dasd_state, 20, subchannel 0, device 1, asked 2, drives 3, units 4, arms 12);
    lies!(dasd_program, 28, last 0, next 4, address 8, place 12, count 16, left 18, device 20, key 21, phase 22, asked 23, code 24, flags 25, reserved 26);
    lies!(dasd_registers, 40, passed 0, credited 8, cylinder 16, head 18, sense 20, area 26, lap 27, mask 28, mask_set 29, credit 30, reserved 31);
    lies!(dasd_moment, 12, what 0, channel 1, address 2, answer 4, cylinder 8, head 10);
    lies!(dasd_trace, 280, lines 0, size 8, length 16, kept 24);
    lies!(dasd_storage, 16, at 0, len 8);
    lies!(dasd_memory, 32, bytes 0, size 8, keys 16, blocks 24);
};
