//! Channels with their drives, behind a handle that nothing else reaches.

use crate::{Address, Arm, Calls, ChannelSet, Condition, Csw, DriveModel, Fault, HeldFiles, Status, SubchannelView};
use dasd_sys as sys;
use std::cell::Cell;
use std::marker::PhantomData;

const CSW: u32 = 64;

/// Main storage, and the channels over it with their drives and the volumes of these. A call for an address or a number is made at that
/// channel, and every other channel stays. A `Subsystem` has main storage of its own; a [`LentSubsystem`] is lent that of the program.
///
/// What a call lends borrows this value, so that no other call is made while it is used. It may go to another thread, and is used by
/// one at a time.
#[derive(Debug)]
pub struct Subsystem<Storage = Owned> {
    // in a place of its own, which a move of this value leaves as it is
    pub(crate) handle: Box<sys::dasd>,
    storage: PhantomData<Storage>,
}

/// Main storage is the [`Subsystem`]'s own.
#[derive(Debug)]
pub enum Owned {}

/// Main storage is lent by each call of a [`LentSubsystem`] that needs it.
#[derive(Debug)]
pub enum Lent {}

/// Channels for main storage of one size that the program keeps: each call that needs it is lent it.
pub type LentSubsystem = Subsystem<Lent>;

// SAFETY: the library proves that what a handle holds may go to another thread; nothing else leads to it.
unsafe impl<Storage> Send for Subsystem<Storage> {}

/// A file of a volume, lent to be saved.
#[derive(Clone, Copy, Debug)]
pub struct File<'a> {
    /// Its bytes.
    pub bytes: &'a [u8],
    /// Another number after each write, also of bytes that stood there already.
    pub changes: u64,
}

/// A track of a file that was written, lent to be saved.
#[derive(Clone, Copy, Debug, PartialEq, Eq)]
pub struct ChangedTrack<'a> {
    /// Its number among the tracks of the file, from 0 on: cylinder by cylinder, and head by head.
    pub track: usize,
    /// Where its slot begins in the file.
    pub at: usize,
    /// The slot, which goes there.
    pub bytes: &'a [u8],
}

/// What was written to a file since its changes were a number: each other byte is what it was then.
#[derive(Clone, Debug, PartialEq, Eq)]
pub struct Changed<'a> {
    /// The tracks, in their order.
    pub tracks: Vec<ChangedTrack<'a>>,
    /// The number of changes now, for the next time.
    pub changes: u64,
}

/// What is known of a drive without a channel program.
#[derive(Clone, Copy, Debug, PartialEq, Eq)]
pub struct DriveView {
    /// Its model.
    pub model: DriveModel,
    /// How many cylinders its volume has.
    pub cylinders: u16,
    /// Where the arm is or, in motion, goes.
    pub cylinder: u16,
    /// The head that is selected.
    pub head: u16,
    /// What the arm does.
    pub arm: Arm,
    /// The sense bytes; they stay.
    pub sense: [u8; 6],
}

/// A channel, as it is shown.
#[derive(Clone, Debug, PartialEq, Eq)]
pub struct View {
    /// What the channel does.
    pub subchannel: SubchannelView,
    /// The low byte of each drive's address and its arm, in the order of attachment.
    pub drives: Vec<(u8, Arm)>,
}

/// What came of a run.
#[derive(Clone, Copy, Debug, PartialEq, Eq)]
pub struct RunOn {
    /// How many units were done.
    pub units: u32,
    /// The subchannel behind them.
    pub subchannel: SubchannelView,
}

pub(crate) fn done(code: i32) -> Result<u32, Fault> {
    u32::try_from(code).map_err(|_| Fault::of(code))
}

fn arm_of(number: u8) -> Arm {
    match number {
        0 => Arm::AtRest,
        1 => Arm::InMotion,
        _ => Arm::Arrived,
    }
}

pub(crate) fn subchannel_of(number: u8, device: u8, asked: u8) -> SubchannelView {
    match number {
        0 => SubchannelView::Idle,
        1 => SubchannelView::Working(device, asked == 1),
        _ => SubchannelView::Pending(device),
    }
}

/// What an instruction answers, with what it stored.
pub(crate) fn condition<T>(code: i32, stored: impl FnOnce() -> T) -> Condition<T> {
    match code {
        0 => Condition::Zero,
        1 => Condition::Stored(stored()),
        2 => Condition::Two,
        _ => Condition::Three,
    }
}

fn pairs(files: &[&[u8]]) -> Vec<sys::dasd_bytes> {
    files.iter().map(|file| sys::dasd_bytes { at: file.as_ptr(), len: file.len() }).collect()
}

// In each call below: SAFETY: the handle is this value's own and was made by `new`; what else is passed is a value of its type, or bytes
// with their length, that no other argument overlaps, and that can't lie in storage or in a file, since those are lent by `&mut self`.
impl<Storage> Subsystem<Storage> {
    pub(crate) fn made(make: impl FnOnce(&mut sys::dasd) -> i32) -> Result<Self, Fault> {
        let mut handle = Box::new(sys::dasd { stamp: 0, place: std::ptr::null_mut() });
        done(make(&mut handle))?;
        Ok(Subsystem { handle, storage: PhantomData })
    }

    /// A second one that is as this one is, also in the middle of channel programs: what runs, what pends and what arms do, the drives and
    /// their volumes, and main storage with its keys, where it is its own. What is called of both from then on is answered alike, over
    /// memory with the same bytes and keys where it is lent, and no call of one changes the other. It costs what copying all volumes does.
    ///
    /// # Errors
    ///
    /// `NoMemory`.
    // not `&self`, as a `Clone` has it: while a call is made, nothing else may look at the handle
    pub fn try_clone(&mut self) -> Result<Self, Fault> {
        let from: *mut sys::dasd = &mut *self.handle;
        Self::made(|handle| unsafe { sys::dasd_copy(from, handle) })
    }

    /// What the channels are between two programs, as bytes for a file: of each what pends, and of its drives what the arms do, the
    /// cylinders, the heads and the sense bytes. Main storage, keys and the volumes' files are saved beside it.
    ///
    /// # Errors
    ///
    /// `ProgramRuns`: run the program on to its end, or halt it, and then save.
    pub fn save(&mut self) -> Result<[u8; sys::DASD_SAVED], Fault> {
        let (mut into, mut written) = ([0; sys::DASD_SAVED], 0);
        done(unsafe { sys::dasd_save(&mut *self.handle, into.as_mut_ptr(), into.len(), &mut written) })?;
        Ok(into)
    }

    /// Restores what was saved, all or nothing, over channels of the same numbers with drives of the same addresses, where no program
    /// runs. What pends and what arms do now is lost. The bytes may come from a stranger.
    ///
    /// # Errors
    ///
    /// `NoSavedState`, `OtherVersion`, `SavedLength`, `SavedSum`, `NotSound`; then, channel by channel, `OtherChannels`, `ProgramRuns`,
    /// `OtherDrives`, `NoTrack`, `NotOwed`.
    pub fn restore(&mut self, saved: &[u8]) -> Result<(), Fault> {
        done(unsafe { sys::dasd_restore(&mut *self.handle, saved.as_ptr(), saved.len()) }).map(drop)
    }

    /// Attaches a drive with the volume that these files, one to eight in their order, hold. They are copied. The arm is at rest at
    /// cylinder 0 and head 0, and the sense bytes are zero. Also while a program runs.
    ///
    /// # Errors
    ///
    /// `NoChannel`, what [`check`] answers, `AddressTaken`, `Full`.
    pub fn attach(&mut self, address: Address, files: &[&[u8]]) -> Result<(), Fault> {
        let files = pairs(files);
        done(unsafe { sys::dasd_attach(&mut *self.handle, address.0, files.as_ptr(), files.len()) }).map(drop)
    }

    /// Attaches a drive with the volume that these files hold, as their bytes are now. They are taken over, and none is copied; their changes
    /// are counted anew.
    ///
    /// # Errors
    ///
    /// As [`Subsystem::attach`]; the files are handed back.
    pub fn attach_files(&mut self, address: Address, mut files: HeldFiles) -> Result<(), (Fault, HeldFiles)> {
        let code = unsafe { sys::dasd_attach_files(&mut *self.handle, address.0, files.at()) };
        done(code).map(drop).map_err(|fault| (fault, files))
    }

    /// Takes a drive off its channel, and gives back the files of its volume, with all that was written. None is copied.
    ///
    /// # Errors
    ///
    /// `NoMemory`, and as [`Subsystem::detach`].
    pub fn detach_files(&mut self, address: Address) -> Result<HeldFiles, Fault> {
        let mut files = HeldFiles::none();
        done(unsafe { sys::dasd_detach_files(&mut *self.handle, address.0, files.at()) })?;
        Ok(files)
    }

    /// Attaches a drive with a new volume of so many cylinders, whose tracks have a home address and record 0.
    ///
    /// # Errors
    ///
    /// `NoChannel`, `NoCylinders`, `NoMemory`, `AddressTaken`, `Full`.
    pub fn attach_new(&mut self, address: Address, model: DriveModel, cylinders: u16) -> Result<(), Fault> {
        let model = match model {
            DriveModel::D2311 => 2311,
            DriveModel::D2314 => 2314,
        };
        done(unsafe { sys::dasd_attach_new(&mut *self.handle, address.0, model, cylinders) }).map(drop)
    }

    // c/interface.toml: begin
    /// Takes a drive off its channel. Its volume is freed, so save it first, or keep it by [`Subsystem::detach_files`]. The other drives
    /// and the channel stay.
    ///
    /// # Errors
    ///
    /// `NoChannel`, `NoDrive`, `ProgramRuns`, `EndingPends`, `DeviceEndOwed`.
    pub fn detach(&mut self, address: Address) -> Result<(), Fault> {
        done(unsafe { sys::dasd_detach(&mut *self.handle, address.0) }).map(drop)
    }
    // c/interface.toml: end

    /// A file of a drive's volume, 0 for its first, where the drive's program does not run.
    ///
    /// # Errors
    ///
    /// `NoChannel`, `ProgramRuns`, `NoDrive`, `NoFile`.
    pub fn file(&mut self, address: Address, place: u8) -> Result<File<'_>, Fault> {
        let mut shown = sys::dasd_file { at: std::ptr::null(), len: 0, changes: 0 };
        done(unsafe { sys::dasd_show_file(&mut *self.handle, address.0, place, &mut shown) })?;
        // SAFETY: the bytes stay as they are until the next call, which the borrow forbids.
        let bytes = unsafe { std::slice::from_raw_parts(shown.at, shown.len) };
        Ok(File { bytes, changes: shown.changes })
    }

    /// The tracks of such a file that were written since its number of changes was this one. A copy of the file that was made then is the
    /// file once each slot stands at its place in it. The number is one that [`File::changes`] or [`Changed::changes`] has been for the
    /// file; one above the file's own answers all tracks. A new volume's file is copied whole first.
    ///
    /// # Errors
    ///
    /// As [`Subsystem::file`].
    pub fn changed(&mut self, address: Address, place: u8, since: u64) -> Result<Changed<'_>, Fault> {
        let (mut next, mut shown) = (sys::dasd_changed::default(), Vec::new());
        while done(unsafe { sys::dasd_next_changed(&mut *self.handle, address.0, place, since, &mut next) })? == 1 {
            shown.push(next);
        }
        let File { bytes, changes } = self.file(address, place)?;
        let tracks = shown.iter().map(|it| ChangedTrack { track: it.track, at: it.at, bytes: &bytes[it.at..it.at + it.len] }).collect();
        Ok(Changed { tracks, changes })
    }

    /// What is known of a drive without a channel program.
    ///
    /// # Errors
    ///
    /// `NoChannel`, `NoDrive`.
    pub fn drive(&mut self, address: Address) -> Result<DriveView, Fault> {
        let mut shown = sys::dasd_drive::default();
        done(unsafe { sys::dasd_show_drive(&mut *self.handle, address.0, &mut shown) })?;
        Ok(DriveView {
            model: if shown.model == 2311 { DriveModel::D2311 } else { DriveModel::D2314 },
            cylinders: shown.cylinders,
            cylinder: shown.cylinder,
            head: shown.head,
            arm: arm_of(shown.arm),
            sense: shown.sense,
        })
    }

    /// Test Channel, of the channel of an address: `Zero`, it is available; `Stored`, a channel status word pends, and none is stored now;
    /// `Two`, a program runs; `Three`, there is no such channel.
    pub fn tch(&mut self, address: Address) -> Condition<()> {
        condition(unsafe { sys::dasd_tch(&mut *self.handle, address.0) }, || ())
    }

    /// The arm of the drive at an address has arrived; whether it moved, so that its device end is to be stored. The caller's clock says
    /// when.
    pub fn arrive(&mut self, address: Address) -> bool {
        unsafe { sys::dasd_arrive(&mut *self.handle, address.0) == 1 }
    }

    /// Whether an interruption would be taken from one of these channels now.
    pub fn is_pending(&mut self, channels: ChannelSet) -> bool {
        unsafe { sys::dasd_is_pending(&mut *self.handle, channels.0) == 1 }
    }

    /// Resets a channel and its drives, and no other: a program that runs is cut, what pends is lost, arms are at rest, sense bytes are
    /// zero. Address, cylinder and head of a track that the program had written and that could not be saved.
    ///
    /// # Errors
    ///
    /// `NoChannel`.
    pub fn reset(&mut self, channel: u8) -> Result<Option<(Address, u16, u16)>, Fault> {
        let mut track = sys::dasd_track::default();
        let code = done(unsafe { sys::dasd_reset(&mut *self.handle, channel, &mut track) })?;
        Ok((code == 1).then_some((Address(track.address), track.cylinder, track.head)))
    }

    /// A channel, as it is shown.
    ///
    /// # Errors
    ///
    /// `NoChannel`.
    pub fn channel(&mut self, number: u8) -> Result<View, Fault> {
        let mut shown = sys::dasd_state::default();
        done(unsafe { sys::dasd_show_channel(&mut *self.handle, number, &mut shown) })?;
        let drives = shown.units.iter().zip(shown.arms).take(usize::from(shown.drives));
        Ok(View {
            subchannel: subchannel_of(shown.subchannel, shown.device, shown.asked),
            drives: drives.map(|(unit, arm)| (*unit, arm_of(arm))).collect(),
        })
    }
}

impl Subsystem {
    /// Main storage of so many zero bytes, with keys 0, and the channels of this set over it, without drives. The set has one to seven of
    /// the channels 0 to 6, and the bytes are a multiple of 2,048 from 4,096 to 16,777,216.
    ///
    /// # Errors
    ///
    /// `BadChannels`, `BadSize`, `NoMemory`.
    pub fn new(storage_bytes: u32, channels: ChannelSet) -> Result<Subsystem, Fault> {
        Subsystem::made(|handle| unsafe { sys::dasd_new(handle, storage_bytes, channels.0) })
    }

    /// Start I/O: `Zero`, the program that the channel address word at 72 leads to was accepted, and runs by [`Subsystem::run_on`];
    /// `Stored`, this status was stored at 68; `Two`, the channel is busy; `Three`, no drive has this address.
    pub fn sio(&mut self, address: Address) -> Condition<Status> {
        let code = unsafe { sys::dasd_sio(&mut *self.handle, address.0) };
        condition(code, || self.csw().status)
    }

    /// Test I/O: `Zero`, the drive is available; `Stored`, this channel status word was stored at 64; `Two`, the channel is busy; `Three`,
    /// no drive has this address.
    pub fn tio(&mut self, address: Address) -> Condition<Csw> {
        let code = unsafe { sys::dasd_tio(&mut *self.handle, address.0) };
        condition(code, || self.csw())
    }

    /// Halt I/O: `Zero`, a channel status word pends, and stays; `Stored`, nothing ran, and a status of zeros was stored at 68; `Two`, the
    /// program that ran is cut, and its channel status word pends; `Three`, no drive has this address.
    pub fn hio(&mut self, address: Address) -> Condition<Status> {
        let code = unsafe { sys::dasd_hio(&mut *self.handle, address.0) };
        condition(code, || self.csw().status)
    }

    /// The channel status word that stands in storage.
    pub fn csw(&mut self) -> Csw {
        let mut bytes = [0; 8];
        self.peek(CSW, &mut bytes).expect("storage has a channel status word");
        Csw::from_bytes(bytes)
    }

    /// Lets the program that runs on a channel do so many units at most; how many it did. A unit is a word that is fetched, an index that
    /// passes, a byte that moves, or an end.
    ///
    /// # Errors
    ///
    /// `NoChannel`.
    pub fn step(&mut self, channel: u8, units: u32) -> Result<u32, Fault> {
        let mut did = 0;
        done(unsafe { sys::dasd_step(&mut *self.handle, channel, units, &mut did) })?;
        Ok(did)
    }

    /// The same, with the subchannel behind them.
    ///
    /// # Errors
    ///
    /// `NoChannel`.
    pub fn run_on(&mut self, channel: u8, units: u32) -> Result<RunOn, Fault> {
        let mut ran = sys::dasd_run::default();
        done(unsafe { sys::dasd_run_on(&mut *self.handle, channel, units, &mut ran) })?;
        Ok(RunOn { units: ran.units, subchannel: subchannel_of(ran.subchannel, ran.device, ran.asked) })
    }

    /// Takes an interruption from the first channel, by number, of this set that has one: its address, and the channel status word that is
    /// stored.
    pub fn interrupt(&mut self, channels: ChannelSet) -> Option<(Address, Csw)> {
        let mut address = 0;
        let taken = unsafe { sys::dasd_interrupt(&mut *self.handle, channels.0, &mut address) == 1 };
        taken.then(|| (Address(address), self.csw()))
    }

    /// Main storage, without a copy: what is stored here the processor stores. It borrows this value, so that no call is made while it is
    /// used; [`Subsystem::lend`] has both side by side.
    pub fn storage(&mut self) -> &mut [u8] {
        let (at, len) = self.place();
        // SAFETY: the bytes are the caller's until the next call, which the borrow forbids.
        unsafe { std::slice::from_raw_parts_mut(at, len) }
    }

    /// Main storage and the calls, side by side: what a processor keeps that runs beside the channels. Storage is in cells, since a call
    /// changes it; the two stay in one thread.
    ///
    /// ```
    /// # use dasd::{Address, ChannelSet, Condition, DriveModel, Subsystem};
    /// let mut disks = Subsystem::new(65536, ChannelSet::of(&[1]))?;
    /// disks.attach_new(Address(0x190), DriveModel::D2314, 2)?;
    /// let (storage, mut calls) = disks.lend();
    /// for (at, byte) in [(0x4A, 1), (0x100, 0x16), (0x102, 2), (0x104, 0x20), (0x107, 16)] {
    ///     storage[at].set(byte); // the channel address word, and Read R0 to 200
    /// }
    /// assert_eq!(calls.sio(Address(0x190)), Condition::Zero);
    /// calls.run_on(1, 1000)?;
    /// assert_eq!(storage[0x207].get(), 8);
    /// # Ok::<(), dasd::Fault>(())
    /// ```
    ///
    /// Storage is used no longer than the subsystem is there:
    ///
    /// ```compile_fail,E0505
    /// # use dasd::{ChannelSet, Subsystem};
    /// let mut disks = Subsystem::new(65536, ChannelSet::of(&[1])).unwrap();
    /// let (storage, calls) = disks.lend();
    /// drop(disks);
    /// storage[0].set(1);
    /// ```
    ///
    /// Nor are the calls made by another thread meanwhile:
    ///
    /// ```compile_fail,E0277
    /// # use dasd::{ChannelSet, Subsystem};
    /// let mut disks = Subsystem::new(65536, ChannelSet::of(&[1])).unwrap();
    /// let (storage, mut calls) = disks.lend();
    /// std::thread::scope(|threads| {
    ///     threads.spawn(move || calls.run_on(1, 1000));
    ///     storage[0].set(1);
    /// });
    /// ```
    pub fn lend(&mut self) -> (&[Cell<u8>], Calls<'_>) {
        let (at, len) = self.place();
        // SAFETY: the bytes stay where they are until the handle is freed, which the borrow forbids; nothing but these cells leads to them
        // meanwhile, but calls of this very thread, since neither part can go to another one.
        let storage = unsafe { std::slice::from_raw_parts(at.cast::<Cell<u8>>(), len) };
        (storage, Calls::of(self))
    }

    fn place(&mut self) -> (*mut u8, usize) {
        let mut shown = sys::dasd_storage { at: std::ptr::null_mut(), len: 0 };
        let code = unsafe { sys::dasd_show_storage(&mut *self.handle, &mut shown) };
        assert_eq!(code, sys::DASD_DONE, "a handle that was made holds something");
        (shown.at, shown.len)
    }

    /// Copies bytes of storage from an address on, as many as there is room for.
    ///
    /// # Errors
    ///
    /// `OutsideStorage`.
    pub fn peek(&mut self, at: u32, into: &mut [u8]) -> Result<(), Fault> {
        done(unsafe { sys::dasd_peek(&mut *self.handle, at, into.as_mut_ptr(), into.len()) }).map(drop)
    }

    /// Stores bytes from an address on, all or none.
    ///
    /// # Errors
    ///
    /// `OutsideStorage`.
    pub fn poke(&mut self, at: u32, bytes: &[u8]) -> Result<(), Fault> {
        done(unsafe { sys::dasd_poke(&mut *self.handle, at, bytes.as_ptr(), bytes.len()) }).map(drop)
    }

    /// The storage key, 0 to 15, of the block of 2,048 bytes that has this address.
    ///
    /// # Errors
    ///
    /// `OutsideStorage`.
    pub fn key(&mut self, at: u32) -> Result<u8, Fault> {
        done(unsafe { sys::dasd_key(&mut *self.handle, at) }).map(|key| key as u8)
    }

    /// Sets it.
    ///
    /// # Errors
    ///
    /// `BadKey`, `OutsideStorage`.
    pub fn set_key(&mut self, at: u32, key: u8) -> Result<(), Fault> {
        done(unsafe { sys::dasd_set_key(&mut *self.handle, at, key) }).map(drop)
    }
}

impl<Storage> Drop for Subsystem<Storage> {
    fn drop(&mut self) {
        unsafe { sys::dasd_free(&mut *self.handle) };
    }
}

/// Whether these files, one to eight in their order, are an image.
///
/// # Errors
///
/// `NoFiles`, `TooManyFiles`, `NoMemory`; `NotCkdP370`, `Compressed`, `DeviceType`, `Heads`, `TrackSize`, `Split`, `Length`.
pub fn check(files: &[&[u8]]) -> Result<(), Fault> {
    let files = pairs(files);
    // SAFETY: pairs of pointers and lengths, which are only read.
    done(unsafe { sys::dasd_check(files.as_ptr(), files.len()) }).map(drop)
}

/// The version of the library: major, minor, patch.
pub fn version() -> (u32, u32, u32) {
    // SAFETY: it takes nothing.
    let version = unsafe { sys::dasd_version() };
    (version >> 16, version >> 8 & 255, version & 255)
}
