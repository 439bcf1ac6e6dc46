//! Selector channels with IBM 2311 and 2314 drives, for emulators of the System/360: a safe way to the library `libdasd`.
//!
//! ```
//! use dasd::{Address, ChannelSet, Subsystem, Condition, DriveModel};
//!
//! let drive = Address(0x190);
//! let mut disks = Subsystem::new(65536, ChannelSet::of(&[1]))?;
//! disks.attach_new(drive, DriveModel::D2314, 2)?;
//! let storage = disks.storage();
//! storage[0x48..0x4C].copy_from_slice(&[0, 0, 1, 0]); // the channel address word
//! storage[0x100..0x108].copy_from_slice(&[0x16, 0, 2, 0, 0x20, 0, 0, 16]); // Read R0 to 200
//! assert_eq!(disks.sio(drive), Condition::Zero);
//! disks.run_on(1, 1000)?;
//! let (from, csw) = disks.interrupt(ChannelSet::ALL).unwrap();
//! assert_eq!((from, csw.status.unit), (drive, 0x0C));
//! # Ok::<(), dasd::Fault>(())
//! ```
//!
//! A program that keeps main storage itself makes a [`LentSubsystem`].
//!
//! The library comes with `dasd-sys`, whose page says how it is linked. What of it is proved stands in its repository; this crate is
//! tested.
#![deny(missing_docs)]

mod calls;
mod events;
mod files;
mod lent;
mod subsystem;
mod fault;
mod trace;
mod until;
mod watching;
mod words;

pub use crate::calls::Calls;
pub use crate::subsystem::{check, version, Changed, ChangedTrack, DriveView, File, Lent, LentSubsystem, Owned, RunOn, Subsystem, View};
pub use crate::events::{Answer, Event};
pub use crate::fault::Fault;
pub use crate::files::HeldFiles;
pub use crate::trace::{Moment, Trace};
pub use crate::until::{Progress, Until};
pub use crate::watching::{Area, Credit, Phase, Program, Registers};
pub use crate::words::{Address, Arm, ChannelSet, Condition, Csw, DriveModel, Status, SubchannelView};
