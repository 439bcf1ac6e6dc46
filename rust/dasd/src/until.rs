//! Units of a channel program until something happens, and what they came to.

use crate::lent::memory;
use crate::subsystem::{done, subchannel_of};
use crate::{Fault, LentSubsystem, SubchannelView, Subsystem};
use dasd_sys as sys;

/// What a run waits for, and what of it happened.
#[derive(Clone, Copy, Debug, Default, PartialEq, Eq, Hash)]
pub struct Until {
    /// A word asks for an interruption (PCI), where none was asked for that is not yet taken.
    pub asked: bool,
    /// The arm is at another cylinder.
    pub cylinder: bool,
    /// The arm is at another cylinder, or another head is selected.
    pub track: bool,
}

impl Until {
    /// Nothing: the run only counts.
    pub const NOTHING: Until = Until { asked: false, cylinder: false, track: false };

    fn bits(self) -> u8 {
        let bit = |on: bool, bit: u8| if on { bit } else { 0 };
        bit(self.asked, sys::DASD_UNTIL_ASKED) | bit(self.cylinder, sys::DASD_UNTIL_CYLINDER) | bit(self.track, sys::DASD_UNTIL_TRACK)
    }

    fn of(bits: u8) -> Until {
        let has = |bit: u8| bits & bit != 0;
        Until { asked: has(sys::DASD_UNTIL_ASKED), cylinder: has(sys::DASD_UNTIL_CYLINDER), track: has(sys::DASD_UNTIL_TRACK) }
    }
}

/// What came of a run until something happens.
#[derive(Clone, Copy, Debug, PartialEq, Eq)]
pub struct Progress {
    /// How many units were done.
    pub units: u32,
    /// How many bytes moved between drive and channel; a byte that is read and skipped is one.
    pub bytes: u32,
    /// How often the index passed a command that looked for its area, also one that found none.
    pub indexes: u32,
    /// How many cylinders the arm crossed, in all its moves.
    pub cylinders: u64,
    /// How many bytes were stored into main storage.
    pub stored: u32,
    /// The lowest and the highest address that was stored into; none where no byte was stored.
    pub range: Option<(u32, u32)>,
    /// The subchannel behind the units.
    pub subchannel: SubchannelView,
    /// What happened in the last unit of what was waited for.
    pub stopped: Until,
}

impl Progress {
    fn of(ran: &sys::dasd_progress) -> Progress {
        Progress {
            units: ran.units,
            bytes: ran.bytes,
            indexes: ran.indexes,
            cylinders: ran.cylinders,
            stored: ran.stored,
            range: (ran.stored > 0).then_some((ran.low, ran.high)),
            subchannel: subchannel_of(ran.subchannel, ran.device, ran.asked),
            stopped: Until::of(ran.stopped),
        }
    }
}

fn wanted(channel: u8, units: u32, until: Until) -> sys::dasd_wanted {
    sys::dasd_wanted { units, channel, until: until.bits(), ..Default::default() }
}

impl Subsystem {
    /// Lets the program that runs on a channel do so many units at most, and ends also behind the first that brings what is waited for.
    ///
    /// ```
    /// # use dasd::{Address, ChannelSet, DriveModel, Subsystem, Until};
    /// let mut disks = Subsystem::new(65536, ChannelSet::of(&[1]))?;
    /// disks.attach_new(Address(0x190), DriveModel::D2314, 2)?;
    /// disks.poke(0x48, &[0, 0, 1, 0])?; // the channel address word
    /// disks.poke(0x100, &[3, 0, 0, 0, 0x60, 0, 0, 1, 0x16, 0, 2, 0, 0x28, 0, 0, 16])?; // No Operation, and Read R0 to 200, which asks
    /// disks.sio(Address(0x190));
    /// let ran = disks.run_until(1, 1000, Until { asked: true, ..Until::NOTHING })?;
    /// assert!(ran.units == 1 && ran.stopped.asked);
    /// assert_eq!(disks.run_until(1, 1000, Until::NOTHING)?.range, Some((0x200, 0x20F)));
    /// # Ok::<(), dasd::Fault>(())
    /// ```
    ///
    /// # Errors
    ///
    /// `NoChannel`.
    pub fn run_until(&mut self, channel: u8, units: u32, until: Until) -> Result<Progress, Fault> {
        let mut ran = sys::dasd_progress::default();
        // SAFETY: the handle is this value's own, and was made by `new`.
        done(unsafe { sys::dasd_run_until(&mut *self.handle, &wanted(channel, units, until), &mut ran) })?;
        Ok(Progress::of(&ran))
    }
}

impl LentSubsystem {
    /// As [`Subsystem::run_until`].
    ///
    /// # Errors
    ///
    /// Those of each; `NoChannel`.
    pub fn run_until(&mut self, bytes: &mut [u8], keys: &[u8], channel: u8, units: u32, until: Until) -> Result<Progress, Fault> {
        let mut ran = sys::dasd_progress::default();
        // SAFETY: the handle is this value's own and was made by `lent`; bytes and keys are borrowed while the call runs, and do not overlap.
        let wanted = wanted(channel, units, until);
        done(unsafe { sys::dasd_lent_run_until(&mut *self.handle, &mut memory(bytes, keys), &wanted, &mut ran) })?;
        Ok(Progress::of(&ran))
    }
}
