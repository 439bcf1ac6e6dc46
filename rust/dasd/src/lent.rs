//! Channels over main storage that the program keeps.

use crate::subsystem::{condition, done, subchannel_of};
use crate::{Address, ChannelSet, Condition, Csw, Fault, LentSubsystem, RunOn, Status};
use dasd_sys as sys;

const CSW: usize = 64;

pub(crate) fn memory(bytes: &mut [u8], keys: &[u8]) -> sys::dasd_memory {
    sys::dasd_memory { bytes: bytes.as_mut_ptr(), size: bytes.len(), keys: keys.as_ptr(), blocks: keys.len() }
}

/// The channel status word that stands in these bytes.
fn csw(bytes: &[u8]) -> Csw {
    Csw::from_bytes(bytes[CSW..CSW + 8].try_into().expect("eight bytes"))
}

/// Each of these calls is lent main storage: its bytes, and the storage key of each block of 2,048 of them. A key is 0 to 15; a block with
/// a key above 15 admits the key 0 alone. Nothing is copied or kept: between two calls the processor reads and writes the bytes by plain
/// indexing, and they may be somewhere else at the next call. What differs then is what the processor stored.
///
/// ```
/// use dasd::{Address, ChannelSet, Condition, DriveModel, LentSubsystem};
///
/// let (mut storage, keys, drive) = (vec![0; 65536], [0; 32], Address(0x190));
/// let mut disks = LentSubsystem::lent(65536, ChannelSet::of(&[1]))?;
/// disks.attach_new(drive, DriveModel::D2314, 2)?;
/// storage[0x48..0x4C].copy_from_slice(&[0, 0, 1, 0]); // the channel address word
/// storage[0x100..0x108].copy_from_slice(&[0x16, 0, 2, 0, 0x20, 0, 0, 16]); // Read R0 to 200
/// assert_eq!(disks.sio(&mut storage, &keys, drive)?, Condition::Zero);
/// disks.run_on(&mut storage, &keys, 1, 1000)?;
/// assert_eq!(storage[0x207], 8);
/// # Ok::<(), dasd::Fault>(())
/// ```
///
/// # Errors
///
/// Of each call, before all others: `BadSize`, no main storage has so many bytes; `BadBlocks`, there is not one key for each block;
/// `OtherSize`, the channels are for main storage of another size.
// In each call below: SAFETY: the handle is this value's own and was made by `lent`; the bytes and the keys are borrowed while the call
// runs, so that nothing else writes them, and the two do not overlap; no address of them is kept.
impl LentSubsystem {
    /// The channels of this set for main storage of so many bytes, without drives.
    ///
    /// # Errors
    ///
    /// `BadChannels`, `BadSize`, `NoMemory`.
    pub fn lent(storage_bytes: u32, channels: ChannelSet) -> Result<LentSubsystem, Fault> {
        LentSubsystem::made(|handle| unsafe { sys::dasd_new_lent(handle, storage_bytes, channels.0) })
    }

    /// Start I/O.
    ///
    /// # Errors
    ///
    /// Those of each.
    pub fn sio(&mut self, bytes: &mut [u8], keys: &[u8], address: Address) -> Result<Condition<Status>, Fault> {
        let code = unsafe { sys::dasd_lent_sio(&mut *self.handle, &mut memory(bytes, keys), address.0) };
        done(code).map(|_| condition(code, || csw(bytes).status))
    }

    /// Test I/O.
    ///
    /// # Errors
    ///
    /// Those of each.
    pub fn tio(&mut self, bytes: &mut [u8], keys: &[u8], address: Address) -> Result<Condition<Csw>, Fault> {
        let code = unsafe { sys::dasd_lent_tio(&mut *self.handle, &mut memory(bytes, keys), address.0) };
        done(code).map(|_| condition(code, || csw(bytes)))
    }

    /// Halt I/O.
    ///
    /// # Errors
    ///
    /// Those of each.
    pub fn hio(&mut self, bytes: &mut [u8], keys: &[u8], address: Address) -> Result<Condition<Status>, Fault> {
        let code = unsafe { sys::dasd_lent_hio(&mut *self.handle, &mut memory(bytes, keys), address.0) };
        done(code).map(|_| condition(code, || csw(bytes).status))
    }

    /// Lets the program that runs on a channel do so many units at most; how many it did.
    ///
    /// # Errors
    ///
    /// Those of each; `NoChannel`.
    pub fn step(&mut self, bytes: &mut [u8], keys: &[u8], channel: u8, units: u32) -> Result<u32, Fault> {
        let mut done_units = units;
        done(unsafe { sys::dasd_lent_step(&mut *self.handle, &mut memory(bytes, keys), channel, &mut done_units) })?;
        Ok(done_units)
    }

    /// The same, with the subchannel behind them.
    ///
    /// # Errors
    ///
    /// Those of each; `NoChannel`.
    pub fn run_on(&mut self, bytes: &mut [u8], keys: &[u8], channel: u8, units: u32) -> Result<RunOn, Fault> {
        let mut ran = sys::dasd_run { units, ..Default::default() };
        done(unsafe { sys::dasd_lent_run_on(&mut *self.handle, &mut memory(bytes, keys), channel, &mut ran) })?;
        Ok(RunOn { units: ran.units, subchannel: subchannel_of(ran.subchannel, ran.device, ran.asked) })
    }

    /// Takes an interruption from the first channel, by number, of this set that has one: its address, and the channel status word that is
    /// stored.
    ///
    /// # Errors
    ///
    /// Those of each.
    pub fn interrupt(&mut self, bytes: &mut [u8], keys: &[u8], channels: ChannelSet) -> Result<Option<(Address, Csw)>, Fault> {
        let mut address = 0;
        let code = done(unsafe { sys::dasd_lent_interrupt(&mut *self.handle, &mut memory(bytes, keys), channels.0, &mut address) })?;
        Ok((code == 1).then(|| (Address(address), csw(bytes))))
    }
}
