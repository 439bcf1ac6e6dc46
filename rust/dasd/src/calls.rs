//! The calls of a subsystem while its storage is lent.

use crate::{Address, Answer, Changed, ChannelSet, Condition, Csw, DriveModel, DriveView, Event, Fault, File, HeldFiles, Progress, RunOn, Status, Subsystem, Until, View};
use std::marker::PhantomData;

/// The calls of a [`Subsystem`] whose main storage is lent beside them ([`Subsystem::lend`]). They stay in the thread of that storage.
#[derive(Debug)]
pub struct Calls<'a> {
    pub(crate) disks: &'a mut Subsystem,
    stays_in_its_thread: PhantomData<*const ()>,
}

impl<'a> Calls<'a> {
    pub(crate) fn of(disks: &'a mut Subsystem) -> Calls<'a> {
        Calls { disks, stays_in_its_thread: PhantomData }
    }

    /// As [`Subsystem::file`]. What it shows is the volume's own, no part of main storage.
    ///
    /// # Errors
    ///
    /// As there.
    pub fn file(&mut self, address: Address, place: u8) -> Result<File<'_>, Fault> {
        self.disks.file(address, place)
    }

    /// As [`Subsystem::changed`]. What it shows is the volume's own, no part of main storage.
    ///
    /// # Errors
    ///
    /// As there.
    pub fn changed(&mut self, address: Address, place: u8, since: u64) -> Result<Changed<'_>, Fault> {
        self.disks.changed(address, place, since)
    }
}

macro_rules! calls {
    ($($name:ident($($argument:ident: $type:ty),*) -> $answer:ty;)*) => {
        impl Calls<'_> {
            $(
                #[doc = concat!("As [`Subsystem::", stringify!($name), "`], with its errors.")]
                pub fn $name(&mut self, $($argument: $type),*) -> $answer {
                    self.disks.$name($($argument),*)
                }
            )*
        }
    };
}

calls! {
    attach(address: Address, files: &[&[u8]]) -> Result<(), Fault>;
    attach_files(address: Address, files: HeldFiles) -> Result<(), (Fault, HeldFiles)>;
    detach_files(address: Address) -> Result<HeldFiles, Fault>;
    attach_new(address: Address, model: DriveModel, cylinders: u16) -> Result<(), Fault>;
    // c/interface.toml: begin
    detach(address: Address) -> Result<(), Fault>;
    // c/interface.toml: end
    drive(address: Address) -> Result<DriveView, Fault>;
    sio(address: Address) -> Condition<Status>;
    tio(address: Address) -> Condition<Csw>;
    hio(address: Address) -> Condition<Status>;
    tch(address: Address) -> Condition<()>;
    csw() -> Csw;
    step(channel: u8, units: u32) -> Result<u32, Fault>;
    run_on(channel: u8, units: u32) -> Result<RunOn, Fault>;
    run_until(channel: u8, units: u32, until: Until) -> Result<Progress, Fault>;
    arrive(address: Address) -> bool;
    is_pending(channels: ChannelSet) -> bool;
    interrupt(channels: ChannelSet) -> Option<(Address, Csw)>;
    reset(channel: u8) -> Result<Option<(Address, u16, u16)>, Fault>;
    channel(number: u8) -> Result<View, Fault>;
    peek(at: u32, into: &mut [u8]) -> Result<(), Fault>;
    poke(at: u32, bytes: &[u8]) -> Result<(), Fault>;
    key(at: u32) -> Result<u8, Fault>;
    set_key(at: u32, key: u8) -> Result<(), Fault>;
    react(channel: u8, event: &Event) -> Result<Answer, Fault>;
}
