//! Events of a channel and their answers, for those who drive one by a list.

use crate::{Address, Subsystem, Condition, Csw, Fault, Status};

/// What can happen to a channel.
#[derive(Clone, Debug, PartialEq, Eq, Hash)]
pub enum Event {
    /// Start I/O at an address.
    Sio(Address),
    /// Test I/O at an address.
    Tio(Address),
    /// Halt I/O at an address.
    Hio(Address),
    /// Test Channel.
    Tch,
    /// The running program does so many units at most.
    Step(u32),
    /// The same, as [`Subsystem::run_on`] does it.
    Run(u32),
    /// The arm of the drive at an address arrives.
    Arrive(Address),
    /// An interruption is taken from the channel.
    Interrupt,
    /// The channel and its drives are reset.
    Reset,
    /// Bytes are stored from an address of storage on.
    Store(u32, Vec<u8>),
    /// The storage key of the block with an address is set.
    Key(u32, u8),
    /// So many bytes of storage from an address on are shown.
    Show(u32, usize),
}

/// What an event answers.
#[derive(Clone, Debug, PartialEq, Eq, Hash)]
pub enum Answer {
    /// The address, the condition code, and the status that was stored.
    Sio(Address, Condition<Status>),
    /// The address, the condition code, and the channel status word that was stored.
    Tio(Address, Condition<Csw>),
    /// The address, the condition code, and the status that was stored.
    Hio(Address, Condition<Status>),
    /// The condition code.
    Tch(Condition<()>),
    /// How many units were done.
    Step(u32),
    /// How many units were done.
    Run(u32),
    /// The address, and whether the arm moved.
    Arrive(Address, bool),
    /// Where the interruption came from, with the channel status word that was stored; none pended.
    Interrupt(Option<(Address, Csw)>),
    /// Address, cylinder and head of a track that could not be saved.
    Reset(Option<(Address, u16, u16)>),
    /// Whether all bytes lay within storage.
    Store(bool),
    /// Whether the block lay within storage.
    Key(bool),
    /// The address, and the bytes where all lay within storage.
    Show(u32, Option<Vec<u8>>),
}

impl Subsystem {
    /// Lets an event happen to the channel of this number.
    ///
    /// # Errors
    ///
    /// `NoChannel`; `BadKey`. What lies outside storage is an answer.
    pub fn react(&mut self, channel: u8, event: &Event) -> Result<Answer, Fault> {
        Ok(match event {
            Event::Sio(at) => Answer::Sio(*at, self.sio(*at)),
            Event::Tio(at) => Answer::Tio(*at, self.tio(*at)),
            Event::Hio(at) => Answer::Hio(*at, self.hio(*at)),
            Event::Tch => Answer::Tch(self.tch(Address(u16::from(channel) << 8))),
            Event::Step(units) => Answer::Step(self.step(channel, *units)?),
            Event::Run(units) => Answer::Run(self.run_on(channel, *units)?.units),
            Event::Arrive(at) => Answer::Arrive(*at, self.arrive(*at)),
            Event::Interrupt => Answer::Interrupt(self.interrupt(crate::ChannelSet::of(&[channel]))),
            Event::Reset => Answer::Reset(self.reset(channel)?),
            Event::Store(at, bytes) => Answer::Store(within(self.poke(*at, bytes))?),
            Event::Key(at, key) => Answer::Key(within(self.set_key(*at, *key))?),
            Event::Show(at, count) => {
                let mut bytes = vec![0; *count];
                let shown = within(self.peek(*at, &mut bytes))?;
                Answer::Show(*at, shown.then_some(bytes))
            }
        })
    }
}

// Whether it lay within storage.
fn within(done: Result<(), Fault>) -> Result<bool, Fault> {
    match done {
        Ok(()) => Ok(true),
        Err(Fault::OutsideStorage) => Ok(false),
        Err(fault) => Err(fault),
    }
}
