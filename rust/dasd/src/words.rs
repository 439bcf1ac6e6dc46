//! Addresses, words and answers, by the names that they have in the proved crates.

use std::fmt;

/// An input/output address: the channel's number is the high byte, and the low byte the drive's.
#[derive(Clone, Copy, Debug, PartialEq, Eq, PartialOrd, Ord, Hash)]
pub struct Address(pub u16);

impl Address {
    /// The number of its channel.
    pub fn channel(self) -> u8 {
        (self.0 >> 8) as u8
    }

    /// Its low byte.
    pub fn device(self) -> u8 {
        self.0 as u8
    }
}

impl fmt::Display for Address {
    fn fmt(&self, f: &mut fmt::Formatter<'_>) -> fmt::Result {
        write!(f, "{:03X}", self.0)
    }
}

/// Unit status and channel status, as Start I/O and Halt I/O store them (Principles of Operation, 'Channel Status Word').
#[derive(Clone, Copy, Debug, PartialEq, Eq, Hash)]
pub struct Status {
    /// The unit's: attention, status modifier, control unit end, busy, channel end, device end, unit check, unit exception, from bit 0 on.
    pub unit: u8,
    /// The channel's: program-controlled interruption, incorrect length, program check, protection check, channel data check, channel
    /// control check, interface control check, chaining check, from bit 0 on.
    pub channel: u8,
}

/// A channel status word, as it stands at 64.
#[derive(Clone, Copy, Debug, PartialEq, Eq, Hash)]
pub struct Csw {
    /// The storage key of the channel program.
    pub key: u8,
    /// The address behind the last channel command word that was used.
    pub address: u32,
    /// Unit status and channel status.
    pub status: Status,
    /// The residual count.
    pub count: u16,
}

impl Csw {
    /// The word of these bytes.
    pub fn from_bytes(b: [u8; 8]) -> Csw {
        Csw {
            key: b[0] >> 4,
            address: u32::from_be_bytes([0, b[1], b[2], b[3]]),
            status: Status { unit: b[4], channel: b[5] },
            count: u16::from_be_bytes([b[6], b[7]]),
        }
    }

    /// Its bytes.
    pub fn to_bytes(self) -> [u8; 8] {
        let [_, a, b, c] = self.address.to_be_bytes();
        let [d, e] = self.count.to_be_bytes();
        [self.key << 4, a, b, c, self.status.unit, self.status.channel, d, e]
    }
}

/// What an input/output instruction answers: its condition code, and what it stored under code 1.
#[derive(Clone, Copy, Debug, PartialEq, Eq, Hash)]
pub enum Condition<T> {
    /// Code 0: a program was started, or the device is available, or an ending pends in the channel.
    Zero,
    /// Code 1: this was stored.
    Stored(T),
    /// Code 2: the channel is busy, or its program was halted.
    Two,
    /// Code 3: there is no such device or channel.
    Three,
}

impl<T> Condition<T> {
    /// The condition code.
    pub fn code(&self) -> u8 {
        match self {
            Condition::Zero => 0,
            Condition::Stored(_) => 1,
            Condition::Two => 2,
            Condition::Three => 3,
        }
    }
}

/// A set of channels, in the bits of a system mask: bit 0, the highest, is channel 0.
#[derive(Clone, Copy, Debug, PartialEq, Eq, Hash)]
pub struct ChannelSet(pub u8);

impl ChannelSet {
    /// All seven.
    pub const ALL: ChannelSet = ChannelSet(0xFE);

    /// The channels of these numbers; what is above 6 gives a set that no call takes.
    pub fn of(numbers: &[u8]) -> ChannelSet {
        ChannelSet(numbers.iter().fold(0, |set, number| set | if *number < 8 { 0x80 >> number } else { 1 }))
    }
}

/// The model of a drive.
#[derive(Clone, Copy, Debug, PartialEq, Eq, Hash)]
pub enum DriveModel {
    /// An IBM 2311: 10 heads.
    D2311,
    /// A drive of an IBM 2314: 20 heads.
    D2314,
}

/// What a drive's arm does between programs.
#[derive(Clone, Copy, Debug, PartialEq, Eq, Hash)]
pub enum Arm {
    /// It is at rest.
    AtRest,
    /// It moves to the cylinder that a program's last seek named.
    InMotion,
    /// It has arrived, and its device end is to be stored.
    Arrived,
}

/// What a channel does.
#[derive(Clone, Copy, Debug, PartialEq, Eq, Hash)]
pub enum SubchannelView {
    /// Available.
    Idle,
    /// The program of the drive with this low byte runs; and whether one of its words asked for an interruption that is not yet taken.
    Working(u8, bool),
    /// The program of this drive has ended, and its channel status word is not yet stored.
    Pending(u8),
}
