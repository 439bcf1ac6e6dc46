//! A channel with drives.

use crate::drive::Drive;
use crate::program::{Ending, Program};
use crate::storage::Storage;
use crate::volume::Volume;

const CHANNEL: u8 = 1;
const CSW: usize = 64;
const CAW: usize = 72;

/// What an instruction answers: the condition code, and what it stored.
pub type Answer = (u8, Vec<u8>);

enum Subchannel {
    Idle,
    Working(usize, Program),
    Pending(u8, [u8; 8]),
}

struct Unit {
    address: u8,
    moves: bool,
    drive: Drive,
}

/// A channel of number 1, and main storage. Whether it does whole commands in one piece is `FUSED`.
pub struct Channel<const FUSED: bool> {
    /// Main storage.
    pub storage: Storage,
    subchannel: Subchannel,
    units: Vec<Unit>,
}

impl<const FUSED: bool> Channel<FUSED> {
    /// A channel without drives over so many bytes of zeros.
    pub fn new(storage: usize) -> Channel<FUSED> {
        Channel {
            storage: Storage::new(storage),
            subchannel: Subchannel::Idle,
            units: Vec::new(),
        }
    }

    /// Attaches a drive under an address.
    pub fn attach(&mut self, address: u8, volume: Volume) {
        self.units.push(Unit {
            address,
            moves: false,
            drive: Drive::new(volume),
        });
    }

    fn unit(&self, address: u16) -> Option<usize> {
        let [channel, device] = address.to_be_bytes();
        let is_this = |it: &Unit| it.address == device;
        self.units.iter().position(is_this).filter(|_| channel == CHANNEL)
    }

    fn stores(&mut self, held: &[u8], at: usize) -> Answer {
        self.storage.put(at, held);
        (1, held.to_vec())
    }

    /// Start I/O.
    pub fn start(&mut self, address: u16) -> Answer {
        let (Subchannel::Idle, place) = (&self.subchannel, self.unit(address)) else {
            return (2, Vec::new());
        };
        let Some(place) = place else {
            return (3, Vec::new());
        };
        if self.units[place].moves {
            return self.stores(&[0x10, 0], CSW + 4);
        }
        let word = self.storage.bytes[CAW..].first_chunk().map_or(0, |it| u32::from_be_bytes(*it));
        match Program::start(word, &self.storage, &mut self.units[place].drive) {
            Ok(program) => {
                self.subchannel = Subchannel::Working(place, program);
                (0, Vec::new())
            }
            Err((unit, channel)) => {
                self.units[place].moves = unit == 0x08;
                self.stores(&[unit, channel], CSW + 4)
            }
        }
    }

    /// Has the program go on by so many units; how many it did.
    pub fn step(&mut self, units: u16) -> u16 {
        let Subchannel::Working(place, program) = &mut self.subchannel else {
            return 0;
        };
        let unit = &mut self.units[*place];
        let (done, ending) = program.advance::<FUSED>(&mut self.storage, &mut unit.drive, units);
        if let Some((word, moves)) = ending as Option<Ending> {
            unit.moves |= moves;
            self.subchannel = Subchannel::Pending(unit.address, word);
        }
        done
    }

    /// Test I/O.
    pub fn test(&mut self, address: u16) -> Answer {
        let Some(place) = self.unit(address) else {
            return (3, Vec::new());
        };
        match self.subchannel {
            Subchannel::Pending(device, word) if device == self.units[place].address => {
                self.subchannel = Subchannel::Idle;
                self.stores(&word, CSW)
            }
            Subchannel::Working(..) | Subchannel::Pending(..) => (2, Vec::new()),
            Subchannel::Idle if self.units[place].moves => self.stores(&[0, 0, 0, 0, 0x10, 0, 0, 0], CSW),
            Subchannel::Idle => (0, Vec::new()),
        }
    }
}
