//! A channel program, unit by unit; and whole commands in one piece.

use crate::drive::{place, Begun, Credit, Drive, Look, COUNT, DATA};
use crate::passing::unit;
use crate::storage::Storage;

/// Flags of a channel command word.
mod flag {
    pub const CHAIN_DATA: u8 = 0x80;
    pub const CHAIN_COMMAND: u8 = 0x40;
    pub const SUPPRESS_LENGTH: u8 = 0x20;
    pub const SKIP: u8 = 0x10;
    pub const INTERRUPT: u8 = 0x08;
    pub const MUST_BE_ZERO: u8 = 0x07;
}

/// Channel status.
mod status {
    pub const PROGRAM_CONTROLLED_INTERRUPTION: u8 = 0x80;
    pub const INCORRECT_LENGTH: u8 = 0x40;
    pub const PROGRAM_CHECK: u8 = 0x20;
    pub const PROTECTION_CHECK: u8 = 0x10;
}

const TRANSFER_IN_CHANNEL: u8 = 0x08;

/// What the program does next.
#[derive(Clone, Copy, PartialEq, Eq)]
enum Stage {
    Fetches,
    Looks,
    MovesBytes,
}

/// A program that runs.
#[derive(Clone, Copy)]
pub struct Program {
    key: u8,
    stage: Stage,
    flags: u8,
    may_transfer: bool,
    asks: bool,
    residual: u16,
    next: u32,
    last: u32,
    address: u32,
}

/// How a program ended: its channel status word, and whether the arm still moves.
pub type Ending = ([u8; 8], bool);

enum Fetched {
    Bad,
    Transfer,
    Command(u8),
}

// What a unit comes to: that, or the unit status and the channel status with which the program ends.
enum Unit {
    Done(u16),
    Ends(u8, u8),
}

impl Program {
    /// Begins the program of a channel address word; none where the channel refuses it, with its status.
    pub fn start(word: u32, storage: &Storage, drive: &mut Drive) -> Result<Program, (u8, u8)> {
        if word & 0x0F00_0007 != 0 {
            return Err((0, status::PROGRAM_CHECK));
        }
        let at = word & 0x00FF_FFFF;
        let mut program = Program {
            key: (word >> 28) as u8,
            stage: Stage::Looks,
            flags: 0,
            may_transfer: false,
            asks: false,
            residual: 0,
            next: at,
            last: at,
            address: 0,
        };
        let Fetched::Command(code) = program.fetch(storage, true) else {
            return Err((0, status::PROGRAM_CHECK));
        };
        drive.begin_program();
        match drive.begin(code) {
            Begun::Started => Ok(program),
            Begun::Rejected => Err((0x02, 0)),
            Begun::Immediate => {
                let ended = drive.end();
                if !program.chains() {
                    drive.settle();
                    return Err((ended, program.asked()));
                }
                program.stage = Stage::Fetches;
                Ok(program)
            }
        }
    }

    fn asked(&self) -> u8 {
        if self.asks {
            status::PROGRAM_CONTROLLED_INTERRUPTION
        } else {
            0
        }
    }

    #[inline(always)]
    fn fetch(&mut self, storage: &Storage, begins: bool) -> Fetched {
        self.last = self.next;
        let word = if self.next % 8 == 0 { storage.doubleword(self.next) } else { None };
        let Some(word) = word else {
            return Fetched::Bad;
        };
        let address = u32::from_be_bytes([0, word[1], word[2], word[3]]);
        if word[0] & 0x0F == TRANSFER_IN_CHANNEL {
            if !self.may_transfer {
                return Fetched::Bad;
            }
            self.next = address;
            self.may_transfer = false;
            return Fetched::Transfer;
        }
        let count = u16::from_be_bytes([word[6], word[7]]);
        if count == 0 || word[4] & flag::MUST_BE_ZERO != 0 || begins && word[0] & 0x0F == 0 {
            return Fetched::Bad;
        }
        self.takes(word[4], count, address);
        Fetched::Command(word[0])
    }

    #[inline(always)]
    fn takes(&mut self, flags: u8, count: u16, address: u32) {
        self.last = self.next;
        self.next += 8;
        self.may_transfer = true;
        self.residual = count;
        self.flags = flags;
        self.address = address;
        self.asks |= flags & flag::INTERRUPT != 0;
    }

    #[inline(always)]
    fn chains(&self) -> bool {
        self.flags & (flag::CHAIN_DATA | flag::CHAIN_COMMAND) == flag::CHAIN_COMMAND
    }

    // Ends the command at hand; the next is chained, or the program ends.
    #[inline(always)]
    fn conclude(&mut self, drive: &mut Drive, is_incorrect: bool) -> Unit {
        let ended = drive.end();
        let channel = if is_incorrect && ended & 0x02 == 0 {
            status::INCORRECT_LENGTH
        } else {
            0
        };
        if !self.chains() || ended & 0x03 != 0 || channel != 0 {
            return Unit::Ends(ended, channel);
        }
        if ended & unit::STATUS_MODIFIER != 0 {
            self.next += 8;
        }
        self.stage = Stage::Fetches;
        Unit::Done(1)
    }

    #[inline(always)]
    fn fetches(&mut self, storage: &Storage, drive: &mut Drive) -> Unit {
        match self.fetch(storage, true) {
            Fetched::Bad => Unit::Ends(unit::ENDED, status::PROGRAM_CHECK),
            Fetched::Transfer => Unit::Done(1),
            Fetched::Command(code) => match drive.begin(code) {
                Begun::Started => {
                    self.stage = Stage::Looks;
                    Unit::Done(1)
                }
                Begun::Rejected => Unit::Ends(unit::CHECKED, 0),
                Begun::Immediate => self.conclude(drive, false),
            },
        }
    }

    #[inline(always)]
    fn looks(&mut self, drive: &mut Drive) -> Unit {
        match drive.look() {
            Look::Ready => {
                self.stage = Stage::MovesBytes;
                Unit::Done(0)
            }
            Look::Passed => Unit::Done(1),
            Look::Failed => Unit::Ends(unit::CHECKED, 0),
        }
    }

    #[inline(always)]
    fn moves(&mut self, storage: &mut Storage, drive: &mut Drive, units: u16) -> Unit {
        if self.residual == 0 {
            if self.flags & flag::CHAIN_DATA == 0 {
                let is_short = drive.work.left != 0 && self.flags & flag::SUPPRESS_LENGTH == 0;
                return self.conclude(drive, is_short);
            }
            return match self.fetch(storage, false) {
                Fetched::Bad => Unit::Ends(drive.end(), status::PROGRAM_CHECK),
                _ => Unit::Done(1),
            };
        }
        if drive.work.left == 0 {
            let suppresses = self.flags & (flag::CHAIN_DATA | flag::SUPPRESS_LENGTH) == flag::SUPPRESS_LENGTH;
            return self.conclude(drive, !suppresses);
        }
        let most = usize::from(units.min(self.residual)).min(drive.work.left);
        let at = self.address as usize;
        let moved = if !drive.gives() {
            let from = at.min(storage.bytes.len());
            let moved = most.min(storage.bytes.len() - from);
            drive.take(&storage.bytes[from..from + moved]);
            moved
        } else if self.flags & flag::SKIP != 0 {
            drive.pass(most);
            most
        } else {
            let moved = storage.store(at, drive.next_bytes(most), self.key);
            drive.pass(moved);
            moved
        };
        if moved == 0 {
            let is_outside = at >= storage.bytes.len();
            return Unit::Ends(
                drive.end(),
                if is_outside {
                    status::PROGRAM_CHECK
                } else {
                    status::PROTECTION_CHECK
                },
            );
        }
        self.residual -= moved as u16;
        self.address += moved as u32;
        Unit::Done(moved as u16)
    }

    fn ending(&self, drive: &mut Drive, ended: u8, channel: u8) -> Ending {
        drive.settle();
        let [_, a0, a1, a2] = (self.last.wrapping_add(8)).to_be_bytes();
        let [c0, c1] = self.residual.to_be_bytes();
        let channel = channel | self.asked();
        ([self.key << 4, a0, a1, a2, ended, channel, c0, c1], ended == unit::CHANNEL_END)
    }

    /// Goes on by so many units; how many were done, and how the program ended, if it did.
    pub fn advance<const FUSED: bool>(&mut self, storage: &mut Storage, drive: &mut Drive, units: u16) -> (u16, Option<Ending>) {
        let mut left = units;
        while left > 0 {
            let done = match self.stage {
                Stage::Fetches => match FUSED.then(|| self.whole(storage, drive, left)).flatten() {
                    Some(done) => Unit::Done(done),
                    None => self.fetches(storage, drive),
                },
                Stage::Looks => self.looks(drive),
                Stage::MovesBytes => self.moves(storage, drive, left),
            };
            match done {
                Unit::Done(done) => left -= done,
                Unit::Ends(ended, channel) => {
                    return (units - left + 1, Some(self.ending(drive, ended, channel)));
                }
            }
        }
        (units, None)
    }

    // A whole Read Data, Read Count, Key and Data or Search Identifier that ends as it should and is chained to another, where the
    // units suffice: the units that it took; or none, and nothing has changed.
    #[inline(always)]
    fn whole(&mut self, storage: &mut Storage, drive: &mut Drive, left: u16) -> Option<u16> {
        let word = if self.next % 8 == 0 {
            storage.doubleword(self.next)?
        } else {
            return None;
        };
        let (flags, count) = (word[4], u16::from_be_bytes([word[6], word[7]]));
        let is_plain = flags & (flag::CHAIN_DATA | flag::CHAIN_COMMAND | flag::MUST_BE_ZERO) == flag::CHAIN_COMMAND;
        let is_at_hand = drive.track.number == Some(drive.track_number()) && drive.track.is_readable;
        if !is_plain || count == 0 || u32::from(count) + 2 > u32::from(left) || !is_at_hand {
            return None;
        }
        let address = u32::from_be_bytes([0, word[1], word[2], word[3]]);
        let is_found = match word[0] & 0x7F {
            0x06 | 0x1E if flags & flag::SKIP == 0 => {
                self.whole_read(storage, drive, word[0], address as usize, usize::from(count))?;
                false
            }
            0x31 if count == 5 => whole_search(storage, drive, address as usize)?,
            _ => return None,
        };
        drive.sense = 0;
        self.takes(flags, count, address);
        self.residual = 0;
        if is_found {
            self.next += 8;
        }
        Some(count + 2)
    }

    #[inline(always)]
    fn whole_read(&self, storage: &mut Storage, drive: &mut Drive, code: u8, address: usize, count: usize) -> Option<()> {
        let position = drive.position;
        let begun = ((position >> 2) as usize).min(drive.track.offsets.len()).max(1);
        let is_data = code & 0x7F == 0x06;
        let record = if is_data && position >= 4 && position & 3 < DATA {
            (position >> 2) as usize - 1
        } else {
            begun
        };
        let at = *drive.track.offsets.get(record)?;
        let (key, data) = drive.track.lengths(at);
        let (from, length) = if is_data { (at + 8 + key, data) } else { (at, 8 + key + data) };
        let is_stored = length == count && data > 0 && address + count <= storage.bytes.len() && storage.admits(address, count, self.key);
        if !is_stored {
            return None;
        }
        storage.bytes[address..address + count].copy_from_slice(&drive.track.slot[from..from + count]);
        drive.position = place(record, DATA);
        drive.laps = 0;
        drive.credit = Credit::None;
        Some(())
    }
}

// Whether the next identifier is the one that is wanted; none where there is no next.
#[inline(always)]
fn whole_search(storage: &Storage, drive: &mut Drive, address: usize) -> Option<bool> {
    let record = ((drive.position >> 2) as usize).min(drive.track.offsets.len());
    let at = *drive.track.offsets.get(record)?;
    let is_found = drive.track.slot[at..at + 5] == *storage.bytes.get(address..address + 5)?;
    drive.position = place(record, COUNT);
    drive.credit = if is_found { Credit::Identifier(record) } else { Credit::None };
    Some(is_found)
}
