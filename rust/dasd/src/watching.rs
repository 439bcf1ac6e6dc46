//! A channel program while it runs, between two units.

use crate::subsystem::done;
use crate::{Fault, Subsystem};
use dasd_sys as sys;

/// What the next unit of a program does.
#[derive(Clone, Copy, Debug, PartialEq, Eq, Hash)]
pub enum Phase {
    /// It fetches a word that begins a command.
    Fetches,
    /// It looks for the area of the command at work.
    Looks,
    /// It moves bytes.
    Moves,
}

/// A channel program that runs, as it is between two units. The word at work is the one whose command has begun and has not ended, or
/// that its data are chained to; where a word is to be fetched that begins a command, its fields are 0.
#[derive(Clone, Copy, Debug, PartialEq, Eq)]
pub struct Program {
    /// The low byte of its drive's address.
    pub device: u8,
    /// What its next unit does.
    pub phase: Phase,
    /// Where the last word was whose fetch was tried.
    pub last: u32,
    /// Where the next word is.
    pub next: u32,
    /// The command code of the word at work.
    pub code: u8,
    /// Its flags, the high five bits.
    pub flags: u8,
    /// Its data address.
    pub address: u32,
    /// Its count.
    pub count: u16,
    /// Where its next byte goes or comes from; before the first that is its data address.
    pub place: u32,
    /// The count left in the last good word: the residual count.
    pub left: u16,
    /// The protection key of its stores, 0 to 15.
    pub key: u8,
    /// Whether a word of it asked for an interruption that is not yet taken.
    pub asked: bool,
}

/// An area of a track. A record is named by its place on the track, where record 0 is 0.
#[derive(Clone, Copy, Debug, PartialEq, Eq, Hash)]
pub enum Area {
    /// The home address.
    HomeAddress,
    /// The count area of a record.
    Count(usize),
    /// The key area of a record.
    Key(usize),
    /// The data area of a record.
    Data(usize),
}

/// What a command left for the very next one, between which Transfer In Channel may stand.
#[derive(Clone, Copy, Debug, PartialEq, Eq, Hash)]
pub enum Credit {
    /// A search found the whole home address equal.
    EqualHomeAddress,
    /// A search found the whole identifier of this record equal.
    EqualId(usize),
    /// A search found the whole key of this record equal.
    EqualKey(usize),
    /// The home address was written.
    WroteHomeAddress,
    /// This record was written.
    WroteRecord(usize),
}

/// What a drive remembers in a program, beside its volume.
#[derive(Clone, Copy, Debug, PartialEq, Eq)]
pub struct Registers {
    /// Where its arm is.
    pub cylinder: u16,
    /// The head that is selected.
    pub head: u16,
    /// What passed last on this turn of the track; none since the index. An area passes as the command ends that found it.
    pub area: Option<Area>,
    /// How often the index has passed since the commands began to look on this track, 0 or 1.
    pub lap: u8,
    /// The file mask, in the bits C0 and 18 of the byte that Set File Mask takes.
    pub mask: u8,
    /// Whether a Set File Mask of this program has set it.
    pub mask_set: bool,
    /// What the command just before left.
    pub credit: Option<Credit>,
    /// The sense bytes, of this program so far.
    pub sense: [u8; 6],
}

impl<Storage> Subsystem<Storage> {
    /// The program that runs on a channel; none where none runs.
    ///
    /// # Errors
    ///
    /// `NoChannel`.
    pub fn program(&mut self, channel: u8) -> Result<Option<Program>, Fault> {
        let mut shown = sys::dasd_program::default();
        let code = unsafe { sys::dasd_show_program(&mut *self.handle, channel, &mut shown) };
        Ok(where_one_runs(code)?.then(|| program_of(&shown)))
    }

    /// What the drive of that program remembers beside its volume; none where none runs.
    ///
    /// # Errors
    ///
    /// `NoChannel`.
    pub fn registers(&mut self, channel: u8) -> Result<Option<Registers>, Fault> {
        let mut shown = sys::dasd_registers::default();
        let code = unsafe { sys::dasd_show_registers(&mut *self.handle, channel, &mut shown) };
        Ok(where_one_runs(code)?.then(|| registers_of(&shown)))
    }
}

// Whether a program runs, by what a call that shows it has answered.
fn where_one_runs(code: i32) -> Result<bool, Fault> {
    match done(code) {
        Err(Fault::NoProgram) => Ok(false),
        other => other.map(|_| true),
    }
}

fn program_of(shown: &sys::dasd_program) -> Program {
    Program {
        device: shown.device,
        phase: match shown.phase {
            0 => Phase::Fetches,
            1 => Phase::Looks,
            _ => Phase::Moves,
        },
        last: shown.last,
        next: shown.next,
        code: shown.code,
        flags: shown.flags,
        address: shown.address,
        count: shown.count,
        place: shown.place,
        left: shown.left,
        key: shown.key,
        asked: shown.asked == 1,
    }
}

// A record's place on its track, of which it has fewer bytes than a `usize` counts.
fn place(number: u64) -> usize {
    number as usize
}

fn registers_of(shown: &sys::dasd_registers) -> Registers {
    Registers {
        cylinder: shown.cylinder,
        head: shown.head,
        area: match shown.area {
            1 => Some(Area::HomeAddress),
            2 => Some(Area::Count(place(shown.passed))),
            3 => Some(Area::Key(place(shown.passed))),
            4 => Some(Area::Data(place(shown.passed))),
            _ => None,
        },
        lap: shown.lap,
        mask: shown.mask,
        mask_set: shown.mask_set == 1,
        credit: match shown.credit {
            1 => Some(Credit::EqualHomeAddress),
            2 => Some(Credit::EqualId(place(shown.credited))),
            3 => Some(Credit::EqualKey(place(shown.credited))),
            4 => Some(Credit::WroteHomeAddress),
            5 => Some(Credit::WroteRecord(place(shown.credited))),
            _ => None,
        },
        sense: shown.sense,
    }
}
