//! A drive: its volume, the track at hand, what it remembers, and how a command begins and finds its area.

use crate::commands::{Comparison, Operation, TABLE};
use crate::volume::Volume;
use std::cmp::Ordering;

/// Where the track stands, as a number: 0 the index, 1 the home address, else 4 times a record's number behind the index, and its part.
pub const INDEX: u32 = 0;
/// The home address.
pub const HOME_ADDRESS: u32 = 1;
/// The parts of a record.
pub const COUNT: u32 = 0;
/// The key of a record.
pub const KEY: u32 = 1;
/// The data of a record.
pub const DATA: u32 = 2;

/// The position at a part of a record.
pub fn place(record: usize, part: u32) -> u32 {
    4 * (record as u32 + 1) + part
}

/// The sense bits that are used: the first two bytes.
pub mod sense {
    /// Command reject.
    pub const COMMAND_REJECT: u16 = 0x8000;
    /// Data check.
    pub const DATA_CHECK: u16 = 0x0800;
    /// Seek check.
    pub const SEEK_CHECK: u16 = 0x0100;
    /// Track overrun.
    pub const TRACK_OVERRUN: u16 = 0x0040;
    /// End of cylinder.
    pub const END_OF_CYLINDER: u16 = 0x0020;
    /// Invalid sequence.
    pub const INVALID_SEQUENCE: u16 = 0x0010;
    /// No record found.
    pub const NO_RECORD_FOUND: u16 = 0x0008;
    /// File protected.
    pub const FILE_PROTECTED: u16 = 0x0004;
    /// Missing address marker.
    pub const MISSING_ADDRESS_MARKER: u16 = 0x0002;
}

/// What the command before gives to a write.
#[derive(Clone, Copy, PartialEq, Eq)]
pub enum Credit {
    /// Nothing.
    None,
    /// A home address was found equal, or written.
    HomeAddress,
    /// The identifier of a record was found equal.
    Identifier(usize),
    /// The key of a record was found equal.
    Key(usize),
    /// A record was written.
    Written(usize),
}

/// What came of the beginning of a command.
#[derive(Clone, Copy, PartialEq, Eq)]
pub enum Begun {
    /// It was not begun.
    Rejected,
    /// It is over.
    Immediate,
    /// It works.
    Started,
}

/// What came of a look for its area.
#[derive(Clone, Copy, PartialEq, Eq)]
pub enum Look {
    /// Bytes may pass.
    Ready,
    /// The index passed.
    Passed,
    /// It is over, with unit check.
    Failed,
}

/// The command at hand.
#[derive(Clone, Copy)]
pub struct Work {
    /// What it does.
    pub operation: Operation,
    /// Whether it goes on at the next head.
    pub multi_track: bool,
    /// By what a search is satisfied.
    pub comparison: Comparison,
    /// Its record.
    pub record: usize,
    /// Where its next byte stands in the slot.
    pub start: usize,
    /// How many bytes may pass.
    pub left: usize,
    /// How many passed.
    pub moved: usize,
    /// How the track is to what is wanted, as far as it was compared.
    pub order: Ordering,
    /// The operand, as far as it came.
    pub field: [u8; 8],
    /// Whether the record has no data.
    pub is_end_of_file: bool,
    /// Whether it has written.
    pub has_written: bool,
}

/// The track at hand, in a buffer of its own.
pub struct Track {
    /// Its bytes.
    pub slot: Vec<u8>,
    /// Where its records begin.
    pub offsets: Vec<usize>,
    /// Which it is.
    pub number: Option<u32>,
    /// Whether it can be read.
    pub is_readable: bool,
    /// Whether it is to be saved.
    pub is_changed: bool,
    /// From where on its slot has zeros.
    pub zeros_from: usize,
    /// How many records are charged, and what is left then of the track's capacity.
    pub charged: (usize, Option<u32>),
}

impl Track {
    /// The key length and the data length of a record.
    #[inline(always)]
    pub fn lengths(&self, at: usize) -> (usize, usize) {
        let data = u16::from_be_bytes([self.slot[at + 6], self.slot[at + 7]]);
        (usize::from(self.slot[at + 5]), usize::from(data))
    }

    // Finds the records of the slot.
    fn read(&mut self) {
        self.offsets.clear();
        self.is_readable = false;
        let mut at = 5;
        while let Some(count) = self.slot.get(at..at + 8) {
            if count == [0xFF; 8] {
                self.is_readable = true;
                return;
            }
            let (key, data) = self.lengths(at);
            self.offsets.push(at);
            at += 8 + key + data;
        }
    }
}

/// A drive.
pub struct Drive {
    /// Its volume.
    pub volume: Volume,
    /// The track at hand.
    pub track: Track,
    /// The cylinder of its arm.
    pub cylinder: u16,
    /// Its head.
    pub head: u16,
    /// The first two sense bytes.
    pub sense: u16,
    /// The file mask.
    pub mask: u8,
    /// Whether the program has set it.
    pub is_mask_set: bool,
    /// How often the index passed.
    pub laps: u8,
    /// Where the track stands.
    pub position: u32,
    /// What the command before gives.
    pub credit: Credit,
    /// The command at hand.
    pub work: Work,
}

impl Drive {
    /// A drive over a volume, at its first track.
    pub fn new(volume: Volume) -> Drive {
        let (slot, capacity) = (volume.slot, volume.model.capacity());
        Drive {
            track: Track {
                slot: vec![0; slot],
                offsets: Vec::with_capacity(slot / 8),
                number: None,
                is_readable: false,
                is_changed: false,
                zeros_from: slot,
                charged: (0, Some(capacity)),
            },
            volume,
            cylinder: 0,
            head: 0,
            sense: 0,
            mask: 0,
            is_mask_set: false,
            laps: 0,
            position: INDEX,
            credit: Credit::None,
            work: Work {
                operation: Operation::Nothing,
                multi_track: false,
                comparison: Comparison::Equal,
                record: 0,
                start: 0,
                left: 0,
                moved: 0,
                order: Ordering::Equal,
                field: [0; 8],
                is_end_of_file: false,
                has_written: false,
            },
        }
    }

    /// Begins a channel program.
    pub fn begin_program(&mut self) {
        self.position = INDEX;
        self.laps = 0;
        self.mask = 0;
        self.is_mask_set = false;
        self.credit = Credit::None;
    }

    /// The number of the track under the head.
    #[inline(always)]
    pub fn track_number(&self) -> u32 {
        u32::from(self.cylinder) * u32::from(self.volume.heads) + u32::from(self.head)
    }

    // Takes the track under the head to hand.
    fn hold(&mut self) {
        let number = self.track_number();
        if self.track.number == Some(number) {
            return;
        }
        self.track.slot.copy_from_slice(self.volume.track(number));
        self.track.number = Some(number);
        self.track.zeros_from = self.volume.slot;
        self.track.charged = (0, Some(self.volume.model.capacity()));
        self.track.read();
    }

    /// Saves the track if it was changed.
    pub fn settle(&mut self) {
        if let (true, Some(number)) = (self.track.is_changed, self.track.number) {
            self.track.is_changed = false;
            self.volume.save(number, &self.track.slot);
        }
    }

    /// Moves the arm and the head.
    pub fn leave(&mut self, cylinder: u16, head: u16) {
        self.settle();
        self.cylinder = cylinder;
        self.head = head;
        self.position = INDEX;
        self.laps = 0;
    }

    // The sense bits for which a command is not begun, or none.
    fn cause(&mut self, operation: Operation) -> u16 {
        let (writes, seeks) = (self.mask & 0xC0, self.mask & 0x18);
        let is_masked = match operation {
            Operation::WriteHomeAddress | Operation::WriteRecordZero => writes != 0xC0,
            Operation::WriteCountKeyAndData => writes == 0x40 || writes == 0x80,
            Operation::WriteData | Operation::WriteKeyAndData => writes == 0x40,
            _ => false,
        };
        let is_protected = match operation {
            Operation::Seek | Operation::Recalibrate | Operation::ReadProgram => seeks != 0,
            Operation::SeekCylinder => seeks >= 0x10,
            Operation::SeekHead => seeks == 0x18,
            _ => false,
        };
        if operation == Operation::Invalid {
            sense::COMMAND_REJECT
        } else if is_masked {
            sense::COMMAND_REJECT | sense::FILE_PROTECTED
        } else if is_protected {
            sense::FILE_PROTECTED
        } else if !self.is_in_sequence(operation) {
            sense::COMMAND_REJECT | sense::INVALID_SEQUENCE
        } else {
            0
        }
    }

    // Whether the command may follow the one before; a write takes its record.
    fn is_in_sequence(&mut self, operation: Operation) -> bool {
        let record = match (operation, self.credit) {
            (Operation::WriteRecordZero, credit) => return credit == Credit::HomeAddress,
            (Operation::SetFileMask, _) => return !self.is_mask_set,
            (Operation::WriteCountKeyAndData, Credit::Written(it)) => it,
            (Operation::WriteCountKeyAndData | Operation::WriteData, Credit::Key(it)) => it,
            (Operation::WriteCountKeyAndData | Operation::WriteData | Operation::WriteKeyAndData, Credit::Identifier(it)) => it,
            (Operation::WriteCountKeyAndData | Operation::WriteData | Operation::WriteKeyAndData, _) => return false,
            _ => return true,
        };
        self.work.record = record;
        true
    }

    /// Begins the command of a code.
    #[inline(always)]
    pub fn begin(&mut self, code: u8) -> Begun {
        let command = TABLE[usize::from(code)];
        let operation = command.operation;
        let cause = if self.mask == 0 && command.is_free {
            0
        } else {
            self.cause(operation)
        };
        if !command.is_search || cause != 0 {
            self.laps = 0;
        }
        if operation != Operation::Sense {
            self.sense = cause;
        }
        self.credit = Credit::None;
        if cause != 0 {
            return Begun::Rejected;
        }
        self.work.operation = operation;
        self.work.multi_track = command.multi_track;
        self.work.comparison = command.comparison;
        self.work.moved = 0;
        self.work.left = 0;
        self.work.has_written = false;
        match operation {
            Operation::Nothing => Begun::Immediate,
            Operation::Recalibrate => {
                self.leave(0, 0);
                Begun::Immediate
            }
            Operation::ReadProgram => {
                self.leave(0, 0);
                Begun::Started
            }
            _ => Begun::Started,
        }
    }

    /// Looks for the area of the command at hand.
    #[inline(always)]
    pub fn look(&mut self) -> Look {
        if self.needs_no_track() {
            return Look::Ready;
        }
        self.hold();
        if !self.track.is_readable && self.work.operation != Operation::WriteHomeAddress {
            self.sense |= sense::DATA_CHECK | sense::MISSING_ADDRESS_MARKER;
            return Look::Failed;
        }
        if self.finds() {
            return Look::Ready;
        }
        if self.work.multi_track {
            return self.next_head();
        }
        self.position = INDEX;
        self.laps += 1;
        if self.laps == 2 {
            self.laps = 0;
            self.sense |= sense::NO_RECORD_FOUND;
            return Look::Failed;
        }
        Look::Passed
    }

    // A command that looks at no track, or goes on where the one before ended, has its bytes.
    fn needs_no_track(&mut self) -> bool {
        match self.work.operation {
            Operation::Sense => {
                let [first, second] = self.sense.to_be_bytes();
                self.work.field = [first, second, 0, 0, 0, 0, 0, 0];
                self.work.start = 0;
                self.work.left = 6;
            }
            Operation::Seek | Operation::SeekCylinder | Operation::SeekHead => self.work.left = 6,
            Operation::SetFileMask => self.work.left = 1,
            Operation::WriteRecordZero | Operation::WriteCountKeyAndData => self.work.left = 8,
            Operation::WriteData => self.at_record(self.work.record, DATA),
            Operation::WriteKeyAndData => self.at_record(self.work.record, KEY),
            _ => return false,
        }
        true
    }

    fn next_head(&mut self) -> Look {
        if self.mask & 0x18 == 0x18 {
            self.sense |= sense::FILE_PROTECTED;
            return Look::Failed;
        }
        if self.head + 1 >= self.volume.heads {
            self.sense |= sense::END_OF_CYLINDER;
            return Look::Failed;
        }
        self.leave(self.cylinder, self.head + 1);
        Look::Passed
    }

    // The bytes of a record from one of its parts on.
    #[inline(always)]
    fn at_record(&mut self, record: usize, part: u32) {
        let at = self.track.offsets[record];
        let (key, data) = self.track.lengths(at);
        let (start, left) = match part {
            COUNT => (at, 8 + key + data),
            KEY => (at + 8, key + data),
            _ => (at + 8 + key, data),
        };
        self.work.record = record;
        self.work.start = start;
        self.work.left = left;
        self.work.is_end_of_file = data == 0;
    }

    // Whether the next area is on this track, which it is then at.
    #[inline(always)]
    fn finds(&mut self) -> bool {
        let begun = ((self.position >> 2) as usize).min(self.track.offsets.len());
        let records = self.track.offsets.len();
        // the record in whose count area, or before whose data, the track stands
        let is_within = |part: u32| self.position >= 4 && self.position & 3 < part;
        let here = (self.position >> 2).wrapping_sub(1) as usize;
        match self.work.operation {
            Operation::SearchHomeAddress | Operation::ReadHomeAddress | Operation::WriteHomeAddress => {
                return self.finds_home_address();
            }
            Operation::SearchIdentifier if begun < records => {
                self.at_record(begun, COUNT);
                self.work.left = 5;
            }
            Operation::SearchKey => return self.finds_key(if is_within(KEY) { here } else { begun.max(1) }),
            Operation::ReadData => return self.finds_record(if is_within(DATA) { here } else { begun.max(1) }, DATA),
            Operation::ReadKeyAndData => {
                return self.finds_record(if is_within(KEY) { here } else { begun.max(1) }, KEY);
            }
            Operation::ReadCountKeyAndData => return self.finds_record(begun.max(1), COUNT),
            Operation::ReadCount if begun.max(1) < records => {
                self.at_record(begun.max(1), COUNT);
                self.work.left = 8;
            }
            Operation::ReadRecordZero if begun == 0 && records > 0 => self.at_record(0, COUNT),
            Operation::ReadProgram if (self.position < 4 || here == 0 || here == 1 && is_within(DATA)) && records > 1 => {
                self.at_record(1, DATA);
            }
            _ => return false,
        }
        true
    }

    fn finds_record(&mut self, record: usize, part: u32) -> bool {
        let is_there = record < self.track.offsets.len();
        if is_there {
            self.at_record(record, part);
        }
        is_there
    }

    fn finds_key(&mut self, from: usize) -> bool {
        let with_key = |it: &usize| self.track.slot[self.track.offsets[*it] + 5] > 0;
        let Some(record) = (from..self.track.offsets.len()).find(with_key) else {
            return false;
        };
        self.at_record(record, KEY);
        self.work.left = usize::from(self.track.slot[self.track.offsets[record] + 5]);
        true
    }

    fn finds_home_address(&mut self) -> bool {
        let from = usize::from(self.work.operation == Operation::SearchHomeAddress);
        self.work.start = from;
        self.work.left = 5 - from;
        self.work.is_end_of_file = false;
        self.position == INDEX
    }
}
