//! The bytes of a command, and its end.

use crate::commands::{Comparison, Operation};
use crate::drive::{place, sense, Credit, Drive, COUNT, DATA, HOME_ADDRESS, KEY};
use std::cmp::Ordering;

/// Unit status.
pub mod unit {
    /// Status modifier.
    pub const STATUS_MODIFIER: u8 = 0x40;
    /// Channel end.
    pub const CHANNEL_END: u8 = 0x08;
    /// Channel end and device end.
    pub const ENDED: u8 = 0x0C;
    /// The same with unit check.
    pub const CHECKED: u8 = 0x0E;
    /// The same with unit exception.
    pub const EXCEPTION: u8 = 0x0D;
}

impl Drive {
    /// Whether the command at hand gives bytes.
    #[inline(always)]
    pub fn gives(&self) -> bool {
        matches!(
            self.work.operation,
            Operation::Sense
                | Operation::ReadHomeAddress
                | Operation::ReadRecordZero
                | Operation::ReadCount
                | Operation::ReadData
                | Operation::ReadKeyAndData
                | Operation::ReadCountKeyAndData
                | Operation::ReadProgram
        )
    }

    /// The next bytes that it gives.
    #[inline(always)]
    pub fn next_bytes(&self, count: usize) -> &[u8] {
        let from = if self.work.operation == Operation::Sense {
            &self.work.field[..]
        } else {
            &self.track.slot[..]
        };
        &from[self.work.start..self.work.start + count]
    }

    /// So many bytes have passed.
    #[inline(always)]
    pub fn pass(&mut self, count: usize) {
        self.work.start += count;
        self.work.left -= count;
        self.work.moved += count;
    }

    /// Takes the next bytes.
    #[inline(always)]
    pub fn take(&mut self, bytes: &[u8]) {
        let (start, count) = (self.work.start, bytes.len());
        match self.work.operation {
            Operation::SearchHomeAddress | Operation::SearchIdentifier | Operation::SearchKey => {
                if self.work.moved == 0 {
                    self.work.order = Ordering::Equal;
                }
                if self.work.order == Ordering::Equal {
                    self.work.order = self.track.slot[start..start + count].cmp(bytes);
                }
                self.pass(count);
            }
            Operation::WriteData | Operation::WriteKeyAndData => {
                if !self.work.has_written {
                    self.work.has_written = true;
                    self.mark_end(self.end_of(self.track.offsets.len()));
                }
                self.track.slot[start..start + count].copy_from_slice(bytes);
                self.pass(count);
            }
            Operation::WriteRecordZero | Operation::WriteCountKeyAndData if self.work.moved >= 8 => {
                self.track.slot[start..start + count].copy_from_slice(bytes);
                self.pass(count);
            }
            _ => self.take_field(bytes),
        }
    }

    fn take_field(&mut self, bytes: &[u8]) {
        let moved = self.work.moved;
        self.work.field[moved..moved + bytes.len()].copy_from_slice(bytes);
        self.work.moved += bytes.len();
        self.work.left -= bytes.len();
        if self.work.left > 0 {
            return;
        }
        match self.work.operation {
            Operation::WriteRecordZero | Operation::WriteCountKeyAndData => self.format(),
            Operation::WriteHomeAddress => self.write_home_address(),
            _ => {}
        }
    }

    // Where a track with so many records ends.
    fn end_of(&self, records: usize) -> usize {
        records.checked_sub(1).map_or(5, |last| {
            let at = self.track.offsets[last];
            let (key, data) = self.track.lengths(at);
            at + 8 + key + data
        })
    }

    // Puts the end mark there, and zeros behind it.
    fn mark_end(&mut self, end: usize) {
        let track = &mut self.track;
        track.slot[end..end + 8].fill(0xFF);
        if end + 8 < track.zeros_from {
            track.slot[end + 8..track.zeros_from].fill(0);
        }
        track.zeros_from = end + 8;
        track.is_changed = true;
    }

    fn write_home_address(&mut self) {
        let ([c0, c1], [h0, h1]) = (self.cylinder.to_be_bytes(), self.head.to_be_bytes());
        let own = [0, c0, c1, h0, h1];
        if self.work.field[..5] != own {
            return;
        }
        self.track.slot[..5].copy_from_slice(&own);
        self.mark_end(5);
        self.track.offsets.clear();
        self.track.is_readable = true;
        self.work.has_written = true;
        self.track.charged = (0, Some(self.volume.model.capacity()));
    }

    fn charge(&self, record: usize, key: usize, data: usize) -> u32 {
        let model = self.volume.model;
        let charge = model.charge(key, data);
        if record > 0 {
            return charge;
        }
        charge.saturating_sub(model.charge(0, 8))
    }

    // What is left of the track's capacity behind so many records.
    fn capacity_behind(&mut self, kept: usize) -> Option<u32> {
        if self.track.charged.0 > kept {
            self.track.charged = (0, Some(self.volume.model.capacity()));
        }
        let (from, mut rest) = self.track.charged;
        for record in from..kept {
            let (key, data) = self.track.lengths(self.track.offsets[record]);
            rest = rest.and_then(|it| it.checked_sub(self.charge(record, key, data)));
        }
        self.track.charged = (kept, rest);
        rest
    }

    // Writes the count area that came, if its record fits.
    fn format(&mut self) {
        let kept = if self.work.operation == Operation::WriteRecordZero {
            0
        } else {
            self.work.record + 1
        };
        let field = self.work.field;
        let key = usize::from(field[5]);
        let data = usize::from(u16::from_be_bytes([field[6], field[7]]));
        let new = if kept == 0 {
            self.charge(0, key, data)
        } else {
            self.volume.model.last_charge(key, data)
        };
        if !self.capacity_behind(kept).is_some_and(|rest| new <= rest) {
            return;
        }
        let at = self.end_of(kept);
        self.track.slot[at..at + 8].copy_from_slice(&field);
        self.track.offsets.truncate(kept);
        self.track.offsets.push(at);
        self.work.record = kept;
        self.work.start = at + 8;
        self.work.left = key + data;
        self.work.has_written = true;
        self.mark_end(at + 8 + key + data);
    }

    /// Ends the command; its unit status.
    #[inline(always)]
    pub fn end(&mut self) -> u8 {
        let record = self.work.record;
        match self.work.operation {
            Operation::Recalibrate => unit::CHANNEL_END,
            Operation::SetFileMask => self.end_mask(),
            Operation::Seek | Operation::SeekCylinder | Operation::SeekHead => self.end_seek(),
            Operation::SearchHomeAddress => self.end_search(HOME_ADDRESS, Credit::HomeAddress),
            Operation::SearchIdentifier => self.end_search(place(record, COUNT), Credit::Identifier(record)),
            Operation::SearchKey => self.end_search(place(record, KEY), Credit::Key(record)),
            Operation::ReadHomeAddress => self.end_at(HOME_ADDRESS),
            Operation::ReadCount => self.end_at(place(record, COUNT)),
            Operation::ReadData
            | Operation::ReadKeyAndData
            | Operation::ReadCountKeyAndData
            | Operation::ReadRecordZero
            | Operation::ReadProgram => self.end_data(),
            Operation::WriteHomeAddress => self.end_home_address(),
            Operation::WriteRecordZero | Operation::WriteCountKeyAndData => self.end_formatting(),
            Operation::WriteData | Operation::WriteKeyAndData => {
                self.fill_rest();
                self.end_data()
            }
            Operation::Nothing | Operation::Sense | Operation::Invalid => unit::ENDED,
        }
    }

    fn end_at(&mut self, position: u32) -> u8 {
        self.position = position;
        unit::ENDED
    }

    fn end_data(&mut self) -> u8 {
        self.position = place(self.work.record, DATA);
        if self.work.is_end_of_file {
            unit::EXCEPTION
        } else {
            unit::ENDED
        }
    }

    fn checked(&mut self, cause: u16) -> u8 {
        self.sense |= cause;
        unit::CHECKED
    }

    fn end_mask(&mut self) -> u8 {
        if self.work.moved == 1 {
            self.mask = self.work.field[0] & 0xD8;
            self.is_mask_set = true;
        }
        unit::ENDED
    }

    fn end_seek(&mut self) -> u8 {
        match self.work.moved {
            0 => return unit::ENDED,
            1..=5 => return self.checked(sense::COMMAND_REJECT),
            _ => {}
        }
        let [bin, cylinder, head] = [0, 2, 4].map(|it| u16::from_be_bytes([self.work.field[it], self.work.field[it + 1]]));
        let is_head_alone = self.work.operation == Operation::SeekHead;
        let is_on_volume = head < self.volume.heads && (is_head_alone || bin == 0 && cylinder < self.volume.cylinders);
        if !is_on_volume {
            return self.checked(sense::COMMAND_REJECT | sense::SEEK_CHECK);
        }
        if is_head_alone {
            self.leave(self.cylinder, head);
            return unit::ENDED;
        }
        self.leave(cylinder, head);
        unit::CHANNEL_END
    }

    fn end_search(&mut self, position: u32, credit: Credit) -> u8 {
        self.position = position;
        let is_satisfied = match self.work.comparison {
            Comparison::Equal => self.work.order.is_eq(),
            Comparison::High => self.work.order.is_gt(),
            Comparison::EqualOrHigh => self.work.order.is_ge(),
        };
        if self.work.moved == 0 || !is_satisfied {
            return unit::ENDED;
        }
        if self.work.left == 0 && self.work.comparison == Comparison::Equal {
            self.credit = credit;
        }
        unit::ENDED | unit::STATUS_MODIFIER
    }

    fn end_home_address(&mut self) -> u8 {
        self.position = HOME_ADDRESS;
        if self.work.has_written {
            self.credit = Credit::HomeAddress;
        } else if self.work.moved > 0 {
            return self.checked(sense::COMMAND_REJECT);
        }
        unit::ENDED
    }

    fn fill_rest(&mut self) {
        if self.work.has_written {
            let (start, left) = (self.work.start, self.work.left);
            self.track.slot[start..start + left].fill(0);
        }
    }

    fn end_formatting(&mut self) -> u8 {
        if self.work.has_written {
            self.fill_rest();
            self.position = place(self.work.record, DATA);
            self.credit = Credit::Written(self.work.record);
            return unit::ENDED;
        }
        match self.work.moved {
            0 => unit::ENDED,
            8 => self.checked(sense::TRACK_OVERRUN),
            _ => self.checked(sense::COMMAND_REJECT),
        }
    }
}
