//! What each command code asks of a drive.

/// What a command does.
#[derive(Clone, Copy, PartialEq, Eq)]
pub enum Operation {
    /// No command has this code.
    Invalid,
    /// No-Operation.
    Nothing,
    /// Recalibrate.
    Recalibrate,
    /// Seek, to a cylinder and a head.
    Seek,
    /// Seek Cylinder.
    SeekCylinder,
    /// Seek Head.
    SeekHead,
    /// Set File Mask.
    SetFileMask,
    /// Sense.
    Sense,
    /// Search Home Address.
    SearchHomeAddress,
    /// Search Identifier.
    SearchIdentifier,
    /// Search Key.
    SearchKey,
    /// Read Initial Program Load.
    ReadProgram,
    /// Read Home Address.
    ReadHomeAddress,
    /// Read Record 0.
    ReadRecordZero,
    /// Read Count.
    ReadCount,
    /// Read Data.
    ReadData,
    /// Read Key and Data.
    ReadKeyAndData,
    /// Read Count, Key and Data.
    ReadCountKeyAndData,
    /// Write Home Address.
    WriteHomeAddress,
    /// Write Record 0.
    WriteRecordZero,
    /// Write Count, Key and Data.
    WriteCountKeyAndData,
    /// Write Data.
    WriteData,
    /// Write Key and Data.
    WriteKeyAndData,
}

/// Which order satisfies a search.
#[derive(Clone, Copy, PartialEq, Eq)]
pub enum Comparison {
    /// The track is equal to what is wanted.
    Equal,
    /// The track is higher.
    High,
    /// The track is equal or higher.
    EqualOrHigh,
}

/// A command as its code has it.
#[derive(Clone, Copy)]
pub struct Command {
    /// What it does.
    pub operation: Operation,
    /// Whether it goes on at the next head.
    pub multi_track: bool,
    /// By what a search is satisfied.
    pub comparison: Comparison,
    /// Whether it is a search.
    pub is_search: bool,
    /// Whether it is begun whatever was before it, where the file mask is zero.
    pub is_free: bool,
}

impl Command {
    const fn new(operation: Operation, comparison: Comparison) -> Command {
        Command {
            operation,
            multi_track: false,
            comparison,
            is_search: matches!(
                operation,
                Operation::SearchHomeAddress | Operation::SearchIdentifier | Operation::SearchKey
            ),
            is_free: !matches!(
                operation,
                Operation::Invalid
                    | Operation::SetFileMask
                    | Operation::WriteHomeAddress
                    | Operation::WriteRecordZero
                    | Operation::WriteCountKeyAndData
                    | Operation::WriteData
                    | Operation::WriteKeyAndData
            ),
        }
    }
}

const SINGLE: [(u8, Operation); 13] = [
    (0x03, Operation::Nothing),
    (0x13, Operation::Recalibrate),
    (0x07, Operation::Seek),
    (0x0B, Operation::SeekCylinder),
    (0x1B, Operation::SeekHead),
    (0x1F, Operation::SetFileMask),
    (0x04, Operation::Sense),
    (0x02, Operation::ReadProgram),
    (0x19, Operation::WriteHomeAddress),
    (0x15, Operation::WriteRecordZero),
    (0x1D, Operation::WriteCountKeyAndData),
    (0x05, Operation::WriteData),
    (0x0D, Operation::WriteKeyAndData),
];

const MULTI_TRACK: [(u8, Operation, Comparison); 13] = [
    (0x39, Operation::SearchHomeAddress, Comparison::Equal),
    (0x31, Operation::SearchIdentifier, Comparison::Equal),
    (0x51, Operation::SearchIdentifier, Comparison::High),
    (0x71, Operation::SearchIdentifier, Comparison::EqualOrHigh),
    (0x29, Operation::SearchKey, Comparison::Equal),
    (0x49, Operation::SearchKey, Comparison::High),
    (0x69, Operation::SearchKey, Comparison::EqualOrHigh),
    (0x1A, Operation::ReadHomeAddress, Comparison::Equal),
    (0x16, Operation::ReadRecordZero, Comparison::Equal),
    (0x12, Operation::ReadCount, Comparison::Equal),
    (0x06, Operation::ReadData, Comparison::Equal),
    (0x0E, Operation::ReadKeyAndData, Comparison::Equal),
    (0x1E, Operation::ReadCountKeyAndData, Comparison::Equal),
];

const fn table() -> [Command; 256] {
    let mut table = [Command::new(Operation::Invalid, Comparison::Equal); 256];
    let mut at = 0;
    while at < SINGLE.len() {
        table[SINGLE[at].0 as usize] = Command::new(SINGLE[at].1, Comparison::Equal);
        at += 1;
    }
    at = 0;
    while at < MULTI_TRACK.len() {
        let (code, operation, comparison) = MULTI_TRACK[at];
        let read = Command::new(operation, comparison);
        table[code as usize] = read;
        table[(code | 0x80) as usize] = Command { multi_track: true, ..read };
        at += 1;
    }
    table
}

/// The command of each code.
pub static TABLE: [Command; 256] = table();
