//! What the library refuses.

use std::error::Error;
use std::fmt;

macro_rules! faults {
    ($($(#[doc = $text:literal])+ $name:ident = $code:literal,)*) => {
        /// Why a call was refused. Nothing has changed.
        #[derive(Clone, Copy, Debug, PartialEq, Eq, Hash)]
        #[non_exhaustive]
        pub enum Fault {
            $($(#[doc = $text])+ $name,)*
            /// A number that this crate does not know.
            Other(i32),
        }

        impl Fault {
            pub(crate) fn of(code: i32) -> Fault {
                match code {
                    $($code => Fault::$name,)*
                    code => Fault::Other(code),
                }
            }

            /// The number of `enum dasd_fault`.
            pub fn code(self) -> i32 {
                match self {
                    $(Fault::$name => $code,)*
                    Fault::Other(code) => code,
                }
            }
        }

        impl fmt::Display for Fault {
            fn fmt(&self, f: &mut fmt::Formatter<'_>) -> fmt::Result {
                match self {
                    $(Fault::$name => f.write_str(concat!($($text),+).trim()),)*
                    Fault::Other(code) => write!(f, "fault {code}"),
                }
            }
        }
    };
}

// c/interface.toml: begin
faults! {
    /// the handle holds nothing: it was not made, or was freed
    NothingHeld = -1,
    /// the handle holds something already
    InUse = -2,
    /// memory was refused
    NoMemory = -3,
    /// a byte lies outside main storage
    OutsideStorage = -4,
    /// storage has a multiple of 2,048 bytes, from 4,096 to 16,777,216
    BadSize = -5,
    /// the set is not one of the channels 0 to 6
    BadChannels = -6,
    /// a storage key is 0 to 15
    BadKey = -7,
    /// a drive's model is 2311 or 2314
    BadModel = -8,
    /// a volume has 1 to 65,535 cylinders
    NoCylinders = -9,
    /// there is no channel of this number
    NoChannel = -10,
    /// no drive with this address is attached
    NoDrive = -11,
    /// a drive with this address is attached
    AddressTaken = -12,
    /// eight drives are attached to this channel
    Full = -13,
    /// an image has at least one file
    NoFiles = -14,
    /// an image has at most eight files
    TooManyFiles = -15,
    /// the drive's image has no such file
    NoFile = -16,
    /// a channel program runs
    ProgramRuns = -17,
    /// the channel status word of this drive's program is not yet stored
    EndingPends = -18,
    /// this drive's arm moves, or has arrived and has not interrupted
    DeviceEndOwed = -19,
    /// the handle owns no main storage: each call is lent it
    NoStorage = -20,
    /// main storage has one key for each block of 2,048 bytes
    BadBlocks = -21,
    /// the channels are for main storage of another size
    OtherSize = -22,
    /// no channel program runs on this channel
    NoProgram = -23,
    /// what is to be written may have more bytes than there is room for
    NoRoom = -24,
    /// there is no such moment, or its call answers no such thing
    BadMoment = -25,
    /// nothing is waited for by such a bit
    BadUntil = -26,
    /// a saved channel status word is no ending that its channel owes
    NotOwed = -27,
    /// not a CKD_P370 image
    NotCkdP370 = -32,
    /// a compressed image, or a shadow file
    Compressed = -33,
    /// neither a 2311 nor a 2314
    DeviceType = -34,
    /// the number of heads is not the drive's
    Heads = -35,
    /// a track of the drive may not fit the track size
    TrackSize = -36,
    /// the files are not those of one image, in order
    Split = -37,
    /// a file's length is not that of an image
    Length = -38,
    /// a file could not be read or written; no file in memory does so
    Store = -39,
    /// not a saved state
    NoSavedState = -40,
    /// a saved state of another version
    OtherVersion = -41,
    /// a saved state that is cut short, or too long
    SavedLength = -42,
    /// a saved state that was changed: its checksum does not fit
    SavedSum = -43,
    /// a field of a saved state has a value that none has
    NotSound = -44,
    /// a saved state of other channels
    OtherChannels = -45,
    /// a saved state of a channel with other drives
    OtherDrives = -46,
    /// a drive was saved at a track that its volume does not have
    NoTrack = -47,
}
// c/interface.toml: end

impl Error for Fault {}

#[cfg(test)]
mod tests {
    use super::Fault;
    use std::path::Path;

    // A line of `enum dasd_fault`: its number and its text.
    fn told(line: &str) -> Option<(i32, &str)> {
        let (number, text) = line.trim().strip_prefix("DASD_")?.split_once(" = ")?.1.split_once("/*")?;
        Some((number.trim().trim_end_matches(',').parse().ok()?, text.strip_suffix("*/")?.trim()))
    }

    #[test]
    fn each_fault_has_the_text_of_the_header() {
        let header = Path::new(env!("CARGO_MANIFEST_DIR")).join("../../c/dasd.h");
        let Ok(header) = std::fs::read_to_string(header) else { return }; // a published crate has none
        let behind = header.split_once("enum dasd_fault {").expect("the header has its faults").1;
        let faults: Vec<_> = behind.lines().take_while(|line| *line != "};").filter_map(told).collect();
        assert!(faults.len() >= 30);
        for (code, text) in faults {
            assert_eq!((Fault::of(code).code(), Fault::of(code).to_string().as_str()), (code, text));
            assert!(!matches!(Fault::of(code), Fault::Other(_)), "{text}");
        }
    }
}
