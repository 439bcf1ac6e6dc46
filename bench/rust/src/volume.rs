//! A volume in memory: a CKD_P370 image in one file.

const HEADER: usize = 512;

/// A model of drive.
#[derive(Clone, Copy, PartialEq, Eq)]
pub enum Model {
    /// IBM 2311.
    D2311,
    /// IBM 2314.
    D2314,
}

impl Model {
    /// The bytes of a track.
    pub fn capacity(self) -> u32 {
        match self {
            Model::D2311 => 3625,
            Model::D2314 => 7294,
        }
    }

    /// What a record takes of its track, where another is behind it.
    pub fn charge(self, key: usize, data: usize) -> u32 {
        let bytes = (key + data) as u32;
        match self {
            Model::D2311 => 61 + self.key_gap(key) + bytes * 537 / 512,
            Model::D2314 => 101 + self.key_gap(key) + bytes * 2137 / 2048,
        }
    }

    /// What the last record takes.
    pub fn last_charge(self, key: usize, data: usize) -> u32 {
        (key + data) as u32 + self.key_gap(key)
    }

    fn key_gap(self, key: usize) -> u32 {
        match self {
            _ if key == 0 => 0,
            Model::D2311 => 20,
            Model::D2314 => 45,
        }
    }
}

/// The file of a volume and what its header says.
pub struct Volume {
    bytes: Vec<u8>,
    /// The model.
    pub model: Model,
    /// The heads of a cylinder.
    pub heads: u16,
    /// The cylinders.
    pub cylinders: u16,
    /// The bytes of a slot.
    pub slot: usize,
}

impl Volume {
    /// The volume of an image in one file, if it is one.
    pub fn new(bytes: Vec<u8>) -> Option<Volume> {
        let (name, model) = (bytes.get(..8)?, bytes.get(16)?);
        let model = match (name, model) {
            (b"CKD_P370", 0x11) => Model::D2311,
            (b"CKD_P370", 0x14) => Model::D2314,
            _ => return None,
        };
        let heads: u16 = if model == Model::D2311 { 10 } else { 20 };
        let slot = u32::from_le_bytes(bytes.get(12..16)?.try_into().ok()?) as usize;
        let cylinder = slot * usize::from(heads);
        let slots = bytes.len().checked_sub(HEADER)?;
        if slot < model.capacity() as usize + 37 || slots == 0 || slots % cylinder != 0 {
            return None;
        }
        Some(Volume {
            model,
            heads,
            cylinders: u16::try_from(slots / cylinder).ok()?,
            slot,
            bytes,
        })
    }

    fn range(&self, track: u32) -> std::ops::Range<usize> {
        let at = HEADER + track as usize * self.slot;
        at..at + self.slot
    }

    /// The slot of a track.
    pub fn track(&self, track: u32) -> &[u8] {
        &self.bytes[self.range(track)]
    }

    /// Puts a slot back.
    pub fn save(&mut self, track: u32, slot: &[u8]) {
        let range = self.range(track);
        self.bytes[range].copy_from_slice(slot);
    }
}
