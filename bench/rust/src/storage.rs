//! Main storage and its keys.

const BLOCK: usize = 2048;

/// Bytes, and a key for each block of 2,048.
pub struct Storage {
    /// The bytes.
    pub bytes: Vec<u8>,
    /// The keys, 0 to 15.
    pub keys: Vec<u8>,
}

impl Storage {
    /// So many bytes, all zero, with keys of 0.
    pub fn new(size: usize) -> Storage {
        Storage {
            bytes: vec![0; size],
            keys: vec![0; size / BLOCK],
        }
    }

    /// Stores bytes as the processor does; whether they lie within.
    pub fn put(&mut self, at: usize, bytes: &[u8]) -> bool {
        let place = self.bytes.get_mut(at..at.saturating_add(bytes.len()));
        place.map(|it| it.copy_from_slice(bytes)).is_some()
    }

    /// The doubleword at an address.
    #[inline(always)]
    pub fn doubleword(&self, at: u32) -> Option<[u8; 8]> {
        let at = at as usize;
        self.bytes.get(at..at + 8)?.try_into().ok()
    }

    /// Whether a key admits a store into all of these bytes.
    #[inline(always)]
    pub fn admits(&self, at: usize, count: usize, key: u8) -> bool {
        key == 0 || self.keys[at / BLOCK..(at + count).div_ceil(BLOCK)].iter().all(|it| *it == key)
    }

    /// Stores as many of the bytes as storage has and the key admits; how many.
    #[inline(always)]
    pub fn store(&mut self, at: usize, bytes: &[u8], key: u8) -> usize {
        let mut end = at + bytes.len().min(self.bytes.len().saturating_sub(at));
        if key != 0 {
            let mut reached = at;
            while reached < end && self.keys[reached / BLOCK] == key {
                reached = (reached / BLOCK + 1) * BLOCK;
            }
            end = end.min(reached);
        }
        if end <= at {
            return 0;
        }
        self.bytes[at..end].copy_from_slice(&bytes[..end - at]);
        end - at
    }
}
