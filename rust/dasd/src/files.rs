//! Files of a volume that no drive has.

use crate::subsystem::done;
use crate::Fault;
use dasd_sys as sys;

/// The files of a volume that no drive has. The library takes the memory for their bytes, the program fills them where they lie, and a
/// drive takes them over and gives them back ([`Subsystem::attach_files`](crate::Subsystem::attach_files)): none is copied.
///
/// ```
/// use dasd::{Address, ChannelSet, DriveModel, HeldFiles, Subsystem};
///
/// let mut disks = Subsystem::new(4096, ChannelSet::of(&[1]))?;
/// disks.attach_new(Address(0x190), DriveModel::D2311, 1)?;
/// let image = disks.file(Address(0x190), 0)?.bytes.to_vec();
/// let mut files = HeldFiles::new(&[image.len()])?;
/// files.file(0)?.copy_from_slice(&image); // or a file's read_exact
/// disks.attach_files(Address(0x191), files).map_err(|(fault, _)| fault)?;
/// # Ok::<(), dasd::Fault>(())
/// ```
#[derive(Debug)]
pub struct HeldFiles {
    // of its own place, so that a move leaves it where it is
    handle: Box<sys::dasd_files>,
}

// SAFETY: between two calls a handle may go to another thread.
unsafe impl Send for HeldFiles {}

// In each call below: SAFETY: the handle is this value's own; what else is passed is a value of its type, or numbers with their count.
impl HeldFiles {
    pub(crate) fn none() -> HeldFiles {
        HeldFiles { handle: Box::new(sys::dasd_files { stamp: 0, place: std::ptr::null_mut() }) }
    }

    pub(crate) fn at(&mut self) -> *mut sys::dasd_files {
        &mut *self.handle
    }

    /// Files of so many bytes each, one to eight, which are zero.
    ///
    /// # Errors
    ///
    /// `NoFiles`, `TooManyFiles`, `NoMemory`.
    pub fn new(lengths: &[usize]) -> Result<HeldFiles, Fault> {
        let mut files = HeldFiles::none();
        done(unsafe { sys::dasd_files_new(files.at(), lengths.as_ptr(), lengths.len()) })?;
        Ok(files)
    }

    /// A file, 0 for the first, to be read and written.
    ///
    /// # Errors
    ///
    /// `NoFile`.
    pub fn file(&mut self, place: u8) -> Result<&mut [u8], Fault> {
        let mut shown = sys::dasd_space { at: std::ptr::null_mut(), len: 0 };
        done(unsafe { sys::dasd_files_show(self.at(), place, &mut shown) })?;
        if shown.len == 0 {
            return Ok(&mut []);
        }
        // SAFETY: the bytes stay where they are, and are this value's alone, until the next call, which the borrow forbids.
        Ok(unsafe { std::slice::from_raw_parts_mut(shown.at, shown.len) })
    }
}

impl Drop for HeldFiles {
    fn drop(&mut self) {
        unsafe { sys::dasd_files_free(self.at()) };
    }
}
