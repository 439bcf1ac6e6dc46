//! The calls of `dasd.h` as they stand there: selector channels with IBM 2311 and 2314 drives for emulators of the System/360. The
//! crate `dasd` is a safe way to them.
//!
//! Below zero a call answers a number of `enum dasd_fault`: it was refused, and nothing has changed. An instruction answers its
//! condition code, 0 to 3. A handle is in one call at a time, and is not copied while it holds something. Pointers lead to values of
//! their types, or to so many bytes, which do not overlap; none lies in main storage or in a volume's file.
//!
//! # Where the library comes from
//!
//! `build.rs` links the static library of the folder that `DASD_LIB_DIR` names. Else, where this crate carries the library as assembly
//! text for the target, as a published one does for x86-64 and AArch64 Linux, it is assembled by the C compiler (`CC_<target>`,
//! `TARGET_CC`, `CC`, or `cc`). Else it is the library that pkg-config knows, or that the linker finds.
#![no_std]
#![deny(missing_docs)]
#![allow(non_camel_case_types)]

mod interface;

use core::mem::size_of;

pub use interface::*;

// The structs of these calls may get fields: so the library is told how many bytes they have.

/// Shows the program that runs on a channel, where one runs.
///
/// # Safety
///
/// As each call: `d` leads to a handle that no other call is using, and `shown` to a value of its type.
pub unsafe fn dasd_show_program(d: *mut dasd, channel: u8, shown: *mut dasd_program) -> i32 {
    unsafe { dasd_show_program_sized(d, channel, shown.cast(), size_of::<dasd_program>()) }
}

/// Shows what the drive of that program remembers beside its volume.
///
/// # Safety
///
/// As each call: `d` leads to a handle that no other call is using, and `shown` to a value of its type.
pub unsafe fn dasd_show_registers(d: *mut dasd, channel: u8, shown: *mut dasd_registers) -> i32 {
    unsafe { dasd_show_registers_sized(d, channel, shown.cast(), size_of::<dasd_registers>()) }
}

/// As [`dasd_run_on`], and it ends also behind the first unit that brings what is waited for, a set of the bits [`DASD_UNTIL_ASKED`],
/// [`DASD_UNTIL_CYLINDER`] and [`DASD_UNTIL_TRACK`].
///
/// # Safety
///
/// As each call: `d` leads to a handle that no other call is using, and `ran` to a value of its type.
pub unsafe fn dasd_run_until(d: *mut dasd, wanted: &dasd_wanted, ran: *mut dasd_progress) -> i32 {
    unsafe { dasd_run_until_sized(d, wanted, ran.cast(), size_of::<dasd_progress>()) }
}

/// As [`dasd_run_until`], over main storage that is lent.
///
/// # Safety
///
/// As each call: `d` leads to a handle that no other call is using, `memory` to bytes and keys that nobody else uses, and `ran` to a value of
/// its type.
pub unsafe fn dasd_lent_run_until(d: *mut dasd, memory: *mut dasd_memory, wanted: &dasd_wanted, ran: *mut dasd_progress) -> i32 {
    unsafe { dasd_lent_run_until_sized(d, memory, wanted, ran.cast(), size_of::<dasd_progress>()) }
}
