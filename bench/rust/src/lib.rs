//! A selector channel with disk drives in plain Rust, to be measured beside the proved one. The rules are those of docs/DEFINITIONS.md;
//! here they are code alone.

pub mod channel;
mod commands;
pub mod deck;
mod drive;
mod passing;
mod program;
mod storage;
mod volume;
