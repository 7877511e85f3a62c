//! The original's marker module, compiled unchanged from where it stands outside the repository, and
//! functions of its reader. Where it isn't found this crate is empty, and `PRESENT` says so.

#![forbid(unsafe_code)]

pub mod buffer;
pub mod error;
#[cfg(present)]
pub mod reader;

#[cfg(present)]
include!(concat!(env!("OUT_DIR"), "/markers.rs"));

/// Whether the original was found when this crate was built.
pub const PRESENT: bool = cfg!(present);
