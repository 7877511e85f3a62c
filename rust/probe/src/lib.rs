//! The proved archives' functions as C sees them, for the runs beside the original: `host` is the
//! product's archive, the rest what nobody but the runs calls. Statuses and numbers are the archives'
//! own: 0, or a refusal's number with its place in the first number lent.

#![deny(unsafe_code)]

#[allow(unsafe_code)]
mod boundary;
/// The safe crate keeps these to itself; here they are compared.
#[allow(unsafe_code)]
#[path = "../../winterhasp/src/boundary.rs"]
pub mod host;

pub use boundary::{codestream_of, header_records, records_in_order, records_index, scan_records};
