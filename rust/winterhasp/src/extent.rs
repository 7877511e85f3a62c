//! How much of a codestream its main header takes up.

use crate::boundary;
use crate::offsets::CodestreamOffset;

/// Whether a codestream's first bytes hold its whole main header.
#[derive(Debug, Clone, Copy, PartialEq, Eq)]
pub enum MainHeaderExtent {
    /// The first SOT stands here.
    Complete(CodestreamOffset),
    /// No SOT is reached within these bytes: more are needed.
    Truncated,
}

const COMPLETE: u32 = 1;

/// Walks the header in `prefix`, the first bytes of a codestream. It never refuses, and does not ask
/// for SIZ. Where the first SOT stands at p, every prefix of p + 2 bytes or more is complete, and no
/// shorter one.
///
/// ```
/// use winterhasp::{main_header_extent, CodestreamOffset, MainHeaderExtent};
///
/// let codestream = std::fs::read("sample-a.j2k")?;
/// assert_eq!(main_header_extent(&codestream[..58]), MainHeaderExtent::Truncated);
/// let first_sot = CodestreamOffset(57);
/// assert_eq!(main_header_extent(&codestream[..59]), MainHeaderExtent::Complete(first_sot));
/// # Ok::<(), std::io::Error>(())
/// ```
pub fn main_header_extent(prefix: &[u8]) -> MainHeaderExtent {
    let mut first_sot = 0;
    match boundary::main_header_extent(prefix, &mut first_sot) {
        COMPLETE => MainHeaderExtent::Complete(CodestreamOffset(first_sot)),
        _ => MainHeaderExtent::Truncated,
    }
}
