//! A file's codestream.

use crate::boundary;
use crate::lent::accepted;
use crate::offsets::FileOffset;
use crate::refusal::Refusal;

/// A codestream, as a part of its file.
#[derive(Debug, Clone, Copy, PartialEq, Eq)]
pub struct Codestream<'a> {
    /// Where it starts in the file.
    pub start: FileOffset,
    /// Its bytes, to the end of its box or of the file.
    pub bytes: &'a [u8],
}

/// The codestream of a JP2 file, or of a file that is one itself.
///
/// ```
/// use winterhasp::{find_codestream, FileOffset};
///
/// let file = std::fs::read("sample-a.j2k")?;
/// let codestream = find_codestream(&file)?;
/// assert_eq!(codestream.start, FileOffset(0));
/// assert_eq!(codestream.bytes.len(), 89);
///
/// let refusal = find_codestream(b"GIF89a").unwrap_err();
/// assert_eq!((refusal.number(), refusal.place()), (12, 0));
/// # Ok::<(), Box<dyn std::error::Error>>(())
/// ```
pub fn find_codestream(file: &[u8]) -> Result<Codestream<'_>, Refusal> {
    let numbers = accepted(|numbers| boundary::find_codestream(file, numbers))?;
    let [start, length] = numbers.map(|number| number as usize);
    Ok(Codestream {
        start: FileOffset(numbers[0]),
        bytes: &file[start..start + length],
    })
}
