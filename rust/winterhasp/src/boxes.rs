//! Every box of a file.

use std::fmt;

use crate::boundary;
use crate::lent::lend_rows;
use crate::offsets::FileOffset;
use crate::refusal::Refusal;

/// Bytes of a row: depth 1, type 4, start 8, content 8, length 8, big-endian.
const BOX_ROW: usize = 29;

/// As many boxes as a JP2 file has, nearly always: one call then does.
const LIKELY: usize = 64;

/// A box of a file, and where it lies in the tree of boxes.
#[derive(Debug, Clone, Copy, PartialEq, Eq)]
pub struct BoxEntry {
    /// 1 for the file's own boxes, and one more for each superbox around it.
    pub depth: u8,
    /// Its type.
    pub kind: BoxType,
    /// Where it starts in the file.
    pub start: FileOffset,
    /// Where its content starts: behind its header, of 8 or 16 bytes.
    pub content: FileOffset,
    /// The length of its content, in bytes.
    pub length: u64,
}

impl BoxEntry {
    /// Where it ends in the file, and the next one, or what holds it, goes on or ends.
    pub fn end(&self) -> FileOffset {
        FileOffset(self.content.0 + self.length)
    }
}

/// The type of a box: four bytes, most often characters.
///
/// Its text has each byte that is no printable character of ASCII as `\x` and two
/// digits, and a backslash as two.
///
/// ```
/// use winterhasp::BoxType;
///
/// assert_eq!(BoxType(*b"res ").to_string(), "res ");
/// assert_eq!(BoxType([0xA9, b'a', b'\\', 0]).to_string(), r"\xa9a\\\x00");
/// ```
#[derive(Debug, Clone, Copy, PartialEq, Eq, Hash)]
pub struct BoxType(pub [u8; 4]);

impl BoxType {
    /// JP2's header, a superbox.
    pub const JP2_HEADER: BoxType = BoxType(*b"jp2h");
    /// The resolution, a superbox.
    pub const RESOLUTION: BoxType = BoxType(*b"res ");
    /// Information by UUID, a superbox.
    pub const UUID_INFO: BoxType = BoxType(*b"uinf");
    /// The codestream.
    pub const CODESTREAM: BoxType = BoxType(*b"jp2c");

    /// Whether a box of this type holds boxes, which are listed too.
    pub fn is_superbox(self) -> bool {
        [Self::JP2_HEADER, Self::RESOLUTION, Self::UUID_INFO].contains(&self)
    }
}

impl fmt::Display for BoxType {
    fn fmt(&self, f: &mut fmt::Formatter<'_>) -> fmt::Result {
        for byte in self.0 {
            match byte {
                b'\\' => f.write_str(r"\\")?,
                b' '..=b'~' => write!(f, "{}", byte as char)?,
                _ => write!(f, "\\x{byte:02x}")?,
            }
        }
        Ok(())
    }
}

/// Every box of a file, once and in file order, with those that `jp2h`, `res ` and `uinf` hold: a superbox
/// before the boxes that it holds. No signature is asked for, and an empty file has no boxes.
///
/// ```
/// use winterhasp::{list_boxes, BoxType, FileOffset};
///
/// // a JP2 header that holds a box of bits per component, and a codestream behind it
/// let file = b"\0\0\0\x11jp2h\0\0\0\x09bpcc\x07\0\0\0\x0Ajp2c\xFF\x4F";
/// let boxes = list_boxes(file)?;
/// let depths: Vec<_> = boxes.iter().map(|b| (b.depth, b.kind.to_string())).collect();
/// assert_eq!(depths, [(1, "jp2h".into()), (2, "bpcc".into()), (1, "jp2c".into())]);
/// assert_eq!((boxes[1].start, boxes[1].content), (FileOffset(8), FileOffset(16)));
/// assert_eq!(boxes[1].length, 1);
///
/// // a box of 10 bytes in a header that has room for 9
/// let refusal = list_boxes(b"\0\0\0\x11jp2h\0\0\0\x0Abpcc\x07\x07").unwrap_err();
/// assert_eq!((refusal.number(), refusal.place()), (27, 8));
/// # Ok::<(), Box<dyn std::error::Error>>(())
/// ```
pub fn list_boxes(file: &[u8]) -> Result<Vec<BoxEntry>, Refusal> {
    let (lent, [boxes]) = lend_rows(LIKELY, BOX_ROW, |lent, [boxes]| {
        boundary::list_boxes(file, &mut lent.table, boxes)
    })?;
    let rows = lent.table.chunks_exact(BOX_ROW);
    Ok(rows.take(boxes as usize).map(from_row).collect())
}

fn from_row(row: &[u8]) -> BoxEntry {
    let number = |at: usize| u64::from_be_bytes(row[at..at + 8].try_into().expect("8 bytes"));
    BoxEntry {
        depth: row[0],
        kind: BoxType(row[1..5].try_into().expect("4 bytes")),
        start: FileOffset(number(5)),
        content: FileOffset(number(13)),
        length: number(21),
    }
}
