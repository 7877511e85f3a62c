//! One place, counted twice.

use serde::Serialize;
use winterhasp::{CodestreamOffset, FileOffset};

/// A place, counted from the start of the codestream and of the file.
#[derive(Serialize, Clone, Copy)]
pub struct Offsets {
    pub offset: u64,
    pub file_offset: Option<u64>,
}

impl Offsets {
    /// Of a codestream that starts there in the file.
    pub fn of(offset: CodestreamOffset, start: FileOffset) -> Self {
        Offsets {
            offset: offset.0,
            file_offset: offset.in_file(start).map(|place| place.0),
        }
    }

    pub fn text(&self) -> String {
        let offset = self.offset;
        let place = self
            .file_offset
            .map(|place| format!(", byte {place} of the file"));
        format!(
            "byte {offset} of the codestream{}",
            place.unwrap_or_default()
        )
    }
}

#[cfg(test)]
mod tests {
    use super::{CodestreamOffset, FileOffset, Offsets};

    #[test]
    fn a_place_is_told_in_the_file_where_it_has_one() {
        let text = |at, start| Offsets::of(CodestreamOffset(at), FileOffset(start)).text();
        assert_eq!(
            text(57, 40),
            "byte 57 of the codestream, byte 97 of the file"
        );
        assert_eq!(text(57, u64::MAX), "byte 57 of the codestream");
    }
}
