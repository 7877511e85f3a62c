//! The two kinds of offset, so that neither is taken for the other.

use std::fmt;

use crate::boundary;

/// Counted from the start of the codestream.
#[derive(Debug, Clone, Copy, PartialEq, Eq, PartialOrd, Ord, Hash)]
pub struct CodestreamOffset(pub u64);

/// Counted from the start of the file.
#[derive(Debug, Clone, Copy, PartialEq, Eq, PartialOrd, Ord, Hash)]
pub struct FileOffset(pub u64);

const IN_FILE: u32 = 1;

impl CodestreamOffset {
    /// Where it lies in a file that has its codestream at `start`; nothing past 2^64-1.
    ///
    /// ```
    /// use winterhasp::{CodestreamOffset, FileOffset};
    ///
    /// let first_sot = CodestreamOffset(57);
    /// assert_eq!(first_sot.in_file(FileOffset(85)), Some(FileOffset(142)));
    /// assert_eq!(first_sot.in_file(FileOffset(u64::MAX)), None);
    /// ```
    pub fn in_file(self, start: FileOffset) -> Option<FileOffset> {
        let mut place = 0;
        let answer = boundary::in_file(self.0, start.0, &mut place);
        (answer == IN_FILE).then_some(FileOffset(place))
    }
}

impl fmt::Display for CodestreamOffset {
    fn fmt(&self, out: &mut fmt::Formatter) -> fmt::Result {
        self.0.fmt(out)
    }
}

impl fmt::Display for FileOffset {
    fn fmt(&self, out: &mut fmt::Formatter) -> fmt::Result {
        self.0.fmt(out)
    }
}

#[cfg(test)]
mod tests {
    use super::{CodestreamOffset, FileOffset};

    #[test]
    fn a_place_counts_from_the_codestreams_start_up_to_the_largest_number() {
        let place = |offset, start| CodestreamOffset(offset).in_file(FileOffset(start));
        assert_eq!(place(57, 0), Some(FileOffset(57)));
        assert_eq!(place(u64::MAX - 85, 85), Some(FileOffset(u64::MAX)));
        assert_eq!(place(u64::MAX - 84, 85), None);
        assert_eq!(place(u64::MAX, u64::MAX), None);
    }
}
