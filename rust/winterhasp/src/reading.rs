//! How a main header is read.

use crate::boundary;
use crate::edition::Edition;
use crate::numbering::Numbering;

/// How a main header is read: what is chosen, and the rest by default.
///
/// ```
/// use winterhasp::{Edition, Numbering, Reading};
///
/// let newer = Reading { edition: Edition::Newer, ..Reading::default() };
/// assert_eq!(newer.numbering, Numbering::CarriedOn);
/// ```
#[derive(Debug, Clone, Copy, Default, PartialEq, Eq, Hash)]
pub struct Reading {
    /// How entries of the length table without an index are numbered.
    pub numbering: Numbering,
    /// By which edition of the standard.
    pub edition: Edition,
}

impl Reading {
    /// As the archive takes it.
    pub(crate) fn numbers(self) -> boundary::Reading {
        boundary::Reading {
            numbering: self.numbering.number(),
            edition: self.edition.number(),
        }
    }
}
