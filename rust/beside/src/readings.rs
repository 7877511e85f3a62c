//! How a main header is read, as the archives take it, and what the model means by it.

use probe::host::{Reading, CARRIED_ON, NEWER, OLDER, RESTARTING};

use crate::model::header;

pub const DEFAULT: Reading = Reading {
    numbering: CARRIED_ON,
    edition: OLDER,
};

/// As the original does.
pub const ORIGINAL: Reading = Reading {
    numbering: RESTARTING,
    edition: OLDER,
};

pub const IN_NEWER: Reading = Reading {
    numbering: CARRIED_ON,
    edition: NEWER,
};

pub fn meant(reading: Reading) -> header::Reading {
    header::Reading::of(reading.numbering, reading.edition)
}
