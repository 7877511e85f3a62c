//! What keeps a command from its answer, in words, and the status that it ends with.

use std::fmt::Display;
use std::path::Path;
use std::process::ExitCode;

use serde::Serialize;
use winterhasp::{CodestreamOffset, FileOffset, Origin, Refusal};

use crate::names::shown;

/// How a run ends; the worst of several counts.
#[derive(Debug, Clone, Copy, PartialEq, Eq, PartialOrd, Ord)]
pub enum Status {
    /// All files were accepted.
    Accepted,
    /// Some file was refused, or did not pass a check.
    Refused,
    /// Wrong words, or a file that can't be read or written.
    Failed,
}

impl From<Status> for ExitCode {
    fn from(status: Status) -> Self {
        ExitCode::from(status as u8)
    }
}

#[derive(Debug)]
pub enum Trouble {
    /// What the file holds is refused: a sentence.
    Refused(String),
    /// The file can't be read or written: a sentence.
    Failed(String),
    /// Whoever read standard output has gone away, which is no trouble of ours.
    ReaderGone,
}

impl Trouble {
    pub fn failed(path: &Path, why: impl Display) -> Self {
        Trouble::Failed(about(path, why))
    }

    pub fn refused(path: &Path, why: impl Display) -> Self {
        Trouble::Refused(about(path, why))
    }

    pub fn status(&self) -> Status {
        match self {
            Trouble::Refused(_) => Status::Refused,
            Trouble::Failed(_) => Status::Failed,
            Trouble::ReaderGone => Status::Accepted,
        }
    }

    pub fn sentence(&self) -> Option<&str> {
        match self {
            Trouble::Refused(sentence) | Trouble::Failed(sentence) => Some(sentence),
            Trouble::ReaderGone => None,
        }
    }
}

/// A sentence that names its file.
pub fn about(path: &Path, what: impl Display) -> String {
    format!("winterhasp: {}: {what}", shown(path))
}

/// A refusal with all that is known of it.
#[derive(Debug, Serialize)]
pub struct Refused {
    pub number: u32,
    pub name: &'static str,
    pub place: u64,
    pub counts_from: &'static str,
    /// The place counted from the start of the file, where it is a place.
    pub file_offset: Option<u64>,
    pub wrong: &'static str,
    pub remedy: &'static str,
}

impl Refused {
    /// Of a file whose codestream starts at `start`, if it was found.
    pub fn new(refusal: Refusal, start: Option<FileOffset>) -> Self {
        let counted = match refusal.origin() {
            Origin::File => ("file", Some(refusal.place())),
            Origin::Codestream => ("codestream", in_file(refusal, start)),
            Origin::Needed => ("needed", None),
        };
        Refused {
            number: refusal.number(),
            name: refusal.name(),
            place: refusal.place(),
            counts_from: counted.0,
            file_offset: counted.1,
            wrong: refusal.wrong(),
            remedy: remedy(refusal),
        }
    }

    /// Its number and place, and both in words.
    pub fn text(&self) -> String {
        let Refused {
            number,
            place,
            wrong,
            remedy,
            ..
        } = self;
        format!("{number} {place}: {wrong}; {remedy}")
    }
}

fn in_file(refusal: Refusal, start: Option<FileOffset>) -> Option<u64> {
    let place = CodestreamOffset(refusal.place()).in_file(start?)?;
    Some(place.0)
}

/// The library speaks to who lends memory; whoever runs a command lends none.
fn remedy(refusal: Refusal) -> &'static str {
    match refusal.number() {
        17 | 18 => "there is not memory enough for that here",
        19 => "its main header does not end within 4 GiB: ask for the file again",
        _ => refusal.remedy(),
    }
}

/// What is wrong and where, also in the file, and what to do.
pub fn sentence(refusal: Refusal, start: Option<FileOffset>) -> String {
    let words = match (refusal.origin(), in_file(refusal, start)) {
        (Origin::Codestream, Some(in_file)) => {
            let (wrong, number, place) = (refusal.wrong(), refusal.number(), refusal.place());
            format!("{wrong}, at byte {place} of the codestream, byte {in_file} of the file (refusal {number})")
        }
        _ => refusal.to_string(),
    };
    format!("{words}; {}", remedy(refusal))
}
