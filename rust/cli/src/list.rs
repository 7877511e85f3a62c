//! `winterhasp list`: the tile-parts of each file, in the listing program's lines or as JSON.

use std::io::{self, Write};
use std::path::Path;

use serde::Serialize;
use winterhasp::{scan_sot_markers, FileOffset, Reading, Refusal, TilePart};

use crate::arguments::{List, Several};
use crate::files::Files;
use crate::names::shown;
use crate::output::print_json;
use crate::run::{run, Ended, Question, NOT_READ};
use crate::stages::{End, Stages, Stopped};
use crate::trouble::{about, sentence, Refused, Status, Trouble};

pub fn list(arguments: &List) -> Result<Status, Trouble> {
    let Several { paths, json, jobs } = &arguments.files;
    let files = Files::of(paths);
    let form = Form {
        json: *json,
        named: !files.alone,
        reading: Reading {
            numbering: arguments.numbering.into(),
            edition: arguments.edition.into(),
        },
    };
    run(&files, *jobs, &form)
}

/// What a file's stages gave, without its bytes.
struct Listing {
    codestream: Option<Place>,
    header: Option<Header>,
    parts: Option<Vec<TilePart>>,
    end: Option<End>,
    refused: Option<Refusal>,
}

#[derive(Serialize, Clone, Copy)]
struct Place {
    start: u64,
    length: u64,
}

struct Header {
    first_sot: u64,
    decode_length: u64,
    tlm: Vec<TilePart>,
}

impl Listing {
    fn of(stages: Stages<Vec<TilePart>>) -> Self {
        let end = stages.codestream.zip(stages.parts.as_deref());
        Listing {
            codestream: stages.codestream.map(|codestream| Place {
                start: codestream.start.0,
                length: codestream.bytes.len() as u64,
            }),
            end: end.and_then(|(codestream, parts)| End::of(codestream.bytes, parts.last()?)),
            header: stages.header.map(|header| Header {
                first_sot: header.first_sot.0,
                decode_length: header.decode_header.len() as u64,
                tlm: header.tlm.unwrap_or_default(),
            }),
            parts: stages.parts,
            refused: stages.refused,
        }
    }

    fn status(&self) -> Status {
        match self.refused {
            Some(_) => Status::Refused,
            None => Status::Accepted,
        }
    }

    fn counted(&self) -> &'static str {
        match self.refused {
            Some(_) => REFUSED,
            None => ACCEPTED,
        }
    }

    fn start(&self) -> Option<FileOffset> {
        Some(FileOffset(self.codestream?.start))
    }

    /// What standard error hears of it: why it is refused, or that bytes were left that may hold
    /// more tile-parts.
    fn said(&self, path: &Path) -> Option<String> {
        if let Some(refusal) = self.refused {
            return Some(about(path, sentence(refusal, self.start())));
        }
        let end = self.end?;
        let Stopped::AtOther(_) = end.what else {
            return None;
        };
        let place = end.at.in_file(self.start()?)?;
        let (at, unread) = (end.at, end.unread);
        Some(about(
            path,
            format!(
                "accepted, but the scan ended at bytes that start no tile-part, at byte {at} of the codestream, \
                 byte {place} of the file, with {unread} bytes left unread: a length before them may be wrong"
            ),
        ))
    }

    /// The lines of the listing program.
    fn lines(&self, out: &mut impl Write) -> io::Result<()> {
        if let Some(Place { start, length }) = self.codestream {
            writeln!(out, "codestream {start} {length}")?;
        }
        if let Some(header) = &self.header {
            writeln!(out, "header {} {}", header.first_sot, header.decode_length)?;
            rows(out, "tlm", &header.tlm)?;
        }
        rows(out, "part", self.parts.as_deref().unwrap_or_default())?;
        match self.refused {
            Some(refusal) => writeln!(out, "refused {} {}", refusal.number(), refusal.place()),
            None => writeln!(out, "end"),
        }
    }

    fn json(&self, file: String) -> Json<'_> {
        Json {
            file,
            status: self.counted(),
            codestream: self.codestream,
            header: self.header.as_ref().map(|header| JsonHeader {
                first_sot: header.first_sot,
                decode_length: header.decode_length,
                tlm: Rows(&header.tlm, None),
            }),
            parts: self.parts.as_deref().map(|parts| Rows(parts, self.start())),
            unread: self.end.map(|end| end.unread),
            refused: self
                .refused
                .map(|refusal| Refused::new(refusal, self.start())),
            error: None,
        }
    }
}

fn rows(out: &mut impl Write, word: &str, rows: &[TilePart]) -> io::Result<()> {
    for part in rows {
        writeln!(out, "{word} {} {} {}", part.index, part.offset, part.length)?;
    }
    Ok(())
}

/// How a file's listing is written.
#[derive(Clone, Copy)]
struct Form {
    json: bool,
    /// Whether each begins with its name.
    named: bool,
    reading: Reading,
}

const ACCEPTED: &str = "accepted";
const REFUSED: &str = "refused";

impl Question for Form {
    type Answer = Listing;

    const COUNTED: &'static [&'static str] = &[ACCEPTED, REFUSED, NOT_READ];

    fn ask(&self, file: &[u8]) -> Listing {
        Listing::of(Stages::of(file, self.reading, scan_sot_markers))
    }

    fn print(
        &self,
        out: &mut impl Write,
        path: &Path,
        listing: &Result<Listing, Trouble>,
    ) -> io::Result<()> {
        if self.json {
            let json = match listing {
                Ok(listing) => listing.json(shown(path)),
                Err(trouble) => Json::unread(shown(path), trouble),
            };
            return print_json(out, &json);
        }
        if self.named {
            writeln!(out, "file {}", shown(path))?;
        }
        match listing {
            Ok(listing) => listing.lines(out),
            Err(_) => writeln!(out, "unread"),
        }
    }

    fn ended(&self, path: &Path, listing: &Listing) -> Ended {
        Ended {
            status: listing.status(),
            counted: listing.counted(),
            said: listing.said(path),
        }
    }
}

#[derive(Serialize)]
struct Json<'a> {
    file: String,
    status: &'static str,
    #[serde(skip_serializing_if = "Option::is_none")]
    codestream: Option<Place>,
    #[serde(skip_serializing_if = "Option::is_none")]
    header: Option<JsonHeader<'a>>,
    #[serde(skip_serializing_if = "Option::is_none")]
    parts: Option<Rows<'a>>,
    #[serde(skip_serializing_if = "Option::is_none")]
    unread: Option<u64>,
    #[serde(skip_serializing_if = "Option::is_none")]
    refused: Option<Refused>,
    #[serde(skip_serializing_if = "Option::is_none")]
    error: Option<String>,
}

impl Json<'_> {
    fn unread(file: String, trouble: &Trouble) -> Self {
        Json {
            file,
            status: "unread",
            codestream: None,
            header: None,
            parts: None,
            unread: None,
            refused: None,
            error: trouble.sentence().map(str::to_string),
        }
    }
}

#[derive(Serialize)]
struct JsonHeader<'a> {
    first_sot: u64,
    decode_length: u64,
    tlm: Rows<'a>,
}

/// Written row by row, so that no second table is made.
struct Rows<'a>(&'a [TilePart], Option<FileOffset>);

impl Serialize for Rows<'_> {
    fn serialize<S: serde::Serializer>(&self, to: S) -> Result<S::Ok, S::Error> {
        let Rows(parts, start) = self;
        to.collect_seq(parts.iter().map(|part| JsonRow {
            tile: part.index,
            offset: part.offset.0,
            file_offset: start.and_then(|start| Some(part.place_in_file(start)?.0)),
            length: part.length,
            tpsot: part.numbers.map(|numbers| numbers.tpsot),
            tnsot: part.numbers.map(|numbers| numbers.tnsot),
        }))
    }
}

#[derive(Serialize)]
struct JsonRow {
    tile: u16,
    offset: u64,
    #[serde(skip_serializing_if = "Option::is_none")]
    file_offset: Option<u64>,
    length: u64,
    /// As its SOT gives them; the header's own table does not know them.
    tpsot: Option<u8>,
    tnsot: Option<u8>,
}
