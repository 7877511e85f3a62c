//! `winterhasp check`: whether each file's length table (TLM) says what stands there, in a line a file or as
//! JSON.

use std::io::{self, Write};
use std::path::Path;

use serde::Serialize;
use winterhasp::{
    check_length_table, find_codestream, Codestream, Difference, FileOffset, LengthTable,
    PartLength, Refusal,
};

use crate::arguments::Several;
use crate::files::Files;
use crate::names::shown;
use crate::offsets::Offsets;
use crate::output::print_json;
use crate::run::{run, Ended, Question, NOT_READ};
use crate::stages::EOC;
use crate::trouble::{about, sentence, Refused, Status, Trouble};

pub fn check(arguments: &Several) -> Result<Status, Trouble> {
    let Several { paths, json, jobs } = arguments;
    run(&Files::of(paths), *jobs, &Form { json: *json })
}

/// What came of a file's length table.
enum Verdict {
    Pass,
    Differs(Differs),
    NoTable,
    /// And where the codestream starts in the file, if it was found.
    Refused(Refusal, Option<FileOffset>),
}

/// As JSON has it.
#[derive(Serialize)]
struct Differs {
    /// Of the entry, from 0.
    number: u64,
    #[serde(flatten)]
    place: Offsets,
    /// None: the table ends before.
    listed: Option<Part>,
    /// None: the tile-parts end before.
    standing: Option<Part>,
    /// Whether it passes but for EOC, which is counted in a last tile-part that says no length.
    eoc_counted: bool,
}

#[derive(Serialize)]
struct Part {
    tile: u16,
    length: u64,
}

const PASS: &str = "pass";
const REFUSED: &str = "refused";

impl Verdict {
    fn of(file: &[u8]) -> Self {
        match find_codestream(file) {
            Ok(codestream) => Self::of_codestream(codestream),
            Err(refusal) => Verdict::Refused(refusal, None),
        }
    }

    fn of_codestream(codestream: Codestream) -> Self {
        match check_length_table(codestream.bytes) {
            Ok(LengthTable::Passes) => Verdict::Pass,
            Ok(LengthTable::Differs(Difference {
                number: 0,
                listed: None,
                ..
            })) => Verdict::NoTable,
            Ok(LengthTable::Differs(found)) => Verdict::Differs(Differs::of(found, codestream)),
            Err(refusal) => Verdict::Refused(refusal, Some(codestream.start)),
        }
    }

    /// As JSON has it.
    fn name(&self) -> &'static str {
        match self {
            Verdict::Pass => PASS,
            Verdict::Differs(_) => "differs",
            Verdict::NoTable => "no length table",
            Verdict::Refused(..) => REFUSED,
        }
    }

    fn text(&self) -> String {
        match self {
            Verdict::Pass | Verdict::NoTable => self.name().to_string(),
            Verdict::Differs(differs) => differs.text(),
            Verdict::Refused(refusal, start) => {
                format!("{REFUSED} {}", Refused::new(*refusal, *start).text())
            }
        }
    }

    fn counted(&self) -> &'static str {
        match self {
            Verdict::Pass => PASS,
            Verdict::Differs(_) => DIFFER,
            Verdict::NoTable => WITHOUT_TABLE,
            Verdict::Refused(..) => REFUSED,
        }
    }

    fn json(&self, file: String) -> Json<'_> {
        Json {
            file,
            verdict: self.name(),
            differs: match self {
                Verdict::Differs(differs) => Some(differs),
                _ => None,
            },
            refused: match self {
                Verdict::Refused(refusal, start) => Some(Refused::new(*refusal, *start)),
                _ => None,
            },
            error: None,
        }
    }
}

impl Differs {
    fn of(found: Difference, codestream: Codestream) -> Self {
        Differs {
            number: found.number,
            place: Offsets::of(found.offset, codestream.start),
            listed: found.listed.map(Part::of),
            standing: found.standing.map(Part::of),
            eoc_counted: passes_without_eoc(codestream.bytes),
        }
    }

    fn text(&self) -> String {
        let Differs { number, place, .. } = self;
        let [listed, standing] = [&self.listed, &self.standing].map(|part| match part {
            Some(Part { tile, length }) => format!("tile {tile} with {length} bytes"),
            None => "nothing".to_string(),
        });
        let why = match (&self.listed, &self.standing) {
            _ if self.eoc_counted => EOC_COUNTED,
            (None, _) => ": an entry is missing",
            (_, None) => ": the entry is surplus",
            _ => "",
        };
        let place = place.text();
        format!(
            "differs at {number}: the table lists {listed}, and {standing} stands at {place}{why}"
        )
    }
}

const EOC_COUNTED: &str = ": they differ by EOC's 2 bytes alone, which the standard's table leaves out, and which the scan, as \
     the ported program, counts, since the last tile-part says no length (Psot 0)";

/// With EOC cut off, a last tile-part that says no length ends where the standard has it, and any other where
/// it did, or is refused.
fn passes_without_eoc(codestream: &[u8]) -> bool {
    let without = codestream.strip_suffix(&EOC);
    without.is_some_and(|without| check_length_table(without) == Ok(LengthTable::Passes))
}

impl Part {
    fn of(PartLength { tile, length }: PartLength) -> Self {
        Part { tile, length }
    }
}

/// How a verdict is written.
struct Form {
    json: bool,
}

/// What files are counted as, beside those words.
const DIFFER: &str = "differ";
const WITHOUT_TABLE: &str = "without a length table";

impl Question for Form {
    type Answer = Verdict;

    const COUNTED: &'static [&'static str] = &[PASS, DIFFER, WITHOUT_TABLE, REFUSED, NOT_READ];

    fn ask(&self, file: &[u8]) -> Verdict {
        Verdict::of(file)
    }

    fn print(
        &self,
        out: &mut impl Write,
        path: &Path,
        verdict: &Result<Verdict, Trouble>,
    ) -> io::Result<()> {
        let file = shown(path);
        match (verdict, self.json) {
            (Ok(verdict), true) => print_json(out, &verdict.json(file)),
            (Err(trouble), true) => print_json(out, &Json::unread(file, trouble)),
            (Ok(verdict), false) => writeln!(out, "{file}: {}", verdict.text()),
            (Err(_), false) => writeln!(out, "{file}: {UNREAD}"),
        }
    }

    fn ended(&self, path: &Path, verdict: &Verdict) -> Ended {
        Ended {
            status: match verdict {
                Verdict::Pass => Status::Accepted,
                _ => Status::Refused,
            },
            counted: verdict.counted(),
            said: match verdict {
                Verdict::Refused(refusal, start) => Some(about(path, sentence(*refusal, *start))),
                _ => None,
            },
        }
    }
}

const UNREAD: &str = "unread";

#[derive(Serialize)]
struct Json<'a> {
    file: String,
    verdict: &'static str,
    #[serde(skip_serializing_if = "Option::is_none")]
    differs: Option<&'a Differs>,
    #[serde(skip_serializing_if = "Option::is_none")]
    refused: Option<Refused>,
    #[serde(skip_serializing_if = "Option::is_none")]
    error: Option<&'a str>,
}

impl<'a> Json<'a> {
    fn unread(file: String, trouble: &'a Trouble) -> Self {
        Json {
            file,
            verdict: UNREAD,
            differs: None,
            refused: None,
            error: trouble.sentence(),
        }
    }
}

#[cfg(test)]
mod tests {
    use super::{Verdict, EOC_COUNTED};

    const SAMPLE: &[u8] = include_bytes!("../../../crates/tileparts/stdin");

    /// In words and as JSON.
    fn told(file: &[u8]) -> [String; 2] {
        let verdict = Verdict::of(file);
        let json = serde_json::to_string(&verdict.json("a.j2k".to_string()));
        [verdict.text(), json.expect("JSON")]
    }

    /// The sample with another length table, of an index of a byte and a length of two in each entry.
    fn listing(entries: &[[u8; 3]]) -> Vec<u8> {
        let length = 4 + 3 * entries.len() as u8;
        let front = [0xFF, 0x55, 0, length, 0, 0x10];
        [&SAMPLE[..45], &front, &entries.concat(), &SAMPLE[57..]].concat()
    }

    const ENTRIES: [[u8; 3]; 2] = [[0, 0, 14], [5, 0, 16]];

    #[test]
    fn a_table_that_says_what_stands_there_passes() {
        let [text, json] = told(&listing(&ENTRIES));
        assert_eq!(text, "pass");
        assert_eq!(json, "{\"file\":\"a.j2k\",\"verdict\":\"pass\"}");
    }

    #[test]
    fn no_table_is_told_as_such() {
        for file in [listing(&[]), [&SAMPLE[..45], &SAMPLE[57..]].concat()] {
            let [text, json] = told(&file);
            assert_eq!(text, "no length table");
            let verdict = "{\"file\":\"a.j2k\",\"verdict\":\"no length table\"}";
            assert_eq!(json, verdict);
        }
    }

    #[test]
    fn an_entry_that_differs_is_told_beside_what_stands_there() {
        let [text, json] = told(&listing(&[ENTRIES[0], [6, 0, 17]]));
        let place = "byte 71 of the codestream, byte 71 of the file";
        assert_eq!(
            text,
            format!("differs at 1: the table lists tile 6 with 17 bytes, and tile 5 with 16 bytes stands at {place}")
        );
        let parts = "\"listed\":{\"tile\":6,\"length\":17},\"standing\":{\"tile\":5,\"length\":16}";
        let differs = format!("\"differs\":{{\"number\":1,\"offset\":71,\"file_offset\":71,{parts},\"eoc_counted\":false}}");
        assert!(json.contains(&differs), "{json}");
    }

    #[test]
    fn an_entry_that_only_one_side_has_is_missing_or_surplus() {
        let [text, json] = told(&listing(&ENTRIES[..1]));
        assert!(text.ends_with(": an entry is missing"), "{text}");
        assert!(json.contains("\"listed\":null,\"standing\":{"), "{json}");
        let [text, json] = told(&listing(&[ENTRIES[0], ENTRIES[1], [5, 0, 16]]));
        assert!(text.ends_with(": the entry is surplus"), "{text}");
        assert!(json.contains("\"standing\":null"), "{json}");
    }

    #[test]
    fn eoc_alone_is_told_where_nothing_else_differs() {
        let eoc_counted = |file: &[u8]| {
            let [text, json] = told(file);
            let counted = json.contains("\"eoc_counted\":true");
            assert_eq!(text.ends_with(EOC_COUNTED), counted, "{text}");
            counted
        };
        // the last tile-part, 18 bytes before the end, says no length
        let open = |entries: &[[u8; 3]]| {
            let mut file = listing(entries);
            let psot = file.len() - 18 + 9;
            file[psot] = 0;
            file
        };
        assert!(eoc_counted(&open(&ENTRIES)));
        // a wrong tile, another length, an entry too many, and no EOC to leave out
        assert!(!eoc_counted(&open(&[ENTRIES[0], [6, 0, 16]])));
        assert!(!eoc_counted(&open(&[ENTRIES[0], [5, 0, 15]])));
        assert!(!eoc_counted(&open(&[ENTRIES[0], ENTRIES[1], ENTRIES[1]])));
        let mut without = open(&[ENTRIES[0], [5, 0, 14]]);
        without.truncate(without.len() - 2);
        assert!(!eoc_counted(&without));
        // the length is said, and counts EOC
        let mut said = listing(&ENTRIES);
        let psot = said.len() - 18 + 9;
        said[psot] = 18;
        assert!(!eoc_counted(&said));
    }

    #[test]
    fn a_refusal_is_told_with_its_number_and_place() {
        let [text, json] = told(&SAMPLE[..80]);
        assert!(text.starts_with("refused 7 71: too few bytes "), "{text}");
        assert!(json.contains("\"verdict\":\"refused\",\"refused\":{\"number\":7,"));
        let [text, _] = told(b"GIF89a");
        assert!(text.starts_with("refused 12 0: "), "{text}");
    }
}
