//! `winterhasp boxes`: every box of a file, a line each or as JSON.

use std::io::{self, Write};
use std::path::Path;

use serde::{Serialize, Serializer};
use winterhasp::{list_boxes, BoxEntry, Refusal};

use crate::arguments;
use crate::box_names::name;
use crate::box_values::Value;
use crate::contents::Contents;
use crate::names::shown;
use crate::output::{not_printed, print_json, standard_output, tell};
use crate::trouble::{about, sentence, Refused, Status, Trouble};

pub fn boxes(arguments: &arguments::Boxes) -> Result<Status, Trouble> {
    let path = &arguments.file;
    let contents = Contents::open(path)?;
    let (report, said) = Report::of(path, contents.bytes());
    contents.unchanged(path)?;
    report.print(arguments.json).map_err(not_printed)?;
    if let Some(said) = said {
        tell(&about(path, said));
    }
    Ok(report.status())
}

/// What a bare codestream starts with.
const SOC: [u8; 2] = [0xFF, 0x4F];

/// What to do with one that is refused, in place of what is said of a damaged file.
const BARE: &str =
    "the file is a bare codestream, which has no boxes: `winterhasp show` tells what it holds";

const STARTS_BARE: &str =
    "note: the file starts as a bare codestream does (FF4F), which has no boxes: what is listed may be none";

/// What is known of a file.
#[derive(Serialize)]
struct Report {
    file: String,
    bytes: u64,
    status: &'static str,
    /// None: the file is refused.
    #[serde(serialize_with = "as_objects")]
    boxes: Option<Vec<Row>>,
    refused: Option<Refused>,
}

/// A box, and what it says of colour or of resolution.
struct Row {
    entry: BoxEntry,
    value: Option<Value>,
}

impl Report {
    /// And what standard error hears.
    fn of(path: &Path, file: &[u8]) -> (Self, Option<String>) {
        let bare = file.starts_with(&SOC);
        let (boxes, refused, said) = match list_boxes(file) {
            Ok(boxes) => {
                let rows = boxes.into_iter().map(|entry| Row::of(entry, file));
                let note = bare.then(|| STARTS_BARE.to_string());
                (Some(rows.collect()), None, note)
            }
            Err(refusal) => {
                let (refused, words) = refused(refusal, bare);
                (None, Some(refused), Some(words))
            }
        };
        let report = Report {
            file: shown(path),
            bytes: file.len() as u64,
            status: match refused {
                None => "accepted",
                Some(_) => "refused",
            },
            boxes,
            refused,
        };
        (report, said)
    }

    fn status(&self) -> Status {
        match self.refused {
            None => Status::Accepted,
            Some(_) => Status::Refused,
        }
    }

    /// Line by line: however many boxes there are, no text is kept.
    fn print(&self, json: bool) -> io::Result<()> {
        let mut out = standard_output();
        if json {
            print_json(&mut out, self)?;
        } else {
            self.lines(&mut out)?;
        }
        out.flush()
    }

    fn lines(&self, out: &mut impl Write) -> io::Result<()> {
        label(out, "file", &format!("{}, {} bytes", self.file, self.bytes))?;
        match self.boxes.as_deref() {
            Some([]) => label(out, "boxes", "none: the file is empty")?,
            Some(rows) => {
                label(out, "boxes", &rows.len().to_string())?;
                Columns::of(rows).lines(out, rows)?;
            }
            None => {}
        }
        match &self.refused {
            Some(refused) => label(out, "refused", &refused.text()),
            None => Ok(()),
        }
    }
}

/// As JSON has it, and in words.
fn refused(refusal: Refusal, bare: bool) -> (Refused, String) {
    let refused = Refused::new(refusal, None);
    if !bare {
        return (refused, sentence(refusal, None));
    }
    let refused = Refused {
        remedy: BARE,
        ..refused
    };
    (refused, format!("{refusal}; {BARE}"))
}

fn label(out: &mut impl Write, label: &str, line: &str) -> io::Result<()> {
    writeln!(out, "{label:<11} {line}")
}

impl Row {
    fn of(entry: BoxEntry, file: &[u8]) -> Self {
        let value = content(&entry, file).and_then(|content| Value::of(entry.kind, content));
        Row { entry, value }
    }

    /// Two spaces for each box around it, and its type in quotes.
    fn kind(&self) -> String {
        let BoxEntry { depth, kind, .. } = self.entry;
        let around = 2 * usize::from(depth.saturating_sub(1));
        format!("{:around$}\"{kind}\"", "")
    }

    /// Where it starts and its length, and its content's.
    fn numbers(&self) -> [u64; NUMBERS] {
        let entry = &self.entry;
        let whole = entry.end().0 - entry.start.0;
        [entry.start.0, whole, entry.content.0, entry.length]
    }

    /// Its name, and what it says; nothing of a box that is none of the standard's.
    fn words(&self) -> Option<String> {
        let name = name(self.entry.kind)?;
        Some(match &self.value {
            Some(value) => format!("{name}: {}", value.text()),
            None => name.to_string(),
        })
    }
}

fn content<'a>(entry: &BoxEntry, file: &'a [u8]) -> Option<&'a [u8]> {
    let from = usize::try_from(entry.content.0).ok()?;
    let to = usize::try_from(entry.end().0).ok()?;
    file.get(from..to)
}

const NUMBERS: usize = 4;
const TYPE: &str = "type";
const HEADS: [&str; NUMBERS] = ["start", "length", "content", "content length"];
const NAME: &str = "name";

/// How wide each is.
struct Columns {
    kind: usize,
    numbers: [usize; NUMBERS],
}

impl Columns {
    fn of(rows: &[Row]) -> Self {
        let kinds = rows.iter().map(|row| row.kind().len());
        let mut numbers = HEADS.map(str::len);
        for row in rows {
            for (width, number) in numbers.iter_mut().zip(row.numbers()) {
                *width = (*width).max(digits(number));
            }
        }
        Columns {
            kind: kinds.fold(TYPE.len(), usize::max),
            numbers,
        }
    }

    fn lines(&self, out: &mut impl Write, rows: &[Row]) -> io::Result<()> {
        self.line(out, TYPE, HEADS.map(str::to_string), Some(NAME))?;
        for row in rows {
            let numbers = row.numbers().map(|number| number.to_string());
            self.line(out, &row.kind(), numbers, row.words().as_deref())?;
        }
        Ok(())
    }

    fn line(
        &self,
        out: &mut impl Write,
        kind: &str,
        numbers: [String; NUMBERS],
        words: Option<&str>,
    ) -> io::Result<()> {
        write!(out, "{kind:<0$}", self.kind)?;
        for (number, width) in numbers.iter().zip(self.numbers) {
            write!(out, "  {number:>width$}")?;
        }
        match words {
            Some(words) => writeln!(out, "  {words}"),
            None => writeln!(out),
        }
    }
}

fn digits(number: u64) -> usize {
    number.checked_ilog10().unwrap_or(0) as usize + 1
}

#[derive(Serialize)]
struct JsonRow<'a> {
    depth: u8,
    #[serde(rename = "type")]
    kind: String,
    /// Its four bytes.
    type_hex: String,
    name: Option<&'static str>,
    start: u64,
    length: u64,
    content: u64,
    content_length: u64,
    #[serde(flatten)]
    value: Option<&'a Value>,
}

impl<'a> JsonRow<'a> {
    fn of(row: &'a Row) -> Self {
        let BoxEntry { depth, kind, .. } = row.entry;
        let [start, length, content, content_length] = row.numbers();
        JsonRow {
            depth,
            kind: kind.to_string(),
            type_hex: format!("{:08x}", u32::from_be_bytes(kind.0)),
            name: name(kind),
            start,
            length,
            content,
            content_length,
            value: row.value.as_ref(),
        }
    }
}

/// Written box by box, so that no second table is made.
fn as_objects<S: Serializer>(rows: &Option<Vec<Row>>, to: S) -> Result<S::Ok, S::Error> {
    match rows {
        Some(rows) => to.collect_seq(rows.iter().map(JsonRow::of)),
        None => to.serialize_none(),
    }
}

#[cfg(test)]
mod tests {
    use std::path::Path;

    use super::{digits, Report, BARE};

    /// In words and as JSON, and what standard error hears.
    fn told(file: &[u8]) -> ([String; 2], Option<String>) {
        let (report, said) = Report::of(Path::new("a.jp2"), file);
        let mut text = Vec::new();
        report.lines(&mut text).expect("a vector takes it");
        let text = String::from_utf8(text).expect("text");
        let json = serde_json::to_string(&report).expect("JSON");
        ([text, json], said)
    }

    #[test]
    fn boxes_are_indented_by_depth_and_stand_in_columns() {
        let file = b"\0\0\0\x17jp2h\0\0\0\x0Fcolr\x01\0\0\0\0\0\x11\0\0\0\0ab\0\xFF\0\0";
        let ([text, json], said) = told(file);
        let lines = [
            "file        a.jp2, 33 bytes",
            "boxes       3",
            "type          start  length  content  content length  name",
            "\"jp2h\"            0      23        8              15  JP2 header",
            "  \"colr\"          8      15       16               7  colour specification: enumerated, greyscale (17)",
            "\"ab\\x00\\xff\"     23      10       31               2",
        ];
        assert_eq!(text, lines.map(|line| format!("{line}\n")).concat());
        assert_eq!(said, None);
        let boxes = [
            "{\"depth\":1,\"type\":\"jp2h\",\"type_hex\":\"6a703268\",\"name\":\"JP2 header\",\
             \"start\":0,\"length\":23,\"content\":8,\"content_length\":15}",
            "{\"depth\":2,\"type\":\"colr\",\"type_hex\":\"636f6c72\",\"name\":\"colour specification\",\
             \"start\":8,\"length\":15,\"content\":16,\"content_length\":7,\
             \"colour\":{\"method\":1,\"method_name\":\"enumerated\",\"colour_space\":17,\"colour_space_name\":\"greyscale\"}}",
            "{\"depth\":1,\"type\":\"ab\\\\x00\\\\xff\",\"type_hex\":\"616200ff\",\"name\":null,\
             \"start\":23,\"length\":10,\"content\":31,\"content_length\":2}",
        ];
        let wanted = format!(
            "{{\"file\":\"a.jp2\",\"bytes\":33,\"status\":\"accepted\",\"boxes\":[{}],\"refused\":null}}",
            boxes.join(",")
        );
        assert_eq!(json, wanted);
    }

    #[test]
    fn an_empty_file_has_no_boxes() {
        let ([text, json], said) = told(&[]);
        let line = "file        a.jp2, 0 bytes\nboxes       none: the file is empty\n";
        assert_eq!(text, line);
        assert!(json.contains("\"status\":\"accepted\",\"boxes\":[],\"refused\":null"));
        assert_eq!(said, None);
    }

    #[test]
    fn of_a_file_that_is_refused_no_box_is_told() {
        let ([text, json], said) = told(b"\0\0\0\x07free");
        assert!(text.starts_with("file        a.jp2, 8 bytes\nrefused     28 0: "));
        assert!(json.contains("\"status\":\"refused\",\"boxes\":null,\"refused\":{\"number\":28,"));
        let said = said.expect("a sentence");
        assert!(
            said.contains(", at byte 0 of the file (refusal 28); "),
            "{said}"
        );
    }

    #[test]
    fn a_bare_codestream_is_said_to_be_one() {
        let sample = include_bytes!("../../../crates/tileparts/stdin");
        let ([text, json], said) = told(sample);
        assert!(text.contains("refused     27 0: ") && text.contains(BARE));
        assert!(json.contains("\"number\":27") && json.contains(BARE));
        let said = said.expect("a sentence");
        assert!(
            said.contains(" (refusal 27); ") && said.ends_with(BARE),
            "{said}"
        );
        // one in a box is none
        assert_eq!(told(b"\0\0\0\x0Ajp2c\xFF\x4F").1, None);
    }

    #[test]
    fn digits_are_counted() {
        let counts = [0, 9, 10, 99, 100, u64::MAX].map(digits);
        assert_eq!(counts, [1, 1, 2, 2, 3, 20]);
    }
}
