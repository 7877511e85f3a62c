//! Finds the original's `markers.rs` and `reader.rs`, below `OSML_SRC` or, where that isn't set, in the
//! documents that stand beside the repository. Writes the line of Rust that takes in the first where
//! it stands, and what is ported of the second, cut out by name.

use std::ffi::OsStr;
use std::path::Path;
use std::{env, fs, process};

const NAMED: &str = "OSML_SRC";
const BESIDE_THE_REPOSITORY: &str = "../../../shared/docs/src";
const MARKERS: &str = "src/j2k/markers.rs";
const READER: &str = "src/j2k/reader.rs";

const CONSTANTS: [&str; 4] = [
    "JP2_SIGNATURE",
    "J2K_SOC",
    "JP2C_BOX_TYPE",
    "HEADER_SCAN_PREFIX",
];
const FUNCTIONS: [&str; 4] = [
    "find_jp2_codestream_range_buffered",
    "parse_siz_marker",
    "pixel_type_from_siz",
    GROWING,
];
/// In it the step from a region to the next is an assignment to `REGION` from it and `LENGTH`.
const GROWING: &str = "materialize_header_region";
const REGION: &str = "prefix_len";
const LENGTH: &str = "cs_len";

fn main() {
    println!("cargo:rustc-check-cfg=cfg(present)");
    println!("cargo:rerun-if-changed=build.rs");
    println!("cargo:rerun-if-env-changed={NAMED}");
    let named = env::var_os(NAMED);
    let place = named
        .as_deref()
        .unwrap_or(OsStr::new(BESIDE_THE_REPOSITORY));
    let directory = Path::new(&variable("CARGO_MANIFEST_DIR")).join(place);
    let [markers, reader] = [MARKERS, READER].map(|name| directory.join(name));
    for source in [&markers, &reader] {
        println!("cargo:rerun-if-changed={}", source.display());
    }
    if let (Ok(markers), Ok(reader)) = (markers.canonicalize(), fs::read_to_string(reader)) {
        write("markers.rs", &taken_in(&markers));
        write("reader.rs", &cut_out(&reader));
        println!("cargo:rustc-cfg=present");
        println!("cargo:present=yes");
    } else if named.is_some() {
        let directory = directory.display();
        eprintln!("{NAMED} is set, and {MARKERS} and {READER} are not both in {directory}");
        process::exit(1);
    }
}

fn taken_in(source: &Path) -> String {
    let source = source
        .to_str()
        .expect("the path of the original is not text");
    format!("#[allow(warnings, clippy::all)]\n#[path = {source:?}]\npub mod markers;\n")
}

fn cut_out(source: &str) -> String {
    let constants = CONSTANTS.map(|name| format!("pub {}\n", constant(source, name)));
    let functions = FUNCTIONS.map(|name| format!("pub {}\n", function(source, name)));
    let step = last_assignment(function(source, GROWING), REGION);
    format!(
        "{}pub struct Reader;\nimpl Reader {{\n{}}}\n\
         pub fn next_region(mut {REGION}: usize, {LENGTH}: usize) -> usize {{ {step} {REGION} }}\n",
        constants.concat(),
        functions.concat(),
    )
}

fn constant<'a>(source: &'a str, name: &str) -> &'a str {
    up_to(from(source, &format!("const {name}:")), ";\n")
}

/// Up to the brace that closes its body; no text or comment in these has a brace of its own.
fn function<'a>(source: &'a str, name: &str) -> &'a str {
    let text = from(source, &format!("fn {name}("));
    let mut open = 0;
    for (at, letter) in text.char_indices() {
        match letter {
            '{' => open += 1,
            '}' if open == 1 => return &text[..=at],
            '}' => open -= 1,
            _ => {}
        }
    }
    panic!("the original's {name} has no end");
}

fn last_assignment<'a>(text: &'a str, name: &str) -> &'a str {
    let place = text.rfind(&format!("{name} = "));
    let place = place.unwrap_or_else(|| panic!("the original assigns nothing to {name}"));
    up_to(&text[place..], ";")
}

fn from<'a>(source: &'a str, words: &str) -> &'a str {
    let place = source.find(words);
    &source[place.unwrap_or_else(|| panic!("the original has no {words:?}"))..]
}

fn up_to<'a>(text: &'a str, end: &str) -> &'a str {
    let place = text.find(end);
    &text[..place.expect("the original's statement has no end") + end.len()]
}

fn write(name: &str, text: &str) {
    let path = Path::new(&variable("OUT_DIR")).join(name);
    fs::write(path, text).expect("OUT_DIR can't be written");
}

fn variable(name: &str) -> String {
    env::var(name).unwrap_or_else(|_| panic!("cargo sets {name}"))
}
