//! Writes the replay list and its answers, of the original or the model: `cases ROOT`, the repository's
//! root.
//! Status 1 if a list can't be made or written, 2 for misuse or in a build without overflow checks
//! (where the original goes wrong instead of panicking, or never ends), 3 without the original.

#![forbid(unsafe_code)]

use std::path::Path;
use std::process::ExitCode;
use std::{fs, io};

use beside::cases::List;
use beside::functions::KINDS;
use beside::options::Options;
use beside::program::{asks_the_original, ended, Build, Stop};
use beside::random::SEED;

const CASES: &str = "crates/replay/data/cases";
const ANSWERS: &str = "crates/replay/stdout";
/// In bytes.
const LONGEST_LIST: usize = 1_000_000;

fn main() -> ExitCode {
    ended(cases())
}

fn cases() -> Result<(), Stop> {
    let mut options = Options::of_the_program("cases ROOT");
    let root = options.unnamed().ok_or_else(|| options.misuse())?;
    options.end()?;
    asks_the_original(Build::Checked)?;
    let list = list().map_err(Stop::failed)?;
    write(Path::new(&root), &list).map_err(|error| Stop::failed(error.to_string()))
}

fn list() -> Result<List, String> {
    let mut list = List::default();
    for kind in KINDS {
        let count = list.add(kind, SEED)?;
        println!("{}: {count} cases", kind.name);
    }
    let size = list.cases.len();
    println!("{size} bytes");
    if size > LONGEST_LIST {
        return Err(format!("the list may have {LONGEST_LIST} bytes"));
    }
    Ok(list)
}

fn write(root: &Path, list: &List) -> io::Result<()> {
    for (name, bytes) in [
        (CASES, list.cases.as_slice()),
        (ANSWERS, list.answers.as_bytes()),
    ] {
        let path = root.join(name);
        if let Some(directory) = path.parent() {
            fs::create_dir_all(directory)?;
        }
        fs::write(path, bytes)?;
    }
    Ok(())
}
