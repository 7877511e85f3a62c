//! What a command writes: to standard output and standard error, and to a file that is whole or not
//! there.

use std::fs::{self, File, Metadata, OpenOptions, Permissions};
use std::io::{self, BufWriter, ErrorKind, StdoutLock, Write};
use std::os::unix::fs::MetadataExt;
use std::path::{Path, PathBuf};
use std::process;

use serde::Serialize;

use crate::trouble::Trouble;

pub type Out = BufWriter<StdoutLock<'static>>;

pub fn standard_output() -> Out {
    BufWriter::with_capacity(1 << 16, io::stdout().lock())
}

pub fn not_printed(error: io::Error) -> Trouble {
    match error.kind() {
        ErrorKind::BrokenPipe => Trouble::ReaderGone,
        _ => Trouble::Failed(format!("winterhasp: standard output: {error}")),
    }
}

pub fn print(bytes: &[u8]) -> Result<(), Trouble> {
    let mut out = standard_output();
    let printed = out.write_all(bytes).and_then(|()| out.flush());
    printed.map_err(not_printed)
}

/// One JSON object, on a line of its own.
pub fn print_json(out: &mut impl Write, json: &impl Serialize) -> io::Result<()> {
    serde_json::to_writer(&mut *out, json)?;
    writeln!(out)
}

/// A line on standard error. Nobody is left to tell if that is closed too.
pub fn tell(line: &str) {
    let _ = writeln!(io::stderr(), "{line}");
}

/// The word that stands for standard output.
const STANDARD_OUTPUT: &str = "-";
const STANDARD_OUTPUT_FILE: &str = "/dev/stdout";

/// Where a result goes.
pub enum Destination {
    StandardOutput,
    /// A plain file, there or not, with what it may be used for if it is there.
    File(PathBuf, Option<Permissions>),
    /// A device or a pipe, which is written to as it is.
    Device(PathBuf),
}

impl Destination {
    /// Never the file that is read, under whatever name.
    pub fn new(out: &Path, input: &Metadata) -> Result<Self, Trouble> {
        let to_standard_output = out == Path::new(STANDARD_OUTPUT);
        let there = if to_standard_output {
            fs::metadata(STANDARD_OUTPUT_FILE).ok()
        } else {
            metadata(out).map_err(|error| Trouble::failed(out, error))?
        };
        if there.as_ref().is_some_and(|there| same(there, input)) {
            let why = "this is the file that is read, and it is not written over";
            return Err(Trouble::failed(out, why));
        }
        if to_standard_output {
            return Ok(Destination::StandardOutput);
        }
        match there {
            Some(there) if there.is_file() => {
                // Of a link the file behind it is replaced, and the link stays.
                let real = fs::canonicalize(out).map_err(|error| Trouble::failed(out, error))?;
                Ok(Destination::File(real, Some(there.permissions())))
            }
            Some(_) => Ok(Destination::Device(out.to_path_buf())),
            None => Ok(Destination::File(out.to_path_buf(), None)),
        }
    }

    pub fn write(&self, bytes: &[u8]) -> Result<(), Trouble> {
        match self {
            Destination::StandardOutput => print(bytes),
            Destination::File(path, permissions) => replace(path, permissions.as_ref(), bytes)
                .map_err(|error| Trouble::failed(path, error)),
            Destination::Device(path) => {
                write_to(path, bytes).map_err(|error| Trouble::failed(path, error))
            }
        }
    }
}

/// Of what is there behind a name; nothing if nothing is.
fn metadata(path: &Path) -> io::Result<Option<Metadata>> {
    match fs::metadata(path) {
        Ok(there) => Ok(Some(there)),
        Err(error) if error.kind() == ErrorKind::NotFound => match fs::symlink_metadata(path) {
            Ok(_) => Err(io::Error::other("a link to what is not there")),
            Err(_) => Ok(None),
        },
        Err(error) => Err(error),
    }
}

fn same(one: &Metadata, other: &Metadata) -> bool {
    (one.dev(), one.ino()) == (other.dev(), other.ino())
}

fn write_to(path: &Path, bytes: &[u8]) -> io::Result<()> {
    OpenOptions::new().write(true).open(path)?.write_all(bytes)
}

/// Written beside, and renamed when it is whole: at no time does a part of it stand under the name.
fn replace(path: &Path, permissions: Option<&Permissions>, bytes: &[u8]) -> io::Result<()> {
    let (beside, mut file) = new_beside(path)?;
    let mut write = || {
        file.write_all(bytes)?;
        if let Some(permissions) = permissions {
            file.set_permissions(permissions.clone())?;
        }
        fs::rename(&beside, path)
    };
    write().inspect_err(|_| {
        let _ = fs::remove_file(&beside);
    })
}

/// A new file in the same folder.
fn new_beside(path: &Path) -> io::Result<(PathBuf, File)> {
    const TRIES: u32 = 100;
    let mut last = io::Error::from(ErrorKind::AlreadyExists);
    for number in 0..TRIES {
        let name = format!(".winterhasp-{}-{number}.tmp", process::id());
        let beside = path.with_file_name(name);
        match File::create_new(&beside) {
            Ok(file) => return Ok((beside, file)),
            Err(error) if error.kind() == ErrorKind::AlreadyExists => last = error,
            Err(error) => return Err(error),
        }
    }
    Err(last)
}
