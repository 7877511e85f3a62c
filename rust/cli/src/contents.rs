//! A file's bytes: of a small file read, of a large one mapped.

use std::fs::{File, Metadata};
use std::io::{self, Read};
use std::os::unix::fs::MetadataExt;
use std::path::Path;

use crate::mapped::Mapped;
use crate::trouble::Trouble;

/// Up to so many bytes are read, so that a folder of small files costs no mappings.
const READ: u64 = 16 << 20;

const CHANGED: &str =
    "the file changed while it was read: wait until nobody writes to it, then try again";
const ENDLESS: &str = "more than 16 MiB come from what is no plain file: save it as a file first";

pub struct Contents {
    file: File,
    before: Metadata,
    bytes: Bytes,
}

enum Bytes {
    Read(Vec<u8>),
    Mapped(Mapped),
}

impl Contents {
    pub fn open(path: &Path) -> Result<Self, Trouble> {
        let opened = || {
            let file = File::open(path)?;
            let before = file.metadata()?;
            let bytes = bytes(&file, &before)?;
            Ok(Contents {
                file,
                before,
                bytes,
            })
        };
        opened().map_err(|error: io::Error| Trouble::failed(path, error))
    }

    pub fn bytes(&self) -> &[u8] {
        match &self.bytes {
            Bytes::Read(bytes) => bytes,
            Bytes::Mapped(mapped) => mapped,
        }
    }

    pub fn metadata(&self) -> &Metadata {
        &self.before
    }

    /// What is asked for next is read in order.
    pub fn expect_order(&self) {
        if let Bytes::Mapped(mapped) = &self.bytes {
            mapped.expect_order();
        }
    }

    /// Asked at the end: an answer that was read from a file while it changed is none.
    pub fn unchanged(&self, path: &Path) -> Result<(), Trouble> {
        let cut = matches!(&self.bytes, Bytes::Mapped(mapped) if mapped.is_cut());
        let after = self.file.metadata();
        let after = after.map_err(|error| Trouble::failed(path, error))?;
        if cut || (self.before.is_file() && stamp(&after) != stamp(&self.before)) {
            return Err(Trouble::failed(path, CHANGED));
        }
        Ok(())
    }
}

/// What every write to a file changes.
fn stamp(file: &Metadata) -> [i64; 3] {
    [file.size() as i64, file.mtime(), file.mtime_nsec()]
}

fn bytes(file: &File, before: &Metadata) -> io::Result<Bytes> {
    if before.is_file() && before.len() > READ {
        return Ok(Bytes::Mapped(Mapped::new(file)?));
    }
    let mut bytes = Vec::new();
    file.take(READ + 1).read_to_end(&mut bytes)?;
    if bytes.len() as u64 > READ {
        let why = if before.is_file() { CHANGED } else { ENDLESS };
        return Err(io::Error::other(why));
    }
    Ok(Bytes::Read(bytes))
}
