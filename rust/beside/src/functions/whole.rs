//! The benchmark of whole files, as the command's `list` reads them: search, main header and scan, ours with
//! memory that is lent as each call asks for it, and the original's by its own lists.

use original::buffer::OwnedBuffer;
use original::{markers, reader};
use probe::host;

use crate::bench::{row, Benchmark, ORIGINAL};
use crate::model::reader::{JP2C, SIGNATURE};
use crate::model::ROW;
use crate::readings;
use crate::sample::boxes::fitting;
use crate::sample::{opened, parts, sample_a};

pub const BENCHMARK: Benchmark = Benchmark {
    name: "whole files, as the command lists them",
    beside: ORIGINAL,
    rows,
};

const FILES: usize = 1_000;

/// The original reads boxes through a buffer, whose stand-in is made before the time is taken.
struct File {
    bytes: Vec<u8>,
    buffer: OwnedBuffer,
}

impl File {
    fn of(codestream: &[u8]) -> Self {
        let bytes = [&SIGNATURE, fitting(JP2C, codestream).as_slice()].concat();
        File {
            buffer: OwnedBuffer::resident(bytes.clone()),
            bytes,
        }
    }

    /// TLM entries and tile-parts.
    fn ours(&self) -> Option<[u64; 2]> {
        let mut found = [0; 2];
        if host::find_codestream(&self.bytes, &mut found) != 0 {
            return None;
        }
        let [start, length] = found.map(|number| number as usize);
        let codestream = &self.bytes[start..start + length];
        let [first_sot, _, entries, _] = lent(0, |table, out, numbers| {
            host::parse_main_header_by_reading(codestream, readings::ORIGINAL, table, out, numbers)
        })?;
        let rows = likely_rows(length as u64 - first_sot);
        let [parts] = lent(rows, |table, _, [value]| {
            host::scan_sot_markers(codestream, first_sot, table, value)
        })?;
        Some([entries, parts])
    }

    fn theirs(&self) -> Option<[u64; 2]> {
        let range = reader::find_codestream(&self.buffer)?;
        let codestream = &self.bytes[range.start..range.end];
        let header = markers::parse_main_header(codestream).ok()?;
        let entries = header.tlm_offset_table.map_or(0, |table| table.len());
        let parts = markers::scan_sot_markers(codestream, header.first_sot_offset).ok()?;
        Some([entries as u64, parts.len() as u64])
    }
}

/// As many rows as the safe crate lends for a scan at first.
fn likely_rows(rest: u64) -> usize {
    (64 + rest / 64).min(4096).min(rest / 12 + 1) as usize
}

/// Calls with so many rows lent, and again with what was asked for, as the safe crate does.
fn lent<const N: usize>(
    rows: usize,
    call: impl Fn(&mut [u8], &mut [u8], &mut [u64; N]) -> u32,
) -> Option<[u64; N]> {
    let (mut table, mut out) = (vec![0; ROW * rows], Vec::new());
    loop {
        let mut numbers = [0; N];
        match call(&mut table, &mut out, &mut numbers) {
            0 => return Some(numbers),
            17 => out.resize(numbers[0] as usize, 0),
            18 => table.resize(ROW * numbers[0] as usize, 0),
            _ => return None,
        }
    }
}

fn ours(files: &[File]) -> Option<Vec<[u64; 2]>> {
    files.iter().map(File::ours).collect()
}

fn theirs(files: &[File]) -> Option<Vec<[u64; 2]>> {
    files.iter().map(File::theirs).collect()
}

fn rows() {
    measure("sample A", &sample_a());
    for count in [100, 1_000] {
        let mut codestream = opened().bytes;
        codestream.extend(parts::many(count, 64));
        measure(&format!("{count} parts of 64 bytes"), &codestream);
    }
}

fn measure(name: &str, codestream: &[u8]) {
    let files: Vec<_> = (0..FILES).map(|_| File::of(codestream)).collect();
    row(
        &format!("{FILES} files: {name}"),
        files.as_slice(),
        ours,
        theirs,
    );
}
