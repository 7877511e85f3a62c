//! The rules in plain Rust: for every input its answer, or its refusal's number and place. Written
//! from docs/RULES.md, to stand beside the original, which only says that it refuses.

pub mod boxes;
pub mod check;
pub mod components;
pub mod header;
pub mod index;
pub mod parts;
pub mod reader;
pub mod rules;
pub mod tile;

#[derive(Debug, Clone, Copy, PartialEq, Eq)]
pub struct Refusal {
    pub number: u32,
    pub place: u64,
}

pub const ACCEPTED: &str = "accepted";

macro_rules! labels {
    ($($number:literal)*) => { &[(0, ACCEPTED), $(($number, concat!("refused ", $number))),*] };
}

/// By number; 0 is none.
const LABELS: &[(u32, &str)] = labels![1 2 3 4 5 6 7 8 9 10 11 12 13 14 15 16 17 18 19 20 21 22 23 24 25 26 27 28 29 30 31 32 33 34];

impl Refusal {
    pub fn new(number: u32, place: u64) -> Self {
        Refusal { number, place }
    }

    /// Of output and tables, too long a loan, 15, components, numbers that are carried on, the list of
    /// boxes, the standard's rule for tiles, the order of TLM segments, and the newer edition: the original
    /// has nothing that answers to them.
    pub fn is_ours_alone(&self) -> bool {
        matches!(
            self.number,
            15 | 17 | 18 | 19 | 23 | 24 | 25 | 26 | 27 | 28 | 29 | 30 | 31 | 32 | 33 | 34
        )
    }

    /// Where the original panics.
    pub fn is_its_panic(&self) -> bool {
        matches!(self.number, 10 | 16 | 22)
    }

    pub fn label(&self) -> &'static str {
        let known = LABELS.iter().find(|(number, _)| *number == self.number);
        known.expect("a number of the rules").1
    }

    /// 17, for output of `room` bytes.
    pub fn unless_it_holds(room: usize, needed: u128) -> Result<(), Self> {
        match needed <= room as u128 {
            true => Ok(()),
            false => Err(Refusal::new(17, needed.try_into().unwrap_or(u64::MAX))),
        }
    }

    /// 18, for a table of `size` bytes.
    pub fn unless_it_lists(size: usize, entries: usize) -> Result<(), Self> {
        Self::unless_it_has(size / ROW, entries)
    }

    /// 18, for a table of so many rows.
    pub fn unless_it_has(rows: usize, entries: usize) -> Result<(), Self> {
        match entries <= rows {
            true => Ok(()),
            false => Err(Refusal::new(18, entries as u64)),
        }
    }
}

/// Bytes of an entry in a table.
pub const ROW: usize = 21;

/// A tile-part: its tile's index, its offset and its length, which the original tells too.
pub type Entry = (u16, u64, u64);

/// TPsot and TNsot, where they are known.
pub type Numbers = Option<[u8; 2]>;

/// A tile-part, and its numbers, which the original doesn't tell.
pub type Record = (Entry, Numbers);

/// An offset and a length.
pub type Range = (u64, u64);

/// On the reference grid: x0, y0, and x1, y1, which no longer belong to it.
pub type Area = [u32; 4];

/// Without their numbers.
pub fn entries(records: &[Record]) -> Vec<Entry> {
    records.iter().map(|(entry, _)| *entry).collect()
}

/// With numbers that are not known.
pub fn rows(entries: &[Entry]) -> Vec<u8> {
    entries
        .iter()
        .flat_map(|&entry| row((entry, None)))
        .collect()
}

pub fn rows_of(records: &[Record]) -> Vec<u8> {
    records.iter().copied().flat_map(row).collect()
}

fn row(((index, offset, length), numbers): Record) -> [u8; ROW] {
    let mut row = [0; ROW];
    row[..2].copy_from_slice(&index.to_be_bytes());
    row[2..10].copy_from_slice(&offset.to_be_bytes());
    row[10..18].copy_from_slice(&length.to_be_bytes());
    if let Some([tpsot, tnsot]) = numbers {
        row[18..].copy_from_slice(&[1, tpsot, tnsot]);
    }
    row
}

/// What the whole rows of a table hold.
pub fn records(table: &[u8]) -> Vec<Record> {
    let record = |row: &[u8; ROW]| {
        let (entry, numbers) = row.split_at(18);
        let (index, place) = entry.split_at(2);
        let (offset, length) = place.split_at(8);
        let entry = (number(index) as u16, number(offset), number(length));
        let known = numbers[0] == 1;
        (entry, known.then_some([numbers[1], numbers[2]]))
    };
    table.as_chunks().0.iter().map(record).collect()
}

/// The number that `bytes` are.
pub fn number(bytes: &[u8]) -> u64 {
    bytes
        .iter()
        .fold(0, |sum, &byte| sum << 8 | u64::from(byte))
}

/// The number in the `size` bytes at `at`, if they are all there.
pub fn read(bytes: &[u8], at: u64, size: usize) -> Option<u64> {
    let from = bytes.get(usize::try_from(at).ok()?..)?;
    from.get(..size).map(number)
}

#[cfg(test)]
mod tests {
    use super::{Refusal, ACCEPTED, LABELS};

    #[test]
    fn a_label_says_its_number() {
        assert_eq!(Refusal::new(0, 0).label(), ACCEPTED);
        for (number, _) in &LABELS[1..] {
            let label = Refusal::new(*number, 0).label();
            assert_eq!(label, format!("refused {number}"));
        }
    }
}
