//! "Boxes".

use super::{number, Refusal};

/// Bytes of a box in a table.
pub const BOX_ROW: usize = 29;

pub const SUPERBOXES: [[u8; 4]; 3] = [*b"jp2h", *b"res ", *b"uinf"];
pub const DEEPEST: u8 = 8;

/// A box of a file; places count from the file's start.
#[derive(Debug, Clone, Copy, PartialEq, Eq)]
pub struct BoxEntry {
    /// 1 at the top.
    pub depth: u8,
    pub kind: [u8; 4],
    pub start: u64,
    /// Where its content starts.
    pub content: u64,
    /// The content's.
    pub length: u64,
}

impl BoxEntry {
    pub fn end(&self) -> u64 {
        self.content + self.length
    }

    pub fn row(&self) -> [u8; BOX_ROW] {
        let mut row = [0; BOX_ROW];
        row[0] = self.depth;
        row[1..5].copy_from_slice(&self.kind);
        let numbers = [self.start, self.content, self.length];
        for (place, number) in row[5..].as_chunks_mut().0.iter_mut().zip(numbers) {
            *place = number.to_be_bytes();
        }
        row
    }
}

pub fn box_rows(boxes: &[BoxEntry]) -> Vec<u8> {
    boxes.iter().flat_map(BoxEntry::row).collect()
}

/// What the whole rows of a table hold.
pub fn boxes_of(table: &[u8]) -> Vec<BoxEntry> {
    let entry = |row: &[u8; BOX_ROW]| BoxEntry {
        depth: row[0],
        kind: [row[1], row[2], row[3], row[4]],
        start: number(&row[5..13]),
        content: number(&row[13..21]),
        length: number(&row[21..]),
    };
    table.as_chunks().0.iter().map(entry).collect()
}

/// What stands at a position of a list, of which at least a byte is left. What is not there is 0.
#[derive(Debug, Clone, Copy)]
pub struct Found {
    pub depth: u8,
    pub at: u64,
    pub left: u64,
    /// As the box's first 4 bytes have it.
    pub said: u64,
    pub kind: [u8; 4],
    pub header: u64,
    pub length: u64,
}

impl Found {
    /// In the list that ends where `within` does.
    pub fn new(within: &[u8], depth: u8, at: u64) -> Self {
        let mut front = [0; 16];
        let rest = &within[at as usize..];
        let there = rest.len().min(16);
        front[..there].copy_from_slice(&rest[..there]);
        let left = rest.len() as u64;
        let said = number(&front[..4]);
        let (header, length) = match said {
            0 => (8, left),
            1 => (16, number(&front[8..])),
            length => (8, length),
        };
        Found {
            depth,
            at,
            left,
            said,
            kind: [front[4], front[5], front[6], front[7]],
            header,
            length,
        }
    }

    /// Whether it is a superbox with content.
    pub fn holds_boxes(&self) -> bool {
        SUPERBOXES.contains(&self.kind) && self.length > self.header
    }

    pub fn entry(&self) -> BoxEntry {
        BoxEntry {
            depth: self.depth,
            kind: self.kind,
            start: self.at,
            content: self.at + self.header,
            length: self.length - self.header,
        }
    }
}

/// A refusal's number, and whether what stands there fits its line.
pub type Line = (u32, fn(&Found) -> bool);

/// The rule's lines that refuse, in its order: the first that fits.
pub const LINES: [Line; 6] = [
    (27, |found| found.left < 8),
    (13, |found| found.said == 1 && found.left < 16),
    (28, |found| {
        found.said == 0 && found.depth > 1 || found.length < found.header
    }),
    (16, |found| found.at.checked_add(found.length).is_none()),
    (27, |found| found.length > found.left),
    (29, |found| found.holds_boxes() && found.depth == DEEPEST),
];

/// Every box of a file, in file order; 18 is left to the table.
pub fn list_boxes(file: &[u8]) -> Result<Vec<BoxEntry>, Refusal> {
    let mut listed = Vec::new();
    list(file, 1, 0, &mut listed)?;
    Ok(listed)
}

/// A list from its start on to where `within` ends, the file up to there.
fn list(within: &[u8], depth: u8, start: u64, listed: &mut Vec<BoxEntry>) -> Result<(), Refusal> {
    let mut at = start;
    while at < within.len() as u64 {
        let found = Found::new(within, depth, at);
        if let Some((number, _)) = LINES.iter().find(|(_, fits)| fits(&found)) {
            return Err(Refusal::new(*number, at));
        }
        let entry = found.entry();
        listed.push(entry);
        if found.holds_boxes() {
            let content = &within[..entry.end() as usize];
            list(content, depth + 1, entry.content, listed)?;
        }
        at = entry.end();
    }
    Ok(())
}

/// So many rows as are needed, or 0 where the file is refused.
pub fn needed(file: &[u8]) -> usize {
    list_boxes(file).map_or(0, |boxes| boxes.len())
}

#[cfg(test)]
mod tests {
    use super::{box_rows, boxes_of, list_boxes, BoxEntry, BOX_ROW};
    use crate::sample::trees::by_hand;

    #[test]
    fn answers_are_as_by_hand() {
        for (file, by_hand) in by_hand() {
            let told = list_boxes(&file).map_err(|refusal| (refusal.number, refusal.place));
            assert_eq!(told, by_hand, "{file:02X?}");
        }
    }

    #[test]
    fn a_row_has_its_fields_and_gives_them_back() {
        let entry = BoxEntry {
            depth: 2,
            kind: *b"colr",
            start: 0x0102_0304_0506_0708,
            content: 0x1112_1314_1516_1718,
            length: 0x2122_2324_2526_2728,
        };
        let row = entry.row();
        assert_eq!(row[..6], [2, b'c', b'o', b'l', b'r', 1]);
        assert_eq!(
            [row[12], row[13], row[20], row[21], row[28]],
            [8, 0x11, 0x18, 0x21, 0x28]
        );
        let mut table = box_rows(&[entry, entry]);
        table.extend([7; BOX_ROW - 1]);
        assert_eq!(boxes_of(&table), [entry; 2]);
    }
}
