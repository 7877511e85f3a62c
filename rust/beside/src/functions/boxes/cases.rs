//! The replay list's cases of kind 27; the payload is how many rows the table has, 2 bytes, and the file. The
//! original has no such function: the answers are the model's.

use crate::cases::{refused, Kind};
use crate::model::boxes::{box_rows, list_boxes, needed, BoxEntry, BOX_ROW};
use crate::model::{number, Refusal};
use crate::random::Random;
use crate::sample::trees::{by_hand, bytes, edited, entries, file};
use crate::tally::lower_hex;
use crate::wanted;

pub const KIND: Kind = Kind {
    number: 27,
    name: wanted::BOXES.name,
    minimum: 90,
    payloads,
    answer,
};

fn payloads(random: &mut Random) -> Vec<Vec<u8>> {
    let mut payloads = Vec::new();
    for (file, _) in by_hand() {
        payloads.push(framed(needed(&file) + 1, &file));
    }
    for _ in 0..6 {
        let trees = file(random);
        let built = bytes(&trees);
        let rows = needed(&built);
        payloads.push(framed(rows, &built));
        payloads.push(framed(rows.saturating_sub(1), &built));
        let other = edited(random, &built, &entries(&trees));
        payloads.push(framed(needed(&other), &other));
    }
    payloads
}

fn framed(rows: usize, file: &[u8]) -> Vec<u8> {
    [&(rows as u16).to_be_bytes(), file].concat()
}

fn answer(payload: &[u8]) -> Option<String> {
    let (rows, file) = payload.split_at(2);
    let rows = number(rows) as usize;
    let listed = list_boxes(file).and_then(|boxes| {
        Refusal::unless_it_has(rows, boxes.len())?;
        Ok(told(&boxes, rows))
    });
    Some(format!("boxes{}", listed.unwrap_or_else(refused)))
}

/// How many, and all of the table, which was zeros.
fn told(boxes: &[BoxEntry], rows: usize) -> String {
    let mut table = box_rows(boxes);
    table.resize(BOX_ROW * rows, 0);
    format!(" {} {}", boxes.len(), lower_hex(&table))
}

#[cfg(test)]
mod tests {
    use super::{answer, framed};
    use crate::sample::boxes::{fitting, FREE};

    #[test]
    fn a_line_says_what_is_told() {
        let line = |rows, file: &[u8]| answer(&framed(rows, file));
        let file = fitting(FREE, &[7]);
        let row = "0166726565000000000000000000000000000000080000000000000001";
        assert_eq!(line(1, &file), Some(format!("boxes 1 {row}")));
        let behind = "00".repeat(29);
        assert_eq!(line(2, &file), Some(format!("boxes 1 {row}{behind}")));
        assert_eq!(line(0, &file).as_deref(), Some("boxes refused 18 1"));
        assert_eq!(line(0, &[]).as_deref(), Some("boxes 0 "));
        assert_eq!(line(9, &file[..8]).as_deref(), Some("boxes refused 27 0"));
    }
}
