//! "SOT scan", "Tile-parts in order", "Split".

use super::{read, Numbers, Record, Refusal};
use crate::sample::codestream::{EOC, SOT};

const SOT_BYTES: u64 = 12;
const LSOT: u64 = 10;

pub fn scan_sot_markers(codestream: &[u8], start: u64) -> Result<Vec<Record>, Refusal> {
    let length = codestream.len() as u64;
    let mut entries = Vec::new();
    let mut at = start;
    while at < length {
        let marker = read(codestream, at, 2);
        if marker == Some(EOC.into()) {
            break;
        }
        let left = length - at;
        if left < SOT_BYTES {
            return Err(Refusal::new(7, at));
        }
        if marker != Some(SOT.into()) {
            break;
        }
        if read(codestream, at + 2, 2) != Some(LSOT) {
            return Err(Refusal::new(8, at));
        }
        let (isot, psot) = isot_psot(codestream, at);
        let numbers = numbers(codestream, at);
        match psot {
            0 => {
                entries.push(((isot, at, left), numbers));
                break;
            }
            _ if psot > left => return Err(Refusal::new(9, at)),
            _ => entries.push(((isot, at, psot), numbers)),
        }
        at += psot;
    }
    Ok(entries)
}

/// Entries of the table; some where the scan is refused.
pub fn needed(codestream: &[u8], start: u64) -> usize {
    scan_sot_markers(codestream, start).map_or(2, |entries| entries.len())
}

/// Of a SOT that is whole.
fn isot_psot(bytes: &[u8], at: u64) -> (u16, u64) {
    let field = |offset, size| read(bytes, at + offset, size).expect("SOT is whole");
    (field(4, 2) as u16, field(6, 4))
}

/// Of a SOT that stands there.
pub fn numbers(codestream: &[u8], at: u64) -> Numbers {
    let byte = |offset| Some(read(codestream, at + offset, 1)? as u8);
    Some([byte(10)?, byte(11)?])
}

/// Whether the tile's numbers are (0, 0 or n), (1, 0 or n) and on, for n entries of which there is one.
pub fn tile_in_order(records: &[Record], tile: u16) -> bool {
    let of_tile = records.iter().filter(|((index, ..), _)| *index == tile);
    let numbers: Vec<_> = of_tile.map(|(_, numbers)| *numbers).collect();
    let count = numbers.len();
    let due = |(k, numbers): (usize, &Numbers)| {
        let Some([tpsot, tnsot]) = *numbers else {
            return false;
        };
        usize::from(tpsot) == k && (tnsot == 0 || usize::from(tnsot) == count)
    };
    count > 0 && numbers.iter().enumerate().all(due)
}

/// The parts, without what is left over.
pub fn split_tile_parts(tile: &[u8]) -> Vec<&[u8]> {
    let mut parts = Vec::new();
    let mut rest = tile;
    while rest.len() as u64 >= SOT_BYTES && read(rest, 0, 2) == Some(SOT.into()) {
        let (_, psot) = isot_psot(rest, 0);
        let size = match psot {
            0 => rest.len(),
            _ => rest.len().min(psot as usize),
        };
        let (part, after) = rest.split_at(size);
        parts.push(part);
        rest = after;
    }
    parts
}
