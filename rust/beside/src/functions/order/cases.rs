//! The replay list's cases of kinds 22 and 23; the payload is the tile's index in 2 bytes, and the
//! codestream, whose tile-parts start at 0. The answer is the model's: the entries with their numbers, and
//! whether the tile's stand in order.

use crate::cases::{numbered, Kind};
use crate::model::number;
use crate::model::parts::{scan_sot_markers, tile_in_order};
use crate::random::Random;
use crate::sample::orders::{codestream, run, table, TILES};
use crate::wanted;

pub const KIND: Kind = Kind {
    number: 22,
    name: wanted::ORDER.name,
    minimum: 200,
    payloads,
    answer,
};

/// The same through a table of records.
pub const RECORDS: Kind = Kind {
    number: 23,
    name: wanted::ORDER_OF_RECORDS.name,
    ..KIND
};

fn payloads(random: &mut Random) -> Vec<Vec<u8>> {
    let framed = |tile: u16, codestream: &[u8]| [&tile.to_be_bytes(), codestream].concat();
    let mut payloads = Vec::new();
    for (count, tnsot) in [(256, 0), (256, 255), (257, 0)] {
        payloads.push(framed(7, &codestream(&run(7, count, tnsot))));
    }
    for _ in 0..42 {
        let built = codestream(&table(random));
        payloads.extend(TILES.map(|tile| framed(tile, &built)));
    }
    payloads
}

fn answer(payload: &[u8]) -> Option<String> {
    let (tile, codestream) = payload.split_at(2);
    let Ok(records) = scan_sot_markers(codestream, 0) else {
        return Some("scan refused, not in order".to_string());
    };
    let order = match tile_in_order(&records, number(tile) as u16) {
        true => "in order",
        false => "not in order",
    };
    let (count, entries) = (records.len(), numbered(&records));
    Some(format!("scan {count}{entries}, {order}"))
}
