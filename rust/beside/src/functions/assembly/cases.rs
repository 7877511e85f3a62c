//! The replay list's cases of kinds 6, 14 and 16; the payload is the header's length in 4 bytes, the
//! header, the number of rows in 2 bytes, the rows, and the codestream. Those of 14 are answered by
//! Annex B's rule and those of 16 in place, of which the original has none: the answers are the
//! model's.

use original::markers::build_minimal_codestream as original;

use crate::cases::{written, Kind};
use crate::model::rules::Rule;
use crate::model::tile::build_minimal_codestream;
use crate::model::{number, ROW};
use crate::sample::tiles::{inputs, inputs_of_annex_b, Input};
use crate::tally::lower_hex;
use crate::wanted;

pub const KIND: Kind = Kind {
    number: 6,
    name: wanted::ASSEMBLY_BY_ORIGINAL.name,
    minimum: 300,
    payloads: |random| inputs(random).iter().map(framed).collect(),
    answer: |payload| {
        let Input {
            header,
            ranges,
            codestream,
        } = read(payload);
        let built = original(&header, &ranges, &codestream);
        Some(format!("assembly {}", lower_hex(&built)))
    },
};

/// Output that the program which answers the list has.
const ROOM: usize = 65_536;

pub const KIND_OF_ANNEX_B: Kind = Kind {
    number: 14,
    name: wanted::ASSEMBLY.name,
    minimum: 300,
    payloads: |random| inputs_of_annex_b(random).iter().map(framed).collect(),
    answer: |payload| Some(format!("assembly-b{}", by(Rule::AnnexB, payload))),
};

pub const KIND_IN_PLACE: Kind = Kind {
    number: 16,
    name: wanted::ASSEMBLY_IN_PLACE.name,
    answer: |payload| Some(format!("assembly-p{}", by(Rule::InPlace, payload))),
    ..KIND_OF_ANNEX_B
};

fn by(rule: Rule, payload: &[u8]) -> String {
    let Input {
        header,
        ranges,
        codestream,
    } = read(payload);
    let built = build_minimal_codestream(&header, &ranges, &codestream, rule, ROOM);
    written(built)
}

fn framed(input: &Input) -> Vec<u8> {
    [
        &(input.header.len() as u32).to_be_bytes()[..],
        &input.header,
        &(input.ranges.len() as u16).to_be_bytes(),
        &input.rows(0xA5A5),
        &input.codestream,
    ]
    .concat()
}

fn read(payload: &[u8]) -> Input {
    let (size, rest) = payload.split_at(4);
    let (header, rest) = rest.split_at(number(size) as usize);
    let (count, rest) = rest.split_at(2);
    let (rows, codestream) = rest.split_at(ROW * number(count) as usize);
    let range = |row: &[u8]| (number(&row[2..10]), number(&row[10..18]));
    Input {
        header: header.to_vec(),
        ranges: rows.chunks(ROW).map(range).collect(),
        codestream: codestream.to_vec(),
    }
}
