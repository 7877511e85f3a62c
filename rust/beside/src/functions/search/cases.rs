//! The replay list's cases of kind 7; the payload is the file.

use super::original;
use crate::cases::Kind;
use crate::model::reader::find_codestream;
use crate::random::Random;
use crate::sample::boxes;
use crate::sample::damage::damaged;
use crate::wanted;

pub const KIND: Kind = Kind {
    number: 7,
    name: wanted::SEARCH.name,
    minimum: 300,
    payloads,
    answer,
};

fn answer(file: &[u8]) -> Option<String> {
    match find_codestream(file) {
        Err(refusal) if refusal.is_ours_alone() => None,
        _ => Some(match original(file) {
            Some((start, length)) => format!("search {start} {length}"),
            None => "search refused".to_string(),
        }),
    }
}

pub fn payloads(random: &mut Random) -> Vec<Vec<u8>> {
    let mut payloads = boxes::edges();
    for _ in 0..120 {
        let file = boxes::file(random);
        let damaged = damaged(random, &file);
        payloads.extend([file, damaged]);
    }
    payloads
}
