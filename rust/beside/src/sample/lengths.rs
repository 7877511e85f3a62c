//! Length tables whose check is known by hand, those with about as many entries as there are numbers, and
//! regions to read a header of.

use super::deliveries::{Delivery, Listed, Said, EOC};
use super::numbers::FULL;
use crate::model::header::main_header_extent;
use crate::model::reader::grow_header_region;
use crate::random::Random;

/// Nothing where it passes, the numbers that are told where it differs, or a refusal's number and place.
pub type Answer = Result<Option<[u64; 6]>, (u32, u64)>;

/// A codestream, the region of its header, and what is answered.
pub type ByHand = (Vec<u8>, u64, Answer);

/// In place of a tile where there is nothing.
const NONE: u64 = 65_536;

/// ST 0, 1 and 2, with lengths of 2 bytes; ST 0 and 2 with lengths of 4.
const NO_INDEX: u8 = 0x00;
const ONE: u8 = 0x10;
const TWO: u8 = 0x20;
const NO_INDEX_LONG: u8 = 0x40;
const TWO_LONG: u8 = 0x60;

/// Sample A's two.
const PARTS: [Said; 2] = [(0, 14), (5, 16)];

/// Each of the rule's lines, and their order. A segment of ST 1 with two entries ends at 18, where then the
/// first SOT stands; two of them with one entry each end at 24.
pub fn by_hand() -> Vec<ByHand> {
    let mut cases = Vec::new();
    let mut add = |delivery: Delivery, answer| cases.push((delivery.bytes(), u64::MAX, answer));
    for (segments, parts, answer) in compared() {
        add(Delivery::of(&segments, parts), answer);
    }
    for (segments, answer) in repeated() {
        add(Delivery::of(&segments, &PARTS), answer);
    }
    for (delivery, answer) in refused().into_iter().chain(to_the_end()) {
        add(delivery, answer);
    }
    cases.extend(by_region());
    cases
}

fn compared() -> Vec<(Vec<Listed<'static>>, &'static [Said], Answer)> {
    let differs = |numbers| Ok(Some(numbers));
    vec![
        (vec![(0, ONE, &PARTS)], &PARTS, Ok(None)),
        (vec![(255, TWO_LONG, &PARTS)], &PARTS, Ok(None)),
        (vec![(0, TWO, &[(65_535, 12)])], &[(65_535, 12)], Ok(None)),
        // a length, a tile, both, and the first entry
        (
            vec![(0, ONE, &[(0, 14), (5, 17)])],
            &PARTS,
            differs([1, 32, 5, 17, 5, 16]),
        ),
        (
            vec![(0, ONE, &[(0, 14), (4, 16)])],
            &PARTS,
            differs([1, 32, 4, 16, 5, 16]),
        ),
        (
            vec![(0, ONE, &[(5, 16), (0, 14)])],
            &PARTS,
            differs([0, 18, 5, 16, 0, 14]),
        ),
        (
            vec![(0, ONE, &[(0, 0), (5, 16)])],
            &PARTS,
            differs([0, 18, 0, 0, 0, 14]),
        ),
        // one that is missing, and one too many
        (
            vec![(0, ONE, &[(0, 14)])],
            &PARTS,
            differs([1, 29, NONE, 0, 5, 16]),
        ),
        (
            vec![(0, ONE, &[(0, 14), (5, 16), (7, 12)])],
            &PARTS,
            differs([2, 51, 7, 12, NONE, 0]),
        ),
        (
            vec![(0, ONE, &[(0, 14), (5, 16), (0, 0)])],
            &PARTS,
            differs([2, 51, 0, 0, NONE, 0]),
        ),
        // no entries
        (vec![], &PARTS, differs([0, 6, NONE, 0, 0, 14])),
        (
            vec![(0, ONE, &[])],
            &PARTS,
            differs([0, 12, NONE, 0, 0, 14]),
        ),
        (
            vec![(9, ONE, &[]), (3, NO_INDEX, &[])],
            &PARTS,
            differs([0, 18, NONE, 0, 0, 14]),
        ),
        // the order of Ztlm, and not that of the file
        (
            vec![(1, ONE, &[(5, 16)]), (0, ONE, &[(0, 14)])],
            &PARTS,
            Ok(None),
        ),
        (
            vec![(0, ONE, &[(5, 16)]), (1, ONE, &[(0, 14)])],
            &PARTS,
            differs([0, 24, 5, 16, 0, 14]),
        ),
        (
            vec![
                (255, ONE, &[(5, 16)]),
                (7, ONE, &[]),
                (254, ONE, &[(0, 14)]),
            ],
            &PARTS,
            Ok(None),
        ),
        // numbered on in that order; entries with an index don't count
        (
            vec![
                (7, NO_INDEX, &[(0, 13)]),
                (3, NO_INDEX_LONG, &[(0, 14), (0, 16)]),
            ],
            &[(0, 14), (1, 16), (2, 13)],
            Ok(None),
        ),
        (
            vec![
                (3, NO_INDEX, &[(0, 13)]),
                (7, NO_INDEX, &[(0, 14), (0, 16)]),
            ],
            &[(0, 14), (1, 16), (2, 13)],
            differs([0, 24, 0, 13, 0, 14]),
        ),
        (
            vec![
                (2, NO_INDEX, &[(0, 16)]),
                (0, NO_INDEX, &[(0, 14)]),
                (1, TWO, &[(9, 12)]),
            ],
            &[(0, 14), (9, 12), (1, 16)],
            Ok(None),
        ),
        (
            vec![
                (2, NO_INDEX, &[(0, 16)]),
                (0, NO_INDEX, &[(0, 14)]),
                (1, TWO, &[(9, 12)]),
            ],
            &[(0, 14), (9, 12), (2, 16)],
            differs([2, 58, 1, 16, 2, 16]),
        ),
    ]
}

/// Of Ztlm that are used again.
fn repeated() -> Vec<(Vec<Listed<'static>>, Answer)> {
    let empty = |ztlm| (ztlm, ONE, &[][..]);
    vec![
        (
            vec![(0, ONE, &[(0, 14)]), (0, ONE, &[(5, 16)])],
            Err((32, 15)),
        ),
        ([0, 1, 1, 0].map(empty).to_vec(), Err((32, 18))),
        ([9, 255, 9, 255].map(empty).to_vec(), Err((32, 18))),
        ([7, 3, 0, 3].map(empty).to_vec(), Err((32, 24))),
    ]
}

/// What the scan refuses by each number.
const REFUSED: [(u32, &[u8]); 3] = [
    (7, &[0xFF, 0x90, 0, 10]),
    (8, &[0xFF, 0x90, 0, 9, 0, 0, 0, 0, 0, 12, 0, 1]),
    (9, &[0xFF, 0x90, 0, 10, 0, 0, 0, 0, 0, 13, 0, 1]),
];

/// What comes first of several: the walk's, then 32, then the scan's, then a difference. The parts stand at 24
/// and 38, and end at 54.
fn refused() -> Vec<(Delivery, Answer)> {
    let with = |ztlm: u8, first: Said, change: &dyn Fn(&mut Delivery)| {
        let segments: [Listed; 2] = [(0, ONE, &[first]), (ztlm, ONE, &[PARTS[1]])];
        let mut delivery = Delivery::of(&segments, &PARTS);
        change(&mut delivery);
        delivery
    };
    let (right, wrong) = (PARTS[0], (0, 15));
    let mut cases = Vec::new();
    let cut_short = &[0xFF, 0x64, 0xFF, 0xFF];
    for (number, before) in [
        (3, &cut_short[..]),
        (4, &[0xFF, 0x55, 0, 3, 0]),
        (5, &[0xFF, 0x55, 0, 4, 0, 0x30]),
    ] {
        let put = |delivery: &mut Delivery| delivery.before_sot = before.to_vec();
        cases.push((with(0, wrong, &put), Err((number, 24))));
    }
    let without_parts = |delivery: &mut Delivery| delivery.parts.clear();
    cases.push((with(0, right, &without_parts), Err((3, 24))));
    let ends = |delivery: &mut Delivery| {
        delivery.parts.clear();
        delivery.behind.clear();
    };
    cases.push((with(0, right, &ends), Err((6, 24))));
    for (number, bytes) in REFUSED {
        let behind = |delivery: &mut Delivery| delivery.behind = bytes.to_vec();
        let alone = |delivery: &mut Delivery| {
            delivery.parts.clear();
            delivery.behind = bytes.to_vec();
        };
        cases.push((with(0, right, &alone), Err((32, 15))));
        cases.push((with(0, wrong, &behind), Err((32, 15))));
        cases.push((with(1, right, &alone), Err((number, 24))));
        cases.push((with(1, wrong, &behind), Err((number, 54))));
        cases.push((with(1, right, &behind), Err((number, 54))));
    }
    // what is no tile-part ends them, also inside the second one
    let other = |delivery: &mut Delivery| delivery.behind = vec![0; 12];
    cases.push((with(1, right, &other), Ok(None)));
    let longer = |delivery: &mut Delivery| delivery.parts[0].psot = 15;
    let differs = Ok(Some([0, 24, 0, 14, 0, 15]));
    cases.push((with(1, right, &longer), differs));
    cases
}

/// A last Psot of 0, and one that is shorter than its SOT.
fn to_the_end() -> Vec<(Delivery, Answer)> {
    let with = |length: u32, psot: u32, behind: &[u8]| {
        let mut delivery = Delivery::of(&[(0, ONE, &[(0, 14), (5, length)])], &PARTS);
        delivery.parts[1].psot = psot;
        delivery.behind = behind.to_vec();
        delivery
    };
    vec![
        (with(16, 0, &EOC), Ok(Some([1, 32, 5, 16, 5, 18]))),
        (with(18, 0, &EOC), Ok(None)),
        (with(16, 0, &[]), Ok(None)),
        (with(0, 0, &[]), Ok(Some([1, 32, 5, 0, 5, 16]))),
        (with(5, 5, &[0; 12]), Ok(None)),
        (with(16, 5, &[0; 12]), Ok(Some([1, 32, 5, 16, 5, 5]))),
        (with(5, 5, &[]), Err((7, 37))),
    ]
}

/// Where as many bytes as are said don't hold the header, and where they do.
fn by_region() -> Vec<ByHand> {
    let codestream = Delivery::of(&[(0, ONE, &PARTS)], &PARTS).bytes();
    let answers = [
        (0, Err((1, 0))),
        (1, Err((1, 0))),
        (2, Err((2, 2))),
        (3, Err((2, 2))),
        (5, Err((3, 2))),
        (6, Err((6, 6))),
        (17, Err((3, 6))),
        (18, Err((6, 18))),
        (19, Err((6, 19))),
        (20, Ok(None)),
        (21, Ok(None)),
        (50, Ok(None)),
        (51, Ok(None)),
        (1 << 32, Ok(None)),
    ];
    let answers = answers.into_iter();
    answers
        .map(|(region, answer)| (codestream.clone(), region, answer))
        .collect()
}

/// Segments without an index, with so many entries under each Ztlm, and a tile-part for each of the first.
fn numbered_on(segments: &[(u8, usize)], parts: usize) -> Delivery {
    let entries = [(0, 12); FULL];
    let segment = |&(ztlm, count): &(u8, usize)| (ztlm, NO_INDEX, &entries[..count]);
    let segments: Vec<_> = segments.iter().map(segment).collect();
    let parts: Vec<_> = (0..parts).map(|number| (number as u16, 12)).collect();
    Delivery::of(&segments, &parts)
}

/// About as many entries as there are numbers, in either order in the file.
pub fn at_the_last() -> Vec<ByHand> {
    const FULL_BYTES: u64 = 6 + 2 * FULL as u64;
    // behind a segment of 5 and two that are full
    const FIRST_SOT: u64 = 6 + 16 + 2 * FULL_BYTES;
    const LAST: [(u8, usize); 3] = [(2, 5), (1, FULL), (0, FULL)];
    const PAST: [(u8, usize); 3] = [(2, 6), (1, FULL), (0, FULL)];
    let behind = |segments: &[(u8, usize)], bytes: &[u8]| {
        let mut delivery = numbered_on(segments, 0);
        delivery.behind = bytes.to_vec();
        delivery
    };
    let with_4 = |segments: &[(u8, usize)]| {
        let mut delivery = numbered_on(segments, 1);
        delivery.before_sot = vec![0xFF, 0x55, 0, 3, 0];
        delivery
    };
    let indexed = |segments: &[(u8, usize)], stlm| {
        let mut delivery = numbered_on(segments, 1);
        let last = delivery.segments.last_mut().expect("a segment");
        last.tlm.stlm = stlm;
        delivery
    };
    let reversed = [LAST[2], LAST[1], LAST[0]];
    let differs = |numbers| Ok(Some(numbers));
    let cases = [
        (numbered_on(&LAST, 65_535), Ok(None)),
        (numbered_on(&reversed, 65_535), Ok(None)),
        (
            numbered_on(&LAST, 65_536),
            differs([65_535, FIRST_SOT + 12 * 65_535, NONE, 0, 65_535, 12]),
        ),
        (
            numbered_on(&LAST, 65_534),
            differs([65_534, FIRST_SOT + 12 * 65_534, 65_534, 12, NONE, 0]),
        ),
        // at the segment that holds the number, by Ztlm
        (numbered_on(&PAST, 65_535), Err((26, 6))),
        (
            numbered_on(&[(0, 6), (1, FULL), (2, FULL)], 1),
            Err((26, 24 + FULL_BYTES)),
        ),
        (
            numbered_on(&[(5, FULL), (4, FULL), (3, FULL)], 1),
            Err((26, 6)),
        ),
        (
            numbered_on(&[(3, FULL), (2, FULL), (1, FULL), (0, FULL)], 1),
            Err((26, 6 + FULL_BYTES)),
        ),
        (
            numbered_on(&[(0, FULL), (1, FULL), (2, 5), (3, 0), (4, 1), (5, 1)], 1),
            Err((26, FIRST_SOT + 6)),
        ),
        // those with an index, and segments without entries, don't count
        (
            indexed(&[(2, 5), (1, FULL), (0, FULL), (3, 4)], TWO),
            differs([1, FIRST_SOT + 34, 1, 12, NONE, 0]),
        ),
        (
            numbered_on(&[(2, 5), (1, FULL), (0, FULL), (3, 0)], 1),
            differs([1, FIRST_SOT + 18, 1, 12, NONE, 0]),
        ),
        // 3 to 6, 32, 26, then 7 to 9
        (with_4(&PAST), Err((4, FIRST_SOT + 2))),
        (
            numbered_on(&[(0, FULL), (1, FULL), (1, 6)], 1),
            Err((32, 6 + 2 * FULL_BYTES)),
        ),
        (
            numbered_on(&[(2, 6), (1, FULL), (0, FULL), (2, 0)], 1),
            Err((32, FIRST_SOT + 2)),
        ),
        (behind(&LAST, REFUSED[0].1), Err((7, FIRST_SOT))),
    ];
    let of_the_scan = REFUSED.map(|(_, bytes)| (behind(&PAST, bytes), Err((26, 6))));
    let cases = cases.into_iter().chain(of_the_scan);
    cases
        .map(|(delivery, answer)| (delivery.bytes(), u64::MAX, answer))
        .collect()
}

/// About as many entries as there are numbers, in segments in any order.
pub fn many(random: &mut Random) -> Vec<u8> {
    let mut counts = [FULL, FULL, random.below(12)];
    random.shuffle(&mut counts);
    let mut segments = [0, 1, 2].map(|ztlm| (ztlm as u8, counts[ztlm]));
    random.shuffle(&mut segments);
    numbered_on(&segments, 1).bytes()
}

/// Of every kind: none, too few, as many as are enough, growth's, all, more than there are, and too many for
/// a codestream that has them.
pub fn regions(codestream: &[u8]) -> [u64; 12] {
    const LONGEST_LOAN: u64 = u32::MAX as u64;
    let length = codestream.len() as u64;
    let extent = |region: u64| main_header_extent(&codestream[..region as usize]);
    let enough = extent(length).map_or(length, |first_sot| first_sot + 2);
    let (growth, _) = grow_header_region(length, |region| extent(region).is_some());
    [
        0,
        enough / 2,
        enough.saturating_sub(1),
        enough,
        enough + 1,
        growth,
        length.saturating_sub(1),
        length,
        length + 1,
        LONGEST_LOAN,
        LONGEST_LOAN + 1,
        u64::MAX,
    ]
}

/// Mostly one that is enough.
pub fn region(random: &mut Random, codestream: &[u8]) -> u64 {
    match random.below(8) {
        0 => random.pick(&regions(codestream)),
        1 => random.spread(),
        _ => u64::MAX,
    }
}
