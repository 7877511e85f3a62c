//! Codestreams whose length table says what stands in them, in some TLM segments and in any order of Ztlm, and
//! what may go wrong with one.

use std::collections::BTreeSet;

use super::codestream::{Codestream, Tlm, COM, EPH, SOT, TLM};
use super::opened;
use super::parts::SOT_BYTES;
use crate::random::Random;

/// A codestream that is not yet written, so that a thing in it can be changed.
#[derive(Clone, Default)]
pub struct Delivery {
    /// In file order.
    pub segments: Vec<Segment>,
    /// What stands between the last one and the first SOT.
    pub before_sot: Vec<u8>,
    pub parts: Vec<Part>,
    pub behind: Vec<u8>,
}

#[derive(Clone)]
pub struct Segment {
    /// What stands in the header before it.
    pub before: Vec<u8>,
    pub tlm: Tlm,
    /// Bytes behind the last whole entry.
    pub partial: Vec<u8>,
}

#[derive(Clone)]
pub struct Part {
    pub isot: u16,
    pub psot: u32,
    pub body: Vec<u8>,
}

/// A tile and a length.
pub type Said = (u16, u32);

/// Ztlm, Stlm and entries.
pub type Listed<'a> = (u8, u8, &'a [Said]);

pub const EOC: [u8; 2] = [0xFF, 0xD9];

/// ST 0, 1 and 2, with SP 0 and 1.
const FORMS: [u8; 6] = [0x00, 0x10, 0x20, 0x40, 0x50, 0x60];

fn st(stlm: u8) -> u8 {
    stlm >> 4 & 3
}

impl Part {
    /// With a Psot that fits.
    fn of(isot: u16, body: Vec<u8>) -> Self {
        let psot = (SOT_BYTES + body.len()) as u32;
        Part { isot, psot, body }
    }
}

impl Delivery {
    /// Of segments alone, tile-parts, and EOC.
    pub fn of(segments: &[Listed], parts: &[Said]) -> Self {
        let segment = |&(ztlm, stlm, entries): &Listed| Segment {
            before: Vec::new(),
            tlm: Tlm {
                ztlm,
                stlm,
                entries: entries.to_vec(),
            },
            partial: Vec::new(),
        };
        let part = |&(isot, length): &Said| Part::of(isot, vec![0x5A; length as usize - SOT_BYTES]);
        Delivery {
            segments: segments.iter().map(segment).collect(),
            before_sot: Vec::new(),
            parts: parts.iter().map(part).collect(),
            behind: EOC.to_vec(),
        }
    }

    pub fn bytes(&self) -> Vec<u8> {
        let mut built = opened();
        for segment in &self.segments {
            let body = [&segment.tlm.body()[..], &segment.partial].concat();
            built.raw(&segment.before).segment(TLM, &body);
        }
        built.raw(&self.before_sot);
        for Part { isot, psot, body } in &self.parts {
            built.sot(*isot, *psot, 0, 1).raw(body);
        }
        built.raw(&self.behind);
        built.bytes
    }

    /// Any of the entries: its segment, and its place there.
    fn entry(&mut self, random: &mut Random) -> Option<(&mut Tlm, usize)> {
        let listed = |segment: &&mut Segment| !segment.tlm.entries.is_empty();
        let mut some: Vec<_> = self.segments.iter_mut().filter(listed).collect();
        if some.is_empty() {
            return None;
        }
        let tlm = &mut some.swap_remove(random.below(some.len())).tlm;
        let place = random.below(tlm.entries.len());
        Some((tlm, place))
    }

    fn part(&mut self, random: &mut Random) -> Option<&mut Part> {
        let place = random.below(self.parts.len().max(1));
        self.parts.get_mut(place)
    }
}

/// One that passes: of some segments in the order of Ztlm, and then in any order in the file.
pub fn sound(random: &mut Random) -> Delivery {
    let mut delivery = Delivery::default();
    let mut number = 0;
    let count = random.pick(&[1, 1, 2, 2, 3, 4, 7]);
    for ztlm in ztlms(random, count) {
        let stlm = random.pick(&FORMS) | random.byte() & 0x8F;
        let mut entries = Vec::new();
        for _ in 0..random.below(5) {
            let part = part(random, stlm, &mut number);
            entries.push((part.isot, part.psot));
            delivery.parts.push(part);
        }
        let partial = random.below(2 + usize::from(st(stlm)));
        delivery.segments.push(Segment {
            before: between(random),
            tlm: Tlm {
                ztlm,
                stlm,
                entries,
            },
            partial: random.bytes(partial),
        });
    }
    if delivery.parts.is_empty() {
        return sound(random);
    }
    if random.once_in(2) {
        random.shuffle(&mut delivery.segments);
    }
    delivery.before_sot = between(random);
    delivery.behind = behind(random);
    delivery
}

/// So many of them, ascending.
fn ztlms(random: &mut Random, count: usize) -> Vec<u8> {
    let last = u8::MAX - count as u8;
    match random.below(3) {
        0 => (0..count as u8).collect(),
        1 => (last + 1..=u8::MAX).collect(),
        _ => {
            let mut some = BTreeSet::new();
            while some.len() < count {
                some.insert(random.byte());
            }
            some.into_iter().collect()
        }
    }
}

/// For an entry of this form: the next number is its tile where it has no index.
fn part(random: &mut Random, stlm: u8, number: &mut u16) -> Part {
    let any = random.number() as u16;
    let isot = match st(stlm) {
        0 => {
            *number += 1;
            *number - 1
        }
        1 => random.pick(&[0, 1, 255, any & 0xFF]),
        _ => random.pick(&[0, 1, 255, 256, 65_535, any]),
    };
    let size = random.below(9);
    let mut body = random.bytes(size);
    if size > 2 && random.once_in(4) {
        body[1..3].copy_from_slice(&SOT.to_be_bytes());
    }
    Part::of(isot, body)
}

/// Mostly nothing; a delimiter, or a segment, which may hold TLM, or have a length of 0 or 1.
fn between(random: &mut Random) -> Vec<u8> {
    let mut built = Codestream::default();
    match random.below(10) {
        0 => built.marker(EPH),
        1 => built.raw(&[random.byte(), 0x30]),
        2 => built.segment(COM, &[0xFF, 0x55, 0, 4, 0, 0]),
        3 => built.segment_saying(COM, 0, &[0, 2]),
        4 => built.segment_saying(COM, 1, &[0x30]),
        _ => &mut built,
    };
    built.bytes
}

/// Mostly EOC.
fn behind(random: &mut Random) -> Vec<u8> {
    match random.below(8) {
        0 => Vec::new(),
        1 => [EOC, [0, 0]].concat(),
        2 => vec![0; SOT_BYTES],
        _ => EOC.to_vec(),
    }
}

/// What may go wrong, if the delivery has such a thing.
pub type Slip = fn(&mut Random, &mut Delivery);

pub const SLIPS: [Slip; 18] = [
    length_changed,
    tile_changed,
    entry_dropped,
    entry_doubled,
    entries_swapped,
    |random, delivery| random.shuffle(&mut delivery.segments),
    numbers_swapped,
    number_repeated,
    number_changed,
    form_changed,
    segment_dropped,
    psot_changed,
    isot_changed,
    part_dropped,
    part_doubled,
    reaches_to_the_end,
    |random, delivery| {
        delivery.behind.clear();
        reaches_to_the_end(random, delivery);
    },
    |_, delivery| delivery.segments.clear(),
];

fn length_changed(random: &mut Random, delivery: &mut Delivery) {
    if let Some((tlm, place)) = delivery.entry(random) {
        let length = &mut tlm.entries[place].1;
        let any = 1 << random.below(16);
        *length = random.pick(&[*length + 1, length.wrapping_sub(1), *length ^ any, 0]);
    }
}

/// It shows only where it is written.
fn tile_changed(random: &mut Random, delivery: &mut Delivery) {
    if let Some((tlm, place)) = delivery.entry(random) {
        tlm.entries[place].0 ^= 1 << random.below(8);
    }
}

fn entry_dropped(random: &mut Random, delivery: &mut Delivery) {
    if let Some((tlm, place)) = delivery.entry(random) {
        tlm.entries.remove(place);
    }
}

fn entry_doubled(random: &mut Random, delivery: &mut Delivery) {
    if let Some((tlm, place)) = delivery.entry(random) {
        tlm.entries.insert(place, tlm.entries[place]);
    }
}

fn entries_swapped(random: &mut Random, delivery: &mut Delivery) {
    if let Some((tlm, place)) = delivery.entry(random) {
        tlm.entries.swap(0, place);
    }
}

/// Two of the segments.
fn two(random: &mut Random, delivery: &Delivery) -> Option<[usize; 2]> {
    let count = delivery.segments.len();
    let one = random.below(count.max(1));
    let other = (one + 1 + random.below(count.max(2) - 1)) % count.max(1);
    (count > 1).then_some([one, other])
}

fn numbers_swapped(random: &mut Random, delivery: &mut Delivery) {
    if let Some(two) = two(random, delivery) {
        let [one, other] = two.map(|place| delivery.segments[place].tlm.ztlm);
        delivery.segments[two[0]].tlm.ztlm = other;
        delivery.segments[two[1]].tlm.ztlm = one;
    }
}

fn number_repeated(random: &mut Random, delivery: &mut Delivery) {
    if let Some([one, other]) = two(random, delivery) {
        delivery.segments[one].tlm.ztlm = delivery.segments[other].tlm.ztlm;
    }
}

fn number_changed(random: &mut Random, delivery: &mut Delivery) {
    if let Some((tlm, _)) = delivery.entry(random) {
        tlm.ztlm = random.byte();
    }
}

/// Entries get an index or lose it, which moves the numbers of others too, or other bits of Stlm change.
fn form_changed(random: &mut Random, delivery: &mut Delivery) {
    if let Some((tlm, _)) = delivery.entry(random) {
        tlm.stlm = random.pick(&FORMS);
    }
}

fn segment_dropped(random: &mut Random, delivery: &mut Delivery) {
    if let Some([one, _]) = two(random, delivery) {
        delivery.segments.remove(one);
    }
}

fn psot_changed(random: &mut Random, delivery: &mut Delivery) {
    if let Some(part) = delivery.part(random) {
        let (any, short) = (random.number() as u32, random.below(SOT_BYTES) as u32);
        let (more, less) = (part.psot.wrapping_add(1), part.psot.wrapping_sub(1));
        part.psot = random.pick(&[more, less, any, short]);
    }
}

fn isot_changed(random: &mut Random, delivery: &mut Delivery) {
    if let Some(part) = delivery.part(random) {
        part.isot ^= 1 << random.below(16);
    }
}

fn part_dropped(random: &mut Random, delivery: &mut Delivery) {
    let place = random.below(delivery.parts.len().max(1));
    if place < delivery.parts.len() {
        delivery.parts.remove(place);
    }
}

fn part_doubled(random: &mut Random, delivery: &mut Delivery) {
    if let Some(part) = delivery.part(random).cloned() {
        delivery.parts.push(part);
    }
}

/// The last part's Psot is 0.
fn reaches_to_the_end(_: &mut Random, delivery: &mut Delivery) {
    if let Some(part) = delivery.parts.last_mut() {
        part.psot = 0;
    }
}

/// One that is sound, or in which a thing or two went wrong.
pub fn any(random: &mut Random) -> Delivery {
    let mut delivery = sound(random);
    for _ in 0..random.below(3) {
        random.pick(&SLIPS)(random, &mut delivery);
    }
    delivery
}

#[cfg(test)]
mod tests {
    use super::{any, sound, Delivery};
    use crate::model::check::check_length_table;
    use crate::random::Random;

    /// In 10,000 of each.
    #[test]
    fn sound_ones_pass_and_others_often_do_not() {
        let mut random = Random::new(5);
        let passes = |built: Delivery| check_length_table(&built.bytes(), u64::MAX) == Ok(None);
        let mut others = 0;
        for _ in 0..10_000 {
            assert!(passes(sound(&mut random)));
            others += u32::from(!passes(any(&mut random)));
        }
        assert!((3_000..9_000).contains(&others), "{others}");
    }
}
