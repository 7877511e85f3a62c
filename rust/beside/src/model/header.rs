//! "Header walk", "Header extent", "TLM", "Editions", "Decode header", "Main header", "Markers in the
//! header".

use std::iter;

use super::{number, read, Entry, Refusal};
use crate::sample::codestream::{CAP, SIZ, SOC, SOT, TLM};

#[derive(Debug, Clone, PartialEq)]
pub struct Header {
    pub first_sot: u64,
    pub decode_header: Vec<u8>,
    pub entries: Vec<Entry>,
    pub fillers: u64,
}

impl Header {
    /// 18, then 17.
    pub fn fit(self, table: usize, out: usize) -> Result<Self, Refusal> {
        Refusal::unless_it_lists(table, self.entries.len())?;
        Refusal::unless_it_holds(out, self.decode_header.len() as u128)?;
        Ok(self)
    }
}

/// How entries without an index are numbered: on over the segments, in file order, or from 0 in each.
#[derive(Debug, Clone, Copy, PartialEq, Eq)]
pub enum Numbering {
    CarriedOn,
    Restarting,
}

/// Whether CAP is passed over, or has to stand there as it is announced.
#[derive(Debug, Clone, Copy, PartialEq, Eq)]
pub enum Edition {
    Older,
    Newer,
}

/// How a header is read.
#[derive(Debug, Clone, Copy, PartialEq, Eq)]
pub struct Reading {
    pub numbering: Numbering,
    pub edition: Edition,
}

impl Reading {
    /// Where nothing is said.
    pub const DEFAULT: Reading = Reading {
        numbering: Numbering::CarriedOn,
        edition: Edition::Older,
    };
    /// As the original does.
    pub const ORIGINAL: Reading = Reading {
        numbering: Numbering::Restarting,
        edition: Edition::Older,
    };
    pub const NEWER: Reading = Reading {
        numbering: Numbering::CarriedOn,
        edition: Edition::Newer,
    };

    /// As C gives it.
    pub fn of(numbering: u32, edition: u32) -> Self {
        Reading {
            numbering: match numbering {
                1 => Numbering::Restarting,
                _ => Numbering::CarriedOn,
            },
            edition: match edition {
                1 => Edition::Newer,
                _ => Edition::Older,
            },
        }
    }
}

const LONGEST_LOAN: u64 = u32::MAX as u64;
pub const LAST_NUMBER: u16 = 65_534;

pub fn parse_main_header(codestream: &[u8], reading: Reading) -> Result<Header, Refusal> {
    let length = codestream.len() as u64;
    if length > LONGEST_LOAN {
        return Err(Refusal::new(19, 0));
    }
    opens_with_siz(codestream)?;
    let mut at = 2;
    let mut decode_header = codestream[..2].to_vec();
    let mut listed = Vec::new();
    let mut numbers = 0..=LAST_NUMBER;
    loop {
        let marker = read(codestream, at, 2).ok_or(Refusal::new(6, length))?;
        if marker == SOT.into() {
            break;
        }
        let end = step(codestream, marker, at).ok_or(Refusal::new(3, at))?;
        let whole = &codestream[at as usize..end as usize];
        if marker == TLM.into() {
            if reading.numbering == Numbering::Restarting {
                numbers = 0..=LAST_NUMBER;
            }
            for (index, length) in tlm(&whole[2..]).map_err(|number| Refusal::new(number, at))? {
                let index = index.or_else(|| numbers.next());
                listed.push((index.ok_or(Refusal::new(26, at))?, length));
            }
        } else {
            decode_header.extend(whole);
        }
        at = end;
    }
    if reading.edition == Edition::Newer {
        capped(codestream)?;
    }
    Ok(Header {
        first_sot: at,
        decode_header,
        entries: placed(at, listed),
        fillers: fillers(codestream),
    })
}

/// 1, then 2.
pub fn opens_with_siz(codestream: &[u8]) -> Result<(), Refusal> {
    if read(codestream, 0, 2) != Some(SOC.into()) {
        return Err(Refusal::new(1, 0));
    }
    if read(codestream, 2, 2) != Some(SIZ.into()) {
        return Err(Refusal::new(2, 2));
    }
    Ok(())
}

/// 33, then 34, of a header that the walk accepts.
fn capped(codestream: &[u8]) -> Result<(), Refusal> {
    const LOWEST_LENGTH: u64 = 6;
    let field = |at, size| read(codestream, at, size).expect("inside an accepted codestream");
    let announced = field(6, 2) >> 14 & 1 == 1;
    let caps = markers(codestream).filter(|&(_, marker)| marker == CAP);
    let caps: Vec<u64> = caps.map(|(at, _)| at).collect();
    match (announced, &caps[..]) {
        (false, []) => Ok(()),
        (true, []) => Err(Refusal::new(33, 2)),
        (false, [extra, ..]) | (true, [_, extra, ..]) => Err(Refusal::new(33, *extra)),
        (true, &[cap]) => {
            let length = field(cap + 2, 2);
            let fits = length >= LOWEST_LENGTH && {
                let bits = field(cap + 4, 4);
                let words = (0..32).filter(|bit| bits >> bit & 1 == 1).count() as u64;
                length == LOWEST_LENGTH + 2 * words
            };
            fits.then_some(()).ok_or(Refusal::new(34, cap))
        }
    }
}

/// Entries of the table and bytes of output; some of each where the header is refused.
pub fn needed(codestream: &[u8], reading: Reading) -> (usize, usize) {
    match parse_main_header(codestream, reading) {
        Ok(header) => (header.entries.len(), header.decode_header.len()),
        Err(_) => (2, 50),
    }
}

/// What is answered in place of a marker that isn't there, as it is no refusal.
pub const NO_SUCH_MARKER: u32 = 257;

/// Where the first marker of this code stands; nothing where there is none.
pub fn find_marker(codestream: &[u8], marker: u16) -> Result<Option<u64>, Refusal> {
    // which tells no index, and passes over CAP
    parse_main_header(codestream, Reading::ORIGINAL)?;
    let found = markers(codestream).find(|&(_, here)| here == marker);
    Ok(found.map(|(at, _)| at))
}

/// The places at which the steps from 2 on stand, and their markers: up to the first SOT, or to
/// where one is cut short.
pub fn markers(codestream: &[u8]) -> impl Iterator<Item = (u64, u16)> + '_ {
    let stands = |at| {
        let marker = read(codestream, at, 2)? as u16;
        (marker != SOT).then_some((at, marker))
    };
    iter::successors(stands(2), move |&(at, marker)| {
        stands(step(codestream, marker.into(), at)?)
    })
}

/// The TLM segments at which the steps stand: where each does, and what it holds from Ltlm on.
pub fn tlms(codestream: &[u8]) -> impl Iterator<Item = (u64, &[u8])> + '_ {
    let of_tlm = markers(codestream).filter(|&(_, marker)| marker == TLM);
    of_tlm.filter_map(move |(at, marker)| {
        let end = step(codestream, marker.into(), at)?;
        Some((at, &codestream[at as usize + 2..end as usize]))
    })
}

/// Whether the numberings have to give the same: no more than one of the segments at which the steps
/// stand has entries without an index.
pub fn have_to_agree(codestream: &[u8]) -> bool {
    let unindexed = |(_, body): &(u64, &[u8])| matches!(tlm(body).as_deref(), Ok([(None, _), ..]));
    tlms(codestream).filter(unindexed).count() <= 1
}

/// Of the places at which the steps stand: delimiters whose first byte isn't FF.
pub fn fillers(codestream: &[u8]) -> u64 {
    let is_filler = |marker: u16| is_delimiter(marker) && marker >> 8 != 0xFF;
    let found = markers(codestream).filter(|&(_, marker)| is_filler(marker));
    found.count() as u64
}

/// The first SOT, if the walk comes to it.
pub fn main_header_extent(prefix: &[u8]) -> Option<u64> {
    if prefix.len() < 4 || read(prefix, 0, 2)? != SOC.into() {
        return None;
    }
    let mut at = 2;
    loop {
        let marker = read(prefix, at, 2)?;
        if marker == SOT.into() {
            return Some(at);
        }
        at = step(prefix, marker, at)?;
    }
}

/// Where a delimiter or a segment ends, if that is inside.
fn step(codestream: &[u8], marker: u64, at: u64) -> Option<u64> {
    let end = match is_delimiter(marker as u16) {
        true => at + 2,
        false => at + 2 + read(codestream, at + 2, 2)?,
    };
    (end <= codestream.len() as u64).then_some(end)
}

pub fn is_delimiter(marker: u16) -> bool {
    matches!(marker & 0xFF, 0x92 | 0x30..=0x3F)
}

/// Index, if there is one, and length of each entry; `body` is from Ltlm on. Or the refusal's number.
pub fn tlm(body: &[u8]) -> Result<Vec<(Option<u16>, u64)>, u32> {
    let [_, _, _, stlm, entries @ ..] = body else {
        return Err(4);
    };
    let index_size = match stlm >> 4 & 3 {
        3 => return Err(5),
        st => usize::from(st),
    };
    let length_size = if stlm & 0x40 == 0 { 2 } else { 4 };
    let entry = |bytes: &[u8]| {
        let (index, length) = bytes.split_at(index_size);
        let index = (!index.is_empty()).then(|| number(index) as u16);
        (index, number(length))
    };
    let whole = entries.chunks_exact(index_size + length_size);
    Ok(whole.map(entry).collect())
}

fn placed(first_sot: u64, listed: Vec<(u16, u64)>) -> Vec<Entry> {
    let mut offset = first_sot;
    let place = |(index, length)| {
        let entry = (index, offset, length);
        offset += length;
        entry
    };
    listed.into_iter().map(place).collect()
}

#[cfg(test)]
mod tests {
    use super::{find_marker, have_to_agree, markers, parse_main_header, Header, Reading};
    use crate::model::Refusal;
    use crate::sample::codestream::{Codestream, COM, EPH, PPM, SIZ, SOC, SOT, TLM};
    use crate::sample::{caps, fillers, numbers, opened, sample_a};

    /// In a header that is accepted.
    fn place(codestream: &[u8], marker: u16) -> Option<u64> {
        find_marker(codestream, marker).expect("accepted")
    }

    /// Each by hand.
    #[test]
    fn where_the_walk_stands() {
        let sample = sample_a();
        assert!(markers(&sample).eq([(2, SIZ), (45, TLM)]));
        assert_eq!(place(&sample, SIZ), Some(2));
        assert_eq!(place(&sample, TLM), Some(45));
        for marker in [SOC, SOT, PPM, TLM & 0xFF, 0xFF00] {
            assert_eq!(place(&sample, marker), None);
        }
        // a comment that holds PPM and SOT, a delimiter, PPM of length 0, and what its length field is
        let mut built: Codestream = opened();
        built.segment(COM, &[0xFF, 0x60, 0xFF, 0x90]).marker(EPH);
        built.segment_saying(PPM, 0, &[0, 2]).marker(SOT);
        assert!(markers(&built.bytes).eq([(2, SIZ), (6, COM), (14, EPH), (16, PPM), (18, 0)]));
        assert_eq!(place(&built.bytes, PPM), Some(16));
        assert_eq!(place(&built.bytes, 0), Some(18));
        assert_eq!(place(&built.bytes, 0x0060), None);
    }

    #[test]
    fn fillers_are_counted_as_by_hand() {
        let count = |codestream: &[u8]| {
            let header = parse_main_header(codestream, Reading::DEFAULT).expect("accepted");
            header.fillers
        };
        assert_eq!(count(&sample_a()), 0);
        for (codestream, by_hand) in fillers::counted() {
            assert_eq!(count(&codestream), by_hand, "{codestream:02X?}");
        }
    }

    /// Wherever the marker stands.
    #[test]
    fn what_the_walk_refuses_is_refused() {
        let refused = |codestream: &[u8]| find_marker(codestream, PPM).unwrap_err();
        let mut built = opened();
        built.segment(PPM, &[]);
        assert_eq!(refused(&built.bytes), Refusal::new(6, 10));
        built.segment(TLM, &[0]);
        assert_eq!(refused(&built.bytes), Refusal::new(4, 10));
        assert_eq!(refused(&built.bytes[..13]), Refusal::new(3, 10));
    }

    /// Carried on, and restarting.
    fn both(codestream: &[u8]) -> [Result<Header, Refusal>; 2] {
        [Reading::DEFAULT, Reading::ORIGINAL].map(|reading| parse_main_header(codestream, reading))
    }

    #[test]
    fn indices_are_as_by_hand() {
        for (codestream, by_hand) in numbers::by_hand() {
            let indices = both(&codestream).map(|read| {
                let entries = read.expect("accepted").entries;
                entries.iter().map(|entry| entry.0).collect::<Vec<_>>()
            });
            assert_eq!(indices, by_hand, "{codestream:02X?}");
            let agree = by_hand[0] == by_hand[1];
            assert_eq!(have_to_agree(&codestream), agree, "{codestream:02X?}");
        }
    }

    #[test]
    fn refused_where_a_number_passes() {
        for (codestream, carried_on, restarting) in numbers::at_the_last() {
            let refused = both(&codestream).map(|read| read.err());
            let by_hand = [carried_on, restarting];
            let by_hand =
                by_hand.map(|by_hand| by_hand.map(|(number, place)| Refusal::new(number, place)));
            assert_eq!(refused, by_hand);
        }
    }
    #[test]
    fn the_newer_edition_refuses_as_by_hand() {
        for (codestream, by_hand) in caps::by_hand() {
            let refused = parse_main_header(&codestream, Reading::NEWER).err();
            let by_hand = by_hand.map(|(number, place)| Refusal::new(number, place));
            assert_eq!(refused, by_hand, "{codestream:02X?}");
            parse_main_header(&codestream, Reading::DEFAULT).expect("accepted by the older");
        }
    }
}
