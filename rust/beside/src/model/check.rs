//! "Length table check".

use std::collections::BTreeSet;

use super::header::{parse_main_header, tlm, tlms, Reading, LAST_NUMBER};
use super::parts::scan_sot_markers;
use super::Refusal;

/// What is said of a tile-part: its tile and its length.
pub type Said = (u16, u64);

/// What the header lists, in the order of Ztlm, and what stands in the codestream from the first SOT on.
pub struct Lists {
    pub first_sot: u64,
    pub listed: Vec<Said>,
    pub standing: Vec<Said>,
}

/// The first entry that is not the same in both; nothing where a list has no such entry.
#[derive(Debug, Clone, Copy, PartialEq, Eq)]
pub struct Difference {
    pub number: u64,
    pub offset: u64,
    pub listed: Option<Said>,
    pub standing: Option<Said>,
}

/// What is answered where the table differs, as that is no refusal.
pub const DIFFERS: u32 = 258;
/// In place of a tile where there is nothing.
pub const NO_TILE: u64 = 65_536;

impl Difference {
    /// As C is told it.
    pub fn numbers(&self) -> [u64; 6] {
        let told =
            |said: Option<Said>| said.map_or([NO_TILE, 0], |(tile, length)| [tile.into(), length]);
        let ([tile, length], [standing_tile, standing_length]) =
            (told(self.listed), told(self.standing));
        [
            self.number,
            self.offset,
            tile,
            length,
            standing_tile,
            standing_length,
        ]
    }
}

/// Nothing where the table passes.
pub type Checked = Result<Option<Difference>, Refusal>;

pub fn check_length_table(codestream: &[u8], region: u64) -> Checked {
    Ok(lists(codestream, region)?.difference())
}

/// 19, 1 to 6, 32, 26, then 7 to 9.
pub fn lists(codestream: &[u8], region: u64) -> Result<Lists, Refusal> {
    let header = header(codestream, region);
    // which numbers no entry past its own segment, and passes over CAP
    let first_sot = parse_main_header(header, Reading::ORIGINAL)?.first_sot;
    let listed = listed(header)?;
    let standing = scan_sot_markers(codestream, first_sot)?;
    let said = |((tile, _, length), _)| (tile, length);
    Ok(Lists {
        first_sot,
        listed,
        standing: standing.into_iter().map(said).collect(),
    })
}

/// What the header is read of.
pub fn header(codestream: &[u8], region: u64) -> &[u8] {
    let end = usize::try_from(region).unwrap_or(usize::MAX);
    &codestream[..end.min(codestream.len())]
}

/// Of a header that the walk accepts.
fn listed(header: &[u8]) -> Result<Vec<Said>, Refusal> {
    let ztlm = |(_, body): &(u64, &[u8])| body[2];
    let mut segments: Vec<_> = tlms(header).collect();
    let mut used = BTreeSet::new();
    if let Some((at, _)) = segments.iter().find(|one| !used.insert(ztlm(one))) {
        return Err(Refusal::new(32, *at));
    }
    segments.sort_by_key(ztlm);
    let mut numbers = 0..=LAST_NUMBER;
    let mut listed = Vec::new();
    for (at, body) in segments {
        for (index, length) in tlm(body).map_err(|number| Refusal::new(number, at))? {
            let tile = index.or_else(|| numbers.next());
            listed.push((tile.ok_or(Refusal::new(26, at))?, length));
        }
    }
    Ok(listed)
}

impl Lists {
    /// Nothing where they are the same.
    pub fn difference(&self) -> Option<Difference> {
        let Lists {
            first_sot,
            listed,
            standing,
        } = self;
        let pairs = listed.iter().zip(standing);
        let alike = pairs.take_while(|(one, other)| one == other).count();
        let before = listed[..alike].iter().map(|(_, length)| length);
        let differs = alike < listed.len().max(standing.len());
        differs.then(|| Difference {
            number: alike as u64,
            offset: first_sot + before.sum::<u64>(),
            listed: listed.get(alike).copied(),
            standing: standing.get(alike).copied(),
        })
    }
}

#[cfg(test)]
mod tests {
    use super::{check_length_table, lists, Difference};
    use crate::sample::lengths::{at_the_last, by_hand};
    use crate::sample::sample_a;

    #[test]
    fn answers_are_as_by_hand() {
        for (codestream, region, by_hand) in [by_hand(), at_the_last()].concat() {
            let told = check_length_table(&codestream, region);
            let told = told.map(|differs| differs.map(|differs| differs.numbers()));
            let told = told.map_err(|refusal| (refusal.number, refusal.place));
            let front = &codestream[..codestream.len().min(100)];
            assert_eq!(told, by_hand, "{front:02X?}, {region}");
        }
    }

    #[test]
    fn sample_a_passes_and_its_neighbours_do_not() {
        let sample = sample_a();
        assert_eq!(check_length_table(&sample, 89), Ok(None));
        let found = lists(&sample, 59).expect("two lists");
        assert_eq!(found.first_sot, 57);
        assert_eq!(found.listed, [(0, 14), (5, 16)]);
        assert_eq!(found.standing, found.listed);
        let mut other = sample.clone();
        // the second length
        other[56] = 17;
        let difference = Difference {
            number: 1,
            offset: 71,
            listed: Some((5, 17)),
            standing: Some((5, 16)),
        };
        assert_eq!(check_length_table(&other, 89), Ok(Some(difference)));
    }
}
