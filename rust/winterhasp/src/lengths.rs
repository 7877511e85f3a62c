//! Whether a header's length table says what stands in the codestream.

use crate::boundary;
use crate::growth::grow_header_region;
use crate::lent::ACCEPTED;
use crate::offsets::CodestreamOffset;
use crate::refusal::Refusal;

/// How a header's length table compares with the tile-parts that stand there.
#[derive(Debug, Clone, Copy, PartialEq, Eq)]
pub enum LengthTable {
    /// Every entry says what stands there, and none is missing.
    Passes,
    /// Here first.
    Differs(Difference),
}

/// The first entry that is not the same in the table and in the codestream.
#[derive(Debug, Clone, Copy, PartialEq, Eq)]
pub struct Difference {
    /// Its number, from 0, over all segments in the order of their own numbers (Ztlm).
    pub number: u64,
    /// Where its tile-part stands, or would stand: where the one before it ends.
    pub offset: CodestreamOffset,
    /// What the table says; nothing where it ends before. At number 0 there is no table then, or one
    /// without an entry.
    pub listed: Option<PartLength>,
    /// What stands there; nothing where the tile-parts end before.
    pub standing: Option<PartLength>,
}

/// What an entry, or an SOT, says of a tile-part.
#[derive(Debug, Clone, Copy, PartialEq, Eq)]
pub struct PartLength {
    /// The index of its tile.
    pub tile: u16,
    /// In bytes, from the SOT marker on.
    pub length: u64,
}

/// Holds the length table (TLM) in the main header of `codestream` to the tile-parts from the first SOT on.
/// The table's segments are taken in the order of their own numbers, and entries without an index are
/// numbered on over them. A header without entries differs at 0. The last tile-part may say no length (Psot
/// 0): it then reaches to the end of `codestream`, with EOC.
///
/// The header is read of the region that [`grow_header_region`] gives, so that `codestream` may have more
/// than 2^32-1 bytes.
///
/// ```
/// use winterhasp::{check_length_table, CodestreamOffset, Difference, LengthTable, PartLength};
///
/// let mut codestream = std::fs::read("sample-a.j2k")?;
/// assert_eq!(check_length_table(&codestream)?, LengthTable::Passes);
///
/// // the second of two lengths, one too many
/// codestream[56] = 17;
/// let differs = LengthTable::Differs(Difference {
///     number: 1,
///     offset: CodestreamOffset(71),
///     listed: Some(PartLength { tile: 5, length: 17 }),
///     standing: Some(PartLength { tile: 5, length: 16 }),
/// });
/// assert_eq!(check_length_table(&codestream)?, differs);
///
/// let refusal = check_length_table(&codestream[..80]).unwrap_err();
/// assert_eq!((refusal.number(), refusal.place()), (7, 71));
/// # Ok::<(), Box<dyn std::error::Error>>(())
/// ```
pub fn check_length_table(codestream: &[u8]) -> Result<LengthTable, Refusal> {
    check_length_table_within(codestream, grow_header_region(codestream).length)
}

/// The same with the header read of the first `region` bytes, or of all where there are fewer, for who knows
/// how many of them hold it; the tile-parts are those of all bytes.
///
/// ```
/// use winterhasp::{check_length_table_within, LengthTable};
///
/// // the header ends at 57, with the first SOT's marker behind it
/// let codestream = std::fs::read("sample-a.j2k")?;
/// assert_eq!(check_length_table_within(&codestream, 59)?, LengthTable::Passes);
///
/// let refusal = check_length_table_within(&codestream, 58).unwrap_err();
/// assert_eq!((refusal.number(), refusal.place()), (6, 58));
/// # Ok::<(), Box<dyn std::error::Error>>(())
/// ```
pub fn check_length_table_within(codestream: &[u8], region: u64) -> Result<LengthTable, Refusal> {
    let mut numbers = [0; 6];
    match boundary::check_length_table(codestream, region, &mut numbers) {
        ACCEPTED => Ok(LengthTable::Passes),
        boundary::LENGTH_TABLE_DIFFERS => Ok(LengthTable::Differs(Difference::of(numbers))),
        number => Err(Refusal::new(number, numbers[0])),
    }
}

impl Difference {
    fn of(
        [number, offset, listed_tile, listed_length, standing_tile, standing_length]: [u64; 6],
    ) -> Self {
        Difference {
            number,
            offset: CodestreamOffset(offset),
            listed: PartLength::of(listed_tile, listed_length),
            standing: PartLength::of(standing_tile, standing_length),
        }
    }
}

impl PartLength {
    /// The archive's numbers of a tile are below 2^16, but for the one that stands for nothing.
    fn of(tile: u64, length: u64) -> Option<Self> {
        (tile != boundary::NO_TILE).then_some(PartLength {
            tile: tile as u16,
            length,
        })
    }
}

#[cfg(test)]
mod tests {
    use super::{check_length_table, check_length_table_within, LengthTable};
    use crate::header::parse_main_header;

    const SAMPLE: &[u8] = include_bytes!("../sample-a.j2k");

    type Part = Option<(u16, u64)>;

    /// The entry's number, its place, what is listed and what stands there; nothing where it passes.
    fn checked(codestream: &[u8]) -> Option<(u64, u64, Part, Part)> {
        match check_length_table(codestream).expect("not refused") {
            LengthTable::Passes => None,
            LengthTable::Differs(found) => {
                let [listed, standing] = [found.listed, found.standing]
                    .map(|part| part.map(|part| (part.tile, part.length)));
                Some((found.number, found.offset.0, listed, standing))
            }
        }
    }

    /// The sample with these segments in the place of its length table.
    fn with(segments: &[&[u8]]) -> Vec<u8> {
        [&SAMPLE[..45], &segments.concat(), &SAMPLE[57..]].concat()
    }

    /// A segment of this number with one entry, of a tile and a length.
    fn segment(ztlm: u8, tile: u8, length: u8) -> [u8; 9] {
        [0xFF, 0x55, 0, 7, ztlm, 0x10, tile, 0, length]
    }

    #[test]
    fn what_is_not_there_is_nothing() {
        let [first, second] = [segment(0, 0, 14), segment(1, 5, 16)];
        let third = segment(2, 65, 12);
        assert_eq!(checked(&with(&[&first, &second])), None);
        let missing = Some((1, 68, None, Some((5, 16))));
        assert_eq!(checked(&with(&[&first])), missing);
        let surplus = Some((2, 102, Some((65, 12)), None));
        assert_eq!(checked(&with(&[&first, &second, &third])), surplus);
        // no segment, and one of no entry
        assert_eq!(checked(&with(&[])), Some((0, 45, None, Some((0, 14)))));
        let empty = with(&[&[0xFF, 0x55, 0, 4, 0, 0x10]]);
        assert_eq!(checked(&empty), Some((0, 51, None, Some((0, 14)))));
    }

    #[test]
    fn segments_are_taken_in_the_order_of_their_numbers() {
        let swapped = with(&[&segment(7, 5, 16), &segment(3, 0, 14)]);
        assert_eq!(checked(&swapped), None);
        let not_in_order = with(&[&segment(3, 5, 16), &segment(7, 0, 14)]);
        let first = Some((0, 63, Some((5, 16)), Some((0, 14))));
        assert_eq!(checked(&not_in_order), first);
        let repeated = with(&[&segment(3, 0, 14), &segment(3, 5, 16)]);
        let refusal = check_length_table(&repeated).unwrap_err();
        assert_eq!(
            (refusal.number(), refusal.name(), refusal.place()),
            (32, "TLM_NUMBER_REPEATED", 54)
        );
    }

    #[test]
    fn a_last_part_without_a_length_reaches_to_the_end() {
        let mut open = SAMPLE.to_vec();
        open[71 + 9] = 0;
        let with_eoc = Some((1, 71, Some((5, 16)), Some((5, 18))));
        assert_eq!(checked(&open), with_eoc);
        assert_eq!(checked(&open[..87]), None);
        open[56] = 18;
        assert_eq!(checked(&open), None);
    }

    #[test]
    fn a_header_is_refused_as_its_reading_is() {
        for end in 0..SAMPLE.len() {
            let cut = &SAMPLE[..end];
            if let Err(refusal) = parse_main_header(cut) {
                assert_eq!(check_length_table(cut), Err(refusal));
                assert_eq!(check_length_table_within(SAMPLE, end as u64), Err(refusal));
            } else {
                assert_eq!(
                    check_length_table_within(SAMPLE, end as u64),
                    Ok(LengthTable::Passes)
                );
            }
        }
        let all = check_length_table_within(SAMPLE, u64::MAX);
        assert_eq!(all, Ok(LengthTable::Passes));
    }
}
