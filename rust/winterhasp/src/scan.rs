//! A codestream's tile-parts, found from SOT to SOT.

use crate::boundary;
use crate::lent::lend_rows;
use crate::offsets::CodestreamOffset;
use crate::refusal::Refusal;
use crate::tile_part::{from_rows, TilePart, ROW};

/// The tile-parts from `first_sot` on, in the codestream's order.
///
/// ```
/// use winterhasp::{scan_sot_markers, CodestreamOffset, PartNumbers};
///
/// let codestream = std::fs::read("sample-a.j2k")?;
/// let parts = scan_sot_markers(&codestream, CodestreamOffset(57))?;
/// assert_eq!(parts[1].index, 5);
/// assert_eq!(parts[1].offset, CodestreamOffset(71));
/// assert_eq!(parts[1].length, 16);
/// assert_eq!(parts[1].numbers, Some(PartNumbers { tpsot: 0, tnsot: 1 }));
///
/// let cut_short = &codestream[..80];
/// let refusal = scan_sot_markers(cut_short, CodestreamOffset(57)).unwrap_err();
/// assert_eq!((refusal.number(), refusal.place()), (7, 71));
/// # Ok::<(), Box<dyn std::error::Error>>(())
/// ```
pub fn scan_sot_markers(
    codestream: &[u8],
    first_sot: CodestreamOffset,
) -> Result<Vec<TilePart>, Refusal> {
    Ok(from_rows(&scanned(codestream, first_sot)?))
}

/// The same as a table's rows.
pub fn scanned(codestream: &[u8], first_sot: CodestreamOffset) -> Result<Vec<u8>, Refusal> {
    let rows = likely_rows(codestream.len() as u64, first_sot);
    let (mut lent, [entries]) = lend_rows(rows, ROW, |lent, [entries]| {
        boundary::scan_sot_markers(codestream, first_sot.0, &mut lent.table, entries)
    })?;
    lent.table.truncate(entries as usize * ROW);
    lent.table.shrink_to_fit();
    Ok(lent.table)
}

/// As many rows as there are tile-parts, nearly always, or some more: one call then does, where one that
/// only counts would read every SOT once more. At most 86 KB, and no more than there can be SOTs.
fn likely_rows(length: u64, first_sot: CodestreamOffset) -> usize {
    let rest = length.saturating_sub(first_sot.0);
    (64 + rest / 64).min(4096).min(rest / 12 + 1) as usize
}

#[cfg(test)]
mod tests {
    use super::{likely_rows, scan_sot_markers, scanned};
    use crate::offsets::CodestreamOffset;
    use crate::tile_part::ROW;

    /// So many tile-parts of this size, with their number as index.
    fn parts(count: u32, size: u32) -> Vec<u8> {
        let part = |number: u32| {
            let [.., i0, i1] = number.to_be_bytes();
            let [p0, p1, p2, p3] = size.to_be_bytes();
            let mut part = vec![0xff, 0x90, 0, 10, i0, i1, p0, p1, p2, p3, 0, 1];
            part.resize(size as usize, 0);
            part
        };
        (0..count).flat_map(part).collect()
    }

    #[test]
    fn as_many_as_there_are_whatever_was_lent_first() {
        for (count, size) in [(0, 14), (1, 14), (64, 12), (70, 12), (5000, 12), (5000, 64)] {
            let codestream = parts(count, size);
            let found = scan_sot_markers(&codestream, CodestreamOffset(0)).expect("sound parts");
            let indices: Vec<_> = found.iter().map(|part| u32::from(part.index)).collect();
            assert_eq!(indices, (0..count).collect::<Vec<_>>());
            let rows = scanned(&codestream, CodestreamOffset(0)).expect("sound parts");
            assert_eq!(rows.len(), count as usize * ROW);
        }
    }

    #[test]
    fn few_rows_are_lent_first() {
        let rows = |length, first| likely_rows(length, CodestreamOffset(first));
        assert_eq!(rows(89, 57), 3);
        assert_eq!(rows(57, 89), 1);
        assert_eq!(rows(6_400, 0), 164);
        assert_eq!(rows(u64::MAX, 0), 4096);
    }
}
