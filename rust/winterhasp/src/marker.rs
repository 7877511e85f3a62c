//! Markers in the main header.

use crate::boundary;
use crate::lent::found;
use crate::offsets::CodestreamOffset;
use crate::refusal::Refusal;

/// Where the first marker of this code stands in the main header; nothing if it has none. Of all 16
/// bits of the code, and only where the walk over the header stops: from SIZ on and before the first
/// SOT, so that bytes inside a segment, SOC and SOT itself are never found. Refuses what
/// [`parse_main_header`](crate::parse_main_header) does, wherever the marker stands.
///
/// ```
/// use winterhasp::{find_marker, CodestreamOffset};
///
/// const TLM: u16 = 0xFF55;
/// // packet headers of all tile-parts: no tile that is cut out decodes with it
/// const PPM: u16 = 0xFF60;
/// let codestream = std::fs::read("sample-a.j2k")?;
/// assert_eq!(find_marker(&codestream, TLM)?, Some(CodestreamOffset(45)));
/// assert_eq!(find_marker(&codestream, PPM)?, None);
///
/// let refusal = find_marker(&codestream[..50], PPM).unwrap_err();
/// assert_eq!((refusal.number(), refusal.place()), (3, 45));
/// # Ok::<(), Box<dyn std::error::Error>>(())
/// ```
pub fn find_marker(codestream: &[u8], marker: u16) -> Result<Option<CodestreamOffset>, Refusal> {
    let found = found(boundary::NO_SUCH_MARKER, |[value]| {
        boundary::find_marker(codestream, marker, value)
    })?;
    Ok(found.map(|[place]| CodestreamOffset(place)))
}

#[cfg(test)]
mod tests {
    use super::find_marker;
    use crate::header::parse_main_header;
    use crate::offsets::CodestreamOffset;

    const SAMPLE: &[u8] = include_bytes!("../sample-a.j2k");

    /// In a header that is not refused.
    fn place(codestream: &[u8], marker: u16) -> Option<u64> {
        let found = find_marker(codestream, marker).expect("not refused");
        found.map(|CodestreamOffset(place)| place)
    }

    #[test]
    fn a_marker_is_found_where_the_walk_stops() {
        for (marker, found) in [(0xFF51, Some(2)), (0xFF55, Some(45))] {
            assert_eq!(place(SAMPLE, marker), found, "{marker:X}");
        }
        // SOC, the first SOT, SOD and EOC; then one bit, or a byte, off
        for marker in [0xFF4F, 0xFF90, 0xFF93, 0xFFD9, 0xFF54, 0xFE55, 0x55, 0x55FF] {
            assert_eq!(place(SAMPLE, marker), None, "{marker:X}");
        }
    }

    #[test]
    fn the_first_of_several_and_none_inside_a_segment() {
        // COM that holds PPM's code, a delimiter, and PPM twice
        let [com, ppm] = [
            [0xFF, 0x64, 0, 4, 0xFF, 0x60],
            [0xFF, 0x60, 0, 4, 0xFF, 0x64],
        ];
        let more = [&com[..], &[0xFF, 0x30], &ppm, &ppm].concat();
        let codestream = [&SAMPLE[..45], &more, &SAMPLE[57..]].concat();
        for (marker, found) in [
            (0xFF64, Some(45)),
            (0xFF30, Some(51)),
            (0xFF60, Some(53)),
            (0xFF55, None),
        ] {
            assert_eq!(place(&codestream, marker), found, "{marker:X}");
        }
    }

    #[test]
    fn refuses_what_the_main_header_refuses() {
        let mut unknown_form = SAMPLE.to_vec();
        unknown_form[50] = 0x30;
        let prefixes = (0..SAMPLE.len()).map(|end| &SAMPLE[..end]);
        for codestream in prefixes.chain([SAMPLE, &unknown_form]) {
            let refused = parse_main_header(codestream).err();
            for marker in [0xFF51, 0xFF55, 0xFF60] {
                assert_eq!(find_marker(codestream, marker).err(), refused);
            }
        }
    }
}
