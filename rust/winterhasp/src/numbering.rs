//! The numberings of TLM entries without an index.

use crate::boundary;

/// How a header's length table numbers the tile-parts for which it writes no tile index. An index that
/// is written stays what is read.
///
/// Where none is said it is the default, [`CarriedOn`](Numbering::CarriedOn).
///
/// ```
/// use winterhasp::{parse_main_header_by_reading, Numbering, Reading, Refusal};
///
/// // SOC, SIZ without a body, two TLM segments of two lengths each without an index, SOT
/// let header = [
///     0xFF, 0x4F, 0xFF, 0x51, 0x00, 0x02,
///     0xFF, 0x55, 0x00, 0x08, 0x00, 0x00, 0x00, 0x14, 0x00, 0x1E,
///     0xFF, 0x55, 0x00, 0x08, 0x01, 0x00, 0x00, 0x28, 0x00, 0x32,
///     0xFF, 0x90,
/// ];
/// let tiles = |numbering| {
///     let reading = Reading { numbering, ..Reading::default() };
///     let parts = parse_main_header_by_reading(&header, reading)?.tlm.unwrap_or_default();
///     Ok::<_, Refusal>(parts.iter().map(|part| part.index).collect::<Vec<_>>())
/// };
/// assert_eq!(tiles(Numbering::CarriedOn)?, [0, 1, 2, 3]);
/// assert_eq!(tiles(Numbering::Restarting)?, [0, 1, 0, 1]);
/// assert_eq!(Numbering::default(), Numbering::CarriedOn);
/// # Ok::<(), Box<dyn std::error::Error>>(())
/// ```
#[derive(Debug, Clone, Copy, Default, PartialEq, Eq, Hash)]
pub enum Numbering {
    /// On over the segments, in the order of the file, as the standard has it for segments in the order of
    /// Ztlm (ISO/IEC 15444-1, A.7.1). A segment with a number past 65,534 is refused by 26.
    #[default]
    CarriedOn,
    /// From 0 in each segment, as the program does which this library is ported from.
    Restarting,
}

impl Numbering {
    /// As the archive takes it.
    pub(crate) fn number(self) -> u32 {
        match self {
            Numbering::CarriedOn => boundary::CARRIED_ON,
            Numbering::Restarting => boundary::RESTARTING,
        }
    }
}
