//! The editions of the main header.

use crate::boundary;

/// By which edition of the standard a main header is read. They part in CAP, the segment by which
/// high-throughput files say so (ISO/IEC 15444-1:2019, A.5.2).
///
/// What the newer accepts the older accepts too, with the same [`MainHeader`](crate::MainHeader).
///
/// ```
/// use winterhasp::{parse_main_header_by_reading, Edition, Reading};
///
/// // SOC, SIZ with nothing but Rsiz, whose bit 14 announces CAP; CAP with a word for part 15; SOT
/// let header = [
///     0xFF, 0x4F, 0xFF, 0x51, 0x00, 0x04, 0x40, 0x00,
///     0xFF, 0x50, 0x00, 0x08, 0x00, 0x02, 0x00, 0x00, 0x00, 0x00,
///     0xFF, 0x90,
/// ];
/// let reading = Reading { edition: Edition::Newer, ..Reading::default() };
/// let refused = |header: &[u8]| {
///     let refusal = parse_main_header_by_reading(header, reading).err()?;
///     Some((refusal.number(), refusal.place()))
/// };
/// assert_eq!(refused(&header), None);
///
/// // without the segment, without the bit, and with a bit of Pcap for which there is no word
/// assert_eq!(refused(&[&header[..8], &header[18..]].concat()), Some((33, 2)));
/// let mut changed = header;
/// changed[6] = 0;
/// assert_eq!(refused(&changed), Some((33, 8)));
/// let mut changed = header;
/// changed[15] = 1;
/// assert_eq!(refused(&changed), Some((34, 8)));
/// assert!(parse_main_header_by_reading(&changed, Reading::default()).is_ok());
/// assert_eq!(Edition::default(), Edition::Older);
/// ```
#[derive(Debug, Clone, Copy, Default, PartialEq, Eq, Hash)]
pub enum Edition {
    /// CAP is passed over as any segment, as the program does which this library is ported from.
    #[default]
    Older,
    /// CAP stands in the header once where bit 14 of Rsiz is set, and otherwise not: else 33. It is as
    /// long as the ones of its Pcap ask: else 34.
    Newer,
}

impl Edition {
    /// As the archive takes it.
    pub(crate) fn number(self) -> u32 {
        match self {
            Edition::Older => boundary::OLDER,
            Edition::Newer => boundary::NEWER,
        }
    }
}
