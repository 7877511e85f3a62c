//! The rules by which a tile's place is told.

use crate::boundary;

/// Where a tile lies on the reference grid, and where it lies once it is cut out.
///
/// For a tile that is to be decoded there is [`InPlace`](Rule::InPlace): wavelets, code-blocks and
/// precincts are counted from 0 on the grid, so that a tile which is moved may decode to other samples
/// than in the whole picture. The functions that take no rule go by the default,
/// [`AnnexB`](Rule::AnnexB), which moves it; that, and [`Original`](Rule::Original), which is there to
/// compare with the original, tell the same where both accept and the tile origin is the image origin.
///
/// ```
/// use winterhasp::{rewrite_siz_for_tile_by_rule, Components, Refusal, Rule};
///
/// // the image from 3 and the tiles from 1 on, in columns
/// let mut codestream = std::fs::read("sample-a.j2k")?;
/// (codestream[19], codestream[35]) = (3, 1);
/// let columns = |rule| {
///     let area = Components::read_in_tile_by_rule(&codestream, 0, rule)?.area();
///     Ok::<_, Refusal>(area.x0..area.x1)
/// };
/// assert_eq!(columns(Rule::AnnexB)?, 3..5);
/// assert_eq!(columns(Rule::Original)?, 3..7);
/// assert_eq!(columns(Rule::InPlace)?, 3..5);
/// assert_eq!(Rule::default(), Rule::AnnexB);
///
/// // cut out it is an image of its own
/// let columns_alone = |rule| {
///     let alone = rewrite_siz_for_tile_by_rule(&codestream[..45], 0, rule)?;
///     let area = Components::read(&alone)?.area();
///     Ok::<_, Refusal>(area.x0..area.x1)
/// };
/// assert_eq!(columns_alone(Rule::AnnexB)?, 0..2);
/// assert_eq!(columns_alone(Rule::InPlace)?, 3..5);
/// # Ok::<(), Box<dyn std::error::Error>>(())
/// ```
#[derive(Debug, Clone, Copy, Default, PartialEq, Eq, Hash)]
pub enum Rule {
    /// The standard's (ISO/IEC 15444-1, Annex B): tiles are counted from the tile origin, and each
    /// is cut to the image. No tile of the grid is refused; what makes no grid is refused by 30,
    /// and a tile past the last by 31. Cut out, a tile lies at 0, 0; the header of one of full size
    /// stays as it is, with the whole image's size.
    #[default]
    AnnexB,
    /// That of the program which this library is ported from: tiles are counted from the image
    /// origin, whatever the tile origin is, and a sum that passes 2^32-1 is refused, as is a tile
    /// that starts past the image, by 10. Cut out, a tile is moved as by Annex B's.
    Original,
    /// The standard's place, and its refusals, and a tile that is cut out stays there: its header
    /// says an image of the tile's own area with one tile, of full size too. A decoder gives the
    /// samples that it gives of this tile in the whole picture, and shows the tile alone.
    InPlace,
}

impl Rule {
    /// As the archive takes it.
    pub(crate) fn number(self) -> u32 {
        match self {
            Rule::AnnexB => boundary::ANNEX_B,
            Rule::Original => boundary::ORIGINAL,
            Rule::InPlace => boundary::IN_PLACE,
        }
    }
}
