//! Whether the tile-parts of one tile stand in order.

use crate::boundary;
use crate::tile_part::{to_rows, TilePart};

/// Whether the tile-parts of tile `index` stand in order among `parts`: their numbers run 0, 1, 2 and on, and
/// every count that an SOT gives is how many there are. It is no where a tile-part's numbers are not known, as
/// of those in a header's length table, and where the tile has none. Other tiles' parts are not looked at.
///
/// ```
/// use winterhasp::{parse_main_header, scan_sot_markers, tile_in_order};
///
/// let mut codestream = std::fs::read("sample-a.j2k")?;
/// let header = parse_main_header(&codestream)?;
/// let parts = scan_sot_markers(&codestream, header.first_sot)?;
/// assert!(tile_in_order(5, &parts));
/// // no part of tile 1; and a length table has no numbers
/// assert!(!tile_in_order(1, &parts));
/// assert!(!tile_in_order(5, &header.tlm.ok_or("a length table")?));
///
/// // the only part of tile 5 as number 1
/// codestream[71 + 10] = 1;
/// assert!(!tile_in_order(5, &scan_sot_markers(&codestream, header.first_sot)?));
/// # Ok::<(), Box<dyn std::error::Error>>(())
/// ```
pub fn tile_in_order(index: u16, parts: &[TilePart]) -> bool {
    boundary::tile_in_order(&to_rows(parts), index) == 1
}
