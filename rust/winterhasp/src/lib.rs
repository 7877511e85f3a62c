//! JPEG 2000 main headers and tile-parts, read by a proved library.
//!
//! Safe Rust over the archive `libhost.a`, whose functions are proved to answer as their rules say on
//! every input. Each takes byte slices, and gives an answer or a [`Refusal`] that says in words what is
//! wrong and where. Nothing panics on bad bytes.
//!
//! From a file to a codestream of one tile, which decodes to what it is in the whole picture:
//!
//! ```
//! use winterhasp::*;
//!
//! let file = std::fs::read("sample-a.j2k")?;
//! let codestream = find_codestream(&file)?;
//! let header = parse_main_header(codestream.bytes)?;
//! let parts = scan_sot_markers(codestream.bytes, header.first_sot)?;
//! let tile = TileParts::of(5, &parts).ok_or("no part of tile 5")?;
//! let (decode_header, rule) = (&header.decode_header, Rule::InPlace);
//! let alone = build_minimal_codestream_by_rule(decode_header, &tile, codestream.bytes, rule)?;
//! assert_eq!(alone.len(), 63);
//! # Ok::<(), Box<dyn std::error::Error>>(())
//! ```
//!
//! To look up one tile after another, and as tile-parts are appended late, there is [`TileIndex`]; to see
//! whether a header's length table says what stands there, [`check_length_table`].
//!
//! Functions that take no [`Rule`] go by Annex B's, which moves a tile that is cut out to 0, 0; the one
//! that takes no [`Reading`] numbers on over a length table's segments, by the older edition.
//!
//! The archive is linked from the folder that `WINTERHASP_LIB` names, or from the repository's
//! `target/staticlib`, where `tools/proved.sh host` writes it. It is for x86-64, from x86-64-v2 on.

#![deny(unsafe_code)]
#![warn(missing_docs)]

// The runs beside the original share this file, and call what the safe functions have no use for.
#[allow(unsafe_code, dead_code)]
mod boundary;
mod boxes;
mod components;
mod edition;
mod extent;
mod growth;
mod header;
mod lengths;
mod lent;
mod marker;
mod numbering;
mod offsets;
mod order;
mod reading;
mod refusal;
mod rule;
mod scan;
mod search;
mod siz;
mod split;
mod tile;
mod tile_index;
mod tile_part;

pub use boxes::{list_boxes, BoxEntry, BoxType};
pub use components::{
    component, component_in_tile, component_in_tile_by_rule, Area, Component, ComponentIter,
    Components,
};
pub use edition::Edition;
pub use extent::{main_header_extent, MainHeaderExtent};
pub use growth::{grow_header_region, next_region, HeaderRegion};
pub use header::{parse_main_header, parse_main_header_by_reading, MainHeader};
pub use lengths::{
    check_length_table, check_length_table_within, Difference, LengthTable, PartLength,
};
pub use marker::find_marker;
pub use numbering::Numbering;
pub use offsets::{CodestreamOffset, FileOffset};
pub use order::tile_in_order;
pub use reading::Reading;
pub use refusal::{Origin, Refusal};
pub use rule::Rule;
pub use scan::scan_sot_markers;
pub use search::{find_codestream, Codestream};
pub use siz::{parse_siz_marker, pixel_type_from_siz, SampleType, Siz};
pub use split::{split_tile_parts, Parts};
pub use tile::{
    build_minimal_codestream, build_minimal_codestream_by_rule,
    build_minimal_codestream_from_parts, build_minimal_codestream_from_parts_by_rule,
    rewrite_siz_for_tile, rewrite_siz_for_tile_by_rule,
};
pub use tile_index::TileIndex;
pub use tile_part::{PartNumbers, TilePart, TilePartBytes, TileParts};
