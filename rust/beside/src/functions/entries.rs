//! The original's tile-part entries as the model has them: three fields, over which it is compared.

use original::markers::TilePartEntry;

use crate::model::Entry;

pub fn of(told: &[TilePartEntry]) -> Vec<Entry> {
    told.iter()
        .map(|entry| (entry.tile_index, entry.offset, entry.length))
        .collect()
}
