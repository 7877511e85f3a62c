//! `parse_siz_marker`, ours beside the original's.

mod cases;
mod compare;
mod rows;

use original::reader;

use crate::model::reader::Size;

pub use cases::KIND;
pub use compare::COMPARISON;
pub use rows::BENCHMARK;

pub fn original(codestream: &[u8]) -> Option<Size> {
    let told = reader::parse_siz_marker(codestream)?;
    Some([
        told.width.into(),
        told.height.into(),
        told.num_components.into(),
        told.bits_per_component.into(),
        told.is_signed.into(),
    ])
}
