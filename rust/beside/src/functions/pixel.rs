//! `pixel_type_from_siz`, ours beside the original's: all there is, so no benchmark and no cases of
//! its own.

use original::reader::{self, PixelType};
use probe::host;

use crate::caught::caught;
use crate::compare::{self, Comparison};
use crate::model;
use crate::wanted;

type Original = fn(u8, bool) -> PixelType;
type Run = compare::Run<Original>;

pub const COMPARISON: Comparison<Original> = Comparison {
    wanted: wanted::PIXEL_TYPE,
    also: &[],
    minimum: 512,
    original: reader::pixel_type_from_siz,
    fixed,
    random: None,
};

fn fixed(run: &mut Run) {
    for signed in [false, true] {
        let label = wanted::pixel_type(signed);
        for bits in 0..=u8::MAX {
            let ours = host::pixel_type(bits, signed);
            let document = model::reader::pixel_type(bits, signed);
            let original = caught(|| (run.original)(bits, signed) as u32);
            let input = || format!("{bits} bits, {label}");
            let tally = &mut run.tally;
            let original = original.map(|told| (told, told));
            tally.compare_caught(label, &(ours, document), original, input);
        }
    }
}
