//! A part of the caller's own bytes, copied out by the archive: 17 where the output is too small, and
//! its length in either case.

use crate::judge::{Case, Told};
use crate::lent::{room, Lent};
use crate::model::Refusal;
use crate::random::Random;
use crate::tally::Tally;

/// What it is to be, and what it is counted under.
pub struct Part {
    pub told: Told<Vec<u8>>,
    pub document: Vec<u8>,
    pub label: &'static str,
}

impl Part {
    /// With room for what is needed, or about that.
    pub fn check(
        self,
        random: &mut Random,
        tally: &mut Tally,
        copy: impl FnOnce(&mut [u8], &mut u64) -> u32,
        input: impl FnOnce() -> String,
    ) {
        let size = room(random, self.document.len());
        let before = Lent::preset(random, [size]);
        let fits = Refusal::unless_it_holds(size, self.document.len() as u128);
        let case = Case {
            ours: before.left_by(|[out], [value]| copy(out, value)),
            before,
            told: self.told,
            document: fits.map(|()| self.document),
        };
        case.judge_under(self.label, tally, || format!("{}, output {size}", input()));
    }
}
