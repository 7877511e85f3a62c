//! Component sizes, ours beside the model, and beside the original where it has an answer to a part.

mod cases;
mod compare;
mod rows;
mod told;

use crate::model::components::{Component, Components};
use crate::model::Area;

pub use cases::KIND;
pub use compare::COMPARISON;
pub use rows::BENCHMARK;

/// How many, and the area: the numbers in the order in which they are lent.
fn counted((count, area): Components) -> [u64; 5] {
    let [x0, y0, x1, y1] = wide(area);
    [count, x0, y0, x1, y1]
}

/// The same of a component: bits, 1 if it is signed, XRsiz, YRsiz, and the area.
fn numbers(component: Component) -> [u64; 8] {
    let [x0, y0, x1, y1] = wide(component.area);
    let Component {
        bits,
        signed,
        xrsiz,
        yrsiz,
        ..
    } = component;
    let [bits, signed, xrsiz, yrsiz] = [bits, signed.into(), xrsiz, yrsiz].map(u64::from);
    [bits, signed, xrsiz, yrsiz, x0, y0, x1, y1]
}

fn wide(area: Area) -> [u64; 4] {
    area.map(u64::from)
}
