//! The benchmark, beside plain Rust of the same rules, as the original has no such functions: all
//! components by one check and a call for each, and a single one, which takes the check too; in the
//! image, and in a tile by Annex B's rule.

use probe::host;

use crate::bench::{row, Benchmark};
use crate::functions::plain::{self, PLAIN};
use crate::model::Area;
use crate::sample::components::{header, many, MOST};

pub const BENCHMARK: Benchmark = Benchmark {
    name: "component sizes",
    beside: PLAIN,
    rows,
};

/// Bits and samples of all components, summed.
type Sums = (u64, u64);

struct Input {
    codestream: Vec<u8>,
    tile: u16,
    /// The last component's.
    number: u64,
}

fn add((bits, samples): Sums, [more, _, _, _, x0, y0, x1, y1]: [u64; 8]) -> Sums {
    (bits + more, samples + (x1 - x0) * (y1 - y0))
}

/// By the area and the number of components that `read` tells.
fn summed(codestream: &[u8], read: impl FnOnce(&mut [u64; 5]) -> u32) -> Option<Sums> {
    let mut numbers = [0; 5];
    if read(&mut numbers) != 0 {
        return None;
    }
    let [count, area @ ..] = numbers;
    let area = area.map(|number| number as u32);
    let mut sums = (0, 0);
    for number in 0..count {
        let mut numbers = [0; 8];
        if host::component_within(codestream, area, number, &mut numbers) != 0 {
            return None;
        }
        sums = add(sums, numbers);
    }
    Some(sums)
}

fn ours(input: &Input) -> Option<Sums> {
    let codestream = &input.codestream;
    summed(codestream, |numbers| {
        host::read_components(codestream, numbers)
    })
}

fn ours_in_tile(input: &Input) -> Option<Sums> {
    let codestream = &input.codestream;
    summed(codestream, |numbers| {
        host::read_components_in_tile(codestream, input.tile, numbers)
    })
}

fn plain(input: &Input) -> Option<Sums> {
    let (area, components) = checked(&input.codestream)?;
    let numbers = components.iter().map(|component| within(area, component));
    Some(numbers.fold((0, 0), add))
}

fn plain_in_tile(input: &Input) -> Option<Sums> {
    let (_, components) = checked(&input.codestream)?;
    let area = plain::tile_area(input.codestream.first_chunk()?, input.tile)?;
    let numbers = components.iter().map(|component| within(area, component));
    Some(numbers.fold((0, 0), add))
}

fn ours_alone(input: &Input) -> Option<[u64; 8]> {
    let mut numbers = [0; 8];
    match host::component(&input.codestream, input.number, &mut numbers) {
        0 => Some(numbers),
        _ => None,
    }
}

fn plain_alone(input: &Input) -> Option<[u64; 8]> {
    let (area, components) = checked(&input.codestream)?;
    let component = components.get(input.number as usize)?;
    Some(within(area, component))
}

fn ours_alone_in_tile(input: &Input) -> Option<[u64; 8]> {
    let mut numbers = [0; 8];
    match host::component_in_tile(&input.codestream, input.tile, input.number, &mut numbers) {
        0 => Some(numbers),
        _ => None,
    }
}

fn plain_alone_in_tile(input: &Input) -> Option<[u64; 8]> {
    let (_, components) = checked(&input.codestream)?;
    let area = plain::tile_area(input.codestream.first_chunk()?, input.tile)?;
    let component = components.get(input.number as usize)?;
    Some(within(area, component))
}

/// The image's area, and each component's Ssiz, XRsiz and YRsiz.
fn checked(codestream: &[u8]) -> Option<(Area, &[[u8; 3]])> {
    let siz = codestream.strip_prefix(&[0xFF, 0x4F, 0xFF, 0x51])?;
    let lsiz = u16::from_be_bytes(*siz.first_chunk()?);
    let siz = siz.get(..lsiz.into())?;
    let (fields, components) = siz.split_at_checked(38)?;
    let field = |at| u32::from_be_bytes(*fields[at..].first_chunk().expect("38 bytes"));
    let csiz = u16::from_be_bytes([fields[36], fields[37]]);
    let (components, []) = components.as_chunks() else {
        return None;
    };
    let fits = components.len() == csiz.into() && (1..=MOST).contains(&components.len());
    let apart = |&[_, xrsiz, yrsiz]: &[u8; 3]| xrsiz > 0 && yrsiz > 0;
    let area @ [x0, y0, x1, y1] = [field(12), field(16), field(4), field(8)];
    (fits && components.iter().all(apart) && x0 <= x1 && y0 <= y1).then_some((area, components))
}

fn within([x0, y0, x1, y1]: Area, &[ssiz, xrsiz, yrsiz]: &[u8; 3]) -> [u64; 8] {
    let [across, down] = [xrsiz, yrsiz].map(u32::from);
    let bits = ssiz % 128 + 1;
    [
        bits.into(),
        (ssiz / 128).into(),
        xrsiz.into(),
        yrsiz.into(),
        x0.div_ceil(across).into(),
        y0.div_ceil(down).into(),
        x1.div_ceil(across).into(),
        y1.div_ceil(down).into(),
    ]
}

fn rows() {
    for (name, count) in [("10", 10), ("1,000", 1_000), ("16,384", MOST)] {
        let input = Input {
            codestream: header([100_003, 50_001, 7, 5, 1024, 1024, 3, 0], &many(count)),
            tile: 4_800,
            number: count as u64 - 1,
        };
        let all = format!("all of {name} components");
        let last = format!("the last of {name} components");
        row(&all, &input, ours, plain);
        row(
            &format!("{all}, in a tile"),
            &input,
            ours_in_tile,
            plain_in_tile,
        );
        row(&last, &input, ours_alone, plain_alone);
        row(
            &format!("{last}, in a tile"),
            &input,
            ours_alone_in_tile,
            plain_alone_in_tile,
        );
    }
}
