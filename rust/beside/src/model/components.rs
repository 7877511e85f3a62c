//! "Component sizes".

use super::header::opens_with_siz;
use super::rules::{tile_area, Rule};
use super::{read, Area, Refusal};

/// How many, and the area of the image or of a tile of it.
pub type Components = (u64, Area);

#[derive(Debug, Clone, Copy, PartialEq)]
pub struct Component {
    pub bits: u8,
    pub signed: bool,
    pub xrsiz: u8,
    pub yrsiz: u8,
    pub area: Area,
}

/// What is answered in place of a component that isn't there, as it is no refusal.
pub const NO_SUCH_COMPONENT: u32 = 256;

const MOST_COMPONENTS: u64 = 16_384;
/// From the codestream's start, where SIZ's marker stands at 2.
const LSIZ: u64 = 4;
const SIZE: u64 = 8;
const ORIGIN: u64 = 16;
const CSIZ: u64 = 40;
const COMPONENTS: u64 = 42;

pub fn read_components(codestream: &[u8]) -> Result<Components, Refusal> {
    opens_with_siz(codestream)?;
    let lsiz = read(codestream, LSIZ, 2).ok_or(Refusal::new(3, 2))?;
    if LSIZ + lsiz > codestream.len() as u64 {
        return Err(Refusal::new(3, 2));
    }
    if lsiz < 41 {
        return Err(Refusal::new(24, 2));
    }
    let field = |at, size| read(codestream, at, size).expect("SIZ is whole");
    let csiz = field(CSIZ, 2);
    if lsiz != 38 + 3 * csiz || !(1..=MOST_COMPONENTS).contains(&csiz) {
        return Err(Refusal::new(24, 2));
    }
    for k in 0..csiz {
        let [_, xrsiz, yrsiz] = ssiz_xrsiz_yrsiz(codestream, k).expect("SIZ is whole");
        if xrsiz == 0 || yrsiz == 0 {
            return Err(Refusal::new(25, 2));
        }
    }
    let area = [ORIGIN, ORIGIN + 4, SIZE, SIZE + 4].map(|at| field(at, 4) as u32);
    let [x0, y0, x1, y1] = area;
    if x1 < x0 || y1 < y0 {
        return Err(Refusal::new(22, 2));
    }
    Ok((csiz, area))
}

pub fn read_components_in_tile(
    codestream: &[u8],
    tile: u16,
    rule: Rule,
) -> Result<Components, Refusal> {
    let (count, _) = read_components(codestream)?;
    Ok((count, tile_area(codestream, tile, rule)?))
}

/// Of the component `k`, if they are all there.
fn ssiz_xrsiz_yrsiz(codestream: &[u8], k: u64) -> Option<[u8; 3]> {
    let at = k.checked_mul(3)?.checked_add(COMPONENTS)?;
    let from = codestream.get(usize::try_from(at).ok()?..)?;
    from.first_chunk().copied()
}

/// Nothing where there is no such component.
pub fn component_within(codestream: &[u8], area: Area, number: u64) -> Option<Component> {
    if number >= read(codestream, CSIZ, 2)? {
        return None;
    }
    let [ssiz, xrsiz, yrsiz] = ssiz_xrsiz_yrsiz(codestream, number)?;
    if xrsiz == 0 || yrsiz == 0 {
        return None;
    }
    let [x0, y0, x1, y1] = area;
    let [across, down] = [xrsiz, yrsiz].map(u32::from);
    Some(Component {
        bits: ssiz % 128 + 1,
        signed: ssiz >= 128,
        xrsiz,
        yrsiz,
        area: [
            x0.div_ceil(across),
            y0.div_ceil(down),
            x1.div_ceil(across),
            y1.div_ceil(down),
        ],
    })
}

pub fn component(codestream: &[u8], number: u64) -> Result<Option<Component>, Refusal> {
    let (_, area) = read_components(codestream)?;
    Ok(component_within(codestream, area, number))
}

pub fn component_in_tile(
    codestream: &[u8],
    tile: u16,
    rule: Rule,
    number: u64,
) -> Result<Option<Component>, Refusal> {
    let (_, area) = read_components_in_tile(codestream, tile, rule)?;
    Ok(component_within(codestream, area, number))
}
