//! Components: how many, and the samples and the size of each, in the image or in one tile.

use std::ops::Range;

use crate::boundary;
use crate::lent::{self, accepted};
use crate::refusal::Refusal;
use crate::rule::Rule;
use crate::siz::{pixel_type_from_siz, SampleType};

/// A part of a grid: from `x0`, `y0` on, to `x1`, `y1`, which no longer belong to it.
#[derive(Debug, Clone, Copy, PartialEq, Eq, Hash)]
#[allow(missing_docs)]
pub struct Area {
    pub x0: u32,
    pub y0: u32,
    pub x1: u32,
    pub y1: u32,
}

impl Area {
    /// In columns; 0 if it ends before it starts.
    ///
    /// ```
    /// # use winterhasp::Area;
    /// assert_eq!(Area { x0: 8, y0: 4, x1: 10, y1: 7 }.width(), 2);
    /// ```
    pub fn width(&self) -> u32 {
        self.x1.saturating_sub(self.x0)
    }

    /// In rows; 0 if it ends before it starts.
    ///
    /// ```
    /// # use winterhasp::Area;
    /// assert_eq!(Area { x0: 8, y0: 4, x1: 10, y1: 7 }.height(), 3);
    /// ```
    pub fn height(&self) -> u32 {
        self.y1.saturating_sub(self.y0)
    }

    /// The archive's numbers of an area are below 2^32.
    fn of(numbers: [u64; 4]) -> Self {
        let [x0, y0, x1, y1] = numbers.map(|number| number as u32);
        Area { x0, y0, x1, y1 }
    }
}

/// What SIZ says of one component, and its size.
#[derive(Debug, Clone, Copy, PartialEq, Eq, Hash)]
pub struct Component {
    /// Bits of a sample, from 1 to 128.
    pub bits: u8,
    /// Whether samples have a sign.
    pub signed: bool,
    /// How many columns of the reference grid lie from sample to sample, from 1 on.
    pub xrsiz: u8,
    /// How many rows of the reference grid lie from sample to sample, from 1 on.
    pub yrsiz: u8,
    /// Its samples, which are counted on a grid of their own.
    pub area: Area,
}

impl Component {
    /// How a sample is held.
    ///
    /// ```
    /// use winterhasp::{component, SampleType};
    ///
    /// let mut codestream = std::fs::read("sample-a.j2k")?;
    /// // 12 bits with a sign
    /// codestream[42] = 128 + 11;
    /// let first = component(&codestream, 0)?.ok_or("no component")?;
    /// assert_eq!(first.sample_type(), SampleType::Int16);
    /// # Ok::<(), Box<dyn std::error::Error>>(())
    /// ```
    pub fn sample_type(&self) -> SampleType {
        pixel_type_from_siz(self.bits, self.signed)
    }

    fn of([bits, signed, xrsiz, yrsiz, x0, y0, x1, y1]: [u64; 8]) -> Self {
        Component {
            bits: bits as u8,
            signed: signed != 0,
            xrsiz: xrsiz as u8,
            yrsiz: yrsiz as u8,
            area: Area::of([x0, y0, x1, y1]),
        }
    }
}

/// The components of a codestream, which may be cut behind its SIZ: checked once, so that each is
/// then read by itself.
///
/// ```
/// use winterhasp::Components;
///
/// let mut codestream = std::fs::read("sample-a.j2k")?;
/// // a sample for 3 columns and 4 rows
/// codestream[43..45].copy_from_slice(&[3, 4]);
/// for component in &Components::read(&codestream)? {
///     assert_eq!((component.xrsiz, component.yrsiz), (3, 4));
///     assert_eq!((component.area.width(), component.area.height()), (4, 2));
/// }
/// # Ok::<(), Box<dyn std::error::Error>>(())
/// ```
#[derive(Debug, Clone, Copy, PartialEq, Eq)]
pub struct Components<'a> {
    codestream: &'a [u8],
    count: u16,
    area: Area,
}

impl<'a> Components<'a> {
    /// With their sizes in the image.
    ///
    /// ```
    /// use winterhasp::Components;
    ///
    /// let mut codestream = std::fs::read("sample-a.j2k")?;
    /// assert_eq!(Components::read(&codestream)?.len(), 1);
    ///
    /// // two components, where SIZ has room for one
    /// codestream[41] = 2;
    /// let refusal = Components::read(&codestream).unwrap_err();
    /// assert_eq!((refusal.number(), refusal.place()), (24, 2));
    /// # Ok::<(), Box<dyn std::error::Error>>(())
    /// ```
    pub fn read(codestream: &'a [u8]) -> Result<Self, Refusal> {
        Self::checked(codestream, |numbers| {
            boundary::read_components(codestream, numbers)
        })
    }

    /// With their sizes in one tile, by the standard's rule ([`Rule::AnnexB`]).
    ///
    /// ```
    /// use winterhasp::{Area, Components};
    ///
    /// let codestream = std::fs::read("sample-a.j2k")?;
    /// let area = Area { x0: 8, y0: 4, x1: 10, y1: 6 };
    /// assert_eq!(Components::read_in_tile(&codestream, 5)?.area(), area);
    ///
    /// let refusal = Components::read_in_tile(&codestream, 6).unwrap_err();
    /// assert_eq!((refusal.number(), refusal.place()), (31, 2));
    /// # Ok::<(), Box<dyn std::error::Error>>(())
    /// ```
    pub fn read_in_tile(codestream: &'a [u8], tile: u16) -> Result<Self, Refusal> {
        Self::checked(codestream, |numbers| {
            boundary::read_components_in_tile(codestream, tile, numbers)
        })
    }

    /// With their sizes in one tile, by a [`Rule`].
    ///
    /// ```
    /// use winterhasp::{Components, Rule};
    ///
    /// let mut codestream = std::fs::read("sample-a.j2k")?;
    /// // tiles from 1 on, where the image starts at 0
    /// codestream[35] = 1;
    /// let refusal = Components::read_in_tile_by_rule(&codestream, 5, Rule::AnnexB).unwrap_err();
    /// assert_eq!((refusal.number(), refusal.place()), (30, 2));
    /// let area = Components::read_in_tile_by_rule(&codestream, 5, Rule::Original)?.area();
    /// assert_eq!((area.x0, area.x1), (8, 10));
    /// # Ok::<(), Box<dyn std::error::Error>>(())
    /// ```
    pub fn read_in_tile_by_rule(
        codestream: &'a [u8],
        tile: u16,
        rule: Rule,
    ) -> Result<Self, Refusal> {
        Self::checked(codestream, |numbers| {
            boundary::read_components_in_tile_by_rule(codestream, tile, rule.number(), numbers)
        })
    }

    fn checked(
        codestream: &'a [u8],
        call: impl FnOnce(&mut [u64; 5]) -> u32,
    ) -> Result<Self, Refusal> {
        let [count, x0, y0, x1, y1] = accepted(call)?;
        Ok(Components {
            codestream,
            count: count as u16,
            area: Area::of([x0, y0, x1, y1]),
        })
    }

    /// How many there are, from 1 to 16,384.
    ///
    /// ```
    /// # use winterhasp::Components;
    /// let codestream = std::fs::read("sample-a.j2k")?;
    /// assert_eq!(Components::read(&codestream)?.len(), 1);
    /// # Ok::<(), Box<dyn std::error::Error>>(())
    /// ```
    pub fn len(&self) -> usize {
        self.count.into()
    }

    /// Never, as a SIZ without components is refused.
    ///
    /// ```
    /// # use winterhasp::Components;
    /// let mut codestream = std::fs::read("sample-a.j2k")?;
    /// assert!(!Components::read(&codestream)?.is_empty());
    /// codestream[41] = 0;
    /// assert_eq!(Components::read(&codestream).unwrap_err().number(), 24);
    /// # Ok::<(), Box<dyn std::error::Error>>(())
    /// ```
    pub fn is_empty(&self) -> bool {
        self.count == 0
    }

    /// The image or the tile, on the reference grid.
    ///
    /// ```
    /// # use winterhasp::{Area, Components};
    /// let codestream = std::fs::read("sample-a.j2k")?;
    /// let area = Area { x0: 0, y0: 0, x1: 10, y1: 6 };
    /// assert_eq!(Components::read(&codestream)?.area(), area);
    /// # Ok::<(), Box<dyn std::error::Error>>(())
    /// ```
    pub fn area(&self) -> Area {
        self.area
    }

    /// The component of this number, from 0; nothing past the last. It takes as long for every one.
    ///
    /// ```
    /// # use winterhasp::Components;
    /// let codestream = std::fs::read("sample-a.j2k")?;
    /// let components = Components::read_in_tile(&codestream, 5)?;
    /// let first = components.get(0).ok_or("no component")?;
    /// assert_eq!((first.bits, first.signed), (8, false));
    /// assert_eq!((first.area.width(), first.area.height()), (2, 2));
    /// assert_eq!(components.get(1), None);
    /// # Ok::<(), Box<dyn std::error::Error>>(())
    /// ```
    pub fn get(&self, number: u64) -> Option<Component> {
        let Area { x0, y0, x1, y1 } = self.area;
        let area = [x0, y0, x1, y1];
        let found =
            found(|numbers| boundary::component_within(self.codestream, area, number, numbers));
        // It never refuses.
        found.ok().flatten()
    }

    /// All of them, in order.
    ///
    /// ```
    /// # use winterhasp::Components;
    /// let codestream = std::fs::read("sample-a.j2k")?;
    /// let components = Components::read(&codestream)?;
    /// assert_eq!(components.iter().collect::<Vec<_>>(), [components.get(0).unwrap()]);
    /// # Ok::<(), Box<dyn std::error::Error>>(())
    /// ```
    pub fn iter(&self) -> ComponentIter<'a> {
        ComponentIter {
            components: *self,
            numbers: 0..self.count,
        }
    }
}

/// Components, in order; made by [`Components::iter`].
#[derive(Debug, Clone)]
pub struct ComponentIter<'a> {
    components: Components<'a>,
    numbers: Range<u16>,
}

impl Iterator for ComponentIter<'_> {
    type Item = Component;

    fn next(&mut self) -> Option<Component> {
        self.components.get(self.numbers.next()?.into())
    }

    fn size_hint(&self) -> (usize, Option<usize>) {
        self.numbers.size_hint()
    }
}

/// Each number below the count has a component.
impl ExactSizeIterator for ComponentIter<'_> {}

impl<'a> IntoIterator for Components<'a> {
    type Item = Component;
    type IntoIter = ComponentIter<'a>;

    fn into_iter(self) -> ComponentIter<'a> {
        self.iter()
    }
}

impl<'a> IntoIterator for &Components<'a> {
    type Item = Component;
    type IntoIter = ComponentIter<'a>;

    fn into_iter(self) -> ComponentIter<'a> {
        self.iter()
    }
}

/// The component of a number, from 0, with its size in the image; nothing past the last. Each call
/// checks all of them: for more than one there is [`Components`].
///
/// ```
/// use winterhasp::component;
///
/// let mut codestream = std::fs::read("sample-a.j2k")?;
/// let first = component(&codestream, 0)?.ok_or("no component")?;
/// assert_eq!((first.area.width(), first.area.height()), (10, 6));
/// assert_eq!(component(&codestream, 1)?, None);
///
/// // a sample for 0 columns
/// codestream[43] = 0;
/// assert_eq!(component(&codestream, 0).unwrap_err().number(), 25);
/// # Ok::<(), Box<dyn std::error::Error>>(())
/// ```
pub fn component(codestream: &[u8], number: u64) -> Result<Option<Component>, Refusal> {
    found(|numbers| boundary::component(codestream, number, numbers))
}

/// The same, with its size in one tile by the standard's rule ([`Rule::AnnexB`]).
///
/// ```
/// use winterhasp::{component_in_tile, Area};
///
/// let mut codestream = std::fs::read("sample-a.j2k")?;
/// // a sample for 3 columns and 4 rows
/// codestream[43..45].copy_from_slice(&[3, 4]);
/// let first = component_in_tile(&codestream, 5, 0)?.ok_or("no component")?;
/// assert_eq!(first.area, Area { x0: 3, y0: 1, x1: 4, y1: 2 });
/// assert_eq!(component_in_tile(&codestream, 5, 1)?, None);
/// assert_eq!(component_in_tile(&codestream, 6, 1).unwrap_err().number(), 31);
/// # Ok::<(), Box<dyn std::error::Error>>(())
/// ```
pub fn component_in_tile(
    codestream: &[u8],
    tile: u16,
    number: u64,
) -> Result<Option<Component>, Refusal> {
    found(|numbers| boundary::component_in_tile(codestream, tile, number, numbers))
}

/// The same, with its size in one tile by a [`Rule`].
///
/// ```
/// use winterhasp::{component_in_tile_by_rule, Rule};
///
/// let mut codestream = std::fs::read("sample-a.j2k")?;
/// // the image from 3 and the tiles from 1 on, in columns
/// (codestream[19], codestream[35]) = (3, 1);
/// let width = |rule| {
///     let found = component_in_tile_by_rule(&codestream, 0, rule, 0)?;
///     Ok::<_, winterhasp::Refusal>(found.map(|component| component.area.width()))
/// };
/// assert_eq!(width(Rule::AnnexB)?, Some(2));
/// assert_eq!(width(Rule::Original)?, Some(4));
/// assert_eq!(width(Rule::InPlace)?, Some(2));
/// # Ok::<(), Box<dyn std::error::Error>>(())
/// ```
pub fn component_in_tile_by_rule(
    codestream: &[u8],
    tile: u16,
    rule: Rule,
    number: u64,
) -> Result<Option<Component>, Refusal> {
    found(|numbers| {
        boundary::component_in_tile_by_rule(codestream, tile, rule.number(), number, numbers)
    })
}

fn found(call: impl FnOnce(&mut [u64; 8]) -> u32) -> Result<Option<Component>, Refusal> {
    let found = lent::found(boundary::NO_SUCH_COMPONENT, call)?;
    Ok(found.map(Component::of))
}

#[cfg(test)]
mod tests {
    use super::{
        component, component_in_tile, component_in_tile_by_rule, Area, Component, Components,
    };
    use crate::rule::Rule;

    const SAMPLE: &[u8] = include_bytes!("../sample-a.j2k");
    const MOST: u16 = 16_384;

    /// The sample with other bytes from `at` on.
    fn with(at: usize, bytes: &[u8]) -> Vec<u8> {
        let mut changed = SAMPLE.to_vec();
        changed[at..at + bytes.len()].copy_from_slice(bytes);
        changed
    }

    /// SOC, and the sample's SIZ with these components.
    fn of_components(components: &[[u8; 3]]) -> Vec<u8> {
        let count = components.len() as u16;
        let mut siz = SAMPLE[..42].to_vec();
        siz[4..6].copy_from_slice(&(38 + 3 * count).to_be_bytes());
        siz[40..].copy_from_slice(&count.to_be_bytes());
        siz.extend(components.as_flattened());
        siz
    }

    fn refused(codestream: &[u8]) -> Option<u32> {
        let refusal = Components::read(codestream).err()?;
        assert_eq!(component(codestream, 0), Err(refusal));
        assert_eq!(component(codestream, u64::MAX), Err(refusal));
        assert_eq!(component_in_tile(codestream, 0, 0), Err(refusal));
        assert_eq!(Components::read_in_tile(codestream, 0), Err(refusal));
        Some(refusal.number())
    }

    #[test]
    fn each_refusal_has_its_edge() {
        assert_eq!(refused(SAMPLE), None);
        for (length, number) in [(0, 1), (1, 1), (2, 2), (3, 2), (4, 3), (5, 3), (44, 3)] {
            assert_eq!(refused(&SAMPLE[..length]), Some(number), "{length}");
        }
        assert_eq!(refused(&SAMPLE[..45]), None);
        assert_eq!(refused(&with(5, &[40])), Some(24));
        assert_eq!(refused(&with(5, &[42])), Some(24));
        assert_eq!(refused(&with(40, &[0, 0])), Some(24));
        assert_eq!(refused(&with(40, &[0, 2])), Some(24));
        assert_eq!(refused(&with(43, &[0])), Some(25));
        assert_eq!(refused(&with(44, &[0])), Some(25));
        assert_eq!(refused(&with(19, &[11])), Some(22));
        assert_eq!(refused(&with(23, &[7])), Some(22));
        // the first that applies
        assert_eq!(refused(&with(41, &[2, 7, 0])), Some(24));
        let mut back = with(43, &[0]);
        back[19] = 11;
        assert_eq!(refused(&back), Some(25));
    }

    #[test]
    fn as_many_as_there_may_be() {
        let each = |number: u16| [number as u8, (number % 255) as u8 + 1, 1];
        let most: Vec<_> = (0..MOST).map(each).collect();
        let codestream = of_components(&most);
        let components = Components::read(&codestream).expect("as many as the rules allow");
        let read: Vec<_> = components.iter().collect();
        assert_eq!(
            (components.len(), components.iter().len()),
            (16_384, 16_384)
        );
        assert_eq!(read.len(), 16_384);
        for (number, (component, [depth, xrsiz, yrsiz])) in (0_u64..).zip(read.iter().zip(&most)) {
            assert_eq!(component.bits, depth % 128 + 1, "{number}");
            assert_eq!(component.signed, *depth >= 128, "{number}");
            assert_eq!((component.xrsiz, component.yrsiz), (*xrsiz, *yrsiz));
            assert_eq!(component.area.width(), 10_u32.div_ceil((*xrsiz).into()));
            assert_eq!(components.get(number), Some(*component));
        }
        assert_eq!(component(&codestream, 16_383), Ok(read.last().copied()));
        for past in [MOST.into(), 1 << 16, 1 << 63, u64::MAX] {
            assert_eq!(components.get(past), None);
            assert_eq!(component(&codestream, past), Ok(None));
        }
        let more = vec![[7, 1, 1]; usize::from(MOST) + 1];
        assert_eq!(refused(&of_components(&more)), Some(24));
    }

    #[test]
    fn a_tile_is_a_part_of_the_image() {
        let codestream = of_components(&[[7, 1, 1], [7, 2, 2], [0x8B, 3, 4]]);
        let areas = |tile| {
            let components = Components::read_in_tile(&codestream, tile).expect("in the grid");
            let area = |Component { area, .. }| [area.x0, area.y0, area.x1, area.y1];
            let read: Vec<_> = components.into_iter().collect();
            for (number, component) in (0..).zip(&read) {
                let alone = component_in_tile(&codestream, tile, number);
                assert_eq!(alone, Ok(Some(*component)));
            }
            read.into_iter().map(area).collect::<Vec<_>>()
        };
        assert_eq!(areas(0), [[0, 0, 4, 4], [0, 0, 2, 2], [0, 0, 2, 1]]);
        assert_eq!(areas(4), [[4, 4, 8, 6], [2, 2, 4, 3], [2, 1, 3, 2]]);
        assert_eq!(areas(5), [[8, 4, 10, 6], [4, 2, 5, 3], [3, 1, 4, 2]]);
        assert_eq!(component_in_tile(&codestream, 5, 3), Ok(None));
        for outside in [6, u16::MAX] {
            let refusal = Components::read_in_tile(&codestream, outside).unwrap_err();
            assert_eq!((refusal.number(), refusal.place()), (31, 2));
        }
    }

    #[test]
    fn the_rules_part() {
        let read = |codestream: &[u8], tile, rule| {
            let read = Components::read_in_tile_by_rule(codestream, tile, rule);
            let alone = component_in_tile_by_rule(codestream, tile, rule, 0);
            assert_eq!(alone, read.map(|read| read.get(0)));
            if rule == Rule::default() {
                assert_eq!(Components::read_in_tile(codestream, tile), read);
                assert_eq!(component_in_tile(codestream, tile, 0), alone);
            }
            read.map(|read| [read.area.x0, read.area.y0, read.area.x1, read.area.y1])
                .map_err(|refusal| (refusal.number(), refusal.place()))
        };
        let both = |codestream: &[u8], tile| {
            let [standard, original, in_place] = [Rule::AnnexB, Rule::Original, Rule::InPlace]
                .map(|rule| read(codestream, tile, rule));
            assert_eq!(in_place, standard);
            [standard, original]
        };
        for tile in 0..6 {
            let [standard, original] = both(SAMPLE, tile);
            assert!(standard.is_ok());
            assert_eq!(standard, original);
        }
        assert_eq!(both(SAMPLE, 6), [Err((31, 2)), Err((10, 2))]);
        // a row that starts where the image ends
        let flat = with(15, &[4]);
        assert_eq!(both(&flat, 3), [Err((31, 2)), Ok([0, 4, 4, 4])]);
        // the image from 5 on, and tiles of 4 that end with it, reach into it, start with it and
        // past it
        let mut moved = with(19, &[5]);
        for (tile_origin, standard) in [
            (1, Err((30, 2))),
            (2, Ok([5, 0, 6, 4])),
            (5, Ok([5, 0, 9, 4])),
            (6, Err((30, 2))),
        ] {
            moved[35] = tile_origin;
            assert_eq!(both(&moved, 0), [standard, Ok([5, 0, 9, 4])]);
        }
    }

    #[test]
    fn the_largest_image_is_measured() {
        let mut codestream = of_components(&[[127, 1, 255]]);
        codestream[8..16].fill(0xFF);
        let found = component(&codestream, 0).expect("accepted").expect("one");
        assert_eq!((found.bits, found.signed), (128, false));
        assert_eq!((found.xrsiz, found.yrsiz), (1, 255));
        let area = found.area;
        assert_eq!((area.x1, area.y1), (u32::MAX, u32::MAX.div_ceil(255)));
        assert_eq!((area.width(), area.height()), (area.x1, area.y1));
        let backwards = Area {
            x0: 2,
            y0: 2,
            x1: 1,
            y1: 1,
        };
        assert_eq!((backwards.width(), backwards.height()), (0, 0));
    }
}
