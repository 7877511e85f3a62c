//! Components with their sizes, in the image or in one tile: in words, or as JSON.

use serde::Serialize;
use winterhasp::{Area, Component, Components, FileOffset, Refusal};

use crate::siz::box_text;
use crate::tiles::range_text;
use crate::trouble::Refused;

/// A line of text, and what stands before it.
pub type Line = (String, String);

/// All of them, or why there are none.
#[derive(Serialize)]
#[serde(untagged)]
pub enum Sizes {
    Read {
        #[serde(with = "AreaReport")]
        area: Area,
        count: usize,
        described: Vec<ComponentReport>,
    },
    Refused {
        refused: Refused,
    },
}

#[derive(Serialize)]
#[serde(remote = "Area")]
struct AreaReport {
    x0: u32,
    y0: u32,
    x1: u32,
    y1: u32,
}

#[derive(Serialize, Clone, Copy, PartialEq)]
pub struct ComponentReport {
    bits: u8,
    signed: bool,
    xrsiz: u8,
    yrsiz: u8,
    #[serde(flatten, with = "AreaReport")]
    area: Area,
}

impl Sizes {
    /// Of a file whose codestream starts at `start`.
    pub fn of(components: Result<Components, Refusal>, start: Option<FileOffset>) -> Self {
        match components {
            Ok(components) => Sizes::Read {
                area: components.area(),
                count: components.len(),
                described: components.iter().map(ComponentReport::of).collect(),
            },
            Err(refusal) => Sizes::Refused {
                refused: Refused::new(refusal, start),
            },
        }
    }

    /// Equal ones beside each other are told together: in the first line, where all are equal, and else
    /// in a line for each such run.
    pub fn lines(&self, label: String) -> Vec<Line> {
        let described = match self {
            Sizes::Read { described, .. } => described,
            Sizes::Refused { refused } => return vec![(label, refused_text(refused))],
        };
        let count = described.len();
        let runs = described.chunk_by(|one, other| one == other);
        let mut lines: Vec<_> = runs
            .scan(0, |next, run| {
                let first = *next;
                *next += run.len();
                let label = format!("  {}", range_text(&(first..=*next - 1)));
                Some((label, run.first()?.text()))
            })
            .collect();
        match lines.as_slice() {
            [(_, alone)] => vec![(label, format!("{count} of {alone}"))],
            _ => {
                lines.insert(0, (label, count.to_string()));
                lines
            }
        }
    }
}

impl ComponentReport {
    fn of(component: Component) -> Self {
        let Component {
            bits,
            signed,
            xrsiz,
            yrsiz,
            area,
        } = component;
        ComponentReport {
            bits,
            signed,
            xrsiz,
            yrsiz,
            area,
        }
    }

    fn text(&self) -> String {
        let sign = if self.signed { "signed" } else { "unsigned" };
        let samples = format!("{} bits, {sign}; {}", self.bits, area_text(&self.area));
        match (self.xrsiz, self.yrsiz) {
            (1, 1) => samples,
            (columns, rows) => format!("{samples}; a sample for {columns} by {rows}"),
        }
    }
}

fn refused_text(refused: &Refused) -> String {
    format!("refused {}", refused.text())
}

fn area_text(area: &Area) -> String {
    let pair = |x: u32, y: u32| [x.into(), y.into()];
    box_text(pair(area.width(), area.height()), pair(area.x0, area.y0))
}

/// The components in one tile.
#[derive(Serialize)]
pub struct InTile {
    pub index: u16,
    #[serde(flatten)]
    pub sizes: Sizes,
}

impl InTile {
    /// The tile itself, and the components in it.
    pub fn lines(&self) -> Vec<Line> {
        let index = self.index;
        let (tile, mut lines) = match &self.sizes {
            Sizes::Read { area, .. } => {
                let components = self.sizes.lines(format!("in tile {index}"));
                (area_text(area), components)
            }
            Sizes::Refused { refused } => (refused_text(refused), Vec::new()),
        };
        lines.insert(0, (format!("tile {index}"), tile));
        lines
    }
}

#[cfg(test)]
mod tests {
    use winterhasp::Components;

    use super::Sizes;

    const SAMPLE: &[u8] = include_bytes!("../../../crates/tileparts/stdin");

    /// What is told of the sample's SIZ with these components.
    fn told(components: &[[u8; 3]]) -> Vec<String> {
        let count = components.len() as u16;
        let mut siz = SAMPLE[..42].to_vec();
        siz[4..6].copy_from_slice(&(38 + 3 * count).to_be_bytes());
        siz[40..].copy_from_slice(&count.to_be_bytes());
        siz.extend(components.as_flattened());
        let lines = Sizes::of(Components::read(&siz), None).lines("here".to_string());
        let join = |(label, line)| format!("{label}: {line}");
        lines.into_iter().map(join).collect()
    }

    const FULL: [u8; 3] = [7, 1, 1];
    const HALF: [u8; 3] = [0x8B, 2, 2];

    #[test]
    fn equal_ones_share_a_line() {
        let full = "8 bits, unsigned; 10 by 6, from 0, 0 on";
        let half = "12 bits, signed; 5 by 3, from 0, 0 on; a sample for 2 by 2";
        assert_eq!(told(&[FULL]), [format!("here: 1 of {full}")]);
        assert_eq!(told(&[HALF; 3]), [format!("here: 3 of {half}")]);
        let mixed = [
            "here: 4".to_string(),
            format!("  0: {full}"),
            format!("  1-2: {half}"),
            format!("  3: {full}"),
        ];
        assert_eq!(told(&[FULL, HALF, HALF, FULL]), mixed);
    }

    #[test]
    fn a_refusal_is_told_in_their_place() {
        for (components, number) in [(vec![], 24), (vec![FULL, [7, 0, 1]], 25)] {
            let told = told(&components);
            assert_eq!(told.len(), 1);
            assert!(told[0].starts_with(&format!("here: refused {number} 2: ")));
        }
    }
}
