//! `winterhasp grid`: the tiles as a picture in SVG, so that holes are seen at a glance.

use std::fmt::Write;
use std::path::Path;

use winterhasp::{scan_sot_markers, TilePart};

use crate::arguments;
use crate::contents::Contents;
use crate::names::shown;
use crate::output::Destination;
use crate::siz::{Grid, Siz, MOST_TILES};
use crate::stages::{Accepted, End, Stopped};
use crate::svg::{tenths, Svg};
use crate::tiles::{ranges_text, Tile, Tiles};
use crate::trouble::{sentence, Status, Trouble};

pub fn grid(arguments: &arguments::Grid) -> Result<Status, Trouble> {
    let path = &arguments.file;
    let contents = Contents::open(path)?;
    let destination = Destination::new(&arguments.out, contents.metadata())?;
    let picture = Picture::of(path, contents.bytes());
    contents.unchanged(path)?;
    destination.write(picture?.svg().as_bytes())?;
    Ok(Status::Accepted)
}

type Scanned<'a> = Accepted<'a, Vec<TilePart>>;

struct Picture {
    cells: Cells,
    tiles: Vec<Tile>,
    shades: Shades,
    legend: Vec<String>,
    warnings: Vec<String>,
}

impl Picture {
    fn of(path: &Path, file: &[u8]) -> Result<Self, Trouble> {
        let accepted = Accepted::of(file, scan_sot_markers);
        let accepted = accepted.map_err(|(why, at)| Trouble::refused(path, sentence(why, at)))?;
        let siz = Siz::of(&accepted.header.decode_header);
        let siz = siz
            .ok_or_else(|| Trouble::refused(path, "SIZ ends before its tiles; nothing is drawn"))?;
        let grid = siz.grid();
        let grid =
            grid.ok_or_else(|| Trouble::refused(path, "its tiles make no grid; nothing is drawn"))?;
        if grid.tiles() > MOST_TILES {
            let count = grid.tiles();
            let why = format!("its grid has {count} tiles, more than the {MOST_TILES} that an index can name; nothing is drawn");
            return Err(Trouble::refused(path, why));
        }
        let tiles = Tiles::of(accepted.parts.iter().copied());
        let inside = tiles.inside(grid).to_vec();
        Ok(Picture {
            cells: Cells::of(grid, &siz, &inside),
            shades: Shades::of(&inside),
            legend: legend(path, &accepted, &siz, grid, &tiles),
            warnings: warnings(&accepted, grid, &tiles),
            tiles: inside,
        })
    }

    /// The legend stands above, where it is seen first, whatever the grid's height.
    fn svg(&self) -> String {
        let [legend_width, legend_height] = self.legend_size();
        let [grid_width, grid_height] = self.cells.whole();
        let width = LEFT + grid_width.max(legend_width) + MARGIN;
        let height = legend_height + TOP + grid_height + MARGIN;
        let mut svg = Svg::new(width, height, &looks(&self.cells));
        self.draw_legend(&mut svg);
        svg.open_below(legend_height);
        self.draw_axes(&mut svg);
        self.draw_tiles(&mut svg);
        self.draw_texts(&mut svg);
        svg.close()
    }

    fn legend_size(&self) -> [f64; 2] {
        let lines = || self.legend.iter().chain(&self.warnings);
        let longest = lines().map(|line| line.chars().count()).max();
        let width = longest.unwrap_or(0) as f64 * LETTER;
        let height = MARGIN + lines().count() as f64 * LINE + SCALE_HEIGHT;
        [width.max(SCALE_WIDTH), height]
    }

    /// Numbers of columns and rows, as many as there is room for.
    fn draw_axes(&self, svg: &mut Svg) {
        let Cells {
            grid, cell: [w, h], ..
        } = self.cells;
        let digits = (grid.columns - 1).to_string().len() as f64;
        for column in (0..grid.columns).step_by(step(w, digits * LETTER + 8.0)) {
            let x = LEFT + (column as f64 + 0.5) * w;
            svg.text(x, TOP - 6.0, "axis middle", &column.to_string());
        }
        for row in (0..grid.rows).step_by(step(h, LINE)) {
            let y = TOP + (row as f64 + 0.5) * h + 4.0;
            svg.text(LEFT - 6.0, y, "axis end", &row.to_string());
        }
    }

    /// A path for each shade, of runs along a row: tens of thousands of tiles stay a small file.
    fn draw_tiles(&self, svg: &mut Svg) {
        // Holes last, so that their edges lie above all else.
        for shade in (0..=SHADES.len()).rev() {
            let mut path = String::new();
            for (row, tiles) in self.rows() {
                let mut first = 0;
                for run in tiles
                    .chunk_by(|one, other| self.shades.of_tile(one) == self.shades.of_tile(other))
                {
                    if run
                        .first()
                        .is_some_and(|tile| self.shades.of_tile(tile) == shade)
                    {
                        path.push_str(&self.cells.run(row, first, run.len()));
                    }
                    first += run.len();
                }
            }
            if shade == HOLE {
                svg.path("lines", &self.cells.lines());
            }
            if !path.is_empty() {
                svg.path(&class(shade), &path);
            }
        }
    }

    /// The number of parts in each tile, and its index above, where there is room.
    fn draw_texts(&self, svg: &mut Svg) {
        let Some(size) = self.cells.letters() else {
            return;
        };
        let indices = self.cells.cell.iter().all(|&side| side >= INDEX_SIDE);
        for (row, tiles) in self.rows() {
            for (column, tile) in tiles.iter().enumerate() {
                let [x, y] = self.cells.corner(row, column);
                let [w, h] = self.cells.cell;
                let ink = self.shades.ink(tile);
                let class = format!("parts middle {ink}");
                svg.text(
                    x + w / 2.0,
                    y + h / 2.0 + size / 3.0,
                    &class,
                    &tile.parts.to_string(),
                );
                if indices {
                    let index = row * self.cells.columns() + column;
                    svg.text(
                        x + 4.0,
                        y + 13.0,
                        &format!("index {ink}"),
                        &index.to_string(),
                    );
                }
            }
        }
    }

    fn rows(&self) -> impl Iterator<Item = (usize, &[Tile])> {
        self.tiles.chunks(self.cells.columns()).enumerate()
    }

    fn draw_legend(&self, svg: &mut Svg) {
        let mut y = MARGIN;
        for (number, line) in self.legend.iter().enumerate() {
            let class = if number == 0 { "name" } else { "legend" };
            svg.text(LEFT, y, class, line);
            y += LINE;
        }
        for line in &self.warnings {
            svg.text(LEFT, y, "warning", line);
            y += LINE;
        }
        self.draw_scale(svg, y - BOX / 2.0);
    }

    /// What the shades mean.
    fn draw_scale(&self, svg: &mut Svg, y: f64) {
        let mut x = LEFT;
        svg.rect([x, y], BOX, &class(HOLE));
        svg.text(x + BOX + 6.0, y + 14.0, "legend", "no tile-part");
        x += BOX + 110.0;
        let Shades { fewest, most } = self.shades;
        let fewest = format!("{fewest} bytes");
        svg.text(x, y + 14.0, "legend", &fewest);
        x += fewest.len() as f64 * LETTER + 6.0;
        for shade in 1..=SHADES.len() {
            svg.rect([x, y], BOX, &class(shade));
            x += BOX;
        }
        svg.text(x + 6.0, y + 14.0, "legend", &format!("{most} bytes"));
    }
}

// In pixels.
const LEFT: f64 = 52.0;
/// Of the grid, below the legend.
const TOP: f64 = 28.0;
const MARGIN: f64 = 20.0;
const LINE: f64 = 20.0;
const LETTER: f64 = 7.8;
const BOX: f64 = 20.0;
const SCALE_HEIGHT: f64 = 28.0;
const SCALE_WIDTH: f64 = 640.0;
/// The picture is no larger than this, unless its cells would get too small.
const ROOM: [f64; 2] = [1200.0, 900.0];
const SMALLEST_CELL: f64 = 5.0;
const LARGEST_CELL: f64 = 140.0;
const SMALLEST_LETTERS: f64 = 9.0;
const LARGEST_LETTERS: f64 = 28.0;
const INDEX_SIDE: f64 = 46.0;
const LINES_FROM: f64 = 8.0;

/// Each tile is a cell of the same size, those at the edge too: a hole there is as easily seen.
struct Cells {
    grid: Grid,
    cell: [f64; 2],
    /// Of the largest number that is written in one.
    digits: usize,
}

impl Cells {
    fn of(grid: Grid, siz: &Siz, tiles: &[Tile]) -> Self {
        // As wide and high as a tile, if that is not too far from a square.
        let [width, height] = siz.tile.map(|side| side as f64);
        let shape = (width / height).clamp(0.5, 2.0);
        let wide = (ROOM[0] / grid.columns as f64).min(ROOM[1] / grid.rows as f64 * shape);
        let least = SMALLEST_CELL * shape.max(1.0);
        let wide = wide.clamp(least, LARGEST_CELL * shape.min(1.0));
        Cells {
            grid,
            cell: [tenths(wide), tenths(wide / shape)],
            digits: most_parts(tiles).to_string().len(),
        }
    }

    fn columns(&self) -> usize {
        usize::try_from(self.grid.columns).unwrap_or(usize::MAX)
    }

    fn whole(&self) -> [f64; 2] {
        [
            self.grid.columns as f64 * self.cell[0],
            self.grid.rows as f64 * self.cell[1],
        ]
    }

    fn corner(&self, row: usize, column: usize) -> [f64; 2] {
        [
            LEFT + column as f64 * self.cell[0],
            TOP + row as f64 * self.cell[1],
        ]
    }

    fn run(&self, row: usize, first: usize, count: usize) -> String {
        let [x, y] = self.corner(row, first).map(tenths);
        let [w, h] = self.cell;
        format!(
            "M{x} {y}h{}v{h}h-{}z",
            tenths(w * count as f64),
            tenths(w * count as f64)
        )
    }

    /// Between cells, where these are large enough to be told apart; around them in any case.
    fn lines(&self) -> String {
        let [width, height] = self.whole().map(tenths);
        let mut path = format!("M{LEFT} {TOP}h{width}v{height}h-{width}z");
        let [w, h] = self.cell;
        if w.min(h) < LINES_FROM {
            return path;
        }
        for column in 1..self.grid.columns {
            let _ = write!(path, "M{} {TOP}v{height}", tenths(LEFT + column as f64 * w));
        }
        for row in 1..self.grid.rows {
            let _ = write!(path, "M{LEFT} {}h{width}", tenths(TOP + row as f64 * h));
        }
        path
    }

    /// How large a number in a cell is; nothing where it could not be read.
    fn letters(&self) -> Option<f64> {
        let [w, h] = self.cell;
        let wide = w / (0.7 * self.digits as f64 + 1.2);
        let size = tenths(wide.min(h / 1.8)).min(LARGEST_LETTERS);
        (size >= SMALLEST_LETTERS).then_some(size)
    }
}

fn most_parts(tiles: &[Tile]) -> u64 {
    tiles.iter().map(|tile| tile.parts).max().unwrap_or(0)
}

/// A step of 1, 2, 5, 10, .. by which labels of that size do not meet.
fn step(cell: f64, label: f64) -> usize {
    let steps = (0..).flat_map(|power| [1, 2, 5].map(|digit| digit * 10_usize.pow(power)));
    let mut wide = steps.take_while(|&step| step < 1_000_000);
    wide.find(|&step| step as f64 * cell >= label)
        .unwrap_or(1_000_000)
}

/// From few bytes to many.
const SHADES: [&str; 8] = [
    "#e3eef9", "#c6dbef", "#9ecae1", "#6baed6", "#4292c6", "#2171b5", "#08519c", "#08306b",
];
const FIRST_DARK: usize = 5;
/// In place of a shade, for a tile with no part.
const HOLE: usize = 0;

/// The bytes of the smallest and of the largest tile that is there.
struct Shades {
    fewest: u64,
    most: u64,
}

impl Shades {
    fn of(tiles: &[Tile]) -> Self {
        let there = || tiles.iter().filter(|tile| tile.parts > 0);
        let bytes = || there().map(|tile| tile.bytes);
        Shades {
            fewest: bytes().min().unwrap_or(0),
            most: bytes().max().unwrap_or(0),
        }
    }

    /// From 1 on, in even steps; 0 for a tile with no part.
    fn of_tile(&self, tile: &Tile) -> usize {
        if tile.parts == 0 {
            return HOLE;
        }
        let reach = (self.most - self.fewest) as f64;
        let part = tile.bytes.saturating_sub(self.fewest) as f64 / reach.max(1.0);
        1 + ((part * SHADES.len() as f64) as usize).min(SHADES.len() - 1)
    }

    /// What is read well on it.
    fn ink(&self, tile: &Tile) -> &'static str {
        match self.of_tile(tile) {
            HOLE => "halo",
            shade if shade < FIRST_DARK => "dark",
            _ => "light",
        }
    }
}

fn class(shade: usize) -> String {
    format!("s{shade}")
}

/// The file's name and totals.
fn legend(path: &Path, accepted: &Scanned, siz: &Siz, grid: Grid, tiles: &Tiles) -> Vec<String> {
    let [x, y] = siz.image().unwrap_or(siz.size);
    let [w, h] = siz.tile;
    let Grid { columns, rows } = grid;
    let (count, present) = (grid.tiles(), tiles.present(grid));
    let parts = accepted.parts.len();
    let bytes: u64 = accepted.parts.iter().map(|part| part.length).sum();
    vec![
        shortened(&shown(path)),
        format!("image {x} by {y}, tiles {w} by {h}, grid {columns} by {rows}"),
        format!("{present} of {count} tiles present, {parts} tile-parts, {bytes} bytes"),
        "a cell is a tile, with its number of tile-parts; index = row * columns + column"
            .to_string(),
    ]
}

fn warnings(accepted: &Scanned, grid: Grid, tiles: &Tiles) -> Vec<String> {
    const MOST: usize = 8;
    let mut warnings = Vec::new();
    let missing = tiles.missing(grid).unwrap_or_default();
    if !missing.is_empty() {
        let count = grid.tiles() - tiles.present(grid);
        warnings.push(format!("missing {count}: {}", ranges_text(&missing, MOST)));
    }
    let outside = tiles.outside(grid);
    if !outside.is_empty() {
        let outside = ranges_text(&outside, MOST);
        warnings.push(format!(
            "not drawn, as they lie outside the grid: {outside}"
        ));
    }
    let last = accepted.parts.last();
    let end = last.and_then(|last| End::of(accepted.codestream.bytes, last));
    if let Some(end) = end.filter(|end| matches!(end.what, Stopped::AtOther(_))) {
        let End { at, unread, .. } = end;
        warnings.push(format!(
            "the scan ended at other bytes, at {at}: {unread} bytes are left unread"
        ));
    }
    warnings
}

/// The beginning and the end of a long name.
fn shortened(name: &str) -> String {
    const MOST: usize = 100;
    let letters: Vec<char> = name.chars().collect();
    if letters.len() <= MOST {
        return name.to_string();
    }
    let (first, last) = (&letters[..MOST / 2], &letters[letters.len() - MOST / 2..]);
    first.iter().chain(&['…']).chain(last).collect()
}

/// How the classes look, and the hatch of a hole.
fn looks(cells: &Cells) -> String {
    let hatch = tenths((cells.cell[0].min(cells.cell[1]) / 3.0).clamp(2.0, 8.0));
    let line = tenths(hatch / 2.5);
    // Where a cell holds one or two lines of the hatch, its ground has to be seen too.
    let ground = if hatch < 4.0 { "#ffb347" } else { "#fff1e6" };
    let letters = cells.letters().unwrap_or(SMALLEST_LETTERS);
    let shades = SHADES.iter().enumerate();
    let shades: String = shades
        .map(|(number, shade)| format!(".s{}{{fill:{shade}}}", number + 1))
        .collect();
    format!(
        "<defs><pattern id=\"hole\" width=\"{hatch}\" height=\"{hatch}\" patternUnits=\"userSpaceOnUse\" \
         patternTransform=\"rotate(45)\"><rect width=\"{hatch}\" height=\"{hatch}\" fill=\"{ground}\"/>\
         <rect width=\"{line}\" height=\"{hatch}\" fill=\"#d7301f\"/></pattern></defs>\n\
         <style>text{{font-family:sans-serif;font-size:14px;fill:#222}}\
         .name{{font-weight:bold}}.axis{{font-size:12px;fill:#555}}.index{{font-size:11px}}\
         .parts{{font-size:{letters}px;font-weight:bold}}.middle{{text-anchor:middle}}.end{{text-anchor:end}}\
         .light{{fill:#fff}}.halo{{paint-order:stroke;stroke:#fff;stroke-width:4px;stroke-linejoin:round}}\
         .warning{{fill:#b30000;font-weight:bold}}.lines{{fill:none}}.lines,.box{{stroke:#555;stroke-width:.7}}\
         .s{HOLE}{{fill:url(#hole);stroke:#d7301f;stroke-width:1.5}}{shades}</style>\n"
    )
}

#[cfg(test)]
mod tests {
    use super::{shortened, step, Cells, Shades, Tile, HOLE, SHADES};
    use crate::siz::{Grid, Siz};

    const SAMPLE: &[u8] = include_bytes!("../../../crates/tileparts/stdin");

    fn cells(columns: u64, rows: u64) -> Cells {
        let siz = Siz::of(SAMPLE).expect("a whole SIZ");
        Cells::of(Grid { columns, rows }, &siz, &[])
    }

    #[test]
    fn numbers_are_written_only_where_they_can_be_read() {
        assert!(cells(2, 2).letters().is_some());
        assert!(cells(20, 15).letters().is_some());
        assert!(cells(255, 257).letters().is_none());
        assert!(cells(65_535, 1).cell.iter().all(|&side| side >= 5.0));
    }

    #[test]
    fn labels_do_not_meet() {
        for (cell, label) in [(140.0, 30.0), (3.0, 47.0), (0.1, 47.0), (0.0, 1.0)] {
            let step = step(cell, label);
            assert!(step == 1_000_000 || step as f64 * cell >= label);
        }
    }

    #[test]
    fn shades_go_from_the_fewest_bytes_to_the_most() {
        let tile = |bytes| Tile { parts: 1, bytes };
        let shades = Shades::of(&[tile(14), Tile::default(), tile(100)]);
        assert_eq!(shades.of_tile(&Tile::default()), HOLE);
        assert_eq!(shades.of_tile(&tile(14)), 1);
        assert_eq!(shades.of_tile(&tile(100)), SHADES.len());
        assert_eq!(Shades::of(&[tile(14)]).of_tile(&tile(14)), 1);
    }

    #[test]
    fn a_long_name_is_cut_in_its_middle() {
        assert_eq!(shortened(&"x".repeat(300)).chars().count(), 101);
    }
}
