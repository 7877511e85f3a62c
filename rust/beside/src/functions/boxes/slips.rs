//! The list by the model, and what may go wrong with it, all of which has to show.

use super::List;
use crate::model::boxes::{
    box_rows, list_boxes, BoxEntry, Found, Line, BOX_ROW, DEEPEST, LINES, SUPERBOXES,
};
use crate::model::Refusal;

type Listed = Result<Vec<BoxEntry>, Refusal>;

fn told(listed: Listed, table: &mut [u8], value: &mut u64) -> u32 {
    let fitting = listed.and_then(|boxes| {
        Refusal::unless_it_has(table.len() / BOX_ROW, boxes.len())?;
        Ok(boxes)
    });
    match fitting {
        Ok(boxes) => {
            let rows = box_rows(&boxes);
            table[..rows.len()].copy_from_slice(&rows);
            *value = boxes.len() as u64;
            0
        }
        Err(refusal) => {
            *value = refusal.place;
            refusal.number
        }
    }
}

pub const RIGHT: List = |file, table, value| told(list_boxes(file), table, value);

/// The model's walk, with what may be done otherwise in it.
struct Walk {
    lines: [Line; 6],
    /// What is made of what stands there.
    seen: fn(Found) -> Found,
    /// Whether the list ends before what stands there.
    ends: fn(&Found) -> bool,
    opens: fn(&Found) -> bool,
    parents_last: bool,
}

const WALK: Walk = Walk {
    lines: LINES,
    seen: |found| found,
    ends: |_| false,
    opens: Found::holds_boxes,
    parents_last: false,
};

impl Walk {
    fn listed(&self, file: &[u8]) -> Listed {
        let mut listed = Vec::new();
        self.list(file, 1, 0, &mut listed)?;
        Ok(listed)
    }

    fn list(
        &self,
        within: &[u8],
        depth: u8,
        start: u64,
        listed: &mut Vec<BoxEntry>,
    ) -> Result<(), Refusal> {
        let mut at = start;
        while at < within.len() as u64 {
            let found = (self.seen)(Found::new(within, depth, at));
            if (self.ends)(&found) {
                break;
            }
            if let Some((number, _)) = self.lines.iter().find(|(_, fits)| fits(&found)) {
                return Err(Refusal::new(*number, at));
            }
            let entry = found.entry();
            let place = listed.len();
            if (self.opens)(&found) {
                let content = &within[..entry.end() as usize];
                self.list(content, depth + 1, entry.content, listed)?;
            }
            listed.insert(
                if self.parents_last {
                    listed.len()
                } else {
                    place
                },
                entry,
            );
            at = entry.end();
        }
        Ok(())
    }
}

/// By another walk.
macro_rules! walking {
    ($($field:ident: $other:expr),*) => {
        |file, table, value| {
            const OTHER: Walk = Walk { $($field: $other,)* ..WALK };
            told(OTHER.listed(file), table, value)
        }
    };
}

/// Of other boxes.
macro_rules! listing {
    ($change:expr) => {
        |file, table, value| {
            let other = list_boxes(file).map(|mut boxes| {
                let change: fn(&mut Vec<BoxEntry>) = $change;
                change(&mut boxes);
                boxes
            });
            told(other, table, value)
        }
    };
}

/// Of each box another.
macro_rules! entering {
    ($change:expr) => {
        listing!(|boxes| {
            let change: fn(&mut BoxEntry) = $change;
            boxes.iter_mut().for_each(change);
        })
    };
}

/// Of another refusal.
macro_rules! refusing {
    ($change:expr) => {
        |file, table, value| {
            let change: fn(&[u8], Refusal) -> Refusal = $change;
            let other = list_boxes(file).map_err(|refusal| change(file, refusal));
            told(other, table, value)
        }
    };
}

/// Two lines in each other's place.
const fn swapped(one: usize, other: usize) -> [Line; 6] {
    let mut lines = LINES;
    lines[one] = LINES[other];
    lines[other] = LINES[one];
    lines
}

/// Another line in the place of one.
const fn with(at: usize, line: Line) -> [Line; 6] {
    let mut lines = LINES;
    lines[at] = line;
    lines
}

fn passes(found: &Found) -> bool {
    found.at.checked_add(found.length).is_some() && found.length > found.left
}

fn clipped(found: Found) -> Found {
    match passes(&found) {
        true => Found {
            length: found.left,
            ..found
        },
        false => found,
    }
}

/// So many of those below are what laws speak of.
pub const BY_LAWS: usize = 19;

pub const WRONG: [List; 48] = [
    // a box listed twice, the last not, and all at the top before the others
    listing!(|boxes| boxes.extend(boxes.last().copied())),
    listing!(|boxes| {
        boxes.pop();
    }),
    listing!(|boxes| boxes.sort_by_key(|entry| entry.depth)),
    // children before the parent
    walking!(parents_last: true),
    // none opened, one type not, and one of the longer form not
    walking!(opens: |_| false),
    walking!(opens: |found| found.holds_boxes() && found.kind != SUPERBOXES[0]),
    walking!(opens: |found| found.holds_boxes() && found.kind != SUPERBOXES[1]),
    walking!(opens: |found| found.holds_boxes() && found.kind != SUPERBOXES[2]),
    walking!(opens: |found| found.holds_boxes() && found.header == 8),
    // one that goes to the file's end not, and those at the top alone
    walking!(opens: |found| found.holds_boxes() && found.said != 0),
    walking!(opens: |found| found.holds_boxes() && found.depth == 1),
    // depths from 0, all the same; the shorter header always; a length with its header; where a box ends
    entering!(|entry| entry.depth -= 1),
    entering!(|entry| entry.depth = 1),
    entering!(|entry| entry.content = entry.start + 8),
    entering!(|entry| entry.length += entry.content - entry.start),
    entering!(|entry| entry.start = entry.end()),
    entering!(|entry| entry.kind.reverse()),
    // length 0 taken inside, and a rest of a list passed over
    walking!(lines: with(2, (28, |found| found.length < found.header))),
    walking!(ends: |found| found.left < 8),
    // children of uuid listed, and of any box that could have some
    walking!(opens: |found| found.holds_boxes() || found.kind == *b"uuid"),
    walking!(opens: |found| found.length > found.header && found.depth < DEEPEST),
    // a child past its parent clipped to it, and a box past the file
    walking!(seen: |found| if found.depth > 1 { clipped(found) } else { found }),
    walking!(seen: |found| if found.depth == 1 { clipped(found) } else { found }),
    // 27 before 13, 13 before 27, 28 before 13, 16 after 27; 29 before 27, 16 and 28
    walking!(lines: with(1, (27, |found| found.said == 1 && found.left < 16))),
    walking!(lines: swapped(0, 1)),
    walking!(lines: swapped(1, 2)),
    walking!(lines: swapped(3, 4)),
    walking!(lines: swapped(4, 5)),
    walking!(lines: swapped(3, 5)),
    walking!(lines: swapped(2, 5)),
    // depth 9 opened, 8 not, and an empty superbox refused there
    walking!(lines: with(5, (29, |found| found.holds_boxes() && found.depth == 9))),
    walking!(lines: with(5, (29, |found| found.holds_boxes() && found.depth == 7))),
    walking!(lines: with(5, (29, |found| {
        SUPERBOXES.contains(&found.kind) && found.depth == DEEPEST
    }))),
    // length 0 refused at the top, an empty box refused, and 16 one early
    walking!(lines: with(2, (28, |found| found.said == 0 || found.length < found.header))),
    walking!(lines: with(2, (28, |found| {
        found.said == 0 && found.depth > 1 || found.length <= found.header
    }))),
    walking!(lines: with(3, (16, |found| u64::MAX - found.at <= found.length))),
    // a rest passed over at the top alone
    walking!(ends: |found| found.left < 8 && found.depth == 1),
    // one number for another, and other places
    refusing!(|_, refusal| match refusal.number {
        28 => Refusal::new(27, refusal.place),
        _ => refusal,
    }),
    refusing!(|_, refusal| match refusal.number {
        29 => Refusal::new(27, refusal.place),
        _ => refusal,
    }),
    refusing!(|file, refusal| Refusal::new(refusal.number, file.len() as u64)),
    refusing!(|_, refusal| Refusal::new(refusal.number, refusal.place.saturating_sub(8))),
    // 18 before all else, with the rows there are, and for a table that has just as many
    |file, table, value| match list_boxes(file) {
        Err(_) if table.is_empty() => told(Err(Refusal::new(18, 1)), table, value),
        listed => told(listed, table, value),
    },
    |file, table, value| match RIGHT(file, table, value) {
        18 => {
            *value = (table.len() / BOX_ROW) as u64;
            18
        }
        status => status,
    },
    |file, table, value| {
        let whole = table.len().saturating_sub(1);
        RIGHT(file, &mut table[..whole], value)
    },
    // what has to stay: all where there is a refusal, and what is behind the rows
    |file, table, value| match RIGHT(file, table, value) {
        0 => 0,
        status => {
            table.fill(0);
            status
        }
    },
    |file, table, value| {
        let status = RIGHT(file, table, value);
        if status == 0 {
            table[BOX_ROW * *value as usize..].fill(0);
        }
        status
    },
    // the number left as it was, and the least significant byte first
    |file, table, value| {
        let before = *value;
        let status = RIGHT(file, table, value);
        if status == 0 {
            *value = before;
        }
        status
    },
    |file, table, value| {
        let status = RIGHT(file, table, value);
        if status == 0 {
            let (rows, _) = table.as_chunks_mut::<BOX_ROW>();
            for row in &mut rows[..*value as usize] {
                row[5..13].reverse();
            }
        }
        status
    },
];

/// 28 after 16: no box is shorter than its header and passes 2^64-1.
pub const ALIKE: List = walking!(lines: swapped(2, 3));
