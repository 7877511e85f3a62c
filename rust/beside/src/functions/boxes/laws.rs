//! What has to hold of the list of boxes, by its own answers: boxes adjoin, and those that a superbox holds fill
//! it; starts rise; a box's header in the file says its row; a tree that is written is listed as it is; and the
//! search finds the first jp2c that is listed at the top.

use probe::host;

use super::List;
use crate::model::boxes::{boxes_of, BoxEntry, BOX_ROW, SUPERBOXES};
use crate::model::read;
use crate::model::reader::{JP2C, SIGNATURE};
use crate::sample::trees::{bytes, entries, Tree};
use crate::tally::{hex_of_front, Tally};
use crate::wanted::{AS_BUILT, FILLED, FIRST_FOUND, NONE_FOUND, READ_BACK, RISING};

/// What is listed, with a table that has as many rows as were asked for; nothing where the file is refused.
fn listed(list: List, file: &[u8]) -> Option<Vec<BoxEntry>> {
    let mut boxes = 0;
    match list(file, &mut [], &mut boxes) {
        0 | 18 => {}
        _ => return None,
    }
    let mut table = vec![0xEE; BOX_ROW * boxes as usize];
    let status = list(file, &mut table, &mut boxes);
    let whole = status == 0 && BOX_ROW * boxes as usize == table.len();
    whole.then(|| boxes_of(&table))
}

/// Of a file that is listed.
pub fn check(tally: &mut Tally, list: List, file: &[u8]) {
    let Some(boxes) = listed(list, file) else {
        return;
    };
    let input = || hex_of_front(file);
    let end = fill(&boxes, 1, 0).map(|(end, behind)| (end, behind.len()));
    tally.compare_by_the_document(FILLED, &end, &Some((file.len() as u64, 0)), input);
    let rising = boxes.is_sorted_by(|one, next| one.start < next.start);
    tally.compare_by_the_document(RISING, &rising, &true, input);
    let other = boxes.iter().find(|entry| !says(file, entry));
    tally.compare_by_the_document(READ_BACK, &other, &None, input);
    if file.starts_with(&SIGNATURE) {
        searched(tally, file, &boxes);
    }
}

/// A list from its start on: where it ends, and the boxes that are listed behind it, or nothing where one does
/// not start where the one before ends, or is not filled.
fn fill(boxes: &[BoxEntry], depth: u8, start: u64) -> Option<(u64, &[BoxEntry])> {
    let (mut at, mut rest) = (start, boxes);
    while let [entry, behind @ ..] = rest {
        if entry.depth < depth {
            break;
        }
        if (entry.depth, entry.start) != (depth, at) {
            return None;
        }
        at = entry.end();
        rest = behind;
        if SUPERBOXES.contains(&entry.kind) {
            let (end, behind) = fill(rest, depth + 1, entry.content)?;
            if end != at {
                return None;
            }
            rest = behind;
        }
    }
    Some((at, rest))
}

/// Whether what stands in the file says this row.
fn says(file: &[u8], entry: &BoxEntry) -> bool {
    let field = |behind: u64, size| read(file, entry.start + behind, size);
    let kind = u64::from(u32::from_be_bytes(entry.kind));
    let (header, end) = match field(0, 4) {
        Some(0) if entry.depth == 1 => (8, Some(file.len() as u64)),
        Some(1) => (16, field(8, 8).map(|length| entry.start + length)),
        Some(length @ 8..) => (8, Some(entry.start + length)),
        _ => return false,
    };
    field(4, 4) == Some(kind) && entry.content == entry.start + header && Some(entry.end()) == end
}

/// By the archive's own search.
fn searched(tally: &mut Tally, file: &[u8], boxes: &[BoxEntry]) {
    let mut values = [0; 2];
    let status = host::find_codestream(file, &mut values);
    let mut at_the_top = boxes.iter().filter(|entry| entry.depth == 1);
    let (label, expected) = match at_the_top.find(|entry| entry.kind == JP2C) {
        Some(first) => (FIRST_FOUND, (0, [first.content, first.length])),
        None => (NONE_FOUND, (14, [file.len() as u64, 0])),
    };
    tally.compare_by_the_document(label, &(status, values), &expected, || hex_of_front(file));
}

pub fn as_built(tally: &mut Tally, list: List, trees: &[Tree]) {
    let file = bytes(trees);
    let (ours, built) = (listed(list, &file), entries(trees));
    tally.compare_by_the_document(AS_BUILT, &ours, &Some(built), || hex_of_front(&file));
}

#[cfg(test)]
mod tests {
    use super::{as_built, check};
    use crate::functions::boxes::slips::{BY_LAWS, RIGHT, WRONG};
    use crate::functions::boxes::List;
    use crate::random::Random;
    use crate::sample::trees::{by_hand, bytes, file};
    use crate::tally::Tally;
    use crate::wanted::LAWS_OF_BOXES;

    fn holds(list: List) -> bool {
        let mut tally = Tally::new("f", 1, LAWS_OF_BOXES.answers);
        let random = &mut Random::new(6);
        for (file, _) in by_hand() {
            check(&mut tally, list, &file);
        }
        for _ in 0..300 {
            let trees = file(random);
            as_built(&mut tally, list, &trees);
            check(&mut tally, list, &bytes(&trees));
        }
        tally.holds()
    }

    /// Those that a law speaks of: none says what is refused, but of a tree that is sound.
    #[test]
    fn another_list_shows() {
        assert!(holds(RIGHT));
        for (at, list) in WRONG[..BY_LAWS].iter().enumerate() {
            assert!(!holds(*list), "{at}");
        }
    }
}
