//! Trees of boxes: what is listed of them by hand, random ones with the list that is to come of each, ones
//! whose lengths were edited, and long ones.

use super::boxes::{extended, fitting, saying, FREE};
use crate::model::boxes::{BoxEntry, DEEPEST, SUPERBOXES};
use crate::model::reader::{JP2C, SIGNATURE};
use crate::random::Random;

pub const JP2H: [u8; 4] = SUPERBOXES[0];
pub const RES: [u8; 4] = SUPERBOXES[1];
pub const UINF: [u8; 4] = SUPERBOXES[2];
pub const UUID: [u8; 4] = *b"uuid";
/// Of no superbox; the last ones nearly of one.
const PLAIN: [[u8; 4]; 8] = [
    FREE, JP2C, UUID, *b"ihdr", *b"jp2i", *b"res\0", *b"JP2H", *b"uing",
];

/// How a box says its length.
#[derive(Debug, Clone, Copy, PartialEq)]
pub enum Form {
    Short,
    Extended,
    /// With 0; right of the file's last box alone.
    ToTheEnd,
}

#[derive(Debug, Clone)]
pub enum Content {
    Bytes(Vec<u8>),
    /// Of a superbox.
    Boxes(Vec<Tree>),
}

#[derive(Debug, Clone)]
pub struct Tree {
    pub kind: [u8; 4],
    pub form: Form,
    pub content: Content,
}

impl Tree {
    fn plain(kind: [u8; 4], content: &[u8]) -> Self {
        Tree {
            kind,
            form: Form::Short,
            content: Content::Bytes(content.to_vec()),
        }
    }

    fn superbox(kind: [u8; 4], boxes: Vec<Tree>) -> Self {
        Tree {
            kind,
            form: Form::Short,
            content: Content::Boxes(boxes),
        }
    }

    fn bytes(&self) -> Vec<u8> {
        let content = match &self.content {
            Content::Bytes(bytes) => bytes.clone(),
            Content::Boxes(boxes) => bytes(boxes),
        };
        match self.form {
            Form::Short => fitting(self.kind, &content),
            Form::Extended => extended(self.kind, 16 + content.len() as u64, &content),
            Form::ToTheEnd => saying(self.kind, 0, &content),
        }
    }

    /// At a depth and a place, with all that it holds; gives where it ends.
    fn list(&self, depth: u8, start: u64, listed: &mut Vec<BoxEntry>) -> u64 {
        let content = match self.form {
            Form::Extended => start + 16,
            _ => start + 8,
        };
        let place = listed.len();
        listed.push(BoxEntry {
            depth,
            kind: self.kind,
            start,
            content,
            length: 0,
        });
        let end = match &self.content {
            Content::Bytes(bytes) => content + bytes.len() as u64,
            Content::Boxes(boxes) => list(boxes, depth + 1, content, listed),
        };
        listed[place].length = end - content;
        end
    }
}

pub fn bytes(trees: &[Tree]) -> Vec<u8> {
    trees.iter().flat_map(Tree::bytes).collect()
}

/// What is to be listed of a file of these.
pub fn entries(trees: &[Tree]) -> Vec<BoxEntry> {
    let mut listed = Vec::new();
    list(trees, 1, 0, &mut listed);
    listed
}

fn list(trees: &[Tree], depth: u8, start: u64, listed: &mut Vec<BoxEntry>) -> u64 {
    let next = |at, tree: &Tree| tree.list(depth, at, listed);
    trees.iter().fold(start, next)
}

/// A file's boxes, at any depth to 8; often behind the signature, and often with a last one that goes to the
/// file's end.
pub fn file(random: &mut Random) -> Vec<Tree> {
    let mut trees = match random.below(4) {
        0 => {
            let depth = 1 + random.below(DEEPEST.into()) as u8;
            let boxes = boxes(random, depth);
            held(random, boxes, depth)
        }
        _ => boxes(random, 1),
    };
    if random.once_in(2) {
        trees.insert(0, Tree::plain(*b"jP  ", &SIGNATURE[8..]));
    }
    if let Some(last) = trees.last_mut().filter(|_| random.once_in(3)) {
        last.form = Form::ToTheEnd;
    }
    trees
}

/// A superbox with content at depth 8.
pub fn too_deep(random: &mut Random) -> Vec<Tree> {
    let inner = tree(random, DEEPEST);
    let kind = random.pick(&SUPERBOXES);
    let mut boxes = boxes(random, DEEPEST);
    boxes.insert(
        random.below(boxes.len() + 1),
        Tree::superbox(kind, vec![inner]),
    );
    held(random, boxes, DEEPEST)
}

/// At a depth, in superboxes that have others before and behind.
fn held(random: &mut Random, mut list: Vec<Tree>, depth: u8) -> Vec<Tree> {
    for above in (1..depth).rev() {
        let kind = random.pick(&SUPERBOXES);
        let mut around = match random.once_in(4) {
            true => boxes(random, above),
            false => Vec::new(),
        };
        let mut superbox = Tree::superbox(kind, list);
        superbox.form = short_or_not(random);
        around.insert(random.below(around.len() + 1), superbox);
        list = around;
    }
    list
}

/// A list of up to three at a depth.
fn boxes(random: &mut Random, depth: u8) -> Vec<Tree> {
    (0..random.below(4)).map(|_| tree(random, depth)).collect()
}

fn tree(random: &mut Random, depth: u8) -> Tree {
    let mut tree = match random.below(5) {
        0 | 1 if depth < DEEPEST => {
            let boxes = boxes(random, depth + 1);
            Tree::superbox(random.pick(&SUPERBOXES), boxes)
        }
        0 => Tree::superbox(random.pick(&SUPERBOXES), Vec::new()),
        // a box that is not to be looked into
        1 | 2 => {
            let content = Tree::plain(random.pick(&PLAIN), &[]).bytes();
            Tree::plain(random.pick(&PLAIN), &content)
        }
        _ => {
            let size = random.below(12);
            Tree::plain(random.pick(&PLAIN), &random.bytes(size))
        }
    };
    tree.form = short_or_not(random);
    tree
}

fn short_or_not(random: &mut Random) -> Form {
    random.pick(&[Form::Short, Form::Short, Form::Short, Form::Extended])
}

/// A copy in which one of its boxes says another length, or is of another type.
pub fn edited(random: &mut Random, file: &[u8], boxes: &[BoxEntry]) -> Vec<u8> {
    let mut copy = file.to_vec();
    if boxes.is_empty() {
        return copy;
    }
    let chosen = random.pick(boxes);
    let at = chosen.start as usize;
    let length = chosen.end() - chosen.start;
    let is_extended = chosen.content - chosen.start == 16;
    let near = length.wrapping_add(random.below(17) as u64).wrapping_sub(8);
    let small = random.below(40) as u64;
    match random.below(8) {
        0 => copy[at + 4..at + 8].copy_from_slice(&random.pick(&SUPERBOXES)),
        1 => copy[at + 4..at + 8].copy_from_slice(&random.pick(&PLAIN)),
        2..=5 if is_extended => {
            let far = u64::MAX - random.below(2 * file.len()) as u64;
            let any = random.spread();
            let said = random.pick(&[near, near, small, far, any]);
            copy[at + 8..at + 16].copy_from_slice(&said.to_be_bytes());
        }
        _ => {
            let far = u32::MAX - random.below(40) as u32;
            let said = random.pick(&[near as u32, near as u32, small as u32, far, 0, 1]);
            copy[at..at + 4].copy_from_slice(&said.to_be_bytes());
        }
    }
    copy
}

/// So many boxes at the top.
pub fn wide(count: usize, content: &[u8]) -> Vec<u8> {
    fitting(FREE, content).repeat(count)
}

/// So many boxes at least, as many at each depth: a list is boxes, a superbox with the next list, and boxes.
pub fn deep_and_wide(count: usize, content: &[u8]) -> Vec<u8> {
    let half = wide(count.div_ceil(2 * usize::from(DEEPEST)), content);
    let mut list = half.repeat(2);
    for depth in 1..usize::from(DEEPEST) {
        let superbox = fitting(SUPERBOXES[depth % 3], &list);
        list = [half.as_slice(), &superbox, &half].concat();
    }
    list
}

/// As writers lay a JP2 file out: ten boxes.
pub fn jp2() -> Vec<u8> {
    let resolution = Tree::superbox(
        RES,
        vec![
            Tree::plain(*b"resc", &[0, 72, 0, 1, 0, 72, 0, 1, 2, 2]),
            Tree::plain(*b"resd", &[0, 96, 0, 1, 0, 96, 0, 1, 2, 2]),
        ],
    );
    let header = Tree::superbox(
        JP2H,
        vec![
            Tree::plain(*b"ihdr", &[0, 0, 4, 0, 0, 0, 4, 0, 0, 3, 7, 7, 0, 0]),
            Tree::plain(*b"colr", &[1, 0, 0, 0, 0, 0, 16]),
            resolution,
        ],
    );
    let mut codestream = Tree::plain(JP2C, &[0xFF; 4_000]);
    codestream.form = Form::ToTheEnd;
    bytes(&[
        Tree::plain(*b"jP  ", &SIGNATURE[8..]),
        Tree::plain(*b"ftyp", b"jp2 \0\0\0\0jp2 "),
        header,
        Tree::plain(*b"xml ", &[b' '; 300]),
        codestream,
    ])
}

/// Boxes, or a refusal's number and place.
pub type Answer = Result<Vec<BoxEntry>, (u32, u64)>;

/// Files, and what the rule makes of them.
pub fn by_hand() -> Vec<(Vec<u8>, Answer)> {
    let mut cases = at_the_top();
    cases.extend(below_the_top());
    cases.extend(as_deep_as_may_be());
    cases.extend(first_in_the_file());
    cases
}

/// Depth, type, start, content, and its length.
fn ok(boxes: &[(u8, [u8; 4], u64, u64, u64)]) -> Answer {
    let entry = |&(depth, kind, start, content, length): &_| BoxEntry {
        depth,
        kind,
        start,
        content,
        length,
    };
    Ok(boxes.iter().map(entry).collect())
}

fn at_the_top() -> Vec<(Vec<u8>, Answer)> {
    let free = fitting(FREE, &[]);
    let behind = |last: Vec<u8>| [&free[..], &last].concat();
    let mut cases = vec![
        (Vec::new(), ok(&[])),
        (free.clone(), ok(&[(1, FREE, 0, 8, 0)])),
        (
            behind(fitting(JP2C, &[1, 2])),
            ok(&[(1, FREE, 0, 8, 0), (1, JP2C, 8, 16, 2)]),
        ),
        // to the file's end, and nothing left to it
        (saying(JP2C, 0, &[1; 5]), ok(&[(1, JP2C, 0, 8, 5)])),
        (
            behind(saying(JP2C, 0, &[])),
            ok(&[(1, FREE, 0, 8, 0), (1, JP2C, 8, 16, 0)]),
        ),
        // the longer form
        (extended(FREE, 16, &[]), ok(&[(1, FREE, 0, 16, 0)])),
        (extended(FREE, 17, &[1]), ok(&[(1, FREE, 0, 16, 1)])),
        (extended(FREE, 15, &[1]), Err((28, 0))),
        (extended(FREE, 0, &[1]), Err((28, 0))),
        (extended(FREE, 1, &[1]), Err((28, 0))),
        (extended(FREE, 18, &[1]), Err((27, 0))),
        // one that ends at 2^64-1 passes the file, one that ends behind any
        (extended(FREE, u64::MAX, &[]), Err((27, 0))),
        (behind(extended(FREE, u64::MAX - 8, &[])), Err((27, 8))),
        (behind(extended(FREE, u64::MAX - 7, &[])), Err((16, 8))),
        (behind(extended(FREE, u64::MAX, &[])), Err((16, 8))),
        (behind(extended(JP2H, u64::MAX, &[])), Err((16, 8))),
        // the shorter
        (saying(FREE, 9, &[]), Err((27, 0))),
        (saying(FREE, 9, &[1, 2]), Err((27, 9))),
        (saying(FREE, u32::MAX, &[1]), Err((27, 0))),
        (behind(saying(FREE, 10, &[1])), Err((27, 8))),
    ];
    for length in 2..8 {
        cases.push((saying(FREE, length, &[1]), Err((28, 0))));
        cases.push((behind(saying(JP2H, length, &[1])), Err((28, 8))));
    }
    for left in 1..8 {
        let front = [0, 0, 0, 1, 0, 0, 0];
        cases.push((front[..left].to_vec(), Err((27, 0))));
        cases.push((behind(front[..left].to_vec()), Err((27, 8))));
        // 8 to 15 bytes of the longer form
        let cut = saying(FREE, 1, &[0; 7][..left]);
        cases.push((behind(cut), Err((13, 8))));
    }
    cases.push((saying(FREE, 1, &[]), Err((13, 0))));
    cases
}

fn below_the_top() -> Vec<(Vec<u8>, Answer)> {
    let free = fitting(FREE, &[7]);
    let more = [8; 16];
    let holding = |content: &[u8]| fitting(JP2H, content);
    let before = |content: &[u8], behind: &[u8]| [&holding(content), behind].concat();
    let mut cases = vec![
        (holding(&[]), ok(&[(1, JP2H, 0, 8, 0)])),
        (
            [fitting(RES, &[]), free.clone()].concat(),
            ok(&[(1, RES, 0, 8, 0), (1, FREE, 8, 16, 1)]),
        ),
        // a superbox before what it holds, and that before what stands behind
        (
            before(&[free.clone(), fitting(UINF, &free)].concat(), &free),
            ok(&[
                (1, JP2H, 0, 8, 26),
                (2, FREE, 8, 16, 1),
                (2, UINF, 17, 25, 9),
                (3, FREE, 25, 33, 1),
                (1, FREE, 34, 42, 1),
            ]),
        ),
        // of the longer form, outside and inside, and to the file's end
        (
            extended(RES, 33, &extended(FREE, 17, &[7])),
            ok(&[(1, RES, 0, 16, 17), (2, FREE, 16, 32, 1)]),
        ),
        (
            saying(UINF, 0, &free),
            ok(&[(1, UINF, 0, 8, 9), (2, FREE, 8, 16, 1)]),
        ),
        // none but these are looked into
        (fitting(UUID, &free), ok(&[(1, UUID, 0, 8, 9)])),
        (fitting(*b"jp2i", &[1; 3]), ok(&[(1, *b"jp2i", 0, 8, 3)])),
        (fitting(*b"res\0", &[1; 3]), ok(&[(1, *b"res\0", 0, 8, 3)])),
        (
            holding(&fitting(UUID, &[1; 3])),
            ok(&[(1, JP2H, 0, 8, 11), (2, UUID, 8, 16, 3)]),
        ),
        // 0 is no length there
        (before(&saying(FREE, 0, &[1]), &more), Err((28, 8))),
        (holding(&saying(FREE, 0, &[])), Err((28, 8))),
        (holding(&saying(JP2H, 0, &free)), Err((28, 8))),
        (before(&saying(FREE, 7, &[1]), &more), Err((28, 8))),
        (before(&extended(FREE, 15, &[1]), &more), Err((28, 8))),
        // past what holds it, and not past the file
        (before(&saying(FREE, 10, &[1]), &more), Err((27, 8))),
        (before(&extended(FREE, 18, &[1]), &more), Err((27, 8))),
        (before(&saying(JP2H, 10, &[1]), &more), Err((27, 8))),
        (
            before(&fitting(RES, &saying(FREE, 10, &[1])), &free),
            Err((27, 16)),
        ),
        (
            before(&extended(FREE, u64::MAX - 8, &[1]), &more),
            Err((27, 8)),
        ),
        (
            before(&extended(FREE, u64::MAX - 7, &[1]), &more),
            Err((16, 8)),
        ),
    ];
    for left in 1..8 {
        // a part of a box, which is whole with what stands behind
        cases.push((before(&free[..left], &more), Err((27, 8))));
        let rest = [&free[..], &[0, 0, 0, 1, 0, 0, 0][..left]].concat();
        cases.push((before(&rest, &more), Err((27, 17))));
        let cut = saying(FREE, 1, &[0; 7][..left]);
        cases.push((before(&cut, &more), Err((13, 8))));
    }
    cases.push((before(&saying(FREE, 1, &[]), &more), Err((13, 8))));
    cases
}

/// Superboxes around a list, which is then at a depth.
pub fn held_at(depth: u8, list: &[u8]) -> Vec<u8> {
    (1..depth).fold(list.to_vec(), |list, above| {
        fitting(SUPERBOXES[usize::from(above) % 3], &list)
    })
}

/// A list that starts at 56.
fn seven_around(list: &[u8]) -> Vec<u8> {
    held_at(DEEPEST, list)
}

fn as_deep_as_may_be() -> Vec<(Vec<u8>, Answer)> {
    let free = fitting(FREE, &[7]);
    let listed = |list: &[u8], last: &[(u8, [u8; 4], u64, u64, u64)]| {
        let around = (1..DEEPEST).map(|depth| {
            let start = u64::from(depth - 1) * 8;
            let below = u64::from(DEEPEST - 1 - depth) * 8;
            let kind = SUPERBOXES[usize::from(DEEPEST - depth) % 3];
            (depth, kind, start, start + 8, below + list.len() as u64)
        });
        let all: Vec<_> = around.chain(last.iter().copied()).collect();
        (seven_around(list), ok(&all))
    };
    let refused = |list: &[u8], number, place| (seven_around(list), Err((number, place)));
    let mut cases = vec![
        listed(&[], &[]),
        listed(&free, &[(8, FREE, 56, 64, 1)]),
        refused(&free[..7], 27, 56),
        refused(&fitting(JP2H, &[1])[..8], 27, 56),
        // what passes the bytes left, or any file, or has no length, is not looked into
        refused(&saying(JP2H, 18, &free), 27, 56),
        refused(&extended(JP2H, u64::MAX, &free), 16, 56),
        refused(&saying(JP2H, 0, &free), 28, 56),
        refused(&saying(JP2H, 7, &free), 28, 56),
        refused(&[fitting(RES, &[]), fitting(UINF, &free)].concat(), 29, 64),
    ];
    for kind in SUPERBOXES {
        cases.push(listed(&fitting(kind, &[]), &[(8, kind, 56, 64, 0)]));
        cases.push(listed(&extended(kind, 16, &[]), &[(8, kind, 56, 72, 0)]));
        cases.push(refused(&fitting(kind, &free), 29, 56));
        cases.push(refused(&fitting(kind, &[1]), 29, 56));
        cases.push(refused(&extended(kind, 25, &free), 29, 56));
    }
    // without the outermost, seven deep
    let (eight, _) = listed(&fitting(RES, &free), &[]);
    let seven = ok(&[
        (1, JP2H, 0, 8, 57),
        (2, UINF, 8, 16, 49),
        (3, RES, 16, 24, 41),
        (4, JP2H, 24, 32, 33),
        (5, UINF, 32, 40, 25),
        (6, RES, 40, 48, 17),
        (7, RES, 48, 56, 9),
        (8, FREE, 56, 64, 1),
    ]);
    cases.push((eight[8..].to_vec(), seven));
    cases
}

/// Two things are wrong: the first in the file is told, and a box before what it holds.
fn first_in_the_file() -> Vec<(Vec<u8>, Answer)> {
    let wrong = saying(FREE, 7, &[]);
    let past = saying(FREE, 99, &[]);
    let cut = saying(FREE, 1, &[]);
    let cases = [
        ([wrong.clone(), past.clone()].concat(), (28, 0)),
        ([past.clone(), wrong.clone()].concat(), (27, 0)),
        ([fitting(JP2H, &past), wrong.clone()].concat(), (27, 8)),
        ([fitting(JP2H, &wrong), past.clone()].concat(), (28, 8)),
        ([fitting(JP2H, &cut), past.clone()].concat(), (13, 8)),
        (saying(JP2H, 99, &wrong), (27, 0)),
        (fitting(JP2H, &saying(RES, 99, &wrong)), (27, 8)),
        (
            [fitting(FREE, &wrong), fitting(RES, &past)].concat(),
            (27, 24),
        ),
        (
            seven_around(&[fitting(RES, &past), wrong].concat()),
            (29, 56),
        ),
        (seven_around(&[past, fitting(RES, &[1])].concat()), (27, 56)),
    ];
    cases.map(|(file, refused)| (file, Err(refused))).into()
}

#[cfg(test)]
mod tests {
    use super::{bytes, deep_and_wide, edited, entries, file, jp2, too_deep, wide, Tree};
    use crate::model::boxes::list_boxes;
    use crate::model::Refusal;
    use crate::random::Random;

    #[test]
    fn files_are_listed_as_built() {
        let random = &mut Random::new(1);
        let mut depths = [0; 9];
        for _ in 0..3_000 {
            let trees = file(random);
            let boxes = entries(&trees);
            let written = bytes(&trees);
            depths[boxes.iter().map(|entry| entry.depth).max().unwrap_or(0) as usize] += 1;
            assert_eq!(list_boxes(&written), Ok(boxes));
        }
        assert!(depths.iter().all(|&count| count > 20), "{depths:?}");
    }

    #[test]
    fn too_deep_is_that() {
        let random = &mut Random::new(2);
        for _ in 0..500 {
            let trees = too_deep(random);
            let told = list_boxes(&bytes(&trees));
            assert!(matches!(told, Err(Refusal { number: 29, .. })), "{told:?}");
            assert!(entries(&trees).iter().any(|entry| entry.depth == 9));
        }
    }

    #[test]
    fn edits_meet_each_refusal() {
        let random = &mut Random::new(3);
        let mut seen = [0; 30];
        for _ in 0..20_000 {
            let trees = file(random);
            let other = edited(random, &bytes(&trees), &entries(&trees));
            let told = list_boxes(&other);
            seen[told.map_or_else(|refusal| refusal.number, |_| 0) as usize] += 1;
        }
        for number in [0, 13, 16, 27, 28, 29] {
            assert!(seen[number] > 10, "{seen:?}");
        }
    }

    #[test]
    fn long_ones_have_so_many() {
        let count = |file: &[u8]| list_boxes(file).map(|boxes| boxes.len());
        assert_eq!(count(&jp2()), Ok(10));
        assert_eq!(count(&wide(1_000, &[1])), Ok(1_000));
        assert_eq!(count(&deep_and_wide(1_600, &[])), Ok(1_607));
        let all = list_boxes(&deep_and_wide(160, &[1, 2])).expect("boxes");
        for depth in 1..=8 {
            let at_depth = all.iter().filter(|entry| entry.depth == depth);
            assert_eq!(at_depth.count(), if depth < 8 { 21 } else { 20 });
        }
        assert!(bytes(&[Tree::plain(*b"free", &[1])]) == wide(1, &[1]));
    }
}
