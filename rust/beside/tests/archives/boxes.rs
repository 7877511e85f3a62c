//! "Boxes".

use beside::model::boxes::{box_rows, BOX_ROW};
use beside::model::Refusal;
use beside::sample::trees::{by_hand, deep_and_wide, jp2, wide};
use probe::host;

use super::written;

/// The rows, in a table of `size` bytes.
fn listed(file: &[u8], size: usize) -> Result<Vec<u8>, Refusal> {
    written(size, BOX_ROW, |table, value| {
        host::list_boxes(file, table, value)
    })
}

#[test]
fn answers_are_as_by_hand() {
    for (file, by_hand) in by_hand() {
        let boxes = by_hand.map_err(|(number, place)| Refusal::new(number, place));
        let rows = boxes.map(|boxes| box_rows(&boxes));
        let needed = rows.as_ref().map_or(0, Vec::len);
        for size in [needed, needed + BOX_ROW - 1, needed + BOX_ROW] {
            assert_eq!(listed(&file, size), rows, "{file:02X?}");
        }
        if needed > 0 {
            let too_small = Refusal::new(18, (needed / BOX_ROW) as u64);
            assert_eq!(listed(&file, needed - 1), Err(too_small));
            assert_eq!(listed(&file, 0), Err(too_small));
        }
    }
}

/// All ten of a file that is laid out as writers do it.
#[test]
fn a_jp2_file_s_boxes() {
    let file = jp2();
    let rows = listed(&file, 10 * BOX_ROW).expect("ten boxes");
    let boxes: Vec<_> = rows
        .chunks(BOX_ROW)
        .map(|row| (row[0], String::from_utf8_lossy(&row[1..5])))
        .collect();
    let expected = [
        (1, "jP  "),
        (1, "ftyp"),
        (1, "jp2h"),
        (2, "ihdr"),
        (2, "colr"),
        (2, "res "),
        (3, "resc"),
        (3, "resd"),
        (1, "xml "),
        (1, "jp2c"),
    ];
    assert_eq!(boxes, expected.map(|(depth, kind)| (depth, kind.into())));
    assert_eq!(listed(&file, 10 * BOX_ROW - 1), Err(Refusal::new(18, 10)));
}

#[test]
fn as_many_as_there_are() {
    for (file, count) in [
        (wide(70_000, &[]), 70_000),
        (deep_and_wide(80_000, &[1]), 80_007),
    ] {
        assert_eq!(listed(&file, 0), Err(Refusal::new(18, count)));
        let size = count as usize * BOX_ROW;
        assert_eq!(listed(&file, size).map(|rows| rows.len()), Ok(size));
    }
}
