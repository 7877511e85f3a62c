//! "Length table check".

use beside::model::check::{DIFFERS, NO_TILE};
use beside::sample::lengths::{at_the_last, by_hand, Answer};
use beside::sample::sample_a;
use probe::host;

const UNTOUCHED: u64 = 0xEEEE;

/// Status, and the numbers that are lent.
fn checked(codestream: &[u8], region: u64) -> (u32, [u64; 6]) {
    let mut values = [UNTOUCHED; 6];
    let status = host::check_length_table(codestream, region, &mut values);
    (status, values)
}

/// All that is not told stays.
fn told(answer: Answer) -> (u32, [u64; 6]) {
    let mut values = [UNTOUCHED; 6];
    let status = match answer {
        Ok(None) => 0,
        Ok(Some(numbers)) => {
            values = numbers;
            DIFFERS
        }
        Err((number, place)) => {
            values[0] = place;
            number
        }
    };
    (status, values)
}

#[test]
fn answers_are_as_by_hand() {
    for (codestream, region, by_hand) in by_hand() {
        let ours = checked(&codestream, region);
        assert_eq!(ours, told(by_hand), "{codestream:02X?}, {region}");
    }
}

#[test]
fn numbers_end_before_65_535() {
    for (codestream, region, by_hand) in at_the_last() {
        assert_eq!(checked(&codestream, region), told(by_hand));
    }
}

#[test]
fn what_is_told_has_the_header_s_names() {
    assert_eq!(host::LENGTH_TABLE_DIFFERS, DIFFERS);
    assert_eq!(host::NO_TILE, NO_TILE);
}

/// The header is read of the region, and the tile-parts of all.
#[test]
fn sample_a_s_table_passes() {
    let sample = sample_a();
    for region in [59, 60, 89, 90, u64::MAX] {
        assert_eq!(checked(&sample, region), told(Ok(None)));
    }
    assert_eq!(checked(&sample, 58), told(Err((6, 58))));
    // one byte of the second tile-part less
    assert_eq!(checked(&sample[..86], 59), told(Err((9, 71))));
    assert_eq!(checked(&sample[..87], 59), told(Ok(None)));
    assert_eq!(
        checked(&sample[..71], 59),
        told(Ok(Some([1, 71, 5, 16, NO_TILE, 0])))
    );
}
