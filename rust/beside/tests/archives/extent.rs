//! "Header extent".

use beside::sample::{sample_a, SAMPLE_A_FIRST_SOT};
use probe::host;

/// The answer, and the number lent as it stands after it.
fn extent(prefix: &[u8]) -> (u32, u64) {
    let mut value = 7;
    (host::main_header_extent(prefix, &mut value), value)
}

#[test]
fn sample_a_is_complete_once_its_sot_marker_is_whole() {
    let sample = sample_a();
    assert_eq!(extent(&sample[..59]), (1, 57));
    assert_eq!(extent(&sample), (1, SAMPLE_A_FIRST_SOT as u64));
}

#[test]
fn truncated_leaves_the_number_alone() {
    assert_eq!(extent(&[]), (0, 7));
    assert_eq!(extent(&sample_a()[..58]), (0, 7));
}
