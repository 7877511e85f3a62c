//! "Codestream search", "SIZ reading", "Growth".

use beside::model::reader::{JP2C, SIGNATURE};
use beside::sample::boxes::{extended, fitting, saying, FREE};
use beside::sample::sample_a;
use beside::sample::sizes::{header, SAMPLE_A};
use probe::host;

/// Status, and the numbers lent as they stand after it.
fn found(boxes: &[&[u8]]) -> (u32, [u64; 2]) {
    let mut values = [7; 2];
    let file = [&SIGNATURE, &boxes.concat()[..]].concat();
    (host::find_codestream(&file, &mut values), values)
}

#[test]
fn the_codestream_s_box() {
    assert_eq!(found(&[]), (14, [12, 7]));
    assert_eq!(found(&[&saying(JP2C, 8, &[])]), (0, [20, 0]));
    assert_eq!(found(&[&saying(JP2C, 7, &[])]), (15, [12, 7]));
    assert_eq!(found(&[&saying(JP2C, 0, &[1, 2])]), (0, [20, 2]));
    assert_eq!(found(&[&saying(JP2C, 900, &[1, 2])]), (0, [20, 2]));
    let behind = [fitting(FREE, &[1]), extended(JP2C, 18, &[1, 2, 3])];
    assert_eq!(found(&[&behind[0], &behind[1]]), (0, [37, 2]));
}

/// What stands in 4 bytes of output, and the length; none where the search refuses.
#[test]
fn the_codestream_itself() {
    let short = [&SIGNATURE, &saying(JP2C, 900, &[1, 2])[..]].concat();
    let long = [&SIGNATURE, &fitting(JP2C, &[1, 2, 3, 4, 5])[..]].concat();
    let refused = [&SIGNATURE, &saying(JP2C, 7, &[1, 2])[..]].concat();
    for (file, status, length, left) in [
        (&short[..], 0, 2, [1, 2, 7, 7]),
        (&[0xFF, 0x4F, 5], 0, 3, [0xFF, 0x4F, 5, 7]),
        (&long, 17, 5, [7; 4]),
        (&refused, 0, 0, [7; 4]),
        (&SIGNATURE, 0, 0, [7; 4]),
    ] {
        let (mut out, mut value) = ([7; 4], 7);
        assert_eq!(probe::codestream_of(file, &mut out, &mut value), status);
        assert_eq!((value, out), (length, left));
    }
}

#[test]
fn where_the_chain_stops() {
    assert_eq!(found(&[&saying(JP2C, 1, &[0; 7])]), (13, [12, 7]));
    assert_eq!(found(&[&saying(FREE, 7, &[0; 7])]), (14, [12, 7]));
    assert_eq!(found(&[&saying(FREE, 900, &[0; 7])]), (14, [912, 7]));
    assert_eq!(found(&[&extended(FREE, u64::MAX, &[])]), (16, [12, 7]));
    let last = u64::MAX - 12;
    assert_eq!(found(&[&extended(FREE, last, &[])]), (14, [u64::MAX, 7]));
}

#[test]
fn other_files() {
    for (file, status) in [(&[][..], 11), (&[0xFF], 11), (&[0xFF, 0x4E], 12)] {
        let mut values = [7; 2];
        assert_eq!(host::find_codestream(file, &mut values), status);
        assert_eq!(values, [0, 7]);
    }
    let mut values = [7; 2];
    assert_eq!(host::find_codestream(&sample_a(), &mut values), 0);
    assert_eq!(values, [0, 89]);
}

fn siz(codestream: &[u8]) -> (u32, [u64; 5]) {
    let mut values = [7; 5];
    (host::parse_siz_marker(codestream, &mut values), values)
}

#[test]
fn sizes() {
    assert_eq!(siz(&sample_a()), (0, [10, 6, 1, 8, 0]));
    assert_eq!(siz(&sample_a()[..43]), (0, [10, 6, 1, 8, 0]));
    assert_eq!(siz(&sample_a()[..42]), (20, [2, 7, 7, 7, 7]));
    assert_eq!(siz(&[0xFF, 0x4F, 0x00]), (21, [2, 7, 7, 7, 7]));
    let skips = [0xFF, 0x4F, 0xFF, 0x52, 0xFF, 0xFF];
    assert_eq!(siz(&skips), (21, [65_539, 7, 7, 7, 7]));
    let mut fields = SAMPLE_A;
    fields[3] = 7;
    assert_eq!(siz(&header(fields)), (22, [2, 7, 7, 7, 7]));
}

#[test]
fn pixel_types() {
    let edges = [
        (0, 0),
        (1, 0),
        (8, 0),
        (9, 2),
        (16, 2),
        (17, 4),
        (32, 4),
        (33, 0),
    ];
    for (bits, unsigned) in edges {
        assert_eq!(host::pixel_type(bits, false), unsigned);
        let signed = if (1..=32).contains(&bits) {
            unsigned + 1
        } else {
            0
        };
        assert_eq!(host::pixel_type(bits, true), signed);
    }
}

#[test]
fn regions() {
    for (length, expected) in [
        (65_535, [65_535, 0]),
        (65_536, [65_536, 0]),
        (65_537, [65_537, 1]),
        (131_073, [131_073, 2]),
    ] {
        let mut values = [7; 2];
        assert_eq!(host::grow_header_region(&vec![0; length], &mut values), 0);
        assert_eq!(values, expected);
    }
    assert_eq!(host::next_region(65_536, 131_071), 131_071);
    assert_eq!(host::next_region(65_536, 131_073), 131_072);
    assert_eq!(host::next_region(1 << 63, u64::MAX), u64::MAX);
}

/// An SOT for SIZ ends the header, so that the first region is enough; the SIZ reading passes it, and
/// the last byte that it needs is the one behind that region.
#[test]
fn a_size_past_the_region() {
    let mut codestream = vec![0xFF, 0x4F, 0xFF, 0x90, 0xFF, 0xD4];
    codestream.resize(65_496, 0);
    codestream.extend(&sample_a()[2..43]);
    let mut values = [7; 2];
    assert_eq!(codestream.len(), 65_537);
    assert_eq!(host::grow_header_region(&codestream, &mut values), 0);
    assert_eq!(values, [65_536, 0]);
    assert_eq!(siz(&codestream[..65_536]), (20, [65_496, 7, 7, 7, 7]));
    assert_eq!(siz(&codestream), (0, [10, 6, 1, 8, 0]));
}
