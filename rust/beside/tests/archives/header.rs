//! "Header walk", "TLM", "Decode header", "Main header", "Markers in the header"; and the same with
//! records.

use beside::model::header::NO_SUCH_MARKER;
use beside::model::{rows, ROW};
use beside::readings;
use beside::sample::caps;
use beside::sample::codestream::{Codestream, COM, EOC, EPH, PPM, SIZ, SOC, SOD, SOT, TLM};
use beside::sample::fillers::counted;
use beside::sample::numbers;
use beside::sample::tlms::STLM;
use beside::sample::{opened, sample_a};
use probe::host;

/// That the archive holds at most.
const RECORDS: usize = 2_048;

/// Status, numbers, table, output; 20 rows and 200 bytes are lent.
fn parsed(codestream: &[u8]) -> (u32, [u64; 4], Vec<u8>, Vec<u8>) {
    let (mut table, mut out) = (vec![0xEE; 20 * ROW], vec![0xEE; 200]);
    let mut values = [7; 4];
    let status = host::parse_main_header(codestream, &mut table, &mut out, &mut values);
    (status, values, table, out)
}

fn entries(built: &mut Codestream) -> Vec<u8> {
    built.marker(SOT);
    let (status, [_, _, entries, _], mut table, _) = parsed(&built.bytes);
    assert_eq!(status, 0);
    table.truncate(ROW * entries as usize);
    table
}

fn refused(codestream: &[u8]) -> (u32, u64) {
    let (status, [place, others @ ..], table, out) = parsed(codestream);
    assert_eq!(others, [7; 3]);
    assert!(table.into_iter().chain(out).all(|byte| byte == 0xEE));
    (status, place)
}

#[test]
fn sample_a_is_as_listed() {
    let sample = sample_a();
    let (status, values, table, out) = parsed(&sample);
    assert_eq!((status, values), (0, [57, 45, 2, 0]));
    assert_eq!(table[..42], rows(&[(0, 57, 14), (5, 71, 16)]));
    assert_eq!(out[..45], sample[..45]);
    assert!(table[42..]
        .iter()
        .chain(&out[45..])
        .all(|&byte| byte == 0xEE));
}

#[test]
fn ltlm_below_4_is_refused() {
    assert_eq!(refused(&opened().segment(TLM, &[0]).bytes), (4, 6));
    assert_eq!(entries(opened().segment(TLM, &[0, 0])), []);
}

#[test]
fn an_entry_must_be_whole() {
    assert_eq!(entries(opened().segment(TLM, &[0, 0x10, 5, 0])), []);
    let one = entries(opened().segment(TLM, &[0, 0x10, 5, 0, 16]));
    assert_eq!(one, rows(&[(5, 15, 16)]));
}

/// By a numbering's number, or none, in the older edition.
fn numbered(codestream: &[u8], numbering: Option<u32>) -> Result<Vec<u16>, (u32, u64)> {
    let edition = host::OLDER;
    read_as(
        codestream,
        numbering.map(|numbering| host::Reading { numbering, edition }),
    )
}

/// What the rows and the records hold, read as is said or without a word: the tiles' indices, or the
/// refusal. Of more entries than there are records only the rows are read, and the records are too few.
fn read_as(codestream: &[u8], reading: Option<host::Reading>) -> Result<Vec<u16>, (u32, u64)> {
    let rows = 66_000;
    let (mut table, mut out) = (vec![0xEE; ROW * rows], vec![0; codestream.len()]);
    let mut values = [7; 4];
    let status = match reading {
        None => host::parse_main_header(codestream, &mut table, &mut out, &mut values),
        Some(reading) => host::parse_main_header_by_reading(
            codestream,
            reading,
            &mut table,
            &mut out,
            &mut values,
        ),
    };
    let mut records = vec![0; ROW * rows];
    let reading = reading.unwrap_or(readings::DEFAULT);
    let mut of_records = [7; 4];
    let status_of_records =
        probe::header_records(codestream, reading, &mut records, &mut out, &mut of_records);
    if status != 0 {
        assert_eq!((status_of_records, of_records), (status, values));
        assert_eq!(values[1..], [7; 3]);
        assert!(table.iter().all(|&byte| byte == 0xEE));
        assert!(records.iter().all(|&byte| byte == 0));
        return Err((status, values[0]));
    }
    let entries = values[2] as usize;
    let written = &table[..ROW * entries];
    if entries > RECORDS {
        assert_eq!((status_of_records, of_records[0]), (18, values[2]));
        assert!(records.iter().all(|&byte| byte == 0));
    } else {
        assert_eq!((status_of_records, of_records), (status, values));
        assert_eq!(records[..written.len()], *written);
    }
    let index = |row: &[u8]| u16::from_be_bytes([row[0], row[1]]);
    Ok(written.chunks_exact(ROW).map(index).collect())
}

/// Without a number, by 0, and by one that means nothing.
const CARRIED_ON: [Option<u32>; 4] = [None, Some(0), Some(2), Some(u32::MAX)];

#[test]
fn the_numberings_have_their_numbers() {
    assert_eq!((host::CARRIED_ON, host::RESTARTING), (0, 1));
}

#[test]
fn entries_are_numbered_on_or_from_0_as_by_hand() {
    for (codestream, [carried_on, restarting]) in numbers::by_hand() {
        for number in CARRIED_ON {
            assert_eq!(numbered(&codestream, number), Ok(carried_on.clone()));
        }
        assert_eq!(numbered(&codestream, Some(1)), Ok(restarting));
    }
}

#[test]
fn a_number_past_65534_is_refused_where_it_stands() {
    for (codestream, carried_on, restarting) in numbers::at_the_last() {
        for number in CARRIED_ON {
            assert_eq!(numbered(&codestream, number).err(), carried_on);
        }
        // of the longest the table has too few rows
        if codestream.len() < 140_000 {
            assert_eq!(numbered(&codestream, Some(1)).err(), restarting);
        }
    }
    let (last, ..) = &numbers::at_the_last()[1];
    let indices = numbered(last, None).expect("accepted");
    assert!(indices.into_iter().eq(0..=65_534));
}

#[test]
fn the_editions_have_their_numbers() {
    assert_eq!((host::OLDER, host::NEWER), (0, 1));
}

/// In an edition, given by its number, by each numbering: the refusal, alike.
fn in_edition(codestream: &[u8], edition: u32) -> Option<(u32, u64)> {
    let by = |numbering| read_as(codestream, Some(host::Reading { numbering, edition })).err();
    assert_eq!(by(host::CARRIED_ON), by(host::RESTARTING));
    by(host::CARRIED_ON)
}

#[test]
fn cap_stands_as_it_is_announced_or_is_refused_in_the_newer_edition() {
    for (codestream, refused) in caps::by_hand() {
        assert_eq!(in_edition(&codestream, 1), refused, "{codestream:02X?}");
        for older in [0, 2, u32::MAX] {
            assert_eq!(in_edition(&codestream, older), None);
        }
    }
}

/// 1 to 6 and 26 come before, in a header that wants CAP and has none.
#[test]
fn the_newer_edition_is_asked_last() {
    for (codestream, carried_on, _) in numbers::at_the_last() {
        let wanted = carried_on.or(Some((33, 2)));
        assert_eq!(read_as(&codestream, Some(readings::IN_NEWER)).err(), wanted);
    }
    for codestream in [
        &[][..],
        &[0xFF, 0x4F],
        &opened().bytes,
        &opened().raw(&[0xFF, 0x64]).bytes,
    ] {
        assert_eq!(in_edition(codestream, 1), in_edition(codestream, 0));
        assert!(in_edition(codestream, 1).is_some());
    }
}

/// And 18 and 17 behind.
#[test]
fn room_is_asked_for_behind_the_newer_edition() {
    for (codestream, refused) in caps::by_hand() {
        let (reading, mut values) = (readings::IN_NEWER, [7; 4]);
        let status =
            host::parse_main_header_by_reading(&codestream, reading, &mut [], &mut [], &mut values);
        match refused {
            Some(refused) => assert_eq!((status, values[0]), refused),
            None => assert!(matches!(status, 17 | 18)),
        }
    }
}

#[test]
fn where_the_walk_stops() {
    assert_eq!(refused(&[]), (1, 0));
    assert_eq!(refused(&[0xFF, 0x4F]), (2, 2));
    assert_eq!(refused(&opened().bytes), (6, 6));
    assert_eq!(refused(&opened().raw(&[0xFF]).bytes), (6, 7));
    assert_eq!(refused(&opened().raw(&[0xFF, 0x64]).bytes), (3, 6));
    assert_eq!(refused(&opened().segment(TLM, &[0, 0x30]).bytes), (5, 6));
}

#[test]
fn too_little_room() {
    let sample = sample_a();
    for (rows, size, expected) in [(2, 45, 0), (2, 44, 17), (1, 45, 18), (1, 44, 18)] {
        let (mut table, mut out) = (vec![0xEE; ROW * rows], vec![0xEE; size]);
        let mut values = [7; 4];
        let status = host::parse_main_header(&sample, &mut table, &mut out, &mut values);
        assert_eq!(status, expected);
        match expected {
            17 => assert_eq!(values, [45, 7, 7, 7]),
            18 => assert_eq!(values, [2, 7, 7, 7]),
            _ => assert_eq!(values, [57, 45, 2, 0]),
        }
    }
}

/// Read as by default.
fn with_records(codestream: &[u8], table: &mut [u8], out: &mut [u8], values: &mut [u64; 4]) -> u32 {
    probe::header_records(codestream, readings::DEFAULT, table, out, values)
}

#[test]
fn sample_a_s_entries_as_records() {
    let sample = sample_a();
    let untouched = (9, 9, 9);
    let (mut table, mut out, mut values) = (rows(&[untouched; 3]), [0xEE; 45], [7; 4]);
    let status = with_records(&sample, &mut table, &mut out, &mut values);
    assert_eq!((status, values), (0, [57, 45, 2, 0]));
    assert_eq!(table, rows(&[(0, 57, 14), (5, 71, 16), untouched]));
    assert_eq!(out, sample[..45]);

    let (mut table, mut out, mut values) = (rows(&[untouched]), [0xEE; 45], [7; 4]);
    let status = with_records(&sample, &mut table, &mut out, &mut values);
    assert_eq!((status, values), (18, [2, 7, 7, 7]));
    assert_eq!((table, out), (rows(&[untouched]), [0xEE; 45]));
}

/// Of rows and of records; where there is no room the number stays.
#[test]
fn fillers_are_counted_as_by_hand() {
    for (codestream, count) in counted() {
        let (mut rows, mut out, mut values) = ([0; ROW], vec![0; codestream.len()], [7; 4]);
        let status = host::parse_main_header(&codestream, &mut rows, &mut out, &mut values);
        assert_eq!((status, values[3]), (0, count), "{codestream:02X?}");
        let (mut records, mut of_records) = ([0; ROW], [7; 4]);
        let status = with_records(&codestream, &mut records, &mut out, &mut of_records);
        assert_eq!((status, of_records), (0, values), "{codestream:02X?}");

        let mut values = [7; 4];
        let status = host::parse_main_header(&codestream, &mut rows, &mut out[..5], &mut values);
        assert_eq!((status, values[3]), (17, 7), "{codestream:02X?}");
        let mut values = [7; 4];
        let status = with_records(&codestream, &mut records, &mut out[..5], &mut values);
        assert_eq!((status, values[3]), (17, 7), "{codestream:02X?}");
    }
}

/// The answer, and the number lent as it stands after it.
fn found(codestream: &[u8], marker: u16) -> (u32, u64) {
    let mut value = 7;
    (host::find_marker(codestream, marker, &mut value), value)
}

const NONE: (u32, u64) = (NO_SUCH_MARKER, 7);

#[test]
fn the_status_of_no_marker_is_257() {
    assert_eq!(NO_SUCH_MARKER, 257);
    assert_eq!(host::NO_SUCH_MARKER, NO_SUCH_MARKER);
}

#[test]
fn sample_a_s_markers() {
    let sample = sample_a();
    assert_eq!(found(&sample, SIZ), (0, 2));
    assert_eq!(found(&sample, TLM), (0, 45));
    for marker in [SOC, SOT, SOD, EOC, PPM, TLM ^ 1, TLM ^ 0x0100, TLM & 0xFF] {
        assert_eq!(found(&sample, marker), NONE, "{marker:04X}");
    }
    // SIZ's own length, and Ltlm with Ztlm, at which the walk does not stand
    for at in [4, 5, 47, 48] {
        let inside = u16::from_be_bytes([sample[at], sample[at + 1]]);
        assert_eq!(found(&sample, inside), NONE, "{at}");
    }
}

#[test]
fn a_marker_counts_only_where_the_walk_stands() {
    let mut built = opened();
    built.segment(COM, &PPM.to_be_bytes()).marker(EPH);
    let inside = [&built.bytes[..], &SOT.to_be_bytes(), &PPM.to_be_bytes()].concat();
    assert_eq!(found(&inside, COM), (0, 6));
    assert_eq!(found(&inside, EPH), (0, 12));
    assert_eq!(found(&inside, PPM), NONE);
    built.segment(PPM, &[1]).segment(PPM, &[2]).marker(SOT);
    assert_eq!(found(&built.bytes, PPM), (0, 14));
    // segments of length 0 and 1: their length field, or its second byte, is a marker's
    let mut short = opened();
    short.segment_saying(PPM, 0, &[0, 2]);
    short.segment_saying(COM, 1, &[0x30]).marker(SOT);
    for (marker, place) in [(PPM, 6), (0, 8), (COM, 12), (0x0130, 15)] {
        assert_eq!(found(&short.bytes, marker), (0, place), "{marker:04X}");
    }
}

/// With the marker before it or not, and whatever it is.
#[test]
fn what_the_main_header_refuses() {
    let sample = sample_a();
    let mut form = opened();
    form.segment(PPM, &[]).segment(TLM, &[0, STLM[3]]);
    let mut too_short = opened();
    too_short.segment(PPM, &[]).segment(TLM, &[0]);
    let headers = [form, too_short].map(|built| built.bytes);
    let prefixes = (0..59).map(|end| &sample[..end]);
    let prefixes = prefixes.chain((0..=headers[0].len()).map(|end| &headers[0][..end]));
    for codestream in prefixes.chain([&headers[1][..]]) {
        for marker in [SIZ, TLM, PPM, COM] {
            assert_eq!(found(codestream, marker), refused(codestream));
        }
    }
    assert_eq!(found(&headers[0], PPM), (5, 10));
    assert_eq!(found(&headers[1], PPM), (4, 10));
    assert_eq!(found(&sample[..59], PPM), NONE);
}
