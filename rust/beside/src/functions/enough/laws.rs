//! What has to hold of each prefix of a codestream and of growth's region, whatever the model would
//! say: by the original's extent of the whole, and by what the archive itself says of it.

use original::markers::{main_header_extent, MainHeaderExtent};
use probe::host;

use crate::caught::caught;
use crate::compare;
use crate::functions::header::{records_by, rows_by};
use crate::lent::{room, table, Lent};
use crate::model::header::{needed, Reading, NO_SUCH_MARKER};
use crate::model::Refusal;
use crate::random::Random;
use crate::readings;
use crate::sample::codestream::{CAP, COM, SIZ, SOT, TLM};
use crate::sample::markers::code;
use crate::tally::{hex_of_front, Tally};
use crate::wanted::{ALL, COMPLETE, FIRST_REGION, LATER_REGION, NO_MARKER, TOO_FEW, TRUNCATED};

pub type Run = compare::Run<Sides>;

/// The original, of the whole; and ours, in a test something that is wrong.
#[derive(Clone, Copy)]
pub struct Sides {
    pub original: fn(&[u8]) -> MainHeaderExtent,
    pub extent: fn(&[u8]) -> Option<u64>,
    /// In rows, and in records.
    pub headers: [ReadHeader; 2],
    /// The status, and where the marker stands.
    pub find: fn(&[u8], u16) -> (u32, u64),
    /// The region's bytes, and the enlargements.
    pub region: fn(&[u8]) -> [u64; 2],
}

type ReadHeader = fn(host::Reading, &[u8], [&mut [u8]; 2], &mut [u64; 4]) -> u32;

pub const SIDES: Sides = Sides {
    original: main_header_extent,
    extent,
    headers: [rows_by, records_by],
    find,
    region,
};

const READINGS: [host::Reading; 4] = [
    readings::DEFAULT,
    readings::ORIGINAL,
    readings::IN_NEWER,
    host::Reading {
        numbering: host::RESTARTING,
        edition: host::NEWER,
    },
];

const MARKER: u64 = 2;
/// Of a codestream that is no longer than this every prefix is asked for; of a longer one the first, the
/// last, and those about as long as is enough.
const EVERY: u64 = 2_000;
const NEAR: u64 = 2;
/// Readings of more than is enough, by this much at most, and of the whole.
const MORE: u64 = 64;

fn extent(prefix: &[u8]) -> Option<u64> {
    let mut at = 0;
    match host::main_header_extent(prefix, &mut at) {
        0 => None,
        _ => Some(at),
    }
}

fn find(codestream: &[u8], marker: u16) -> (u32, u64) {
    let mut at = 0;
    (host::find_marker(codestream, marker, &mut at), at)
}

fn region(codestream: &[u8]) -> [u64; 2] {
    let mut numbers = [0; 2];
    host::grow_header_region(codestream, &mut numbers);
    numbers
}

pub fn check_prefixes(run: &mut Run, codestream: &[u8]) {
    let length = codestream.len() as u64;
    let enough = enough(run, codestream);
    let near = |end: &u64| (*end).min(length - end).min(end.abs_diff(enough)) <= NEAR;
    let ends = (0..=length).filter(|end| length <= EVERY || near(end));
    let ends: Vec<_> = ends.collect();
    extents(run, codestream, &ends);
    for reading in READINGS {
        for read in run.original.headers {
            let (exact, other) = rooms(run, codestream);
            for room in [exact, other] {
                let asked = Asked::with(&mut run.random, reading, read, room);
                readings_of_prefixes(run, codestream, &asked, enough, &ends);
            }
        }
    }
    markers(run, codestream, first(codestream, enough));
}

/// Through the first SOT's marker, or all.
fn enough(run: &Run, codestream: &[u8]) -> u64 {
    let first_sot = (run.original.extent)(codestream);
    first_sot.map_or(codestream.len() as u64, |at| at + MARKER)
}

fn extents(run: &mut Run, codestream: &[u8], ends: &[u64]) {
    let Sides {
        original, extent, ..
    } = run.original;
    let whole = caught(|| match original(codestream) {
        MainHeaderExtent::Complete(at) => Some(at as u64),
        MainHeaderExtent::Truncated => None,
    });
    for &end in ends {
        let told = whole.map(|whole| whole.filter(|at| at + MARKER <= end));
        let kind = match told.flatten() {
            Some(_) => COMPLETE,
            None => TRUNCATED,
        };
        let ours = extent(first(codestream, end));
        let input = || format!("{end} bytes of {}", hex_of_front(codestream));
        run.tally.compare_caught(kind, &ours, told, input);
    }
}

fn readings_of_prefixes(
    run: &mut Run,
    codestream: &[u8],
    asked: &Asked,
    enough: u64,
    ends: &[u64],
) {
    let length = codestream.len() as u64;
    let of_whole = asked.of(codestream);
    for &end in ends {
        let part = first(codestream, end);
        if end >= enough && (end <= enough + MORE || end == length) {
            asked.alike(&mut run.also[0], part, &of_whole);
        } else if end < enough && of_whole.status == 0 {
            let refused = asked.of(part).status != 0;
            run.also[1].compare_by_the_document(TOO_FEW, &refused, &true, || asked.input(part));
        }
    }
}

/// Each reading once, in rows or in records, and with room for what is needed or some other.
pub fn check_region(run: &mut Run, codestream: &[u8]) {
    let length = codestream.len() as u64;
    let ours = (run.original.region)(codestream);
    let expected = first_with(enough(run, codestream), length);
    let kind = match expected {
        [region, _] if region == length => ALL,
        [_, 0] => FIRST_REGION,
        _ => LATER_REGION,
    };
    let input = || hex_of_front(codestream);
    run.also[3].compare_by_the_document(kind, &ours, &expected, input);
    for reading in READINGS {
        let read = run.random.pick(&run.original.headers);
        let (exact, other) = rooms(run, codestream);
        let room = run.random.pick(&[exact, other]);
        let asked = Asked::with(&mut run.random, reading, read, room);
        let of_whole = asked.of(codestream);
        asked.alike(&mut run.also[4], first(codestream, ours[0]), &of_whole);
    }
    markers(run, codestream, first(codestream, ours[0]));
}

/// Where each stands in the whole, and in a part of it that is enough.
fn markers(run: &mut Run, codestream: &[u8], part: &[u8]) {
    let find = run.original.find;
    for marker in [SIZ, TLM, COM, CAP, SOT, code(&mut run.random, codestream)] {
        let whole = find(codestream, marker);
        let label = match whole.0 {
            NO_SUCH_MARKER => NO_MARKER,
            status => Refusal::new(status, 0).label(),
        };
        let input = || format!("marker {marker:04X} of {}", hex_of_front(part));
        run.also[2].compare_by_the_document(label, &find(part, marker), &whole, input);
    }
}

/// The first of growth's regions with so many bytes, in a codestream of a length, and the enlargements
/// that lead to it.
fn first_with(bytes: u64, length: u64) -> [u64; 2] {
    let mut regions = (0..).map(|enlarged| [length.min(65_536 << enlarged), enlarged]);
    let found = regions.find(|[region, _]| bytes <= *region);
    found.expect("no more bytes than there are")
}

fn first(bytes: &[u8], count: u64) -> &[u8] {
    &bytes[..count as usize]
}

type Room = (usize, usize);

/// A reading with some room, into rows or records.
struct Asked {
    reading: host::Reading,
    read: ReadHeader,
    before: Lent<4, 2>,
}

impl Asked {
    fn with(
        random: &mut Random,
        reading: host::Reading,
        read: ReadHeader,
        (entries, size): Room,
    ) -> Self {
        let table = table(random, entries);
        Asked {
            reading,
            read,
            before: Lent::preset(random, [table, size]),
        }
    }

    fn of(&self, codestream: &[u8]) -> Lent<4, 2> {
        let call = |lent: [&mut [u8]; 2], values: &mut [u64; 4]| {
            (self.read)(self.reading, codestream, lent, values)
        };
        self.before.left_by(call)
    }

    /// Answer, numbers, table and output, each byte of them.
    fn alike(&self, tally: &mut Tally, part: &[u8], of_whole: &Lent<4, 2>) {
        let label = Refusal::new(of_whole.status, 0).label();
        tally.compare_by_the_document(label, &self.of(part), of_whole, || self.input(part));
    }

    fn input(&self, part: &[u8]) -> String {
        let Asked {
            reading, before, ..
        } = self;
        let [table, out] = before.memory.each_ref().map(Vec::len);
        let part = hex_of_front(part);
        format!("{part}; table {table}, output {out}, {reading:?}")
    }
}

/// Entries and bytes: as many as are needed, and some other.
fn rooms(run: &mut Run, codestream: &[u8]) -> (Room, Room) {
    let (entries, size) = needed(codestream, Reading::ORIGINAL);
    let random = &mut run.random;
    let other = (room(random, entries), room(random, size));
    ((entries, size), other)
}

#[cfg(test)]
mod tests {
    use super::{check_prefixes, check_region, first_with, Sides, SIDES};
    use crate::compare::holds_on;
    use crate::sample::far::padded;
    use crate::sample::{caps, sample_a};

    /// Of the sample and others, whole and far out.
    fn holds(sides: Sides) -> bool {
        holds_on::<5, _>(sides, |run| {
            let sample = sample_a();
            check_prefixes(run, &sample);
            check_prefixes(run, &sample[..56]);
            for lcap in [7, 8] {
                check_prefixes(run, &[caps::one(lcap, 1), vec![0; 10]].concat());
            }
            // the first SOT's marker ends before, at and behind the end of the first region
            for bytes in 65_476..=65_478 {
                check_region(run, &padded(&sample, bytes, 70_000));
            }
        })
    }

    #[test]
    fn regions_are_counted_from_the_first() {
        assert_eq!(first_with(0, 0), [0, 0]);
        assert_eq!(first_with(59, 89), [89, 0]);
        assert_eq!(first_with(65_536, 70_000), [65_536, 0]);
        assert_eq!(first_with(65_537, 70_000), [70_000, 1]);
        assert_eq!(first_with(65_537, 200_000), [131_072, 1]);
        assert_eq!(first_with(200_000, 200_000), [200_000, 2]);
    }

    #[test]
    fn another_extent_shows() {
        assert!(holds(SIDES));
        let wrong: [fn(&[u8]) -> Option<u64>; 4] = [
            // without the marker, with a byte of it, and with one byte more; never
            |prefix| super::extent(&[prefix, &[0xFF, 0x90]].concat()),
            |prefix| super::extent(&[prefix, &[0x90]].concat()),
            |prefix| super::extent(&prefix[..prefix.len().saturating_sub(1)]),
            |_| None,
        ];
        for (nth, extent) in wrong.into_iter().enumerate() {
            assert!(!holds(Sides { extent, ..SIDES }), "{nth}");
        }
    }

    #[test]
    fn another_region_shows() {
        let wrong: [fn(&[u8]) -> [u64; 2]; 4] = [
            // the one behind it, the count of regions, the whole, and what is enough
            |codestream| {
                let [region, enlargements] = super::region(codestream);
                [(2 * region).min(codestream.len() as u64), enlargements + 1]
            },
            |codestream| {
                let [region, enlargements] = super::region(codestream);
                [region, enlargements + 1]
            },
            |codestream| [codestream.len() as u64, 0],
            |codestream| [super::extent(codestream).map_or(0, |at| at + 2), 0],
        ];
        for (nth, region) in wrong.into_iter().enumerate() {
            assert!(!holds(Sides { region, ..SIDES }), "{nth}");
        }
    }

    #[test]
    fn another_place_of_a_marker_shows() {
        let wrong: [fn(&[u8], u16) -> (u32, u64); 2] = [
            // counted from the end, and as two bytes wherever they are
            |codestream, marker| {
                let (status, at) = super::find(codestream, marker);
                (status, codestream.len() as u64 - at)
            },
            |codestream, marker| {
                let code = marker.to_be_bytes();
                let at = codestream.windows(2).rposition(|bytes| bytes == code);
                at.map_or((257, 0), |at| (0, at as u64))
            },
        ];
        for (nth, find) in wrong.into_iter().enumerate() {
            assert!(!holds(Sides { find, ..SIDES }), "{nth}");
        }
    }

    #[test]
    fn another_header_of_a_part_shows() {
        let [rows, records] = SIDES.headers;
        let wrong: [super::ReadHeader; 4] = [
            // fillers told by the bytes that are there, the newer edition for longer ones, a byte of
            // output written behind, and a table touched where it is refused
            |reading, codestream, lent, values| {
                let status = super::rows_by(reading, codestream, lent, values);
                values[3] ^= codestream.len() as u64 & 1;
                status
            },
            |mut reading, codestream, lent, values| {
                reading.edition = u32::from(codestream.len() > 24);
                super::rows_by(reading, codestream, lent, values)
            },
            |reading, codestream, [table, out], values| {
                let status = super::rows_by(reading, codestream, [table, out], values);
                if let Some(last) = out.last_mut() {
                    *last = codestream.len() as u8;
                }
                status
            },
            |reading, codestream, [table, out], values| {
                if let Some(last) = table.last_mut() {
                    *last = codestream.len() as u8;
                }
                super::rows_by(reading, codestream, [table, out], values)
            },
        ];
        for (nth, wrong) in wrong.into_iter().enumerate() {
            for headers in [[wrong, records], [rows, wrong]] {
                assert!(!holds(Sides { headers, ..SIDES }), "{nth}");
            }
        }
    }
}
