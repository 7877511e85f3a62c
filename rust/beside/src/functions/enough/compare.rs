//! The comparison, on headers by hand, at random and damaged, near and far out; and on files.

use std::time::Duration;

use probe::host;

use super::laws::{check_prefixes, check_region, Run, Sides, SIDES};
use crate::compare::Comparison;
use crate::program::Stop;
use crate::sample::far::{self, padded};
use crate::sample::{caps, fillers, headers, markers, numbers, sample_a, tlms};
use crate::tally::Tally;
use crate::wanted;

pub const COMPARISON: Comparison<Sides> = Comparison {
    wanted: wanted::EXTENT_OF_PREFIX,
    also: &[
        wanted::HEADER_OF_PREFIX,
        wanted::HEADER_OF_TOO_FEW,
        wanted::MARKER_OF_PREFIX,
        wanted::REGION,
        wanted::HEADER_OF_REGION,
    ],
    minimum: 500,
    original: SIDES,
    fixed,
    random: Some(random),
};

/// On files, which are handed over one by one.
const FILES: Comparison<Sides> = Comparison {
    wanted: wanted::EXTENT_OF_FILE,
    also: &[
        wanted::HEADER_OF_FILE,
        wanted::HEADER_OF_TOO_FEW,
        wanted::MARKER_OF_FILE,
        wanted::REGION,
        wanted::HEADER_OF_REGION_OF_FILE,
    ],
    minimum: 200,
    original: SIDES,
    fixed: |_| {},
    random: None,
};

const FIRST: usize = 65_536;

fn fixed(run: &mut Run) {
    for header in by_hand() {
        check_prefixes(run, &header);
        check_region(run, &header);
    }
    for (codestream, ..) in numbers::at_the_last() {
        check_prefixes(run, &codestream);
        check_region(run, &codestream);
    }
    for header in [sample_a(), caps::one(8, 1), caps::one(7, 1)] {
        let first_sot = first_sot(&header);
        for region in [FIRST, 2 * FIRST, 4 * FIRST] {
            for end in region - 2..=region + 2 {
                let behind = run.random.pick(&[0, 9, 2 * FIRST]);
                check_region(run, &padded(&header, end - 2 - first_sot, behind));
            }
        }
    }
}

/// Or where all ends.
fn first_sot(codestream: &[u8]) -> usize {
    (SIDES.extent)(codestream).map_or(codestream.len(), |at| at as usize)
}

fn by_hand() -> Vec<Vec<u8>> {
    let mut found = [headers::stops(), tlms::one(), markers::headers()].concat();
    let without_siz = vec![0xFF, 0x4F, 0xFF, 0x90];
    found.extend([vec![], without_siz, sample_a()]);
    found.extend(caps::by_hand().into_iter().map(|(header, _)| header));
    found.extend(numbers::by_hand().into_iter().map(|(header, _)| header));
    found.extend(fillers::counted().into_iter().map(|(header, _)| header));
    found
}

fn random(run: &mut Run) {
    for _ in 0..2 {
        let header = far::header(&mut run.random);
        check_prefixes(run, &header);
        run.damaged(2, &header, check_prefixes);
    }
    let built = far::out(&mut run.random);
    check_region(run, &built);
}

/// Of each file's bytes.
pub fn compare_files(seed: u64, files: &[Vec<u8>]) -> Result<Vec<Tally>, Stop> {
    let mut run = FILES.begun(seed, Duration::ZERO);
    for (nth, file) in files.iter().enumerate() {
        let codestream = codestream(file);
        let codestream = codestream
            .ok_or_else(|| Stop::failed(format!("there is no codestream in file {nth}")))?;
        check_file(&mut run, codestream);
    }
    Ok(run.ended())
}

fn codestream(file: &[u8]) -> Option<&[u8]> {
    let mut found = [0; 2];
    let status = host::find_codestream(file, &mut found);
    let [start, length] = found.map(|number| number as usize);
    (status == 0).then(|| &file[start..start + length])
}

/// Its header, and damaged; and with comments in it, so that it reaches to where a region ends.
fn check_file(run: &mut Run, codestream: &[u8]) {
    const DAMAGED: usize = 2;
    const BEHIND: usize = 300;
    let length = codestream.len();
    let first_sot = first_sot(codestream);
    let header = &codestream[..length.min(first_sot + BEHIND)];
    check_prefixes(run, header);
    run.damaged(DAMAGED, header, check_prefixes);
    for region in [FIRST, 2 * FIRST] {
        let bytes = region - first_sot.min(FIRST / 2) - run.random.below(4);
        let built = padded(codestream, bytes, run.random.pick(&[0, FIRST]));
        check_region(run, &built);
        run.damaged(1, &built, check_region);
    }
}
