//! What each function is called, the answers that it has to give, and how many of each have to come
//! of the original itself where the function is compared: 0 where it is none for the original to give.

use crate::model::boxes::{BoxEntry, DEEPEST};
use crate::model::check::Difference;
use crate::model::ACCEPTED;
use crate::tally::Answer;

pub struct Wanted {
    pub name: &'static str,
    pub answers: &'static [Answer],
}

pub const COMPLETE: &str = "complete";
pub const TRUNCATED: &str = "truncated";
pub const EXTENT: Wanted = Wanted {
    name: "main_header_extent",
    answers: &[(COMPLETE, 90_000), (TRUNCATED, 20_000_000)],
};

/// Of a loan that is too long, which takes 4 GB.
pub const TOO_LONG: &str = "refused 19";
/// Of a header with fillers; the original tells all but their number.
pub const FILLERS: &str = "accepted with fillers";
/// Of a table that is another one where the numbers restart; of this the original says nothing.
pub const NUMBERED_ON: &str = "accepted, numbered on";
/// Of a header in the newer edition that announces CAP, and has it.
pub const CAPPED: &str = "accepted with CAP";
pub const HEADER_RESTARTING: Wanted = Wanted {
    name: "parse_main_header_by_reading, restarting",
    answers: &[
        (ACCEPTED, 85_000),
        (FILLERS, 15_000),
        ("refused 1", 100_000),
        ("refused 2", 15_000),
        ("refused 3", 200_000),
        ("refused 4", 15_000),
        ("refused 5", 35_000),
        ("refused 6", 8_000),
        ("refused 17", 0),
        ("refused 18", 0),
        (TOO_LONG, 0),
    ],
};
pub const RECORDS_RESTARTING: Wanted = Wanted {
    name: "header_records, restarting",
    ..HEADER_RESTARTING
};
/// Carried on; the original's answers count where the numberings have to agree.
pub const HEADER: Wanted = Wanted {
    name: "parse_main_header",
    answers: &[
        (ACCEPTED, 80_000),
        (FILLERS, 15_000),
        (NUMBERED_ON, 0),
        ("refused 1", 100_000),
        ("refused 2", 15_000),
        ("refused 3", 200_000),
        ("refused 4", 15_000),
        ("refused 5", 30_000),
        ("refused 6", 8_000),
        ("refused 17", 0),
        ("refused 18", 0),
        (TOO_LONG, 0),
        ("refused 26", 0),
    ],
};
pub const HEADER_CARRIED_ON: Wanted = Wanted {
    name: "parse_main_header_by_reading, carried on",
    ..HEADER
};
pub const RECORDS_CARRIED_ON: Wanted = Wanted {
    name: "header_records, carried on",
    ..HEADER
};
/// In the newer edition, by either numbering; the original's answers count as they do in the older.
pub const HEADER_NEWER: Wanted = Wanted {
    name: "parse_main_header_by_reading, newer",
    answers: &[
        (ACCEPTED, 25_000),
        (FILLERS, 8_000),
        (NUMBERED_ON, 0),
        (CAPPED, 15_000),
        ("refused 1", 100_000),
        ("refused 2", 15_000),
        ("refused 3", 200_000),
        ("refused 4", 15_000),
        ("refused 5", 30_000),
        ("refused 6", 8_000),
        ("refused 17", 0),
        ("refused 18", 0),
        (TOO_LONG, 0),
        ("refused 26", 0),
        ("refused 33", 0),
        ("refused 34", 0),
    ],
};
pub const RECORDS_NEWER: Wanted = Wanted {
    name: "header_records, newer",
    ..HEADER_NEWER
};
/// By each.
pub const HEADER_BY_READING: Wanted = Wanted {
    name: "parse_main_header_by_reading",
    ..HEADER_NEWER
};
pub const HEADER_RECORDS: Wanted = Wanted {
    name: "header_records",
    ..HEADER_NEWER
};

/// By whether it is in the newer edition and has CAP, whether the table is another one than restarting,
/// and the number of fillers.
pub fn header(capped: bool, numbered_on: bool, fillers: u64) -> &'static str {
    match (capped, numbered_on, fillers) {
        (true, ..) => CAPPED,
        (_, true, _) => NUMBERED_ON,
        (.., 0) => ACCEPTED,
        _ => FILLERS,
    }
}

/// Of a marker that isn't there.
pub const NO_MARKER: &str = "no such marker";
/// The original says what is refused, and of TLM and SIZ whether they are there.
pub const FIND_MARKER: Wanted = Wanted {
    name: "find_marker",
    answers: &[
        (ACCEPTED, 25_000),
        (NO_MARKER, 3_000),
        ("refused 1", 30_000),
        ("refused 2", 30_000),
        ("refused 3", 400_000),
        ("refused 4", 15_000),
        ("refused 5", 40_000),
        ("refused 6", 25_000),
        (TOO_LONG, 0),
    ],
};

pub const SCAN: Wanted = Wanted {
    name: "scan_sot_markers",
    answers: &[
        (ACCEPTED, 250_000),
        ("refused 7", 100_000),
        ("refused 8", 40_000),
        ("refused 9", 40_000),
        ("refused 18", 0),
    ],
};
pub const SCAN_RECORDS: Wanted = Wanted {
    name: "scan_records",
    ..SCAN
};

/// Of a length table, by what differs first. The original's answers count where its lists have to be ours.
pub const PASSES: &str = "passes";
pub const NO_ENTRIES: &str = "differs, no entries";
pub const MISSING: &str = "differs, an entry missing";
pub const SURPLUS: &str = "differs, an entry too many";
pub const ANOTHER_TILE: &str = "differs in the tile";
pub const ANOTHER_LENGTH: &str = "differs in the length";
pub const CHECK: Wanted = Wanted {
    name: "check_length_table",
    answers: &[
        (PASSES, 30_000),
        (NO_ENTRIES, 6_000),
        (MISSING, 3_000),
        (SURPLUS, 3_000),
        (ANOTHER_TILE, 40_000),
        (ANOTHER_LENGTH, 15_000),
        ("refused 1", 12_000),
        ("refused 2", 2_000),
        ("refused 3", 100_000),
        ("refused 4", 2_000),
        ("refused 5", 1_500),
        ("refused 6", 5_000),
        ("refused 7", 4_000),
        ("refused 8", 3_000),
        ("refused 9", 6_000),
        (TOO_LONG, 0),
        ("refused 26", 0),
        ("refused 32", 0),
    ],
};

/// Of one that is not refused.
pub fn checked(difference: Option<Difference>) -> &'static str {
    let Some(difference) = difference else {
        return PASSES;
    };
    match (difference.listed, difference.standing) {
        (None, _) if difference.number == 0 => NO_ENTRIES,
        (None, _) => MISSING,
        (_, None) => SURPLUS,
        (Some((listed, _)), Some((standing, _))) if listed != standing => ANOTHER_TILE,
        _ => ANOTHER_LENGTH,
    }
}

/// Laws of the check, by our own answers.
pub const SAME_LISTS: &str = "passes, the lists are the same";
pub const OTHER_LISTS: &str = "does not pass, they are not";
pub const FIRST_AGREE: &str = "the first agree";
pub const AS_THE_WHOLE: &str = "enough is as the whole";
pub const SHUFFLED: &str = "shuffled alike";
pub const LAWS_OF_CHECK: Wanted = Wanted {
    name: "laws of the check",
    answers: &[
        (SAME_LISTS, 0),
        (OTHER_LISTS, 0),
        (FIRST_AGREE, 0),
        (AS_THE_WHOLE, 0),
        (SHUFFLED, 0),
    ],
};

/// The original doesn't read what they are told by.
pub const IN_ORDER: &str = "in order";
pub const NOT_IN_ORDER: &str = "not in order";
pub const ORDER: Wanted = Wanted {
    name: "tile_in_order",
    answers: &[(IN_ORDER, 0), (NOT_IN_ORDER, 0)],
};
pub const ORDER_OF_RECORDS: Wanted = Wanted {
    name: "records_in_order",
    ..ORDER
};
/// Of the codestream that is assembled of a tile, by our own answer before.
pub const ORDER_ASSEMBLED: Wanted = Wanted {
    name: "order of what is assembled",
    ..ORDER
};

pub fn order(holds: bool) -> &'static str {
    match holds {
        true => IN_ORDER,
        false => NOT_IN_ORDER,
    }
}

/// Of the index by tile the original has nothing.
pub const INDEX: Wanted = Wanted {
    name: "index_tiles",
    answers: &[(ACCEPTED, 0), ("refused 18", 0)],
};
/// Of keys that are not the index of the rows before.
pub const OTHER_KEYS: &str = "accepted with other keys";
pub const EXTEND: Wanted = Wanted {
    name: "extend_index",
    answers: &[(ACCEPTED, 0), (OTHER_KEYS, 0), ("refused 18", 0)],
};
pub const EXTEND_OF_RECORDS: Wanted = Wanted {
    name: "records_index",
    ..EXTEND
};

/// By whether the keys are that.
pub fn extended(right: bool) -> &'static str {
    match right {
        true => ACCEPTED,
        false => OTHER_KEYS,
    }
}

pub const A_RUN: &str = "a run";
pub const NO_RUN: &str = "no run";
pub const RUN: Wanted = Wanted {
    name: "tile_run",
    answers: &[(A_RUN, 0), (NO_RUN, 0)],
};

pub fn run(found: bool) -> &'static str {
    match found {
        true => A_RUN,
        false => NO_RUN,
    }
}

/// Of a run that has keys which the table does not answer to.
pub const LEFT_OUT: &str = "accepted, some left out";
pub const ENTRIES: Wanted = Wanted {
    name: "tile_entries",
    answers: &[(ACCEPTED, 0), (LEFT_OUT, 0), ("refused 18", 0)],
};

/// By whether each key of the run has its row.
pub fn given(all: bool) -> &'static str {
    match all {
        true => ACCEPTED,
        false => LEFT_OUT,
    }
}

/// Laws of the index, by our own answers.
pub const AS_AFRESH: &str = "extended as afresh";
pub const SAME_RUN: &str = "nothing gained, the same run";
pub const AS_FILTERED: &str = "run as filtered";
pub const JOINED: &str = "joined as filtered";
pub const LAWS_OF_INDEX: Wanted = Wanted {
    name: "laws of the index",
    answers: &[(AS_AFRESH, 0), (SAME_RUN, 0), (AS_FILTERED, 0), (JOINED, 0)],
};

pub const COUNT: &str = "count";
pub const SPLIT_COUNT: Wanted = Wanted {
    name: "split_count",
    answers: &[(COUNT, 70_000)],
};
pub const SPLIT_PART: Wanted = Wanted {
    name: "split_part",
    answers: &[(ACCEPTED, 300_000), ("refused 17", 0)],
};
/// The count, and each part by its number.
pub const SPLIT: Wanted = Wanted {
    name: "split_tile_parts",
    answers: &[
        SPLIT_COUNT.answers[0],
        SPLIT_PART.answers[0],
        SPLIT_PART.answers[1],
    ],
};

pub const SPLIT_AT: Wanted = Wanted {
    name: "split_at",
    answers: &[(ACCEPTED, 600_000), ("refused 17", 0)],
};
/// Of the calls from part to part.
pub const WALK: &str = "walk";
/// The walk, and each part by its position.
pub const SPLIT_BY_POSITION: Wanted = Wanted {
    name: SPLIT_AT.name,
    answers: &[(WALK, 70_000), SPLIT_AT.answers[0], SPLIT_AT.answers[1]],
};

/// Of functions that write one tile by Annex B's rule: the original's answers count where the rules
/// have to agree.
const BY_ANNEX_B: &[Answer] = &[
    (ACCEPTED, 60_000),
    ("refused 17", 0),
    ("refused 30", 0),
    ("refused 31", 0),
];
/// The same in place, where that has to write what Annex B's rule does.
const IN_PLACE: &[Answer] = &[
    (ACCEPTED, 60_000),
    ("refused 17", 0),
    ("refused 30", 0),
    ("refused 31", 0),
];
/// By any rule, where the original isn't asked.
const BY_ANY_RULE: &[Answer] = &[
    (ACCEPTED, 0),
    ("refused 10", 0),
    ("refused 17", 0),
    ("refused 30", 0),
    ("refused 31", 0),
];

pub const REWRITE: Wanted = Wanted {
    name: "rewrite_siz_for_tile",
    answers: BY_ANNEX_B,
};
pub const REWRITE_BY_RULE: Wanted = Wanted {
    name: "rewrite_siz_for_tile_by_rule",
    answers: BY_ANY_RULE,
};
pub const REWRITE_BY_ANNEX_B: Wanted = Wanted {
    name: "rewrite_siz_for_tile_by_rule, Annex B's",
    answers: BY_ANNEX_B,
};
pub const REWRITE_BY_ORIGINAL: Wanted = Wanted {
    name: "rewrite_siz_for_tile_by_rule, the original's",
    answers: &[(ACCEPTED, 150_000), ("refused 10", 0), ("refused 17", 0)],
};

pub const REWRITE_IN_PLACE: Wanted = Wanted {
    name: "rewrite_siz_for_tile_by_rule, in place",
    answers: IN_PLACE,
};

/// Laws of the rewrite in place, of which the original says nothing.
pub const AGAIN: &str = "again the same";
pub const ONE_TILE: &str = "one tile, of the same area";
pub const AT_0: &str = "from 0, 0 on as by Annex B";
pub const LAWS_IN_PLACE: Wanted = Wanted {
    name: "laws of the rewrite in place",
    answers: &[(AGAIN, 0), (ONE_TILE, 0), (AT_0, 0)],
};

pub const ASSEMBLY: Wanted = Wanted {
    name: "build_minimal_codestream",
    answers: BY_ANNEX_B,
};
pub const ASSEMBLY_BY_RULE: Wanted = Wanted {
    name: "build_minimal_codestream_by_rule",
    answers: BY_ANY_RULE,
};
pub const ASSEMBLY_BY_ANNEX_B: Wanted = Wanted {
    name: "build_minimal_codestream_by_rule, Annex B's",
    answers: BY_ANNEX_B,
};
pub const ASSEMBLY_BY_ORIGINAL: Wanted = Wanted {
    name: "build_minimal_codestream_by_rule, the original's",
    answers: &[(ACCEPTED, 100_000), ("refused 10", 0), ("refused 17", 0)],
};
pub const ASSEMBLY_IN_PLACE: Wanted = Wanted {
    name: "build_minimal_codestream_by_rule, in place",
    answers: IN_PLACE,
};
pub const FROM_PARTS: Wanted = Wanted {
    name: "build_minimal_codestream_from_parts",
    answers: &[(ACCEPTED, 120_000), ("refused 30", 0), ("refused 31", 0)],
};
pub const FROM_PARTS_BY_ORIGINAL: Wanted = Wanted {
    name: "build_minimal_codestream_from_parts_by_rule, the original's",
    answers: &[(ACCEPTED, 200_000), ("refused 10", 0)],
};

pub const SEARCH: Wanted = Wanted {
    name: "find_codestream",
    answers: &[
        (ACCEPTED, 90_000),
        ("refused 11", 6_000),
        ("refused 12", 100_000),
        ("refused 13", 4_000),
        ("refused 14", 200_000),
        ("refused 15", 0),
        ("refused 16", 0),
    ],
};

/// The codestream's bytes; none where the search refuses.
pub const CODESTREAM: Wanted = Wanted {
    name: "codestream_of",
    answers: &[("codestream", 60_000), ("none", 300_000), ("refused 17", 0)],
};

pub fn codestream(found: bool) -> &'static str {
    CODESTREAM.answers[usize::from(!found)].0
}

/// Of the list of boxes the original has nothing. By how deep the deepest lie.
pub const NO_BOXES: &str = "no boxes";
pub const AT_THE_TOP: &str = "listed, at the top alone";
pub const BELOW_THE_TOP: &str = "listed, below the top";
pub const EIGHT_DEEP: &str = "listed, eight deep";
pub const BOXES: Wanted = Wanted {
    name: "list_boxes",
    answers: &[
        (NO_BOXES, 0),
        (AT_THE_TOP, 0),
        (BELOW_THE_TOP, 0),
        (EIGHT_DEEP, 0),
        ("refused 13", 0),
        ("refused 16", 0),
        ("refused 18", 0),
        ("refused 27", 0),
        ("refused 28", 0),
        ("refused 29", 0),
    ],
};

/// Of a list that is not refused.
pub fn boxes(listed: &[BoxEntry]) -> &'static str {
    match listed.iter().map(|entry| entry.depth).max() {
        None => NO_BOXES,
        Some(1) => AT_THE_TOP,
        Some(DEEPEST) => EIGHT_DEEP,
        Some(_) => BELOW_THE_TOP,
    }
}

/// Laws of the list of boxes, by our own answers.
pub const FILLED: &str = "each list is filled";
pub const RISING: &str = "starts rise";
pub const READ_BACK: &str = "headers say the rows";
pub const AS_BUILT: &str = "a tree as it was built";
pub const FIRST_FOUND: &str = "the search finds the first jp2c";
pub const NONE_FOUND: &str = "the search ends where the file does";
pub const LAWS_OF_BOXES: Wanted = Wanted {
    name: "laws of the list of boxes",
    answers: &[
        (FILLED, 0),
        (RISING, 0),
        (READ_BACK, 0),
        (AS_BUILT, 0),
        (FIRST_FOUND, 0),
        (NONE_FOUND, 0),
    ],
};

pub const SIZ: Wanted = Wanted {
    name: "parse_siz_marker",
    answers: &[
        (ACCEPTED, 30_000),
        ("refused 20", 1_000),
        ("refused 21", 30_000),
        ("refused 22", 0),
    ],
};

pub const PIXEL_TYPE: Wanted = Wanted {
    name: "pixel_type_from_siz",
    answers: &[("unsigned", 256), ("signed", 256)],
};

pub fn pixel_type(signed: bool) -> &'static str {
    PIXEL_TYPE.answers[usize::from(signed)].0
}

pub const GROWTH: Wanted = Wanted {
    name: "grow_header_region",
    answers: &[(ACCEPTED, 1_000_000)],
};

pub const NEXT_REGION: Wanted = Wanted {
    name: "next_region",
    answers: &[("doubled", 150_000), ("capped", 300_000)],
};

pub fn next_region(capped: bool) -> &'static str {
    NEXT_REGION.answers[usize::from(capped)].0
}

/// By what the original says of the whole.
pub const EXTENT_OF_PREFIX: Wanted = Wanted {
    name: "extent of a prefix",
    answers: &[(COMPLETE, 2_000), (TRUNCATED, 30_000)],
};
/// In rows and in records, by what the archive says of the whole.
const AS_OF_THE_WHOLE: &[Answer] = &[
    (ACCEPTED, 0),
    ("refused 1", 0),
    ("refused 2", 0),
    ("refused 3", 0),
    ("refused 4", 0),
    ("refused 5", 0),
    ("refused 6", 0),
    ("refused 17", 0),
    ("refused 18", 0),
    ("refused 26", 0),
    ("refused 33", 0),
    ("refused 34", 0),
];
/// Of one that is enough.
pub const HEADER_OF_PREFIX: Wanted = Wanted {
    name: "main header of a prefix",
    answers: AS_OF_THE_WHOLE,
};
/// Where the whole is accepted.
pub const TOO_FEW: &str = "refused";
pub const HEADER_OF_TOO_FEW: Wanted = Wanted {
    name: "main header of too few bytes",
    answers: &[(TOO_FEW, 0)],
};
/// And in growth's region.
pub const MARKER_OF_PREFIX: Wanted = Wanted {
    name: "marker in a prefix",
    answers: &[
        (ACCEPTED, 0),
        (NO_MARKER, 0),
        ("refused 1", 0),
        ("refused 2", 0),
        ("refused 3", 0),
        ("refused 4", 0),
        ("refused 5", 0),
        ("refused 6", 0),
    ],
};
pub const FIRST_REGION: &str = "the first region";
pub const LATER_REGION: &str = "a later region";
pub const ALL: &str = "the whole";
pub const REGION: Wanted = Wanted {
    name: "growth's region",
    answers: &[(FIRST_REGION, 0), (LATER_REGION, 0), (ALL, 0)],
};
pub const HEADER_OF_REGION: Wanted = Wanted {
    name: "main header of growth's region",
    answers: AS_OF_THE_WHOLE,
};

/// The same of files, and of damaged ones.
pub const EXTENT_OF_FILE: Wanted = Wanted {
    answers: &[(COMPLETE, 20_000), (TRUNCATED, 20_000)],
    ..EXTENT_OF_PREFIX
};
const AS_OF_THE_WHOLE_FILE: &[Answer] = &[
    (ACCEPTED, 0),
    ("refused 3", 0),
    ("refused 17", 0),
    ("refused 18", 0),
];
pub const HEADER_OF_FILE: Wanted = Wanted {
    answers: AS_OF_THE_WHOLE_FILE,
    ..HEADER_OF_PREFIX
};
pub const MARKER_OF_FILE: Wanted = Wanted {
    answers: &[(ACCEPTED, 0), (NO_MARKER, 0), ("refused 3", 0)],
    ..MARKER_OF_PREFIX
};
pub const HEADER_OF_REGION_OF_FILE: Wanted = Wanted {
    answers: AS_OF_THE_WHOLE_FILE,
    ..HEADER_OF_REGION
};

/// Of component sizes; the first three are the main header's too.
const REFUSED_COMPONENTS: [Answer; 6] = [
    ("refused 1", 25_000),
    ("refused 2", 40_000),
    ("refused 3", 100_000),
    ("refused 22", 0),
    ("refused 24", 0),
    ("refused 25", 0),
];

/// A function's own answers, and these refusals behind them: `N` in all.
const fn or_refused<const N: usize>(own: &[Answer]) -> [Answer; N] {
    assert!(N == own.len() + REFUSED_COMPONENTS.len());
    let mut all = [own[0]; N];
    let mut at = 1;
    while at < N {
        all[at] = match at < own.len() {
            true => own[at],
            false => REFUSED_COMPONENTS[at - own.len()],
        };
        at += 1;
    }
    all
}

pub const READ_COMPONENTS: Wanted = Wanted {
    name: "read_components",
    answers: &or_refused::<7>(&[(ACCEPTED, 150_000)]),
};
pub const READ_COMPONENTS_IN_TILE: Wanted = Wanted {
    name: "read_components_in_tile",
    answers: &or_refused::<9>(&[(ACCEPTED, 25_000), ("refused 30", 0), ("refused 31", 0)]),
};
pub const READ_COMPONENTS_BY_RULE: Wanted = Wanted {
    name: "read_components_in_tile_by_rule",
    answers: &or_refused::<10>(&[
        (ACCEPTED, 0),
        ("refused 10", 0),
        ("refused 30", 0),
        ("refused 31", 0),
    ]),
};
pub const READ_COMPONENTS_BY_ANNEX_B: Wanted = Wanted {
    name: "read_components_in_tile_by_rule, Annex B's",
    ..READ_COMPONENTS_IN_TILE
};
pub const READ_COMPONENTS_IN_PLACE: Wanted = Wanted {
    name: "read_components_in_tile_by_rule, in place",
    ..READ_COMPONENTS_IN_TILE
};
pub const READ_COMPONENTS_BY_ORIGINAL: Wanted = Wanted {
    name: "read_components_in_tile_by_rule, the original's",
    answers: &or_refused::<8>(&[(ACCEPTED, 100_000), ("refused 10", 0)]),
};

pub const NONE: &str = "no such component";
pub const COMPONENT: Wanted = Wanted {
    name: "component",
    answers: &or_refused::<8>(&[(ACCEPTED, 100_000), (NONE, 50_000)]),
};
pub const COMPONENT_IN_TILE: Wanted = Wanted {
    name: "component_in_tile",
    answers: &or_refused::<10>(&[
        (ACCEPTED, 20_000),
        (NONE, 5_000),
        ("refused 30", 0),
        ("refused 31", 0),
    ]),
};
pub const COMPONENT_BY_RULE: Wanted = Wanted {
    name: "component_in_tile_by_rule",
    answers: &or_refused::<11>(&[
        (ACCEPTED, 0),
        (NONE, 0),
        ("refused 10", 0),
        ("refused 30", 0),
        ("refused 31", 0),
    ]),
};
pub const COMPONENT_BY_ANNEX_B: Wanted = Wanted {
    name: "component_in_tile_by_rule, Annex B's",
    ..COMPONENT_IN_TILE
};
pub const COMPONENT_IN_PLACE: Wanted = Wanted {
    name: "component_in_tile_by_rule, in place",
    ..COMPONENT_IN_TILE
};
pub const COMPONENT_BY_ORIGINAL: Wanted = Wanted {
    name: "component_in_tile_by_rule, the original's",
    answers: &or_refused::<9>(&[(ACCEPTED, 70_000), (NONE, 30_000), ("refused 10", 0)]),
};
pub const COMPONENT_WITHIN: Wanted = Wanted {
    name: "component_within",
    answers: &[(ACCEPTED, 300_000), (NONE, 150_000)],
};

/// Of a header that was rewritten in place, by what the archive says of the one before; of this the
/// original says nothing.
pub const COMPONENT_KEPT: Wanted = Wanted {
    name: "component of a tile alone, in place",
    answers: &[(ACCEPTED, 0), (NONE, 0)],
};
