//! A refusal: its number and place, and what these are in words.

use std::fmt;

/// Why there is no answer. Its text says what is wrong and where.
///
/// ```
/// let refusal = winterhasp::parse_main_header(&[0xFF, 0x4F, 0xFF]).unwrap_err();
/// assert_eq!((refusal.number(), refusal.name(), refusal.place()), (2, "NO_SIZ", 2));
/// println!("{refusal}; {}", refusal.remedy());
/// ```
#[derive(Debug, Clone, Copy, PartialEq, Eq, Hash)]
pub struct Refusal {
    number: u32,
    place: u64,
}

/// What a refusal's place is.
#[derive(Debug, Clone, Copy, PartialEq, Eq, Hash)]
pub enum Origin {
    /// Counted from the start of the file.
    File,
    /// Counted from the start of the codestream.
    Codestream,
    /// No place: how much is needed.
    Needed,
}

struct Words {
    number: u32,
    name: &'static str,
    wrong: &'static str,
    origin: Origin,
    remedy: &'static str,
}

/// The table of docs/RULES.md, "Refusals", to which `tests/refusals.py` holds this one.
const REFUSALS: &[Words] = &[
    Words {
        number: 1,
        name: "NO_SOC",
        wrong: "the start marker (SOC) is missing",
        origin: Origin::Codestream,
        remedy: "ask for the file again",
    },
    Words {
        number: 2,
        name: "NO_SIZ",
        wrong: "the image size segment (SIZ) is missing",
        origin: Origin::Codestream,
        remedy: "ask for the file again",
    },
    Words {
        number: 3,
        name: "SEGMENT_PAST_END",
        wrong: "a header segment runs past the end",
        origin: Origin::Codestream,
        remedy: "ask for the file again: it is cut short, or a length in it is wrong",
    },
    Words {
        number: 4,
        name: "TLM_TOO_SHORT",
        wrong: "a tile-part length segment (TLM) is too short",
        origin: Origin::Codestream,
        remedy: "tell the writer of the file; the scan lists the tile-parts without TLM",
    },
    Words {
        number: 5,
        name: "TLM_FORM_UNKNOWN",
        wrong: "a tile-part length segment (TLM) has an unknown form",
        origin: Origin::Codestream,
        remedy: "tell the writer of the file; the scan lists the tile-parts without TLM",
    },
    Words {
        number: 6,
        name: "NO_TILE_PART",
        wrong: "no tile-part was reached",
        origin: Origin::Codestream,
        remedy: "ask for the file again: it is cut short",
    },
    Words {
        number: 7,
        name: "TILE_PART_CUT_SHORT",
        wrong: "too few bytes are left for a tile-part",
        origin: Origin::Codestream,
        remedy: "ask for the file again: it is cut short, or bytes were added behind its last tile-part",
    },
    Words {
        number: 8,
        name: "SOT_LENGTH_WRONG",
        wrong: "the first segment of a tile-part (SOT) has a wrong length",
        origin: Origin::Codestream,
        remedy: "ask for the file again: it is damaged there",
    },
    Words {
        number: 9,
        name: "TILE_PART_PAST_END",
        wrong: "a tile-part runs past the end",
        origin: Origin::Codestream,
        remedy: "ask for the file again: it is cut short, or a length in it is wrong",
    },
    Words {
        number: 10,
        name: "TILE_OUTSIDE",
        wrong: "the tile lies outside the image, or a sum on the way to its size is too large",
        origin: Origin::Codestream,
        remedy: "check the tile's index and SIZ, or ask by Annex B's rule, which refuses no tile that is there",
    },
    Words {
        number: 11,
        name: "FILE_TOO_SHORT",
        wrong: "the file is too short",
        origin: Origin::File,
        remedy: "ask for the file again",
    },
    Words {
        number: 12,
        name: "NOT_JPEG_2000",
        wrong: "the file is neither a JP2 nor a codestream",
        origin: Origin::File,
        remedy: "ask for the file again",
    },
    Words {
        number: 13,
        name: "BOX_CUT_SHORT",
        wrong: "the header of a JP2 box is cut short",
        origin: Origin::File,
        remedy: "ask for the file again: it is cut short",
    },
    Words {
        number: 14,
        name: "NO_CODESTREAM_BOX",
        wrong: "no codestream box (jp2c) was found",
        origin: Origin::File,
        remedy: "ask for the file again: it is cut short, or a length in it is wrong",
    },
    Words {
        number: 15,
        name: "CODESTREAM_BOX_TOO_SHORT",
        wrong: "the codestream box (jp2c) is shorter than its own header",
        origin: Origin::File,
        remedy: "ask for the file again: a length in it is wrong",
    },
    Words {
        number: 16,
        name: "BOX_TOO_LONG",
        wrong: "a JP2 box is longer than any file",
        origin: Origin::File,
        remedy: "ask for the file again: a length in it is wrong",
    },
    Words {
        number: 17,
        name: "OUTPUT_TOO_SMALL",
        wrong: "the output that was lent has too few bytes",
        origin: Origin::Needed,
        remedy: "lend that much",
    },
    Words {
        number: 18,
        name: "TABLE_TOO_SMALL",
        wrong: "the table or the index that was lent has too little room",
        origin: Origin::Needed,
        remedy: "lend that much",
    },
    Words {
        number: 19,
        name: "HEADER_TOO_LONG",
        wrong: "too many bytes were lent for the main header",
        origin: Origin::Codestream,
        remedy: "lend the header's region only",
    },
    Words {
        number: 20,
        name: "SIZ_CUT_SHORT",
        wrong: "the image size segment (SIZ) is cut short",
        origin: Origin::Codestream,
        remedy: "ask for the file again: it is cut short",
    },
    Words {
        number: 21,
        name: "SIZ_NOT_FOUND",
        wrong: "no image size segment (SIZ) was found",
        origin: Origin::Codestream,
        remedy: "ask for the file again",
    },
    Words {
        number: 22,
        name: "IMAGE_ENDS_BEFORE_IT_STARTS",
        wrong: "the image ends before it starts",
        origin: Origin::Codestream,
        remedy: "ask for the file again: its size segment is damaged",
    },
    Words {
        number: 23,
        name: "LISTING_TOO_LONG",
        wrong: "the file is too long for the listing program",
        origin: Origin::File,
        remedy: "use the command winterhasp, which takes longer files",
    },
    Words {
        number: 24,
        name: "COMPONENTS_NOT_HELD",
        wrong: "the image size segment (SIZ) does not hold the components that it counts",
        origin: Origin::Codestream,
        remedy: "ask for the file again: its size segment is damaged",
    },
    Words {
        number: 25,
        name: "SUBSAMPLING_OF_0",
        wrong: "a component's samples lie 0 apart",
        origin: Origin::Codestream,
        remedy: "ask for the file again: its size segment is damaged",
    },
    Words {
        number: 26,
        name: "TLM_TOO_MANY_ENTRIES",
        wrong: "the tile-part length segments (TLM) have more entries without an index than there are tile numbers",
        origin: Origin::Codestream,
        remedy: "tell the writer of the file; the scan lists the tile-parts without TLM, and a reading that restarts the numbers takes the file",
    },
    Words {
        number: 27,
        name: "BOX_DOES_NOT_FIT",
        wrong: "a box does not fit into the file, or into the box that holds it",
        origin: Origin::File,
        remedy: "ask for the file again: it is cut short, or a box's length is wrong; the search may find its codestream all the same",
    },
    Words {
        number: 28,
        name: "BOX_LENGTH_WRONG",
        wrong: "a box's length is below its own header, or 0 within another box",
        origin: Origin::File,
        remedy: "ask for the file again: a box's length is wrong; the search may find its codestream all the same",
    },
    Words {
        number: 29,
        name: "BOXES_TOO_DEEP",
        wrong: "boxes hold each other more than 8 deep",
        origin: Origin::File,
        remedy: "tell the writer of the file: no box of the standard lies so deep; the search may find its codestream all the same",
    },
    Words {
        number: 30,
        name: "NO_GRID",
        wrong: "the image size segment (SIZ) lays no grid of tiles over the image",
        origin: Origin::Codestream,
        remedy: "ask for the file again: its size segment is damaged",
    },
    Words {
        number: 31,
        name: "NO_SUCH_TILE",
        wrong: "the grid has no tile of this index",
        origin: Origin::Codestream,
        remedy: "check the tile's index: the grid of tiles ends before it",
    },
    Words {
        number: 32,
        name: "TLM_NUMBER_REPEATED",
        wrong: "two tile-part length segments (TLM) have the same number",
        origin: Origin::Codestream,
        remedy: "tell the writer of the file: its length table has no order; the scan lists the tile-parts without TLM",
    },
    Words {
        number: 33,
        name: "CAP_OUT_OF_PLACE",
        wrong: "the capabilities segment (CAP) is announced and missing, or stands there unannounced or twice",
        origin: Origin::Codestream,
        remedy: "tell the writer of the file; the older edition takes it and passes over CAP",
    },
    Words {
        number: 34,
        name: "CAP_LENGTH_WRONG",
        wrong: "the capabilities segment (CAP) is not as long as its bits ask",
        origin: Origin::Codestream,
        remedy: "tell the writer of the file; the older edition takes it and passes over CAP",
    },
];

/// What an archive newer than this crate may give.
const UNKNOWN: Words = Words {
    number: 0,
    name: "UNKNOWN",
    wrong: "refused for a reason that this version has no words for",
    origin: Origin::Codestream,
    remedy: "use a newer version of this crate",
};

impl Refusal {
    pub(crate) fn new(number: u32, place: u64) -> Self {
        Refusal { number, place }
    }

    /// From 1 on.
    ///
    /// ```
    /// assert_eq!(winterhasp::find_codestream(b"").unwrap_err().number(), 11);
    /// ```
    pub fn number(&self) -> u32 {
        self.number
    }

    /// Where it is, or how much is needed: [`origin`](Refusal::origin) tells which.
    ///
    /// ```
    /// assert_eq!(winterhasp::find_codestream(b"GIF89a").unwrap_err().place(), 0);
    /// ```
    pub fn place(&self) -> u64 {
        self.place
    }

    /// What the place counts from.
    ///
    /// ```
    /// use winterhasp::{find_codestream, parse_main_header, Origin};
    ///
    /// assert_eq!(find_codestream(b"GIF89a").unwrap_err().origin(), Origin::File);
    /// assert_eq!(parse_main_header(b"GIF89a").unwrap_err().origin(), Origin::Codestream);
    /// ```
    pub fn origin(&self) -> Origin {
        self.words().origin
    }

    /// The number's name, as in `winterhasp.h` behind `WINTERHASP_`.
    ///
    /// ```
    /// assert_eq!(winterhasp::find_codestream(b"GIF89a").unwrap_err().name(), "NOT_JPEG_2000");
    /// ```
    pub fn name(&self) -> &'static str {
        self.words().name
    }

    /// What is wrong, without the place.
    ///
    /// ```
    /// let refusal = winterhasp::find_codestream(b"GIF89a").unwrap_err();
    /// assert!(refusal.to_string().starts_with(refusal.wrong()));
    /// ```
    pub fn wrong(&self) -> &'static str {
        self.words().wrong
    }

    /// What to do about it.
    ///
    /// ```
    /// let refusal = winterhasp::find_codestream(b"GIF89a").unwrap_err();
    /// assert_eq!(refusal.remedy(), "ask for the file again");
    /// ```
    pub fn remedy(&self) -> &'static str {
        self.words().remedy
    }

    fn words(&self) -> &'static Words {
        let known = REFUSALS.iter().find(|words| words.number == self.number);
        known.unwrap_or(&UNKNOWN)
    }
}

impl fmt::Display for Refusal {
    fn fmt(&self, out: &mut fmt::Formatter) -> fmt::Result {
        let Refusal { number, place } = self;
        let Words { wrong, origin, .. } = self.words();
        match origin {
            Origin::File => write!(out, "{wrong}, at byte {place} of the file")?,
            Origin::Codestream => write!(out, "{wrong}, at byte {place} of the codestream")?,
            Origin::Needed => write!(out, "{wrong}: {place} are needed")?,
        }
        write!(out, " (refusal {number})")
    }
}

impl std::error::Error for Refusal {}

#[cfg(test)]
mod tests {
    use super::{Refusal, REFUSALS, UNKNOWN};

    #[test]
    fn says_what_is_wrong_and_where() {
        let text = |number, place| Refusal::new(number, place).to_string();
        for words in REFUSALS {
            let number = words.number;
            let said = text(number, 71);
            assert!(said.starts_with(words.wrong), "{said}");
            assert!(said.contains("71"), "{said}");
            assert!(said.ends_with(&format!("(refusal {number})")), "{said}");
        }
        assert!(text(9, 71).contains("at byte 71 of the codestream"));
        assert!(text(14, 12).contains("at byte 12 of the file"));
        assert!(text(18, 3).contains(": 3 are needed"));
    }

    #[test]
    fn a_number_without_words_is_told_as_such() {
        for number in [0, 1000, u32::MAX] {
            let refusal = Refusal::new(number, 5);
            assert_eq!(refusal.name(), UNKNOWN.name);
            assert!(refusal
                .to_string()
                .ends_with(&format!("(refusal {number})")));
        }
    }
}
