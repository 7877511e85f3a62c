//! What has to hold of a tile that is kept in place, whatever the model would write: by the archive's
//! own answers, and by where the model has tiles by Annex B.

use probe::host;

use crate::model::rules::{has_siz, tile_area, Rule};
use crate::model::Refusal;
use crate::tally::{hex, Tally};
use crate::wanted::{AGAIN, AT_0, ONE_TILE};

/// Of a header that holds the fields. `rewrite` takes a header, an index and a rule's number, and gives
/// nothing where it refuses.
pub fn check(
    tally: &mut Tally,
    header: &[u8],
    isot: u16,
    rewrite: impl Fn(&[u8], u16, u32) -> Option<Vec<u8>>,
) {
    let kept = rewrite(header, isot, host::IN_PLACE).filter(|_| has_siz(header));
    let Some(kept) = kept else {
        return;
    };
    let input = || format!("{}, tile {isot}", hex(header));
    let again = rewrite(&kept, 0, host::IN_PLACE);
    tally.compare_by_the_document(AGAIN, &again.as_ref(), &Some(&kept), input);

    let area = |header: &[u8], isot| tile_area(header, isot, Rule::AnnexB);
    let (here, past) = (area(header, isot), Err(Refusal::new(31, 2)));
    let tiles = [0, 1].map(|isot| area(&kept, isot));
    tally.compare_by_the_document(ONE_TILE, &tiles, &[here, past], input);

    let moved = rewrite(header, isot, host::ANNEX_B);
    let changed = moved.as_deref() != Some(header);
    if changed && matches!(here, Ok([0, 0, ..])) {
        tally.compare_by_the_document(AT_0, &Some(kept), &moved, input);
    }
}

#[cfg(test)]
mod tests {
    use super::check;
    use crate::model::rules::{Rule, ORIGIN, SIZE, TILE, TILE_ORIGIN};
    use crate::model::tile::rewrite_siz_for_tile;
    use crate::sample::sizes::{header, MOVED, SAMPLE_A};
    use crate::tally::Tally;
    use crate::wanted::LAWS_IN_PLACE;

    /// Of a tile that is cut off, one of full size, and an image that is smaller than its tile; with
    /// `in_place` for the rewrite by that rule.
    fn holds(in_place: impl Fn(&[u8], u16) -> Option<Vec<u8>>) -> bool {
        let mut tally = Tally::new("f", 1, LAWS_IN_PLACE.answers);
        let rewrite = |header: &[u8], isot, rule| match Rule::of(rule) {
            Rule::InPlace => in_place(header, isot),
            other => rewrite_siz_for_tile(header, isot, other).ok(),
        };
        let small = [3, 2, 0, 0, 4, 4, 0, 0];
        for (fields, isot) in [(MOVED, 0), (MOVED, 6), (SAMPLE_A, 5), (small, 0)] {
            check(&mut tally, &header(fields), isot, rewrite);
        }
        tally.holds()
    }

    #[test]
    fn another_rewrite_shows() {
        let kept = |header: &[u8], isot| rewrite_siz_for_tile(header, isot, Rule::InPlace).ok();
        assert!(holds(kept));
        for other in [Rule::AnnexB, Rule::Original] {
            assert!(!holds(|header, isot| {
                rewrite_siz_for_tile(header, isot, other).ok()
            }));
        }
        // a field of the tile's as it was in the whole, or one more
        for at in [SIZE, ORIGIN, TILE, TILE_ORIGIN] {
            for at in [at, at + 4] {
                assert!(!holds(|header, isot| {
                    let mut wrong = kept(header, isot)?;
                    wrong[at..at + 4].copy_from_slice(&header[at..at + 4]);
                    Some(wrong)
                }));
                assert!(!holds(|header, isot| {
                    let mut wrong = kept(header, isot)?;
                    wrong[at + 3] += 1;
                    Some(wrong)
                }));
            }
        }
    }
}
