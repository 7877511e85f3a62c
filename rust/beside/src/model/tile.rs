//! "SIZ rewrite", "Tiles kept in place", "Assembly".

use super::rules::{field, has_siz, tile_area, Rule, ORIGIN, SIZE, TILE, TILE_ORIGIN};
use super::{read, Range, Refusal};
use crate::sample::codestream::{EOC, SOT};

pub fn rewrite_siz_for_tile(
    decode_header: &[u8],
    isot: u16,
    rule: Rule,
) -> Result<Vec<u8>, Refusal> {
    let mut header = decode_header.to_vec();
    if !has_siz(&header) {
        return Ok(header);
    }
    let [x0, y0, x1, y1] = tile_area(&header, isot, rule)?;
    let (width, height) = (x1 - x0, y1 - y0);
    let full = [width, height].map(u64::from) == [field(&header, TILE), field(&header, TILE + 4)];
    let written = match rule {
        Rule::InPlace => [
            (SIZE, x1, y1),
            (ORIGIN, x0, y0),
            (TILE, width, height),
            (TILE_ORIGIN, x0, y0),
        ],
        Rule::AnnexB | Rule::Original if full => return Ok(header),
        Rule::AnnexB | Rule::Original => [
            (SIZE, width, height),
            (ORIGIN, 0, 0),
            (TILE, width, height),
            (TILE_ORIGIN, 0, 0),
        ],
    };
    for (at, x, y) in written {
        header[at..at + 4].copy_from_slice(&x.to_be_bytes());
        header[at + 4..at + 8].copy_from_slice(&y.to_be_bytes());
    }
    Ok(header)
}

pub fn build_minimal_codestream(
    decode_header: &[u8],
    ranges: &[Range],
    codestream: &[u8],
    rule: Rule,
    room: usize,
) -> Result<Vec<u8>, Refusal> {
    build_from_parts(decode_header, &kept(ranges, codestream), rule, room)
}

/// The parts of ranges; one that passes the end is dropped.
pub fn kept<'a>(ranges: &[Range], codestream: &'a [u8]) -> Vec<&'a [u8]> {
    let part = |&(offset, length): &Range| {
        let end = offset.checked_add(length)?;
        codestream.get(offset as usize..usize::try_from(end).ok()?)
    };
    ranges.iter().filter_map(part).collect()
}

pub fn build_from_parts(
    decode_header: &[u8],
    parts: &[&[u8]],
    rule: Rule,
    room: usize,
) -> Result<Vec<u8>, Refusal> {
    let header = match parts.first().and_then(|part| isot(part)) {
        Some(isot) => rewrite_siz_for_tile(decode_header, isot, rule)?,
        None => decode_header.to_vec(),
    };
    Refusal::unless_it_holds(room, needed(decode_header, parts))?;
    let mut out = header;
    for part in parts {
        let at = out.len();
        out.extend(*part);
        if isot(part).is_some() {
            out[at + 4..at + 6].fill(0);
        }
    }
    out.extend(EOC.to_be_bytes());
    Ok(out)
}

/// Bytes of header, parts and EOC.
pub fn needed(decode_header: &[u8], parts: &[&[u8]]) -> u128 {
    let part_bytes: u128 = parts.iter().map(|part| part.len() as u128).sum();
    decode_header.len() as u128 + part_bytes + 2
}

/// Of a part that begins with FF90 and has 6 bytes.
fn isot(part: &[u8]) -> Option<u16> {
    match read(part, 0, 2) == Some(SOT.into()) {
        true => read(part, 4, 2).map(|isot| isot as u16),
        false => None,
    }
}

#[cfg(test)]
mod tests {
    use super::rewrite_siz_for_tile;
    use crate::model::rules::Rule;
    use crate::sample::sizes::{header, Fields, MOVED};

    /// Each by hand, of a grid of 5 columns and 3 rows.
    #[test]
    fn a_header_by_each_rule() {
        let by = |isot, rule| rewrite_siz_for_tile(&header(MOVED), isot, rule);
        let says = |fields: Fields| Ok(header(fields));
        assert_eq!(by(0, Rule::AnnexB), says([2, 3, 0, 0, 2, 3, 0, 0]));
        assert_eq!(by(0, Rule::InPlace), says([9, 8, 7, 5, 2, 3, 7, 5]));
        assert_eq!(by(0, Rule::Original), says(MOVED));
        // of full size
        assert_eq!(by(6, Rule::AnnexB), says(MOVED));
        assert_eq!(by(6, Rule::InPlace), says([13, 14, 9, 8, 4, 6, 9, 8]));
        for rule in [Rule::AnnexB, Rule::InPlace] {
            assert_eq!(by(15, rule).map_err(|refusal| refusal.number), Err(31));
        }
        let cut = &header(MOVED)[..39];
        assert_eq!(
            rewrite_siz_for_tile(cut, 15, Rule::InPlace).as_deref(),
            Ok(cut)
        );
    }
}
