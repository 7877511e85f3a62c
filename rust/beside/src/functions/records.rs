//! Tables of records, for what is said of tables of rows. A slice of records can't cross to C, as a
//! record holds an enum: the archive loads the rows that it is lent into records of its own, calls, and
//! writes their rows back.

use crate::model::{records, rows_of, ROW};

/// Records that the archive has at most.
pub const MOST: usize = 2_048;

/// Lends `call` the rows of `table` as records write them, and what stands behind the last whole row.
/// A row that is left as it was lent stays as it was, to the byte.
pub fn instead_of(table: &mut [u8], call: impl FnOnce(&mut [u8]) -> u32) -> u32 {
    let whole = table.len() / ROW * ROW;
    let lent = [&rows_of(&records(table)), &table[whole..]].concat();
    let mut left = lent.clone();
    let status = call(&mut left);
    let rows = lent.chunks(ROW).zip(left.chunks(ROW));
    for (place, (before, after)) in table.chunks_mut(ROW).zip(rows) {
        if before != after {
            place.copy_from_slice(after);
        }
    }
    status
}

#[cfg(test)]
mod tests {
    use super::{instead_of, ROW};

    #[test]
    fn what_is_not_written_stays() {
        let before: Vec<u8> = (0..50).collect();
        let mut table = before.clone();
        let status = instead_of(&mut table, |rows| {
            assert_eq!(rows[..18], before[..18]);
            // 18 is no 1: the numbers are not known
            assert_eq!(rows[18..21], [0; 3]);
            assert_eq!(rows[42..], before[42..]);
            rows[ROW] = 77;
            rows[49] = 78;
            5
        });
        assert_eq!(status, 5);
        assert_eq!(table[..21], before[..21]);
        assert_eq!(table[21], 77);
        assert_eq!(table[22..39], before[22..39]);
        assert_eq!(table[39..42], [0; 3]);
        assert_eq!(table[42..49], before[42..49]);
        assert_eq!(table[49], 78);
    }
}
