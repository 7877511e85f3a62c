//! Memory that is lent to the archive, made as large as it asks for.

use crate::refusal::Refusal;
use crate::tile_part::ROW;

pub const ACCEPTED: u32 = 0;
const OUTPUT_TOO_SMALL: u32 = 17;
pub const TABLE_TOO_SMALL: u32 = 18;

/// What a function may write to: rows, each of so many bytes, and bytes.
pub struct Lent {
    row: usize,
    pub table: Vec<u8>,
    pub out: Vec<u8>,
}

/// Calls with nothing lent, and again with what was asked for; gives what then stands there, and the
/// numbers. A refusal's place is the first of them.
pub fn lend<const N: usize>(
    call: impl Fn(&mut Lent, &mut [u64; N]) -> u32,
) -> Result<(Lent, [u64; N]), Refusal> {
    lend_more(Lent::nothing(ROW), call)
}

/// The same with a table of so many rows of so many bytes lent at first, which is likely to do. Where
/// there is no such memory it is nothing.
pub fn lend_rows<const N: usize>(
    rows: usize,
    row: usize,
    call: impl Fn(&mut Lent, &mut [u64; N]) -> u32,
) -> Result<(Lent, [u64; N]), Refusal> {
    let mut lent = Lent::nothing(row);
    let _ = lent.grow(Refusal::new(TABLE_TOO_SMALL, rows as u64));
    lend_more(lent, call)
}

fn lend_more<const N: usize>(
    mut lent: Lent,
    call: impl Fn(&mut Lent, &mut [u64; N]) -> u32,
) -> Result<(Lent, [u64; N]), Refusal> {
    loop {
        let mut numbers = [0; N];
        match call(&mut lent, &mut numbers) {
            ACCEPTED => return Ok((lent, numbers)),
            number => lent.grow(Refusal::new(number, numbers[0]))?,
        }
    }
}

/// An answer in `N` numbers, of a function that nothing more is lent to.
pub fn accepted<const N: usize>(
    call: impl FnOnce(&mut [u64; N]) -> u32,
) -> Result<[u64; N], Refusal> {
    let mut numbers = [0; N];
    match call(&mut numbers) {
        ACCEPTED => Ok(numbers),
        number => Err(Refusal::new(number, numbers[0])),
    }
}

/// The same of a function that answers `none` where there is nothing of the kind, which is no refusal.
pub fn found<const N: usize>(
    none: u32,
    call: impl FnOnce(&mut [u64; N]) -> u32,
) -> Result<Option<[u64; N]>, Refusal> {
    match accepted(call) {
        Ok(numbers) => Ok(Some(numbers)),
        Err(refusal) if refusal.number() == none => Ok(None),
        Err(refusal) => Err(refusal),
    }
}

impl Lent {
    fn nothing(row: usize) -> Self {
        Lent {
            row,
            table: Vec::new(),
            out: Vec::new(),
        }
    }

    /// The refusal itself if it is of another kind, or there is no such memory.
    fn grow(&mut self, refusal: Refusal) -> Result<(), Refusal> {
        let (memory, unit) = match refusal.number() {
            OUTPUT_TOO_SMALL => (&mut self.out, 1),
            TABLE_TOO_SMALL => (&mut self.table, self.row),
            _ => return Err(refusal),
        };
        let count = usize::try_from(refusal.place()).map_err(|_| refusal)?;
        let size = count.checked_mul(unit).ok_or(refusal)?;
        let more = size.checked_sub(memory.len()).ok_or(refusal)?;
        memory.try_reserve_exact(more).map_err(|_| refusal)?;
        memory.resize(size, 0);
        Ok(())
    }
}

#[cfg(test)]
mod tests {
    use std::cell::Cell;

    use super::{found, lend, lend_rows, Lent, OUTPUT_TOO_SMALL, TABLE_TOO_SMALL};
    use crate::refusal::Refusal;

    #[test]
    fn lends_what_is_asked_for() {
        let answered = lend(|lent: &mut Lent, [value]: &mut [u64; 1]| {
            *value = 3;
            if lent.table.len() < 63 {
                TABLE_TOO_SMALL
            } else if lent.out.len() < 3 {
                OUTPUT_TOO_SMALL
            } else {
                0
            }
        });
        let (lent, [value]) = answered.expect("there is memory");
        assert_eq!((lent.table.len(), lent.out.len(), value), (63, 3, 3));
    }

    #[test]
    fn lends_rows_at_first() {
        for (lent_first, calls) in [(0, 2), (2, 2), (3, 1), (4, 1), (usize::MAX, 2)] {
            let called = Cell::new(0);
            for row in [21, 29] {
                called.set(0);
                let answered = lend_rows(lent_first, row, |lent, [value]: &mut [u64; 1]| {
                    called.set(called.get() + 1);
                    *value = 3;
                    if lent.table.len() < 3 * row {
                        TABLE_TOO_SMALL
                    } else {
                        0
                    }
                });
                let (lent, [value]) = answered.expect("there is memory");
                assert_eq!(lent.table.len() % row, 0);
                assert!(lent.table.len() >= 3 * row && value == 3);
                assert_eq!(called.get(), calls);
            }
        }
    }

    #[test]
    fn nothing_of_the_kind_is_no_refusal() {
        let answered = |number| {
            found(256, |[value]: &mut [u64; 1]| {
                *value = 5;
                number
            })
        };
        assert_eq!(answered(0), Ok(Some([5])));
        assert_eq!(answered(256), Ok(None));
        for number in [1, 255, 257] {
            assert_eq!(answered(number), Err(Refusal::new(number, 5)));
        }
    }

    #[test]
    fn more_than_there_is_stays_a_refusal() {
        for (number, place) in [(17, u64::MAX), (18, u64::MAX), (18, 1 << 60), (9, 0)] {
            let answered = lend(|_: &mut Lent, [value]: &mut [u64; 1]| {
                *value = place;
                number
            });
            let refusal = answered.err().expect("a refusal");
            assert_eq!((refusal.number(), refusal.place()), (number, place));
        }
    }
}
