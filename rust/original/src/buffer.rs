//! Stands in for the original's buffer: the calls that its reader's ported functions make, and a
//! count of the slices taken.

use std::cell::Cell;
use std::ops::Range;
use std::rc::Rc;

use crate::error::CodecError;

#[derive(Clone)]
pub struct OwnedBuffer {
    bytes: Rc<Vec<u8>>,
    range: Range<usize>,
    resident: bool,
    slices: Rc<Cell<usize>>,
}

impl OwnedBuffer {
    /// One whose bytes are all at hand.
    pub fn resident(bytes: Vec<u8>) -> Self {
        OwnedBuffer {
            range: 0..bytes.len(),
            bytes: Rc::new(bytes),
            resident: true,
            slices: Rc::default(),
        }
    }

    /// One whose bytes are to be had by slices alone.
    pub fn remote(bytes: Vec<u8>) -> Self {
        OwnedBuffer {
            resident: false,
            ..Self::resident(bytes)
        }
    }

    /// How many slices were taken of it, since it was last asked.
    pub fn slices_taken(&self) -> usize {
        self.slices.take()
    }

    pub fn len(&self) -> usize {
        self.range.len()
    }

    pub fn is_empty(&self) -> bool {
        self.range.is_empty()
    }

    pub fn resident_bytes(&self) -> Option<&[u8]> {
        self.resident.then(|| self.as_bytes())
    }

    pub fn as_bytes(&self) -> &[u8] {
        assert!(self.resident, "a remote buffer has no bytes at hand");
        &self.bytes[self.range.clone()]
    }

    /// A slice is at hand, even of a remote buffer.
    pub fn try_slice(&self, range: Range<usize>) -> Result<Self, CodecError> {
        if range.start > range.end || range.end > self.len() {
            return Err(CodecError::InvalidFormat("no such slice".to_string()));
        }
        self.slices.set(self.slices.get() + 1);
        Ok(OwnedBuffer {
            bytes: self.bytes.clone(),
            range: self.range.start + range.start..self.range.start + range.end,
            resident: true,
            slices: self.slices.clone(),
        })
    }

    pub fn read_range(&self, offset: usize, len: usize) -> Result<Vec<u8>, CodecError> {
        let slice = self.try_slice(offset..offset + len)?;
        Ok(slice.as_bytes().to_vec())
    }
}

#[cfg(test)]
mod tests {
    use super::OwnedBuffer;

    #[test]
    fn slices_of_slices_are_counted_from_the_front() {
        let whole = OwnedBuffer::remote((0..10).collect());
        assert!(whole.resident_bytes().is_none());
        let middle = whole.try_slice(2..8).unwrap();
        assert_eq!(middle.try_slice(1..3).unwrap().as_bytes(), [3, 4]);
        assert_eq!(middle.read_range(4, 2).unwrap(), [6, 7]);
        assert!(middle.try_slice(0..7).is_err());
        assert_eq!((whole.slices_taken(), whole.slices_taken()), (3, 0));
    }
}
