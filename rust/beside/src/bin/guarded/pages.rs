//! Memory between inaccessible pages, where a stray read or write ends the program. All `unsafe` is
//! here; 64-bit Linux.

use std::ffi::{c_int, c_void};
use std::ptr;
use std::slice;

mod system {
    use super::{c_int, c_void};

    extern "C" {
        pub fn mmap(
            address: *mut c_void,
            length: usize,
            protection: c_int,
            flags: c_int,
            file: c_int,
            offset: i64,
        ) -> *mut c_void;
        pub fn mprotect(address: *mut c_void, length: usize, protection: c_int) -> c_int;
        pub fn munmap(address: *mut c_void, length: usize) -> c_int;
    }
}

const PROT_NONE: c_int = 0;
const PROT_READ: c_int = 1;
const PROT_WRITE: c_int = 2;
const MAP_PRIVATE: c_int = 0x02;
const MAP_ANONYMOUS: c_int = 0x20;
const MAP_FAILED: *mut c_void = ptr::without_provenance_mut(usize::MAX);

/// In bytes: a multiple of every size that Linux has for a page.
const PAGES: usize = 65_536;

/// Which end of what is lent touches inaccessible pages.
#[derive(Clone, Copy, Debug)]
pub enum Side {
    Front,
    Back,
}

/// `size` bytes from `start` on, in pages that open as they are lent; those before and behind never
/// do.
pub struct Guarded {
    start: *mut u8,
    size: usize,
}

impl Guarded {
    pub fn new(room: usize) -> Self {
        let size = room.next_multiple_of(PAGES);
        let flags = MAP_PRIVATE | MAP_ANONYMOUS;
        // SAFETY: a mapping of its own, at an address that the system chooses.
        let whole =
            unsafe { system::mmap(ptr::null_mut(), size + 2 * PAGES, PROT_NONE, flags, -1, 0) };
        assert_ne!(whole, MAP_FAILED, "no mapping of {size} bytes");
        Guarded {
            start: whole.cast::<u8>().wrapping_add(PAGES),
            size,
        }
    }

    /// A copy of `items` that can be read alone.
    pub fn shared<T: Copy>(&mut self, side: Side, items: &[T]) -> &[T] {
        let at = self.hold(side, items);
        self.protect(side, size_of_val(items), PROT_READ);
        // SAFETY: `hold` put these items there; they are borrowed from `self`.
        unsafe { slice::from_raw_parts(at, items.len()) }
    }

    /// A copy of `items`.
    pub fn exclusive<T: Copy>(&mut self, side: Side, items: &[T]) -> &mut [T] {
        let at = self.hold(side, items);
        // SAFETY: as in `shared`; the borrow of `self` is exclusive.
        unsafe { slice::from_raw_parts_mut(at, items.len()) }
    }

    /// A copy of `numbers`.
    pub fn numbers<const N: usize>(&mut self, side: Side, numbers: [u64; N]) -> &mut [u64; N] {
        let lent = self.exclusive(side, &numbers);
        lent.try_into().expect("as many as there were")
    }

    /// Puts `items` at one end; gives their address, at which they may stand: pages begin and end at
    /// multiples of every size that things are aligned to, and so do the items.
    fn hold<T: Copy>(&mut self, side: Side, items: &[T]) -> *mut T {
        const { assert!(PAGES.is_multiple_of(align_of::<T>())) };
        let length = size_of_val(items);
        self.protect(side, length, PROT_READ | PROT_WRITE);
        let at = self.place(side, length).cast();
        // SAFETY: `at` and as many bytes as that are inside, writable and lent to nobody.
        unsafe { ptr::copy_nonoverlapping(items.as_ptr(), at, items.len()) };
        at
    }

    /// Of the pages that hold `length` bytes; of none nothing is asked, which an emulator may refuse.
    fn protect(&mut self, side: Side, length: usize, protection: c_int) {
        if length == 0 {
            return;
        }
        let length = length.next_multiple_of(PAGES);
        let from = self.place(side, length);
        // SAFETY: whole pages of this mapping; `&mut self` says that none of them is lent.
        let status = unsafe { system::mprotect(from.cast(), length, protection) };
        assert_eq!(status, 0, "pages can't be protected");
    }

    /// Where `length` bytes begin that stand at one end.
    fn place(&self, side: Side, length: usize) -> *mut u8 {
        let rest = self.size.checked_sub(length).expect("more than room");
        match side {
            Side::Front => self.start,
            Side::Back => self.start.wrapping_add(rest),
        }
    }
}

impl Drop for Guarded {
    fn drop(&mut self) {
        let whole = self.start.wrapping_sub(PAGES).cast();
        // SAFETY: the mapping that `new` made, of which nothing is lent any more.
        unsafe { system::munmap(whole, self.size + 2 * PAGES) };
    }
}
