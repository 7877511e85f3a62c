//! A file as memory, of which only the pages that are touched come in. All `unsafe` is here.
//!
//! Where a file becomes shorter while it is mapped, a read behind its new end raises SIGBUS, which
//! would end the program without a word. Here the signal puts zeros in the place of what is gone
//! and marks the mapping as cut: whoever reads goes on to an end, and then asks [`Mapped::is_cut`],
//! and throws the answer away.
//!
//! Where a file is written to in place between two passes of a scan or of a check, the second may be led
//! outside of the memory. It writes no more rows than the first has counted, and a check writes none; where
//! its read raises SIGSEGV, the run ends with a sentence and status 2. The second pass of a listing of boxes
//! tests each box as the first does, and ends where the table does.

use std::ffi::{c_int, c_void};
use std::fs::File;
use std::io;
use std::mem;
use std::ops::Deref;
use std::ptr;
use std::sync::atomic::{AtomicBool, AtomicUsize, Ordering::SeqCst};
use std::sync::OnceLock;

use memmap2::{Advice, Mmap};

/// How many files may be mapped at a time.
pub const MOST: usize = 64;

/// A mapping as the signal's handler knows it; one that starts at 0 is none, and one at 1 is about
/// to be.
struct Watched {
    start: AtomicUsize,
    length: AtomicUsize,
    cut: AtomicBool,
}

const FREE: usize = 0;
const TAKEN: usize = 1;

static WATCHED: [Watched; MOST] = [const { Watched::none() }; MOST];

impl Watched {
    const fn none() -> Self {
        Watched {
            start: AtomicUsize::new(FREE),
            length: AtomicUsize::new(0),
            cut: AtomicBool::new(false),
        }
    }

    fn take(memory: &[u8]) -> Option<&'static Self> {
        let free = |watched: &&Watched| {
            let taken = watched.start.compare_exchange(FREE, TAKEN, SeqCst, SeqCst);
            taken.is_ok()
        };
        let watched = WATCHED.iter().find(free)?;
        watched.cut.store(false, SeqCst);
        watched.length.store(memory.len(), SeqCst);
        watched.start.store(memory.as_ptr() as usize, SeqCst);
        Some(watched)
    }

    fn is_mapped(&self) -> bool {
        self.start.load(SeqCst) > TAKEN
    }

    /// The bytes from `address` on, if it lies there.
    fn rest(&self, address: usize) -> Option<usize> {
        let inside = address.checked_sub(self.start.load(SeqCst))?;
        let length = self.length.load(SeqCst).next_multiple_of(page());
        length.checked_sub(inside).filter(|&rest| rest > 0)
    }
}

pub struct Mapped {
    memory: Mmap,
    watched: &'static Watched,
}

impl Mapped {
    pub fn new(file: &File) -> io::Result<Self> {
        page();
        watch()?;
        // SAFETY: read-only. The file may change meanwhile, and then an answer is thrown away; what
        // is written to meanwhile is as large as a single pass over the bytes has counted, or made
        // of a copy of them (`stages::main_header`). What this does not shut out: a file that is
        // written to in place between two passes of a scan or of a check may lead their reads, and no
        // writes, outside of the memory, and then an answer is thrown away too, or the run ends as above.
        let memory = unsafe { Mmap::map(file)? };
        let watched = Watched::take(&memory).ok_or_else(|| {
            io::Error::other("too many large files are read at a time: use a smaller -j")
        })?;
        let mapped = Mapped { memory, watched };
        mapped.expect(Advice::Random);
        Ok(mapped)
    }

    /// Whether something behind the file's new end was read.
    pub fn is_cut(&self) -> bool {
        self.watched.cut.load(SeqCst)
    }

    /// Tile-parts are looked up here and there; what is copied out is read in order.
    pub fn expect_order(&self) {
        self.expect(Advice::Normal);
    }

    fn expect(&self, advice: Advice) {
        // Advice that isn't taken costs time, and nothing else.
        let _ = self.memory.advise(advice);
    }
}

impl Deref for Mapped {
    type Target = [u8];

    fn deref(&self) -> &[u8] {
        &self.memory
    }
}

impl Drop for Mapped {
    /// Before the memory goes.
    fn drop(&mut self) {
        self.watched.start.store(FREE, SeqCst);
    }
}

fn page() -> usize {
    static PAGE: OnceLock<usize> = OnceLock::new();
    // SAFETY: a number in, a number out.
    *PAGE.get_or_init(|| unsafe { libc::sysconf(libc::_SC_PAGESIZE) } as usize)
}

/// Has the signals handled, once.
fn watch() -> io::Result<()> {
    static WATCHING: OnceLock<Result<(), i32>> = OnceLock::new();
    let handler = on_signal as *const () as usize;
    let watching = WATCHING.get_or_init(|| {
        handle(libc::SIGBUS, handler)?;
        handle(libc::SIGSEGV, handler)
    });
    watching.map_err(io::Error::from_raw_os_error)
}

fn handle(signal: c_int, handler: usize) -> Result<(), i32> {
    // SAFETY: all zero is an empty set of signals and no flags; the pointers are those of a whole
    // action, and of none.
    let answer = unsafe {
        let mut action: libc::sigaction = mem::zeroed();
        action.sa_sigaction = handler;
        action.sa_flags = libc::SA_SIGINFO | libc::SA_ONSTACK;
        libc::sigaction(signal, &action, ptr::null_mut())
    };
    match answer {
        0 => Ok(()),
        _ => Err(io::Error::last_os_error().raw_os_error().unwrap_or(0)),
    }
}

/// Only loads, stores and system calls: no lock is taken and no memory is asked for.
extern "C" fn on_signal(signal: c_int, info: *mut libc::siginfo_t, _: *mut c_void) {
    // SAFETY: the kernel gives a whole `siginfo_t`, with an address for these signals.
    let address = unsafe { (*info).si_addr() } as usize;
    let found = WATCHED.iter().find_map(|watched| {
        let rest = watched.rest(address)?;
        Some((watched, rest))
    });
    match found {
        Some((watched, rest)) if signal == libc::SIGBUS => {
            watched.cut.store(true, SeqCst);
            zeros(address, rest);
        }
        _ if signal == libc::SIGSEGV && WATCHED.iter().any(Watched::is_mapped) => give_up(),
        // None of ours: the read is tried again, and ends the program as it would have.
        _ => drop(handle(signal, libc::SIG_DFL)),
    }
}

/// From the page of `address` on, to the mapping's end.
fn zeros(address: usize, rest: usize) {
    let inside = address % page();
    let from = (address - inside) as *mut c_void;
    let flags = libc::MAP_PRIVATE | libc::MAP_ANONYMOUS | libc::MAP_FIXED | libc::MAP_NORESERVE;
    // SAFETY: these pages are those of one of our mappings, which stays mapped read-only until it
    // is dropped as a whole.
    let mapped = unsafe { libc::mmap(from, rest + inside, libc::PROT_READ, flags, -1, 0) };
    if mapped == libc::MAP_FAILED {
        give_up();
    }
}

fn give_up() -> ! {
    let words = b"winterhasp: a file changed while it was read: wait until nobody writes to it\n";
    // SAFETY: the pointer and the length are those of one slice; `_exit` returns to nobody.
    unsafe {
        libc::write(libc::STDERR_FILENO, words.as_ptr().cast(), words.len());
        libc::_exit(2)
    }
}
