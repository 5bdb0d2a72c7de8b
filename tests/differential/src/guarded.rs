//! Memory between two pages that may not be touched: a stray access stops the process.

use std::ffi::c_void;
use std::ptr;

extern "C" {
    fn mmap(
        at: *mut c_void,
        length: usize,
        protection: i32,
        flags: i32,
        file: i32,
        offset: i64,
    ) -> *mut c_void;
    fn mprotect(at: *mut c_void, length: usize, protection: i32) -> i32;
    fn munmap(at: *mut c_void, length: usize) -> i32;
}

const PROT_NONE: i32 = 0;
const PROT_READ_WRITE: i32 = 3;
const MAP_PRIVATE_ANONYMOUS: i32 = 0x22;
/// Bytes of a page of the machine, and of each guard page.
const PAGE: usize = 4096;

/// Where a buffer lies in its memory.
#[derive(Clone, Copy, Debug, PartialEq, Eq)]
pub enum Placement {
    /// It ends at a page that may not be touched.
    End,
    /// It begins at such a page's end.
    Begin,
    /// It begins at an odd address or, for words of four bytes, at one that is no multiple of eight.
    Odd,
}

/// Bytes beside a buffer that must stay as they are, on a side where no guard page is.
const MARGIN: usize = 64;
const MARGIN_BYTE: u8 = 0xA5;

pub struct Guarded {
    map: *mut u8,
    /// Bytes between the guard pages.
    length: usize,
    /// 1, or 4 for words.
    alignment: usize,
}

/// A buffer's place in guarded memory.
#[derive(Clone, Copy)]
pub struct Placed {
    at: usize,
    length: usize,
}

impl Guarded {
    /// Memory of so many pages.
    pub fn new(pages: usize, alignment: usize) -> Guarded {
        let length = pages * PAGE;
        // SAFETY: a new mapping; the two protected pages are its first and its last.
        unsafe {
            let map = mmap(ptr::null_mut(), length + 2 * PAGE, PROT_READ_WRITE, MAP_PRIVATE_ANONYMOUS, -1, 0);
            assert!(map as isize != -1, "mmap failed");
            let last = map.cast::<u8>().add(PAGE + length).cast();
            assert!(mprotect(map, PAGE, PROT_NONE) == 0, "mprotect failed");
            assert!(mprotect(last, PAGE, PROT_NONE) == 0, "mprotect failed");
            Guarded { map: map.cast(), length, alignment }
        }
    }

    /// Memory that these bytes, a whole number of pages, fill from guard page to guard page.
    pub fn full(contents: &[u8]) -> Guarded {
        assert_eq!(contents.len() % PAGE, 0, "a whole number of pages is wanted");
        let mut guarded = Guarded::new(contents.len() / PAGE, 1);
        guarded.memory().copy_from_slice(contents);
        guarded
    }

    /// All bytes between the guard pages.
    pub fn memory(&mut self) -> &mut [u8] {
        // SAFETY: these bytes belong to this value alone.
        unsafe { std::slice::from_raw_parts_mut(self.start(), self.length) }
    }

    /// The address of the first byte between the guard pages.
    pub fn start(&self) -> *mut u8 {
        // SAFETY: the mapping is longer than its first page.
        unsafe { self.map.add(PAGE) }
    }

    pub fn pointer(&self, placed: Placed) -> *mut u8 {
        // SAFETY: `place` has seen to it that the buffer lies between the guard pages.
        unsafe { self.start().add(placed.at) }
    }

    /// Places a buffer with these contents.
    pub fn place(&mut self, contents: &[u8], placement: Placement) -> Placed {
        let length = contents.len();
        assert!(length + 2 * MARGIN <= self.length, "a buffer larger than its memory");
        let at = match placement {
            Placement::End => self.length - length,
            Placement::Begin => 0,
            Placement::Odd => MARGIN + self.alignment,
        };
        let placed = Placed { at, length };
        let (from, to) = self.margins(placed);
        let memory = self.memory();
        memory[from..to].fill(MARGIN_BYTE);
        memory[at..at + length].copy_from_slice(contents);
        placed
    }

    /// A buffer's contents, or nothing if bytes beside it were changed.
    pub fn contents(&mut self, placed: Placed) -> Option<Vec<u8>> {
        let (from, to) = self.margins(placed);
        let (begin, end) = (placed.at, placed.at + placed.length);
        let memory = self.memory();
        let intact = |bytes: &[u8]| bytes.iter().all(|&byte| byte == MARGIN_BYTE);
        (intact(&memory[from..begin]) && intact(&memory[end..to])).then(|| memory[begin..end].to_vec())
    }

    /// Where the margin before a buffer begins and the one behind it ends.
    fn margins(&self, placed: Placed) -> (usize, usize) {
        let end = placed.at + placed.length;
        (placed.at.saturating_sub(MARGIN), self.length.min(end + MARGIN))
    }
}

impl Drop for Guarded {
    fn drop(&mut self) {
        // SAFETY: the mapping that `new` made.
        unsafe { munmap(self.map.cast(), self.length + 2 * PAGE) };
    }
}
