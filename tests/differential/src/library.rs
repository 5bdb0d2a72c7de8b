//! The library under test, called over its C interface with every buffer in guarded memory.

use crate::case::{Answer, Call, Case, State};
use crate::guarded::{Guarded, Placed, Placement};
use crate::post::{Post, PostAnswer};
use reference::calls::Words;
use reference::held::HeldWords;
use reference::report::RESERVED_CAUSE;
use std::hint::black_box;

extern "C" {
    fn tollmeander_transmit_take(
        consumed: *mut u32,
        replied: *mut u32,
        halted: *mut u32,
        ring: *mut u8,
        ring_len: usize,
        grants: *const u8,
        grants_len: usize,
        window: *const u8,
        window_len: usize,
        held: *mut HeldWords,
        held_len: usize,
        frame: *mut u8,
        frame_len: usize,
        report: *mut Words,
    ) -> u32;

    fn tollmeander_transmit_finish(
        consumed: u32,
        replied: *mut u32,
        ring: *mut u8,
        ring_len: usize,
        held: *mut HeldWords,
        held_len: usize,
        ticket: u32,
        status: i32,
        report: *mut Words,
    ) -> u32;

    fn tollmeander_receive_put(
        consumed: *mut u32,
        halted: *mut u32,
        ring: *mut u8,
        ring_len: usize,
        grants: *const u8,
        grants_len: usize,
        window: *mut u8,
        window_len: usize,
        frame: *const u8,
        frame_len: usize,
        report: *mut Words,
    ) -> u32;

    fn tollmeander_transmit_post(
        replies_read: u32,
        ring: *mut u8,
        ring_len: usize,
        grants: *const u8,
        grants_len: usize,
        window: *mut u8,
        window_len: usize,
        references: *const u32,
        references_len: usize,
        frame: *const u8,
        frame_len: usize,
        gso: u32,
        gso_size: u16,
        gso_type: u8,
        report: *mut Words,
    ) -> u32;
}

/// The parameters of take, finish and put: addresses, and lengths in bytes or, of the list, in records.
pub struct Parameters {
    pub consumed: *mut u32,
    pub replied: *mut u32,
    pub halted: *mut u32,
    pub page: (*mut u8, usize),
    pub grants: (*const u8, usize),
    pub window: (*mut u8, usize),
    pub held: (*mut HeldWords, usize),
    pub frame: (*mut u8, usize),
    pub report: *mut Words,
}

/// Calls the library's take, finish or put.
///
/// # Safety
///
/// Each address has its length's bytes, no two buffers overlap, and the addresses of words are aligned.
pub unsafe fn call(call: Call, parameters: &Parameters) -> u32 {
    let &Parameters { consumed, replied, halted, page, grants, window, held, frame, report } = parameters;
    let ((p, p_len), (g, g_len), (w, w_len), (f, f_len)) = (page, grants, window, frame);
    let (h, h_len) = held;
    match call {
        Call::Take => tollmeander_transmit_take(
            consumed, replied, halted, p, p_len, g, g_len, w, w_len, h, h_len, f, f_len, report,
        ),
        Call::Finish { ticket, status } => {
            tollmeander_transmit_finish(*consumed, replied, p, p_len, h, h_len, ticket, status, report)
        }
        Call::Put => {
            tollmeander_receive_put(consumed, halted, p, p_len, g, g_len, w, w_len, f, f_len, report)
        }
    }
}

/// Fails for a report with the reserved cause.
pub fn refuse_reserved(words: &Words) -> Result<(), String> {
    if words[1] == RESERVED_CAUSE {
        return Err(format!("the reserved cause {RESERVED_CAUSE} was reported"));
    }
    Ok(())
}

/// Pages of memory for each byte buffer, and for the list: enough for the largest case.
const PAGES: usize = 24;
const LIST_PAGES: usize = 2;
const RECORD_BYTES: usize = size_of::<HeldWords>();
/// What the report's bytes hold before a call, which must write them all.
const STALE: [u8; 44] = [0xC3; 44];

/// Guarded memory for the parameters of a call.
pub struct Library {
    consumed: Guarded,
    replied: Guarded,
    halted: Guarded,
    page: Guarded,
    grants: Guarded,
    window: Guarded,
    held: Guarded,
    frame: Guarded,
    references: Guarded,
    report: Guarded,
}

/// Where a case's parameters are in guarded memory.
struct Places {
    consumed: Placed,
    replied: Placed,
    halted: Placed,
    page: Placed,
    grants: Placed,
    window: Placed,
    held: Placed,
    frame: Placed,
    report: Placed,
}

/// Where a post's parameters are in guarded memory.
struct PostPlaces {
    page: Placed,
    grants: Placed,
    window: Placed,
    references: Placed,
    frame: Placed,
    report: Placed,
}

/// Once a block of so many bytes was freed, the C library keeps as much freed memory for later and does not give it back
/// to the system. That saves a fifth of the test's time.
const KEPT_BYTES: usize = 1 << 24;

impl Library {
    pub fn new() -> Library {
        drop(black_box(vec![1_u8; KEPT_BYTES]));
        let words = || Guarded::new(1, 4);
        let bytes = || Guarded::new(PAGES, 1);
        Library {
            consumed: words(),
            replied: words(),
            halted: words(),
            page: bytes(),
            grants: bytes(),
            window: bytes(),
            held: Guarded::new(LIST_PAGES, 4),
            frame: bytes(),
            references: words(),
            report: words(),
        }
    }

    /// The library's answer to a case, or an error: it wrote beside a buffer, or reported the reserved cause.
    pub fn answer(&mut self, case: &Case, placement: Placement) -> Result<Answer, String> {
        let places = self.place(&case.before, placement);
        // SAFETY: each parameter has guarded memory of its own, in which it is placed with its length.
        let returned = unsafe { call(case.call, &self.parameters(&places, &case.before)) };
        self.read(&places, returned)
    }

    fn place(&mut self, before: &State, placement: Placement) -> Places {
        let held: Vec<u8> = before.held.iter().flatten().flat_map(|word| word.to_ne_bytes()).collect();
        Places {
            consumed: self.consumed.place(&before.consumed.to_ne_bytes(), placement),
            replied: self.replied.place(&before.replied.to_ne_bytes(), placement),
            halted: self.halted.place(&before.halted.to_ne_bytes(), placement),
            page: self.page.place(&before.page, placement),
            grants: self.grants.place(&before.grants, placement),
            window: self.window.place(&before.window, placement),
            held: self.held.place(&held, placement),
            frame: self.frame.place(&before.frame, placement),
            report: self.report.place(&STALE, placement),
        }
    }

    fn parameters(&self, places: &Places, before: &State) -> Parameters {
        Parameters {
            consumed: self.consumed.pointer(places.consumed).cast(),
            replied: self.replied.pointer(places.replied).cast(),
            halted: self.halted.pointer(places.halted).cast(),
            page: (self.page.pointer(places.page), before.page.len()),
            grants: (self.grants.pointer(places.grants), before.grants.len()),
            window: (self.window.pointer(places.window), before.window.len()),
            held: (self.held.pointer(places.held).cast(), before.held.len()),
            frame: (self.frame.pointer(places.frame), before.frame.len()),
            report: self.report.pointer(places.report).cast(),
        }
    }

    fn read(&mut self, places: &Places, returned: u32) -> Result<Answer, String> {
        let words = self.report(places.report)?;
        let held = read(&mut self.held, places.held, "the list")?;
        let after = State {
            consumed: word(&read(&mut self.consumed, places.consumed, "the counter")?),
            replied: word(&read(&mut self.replied, places.replied, "the counter of replies")?),
            halted: word(&read(&mut self.halted, places.halted, "the mark")?),
            page: read(&mut self.page, places.page, "the ring page")?,
            grants: read(&mut self.grants, places.grants, "the grant table")?,
            window: read(&mut self.window, places.window, "the window")?,
            held: held.chunks(RECORD_BYTES).map(record).collect(),
            frame: read(&mut self.frame, places.frame, "the frame")?,
        };
        Ok(Answer { returned, words, after })
    }

    fn report(&mut self, placed: Placed) -> Result<Words, String> {
        let report = read(&mut self.report, placed, "the report")?;
        let words = std::array::from_fn(|k| word(&report[4 * k..4 * k + 4]));
        refuse_reserved(&words)?;
        Ok(words)
    }

    /// The library's answer to a post, or an error: it wrote beside a buffer, or reported the reserved cause.
    pub fn post_answer(&mut self, post: &Post, placement: Placement) -> Result<PostAnswer, String> {
        let places = self.place_post(post, placement);
        // SAFETY: as for `answer`; words are placed at multiples of four.
        let returned = unsafe {
            tollmeander_transmit_post(
                post.replies_read,
                self.page.pointer(places.page),
                post.page.len(),
                self.grants.pointer(places.grants),
                post.grants.len(),
                self.window.pointer(places.window),
                post.window.len(),
                self.references.pointer(places.references).cast(),
                post.references.len(),
                self.frame.pointer(places.frame),
                post.frame.len(),
                post.gso.asked,
                post.gso.size,
                post.gso.kind,
                self.report.pointer(places.report).cast(),
            )
        };
        self.read_post(&places, post, returned)
    }

    fn place_post(&mut self, post: &Post, placement: Placement) -> PostPlaces {
        let references: Vec<u8> = post.references.iter().flat_map(|gref| gref.to_ne_bytes()).collect();
        PostPlaces {
            page: self.page.place(&post.page, placement),
            grants: self.grants.place(&post.grants, placement),
            window: self.window.place(&post.window, placement),
            references: self.references.place(&references, placement),
            frame: self.frame.place(&post.frame, placement),
            report: self.report.place(&STALE, placement),
        }
    }

    fn read_post(&mut self, places: &PostPlaces, post: &Post, returned: u32) -> Result<PostAnswer, String> {
        let words = self.report(places.report)?;
        let references = read(&mut self.references, places.references, "the references")?;
        let after = Post {
            replies_read: post.replies_read,
            page: read(&mut self.page, places.page, "the ring page")?,
            grants: read(&mut self.grants, places.grants, "the grant table")?,
            window: read(&mut self.window, places.window, "the window")?,
            references: references.chunks(4).map(word).collect(),
            frame: read(&mut self.frame, places.frame, "the frame")?,
            gso: post.gso,
        };
        Ok(PostAnswer { returned, words, after })
    }
}

/// A buffer's contents, or an error if bytes beside it were written.
fn read(memory: &mut Guarded, placed: Placed, name: &str) -> Result<Vec<u8>, String> {
    memory.contents(placed).ok_or_else(|| format!("bytes beside {name} were written"))
}

/// A record's words, as the CPU has them.
fn record(bytes: &[u8]) -> HeldWords {
    std::array::from_fn(|k| word(&bytes[4 * k..4 * k + 4]))
}

/// The number in four bytes, as the CPU has it.
fn word(bytes: &[u8]) -> u32 {
    u32::from_ne_bytes(bytes.try_into().expect("four bytes"))
}

impl Default for Library {
    fn default() -> Library {
        Library::new()
    }
}
