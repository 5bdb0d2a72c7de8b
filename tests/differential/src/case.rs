//! A case: what is lent to one call. An answer: what the call gave back and left.

use reference::calls::{receive_put, transmit_finish, transmit_post, transmit_take, Ring, Words};
use reference::grants::{grant, WORD_BYTES};
use reference::held::HeldWords;
use reference::ring::{posted, slots, PAGE_BYTES, RING_SLOTS};
use reference::slots::{RECEIVE_WIDTH, TRANSMIT_WIDTH};
use std::fmt;

/// A queue's numbers for one ring, and the buffers lent with it. A put is lent no counter of replies and no list.
#[derive(Clone)]
pub struct State {
    pub consumed: u32,
    pub replied: u32,
    pub halted: u32,
    pub page: Vec<u8>,
    pub grants: Vec<u8>,
    pub window: Vec<u8>,
    pub held: Vec<HeldWords>,
    pub frame: Vec<u8>,
}

/// A call on a queue's rings. A finish is lent the ring page, the counters and the list only.
#[derive(Clone, Copy, Debug, PartialEq, Eq)]
pub enum Call {
    Take,
    Finish { ticket: u32, status: i32 },
    Put,
}

impl Call {
    pub fn ring(&self) -> Ring {
        match self {
            Call::Take | Call::Finish { .. } => Ring::Transmit,
            Call::Put => Ring::Receive,
        }
    }
}

#[derive(Clone)]
pub struct Case {
    pub call: Call,
    pub before: State,
}

pub struct Answer {
    pub returned: u32,
    pub words: Words,
    pub after: State,
}

/// Counters and mark; ring page, grant table, window, list and frame, as the second program's calls take them.
type Take = fn([&mut u32; 3], &mut [u8], &[u8], &[u8], &mut [HeldWords], &mut [u8]) -> Words;
/// Counters, ring page and list; ticket and status.
type Finish = fn(u32, &mut u32, &mut [u8], &mut [HeldWords], u32, i32) -> Words;
/// Counter, mark, ring page, grant table, window and frame.
type Put = fn(&mut u32, &mut u32, &mut [u8], &[u8], &mut [u8], &[u8]) -> Words;
/// Count of replies read, gso and its two numbers; ring page, grant table, window, references and frame.
type Post = fn((u32, u32, u16, u8), &mut [u8], &[u8], &mut [u8], &[u32], &[u8]) -> Words;

/// The second program's calls. The mutants have others.
#[derive(Clone, Copy)]
pub struct Second {
    pub take: Take,
    pub finish: Finish,
    pub put: Put,
    pub post: Post,
}

/// The second program as it is meant.
pub const REFERENCE: Second =
    Second { take: transmit_take, finish: transmit_finish, put: receive_put, post: transmit_post };

impl Second {
    /// The answer to a case.
    pub fn answer(&self, case: &Case) -> Answer {
        let mut after = case.before.clone();
        let State { consumed, replied, halted, page, grants, window, held, frame } = &mut after;
        let words = match case.call {
            Call::Take => (self.take)([consumed, replied, halted], page, grants, window, held, frame),
            Call::Finish { ticket, status } => (self.finish)(*consumed, replied, page, held, ticket, status),
            Call::Put => (self.put)(consumed, halted, page, grants, window, frame),
        };
        Answer { returned: words[0], words, after }
    }
}

/// The first difference between an answer and the one expected.
pub fn difference(expected: &Answer, found: &Answer) -> Option<String> {
    let numbers = [
        ("returned", expected.returned, found.returned),
        ("consumed", expected.after.consumed, found.after.consumed),
        ("replied", expected.after.replied, found.after.replied),
        ("halted", expected.after.halted, found.after.halted),
    ];
    if expected.words != found.words {
        return Some(format!("report: expected {:?}, found {:?}", expected.words, found.words));
    }
    if let Some((name, expected, found)) = numbers.into_iter().find(|(_, expected, found)| expected != found)
    {
        return Some(format!("{name}: expected {expected}, found {found}"));
    }
    let records = expected.after.held.iter().zip(&found.after.held).enumerate();
    if let Some((place, (expected, found))) = records.into_iter().find(|(_, (e, f))| e != f) {
        return Some(format!("record {place}: expected {expected:?}, found {found:?}"));
    }
    let buffers = [
        ("ring page", &expected.after.page, &found.after.page),
        ("grant table", &expected.after.grants, &found.after.grants),
        ("window", &expected.after.window, &found.after.window),
        ("frame", &expected.after.frame, &found.after.frame),
    ];
    buffers.into_iter().find_map(|(name, expected, found)| buffer_difference(name, expected, found))
}

/// How a buffer differs from the one expected.
pub fn buffer_difference(name: &str, expected: &[u8], found: &[u8]) -> Option<String> {
    if expected == found {
        return None;
    }
    let differ: Vec<usize> = (0..expected.len()).filter(|&at| expected[at] != found[at]).collect();
    let at = differ[0];
    let (expected, found) = (expected[at], found[at]);
    Some(format!(
        "{name}: byte {at}: expected {expected:02x}, found {found:02x} ({} bytes differ)",
        differ.len()
    ))
}

/// The most records, slots and grant words that a printed case shows.
const SHOWN: usize = 20;

impl fmt::Display for Case {
    fn fmt(&self, f: &mut fmt::Formatter) -> fmt::Result {
        let State { consumed, replied, halted, page, grants, window, held, frame } = &self.before;
        writeln!(f, "  {:?}, consumed {consumed}, replied {replied}, halted {halted}", self.call)?;
        writeln!(f, "  {} records; those that are not zero:", held.len())?;
        let not_zero = held.iter().enumerate().filter(|(_, record)| **record != [0; 5]);
        for (place, record) in not_zero.take(SHOWN) {
            writeln!(f, "    {place:3}: {record:?}")?;
        }
        let lengths = (page.len(), grants.len(), window.len(), frame.len());
        writeln!(f, "  bytes of ring page, grant table, window, frame: {lengths:?}")?;
        if page.len() != PAGE_BYTES {
            return Ok(());
        }
        writeln!(f, "  req_prod, req_event, rsp_prod, rsp_event: {:02x?}", &page[..16])?;
        let posted = posted(page, (*consumed).into());
        writeln!(f, "  posted {posted}; slots from the counter on:")?;
        for (n, slot) in self.slots(posted.min(RING_SLOTS)).iter().enumerate().take(SHOWN) {
            writeln!(f, "    {n:3}: {slot:02x?}")?;
        }
        writeln!(f, "  grant words:")?;
        for (g, word) in grants.chunks(WORD_BYTES as usize).enumerate().take(SHOWN) {
            write!(f, "    {g:3}: {word:02x?}")?;
            match grant(grants, g as u64) {
                Some(grant) => writeln!(f, " start {} length {}", grant.range.start, grant.range.length)?,
                None => writeln!(f, " cut short")?,
            }
        }
        Ok(())
    }
}

impl Case {
    /// The bytes of `count` slots from the counter on.
    fn slots(&self, count: u64) -> Vec<Vec<u8>> {
        let (page, from) = (&self.before.page, self.before.consumed.into());
        match self.call.ring() {
            Ring::Transmit => slots::<TRANSMIT_WIDTH>(page, from, count).iter().map(|s| s.to_vec()).collect(),
            Ring::Receive => slots::<RECEIVE_WIDTH>(page, from, count).iter().map(|s| s.to_vec()).collect(),
        }
    }
}
