//! The ring page, for slots of any width.

use super::report::{Buffer, Change};
use super::words::{minus, number, plus};

pub const PAGE_BYTES: usize = 4096;
pub const RING_SLOTS: u64 = 256;

pub const REQ_PROD: usize = 0;
pub const REQ_EVENT: usize = 4;
pub const RSP_PROD: usize = 8;
pub const RSP_EVENT: usize = 12;
const FIRST_SLOT: usize = 64;

/// Where slot `n` begins on the page.
pub fn slot_at(width: usize, n: u64) -> usize {
    FIRST_SLOT + (n % RING_SLOTS) as usize * width
}

/// The counter of slots posted as the page holds it.
pub fn req_prod(page: &[u8]) -> u64 {
    number(page, REQ_PROD, 4)
}

/// The number of slots posted from a counter on.
pub fn posted(page: &[u8], counter: u64) -> u64 {
    minus(req_prod(page), counter)
}

/// The counter of replies as the page holds it.
pub fn rsp_prod(page: &[u8]) -> u64 {
    number(page, RSP_PROD, 4)
}

/// The bytes of `count` slots from slot `from` on.
pub fn slots<const WIDTH: usize>(page: &[u8], from: u64, count: u64) -> Vec<[u8; WIDTH]> {
    let slot = |k| {
        let at = slot_at(WIDTH, plus(from, k));
        page[at..at + WIDTH].try_into().expect("a slot's bytes")
    };
    (0..count).map(slot).collect()
}

/// Whether the event word at `at` asks to be notified of a counter's way from `old` up to `new`.
pub fn notify(page: &[u8], at: usize, old: u64, new: u64) -> bool {
    let event = number(page, at, 4);
    minus(new, event) < minus(new, old)
}

/// req_event = req_prod + 1: an event is wanted for the next slot posted.
pub fn event_for_next(page: &[u8]) -> Change {
    header_word(REQ_EVENT, plus(req_prod(page), 1))
}

/// Replies on their way to the guest.
pub struct Sent {
    /// How many they are.
    pub slots: u64,
    /// The counter of replies after them.
    pub counter: u64,
    pub notify: bool,
    pub changes: Vec<Change>,
}

/// Sends replies to the slots from `old` on, the counter of replies before them. Where there is none, rsp_prod stays.
pub fn send(page: &[u8], width: usize, old: u64, replies: Vec<Vec<u8>>) -> Sent {
    let slots = replies.len() as u64;
    let new = plus(old, slots);
    let reply = |(n, bytes)| on_page(slot_at(width, plus(old, n)), bytes);
    let mut changes: Vec<Change> = (0..).zip(replies).map(reply).collect();
    if slots > 0 {
        changes.push(header_word(RSP_PROD, new));
    }
    Sent { slots, counter: new, notify: notify(page, RSP_EVENT, old, new), changes }
}

/// A word of the page's header.
pub fn header_word(at: usize, n: u64) -> Change {
    on_page(at, n.to_le_bytes()[..4].to_vec())
}

/// Bytes for a place on the page.
pub fn on_page(at: usize, bytes: Vec<u8>) -> Change {
    Change { buffer: Buffer::Page, at, bytes }
}
