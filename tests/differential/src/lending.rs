//! What the cases of both rings share: counters, marks, lengths, and the ring page.

use crate::bytes::{put, put_u32};
use crate::case::{Call, Case, State};
use crate::guest::Guest;
use crate::random::Random;
use crate::records::Records;
use reference::ring::{slot_at, PAGE_BYTES};

/// Marks of a halted queue.
const MARKS: [u32; 5] = [1, 2, 0x100, 0x8000_0000, u32::MAX];
/// Lengths that no ring page has.
pub const WRONG_LENGTHS: [usize; 9] = [0, 1, 15, 64, 4095, 4095, 4097, 4097, 8192];
/// More slots than a ring holds.
const OVERFLOWS: [u32; 7] = [257, 257, 258, 512, 0x7FFF_FFFF, 0x8000_0000, u32::MAX];

/// Everything lent to a call but the slots that matter to it.
pub struct Lending {
    pub guest: Guest,
    /// The counters and the list. Where a ring has no list, its counter of slots consumed.
    pub records: Records,
    pub halted: u32,
    pub page_bytes: usize,
    pub posted: u32,
    pub frame_bytes: usize,
}

/// Refusals that look at neither slots nor frame.
#[derive(Clone, Copy, PartialEq, Eq)]
pub enum Refusal {
    BadPage,
    HaltedAlready,
    Overflow,
}

impl Lending {
    /// With nothing held.
    pub fn new(random: &Random, guest: Guest, posted: usize, frame_bytes: usize) -> Lending {
        let past = random.pick(&[0, 0, random.below(40)]) as u32;
        let consumed = if random.one_in(32) { 0 } else { counter(random).wrapping_add(past) };
        let records = Records::fresh(consumed);
        Lending { guest, records, halted: 0, page_bytes: PAGE_BYTES, posted: posted as u32, frame_bytes }
    }

    pub fn refuse(&mut self, random: &Random, refusal: Refusal) {
        match refusal {
            Refusal::BadPage => {
                self.page_bytes = random.pick(&WRONG_LENGTHS);
                self.halted = random.pick(&[0, 0, 0, random.pick(&MARKS)]);
            }
            Refusal::HaltedAlready => self.halted = random.pick(&MARKS),
            Refusal::Overflow => self.posted = self.overflow(random),
        }
    }

    /// So many slots posted that with those held they are too many, or fewer than those held.
    fn overflow(&self, random: &Random) -> u32 {
        let held = self.records.between();
        let unreplied = if held > 0 && random.one_in(2) {
            random.pick(&[held - 1, held - 1, 0, random.below(held as usize) as u32])
        } else {
            random.pick(&OVERFLOWS)
        };
        unreplied.wrapping_sub(held)
    }

    /// Leaves less than a page of the window, or at most one word of the grant table.
    fn shorten(&mut self, random: &Random) {
        if random.one_in(2) {
            self.guest.window.truncate(random.pick(&[0, 0, 1, 4095]));
        } else {
            self.guest.grants.truncate(random.pick(&[0, 0, 1, 4, 7, 8]));
        }
    }

    /// The case with these slots from the counter on.
    pub fn case<const WIDTH: usize>(mut self, random: &Random, call: Call, slots: &[[u8; WIDTH]]) -> Case {
        if random.one_in(16) {
            self.shorten(random);
        }
        let page = self.page(random, slots);
        let frame = random.bytes(self.frame_bytes);
        let (Guest { grants, window, .. }, halted) = (self.guest, self.halted);
        let Records { consumed, replied, .. } = self.records;
        let held = self.records.words();
        Case { call, before: State { consumed, replied, halted, page, grants, window, held, frame } }
    }

    /// A page of random bytes but for req_prod, rsp_event and the slots.
    fn page<const WIDTH: usize>(&self, random: &Random, slots: &[[u8; WIDTH]]) -> Vec<u8> {
        let Records { consumed, replied, .. } = self.records;
        let mut page = random.bytes(self.page_bytes);
        put_u32(&mut page, 0, consumed.wrapping_add(self.posted));
        put_u32(&mut page, 12, event_near(random, random.pick(&[consumed, replied]), slots.len()));
        if random.one_in(2) {
            put_u32(&mut page, 8, replied);
        }
        for (n, slot) in (u64::from(consumed)..).zip(slots) {
            put(&mut page, slot_at(WIDTH, n), slot);
        }
        page
    }
}

/// A counter, mostly just before the 32-bit wrap or the end of the ring.
pub fn counter(random: &Random) -> u32 {
    let around = random.pick(&[0, 0, 0x8000_0000, random.u32() << 8, random.u32()]);
    around.wrapping_sub(random.below(24) as u32)
}

/// An rsp_event or req_event, mostly where the notify test turns for so many slots.
pub fn event_near(random: &Random, old: u32, slots: usize) -> u32 {
    let slots = slots as u32;
    old.wrapping_add(random.pick(&[0, 1, slots, slots + 1, u32::MAX, random.u32()]))
}
