//! The packets of a sequence that are taken and not replied to, by the sequence's own account and without records; and
//! what must leave with each call.

use crate::bytes::{put, put_u16, put_u32};
use crate::case::State;
use crate::records::STATUSES;
use reference::held::HeldWords;
use reference::ring::{slot_at, RSP_PROD};
use reference::slots::TRANSMIT_WIDTH;
use reference::words::number;
use std::collections::VecDeque;

/// A packet that is taken.
#[derive(Clone, Copy, Debug)]
pub struct Entry {
    pub ticket: u32,
    pub slots: u32,
    pub extras: u32,
    /// What became of it, once it is finished.
    pub status: Option<i32>,
}

#[derive(Default)]
pub struct Ledger {
    /// In the order of taking.
    entries: VecDeque<Entry>,
}

impl Ledger {
    pub fn entries(&self) -> impl Iterator<Item = &Entry> {
        self.entries.iter()
    }

    pub fn is_empty(&self) -> bool {
        self.entries.is_empty()
    }

    pub fn add(&mut self, entry: Entry) {
        self.entries.push_back(entry);
    }

    /// Whether a packet with this ticket waits and the status is one of the three. If so, the packet is finished.
    pub fn finish(&mut self, ticket: u32, status: i32) -> bool {
        let waits = |entry: &&mut Entry| entry.ticket == ticket && entry.status.is_none();
        match self.entries.iter_mut().find(waits).filter(|_| STATUSES.contains(&status)) {
            Some(entry) => entry.status = Some(status),
            None => return false,
        }
        true
    }

    /// Takes out the packets that leave: the finished ones at the front.
    pub fn leave(&mut self) -> Vec<Entry> {
        let count = self.entries.iter().take_while(|entry| entry.status.is_some()).count();
        self.entries.drain(..count).collect()
    }

    /// The slots of the packets that are held.
    pub fn slots(&self) -> u32 {
        self.entries.iter().map(|entry| entry.slots).sum()
    }

    /// The records in use tell of the packets that are held, and of no others.
    pub fn check_list(&self, list: &[HeldWords]) -> Result<(), String> {
        let mut held: Vec<HeldWords> = list.iter().filter(|record| record[1] != 0).copied().collect();
        let record = |entry: &Entry| {
            let finished = u32::from(entry.status.is_some());
            [entry.ticket, entry.slots, entry.extras, entry.status.unwrap_or(0) as u32, finished]
        };
        let mut wanted: Vec<HeldWords> = self.entries.iter().map(record).collect();
        held.sort_unstable();
        wanted.sort_unstable();
        if held == wanted {
            return Ok(());
        }
        Err(format!("records in use {held:?}, packets held {wanted:?}"))
    }
}

/// The ring page with the replies to packets that leave: each data slot's id as the page has it, with the packet's
/// status; each extra's 0 with null. If any leave, rsp_prod is the counter behind them.
pub fn page_with_replies(before: &State, left: &[Entry]) -> Vec<u8> {
    let mut page = before.page.clone();
    let mut counter = before.replied;
    for entry in left {
        for place in 0..entry.slots {
            let at = slot_at(TRANSMIT_WIDTH, counter.into());
            let is_extra = (1..=entry.extras).contains(&place);
            let id = if is_extra { 0 } else { number(&page, at + 8, 2) as u16 };
            let status = if is_extra { 1 } else { entry.status.unwrap_or(0) as i16 };
            put_u16(&mut page, at, id);
            put(&mut page, at + 2, &status.to_le_bytes());
            counter = counter.wrapping_add(1);
        }
    }
    if !left.is_empty() {
        put_u32(&mut page, RSP_PROD, counter);
    }
    page
}
