//! Packets that were taken and are not replied to yet: the lent list of their records, and the queue with it.

use super::grammar::{DATA_LIMIT, EXTRA_LIMIT};
use super::ring::RING_SLOTS;
use super::slots::{DROPPED, ERROR, OKAY};
use super::words::{minus, plus};

/// The most records of a list.
pub const MOST_RECORDS: usize = 256;

/// A record of the lent list, in the host's words.
#[derive(Clone, Copy, Debug, Default, PartialEq, Eq)]
pub struct Held {
    /// The counter of the packet's first slot.
    pub ticket: u32,
    /// Its slots, extras counted. A record is free exactly if this is 0.
    pub slots: u32,
    pub extras: u32,
    /// The status of its data slots' replies.
    pub status: i32,
    /// 0 is not finished, all else is.
    pub finished: u32,
}

/// A record as the C interface has it.
pub type HeldWords = [u32; 5];

impl Held {
    /// What a record becomes when its packet has left.
    pub const FREE: Held = Held { ticket: 0, slots: 0, extras: 0, status: 0, finished: 0 };

    pub fn in_use(&self) -> bool {
        self.slots != 0
    }

    pub fn is_finished(&self) -> bool {
        self.finished != 0
    }

    /// Whether a slot of the ring is one of the packet's.
    fn owns(&self, slot: u64) -> bool {
        minus(slot, self.ticket.into()) < self.slots.into()
    }

    /// Whether all of the packet's slots are among the `count` slots from `from` on.
    fn lies_in(&self, from: u64, count: u64) -> bool {
        minus(self.ticket.into(), from) + u64::from(self.slots) <= count
    }

    /// Whether some packet has so many slots and extras.
    fn has_counts_of_a_packet(&self) -> bool {
        let (slots, extras) = (self.slots as usize, self.extras as usize);
        extras <= EXTRA_LIMIT && extras < slots && slots - extras <= DATA_LIMIT
    }

    pub fn from_words([ticket, slots, extras, status, finished]: HeldWords) -> Held {
        Held { ticket, slots, extras, status: status as i32, finished }
    }

    pub fn words(&self) -> HeldWords {
        [self.ticket, self.slots, self.extras, self.status as u32, self.finished]
    }
}

/// Whether a status is okay, error or dropped.
pub fn is_status(status: i32) -> bool {
    [OKAY, ERROR, DROPPED].into_iter().any(|named| i32::from(named) == status)
}

/// A transmit ring's counters of slots consumed and of replies sent, its halted mark (0 is not halted, all else is),
/// and the list of held packets.
#[derive(Clone, Debug, PartialEq, Eq)]
pub struct TransmitQueue {
    pub consumed: u64,
    pub replied: u64,
    pub halted: u32,
    pub list: Vec<Held>,
}

/// What makes a list one that answer 17 refuses.
#[derive(Clone, Copy, Debug, PartialEq, Eq, Hash)]
pub enum Fault {
    /// It has more than 256 records.
    TooLong,
    /// More than 256 slots are between the two counters. Whether records cover them is then not asked.
    TooManySlots,
    /// A slot between the counters is no held packet's.
    Uncovered,
    /// A slot between the counters is that of two held packets.
    CoveredTwice,
    /// A held packet has a slot that is not between the counters.
    Elsewhere,
    /// No packet has a record's counts.
    BadCounts,
    /// A status is not among the three.
    BadStatus,
    /// The oldest held packet is finished already.
    OldestFinished,
}

impl TransmitQueue {
    /// The records in use.
    pub fn held(&self) -> impl Iterator<Item = &Held> {
        self.list.iter().filter(|record| record.in_use())
    }

    /// The slots of the held packets, added.
    pub fn held_slots(&self) -> u64 {
        self.held().map(|record| u64::from(record.slots)).sum()
    }

    /// The place of the first free record.
    pub fn first_free(&self) -> Option<usize> {
        self.list.iter().position(|record| !record.in_use())
    }

    /// The place of the held packet with a ticket, if there is one.
    pub fn place_of(&self, ticket: u64) -> Option<usize> {
        self.list.iter().position(|record| record.in_use() && u64::from(record.ticket) == ticket)
    }

    /// The faults of the list. It may be used exactly if there is none.
    pub fn faults(&self) -> Vec<Fault> {
        let oldest = self.place_of(self.replied).map(|place| self.list[place]);
        let mut found = self.cover_faults();
        let others = [
            (Fault::TooLong, self.list.len() > MOST_RECORDS),
            (Fault::BadCounts, self.held().any(|record| !record.has_counts_of_a_packet())),
            (Fault::BadStatus, self.held().any(|record| !is_status(record.status))),
            (Fault::OldestFinished, oldest.is_some_and(|record| record.is_finished())),
        ];
        found.extend(others.into_iter().filter(|(_, holds)| *holds).map(|(fault, _)| fault));
        found
    }

    /// How the held packets fail to cover exactly the at most 256 slots between the counters: each slot is that of one
    /// packet, and no packet has a slot elsewhere.
    fn cover_faults(&self) -> Vec<Fault> {
        let count = minus(self.consumed, self.replied);
        if count > RING_SLOTS {
            return vec![Fault::TooManySlots];
        }
        let slots = (0..count).map(|n| plus(self.replied, n));
        let owners: Vec<usize> =
            slots.map(|slot| self.held().filter(|record| record.owns(slot)).count()).collect();
        let faults = [
            (Fault::Uncovered, owners.contains(&0)),
            (Fault::CoveredTwice, owners.iter().any(|&owners| owners > 1)),
            (Fault::Elsewhere, self.held().any(|record| !record.lies_in(self.replied, count))),
        ];
        faults.into_iter().filter(|(_, holds)| *holds).map(|(fault, _)| fault).collect()
    }
}
