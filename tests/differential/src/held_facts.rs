//! What a case's list of held packets is about, and what became of it.

use crate::case::{Call, Case, State, REFERENCE};
use crate::facts::Facts;
use reference::held::{is_status, Fault, Held};
use reference::report::{BAD_PAGE, BAD_RECORDS, BAD_TICKET, DONE, NO_RECORD, SPOILED};
use reference::ring::{notify, posted, RSP_EVENT};
use reference::words::{number, plus};

impl Facts<'_> {
    /// Whether the list is refused, and for this alone.
    pub fn only_fault(&self, fault: Fault) -> bool {
        self.answer() == BAD_RECORDS && self.list_faults == [fault]
    }

    /// Whether the list is refused for statuses alone, and this is one.
    pub fn refused_status(&self, status: i32) -> bool {
        self.only_fault(Fault::BadStatus) && self.queue.held().any(|record| record.status == status)
    }

    /// Whether the list is refused, and would not be if the packets were at their places on the ring.
    pub fn a_ring_away(&self) -> bool {
        if self.answer() != BAD_RECORDS {
            return false;
        }
        let mut by_place = self.queue.clone();
        for record in &mut by_place.list {
            let place = record.ticket.wrapping_sub(self.before.replied) % 256;
            record.ticket = self.before.replied.wrapping_add(place);
        }
        by_place.faults().is_empty()
    }

    /// Whether the list is looked at and nothing is wrong with it.
    pub fn list_is_good(&self) -> bool {
        self.answer() != BAD_PAGE && self.list_faults.is_empty()
    }

    /// Whether nothing is wrong with the list, and something holds of a held packet's record.
    pub fn good_with(&self, holds: fn(&Held) -> bool) -> bool {
        self.list_is_good() && self.queue.held().any(holds)
    }

    /// Whether nothing is wrong with the list, and a free record is not zero.
    pub fn has_junk(&self) -> bool {
        let mut free = self.queue.list.iter().filter(|record| !record.in_use());
        self.list_is_good() && free.any(is_junk)
    }

    /// The slots between the counters.
    pub fn between(&self) -> u32 {
        self.before.consumed.wrapping_sub(self.before.replied)
    }

    /// Whether no record is free.
    pub fn is_full(&self) -> bool {
        self.queue.first_free().is_none()
    }

    /// The slots published and not replied to, where the ring page has 4,096 bytes.
    pub fn unreplied(&self) -> Option<u64> {
        self.posted.map(|_| posted(&self.before.page, self.queue.replied))
    }

    /// The record that a done or spoiled take was given.
    fn record(&self) -> Option<&Held> {
        let took = self.answer() == DONE || self.answer() == SPOILED;
        self.queue.first_free().filter(|_| took).map(|place| &self.queue.list[place])
    }

    /// Whether the record that a take answered so was given was not zero.
    pub fn takes_junk(&self, answer: u32) -> bool {
        self.answer() == answer && self.record().is_some_and(is_junk)
    }

    /// Whether the record that a take answered so was given was the only free one.
    pub fn takes_last(&self, answer: u32) -> bool {
        let free = self.queue.list.iter().filter(|record| !record.in_use()).count();
        self.answer() == answer && free == 1
    }

    /// Whether no record is free to a take that would be answered so if one were.
    pub fn no_record_for(&self, answer: u32) -> bool {
        if self.answer() != NO_RECORD {
            return false;
        }
        let held = [self.before.held.as_slice(), &[Held::FREE.words()]].concat();
        let with_record = Case { call: Call::Take, before: State { held, ..self.before.clone() } };
        REFERENCE.answer(&with_record).returned == answer
    }

    /// Whether notify would be yes if it went by slots consumed, and is no.
    pub fn passes_event_by_consumed(&self) -> bool {
        let old = self.queue.consumed;
        let new = plus(old, self.slots().into());
        self.slots() > 0 && self.words[4] == 0 && notify(&self.before.page, RSP_EVENT, old, new)
    }

    /// The packets that left.
    pub fn left(&self) -> Vec<Held> {
        let left = |record: &&Held| record.ticket.wrapping_sub(self.before.replied) < self.replies();
        self.queue.held().filter(left).copied().collect()
    }

    /// The statuses of the packets that left.
    pub fn left_statuses(&self) -> Vec<i32> {
        let Call::Finish { ticket, status } = self.call else { return Vec::new() };
        let of = |record: &Held| if record.ticket == ticket { status } else { record.status };
        self.left().iter().map(of).collect()
    }

    /// Whether a finish is done with this status.
    pub fn done_with_status(&self, wanted: i32) -> bool {
        matches!(self.call, Call::Finish { status, .. } if status == wanted && self.answer() == DONE)
    }

    /// Whether a finish of a packet that waits is refused for this status.
    pub fn refused_for_status(&self, wanted: i32) -> bool {
        let Call::Finish { ticket, status } = self.call else { return false };
        let waits = self.held_with(ticket).is_some_and(|record| !record.is_finished());
        self.answer() == BAD_TICKET && waits && status == wanted
    }

    /// The ticket that is refused though the status is one of the three.
    pub fn refused_ticket(&self) -> Option<u32> {
        let Call::Finish { ticket, status } = self.call else { return None };
        (self.answer() == BAD_TICKET && is_status(status)).then_some(ticket)
    }

    /// The held packet with a ticket.
    pub fn held_with(&self, ticket: u32) -> Option<Held> {
        self.queue.place_of(ticket.into()).map(|place| self.queue.list[place])
    }

    /// Whether a list is refused to a finish that would be refused for its ticket too.
    pub fn refused_with_ticket(&self) -> bool {
        let Call::Finish { ticket, status } = self.call else { return false };
        let waits = self.held_with(ticket).is_some_and(|record| !record.is_finished());
        self.answer() == BAD_RECORDS && !(waits && is_status(status))
    }

    /// Whether rsp_prod is not the counter of replies, and no reply was sent.
    pub fn leaves_strange_rsp_prod(&self) -> bool {
        let quiet = self.answer() == DONE && self.replies() == 0;
        quiet && number(&self.before.page, 8, 4) != self.before.replied.into()
    }
}

fn is_junk(record: &Held) -> bool {
    *record != Held::FREE
}
