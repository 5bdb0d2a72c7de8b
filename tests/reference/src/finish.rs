//! The finish call: the host's word on a ticket. And the replies that leave, in the order of taking.

use super::held::{is_status, Held, TransmitQueue};
use super::report::*;
use super::ring::{self, Sent};
use super::slots::{data, transmit_reply, Slot, NULL, TRANSMIT_WIDTH};
use super::words::plus;

/// The outcome of a finish. It looks at no mark and leaves the counter of slots consumed.
pub fn finish(queue: TransmitQueue, page: &[u8], ticket: u64, status: i32) -> Outcome<TransmitQueue> {
    if page.len() != ring::PAGE_BYTES {
        return Outcome::refused(queue, BAD_PAGE);
    }
    if !queue.faults().is_empty() {
        return Outcome::refused(queue, BAD_RECORDS);
    }
    let waiting = queue.place_of(ticket).filter(|&place| !queue.list[place].is_finished());
    let Some(place) = waiting.filter(|_| is_status(status)) else {
        return Outcome::refused(queue, BAD_TICKET);
    };
    let mut queue = queue;
    queue.list[place] = Held { status, finished: 1, ..queue.list[place] };
    let Sent { slots, notify, changes, .. } = release(&mut queue, page);
    let report = Report { answer: DONE, slots: slots as u32, notify, ..Report::default() };
    Outcome { report, queue, changes }
}

/// Sends the replies to the finished packets at the front, up to the oldest that is not finished, and frees their
/// records.
pub fn release(queue: &mut TransmitQueue, page: &[u8]) -> Sent {
    let mut replies = Vec::new();
    let mut next = queue.replied;
    while let Some(place) = queue.place_of(next).filter(|&place| queue.list[place].is_finished()) {
        let record = queue.list[place];
        replies.extend(replies_to(&record, page));
        next = plus(next, record.slots.into());
        queue.list[place] = Held::FREE;
    }
    let sent = ring::send(page, TRANSMIT_WIDTH, queue.replied, replies);
    queue.replied = sent.counter;
    sent
}

/// A reply for each slot of a held packet in order: each data slot's id, as the ring has it by now, with the record's
/// status; each extra's 0 with null.
fn replies_to(record: &Held, page: &[u8]) -> Vec<Vec<u8>> {
    let slots: Vec<Slot> = ring::slots(page, record.ticket.into(), record.slots.into());
    let reply = |(place, slot): (u32, &Slot)| {
        if (1..=record.extras).contains(&place) {
            return transmit_reply(0, NULL);
        }
        transmit_reply(data(slot).id, record.status as i16)
    };
    (0..).zip(&slots).map(reply).collect()
}
