//! Finish cases: a list and the ticket of a packet that waits, then one change that aims at an answer, and sometimes a
//! second.

use crate::bytes::put_u32;
use crate::case::{Call, Case, State};
use crate::lending::{counter, event_near, WRONG_LENGTHS};
use crate::random::Random;
use crate::records::{Records, FAULTS, OTHER_STATUSES, STATUSES};
use reference::held::Held;
use reference::ring::{PAGE_BYTES, RING_SLOTS};

/// The answer that a change aims at, and for 15 the reason.
#[derive(Clone, Copy)]
enum Aim {
    Done,
    BadPage,
    BadRecords,
    NotHeld,
    Finished,
    OtherStatus,
}

const AIMS: [Aim; 14] = [
    Aim::Done,
    Aim::Done,
    Aim::Done,
    Aim::Done,
    Aim::Done,
    Aim::BadPage,
    Aim::BadRecords,
    Aim::BadRecords,
    Aim::BadRecords,
    Aim::NotHeld,
    Aim::NotHeld,
    Aim::Finished,
    Aim::OtherStatus,
    Aim::OtherStatus,
];

/// A case being made.
struct Draft {
    records: Records,
    ticket: u32,
    status: i32,
    page_bytes: usize,
}

/// A finish case.
pub fn case(random: &Random) -> Case {
    let mut draft = Draft::good(random);
    draft.change(random, random.pick(&AIMS));
    if random.one_in(4) {
        draft.change(random, random.pick(&AIMS));
    }
    draft.case(random)
}

impl Draft {
    /// A packet that waits, mostly the oldest.
    fn good(random: &Random) -> Draft {
        let most = random.pick(&[RING_SLOTS as usize, RING_SLOTS as usize, 40]);
        let consumed = counter(random).wrapping_add(random.pick(&[0, 0, random.below(64)]) as u32);
        let records = Records::new(random, consumed, most);
        let waiting = tickets(&records, |record| !record.is_finished());
        let oldest = records.replied;
        let any = waiting.get(random.below(waiting.len().max(1))).copied().unwrap_or(oldest);
        let ticket = random.pick(&[oldest, oldest, any]);
        Draft { records, ticket, status: random.pick(&STATUSES), page_bytes: PAGE_BYTES }
    }

    fn change(&mut self, random: &Random, aim: Aim) {
        match aim {
            Aim::Done => {}
            Aim::BadPage => self.page_bytes = random.pick(&WRONG_LENGTHS),
            Aim::BadRecords => self.records.break_by(random, random.pick(&FAULTS)),
            Aim::NotHeld => self.ticket = self.ticket_not_held(random),
            Aim::Finished => {
                let finished = tickets(&self.records, Held::is_finished);
                if !finished.is_empty() {
                    self.ticket = random.pick(&finished);
                }
            }
            Aim::OtherStatus => self.status = random.pick(&OTHER_STATUSES),
        }
    }

    /// A slot within a packet or outside all, a packet's place on the ring, or the ticket in a free record.
    fn ticket_not_held(&self, random: &Random) -> u32 {
        let Records { consumed, replied, .. } = self.records;
        let free = self.records.list.iter().find(|record| !record.in_use()).map_or(0, |record| record.ticket);
        let within = self.ticket.wrapping_add(random.pick(&[1, 1, random.between(1, 21)]) as u32);
        let outside = [consumed, consumed.wrapping_add(1), replied.wrapping_sub(1), random.u32()];
        let place = random.pick(&[self.ticket % 256, self.ticket.wrapping_add(256), self.ticket & 0xFFFF]);
        random.pick(&[within, within, random.pick(&outside), random.pick(&outside), place, free])
    }

    fn case(self, random: &Random) -> Case {
        let Records { consumed, replied, .. } = self.records;
        let mut page = random.bytes(self.page_bytes);
        put_u32(&mut page, 0, random.pick(&[consumed, consumed.wrapping_add(1), random.u32()]));
        put_u32(&mut page, 12, event_near(random, replied, self.records.front_slots() as usize));
        if random.one_in(2) {
            put_u32(&mut page, 8, replied);
        }
        let (grants, window, frame) = (Vec::new(), Vec::new(), Vec::new());
        let held = self.records.words();
        let before = State { consumed, replied, halted: 0, page, grants, window, held, frame };
        Case { call: Call::Finish { ticket: self.ticket, status: self.status }, before }
    }
}

/// The tickets of the held packets of which something holds.
fn tickets(records: &Records, holds: fn(&Held) -> bool) -> Vec<u32> {
    let held = records.list.iter().filter(|record| record.in_use() && holds(record));
    held.map(|record| record.ticket).collect()
}
