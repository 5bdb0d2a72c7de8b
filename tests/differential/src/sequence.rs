//! Sequences of publications, takes and finishes on a fresh queue, checked against the division of the run into packets
//! and a rest, and against an account of the packets that are held. (Document 01 calls a publication an instalment.)

use crate::bytes::{put, put_u32};
use crate::case::{difference, Answer, Call, Case, State, REFERENCE};
use crate::guarded::Placement;
use crate::guest::Guest;
use crate::ledger::{page_with_replies, Entry, Ledger};
use crate::lending::{counter, event_near};
use crate::library::Library;
use crate::packet::Packet;
use crate::random::Random;
use crate::records::{OTHER_STATUSES, STATUSES};
use crate::sequence_counts::Counts;
use crate::transmit::{long_shape, packet_shape};
use reference::calls::apply;
use reference::grammar::{begins_packet, division, extras_of};
use reference::held::{Held, TransmitQueue};
use reference::report::*;
use reference::ring::{event_for_next, slot_at, slots, PAGE_BYTES};
use reference::slots::{Slot, TRANSMIT_WIDTH};
use reference::transmit::{halting, settle};

/// Slots of a ring, and of a run as document 01's demand 3 has it.
const RING_SLOTS: usize = 256;
/// Slots of a run that comes back to places already replied to.
const LONG_RUN: usize = 600;
const FRAME_BYTES: usize = 65_535;
const ERROR: i32 = -1;

/// Which slots on the page the guest leaves alone.
#[derive(Clone, Copy, PartialEq, Eq)]
enum Kept {
    /// All that it has published. They are at most as many as a ring holds.
    All,
    /// Those without a reply.
    Unreplied,
    /// Those that are not taken. The ids of held packets may change before their replies leave.
    Untaken,
}

struct Sequence<'a> {
    random: &'a Random,
    /// The counter the queue started with.
    fresh: u32,
    /// All slots that the guest publishes sooner or later.
    run: Vec<Slot>,
    published: usize,
    kept: Kept,
    /// The slot counts of the packets answered 0 or 7.
    taken: Vec<usize>,
    ledger: Ledger,
    state: State,
    counts: &'a mut Counts,
}

/// Checks sequence `number` of a run with `seed`, and counts what it comes to.
pub fn check(library: &mut Library, seed: u64, number: u64, counts: &mut Counts) -> Result<(), String> {
    let random = &Random::new(!seed, number);
    let mut sequence = Sequence::fresh(random, counts);
    loop {
        if random.one_in(2) {
            sequence.publish();
        }
        for _ in 0..random.pick(&[0, 0, 1, 1, 2, 3]) {
            if !sequence.ledger.is_empty() || random.one_in(8) {
                let (ticket, status) = sequence.any_ticket();
                sequence.finish(library, ticket, status)?;
            }
        }
        let answer = sequence.take(library)?;
        let waits = [EMPTY, WAITING, MISSHAPEN, HALTED_ALREADY].contains(&answer);
        if waits && sequence.is_over() && random.one_in(3) {
            sequence.check_end(answer)?;
            return sequence.finish_all(library);
        }
    }
}

impl Sequence<'_> {
    fn fresh<'a>(random: &'a Random, counts: &'a mut Counts) -> Sequence<'a> {
        let pages = random.between(1, 4);
        let guest = Guest::new(random, pages);
        let kept = random.pick(&[Kept::All, Kept::All, Kept::Unreplied, Kept::Untaken]);
        let run = planned_run(random, &guest, if kept == Kept::All { RING_SLOTS } else { LONG_RUN });
        let fresh = counter(random);
        let mut page = random.bytes(PAGE_BYTES);
        put_u32(&mut page, 0, fresh);
        put_u32(&mut page, 8, fresh);
        let Guest { grants, window, .. } = guest;
        let held = fresh_list(random);
        let (halted, frame) = (0, Vec::new());
        let state = State { consumed: fresh, replied: fresh, halted, page, grants, window, held, frame };
        let (taken, ledger) = (Vec::new(), Ledger::default());
        Sequence { random, fresh, run, published: 0, kept, taken, ledger, state, counts }
    }

    /// Slots consumed.
    fn consumed(&self) -> usize {
        self.taken.iter().sum()
    }

    /// Slots replied to.
    fn replied(&self) -> usize {
        self.consumed() - self.ledger.slots() as usize
    }

    /// The first slot of the run whose place the guest may not write.
    fn first_kept(&self) -> usize {
        match self.kept {
            Kept::All => 0,
            Kept::Unreplied => self.replied(),
            Kept::Untaken => self.consumed(),
        }
    }

    /// How many slots the guest can publish now: no more than a ring holds wait for a reply.
    fn room(&self) -> usize {
        let first = if self.kept == Kept::All { 0 } else { self.replied() };
        (first + RING_SLOTS - self.published).min(self.run.len() - self.published)
    }

    /// Whether all is published that can be.
    fn is_over(&self) -> bool {
        self.published == self.run.len() || self.room() == 0 && self.ledger.is_empty()
    }

    /// Raises req_prod by some slots or none, and writes anything elsewhere but to slots that it keeps.
    fn publish(&mut self) {
        let room = self.room();
        let count = self.random.pick(&[0, 1, 1, 2, 3, self.random.between(0, room), room]).min(room);
        let mut page = self.random.bytes(PAGE_BYTES);
        for n in self.first_kept()..self.published {
            let at = self.place(n);
            put(&mut page, at, &self.state.page[at..at + TRANSMIT_WIDTH]);
        }
        for n in self.published..self.published + count {
            put(&mut page, self.place(n), &self.run[n]);
        }
        self.published += count;
        put_u32(&mut page, 0, self.fresh.wrapping_add(self.published as u32));
        put_u32(&mut page, 12, event_near(self.random, self.state.replied, 1));
        self.state.page = page;
    }

    /// Where slot n of the run stands on the page.
    fn place(&self, n: usize) -> usize {
        slot_at(TRANSMIT_WIDTH, self.fresh.wrapping_add(n as u32).into())
    }

    /// A ticket and a status: mostly of a packet that waits, mostly the oldest.
    fn any_ticket(&self) -> (u32, i32) {
        let tickets: Vec<u32> = self.ledger.entries().map(|entry| entry.ticket).collect();
        let near = self.state.replied.wrapping_add(self.random.below(40) as u32).wrapping_sub(4);
        let held = tickets.get(self.random.below(tickets.len().max(1))).copied().unwrap_or(near);
        let ticket = self.random.pick(&[self.state.replied, self.state.replied, held, held, held, near]);
        let status = self.random.pick(&STATUSES);
        (ticket, if self.random.one_in(8) { self.random.pick(&OTHER_STATUSES) } else { status })
    }

    /// Takes a packet, and checks the call against the division of what is published.
    fn take(&mut self, library: &mut Library) -> Result<u32, String> {
        self.state.frame = vec![self.random.u32() as u8; FRAME_BYTES];
        let case = Case { call: Call::Take, before: self.state.clone() };
        let expected = self.expected();
        let found = self.call(library, &case, &expected)?;
        let answer = found.returned;
        self.counts.takes[answer as usize] += 1;
        if answer == DONE || answer == SPOILED {
            self.hold(answer, &found);
        }
        self.check_left(&case, &found)?;
        self.state = found.after;
        Ok(answer)
    }

    /// Puts the packet that was taken into the ledger.
    fn hold(&mut self, answer: u32, found: &Answer) {
        let slots = found.words[3] as usize;
        let first = self.consumed();
        let extras = extras_of(&self.run[first..first + slots]).expect("a packet") as u32;
        let status = (answer == SPOILED).then_some(ERROR);
        let ticket = self.fresh.wrapping_add(first as u32);
        self.ledger.add(Entry { ticket, slots: slots as u32, extras, status });
        self.taken.push(slots);
    }

    /// Finishes a ticket. It is done exactly if the packet waits and the status is one of the three.
    fn finish(&mut self, library: &mut Library, ticket: u32, status: i32) -> Result<(), String> {
        let call = Call::Finish { ticket, status };
        let (grants, window, frame) = (Vec::new(), Vec::new(), Vec::new());
        let State { consumed, replied, halted, .. } = self.state;
        let (page, held) = (self.state.page.clone(), self.state.held.clone());
        let before = State { consumed, replied, halted, page, grants, window, held, frame };
        let case = Case { call, before };
        let found = self.call(library, &case, &REFERENCE.answer(&case))?;
        self.counts.finishes[found.returned as usize] += 1;
        let wanted = if self.ledger.finish(ticket, status) { DONE } else { BAD_TICKET };
        if found.returned != wanted {
            return Err(format!("answer {}, by the ledger {wanted}\n{case}", found.returned));
        }
        let left = self.check_left(&case, &found)?;
        if found.returned == DONE {
            self.counts.left_together += u64::from(left > 1);
            self.counts.left_none += u64::from(left == 0);
            self.counts.left_halted += u64::from(left > 0 && halted != 0);
        }
        let State { page, held, replied, .. } = found.after;
        (self.state.page, self.state.held, self.state.replied) = (page, held, replied);
        Ok(())
    }

    /// The library's answer to a call, which must be the one expected.
    fn call(&self, library: &mut Library, case: &Case, expected: &Answer) -> Result<Answer, String> {
        let placement = self.random.pick(&[Placement::End, Placement::Begin]);
        let found = library.answer(case, placement).map_err(|error| format!("{error}\n{case}"))?;
        if let Some(difference) = difference(expected, &found) {
            let context = format!("{} slots published, packets taken: {:?}", self.published, self.taken);
            return Err(format!("{difference}\n  {context}\n{case}"));
        }
        Ok(found)
    }

    /// The finished packets at the front of the ledger have left with this call, with the ids that the page had, and no
    /// others; slots taken are slots replied to and slots held. Gives the number of packets that left.
    fn check_left(&mut self, case: &Case, found: &Answer) -> Result<usize, String> {
        let left = self.ledger.leave();
        let mut page = page_with_replies(&case.before, &left);
        if found.returned == EMPTY || found.returned == WAITING {
            apply(&[event_for_next(&page)], Buffer::Page, &mut page);
        }
        let after = &found.after;
        let replied = after.replied.wrapping_sub(self.fresh) as usize;
        let held: u32 = after.held.iter().map(|record| record[1]).sum();
        if page != after.page {
            return Err(format!("not the replies of {left:?}\n{case}"));
        }
        if replied != self.replied() || self.consumed() != replied + held as usize {
            return Err(format!(
                "{} slots taken, {replied} replied to, {held} held\n{case}",
                self.consumed()
            ));
        }
        self.ledger.check_list(&after.held).map_err(|error| format!("{error}\n{case}"))?;
        let rewritten = left.iter().filter(|entry| self.is_rewritten(&case.before.page, entry)).count();
        if rewritten > 0 && self.kept != Kept::Untaken {
            return Err(format!("slots of held packets were rewritten, and not by the guest\n{case}"));
        }
        self.counts.rewritten += rewritten as u64;
        Ok(left.len())
    }

    /// Whether a packet's slots on the page are others than those that were taken.
    fn is_rewritten(&self, page: &[u8], entry: &Entry) -> bool {
        let first = entry.ticket.wrapping_sub(self.fresh) as usize;
        let on_page: Vec<Slot> = slots(page, entry.ticket.into(), entry.slots.into());
        on_page != self.run[first..first + entry.slots as usize]
    }

    /// What demand 3 wants of the next take: the next leading packet, or what the rest calls for.
    fn expected(&self) -> Answer {
        let State { page, grants, window, frame, halted, replied, held, .. } = &self.state;
        let lent = Lent { page, grants, window, frame };
        let consumed = self.fresh.wrapping_add(self.consumed() as u32).into();
        let list = held.iter().copied().map(Held::from_words).collect();
        let queue = TransmitQueue { consumed, replied: (*replied).into(), halted: *halted, list };
        let (packets, rest) = division(&self.run[self.consumed()..self.published]);
        let outcome = match packets.first() {
            Some(packet) => settle(queue, &lent, packet),
            None if rest.is_empty() => Outcome::asking(queue, EMPTY, event_for_next(page)),
            None if begins_packet(rest) => Outcome::asking(queue, WAITING, event_for_next(page)),
            None if *halted == 0 => halting(queue, MISSHAPEN),
            None => Outcome::refused(queue, HALTED_ALREADY),
        };
        let mut after = self.state.clone();
        apply(&outcome.changes, Buffer::Page, &mut after.page);
        apply(&outcome.changes, Buffer::Frame, &mut after.frame);
        after.consumed = outcome.queue.consumed as u32;
        after.replied = outcome.queue.replied as u32;
        after.halted = outcome.queue.halted;
        after.held = outcome.queue.list.iter().map(Held::words).collect();
        Answer { returned: outcome.report.answer, words: outcome.report.words(), after }
    }

    /// The packets taken are all leading packets of what was published, and the last answer fits the rest.
    fn check_end(&self, last: u32) -> Result<(), String> {
        let (packets, rest) = division(&self.run[..self.published]);
        let lengths: Vec<usize> = packets.iter().map(|packet| packet.len()).collect();
        if lengths != self.taken {
            return Err(format!("packets taken {:?}, leading packets {lengths:?}", self.taken));
        }
        let fits = match last {
            EMPTY => rest.is_empty(),
            WAITING => !rest.is_empty() && begins_packet(rest),
            _ => !begins_packet(rest),
        };
        let on_page: Vec<Slot> = slots(&self.state.page, self.state.consumed.into(), rest.len() as u64);
        if fits && on_page == rest {
            return Ok(());
        }
        Err(format!("last answer {last}, rest of the run {rest:02x?}, on the page {on_page:02x?}"))
    }

    /// Finishes what is held, in any order. Then all is replied to and every record is free, also on a halted queue.
    fn finish_all(&mut self, library: &mut Library) -> Result<(), String> {
        let waiting: Vec<u32> =
            self.ledger.entries().filter(|entry| entry.status.is_none()).map(|entry| entry.ticket).collect();
        for place in self.random.shuffled(waiting.len()) {
            self.finish(library, waiting[place], self.random.pick(&STATUSES))?;
        }
        let free = self.state.held.iter().all(|record| record[1] == 0);
        if free && self.ledger.is_empty() && self.state.replied == self.state.consumed {
            return Ok(());
        }
        Err(format!("left when all is finished: {:?}", self.state.held))
    }
}

/// A list whose records are all free: zero, or with junk in them.
fn fresh_list(random: &Random) -> Vec<[u32; 5]> {
    let junk = [random.u32(), 0, random.u32(), random.u32(), 1];
    let record = |_| if random.one_in(4) { junk } else { [0; 5] };
    (0..random.pick(&[1, 2, 3, 8, 20, 256])).map(record).collect()
}

/// Packets, good and damaged, up to a number of slots, and perhaps something behind them that is none.
fn planned_run(random: &Random, guest: &Guest, most: usize) -> Vec<Slot> {
    let most = random.pick(&[1, 6, 40, most, most]);
    let mut run = Vec::new();
    loop {
        let packet = any_packet(random, guest);
        if run.len() + packet.slots.len() > most {
            break;
        }
        run.extend(packet.slots);
    }
    run.extend(tail(random, guest));
    run.truncate(most);
    run
}

fn any_packet(random: &Random, guest: &Guest) -> Packet {
    let shape = packet_shape(random, 0, 0);
    let mut packet = Packet::new(random, guest, shape);
    match random.below(12) {
        0 => packet.make_short(random),
        1 => packet.make_sum_too_large(random),
        2 => packet.make_grant_unfit(random, guest),
        3 => packet.make_offset_bad(random, guest),
        4 => packet.make_gso_bad(random),
        _ => {}
    }
    packet
}

/// Nothing, a part of a packet, slots that begin none, or noise.
fn tail(random: &Random, guest: &Guest) -> Vec<Slot> {
    let mut packet = any_packet(random, guest);
    match random.below(6) {
        0 => packet.slots.clear(),
        1 | 2 => {
            packet.make_cuttable();
            packet.slots.truncate((packet.slots.len() - 1).max(1));
        }
        3 => packet.make_misshapen(random),
        4 => packet = Packet::new(random, guest, long_shape(random)),
        _ => packet = Packet::noise(random, guest, 12),
    }
    packet.slots
}
