//! The transmit call: takes the packet at the counter, and holds it until the host has finished it.

use super::finish::release;
use super::grammar::{self, Front};
use super::grants::{fit_grant, Access};
use super::held::{Held, TransmitQueue};
use super::report::*;
use super::ring::{self, Sent};
use super::slots::{data, extra, gso_passes, Data, Extra, Slot, ERROR, OKAY};
use super::words::plus;

/// A packet's slots, read as the grammar lays them out.
pub struct Packet {
    pub first: Data,
    pub extras: Vec<Extra>,
    pub later: Vec<Data>,
}

impl Packet {
    /// How many slots it has, extras counted.
    pub fn slots(&self) -> usize {
        1 + self.extras.len() + self.later.len()
    }
}

/// What a data slot gives to the frame.
pub struct Piece {
    /// The slot's position in the packet.
    pub place: usize,
    pub gref: u64,
    /// Where the bytes begin, counted from the page's first byte.
    pub offset: i64,
    /// Bytes given. Negative for the first slot where the later sizes add to more than the total.
    pub part: i64,
}

/// A reason to reply with an error, and the position in the packet it concerns.
type Cause = (u32, usize);

type Taken = Outcome<TransmitQueue>;

/// The outcome of a transmit call.
pub fn take(queue: TransmitQueue, lent: &Lent) -> Taken {
    if lent.page.len() != ring::PAGE_BYTES {
        return Outcome::refused(queue, BAD_PAGE);
    }
    if !queue.faults().is_empty() {
        return Outcome::refused(queue, BAD_RECORDS);
    }
    if queue.halted != 0 {
        return Outcome::refused(queue, HALTED_ALREADY);
    }
    let unreplied = ring::posted(lent.page, queue.replied);
    if unreplied > ring::RING_SLOTS || unreplied < queue.held_slots() {
        return halting(queue, OVERFLOW);
    }
    let posted = unreplied - queue.held_slots();
    if posted == 0 {
        return Outcome::asking(queue, EMPTY, ring::event_for_next(lent.page));
    }
    let run: Vec<Slot> = ring::slots(lent.page, queue.consumed, posted);
    match grammar::front(&run) {
        Front::Misshapen => halting(queue, MISSHAPEN),
        Front::Beginning => Outcome::asking(queue, WAITING, ring::event_for_next(lent.page)),
        Front::Packet(count) => settle(queue, lent, &run[..count]),
    }
}

/// A refusal that halts the queue and leaves the buffers as found.
pub fn halting(queue: TransmitQueue, answer: u32) -> Taken {
    Outcome::refused(TransmitQueue { halted: 1, ..queue }, answer)
}

/// The outcome for the packet that stands at the counter.
pub fn settle(queue: TransmitQueue, lent: &Lent, slots: &[Slot]) -> Taken {
    let packet = read(slots);
    let cause = causes(&packet, lent).first().copied();
    if cause.is_none() && (lent.frame.len() as u64) < packet.first.size {
        return Outcome::refused(queue, NO_ROOM);
    }
    let Some(free) = queue.first_free() else {
        return Outcome::refused(queue, NO_RECORD);
    };
    match cause {
        Some(cause) => spoil(queue, lent.page, &packet, free, cause),
        None => hand_over(queue, lent, &packet, free),
    }
}

/// The outcome for a packet without causes: it waits for the host's word, and no reply leaves.
fn hand_over(mut queue: TransmitQueue, lent: &Lent, packet: &Packet, free: usize) -> Taken {
    let report = done_report(packet, queue.consumed);
    hold(&mut queue, free, packet, OKAY, 0);
    let bytes = joined(packet, lent);
    Outcome { report, queue, changes: vec![Change { buffer: Buffer::Frame, at: 0, bytes }] }
}

/// The outcome for a packet with a cause: it is finished at once with an error, and its replies leave in their turn.
fn spoil(
    mut queue: TransmitQueue,
    page: &[u8],
    packet: &Packet,
    free: usize,
    (cause, place): Cause,
) -> Taken {
    hold(&mut queue, free, packet, ERROR, 1);
    let Sent { notify, changes, .. } = release(&mut queue, page);
    let (slots, place) = (packet.slots() as u32, place as u32);
    let report = Report { answer: SPOILED, cause, place, slots, notify, ..Report::default() };
    Outcome { report, queue, changes }
}

/// Puts the packet at the counter into a free record, and moves the counter past it.
fn hold(queue: &mut TransmitQueue, free: usize, packet: &Packet, status: i16, finished: u32) {
    let (slots, extras) = (packet.slots() as u32, packet.extras.len() as u32);
    queue.list[free] = Held { ticket: queue.consumed as u32, slots, extras, status: status.into(), finished };
    queue.consumed = plus(queue.consumed, slots.into());
}

/// Reads the slots of a packet.
pub fn read(slots: &[Slot]) -> Packet {
    let extras = grammar::extras_of(slots).expect("a packet");
    Packet {
        first: data(&slots[0]),
        extras: slots[1..=extras].iter().map(extra).collect(),
        later: slots[1 + extras..].iter().map(data).collect(),
    }
}

/// The later data slots' sizes, added.
pub fn later_sizes(packet: &Packet) -> u64 {
    packet.later.iter().map(|slot| slot.size).sum()
}

/// The data slots in order. The first slot's size is the whole frame's; its part is what the later ones leave.
pub fn pieces(packet: &Packet) -> Vec<Piece> {
    let piece = |place, slot: &Data, part| Piece { place, gref: slot.gref, offset: slot.offset as i64, part };
    let own_part = packet.first.size as i64 - later_sizes(packet) as i64;
    let first = piece(0, &packet.first, own_part);
    let places = 1 + packet.extras.len()..;
    let later = places.zip(&packet.later).map(|(place, slot)| piece(place, slot, slot.size as i64));
    [first].into_iter().chain(later).collect()
}

/// The causes for an error that hold of the packet, in the order in which they count. Cause 5 is asked of the range
/// of a fit grant only.
fn causes(packet: &Packet, lent: &Lent) -> Vec<Cause> {
    let total = packet.first.size;
    let mut found = Vec::new();
    if total < SMALLEST_FRAME {
        found.push((1, 0));
    }
    if later_sizes(packet) > total {
        found.push((3, 0));
    }
    for piece in pieces(packet) {
        match fit_grant(lent.grants, lent.window, piece.gref, Access::Read) {
            None => found.push((4, piece.place)),
            Some(grant) if grant.range.holds(piece.offset, piece.part) => {}
            Some(_) => found.push((5, piece.place)),
        }
    }
    if let Some(last) = packet.extras.last() {
        if !gso_passes(last.gso_size, last.gso_type) {
            found.push((6, packet.extras.len()));
        }
    }
    found
}

fn done_report(packet: &Packet, ticket: u64) -> Report {
    let gso = packet.extras.last();
    Report {
        answer: DONE,
        slots: packet.slots() as u32,
        total: packet.first.size as u32,
        checksum_blank: packet.first.checksum_blank,
        data_validated: packet.first.data_validated,
        gso_size: gso.map_or(0, |extra| extra.gso_size as u32),
        gso_type: gso.map_or(0, |extra| extra.gso_type as u32),
        ticket: ticket as u32,
        ..Report::default()
    }
}

/// The parts of a packet without causes, joined.
fn joined(packet: &Packet, lent: &Lent) -> Vec<u8> {
    let part = |piece: Piece| {
        let grant = fit_grant(lent.grants, lent.window, piece.gref, Access::Read).expect("a fit grant");
        let at = grant.page_at as usize + piece.offset as usize;
        &lent.window[at..at + piece.part as usize]
    };
    pieces(packet).into_iter().map(part).collect::<Vec<_>>().concat()
}
