//! What a case is about and how it was answered, read off the case itself and not off its making.

use crate::case::{Answer, Call, Case, State};
use reference::calls::{Ring, Words};
use reference::grammar::{begins_packet, front, Front};
use reference::grants::{grant, Access, Grant, Range, WHOLE_PAGE, WORD_BYTES};
use reference::held::{self, Held, TransmitQueue};
use reference::report::{DONE, MISSHAPEN, SPOILED, WAITING};
use reference::ring::{posted, slots, PAGE_BYTES, RING_SLOTS};
use reference::slots::{data, extra, request, Data, Extra, Slot};
use reference::transmit::{later_sizes, pieces, read, Piece};
use reference::words::number;

pub struct Facts<'a> {
    pub call: Call,
    pub before: &'a State,
    pub after: &'a State,
    pub words: Words,
    /// A transmit ring's counters and list before the call, and what is wrong with the list.
    pub queue: TransmitQueue,
    pub list_faults: Vec<held::Fault>,
    /// What the call wants of a grant.
    access: Access,
    /// Slots posted, where the ring page has 4,096 bytes.
    pub posted: Option<u64>,
    /// The slots posted on a transmit ring.
    pub run: Vec<Slot>,
    /// The packet that was settled.
    pub packet: Option<Packet>,
    /// Why a run is misshapen.
    pub fault: Option<Fault>,
    /// References of the requests that a frame took.
    pub requests: Vec<u64>,
}

/// What the boundaries ask of a packet.
pub struct Packet {
    pub slots: usize,
    pub extras: usize,
    pub total: i64,
    pub later_sizes: i64,
    pub pieces: Vec<Piece>,
    pub last_extra: Option<Extra>,
}

/// The slot at which a run comes to begin no packet.
pub struct Fault {
    /// Its position, counted from 1.
    pub number: usize,
    pub slot: Slot,
    /// The extras before it.
    pub extras: usize,
    /// An extra was due there.
    pub extra_due: bool,
    pub first: Data,
}

impl Facts<'_> {
    pub fn new<'a>(case: &'a Case, answer: &'a Answer) -> Facts<'a> {
        let before = &case.before;
        let page = &before.page;
        let consumed = before.consumed.into();
        let posted = (page.len() == PAGE_BYTES).then(|| posted(page, consumed));
        let words = answer.words;
        let queue = queue(before);
        let mut facts = Facts {
            call: case.call,
            before,
            after: &answer.after,
            words,
            list_faults: if case.call == Call::Put { Vec::new() } else { queue.faults() },
            queue,
            access: if case.call == Call::Put { Access::Write } else { Access::Read },
            posted,
            run: Vec::new(),
            packet: None,
            fault: None,
            requests: Vec::new(),
        };
        match (case.call, posted) {
            (Call::Take, Some(posted @ 1..=RING_SLOTS)) => {
                facts.run = slots(page, consumed, posted);
                facts.packet = packet(&facts.run);
                facts.fault = (words[0] == MISSHAPEN).then(|| fault(&facts.run));
            }
            (Call::Put, Some(_)) => {
                let taken = slots(page, consumed, words[3].into());
                facts.requests = taken.iter().map(|slot| request(slot).gref).collect();
            }
            _ => {}
        }
        facts
    }

    pub fn answer(&self) -> u32 {
        self.words[0]
    }

    pub fn cause(&self) -> u32 {
        self.words[1]
    }

    /// Slots consumed by a take or put, or replied to by a finish.
    pub fn slots(&self) -> u32 {
        self.words[3]
    }

    /// The counter of replies before the call. A receive ring's is that of slots consumed.
    pub fn replied(&self) -> u32 {
        match self.call.ring() {
            Ring::Transmit => self.before.replied,
            Ring::Receive => self.before.consumed,
        }
    }

    /// Replies sent.
    pub fn replies(&self) -> u32 {
        match self.call.ring() {
            Ring::Transmit => self.after.replied.wrapping_sub(self.before.replied),
            Ring::Receive => self.slots(),
        }
    }

    /// Whether replies were sent, and rsp_event was so far past the counter before them.
    pub fn event_at(&self, distance: u32) -> bool {
        let event = self.replied().wrapping_add(distance);
        self.replies() > 0 && number(&self.before.page, 12, 4) == event.into()
    }

    /// The data slot that cause 4 or 5 concerns.
    pub fn concerned(&self) -> Option<&Piece> {
        let place = self.words[2] as usize;
        let has_place = self.cause() == 4 || self.cause() == 5;
        let piece = self.packet.as_ref()?.pieces.iter().find(|piece| piece.place == place);
        piece.filter(|_| has_place)
    }

    /// The reference that cause 4 concerns.
    pub fn unfit(&self) -> Option<u64> {
        let request = self.requests.get(self.words[2] as usize).copied();
        let gref = self.concerned().map(|piece| piece.gref).or(request);
        gref.filter(|_| self.answer() == SPOILED && self.cause() == 4)
    }

    /// How many bytes the table has of the word that cause 4 concerns, where it has not all.
    pub fn cut_word(&self) -> Option<u64> {
        let length = self.before.grants.len() as u64;
        let bytes = length.saturating_sub(WORD_BYTES * self.unfit()?);
        (bytes < WORD_BYTES).then_some(bytes)
    }

    /// The grant that cause 4 concerns, if it has a word.
    pub fn unfit_grant(&self) -> Option<Grant> {
        grant(&self.before.grants, self.unfit()?)
    }

    /// The first byte of the page that cause 4 concerns, if it is granted.
    pub fn unfit_page(&self) -> Option<u64> {
        self.unfit_grant().filter(|grant| grant.granted).map(|grant| grant.page_at)
    }

    /// The range that cause 4 concerns, where it is all that makes the grant unfit.
    pub fn unfit_range(&self) -> Option<Range> {
        let grant = self.unfit_grant()?;
        self.is_fit(Grant { range: WHOLE_PAGE, ..grant }).then_some(grant.range)
    }

    /// Whether the grant that cause 4 concerns is unfit only because it is not writable.
    pub fn is_read_only(&self) -> bool {
        self.unfit_grant().is_some_and(|grant| self.is_fit(Grant { writable: true, ..grant }))
    }

    fn is_fit(&self, grant: Grant) -> bool {
        grant.is_fit(&self.before.window, self.access)
    }

    /// The references that a done call went by.
    pub fn used(&self) -> Vec<u64> {
        let pieces = self.packet.iter().flat_map(|packet| &packet.pieces).map(|piece| piece.gref);
        let used = pieces.chain(self.requests.iter().copied());
        used.filter(|_| self.answer() == DONE).collect()
    }

    /// Whether a packet is done, and something holds of one of its parts and the range that it is in.
    pub fn done_with(&self, holds: fn(&Piece, &Range) -> bool) -> bool {
        let mut pieces = self.packet.iter().flat_map(|packet| &packet.pieces);
        self.answer() == DONE && pieces.any(|piece| self.holds(piece, holds))
    }

    /// Whether cause 5 is given, and something holds of the part and the range that it is not in.
    pub fn outside(&self, holds: fn(&Piece, &Range) -> bool) -> bool {
        self.cause() == 5 && self.concerned().is_some_and(|piece| self.holds(piece, holds))
    }

    fn holds(&self, piece: &Piece, holds: fn(&Piece, &Range) -> bool) -> bool {
        grant(&self.before.grants, piece.gref).is_some_and(|grant| holds(piece, &grant.range))
    }

    /// Whether the packet was settled and answered so, and something holds of it.
    pub fn packet_is(&self, answer: u32, holds: fn(&Packet) -> bool) -> bool {
        self.answer() == answer && self.packet.as_ref().is_some_and(holds)
    }

    /// Whether the call waits for the extra of a number, all slots before it being posted.
    pub fn waits_for_extra(&self, number: usize) -> bool {
        let promised = |slots: &[Slot]| slots.iter().all(|slot| extra(slot).another_follows);
        self.answer() == WAITING
            && self.run.len() == number
            && data(&self.run[0]).extra_follows
            && promised(&self.run[1..])
    }

    /// Whether the run is misshapen for a fault of which something holds.
    pub fn fault_is(&self, holds: fn(&Fault) -> bool) -> bool {
        self.fault.as_ref().is_some_and(holds)
    }
}

fn queue(state: &State) -> TransmitQueue {
    let list = state.held.iter().copied().map(Held::from_words).collect();
    let (consumed, replied) = (state.consumed.into(), state.replied.into());
    TransmitQueue { consumed, replied, halted: state.halted, list }
}

fn packet(run: &[Slot]) -> Option<Packet> {
    let Front::Packet(slots) = front(run) else { return None };
    let packet = read(&run[..slots]);
    Some(Packet {
        slots,
        extras: packet.extras.len(),
        total: packet.first.size as i64,
        later_sizes: later_sizes(&packet) as i64,
        pieces: pieces(&packet),
        last_extra: packet.extras.last().copied(),
    })
}

fn fault(run: &[Slot]) -> Fault {
    let number = (1..=run.len()).find(|&count| !begins_packet(&run[..count])).expect("a misshapen run");
    let first = data(&run[0]);
    let before = &run[1..number - 1];
    let promised = before.iter().take_while(|slot| extra(slot).another_follows).count();
    let extras = if first.extra_follows { before.len().min(promised + 1) } else { 0 };
    let extra_due = first.extra_follows && promised == before.len();
    Fault { number, slot: run[number - 1], extras, extra_due, first }
}
