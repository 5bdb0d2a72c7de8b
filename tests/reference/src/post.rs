//! The guest's side: lays a frame into granted pages and posts it on the transmit ring as one packet.

use super::grammar::EXTRA_KIND;
use super::grants::{fit_grant, Access, PAGE_BYTES};
use super::report::*;
use super::ring;
use super::slots::{data_bytes, extra_bytes, gso_passes, Data, Extra, Slot, TRANSMIT_WIDTH};
use super::words::{minus, plus};

/// Bytes of a frame that one page takes.
const PIECE_BYTES: usize = PAGE_BYTES as usize;

/// What the driver asks for, beside what it lends.
pub struct Order<'a> {
    /// Its count of replies read.
    pub replies_read: u64,
    pub references: &'a [u32],
    pub gso: Option<Gso>,
}

#[derive(Clone, Copy, Debug)]
pub struct Gso {
    pub size: u64,
    pub kind: u64,
}

/// What a post leaves. Changes apply in order, and bytes that none of them covers stay.
#[derive(Clone, Debug, PartialEq, Eq)]
pub struct Posted {
    pub report: Report,
    pub changes: Vec<Change>,
}

/// The outcome of a post.
pub fn post(order: &Order, lent: &Lent) -> Posted {
    if lent.page.len() != ring::PAGE_BYTES {
        return refused(BAD_PAGE);
    }
    if !(SMALLEST_FRAME..=LARGEST_FRAME).contains(&(lent.frame.len() as u64)) {
        return refused(BAD_LENGTH);
    }
    if order.gso.is_some_and(|gso| !gso_passes(gso.size, gso.kind)) {
        return refused(BAD_GSO);
    }
    let Some(pages) = pages(order.references, lent) else {
        return refused(BAD_PAGES);
    };
    let first = ring::req_prod(lent.page);
    let slots = packet(first, order, lent.frame);
    if slots.len() as u64 > free_slots(lent.page, order.replies_read) {
        return refused(NO_SLOTS);
    }
    let mut posted = publish(lent.page, &slots);
    posted.changes.extend(writes(lent.frame, &pages));
    posted
}

/// A refusal. None of them changes anything.
fn refused(answer: u32) -> Posted {
    Posted { report: Report { answer, ..Report::default() }, changes: Vec::new() }
}

/// Where in the window the frame's pages begin, if the list is long enough, the references that the frame uses are
/// fit for receive, and no two of them name one page.
fn pages(references: &[u32], lent: &Lent) -> Option<Vec<u64>> {
    let used = references.get(..lent.frame.len().div_ceil(PIECE_BYTES))?;
    let grants = used.iter().map(|&gref| fit_grant(lent.grants, lent.window, gref.into(), Access::Write));
    let pages: Vec<u64> = grants.map(|grant| grant.map(|grant| grant.page_at)).collect::<Option<_>>()?;
    let named_before = |(number, page): (usize, &u64)| pages[..number].contains(page);
    (!pages.iter().enumerate().any(named_before)).then_some(pages)
}

/// The frame's pieces, each for its page from the page's first byte on. The rest of the last page stays.
fn writes(frame: &[u8], pages: &[u64]) -> Vec<Change> {
    let write = |(piece, &at): (&[u8], &u64)| {
        let bytes = piece.to_vec();
        Change { buffer: Buffer::Window, at: at as usize, bytes }
    };
    frame.chunks(PIECE_BYTES).zip(pages).map(write).collect()
}

/// The slots that the driver may write.
fn free_slots(page: &[u8], replies_read: u64) -> u64 {
    let in_flight = minus(ring::req_prod(page), replies_read);
    if in_flight > ring::RING_SLOTS {
        return 0;
    }
    ring::RING_SLOTS - in_flight
}

/// The packet that carries the frame, its first slot being slot `first` of the ring: a data slot for each page, and
/// behind the first of them an extra, if gso is asked for.
fn packet(first: u64, order: &Order, frame: &[u8]) -> Vec<Slot> {
    let pages = frame.len().div_ceil(PIECE_BYTES);
    let extras = usize::from(order.gso.is_some());
    let data = |(number, (piece, &gref)): (usize, (&[u8], &u32))| {
        let is_first = number == 0;
        let place = if is_first { 0 } else { number + extras };
        data_bytes(&Data {
            gref: gref.into(),
            offset: 0,
            id: (plus(first, place as u64) % 65_536) as u16,
            size: if is_first { frame.len() } else { piece.len() } as u64,
            checksum_blank: false,
            data_validated: false,
            more_data: number + 1 < pages,
            extra_follows: is_first && extras > 0,
        })
    };
    let pieces = frame.chunks(PIECE_BYTES).zip(order.references);
    let mut slots: Vec<Slot> = pieces.enumerate().map(data).collect();
    if let Some(gso) = order.gso {
        slots.insert(1, gso_extra(gso));
    }
    slots
}

/// The extra that asks for gso. It is the packet's only one.
fn gso_extra(gso: Gso) -> Slot {
    let (gso_size, gso_type) = (gso.size, gso.kind);
    extra_bytes(&Extra { kind: EXTRA_KIND, another_follows: false, gso_size, gso_type })
}

/// The outcome that posts these slots from req_prod on.
fn publish(page: &[u8], slots: &[Slot]) -> Posted {
    let old = ring::req_prod(page);
    let new = plus(old, slots.len() as u64);
    let slot =
        |(n, bytes): (u64, &Slot)| ring::on_page(ring::slot_at(TRANSMIT_WIDTH, plus(old, n)), bytes.to_vec());
    let notify = ring::notify(page, ring::REQ_EVENT, old, new);
    let report = Report { answer: DONE, slots: slots.len() as u32, notify, ..Report::default() };
    let changes = (0..).zip(slots).map(slot).chain([ring::header_word(ring::REQ_PROD, new)]);
    Posted { report, changes: changes.collect() }
}
