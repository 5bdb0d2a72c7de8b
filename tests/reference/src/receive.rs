//! The receive call: delivers one frame into the pages the guest has posted.

use super::grants::{fit_grant, Access, Grant, PAGE_BYTES};
use super::report::*;
use super::ring::{self, send, Sent};
use super::slots::{receive_reply, request, Request, ERROR, MORE_DATA, RECEIVE_WIDTH};

/// Bytes of a frame that one request takes.
const PIECE_BYTES: usize = PAGE_BYTES as usize;

/// A receive ring's counter of slots consumed, and its halted mark: 0 is not halted, all else is.
#[derive(Clone, Copy, Debug, PartialEq, Eq)]
pub struct ReceiveQueue {
    pub consumed: u64,
    pub halted: u32,
}

type Put = Outcome<ReceiveQueue>;

/// The outcome of a receive call.
pub fn put(queue: ReceiveQueue, lent: &Lent) -> Put {
    if lent.page.len() != ring::PAGE_BYTES {
        return Outcome::refused(queue, BAD_PAGE);
    }
    if !(SMALLEST_FRAME..=LARGEST_FRAME).contains(&(lent.frame.len() as u64)) {
        return Outcome::refused(queue, BAD_LENGTH);
    }
    if queue.halted != 0 {
        return Outcome::refused(queue, HALTED_ALREADY);
    }
    let posted = ring::posted(lent.page, queue.consumed);
    if posted > ring::RING_SLOTS {
        return Outcome::refused(ReceiveQueue { halted: 1, ..queue }, OVERFLOW);
    }
    let needed = lent.frame.len().div_ceil(PIECE_BYTES) as u64;
    if posted < needed {
        return Outcome::asking(queue, NO_BUFFERS, ring::event_for_next(lent.page));
    }
    let slots = ring::slots(lent.page, queue.consumed, needed);
    let requests: Vec<Request> = slots.iter().map(request).collect();
    deliver(queue, lent, &requests)
}

/// The outcome for a frame that takes exactly these requests.
fn deliver(queue: ReceiveQueue, lent: &Lent, requests: &[Request]) -> Put {
    let grant = |r: &Request| fit_grant(lent.grants, lent.window, r.gref, Access::Write);
    let grants: Vec<Option<Grant>> = requests.iter().map(grant).collect();
    if let Some(place) = grants.iter().position(Option::is_none) {
        let report = Report { answer: SPOILED, cause: 4, place: place as u32, ..Report::default() };
        let replies = requests.iter().map(|r| receive_reply(r.id, 0, ERROR)).collect();
        return consume(queue, lent.page, replies, report);
    }
    let report = Report { answer: DONE, total: lent.frame.len() as u32, ..Report::default() };
    let replies = okay_replies(lent.frame, requests);
    let mut outcome = consume(queue, lent.page, replies, report);
    let write = |(piece, grant): (&[u8], Grant)| Change {
        buffer: Buffer::Window,
        at: grant.page_at as usize,
        bytes: piece.to_vec(),
    };
    let pieces = lent.frame.chunks(PIECE_BYTES);
    outcome.changes.extend(pieces.zip(grants.into_iter().flatten()).map(write));
    outcome
}

/// The outcome that consumes a slot for each reply and sends the reply, with slots and notify put into the report.
fn consume(queue: ReceiveQueue, page: &[u8], replies: Vec<Vec<u8>>, report: Report) -> Put {
    let Sent { slots, counter, notify, changes } = send(page, RECEIVE_WIDTH, queue.consumed, replies);
    let report = Report { slots: slots as u32, notify, ..report };
    Outcome { report, queue: ReceiveQueue { consumed: counter, ..queue }, changes }
}

/// Replies that carry each piece's length and say whether another piece follows.
fn okay_replies(frame: &[u8], requests: &[Request]) -> Vec<Vec<u8>> {
    let reply = |(number, (piece, r)): (usize, (&[u8], &Request))| {
        let flags = if number < requests.len() { MORE_DATA } else { 0 };
        receive_reply(r.id, flags, piece.len() as i16)
    };
    (1..).zip(frame.chunks(PIECE_BYTES).zip(requests)).map(reply).collect()
}
