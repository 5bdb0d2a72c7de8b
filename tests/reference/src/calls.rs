//! The calls with the parameters of the C interface: numbers and buffers that are changed in place.

use super::held::{Held, HeldWords, TransmitQueue};
use super::post::{self, Gso, Order};
use super::receive::{self, ReceiveQueue};
use super::report::{Buffer, Change, Lent};
use super::{finish, transmit};

/// A queue's two rings, each with its own calls.
#[derive(Clone, Copy, Debug, PartialEq, Eq)]
pub enum Ring {
    Transmit,
    Receive,
}

/// The report as the C interface gives it.
pub type Words = [u32; 11];

/// tollmeander_transmit_take, done by the second program. The numbers are the counters of slots consumed and of replies
/// sent, and the mark.
pub fn transmit_take(
    numbers: [&mut u32; 3],
    page: &mut [u8],
    grants: &[u8],
    window: &[u8],
    held: &mut [HeldWords],
    frame: &mut [u8],
) -> Words {
    let [consumed, replied, halted] = numbers;
    let lent = Lent { page, grants, window, frame };
    let outcome = transmit::take(transmit_queue(*consumed, *replied, *halted, held), &lent);
    apply(&outcome.changes, Buffer::Page, page);
    apply(&outcome.changes, Buffer::Frame, frame);
    store_list(&outcome.queue, held);
    *consumed = outcome.queue.consumed as u32;
    *replied = outcome.queue.replied as u32;
    *halted = outcome.queue.halted;
    outcome.report.words()
}

/// tollmeander_transmit_finish, done by the second program.
pub fn transmit_finish(
    consumed: u32,
    replied: &mut u32,
    page: &mut [u8],
    held: &mut [HeldWords],
    ticket: u32,
    status: i32,
) -> Words {
    let queue = transmit_queue(consumed, *replied, 0, held);
    let outcome = finish::finish(queue, page, ticket.into(), status);
    apply(&outcome.changes, Buffer::Page, page);
    store_list(&outcome.queue, held);
    *replied = outcome.queue.replied as u32;
    outcome.report.words()
}

/// tollmeander_receive_put, done by the second program.
pub fn receive_put(
    consumed: &mut u32,
    halted: &mut u32,
    page: &mut [u8],
    grants: &[u8],
    window: &mut [u8],
    frame: &[u8],
) -> Words {
    let lent = Lent { page, grants, window, frame };
    let queue = ReceiveQueue { consumed: (*consumed).into(), halted: *halted };
    let outcome = receive::put(queue, &lent);
    apply(&outcome.changes, Buffer::Page, page);
    apply(&outcome.changes, Buffer::Window, window);
    *consumed = outcome.queue.consumed as u32;
    *halted = outcome.queue.halted;
    outcome.report.words()
}

/// tollmeander_transmit_post, done by the second program. The numbers are the count of replies read, whether gso is
/// asked for, and its size and type.
pub fn transmit_post(
    numbers: (u32, u32, u16, u8),
    page: &mut [u8],
    grants: &[u8],
    window: &mut [u8],
    references: &[u32],
    frame: &[u8],
) -> Words {
    let (replies_read, asked, size, kind) = numbers;
    let gso = (asked != 0).then(|| Gso { size: size.into(), kind: kind.into() });
    let order = Order { replies_read: replies_read.into(), references, gso };
    let posted = post::post(&order, &Lent { page, grants, window, frame });
    apply(&posted.changes, Buffer::Page, page);
    apply(&posted.changes, Buffer::Window, window);
    posted.report.words()
}

/// Makes the changes to one of the buffers.
pub fn apply(changes: &[Change], buffer: Buffer, bytes: &mut [u8]) {
    for change in changes.iter().filter(|change| change.buffer == buffer) {
        bytes[change.at..change.at + change.bytes.len()].copy_from_slice(&change.bytes);
    }
}

fn transmit_queue(consumed: u32, replied: u32, halted: u32, held: &[HeldWords]) -> TransmitQueue {
    let list = held.iter().copied().map(Held::from_words).collect();
    TransmitQueue { consumed: consumed.into(), replied: replied.into(), halted, list }
}

/// Puts the list that a call leaves in the place of the one lent.
fn store_list(queue: &TransmitQueue, held: &mut [HeldWords]) {
    for (words, record) in held.iter_mut().zip(&queue.list) {
        *words = record.words();
    }
}
